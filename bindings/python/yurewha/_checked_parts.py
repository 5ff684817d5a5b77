"""Parts of a file that are asked for, checked against the file hash, and kept: what a `VerifiedFile` and its async twin share.

What has to be asked for is yielded, so that one body serves both: a plain file makes the call, an async one awaits it.
"""

from __future__ import annotations

from contextlib import suppress
from typing import Callable, Generator, List, NamedTuple, Optional, Sequence, SupportsIndex, Tuple, TypeVar, Union

from ._errors import InvalidArguments, ProofMismatch, ProofTooLong, YurewhaError, but_got
from ._hash import Hash, HashLike, checked_32, checked_u64, own_bytes, raw_of
from ._lent import bytes_of
from ._range_proof import RangeProof
from ._reader import Part, Reader
from ._types import BytesLike

#: How many bytes are fetched and checked at once, if more are asked for.
PIECE = 1 << 24
_MAX_U64 = 2**64 - 1
#: How many bytes are kept of reads that failed, beside those of the last one.
_RESCUED = 1 << 26
_NOTHING = memoryview(b"")

_Result = TypeVar("_Result")


#: A call of the caller's, and the bytes it is for: those from one place up to another.
Request = Tuple[Callable[[int, int], object], int, int]
#: Bytes that are kept, and up to where others are missing after them.
Found = Tuple[bytes, int]
#: Work that yields its requests, is sent what they return, and returns a result.
Steps = Generator[Request, object, _Result]


def done(steps: Steps[_Result]) -> _Result:
    """Makes the calls that some work asks for, one after another, and returns its result.

    >>> def steps():
    ...     return (yield range, 3, 5)
    >>> done(steps())
    range(3, 5)
    """
    try:
        call, start, stop = next(steps)
        while True:
            try:
                answer = call(start, stop)
            except BaseException as error:
                call, start, stop = steps.throw(error)
            else:
                call, start, stop = steps.send(answer)
    except StopIteration as end:
        result: _Result = end.value
        return result


def checked_places(start: SupportsIndex, stop: SupportsIndex) -> Tuple[int, int]:
    """Returns the ends of a part: two whole numbers from 0 to 2^64 - 1. The second may not be the less.

    >>> checked_places(3, 5)
    (3, 5)
    """
    if type(start) is int and type(stop) is int and 0 <= start <= stop <= _MAX_U64:
        return start, stop
    begin, end = checked_u64(start, "start"), checked_u64(stop, "stop")
    if end < begin:
        raise InvalidArguments(but_got(f"stop must be at least start, which is {begin}", end))
    return begin, end


def hash_of(hash_: Union[HashLike, str], what: str) -> Hash:
    """Returns a hash that is given as a `Hash`, as its 32 bytes or as its hex text.

    >>> hash_of(64 * "0", "hash") == hash_of(bytes(32), "hash") == hash_of(Hash(), "hash")
    True
    """
    return Hash.from_hex(hash_) if isinstance(hash_, str) else Hash._of(raw_of(hash_, what))


def joined(parts: Sequence[Union[bytes, memoryview]]) -> bytes:
    """Returns the bytes of some parts, one after another. `bytes`, or a view of a whole such object, aren't copied if they are alone.

    >>> joined([memoryview(b"ab"), memoryview(b"c")])
    b'abc'
    """
    if len(parts) != 1:
        return b"".join(parts)
    return parts[0] if isinstance(parts[0], bytes) else bytes_of(parts[0])


def are_all(found: Found, start: int, count: int) -> bool:
    """Returns whether the bytes that were found from a place on are `count`, or all up to the end of the file.

    >>> are_all((b"abc", 13), 10, 3), are_all((b"abc", 15), 10, 5), are_all((b"abc", 13), 10, 5)
    (True, False, True)
    """
    data, end = found
    return len(data) == count or end == start + len(data) < start + min(count, PIECE)


class Answer(NamedTuple):
    """What came for the bytes from `start` up to `stop`, which may be wrong."""

    proof: RangeProof
    start: int
    stop: int
    data: bytes


class CheckedParts:
    """Parts of one file. `_begin` must be the first call on a new object.

    Any number of threads may use it at once. A reader of the library keeps what was checked, and says what may be returned. Its lock
    is held while it is looked at or changed, and never while something is asked for or checked.
    """

    _hash: Hash
    _raw: bytes
    _salt: bytes
    _fetch: Callable[[int, int], object]
    _prove: Callable[[int, int], object]
    _cache_size: int
    _chunk_limit: int
    _proof_limit: int
    # How many bytes each request is for, or 0 if each is for what is missing.
    _piece: int
    # The path of the file in a file system, for errors.
    _path: Optional[str]
    _reader: Reader
    # What the reader says of the size, so that nobody who looks at it waits for the reader's lock.
    _size: Optional[int]
    # What reads had checked before they failed.
    _rescued: Optional[Reader]

    def _begin(
        self,
        file_hash: Union[HashLike, str],
        fetch: Callable[[int, int], object],
        prove: Callable[[int, int], object],
        salt: Optional[BytesLike],
        cache_size: SupportsIndex,
        chunk_limit: SupportsIndex,
        proof_limit: SupportsIndex,
        piece: SupportsIndex,
    ) -> None:
        for call, what in ((fetch, "fetch"), (prove, "prove")):
            if not callable(call):
                raise TypeError(but_got(f"{what} must be a callable", type(call).__name__))
        self._hash, self._path = hash_of(file_hash, "file hash"), None
        self._raw = raw_of(self._hash, "file hash")
        self._salt = bytes(32) if salt is None else checked_32(salt, "salt")
        self._fetch, self._prove = fetch, prove
        self._cache_size, self._chunk_limit = checked_u64(cache_size, "cache_size"), checked_u64(chunk_limit, "chunk_limit")
        self._proof_limit, self._piece = checked_u64(proof_limit, "proof_limit"), checked_u64(piece, "piece")
        self._reader, self._rescued = Reader(self._raw, self._salt, self._cache_size), None
        # The default hash is the hash of the empty file.
        self._size = None if any(self._raw) else 0

    def __sizeof__(self) -> int:
        """Returns how many bytes the object takes with what it keeps."""
        return object.__sizeof__(self) + sum(reader.__sizeof__() for reader in (self._reader, self._rescued) if reader)

    def _found_size(self) -> Steps[int]:
        """Returns the size of the file. If nothing was checked yet, the first chunk is asked for."""
        if self._size is None:
            yield from self._parts(0, 1)
        assert self._size is not None, "a part was checked"
        return self._size

    def _kept(self, place: int, count: int) -> Found:
        """Returns what is kept of the bytes from a place on, `count` of them or the first piece, and what is missing then."""
        if count > PIECE:
            count = PIECE
        if place >= (_MAX_U64 if self._size is None else self._size):
            return b"", place
        rescued = self._rescued
        if self._cache_size == 0 and rescued is None:
            return b"", self._reader.needs(place, place + count)
        data, end = self._reader.read(place, count)
        if rescued is not None and not data:
            data, _ = rescued.read(place, count)
        return data, end

    def _is_in_use(self) -> bool:
        """Returns whether this thread, as a signal handler, is in the middle of a call on what is kept, for which other threads wait."""
        return any(reader._lock._is_owned() for reader in (self._reader, self._rescued) if reader)  # type: ignore[attr-defined]

    def _parts(self, start: int, count: int, found: Optional[Found] = None) -> Steps[List[memoryview]]:
        """Returns the bytes from a place on, `count` of them, in parts. There are fewer only at the end of the file.

        What was found of them before is their beginning. If it fails, what it had asked for and was right is rescued.
        """
        parts: List[memoryview] = []
        answers: List[Answer] = []
        position, stop, had = start, start + count, 0
        try:
            while position < stop:
                data, end = found or self._kept(position, stop - position)
                found, had = None, had + len(data)
                part = memoryview(data) if data or end <= position else (yield from self._missing(position, end, answers))
                if not part:
                    break
                parts.append(part)
                position += len(part)
        except BaseException:
            self._rescue(answers, had)
            raise
        rescued = self._rescued
        # A read of a part of what was rescued leaves all of it to the one that failed. One that went beyond it is that one.
        if rescued is not None and position > start + had and rescued.read(start, 1)[0]:
            self._rescued = None
        return parts

    def _missing(self, start: int, stop: int, answers: List[Answer]) -> Steps[memoryview]:
        """Returns bytes that aren't kept, from `start` on, and at most up to `stop`. Asks for these, or for the piece with the first one."""
        if not self._piece:
            return (yield from self._asked(start, stop, answers))
        begin, end = self._reader.piece(start, self._piece)
        whole = yield from self._asked(begin, end, answers)
        return whole[start - begin:stop - begin]

    def _asked(self, start: int, stop: int, answers: List[Answer]) -> Steps[memoryview]:
        """Asks for the bytes from `start` up to `stop`, and returns those that the file has, once they are checked.

        What came for them is added to the answers.
        """
        try:
            try:
                proof = yield self._prove, start, stop
            except Exception:
                # Perhaps there are no such bytes. The first chunk shows where the file ends.
                if start == 0 or start < (yield from self._found_size()):
                    raise
                return _NOTHING
            part = self._opened(proof, start, stop)
            # A file of empty chunks has no bytes to ask for.
            data = own_bytes((yield self._fetch, part.begin, part.end)) if part.begin < part.end else b""  # type: ignore[arg-type]
            if len(data) > part.end - part.begin:
                return part.check(data, False)  # raises, and nothing of it is kept
            answers.append(Answer(proof, start, stop, data))  # type: ignore[arg-type]
            try:
                return part.check(data, self._cache_size > 0)
            finally:
                self._reader.take(part)
                self._size = self._reader.size() if self._size is None else self._size
        except ProofMismatch as error:
            error.path = error.path or self._path
            raise

    def _opened(self, proof: object, start: int, stop: int) -> Part:
        """Opens what `prove` returned for the bytes from `start` up to `stop`."""
        if not isinstance(proof, RangeProof):
            raise TypeError(but_got("prove must return a RangeProof", type(proof).__name__))
        if proof._length() > self._proof_limit:
            raise ProofTooLong(but_got(f"a proof must have at most {self._proof_limit} bytes", f"{proof._length()}: see proof_limit"))
        return Part(proof, self._raw, self._salt, start, stop, self._chunk_limit)

    def _rescue(self, answers: List[Answer], had: int) -> None:
        """Keeps what came for a read that failed, until a read goes beyond it, whatever the size of the cache. It is checked again.

        So many bytes of the read were kept before. What is rescued of others is limited.
        """
        if not answers:
            return
        with self._reader._locked():
            rescued = self._rescued = self._rescued or Reader(self._raw, self._salt, 0)
        before = rescued.counted()
        rescued.keep_at_most(_MAX_U64)
        for answer in answers:
            with suppress(YurewhaError):
                part = self._opened(*answer[:3])
                try:
                    part.check(answer.data, True)
                finally:
                    rescued.take(part)
        now = rescued.counted()
        rescued.keep_at_most(max(now - before, 0) + had + _RESCUED)
        if not now:
            self._rescued = None
