"""Sessions: chunks with their positions, put in any order."""

from __future__ import annotations

import ctypes
import struct
import threading
from typing import Callable, ClassVar, Iterable, Iterator, List, Optional, Tuple, Type, Union, final

from ._accounts import memory_of_session, token_of
from ._chunks import Chunks, ChunksLike
from ._declarations import STATUSES
from ._errors import InvalidArguments, SessionGap, SessionOverlap, SessionSizes, YurewhaError, but_got, counted, error_of
from ._guard import Handle, both_locked
from ._hash import Hash, HashLike, checked_32, checked_bool, checked_text, checked_u64, own_bytes, raw_of
from ._hash_index import AT_ONCE, HashIndex
from ._hashes import Hashes, HashesLike
from ._interrupts import MANY_BYTES, MANY_NODES, interruptible
from ._library import LONG_BYTES, LONG_CHUNKS, LONG_NODES, CChunk, CHash, CSession, calls_for, long, short
from ._saving import Path, read_whole, write_whole
from ._session_json import body_of, parts_of_body
from ._subtree import Subtree
from ._types import BytesLike

__all__ = ["Run", "Session"]

_MAX_U64 = 2**64 - 1
_CHUNK_SIZE = ctypes.sizeof(CChunk)
_HASH_SIZE = ctypes.sizeof(CHash)
#: The first position of a run, the position after its last one, and the subtree of its chunks.
Span = Tuple[int, int, Subtree]
_Restore = Callable[..., "Session"]
# Room for JSON: more than a handler adds to a session meanwhile; for a short run, and for a hash with its comma.
_MORE_ROOM, _ROOM_OF_RUN, _ROOM_OF_HASH = 1 << 16, 1 << 10, 87
# Of so many runs the size is looked at, because looking at one copies its subtree.
_LOOKED_AT = 16
_EACH = struct.Struct(f"{_HASH_SIZE}s")
# About as many nodes as a run of many chunks has.
_NODES_OF_RUN = 1 << 9


def _gap(gaps: List[range], total: int, beyond: Optional[Span]) -> SessionGap:
    """Returns the error that says why the taken positions aren't those below the total."""
    if gaps:
        gap, position = gaps[0], gaps[0].start
        missing = f"position {position} has" if gap.stop - position == 1 else f"the positions from {position} to {gap.stop - 1} have"
        text = f"{missing} no chunk" + (f", and neither have others in {len(gaps) - 1} more gaps" if len(gaps) > 1 else "")
    else:
        position = total if beyond is None else max(total, beyond[0])
        text = f"position {position} is taken, and the total is {total}"
    error = SessionGap(text)
    error.position = position
    return error


def _fault_of(status: int, what: str = "invalid arguments") -> YurewhaError:
    """Returns the error of a call that puts chunks. `what` is the text of `InvalidArguments`."""
    if status == STATUSES["YUREWHA_SIZES"]:
        return SessionSizes("the sizes of all chunks add up to more than 2^64 - 1")
    return error_of(status, what)


@final
class Run(Tuple[int, Subtree]):
    """A run of adjacent positions of a session: a pair of its first position and the subtree of its chunks.

    It also has the position after its last one, `end`. The subtree is open at both ends. A run that is made by hand raises
    `InvalidArguments` if it has no position or one past 2^64 - 1.

    >>> session = Session(); _ = session.put(3, [(Hash(), 1), (Hash(), 1)])
    >>> (run,) = session.runs()
    >>> run.first, run.end, run.subtree.total_size
    (3, 5, 2)
    >>> first, subtree = run
    """

    _end: int

    def __new__(cls, first: int, end: int, subtree: Subtree) -> Run:
        place, after = checked_u64(first, "position"), checked_u64(end, "position")
        if after <= place:
            raise InvalidArguments(but_got(f"the end of a run must be more than its first position {place}", after))
        if not isinstance(subtree, Subtree):
            raise TypeError(but_got("the subtree of a run must be a Subtree", type(subtree).__name__))
        self = super().__new__(cls, (place, subtree))  # type: ignore[arg-type]
        self._end = after
        return self

    def __init_subclass__(cls) -> None:
        raise TypeError("Run can't be subclassed")

    @property
    def first(self) -> int:
        """The first position.

        >>> Run(3, 5, Subtree.from_chunks(False, [(Hash(), 1), (Hash(), 1)], False)).first
        3
        """
        return self[0]

    @property
    def end(self) -> int:
        """The position after the last one.

        >>> Run(3, 5, Subtree.from_chunks(False, [(Hash(), 1), (Hash(), 1)], False)).end
        5
        """
        return self._end

    @property
    def subtree(self) -> Subtree:
        """The subtree of its chunks.

        >>> Run(3, 5, Subtree.from_chunks(False, [(Hash(), 1), (Hash(), 1)], False)).subtree.total_size
        2
        """
        return self[1]

    def __eq__(self, other: object) -> bool:
        """Returns whether two runs have the same positions and equal subtrees. A run also equals its pair, which has no end."""
        if isinstance(other, Run) and self._end != other._end:
            return False
        return super().__eq__(other)

    def __ne__(self, other: object) -> bool:
        equal = self.__eq__(other)
        return equal if equal is NotImplemented else not equal

    # A subtree is mutable, so neither it nor a run has a hash.
    __hash__: ClassVar[None] = None  # type: ignore[assignment]

    def __reduce__(self) -> Tuple[Type[Run], Span]:
        return Run, (self.first, self.end, self.subtree)

    def __repr__(self) -> str:
        return f"Run(first={self.first}, end={self.end}, subtree={self.subtree})"


@final
class Session(Handle):
    """The chunks of a file by their positions. They may be put in any order. Each position is taken once.

    >>> one, two = (Hash.random_from_seed(1), 100), (Hash.random_from_seed(2), 200)
    >>> session = Session()
    >>> session.put(2, [one, two]), session.put(0, [one, two])    # how many hashes were new
    (2, 0)
    >>> session.finish(4).hex()[:16]
    '284ea045e5a579e9'

    A JSON text and a pickle have the runs and the known hashes. Unpickling a stranger's file runs its code, whatever this
    package checks.

    >>> Session.from_json(session.to_json()).put(4, [one, two])
    0

    To count new hashes, a session keeps each distinct one. With `keep_hashes=False` it keeps none, so that it has some kilobytes for
    each run, and so does what is saved of it. It then takes each hash of a put for new.
    """

    __slots__ = ("_changes",)

    _handle: CSession
    # How many calls that change the session began. A call that reads several times notices by it that a signal handler made
    # one. Then it reads a copy, which no handler changes.
    _changes: int
    # An instance is mutable, so it has no hash.
    __hash__: ClassVar[None] = None  # type: ignore[assignment]

    def __new__(cls, *, keep_hashes: bool = True) -> Session:
        keeps = checked_bool(keep_hashes, "keep_hashes")
        self = object.__new__(cls)
        self._guard()
        self._handle = CSession()
        self._changes = 0
        status = (short.yurewha_session_new if keeps else short.yurewha_session_new_without_hashes)(self._handle)
        if status:
            raise error_of(status)
        return self

    def __init_subclass__(cls) -> None:
        raise TypeError("Session can't be subclassed")

    _free = staticmethod(short.yurewha_session_free)

    def put(self, first: int, chunks: ChunksLike) -> int:
        """Puts chunks at the positions from `first` on. Returns how many of their hashes no earlier put had, each counted once.

        Raises `SessionOverlap` if a position is taken. Otherwise raises `SessionPositions` if `first` plus the number of
        chunks is more than 2^64 - 1. Otherwise raises `SessionSizes` if the sizes of all chunks add up to more than
        2^64 - 1. After an error nothing has changed. A session that keeps no hashes returns how many distinct ones these chunks have.

        >>> Session().put(0, [(Hash(), 1), (Hash(), 1)])
        1
        """
        place = checked_u64(first, "position")
        packed = Chunks(chunks).packed
        count = len(packed) // _CHUNK_SIZE
        return interruptible(lambda: self._put(place, packed, count), count > AT_ONCE, self)

    def _put(self, place: int, packed: bytes, count: int) -> int:
        out = ctypes.c_uint64()
        with self._locked():
            new = self._put_in_pieces(place, packed, count) if count > AT_ONCE else None
            if new is not None:
                return new
            self._changes += 1
            status = calls_for(count, LONG_CHUNKS).yurewha_session_put(self._handle, place, packed, count, out)
            if status == STATUSES["YUREWHA_SESSION_OVERLAP"]:
                raise SessionOverlap(f"position {self._first_taken(place)} is taken")
        if status:
            raise _fault_of(status)
        return out.value

    def _first_taken(self, place: int) -> int:
        """Returns the first position from one on that is taken. There is such a position."""
        run = None if self.taken(place) else self._run_from(place)
        return run[0] if run else place

    def _put_in_pieces(self, place: int, packed: bytes, count: int) -> Optional[int]:
        """Puts many chunks into an empty session in pieces, which takes less memory. Returns None, and changes nothing, if it can't.

        They are put into a new session, which takes the place of this one once it has all of them. A signal handler that put something
        between would put it into this one. So the main thread, which runs the handlers, puts them at once.
        """
        is_main, is_empty = threading.get_ident() == threading.main_thread().ident, not self.num_runs and not self._num_known()
        if is_main or not is_empty:
            return None
        changes, other = self._changes, Session(keep_hashes=self.keeps_hashes)
        new = other._put_each(place, packed)
        if new is None or changes != self._changes:
            return None
        self._changes += 1
        self._handle, other._handle = other._handle, self._handle
        return new

    def _put_each(self, place: int, packed: bytes) -> Optional[int]:
        """Puts the pieces of some chunks, one after another. Returns how many hashes are new, or None if a piece is refused.

        A session that keeps no hashes doesn't count those of several pieces. So they are counted here.
        """
        seen, new, out = None if self.keeps_hashes else HashIndex(), 0, ctypes.c_uint64()
        for start in range(0, len(packed), AT_ONCE * _CHUNK_SIZE):
            piece = packed[start:start + AT_ONCE * _CHUNK_SIZE]
            count = len(piece) // _CHUNK_SIZE
            if place > _MAX_U64 or calls_for(count, LONG_CHUNKS).yurewha_session_put(self._handle, place, piece, count, out):
                return None
            new += out.value if seen is None else seen.add_all(Chunks._of(piece).hashes)
            place += count
        return new

    def put_range(self, first: int, count: int, subtree: Subtree) -> None:
        """Puts a range of `count` chunks at the positions from `first` on, as `put` puts chunks. `subtree` is that of its chunks.

        So a file can be hashed by many machines. Each sends the subtree of its part, and they may come in any order. The session doesn't
        know the hashes of the chunks before these are kept or put. The call can't check that there are `count` chunks. If there aren't,
        the root and the file hash are those of the chunks of the subtrees, and all else goes by the positions.

        Raises `InvalidArguments` if `count` is 0 or the subtree is marked at an end. Otherwise raises `SessionOverlap` if a position is
        taken. Otherwise raises `SessionPositions` if `first` plus `count` is more than 2^64 - 1. Otherwise raises `SessionSizes` if the
        sizes of all chunks add up to more than 2^64 - 1. After an error nothing has changed.

        >>> session, part = Session(), Subtree.from_chunks(False, [(Hash(), 1), (Hash(), 1)], False)
        >>> session.put_range(2, 2, part); session.put_range(0, 2, part)
        >>> session.num_chunks, session.gaps(5)
        (4, [range(4, 5)])
        """
        place, number = checked_u64(first, "position"), checked_u64(count, "count")
        if not isinstance(subtree, Subtree):
            raise TypeError(but_got("the range must be a Subtree", type(subtree).__name__))
        interruptible(lambda: self._put_range(place, number, subtree), subtree._has_many_nodes(), self, subtree)

    def _put_range(self, place: int, count: int, subtree: Subtree) -> None:
        one, other = both_locked(self, subtree)
        with one, other:
            self._changes += 1
            calls = calls_for(subtree._nodes(), LONG_NODES)
            status = calls.yurewha_session_put_range(self._handle, place, count, subtree._handle)
            if status == STATUSES["YUREWHA_SESSION_OVERLAP"]:
                raise SessionOverlap(f"position {self._first_taken(place)} is taken")
        if status:
            rule = "the range must have a chunk, and no mark at an end"
            raise _fault_of(status, but_got(rule, f"{counted(count, 'chunk')} from position {place} on"))

    def join(self, other: Session) -> int:
        """Puts all runs of another session at their positions. Returns how many hashes that it knows are new, and learns these.

        So a file can be hashed by many machines, each with a session of its own. Of all sessions any two may be joined first. `other`
        doesn't change. A session that keeps no hashes learns none, and takes each for new.

        Raises `SessionOverlap` if a position is taken in both, as it is if a session with chunks is joined with itself. Otherwise raises
        `SessionSizes` if the sizes of all chunks add up to more than 2^64 - 1. After an error nothing has changed.

        >>> one, other = Session(), Session()
        >>> _ = one.put(0, [(Hash(), 1)]), other.put(1, [(Hash(), 1), (Hash.random_from_seed(1), 1)])
        >>> one.join(other), one.gaps(4), other.gaps(4)
        (1, [range(3, 4)], [range(0, 1), range(3, 4)])
        """
        if not isinstance(other, Session):
            raise TypeError(but_got("a Session must be joined with a Session", type(other).__name__))
        number = sum(item._num_known() + _NODES_OF_RUN * item.num_runs for item in (self, other))
        return interruptible(lambda: self._join(other), number >= MANY_NODES, self, other)

    def _join(self, other: Session) -> int:
        out = ctypes.c_uint64()
        first, second = both_locked(self, other)
        with first, second:
            if other is self:  # a call needs two different handles
                other = self.copy()
            self._changes += 1
            status = long.yurewha_session_join(self._handle, other._handle, out)
            if status == STATUSES["YUREWHA_SESSION_OVERLAP"]:
                raise SessionOverlap(f"position {self._first_shared(other)} is taken in both sessions")
        if status:
            raise _fault_of(status)
        return out.value

    def _first_shared(self, other: Session) -> int:
        """Returns the first position that is taken in two sessions. There is such a position."""
        place, found = -1, 0
        while place != found:
            place = self._first_taken(found)
            found = other._first_taken(place)
        return place

    def __contains__(self, hash_: HashLike) -> bool:
        """Returns whether the session knows a hash: whether a put had it, or it was kept. A session that keeps none knows none.

        >>> session = Session(); _ = session.put(3, [(Hash(), 1)])
        >>> Hash() in session, Hash.random_from_seed(1) in session
        (True, False)
        """
        raw, out = raw_of(hash_, "hash"), ctypes.c_bool()
        with self._locked():
            status = short.yurewha_session_knows(self._handle, raw, out)
        if status:
            raise error_of(status)
        return out.value

    def contains(self, hashes: HashesLike) -> List[bool]:
        """Returns of each hash of a list whether the session knows it.

        >>> session = Session(); _ = session.put(3, [(Hash(), 1)])
        >>> session.contains([Hash.random_from_seed(1), Hash()])
        [False, True]
        """
        packed = Hashes(hashes).packed
        count = len(packed) // _HASH_SIZE
        return interruptible(lambda: self._contains(packed, count), count >= MANY_NODES, self)

    def _contains(self, packed: bytes, count: int) -> List[bool]:
        known = (ctypes.c_uint8 * count)()
        with self._locked():
            status = calls_for(count, LONG_CHUNKS).yurewha_session_knows_each(self._handle, packed, count, known, count)
        if status:
            raise error_of(status)
        return [it == 1 for it in known]

    def taken(self, position: int) -> bool:
        """Returns whether a position is taken.

        >>> session = Session(); _ = session.put(3, [(Hash(), 1)])
        >>> session.taken(3), session.taken(4)
        (True, False)
        """
        place, out = checked_u64(position, "position"), ctypes.c_bool()
        with self._locked():
            status = short.yurewha_session_taken(self._handle, place, out)
        if status:
            raise error_of(status)
        return out.value

    @property
    def num_runs(self) -> int:
        """The number of runs of adjacent taken positions.

        >>> session = Session(); _ = session.put(3, [(Hash(), 1)]), session.put(5, [(Hash(), 1)])
        >>> session.num_runs
        2
        """
        out = ctypes.c_size_t()
        with self._locked():
            status = short.yurewha_session_num_runs(self._handle, out)
        if status:
            raise error_of(status)
        return out.value

    @property
    def num_chunks(self) -> int:
        """The number of chunks: of taken positions. The time is proportional to the number of runs.

        >>> session = Session(); _ = session.put(3, [(Hash(), 7), (Hash(), 8)])
        >>> session.num_chunks
        2
        """
        return self._number("yurewha_session_num_chunks")

    @property
    def total_size(self) -> int:
        """The total size of the chunks in bytes.

        >>> session = Session(); _ = session.put(3, [(Hash(), 7), (Hash(), 8)])
        >>> session.total_size
        15
        """
        return self._number("yurewha_session_total_size")

    def _number(self, which: str) -> int:
        out = ctypes.c_uint64()
        with self._locked():
            status = getattr(short, which)(self._handle, out)
        if status:
            raise error_of(status)
        return out.value

    def gaps(self, total: int) -> List[range]:
        """Returns the ranges of positions below `total` that aren't taken, by rising position.

        >>> session = Session(); _ = session.put(3, [(Hash(), 7), (Hash(), 8)])
        >>> session.gaps(8)
        [range(0, 3), range(5, 8)]
        """
        number = checked_u64(total, "total")
        with self._locked():
            changes, gaps = self._changes, list(self._walk_gaps(number))
            return gaps if changes == self._changes else list(self.copy()._walk_gaps(number))

    def _walk_gaps(self, total: int) -> Iterator[range]:
        """Yields each gap: the first from the end of the one before it."""
        first, end = ctypes.c_uint64(), ctypes.c_uint64()
        while True:
            status = short.yurewha_session_next_gap(self._handle, end.value, total, first, end)
            if status == STATUSES["YUREWHA_ARGUMENTS"]:  # each position is taken from there on
                return
            if status:
                raise error_of(status)
            yield range(first.value, end.value)

    def run(self, at: int) -> Run:
        """Returns a run. Runs are numbered from 0, by rising position. Raises `InvalidArguments` if there is no such run.

        >>> session = Session(); _ = session.put(3, [(Hash(), 1)])
        >>> session.run(0).end
        4
        """
        number, first, subtree = checked_u64(at, "run number"), ctypes.c_uint64(), Subtree._empty()
        with self._locked():
            status = short.yurewha_session_run(self._handle, number, first, subtree._handle)
            found = None if status else self._run_from(first.value)
        if found is None:
            raise error_of(status, f"there is no run {number}")
        return Run(*found)

    def runs(self) -> List[Run]:
        """Returns all runs by rising position. Each is a pair of its first position and its subtree, and has its `end`.

        >>> session = Session(); _ = session.put(3, [(Hash(), 1)]), session.put(5, [(Hash(), 1)])
        >>> [first for first, subtree in session.runs()], [run.end for run in session.runs()]
        ([3, 5], [4, 6])
        """
        return [Run(*span) for span in self._spans()]

    def run_from(self, position: int) -> Optional[Tuple[int, int, Subtree]]:
        """Returns the first run that ends after a position: the run that holds it or else the next one.

        The result is its first position, the position after its last one, and the subtree of its chunks, open at both ends. It
        is None if no run ends after the position.

        >>> session = Session(); _ = session.put(3, [(Hash(), 1)])
        >>> first, end, subtree = session.run_from(0)
        >>> first, end, session.run_from(end)
        (3, 4, None)
        """
        return self._run_from(checked_u64(position, "position"))

    def _run_from(self, place: int) -> Optional[Span]:
        first, end, subtree = ctypes.c_uint64(), ctypes.c_uint64(), Subtree._empty()
        with self._locked():
            status = short.yurewha_session_run_from(self._handle, place, first, end, subtree._handle)
        if status == STATUSES["YUREWHA_ARGUMENTS"]:
            return None
        if status:
            raise error_of(status)
        return first.value, end.value, subtree

    def _walk(self) -> Iterator[Span]:
        """Yields each run: the first that ends after the one before it."""
        run = self._run_from(0)
        while run is not None:
            yield run
            run = self._run_from(run[1])

    def _spans(self) -> List[Span]:
        """Returns all runs of one moment."""
        with self._locked():
            changes, spans = self._changes, []
            for span in self._walk():
                spans.append(span)
                if changes != self._changes:
                    break
            return spans if changes == self._changes else list(self.copy()._walk())

    def __iter__(self) -> Iterator[Run]:
        """Iterates over the runs at the time of the call, as `runs` returns them.

        >>> session = Session(); _ = session.put(3, [(Hash(), 1)]), session.put(5, [(Hash(), 1)])
        >>> dict(session)[5].total_size
        1
        """
        return iter(self.runs())

    def root(self, total: int) -> Hash:
        """Returns the root of all chunks by position. The session doesn't change.

        Raises `SessionGap` if the taken positions aren't exactly those from 0 to `total` - 1.

        >>> Session().root(0) == Hash()
        True
        """
        return self._of_all(total, "yurewha_session_root")

    def finish(self, total: int, salt: Optional[BytesLike] = None) -> Hash:
        """Returns the file hash of all chunks by position. A salt has 32 bytes. The session doesn't change.

        Raises `InvalidArguments` if a salt doesn't have 32 bytes. Otherwise it raises the same errors as `root`.

        >>> Session().finish(0) == Session().finish(0, salt=bytes(32)) == Hash()
        True
        """
        number = checked_u64(total, "total")
        if salt is None:
            return self._of_all(number, "yurewha_session_finish")
        return self._of_all(number, "yurewha_session_finish_with_salt", checked_32(salt, "salt"))

    def _of_all(self, total: int, which: str, *salt: bytes) -> Hash:
        number = checked_u64(total, "total")
        return interruptible(lambda: self._hash_of_all(number, which, *salt), number >= MANY_NODES, self)

    def _hash_of_all(self, number: int, which: str, *salt: bytes) -> Hash:
        out = CHash()
        with self._locked():
            status = getattr(long, which)(self._handle, number, *salt, out)
            if status == STATUSES["YUREWHA_SESSION_GAP"]:
                raise _gap(self.gaps(number), number, self._run_from(number))
        if status:
            raise error_of(status)
        return Hash._of(bytes(out))

    def copy(self) -> Session:
        """Returns an independent session with the same chunks and known hashes.

        >>> one = Session(); _ = one.put(3, [(Hash(), 1)]); other = one.copy()
        >>> other.put(4, [(Hash(), 1)]), one.taken(4), other.taken(4)
        (0, False, True)
        """
        return interruptible(self._copy, self._num_known() >= MANY_NODES, self)

    def _num_known(self) -> int:
        out = ctypes.c_size_t()
        with self._locked():
            status = short.yurewha_session_num_known_hashes(self._handle, out)
        if status:
            raise error_of(status)
        return out.value

    def _copy(self) -> Session:
        other = Session()
        with self._locked():
            status = calls_for(self._num_known(), LONG_CHUNKS).yurewha_session_copy(self._handle, other._handle)
        if status:
            raise error_of(status)
        return other

    def __eq__(self, other: object) -> bool:
        if not isinstance(other, Session):
            return NotImplemented
        if self is other:
            return True
        one, two = self.copy(), other.copy()
        if list(one._walk()) != list(two._walk()):
            return False
        known = one.known_hashes()
        return len(known) == len(two.known_hashes()) and all(two.contains(known))

    def __dask_tokenize__(self) -> Tuple[str, ...]:
        saved = self.copy()
        known = b"".join(sorted(raw for (raw,) in _EACH.iter_unpack(saved.known_hashes().packed)))
        return token_of("Session", saved.to_json(hashes=False).encode("ascii"), known, bytes([saved.keeps_hashes]))

    def _memory(self) -> int:
        with self._locked():
            count = self.num_runs
            looked_at = [self.run(number * count // _LOOKED_AT).subtree for number in range(_LOOKED_AT)] if count > _LOOKED_AT else [
                subtree for _, _, subtree in self._walk()]
            nodes, levels = (sum(numbers) for numbers in zip((0, 0), *((it.num_nodes, it.num_levels) for it in looked_at)))
            return memory_of_session(self._num_known(), count, len(looked_at), nodes, levels)

    def __copy__(self) -> Session:
        return self.copy()

    def __deepcopy__(self, memo: object) -> Session:
        return self.copy()

    # ---- Saving

    def push_run(self, first: int, end: int, subtree: Subtree) -> None:
        """Adds a run after all runs of this session: the positions from `first` to `end` - 1, and the subtree of its chunks.

        So a session can be restored from what `run_from` and `known_hashes` returned. The call can't check that there are as
        many chunks as positions. If there aren't, the root and the file hash are those of the chunks of the subtrees, and all
        else goes by the positions. The session doesn't know the hashes of the chunks before these are kept or put.

        Raises `InvalidArguments` if there is no position, the subtree is marked at an end, or a position from `first` - 1 on is
        taken. Otherwise raises `SizeOverflow` if the sizes of all chunks add up to more than 2^64 - 1. After an error nothing
        has changed.

        >>> saved, restored = Session(), Session()
        >>> _ = saved.put(3, [(Hash(), 1)])
        >>> restored.push_run(*saved.run_from(0))
        >>> restored.keep_hashes(saved.known_hashes())
        >>> restored.runs() == saved.runs(), restored.put(4, [(Hash(), 1)])
        (True, 0)
        """
        self._push("the run", first, end, subtree)

    def _push(self, what: str, first: int, end: int, subtree: Subtree) -> None:
        place, after = checked_u64(first, "position"), checked_u64(end, "position")
        if not isinstance(subtree, Subtree):
            raise TypeError(but_got(f"{what} must be a Subtree", type(subtree).__name__))
        interruptible(lambda: self._pushed(what, place, after, subtree), subtree._has_many_nodes(), self, subtree)

    def _pushed(self, what: str, place: int, after: int, subtree: Subtree) -> None:
        one, other = both_locked(self, subtree)
        with one, other:
            self._changes += 1
            calls = calls_for(subtree._nodes(), LONG_NODES)
            status = calls.yurewha_session_push_run(self._handle, place, after, subtree._handle)
        if status:
            rule = f"{what} must have a position, no mark at an end, and a gap after the runs before it"
            raise error_of(status, but_got(rule, f"the positions from {place} up to {after}"))

    def keep_hashes(self, hashes: HashesLike) -> None:
        """Keeps hashes, as if an earlier put had had them. The session then knows them. After an error nothing has changed.

        Raises `InvalidArguments` if there are any and the session keeps none.

        >>> session = Session(); session.keep_hashes([Hash()])
        >>> session.put(0, [(Hash(), 1), (Hash.random_from_seed(1), 1)])
        1
        """
        packed = Hashes(hashes).packed
        count = len(packed) // _HASH_SIZE

        def work() -> None:
            with self._locked():
                self._changes += 1
                status = calls_for(count, LONG_CHUNKS).yurewha_session_keep_hashes(self._handle, packed, count)
            if status:
                raise error_of(status, "this session keeps no hashes")
        interruptible(work, count >= MANY_NODES, self)

    def _keep_each(self, hashes: Hashes) -> None:
        """Keeps hashes in pieces, which takes less memory. After an error some are kept, so nobody else may have the session."""
        for start in range(0, len(hashes), AT_ONCE):
            self.keep_hashes(hashes[start:start + AT_ONCE])

    @property
    def keeps_hashes(self) -> bool:
        """Whether this session keeps the hashes of its chunks.

        >>> Session().keeps_hashes, Session(keep_hashes=False).keeps_hashes
        (True, False)
        """
        out = ctypes.c_bool()
        with self._locked():
            status = short.yurewha_session_keeps_hashes(self._handle, out)
        if status:
            raise error_of(status)
        return out.value

    def known_hashes(self) -> Hashes:
        """Returns the hashes that this session knows, each once, in no particular order.

        They are the hashes of all chunks that were put, and those that were kept; or none if the session keeps none.

        >>> session = Session(); _ = session.put(3, [(Hash(), 1), (Hash(), 1)])
        >>> list(session.known_hashes()) == [Hash()]
        True
        """
        return interruptible(self._all_known_hashes, self._num_known() >= MANY_NODES, self)

    def _all_known_hashes(self) -> Hashes:
        with self._locked():
            status, hashes = self._known_hashes()
            if status == STATUSES["YUREWHA_ARGUMENTS"]:  # a handler changed their number between the two calls
                status, hashes = self.copy()._known_hashes()
        if status:
            raise error_of(status)
        return hashes

    def _known_hashes(self) -> Tuple[int, Hashes]:
        count = ctypes.c_size_t()
        with self._locked():
            status = short.yurewha_session_num_known_hashes(self._handle, count)
            out = (CHash * count.value)()
            status = status or calls_for(len(out), LONG_CHUNKS).yurewha_session_known_hashes(self._handle, out, len(out))
        return status, Hashes._of(bytes(out))

    def to_json(self, *, hashes: bool = True) -> str:
        """Returns the session as compact JSON text: its runs and, unless `hashes` is False, the hashes that it knows.

        The runs take some kilobytes each, and a hash about 80 bytes. Whoever resumes hashing needs the runs alone. Without the hashes
        each of them counts as new again.

        It has the form of the Rust crate's sessions. `runs` has objects with the positions `first` and `end`, and with
        `chunks`, the subtree. `known_hashes` has the four words of each hash, by rising order.

        >>> session = Session(); session.keep_hashes([Hash()]); session.to_json()
        '{"runs":[],"known_hashes":[[0,0,0,0]]}'
        """
        with_hashes = checked_bool(hashes, "hashes")
        is_long = self._num_known() * with_hashes + _NODES_OF_RUN * self.num_runs >= MANY_NODES
        return interruptible(lambda: self._to_json(with_hashes), is_long, self)

    def _to_json(self, with_hashes: bool) -> str:
        length, status = ctypes.c_size_t(), STATUSES["YUREWHA_ROOM"]
        with self._locked():
            least = _ROOM_OF_RUN * self.num_runs + _ROOM_OF_HASH * self._num_known() * with_hashes
            while status == STATUSES["YUREWHA_ROOM"]:
                room = max(least, length.value) + _MORE_ROOM
                text = ctypes.create_string_buffer(room)
                status = calls_for(room, LONG_BYTES).yurewha_session_to_json(self._handle, with_hashes, text, room, length)
        if status:
            raise error_of(status)
        return str(memoryview(text)[:length.value], "ascii")

    @staticmethod
    def from_json(text: Union[str, BytesLike], *, keep_hashes: bool = True) -> Session:
        """Returns the session that a JSON text describes. The text is a `str` or its bytes.

        Raises `InvalidText` if the text isn't JSON or doesn't have the form of `to_json`, except that there may be other
        members. A member that occurs twice in one object is refused, also in a subtree. (`Subtree.from_json` takes the last one.) Raises
        `InvalidJson` if a subtree breaks a rule. Raises `InvalidArguments` or `SizeOverflow` if `push_run`
        refuses a run. That a run has as many chunks as positions can't be checked. With `keep_hashes=False` the hashes of the text are
        left out, and the session keeps none.

        >>> Session.from_json('{"runs":[],"known_hashes":[[0,0,0,0]]}').put(7, [(Hash(), 1)])
        0
        """
        keeps = checked_bool(keep_hashes, "keep_hashes")
        return Session._of_json(checked_text(text, "JSON") if isinstance(text, str) else own_bytes(text), keeps)

    @staticmethod
    def _of_json(data: bytes, keeps: bool) -> Session:
        session, call = Session(), calls_for(len(data), LONG_BYTES).yurewha_session_from_json
        # To read a session takes longer than to read other texts.
        status = interruptible(lambda: int(call(data, len(data), keeps, session._handle)), len(data) >= MANY_BYTES // 4, session)
        if status:
            raise error_of(status, "the text isn't JSON, or an object has a member twice")
        return session

    def save(self, path: Path, *, hashes: bool = True) -> None:
        """Writes the session to a file, whole or not at all: an error or a crash leaves the file that was there before.

        The file has 32 bytes for each known hash, unless `hashes` is False, and the runs as JSON.

        >>> import tempfile, os.path
        >>> with tempfile.TemporaryDirectory() as folder:
        ...     session, path = Session(), os.path.join(folder, "session")
        ...     _ = session.put(3, [(Hash(), 1)])
        ...     session.save(path)
        ...     Session.load(path) == session
        True
        """
        with_hashes, saved = checked_bool(hashes, "hashes"), self.copy()
        known = saved.known_hashes() if with_hashes else Hashes()
        write_whole(path, b"session", body_of(saved.to_json(hashes=False), known, saved.keeps_hashes))

    @staticmethod
    def load(path: Path) -> Session:
        """Returns the session that `save` wrote to a file. It keeps hashes if that one did.

        Raises `InvalidText` if the file is of another kind, was cut off or was changed. Opening and reading it raise `OSError`.

        >>> import tempfile, os.path
        >>> with tempfile.TemporaryDirectory() as folder:
        ...     session, path = Session(keep_hashes=False), os.path.join(folder, "session")
        ...     _ = session.put(3, [(Hash(), 1)])
        ...     session.save(path)
        ...     Session.load(path).gaps(4)
        [range(0, 3)]
        """
        runs, hashes, keeps = parts_of_body(read_whole(path, b"session"))
        session = Session._of_json(runs, keeps)
        session._keep_each(hashes)
        return session

    @staticmethod
    def _restored(runs: Iterable[Span], hashes: HashesLike, keeps: bool = True) -> Session:
        session = Session(keep_hashes=keeps)
        for place, run in enumerate(runs):
            session._push(f"run {place}", *run)
        session._keep_each(Hashes(hashes))
        return session

    def __reduce__(self) -> Tuple[_Restore, Union[Tuple[Tuple[Span, ...], Hashes], Tuple[Tuple[Span, ...], Hashes, bool]]]:
        # The runs of a pickle are checked when it is read, and so are their subtrees.
        saved = self.copy()
        runs, hashes = tuple(saved._walk()), saved.known_hashes()
        return Session._restored, (runs, hashes) if saved.keeps_hashes else (runs, hashes, False)

    def __repr__(self) -> str:
        try:
            return f"<yurewha.Session of {self.num_runs} runs>"
        except YurewhaError:
            return "<yurewha.Session that can't be read>"
