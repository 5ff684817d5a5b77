"""Files that are read in parts, each of which is checked against the file hash."""

from __future__ import annotations

import errno
import io
import os
from typing import TYPE_CHECKING, BinaryIO, Callable, Iterable, List, NoReturn, Optional, Sequence, SupportsIndex, Union, final

from ._checked_parts import CheckedParts, Found, are_all, checked_places, done, joined
from ._errors import InvalidArguments, but_got
from ._guard import Guarded
from ._hash import Hash, HashLike, checked_u64, whole_number
from ._range_proof import PROOF_LIMIT, RangeProof
from ._read_ahead import ReadAhead
from ._types import BytesLike, Room

__all__ = ["VerifiedFile"]

if TYPE_CHECKING:

    class _Raw(io.RawIOBase, BinaryIO):  # type: ignore[misc]
        """As in the types of `io.FileIO`, so that a call that takes a `BinaryIO` takes it."""

else:
    _Raw = io.RawIOBase


@final
class VerifiedFile(CheckedParts, _Raw):  # type: ignore[misc]
    """A read-only file that is somewhere else. What is read of it is checked against the file hash before it is returned.

    The file hash is a `Hash`, its 32 bytes, or its hex text. `fetch(start, stop)` returns the bytes of the file from `start` up to,
    but without, `stop`. `prove(start, stop)` returns the proof of the chunks with these bytes, or with those of them that the file has:
    it is `HashTree.proof_of_bytes`, or it asks a server for the same. Neither has to be trusted. Each file with this hash has the bytes
    that are returned, at this place, or somebody has found a collision of BLAKE3. If other bytes or another proof come, `ProofMismatch`
    is raised, and nothing is returned.

    `zipfile`, `pyarrow`, `fsspec` and others read through it, because it is an `io.RawIOBase` that can seek. A read returns all
    bytes that are asked for, unless the file ends. Threads share a file by `read_at`.

    - The size of the file is known once something was checked. So seeking from the end may fetch the first chunk. So does a read for
      which `prove` raises an error: if it turns out to begin at or after the end, it returns no bytes, else it raises that error.
    - What was used last is kept, at most `cache_size` bytes of it, so that a reader of small pieces fetches each chunk once. A chunk
      counts 128 bytes more than it has.
    - Each read that isn't kept costs two requests, whatever its length. So over a network read a megabyte or more at once, let
      `io.BufferedReader(file, 1 << 20)` do so for a reader of small pieces or of lines, or give `read_ahead`.
    - With `read_ahead`, a read that begins where the last one ended has up to so many bytes after it fetched and checked meanwhile,
      in up to nine threads. So `fetch` and `prove` must then be callable by several threads at once.
    - If a read fails, what it had checked before is kept, whatever the `cache_size`, until a read that begins there goes beyond it. So
      reading again fetches the rest alone, also if an answer was cut off in the middle.
    - With `piece`, each request is for one of the pieces of so many bytes that follow one another from the file's start, the last of
      which may end after the file. So `prove` may answer with proofs that were made of each piece and kept, as files on a server.
      A read of a byte fetches the piece that has it, so `cache_size` should have room for a few.
    - A proof is refused if its chunks go more than `chunk_limit` bytes beyond what is asked for. So a server can't make a reader
      fetch a whole file for one byte. So is one that has more than `proof_limit` bytes in the form of `RangeProof.to_bytes`. That is 16
      MiB, as for `RangeProof.from_json`, which is enough for pieces of 16 MiB unless the chunks have less than 40 bytes.

    >>> from yurewha import HashTree, data_hash
    >>> tree = HashTree([(data_hash(data), len(data)) for data in (b"a chunk", b"another", b"and a third")])
    >>> whole = b"a chunkanotherand a third"
    >>> file = VerifiedFile(tree.file_hash(), lambda start, stop: whole[start:stop], tree.proof_of_bytes)
    >>> file.seek(8)
    8
    >>> file.read(2), file.tell(), file.size
    (b'no', 10, 25)
    """

    def __init__(
        self,
        file_hash: Union[HashLike, str],
        fetch: Callable[[int, int], BytesLike],
        prove: Callable[[int, int], RangeProof],
        salt: Optional[BytesLike] = None,
        *,
        cache_size: SupportsIndex = 1 << 22,
        chunk_limit: SupportsIndex = 1 << 20,
        proof_limit: SupportsIndex = PROOF_LIMIT,
        piece: SupportsIndex = 0,
        read_ahead: SupportsIndex = 0,
        name: Optional[str] = None,
    ) -> None:
        if name is not None and not isinstance(name, str):
            raise TypeError(but_got("name must be a str", type(name).__name__))
        ahead = checked_u64(read_ahead, "read_ahead")
        self._begin(file_hash, fetch, prove, salt, cache_size, chunk_limit, proof_limit, piece)
        self._name = self._hash.hex() if name is None else name
        self._guarded = Guarded()
        self._guarded._guard()
        self._position = 0
        self._ahead = ReadAhead(ahead) if ahead else None
        # Where the last read ended.
        self._after_last: Optional[int] = None

    def __init_subclass__(cls) -> None:
        raise TypeError("VerifiedFile can't be subclassed")

    @property
    def name(self) -> str:
        """The name that the file was given, or else the hex text of its hash.

        >>> from yurewha import HashTree, data_hash
        >>> tree = HashTree([(data_hash(b"abc"), 3)])
        >>> VerifiedFile(tree.file_hash(), lambda start, stop: b"abc"[start:stop], tree.proof_of_bytes, name="abc.txt").name
        'abc.txt'
        """
        return self._name

    @property
    def mode(self) -> str:
        """The mode that `open` takes for such a file, which is `rb`.

        >>> from yurewha import HashTree, data_hash
        >>> tree = HashTree([(data_hash(b"abc"), 3)])
        >>> VerifiedFile(tree.file_hash(), lambda start, stop: b"abc"[start:stop], tree.proof_of_bytes).mode
        'rb'
        """
        return "rb"

    @property
    def file_hash(self) -> Hash:
        """The hash that all parts are checked against.

        >>> from yurewha import HashTree, data_hash
        >>> tree = HashTree([(data_hash(b"abc"), 3)])
        >>> VerifiedFile(tree.file_hash(), lambda start, stop: b"abc"[start:stop], tree.proof_of_bytes).file_hash.hex()[:16]
        '55b9df318a7c45f4'
        """
        return self._hash

    @property
    def size(self) -> int:
        """The size of the file in bytes. If nothing was checked yet, the first chunk is fetched and checked.

        >>> from yurewha import HashTree, data_hash
        >>> tree = HashTree([(data_hash(b"abc"), 3)])
        >>> VerifiedFile(tree.file_hash(), lambda start, stop: b"abc"[start:stop], tree.proof_of_bytes).size
        3
        """
        self._check_open()
        size = self._size
        if size is not None:
            return size  # without the lock, which a reader has while it waits for a thread that calls `fetch` or `prove`
        with self._guarded._locked():
            return done(self._found_size())

    # ---- Reading

    def readable(self) -> bool:
        """Returns whether the file can be read, which is True.

        >>> from yurewha import HashTree, data_hash
        >>> tree = HashTree([(data_hash(b"abc"), 3)])
        >>> VerifiedFile(tree.file_hash(), lambda start, stop: b"abc"[start:stop], tree.proof_of_bytes).readable()
        True
        """
        self._check_open()
        return True

    def read(self, size: Optional[int] = -1) -> bytes:
        """Returns the next `size` bytes, or all up to the end if `size` is negative or None. Only at the end there are fewer.

        >>> from yurewha import HashTree, data_hash
        >>> tree = HashTree([(data_hash(b"abc"), 3)])
        >>> VerifiedFile(tree.file_hash(), lambda start, stop: b"abc"[start:stop], tree.proof_of_bytes).read(2)
        b'ab'
        """
        count = -1 if size is None else whole_number(size, "size")
        with self._guarded._locked():
            self._check_open()
            return joined(self._next(max(self.size - self._position, 0) if count < 0 else count))

    def readall(self) -> bytes:
        """Returns all bytes up to the end.

        >>> from yurewha import HashTree, data_hash
        >>> tree = HashTree([(data_hash(b"abc"), 3)])
        >>> VerifiedFile(tree.file_hash(), lambda start, stop: b"abc"[start:stop], tree.proof_of_bytes).readall()
        b'abc'
        """
        return self.read()

    def readinto(self, buffer: Room) -> int:
        """Fills a buffer with the next bytes. Returns how many there are, which are fewer than the buffer has only at the end.

        >>> from yurewha import HashTree, data_hash
        >>> tree = HashTree([(data_hash(b"abc"), 3)])
        >>> room = bytearray(7)
        >>> VerifiedFile(tree.file_hash(), lambda start, stop: b"abc"[start:stop], tree.proof_of_bytes).readinto(room), room
        (3, bytearray(b'abc\\x00\\x00\\x00\\x00'))
        """
        with memoryview(buffer) as view, self._guarded._locked():
            self._check_open()
            if view.readonly:
                raise TypeError(but_got("the buffer must be writable", "a read-only one"))
            if view.nbytes == 0:  # Python doesn't show a table without rows as bytes
                return 0
            with view.cast("B") as room:
                filled = 0
                for part in self._next(len(room)):
                    room[filled:filled + len(part)] = part
                    filled += len(part)
                return filled

    def _next(self, count: int) -> Sequence[Union[bytes, memoryview]]:
        """Returns the next `count` bytes in parts, fewer only at the end, and moves the position behind them."""
        position = self._position
        found = self._kept(position, count)
        parts = found[:1] if are_all(found, position, count) else self._parts_from(position, count, found)
        self._position = self._after_last = position + sum(map(len, parts))
        return parts

    def _parts_from(self, position: int, count: int, found: Found) -> List[memoryview]:
        """Returns bytes in parts: what was read ahead, or else what was found of them and what is fetched now."""
        if self._ahead is None or self._size is None or self._is_in_use():
            return done(self._parts(position, count, found))
        if position != self._after_last:
            self._ahead.forget()
            return done(self._parts(position, count, found))
        return self._ahead.parts(self._read_piece, position, min(count, self._size - position), self._size)

    def _read_piece(self, start: int, stop: int) -> memoryview:
        parts = done(self._parts(start, stop - start))
        return parts[0] if len(parts) == 1 else memoryview(joined(parts))

    def read_at(self, start: int, stop: int) -> bytes:
        """Returns the bytes from `start` up to, but without, `stop`, or those of them that the file has. The position stays.

        Threads may call it at once, also while another call reads: nobody waits while something is fetched. `fetch` and `prove` are
        called in the thread of the caller. Raises `InvalidArguments` if `stop` is less than `start`.

        >>> from yurewha import HashTree, data_hash
        >>> tree = HashTree([(data_hash(b"abc"), 3)])
        >>> VerifiedFile(tree.file_hash(), lambda start, stop: b"abc"[start:stop], tree.proof_of_bytes).read_at(1, 7)
        b'bc'
        """
        begin, end = checked_places(start, stop)
        self._check_open()
        found = self._kept(begin, end - begin)
        return found[0] if are_all(found, begin, end - begin) else joined(done(self._parts(begin, end - begin, found)))

    # ---- What it can't do

    def write(self, data: BytesLike) -> NoReturn:
        """Raises `io.UnsupportedOperation`, as the file is read-only.

        >>> from yurewha import HashTree, data_hash
        >>> tree = HashTree([(data_hash(b"abc"), 3)])
        >>> VerifiedFile(tree.file_hash(), lambda start, stop: b"abc"[start:stop], tree.proof_of_bytes).write(b"a")
        Traceback (most recent call last):
        io.UnsupportedOperation: a VerifiedFile can't be written to
        """
        self._check_open()
        raise io.UnsupportedOperation("a VerifiedFile can't be written to")

    def writelines(self, lines: Iterable[BytesLike]) -> NoReturn:
        """Raises `io.UnsupportedOperation`, as `write` does.

        >>> from yurewha import HashTree, data_hash
        >>> tree = HashTree([(data_hash(b"abc"), 3)])
        >>> VerifiedFile(tree.file_hash(), lambda start, stop: b"abc"[start:stop], tree.proof_of_bytes).writelines([])
        Traceback (most recent call last):
        io.UnsupportedOperation: a VerifiedFile can't be written to
        """
        self.write(b"")

    def truncate(self, size: Optional[int] = None) -> NoReturn:
        """Raises `io.UnsupportedOperation`, as `write` does.

        >>> from yurewha import HashTree, data_hash
        >>> tree = HashTree([(data_hash(b"abc"), 3)])
        >>> VerifiedFile(tree.file_hash(), lambda start, stop: b"abc"[start:stop], tree.proof_of_bytes).truncate()
        Traceback (most recent call last):
        io.UnsupportedOperation: a VerifiedFile can't be written to
        """
        self.write(b"")

    # ---- The position

    def seekable(self) -> bool:
        """Returns whether the file can seek, which is True.

        >>> from yurewha import HashTree, data_hash
        >>> tree = HashTree([(data_hash(b"abc"), 3)])
        >>> VerifiedFile(tree.file_hash(), lambda start, stop: b"abc"[start:stop], tree.proof_of_bytes).seekable()
        True
        """
        self._check_open()
        return True

    def seek(self, offset: int, whence: int = os.SEEK_SET) -> int:
        """Moves the position, as `io.IOBase.seek` does, and returns it. From the end it is moved by the `size`.

        >>> from yurewha import HashTree, data_hash
        >>> tree = HashTree([(data_hash(b"abc"), 3)])
        >>> VerifiedFile(tree.file_hash(), lambda start, stop: b"abc"[start:stop], tree.proof_of_bytes).seek(-1, 2)
        2
        """
        distance = whole_number(offset, "offset")
        with self._guarded._locked():
            self._check_open()
            if whence not in (os.SEEK_SET, os.SEEK_CUR, os.SEEK_END):
                raise InvalidArguments(but_got("whence must be 0, 1 or 2", whence))
            place = distance + (0, self._position, self.size if whence == os.SEEK_END else 0)[whence]
            if place < 0:
                raise OSError(errno.EINVAL, but_got("a position must be at least 0", place))
            self._position = place
            return place

    def tell(self) -> int:
        """Returns the position.

        >>> from yurewha import HashTree, data_hash
        >>> tree = HashTree([(data_hash(b"abc"), 3)])
        >>> VerifiedFile(tree.file_hash(), lambda start, stop: b"abc"[start:stop], tree.proof_of_bytes).tell()
        0
        """
        self._check_open()
        return self._position

    def close(self) -> None:
        """Closes the file. What is being read ahead is given up. Closing it again does nothing.

        >>> from yurewha import HashTree, data_hash
        >>> tree = HashTree([(data_hash(b"abc"), 3)])
        >>> file = VerifiedFile(tree.file_hash(), lambda start, stop: b"abc"[start:stop], tree.proof_of_bytes)
        >>> file.close(); file.closed
        True
        """
        super().close()
        ahead = getattr(self, "_ahead", None)  # it wasn't completely made if there is none
        if ahead is not None:
            ahead.forget()

    def _check_open(self) -> None:
        if self.closed:
            raise ValueError("I/O operation on a closed file")

    def __reduce__(self) -> NoReturn:
        raise TypeError("a VerifiedFile can't be pickled")

    def __repr__(self) -> str:
        return f"<yurewha.VerifiedFile {self._hash}>"
