"""The hash of a file, and its chunks, where Xet cuts it. One thread reads the file once, in order, and others hash meanwhile."""

from __future__ import annotations

import io
import os
import stat
from contextlib import closing, nullcontext
from typing import Callable, ContextManager, Generator, Iterable, Iterator, List, Optional, SupportsIndex, Tuple, Union, cast

from ._chunker import Chunker, ends_in
from ._chunks import Chunk, Chunks
from ._cuts import hash_cuts, part_of
from ._errors import InvalidArguments, but_got, told_type
from ._file_hasher import FileHasher
from ._files import check_progress
from ._hash import PIECE, Hash, checked_32, data_hash
from ._hashes import data_hashes
from ._in_threads import Stopped, checked_threads, in_threads
from ._saving import Path
from ._session import Session
from ._types import BytesLike, Readable

__all__ = ["chunks_of", "hash_file"]

#: What a call takes as a file: a path, or a stream of bytes.
Source = Union[Path, Readable]
#: Gets how many bytes were hashed since it was called last.
Progress = Callable[[int], object]
#: The bytes of a chunk that came before a piece, the piece, and where chunks end in it.
_Cut = Tuple[bytes, bytes, List[int]]

#: More threads would wait for the one that reads and cuts.
_MOST_THREADS = 4


def hash_file(
    path: Source, *, salt: Optional[BytesLike] = None, threads: Optional[SupportsIndex] = None, progress: Optional[Progress] = None
) -> Hash:
    """Returns the file hash of a file, by which Xet names it. `path` is that of the file, or a stream of bytes, which is read to its end.

    The file is read once, in order, in the caller's thread, and cut as by `Chunker`. As many other `threads` hash the chunks, or with 1 the
    caller does. By default there are as many as processors, but at most four. Memory doesn't grow with the file: it is up to 12 MB for each
    thread. A salt has 32 bytes. After each MiB `progress(count)` gets how many bytes were hashed since it was called last, as `update` of
    tqdm does, in the thread of the caller. Ctrl-C ends the call, and so does an error that `progress` raises.

    Opening and reading the file raise `OSError`. Raises `InvalidArguments` if the size of the file at a path changes meanwhile.

    >>> import io
    >>> hash_file(io.BytesIO(b"abc")).hex()[:16]
    '55b9df318a7c45f4'
    """
    key = None if salt is None else checked_32(salt, "salt")
    source, count = _checked(path, threads, progress)
    with _opened(source) as stream:
        count = _few_threads(stream, count)
        return _hashed_alone(stream, key, progress) if count == 1 else _hashed_in_threads(stream, key, count, progress)


def _hashed_alone(stream: Readable, salt: Optional[bytes], progress: Optional[Progress]) -> Hash:
    hasher = FileHasher()
    while part := part_of(stream, PIECE):
        hasher.update(part)
        if progress is not None:
            progress(len(part))
    return hasher.file_hash(salt)


def _hashed_in_threads(stream: Readable, salt: Optional[bytes], threads: int, progress: Optional[Progress]) -> Hash:
    # No object of the library is freed for a piece: what a signal handler raises while Python frees one is lost.
    whole, count = Session(keep_hashes=False), 0
    with closing(_blocks(stream, threads, progress)) as blocks:
        for block in blocks:
            whole.put(count, block)
            count += len(block)
    return whole.finish(count, salt)


def chunks_of(path: Source) -> Generator[Chunk, None, None]:
    """Yields the hash and the size of each chunk of a file, in order, as Xet cuts it. `path` is as for `hash_file`, and so are the errors.

    The file is opened when the first chunk is asked for. Each chunk is yielded once it was read. About a MiB is kept.

    >>> import io
    >>> [size for hash_, size in chunks_of(io.BytesIO(bytes(300_000)))]
    [131072, 131072, 37856]
    """
    return _chunks_of(_checked(path, 1, None)[0])


def _chunks_of(source: Source) -> Generator[Chunk, None, None]:
    with _opened(source) as stream:
        yield from hash_cuts(stream)


def all_chunks_of(path: Source, threads: Optional[SupportsIndex], progress: Optional[Progress]) -> Chunks:
    """Returns the chunks of a file. The arguments are those of `hash_file`.

    >>> import io
    >>> list(all_chunks_of(io.BytesIO(bytes(2_000_000)), 1, None).sizes)[-2:]
    [131072, 33920]
    """
    source, count = _checked(path, threads, progress)
    with _opened(source) as stream, closing(_blocks(stream, _few_threads(stream, count), progress)) as blocks:
        return Chunks(b"".join(block.packed for block in blocks))


def _blocks(stream: Readable, threads: int, progress: Optional[Progress]) -> Generator[Chunks, None, None]:
    """Yields the chunks of a file, in order, those of about a MiB at once."""
    with closing(in_threads(_hashed, _cut(_pieces(stream)), threads)) as blocks:
        for block in blocks:
            if progress is not None:
                progress(sum(block.sizes))
            yield block


def _checked(path: Source, threads: Optional[SupportsIndex], progress: Optional[Progress]) -> Tuple[Source, int]:
    """Returns a file, and how many threads are to hash it."""
    check_progress(progress)
    count = _processors() if threads is None else checked_threads(threads)
    if callable(getattr(path, "read", None)):
        return path, count
    try:
        return os.fspath(cast(Path, path)), count
    except TypeError:
        raise TypeError(but_got("path must be a path, or a stream with a method `read`", told_type(path))) from None


def _processors() -> int:
    count = len(os.sched_getaffinity(0)) if hasattr(os, "sched_getaffinity") else os.cpu_count() or 1
    return min(count, _MOST_THREADS)


def _few_threads(stream: Readable, threads: int) -> int:
    """Returns how many threads hash a file: no more than it has pieces, as far as its size is known."""
    return min(threads, stream.size // PIECE + 1) if isinstance(stream, _SameSize) and stream.size else threads


def _opened(source: Source) -> ContextManager[Readable]:
    if isinstance(source, (str, bytes)):
        return _SameSize(source)
    return nullcontext(cast(Readable, source))


class _SameSize(io.FileIO):
    """A file that is read once, from its beginning to its end. It raises an error if its size changes meanwhile."""

    def __init__(self, name: Union[str, bytes]) -> None:
        super().__init__(name)
        self._told, self._count = os.fsdecode(name), 0
        self.size = self._size_now()

    def _size_now(self) -> int:
        """Returns the size, or 0 if there is none, as that of a pipe or a device. A file in /proc says 0, too."""
        status = os.fstat(self.fileno())
        return status.st_size if stat.S_ISREG(status.st_mode) else 0

    def read(self, size: Optional[int] = -1, /) -> bytes:
        part = super().read(-1 if size is None else size)
        self._count += len(part)
        self._check(self._count if self.size else 0, self.size if part else self._size_now(), not part)
        return part

    def _check(self, count: int, now: int, at_end: bool) -> None:
        """Raises an error if more bytes were read than the file had, or fewer to its end, or if it has another size now."""
        if max(count, now) > self.size:
            raise InvalidArguments(f"the file {self._told!r} became longer while it was read")
        if at_end and min(count, now) < self.size:
            raise InvalidArguments(f"the file {self._told!r} became shorter while it was read")


def _pieces(stream: Readable) -> Iterator[bytes]:
    """Yields the pieces of a stream. Each has at least a MiB, but the last."""
    parts: List[bytes] = []
    length = 0
    while part := part_of(stream, PIECE - length):
        parts.append(part)
        length += len(part)
        if length >= PIECE:
            yield b"".join(parts)
            parts, length = [], 0
    if parts:
        yield b"".join(parts)


def _cut(pieces: Iterable[bytes]) -> Iterator[_Cut]:
    """Yields what is hashed together: all bytes up to the last cut in a piece, or up to the end."""
    chunker, begun = Chunker(), b""
    for piece in pieces:
        ends = ends_in(chunker, piece)
        if ends:
            yield begun, piece, ends
            begun = piece[ends[-1]:]
        else:
            begun += piece  # the last piece, since each other one has more bytes than a chunk
    if begun:
        yield begun, b"", [0]


def _hashed(cut: _Cut, stopped: Stopped) -> Chunks:
    """Returns the chunks that end in a piece."""
    begun, piece, ends = cut
    places = ends if begun else [0, *ends]
    chunks = Chunks.from_columns(data_hashes(piece, places), [end - start for start, end in zip(places, places[1:])])
    if not begun:
        return chunks
    first = begun + piece[:ends[0]]
    return Chunks([(data_hash(first), len(first))]) + chunks
