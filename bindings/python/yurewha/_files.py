"""Hashing the chunks of a file."""

from __future__ import annotations

import os
from contextlib import closing
from typing import BinaryIO, Callable, Generator, Iterator, List, Optional, SupportsIndex, Tuple, Union

from ._errors import InvalidArguments, but_got
from ._guard import Guarded
from ._hash import PIECE, Hasher
from ._hashes import Hashes, OffsetsLike, checked_offsets, hashed_piece, pieces_of
from ._in_threads import Stopped, checked_threads, in_threads

__all__ = ["hash_chunks"]

_Path = Union[str, bytes, "os.PathLike[str]", "os.PathLike[bytes]"]

#: How many pieces a thread is handed at once, if each thread then gets so many batches.
_BATCH = 4
_BATCHES = 4


def hash_chunks(
    path: _Path, offsets: OffsetsLike, *, progress: Optional[Callable[[int, int], object]] = None, threads: SupportsIndex = 1
) -> Hashes:
    """Returns the hash of each chunk of a file, as `data_hash` does.

    Chunk i starts at offset i and ends before offset i + 1. Raises `InvalidArguments` if there is no offset, if an offset is
    less than the one before it, or if one is past the end of the file. Also raises it if the file becomes shorter. Opening and
    reading the file raise `OSError`.

    The file is read in pieces of at most a MiB, by as many `threads` at once. (A chunk of more than a MiB is the caller's alone.)
    After each piece, `progress(done, total)` gets the number of bytes that are hashed from the first offset on, and of all bytes to
    hash, in the thread of the caller. Threads are handed up to four pieces at a time, and then it is called for these one after
    another. Ctrl-C ends the call there, and so does an error that `progress` raises.

    >>> import tempfile, os.path
    >>> with tempfile.TemporaryDirectory() as folder:
    ...     path = os.path.join(folder, "data")
    ...     with open(path, "wb") as file:
    ...         _ = file.write(b"abcd")
    ...     hash_chunks(path, [0, 3, 4], progress=print) == Hashes([Hasher(b"abc").hash(), Hasher(b"d").hash()])
    4 4
    True
    """
    name, count = os.fspath(path), checked_threads(threads)
    check_progress(progress)
    hashes = bytearray()
    with open(name, "rb", buffering=0) as file:
        places = checked_offsets(offsets, file.seek(0, os.SEEK_END))
        with closing(_hashed(_Shared(file, count), places, count)) as pieces:
            for end, hashed in pieces:
                hashes += hashed
                if progress is not None:
                    progress(end - places[0], places[-1] - places[0])
    return Hashes._of(bytes(hashes))


def check_progress(progress: object) -> None:
    """Raises `TypeError` if what is to be told of progress is neither a callable nor None.

    >>> check_progress(print)
    """
    if progress is not None and not callable(progress):
        raise TypeError(but_got("progress must be a callable", type(progress).__name__))


class _Shared(Guarded):
    """A file that threads read, each where it likes."""

    def __init__(self, file: BinaryIO, threads: int) -> None:
        self._guard()
        self._file = file
        self._some = self._at_once if threads > 1 and hasattr(os, "pread") else self._by_turns

    def read(self, start: int, stop: int) -> bytes:
        """Returns the bytes from `start` up to `stop`. Raises `InvalidArguments` if the file ends before."""
        parts: List[bytes] = []
        while start < stop:
            part = self._some(start, stop - start)
            if not part:
                raise InvalidArguments("the file became shorter while it was read")
            parts.append(part)
            start += len(part)
        return parts[0] if len(parts) == 1 else b"".join(parts)

    def _at_once(self, start: int, length: int) -> bytes:
        return os.pread(self._file.fileno(), length, start)

    def _by_turns(self, start: int, length: int) -> bytes:
        with self._locked():
            self._file.seek(start)
            return self._file.read(length)


def _hashed(file: _Shared, places: List[int], threads: int) -> Generator[Tuple[int, bytes], None, None]:
    """Yields where each piece ends that was hashed, and the hashes of the chunks whose last bytes it has."""
    def hash_piece(piece: List[int], stopped: Stopped) -> Optional[bytes]:
        start, end = piece[0], piece[-1]
        return None if end - start > PIECE else hashed_piece(file.read(start, end), piece)

    pieces = list(pieces_of(places))
    batch = max(min(len(pieces) // (threads * _BATCHES), _BATCH), 1)
    with closing(in_threads(hash_piece, pieces, min(threads, len(pieces)), batch)) as results:
        for piece, hashed in zip(pieces, results):
            if hashed is None:
                yield from _hashed_chunk(file, piece[0], piece[-1])
            else:
                yield piece[-1], hashed


def _hashed_chunk(file: _Shared, start: int, end: int) -> Iterator[Tuple[int, bytes]]:
    """Does the same with a chunk of more than one piece. The caller reads it, while other threads go on with what follows."""
    chunk = Hasher()
    for place in range(start, end, PIECE):
        chunk.update(file.read(place, min(place + PIECE, end)))
        if place + PIECE < end:
            yield place + PIECE, b""
    yield end, chunk.hash()._raw
