"""Hashing the chunks of a stream in the pass in which a chunker cuts it."""

from __future__ import annotations

from collections import deque
from typing import Callable, Deque, Generator, Iterable, Iterator, Optional, SupportsIndex, Tuple, Union

from ._chunker import xet_cuts
from ._errors import InvalidArguments, but_got, told_type
from ._hash import PIECE, Hash, Hasher, checked_u64
from ._types import Readable

__all__ = ["hash_cuts"]

#: A function that gets the pieces of a stream, and yields where chunks end.
OwnChunker = Callable[[Iterator[bytes]], Iterable[SupportsIndex]]


def hash_cuts(
    stream: Readable, cuts: Optional[Union[OwnChunker, Iterable[SupportsIndex]]] = None
) -> Generator[Tuple[Hash, int], None, None]:
    """Yields the hash and the size of each chunk of a stream, once the chunk was read. Each byte is read once.

    Without `cuts`, chunks end where Xet cuts a file, as `Chunker` does. Else `cuts` says where they end, counted in bytes from where the
    stream is now. The last chunk ends with the stream. `cuts` is an iterable of numbers, or a chunker of your own: a function that gets the
    pieces of the stream as they are read, of at most a MiB each, and yields the numbers. Until it has yielded a cut, the pieces after the
    last one are kept.

    Raises `InvalidArguments` if a cut is less than the one before it, is past the end of the stream, or is one of a chunker that wasn't
    given so many bytes yet. What was yielded before an error stays right.

    >>> import io
    >>> [size for hash_, size in hash_cuts(io.BytesIO(bytes(300_000)))]
    [131072, 131072, 37856]
    >>> def after_each_line(pieces):
    ...     place = 0
    ...     for piece in pieces:
    ...         for byte in piece:
    ...             place += 1
    ...             if byte == ord("\\n"):
    ...                 yield place
    >>> [size for hash_, size in hash_cuts(io.BytesIO(b"a line\\nanother\\nthe rest"), after_each_line)]
    [7, 8, 8]
    >>> [str(hash_)[:8] for hash_, size in hash_cuts(io.BytesIO(b"a chunkanother"), [7])]
    ['fc2d9e76', '3481034b']
    """
    if not callable(getattr(stream, "read", None)):
        raise TypeError(but_got("stream must have a method `read`", told_type(stream)))
    left = _Left(stream)
    if cuts is None:
        return _chunks(left, xet_cuts(left.pieces()), True)
    if callable(cuts):
        return _chunks(left, cuts(left.pieces()), True)
    return _chunks(left, iter(cuts), False)


def _chunks(left: _Left, cuts: Iterable[SupportsIndex], by_chunker: bool) -> Generator[Tuple[Hash, int], None, None]:
    for cut in cuts:
        end = checked_u64(cut, "a cut")
        if end < left.place:
            raise InvalidArguments(but_got(f"a cut must be at least the one before it, which is {left.place}", end))
        if by_chunker and end > left.end:
            raise InvalidArguments(but_got(f"a chunker's cut must be at most the number of bytes that it was given, {left.end}", end))
        yield left.chunk(end)
    if left.has_more():
        yield left.rest()


def part_of(stream: Readable, most: int) -> bytes:
    """Returns the next bytes of a stream, at most so many, or none at its end.

    >>> import io
    >>> part_of(io.BytesIO(b"abc"), 2)
    b'ab'
    """
    part = stream.read(most)
    if not isinstance(part, bytes):
        raise TypeError(but_got("`read` must return bytes", told_type(part)))
    return part


class _Left:
    """What is left of a stream: the pieces that were read and not hashed yet, and those that were not read."""

    def __init__(self, stream: Readable) -> None:
        self._stream = stream
        self._read: Deque[memoryview] = deque()
        self._has_ended = False
        #: How many bytes were hashed, and how many were read.
        self.place = self.end = 0

    def pieces(self) -> Iterator[bytes]:
        """Reads the pieces, one after another, up to the first end. No chunker would see what a stream gives after that."""
        while not self._has_ended:
            piece = part_of(self._stream, PIECE)
            if not piece:
                self._has_ended = True
                return
            self._read.append(memoryview(piece))
            self.end += len(piece)
            yield piece

    def has_more(self) -> bool:
        """Returns whether there is another byte. Reads a piece if none is there that was read."""
        return bool(self._read) or next(self.pieces(), None) is not None

    def chunk(self, end: int) -> Tuple[Hash, int]:
        """Returns the chunk that ends after so many bytes."""
        size, hasher = end - self.place, Hasher()
        while self.place < end:
            if not self.has_more():
                raise InvalidArguments(but_got(f"a cut must be at most the number of bytes, {self.end}", end))
            self._add(hasher, end - self.place)
        return hasher.hash(), size

    def rest(self) -> Tuple[Hash, int]:
        """Returns the chunk that ends with the stream."""
        begin, hasher = self.place, Hasher()
        while self.has_more():
            self._add(hasher, PIECE)
        return hasher.hash(), self.place - begin

    def _add(self, hasher: Hasher, most: int) -> None:
        """Hashes what is left of the first piece, at most so many bytes."""
        piece = self._read.popleft()
        hasher.update(piece[:most])
        self.place += min(len(piece), most)
        if len(piece) > most:
            self._read.appendleft(piece[most:])
