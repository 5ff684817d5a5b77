"""Reading ahead: what a reader who goes on from where it stopped will ask for next is fetched meanwhile, in threads."""

from __future__ import annotations

import os
from functools import partial
from typing import Callable, List, Optional

from ._interrupts import Outcome, ThreadLost, waited

#: Reads the bytes from a place up to another one.
Read = Callable[[int, int], memoryview]

#: How many pieces are read ahead, and how many bytes a piece has at least.
_PIECES = 8
_LEAST = 1 << 18


class _Piece:
    """Bytes of a file that are read ahead. `coming` is None until a thread reads them, and after it failed."""

    __slots__ = ("begin", "end", "coming")

    def __init__(self, begin: int, end: int) -> None:
        self.begin, self.end = begin, end
        self.coming: Optional[Outcome[memoryview]] = None


class ReadAhead:
    """Pieces of a file that are being read, or were and are waited for. Each begins where the one before it ends.

    One thread at a time may use it. A thread of its own reads each piece, so that a process may end meanwhile.

    >>> ahead, whole = ReadAhead(1 << 20), memoryview(bytes(3_000_000))
    >>> parts = ahead.parts(lambda start, stop: whole[start:stop], 5, 300_000, len(whole))
    >>> sum(map(len, parts))
    300000
    """

    __slots__ = ("_most", "_pieces", "_process")

    _most: int
    _pieces: List[_Piece]
    # A process that was forked has none of the threads, so that none of its pieces comes.
    _process: int

    def __init__(self, most: int) -> None:
        self._most, self._pieces, self._process = most, [], os.getpid()

    def parts(self, read: Read, start: int, count: int, size: int) -> List[memoryview]:
        """Returns `count` bytes from a place on, in parts, and begins to read the pieces behind them, up to the end of the file.

        What reading a piece raised is raised here. The piece is then read again when it is asked for again.

        >>> ReadAhead(1).parts(lambda start, stop: memoryview(b"abc")[start:stop], 1, 2, 3)[0].tobytes()
        b'bc'
        """
        pieces = self._pieces if self._process == os.getpid() else []
        # Those that this call has come past stay until it ends, so that a later error loses nothing.
        pieces = [piece for piece in pieces if piece.end > start]
        self._pieces = pieces = pieces if pieces and pieces[0].begin <= start else []
        self._process = os.getpid()
        parts, position, stop, number = [], start, start + count, 0
        while position < stop:
            self._want(pieces, position, size)
            for piece in pieces[number:]:
                _begin(read, piece)
            piece = pieces[number]
            part = _come(read, piece)[position - piece.begin:stop - piece.begin]
            parts.append(part)
            position, number = position + len(part), number + 1
        return parts

    def _want(self, pieces: List[_Piece], position: int, size: int) -> None:
        """Appends pieces until they reach as far ahead of a position as they may, and past the position itself."""
        length = max(min(self._most, size) // _PIECES, _LEAST)
        begin = pieces[-1].end if pieces else position
        while begin <= position or begin < min(position + self._most, size):
            pieces.append(_Piece(begin, min(begin + length, size)))
            begin += length

    def forget(self) -> None:
        """Forgets all pieces. Those that are being read are read to their end, and thrown away.

        >>> ReadAhead(1).forget()
        """
        self._pieces = []


def _begin(read: Read, piece: _Piece) -> None:
    """Begins to read a piece, unless that was begun before."""
    if piece.coming is None:
        coming: Outcome[memoryview] = Outcome()
        try:
            coming.begin(partial(read, piece.begin, piece.end))
        except RuntimeError:
            return  # no thread can be started
        piece.coming = coming


def _come(read: Read, piece: _Piece) -> memoryview:
    """Waits for a piece, and returns it."""
    coming = piece.coming
    if coming is None:
        return read(piece.begin, piece.end)
    try:
        return waited(coming)
    except ThreadLost:
        piece.coming = None
        return read(piece.begin, piece.end)
    except BaseException:
        if coming.has_come():
            piece.coming = None
        raise
