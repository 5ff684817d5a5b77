"""Where Xet cuts a file into chunks."""

from __future__ import annotations

import ctypes
from typing import Iterable, Iterator, List, NoReturn, Optional, final

from ._calls import memmove
from ._errors import YurewhaError, counted
from ._guard import Guarded
from ._hash import Start, place_of
from ._lent import in_place, is_read_only, view_of_bytes
from ._library import LONG_BYTES, CChunker, calls_for, short
from ._types import BytesLike

__all__ = ["Chunker"]

#: The most bytes of a chunk, so that no call looks at more.
_MOST = 1 << 17


@final
class Chunker(Guarded):
    """Xet's chunker. It says where the chunks of a file end, which comes in pieces.

    A chunk has 8192 to 131072 bytes, but the last of a file may have fewer. The chunks are the same in whatever pieces the file comes.

    >>> chunker, left, ends = Chunker(), memoryview(bytes(300_000)), []
    >>> while (end := chunker.next_boundary(left)) is not None:
    ...     ends.append(end)
    ...     left = left[end:]
    >>> ends, chunker.taken
    ([131072, 131072], 37856)
    """

    __slots__ = ("_state",)

    # It stays in one place, as the state of a hasher does.
    _state: CChunker

    def __new__(cls) -> Chunker:
        self = object.__new__(cls)
        self._guard()
        self._state = CChunker()
        short.yurewha_chunker_begin(self._state)
        return self

    def __init_subclass__(cls) -> None:
        raise TypeError("Chunker can't be subclassed")

    @property
    def taken(self) -> int:
        """How many bytes of the chunk were taken so far. If the file ends here, and there are any, they are its last chunk.

        >>> Chunker().taken
        0
        """
        with self._locked():
            return int(short.yurewha_chunker_taken(self._state))

    def next_boundary(self, piece: BytesLike) -> Optional[int]:
        """Takes more of the file. Returns after how many bytes of the piece the chunk ends, or None if it goes on.

        It takes no more than these bytes, so the next call begins with what follows them; or else it takes the whole piece. Of bytes that
        can be written to it looks at a copy, of at most a chunk if they are contiguous.

        >>> Chunker().next_boundary(3000 * bytes([0, 148, 143]))
        8193
        """
        if type(piece) is bytes:
            return self._next(piece, len(piece))
        with view_of_bytes(piece) as view:
            if not view.c_contiguous:
                return self._next(view.tobytes(), view.nbytes)
            if is_read_only(view):
                return in_place(view, self._next)
            copy = bytes(view.cast("B")[:_MOST])
            return self._next(copy, len(copy))

    def _next(self, start: Start, length: int) -> Optional[int]:
        with self._locked():
            end = calls_for(length, LONG_BYTES).yurewha_chunker_next_boundary(self._state, start, length)
        return int(end) or None

    def copy(self) -> Chunker:
        """Returns an independent chunker, which has taken the same bytes.

        >>> one = Chunker(); other = one.copy()
        >>> one.next_boundary(b"abc"), one.taken, other.taken
        (None, 3, 0)
        """
        other = Chunker()
        with self._locked():
            memmove(ctypes.byref(other._state), ctypes.byref(self._state), ctypes.sizeof(CChunker))
        return other

    def __copy__(self) -> Chunker:
        return self.copy()

    def __deepcopy__(self, memo: object) -> Chunker:
        return self.copy()

    def __reduce__(self) -> NoReturn:
        raise TypeError("a Chunker can't be pickled")

    def __repr__(self) -> str:
        try:
            return f"<yurewha.Chunker, {counted(self.taken, 'byte')} of a chunk>"
        except YurewhaError:
            return "<yurewha.Chunker that can't be read>"


def ends_in(chunker: Chunker, piece: bytes) -> List[int]:
    """Returns where chunks end in a piece, all of which the chunker takes.

    >>> ends_in(Chunker(), bytes(300_000))
    [131072, 262144]
    """
    place, start, ends = 0, place_of(piece), []
    end = chunker._next(piece, len(piece))
    while end is not None:
        place += end
        ends.append(place)
        end = chunker._next(ctypes.c_char_p(start + place), len(piece) - place)
    return ends


def xet_cuts(pieces: Iterable[bytes]) -> Iterator[int]:
    """Yields where the chunks of a file end that comes in pieces. The last one ends with the file, if it isn't yielded.

    >>> list(xet_cuts([bytes(100_000), bytes(200_000)]))
    [131072, 262144]
    """
    chunker, begin = Chunker(), 0
    for piece in pieces:
        for end in ends_in(chunker, piece):
            yield begin + end
        begin += len(piece)
