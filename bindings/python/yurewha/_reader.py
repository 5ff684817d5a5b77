"""What is kept of a file, and parts of it that are checked, as handles of the library. It decides which bytes may be returned."""

from __future__ import annotations

import ctypes
from typing import List, Optional, Tuple

from ._calls import error_in_python
from ._declarations import STATUSES
from ._errors import ProofMismatch, error_of
from ._guard import Handle, both_locked
from ._interrupts import MANY_BYTES, MANY_NODES, interruptible
from ._library import LONG_BYTES, LONG_NODES, CPart, CReader, bare, calls_for, long, short
from ._range_proof import RangeProof

#: From so many bytes on, they are copied without the interpreter's lock.
_LONG_COPY = 1 << 20
_MAX_U64 = 2**64 - 1


class Reader(Handle):
    """What was checked of one file and is kept, and the size of the file once that was shown. Any number of threads may use it.

    The chunks that are kept count at most `most`: each counts its bytes, and 128 for the memory beside them.

    >>> reader = Reader(bytes(32), bytes(32), 1000)
    >>> reader.read(0, 5), reader.size(), reader.counted()
    ((b'', 5), None, 0)
    """

    __slots__ = ("_spare",)

    _handle: CReader
    # Pairs of numbers for the library to write to, which no read uses now.
    _spare: List[Tuple[ctypes.c_size_t, ctypes.c_uint64]]

    def __init__(self, file_hash: bytes, salt: bytes, most: int) -> None:
        self._guard()
        self._handle, self._spare = CReader(), []
        status = short.yurewha_reader_new(file_hash, salt, most, self._handle)
        if status:
            raise error_of(status)

    _free = staticmethod(short.yurewha_reader_free)

    def read(self, place: int, count: int) -> Tuple[bytes, int]:
        """Returns the bytes that are kept from a place on, at most `count`, and up to where bytes are missing after them."""
        # A new object, which nobody else has seen. The library writes the bytes to it.
        room = bytes(count)
        # Nobody else has these either, until they are given back: a handler that reads in between takes others.
        try:
            pair = self._spare.pop()
        except IndexError:
            pair = ctypes.c_size_t(), ctypes.c_uint64()
        filled, end = pair
        read = (bare if count < _LONG_COPY else long).yurewha_reader_read
        try:
            with self._locked():
                status = read(self._handle, place, room, count, count, filled, end)
        except ctypes.ArgumentError as error:
            raise error_in_python(error) from None
        if status:
            raise error_of(status)
        number, missing = filled.value, end.value
        self._spare.append(pair)
        return room if number == count else room[:number], missing

    def needs(self, start: int, stop: int) -> int:
        """Returns up to where bytes are missing from a place on, if none of it is kept."""
        first, end = ctypes.c_uint64(), ctypes.c_uint64()
        with self._locked():
            status = short.yurewha_reader_needs(self._handle, start, min(stop, _MAX_U64), stop - start, first, end)
        if status == STATUSES["YUREWHA_ARGUMENTS"]:
            return start
        if status:
            raise error_of(status)
        return end.value

    def piece(self, place: int, length: int) -> Tuple[int, int]:
        """Returns where the piece with a place begins and ends, of the pieces of so many bytes that follow one another in the file."""
        begin, end = ctypes.c_uint64(), ctypes.c_uint64()
        with self._locked():
            status = short.yurewha_reader_piece(self._handle, place, length, begin, end)
        if status:
            raise error_of(status)
        return begin.value, end.value

    def size(self) -> Optional[int]:
        """Returns the size of the file in bytes, or None until a chunk was checked."""
        out = ctypes.c_uint64()
        with self._locked():
            status = short.yurewha_reader_size(self._handle, out)
        if status == STATUSES["YUREWHA_ARGUMENTS"]:
            return None
        if status:
            raise error_of(status)
        return out.value

    def counted(self) -> int:
        """Returns what all chunks count."""
        out = ctypes.c_uint64()
        with self._locked():
            status = short.yurewha_reader_counted(self._handle, out)
        if status:
            raise error_of(status)
        return out.value

    def _memory(self) -> int:
        return self.counted()

    def keep_at_most(self, most: int) -> None:
        """Changes what all chunks may count. Those that were used longest ago are forgotten until they do."""
        with self._locked():
            status = short.yurewha_reader_keep_at_most(self._handle, most)
        if status:
            raise error_of(status)

    def take(self, part: Part) -> bool:
        """Keeps the chunks of a part that were checked, and leaves the part empty. Returns False, and does nothing, if it isn't of this file."""
        one, other = both_locked(self, part)
        with one, other:
            status = calls_for(part.num_nodes, LONG_NODES).yurewha_reader_take(self._handle, part._handle)
        if status not in (0, STATUSES["YUREWHA_ARGUMENTS"]):
            raise error_of(status)
        return not status


class Part(Handle):
    """A part of a file that was asked for, and what was checked of it. One reader of the file waits for it."""

    __slots__ = ("begin", "end", "num_nodes")

    _handle: CPart
    #: Where in the file the chunks begin and end whose data is checked.
    begin: int
    end: int
    #: How many nodes the proof had.
    num_nodes: int

    def __init__(self, proof: RangeProof, file_hash: bytes, salt: bytes, start: int, stop: int, beyond: int) -> None:
        """Opens the proof of a part with the bytes from `start` up to `stop` or to the end of the file.

        Raises `ProofMismatch` unless it shows the file hash under the salt, has these bytes, and goes at most `beyond` bytes further.
        """
        self._guard()
        self._handle, self.num_nodes = CPart(), len(proof._nodes)
        begin, end = ctypes.c_uint64(), ctypes.c_uint64()
        given = (proof._levels, proof.num_levels, proof._nodes.packed, self.num_nodes, file_hash, salt, start, stop, beyond)
        call = calls_for(self.num_nodes, LONG_NODES).yurewha_part_open
        status = interruptible(lambda: int(call(*given, begin, end, self._handle)), self.num_nodes >= MANY_NODES)
        self.begin, self.end = begin.value, end.value
        if status == STATUSES["YUREWHA_ELSEWHERE"]:
            raise ProofMismatch(f"{self._told()}, and not of those from {start} up to {stop}")
        if status == STATUSES["YUREWHA_TOO_FAR"]:
            raise ProofMismatch(f"{self._told()}, too far beyond those from {start} up to {stop}: see chunk_limit")
        if status:
            raise error_of(status, "the proof doesn't show this file hash under this salt")

    _free = staticmethod(short.yurewha_part_free)

    def _told(self) -> str:
        return f"the proof is of the bytes from {self.begin} up to {self.end}"

    def check(self, data: bytes, keep: bool) -> memoryview:
        """Checks the data of all chunks. Returns the bytes that were asked for, a part of the data, and keeps the chunks if that is said.

        Raises `ProofMismatch` unless it is their data, and nothing else. Of data that was cut off or is wrong, the chunks before are kept.
        """
        start, count = ctypes.c_size_t(), ctypes.c_size_t()

        def check() -> int:
            with self._locked():
                return int(calls_for(len(data), LONG_BYTES).yurewha_part_check(self._handle, data, len(data), keep, start, count))

        status = interruptible(check, len(data) >= MANY_BYTES, self)
        if status:
            error = error_of(status, self._wrong(len(data)))
            if isinstance(error, ProofMismatch) and len(data) <= self.end - self.begin:
                error.chunk, error.place = self._checked()
            raise error
        return memoryview(data)[start.value:start.value + count.value]

    def _wrong(self, length: int) -> str:
        if length != self.end - self.begin:
            return f"the range has {self.end - self.begin} bytes, and the data {length}"
        return "this isn't the data of the range"

    def _checked(self) -> Tuple[int, int]:
        """Returns how many chunks were right, and where in the file the next one begins."""
        chunks, place = ctypes.c_size_t(), ctypes.c_uint64()
        with self._locked():
            status = short.yurewha_part_checked(self._handle, chunks, place)
        if status:
            raise error_of(status)
        return chunks.value, place.value
