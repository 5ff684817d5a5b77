"""Messages that come to a hasher in pieces: after some of them, the hash is that of all bytes so far, for every message."""

from __future__ import annotations

from dataclasses import dataclass
from itertools import accumulate
from typing import Dict, Iterator, List, Sequence, Set

from calls import DATA_KEY, INTERNAL_KEY, KEY, MESSAGE, RESULT, Caller, bytes_of
from definition import keyed_hash
from fault import Fault
from layout import Library
from machine import Machine
from wanted import Wanted
from words import Word, forget, low

#: Where the hasher is, and how many bytes it has.
HASHER, HASHER_SIZE = 0x25000000, 2048


@dataclass(frozen=True)
class Pieces:
    """How a hasher begins, the lengths of pieces, and after how many bytes the hash is asked for."""

    what: str
    begin: str
    lengths: List[int]
    ends: Set[int]


def every(what: str, begin: str, lengths: List[int]) -> Pieces:
    """Pieces after each of which the hash is asked for."""
    return Pieces(what, begin, lengths, {0, *accumulate(lengths)})


def lists(lanes: int, is_short: bool) -> Iterator[Pieces]:
    """The lists of pieces that are checked. Some have pieces that fill all lanes."""
    yield Pieces("bytes", "data", [1] * 130, {0, 1, 2, 63, 64, 65, 128, 129, 130})
    yield Pieces("blocks", "keyed", [64] * 33, {64, 128, 1024, 1088, 2048, 2112})
    yield every("1000 bytes", "internal", [1000] * 3)
    yield every("chunks", "keyed", [1024] * 3)
    yield Pieces("many lengths", "internal", [0, 1, 63, 64, 65, 831, 1023, 0, 1025], {3072})
    yield Pieces("all lanes", "keyed", [1024 * lanes + 77, 1], {1024 * lanes + 78})
    if not is_short:
        yield every("many lengths, each time", "keyed", [0, 1, 63, 64, 65, 831, 1023, 1024, 0, 1025, 2048, 3000])
        yield every("bytes, each time", "keyed", [1] * 1100)
        yield Pieces("bytes of chunks", "internal", [1] * 3080, {1023, 1024, 1025, 2047, 2048, 2049, 3071, 3072, 3073, 3080})
        yield every("blocks, each time", "data", [64] * 66)
        yield every("more than blocks", "data", [65] * 66)
        yield every("more chunks", "data", [1024] * 33)
        yield every("less than chunks", "keyed", [1023] * 9)
        yield every("more than chunks", "keyed", [1025] * 9)
        yield every("all lanes after some bytes", "keyed", [5, 1024 * 2 * lanes + 77, 1])
        yield every("all lanes after two chunks", "keyed", [1024 * 2, 1024 * 4 * lanes + 1])
        for begin in ("data", "internal", "keyed"):
            yield every("all lanes again", begin, [1024 * lanes, 1024 * lanes, 1, 1024 * 3 * lanes, 1023, 1024 * lanes + 1, 4096, 2])
        yield every("doubled", "data", [1 << k for k in range(16)])


class Hasher:
    """A hasher in the memory of a machine. No call may use anything but the hasher and its arguments."""

    def __init__(self, caller: Caller, begin: str, key: List[Word]) -> None:
        self.caller, self.memory = caller, caller.m.memory
        self.memory.add_region(HASHER, HASHER_SIZE, True)
        self.memory.add_bytes(KEY, key)
        caller.call(f"hasher_begin_{begin}", HASHER, *([KEY] if begin == "keyed" else []))
        self.memory.remove_region(KEY)

    def update(self, place: int, piece: List[Word]) -> None:
        """Appends a piece, which is at a place in memory, or nowhere if it has no bytes."""
        self.memory.add_bytes(place, piece)
        self.memory.remove_region(place)
        self.update_at(place, len(piece))

    def update_at(self, place: int, length: int) -> None:
        """Appends so many bytes of memory, which nothing else may use."""
        self.memory.add_region(place, length, False)
        status = low(self.caller.call("hasher_update", HASHER, place if length else 0, length))
        self.memory.remove_region(place)
        if status != 0:
            raise Fault("a hasher takes no piece")

    def hash(self) -> List[Word]:
        """The hash of the bytes so far, after which the hasher is as it was."""
        self.memory.remove_region(HASHER)
        self.memory.add_region(HASHER, HASHER_SIZE, False)
        self.memory.add_region(RESULT, 32, True)
        self.caller.call("hasher_finalize", HASHER, RESULT)
        for region in (RESULT, HASHER):
            self.memory.remove_region(region)
        self.memory.add_region(HASHER, HASHER_SIZE, True)
        return self.memory.words_at(RESULT, 8)

    def count(self) -> object:
        return self.caller.call("hasher_count", HASHER)


def check_pieces(library: Library, pieces: Pieces) -> Machine:
    """Shows that each hash is that of the definition, for every message and, where the hasher begins so, every key."""
    forget()
    message, own_key = bytes_of("message", sum(pieces.lengths)), bytes_of("key", 32)
    keys: Dict[str, Sequence[Word]] = {"data": DATA_KEY, "internal": INTERNAL_KEY, "keyed": own_key}
    key = keys[pieces.begin]
    keyed_hash(key, message)  # seals the chaining values that a hasher keeps
    caller = Caller(library)
    hasher = Hasher(caller, pieces.begin, own_key)
    for start, length in zip(accumulate([0, *pieces.lengths]), [*pieces.lengths, 0]):
        if start in pieces.ends:
            wanted = Wanted(keyed_hash, key, message[:start])
            wanted.must_be(hasher.hash(), f"{start} bytes in pieces ({pieces.what}, {pieces.begin})")
        hasher.update(MESSAGE + start, message[start:start + length])
    if hasher.count() != len(message):
        raise Fault(f"a hasher says that it has other than {len(message)} bytes")
    return caller.m
