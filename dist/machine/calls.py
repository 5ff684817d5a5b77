"""Whole calls of the library: for messages of some lengths, the machine code computes the definition for every message."""

from __future__ import annotations

from functools import partial
from typing import Callable, List, Sequence, Set, Tuple

from definition import keyed_hash
from fault import Fault
from layout import Library, inner
from machine import Machine
from wanted import Wanted
from widths import WIDTHS, of_width
from words import Value, Word, byte, forget, symbol

#: The keys of the hashes of chunks and of texts, as crates/xet_hash/specs/Hash.antt has them.
DATA_KEY = bytes((
    102, 151, 245, 119, 91, 149, 80, 222, 49, 53, 203, 172, 165, 151, 24, 28, 157, 228, 33, 16, 155, 235, 43, 88, 180, 208, 176, 75, 147,
    173, 242, 41,
))
INTERNAL_KEY = bytes((
    1, 126, 197, 199, 165, 71, 41, 150, 253, 148, 102, 102, 180, 138, 2, 230, 93, 221, 83, 111, 55, 199, 109, 210, 248, 99, 82, 230, 74, 83,
    113, 63,
))
STACK, STACK_SIZE = 0x7FFF00000000, 65536
#: Where messages, results and keys are, and how far from these places, and from the top of the stack, a call may have its own instead.
MESSAGE, RESULT, KEY = 0x10000000, 0x20000010, 0x24000008
PLACES = ((0, 0), (1, 16), (6, 64))


def bytes_of(name: str, length: int) -> List[Word]:
    """Bytes of symbols."""
    words = [symbol(f"{name} {i}") for i in range((length + 3) // 4)]
    return [byte(words[i // 4], i % 4) for i in range(length)]


class Caller:
    """A machine that calls functions of a library, one after the other."""

    def __init__(self, library: Library, stack: int = STACK) -> None:
        self.library, self.stack = library, stack
        self.m: Machine = library.machine()

    def call(self, name: str, *arguments: Value) -> Value:
        """Calls the library by the rules of C. Returns what it returns."""
        return self.run(self.library.call(name), arguments)

    def run(self, function: str, arguments: Sequence[Value], vectors: Sequence[Sequence[Word]] = ()) -> Value:
        """Runs a function on a new stack, with arguments that are values or vectors. Everything else is unknown."""
        m = self.m
        m.forget_registers()
        m.general[m.STACK] = self.stack
        m.memory.add_stack(self.stack - STACK_SIZE, STACK_SIZE)
        m.give(arguments, vectors)
        m.call(m.image.function(function))
        m.memory.remove_region(self.stack - STACK_SIZE)
        self.stack -= STACK_SIZE
        return m.general[m.RESULT]


def check_hash(library: Library, name: str, length: int, shifts: Tuple[int, int] = PLACES[0]) -> Machine:
    """`data_hash` or `internal_node_hash`, for every message of a length, at places that are shifted. Returns the machine that ran it."""
    return check_hash_of(library, name, bytes_of("message", length), shifts)


def check_hash_of(library: Library, name: str, data: Sequence[Word], shifts: Tuple[int, int] = PLACES[0]) -> Machine:
    """The same for a message, which may be of numbers."""
    message, stack, length = MESSAGE + shifts[0], STACK - shifts[1], len(data)
    wanted = Wanted(keyed_hash, DATA_KEY if name == "data_hash" else INTERNAL_KEY, data)
    caller = Caller(library, stack)
    caller.m.memory.add_bytes(message, list(data))
    caller.m.memory.add_region(RESULT, 32, True)
    caller.call(name, message, length, RESULT)
    wanted.must_be(caller.m.memory.load(RESULT, 8), f"{name} of {length} bytes")
    return caller.m


def lanes_for(chunks: int, most: int) -> Set[int]:
    """The numbers of lanes in which some chunks may be hashed: the fewest that hold them, and at most `most`. If there could be more
    lanes than four, two chunks go as a pair, and three or four at once."""
    if chunks <= (2 if most == 4 else 4):
        return set()
    return {next(lanes for lanes in WIDTHS if lanes >= min(chunks, most))}


def must_take(library: Library, kernel: str, wanted: Set[int], run: Callable[[], Machine], what: str) -> Machine:
    """Runs a call in which a kernel has to run with this number of lanes. Nothing else can show that: a hash is right in any."""
    kept = dict(library.decoded)
    library.decoded.clear()
    m = run()
    met = {library.image.instructions[at].function for at in library.decoded}
    library.decoded.update(kept)
    found = {lanes for lanes in WIDTHS if inner(of_width(kernel, lanes)) in met}
    if found != wanted:
        raise Fault(f"{what} are hashed in lanes by {sorted(found)}, not by {sorted(wanted)}")
    return m


def check_lanes(library: Library, chunks: int) -> Machine:
    """How many lanes a message of some chunks takes."""
    run = partial(check_hash, library, "data_hash", 1024 * chunks)
    return must_take(library, "chunks::chunk_values", lanes_for(chunks, library.level.lanes), run, f"{chunks} chunks")


def check_hmac(library: Library) -> Machine:
    """`hmac`, for every hash and every key."""
    forget()
    data, key = bytes_of("hash", 32), bytes_of("key", 32)
    wanted = Wanted(keyed_hash, key, data)
    caller = Caller(library)
    caller.m.memory.add_bytes(MESSAGE, data)
    caller.m.memory.add_bytes(KEY, key)
    caller.m.memory.add_region(RESULT, 32, True)
    caller.call("hmac", MESSAGE, KEY, RESULT)
    wanted.must_be(caller.m.memory.load(RESULT, 8), "hmac")
    return caller.m
