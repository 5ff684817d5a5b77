"""Runs of the functions around the kernels for every number: each one meets at machine level what its source promises.

Each check runs one function. The functions that it calls are stand-ins, which do what is promised of them, and have checks of their own:
those that compress blocks are unknown functions, as in long_messages.py. Lengths, counts and numbers of chunks are Numbers of bits.py, so
that each run is for a class of them, and explore.py goes through all classes.
"""

from __future__ import annotations

from typing import Callable, Dict, List, NamedTuple, Sequence, Set, Tuple

import bits
from bits import Answers, Class, Some
from calls import STACK, Caller
from covers import must_cover
from definition import CHUNK_END, CHUNK_START, KEYED_HASH, PARENT
from explore import classes
from fault import Fault
from layout import Library, inner
from long_messages import Arguments, Unknown
from machine import RETURN, Machine, unknown_value
from memory import Memory
from words import Value, Word, forget, node, symbol, unknown

#: Where things are: a hasher, which has the key, a chaining value, the values that wait, a block and the count of bytes; others, and the
#: message, which may be as long as memory is.
HASHER, KEY, VALUE, PLACES, RESULT, MESSAGE = 0x25000000, 0x26000000, 0x27000000, 0x28000000, 0x29000000, 1 << 62
OPEN, WAITING, BLOCK, COUNT, HASHER_SIZE = 32, 64, 64 + 54 * 32, 128 + 54 * 32, 136 + 54 * 32
#: A message has at most 2^DEPTH chunks.
DEPTH = 54


class Check(NamedTuple):
    """A check: its name, how many bits its numbers have, what runs it for a class, the first answers of the numbers of a short check; and how
    many numbers it leaves out, because nothing is promised for them, with the words for these."""

    name: str
    bits: int
    run: Callable[[Class], None]
    few: Sequence[Answers] = ((),)
    left_out: int = 0
    which: str = ""


def at_place(place: int) -> Word:
    """The word that is at a place at first."""
    return symbol(f"at {place:#x}")


class Theory:
    """What the definition says of unknown functions."""

    def __init__(self, kernels: Unknown) -> None:
        self.compress = kernels.compress

    def words_of_block(self, memory: Memory, at: Some) -> List[Word]:
        """The words of a block of 64 bytes of a message."""
        return memory.load(at, 16) if isinstance(at, int) else [node("in", "message", at, k) for k in range(16)]

    def chunk_value(self, memory: Memory, key: Sequence[Word], at: Some, i: Some) -> Sequence[Word]:
        """The value of chunk number i, which isn't the only one."""
        value = key
        for n in range(16):
            flags = KEYED_HASH + (CHUNK_START if n == 0 else 0) + (CHUNK_END if n == 15 else 0)
            value = self.compress(value, self.words_of_block(memory, bits.add(at, 64 * n)), i, 64, flags)
        return value

    def parent_value(self, key: Sequence[Word], left: Sequence[Word], right: Sequence[Word], flags: int = 0) -> Sequence[Word]:
        return self.compress(key, [*left, *right], 0, 64, KEYED_HASH + PARENT + flags)

    def subtree_value(self, memory: Memory, key: Sequence[Word], at: Some, i: Some, level: int) -> Sequence[Word]:
        """The value of the subtree of 2^level chunks from number i on: of a chunk, or a symbol."""
        if level == 0:
            return self.chunk_value(memory, key, at, i)
        return [node("in", "subtree", tuple(key), at, i, level, k) for k in range(8)]


class Course:
    """A machine that runs functions of a library, each time for a class of numbers."""

    def __init__(self, library: Library) -> None:
        self.library, self.caller = library, Caller(library)
        self.m: Machine = self.caller.m
        self.constants, self.regions = dict(self.m.memory.words), list(self.m.memory.regions)
        #: How many runs there were, and which functions were run, and which had stand-ins that ran.
        self.runs = 0
        self.checked: Set[str] = set()
        self.replaced: Set[str] = set()
        #: Words that are somewhere at first, and lists of words, by what they are.
        self.first: Dict[object, List[Word]] = {}

    def begin(self, its: Class) -> Theory:
        """Begins a run for a class, in new memory. Words are forgotten now and then, to save memory."""
        if self.runs % 200 == 0:
            forget()
            self.first.clear()
        self.runs += 1
        bits.begin(its)
        self.caller.stack = STACK
        self.m.memory = self.memory()
        self.m.stand_ins.clear()
        self.calls = Calls(self, self.m.memory)
        return Theory(Unknown(self.library, self.m))

    def memory(self) -> Memory:
        memory = Memory(self.m.lowest_on_stack)
        memory.regions = list(self.regions)
        memory.first_word = self._first_word
        return memory

    def _first_word(self, place: int) -> Word:
        if place in self.constants:
            return self.constants[place]
        if self.m.memory.stack_start <= place < self.m.memory.stack_end:
            return unknown()
        return self.kept_words(place, lambda: [at_place(place)])[0]

    def has(self, function: str) -> bool:
        """Whether the level has the function apart from those that call it."""
        return self.library.has(inner(function))

    def stand_in(self, function: str, it: Callable[[Arguments], None]) -> None:
        """Does something else in the place of a function, if the level has it."""
        if self.has(function):
            def run() -> Value:
                self.replaced.add(function)
                it(Arguments(self.library, self.m))
                return unknown_value()

            self.m.stand_ins[self.library.image.function(inner(function))] = run

    def run(self, function: str, arguments: Sequence[Value]) -> None:
        """Runs a function. Calls of itself may be stand-ins."""
        self.checked.add(function)
        self.caller.run(inner(function), arguments)

    def call(self, name: str, *arguments: Value) -> Value:
        """Calls the library by the rules of C. Returns what it returns."""
        self.checked.add(name)
        return self.caller.call(name, *arguments)

    def enter(self, function: str, arguments: Sequence[Value], ends: Sequence[int]) -> int:
        """Runs a function from its start until the code arrives at one of some ends, or returns. Returns where it has stopped. What registers
        have at first has names."""
        self.checked.add(function)
        m, width = self.m, self.m.SIZES[2]
        m.general = [(symbol(f"register {i} low"), symbol(f"register {i} high")) for i in range(len(m.general))]
        words = self.kept_words("vectors", lambda: [symbol(f"vector {i} {k}") for i in range(m.SIZES[1]) for k in range(width)])
        m.vectors = [words[i:i + width] for i in range(0, len(words), width)]
        m.flags = None
        m.general[m.STACK] = STACK
        m.memory.add_stack(STACK - 65536, 65536)
        m.give(arguments, ())
        m.frames = [(RETURN, m.kept())]
        m.begin_call()
        return m.run(self.library.image.function(inner(function)), (*ends, RETURN))

    def kept_words(self, what: object, made: Callable[[], List[Word]]) -> List[Word]:
        """Words that are the same in each run, and are made once."""
        found = self.first.get(what)
        if found is None:
            found = self.first[what] = made()
        return found

    def words(self, place: int, count: int) -> List[Word]:
        return self.m.memory.words_at(place, count)

    def must_keep(self, start: int, end: int, what: str) -> None:
        """Refuses places that don't have what they had at first."""
        for place in range(start, end, 4):
            its = self.m.memory.words.get(place)
            if its is not None and its != at_place(place):
                raise Fault(f"{what} isn't kept at {place:#x}")


def add_hasher(memory: Memory) -> None:
    """Gives memory a hasher."""
    memory.add_region(HASHER, HASHER_SIZE, True)


class Calls:
    """The calls of functions that change a hasher in some memory. Each has what is in the hasher before, and leaves it unknown."""

    def __init__(self, course: Course, memory: Memory) -> None:
        self.course, self.memory = course, memory
        self.made: List[Tuple[object, ...]] = []

    def make(self, *what: object, opens: bool = False) -> None:
        """Makes a call. One that opens a chunk uses and changes the open chunk's chaining value, too."""
        before = self.memory.load(HASHER + WAITING, 8 * DEPTH), self.memory.words_at(HASHER + OPEN, 8) if opens else []
        self.made.append((*what, *before))
        self._put("waiting", WAITING, 8 * DEPTH)
        if opens:
            self._put("open", OPEN, 8)

    def _put(self, name: str, place: int, count: int) -> None:
        """Puts words that are the same after as many calls."""
        made = len(self.made)
        words = self.course.kept_words((name, made), lambda: [node("in", name, made, k) for k in range(count)])
        self.memory.put_words(HASHER + place, words)


def must_be(found: Sequence[object], wanted: Sequence[object], what: str) -> None:
    if list(found) != list(wanted):
        raise Fault(f"{what}: {shown(list(found))}, not {shown(list(wanted))}")


def shown(its: object) -> str:
    """The beginning of a text of something."""
    text = repr(its)
    return text if len(text) < 120 else f"{text[:120]}.."


def run_check(it: Check, is_short: bool) -> int:
    """Runs a check for all classes, or only for some of them, if it should be short. Returns how many there were."""
    if is_short:
        return len(classes(it.run, it.name, it.few).run)
    found = classes(it.run, it.name)
    must_cover(*found, it.left_out, it.bits, it.name)
    return len(found.run)
