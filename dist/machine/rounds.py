"""`Hasher::update`, for every hasher and every piece: up to its loop, and one round of the loop with what follows it.

The state at the loop's head is that of a hasher that has taken in some blocks, and the place in the piece where the next one begins. What
registers and the stack have there is found from a few runs: sums of these numbers, or what the function began with. A run from the start
has to arrive with these values, and so has a round, for every number of blocks and every rest. What isn't such a sum is unknown at the head.
"""

from __future__ import annotations

from fractions import Fraction
from typing import Callable, Dict, Iterator, List, NamedTuple, Optional, Sequence, Tuple, Union

import bits
from bits import Beyond, Class, Some
from calls import STACK
from course import BLOCK, COUNT, HASHER, HASHER_SIZE, MESSAGE, Check, Course, Theory, add_hasher, must_be
from fault import Fault, number, some
from layout import inner
from long_messages import Arguments
from loops import head_of_loop
from machine import RETURN, Forgotten, unknown_value
from source import ABSORB, CLOSE, Source, below, stand_in_for_add
from widths import WIDTHS, of_width
from words import Node, Value, high, low, pair, symbol

UPDATE, SUBTREES = "hasher::Hasher::update", "tree::Tree::absorb_subtrees"
#: How many bits a count of bytes has, a number of blocks, and a length of a piece. A message has fewer than 2^64 bytes, but nothing is left
#: out for that: both sides count modulo 2^64.
BYTES, BLOCKS, LENGTH = 64, 58, 63
#: A call of absorb_subtrees: the number of the first chunk, the chunks of a subtree, how many subtrees, the place and the size of their
#: bytes, and whether the message ends with them.
Absorbed = Tuple[int, Some, Some, Some, Some, Some, int]
#: A place that has a value at the loop's head: a register, a vector's word, or 8 bytes of the stack above its pointer.
Place = Tuple[str, int]
#: What a place has at the head: a sum of 1, the blocks taken in, the bytes of the piece that were taken, its length and its place, with
#: these factors; or a name of what the function began with, or the names of a vector's first words.
Kept = Union[Tuple[int, ...], str, Tuple[str, ...]]


class State(NamedTuple):
    """The numbers at the loop's head."""

    blocks: Some
    taken: Some
    length: Some
    piece: Some

    def sum(self, factors: Sequence[int]) -> Some:
        whole: Some = factors[0] & bits.M64
        for factor, its in zip(factors[1:], self):
            if factor:
                whole = bits.add(whole, its, factor)
        return whole


class Sample(NamedTuple):
    """What was at the head in a run with known numbers."""

    state: State
    values: Dict[Place, object]


# ---- What is at the head


def named(value: Value) -> object:
    """A value that has the same name in each run, or None."""
    if isinstance(value, int):
        return value
    if isinstance(value, Node):
        return value.parts[0] if value.form == "in" and len(value.parts) == 1 and value.parts[0] != "unknown" else None
    if isinstance(value, tuple):
        both = named(value[0]), named(value[1])
        return both if isinstance(both[0], str) and isinstance(both[1], str) else None
    return None


def values_at_head(course: Course) -> Dict[Place, object]:
    m = course.m
    found: Dict[Place, object] = {("register", i): named(value) for i, value in enumerate(m.general)}
    stack = m.number(m.STACK)
    for place in range(stack, STACK, 8):
        both = m.memory.words.get(place), m.memory.words.get(place + 4)
        found["stack", place - stack] = None if both[0] is None or both[1] is None else named(pair(both[0], both[1]))
    for i, vector in enumerate(m.vectors):
        found["vector", i] = tuple(map(named, vector[:]))
    return found


def solved(rows: Sequence[Sequence[int]], wanted: Sequence[int]) -> Optional[Tuple[int, ...]]:
    """Whole numbers with which the sums of all rows are as wanted, if there are such."""
    matrix = [[Fraction(it) for it in (*row, value)] for row, value in zip(rows, wanted)]
    count, pivots, at = len(rows[0]), [], 0
    for column in range(count):
        best = next((i for i in range(at, len(matrix)) if matrix[i][column]), None)
        if best is None:
            continue
        matrix[at], matrix[best] = matrix[best], matrix[at]
        matrix[at] = [it / matrix[at][column] for it in matrix[at]]
        for i, row in enumerate(matrix):
            if i != at and row[column]:
                matrix[i] = [x - row[column] * y for x, y in zip(row, matrix[at])]
        pivots.append(column)
        at += 1
    if any(row[count] for row in matrix[at:]):
        return None
    found = [Fraction(0)] * count
    for row, column in zip(matrix, pivots):
        found[column] = row[count]
    return tuple(int(it) for it in found) if all(it.denominator == 1 for it in found) else None


def first_words(its: Sequence[Tuple[object, ...]]) -> Optional[Kept]:
    """The names of a vector's first words that are the same in all samples, as far as there are any."""
    found: List[str] = []
    for names in zip(*its):
        if not isinstance(names[0], str) or any(name != names[0] for name in names):
            break
        found.append(names[0])
    return tuple(found) or None  # type: ignore[return-value]


def kept_at(samples: Sequence[Sample], place: Place) -> Optional[Kept]:
    """What a place has at the head in all samples, if it can be said."""
    its = [sample.values.get(place) for sample in samples]
    if place[0] == "vector":
        return first_words(its)  # type: ignore[arg-type]
    if all(isinstance(it, int) for it in its):
        signed = [int(it) - (1 << 64) if int(it) >> 63 else int(it) for it in its]  # type: ignore[call-overload]
        return solved([(1, *map(int, sample.state)) for sample in samples], signed)  # type: ignore[arg-type]
    first = its[0]
    return first if first is not None and all(it == first for it in its) else None  # type: ignore[return-value]


# ---- The checks


class Update:
    """The checks of update at a level."""

    def __init__(self, course: Course) -> None:
        self.course, library = course, course.library
        callees = [library.image.function(inner(of_width(SUBTREES, lanes))) for lanes in WIDTHS if course.has(of_width(SUBTREES, lanes))]
        self.head = head_of_loop(library.image, inner(UPDATE), library.kind, callees)
        self.absorbed: List[Absorbed] = []
        samples = [sample for given in ((0, 200, 0), (330, 500, 64), (3072, 5000, 4096), (7777, 70000, 128), (64, 9000, 192)) for sample in
                   self.samples(*given)]
        self.kept = {place: its for place in samples[0].values if (its := kept_at(samples, place)) is not None}
        #: The fewest bytes that are left at the head.
        self.least = 65 if all(int(its.state.length) - int(its.state.taken) > 64 for its in samples) else 0  # type: ignore[arg-type]

    def begin(self, its: Class, count: Some) -> Theory:
        theory = self.course.begin(its)
        self.absorbed = []
        add_hasher(self.course.m.memory)
        self.course.m.memory.put_words(HASHER + COUNT, [low(count), high(count)])
        stand_in_for_add(self.course)
        self.course.stand_in(ABSORB, self.absorb)
        self.course.stand_in(CLOSE, self.close)
        for lanes in WIDTHS:
            self.course.stand_in(of_width(SUBTREES, lanes), self.absorbing(lanes))
        return theory

    def absorb(self, its: Arguments) -> None:
        """Stands in for absorb."""
        must_be([some(its.value())], [HASHER], "the hasher that takes in a block")
        self.course.calls.make(ABSORB, some(its.value()), its.words(16), opens=True)

    def close(self, its: Arguments) -> None:
        """Stands in for close."""
        must_be([some(its.value())], [HASHER], "the hasher that is closed")
        words = self.course.words
        self.course.calls.make(CLOSE, words(HASHER + BLOCK, 16), words(HASHER + COUNT, 2), opens=True)

    def absorbing(self, lanes: int) -> Callable[[Arguments], None]:
        """Stands in for absorb_subtrees of a width: writes down what it is called with."""
        is_widest = lanes == self.course.library.level.lanes

        def run(its: Arguments) -> None:
            hasher, first, size = some(its.value()), some(its.value()), some(its.value()) if is_widest else 1
            rest = [some(its.value()) for _ in range(3)]
            if hasher != HASHER:
                raise Fault("another hasher takes in chunks")
            self.absorbed.append((lanes, first, size, rest[0], rest[1], rest[2], number(its.value())))
            self.course.calls.make(*self.absorbed[-1])

        return run

    def enter(self, piece: int, length: Some) -> int:
        """Runs from the start to the head or to the end. Returns where it has stopped."""
        return self.course.enter(UPDATE, [HASHER, piece, length], [self.head])

    def samples(self, count: int, length: int, more: int) -> List[Sample]:
        """What is at the head in a run for known numbers, each time that it comes there."""
        self.begin(Class(()), count)
        m, piece, found = self.course.m, MESSAGE + more, []
        m.memory.add_region(piece, length, False)
        at = self.enter(piece, length)
        ended = count > 1024 and count % 1024 == 0
        blocks = count // 64 if ended else max(count - 1, 0) // 64
        taken = (64 - (count - 64 * blocks)) % 64 if count > 64 * blocks else 0
        blocks += count > 64 * blocks
        while at == self.head:
            found.append(Sample(State(blocks, taken, length, piece), values_at_head(self.course)))
            self.absorbed.clear()
            at = m.run(self.head, (self.head, RETURN))
            more_blocks = number(self.absorbed[0][5]) // 64 if self.absorbed else 1
            blocks, taken = blocks + more_blocks, taken + 64 * more_blocks
        return found

    def must_arrive(self, state: State) -> None:
        """Refuses a state at the head that isn't as it should be."""
        if self.least and bits.less(bits.subtract(state.length, state.taken), self.least):
            raise Fault("too few bytes are left for another round")
        m = self.course.m
        stack = m.number(m.STACK)
        for (kind, i), its in self.kept.items():
            if kind == "register":
                found: object = m.general[i]
            elif kind == "stack":
                found = pair(*m.memory.words_at(stack + i, 2))
            else:
                found = m.vectors[i][:len(its)]
            if kind == "vector" or not isinstance(its, tuple) or isinstance(its[0], str):
                is_kept = (tuple(map(named, found)) if kind == "vector" else named(found)) == its  # type: ignore[arg-type,call-overload]
            else:
                is_kept = bits.equal(some(found), state.sum(its))  # type: ignore[arg-type]
            if not is_kept:
                raise Fault(f"{kind} {i} isn't kept: it has {found!r}")

    def set_state(self, state: State) -> None:
        """Makes the head's state that of some numbers. All that isn't kept is unknown."""
        m = self.course.m
        stack = m.number(m.STACK)
        m.flags = None
        m.memory.forget_stack(stack)
        for i in range(len(m.general)):
            m.general[i] = self.value_of("register", i, state) or unknown_value()
            if ("register", i) in self.kept:
                m.general[i] = self.value_of("register", i, state)
        for place in range(stack, STACK, 8):
            for word in (place, place + 4):
                m.memory.words.pop(word, None)
            if ("stack", place - stack) in self.kept:
                its = self.value_of("stack", place - stack, state)
                m.memory.put_words(place, [low(its), high(its)])
        for i in range(len(m.vectors)):
            kept = self.kept.get(("vector", i), ())
            m.vectors[i] = Forgotten([symbol(str(it)) for it in kept], m.SIZES[2])

    def value_of(self, kind: str, i: int, state: State) -> Value:
        its = self.kept.get((kind, i))
        if its is None:
            return 0
        if isinstance(its, str):
            return symbol(its)
        if isinstance(its[0], str):
            return symbol(its[0]), symbol(its[1])  # type: ignore[arg-type]
        return state.sum(its)  # type: ignore[arg-type]

    def run_start(self, its: Class) -> None:
        """From the start: for every count of bytes and every length of a piece."""
        bits.begin(its)
        count, length = bits.variable(0, BYTES), bits.variable(BYTES, LENGTH)
        theory = self.begin(its, count)
        self.course.m.memory.add_region(MESSAGE, length, False)
        stopped = self.enter(MESSAGE, length)
        source = Source(self.course, theory)
        source.set_count(count)
        source.memory.add_region(MESSAGE, length, False)
        if bits.is_zero(length):
            source.must_be_done()
            return
        blocks = source.open_again(count)
        held = bits.subtract(count, bits.shift_left(blocks, 6))
        whole, room = bits.add(count, length), bits.subtract(64, held)
        source.set_count(whole)
        taken: Some = 0
        if not bits.less(room, length):
            source.keep(held, MESSAGE, length)
            source.close(whole)
            if stopped != RETURN:
                raise Fault("it goes on after the piece")
        else:
            if not bits.is_zero(held):
                source.keep(held, MESSAGE, room)
                source.absorb(blocks, source.memory.words_at(HASHER + BLOCK, 16))
                blocks, taken = bits.add(blocks, 1), room
            rest = bits.subtract(length, taken)
            if stopped == RETURN:
                source.finish(bits.add(MESSAGE, taken), rest, whole)
            else:
                self.must_arrive(State(blocks, taken, length, MESSAGE))
        source.must_be_done()

    def run_round(self, its: Class) -> None:
        """A round, and what follows the last one: for every number of blocks, and every length of the rest."""
        bits.begin(its)
        blocks, rest, taken = bits.variable(0, BLOCKS), bits.variable(BLOCKS, LENGTH), bits.variable(BLOCKS + LENGTH, LENGTH)
        if bits.less(rest, self.least):
            raise Beyond
        whole = bits.add(rest, blocks, 64)
        theory = self.begin(its, 0)
        m = self.course.m
        m.memory.add_region(MESSAGE, 200, False)
        if self.enter(MESSAGE, 200) != self.head:
            raise Fault("a piece of 200 bytes has no round")
        for place in range(HASHER, HASHER + HASHER_SIZE, 4):
            m.memory.words.pop(place, None)
        m.memory.remove_region(MESSAGE)
        m.memory.add_region(MESSAGE, rest, False)
        m.memory.put_words(HASHER + COUNT, [low(whole), high(whole)])
        self.absorbed.clear()
        self.course.calls.made.clear()
        state = State(blocks, taken, bits.add(taken, rest), bits.subtract(MESSAGE, taken))
        self.set_state(state)
        stopped = m.run(self.head, (self.head, RETURN))
        source = Source(self.course, theory)
        source.set_count(whole)
        source.memory.add_region(MESSAGE, rest, False)
        size = self.taken_by_round(source, blocks, rest)
        left = bits.subtract(rest, size)
        after = State(bits.add(blocks, bits.shift_right(size, 6)), bits.add(taken, size), state.length, state.piece)
        if stopped == RETURN:
            source.finish(bits.add(MESSAGE, size), left, whole)
        source.must_be_done()
        if stopped == self.head:
            if size == 0:
                raise Fault("a round takes in nothing")
            self.must_arrive(after)

    def taken_by_round(self, source: Source, blocks: Some, rest: Some) -> Some:
        """How many bytes a round has taken in. It keeps to what the functions require that it calls."""
        if not self.absorbed:
            if not bits.less(64, rest):
                if self.least:
                    raise Fault("a round without a block")
                return 0
            source.absorb(blocks, source.memory.words_at(MESSAGE, 16))
            return 64
        if len(self.absorbed) > 1:
            raise Fault("two calls of absorb_subtrees in a round")
        source.calls.make(*self.absorbed[0])
        lanes, first, each, count, place, size, kept = self.absorbed[0]
        length = number(each)
        if not bits.is_zero(bits.low_bits(blocks, 4)) or not bits.equal(first, bits.shift_right(blocks, 4)):
            raise Fault(f"chunks are taken in as if they began with number {first!r}")
        if length < 1 or length & length - 1 or not bits.is_zero(bits.low_bits(first, length.bit_length() - 1)):
            raise Fault(f"subtrees of {length} chunks from chunk {first!r} on")
        if bits.less(count, 2) or bits.less(lanes, count) or length > 1 and count != lanes:
            raise Fault(f"{count!r} subtrees of {length} chunks in {lanes} lanes")
        if not bits.equal(size, bits.multiply(count, 1024 * length)) or bits.less(rest, size):
            raise Fault(f"{size!r} bytes of {rest!r} for {count!r} subtrees of {length} chunks")
        if place != MESSAGE or kept != int(bits.equal(size, rest)):
            raise Fault(f"chunks are taken in at {place!r}, or as if the message ended elsewhere")
        return size


def checks(course: Course) -> Iterator[Check]:
    """The checks of update at a level."""
    its = Update(course)
    yield Check("update, up to its loop", BYTES + LENGTH, its.run_start, [
        (*below(0, BYTES, count), *below(BYTES, LENGTH, length)) for count, length in ((3, 3), (40, 33), (10, 3))])
    yield Check("update, a round", BLOCKS + 2 * LENGTH, its.run_round, [
        (*below(0, BLOCKS, blocks), *below(BLOCKS, LENGTH, rest)) for blocks, rest in ((3, 11), (6, 13), (38, 17), (12, 35))],
        its.least << BLOCKS + LENGTH, f"fewer than {its.least} bytes left")
