"""What the source does with a hasher, step by step: to be read beside tree.rt and hasher.rt, whose functions have these names."""

from __future__ import annotations

from typing import List, Sequence

import bits
from bits import Answers, Some
from course import BLOCK, COUNT, HASHER, HASHER_SIZE, OPEN, WAITING, Calls, Course, Theory, add_hasher, at_place, must_be
from definition import CHUNK_END, CHUNK_START, KEYED_HASH
from fault import Fault, number, some
from long_messages import Arguments
from memory import Memory
from words import Word, high, low

#: What adds a value to those that wait; and two functions that LLVM may have moved into those that call them.
ADD, ABSORB, CLOSE = "tree::add_subtree_value", "tree::Tree::absorb", "hasher::Hasher::close"


def waiting(k: int) -> List[Word]:
    """The value that waits at a place, at first."""
    return [at_place(HASHER + WAITING + 32 * k + 4 * i) for i in range(8)]


def ends_with_chunk(count: Some) -> bool:
    """Whether a message of several chunks ends with a whole one."""
    return bits.less(1024, count) and bits.is_zero(bits.low_bits(count, 10))


def blocks_before_last(count: Some) -> Some:
    return 0 if bits.is_zero(count) else bits.shift_right(bits.subtract(count, 1), 6)


class Source:
    """A hasher in memory of its own. Where LLVM has moved a function into its callers, its steps are done here."""

    def __init__(self, course: Course, theory: Theory) -> None:
        self.course, self.theory, self.memory = course, theory, course.memory()
        add_hasher(self.memory)
        self.calls = Calls(course, self.memory)

    def set_count(self, count: Some) -> None:
        self.memory.put_words(HASHER + COUNT, [low(count), high(count)])

    def key(self) -> List[Word]:
        return self.memory.words_at(HASHER, 8)

    def open(self) -> List[Word]:
        return self.memory.words_at(HASHER + OPEN, 8)

    def block(self) -> List[Word]:
        return self.memory.words_at(HASHER + BLOCK, 16)

    # ---- What waits

    def _place(self, used: Some) -> int:
        return bits.known(bits.add(HASHER + WAITING, used, 32))

    def add_by_steps(self, key: Sequence[Word], number: Some, value: Sequence[Word], kept: Some) -> None:
        used, joined = bits.count_ones(number), 0
        while not bits.is_zero(bits.masked(number, 1 << joined)) and bits.less(kept, used):
            used, joined = bits.subtract(used, 1), joined + 1
            value = self.theory.parent_value(key, self.memory.load(self._place(used), 8), value)
        self.memory.store(self._place(used), list(value))

    def add_subtree_value(self, number: Some, value: Sequence[Word], kept: Some) -> None:
        self.calls.make(ADD, number, list(value), kept)

    def absorb_subtrees(self, number: Some, values: Sequence[Sequence[Word]], kept: Some) -> None:
        """Adds the values of subtrees from number `number` on, joined in pairs as long as each has its sibling among them."""
        while len(values) > 2 and len(values) % 2 == 0 and bits.is_zero(bits.low_bits(number, 1)):
            values = [self.theory.parent_value(self.key(), *both) for both in zip(values[::2], values[1::2])]
            number = bits.shift_right(number, 1)
        for j, value in enumerate(values):
            self.add_subtree_value(bits.add(number, j), value, kept if j == len(values) - 1 else 0)

    def join_halves(self) -> None:
        self.memory.store(HASHER + WAITING, list(self.theory.parent_value(self.key(), waiting(0), waiting(1))))

    # ---- Blocks

    def absorb_by_steps(self, blocks: Some, words: Sequence[Word]) -> None:
        chunk, place = bits.shift_right(blocks, 4), bits.low_bits(blocks, 4)
        if bits.equal(place, 15):
            value = self.theory.compress(self.open(), words, chunk, 64, KEYED_HASH + CHUNK_END)
            self.add_subtree_value(chunk, value, 0)
            self.memory.put_words(HASHER + OPEN, self.key())
        else:
            flags = KEYED_HASH + (CHUNK_START if bits.is_zero(place) else 0)
            self.memory.put_words(HASHER + OPEN, list(self.theory.compress(self.open(), words, chunk, 64, flags)))

    def absorb(self, blocks: Some, words: Sequence[Word]) -> None:
        """Takes in block number `blocks`, which isn't the last one."""
        if self.course.has(ABSORB):
            self.calls.make(ABSORB, blocks, list(words), opens=True)
        else:
            self.absorb_by_steps(blocks, words)

    def open_again(self, count: Some) -> Some:
        """Makes a hasher that has so many bytes ready for more (`resume`): two values of which the root was to be made are joined. Returns
        how many blocks were taken in."""
        if not ends_with_chunk(count):
            return blocks_before_last(count)
        if bits.equal(bits.count_ones(bits.shift_right(count, 10)), 1):
            self.join_halves()
        return bits.shift_right(count, 6)

    def keep(self, at: Some, place: Some, count: Some) -> None:
        """Keeps bytes of the piece in the block, from place `at` on."""
        self.memory.copy(bits.add(HASHER + BLOCK, at), place, count)

    def close_by_steps(self, count: Some) -> None:
        if ends_with_chunk(count):
            chunk = bits.subtract(bits.shift_right(count, 10), 1)
            self.add_subtree_value(chunk, self.theory.compress(self.open(), self.block(), chunk, 64, KEYED_HASH + CHUNK_END), 1)
            self.memory.put_words(HASHER + OPEN, self.key())

    def close(self, count: Some) -> None:
        """Takes in the last block, too, where a message of so many bytes ends with a chunk."""
        if self.course.has(CLOSE):
            self.calls.make(CLOSE, self.block(), self.memory.words_at(HASHER + COUNT, 2), opens=True)
        else:
            self.close_by_steps(count)

    def finish(self, place: Some, rest: Some, count: Some) -> None:
        """Keeps what is left of the piece, at most a block."""
        if bits.less(64, rest):
            raise Fault(f"it ends with {rest!r} bytes left")
        if not bits.is_zero(rest):
            self.keep(0, place, rest)
            self.close(count)

    # ---- What the machine has done

    def must_be_done(self) -> None:
        """Refuses another hasher than this one, and other calls."""
        both: Sequence[Memory] = (self.course.m.memory, self.memory)
        must_be(self.course.calls.made, self.calls.made, "the calls that change the hasher")
        for place in range(HASHER, HASHER + HASHER_SIZE, 4):
            its = [memory.words.get(place) for memory in both]
            if its[0] is not its[1] and len({memory.words_at(place, 1)[0] for memory in both}) > 1:
                raise Fault(f"another hasher from byte {place - HASHER:#x} on")


def stand_in_for_add(course: Course) -> None:
    """Stands in for `add_subtree_value` of the hasher."""
    def run(its: Arguments) -> None:
        stack, key, given, value, kept = number(its.value()), number(its.value()), some(its.value()), its.words(8), some(its.value())
        if stack != HASHER + WAITING or course.words(key, 8) != [at_place(HASHER + 4 * k) for k in range(8)]:
            raise Fault("a value is added to others, or under another key")
        course.calls.make(ADD, given, value, kept)

    course.stand_in(ADD, run)


def below(first: int, count: int, place: int) -> Answers:
    """The answers of a number of some bits from bit `first` on, whose highest 1 is at a place."""
    return tuple((first + i, int(i == place)) for i in reversed(range(place, count)))
