"""`absorb_subtrees`, for every number and size of subtrees: it adds the values of subtrees side by side to those that wait."""

from __future__ import annotations

from functools import partial
from typing import Iterator, List, Optional, Sequence

import bits
from bits import Beyond, Class, Some
from course import DEPTH, HASHER, MESSAGE, Check, Course, add_hasher, at_place
from fault import Fault, number, some
from kernels import FOUR_CHUNKS, side_by_side
from long_messages import Arguments
from source import Source, stand_in_for_add
from widths import of_width
from words import Word, node, pair

#: What gives the values of chunks, and of subtrees.
CHUNKS, NEIGHBOURS = "chunks::chunk_values", "subtrees::neighbour_values"


def deepest(lanes: int) -> int:
    """The largest subtrees in so many lanes, as a power of two: a message has fewer than 2^DEPTH chunks."""
    return DEPTH - lanes.bit_length() + 1


class Absorbing:
    """The checks of absorb_subtrees in some lanes."""

    def __init__(self, course: Course, lanes: int) -> None:
        self.course, self.lanes, self.function = course, lanes, of_width("tree::Tree::absorb_subtrees", lanes)
        self.is_widest = lanes == course.library.level.lanes
        #: The values of the lanes, if a function gave them.
        self.values: Optional[List[List[Word]]] = None

    def checks(self) -> Iterator[Check]:
        """A check for each size. A caller gives it at least 2 subtrees and at most as many as there are lanes, which end before 2^54 chunks."""
        for level in range(deepest(self.lanes)) if self.is_widest else (0,):
            counts, others = (range(2, self.lanes + 1), 1 << self.lanes.bit_length()) if level == 0 else ([self.lanes], 1)
            left_out = 2 * sum(counts) + 2 * (others - len(counts) << DEPTH - level)
            name = f"absorb_subtrees of {1 << level} chunks in {self.lanes} lanes"
            which = f"{'fewer than 2, ' if level == 0 else ''}more than {self.lanes}, or up to 2^{DEPTH} chunks"
            yield Check(name, DEPTH - level + 1 + others.bit_length() - 1, partial(self.run, level), ((),), left_out, which)

    def numbers(self, level: int) -> List[Some]:
        """The number of the first subtree, how many there are, and how many values stay."""
        first, bit = bits.variable(0, DEPTH - level), DEPTH - level
        count = self.lanes if level else bits.known(bits.variable(bit + 1, self.lanes.bit_length()))
        if not 2 <= count <= self.lanes or not bits.less(bits.add(first, count), 1 << DEPTH - level):
            raise Beyond
        return [first, count, bits.variable(bit, 1)]

    def run(self, level: int, its: Class) -> None:
        """Subtrees of a size, for every key and number."""
        bits.begin(its)
        first, count, kept = self.numbers(level)
        theory, chunks = self.course.begin(its), number(count) << level
        self.values = None
        add_hasher(self.course.m.memory)
        self.course.m.memory.add_region(MESSAGE, 1024 * chunks, False)
        for function, size in ((CHUNKS, 0), (NEIGHBOURS, level), (FOUR_CHUNKS, 0)):
            name = function if function == FOUR_CHUNKS else of_width(function, self.lanes)
            self.course.stand_in(name, partial(self.give_values, function, size, bits.shift_left(first, level), chunks))
        stand_in_for_add(self.course)
        self.course.run(
            self.function, [HASHER, bits.shift_left(first, level), *[1 << level] * self.is_widest, count, MESSAGE, 1024 * chunks, kept])
        values: List[Sequence[Word]] = []
        for j in range(number(count)):
            if self.values:
                values.append(self.values[j])
            elif level:
                raise Fault("no values of subtrees")
            else:
                values.append(theory.chunk_value(self.course.m.memory, self.key(), MESSAGE + 1024 * j, bits.add(first, j)))
        source = Source(self.course, theory)
        source.absorb_subtrees(first, values, kept)
        source.must_be_done()

    def give_values(self, function: str, level: int, first: Some, chunks: int, its: Arguments) -> None:
        """Stands in for what gives the values of subtrees of a size, which have to follow each other from the message's first one on."""
        result, key = number(its.value()), its.of_vectors(8, 1) if function == FOUR_CHUNKS else its.words(8)
        place = some(its.value())
        if function == NEIGHBOURS:
            start, size = number(its.value()), number(its.value())
            places = [start + size * j for j in range(self.lanes)]
        else:
            places, size = its.four_places() if function == FOUR_CHUNKS else self.places(its), 1
        if key != self.key() or place != MESSAGE or size != 1 << level or not bits.equal(some(its.value()), first):
            raise Fault(f"the values of subtrees of {size} chunks at {place!r} under {key[0]!r}")
        for j, at in enumerate(places):
            if at + size > chunks or j < chunks >> level and at != j << level:
                raise Fault(f"lane {j} takes {size} chunks from chunk {at} on")
        self.values = [[node("in", "lane", j, k) for k in range(8)] for j in range(self.lanes)]
        self.course.m.memory.store(result, side_by_side(self.values))

    def places(self, its: Arguments) -> List[int]:
        """The places that are given to each lane."""
        words = its.words(2 * self.lanes)
        return [number(pair(*words[2 * j:2 * j + 2])) for j in range(self.lanes)]

    def key(self) -> List[Word]:
        return [at_place(HASHER + 4 * k) for k in range(8)]
