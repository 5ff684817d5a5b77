"""The functions of the tree, for every number: subtrees side by side, values that wait, and blocks."""

from __future__ import annotations

from functools import partial
from typing import Iterator, Sequence

import bits
from absorbing import CHUNKS, NEIGHBOURS, Absorbing, deepest
from bits import Beyond, Class, Some
from course import (
    COUNT, DEPTH, HASHER, KEY, MESSAGE, RESULT, VALUE, WAITING, Check, Course, Theory, add_hasher, at_place, must_be,
)
from fault import Fault, number, some
from kernels import side_by_side
from long_messages import Arguments
from source import ABSORB, ADD, CLOSE, Source, below, stand_in_for_add
from widths import WIDTHS, of_width
from words import Word, high, low, pair


# ---- Values that wait


def run_add(course: Course, its: Class) -> None:
    """`add_subtree_value`, for every number, key, value and stack. After number 2^54 - 1 there is no place for a value."""
    theory = course.begin(its)
    memory = course.m.memory
    given, kept = bits.variable(0, DEPTH), bits.variable(DEPTH, 1)
    if bits.equal(given, (1 << DEPTH) - 1):
        raise Beyond
    memory.add_region(HASHER + WAITING, 32 * DEPTH, True)
    memory.add_region(KEY, 32, False)
    memory.add_region(VALUE, 32, False)
    course.run(ADD, [HASHER + WAITING, KEY, given, VALUE, kept])
    key, value = ([at_place(place + 4 * k) for k in range(8)] for place in (KEY, VALUE))
    source = Source(course, theory)
    source.add_by_steps(key, given, value, kept)
    source.must_be_done()


# ---- Subtrees side by side


def stand_in_for_neighbours(course: Course, lanes: int, level: int, theory: Theory, place: Some, first: Some) -> None:
    """Stands in for `chunk_values`, and for `neighbour_values` of fewer chunks than 2^level, which have to be among those that are given."""
    memory = course.m.memory

    def give(result: int, key: Sequence[Word], places: Sequence[Some], size: int) -> None:
        for it in places:
            further = bits.subtract(it, place)
            if not isinstance(further, int) or further + size > lanes << level:
                raise Fault(f"a lane takes {size} chunks elsewhere")
        values = [
            theory.subtree_value(memory, key, bits.add(MESSAGE, it, 1024), bits.add(first, it), size.bit_length() - 1) for it in places]
        memory.store(result, side_by_side(values))

    def neighbours(its: Arguments) -> None:
        result, key, chunks, start, size, number_of_first = number(its.value()), its.words(8), some(its.value()), some(its.value()), \
            number(its.value()), some(its.value())
        if size < 1 or size & size - 1 or size >> level or chunks != MESSAGE or not bits.equal(number_of_first, first):
            raise Fault(f"subtrees of {size} chunks at {chunks!r}, the first of which is number {number_of_first!r}")
        give(result, key, [bits.add(start, size * j) for j in range(lanes)], size)

    def chunk_values(its: Arguments) -> None:
        result, key, chunks, words, number_of_first = number(its.value()), its.words(8), some(its.value()), its.words(2 * lanes), some(its.value())
        if chunks != MESSAGE or not bits.equal(number_of_first, first):
            raise Fault(f"chunks at {chunks!r}, the first of which is number {number_of_first!r}")
        give(result, key, [some(pair(*words[2 * j:2 * j + 2])) for j in range(lanes)], 1)

    course.stand_in(of_width(NEIGHBOURS, lanes), neighbours)
    course.stand_in(of_width(CHUNKS, lanes), chunk_values)


def run_neighbours(course: Course, lanes: int, level: int, its: Class) -> None:
    """`neighbour_values` of subtrees of 2^level chunks that follow each other: for every key, place and number of the first chunk."""
    theory = course.begin(its)
    memory = course.m.memory
    first, place = bits.variable(0, DEPTH), bits.variable(DEPTH, DEPTH)
    memory.add_region(RESULT, 32 * lanes, True)
    memory.add_region(KEY, 32, False)
    stand_in_for_neighbours(course, lanes, level, theory, place, first)
    course.run(of_width(NEIGHBOURS, lanes), [RESULT, KEY, MESSAGE, place, 1 << level, first])
    key = [at_place(KEY + 4 * k) for k in range(8)]

    def value(start: int, size: int) -> Sequence[Word]:
        at = bits.add(place, start)
        return theory.subtree_value(memory, key, bits.add(MESSAGE, at, 1024), bits.add(first, at), size.bit_length() - 1)

    half = (1 << level) // 2
    wanted = [
        theory.parent_value(key, value(2 * half * j, half), value(2 * half * j + half, half)) if half else value(j, 1) for j in range(lanes)]
    must_be(memory.load(RESULT, 8 * lanes), side_by_side(wanted), f"neighbour_values of {1 << level} chunks")


# ---- Blocks


def run_absorb(course: Course, its: Class) -> None:
    """`absorb`, where the level has it, for every number of blocks, hasher and block."""
    theory = course.begin(its)
    blocks = bits.variable(0, DEPTH + 4)
    if bits.equal(blocks, (1 << DEPTH + 4) - 1):
        raise Beyond
    add_hasher(course.m.memory)
    course.m.memory.add_region(MESSAGE, 64, False)
    stand_in_for_add(course)
    course.run(ABSORB, [HASHER, blocks, MESSAGE, 64])
    source = Source(course, theory)
    source.absorb_by_steps(blocks, course.words(MESSAGE, 16))
    source.must_be_done()


def run_close(course: Course, its: Class) -> None:
    """`close`, where the level has it, for every count of bytes and hasher."""
    theory = course.begin(its)
    count = bits.variable(0, 64)
    add_hasher(course.m.memory)
    course.m.memory.put_words(HASHER + COUNT, [low(count), high(count)])
    stand_in_for_add(course)
    course.run(CLOSE, [HASHER])
    source = Source(course, theory)
    source.set_count(count)
    source.close_by_steps(count)
    source.must_be_done()


# ---- All checks


def checks(course: Course) -> Iterator[Check]:
    """The checks of a level."""
    lanes, last = course.library.level.lanes, (1 << DEPTH) - 1
    few = [((tuple(~bit for bit in range(DEPTH)), 1), *below(0, DEPTH, place), *((bit, 0) for bit in range(9, place))) for place in (1, 9, 45)]
    yield Check("add_subtree_value", DEPTH + 1, partial(run_add, course), few, 2, f"number {last:#x}")
    if course.has(ABSORB):
        few = [((tuple(~bit for bit in range(DEPTH + 4)), 1), *below(0, DEPTH + 4, place)) for place in (2, 9, 37)]
        yield Check("absorb", DEPTH + 4, partial(run_absorb, course), few, 1, f"block {16 * last + 15:#x}")
    if course.has(CLOSE):
        yield Check("close", 64, partial(run_close, course), [below(0, 64, place) for place in (7, 13, 41)])
    for level in range(deepest(lanes) + 1):
        yield Check(f"neighbour_values of {1 << level} chunks", 2 * DEPTH, partial(run_neighbours, course, lanes, level))
    for width in WIDTHS:
        if width <= lanes:
            yield from Absorbing(course, width).checks()
