"""`keyed_hash`, `keyed_hash_two` and `finalize`, for every length and every count of bytes."""

from __future__ import annotations

from functools import partial
from typing import Iterator, List, Sequence, Tuple

import bits
from bits import Class, Some
from calls import INTERNAL_KEY
from course import (
    BLOCK, COUNT, HASHER, HASHER_SIZE, KEY, MESSAGE, OPEN, RESULT, Check, Course, Theory, add_hasher, at_place, must_be,
)
from definition import CHUNK_END, CHUNK_START, KEYED_HASH, ROOT, words_at
from fault import Fault, number, some
from long_messages import Arguments
from memory import overwritten
from source import below, blocks_before_last, ends_with_chunk, waiting
from words import Word, high, low, node


def first_message(course: Course, place: int, length: Some) -> None:
    course.m.memory.add_region(place, length, False)


def short_value(course: Course, theory: Theory, key: Sequence[Word], place: int, length: Some) -> Sequence[Word]:
    """The value of the only chunk, of at most 1024 bytes, at a place."""
    last = bits.known(bits.shift_right(length, 6)) if not bits.is_zero(length) else 0
    if last and bits.is_zero(bits.low_bits(length, 6)):
        last -= 1
    value = key
    for n in range(last):
        block = course.words(place + 64 * n, 16)
        value = theory.compress(value, block, 0, 64, KEYED_HASH + (CHUNK_START if n == 0 else 0))
    rest = bits.subtract(length, 64 * last)
    flags = KEYED_HASH + (CHUNK_START if last == 0 else 0) + CHUNK_END + ROOT
    return theory.compress(value, last_block(course, place + 64 * last, rest), 0, low(rest), flags)


def last_block(course: Course, place: int, count: Some) -> List[Word]:
    """The words of some bytes, at most 64, which zeros follow."""
    most = bits.must_span(count)[1]
    return overwritten([0] * 16, 0, course.words(place, (most + 3) // 4), count)


def run_keyed_hash(course: Course, its: Class) -> None:
    """`keyed_hash`, for every length: of a chunk as defined, and of more by a hasher."""
    theory = course.begin(its)
    length = bits.variable(0, 63)
    first_message(course, MESSAGE, length)
    course.m.memory.add_region(KEY, 32, False)
    course.m.memory.add_region(RESULT, 32, True)
    calls: List[Tuple[object, ...]] = []
    stand_in_for_hasher(course, calls)
    course.run("keyed_hash", [RESULT, KEY, MESSAGE, length])
    key = [at_place(KEY + 4 * k) for k in range(8)]
    found = course.words(RESULT, 8)
    if bits.less(1024, length):
        hasher = calls[0][0] if calls else 0
        must_be(calls, [(hasher, (*key, *key), 0, 0, MESSAGE, length), (hasher,)], "the calls of a hasher")
        must_be(found, [node("in", "hash", k) for k in range(8)], "keyed_hash")
    else:
        must_be(calls, [], "the calls of a hasher")
        must_be(found, short_value(course, theory, key, MESSAGE, length), "keyed_hash")


def stand_in_for_hasher(course: Course, calls: List[Tuple[object, ...]]) -> None:
    """Stands in for `update` of a new hasher, and for `finalize`."""
    updated: List[Word] = [node("in", "updated", k) for k in range(HASHER_SIZE // 4)]

    def update(its: Arguments) -> None:
        hasher, place, length = number(its.value()), some(its.value()), some(its.value())
        words = course.m.memory.load(hasher, HASHER_SIZE // 4)
        if words[:8] != words[8:16]:
            raise Fault("a new hasher with another chaining value than the key")
        calls.append((hasher, tuple(words[:16]), words[COUNT // 4], words[COUNT // 4 + 1], place, length))
        course.m.memory.store(hasher, updated)

    def finalize(its: Arguments) -> None:
        result, hasher = number(its.value()), number(its.value())
        if course.m.memory.load(hasher, HASHER_SIZE // 4) != updated:
            raise Fault("the hash of another hasher")
        calls.append((hasher,))
        course.m.memory.store(result, [node("in", "hash", k) for k in range(8)])

    course.stand_in("hasher::Hasher::update", update)
    course.stand_in("hasher::Hasher::finalize", finalize)


def run_keyed_hash_two(course: Course, its: Class) -> None:
    """`keyed_hash_two`, for every two lengths. It is only called with one key, so the level's function has it by itself."""
    theory = course.begin(its)
    lengths = [bits.variable(0, 63), bits.variable(63, 63)]
    places = [MESSAGE, 3 * MESSAGE]
    for place, length in zip(places, lengths):
        first_message(course, place, length)
    course.m.memory.add_region(KEY, 32, False)
    course.m.memory.add_region(RESULT, 64, True)
    calls: List[Tuple[object, ...]] = []

    def keyed_hash(its: Arguments) -> None:
        result, key, place, length = number(its.value()), number(its.value()), some(its.value()), some(its.value())
        calls.append((course.words(key, 8), place, length))
        course.m.memory.store(result, [node("in", "hash", place, k) for k in range(8)])

    course.stand_in("keyed_hash", keyed_hash)
    course.run("keyed_hash_two", [RESULT, MESSAGE, lengths[0], 3 * MESSAGE, lengths[1]])
    key = words_at(8, list(INTERNAL_KEY))
    if any([bits.less(1024, length) for length in lengths]):
        must_be(calls, [(key, place, length) for place, length in zip(places, lengths)], "the calls of keyed_hash")
        wanted: List[Word] = [node("in", "hash", place, k) for place in places for k in range(8)]
    else:
        must_be(calls, [], "the calls of keyed_hash")
        wanted = [word for place, length in zip(places, lengths) for word in short_value(course, theory, key, place, length)]
    must_be(course.words(RESULT, 16), wanted, "keyed_hash_two")


def run_finalize(course: Course, its: Class) -> None:
    """`finalize`, for every count of bytes: the values that wait, joined with what is on their right."""
    theory = course.begin(its)
    memory = course.m.memory
    count = bits.variable(0, 64)
    add_hasher(memory)
    memory.put_words(HASHER + COUNT, [low(count), high(count)])
    memory.add_region(RESULT, 32, True)
    course.run("hasher::Hasher::finalize", [RESULT, HASHER])
    key, value = ([at_place(HASHER + start + 4 * k) for k in range(8)] for start in (0, OPEN))
    if ends_with_chunk(count):
        used = max(bits.known(bits.count_ones(bits.shift_right(count, 10))), 2) - 1
        its_value: Sequence[Word] = waiting(used)
    else:
        blocks = blocks_before_last(count)
        chunk = bits.shift_right(blocks, 4)
        used = bits.known(bits.count_ones(chunk))
        rest = bits.subtract(count, bits.shift_left(blocks, 6))
        start = CHUNK_START if bits.is_zero(bits.low_bits(blocks, 4)) else 0
        flags = KEYED_HASH + start + CHUNK_END + (0 if used else ROOT)
        its_value = theory.compress(value, last_block(course, HASHER + BLOCK, rest), chunk, low(rest), flags)
    for k in reversed(range(used)):
        its_value = theory.parent_value(key, waiting(k), its_value, 0 if k else ROOT)
    must_be(course.words(RESULT, 8), its_value, "finalize")
    course.must_keep(HASHER, HASHER + COUNT, "the hasher")
    must_be(course.words(HASHER + COUNT, 2), [low(count), high(count)], "the count")


# ---- All checks


def checks(course: Course) -> Iterator[Check]:
    """The checks of a level."""
    yield Check("finalize", 64, partial(run_finalize, course), [below(0, 64, place) for place in (0, 7, 11, 41)])
    yield Check("keyed_hash", 63, partial(run_keyed_hash, course), [below(0, 63, place) for place in (0, 7, 10, 40)])
    yield Check("keyed_hash_two", 126, partial(run_keyed_hash_two, course), [
        (*below(0, 63, one), *below(63, 63, other)) for one, other in ((5, 7), (9, 6), (10, 3), (8, 50))])
