"""What a caller of the library calls, for every number: `data_hash`, `internal_node_hash` and `hasher_update`."""

from __future__ import annotations

from functools import partial
from typing import Iterator, List, Tuple

import bits
from bits import Class
from calls import DATA_KEY, INTERNAL_KEY
from course import COUNT, HASHER, MESSAGE, RESULT, Check, Course, add_hasher, must_be
from definition import words_at
from fault import number, some
from long_messages import Arguments
from source import below
from words import high, low, node

#: The keys of the hashes of messages.
KEYS = {"data_hash": DATA_KEY, "internal_node_hash": INTERNAL_KEY}
#: What `hasher_update` returns: that it has taken the piece in, and that the message would be too long.
TAKEN, TOO_LONG = 0, 2


def run_hash(course: Course, name: str, its: Class) -> None:
    """A hash of a message, for every length: that under its key."""
    course.begin(its)
    length = bits.variable(0, 63)
    course.m.memory.add_region(MESSAGE, length, False)
    course.m.memory.add_region(RESULT, 32, True)
    calls: List[Tuple[object, ...]] = []

    def keyed_hash(its: Arguments) -> None:
        result, key = number(its.value()), its.words(8)
        calls.append((key, some(its.value()), some(its.value())))
        course.m.memory.store(result, [node("in", "hash", k) for k in range(8)])

    course.stand_in("keyed_hash", keyed_hash)
    course.call(name, MESSAGE, length, RESULT)
    must_be(calls, [(words_at(8, list(KEYS[name])), MESSAGE, length)], "the calls of keyed_hash")
    must_be(course.words(RESULT, 8), [node("in", "hash", k) for k in range(8)], name)


def run_update(course: Course, its: Class) -> None:
    """`hasher_update`, for every count of bytes and every piece, which it refuses if it would make 2^64 bytes or more."""
    course.begin(its)
    count, length = bits.variable(0, 64), bits.variable(64, 63)
    add_hasher(course.m.memory)
    course.m.memory.put_words(HASHER + COUNT, [low(count), high(count)])
    calls: List[Tuple[object, ...]] = []
    course.stand_in("hasher::Hasher::update", lambda its: calls.append(tuple(some(its.value()) for _ in range(3))))
    status = low(course.call("hasher_update", HASHER, MESSAGE, length))
    is_taken = not bits.less(bits.add(count, length), count)
    must_be([*calls, status], [(HASHER, MESSAGE, length), TAKEN] if is_taken else [TOO_LONG], "hasher_update")


def checks(course: Course) -> Iterator[Check]:
    """The checks of a level."""
    for name in KEYS:
        yield Check(name, 63, partial(run_hash, course, name))
    yield Check("hasher_update", 127, partial(run_update, course), [(*below(0, 64, 62), *below(64, 63, place)) for place in (2, 61)])
