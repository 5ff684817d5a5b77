"""Long messages and great numbers of chunks, in calls in which the functions that compress blocks are unknown functions.

kernels.py shows that these functions are those of the definition for every input, so here none of them runs. New symbols stand for the
result of each, the same ones for the same input. What is left is the code around them, for which a message of a megabyte takes seconds.
"""

from __future__ import annotations

import random
from functools import partial
from itertools import accumulate
from typing import Callable, Dict, Iterator, List, Sequence, Tuple

from calls import DATA_KEY, MESSAGE, RESULT, Caller, bytes_of, check_hash_of
from definition import CHUNK_END, CHUNK_START, KEYED_HASH, PARENT, ROOT, compress, words_at
from fault import Fault, number
from kernels import FOUR_CHUNKS, FOUR_PARENTS, VALUE_VECTORS, beside, orders_of_four, side_by_side
from layout import Library, inner
from machine import Machine, unknown_value
from pieces import HASHER, Hasher
from widths import WIDTHS, of_width
from words import Value, Word, add_64, forget, high, low, masked, pair, symbol

#: How many bytes the largest chunk of Xet has.
LARGEST = 131072
#: Each lane takes a subtree of several chunks, where there are so many: in 16 lanes, of 2, 4, 8, 64 and 128.
LENGTHS = [32768, LARGEST - 1, LARGEST, LARGEST + 1, 1 << 20, 1 << 21]
#: Where a hasher has the values of subtrees that wait, and the count of bytes.
SUBTREES, COUNT = HASHER + 64, HASHER + 64 + 54 * 32 + 64

#: What the compression function does to a chaining value, a block, a counter, a length and flags.
Compress = Callable[[Sequence[Word], Sequence[Word], Value, Word, Word], Sequence[Word]]
#: The values of subtrees, by the number of the first chunk and how many chunks there are.
Subtrees = Dict[Tuple[int, int], Sequence[Word]]


# ---- The definition


class Message:
    """A message of which so many chunks came before, and the definition of its hash by some compression function."""

    def __init__(self, compress: Compress, key: Sequence[Word], words: Sequence[Word], length: int, before: Subtrees) -> None:
        self.compress, self.key, self.words, self.length, self.before = compress, key, words, length, before
        self.first = sum(count for _, count in before)

    def block(self, start: int, length: int) -> List[Word]:
        """The sixteen words of a block, in which zeros follow its bytes."""
        whole, rest = divmod(length, 4)
        words = list(self.words[start // 4:start // 4 + whole])
        if rest:
            words.append(masked(self.words[start // 4 + whole], (1 << 8 * rest) - 1))
        return [*words, *[0] * (16 - len(words))]

    def chunk_value(self, i: int, flags: int) -> Sequence[Word]:
        start = 1024 * (i - self.first)
        size = min(1024, self.length - start)
        last, value = max(size - 1, 0) // 64, self.key
        for n in range(last + 1):
            length = size - 64 * last if n == last else 64
            more = (CHUNK_START if n == 0 else 0) + (CHUNK_END + flags if n == last else 0)
            value = self.compress(value, self.block(start + 64 * n, length), i, length, KEYED_HASH + more)
        return value

    def subtree_value(self, i: int, count: int, flags: int) -> Sequence[Word]:
        if (i, count) in self.before:
            return self.before[i, count]
        if count == 1:
            return self.chunk_value(i, flags)
        half = 1 << (count - 1).bit_length() - 1
        both = [*self.subtree_value(i, half, 0), *self.subtree_value(i + half, count - half, 0)]
        return self.compress(self.key, both, 0, 64, KEYED_HASH + PARENT + flags)

    def hash(self) -> Sequence[Word]:
        """The eight words of the hash."""
        return self.subtree_value(0, max(self.first + (self.length + 1023) // 1024, 1), ROOT)


def subtrees_before(chunks: int) -> Subtrees:
    """Symbols for the values of the subtrees that wait after so many chunks: one for each bit of the number."""
    found: Subtrees = {}
    first = 0
    for bit in reversed(range(chunks.bit_length())):
        if chunks >> bit & 1:
            found[first, 1 << bit] = [symbol(f"subtree {bit} {k}") for k in range(8)]
            first += 1 << bit
    return found


# ---- Unknown functions


class Arguments:
    """What a function is called with, in the order in which kernels.py gives it."""

    def __init__(self, library: Library, m: Machine) -> None:
        self.level, self.m = library.level, m
        self.values, self.vectors = 0, 0

    def value(self) -> Value:
        self.values += 1
        return self.m.argument(self.values - 1)

    def words(self, count: int) -> List[Word]:
        """Words in memory."""
        return self.m.memory.load(number(self.value()), count)

    def lanes(self, count: int, lanes: int) -> List[List[Word]]:
        """Words in memory that are side by side, those of each lane apart."""
        its = self.words(count * lanes)
        return [its[j::lanes] for j in range(lanes)]

    def four_places(self) -> List[int]:
        """The places of four chunks, of which the function has to be checked."""
        words = self.words(8)
        places = [number(pair(*words[2 * j:2 * j + 2])) for j in range(4)]
        if places not in orders_of_four().values():
            raise Fault(f"four chunks at {places}, for which nothing is checked")
        return places

    def of_vectors(self, count: int, blocks: int) -> List[Word]:
        """Words of one block or two in vectors."""
        width, found = VALUE_VECTORS[self.level.name_for_linux][blocks - 1], []
        for _ in range(count // width):
            found += self.words(width) if self.level.is_for_windows else self.m.vectors[self.vectors][:width]
            self.vectors += 1
        return found


class Unknown:
    """The functions of a library that compress blocks, as stand-ins on a machine."""

    def __init__(self, library: Library, m: Machine) -> None:
        self.library, self.m = library, m
        self.made: Dict[Tuple[object, ...], List[Word]] = {}
        its: Dict[str, Callable[[Arguments], List[Word]]] = {
            "compression::compress": self.one, "compression::two::compress_two_from": self.two,
            FOUR_CHUNKS: self.four_chunks,
        }
        for lanes in WIDTHS:
            its[of_width(FOUR_PARENTS, lanes)] = partial(self.four_parents, lanes)
            its[of_width("chunks::chunk_values", lanes)] = partial(self.chunk_values, lanes)
            its[of_width("compression::lanes::take_in_each", lanes)] = partial(self.take_in_each, lanes)
        for name, it in its.items():
            if library.has(inner(name)):
                m.stand_ins[library.image.function(inner(name))] = partial(self.stand_in, it)

    def stand_in(self, it: Callable[[Arguments], List[Word]]) -> Value:
        """Stores the result where the first argument says."""
        self.m.memory.store(self.m.number(self.m.ARGUMENTS[0]), it(Arguments(self.library, self.m)))
        return unknown_value()

    def compress(self, h: Sequence[Word], m: Sequence[Word], counter: Value, length: Word, flags: Word) -> List[Word]:
        """The symbols for this input."""
        key = (*h, *m, low(counter), high(counter), length, flags)
        if key not in self.made:
            self.made[key] = [symbol(f"compression {len(self.made)} {k}") for k in range(8)]
        return self.made[key]

    def one(self, its: Arguments) -> List[Word]:
        its.value()
        return self.compress(its.of_vectors(8, 1), its.words(16), its.value(), low(its.value()), low(its.value()))

    def pair(self, h: List[Word], d: List[Word], blocks: List[List[Word]]) -> List[Word]:
        """Two blocks, of which `d` has the counters, the lengths and the flags."""
        values = [*h[:4], *h[8:12]], [*h[4:8], *h[12:]]
        first, second = (
            self.compress(values[k], blocks[k], pair(d[4 * k], d[4 * k + 1]), d[4 * k + 2], d[4 * k + 3]) for k in (0, 1)
        )
        return beside(first, second)

    def two(self, its: Arguments) -> List[Word]:
        its.value()
        h, d = its.of_vectors(16, 2), its.of_vectors(8, 2)
        return self.pair(h, d, [its.words(16), its.words(16)])

    def four_chunks(self, its: Arguments) -> List[Word]:
        its.value()
        key, chunks, places, first = its.of_vectors(8, 1), number(its.value()), its.four_places(), its.value()
        return side_by_side(self.chunk(key, self.m.memory.load(chunks + 1024 * place, 256), add_64(first, place)) for place in places)

    def chunk(self, key: List[Word], words: List[Word], counter: Value) -> List[Word]:
        """The value of a whole chunk."""
        value = key
        for n in range(16):
            flags = KEYED_HASH + (CHUNK_START if n == 0 else 0) + (CHUNK_END if n == 15 else 0)
            value = self.compress(value, words[16 * n:16 * n + 16], counter, 64, flags)
        return value

    def four_parents(self, lanes: int, its: Arguments) -> List[Word]:
        its.value()
        key, values = its.of_vectors(8, 1), its.lanes(8, lanes)
        return side_by_side(self.compress(key, [*values[2 * j], *values[2 * j + 1]], 0, 64, KEYED_HASH + PARENT) for j in range(4))

    def chunk_values(self, lanes: int, its: Arguments) -> List[Word]:
        its.value()
        key, chunks, words, first = its.words(8), number(its.value()), its.words(2 * lanes), its.value()
        places = [number(pair(*words[2 * j:2 * j + 2])) for j in range(lanes)]
        return side_by_side(self.chunk(key, self.m.memory.load(chunks + 1024 * place, 256), add_64(first, place)) for place in places)

    def take_in_each(self, lanes: int, its: Arguments) -> List[Word]:
        h, blocks, lengths, flags = its.lanes(8, lanes), its.lanes(16, lanes), its.words(lanes), its.words(lanes)
        return side_by_side(self.compress(h[j], blocks[j], 0, lengths[j], flags[j]) for j in range(lanes))


# ---- The checks


def words_of(length: int) -> List[Word]:
    """The symbols of a message."""
    return [symbol(f"message {i}") for i in range((length + 3) // 4)]


def check_length(library: Library, length: int) -> Machine:
    """`data_hash` of a message of a length, whose blocks are compressed by unknown functions."""
    forget()
    words, caller = words_of(length), Caller(library)
    m = caller.m
    wanted = Message(Unknown(library, m).compress, words_at(8, list(DATA_KEY)), words, length, {}).hash()
    m.memory.put_words(MESSAGE, words)
    m.memory.add_region(MESSAGE, length, False)
    m.memory.add_region(RESULT, 32, True)
    caller.call("data_hash", MESSAGE, length, RESULT)
    if m.memory.load(RESULT, 8) != wanted:
        raise Fault(f"data_hash of {length} bytes: another hash, whatever compresses the blocks")
    return m


def check_after(library: Library, chunks: int, lengths: Sequence[int], is_known: bool) -> Machine:
    """A hasher that has taken so many chunks, of any values, and then gets pieces. Blocks are compressed by unknown functions, or by those
    of the library, which are the definition's."""
    forget()
    words, key, before, caller = words_of(sum(lengths)), bytes_of("key", 32), subtrees_before(chunks), Caller(library)
    m = caller.m
    compression: Compress = compress if is_known else Unknown(library, m).compress
    wanted = Message(compression, words_at(8, key), words, sum(lengths), before).hash()
    hasher = Hasher(caller, "keyed", key)
    m.memory.put_words(SUBTREES, [word for subtree in before.values() for word in subtree])
    m.memory.put_words(COUNT, [1024 * chunks & 0xFFFFFFFF, 1024 * chunks >> 32])
    m.memory.put_words(MESSAGE, words)
    for start, length in zip(accumulate([0, *lengths]), lengths):
        hasher.update_at(MESSAGE + start, length)
    if hasher.hash() != wanted:
        raise Fault(f"another hash of pieces of {', '.join(map(str, lengths))} bytes after {chunks} chunks")
    if hasher.count() != 1024 * chunks + sum(lengths):
        raise Fault(f"a hasher counts other than {sum(lengths)} bytes after {chunks} chunks")
    return m


def after(lanes: int) -> Iterator[Tuple[int, List[int], bool]]:
    """How many chunks came before, the lengths of pieces, and whether the library's functions compress the blocks."""
    past = 1 << 32
    yield past - 5, [1024 * 2 * lanes + 77, 1], False
    yield past - 2 * lanes, [1024 * 4 * lanes + 77, LARGEST], False
    yield past - 3, [1024 * 7], False
    yield 6 * past, [LARGEST], False
    yield 6 * past, [1024, 1024 * (lanes // 2 + 1), 90000], False
    for chunks, count in ((past - 1, 2), (past - 2, 3), (past - 2, 4), (past + 4, 2), (past + 4, 4)):
        yield chunks, [1024 * count], True
    most = 1 << 53
    for length in (1024, 1025):
        yield most - 1, [length], False
        yield most - lanes, [1024 * lanes + length - 1024], False


def run_all(library: Library) -> Iterator[Machine]:
    """All checks of long messages; gives the machines that ran them. Of the largest chunk of Xet, numbers go through the functions that
    compress blocks, too."""
    draws = random.Random(5)
    yield check_hash_of(library, "data_hash", [draws.getrandbits(8) for _ in range(LARGEST)])
    for length in LENGTHS:
        yield check_length(library, length)
    for chunks, lengths, is_known in after(library.level.lanes):
        yield check_after(library, chunks, lengths, is_known)
