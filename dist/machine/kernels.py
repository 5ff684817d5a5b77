"""The functions that compress blocks, for every chaining value, block, counter and set of flags: all of these are symbols.

Calls between functions of the library follow no written rule: where each level passes its arguments was read off the callers. If that
is wrong, a check fails. It can't pass wrongly, since the symbols would come out in the wrong places.
"""

from __future__ import annotations

from functools import partial
from typing import Callable, Dict, Iterable, Iterator, List, Sequence, Tuple

from calls import Caller
from definition import CHUNK_END, CHUNK_START, KEYED_HASH, compress, parent_value
from layout import Library, inner
from machine import Machine
from wanted import Wanted
from widths import WIDTHS, of_width
from words import Value, Word, add_64, forget, high, low, symbol, unknown

#: Where the checks put what a function reads or writes, each place at an address that isn't a multiple of 32 where it needn't be.
RESULT, FIRST, SECOND, THIRD, FOURTH, CHUNKS = 0x20000040, 0x21000040, 0x22000040, 0x23000040, 0x25000040, 0x30000004
#: Where vectors are that are passed by their places.
VECTORS = 0x24000040
#: The function of four chunks at once, and that of the parents of eight subtrees.
FOUR_CHUNKS, FOUR_PARENTS = "four_chunks::four_chunk_values", "subtrees::four_parent_values"
#: How many words a vector has in which a level passes chaining values: those of one block, and of two.
VALUE_VECTORS = {"x86-64": (4, 4), "x86-64-v2": (4, 4), "x86-64-v3": (4, 8), "x86-64-v4": (4, 8), "aarch64": (4, 4)}


def symbols(name: str, count: int) -> List[Word]:
    return [symbol(f"{name} {i}") for i in range(count)]


def counter_of(name: str) -> Value:
    return symbol(f"{name} low"), symbol(f"{name} high")


def upper_unknown(word: Word) -> Value:
    """A value of which a function may only use the lowest 32 bits."""
    return word, unknown()


def side_by_side(values: Iterable[Sequence[Word]]) -> List[Word]:
    """Values of lanes as vectors have them: the first words of all, then the second ones."""
    return [word for row in zip(*values) for word in row]


def indices(places: Sequence[int]) -> List[Word]:
    """Numbers of 64 bits as words."""
    return [word for place in places for word in (low(place), high(place))]


class Kernel:
    """A function of keyed_blake3 with room for its result, whose place is its first argument."""

    def __init__(self, library: Library, name: str, result: Sequence[Word]) -> None:
        self.caller = Caller(library)
        self.memory, self.name, self.size = self.caller.m.memory, inner(name), len(result)
        self.arguments: List[Value] = [self.memory.add_words(RESULT, list(result), True)]
        self.vectors: List[Sequence[Word]] = []

    def give(self, *values: Value) -> None:
        """Gives it more arguments, in registers."""
        self.arguments += values

    def give_at(self, place: int, words: Sequence[Word]) -> None:
        """Gives it words in memory, which it may only read."""
        self.arguments.append(self.memory.add_words(place, list(words)))

    def give_vectors(self, words: Sequence[Word], blocks: int) -> None:
        """Gives it words of one block or two in vectors, as its level passes them."""
        level = self.caller.library.level
        width = VALUE_VECTORS[level.name_for_linux][blocks - 1]
        vectors = [words[i:i + width] for i in range(0, len(words), width)]
        if not level.is_for_windows:
            self.vectors += vectors
            return
        for vector in vectors:
            self.give_at(VECTORS + 64 * len(self.arguments), vector)

    def must_give(self, wanted: Wanted, what: str) -> Machine:
        """Runs the function, whose result must be as wanted. Returns the machine that ran it."""
        self.caller.run(self.name, self.arguments, self.vectors)
        wanted.must_be(self.memory.load(RESULT, self.size), f"{self.name}, {what}")
        return self.caller.m


def check_compress(library: Library) -> Machine:
    """One block."""
    forget()
    h, block, counter, length, flags = symbols("h", 8), symbols("m", 16), counter_of("counter"), symbol("length"), symbol("flags")
    wanted = Wanted(compress, h, block, counter, length, flags)
    kernel = Kernel(library, "compression::compress", [unknown() for _ in range(8)])
    kernel.give_vectors(h, 1)
    kernel.give_at(FIRST, block)
    kernel.give(counter, upper_unknown(length), upper_unknown(flags))
    return kernel.must_give(wanted, "one block")


def check_compress_two(library: Library) -> Machine:
    """Two blocks, each with a counter, a length and flags of its own."""
    forget()
    values = [symbols(f"h{k}", 8) for k in (0, 1)]
    blocks = [(symbols(f"m{k}", 16), counter_of(f"counter{k}"), symbol(f"length{k}"), symbol(f"flags{k}")) for k in (0, 1)]
    wanted = Wanted(two_blocks, values, blocks)
    kernel = Kernel(library, "compression::two::compress_two_from", [unknown() for _ in range(16)])
    kernel.give_vectors(beside(*values), 2)
    kernel.give_vectors([word for _, counter, length, flags in blocks for word in (low(counter), high(counter), length, flags)], 2)
    for place, (words, *_) in zip((FIRST, SECOND), blocks):
        kernel.give_at(place, words)
    return kernel.must_give(wanted, "two blocks")


def two_blocks(values: Sequence[Sequence[Word]], blocks: Sequence[Tuple[Sequence[Word], Value, Word, Word]]) -> List[Word]:
    first, second = (compress(h, *block) for h, block in zip(values, blocks))
    return beside(first, second)


def beside(first: Sequence[Word], second: Sequence[Word]) -> List[Word]:
    """Two values as vectors have them: the lower halves of both, then the upper ones."""
    return [*first[:4], *second[:4], *first[4:], *second[4:]]


def check_take_block(library: Library, n: int, places: Sequence[int]) -> Machine:
    """Block n of chunks at some places, of which nothing but these blocks may be read."""
    forget()
    lanes = len(places)
    h = [symbols(f"h{j}", 8) for j in range(lanes)]
    blocks, counters = [symbols(f"m{j}", 16) for j in range(lanes)], [counter_of(f"counter{j}") for j in range(lanes)]
    lengths, flags = symbols("length", lanes), symbols("flags", lanes)
    wanted = Wanted(block_of_each, h, blocks, counters, lengths, flags)
    kernel = Kernel(library, of_width("chunks::take_block", lanes), side_by_side(h))
    for place, block in zip(places, blocks):
        kernel.memory.add_words(CHUNKS + 1024 * place + 64 * n, block)
    kernel.give(CHUNKS)
    kernel.give_at(FIRST, indices(places))
    kernel.give(n)
    kernel.give_at(SECOND, [*map(low, counters), *map(high, counters)])
    kernel.give_at(THIRD, lengths)
    kernel.give_at(FOURTH, flags)
    return kernel.must_give(wanted, f"block {n} of chunks at {list(places)}")


def check_take_in_each(library: Library, lanes: int) -> Machine:
    """Blocks side by side whose counter is 0."""
    forget()
    h, blocks = ([symbols(f"{name}{j}", count) for j in range(lanes)] for name, count in (("h", 8), ("m", 16)))
    lengths, flags = symbols("length", lanes), symbols("flags", lanes)
    wanted = Wanted(block_of_each, h, blocks, [0] * lanes, lengths, flags)
    kernel = Kernel(library, of_width("compression::lanes::take_in_each", lanes), side_by_side(h))
    for place, words in ((FIRST, side_by_side(blocks)), (SECOND, lengths), (THIRD, flags)):
        kernel.give_at(place, words)
    return kernel.must_give(wanted, "blocks side by side")


def block_of_each(
    h: Sequence[Sequence[Word]], blocks: Sequence[Sequence[Word]], counters: Sequence[Value], lengths: Sequence[Word], flags: Sequence[Word],
) -> List[Word]:
    return side_by_side(compress(*lane) for lane in zip(h, blocks, counters, lengths, flags))


def check_chunk_values(library: Library, name: str, places: Sequence[int]) -> Machine:
    """The chunks at some places, the first of which has any number: in as many lanes, or four at once."""
    forget()
    key, first = symbols("key", 8), counter_of("first")
    # A chunk that is taken twice has the same words.
    chunks = [symbols(f"chunk {places.index(place)}", 256) for place in places]
    wanted = Wanted(chunk_of_each, key, first, places, chunks)
    kernel = Kernel(library, name, [unknown() for _ in range(8 * len(places))])
    for place, chunk in zip(places, chunks):
        kernel.memory.add_words(CHUNKS + 1024 * place, chunk)
    if name == FOUR_CHUNKS:
        kernel.give_vectors(key, 1)
    else:
        kernel.give_at(FIRST, key)
    kernel.give(CHUNKS)
    kernel.give_at(SECOND, indices(places))
    kernel.give(first)
    return kernel.must_give(wanted, f"chunks at {list(places)}")


def chunk_of_each(key: Sequence[Word], first: Value, places: Sequence[int], chunks: Sequence[Sequence[Word]]) -> List[Word]:
    return side_by_side(value_of_chunk(key, add_64(first, place), chunk) for place, chunk in zip(places, chunks))


def value_of_chunk(key: Sequence[Word], number: Value, words: Sequence[Word]) -> Sequence[Word]:
    """The chaining value of a whole chunk of words, which isn't the only one."""
    value = key
    for n in range(16):
        flags = KEYED_HASH + (CHUNK_START if n == 0 else 0) + (CHUNK_END if n == 15 else 0)
        value = compress(value, words[16 * n:16 * n + 16], number, 64, flags)
    return value


def check_parents(library: Library, lanes: int) -> Machine:
    """The parents of neighbours."""
    forget()
    key = symbols("key", 8)
    left, right = ([symbols(f"{side} {j}", 8) for j in range(lanes)] for side in ("left", "right"))
    both = [*left, *right]
    wanted = Wanted(parent_of_each, key, both[::2], both[1::2])
    kernel = Kernel(library, of_width("subtrees::parent_values", lanes), [unknown() for _ in range(8 * lanes)])
    for place, words in ((FIRST, key), (SECOND, side_by_side(left)), (THIRD, side_by_side(right))):
        kernel.give_at(place, words)
    return kernel.must_give(wanted, "parents")


def parent_of_each(key: Sequence[Word], left: Sequence[Sequence[Word]], right: Sequence[Sequence[Word]]) -> List[Word]:
    return side_by_side(parent_value(key, *pair, 0) for pair in zip(left, right))


def check_four_parents(library: Library, lanes: int) -> Machine:
    """The parents of the first eight subtrees of some lanes."""
    forget()
    key, values = symbols("key", 8), [symbols(f"value {j}", 8) for j in range(lanes)]
    wanted = Wanted(parent_of_each, key, values[:8:2], values[1:8:2])
    kernel = Kernel(library, of_width(FOUR_PARENTS, lanes), [unknown() for _ in range(32)])
    kernel.give_vectors(key, 1)
    kernel.give_at(SECOND, side_by_side(values))
    return kernel.must_give(wanted, f"parents of eight subtrees in {lanes} lanes")


def orders(lanes: int) -> Dict[str, List[int]]:
    """Places of as many chunks, in three orders: far apart, they are as far as in a message of almost 2^63 bytes."""
    return {
        "in order": list(range(lanes)), "far apart": [(1 << 53) - 1 - j * 0x123456789ABCD for j in range(lanes)],
        "backwards": [lanes - j for j in range(lanes)],
    }


def orders_of_four() -> Dict[str, List[int]]:
    """The places from which four chunks are taken at once: the last one twice if there are three."""
    return {**orders(4), "the last one twice": [0, 1, 2, 2]}


def checks_of_width(library: Library, lanes: int) -> Iterator[Tuple[str, str, Callable[[], Machine]]]:
    """The checks of the functions for a width."""
    block, values = of_width("chunks::take_block", lanes), of_width("chunks::chunk_values", lanes)
    for name, places in orders(lanes).items():
        for n in range(16):
            yield block, f"take_block of {lanes} lanes, {n}, {name}", partial(check_take_block, library, n, places)
        yield values, f"chunk_values of {lanes} lanes, {name}", partial(check_chunk_values, library, values, places)
    each = of_width("compression::lanes::take_in_each", lanes)
    yield each, f"take_in_each of {lanes} lanes", partial(check_take_in_each, library, lanes)
    yield of_width("subtrees::parent_values", lanes), f"parent_values of {lanes} lanes", partial(check_parents, library, lanes)
    if lanes > 4:
        yield of_width(FOUR_PARENTS, lanes), f"four_parent_values of {lanes} lanes", partial(check_four_parents, library, lanes)


def all_checks(library: Library) -> Iterator[Tuple[str, str, Callable[[], Machine]]]:
    """The checks of all functions that a level could have, each with the function's name and its own."""
    yield "compression::compress", "compress", partial(check_compress, library)
    yield "compression::two::compress_two_from", "compress_two", partial(check_compress_two, library)
    for name, places in orders_of_four().items():
        yield FOUR_CHUNKS, f"four_chunk_values, {name}", partial(check_chunk_values, library, FOUR_CHUNKS, places)
    for lanes in WIDTHS:
        if lanes <= library.level.lanes:
            yield from checks_of_width(library, lanes)


def checks(library: Library) -> Iterator[Tuple[str, Callable[[], Machine]]]:
    """The checks of a level, each with its name; each returns the machine that ran it."""
    return ((name, check) for function, name, check in all_checks(library) if library.has(inner(function)))


def absent(library: Library) -> List[str]:
    """What a level has no function for: LLVM has moved it into another one, which runs in whole calls, or the level doesn't need it."""
    names = [name.partition(",")[0] for function, name, _ in all_checks(library) if not library.has(inner(function))]
    return list(dict.fromkeys(names))
