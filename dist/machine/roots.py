"""Groups of nodes: the hashes of the texts of several groups, and these texts.

What writes a text has branches and reads tables that depend on sizes and hashes, so it runs on numbers. For the hashes, any text of some
length stands for what it writes. The definition of the text can be compared with crates/xet_roots/specs/Roots.antt line by line.
"""

from __future__ import annotations

import random
from dataclasses import dataclass
from functools import partial
from typing import Callable, Iterator, List, Sequence, Tuple

from calls import INTERNAL_KEY, RESULT, Caller, bytes_of, must_take
from definition import keyed_hash
from fault import Fault, number
from layout import Library, of_groups
from machine import Machine
from wanted import Wanted
from words import Value, Word, forget

#: Where groups are, what says so, and room for a text; how many bytes it has; how many nodes a group has at most, and how many groups
#: have their parents made at once.
GROUPS, LIST, ROOM = [0x26000008 + 0x10010 * k for k in range(64)], 0x29000008, 0x2A000003
ROOM_SIZE, MOST_NODES, MOST_GROUPS = 792, 9, 64
#: Sizes of nodes: at both ends, and where the number of digits changes.
SIZES = [0, 1, *(10 ** k + more for k in range(1, 20) for more in (-1, 0, 1)), (1 << 64) - 1]


@dataclass(frozen=True)
class Node:
    """The four words of a node's hash, and its size."""

    words: Tuple[int, ...]
    size: int

    def line(self) -> str:
        return f"{''.join(f'{word:016x}' for word in self.words)} : {self.size}\n"


def text_of(group: Sequence[Node]) -> bytes:
    return "".join(node.line() for node in group).encode()


def words_of(group: Sequence[Node]) -> List[Word]:
    """A group as it is in memory."""
    values = [value for node in group for value in (*node.words, node.size)]
    return [word for value in values for word in (value & 0xFFFFFFFF, value >> 32)]


def groups(is_short: bool) -> Iterator[List[Node]]:
    """Groups of one node and more, which together have each size, and each digit of a hash at each place."""
    draws, taken = random.Random(3), 0
    hashes = [tuple((k + 5 * place) % 16 * 0x1111111111111111 ^ 0x0123456789ABCDEF for place in range(4)) for k in range(16)]
    nodes = [Node(hashes[i % 16], size) for i, size in enumerate(SIZES)]
    if not is_short:
        nodes += [Node(tuple(draws.getrandbits(64) for _ in range(4)), draws.getrandbits(draws.randrange(65))) for _ in range(900)]
    count = 1
    while taken < len(nodes):
        yield nodes[taken:taken + count]
        taken, count = taken + count, count % MOST_NODES + 1


def pairs(is_short: bool) -> List[Tuple[int, int]]:
    """Lengths of two texts."""
    if is_short:
        return [(0, 69), (64, 65), (128, 792), (791, 260), (385, 390)]
    return [(length, (7 * length + 3) % (ROOM_SIZE + 1)) for length in range(ROOM_SIZE + 1)]


def lengths(is_short: bool) -> List[List[int]]:
    """Lengths of texts, for many numbers of texts; in the whole list each length is there."""
    few = [[(67 * k + 61 * count) % (ROOM_SIZE + 1) for k in range(count)] for count in (*range(1, 18), 32, 33, MOST_GROUPS)]
    if is_short:
        return [few[0], few[1], few[4], few[8], [0, 64, 65, 128, 791, ROOM_SIZE, *few[9]]]
    return few + [[min(at + k, ROOM_SIZE) for k in range(MOST_GROUPS)] for at in range(0, ROOM_SIZE + 1, MOST_GROUPS)]


def hashes_of(*texts: Sequence[Word]) -> List[Word]:
    return [word for text in texts for word in keyed_hash(INTERNAL_KEY, text)]


def run_parent_hashes(caller: Caller, groups: Sequence[Tuple[int, int]]) -> List[Word]:
    """Runs `parent_hashes` of groups at some places and of some lengths. Returns the words of the hashes."""
    memory = caller.m.memory
    memory.add_region(RESULT, 32 * MOST_GROUPS, True)
    place = memory.add_words(LIST, [word for group in groups for value in group for word in (value & 0xFFFFFFFF, value >> 32)])
    caller.run(of_groups("parent_hashes"), [RESULT, place, len(groups)])
    return memory.load(RESULT, 8 * len(groups))


def run_two_parent_hashes(caller: Caller, groups: Sequence[Tuple[int, int]]) -> List[Word]:
    """Runs `two_parent_hashes` of two groups at some places and of some lengths. Returns the words of the hashes."""
    caller.m.memory.add_region(RESULT, 64, True)
    caller.run(of_groups("two_parent_hashes"), [RESULT, *(value for group in groups for value in group)])
    return caller.m.memory.load(RESULT, 16)


def check_texts(library: Library, each: Sequence[int], run: Callable[[Caller, Sequence[Tuple[int, int]]], List[Word]]) -> Machine:
    """What makes the hashes of groups, for all texts of some lengths. The groups may not be read."""
    forget()
    texts = [bytes_of(f"text {k}", length) for k, length in enumerate(each)]
    wanted = Wanted(hashes_of, *texts)
    caller, given = Caller(library), iter(texts)
    m = caller.m

    def write() -> Value:
        """Writes the next text at the start of the room that is given, and returns how long it is."""
        text = next(given)
        m.memory.store_bytes(m.number(m.ARGUMENTS[0]), text)
        return len(text)

    m.stand_ins[library.image.function(of_groups("write_text"))] = write
    found = run(caller, [(place, MOST_NODES) for place in GROUPS[:len(each)]])
    wanted.must_be(found, f"{len(each)} texts of {', '.join(map(str, each))} bytes")
    return m


def check_groups(
    library: Library, each: Sequence[Sequence[Node]], run: Callable[[Caller, Sequence[Tuple[int, int]]], List[Word]],
) -> Machine:
    """The same of groups of numbers."""
    forget()
    wanted = Wanted(hashes_of, *map(text_of, each))
    caller = Caller(library)
    places = [(caller.m.memory.add_words(place, words_of(group)), len(group)) for place, group in zip(GROUPS, each)]
    wanted.must_be(run(caller, places), f"groups of {', '.join(str(len(group)) for group in each)} nodes")
    return caller.m


def check_text(library: Library, group: Sequence[Node]) -> Machine:
    """`write_text` of a group of numbers."""
    forget()
    caller, text = Caller(library), text_of(group)
    m = caller.m
    m.memory.add_bytes(ROOM, [0] * ROOM_SIZE)
    m.memory.remove_region(ROOM)
    m.memory.add_region(ROOM, ROOM_SIZE, True)
    size = number(caller.run(of_groups("write_text"), [ROOM, m.memory.add_words(GROUPS[0], words_of(group)), len(group)]))
    if size != len(text):
        raise Fault(f"the text of {len(group)} nodes ends elsewhere")
    if m.memory.load_bytes(ROOM, len(text)) != list(text):
        raise Fault(f"the text of {len(group)} nodes is another one")
    return m


def run_all(library: Library, is_short: bool) -> Iterator[Machine]:
    """All checks of groups; gives the machines that ran them."""
    of_numbers = list(groups(is_short))
    for pair in pairs(is_short):
        yield check_texts(library, pair, run_two_parent_hashes)
    for each in lengths(is_short):
        yield check_texts(library, each, run_parent_hashes)
    all_lanes = partial(check_texts, library, lengths(True)[-1], run_parent_hashes)
    yield must_take(library, "chunks::take_block", {library.level.lanes}, all_lanes, f"{MOST_GROUPS} texts")
    for group in of_numbers:
        yield check_text(library, group)
    for at in range(0, len(of_numbers), MOST_GROUPS):
        yield check_groups(library, of_numbers[at:at + MOST_GROUPS], run_parent_hashes)
    for two in zip(of_numbers, of_numbers[1:3] if is_short else of_numbers[1:]):
        yield check_groups(library, two, run_two_parent_hashes)
