"""Tests of where two files differ, which are in range_proofs.json."""

from __future__ import annotations

from typing import Any, Iterable, Optional, Sequence, Union

from . import lists
from .files import Group, Test, valid
from .lists import Told, ToldData
from .model import m, range_proof

AnyList = Union[Told, ToldData]
Pair = tuple[str, AnyList, AnyList]

HEADER = [
    "Two files have as many chunks in common at the front as are the same in both lists, hash and size, from the first on. At the end "
    "they have as many in common as are the same from the last one back, but at most a given number. Their difference is none if both "
    "have the same chunks. Otherwise it leaves out the chunks in common at the front, and those that the rest of both has in common at the "
    "end: the file has its chunks from `first` up to, but without, `end` where the other one has its own from `first` up to `otherEnd`. "
    "`start`, `stop` and `otherStop` are the same places in bytes.",
]
#: What the script says of its call, which answers a list.
ANSWER = "hash_tree_diff answers `first`, `end`, `otherEnd`, `start`, `stop` and `otherStop` in this order, or null if there is no difference."
NOTES = {
    "NoDifference": "Both files have the same chunks.",
    "OneBeginsTheOther": "All chunks of one file are the first ones of the other.",
    "OtherSizes": "The hashes are the same in both files, and some sizes aren't.",
    "CountedOnce": "Some chunks of a file are in common at the front and at the end. They count at the front alone.",
}


def flags_of(nodes: Sequence[m.Node], others: Sequence[m.Node]) -> list[str]:
    """The flags of two lists."""
    shorter = min(len(nodes), len(others))
    front, end = range_proof.common_prefix(nodes, others), range_proof.common_suffix(nodes, others, shorter)
    found = {
        "NoDifference": nodes == others,
        "OneBeginsTheOther": nodes != others and front == shorter,
        "OtherSizes": nodes != others and [hash_ for hash_, _ in nodes] == [hash_ for hash_, _ in others],
        "CountedOnce": nodes != others and front + end > shorter,
    }
    return [flag for flag, holds in found.items() if holds]


def said(found: Optional[range_proof.Difference]) -> Optional[dict[str, Any]]:
    """What a vector says of a difference."""
    if found is None:
        return None
    return {"first": found.first, "end": found.end, "otherEnd": found.other_end, "start": str(found.start), "stop": str(found.stop),
            "otherStop": str(found.other_stop)}


def of_pair(comment: str, told: AnyList, other: AnyList) -> Test:
    """Two lists, and what they have in common."""
    nodes, others = told.nodes, other.nodes
    front, shorter = range_proof.common_prefix(nodes, others), min(len(nodes), len(others))
    rows = [{"most": str(most), "count": range_proof.common_suffix(nodes, others, most)}
            for most in dict.fromkeys((shorter - front, 0, 1, shorter, m.MAX_U64))]
    return valid(comment, *flags_of(nodes, others), list=told.said, other=other.said, commonPrefix=front, commonSuffixes=rows,
                 difference=said(range_proof.difference(nodes, others)))


def equal() -> Iterable[Pair]:
    """The same list twice."""
    for told in (lists.seeds([]), lists.seeds([1]), lists.seeds([1, 1, 1]), lists.seeds([1, 2, 3]), lists.pattern("..|.|"),
                 lists.sized(m.MAX_U64, 0), lists.counted(300, 4), lists.numbers(0, 40, (5, 17, 0))):
        yield f"{len(told.nodes)} chunks", told, told
    yield "the same chunks by another rule", lists.pattern("..|."), lists.given(lists.pattern("..|.").nodes)


def of_seeds(*numbers: int) -> Told:
    """Chunks with the hashes of some seeds."""
    return lists.seeds(numbers)


def edited() -> Iterable[Pair]:
    """Lists of four chunks with one edit at each place."""
    four = [1, 2, 3, 4]
    old = lists.seeds(four)
    for place in range(4):
        yield f"chunk {place} is another", old, lists.seeds([*four[:place], 9, *four[place + 1:]])
        yield f"chunk {place} is missing", old, lists.seeds([*four[:place], *four[place + 1:]])
        yield f"chunk {place} stands twice", old, lists.seeds([*four[:place + 1], *four[place:]])
    for place in range(5):
        yield f"two chunks more before chunk {place}", old, lists.seeds([*four[:place], 8, 9, *four[place:]])
    yield "the first and the last are others", old, of_seeds(8, 2, 3, 9)
    yield "the last one comes first", old, of_seeds(4, 1, 2, 3)
    yield "in the other order", old, of_seeds(4, 3, 2, 1)
    yield "all are others", old, of_seeds(5, 6, 7, 8)
    yield "a chunk without bytes at the end", old, of_seeds(1, 2, 3, 4, 0)
    yield "a chunk without bytes in the middle", old, of_seeds(1, 2, 0, 3, 4)


def ends() -> Iterable[Pair]:
    """Lists of which one begins or ends the other, or whose ends overlap."""
    none, three = lists.seeds([]), of_seeds(1, 2, 3)
    yield "no chunks, and three", none, three
    yield "no chunks, and one without bytes", none, of_seeds(0)
    yield "the first two of three", of_seeds(1, 2), three
    yield "the last two of three", of_seeds(2, 3), three
    yield "the first and the last of three", of_seeds(1, 3), three
    yield "one of three equal chunks", of_seeds(1), of_seeds(1, 1, 1)
    yield "two of three equal chunks", of_seeds(1, 1), of_seeds(1, 1, 1)
    yield "ends that overlap by one chunk", of_seeds(1, 2, 1), of_seeds(1, 2, 1, 2, 1)
    yield "ends that overlap by two chunks", of_seeds(1, 2, 1, 2), of_seeds(1, 2, 1, 2, 1, 2)
    yield "two chunks twice", of_seeds(1, 2, 1, 2), of_seeds(1, 2)
    yield "equal chunks around others", of_seeds(1, 1, 2, 1), of_seeds(1, 3, 1, 1)


def with_node(told: Told, place: int, hash_: m.Hash, size: int) -> Told:
    """The list with another node at a place."""
    return lists.given((*told.nodes[:place], (hash_, size), *told.nodes[place + 1:]))


def one_of_both() -> Iterable[Pair]:
    """Chunks that have only the hash or only the size in common."""
    old = of_seeds(1, 2, 3)
    for place, (hash_, size) in enumerate(old.nodes):
        yield f"chunk {place} has one byte more", old, with_node(old, place, hash_, size + 1)
        words = [list(hash_) for _ in hash_]
        for word, changed in enumerate(words):
            changed[word] ^= 1 << (16 * word + place)
            yield f"one bit of word {word} of chunk {place}", old, with_node(old, place, tuple(changed), size)
    hashes, sizes = zip(*old.nodes)
    yield "the sizes in the other order", old, lists.given(tuple(zip(hashes, sizes[::-1])))
    yield "the hashes in the other order", old, lists.given(tuple(zip(hashes[::-1], sizes)))


def of_sizes() -> Iterable[Pair]:
    """Places at the edges of 53 and 64 bits."""
    for sizes, other in (((m.MAX_U64,), (m.MAX_U64 - 1,)), ((2**53 - 1, 1, 1), (2**53 - 1, 2, 1)), ((2**32, 2**33, 2**63), (2**32, 2**33, 1)),
                         ((2**63, 2**63 - 1), (2**63,)), ((0, m.MAX_U64, 0), (0, 0, 0))):
        yield f"sizes {', '.join(map(str, sizes))}, and {', '.join(map(str, other))}", lists.sized(*sizes), lists.sized(*other)


def long_lists() -> Iterable[Pair]:
    """Long lists that are the same but for some chunks."""
    plain = lists.counted(600, 0)
    for every in (201, 255, 256, 257, 301, 600):
        yield f"one chunk or two of 600, from number {every - 1} on", plain, lists.counted(600, every)
    for count in (599, 512, 256, 255):
        yield f"the first {count} of 600", plain, lists.counted(count, 0)
    yield "seeds that end later", lists.drawn(1, 90), lists.drawn(1, 91)
    yield "seeds that begin later", lists.drawn(1, 90), lists.drawn(2, 89)
    yield "numbers that end later", lists.numbers(0, 90, (5, 17)), lists.numbers(0, 120, (5, 17))
    yield "numbers that begin later", lists.numbers(0, 90, (5,)), lists.numbers(30, 60, (5,))


def drawn() -> Iterable[Pair]:
    """Lists of few different chunks, which often begin and end with the same ones."""
    rng = m.Xoshiro256PlusPlus(83)

    def some(most: int) -> list[int]:
        return [1 + rng.below(2) for _ in range(rng.below(most))]

    for _ in range(40):
        front, end = some(4), some(4)
        one, other = ([*front, *some(6), *end] for _ in range(2))
        yield "", lists.seeds(one), lists.seeds(other)


def groups() -> Iterable[Group]:
    """The groups of pairs of files."""
    for comment, pairs in (("the same list twice", equal()), ("lists of four chunks, with edits", edited()),
                           ("lists of which one begins or ends the other, or whose ends overlap", ends()),
                           ("chunks with only the hash or the size in common", one_of_both()),
                           ("places at the edges of 53 and 64 bits", of_sizes()), ("long lists", long_lists()),
                           ("drawn lists of few different chunks", drawn())):
        yield Group("Difference", comment, [of_pair(*pair) for pair in pairs])
