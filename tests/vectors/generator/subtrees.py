"""subtrees.json: stable points, and canonical subtrees of lists under marks."""

from __future__ import annotations

from . import lists
from .files import File, Group, Test, invalid, valid
from .lists import MARKS, Told
from .model import m
from .roots import GAPS

EXHAUSTIVE = 8
NUMBERED = "...|" * 7
CHOSEN = [NUMBERED[:20], NUMBERED[:24], NUMBERED, NUMBERED[:16], "|..|..|", "|......|......|", "|.......|.......|", "|.|.|",
          "|.|..|..|.|", "||...|...|...||", "." * 30, "|" * 30]

MEANS = [
    "Take three natural cuts at a < b < c with no natural cut between them, and with b - a and c - b from 3 to 7. The place "
    "b + 1 is a stable point. It is told as the number of nodes before it.",
    "The canonical subtree of a list under the marks atStart and atEnd: a list of at most one node is one level, with its "
    "nodes on the left. Otherwise lo is 0 with atStart, and else the first stable point. hi is the number of nodes with atEnd, "
    "and else the greatest stable point of a triple with a at or after lo. If one of them is missing, the list is one level, "
    "with all nodes on the left. Otherwise level 0 has the nodes before lo on the left and those from hi on the right, and the "
    "levels above are the canonical subtree of the parents of the groups from lo to hi.",
    "The levels of a subtree are the numbers of left and right nodes of each level, from the chunks up.",
]
HEADER = [
    *MEANS,
    "`first` and `last` are the first and the last stable point of a list, or null. `levels` has the subtree's levels. `jsonHash` is the data hash of the "
    "compact JSON text in the form of subtree_json.json.",
]
NOTES = {
    "NoSplit": "There is no split: the subtree is the list.",
    "NoStablePoint": "A list of at least 15 nodes without a stable point.",
    "Empty": "There are no chunks.",
    "SecondTripleBeforeFirst": "There are two stable points and no split, since no triple begins after the first of them.",
    "SizeOverflow": "The sizes add up to more than 2^64 - 1.",
}


def flags(told: Told, at_start: bool, at_end: bool) -> list[str]:
    """The flags of a list under marks."""
    points = m.stable_points(told.nodes)
    unsplit = m.split(told.nodes, at_start, at_end) is None
    found = {
        "NoSplit": unsplit and len(told.nodes) > 1,
        "NoStablePoint": not points and len(told.nodes) >= 15,
        "Empty": not told.nodes,
        "SecondTripleBeforeFirst": unsplit and len(points) > 1,
    }
    return [flag for flag, holds in found.items() if holds]


def subtree_of(comment: str, told: Told, at_start: bool, at_end: bool, whole: bool = False) -> Test:
    """A list under marks with its subtree; with the whole JSON text where it is asked for."""
    tree = m.canon(told.nodes, at_start, at_end, lists.maker)
    fields = lists.subtree_fields(tree)
    if whole:
        fields["json"] = m.to_json_text(tree)
    return valid(comment, *flags(told, at_start, at_end), list=told.said, atStart=at_start, atEnd=at_end, **fields)


def points() -> Group:
    """Lists with their first and last stable point."""
    texts = CHOSEN + [lists.by_gaps([gap], 40) for gap in range(1, 11)] + [lists.by_gaps(gaps, 60) for gaps in GAPS]
    texts += [lists.by_chance(seed, 40) for seed in range(20)] + ["", ".", "|"]
    chosen = [*map(lists.pattern, texts), *(lists.drawn(1, count) for count in (1, 2, 3, 9, 40, 150, 400))]
    tests = [valid("", list=told.said, first=m.find_stable_start(told.nodes), last=m.find_stable_end(told.nodes))
             for told in chosen]
    return Group("StablePoints", "lists with their first and last stable point", tests)


def every_pattern() -> Group:
    """All patterns of short lists under all marks."""
    tests = [subtree_of("", lists.pattern(text), *marks)
             for length in range(EXHAUSTIVE + 1) for text in lists.all_patterns(length) for marks in MARKS]
    return Group("Subtree", f"every pattern of natural cuts of lists of 0 to {EXHAUSTIVE} nodes, under each of the four marks",
                 tests)


def whole_texts() -> Group:
    """Subtrees with their JSON texts."""
    chosen = [lists.given(()), lists.seeds([1]), lists.seeds(range(8)), lists.given(lists.numbered(0, 20)),
              lists.given(lists.numbered(0, 24)), *map(lists.pattern, CHOSEN[3:7])]
    tests = [subtree_of("", told, *marks, whole=True) for told in chosen for marks in MARKS]
    return Group("Subtree", "subtrees with their JSON texts", tests)


def longer() -> Group:
    """Longer lists under all marks."""
    chosen = [lists.pattern(text) for text in CHOSEN]
    chosen += [lists.pattern(lists.by_gaps(gaps, length)) for gaps in GAPS for length in (40, 150)]
    chosen += [lists.drawn(first, count) for first, count in ((1, 60), (200, 100), (5000, 300), (10**6, 1000), (10**7, 3000))]
    tests = [subtree_of("", told, *marks) for told in chosen for marks in MARKS]
    return Group("Subtree", "longer lists under each of the four marks", tests)


def of_sizes() -> Group:
    """Sizes at the edge of 64 bits."""
    tests = [subtree_of("the greatest sum", lists.sized(m.MAX_U64, 0), *marks) for marks in MARKS]
    tests += [invalid("a sum of 2^64", "SizeOverflow", list=lists.sized(m.MAX_U64, 1).said, atStart=marks[0], atEnd=marks[1],
                      error="SizeOverflow") for marks in MARKS]
    return Group("Subtree", "sizes at the edge of 64 bits", tests)


def file() -> File:
    """subtrees.json."""
    return File("subtrees", "canonical subtrees", HEADER, NOTES,
                [points(), whole_texts(), of_sizes(), every_pattern(), longer()])
