"""merges.json: merging of adjacent ranges, how many parents it hashes, and bracketings."""

from __future__ import annotations

from typing import Any, Iterable, Sequence, Union

from . import lists
from .files import File, Group, Test, invalid, valid
from .lists import MARKS, Told
from .model import m, stored_merge
from .roots import GAPS

NUMBERED = "...|" * 7
RUST_ANSWER = "9c365f154bf2d0fa6438d8ccb65ff15e917e819ff384eec0b17f59fc5c250280"
Places = Union[int, Sequence["Places"]]

PARENTS = ("how many parents a merge has to hash. With only the subtrees, that many are enough. An implementation that hashes more can still "
           "give the right result.")
MEANS = [f"subtree_merge_into_counted answers {PARENTS}"]
HEADER = [
    "A list is cut at `cut`. The left range has the nodes before it and the mark atStart, and the right range has the others "
    "and atEnd. Neither has a mark at the cut. Merging their canonical subtrees gives that of the whole list.",
    f"`parents` is {PARENTS}",
    "`bracketing` says which ranges are merged first: a number is a range, and a list of two merges both. `parents` then has a "
    "number for each merge. An inner merge comes before the one that takes its result, and the left one of two comes first.",
    "`levels`, `size`, `finalHash` and `jsonHash` are as in subtrees.json.",
]
NOTES = {
    "BothCollapsed": "At some level both operands have a level above.",
    "LeftCollapsedPointFound": "At some level only the left operand has a level above. There is a stable point in this list: "
                               "one natural cut, its right nodes, the parents from below, the right operand's nodes.",
    "LeftCollapsedNoPoint": "The same without a stable point: all nodes become right ones.",
    "LeftCollapsedClosed": "At some level only the left operand has a level above, and the right one is marked at the end: "
                           "all nodes are grouped.",
    "RightCollapsedPointFound": "At some level only the right operand has a level above, and there is a stable point.",
    "RightCollapsedNoPoint": "The same without a stable point: all nodes become left ones.",
    "RightCollapsedClosed": "At some level only the right operand has a level above, and the left one is marked at the start: "
                            "all nodes are grouped.",
    "NeitherCollapsedSplit": "At the top of both operands there is a split.",
    "RememberedCut": "The result depends on the natural cut right before the right nodes of the left operand. An "
                     "implementation that doesn't remember it keeps more nodes.",
    "EmptyOperand": "An operand has no chunks.",
    "InvalidArguments": "A mark is between two ranges. This is reported before the sizes are checked.",
    "SizeOverflow": "The sizes of all ranges add up to more than 2^64 - 1.",
    "NotAssociativeInRust": "Here xet-core-structures 1.5.2 gives `rustFinalHash`; docs/DIFFERENCES.md says why.",
}
STEP_FLAGS = {
    "both collapsed": "BothCollapsed",
    "left collapsed, triple found": "LeftCollapsedPointFound",
    "left collapsed, no triple": "LeftCollapsedNoPoint",
    "left collapsed, closed at end": "LeftCollapsedClosed",
    "right collapsed, triple found": "RightCollapsedPointFound",
    "right collapsed, no triple": "RightCollapsedNoPoint",
    "right collapsed, closed at start": "RightCollapsedClosed",
    "neither collapsed, split": "NeitherCollapsedSplit",
    "neither collapsed, no split": "",
}


def step_flags(left: m.Leaf, right: m.Leaf) -> list[str]:
    """The flags of a merge, by the steps of a merge from stored nodes, whose answer is compared with the model's."""
    trees = (m.canon(left.chunks, left.at_start, False, lists.maker), m.canon(right.chunks, False, right.at_end, lists.maker))
    stored_merge.STEPS_SEEN.clear()
    found = stored_merge.merge_stored(*trees, lists.maker)
    seen = [flag for step, flag in STEP_FLAGS.items() if stored_merge.STEPS_SEEN[step] and flag]
    whole = m.run_bracketing(m.Join(left, right), lists.maker)
    if found != (whole, m.joined_count(left, right, lists.maker)):
        raise ValueError("merging stored nodes differs from the concatenated list")
    forgetful = stored_merge.merge_stored(*trees, lists.maker, remember_cut=False)
    seen += ["RememberedCut"] * (forgetful != found)
    return seen + ["EmptyOperand"] * (not left.chunks or not right.chunks)


def merge_of(told: Told, cut: int, at_start: bool, at_end: bool) -> Test:
    """A list that is cut in two and merged."""
    left, right = m.Leaf(told.nodes[:cut], at_start, False), m.Leaf(told.nodes[cut:], False, at_end)
    tree = m.run_bracketing(m.Join(left, right), lists.maker)
    return valid("", *step_flags(left, right), list=told.said, cut=cut, atStart=at_start, atEnd=at_end,
                 parents=m.joined_count(left, right, lists.maker), **lists.subtree_fields(tree))


def every_cut() -> Group:
    """Lists cut at each place."""
    tests = []
    for told in (lists.pattern(NUMBERED[:24]), lists.pattern(lists.by_gaps((3, 7), 30)), lists.pattern("." * 6)):
        tests += [merge_of(told, cut, *marks) for cut in range(len(told.nodes) + 1) for marks in MARKS]
    return Group("Merge", "lists cut in two at each place, under each of the four marks", tests)


def short() -> Group:
    """Short lists cut at the ends, near the end, and about the middle."""
    texts = ("", ".", "|", "|..|..|", "|......|......|", "|.......|.......|", "|.|.|", NUMBERED[:20], NUMBERED)
    tests = []
    for told in [*map(lists.pattern, texts), *(lists.drawn(1, count) for count in (1, 2, 3, 9, 40, 150))]:
        count = len(told.nodes)
        cuts = {0, count // 3, count // 2, max(count - 4, 0), count}
        tests += [merge_of(told, cut, *marks) for cut in sorted(cuts) for marks in MARKS]
    return Group("Merge", "short lists cut in two", tests)


def longer() -> Group:
    """Longer lists cut at some places."""
    chosen = [lists.pattern(lists.by_gaps(gaps, 120)) for gaps in GAPS] + [lists.drawn(1, 100), lists.drawn(5000, 300)]
    chosen += [lists.drawn(10**6, 1000)]
    tests = []
    for number, told in enumerate(chosen):
        rng = m.Xoshiro256PlusPlus(number)
        cuts = {1, len(told.nodes) // 3, len(told.nodes) - 2, *(rng.below(len(told.nodes)) for _ in range(4))}
        tests += [merge_of(told, cut, *marks) for cut in sorted(cuts) for marks in MARKS]
    return Group("Merge", "longer lists cut in two", tests)


def range_said(told: Told, at_start: bool, at_end: bool) -> dict[str, Any]:
    """A range as a vector describes it."""
    return {"list": told.said, "atStart": at_start, "atEnd": at_end}


def refusals() -> Group:
    """Adjacent ranges that can't be merged."""
    one, none = lists.seeds([1]), lists.given(())
    great, small, half = lists.sized(m.MAX_U64), lists.sized(1), lists.sized(2**63)
    rows = [("the left one is marked at the end", "InvalidArguments", [(one, False, True), (one, False, False)]),
            ("the right one is marked at the start", "InvalidArguments", [(one, False, False), (one, True, False)]),
            ("both marks stand between", "InvalidArguments", [(one, True, True), (one, True, True)]),
            ("an empty range is marked at the start", "InvalidArguments", [(one, False, False), (none, True, False)]),
            ("an empty range is marked at the end", "InvalidArguments", [(none, False, True), (one, False, False)]),
            ("a mark, and sizes that pass", "InvalidArguments", [(great, False, True), (small, False, False)]),
            ("2^64 - 1 and 1", "SizeOverflow", [(great, False, False), (small, False, False)]),
            ("1 and 2^64 - 1", "SizeOverflow", [(small, True, False), (great, False, True)]),
            ("twice 2^63", "SizeOverflow", [(half, False, False), (half, False, False)])]
    tests = []
    for comment, error, ranges in rows:
        number = _refusal([m.Leaf(told.nodes, *marks) for told, *marks in ranges])
        if {1: "InvalidArguments", 2: "SizeOverflow"}[number] != error:
            raise ValueError(comment)
        tests.append(invalid(comment, error, ranges=[range_said(*it) for it in ranges], error=error))
    return Group("MergeRefused", "two adjacent ranges that aren't merged; both stay as they are", tests)


def _refusal(leaves: list[m.Leaf]) -> int:
    try:
        m.run_bracketing(m.Join(*leaves), lists.maker)
    except m.Refused as refusal:
        return int(refusal.number)
    return 0


def all_places(first: int, end: int) -> Iterable[Places]:
    """Every bracketing of the ranges of these numbers."""
    if end - first == 1:
        yield first
    for cut in range(first + 1, end):
        for left in all_places(first, cut):
            for right in all_places(cut, end):
                yield [left, right]


def leaf_of(places: Places, leaves: list[m.Leaf], parents: list[int]) -> m.Leaf:
    """What a bracketing joins, with the number of parents of each merge added to the list."""
    if isinstance(places, int):
        return leaves[places]
    left, right = (leaf_of(it, leaves, parents) for it in places)
    parents.append(m.joined_count(left, right, lists.maker))
    return m.join_ranges(left, right)


def bracketings(comment: str, ranges: list[tuple[Told, bool, bool]], rust: dict[str, str]) -> Group:
    """All bracketings of some ranges; `rust` has what the Rust crate gives for some, by the text of the bracketing."""
    leaves = [m.Leaf(told.nodes, *marks) for told, *marks in ranges]
    tree = m.merge_ranges(leaves, lists.maker)
    tests = []
    for places in all_places(0, len(leaves)):
        parents: list[int] = []
        leaf_of(places, leaves, parents)
        wrong = rust.get(str(places))
        flags = ["NotAssociativeInRust"] if wrong else []
        test = valid("", *flags, bracketing=places, parents=parents)
        tests.append({**test, "rustFinalHash": wrong} if wrong else test)
    return Group("Bracketing", comment, tests,
                 {"ranges": [range_said(*it) for it in ranges], **lists.subtree_fields(tree)})


def of_the_rust_crate() -> Group:
    """The ranges for which merging in the Rust crate isn't associative."""
    ranges = [(lists.given(lists.numbered(0, 4)), True, False), (lists.given(lists.numbered(4, 24)), False, False),
              (lists.given(lists.numbered(24, 28)), False, False), (lists.given(()), False, True)]
    return bracketings("four ranges for which merging in the Rust crate isn't associative", ranges,
                       {"[[0, [1, 2]], 3]": RUST_ANSWER})


def other_bracketings() -> list[Group]:
    """Other ranges under all bracketings."""
    groups = []
    for comment, told, cuts, marks in (
        ("five ranges of a list with natural cuts at each fourth node, open", lists.pattern(NUMBERED), (3, 9, 16, 22),
         (False, False)),
        ("five ranges of drawn chunks, closed", lists.drawn(1, 150), (20, 51, 52, 120), (True, True)),
        ("five ranges without a natural cut, closed", lists.pattern("." * 25), (1, 9, 10, 18), (True, True)),
        ("four ranges of natural cuts alone, marked at the start", lists.pattern("|" * 12), (3, 4, 8), (True, False)),
        ("five ranges, of which two are empty, marked at the end", lists.pattern(lists.by_gaps((3, 7), 50)), (0, 25, 25, 40),
         (False, True)),
    ):
        places = [0, *cuts, len(told.nodes)]
        parts = [lists.given(told.nodes[a:b]) for a, b in zip(places, places[1:])]
        ranges = [(part, marks[0] and i == 0, marks[1] and i == len(parts) - 1) for i, part in enumerate(parts)]
        groups.append(bracketings(comment, ranges, {}))
    return groups


def file() -> File:
    """merges.json."""
    return File("merges", "merging of canonical subtrees of adjacent ranges", HEADER, NOTES,
                [every_cut(), short(), longer(), refusals(), of_the_rust_crate(), *other_bracketings()])
