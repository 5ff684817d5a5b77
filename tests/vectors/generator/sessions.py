"""sessions.json: sequences of calls of a session, with their answers."""

from __future__ import annotations

from typing import Any

from . import lists
from .files import File, Group, Test, valid
from .lists import Told
from .model import m

FAULTS = {1: "Overlap", 2: "Positions", 3: "Sizes", 5: "Gap"}
MAX = m.MAX_U64

HEADER = [
    "A test is a new session and some calls of it, in order. A failed call leaves the session unchanged.",
    "put: the chunks take the positions first, first + 1, and so on. `newHashes` is how many of their hashes no earlier "
    "successful put had, each counted once. A put of no chunks returns 0 and changes nothing, whatever first is. It fails with "
    "the first of these that applies: Overlap, a position is taken; Positions, first plus the number of chunks is more than "
    "2^64 - 1; Sizes, the sizes of all chunks add up to more than 2^64 - 1.",
    "taken: whether a position is taken. runs: the runs of adjacent taken positions by rising position, each with its first "
    "position and the canonical subtree of its chunks, which is open at both ends (`levels`, `size`, `finalHash` and "
    "`jsonHash` as in subtrees.json).",
    "root and finish: the root, and the file hash without a salt, of all chunks in the order of their positions. They fail "
    "with Gap if the taken positions aren't exactly those from 0 to total - 1.",
    "Positions and totals are decimal strings.",
]
NOTES = {
    "Overlap": "A put fails because a position is taken.",
    "Positions": "A put fails because a position would be 2^64 - 1 or greater.",
    "Sizes": "A put fails because the sizes would add up to more than 2^64 - 1.",
    "Gap": "A root or file hash fails because positions are missing, or there are too many.",
    "SeveralFaults": "Several faults apply. The first in the order Overlap, Positions, Sizes is reported.",
    "EqualHashes": "A hash occurs more than once.",
    "RefusedHashesStayNew": "The hashes of a failed put are still new in a later one.",
}


class Calls:
    """Calls of a session, as they are made."""

    def __init__(self) -> None:
        self.session = m.Session()
        self.said: list[dict[str, Any]] = []

    def _say(self, call: str, result: str, **fields: Any) -> None:
        self.said.append({"call": call, "result": result, **fields})

    def put(self, first: int, told: Told, fault: str = "") -> Calls:
        """A put; the fault that is wanted, if any, is compared with the model's."""
        try:
            answer: dict[str, Any] = {"result": "valid", "newHashes": self.session.put(first, told.nodes)}
        except m.SessionFault as found:
            answer = {"result": "invalid", "fault": FAULTS[found.number]}
        if answer.get("fault", "") != fault:
            raise ValueError(f"put at {first}: {answer} and not {fault}")
        self._say("put", answer.pop("result"), first=str(first), list=told.said, **answer)
        return self

    def taken(self, *positions: int) -> Calls:
        """Whether positions are taken."""
        for position in positions:
            self._say("taken", "valid", position=str(position), taken=self.session.taken(position))
        return self

    def runs(self) -> Calls:
        """All runs."""
        told = [{"first": str(first), **lists.subtree_fields(m.canon(nodes, False, False, lists.maker))}
                for first, nodes in self.session.runs()]
        self._say("runs", "valid", runs=told)
        return self

    def close(self, *totals: int) -> Calls:
        """Root and file hash by some totals."""
        for total in totals:
            for call, answer in (("root", self.session.root), ("finish", self.session.finish)):
                try:
                    self._say(call, "valid", total=str(total), hash=m.to_hex(answer(total)))
                except m.SessionFault as found:
                    self._say(call, "invalid", total=str(total), fault=FAULTS[found.number])
        return self

    def test(self, comment: str, *flags: str) -> Test:
        """The test of these calls."""
        return valid(comment, *flags, calls=self.said)


def examples() -> list[Test]:
    """Sessions of a few chunks."""
    ab, c, none = lists.seeds([1, 2]), lists.seeds([3]), lists.given(())
    return [
        Calls().runs().taken(0, MAX).close(0, 1).test("no chunk", "Gap"),
        Calls().put(2, ab).put(0, ab).runs().close(4, 3, 5).put(3, c, "Overlap").close(4)
        .test("two ranges, the second first", "Overlap", "Gap", "EqualHashes"),
        Calls().put(0, none).put(7, none).put(MAX, none).runs().close(0).test("puts of no chunk"),
        Calls().put(0, lists.seeds([1, 1, 2, 1])).put(4, lists.seeds([2, 3, 3])).put(7, lists.seeds([0, 0])).runs().close(9)
        .test("hashes that come again within a put, and in a later one", "EqualHashes"),
        Calls().put(10, lists.seeds([3, 4])).put(0, lists.seeds([1])).runs().put(1, lists.seeds([2])).runs()
        .taken(0, 1, 2, 9, 10, 11, 12).put(2, lists.seeds([5, 6, 7, 1, 2, 3, 4, 5])).runs().close(12)
        .test("three runs that become one", "EqualHashes"),
    ]


def faults() -> list[Test]:
    """Puts that are refused."""
    one, great = lists.seeds([1]), lists.sized(MAX)
    return [
        Calls().put(5, one).put(5, one, "Overlap").put(3, lists.seeds([1, 2, 3]), "Overlap").put(4, lists.seeds([4]))
        .put(3, lists.seeds([2, 3]), "Overlap").runs().close(6).test("positions that are taken", "Overlap", "Gap"),
        Calls().put(MAX, one, "Positions").put(MAX - 1, lists.seeds([1, 2]), "Positions").put(MAX - 1, one)
        .taken(MAX - 2, MAX - 1, MAX).put(MAX - 2, lists.seeds([2, 3]), "Overlap").put(MAX - 2, lists.seeds([2])).runs()
        .test("the last positions", "Positions", "Overlap", "SeveralFaults"),
        Calls().put(0, one).put(1, great, "Sizes").put(1, lists.sized(MAX - 100)).put(2, lists.sized(1), "Sizes")
        .put(2, lists.sized(0)).runs().close(3).test("sizes at the edge of 64 bits", "Sizes"),
        Calls().put(0, lists.sized(MAX, 1), "Sizes").close(0).test("sizes that pass within one put", "Sizes"),
        Calls().put(0, one).put(0, great, "Overlap").put(MAX, great, "Positions").put(7, great, "Sizes")
        .put(MAX - 1, lists.sized(MAX, 0), "Positions").close(1).test("several faults", "SeveralFaults", "Overlap",
                                                                      "Positions", "Sizes"),
        Calls().put(0, lists.seeds([1])).put(0, lists.seeds([2]), "Overlap").put(1, lists.seeds([2])).put(2, lists.seeds([2]))
        .close(3).test("the hash of a refused put is new later", "Overlap", "RefusedHashesStayNew", "EqualHashes"),
    ]


def drawn_order(seed: int, told: Told, pieces: int) -> Test:
    """The chunks of a list, put in pieces in random order."""
    rng = m.Xoshiro256PlusPlus(seed)
    count = len(told.nodes)
    places = sorted({0, count, *(rng.below(count) for _ in range(pieces))})
    parts = list(zip(places, places[1:]))
    calls = Calls()
    while parts:
        first, end = parts.pop(rng.below(len(parts)))
        calls.put(first, lists.given(told.nodes[first:end])).runs()
    return calls.close(count).test(f"{count} chunks by pieces in drawn order")


def drawn() -> list[Test]:
    """Lists, put in pieces in random order."""
    chosen = [lists.pattern("...|" * 6), lists.drawn(1, 60), lists.pattern("." * 20), lists.pattern("|" * 14),
              lists.pattern(lists.by_gaps((3, 7), 40)), lists.drawn(5000, 90)]
    return [drawn_order(seed, told, pieces) for seed, told in enumerate(chosen) for pieces in (3, 8)]


def file() -> File:
    """sessions.json."""
    return File("sessions", "sessions: chunks by position, in any order", HEADER, NOTES, [
        Group("Session", "sessions of a few chunks", examples()), Group("Session", "failed puts", faults()),
        Group("Session", "lists in pieces, in random order", drawn())])
