"""sessions.jsonl: calls of sessions, with their answers."""

from __future__ import annotations

from typing import Any, Callable, Optional

from . import lists, sessions
from .lists import Told
from .model import m
from .scripts import Script, Step, a_test, call, number, refused
from .session_texts import Run, written
from .steps import subtree_is

MAX = m.MAX_U64
SALT = bytes(range(100, 132))
ERRORS = {1: "SESSION_OVERLAP", 2: "SESSION_POSITIONS", 3: "SIZES", 5: "SESSION_GAP", 6: "ARGUMENTS"}
NO_HASH = m.random_from_seed(10**9)

HEADER = [
    "session_put: the chunks take the positions first, first + 1, and so on. The answer is how many of their hashes the session "
    "didn't know, each counted once. A put of no chunks answers 0 and changes nothing, whatever first is. It is refused with the first "
    "of these that applies: SESSION_OVERLAP, a position is taken; SESSION_POSITIONS, first plus the number of chunks is more than "
    "2^64 - 1; SIZES, the sizes of all chunks add up to more than 2^64 - 1. `position` is the first one that is taken.",
    "A run is as many adjacent taken positions as there are. Its subtree is open at both ends. session_run takes the number of a run by "
    "rising position. session_run_from finds the first run that ends after a position, and answers its first position and the one after "
    "its last. Both are refused with ARGUMENTS if there is no such run.",
    "session_gaps answers all gaps below a total: adjacent free positions, as many as there are, each by its first position and the one "
    "after its last. session_next_gap finds the first gap from a position on, and is refused with ARGUMENTS if there is none.",
    "session_root and session_finish: the root, and the file hash without a salt, of all chunks in the order of their positions. They "
    "are refused with SESSION_GAP if the taken positions aren't exactly those from 0 to total - 1. `position` is the first free one "
    "below the total, or else the first taken one from the total on.",
    "session_put_range puts a range of a number of chunks at the positions from first on; the session doesn't know the hashes of its "
    "chunks. It is refused with ARGUMENTS if the number is 0 or the subtree is marked at an end, and otherwise as a put.",
    "session_join puts all chunks of another session, which is unchanged, at their positions, and keeps the hashes that it knows. The "
    "answer is how many of these the session didn't know. It is refused with SESSION_OVERLAP if a position is taken in both, and otherwise "
    "with SIZES as a put.",
    "session_push_run adds a run after all runs, from its first position to the one before its end; the session doesn't know the hashes "
    "of its chunks. It is refused with ARGUMENTS if there is no position, the subtree is marked at an end, or a position from first - 1 "
    "on is taken; otherwise with SIZES as a put. session_keep_hashes keeps hashes as if an earlier put had had them.",
    "A session of session_new_without_hashes knows no hash, so that each put counts its hashes as new. Its session_keep_hashes is refused "
    "with ARGUMENTS if there are hashes.",
    "The JSON of a session is that of session_json.",
]
NOTES = {**sessions.NOTES, "Saved": "A session is made again from the runs and the known hashes of another one.",
         "Parts": "Ranges are put, or sessions joined."}
Called = Callable[..., Any]


class Calls:
    """Calls of sessions as they are made, with the model's answers. The first session is named s, and each subtree r."""

    def __init__(self, keeps_hashes: bool = True) -> None:
        self.sessions = {"s": m.Session(keeps_hashes)}
        self.steps: list[Step] = [call("session_new" if keeps_hashes else "session_new_without_hashes", makes="s")]

    def _answered(self, of: str, called: str, *given: Any, answer: Called, position: Optional[Callable[[], int]] = None) -> None:
        try:
            gives = answer()
            self.steps.append(call(called, of, *given, **({} if gives is None else {"gives": gives})))
        except m.SessionFault as found:
            told = {} if position is None or found.number not in (1, 5) else {"position": number(position())}
            self.steps.append(refused(called, of, *given, error=ERRORS[found.number], **told))

    def put(self, first: int, told: Told, error: str = "", of: str = "s") -> Calls:
        """A put; the error that is wanted, if any, is compared with the model's."""
        session = self.sessions[of]
        wanted = range(first, first + len(told.nodes))
        self._answered(of, "session_put", number(first), told.said, answer=lambda: number(session.put(first, told.nodes)),
                       position=lambda: next(it for it in wanted if session.taken(it)))
        return self._wants(error, f"put at {first}")

    def _wants(self, error: str, what: str) -> Calls:
        found = dict(enumerate(self.steps[-1])).get(2, {}).get("error", "")
        if found != error:
            raise ValueError(f"{what}: {found} and not {error}")
        return self

    def put_range(self, first: int, told: Told, error: str = "", of: str = "s", count: Optional[int] = None,
                  marks: tuple[bool, bool] = (False, False)) -> Calls:
        """A range that is put; of another number of chunks, or with marks, it is refused."""
        session, many = self.sessions[of], len(told.nodes) if count is None else count
        self.steps.append(call("subtree_from_chunks", marks[0], told.said, marks[1], makes="r"))
        self._answered(of, "session_put_range", number(first), number(many), "r",
                       answer=lambda: session.put_range(first, many, m.Leaf(told.nodes, *marks)),
                       position=lambda: next(it for it in range(first, first + many) if session.taken(it)))
        return self._wants(error, f"range at {first}")

    def join(self, other: str, error: str = "", of: str = "s") -> Calls:
        """A session that is joined to one."""
        self._answered(of, "session_join", other, answer=lambda: number(self.sessions[of].join(self.sessions[other])))
        return self._wants(error, f"{other} joined to {of}")

    def keeps_hashes(self, of: str = "s") -> Calls:
        """Whether the session keeps hashes."""
        self.steps.append(call("session_keeps_hashes", of, gives=self.sessions[of].keeps_hashes))
        return self

    def taken(self, *positions: int) -> Calls:
        """Whether positions are taken."""
        self.steps += [call("session_taken", "s", number(it), gives=self.sessions["s"].taken(it)) for it in positions]
        return self

    def knows(self, *hashes: m.Hash, of: str = "s") -> Calls:
        """Whether the session knows hashes, one by one and all at once."""
        known, said = list(map(self.sessions[of].knows, hashes)), list(map(m.to_hex, hashes))
        self.steps += [call("session_knows", of, text, gives=answer) for text, answer in zip(said, known)]
        self.steps.append(call("session_knows_each", of, said, gives=known))
        return self

    def sums(self, of: str = "s") -> Calls:
        """How many runs, chunks, bytes and known hashes there are, and the session's text."""
        it = self.sessions[of]
        for what, value in (("num_runs", len(it.runs())), ("num_chunks", it.num_chunks()), ("total_size", it.total_size()),
                            ("num_known_hashes", len(it.seen))):
            self.steps.append(call(f"session_{what}", of, gives=number(value)))
        self.steps.append(call("session_to_json", of, hash=lists.data_hash(self._text(of).encode())))
        return self

    def _text(self, of: str) -> str:
        it = self.sessions[of]
        runs = (Run(first, first + len(nodes), m.canon(nodes, False, False, lists.maker)) for first, nodes in it.runs())
        return written(runs, it.seen)

    def known(self, of: str = "s") -> Calls:
        """All hashes that the session knows, by rising hex text."""
        self.steps.append(call("session_known_hashes", of, gives=sorted(map(m.to_hex, self.sessions[of].seen))))
        return self

    def runs(self, of: str = "s") -> Calls:
        """All runs by their numbers, and one that isn't there; and what there is from the edges of each run on."""
        runs = self.sessions[of].runs()
        for place, (first, nodes) in enumerate(runs):
            self.steps.append(call("session_run", of, place, makes="r", gives=number(first)))
            self.steps += subtree_is("r", lists.subtree_fields(m.canon(nodes, False, False, lists.maker)))
        self.steps.append(refused("session_run", of, len(runs), error="ARGUMENTS"))
        for position in sorted({0, *(it for first, nodes in runs for it in (first, first + len(nodes) - 1, first + len(nodes)))}):
            self._run_from(of, position)
        return self.sums(of)

    def _run_from(self, of: str, position: int) -> None:
        found = self.sessions[of].run_from(position)
        if found is None:
            self.steps.append(refused("session_run_from", of, number(position), error="ARGUMENTS"))
            return
        first, nodes = found
        places = [number(first), number(first + len(nodes))]
        self.steps.append(call("session_run_from", of, number(position), makes="r", gives=places))
        self.steps.append(call("subtree_total_size", "r", gives=number(m.total_size(nodes))))

    def gaps(self, *totals: int) -> Calls:
        """All gaps below some totals, one after another, and all at once."""
        session = self.sessions["s"]
        for total in totals:
            found, position = [], 0
            while (gap := session.next_gap(position, total)) is not None:
                said = list(map(number, gap))
                self.steps.append(call("session_next_gap", "s", number(position), number(total), gives=said))
                found.append(said)
                middle = (gap[0] + gap[1]) // 2
                self.steps.append(call("session_next_gap", "s", number(middle), number(total), gives=[number(middle), said[1]]))
                position = gap[1]
            self.steps.append(refused("session_next_gap", "s", number(position), number(total), error="ARGUMENTS"))
            self.steps.append(call("session_gaps", "s", number(total), gives=found))
        return self

    def close(self, *totals: int, of: str = "s") -> Calls:
        """Root and file hashes by some totals."""
        session = self.sessions[of]
        for total in totals:
            self._close(of, "session_root", session.root, total)
            self._close(of, "session_finish", session.finish, total)
            for salt in (bytes(32), SALT):
                self._close(of, "session_finish_with_salt", session.finish, total, salt)
        return self

    def _close(self, of: str, called: str, hash_of: Called, total: int, *salt: bytes) -> None:
        self._answered(of, called, number(total), *(it.hex() for it in salt), answer=lambda: m.to_hex(hash_of(total, *salt)),
                       position=lambda: self.sessions[of].no_hash_at(total))

    def copied(self, name: str, of: str = "s") -> Calls:
        """A copy of a session."""
        self.sessions[name] = self.sessions[of].copy()
        self.steps.append(call("session_copy", of, makes=name))
        return self

    def new(self, name: str) -> Calls:
        """Another session."""
        self.sessions[name] = m.Session()
        self.steps.append(call("session_new", makes=name))
        return self

    def push(self, first: int, told: Told, error: str = "", of: str = "s", end: Optional[int] = None,
             marks: tuple[bool, bool] = (False, False)) -> Calls:
        """A run that is added; with another end, or with marks, it is refused."""
        after = first + len(told.nodes) if end is None else end
        self.steps.append(call("subtree_from_chunks", marks[0], told.said, marks[1], makes="r"))
        given = (of, number(first), number(after), "r")
        found = self.sessions[of].push_run(first, after, m.Leaf(told.nodes, *marks))
        if {0: "", m.INVALID_ARGUMENTS: "ARGUMENTS", m.SIZE_OVERFLOW: "SIZES"}[found] != error:
            raise ValueError(f"a run at {first}: {found} and not {error}")
        self.steps.append(refused("session_push_run", *given, error=error) if error else call("session_push_run", *given))
        return self

    def keep(self, *hashes: m.Hash, of: str = "s") -> Calls:
        """Hashes that are kept, or that a session without hashes refuses."""
        given = (of, list(map(m.to_hex, hashes)))
        is_refused = self.sessions[of].keep_hashes(hashes) == m.INVALID_ARGUMENTS
        self.steps.append(refused("session_keep_hashes", *given, error="ARGUMENTS") if is_refused else call("session_keep_hashes", *given))
        return self

    def saved(self, name: str, of: str = "s") -> Calls:
        """A session that is made again from another one's runs and known hashes."""
        old = self.sessions[of]
        self.new(name)
        for first, nodes in old.runs():
            end = first + len(nodes)
            self.steps.append(call("session_run_from", of, number(first), makes="r", gives=[number(first), number(end)]))
            self.steps.append(call("session_push_run", name, number(first), number(end), "r"))
            self.sessions[name].push_run(first, end, m.Leaf(tuple(nodes), False, False))
        return self.keep(*sorted(old.seen), of=name).sums(name).known(name)

    def read(self, name: str, of: str = "s") -> Calls:
        """A session that is read from the text of another one."""
        self.sessions[name] = self.sessions[of].copy()
        self.steps.append(call("session_from_json", self._text(of), makes=name))
        return self.sums(name).known(name)

    def test(self, comment: str, *flags: str) -> dict[str, Any]:
        """The test of these calls."""
        return a_test(comment, self.steps, *flags)


def examples() -> list[dict[str, Any]]:
    """Sessions of a few chunks."""
    ab, c, none = lists.seeds([1, 2]), lists.seeds([3]), lists.given(())
    one, two, three, zero = (m.random_from_seed(1), m.random_from_seed(2), m.random_from_seed(3), m.DEFAULT_HASH)
    return [
        Calls().runs().taken(0, MAX).gaps(0, 1, MAX).knows(one, zero).known().close(0, 1).test("no chunk", "Gap"),
        Calls().put(2, ab).knows(one, three).put(0, ab).runs().gaps(3, 4, 5).close(4, 3, 5).put(3, c, "SESSION_OVERLAP").knows(three)
        .close(4).test("two ranges, the second first", "Overlap", "Gap", "EqualHashes"),
        Calls().put(0, none).put(7, none).put(MAX, none).runs().gaps(MAX).close(0).test("puts of no chunk"),
        Calls().put(0, lists.seeds([1, 1, 2, 1])).put(4, lists.seeds([2, 3, 3])).put(7, lists.seeds([0, 0])).runs().known()
        .knows(one, two, three, zero, NO_HASH).close(9)
        .test("hashes that come again within a put, and in a later one", "EqualHashes"),
        Calls().put(10, lists.seeds([3, 4])).put(0, lists.seeds([1])).runs().gaps(5, 10, 11, 20).put(1, lists.seeds([2])).runs()
        .taken(0, 1, 2, 9, 10, 11, 12).gaps(11, 12, 13).put(2, lists.seeds([5, 6, 7, 1, 2, 3, 4, 5])).runs().gaps(12, 14).close(12)
        .test("three runs that become one", "EqualHashes"),
        Calls().put(4, ab).copied("t").put(6, c).put(0, c, of="t").runs().runs("t").knows(three).known("t")
        .close(6).close(6, of="t").put(1, lists.seeds([4, 5, 6]), of="t").close(6, of="t").sums().test("a copy is apart", "Gap"),
    ]


def faults() -> list[dict[str, Any]]:
    """Puts that are refused."""
    one, great = lists.seeds([1]), lists.sized(MAX)
    overlap, positions = "SESSION_OVERLAP", "SESSION_POSITIONS"
    return [
        Calls().put(5, one).put(5, one, overlap).put(3, lists.seeds([1, 2, 3]), overlap).put(4, lists.seeds([4]))
        .put(3, lists.seeds([2, 3]), overlap).runs().gaps(4, 6, 7).close(6, 4).test("positions that are taken", "Overlap", "Gap"),
        Calls().put(MAX, one, positions).put(MAX - 1, lists.seeds([1, 2]), positions).put(MAX - 1, one)
        .taken(MAX - 2, MAX - 1, MAX).put(MAX - 2, lists.seeds([2, 3]), overlap).put(MAX - 2, lists.seeds([2])).runs().gaps(MAX - 1, MAX)
        .close(MAX, 2).test("the last positions", "Positions", "Overlap", "SeveralFaults"),
        Calls().put(0, one).put(1, great, "SIZES").put(1, lists.sized(MAX - 100)).put(2, lists.sized(1), "SIZES")
        .put(2, lists.sized(0)).runs().close(3).test("sizes at the edge of 64 bits", "Sizes"),
        Calls().put(0, lists.sized(MAX, 1), "SIZES").sums().close(0).test("sizes that pass within one put", "Sizes"),
        Calls().put(0, one).put(0, great, overlap).put(MAX, great, positions).put(7, great, "SIZES")
        .put(MAX - 1, lists.sized(MAX, 0), positions).sums().close(1).test("several faults", "SeveralFaults", "Overlap", "Positions",
                                                                            "Sizes"),
        Calls().put(0, lists.seeds([1])).put(0, lists.seeds([2]), overlap).knows(m.random_from_seed(2)).put(1, lists.seeds([2]))
        .put(2, lists.seeds([2])).close(3)
        .test("the hash of a refused put is new later", "Overlap", "RefusedHashesStayNew", "EqualHashes"),
        Calls().put(0, one).put(5, one).put(6, one).close(1, 2, 3, 6, 7).gaps(7).put(1, lists.seeds([2, 3, 4])).close(5, 6, 7, 8)
        .test("positions that are free, and ones beyond the total", "Gap", "EqualHashes"),
    ]


def saves() -> list[dict[str, Any]]:
    """Sessions that are made again, and runs that are refused."""
    one, two, great = lists.seeds([1]), lists.seeds([2, 3]), lists.sized(MAX)
    hashes = [m.random_from_seed(k) for k in (1, 2, 3, 4)]
    return [
        Calls().put(3, two).put(0, one).put(9, two).saved("t").runs("t").put(1, lists.seeds([1, 4]), of="t").sums()
        .knows(*hashes).knows(*hashes, of="t").close(5).close(5, of="t").put(5, lists.seeds([5, 6, 7, 8]), of="t").close(11, of="t")
        .test("a session is made again, and goes on", "Saved", "Gap", "EqualHashes"),
        Calls().put(3, two).put(0, one).put(9, two).read("u").runs("u").put(1, lists.seeds([1, 4]), of="u").put(4, one, "SESSION_OVERLAP", of="u")
        .sums().knows(*hashes, of="u").close(5, of="u").put(5, lists.seeds([5, 6, 7, 8]), of="u").close(11, of="u").sums("u")
        .test("a session is read from its text, and goes on", "Saved", "Overlap", "Gap", "EqualHashes"),
        Calls().saved("t").put(0, one, of="t").close(1, of="t").sums().test("a session without chunks is made again", "Saved"),
        Calls().read("u").put(0, one, of="u").close(1, of="u").sums().test("a session without chunks is read", "Saved"),
        Calls().push(3, two).knows(*hashes).put(5, two).put(0, two).runs().known()
        .test("the hashes of a run that is added aren't known", "Saved", "EqualHashes"),
        Calls().keep(*hashes[1:3], hashes[1], m.DEFAULT_HASH).knows(*hashes, m.DEFAULT_HASH).known().sums().put(0, lists.seeds([1, 2, 3, 0]))
        .keep().known().test("hashes that are kept are known", "Saved"),
        Calls().push(3, two).push(5, one, "ARGUMENTS").push(4, one, "ARGUMENTS").push(0, one, "ARGUMENTS").push(3, two, "ARGUMENTS")
        .push(6, one, "ARGUMENTS", end=6).push(6, one, "ARGUMENTS", end=5).push(6, one, "ARGUMENTS", marks=(True, False))
        .push(6, one, "ARGUMENTS", marks=(False, True)).push(6, great, "SIZES").push(5, great, "ARGUMENTS").push(6, one).runs().gaps(7)
        .test("runs that can't be added", "Saved", "Sizes", "SeveralFaults"),
        Calls().push(0, great).push(2, one, "SIZES").push(MAX - 1, lists.sized(0)).runs().gaps(MAX)
        .test("runs at the edges", "Saved", "Sizes"),
    ]


def without_hashes() -> list[dict[str, Any]]:
    """Sessions that keep no hashes."""
    one, ab = lists.seeds([1, 1]), lists.seeds([1, 2, 1])
    hashes = [m.random_from_seed(k) for k in (1, 2, 3)]
    return [
        Calls(False).keeps_hashes().put(3, ab).put(0, one).knows(*hashes).runs().known().keep().keep(hashes[0]).put(3, ab, "SESSION_OVERLAP")
        .put(2, lists.seeds([1])).sums().known().close(6, 5)
        .test("each put counts its hashes as new", "EqualHashes", "Overlap", "Gap"),
        Calls(False).put(5, ab).copied("t").keeps_hashes("t").put(0, ab, of="t").knows(*hashes, of="t").saved("u").keeps_hashes("u")
        .put(0, ab, of="u").put(3, one, of="u").known("u").sums().known()
        .test("a copy keeps no hashes either, and what is made again of its runs does", "Saved", "EqualHashes"),
    ]


def parts() -> list[dict[str, Any]]:
    """Ranges that are put, and sessions that are joined."""
    one, two, ab, great = lists.seeds([1]), lists.seeds([2, 3]), lists.seeds([1, 2]), lists.sized(MAX)
    hashes = [m.random_from_seed(k) for k in (1, 2, 3, 4)]
    overlap, positions = "SESSION_OVERLAP", "SESSION_POSITIONS"
    return [
        Calls().put_range(3, two).knows(*hashes).put_range(0, one).put(1, two).put_range(8, ab).runs().gaps(5, 8, 12).knows(*hashes).known()
        .put_range(5, lists.seeds([4, 5, 6])).runs().close(10, 9).test("ranges at any position", "Parts", "Gap", "EqualHashes"),
        Calls().put(4, two).put_range(4, one, overlap).put_range(5, two, overlap).put_range(3, two, overlap).put_range(2, two)
        .put_range(1, lists.seeds([4, 5, 6]), overlap).runs().close(6).test("positions of ranges that are taken", "Parts", "Overlap", "Gap"),
        Calls().put(4, one).put_range(6, two, "ARGUMENTS", count=0).put_range(4, one, "ARGUMENTS", marks=(True, False))
        .put_range(6, two, "ARGUMENTS", marks=(False, True)).put_range(4, two, "ARGUMENTS", marks=(True, True)).runs()
        .test("ranges without a chunk, and with marks", "Parts", "SeveralFaults"),
        Calls().put_range(MAX, one, positions).put_range(MAX - 1, two, positions).put_range(MAX - 1, one).put_range(MAX - 2, two, overlap)
        .put_range(MAX, great, positions).put_range(3, great, "SIZES").put_range(MAX - 1, great, overlap).runs().gaps(MAX)
        .test("ranges at the edges", "Parts", "Positions", "Overlap", "Sizes", "SeveralFaults"),
        Calls().put(0, ab).put(7, two).new("t").put(4, lists.seeds([3, 4, 1]), of="t").join("t").runs().known().runs("t").known("t")
        .join("t", overlap).join("s", overlap, of="t").runs().copied("u").join("u", overlap).new("v").join("v").join("s", of="v").sums("v")
        .put(2, ab, of="v").close(9, 2, of="v").sums().test("two sessions that are joined", "Parts", "Overlap", "Gap", "EqualHashes"),
        Calls().put(0, one).put(4, one).put(8, one).new("t").put(2, one, of="t").put(5, two, of="t").put(9, two, of="t").copied("u", of="t")
        .put(8, one, of="u").join("u", overlap).join("s", overlap, of="u").join("t").runs().gaps(12).runs("u")
        .test("sessions with runs between each other's", "Parts", "Overlap", "EqualHashes"),
        Calls().put(0, one).new("t").put(3, great, of="t").join("t", "SIZES").join("s", "SIZES", of="t").put(3, two).join("t", overlap)
        .runs().runs("t").test("sizes of joined sessions at the edge of 64 bits", "Parts", "Sizes", "SeveralFaults"),
        Calls(False).put(0, ab).new("t").put(2, two, of="t").keep(hashes[3], of="t").copied("u").join("t").knows(*hashes).known().keeps_hashes()
        .join("u", of="t").known("t").keeps_hashes("t").runs().close(4).close(4, of="t")
        .test("a session without hashes keeps none of those that are joined", "Parts", "EqualHashes"),
    ]


def drawn_tree(seed: int, told: Told, pieces: int) -> dict[str, Any]:
    """The chunks of a list, in parts: all of them put as ranges in random order, and sessions of them joined in a random tree."""
    rng = m.Xoshiro256PlusPlus(seed)
    count = len(told.nodes)
    places = sorted({0, count, *(rng.below(count) for _ in range(pieces))})
    left, names = list(zip(places, places[1:])), ["none"]
    calls = Calls().new("none")
    while left:
        first, end = left.pop(rng.below(len(left)))
        part, name = Told({**told.said, "part": [first, end]}, told.nodes[first:end]), f"from{first}"
        calls.put_range(first, part).put_range(first, part, "SESSION_OVERLAP").new(name)
        if rng.below(2):
            calls.put(first, part, of=name)
        else:
            calls.put_range(first, part, of=name)
        names.append(name)
    while len(names) > 1:
        other, one = names.pop(rng.below(len(names))), names[rng.below(len(names))]
        calls.join(other, of=one).sums(one)
    return calls.runs().close(count).runs(names[0]).known(names[0]).close(count, of=names[0]).test(f"{count} chunks in parts, joined in a drawn tree",
                                                                                                  "Parts")


def drawn_order(seed: int, told: Told, pieces: int) -> dict[str, Any]:
    """The chunks of a list, put in pieces in random order. The session is made again on the way."""
    rng = m.Xoshiro256PlusPlus(seed)
    count = len(told.nodes)
    places = sorted({0, count, *(rng.below(count) for _ in range(pieces))})
    parts = list(zip(places, places[1:]))
    calls, half = Calls(), len(parts) // 2
    hashes = [told.nodes[rng.below(count)][0] for _ in range(3)] + [NO_HASH]
    while parts:
        first, end = parts.pop(rng.below(len(parts)))
        calls.put(first, Told({**told.said, "part": [first, end]}, told.nodes[first:end])).runs().knows(*hashes)
        if len(parts) == half:
            calls.gaps(count).saved("t")
    return calls.close(count).test(f"{count} chunks by pieces in drawn order", "Saved")


def drawn() -> list[dict[str, Any]]:
    """Lists, put in pieces in random order."""
    chosen = [lists.pattern("...|" * 6), lists.drawn(1, 60), lists.pattern("." * 20), lists.pattern("|" * 14),
              lists.pattern(lists.by_gaps((3, 7), 40)), lists.drawn(5000, 90)]
    orders = [drawn_order(seed, told, pieces) for seed, told in enumerate(chosen) for pieces in (3, 8)]
    return [*orders, *(drawn_tree(seed, told, 6) for seed, told in enumerate(chosen))]


def script() -> Script:
    """sessions.jsonl."""
    return Script("sessions", HEADER, NOTES, [*examples(), *faults(), *saves(), *without_hashes(), *parts(), *drawn()])
