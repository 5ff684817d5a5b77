"""hash_indexes.jsonl: calls of indexes of hashes, with their answers."""

from __future__ import annotations

import itertools
from typing import Any, Iterable, Sequence

from .model import m
from .scripts import Script, Step, a_test, call, number, refused

MAX = m.MAX_U64
Entry = tuple[m.Hash, int]

HEADER = [
    "hash_index_insert gives each hash of a list the number at its place in the other list, unless the hash has one already: the number "
    "that came first stays, also among those of one call. The answer is how many hashes had no number before, each counted once. It is "
    "refused with ARGUMENTS if the two lists have different lengths.",
    "hash_index_find answers the number of each hash of a list, or null if it has none. hash_index_entries answers all hashes that have "
    "one, by rising hex text, each with its number. hash_index_len answers how many these are.",
]
NOTES = {
    "EqualHashes": "A hash occurs more than once, in one call or in several.",
    "Lengths": "An insert is refused, as its lists have different lengths.",
}


def said(numbers: Iterable[int]) -> list[Any]:
    """Numbers as a script says them."""
    return list(map(number, numbers))


class Calls:
    """Calls of indexes as they are made, with the model's answers. The first index is named i."""

    def __init__(self) -> None:
        self.indexes: dict[str, m.HashIndex] = {}
        self.steps: list[Step] = []
        self.new("i")

    def new(self, name: str) -> Calls:
        """Another index."""
        self.indexes[name] = m.HashIndex()
        self.steps.append(call("hash_index_new", makes=name))
        return self

    def insert(self, *entries: Entry, of: str = "i") -> Calls:
        """Hashes with their numbers."""
        return self.insert_lists([hash_ for hash_, _ in entries], [it for _, it in entries], of)

    def insert_lists(self, hashes: Sequence[m.Hash], numbers: Sequence[int], of: str = "i") -> Calls:
        """Hashes, and numbers; if these aren't as many, they are refused."""
        given = (of, list(map(m.to_hex, hashes)), said(numbers))
        try:
            self.steps.append(call("hash_index_insert", *given, gives=self.indexes[of].insert(hashes, numbers)))
        except m.Refused:
            self.steps.append(refused("hash_index_insert", *given, error="ARGUMENTS"))
        return self

    def find(self, *hashes: m.Hash, of: str = "i") -> Calls:
        """The numbers of hashes."""
        found = [None if it is None else number(it) for it in self.indexes[of].find(hashes)]
        self.steps.append(call("hash_index_find", of, list(map(m.to_hex, hashes)), gives=found))
        return self

    def all(self, of: str = "i") -> Calls:
        """All entries, and how many these are."""
        entries = self.indexes[of].entries()
        self.steps.append(call("hash_index_len", of, gives=len(entries)))
        self.steps.append(call("hash_index_entries", of, gives=[[m.to_hex(hash_), number(it)] for hash_, it in entries]))
        return self

    def made_again(self, name: str, of: str = "i") -> Calls:
        """An index that is made again of the entries of another one."""
        return self.new(name).insert(*self.indexes[of].entries(), of=name).all(name)

    def test(self, comment: str, *flags: str) -> dict[str, Any]:
        """The test of these calls."""
        return a_test(comment, self.steps, *flags)


ONE, TWO, THREE, FOUR = map(m.random_from_seed, (1, 2, 3, 4))


def examples() -> list[dict[str, Any]]:
    """Indexes of a few hashes."""
    edges = [0, 1, 2**32, 2**53 - 1, 2**53, 2**63, MAX - 1, MAX]
    hashes = list(map(m.random_from_seed, range(8)))
    return [
        Calls().all().find().find(ONE, m.DEFAULT_HASH).insert().all().test("no hash"),
        Calls().insert((ONE, 10), (TWO, 20)).find(ONE, TWO, THREE).insert((TWO, 30), (THREE, 40)).find(THREE, TWO, ONE, FOUR, TWO).all()
        .insert((ONE, 50), (THREE, 60)).all().test("new hashes, and ones that have a number", "EqualHashes"),
        Calls().insert((ONE, 10), (TWO, 20), (ONE, 30), (ONE, 10), (TWO, 0)).find(ONE, TWO).all().insert((THREE, 1), (THREE, 2), (TWO, 3)).all()
        .test("hashes that come again in one call", "EqualHashes"),
        Calls().insert((m.DEFAULT_HASH, 0)).find(m.DEFAULT_HASH, ONE).insert((m.DEFAULT_HASH, 7)).all()
        .test("the default hash, with the number 0", "EqualHashes"),
        Calls().insert(*zip(hashes, edges)).find(*hashes).all().insert(*zip(hashes, edges[::-1])).all()
        .test("numbers at the edges of 32, 53 and 64 bits", "EqualHashes"),
        Calls().insert(*((hash_, 7) for hash_ in hashes)).find(*hashes).all().test("one number for all"),
    ]


def refusals() -> list[dict[str, Any]]:
    """Lists of different lengths."""
    return [
        Calls().insert_lists([ONE], []).insert_lists([], [1]).insert_lists([ONE, TWO], [1]).find(ONE, TWO).all().insert((TWO, 7))
        .find(ONE, TWO).all().test("an index without hashes", "Lengths"),
        Calls().insert((ONE, 10), (TWO, 20)).insert_lists([THREE], []).insert_lists([], [1]).insert_lists([THREE, FOUR], [1])
        .insert_lists([THREE, ONE], [1, 2, 3]).insert_lists([ONE, ONE], [5]).find(ONE, TWO, THREE, FOUR).all().insert((THREE, 8), (ONE, 9)).all()
        .test("the hashes of a refused insert are new later", "Lengths", "EqualHashes"),
    ]


def again() -> list[dict[str, Any]]:
    """Indexes that are made again of entries."""
    entries = [(m.random_from_seed(k), 1000 * k) for k in range(20)]
    return [
        Calls().insert(*entries).made_again("j").insert((ONE, 1), (entries[19][0], 2), (m.random_from_seed(20), MAX), of="j").all("j").all()
        .insert((m.random_from_seed(20), 3)).find(m.random_from_seed(20)).find(m.random_from_seed(20), of="j")
        .test("two indexes are apart", "EqualHashes"),
        Calls().made_again("j").insert((ONE, 1), of="j").all().find(ONE).find(ONE, of="j").test("an index without hashes is made again"),
    ]


def few_words() -> dict[str, Any]:
    """Hashes that no word alone tells apart."""
    hashes = list(itertools.product((0, 1, MAX), repeat=4))
    calls = Calls().insert(*((hash_, place) for place, hash_ in enumerate(hashes) if place % 3 != 1)).find(*hashes).all()
    return calls.insert(*((hash_, 100 + place) for place, hash_ in enumerate(hashes) if place % 2)).find(*hashes[::-1]).all().test(
        "hashes of which each word is 0, 1 or 2^64 - 1", "EqualHashes")


def drawn(seed: int, most: int) -> dict[str, Any]:
    """Entries of hashes that are drawn among twice as many as come at once, with numbers of all lengths."""
    rng, calls = m.Xoshiro256PlusPlus(seed), Calls()

    def hashes() -> list[m.Hash]:
        return [m.random_from_seed(rng.below(2 * most)) for _ in range(rng.below(most + 1))]

    for _ in range(6):
        calls.insert(*((hash_, rng.below(2 ** (1 + rng.below(64)))) for hash_ in hashes())).find(*hashes())
    return calls.all().test("entries in drawn order", "EqualHashes")


def many() -> dict[str, Any]:
    """More hashes in each call, so that the index grows within it."""
    calls, count = Calls(), 0
    for more in (1, 2, 5, 13, 40, 120):
        calls.insert(*((m.random_from_seed(k), k) for k in range(count, count + more)))
        count += more
    return calls.find(*map(m.random_from_seed, range(0, count + 3, 3))).all().test(f"{count} hashes, more in each call")


def script() -> Script:
    """hash_indexes.jsonl."""
    tests = [*examples(), *refusals(), *again(), few_words(), many(), *(drawn(seed, most) for seed, most in enumerate((3, 3, 8, 8, 20, 20, 50)))]
    return Script("hash_indexes", HEADER, NOTES, tests)
