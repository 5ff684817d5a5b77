"""roots.json: groups, parents, roots and file hashes of lists of chunks."""

from __future__ import annotations

from typing import Any

from . import lists
from .files import File, Group, Test, invalid, valid
from .lists import Told
from .model import m, test_model

EXHAUSTIVE = 10
SALT = bytes(range(100, 132))
GAPS = ((3, 4, 5, 6, 7, 3, 5, 7), (3, 7), (2, 3, 7, 8), (3, 4, 5, 6, 8, 9, 10, 19), (1, 2, 3, 4, 5, 6, 7, 9),
        (1, 1, 2, 1, 1, 4))

MEANS = [
    "A group ends at the first natural cut (a hash whose last word is a multiple of 4) at its indices 2 to 8, or else after 9 "
    "nodes, or else at the end of the list. Its text has a line for each node: the hex text, a space, a colon, a space, the "
    "size in decimal, a newline. Its parent has the hash of the text under the internal key, and the sum of the sizes.",
    "The root of no nodes is the default hash. The root of one node is its own hash. The root of more nodes is the root of the "
    "parents of the groups. The file hash of no nodes is the default hash. Otherwise it is the keyed BLAKE3 hash of the root's "
    "bytes under the salt, which is 32 zero bytes where there is no other.",
]
HEADER = ["A rule gives a list of chunks: the object `list` with one member. README.md has the rules in words.", *MEANS]
NOTES = {
    "NoChunk": "There are no chunks: both hashes are the default hash, whatever the salt.",
    "OneChunk": "There is one chunk: its own hash is the root, and isn't hashed again.",
    "CutAtStartOfGroup": "The first or second node is a natural cut. It ends no group there.",
    "NoNaturalCut": "There is no natural cut: all groups but the last have nine nodes.",
    "NaturalCutsAlone": "Each node is a natural cut: all groups but the last have three nodes.",
    "LastGroupOfOne": "The last group of the list has one node. It still has a parent.",
    "SizeOverflow": "The sizes add up to more than 2^64 - 1. The call fails, even if no parent is made.",
    "GreatestSize": "The sizes add up to 2^64 - 1, the greatest possible sum.",
    "SizeZero": "A chunk has the size 0.",
}


def list_flags(nodes: tuple[m.Node, ...]) -> list[str]:
    """The flags of a list."""
    cuts = [m.is_cut(node) for node in nodes]
    groups = m.groups(nodes)
    found = {
        "NoChunk": not nodes,
        "OneChunk": len(nodes) == 1,
        "CutAtStartOfGroup": len(nodes) > 2 and any(cuts[:2]),
        "NoNaturalCut": len(nodes) > 9 and not any(cuts),
        "NaturalCutsAlone": len(nodes) > 3 and all(cuts),
        "LastGroupOfOne": len(nodes) > 1 and len(groups[-1]) == 1,
        "GreatestSize": m.total_size(nodes) == m.MAX_U64,
        "SizeZero": any(size == 0 for _, size in nodes),
    }
    return [flag for flag, holds in found.items() if holds]


def root_of(comment: str, told: Told, salts: tuple[bytes, ...] = ()) -> Test:
    """A list with its root and its file hashes."""
    root = m.root(told.nodes, lists.maker)
    fields: dict[str, Any] = {"list": told.said, "root": m.to_hex(root), "fileHash": _file_hash(told, root, bytes(32))}
    if salts:
        fields["salted"] = [{"saltBytes": salt.hex(), "fileHash": _file_hash(told, root, salt)} for salt in salts]
    return valid(comment, *list_flags(told.nodes), **fields)


def _file_hash(told: Told, root: m.Hash, salt: bytes) -> str:
    return str(m.to_hex(lists.hash_of(m.blake(salt, m.to_bytes(root))) if told.nodes else m.DEFAULT_HASH))


def references() -> Group:
    """The reference lists of the Rust crate."""
    tests = []
    for number, (text, xorb, _, salted) in enumerate(test_model.REFERENCE_ROWS):
        salts = tuple(m.to_bytes(lists.hash_of_text(salt)) for salt, _ in salted)
        test = root_of(f"reference list {number}", lists.seeds([int(digit) for digit in text.split()]), salts)
        if test["root"] != xorb or [it["fileHash"] for it in test["salted"]] != [file for _, file in salted]:
            raise ValueError(f"reference list {number} has another hash")
        tests.append(test)
    return Group("Root", "lists from the tests of the Rust crate xet-core-structures", tests)


def every_pattern() -> Group:
    """All patterns of natural cuts of short lists."""
    tests = [root_of("", lists.pattern(text)) for length in range(EXHAUSTIVE + 1) for text in lists.all_patterns(length)]
    return Group("Root", f"every pattern of natural cuts of lists of 0 to {EXHAUSTIVE} chunks", tests)


def shaped() -> Group:
    """Some patterns of each length up to 20."""
    tests = [root_of(name, lists.pattern(text)) for length in range(EXHAUSTIVE + 1, 21) for name, text in lists.shapes(length)]
    return Group("Root", f"patterns of natural cuts of lists of {EXHAUSTIVE + 1} to 20 chunks", tests)


def long_lists() -> Group:
    """Long lists by rules."""
    tests = [root_of("", lists.drawn(first, count), (SALT,))
             for first, count in ((1, 21), (1, 40), (1, 81), (1000, 100), (5000, 400), (2**64 - 50, 100), (10**6, 3000))]
    for length in (27, 28, 81, 82, 243, 729, 730, 1000):
        tests += [root_of(name, lists.pattern(text)) for name, text in lists.shapes(length)[:2]]
    tests += [root_of(f"natural cuts at distances {gaps}", lists.pattern(lists.by_gaps(gaps, 300))) for gaps in GAPS]
    return Group("Root", "long lists", tests)


def of_sizes() -> Group:
    """Sizes at the edge of 64 bits."""
    good = [(m.MAX_U64,), (m.MAX_U64, 0), (0, m.MAX_U64), (m.MAX_U64 - 1, 1), (2**63, 2**63 - 1), (0,), (0, 0, 0, 0)]
    bad = [(m.MAX_U64, 1), (1, m.MAX_U64), (2**63, 2**63), (m.MAX_U64,) * 2, (m.MAX_U64 - 1, 1, 1)]
    tests = [root_of("sizes " + ", ".join(map(str, sizes)), lists.sized(*sizes)) for sizes in good]
    tests += [invalid("sizes " + ", ".join(map(str, sizes)), "SizeOverflow", list=lists.sized(*sizes).said,
                      error="SizeOverflow") for sizes in bad]
    return Group("Root", "sizes at the edge of 64 bits", tests)


def parents() -> Group:
    """Groups with their texts and parents."""
    tests = []
    for told in (lists.seeds([1]), lists.seeds([0, 1]), lists.seeds([1, 2, 3]), lists.pattern("." * 9),
                 lists.sized(0, m.MAX_U64), lists.sized(*[10**i for i in range(9)]),
                 lists.given([((m.MAX_U64,) * 4, 2**60)] * 9)):
        hash_, size = m.parent(told.nodes)
        tests.append(valid("", list=told.said, text=m.group_text(told.nodes).decode(), hash=m.to_hex(hash_), size=str(size)))
    return Group("Parent", "groups of one to nine nodes, with their texts and their parents", tests)


def steps() -> Group:
    """The groups of each level up to the root."""
    tests = []
    chosen = [lists.seeds([0, 1, 0, 1, 0]), lists.seeds(range(8)), lists.pattern("." * 28), lists.pattern("|" * 28),
              lists.pattern(lists.by_gaps((3, 4, 5, 6, 7), 60)), lists.drawn(1, 100)]
    for told in chosen:
        nodes, levels = told.nodes, []
        while len(nodes) > 1:
            above = m.parents(nodes, lists.maker)
            levels.append({"groups": [len(group) for group in m.groups(nodes)],
                           "parents": [{"hash": m.to_hex(h), "size": str(size)} for h, size in above]})
            nodes = tuple(above)
        tests.append(valid("", list=told.said, steps=levels, root=m.to_hex(nodes[0][0])))
    return Group("RootSteps", "the lengths of the groups of each level, and their parents, up to the root", tests)


def file() -> File:
    """roots.json."""
    groups = [references(), parents(), steps(), of_sizes(), every_pattern(), shaped(), long_lists()]
    return File("roots", "roots and file hashes of lists of chunks", HEADER, NOTES, groups)
