"""range_proofs.json: proofs of parts of lists, what opening them shows, and their forms."""

from __future__ import annotations

import itertools
from typing import Any, Iterable, Sequence, Union

from . import differences, lists, opened_proofs, proof_texts
from .files import File, Group, Test, invalid, valid
from .lists import Told, ToldData
from .model import m, range_proof
from .roots import GAPS, SALT

Range = tuple[int, int]
LENGTHS = ((5, 17, 64, 1, 33), (6,), (65, 0, 2, 130), (9, 1025, 40, 7, 12, 2), (20, 20, 21))

HEADER = [
    "A file is a list of chunks, and each chunk has a node: its data hash and its length. Level 0 is the list of these nodes. "
    "Each level above has the parents of the groups of the level below, as in roots.json, up to a level of one node.",
    "With a range proof, whoever knows the hash of a file checks some adjacent chunks, the range, without the other chunks. "
    "On level 0 the range covers its own nodes, and on each level above the parents of the groups that the covered nodes "
    "below lie in. The proof has the nodes of the range; and for each level but the highest, from the chunks up, the nodes "
    "that share a group with covered ones: the left side has those before these, and the right side those after.",
    "A proof of the chunks from number first up to, but without, number end can't be made, with the first of these errors "
    "that applies: InvalidArguments, unless first < end <= the number of chunks; SizeOverflow, if the sizes of all nodes add "
    "up to more than 2^64 - 1. A hash tree keeps all levels of a list, and is refused with SizeOverflow alone.",
    "The chunks at some bytes, from start up to, but without, stop: the least range of chunks with all these bytes that are "
    "in the file. There is none unless some are. The bytes of the chunks from first to end are where these begin and end in "
    "the file. There are none unless first < end <= the number of chunks.",
    *differences.HEADER,
    "A proof, whoever made it, is opened with a root, or with a file hash under a salt. On each level, from the chunks up, "
    "these are one list: the left side, the nodes that come from below (on level 0 the range), the right side. The parents of "
    "its groups go to the next level. Those of the last level, or the range itself if there is no level, have to be one node, "
    "the top. The proof is opened with a root if that is the top's hash, and not the default hash; and with a file hash if "
    "that is the keyed BLAKE3 hash of the top's hash, 32 bytes, under the salt, and not the default hash. Otherwise the error "
    "is Mismatch.",
    "An opened range says the size of the file, which is the sum of all sizes of the proof. It begins in the file after as "
    "many bytes as the sizes of all left sides add up to. Until one chunk is checked, this is the proof's own word.",
    "Data is checked against a chunk of the range, which is counted from 0. It is accepted if its data hash and its length "
    "are those of the node. The answer is where in the file it begins. Bytes of the file, from start up to, but without, "
    "stop, are read from the data of the whole range, in order. They are refused unless each chunk's data is accepted, "
    "nothing is left over, start <= stop, start isn't before the range, and stop isn't after it.",
    "The JSON object of a proof has `chunks`, the nodes of the range, and `levels`, an object with `left` and `right` for "
    "each level. A node is an object with `hash`, hex text, and `size`, a number. It is written compactly, with the members "
    "in the order of their names. A text that isn't JSON is refused with NotJson, and a value that breaks a rule with "
    "InvalidJson and the lowest rule that it breaks.",
    *(f"Rule {number}: {text}." for number, text in proof_texts.RULES.items()),
    "The flat form of a proof has the numbers of left and right nodes of each level, and one list of nodes: the left nodes of "
    "all levels, lowest level first, then the range, then the right nodes of all levels, highest level first. So the range is "
    "what no level counts. It is refused with InvalidJson and the lowest of the rules 5 to 8 that it breaks; counts that add "
    "up to more than there are nodes break rule 5.",
    "The bytes of a proof are a byte with the number of levels; for each level, from the chunks up, two bytes with the numbers of "
    "its left and right nodes; and for each node of the flat form, in order, the 32 bytes of its hash and the 8 of its size, the "
    "least significant first. Bytes are refused with InvalidJson and the lowest rule that they break, which is one of the rules 5 to 8 "
    "or of these.",
    *(f"Rule {number} of bytes: {text}." for number, text in proof_texts.BYTE_RULES.items()),
]
MEANS = [*HEADER, differences.ANSWER]
NOTES = {
    "NoChunk": "There are no chunks, so there is no proof.",
    "OneChunk": "The file has one chunk: the proof has no level.",
    "WholeFile": "The range is all chunks.",
    "EmptySides": "A level has no node on either side. It is a level all the same.",
    "EightNodes": "A side has eight nodes, the most that it can have.",
    "SizeZero": "A chunk has the size 0. A least range of chunks neither begins nor ends with one.",
    "GreatestSize": "The sizes add up to 2^64 - 1, the greatest possible sum.",
    "InvalidArguments": "The range has no chunk, or isn't in the list. This is reported before the sizes are checked.",
    "SizeOverflow": "The sizes of all nodes add up to more than 2^64 - 1.",
    **differences.NOTES,
    **opened_proofs.NOTES,
    **proof_texts.NOTES,
}


def flags_of(told: Union[Told, ToldData], proofs: Sequence[range_proof.RangeProof]) -> list[str]:
    """The flags of a list and of proofs of its ranges."""
    counts = [pair for proof in proofs for pair in proof.counts()]
    found = {
        "NoChunk": not told.nodes,
        "OneChunk": len(told.nodes) == 1,
        "WholeFile": any(len(proof.chunks) == len(told.nodes) for proof in proofs),
        "EmptySides": (0, 0) in counts,
        "EightNodes": any(8 in pair for pair in counts),
        "SizeZero": any(size == 0 for _, size in told.nodes),
        "GreatestSize": m.total_size(told.nodes) == m.MAX_U64,
    }
    return [flag for flag, holds in found.items() if holds]


def proof_row(told: Union[Told, ToldData], first: int, end: int,
              whole: bool) -> tuple[range_proof.RangeProof, dict[str, Any]]:
    """The proof of a range, and what a vector says of it; with its forms where they are asked for."""
    proof = range_proof.prove(told.nodes, first, end, lists.maker)
    counts, nodes = range_proof.to_flat(proof)
    text, lines = range_proof.to_json_text(proof), m.group_text(nodes)
    sums = itertools.accumulate((size for _, size in proof.chunks), initial=m.total_size(told.nodes[:first]))
    row: dict[str, Any] = {
        "first": first, "end": end, "levels": [list(pair) for pair in counts], "places": [str(place) for place in sums],
        "jsonHash": lists.data_hash(text.encode()), "flatHash": lists.data_hash(lines)}
    if whole:
        row.update(json=text, flatNodes=lists.given(nodes).said["nodes"])
    return proof, row


def chunks_at_rows(told: Union[Told, ToldData], places: Iterable[Range]) -> list[dict[str, Any]]:
    """The least ranges of chunks for some ranges of bytes."""
    return [{"start": str(start), "stop": str(stop), "chunks": range_proof.chunks_at(told.nodes, start, stop)}
            for start, stop in places]


def bytes_of_rows(told: Union[Told, ToldData], ranges: Iterable[Range]) -> list[dict[str, Any]]:
    """Where some ranges of chunks begin and end."""
    rows = []
    for first, end in ranges:
        found = range_proof.bytes_of(told.nodes, first, end)
        rows.append({"first": first, "end": end, "bytes": None if found is None else [str(place) for place in found]})
    return rows


def edges(nodes: Sequence[m.Node]) -> list[Range]:
    """Ranges of bytes at the edges of the chunks in the middle, and of the file."""
    size, middle = m.total_size(nodes), len(nodes) // 2
    begin, end = m.total_size(nodes[:middle]), m.total_size(nodes[:middle + 1])
    found = [(begin, end), (begin, end + 1), (max(begin, 1) - 1, end), (begin, begin), (end, begin), (0, size), (0, m.MAX_U64),
             (max(size, 1) - 1, size), (size, m.MAX_U64)]
    return list(dict.fromkeys((start, min(stop, m.MAX_U64)) for start, stop in found))


def tree_of(comment: str, told: Union[Told, ToldData], ranges: Sequence[Range], whole: bool = False,
            salted: bool = False) -> Test:
    """A list with its hashes, and the proofs of some ranges of it."""
    proofs, rows = zip(*(proof_row(told, *it, whole) for it in ranges)) if ranges else ((), ())
    root, count = m.root(told.nodes, lists.maker), len(told.nodes)
    ranges_of_bytes = [(0, count), (count // 2, count // 2), (count // 3, count // 3 + 1), (0, count + 1), (1, 0)]
    fields: dict[str, Any] = {
        "list": told.said, "totalSize": str(m.total_size(told.nodes)), "root": m.to_hex(root),
        "fileHash": file_hash(told, bytes(32)), "chunksAt": chunks_at_rows(told, edges(told.nodes)),
        "bytesOf": bytes_of_rows(told, ranges_of_bytes), "proofs": list(rows)}
    if salted:
        fields["salted"] = [{"saltBytes": SALT.hex(), "fileHash": file_hash(told, SALT)}]
    return valid(comment, *flags_of(told, proofs), **fields)


def file_hash(told: Union[Told, ToldData], salt: bytes) -> str:
    """The file hash of a list, which the default hash is where there are no chunks."""
    if not told.nodes:
        return str(m.to_hex(m.DEFAULT_HASH))
    root = m.root(told.nodes, lists.maker)
    return str(m.to_hex(m.hmac(root, lists.hash_of(salt))))


def all_ranges(count: int) -> list[Range]:
    """Every range of a list."""
    return list(itertools.combinations(range(count + 1), 2))


def examples() -> Group:
    """Lists with proofs whose whole text and flat list is given."""
    tests = [
        tree_of("three chunks", opened_proofs.THREE, all_ranges(3), True, True),
        tree_of("three chunks by their hashes", lists.seeds([1, 2, 3]), [(1, 2), (0, 3)], True),
        tree_of("one chunk", lists.seeds([1]), [(0, 1)], True),
        tree_of("one chunk whose hash is the default hash", lists.given([(m.DEFAULT_HASH, 5)]), [(0, 1)], True),
        tree_of("every fourth node is a natural cut", lists.counted(28, 4), [(5, 6), (10, 22), (27, 28)], True),
        tree_of("natural cuts at the first and third node", lists.seeds([0, 1, 0, 1]), [(3, 4), (0, 1)], True),
        tree_of("no natural cut", lists.counted(1000, 0), [(500, 501)], True),
        tree_of("natural cuts alone", lists.counted(10, 1), [(4, 7)], True),
        tree_of("the greatest size, and none", lists.sized(m.MAX_U64, 0), [(0, 1)], True),
        tree_of("no chunk", lists.of_data(), []),
    ]
    return Group("HashTree", "lists with the texts and flat lists of some proofs", tests)


def every_range() -> Group:
    """All ranges of short lists."""
    told = [lists.pattern(letter * length) for length in (2, 3, 4) for letter in ".|"] + [lists.pattern("|..|.|...|")]
    tests = [tree_of("", it, all_ranges(len(it.nodes))) for it in told]
    return Group("HashTree", "short lists with the proofs of every range", tests)


def drawn_ranges(rng: m.Xoshiro256PlusPlus, count: int, ranges: int) -> list[Range]:
    """The last chunk, and some ranges of up to 9 chunks."""
    found = {(count - 1, count)}
    for _ in range(ranges):
        first = rng.below(count)
        found.add((first, min(count, first + 1 + rng.below(9))))
    return sorted(found)


def drawn() -> Group:
    """Lists of 1 to 2,000 chunks, mostly of random lengths."""
    rng, tests = m.Xoshiro256PlusPlus(69), []
    most = [9] * 4 + [30] * 8 + [100] * 6 + [400] * 4 + [1200] * 3
    for number, count in enumerate([1, 2, 2000, *(1 + rng.below(it) for it in most)]):
        told = lists.numbers(1000 * number, count, LENGTHS[number % len(LENGTHS)])
        tests.append(tree_of("", told, drawn_ranges(rng, count, 2), salted=True))
    return Group("HashTree", "lists of 1 to 2,000 chunks whose data is told, with proofs of drawn ranges", tests)


def long_lists() -> Group:
    """Long lists by rules, with ranges at their edges and in the middle."""
    told = [lists.pattern(letter * length) for letter in ".|" for length in (9, 10, 27, 28, 82, 730)]
    told += [lists.pattern(lists.by_gaps(gaps, 150)) for gaps in GAPS] + [lists.drawn(1, 100), lists.drawn(10**6, 2000)]
    tests = []
    for it in told:
        count = len(it.nodes)
        tests.append(tree_of("", it, [(0, 1), (count // 2, count // 2 + 2), (count - 1, count)]))
    tests.append(tree_of("all chunks of a long list", lists.counted(40, 3), [(0, 40), (1, 40), (0, 39)]))
    return Group("HashTree", "long lists", tests)


def commas(numbers: Iterable[int]) -> str:
    """Numbers with commas between."""
    return ", ".join(map(str, numbers))


def of_sizes() -> Group:
    """Sizes at the edge of 64 bits, and empty chunks."""
    good = [(m.MAX_U64,), (0, m.MAX_U64), (m.MAX_U64 - 1, 1), (2**63, 2**63 - 1), (0,), (0, 0, 0, 0), (0, 3, 0, 0, 2, 0),
            (10**18, 0, 1, 10**19 // 2, 0)]
    bad = [(m.MAX_U64, 1), (1, m.MAX_U64), (2**63, 2**63), (m.MAX_U64 - 1, 1, 1)]
    tests = [tree_of(f"sizes {commas(sizes)}", lists.sized(*sizes), all_ranges(min(len(sizes), 4))) for sizes in good]
    tests += [invalid(f"sizes {commas(sizes)}", "SizeOverflow", list=lists.sized(*sizes).said, error="SizeOverflow")
              for sizes in bad]
    return Group("HashTree", "sizes at the edge of 64 bits, and empty chunks", tests)


def refusals() -> Group:
    """Ranges that have no proof."""
    three, great = lists.seeds([1, 2, 3]), lists.sized(m.MAX_U64, 1)
    rows = [("no chunk", three, 0, 0), ("the end before the first", three, 2, 1), ("the end after the list", three, 0, 4),
            ("after the list", three, 3, 3), ("far after the list", three, 7, 9), ("no chunk of an empty list", lists.seeds([]), 0, 0),
            ("a chunk of an empty list", lists.seeds([]), 0, 1), ("sizes that pass", great, 0, 1), ("sizes that pass", great, 0, 2),
            ("sizes that pass, and no range", great, 1, 1), ("sizes that pass, and the end after the list", great, 0, 3)]
    tests = []
    for comment, told, first, end in rows:
        error = refusal(told, first, end)
        tests.append(invalid(comment, error, list=told.said, first=first, end=end, error=error))
    return Group("ProofRefused", "ranges that have no proof", tests)


def refusal(told: Told, first: int, end: int) -> str:
    """Why a range has no proof."""
    try:
        range_proof.prove(told.nodes, first, end, lists.maker)
    except m.Refused as refused:
        return {m.INVALID_ARGUMENTS: "InvalidArguments", m.SIZE_OVERFLOW: "SizeOverflow"}[refused.number]
    raise ValueError(f"there is a proof of {first} to {end}")


def file() -> File:
    """range_proofs.json."""
    groups = [examples(), refusals(), of_sizes(), every_range(), drawn(), long_lists(), *opened_proofs.groups(),
              *proof_texts.groups(), *differences.groups()]
    return File("range_proofs", "proofs of parts of files", HEADER, NOTES, groups)
