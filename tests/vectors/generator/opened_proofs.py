"""The tests of range_proofs.json that open proofs: honest ones, and ones that a dishonest server may send."""

from __future__ import annotations

import dataclasses
import random
from typing import Any, Optional, Sequence

from . import lists
from .files import Group, Test, invalid, valid
from .lists import ToldData
from .model import altered_proofs, m, range_proof
from .roots import SALT

NOTES = {
    "Altered": "An honest proof was altered as the comment says, and can't be opened.",
    "AlteredAndHonest": "An honest proof was altered to another honest one of the same file.",
    "NothingIsAccepted": "The proof is opened, since its top has the hash, but no data is accepted: a node isn't a chunk's, or "
                         "its size isn't.",
    "OtherHash": "An honest proof is opened with a hash or a salt that isn't its own.",
    "DefaultHash": "No proof is opened with the default hash.",
    "SeveralAtTop": "Instead of a top there are several nodes. The hash is that of the first one.",
}
Rows = list[dict[str, Any]]
THREE = lists.of_data(b"a chunk", b"another", b"and a third")
TWENTY = lists.numbers(400, 20, (7, 12, 3, 20, 1))
ONE = lists.of_data(b"the only chunk")
NO_SALT = bytes(32)


@dataclasses.dataclass
class Shown:
    """What a proof is opened with: a root, or a file hash under a salt."""

    hash: m.Hash
    salt: Optional[bytes]

    def said(self) -> dict[str, str]:
        """The members of a test."""
        if self.salt is None:
            return {"root": m.to_hex(self.hash)}
        return {"fileHash": m.to_hex(self.hash), "saltBytes": self.salt.hex()}

    def open(self, proof: range_proof.RangeProof) -> Optional[range_proof.OpenedRange]:
        """What the proof shows, if anything."""
        if self.salt is None:
            return range_proof.open_root(proof, self.hash, lists.maker)
        return range_proof.open_file(proof, self.hash, self.salt, lists.maker)


def of_root(told: ToldData) -> Shown:
    """The root of a file."""
    return Shown(m.root(told.nodes, lists.maker), None)


def of_file(told: ToldData, salt: bytes = NO_SALT) -> Shown:
    """The file hash under a salt."""
    return Shown(m.hmac(of_root(told).hash, lists.hash_of(salt)), salt)


def prove(told: ToldData, first: int, end: int) -> range_proof.RangeProof:
    """The honest proof of a range."""
    return range_proof.prove(told.nodes, first, end, lists.maker)


def hex_or_null(data: Optional[bytes]) -> Optional[str]:
    """Bytes in hex, where there are some."""
    return None if data is None else data.hex()


def check_rows(known: range_proof.OpenedRange, offered: Sequence[tuple[int, bytes]]) -> Rows:
    """Data that is offered for chunks of an opened range, with the answers."""
    rows = []
    for number, data in offered:
        place = range_proof.check(known, number, data)
        rows.append({"number": number, "dataBytes": data.hex(), "place": None if place is None else str(place)})
    return rows


def read_rows(known: range_proof.OpenedRange, offered: Sequence[tuple[int, int, bytes]]) -> Rows:
    """Data that is offered for an opened range, with the bytes that are read."""
    return [{"start": str(start), "stop": str(stop), "dataBytes": data.hex(),
             "readBytes": hex_or_null(range_proof.read(known, start, stop, data))} for start, stop, data in offered]


def changed(data: bytes, at: int) -> bytes:
    """The data with another byte at this place, if it has one."""
    return data[:at] + bytes(byte ^ 1 for byte in data[at:at + 1]) + data[at + 1:]


def offers_of_chunks(chunks: Sequence[bytes]) -> list[tuple[int, bytes]]:
    """For each chunk of a range its own data, and other data for the first ones; and data for a chunk that isn't there."""
    offers = []
    for number, data in enumerate(chunks):
        offers.append((number, data))
        if number < 2:
            offers += [(number, it) for it in (data + b"\0", data[:-1], changed(data, 0)) if it != data]
        if number > 0:
            offers.append((number, chunks[number - 1]))
    return [*offers, (len(chunks), chunks[-1])]


def offers_of_ranges(begin: int, chunks: Sequence[bytes]) -> list[tuple[int, int, bytes]]:
    """Data for a whole range, good and bad, and places in it and outside."""
    data = b"".join(chunks)
    end, middle = begin + len(data), begin + len(data) // 2
    good = [(begin, end), (begin + 1, end - 1), (middle, middle + 1), (begin, begin), (end, end), (max(begin, 1) - 1, end),
            (begin, end + 1), (middle, begin), (end + 1, end + 1)]
    last = len(data) - len(chunks[-1])
    bad = [*(changed(data, at) for at in (0, len(data) // 2, len(data) - 1)), data + b"\0", data[:-1], data[:last], b""]
    return [*((*it, data) for it in good), *((middle, middle + 1, it) for it in bad if it != data)]


def opened(comment: str, proof: range_proof.RangeProof, shown: Shown, chunks: Sequence[bytes], *flags: str) -> Test:
    """A proof that is opened; the data of its chunks is offered, and other data."""
    known = known_of(comment, proof, shown)
    return opened_test(comment, proof, shown, check_rows(known, offers_of_chunks(chunks)),
                       read_rows(known, offers_of_ranges(known.offset, chunks)), *flags)


def opened_in_vain(comment: str, proof: range_proof.RangeProof, shown: Shown, *data: bytes) -> Test:
    """A proof that is opened, while none of some data is accepted for its first chunk or its range."""
    known = known_of(comment, proof, shown)
    checks = check_rows(known, [(0, it) for it in data])
    reads = read_rows(known, [(known.offset, known.offset + min(len(it), known.chunks[0][1]), it) for it in data])
    if any(row["place"] is not None for row in checks) or any(row["readBytes"] is not None for row in reads):
        raise ValueError(f"{comment}: data is accepted")
    return opened_test(comment, proof, shown, checks, reads, "NothingIsAccepted")


def known_of(comment: str, proof: range_proof.RangeProof, shown: Shown) -> range_proof.OpenedRange:
    """What a proof that is opened shows."""
    known = shown.open(proof)
    if known is None:
        raise ValueError(f"{comment}: a mismatch")
    return known


def opened_test(comment: str, proof: range_proof.RangeProof, shown: Shown, checks: Rows, reads: Rows, *flags: str) -> Test:
    """A proof that is opened, with its places and rows."""
    known = known_of(comment, proof, shown)
    places = [known.offset, *(range_proof.ends(known, number) for number in range(len(known.chunks)))]
    return valid(comment, *flags, text=range_proof.to_json_text(proof), **shown.said(), fileSize=str(known.file_size),
                 places=[str(place) for place in places], checks=checks, reads=reads)


def mismatch(comment: str, proof: range_proof.RangeProof, shown: Shown, *flags: str) -> Test:
    """A proof that doesn't show a hash."""
    if shown.open(proof) is not None:
        raise ValueError(f"{comment}: no mismatch")
    return invalid(comment, *flags, text=range_proof.to_json_text(proof), **shown.said(), error="Mismatch")


def named(told: ToldData, first: int, end: int) -> str:
    """A range in words."""
    chunks = f"chunk {first}" if end == first + 1 else f"chunks {first} to {end - 1}"
    return f"{chunks} of {len(told.nodes)}"


def honest() -> Group:
    """Honest proofs."""
    long, empty = lists.numbers(5000, 300, (4, 9, 2)), lists.of_data(b"", b"one", b"", b"", b"two", b"")
    rows = [(THREE, 0, 1, of_file(THREE)), (THREE, 1, 2, of_file(THREE)), (THREE, 1, 2, of_file(THREE, SALT)),
            (THREE, 1, 2, of_root(THREE)), (THREE, 1, 3, of_file(THREE)), (THREE, 0, 3, of_root(THREE)),
            (ONE, 0, 1, of_file(ONE)), (ONE, 0, 1, of_root(ONE)),
            (TWENTY, 0, 1, of_file(TWENTY)), (TWENTY, 6, 9, of_file(TWENTY, SALT)),
            (TWENTY, 17, 20, of_file(TWENTY)), (long, 150, 152, of_file(long, SALT)), (long, 299, 300, of_root(long)),
            (empty, 0, 3, of_file(empty)), (empty, 2, 5, of_root(empty))]
    tests = [opened(named(told, first, end), prove(told, first, end), shown, told.chunks[first:end])
             for told, first, end, shown in rows]
    return Group("OpenProof", "honest proofs", tests)


def with_other_hashes() -> Group:
    """Honest proofs that are opened with what isn't theirs."""
    proof, root, hash_ = prove(THREE, 1, 2), of_root(THREE), of_file(THREE)
    default = range_proof.RangeProof(((m.DEFAULT_HASH, 5),), ())
    rows = [("another file's hash", proof, of_file(TWENTY)), ("another file's root", proof, of_root(TWENTY)),
            ("a salt, for the hash without one", proof, Shown(hash_.hash, SALT)),
            ("no salt, for the hash under one", proof, Shown(of_file(THREE, SALT).hash, NO_SALT)),
            ("a salt that differs in one bit", proof, Shown(of_file(THREE, SALT).hash, changed(SALT, 31))),
            ("the root as the file hash", proof, Shown(root.hash, NO_SALT)),
            ("the file hash as the root", proof, Shown(hash_.hash, None)),
            ("a hash that differs in one bit", proof, Shown((*hash_.hash[:3], hash_.hash[3] ^ 1), NO_SALT)),
            ("another file's proof", prove(TWENTY, 6, 7), hash_), ("another file of one chunk", prove(ONE, 0, 1), hash_)]
    tests = [mismatch(*it, "OtherHash") for it in rows]
    for comment, shown in (("the default hash as the file hash", Shown(m.DEFAULT_HASH, NO_SALT)),
                           ("the default hash as the root", Shown(m.DEFAULT_HASH, None))):
        tests += [mismatch(comment, proof, shown, "DefaultHash"),
                  mismatch(f"{comment}, and the only chunk has it", default, shown, "DefaultHash")]
    return Group("OpenProof", "proofs that are opened with another hash", tests)


def altered_test(alteration: altered_proofs.Alteration, proof: range_proof.RangeProof, shown: Shown, told: ToldData) -> Test:
    """An altered proof, with the data of its chunks if they are the file's."""
    known = shown.open(proof)
    if known is None:
        return mismatch(alteration.name, proof, shown, "Altered")
    data = dict(zip(told.nodes, told.chunks))
    if all(node in data for node in known.chunks):
        return opened(alteration.name, proof, shown, [data[node] for node in known.chunks], "AlteredAndHonest")
    return opened_in_vain(alteration.name, proof, shown, *told.chunks[:2])


def alterations() -> list[Group]:
    """Each alteration of some proofs."""
    groups = []
    for told, first, end, draws in ((THREE, 1, 2, 1), (TWENTY, 6, 9, 2)):
        rng, tests = random.Random(69), []
        proof, other = prove(told, first, end), TWENTY.nodes[0]
        for alteration in altered_proofs.ALTERATIONS:
            found = [altered_proofs.altered(rng, alteration, proof, other) for _ in range(10)]
            texts = sorted({range_proof.to_json_text(it) for it in found if it is not None})
            tests += [altered_test(alteration, range_proof.from_json_text(text), of_file(told), told) for text in texts[:draws]]
        groups.append(Group("OpenProof", f"the proof of {named(told, first, end)}, altered", tests))
    missing = {it.name for it in altered_proofs.ALTERATIONS} - {test["comment"] for group in groups for test in group.tests}
    if missing:
        raise ValueError(f"alterations without a test: {missing}")
    return groups


def one_chunk() -> list[Test]:
    """Files of one chunk, whose hashes say nothing of its size."""
    node, data = ONE.nodes[0], ONE.chunks[0]
    proofs = [range_proof.RangeProof(((node[0], size),), ()) for size in (len(data) + 1, len(data) - 1, 0, m.MAX_U64)]
    tests = [opened_in_vain(f"the size {proof.chunks[0][1]} for {len(data)}", proof, shown, data, data + b"\0", data[:-1], b"")
             for proof in proofs for shown in (of_file(ONE), of_root(ONE))]
    default, empty = range_proof.RangeProof(((m.DEFAULT_HASH, 5),), ()), range_proof.RangeProof(ONE.nodes, (((), ()),))
    zero = Shown(m.hmac(m.DEFAULT_HASH, m.DEFAULT_HASH), NO_SALT)
    return [*tests, opened_in_vain("the default hash as that of the chunk", default, zero, b"", bytes(5)),
            mismatch("an empty level over one chunk", empty, of_file(ONE), "Altered")]


def several_at_top() -> list[Test]:
    """Proofs whose highest level has several groups, or that have no level and several chunks."""
    ten = lists.pattern("." * 10)
    first = m.parent(ten.nodes[:9])[0]
    rows = [("two chunks and no level", range_proof.RangeProof(THREE.nodes[:2], ()), THREE.nodes[0][0]),
            ("ten chunks and one level", range_proof.RangeProof(ten.nodes, (((), ()),)), first),
            ("a right side that makes a second group",
             range_proof.RangeProof(ten.nodes[2:9], ((ten.nodes[:2], ten.nodes[9:]),)), first)]
    return [mismatch(comment, proof, shown, "SeveralAtTop") for comment, proof, root in rows
            for shown in (Shown(root, None), Shown(m.hmac(root, m.DEFAULT_HASH), NO_SALT))]


def parents_for_chunks() -> list[Test]:
    """Nodes of a higher level that pass as chunks."""
    levels = range_proof.levels_of(TWENTY.nodes, lists.maker)
    group = m.groups(TWENTY.nodes)[0]
    group_size = m.total_size(group)
    proof = range_proof.prove(levels[1], 0, 1, lists.maker)
    root = range_proof.RangeProof((levels[-1][0],), ())
    whole = b"".join(TWENTY.chunks)
    return [opened_in_vain("a parent as a chunk, with its group's chunks and their text as data", proof, of_file(TWENTY),
                           whole[:group_size], m.group_text(group)),
            opened_in_vain("the root as the only chunk, with the whole file as data", root, of_file(TWENTY), whole)]


def groups() -> list[Group]:
    """All groups of tests that open proofs."""
    return [honest(), with_other_hashes(), *alterations(),
            Group("OpenProof", "files of one chunk, for which a proof may say any size", one_chunk()),
            Group("OpenProof", "several nodes at the top", several_at_top()),
            Group("OpenProof", "parents that pass as chunks", parents_for_chunks())]
