"""A search at random for a range proof that shows what isn't so; `search_proofs` runs it."""

from __future__ import annotations

import random
from collections import Counter
from typing import NamedTuple, Optional

import range_proof as r
import xet_model as m
from altered_proofs import ALTERATIONS, Alteration, altered


class Counterexample(Exception):
    pass


def hash_of(data: bytes) -> m.Hash:
    """The hash of 32 bytes."""
    found = m.from_bytes(data)
    assert found is not None
    return found


def confirm(condition: bool, *what: object) -> None:
    if not condition:
        raise Counterexample(*what)


# --------------------------------------------------------------------------
# Random files
# --------------------------------------------------------------------------

class File(NamedTuple):
    chunks: tuple[bytes, ...]
    nodes: r.Nodes
    levels: list[r.Nodes]
    salt: bytes

    def root(self) -> m.Hash:
        return self.levels[-1][0][0]

    def hash(self) -> m.Hash:
        return m.hmac(self.root(), hash_of(self.salt))

    def place_of(self, number: int) -> int:
        return sum(map(len, self.chunks[:number]))

    def known_data(self) -> list[bytes]:
        """What a server could pass off as a chunk."""
        texts = [m.group_text(group) for level in self.levels[:-1] for group in m.groups(level)]
        return [*self.chunks, *texts, m.to_bytes(self.root())]


def drawn_length(rng: random.Random) -> int:
    most = rng.choices((1, 3, 9, 30, 90, 300, 1000), (2, 4, 10, 30, 20, 3, 1))[0]
    return rng.randrange(1, most + 1)


def drawn_chunk(rng: random.Random, is_cut: bool) -> tuple[bytes, m.Node]:
    """Data whose hash is a natural cut where that is wanted."""
    while True:
        data = rng.randbytes(rng.choice((2, 5, 16, 31, 65)))
        node = (m.compute_data_hash(data), len(data))
        if m.is_cut(node) == is_cut:
            return data, node


def drawn_file(rng: random.Random) -> File:
    """A file whose natural cuts are frequent or rare, and in which some chunks are repeated or empty."""
    cut_chance = rng.choice((0.0, 0.1, 0.25, 0.25, 0.5, 1.0))
    again = rng.choice((0.0, 0.0, 0.1, 0.5))
    empty = (b"", (m.compute_data_hash(b""), 0))
    drawn: list[tuple[bytes, m.Node]] = []
    for _ in range(drawn_length(rng)):
        if rng.random() < again:
            drawn.append(rng.choice([empty, *drawn]))
        else:
            drawn.append(drawn_chunk(rng, rng.random() < cut_chance))
    chunks, nodes = zip(*drawn)
    salt = rng.choice((bytes(32), rng.randbytes(32)))
    return File(chunks, nodes, r.levels_of(nodes), salt)


def drawn_range(rng: random.Random, length: int) -> tuple[int, int]:
    first = rng.randrange(length)
    return first, min(length, first + rng.choice((1, 1, 2, 3, 10, rng.randrange(1, length + 1))))


# --------------------------------------------------------------------------
# What is searched
# --------------------------------------------------------------------------

def confirm_honest(rng: random.Random, file: File, first: int, end: int) -> r.RangeProof:
    """The proof of a range is opened, and checks each chunk at its place."""
    proof = r.prove(file.nodes, first, end)
    what = (file, first, end, proof)
    confirm(r.broken_rule(proof) is None, "a rule", *what)
    confirm(r.from_json_text(r.to_json_text(proof)) == r.from_flat(*r.to_flat(proof)) == proof, "a form", *what)
    known = r.open_file(proof, file.hash(), file.salt)
    confirm(known is not None and known == r.open_root(proof, file.root()), "not opened", *what)
    assert known is not None
    confirm(known.file_size == sum(map(len, file.chunks)), "file size", *what)
    for number in range(first, end):
        confirm(r.check(known, number - first, file.chunks[number]) == file.place_of(number), "place", number, *what)
    begin, stop = file.place_of(first), file.place_of(end)
    confirm(r.bytes_of(file.nodes, first, end) == (begin, stop), "bytes", *what)
    confirm_read(rng, file, known, b"".join(file.chunks[first:end]), begin, stop)
    confirm_least(rng, file)
    return proof


def confirm_read(rng: random.Random, file: File, known: r.OpenedRange, data: bytes, begin: int, stop: int) -> None:
    """The data is read within these places, and nowhere else."""
    start, end = rng.randrange(max(begin - 2, 0), stop + 3), rng.randrange(max(begin - 2, 0), stop + 3)
    wanted = b"".join(file.chunks)[start:end] if begin <= start <= end <= stop else None
    confirm(r.read(known, start, end, data) == wanted, "read", file, known, data, start, end)
    confirm(r.read(known, begin, stop, data + b"x") is None, "data left over", file, known, data)
    confirm(not data or r.read(known, begin, stop, data[:-1]) is None, "data lacking", file, known, data)


def confirm_least(rng: random.Random, file: File) -> None:
    """The range for some bytes holds them, and is the least one that does."""
    size = sum(map(len, file.chunks))
    start, stop = rng.randrange(size + 2), rng.randrange(size + 2)
    found = r.chunks_at(file.nodes, start, stop)
    confirm((found is not None) == (start < min(stop, size)), "no chunks", file, start, stop)
    if found is not None:
        first, end = found
        confirm(file.place_of(first) <= start < file.place_of(first + 1), "first chunk", file, start, stop)
        confirm(file.place_of(end - 1) < min(stop, size) <= file.place_of(end), "last chunk", file, start, stop)


def confirm_sound(file: File, known: r.OpenedRange, data: list[bytes], *what: object) -> int:
    """How many chunks some data is accepted for; each run of them stands in the file at its place."""
    by_hash, by_length = {m.compute_data_hash(it): it for it in data}, {len(it): it for it in data}
    accepted: list[Optional[tuple[int, bytes]]] = []
    for number, (hash_, size) in enumerate(known.chunks):
        offered = [it for it in (by_hash.get(hash_), by_length.get(size)) if it is not None]
        places = [(r.check(known, number, it), it) for it in offered]
        accepted.append(next(((place, it) for place, it in places if place is not None), None))
    for number, entry in enumerate(accepted):
        if entry is not None and (number == 0 or accepted[number - 1] is None):
            end = next((i for i in range(number, len(accepted)) if accepted[i] is None), len(accepted))
            run = tuple(entry[1] for entry in accepted[number:end] if entry is not None)
            confirm(stands_at(file, entry[0], run), "other bytes", number, end, known, file, *what)
            confirm(known.file_size == sum(map(len, file.chunks)), "file size", known, file, *what)
    return sum(entry is not None for entry in accepted)


def stands_at(file: File, place: int, run: tuple[bytes, ...]) -> bool:
    """Whether the file has this run of chunks at this place."""
    begin = 0
    for number in range(len(file.chunks)):
        if begin == place and file.chunks[number:number + len(run)] == run:
            return True
        begin += len(file.chunks[number])
    return False


class Attempt(NamedTuple):
    """A proof, and what it is opened with."""
    name: str
    proof: r.RangeProof
    hash: m.Hash
    salt: bytes
    is_mismatch: bool


def of_proof(rng: random.Random, file: File, other: File, proof: r.RangeProof, alteration: Alteration) -> Optional[Attempt]:
    node = rng.choice((rng.choice(file.nodes), rng.choice(other.nodes), rng.choice(file.levels[-1])))
    found = altered(rng, alteration, proof, node)
    if found is None:
        return None
    return Attempt(alteration.name, found, file.hash(), file.salt, alteration.is_mismatch and bool(proof.levels))


def attempts(rng: random.Random, file: File, other: File, proof: r.RangeProof, count: int) -> list[Attempt]:
    """Random alterations of a proof, and of what it is opened with."""
    found: list[Attempt] = []
    while len(found) < count:
        kind = rng.randrange(len(ALTERATIONS) + 4)
        if kind < len(ALTERATIONS):
            attempt = of_proof(rng, file, other, proof, ALTERATIONS[kind])
            found += [] if attempt is None else [attempt]
        elif kind == len(ALTERATIONS):
            found.append(Attempt("another file hash", proof, hash_of(rng.randbytes(32)), file.salt, True))
        elif kind == len(ALTERATIONS) + 1:
            found.append(Attempt("another salt", proof, file.hash(), rng.randbytes(32), True))
        elif kind == len(ALTERATIONS) + 2:
            found.append(Attempt("the root for the file hash", proof, file.root(), file.salt, True))
        else:
            others = r.prove(other.nodes, *drawn_range(rng, len(other.nodes)))
            found.append(Attempt("another file's proof", others, file.hash(), file.salt, other.root() != file.root()))
    return found


class Tally:
    """How many altered proofs of each kind were tried, opened, and accepted data."""

    def __init__(self) -> None:
        self.tried: Counter[str] = Counter()
        self.opened: Counter[str] = Counter()
        self.accepting: Counter[str] = Counter()

    def search(self, file: File, other: File, attempt: Attempt) -> None:
        self.tried[attempt.name] += 1
        known = r.open_file(attempt.proof, attempt.hash, attempt.salt)
        confirm(known is None or not attempt.is_mismatch, "no mismatch", attempt, file)
        if (attempt.hash, attempt.salt) == (file.hash(), file.salt):
            confirm(known == r.open_root(attempt.proof, file.root()), "another answer for the root", attempt, file)
        if known is not None:
            self.opened[attempt.name] += 1
            self.accepting[attempt.name] += bool(confirm_sound(file, known, file.known_data() + other.known_data(), attempt))

    def lines(self) -> list[str]:
        rows = [(name, count, self.opened[name], self.accepting[name]) for name, count in sorted(self.tried.items())]
        rows.append(("all", self.tried.total(), self.opened.total(), self.accepting.total()))
        head = f"{'altered':34} {'proofs':>8} {'opened':>8} {'with accepted data':>20}"
        return [head] + [f"{name:34} {tried:8} {opened:8} {accepting:20}" for name, tried, opened, accepting in rows]


def search(seed: int, files: int, alterations: int) -> str:
    """What was tried; raises a counterexample."""
    rng, tally, chunks, longest = random.Random(seed), Tally(), 0, 0
    other = drawn_file(rng)
    for _ in range(files):
        file = drawn_file(rng)
        chunks, longest = chunks + len(file.chunks), max(longest, len(file.chunks))
        proof = confirm_honest(rng, file, *drawn_range(rng, len(file.chunks)))
        for attempt in attempts(rng, file, other, proof, alterations):
            tally.search(file, other, attempt)
        other = file
    told = f"seed {seed}: {files} files of up to {longest} chunks, {chunks} in all, each with an honest proof that was opened"
    return "\n".join([told, *tally.lines(), "nothing was accepted that isn't so"])
