"""What the model answers to the lines of range proofs that a program of crates/ answers.

A line is a call, an arrow, and what the call returns; the head of the input
says how they are written.  `answer` takes the call and gives what the program
has to print after the arrow.
"""

from __future__ import annotations

import re
from typing import Optional, Sequence

import range_proof as r
import xet_model as m

SALT = m.to_bytes(m.random_from_seed(4))
REFUSALS = {m.INVALID_ARGUMENTS: "InvalidArguments", m.SIZE_OVERFLOW: "SizeOverflow"}


# --------------------------------------------------------------------------
# Arguments
# --------------------------------------------------------------------------

def numbered(letter: str, number: int) -> m.Hash:
    if letter == "h":
        return m.random_from_seed(number)
    return number, 0, 0, {"N": int(number % 4 != 3), "M": 1, "C": 0}[letter]


def hash_of(word: str) -> m.Hash:
    if word == "Z":
        return m.DEFAULT_HASH
    return numbered(word[0], int(word[1:])) if word[0] in "hNMC" else m.from_hex(word)


def nodes_of(text: str) -> r.Nodes:
    """`h1:100 M3 N0-N19`, or `none`: a chunk has the size 1 if none is written."""
    nodes: list[m.Node] = []
    for word in text.split() if text != "none" else ():
        name, _, size = word.partition(":")
        several = re.fullmatch(r"(\w)(\d+)-\1(\d+)", name)
        if several:
            hashes = [numbered(several[1], number) for number in range(int(several[2]), int(several[3]) + 1)]
        else:
            hashes = [hash_of(name)]
        nodes += [(hash_, int(size or 1)) for hash_ in hashes]
    return tuple(nodes)


def numbers_of(text: str) -> tuple[int, int]:
    first, second = map(int, text.split(" "))
    return first, second


def range_of(text: str) -> tuple[int, int, r.Nodes]:
    """`1 2 of h1:100 h2:200`"""
    numbers, _, chunks = text.partition(" of ")
    return (*numbers_of(numbers), nodes_of(chunks))


def of_data(text: str) -> tuple[r.RangeProof, r.OpenedRange]:
    """`1 2 of a chunk|another`: the proof of a range of chunks whose data is given, opened with the file hash."""
    numbers, _, data = text.partition(" of ")
    nodes = tuple((m.compute_data_hash(it.encode()), len(it.encode())) for it in data.split("|"))
    proof = r.prove(nodes, *numbers_of(numbers))
    known = r.open_file(proof, m.file_hash(nodes))
    assert known is not None
    return proof, known


# --------------------------------------------------------------------------
# Answers
# --------------------------------------------------------------------------

def told_pair(pair: Optional[Sequence[int]]) -> str:
    return "none" if pair is None else f"{pair[0]} {pair[1]}"


def told_opening(proof: r.RangeProof, known: Optional[r.OpenedRange]) -> str:
    if known is None:
        return "Mismatch"
    sides = " ".join(str(pair) for pair in proof.counts()) or "no level"
    return f"{sides} {known.offset} of {known.file_size}"


def prove(text: str) -> str:
    first, end, nodes = range_of(text)
    try:
        proof = r.prove(nodes, first, end)
    except m.Refused as refused:
        return REFUSALS[refused.number]
    told = told_opening(proof, r.open_file(proof, m.file_hash_with_salt(nodes, SALT), SALT))
    assert told == told_opening(proof, r.open_root(proof, m.root(nodes)))
    return told


def check(text: str) -> str:
    chunk, _, range_ = text.partition(" in ")
    number, _, data = chunk.partition(" ")
    place = r.check(of_data(range_)[1], int(number), data.encode())
    return "none" if place is None else str(place)


def read(text: str) -> str:
    call, _, range_ = text.partition(" in ")
    places, _, data = call.partition(" of ")
    found = r.read(of_data(range_)[1], *numbers_of(places), data.encode())
    return "none" if found is None else f'"{found.decode()}"'


def opened(text: str) -> str:
    file_hash, salt, proof_text = text.split(" ", 2)
    proof = r.from_json_text(proof_text)
    return told_opening(proof, r.open_file(proof, hash_of(file_hash), m.to_bytes(hash_of(salt))))


def opened_root(text: str) -> str:
    root, _, proof_text = text.partition(" ")
    proof = r.from_json_text(proof_text)
    return told_opening(proof, r.open_root(proof, hash_of(root)))


def read_again(text: str) -> str:
    proof = r.from_json_text(text)
    assert r.from_flat(*r.to_flat(proof)) == proof
    return "the same text" if r.to_json_text(proof) == text else "another text"


def fronts(text: str) -> str:
    return str(sum(is_json(text[:end]) for end in range(len(text))))


def is_json(text: str) -> bool:
    try:
        m.parse_json_text(text)
        return True
    except m.NotJson:
        return False


def tree_hashes(text: str) -> str:
    nodes = nodes_of(text)
    return f"{m.to_hex(m.root(nodes))} {m.to_hex(m.file_hash(nodes))} {m.total_size(nodes)}"


def chunks_at(text: str) -> str:
    start, stop, nodes = range_of(text)
    return told_pair(r.chunks_at(nodes, start, stop))


def bytes_of(text: str) -> str:
    first, end, nodes = range_of(text)
    return told_pair(r.bytes_of(nodes, first, end))


CALLS = {
    "prove": prove, "prove_data": lambda text: r.to_json_text(of_data(text)[0]), "check": check, "read": read, "open": opened,
    "open_root": opened_root, "proof_from_json": read_again, "json_fronts": fronts, "tree_hashes": tree_hashes,
    "chunks_at": chunks_at, "bytes_of": bytes_of,
}


def answer(call: str) -> str:
    """What the program prints for a call."""
    name, _, text = call.partition(" ")
    try:
        return CALLS[name](text)
    except m.InvalidJson as refused:
        return f"InvalidJson({refused.rule})"
