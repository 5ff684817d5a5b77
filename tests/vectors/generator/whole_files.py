"""files.json: where the chunks of a file end, and the hashes of the file, in whatever pieces it comes."""

from __future__ import annotations

import functools
from typing import Any, Union

from .files import File, Group, Test, valid
from .hashes import message
from .model import chunker, m

#: Bytes as a test says them: the hex of bytes in order, or a rule.
Said = Union[str, dict[str, Any]]

#: Three bytes that make a candidate of each third place from 66 on, so that chunks have 8192, 8193 or 8194 bytes.
THREE = "00948f"
SALT = bytes(range(32))
LEAST, MOST = chunker.LEAST, chunker.MOST
LENGTHS = (0, 1, 63, 64, 65, LEAST - 1, LEAST, LEAST + 1, MOST - 1, MOST, MOST + 1, MOST + LEAST, 2 * MOST, 2 * MOST + 1)
#: How many mixed bytes are made at once.
MIXED = 10**6

PIECES = (
    "A file is its pieces, one after another. A piece is the hex of its bytes in order, or the bytes from a up to b - 1 of one of these: "
    "`message`, whose byte i is i mod 251; `repeated`, these bytes again and again, of which `part` has a and b; `mixed`, the numbers of "
    "SplitMix64 from the seed 0 on, each with its lowest byte first.")
MEANS = [PIECES, "`chunker_next_boundary` answers after how many bytes of the piece the chunk ends, or null if it goes on."]
HEADER = [
    PIECES,
    "`cuts` has the place where each chunk ends. `root` is the root of the chunks, `fileHash` the file hash without a salt, and `salted` has "
    "file hashes under salts.",
]
NOTES = {
    "Empty": "The file has no bytes and no chunk. Its hashes are the default hash, 32 zero bytes.",
    "Least": "A chunk has 8192 bytes, the fewest of any but the last.",
    "Most": "A chunk has 131072 bytes, and ends without a candidate.",
    "Candidate": "A chunk of fewer than 131072 bytes ends at a candidate.",
    "EmptyPiece": "A piece is empty. It changes nothing.",
    "EndOfPiece": "A chunk ends with a piece that isn't the last.",
}


def repeated(text: str, start: int, end: int) -> Said:
    """A part of some bytes again and again."""
    return {"repeated": text, "part": [start, end]}


def bytes_of(said: Said) -> bytes:
    """The bytes of a piece."""
    if isinstance(said, str):
        return bytes.fromhex(said)
    (rule, told), *more = said.items()
    start, end = more[0][1] if more else told
    if rule == "repeated":
        again = bytes.fromhex(told)
        return (again * (end // len(again) + 1))[start:end]
    return (message(end) if rule == "message" else mixed(max(end, MIXED)))[start:end]


mixed = functools.cache(chunker.mixed)


def part_of(said: Said, start: int, end: int) -> Said:
    """A part of a piece."""
    if isinstance(said, str):
        return said[2 * start:2 * end]
    *rule, (name, (first, _)) = said.items()
    return {**dict(rule), name: [first + start, first + end]}


def in_pieces(said: dict[str, Any], lengths: list[int]) -> list[Said]:
    """Pieces of these lengths from the beginning of some bytes on, one after another."""
    places = [0]
    for length in lengths:
        places.append(places[-1] + length)
    return [part_of(said, start, end) for start, end in zip(places, places[1:])]


@functools.cache
def ends_of(file: bytes) -> tuple[int, ...]:
    """The places where a chunk ends whatever follows."""
    return tuple(end for end in chunker.cuts(file + b"\0") if end <= len(file))


@functools.cache
def data_hash(chunk: bytes) -> m.Hash:
    """The data hash of a chunk."""
    return m.compute_data_hash(chunk)


def nodes_of(file: bytes) -> list[m.Node]:
    """The chunks of a file."""
    ends = [*ends_of(file), *[len(file)] * (len(file) not in ends_of(file) and bool(file))]
    return [(data_hash(file[start:end]), end - start) for start, end in zip([0, *ends], ends)]


def flags_of(pieces: list[bytes], sizes: list[int]) -> list[str]:
    """The flags of a file in pieces, whose chunks have these sizes."""
    file, inner = b"".join(pieces), [len(b"".join(pieces[:count])) for count in range(1, len(pieces))]
    ended = [size for size, end in zip(sizes, ends_of(file))]
    found = {"Empty": not file, "Least": LEAST in ended, "Most": MOST in ended, "Candidate": bool(set(ended) - {MOST}),
             "EmptyPiece": b"" in pieces[1:], "EndOfPiece": bool({*inner} & {*ends_of(file)})}
    return [flag for flag, has in found.items() if has]


def a_file(comment: str, *pieces: Said) -> Test:
    """A file in pieces."""
    made = list(map(bytes_of, pieces))
    file = b"".join(made)
    nodes = nodes_of(file)
    cuts = chunker.cuts(file)
    return valid(comment, *flags_of(made, [size for _, size in nodes]), pieces=list(pieces), cuts=cuts, root=m.to_hex(m.xorb_hash(nodes)),
                 fileHash=m.to_hex(m.file_hash(nodes)),
                 salted=[{"saltBytes": SALT.hex(), "fileHash": m.to_hex(m.file_hash_with_salt(nodes, SALT))}])


def whole() -> Group:
    """Files in one piece."""
    tests = [a_file("", {"message": [0, length]}) for length in LENGTHS]
    tests += [a_file("one byte again and again", repeated(byte, 0, length)) for byte, length in (("00", 300000), ("ff", MOST + 1), ("00", LEAST))]
    tests += [a_file("three bytes again and again", repeated(THREE, start, start + length))
              for start, length in ((0, LEAST), (0, LEAST + 1), (0, LEAST + 2), (0, 100001), (1, LEAST), (1, LEAST + 1), (1, 50000), (2, 50000))]
    tests += [a_file("mixed bytes", {"mixed": [0, length]}) for length in (LEAST, 1000, MOST, 10**6)]
    return Group("FileHash", "a file in one piece", tests)


def pieces() -> Group:
    """Files in several pieces."""
    three, mixed, plain = {"repeated": THREE, "part": [0, 0]}, {"mixed": [0, 0]}, {"message": [0, 0]}
    tests = [
        a_file("byte by byte", *in_pieces(plain, [1] * 65)),
        a_file("one byte before the first cut, and more after it", *in_pieces(three, [LEAST, 1, 1, 7])),
        a_file("the cut alone", *in_pieces(three, [LEAST - 2, 1, 1, 1, 1, 1])),
        a_file("each chunk a piece", *in_pieces(three, [LEAST + 1] * 4)),
        a_file("empty pieces", *in_pieces(three, [0, LEAST + 1, 0, 0, LEAST + 1, 0, 5, 0])),
        a_file("two pieces", *in_pieces(three, [10000, 10000])),
        a_file("two pieces, of which the first has no chunk that ended", *in_pieces(plain, [MOST - 1, MOST + 3])),
        a_file("around the most bytes", *in_pieces(plain, [MOST - 1, 1, 1])),
        a_file("pieces that are longer than chunks", *in_pieces(three, [30001, 30001, 30001, 9998])),
        a_file("pieces of different kinds", "48656c6c6f", {"message": [3, 9000]}, repeated("00", 0, MOST), repeated(THREE, 0, 20000), ""),
        a_file("mixed bytes", *in_pieces(mixed, [65537] * 15 + [16945])),
        a_file("mixed bytes in two pieces, at a cut", *in_pieces(mixed, [chunker.cuts(chunker.mixed(10**6))[3], 200000])),
    ]
    return Group("FileHash", "a file in several pieces", tests)


def file() -> File:
    """files.json."""
    return File("files", "where the chunks of a file end, and its hashes", HEADER, NOTES, [whole(), pieces()])
