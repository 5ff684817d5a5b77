"""hashes.json: keyed BLAKE3 of messages by length and in pieces, keys, seeds, and hashes under hashes."""

from __future__ import annotations

from . import lists
from .files import File, Group, valid
from .model import m

LENGTHS = (0, 1, 2, 3, 31, 32, 33, 63, 64, 65, 127, 128, 129, 1023, 1024, 1025, 2047, 2048, 2049, 3072, 3073, 4096, 4097,
           5000, 5120, 5121, 6144, 6145, 7168, 7169, 8192, 8193, 10241, 16384, 16385, 31744, 65536, 65537, 102400)
SHORT = tuple(length for length in LENGTHS if length <= 10241)
GIVEN_KEY = bytes(range(32))
SEEDS = (0, 1, 2, 3, 4, 5, 6, 7, 255, 2**31, 2**32, 2**63 - 1, 2**63, 2**64 - 1)
PIECES = ((2049,), (1, 2048), (1023, 1026), (1024, 1025), (1025, 1024), (0, 2049), (2049, 0), (1024, 1024, 1),
          (64, 64, 64, 1857), (63, 1, 65, 1920), (500, 500, 500, 549), (1,) * 70 + (1979,), (3072, 1), (3073,),
          (4096, 1), (1, 4096), (5120, 2073, 1000), (8192, 1), (7, 8186))

MEANS = ["Byte i of a message of some length is i mod 251."]
HEADER = [
    *MEANS,
    "`hash` is the hex text of a hash: its 32 bytes as four little-endian 64-bit words, each written with the high digit "
    "first. `digestBytes` and every other field whose name ends in Bytes is the hex text of the bytes in order.",
    "Whole numbers below 2^64 are decimal strings; lengths and counts are JSON numbers.",
]
NOTES = {
    "Empty": "The message has no bytes: one block of length 0.",
    "BlockEdge": "The length is a multiple of 64, or differs from one by 1.",
    "ChunkEdge": "The length is a multiple of 1024, or differs from one by 1: the tree over chunks of 1024 bytes changes.",
    "EmptyPiece": "A piece of the message is empty. It changes nothing.",
    "EdgeSeed": "The seed is at an edge of 32 or 64 bits.",
    "DefaultHash": "The hash or the key is the default hash, 32 zero bytes.",
}


def message(length: int) -> bytes:
    """The message of a length."""
    return (bytes(range(251)) * (length // 251 + 1))[:length]


def flags(length: int) -> list[str]:
    """The flags of a message of a length."""
    def beside(unit: int) -> bool:
        return length > 0 and min(length % unit, -length % unit) <= 1 and length >= unit - 1

    return ["Empty"] * (length == 0) + ["BlockEdge"] * beside(64) + ["ChunkEdge"] * beside(1024)


def of_lengths(name: str, key: bytes, lengths: tuple[int, ...]) -> Group:
    """Messages under one key."""
    tests = []
    for length in lengths:
        digest = m.blake(key, message(length))
        tests.append(valid("", *flags(length), length=length, hash=m.to_hex(lists.hash_of(digest)), digestBytes=digest.hex()))
    return Group("MessageHash", f"keyed BLAKE3 of messages under the {name} key", tests,
                 {"keyName": name, "keyBytes": key.hex()})


def in_pieces() -> Group:
    """Messages that are handed in piece by piece."""
    tests = []
    for pieces in PIECES:
        value = m.compute_data_hash(message(sum(pieces)))
        edges = ["EmptyPiece"] * (0 in pieces)
        tests.append(valid("", *edges, pieces=list(pieces), hash=m.to_hex(value)))
    return Group("PieceHash", "the data hash of a message that is handed in by pieces of these lengths, in order", tests)


def keys() -> Group:
    """The two keys of the format."""
    tests = [valid("of the hashes of chunks", name="data", keyBytes=m.DATA_KEY.hex()),
             valid("of the hashes of inner nodes", name="internal", keyBytes=m.INTERNAL_KEY.hex())]
    return Group("Key", "the two keys of the format", tests)


def seeds() -> Group:
    """Hashes of seeds."""
    tests = [valid("", *["EdgeSeed"] * (seed > 255 or seed == 0), seed=str(seed), hash=m.to_hex(m.random_from_seed(seed)))
             for seed in SEEDS]
    return Group("RandomFromSeed", "the first 32 bytes of Xoshiro256++, seeded by SplitMix64", tests)


def hmacs() -> Group:
    """Hashes under hashes."""
    marker = (m.MAX_U64,) * 4
    hashes = [m.DEFAULT_HASH, m.random_from_seed(1), m.random_from_seed(2), marker]
    tests = []
    for value in hashes:
        for key in hashes:
            default = ["DefaultHash"] * (m.DEFAULT_HASH in (value, key))
            tests.append(valid("", *default, hash=m.to_hex(value), key=m.to_hex(key), hmac=m.to_hex(m.hmac(value, key))))
    return Group("Hmac", "keyed BLAKE3 of the bytes of a hash under the bytes of a key", tests)


def file() -> File:
    """hashes.json."""
    groups = [of_lengths("data", m.DATA_KEY, LENGTHS), of_lengths("internal", m.INTERNAL_KEY, (*SHORT, 792)),
              of_lengths("given", GIVEN_KEY, SHORT), in_pieces(), keys(), seeds(), hmacs()]
    return File("hashes", "keyed BLAKE3 with the keys of Xet", HEADER, NOTES, groups)
