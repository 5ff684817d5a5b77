"""The definition of keyed BLAKE3 on words of words.py, in the order and by the names of crates/keyed_blake3/specs/Blake3.antt.

With numbers instead of symbols, it computes the hash itself: test_definition.py compares it with published vectors.
"""

from __future__ import annotations

from typing import List, Sequence

from words import Value, Word, add, from_bytes, high, low, ror, seal, xor

# ---- The compression function (2.2)

INITIALIZATION_VECTOR = (0x6A09E667, 0xBB67AE85, 0x3C6EF372, 0xA54FF53A)
CHUNK_START, CHUNK_END, PARENT, ROOT, KEYED_HASH = 1, 2, 4, 8, 16
PERMUTATION = (2, 6, 3, 10, 7, 0, 4, 13, 1, 11, 12, 5, 9, 14, 15, 8)


def half_mix(v: List[Word], a: int, b: int, c: int, d: int, x: Word, r: int, s: int) -> None:
    """Half of G. Exclusive ors are sealed when they are rotated, since compilers rotate the parts of one before they join them."""
    v[a] = add(v[a], v[b], x)
    v[d] = seal(ror(xor(v[d], v[a]), r))
    v[c] = add(v[c], v[d])
    v[b] = seal(ror(xor(v[b], v[c]), s))


def mix(v: List[Word], a: int, b: int, c: int, d: int, x: Word, y: Word) -> None:
    half_mix(v, a, b, c, d, x, 16, 12)
    half_mix(v, a, b, c, d, y, 8, 7)


def round_of(v: List[Word], m: Sequence[Word]) -> None:
    mix(v, 0, 4, 8, 12, m[0], m[1])
    mix(v, 1, 5, 9, 13, m[2], m[3])
    mix(v, 2, 6, 10, 14, m[4], m[5])
    mix(v, 3, 7, 11, 15, m[6], m[7])
    mix(v, 0, 5, 10, 15, m[8], m[9])
    mix(v, 1, 6, 11, 12, m[10], m[11])
    mix(v, 2, 7, 8, 13, m[12], m[13])
    mix(v, 3, 4, 9, 14, m[14], m[15])


def compress(h: Sequence[Word], m: Sequence[Word], counter: Value, block_len: Word, flags: Word) -> List[Word]:
    v = [*h, *INITIALIZATION_VECTOR, low(counter), high(counter), block_len, flags]
    for _ in range(7):
        round_of(v, m)
        m = [m[k] for k in PERMUTATION]
    return [seal(xor(v[i], v[i + 8])) for i in range(8)]


# ---- Chunks (2.4)


def words_at(n: int, message: Sequence[Word]) -> List[Word]:
    """The first n little-endian words of some bytes; past the end of the bytes there are zeros."""
    padded = [*message, *[0] * (4 * n)]
    return [from_bytes(padded[4 * k:4 * k + 4]) for k in range(n)]


def chunk_value(key: Sequence[Word], i: int, chunk: Sequence[Word], flags: int) -> Sequence[Word]:
    last = max(len(chunk) - 1, 0) // 64
    value = key
    for n in range(last + 1):
        block = chunk[64 * n:64 * n + 64]
        more = (CHUNK_START if n == 0 else 0) + (CHUNK_END + flags if n == last else 0)
        value = compress(value, words_at(16, block), i, len(block), KEYED_HASH + more)
    return value


# ---- The tree (2.1, 2.5)


def parent_value(key: Sequence[Word], left: Sequence[Word], right: Sequence[Word], flags: int) -> Sequence[Word]:
    return compress(key, [*left, *right], 0, 64, KEYED_HASH + PARENT + flags)


def subtree_value(key: Sequence[Word], i: int, m: Sequence[Word], flags: int) -> Sequence[Word]:
    """The left part of more than one chunk is the greatest power of two of chunks that leaves at least one byte on the right."""
    if len(m) <= 1024:
        return chunk_value(key, i, m, flags)
    chunks = 1
    while 1024 * 2 * chunks < len(m):
        chunks *= 2
    front, back = m[:1024 * chunks], m[1024 * chunks:]
    return parent_value(key, subtree_value(key, i, front, 0), subtree_value(key, i + chunks, back, 0), flags)


# ---- Keyed hashing (2.3, 2.6)


def keyed_hash(key: Sequence[Word], message: Sequence[Word]) -> Sequence[Word]:
    """The eight words of the hash of some bytes, under a key of 32 bytes."""
    return subtree_value(words_at(8, key), 0, message, ROOT)
