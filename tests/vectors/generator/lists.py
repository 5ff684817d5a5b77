"""Lists of chunks, each described by one of four rules, and what the model says of them."""

from __future__ import annotations

import functools
from typing import Any, NamedTuple, Sequence

from .model import m

MARKS = ((False, False), (True, False), (False, True), (True, True))
MAX = 2**64 - 1


class Told(NamedTuple):
    """A list of chunks: the object that describes it in a vector, and its nodes."""

    said: dict[str, Any]
    nodes: tuple[m.Node, ...]


class ToldData(NamedTuple):
    """A list of chunks with their data: the object that describes it in a vector, its nodes, and each chunk's bytes."""

    said: dict[str, Any]
    nodes: tuple[m.Node, ...]
    chunks: tuple[bytes, ...]


def pattern(text: str) -> Told:
    """Node i has the words i + 1, 2(i + 1), 3(i + 1) and 4(i + 1), of which the last is one more where it is no cut."""
    nodes = []
    for i, letter in enumerate(text):
        words = (i + 1, 2 * (i + 1), 3 * (i + 1), 4 * (i + 1) + (0 if letter == "|" else 1))
        nodes.append((words, 7 + 100 * i))
    return Told({"pattern": text}, tuple(nodes))


def drawn(first_seed: int, count: int) -> Told:
    """Node i has the hash of the seed first_seed + i, and the size 100 + 977 i mod 9901."""
    nodes = ((m.random_from_seed((first_seed + i) % 2**64), 100 + 977 * i % 9901) for i in range(count))
    return Told({"drawn": {"firstSeed": str(first_seed), "count": count}}, tuple(nodes))


def seeds(numbers: Sequence[int]) -> Told:
    """For each number k the hash of the seed k with the size 100 k; for 0 the default hash with the size 0."""
    nodes = ((m.random_from_seed(k) if k else m.DEFAULT_HASH, 100 * k) for k in numbers)
    return Told({"seeds": [str(k) for k in numbers]}, tuple(nodes))


def counted(count: int, cut_every: int) -> Told:
    """Node i has the words i, 0, 0, d and the size 1; d is 0 for the last of each `cut_every` nodes, and else 1."""
    nodes = (((i, 0, 0, 0 if cut_every and i % cut_every == cut_every - 1 else 1), 1) for i in range(count))
    return Told({"counted": {"count": count, "cutEvery": cut_every}}, tuple(nodes))


def of_data(*chunks: bytes) -> ToldData:
    """The bytes of each chunk themselves."""
    return ToldData({"chunkBytes": [data.hex() for data in chunks]}, _nodes_of(chunks), chunks)


def numbers(first: int, count: int, lengths: Sequence[int]) -> ToldData:
    """Chunk i is the decimal text of first + i and a space, again and again, cut off at a length; these come round again."""
    chunks = tuple(_repeated(first + i, lengths[i % len(lengths)]) for i in range(count))
    return ToldData({"numbers": {"first": first, "count": count, "lengths": list(lengths)}}, _nodes_of(chunks), chunks)


def _repeated(number: int, length: int) -> bytes:
    return (b"%d " % number * length)[:length]


def _nodes_of(chunks: Sequence[bytes]) -> tuple[m.Node, ...]:
    return tuple((m.compute_data_hash(data), len(data)) for data in chunks)


def of_rule(said: dict[str, Any]) -> Told:
    """The list that an object describes by its rule, one of the first four."""
    if "pattern" in said:
        return pattern(said["pattern"])
    if "seeds" in said:
        return seeds([int(seed) for seed in said["seeds"]])
    if "nodes" in said:
        return given([(hash_of_text(node["hash"]), int(node["size"])) for node in said["nodes"]])
    return drawn(int(said["drawn"]["firstSeed"]), said["drawn"]["count"])


def given(nodes: Sequence[m.Node]) -> Told:
    """The nodes themselves."""
    return Told({"nodes": [{"hash": m.to_hex(h), "size": str(size)} for h, size in nodes]}, tuple(nodes))


def sized(*sizes: int) -> Told:
    """Nodes of given sizes, none of them a natural cut."""
    return given([((i + 1, 0, 0, 1), size) for i, size in enumerate(sizes)])


def numbered(first: int, end: int) -> tuple[m.Node, ...]:
    """N(first) to N(end - 1): the words i, 0, 0 and 0 or 1, with natural cuts where i leaves 3 on division by 4."""
    return tuple(((i, 0, 0, 0 if i % 4 == 3 else 1), 1) for i in range(first, end))


def all_patterns(length: int) -> list[str]:
    """Every pattern of natural cuts of this length; bit i of its number says whether node i is a cut."""
    return ["".join("|" if number >> i & 1 else "." for i in range(length)) for number in range(2**length)]


def by_gaps(gaps: Sequence[int], length: int) -> str:
    """Natural cuts at distances that come round again, cut off at the length."""
    text = ""
    while len(text) < length:
        text += "".join("." * (gap - 1) + "|" for gap in gaps)
    return text[:length]


def by_chance(seed: int, length: int) -> str:
    """A pattern in which a quarter of the nodes are cuts by chance."""
    rng = m.Xoshiro256PlusPlus(seed)
    return "".join("|" if rng.below(4) == 0 else "." for _ in range(length))


def shapes(length: int) -> list[tuple[str, str]]:
    """Names and patterns of lists of one length."""
    found = [("no natural cut", "." * length), ("natural cuts alone", "|" * length),
             ("a natural cut at the first node alone", ("|" + "." * length)[:length]),
             ("a natural cut at the last node alone", ("." * length + "|")[1:])]
    found += [(f"a natural cut every {gap} nodes", by_gaps([gap], length)) for gap in (2, 3, 4, 6, 7, 8, 9, 10)]
    return found + [(f"natural cuts by chance ({i})", by_chance(100 * length + i, length)) for i in range(6)]


@functools.lru_cache(maxsize=None)
def _kept_maker(group: tuple[m.Node, ...]) -> m.Hash:
    return m.blake_maker(group)


def maker(group: tuple[m.Node, ...]) -> m.Hash:
    """The model's hash of a group of nodes, which is kept."""
    return _kept_maker(group)


def hash_of(data: bytes) -> m.Hash:
    """The hash of 32 bytes."""
    value = m.from_bytes(data)
    if value is None:
        raise ValueError(data)
    return value


def hash_of_text(text: str) -> m.Hash:
    """The hash of a hex text."""
    value = m.from_hex(text)
    if value is None:
        raise ValueError(text)
    return value


def data_hash(data: bytes) -> str:
    """The hex text of a data hash."""
    return str(m.to_hex(m.compute_data_hash(data)))


def hex_or_none(value: m.Hash | None) -> str | None:
    """The hex text of a hash, where there is one."""
    return None if value is None else m.to_hex(value)


def subtree_fields(tree: m.Subtree) -> dict[str, Any]:
    """What a vector says of a subtree: its levels, size, final hash, and the data hash of its JSON text."""
    text = m.to_json_text(tree)
    return {
        "levels": [list(counts) for counts in tree.counts()],
        "size": str(tree.total_size()),
        "finalHash": hex_or_none(tree.final_hash()),
        "jsonHash": data_hash(text.encode()),
    }
