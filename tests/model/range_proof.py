"""Model of range proofs: parts of a file that are checked against its hash.

Whoever reads some adjacent chunks of a file can't check them against the file
hash without the hashes of all other chunks.  A proof has the few nodes that
are needed instead: the other nodes of each group on the way up to the root.

Vocabulary, in addition to that of xet_model.py

* the levels of a list of nodes are the list, the parents of its groups, the
  parents of their groups, and so on, down to a list of at most one node;
* the range is the chunks that a proof is about;
* the sides of a level are its nodes left and right of those above the range,
  in the groups that these lie in.

Clear and slow on purpose: every function follows a written definition, and
looks at whole lists.
"""

from __future__ import annotations

import itertools
from typing import NamedTuple, Optional, Sequence

import xet_model as m

MOST_LEVELS = 64
MOST_NODES_OF_A_SIDE = 8

Nodes = tuple[m.Node, ...]
Sides = tuple[Nodes, Nodes]


class RangeProof(NamedTuple):
    """The nodes of the range, and from the chunks up the sides (left, right) of each level."""
    chunks: Nodes
    levels: tuple[Sides, ...]

    def counts(self) -> list[tuple[int, int]]:
        return [(len(left), len(right)) for left, right in self.levels]

    def nodes(self) -> Nodes:
        """The flat list: the left nodes by rising level, the chunks, the right nodes by falling level."""
        lefts = tuple(node for left, _ in self.levels for node in left)
        rights = tuple(node for _, right in reversed(self.levels) for node in right)
        return lefts + self.chunks + rights


class OpenedRange(NamedTuple):
    """A proof that was opened.  Its sizes are the proof's own word until one chunk has been checked."""
    offset: int
    file_size: int
    chunks: Nodes


# --------------------------------------------------------------------------
# Proofs of lists
# --------------------------------------------------------------------------

def levels_of(nodes: Sequence[m.Node], maker: m.Maker = m.blake_maker) -> list[Nodes]:
    levels = [tuple(nodes)]
    while len(levels[-1]) > 1:
        levels.append(tuple(m.parents(levels[-1], maker)))
    return levels


def prove(nodes: Sequence[m.Node], first: int, end: int, maker: m.Maker = m.blake_maker) -> RangeProof:
    """The proof of the chunks from number `first` up to, but without, number `end`; refuses 1 before 2."""
    if not 0 <= first < end <= len(nodes):
        raise m.Refused(m.INVALID_ARGUMENTS)
    if not m.fits(nodes):
        raise m.Refused(m.SIZE_OVERFLOW)
    chunks, sides = tuple(nodes[first:end]), []
    for level in levels_of(nodes, maker)[:-1]:
        bounds = m.group_boundaries(level)
        start = max(bound for bound in bounds if bound <= first)
        stop = min(bound for bound in bounds if bound >= end)
        sides.append((level[start:first], level[end:stop]))
        first, end = bounds.index(start), bounds.index(stop)
    return RangeProof(chunks, tuple(sides))


def bytes_of(nodes: Sequence[m.Node], first: int, end: int) -> Optional[tuple[int, int]]:
    """Where in the file these chunks begin and end; None unless there is one, and all are there."""
    if not 0 <= first < end <= len(nodes):
        return None
    return m.total_size(nodes[:first]), m.total_size(nodes[:end])


def chunks_at(nodes: Sequence[m.Node], start: int, stop: int) -> Optional[tuple[int, int]]:
    """The least range of chunks with the bytes from `start` up to `stop` or the end of the file.

    None unless these are some bytes.
    """
    stop = min(stop, m.total_size(nodes))
    if not 0 <= start < stop:
        return None
    places = list(itertools.accumulate(size for _, size in nodes))
    first = min(number for number, place in enumerate(places) if start < place)
    last = min(number for number, place in enumerate(places) if stop <= place)
    return first, last + 1


# --------------------------------------------------------------------------
# Two files
# --------------------------------------------------------------------------

class Difference(NamedTuple):
    """A file has its chunks from `first` up to `end` where the other has its own up to `other_end`; the same places in bytes."""
    first: int
    end: int
    other_end: int
    start: int
    stop: int
    other_stop: int


def common_prefix(nodes: Sequence[m.Node], others: Sequence[m.Node]) -> int:
    """How many chunks two files have in common at the front."""
    counts = range(min(len(nodes), len(others)) + 1)
    return max(count for count in counts if nodes[:count] == others[:count])


def common_suffix(nodes: Sequence[m.Node], others: Sequence[m.Node], most: int) -> int:
    """How many chunks two files have in common at the end, but at most `most`."""
    counts = range(min(len(nodes), len(others), most) + 1)
    return max(count for count in counts if nodes[len(nodes) - count:] == others[len(others) - count:])


def difference(nodes: Sequence[m.Node], others: Sequence[m.Node]) -> Optional[Difference]:
    """All but what two files have in common at the front, and what the rest has in common at the end; None if they are the same."""
    if nodes == others:
        return None
    first = common_prefix(nodes, others)
    after = common_suffix(nodes, others, min(len(nodes), len(others)) - first)
    end, other_end = len(nodes) - after, len(others) - after
    return Difference(first, end, other_end, m.total_size(nodes[:first]), m.total_size(nodes[:end]), m.total_size(others[:other_end]))


# --------------------------------------------------------------------------
# What a proof shows, whoever made it; reading it has checked the rules 5 to 8
# --------------------------------------------------------------------------

def broken_rule(proof: RangeProof) -> Optional[int]:
    """The least rule of 5 to 8 that a value of chunks and levels breaks."""
    if not proof.chunks:
        return 5
    if len(proof.levels) > MOST_LEVELS:
        return 6
    if any(len(side) > MOST_NODES_OF_A_SIDE for sides in proof.levels for side in sides):
        return 7
    if not m.fits(proof.nodes()):
        return 8
    return None


def top(proof: RangeProof, maker: m.Maker = m.blake_maker) -> Optional[m.Hash]:
    """The hash of the one node that is left above all levels; None if several are left."""
    carried = proof.chunks
    for left, right in proof.levels:
        carried = tuple(m.parents(left + carried + right, maker))
    return carried[0][0] if len(carried) == 1 else None


def opened(proof: RangeProof) -> OpenedRange:
    offset = sum(m.total_size(left) for left, _ in proof.levels)
    return OpenedRange(offset, m.total_size(proof.nodes()), proof.chunks)


def open_root(proof: RangeProof, root: m.Hash, maker: m.Maker = m.blake_maker) -> Optional[OpenedRange]:
    """The opened range if the top has this hash, and it isn't the default hash; else None, a mismatch."""
    assert broken_rule(proof) is None
    return opened(proof) if root != m.DEFAULT_HASH and top(proof, maker) == root else None


def open_file(proof: RangeProof, file_hash: m.Hash, salt: bytes = bytes(32),
              maker: m.Maker = m.blake_maker) -> Optional[OpenedRange]:
    """The opened range if this is the top's hash under the salt, and not the default hash; else None, a mismatch."""
    assert broken_rule(proof) is None
    root = top(proof, maker)
    if root is None or file_hash == m.DEFAULT_HASH or m.hmac(root, m.from_bytes(salt)) != file_hash:
        return None
    return opened(proof)


def begins(known: OpenedRange, number: int) -> Optional[int]:
    """Where in the file chunk `number` of the range begins, by the proof's own word."""
    if not 0 <= number < len(known.chunks):
        return None
    return known.offset + m.total_size(known.chunks[:number])


def ends(known: OpenedRange, number: int) -> Optional[int]:
    """Where in the file chunk `number` of the range ends, by the proof's own word."""
    if not 0 <= number < len(known.chunks):
        return None
    return known.offset + m.total_size(known.chunks[:number + 1])


def check(known: OpenedRange, number: int, data: bytes) -> Optional[int]:
    """Where in the file the data begins; None unless chunk `number` of the range has its hash and its length."""
    if not 0 <= number < len(known.chunks) or known.chunks[number] != (m.compute_data_hash(data), len(data)):
        return None
    return begins(known, number)


def read(known: OpenedRange, start: int, stop: int, data: bytes) -> Optional[bytes]:
    """The file's bytes from `start` up to `stop`, out of the data of all chunks of the range in order.

    None unless every chunk checks, nothing is left over, start <= stop, and the range holds the bytes.
    """
    offset, at = known.offset, 0
    for number, (_, size) in enumerate(known.chunks):
        if check(known, number, data[at:at + size]) is None:
            return None
        at += size
    if at != len(data) or not offset <= start <= stop <= offset + at:
        return None
    return data[start - offset:stop - offset]


# --------------------------------------------------------------------------
# The JSON form, the flat form and the binary form
# --------------------------------------------------------------------------

def to_json(proof: RangeProof) -> dict:
    def said(nodes: Nodes) -> list[dict]:
        return [{"hash": m.to_hex(h), "size": size} for h, size in nodes]
    return {"chunks": said(proof.chunks),
            "levels": [{"left": said(left), "right": said(right)} for left, right in proof.levels]}


def to_json_text(proof: RangeProof) -> str:
    return m.compact(to_json(proof))


def has_arrays(value, *names: str) -> bool:
    return all(isinstance(value.get(name), list) for name in names)


def json_rule_1(value) -> bool:
    return isinstance(value, dict)


def json_rule_2(value) -> bool:
    return has_arrays(value, "chunks", "levels")


def json_rule_3(value) -> bool:
    return all(isinstance(level, dict) and has_arrays(level, "left", "right") for level in value["levels"])


def json_rule_4(value) -> bool:
    sides = [level[side] for level in value["levels"] for side in ("left", "right")]
    return all(m.is_json_node(node) for nodes in [value["chunks"], *sides] for node in nodes)


def from_json(value) -> RangeProof:
    """The proof, or `InvalidJson` with the least broken rule."""
    for rule, holds in enumerate((json_rule_1, json_rule_2, json_rule_3, json_rule_4), 1):
        if not holds(value):
            raise m.InvalidJson(rule)

    def read_nodes(nodes: list[dict]) -> Nodes:
        return tuple((m.from_hex(node["hash"]), node["size"]) for node in nodes)
    levels = tuple((read_nodes(level["left"]), read_nodes(level["right"])) for level in value["levels"])
    return kept(RangeProof(read_nodes(value["chunks"]), levels))


def from_json_text(text: str) -> RangeProof:
    """The proof, `InvalidJson`, or `NotJson`."""
    return from_json(m.parse_json_text(text))


def kept(proof: RangeProof) -> RangeProof:
    """The proof itself, or `InvalidJson` with the least rule of 5 to 8 that it breaks."""
    rule = broken_rule(proof)
    if rule is not None:
        raise m.InvalidJson(rule)
    return proof


def to_flat(proof: RangeProof) -> tuple[list[tuple[int, int]], Nodes]:
    """How many left and right nodes each level has, from the chunks up, and the flat list."""
    return proof.counts(), proof.nodes()


def from_flat(counts: Sequence[tuple[int, int]], nodes: Sequence[m.Node]) -> RangeProof:
    """The proof, or `InvalidJson` with the least broken rule of 5 to 8.

    The nodes that no level counts are the chunks, so counts of as many nodes as there are, or more, break rule 5.
    """
    lefts, rights = (sum(count[side] for count in counts) for side in (0, 1))
    if lefts + rights >= len(nodes):
        raise m.InvalidJson(5)
    levels, left_at, right_end = [], 0, len(nodes)
    for left, right in counts:
        levels.append((tuple(nodes[left_at:left_at + left]), tuple(nodes[right_end - right:right_end])))
        left_at, right_end = left_at + left, right_end - right
    return kept(RangeProof(tuple(nodes[left_at:right_end]), tuple(levels)))


def to_bytes(proof: RangeProof) -> bytes:
    """The binary form: a byte with the number of levels, two for the counts of each level, and 40 for each node of the flat list."""
    counts, nodes = to_flat(proof)
    said = bytes(count for pair in counts for count in pair)
    return bytes([len(counts)]) + said + b"".join(m.to_bytes(h) + size.to_bytes(8, "little") for h, size in nodes)


def from_bytes(data: bytes) -> RangeProof:
    """The proof, or `InvalidJson` with the least broken rule: 1, 3 or 4 of the bytes, or 5 to 8."""
    if not data:
        raise m.InvalidJson(1)
    end = 1 + 2 * data[0]
    if len(data) < end:
        raise m.InvalidJson(3)
    if (len(data) - end) % 40 != 0:
        raise m.InvalidJson(4)
    counts = [(data[at], data[at + 1]) for at in range(1, end, 2)]
    nodes = [data[at:at + 40] for at in range(end, len(data), 40)]
    return from_flat(counts, [(m.from_bytes(node[:32]), int.from_bytes(node[32:], "little")) for node in nodes])
