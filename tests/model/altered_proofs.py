"""Alterations of range proofs: what a dishonest server may send, for searches and test vectors."""

from __future__ import annotations

import random
from typing import Callable, NamedTuple, Optional, Sequence

import range_proof as r
import xet_model as m
from range_proof import Nodes, RangeProof

# A proof altered by chance, or None where it has nothing to alter.  The node is one that it may bring in.
Change = Callable[[random.Random, RangeProof, m.Node], Optional[RangeProof]]
NodesChange = Callable[[random.Random, Nodes, m.Node], Optional[Nodes]]


class Alteration(NamedTuple):
    name: str
    change: Change
    is_mismatch: bool   # whether no altered proof with a level can be opened with what the honest one shows


# --------------------------------------------------------------------------
# Alterations of one list of nodes
# --------------------------------------------------------------------------

def exchanged(rng: random.Random, nodes: Nodes, other: m.Node) -> Optional[Nodes]:
    if not nodes:
        return None
    at = rng.randrange(len(nodes))
    return nodes[:at] + (other,) + nodes[at + 1:]


def dropped(rng: random.Random, nodes: Nodes, _: m.Node) -> Optional[Nodes]:
    if not nodes:
        return None
    at = rng.randrange(len(nodes))
    return nodes[:at] + nodes[at + 1:]


def added(rng: random.Random, nodes: Nodes, other: m.Node) -> Optional[Nodes]:
    at = rng.randrange(len(nodes) + 1)
    return nodes[:at] + (other,) + nodes[at:]


def moved(rng: random.Random, nodes: Nodes, _: m.Node) -> Optional[Nodes]:
    if not nodes:
        return None
    rest = list(nodes)
    node = rest.pop(rng.randrange(len(rest)))
    rest.insert(rng.randrange(len(rest) + 1), node)
    return tuple(rest)


def larger(rng: random.Random, nodes: Nodes, _: m.Node) -> Optional[Nodes]:
    """One node is a byte larger."""
    if not nodes:
        return None
    at = rng.randrange(len(nodes))
    return nodes[:at] + ((nodes[at][0], nodes[at][1] + 1),) + nodes[at + 1:]


# --------------------------------------------------------------------------
# Alterations of a proof
# --------------------------------------------------------------------------

def of_chunks(change: NodesChange) -> Change:
    def changed(rng: random.Random, proof: RangeProof, other: m.Node) -> Optional[RangeProof]:
        chunks = change(rng, proof.chunks, other)
        return None if chunks is None else proof._replace(chunks=chunks)
    return changed


def with_level(proof: RangeProof, level: int, left: Sequence[m.Node], right: Sequence[m.Node]) -> RangeProof:
    """The proof with other sides at one level."""
    sides = (tuple(left), tuple(right))
    return proof._replace(levels=proof.levels[:level] + (sides,) + proof.levels[level + 1:])


def of_a_side(change: NodesChange) -> Change:
    def changed(rng: random.Random, proof: RangeProof, other: m.Node) -> Optional[RangeProof]:
        if not proof.levels:
            return None
        level, is_left = rng.randrange(len(proof.levels)), rng.random() < 0.5
        left, right = proof.levels[level]
        side = change(rng, left if is_left else right, other)
        if side is None:
            return None
        return with_level(proof, level, side, right) if is_left else with_level(proof, level, left, side)
    return changed


def level_taken_out(rng: random.Random, proof: RangeProof, _: m.Node) -> Optional[RangeProof]:
    if not proof.levels:
        return None
    at = rng.randrange(len(proof.levels))
    return proof._replace(levels=proof.levels[:at] + proof.levels[at + 1:])


def empty_level_put_in(rng: random.Random, proof: RangeProof, _: m.Node) -> Optional[RangeProof]:
    at = rng.randrange(len(proof.levels) + 1)
    return proof._replace(levels=proof.levels[:at] + (((), ()),) + proof.levels[at:])


def put_across(rng: random.Random, proof: RangeProof, _: m.Node) -> Optional[RangeProof]:
    """The last node of a left side goes to the right side of its level.  That is honest where the nodes are equal."""
    levels = [level for level, (left, _) in enumerate(proof.levels) if left]
    if not levels:
        return None
    level = rng.choice(levels)
    left, right = proof.levels[level]
    return with_level(proof, level, left[:-1], left[-1:] + right)


def byte_moved(rng: random.Random, proof: RangeProof, _: m.Node) -> Optional[RangeProof]:
    """A byte less in the first chunk, and one more in the node before it, so that all sizes add up to the same."""
    if not proof.levels or not proof.levels[0][0] or proof.chunks[0][1] == 0:
        return None
    (left, right), ((first, size), *rest) = proof.levels[0], proof.chunks
    before, size_before = left[-1]
    changed = with_level(proof, 0, left[:-1] + ((before, size_before + 1),), right)
    return changed._replace(chunks=((first, size - 1), *rest))


def widened(_: random.Random, proof: RangeProof, __: m.Node) -> Optional[RangeProof]:
    """The left nodes of the chunks' level belong to the range: the honest proof of a greater range."""
    if not proof.levels or not proof.levels[0][0]:
        return None
    left, right = proof.levels[0]
    return with_level(proof, 0, (), right)._replace(chunks=left + proof.chunks)


def narrowed(_: random.Random, proof: RangeProof, __: m.Node) -> Optional[RangeProof]:
    """The first chunk is a left node: it is shown, and not in the range."""
    if not proof.levels or len(proof.chunks) < 2:
        return None
    left, right = proof.levels[0]
    return with_level(proof, 0, left + proof.chunks[:1], right)._replace(chunks=proof.chunks[1:])


def parents_as_chunks(_: random.Random, proof: RangeProof, __: m.Node) -> Optional[RangeProof]:
    """The parents of the groups pass as the chunks, and the lowest level is gone."""
    if not proof.levels:
        return None
    left, right = proof.levels[0]
    return RangeProof(tuple(m.parents(left + proof.chunks + right)), proof.levels[1:])


ALTERATIONS = (
    Alteration("a chunk exchanged", of_chunks(exchanged), True),
    Alteration("a chunk dropped", of_chunks(dropped), True),
    Alteration("a chunk added", of_chunks(added), True),
    Alteration("a chunk moved", of_chunks(moved), True),
    Alteration("a chunk a byte larger", of_chunks(larger), True),
    Alteration("a side's node exchanged", of_a_side(exchanged), True),
    Alteration("a side's node dropped", of_a_side(dropped), True),
    Alteration("a side's node added", of_a_side(added), True),
    Alteration("a side's node moved", of_a_side(moved), True),
    Alteration("a side's node a byte larger", of_a_side(larger), True),
    Alteration("a level taken out", level_taken_out, True),
    Alteration("an empty level put in", empty_level_put_in, True),
    Alteration("a left node put to the right", put_across, False),
    Alteration("a byte moved to the node before", byte_moved, True),
    Alteration("left nodes put into the range", widened, False),
    Alteration("a chunk put to the left", narrowed, False),
    Alteration("parents as chunks", parents_as_chunks, False),
)


def altered(rng: random.Random, alteration: Alteration, proof: RangeProof, other: m.Node) -> Optional[RangeProof]:
    """Another proof that keeps the rules 5 to 8, or None."""
    found = alteration.change(rng, proof, other)
    if found is None or found == proof or r.broken_rule(found) is not None:
        return None
    return found
