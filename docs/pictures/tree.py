"""The pictures of a list's groups: two ranges that are merged, and the path from a chunk to the root.

The model says where groups end, and the package what subtrees keep, how many groups a merge hashes, and what a proof has. A picture
isn't drawn if the two disagree.
"""

from __future__ import annotations

import sys
from typing import Callable, Iterator, NamedTuple, Sequence

from svg import box, path, picture, text

import range_proof
import xet_model as model
import yurewha

#: 28 random hashes whose groups show what a merge does: on each side of the place where the ranges meet some groups are certain.
SEEDS = range(1459, 1487)
MEETING = 14  # the first chunk of the second range
READ = 10  # the chunk whose path is drawn

LEFT, TOP, NODE, STEP, GAP, HIGH, ROW = 92, 52, 17, 21.5, 9, 20, 62
CUT = ("dot", "natural cut: a group ends at its first one from the third node on, but after nine nodes at the latest")
#: A node of a tree: its level from the chunks up, and its number there.
Place = tuple[int, int]


class Tree(NamedTuple):
    """The levels of a list from the chunks up, and where the groups of each level end."""

    levels: Sequence[Sequence[model.Node]]
    bounds: Sequence[Sequence[int]]

    def group(self, level: int, number: int) -> range:
        """The numbers of the nodes of a group."""
        return range(self.bounds[level][number], self.bounds[level][number + 1])


def same(what: str, of_model: object, of_package: object) -> None:
    """Ends the program if the model and the package disagree."""
    if of_model != of_package:
        sys.exit(f"docs/pictures/draw: {what}: {of_model} by the model, and {of_package} by the package")


def known(place: int | None) -> int:
    """A stable point, which both ranges of the list have."""
    assert place is not None
    return place


def list_and_tree() -> tuple[list[tuple[yurewha.Hash, int]], Tree]:
    """The list for the package, and its tree by the model."""
    nodes = [(model.random_from_seed(seed), 65536) for seed in SEEDS]
    levels = range_proof.levels_of(nodes)
    chunks = [(yurewha.Hash.random_from_seed(seed), 65536) for seed in SEEDS]
    same("the root", model.to_hex(levels[-1][0][0]), yurewha.xorb_hash(chunks).hex())
    return chunks, Tree(levels, [model.group_boundaries(level) for level in levels[:-1]])


def places(tree: Tree) -> list[list[float]]:
    """The middle of each node from left to right: chunks with a gap after each group, and parents over their groups."""
    rows, x = [[0.0] * len(tree.levels[0])], float(LEFT)
    for number in range(len(tree.bounds[0]) - 1):
        for node in tree.group(0, number):
            rows[0][node] = x + NODE / 2
            x += STEP
        x += GAP
    for level, bounds in enumerate(tree.bounds):
        groups = (tree.group(level, number) for number in range(len(bounds) - 1))
        rows.append([(rows[level][group[0]] + rows[level][group[-1]]) / 2 for group in groups])
    return rows


def parts_of(tree: Tree, top: int, node_kind: Callable[[Place], str], group_kind: Callable[[Place], str]) -> Iterator[str]:
    """The tree from a height on. A group has the place of its parent. A dot marks a natural cut."""
    rows, last = places(tree), len(tree.levels) - 1
    for level, row in enumerate(rows):
        y = top + (last - level) * ROW
        name = "root" if level == last else "chunks" if level == 0 else f"level {level}"
        yield text(20, y + 15, name, "quiet")
        if level == last:
            yield text(row[0] + NODE, y + 14, "keyed BLAKE3 of the root is the file hash", "quiet")
        for number, x in enumerate(row):
            if level:
                children = [rows[level - 1][child] for child in tree.group(level - 1, number)]
                first, end, kind = children[0] - NODE / 2 - 3, children[-1] + NODE / 2 + 3, group_kind((level, number))
                yield path(f"{kind}-line", (first, y + ROW - 4), (x, y + HIGH), (end, y + ROW - 4))
                yield box(first, y + ROW - 4, end - first, HIGH + 8, f"{kind}-line", 5)
            yield box(x - NODE / 2, y, NODE, HIGH, node_kind((level, number)))
            if level < last and model.is_cut(tree.levels[level][number]):
                yield f'<circle cx="{x:g}" cy="{y + HIGH / 2:g}" r="3" class="dot"/>'


def legend(top: int, entries: Sequence[tuple[str, str]]) -> Iterator[str]:
    """What boxes are, one below the other; the kind `dot` stands for a node that is a natural cut."""
    for number, (kind, words) in enumerate(entries):
        y = top + 24 * number
        yield box(20, y, NODE, HIGH - 4, "grey" if kind == "dot" else kind)
        if kind == "dot":
            yield f'<circle cx="{20 + NODE / 2:g}" cy="{y + 8}" r="3" class="dot"/>'
        yield text(48, y + 13, words)


def under_a_range(row: Sequence[float], y: float, kind: str, name: str, kept: int) -> Iterator[str]:
    """A bracket under the chunks of a range, with what is kept of them."""
    begin, end = row[0] - NODE / 2, row[-1] + NODE / 2
    yield path(f"{kind}-line", (begin, y), (begin, y + 6), (end, y + 6), (end, y))
    yield text((begin + end) / 2, y + 24, f"{name} range: {len(row)} chunks, kept as {kept} nodes", "bold", "middle")


def counts_of_merge(chunks: Sequence[tuple[yurewha.Hash, int]], tree: Tree, groups: range) -> tuple[int, int, int]:
    """How many nodes each range keeps, and how many groups a merge hashes, if these groups of chunks aren't certain before."""
    first, end = tree.bounds[0][groups.start], tree.bounds[0][groups.stop]
    left, right = yurewha.Subtree.from_chunks(True, chunks[:MEETING], False), yurewha.Subtree.from_chunks(False, chunks[MEETING:], True)
    kept = (MEETING - first + groups.start, end - MEETING + len(tree.levels[1]) - groups.stop)
    hashed = len(groups) + sum(map(len, tree.levels[2:]))
    same("the nodes that ranges keep", kept, (left.num_nodes, right.num_nodes))
    same("the groups that the merge hashes", hashed, left.merge_counted(right))
    return *kept, hashed


def merge() -> str:
    """Two ranges, and the groups that a merge of them hashes."""
    chunks, tree = list_and_tree()
    first, end = known(yurewha.find_stable_end(chunks[:MEETING])), MEETING + known(yurewha.find_stable_start(chunks[MEETING:]))
    groups = range(tree.bounds[0].index(first), tree.bounds[0].index(end))
    kept_left, kept_right, hashed = counts_of_merge(chunks, tree, groups)

    def group_kind(parent: Place) -> str:
        level, number = parent
        return "orange" if level > 1 or number in groups else "blue" if number < groups.start else "green"

    def node_kind(place: Place) -> str:
        level, number = place
        if level:
            return group_kind(place)
        return ("blue" if number < MEETING else "green") + ("" if first <= number < end else "-line")

    under = TOP + (len(tree.levels) - 1) * ROW + HIGH + 14
    row = places(tree)[0]
    title = "Two ranges are merged, and only the groups where they meet are hashed"
    return picture(title, f"A tree of {len(chunks)} chunks. A merge of two ranges hashes {hashed} of its groups.", under + 152, [
        *parts_of(tree, TOP, node_kind, group_kind),
        *under_a_range(row[:MEETING], under, "blue", "left", kept_left),
        *under_a_range(row[MEETING:], under, "green", "right", kept_right),
        *legend(under + 48, [
            ("blue", "filled: a node that the left range keeps (blue) or that the right range keeps (green)"),
            ("blue-line", "empty: a chunk that no range keeps, because its group was hashed before, and the parent is kept"),
            ("orange", f"hashed by the merge: {hashed} groups, which are those where the ranges meet and those above them"),
            CUT,
        ]),
    ])


def path_to_the_root() -> str:
    """The path from a chunk to the root, and the nodes of a proof next to it."""
    chunks, tree = list_and_tree()
    proof = yurewha.HashTree(chunks).proof(READ, READ + 1)
    sides: set[Place] = set()
    on_path, at, counts = {(0, READ)}, READ, []
    for level, bounds in enumerate(tree.bounds):
        number = max(i for i, bound in enumerate(bounds) if bound <= at)
        group = tree.group(level, number)
        sides |= {(level, node) for node in group if node != at}
        counts.append((at - group[0], group[-1] - at))
        at = number
        on_path.add((level + 1, number))
    same("the sides of the proof", counts, list(proof.levels))

    def node_kind(place: Place) -> str:
        return "orange" if place in on_path else "blue" if place in sides else "grey"

    nodes = 1 + len(sides)
    under = TOP + (len(tree.levels) - 1) * ROW + HIGH + 16
    title = f"The path from a chunk to the root of {len(chunks)} chunks"
    description = f"A range proof of one chunk has {nodes} nodes: the chunk's, and the other nodes of each group on the way up."
    return picture(title, description, under + 108, [
        *parts_of(tree, TOP, node_kind, lambda parent: "orange" if parent in on_path else "grey"),
        *legend(under + 4, [
            ("orange", "the chunk that is read, and the parents that the reader computes, up to the root"),
            ("blue", f"sides: the other nodes of each group on the way up. With the chunk's node, the proof has {nodes} nodes"),
            ("grey", "nodes that the reader doesn't need"),
            CUT,
        ]),
    ])
