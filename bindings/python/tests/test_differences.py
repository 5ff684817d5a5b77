"""In which chunks two files differ: `HashTree.diff` beside plain Python over their lists."""

import pickle
import random

import pytest
from drawn import MAX, chunks, drawn_list, pairs

import yurewha as y
from yurewha._interrupts import MANY_NODES

DATA = (b"a chunk", b"another", b"and a third")
CHUNKS = [(y.data_hash(data), len(data)) for data in DATA]


def size_of(nodes):
    return sum(size for _, size in nodes)


def differing(nodes, others):
    """The chunks and the bytes by which two lists differ, or None."""
    first, end, other_end = 0, len(nodes), len(others)
    while first < min(end, other_end) and nodes[first] == others[first]:
        first += 1
    while first < min(end, other_end) and nodes[end - 1] == others[other_end - 1]:
        end, other_end = end - 1, other_end - 1
    if first == end == other_end:
        return None
    return first, end, other_end, size_of(nodes[:first]), size_of(nodes[:end]), size_of(others[:other_end])


def changed(rng, nodes, few):
    """The list with some adjacent nodes exchanged for others."""
    start = rng.randint(0, len(nodes))
    return nodes[:start] + rng.choices(few, k=rng.randrange(4)) + nodes[rng.randint(start, len(nodes)):]


def test_drawn_lists():
    """Of few distinct chunks, so that what is the same at the front may be the same at the end, too."""
    rng, equal = random.Random(91), 0
    for _ in range(3000):
        few = drawn_list(rng, rng.choice((1, 2, 3, 9)))
        few += [(few[0][0], few[0][1] + 1)]
        nodes = rng.choices(few, k=rng.choice((0, 1, 2, 3, 7, 40)))
        others = rng.choice((changed(rng, nodes, few), rng.choices(few, k=rng.randrange(9)), nodes[::-1]))
        tree, other = y.HashTree(chunks(rng, nodes)), y.HashTree(chunks(rng, others))
        assert tree.diff(other) == differing(nodes, others) and other.diff(tree) == differing(others, nodes)
        equal += tree.diff(other) is None
        assert tree.diff(tree) is None and (tree.diff(other) is None) == (tree == other)
    assert 100 < equal < 2000


@pytest.mark.parametrize("place", [0, 1, 254, 255, 256, 600, 999])
def test_one_chunk_of_many(place):
    nodes = pairs(drawn_list(random.Random(92), 1000))
    for others in ([], [(nodes[place][0], nodes[place][1] + 1)], [nodes[place], (y.Hash(), 7)], 3 * [(y.Hash(), 0)]):
        others = nodes[:place] + others + nodes[place + 1:]
        assert y.HashTree(nodes).diff(y.HashTree(others)) == differing(nodes, others)


def test_more_chunks_than_a_handler_waits_for():
    tree = y.HashTree(bytes(40 * MANY_NODES))
    other = y.HashTree(bytes(40 * MANY_NODES) + bytes(32) + b"\7" + bytes(7))
    assert tree.diff(tree) is None and tree.diff(y.HashTree(tree.chunks)) is None
    assert tree.diff(other) == (MANY_NODES, MANY_NODES, MANY_NODES + 1, 0, 0, 7)
    assert other.diff(tree) == (MANY_NODES, MANY_NODES + 1, MANY_NODES, 0, 7, 0)


EXAMPLES = [
    (CHUNKS, CHUNKS, None), ([], [], None),
    (CHUNKS, [], (0, 3, 0, 0, 25, 0)), ([], CHUNKS, (0, 0, 3, 0, 0, 25)),
    (CHUNKS, CHUNKS[:2], (2, 3, 2, 14, 25, 14)), (CHUNKS[:2], CHUNKS, (2, 2, 3, 14, 14, 25)),
    (CHUNKS, CHUNKS[1:], (0, 1, 0, 0, 7, 0)), (CHUNKS, [CHUNKS[0], CHUNKS[2]], (1, 2, 1, 7, 14, 7)),
    (CHUNKS, [CHUNKS[0], (y.Hash(), 3), CHUNKS[2]], (1, 2, 2, 7, 14, 10)), (CHUNKS, CHUNKS[::-1], (0, 3, 3, 0, 25, 25)),
    (2 * CHUNKS[:1], CHUNKS[:1], (1, 2, 1, 7, 14, 7)), (CHUNKS, [CHUNKS[0], (CHUNKS[1][0], 8), CHUNKS[2]], (1, 2, 2, 7, 14, 15)),
    ([(y.Hash(), 0)], [], (0, 1, 0, 0, 0, 0)), ([(y.Hash(), MAX)], [(y.Hash(), MAX - 1)], (0, 1, 1, 0, MAX, MAX - 1)),
]


@pytest.mark.parametrize("nodes, others, expected", EXAMPLES)
def test_examples(nodes, others, expected):
    difference = y.HashTree(nodes).diff(y.HashTree(others))
    assert difference == expected and differing(nodes, others) == expected
    if expected is not None:
        assert type(difference) is y.Difference and pickle.loads(pickle.dumps(difference)) == difference
        first, end, other_end, start, stop, other_stop = difference
        assert difference == y.Difference(first=first, end=end, other_end=other_end, start=start, stop=stop, other_stop=other_stop)


def test_bytes_outside_of_a_difference_are_the_same():
    rng = random.Random(93)
    for _ in range(200):
        parts = [rng.choices(DATA, k=rng.randrange(6)) for _ in range(2)]
        one, other = (b"".join(part) for part in parts)
        trees = [y.HashTree([(y.data_hash(data), len(data)) for data in part]) for part in parts]
        difference = trees[0].diff(trees[1])
        if difference is None:
            assert one == other
        else:
            start, stop, other_stop = difference[3:]
            assert one[:start] == other[:start] and one[stop:] == other[other_stop:]
            assert start <= stop <= len(one) and start <= other_stop <= len(other)


@pytest.mark.parametrize("other", [None, CHUNKS, y.Chunks(CHUNKS), b"", 7])
def test_what_is_no_hash_tree(other):
    with pytest.raises(TypeError, match=f"^a HashTree must be compared with a HashTree, got {type(other).__name__}$"):
        y.HashTree(CHUNKS).diff(other)
