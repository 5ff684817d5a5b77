"""Drawn hashes, lists, ranges and bracketings, in the model's form, and ways between it and the package."""

import functools
import struct

import xet_model as m

import yurewha as y

MAX = 2**64 - 1


@functools.lru_cache(maxsize=1 << 18)
def maker(group):
    """The model's parent hash of a group, with the package's own hash of its text, which test_messages compares."""
    return m.from_bytes(y.internal_node_hash(m.group_text(group)).bytes)


def ours(hash_):
    return y.Hash(m.to_bytes(hash_))


def model_hash(hash_):
    return m.from_bytes(hash_.bytes)


def pairs(nodes):
    return [(ours(hash_), size) for hash_, size in nodes]


def packed(nodes):
    return b"".join(struct.pack("<5Q", *hash_, size) for hash_, size in nodes)


def chunks(rng, nodes):
    """The nodes as one of the forms that calls take."""
    form = rng.randrange(6)
    if form == 0:
        return pairs(nodes)
    if form == 1:
        return packed(nodes)
    if form == 2:
        return y.Chunks(packed(nodes))
    if form == 3:
        return bytearray(packed(nodes))
    if form == 4:
        return memoryview(packed(nodes))
    return iter(pairs(nodes))


def drawn_hash(rng):
    form = rng.randrange(4)
    if form == 0:
        return tuple(rng.getrandbits(64) for _ in range(4))
    if form == 1:
        return tuple(rng.choice((0, 1, 2, 3, MAX, 1 << 63)) for _ in range(4))
    return (rng.getrandbits(8), 0, 0, rng.choice((0, 1, 2, 3, 4)))


def drawn_list(rng, length, great=False):
    """A list with natural cuts at a drawn density, or at distances that make stable points."""
    density = rng.choice((0.0, 0.1, 0.25, 0.4, 1.0, None, None, None))
    nodes, until = [], rng.randint(1, 7)
    for _ in range(length):
        if density is None:
            until -= 1
            cut = until == 0
            if cut:
                until = rng.choice((3, 3, 4, 4, 5, 6, 7, 1, 8))
        else:
            cut = rng.random() < density
        word = 4 * rng.getrandbits(8) + (0 if cut else rng.choice((1, 2, 3)))
        size = rng.choice((0, 1, rng.getrandbits(16)))
        nodes.append(((rng.getrandbits(16), 0, 0, word), size))
    if great and nodes:
        for _ in range(2):
            place = rng.randrange(length)
            nodes[place] = (nodes[place][0], rng.choice((MAX, MAX - 70000, 1 << 63)))
    return nodes


def drawn_cuts(rng, nodes, most=7):
    """The list as adjacent ranges, some of them empty."""
    places = sorted(rng.randint(0, len(nodes)) for _ in range(rng.randrange(most)))
    return [nodes[a:b] for a, b in zip([0] + places, places + [len(nodes)])]


def bracketed(rng, items, join):
    """Neighbours are joined in a drawn order until one is left."""
    items = list(items)
    while len(items) > 1:
        place = rng.randrange(len(items) - 1)
        items[place:place + 2] = [join(items[place], items[place + 1])]
    return items[0]
