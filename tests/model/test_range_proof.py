"""Tests of the model of range proofs: worked values, each form of a proof, and alterations of it."""

import itertools
import random
import unittest

import range_proof as r
import xet_model as m
from altered_proofs import ALTERATIONS, altered
from test_model import cutting, numbered_list, plain, reference_list, reference_node, seeded

ZERO = m.DEFAULT_HASH
EXAMPLE = [reference_node(k) for k in (1, 2, 3)]
N28 = numbered_list(0, 27)
CHUNKS = (b"a chunk", b"another", b"and a third")
NODES = [(m.compute_data_hash(data), len(data)) for data in CHUNKS]
FILE_HASH = m.from_hex("0497c2ffdb9b034977074a6a2fe7c2a9dcfc7cc0a4f98777ed580f0b8444090f")
SALT = m.to_bytes(seeded(4))
SALTED = m.from_hex("5f5df6327d4bfe5fc6a4a47bab97d7457b550e0d38f3b44a43d6eaef6618f60e")
TEXT = (
    '{"chunks":[{"hash":"3481034b52254c2f1e0143ae20ce9e2459685799a774f5764bf5585211c865c1","size":7}],'
    '"levels":[{"left":[{"hash":"fc2d9e764137e94a0c4d7bdc0b584e73a34945fbf4efeef155acc8927c1399ff","size":7}],'
    '"right":[{"hash":"b5d2de3673ccda688a6ae4c470f097787aa87b128f134b1f5a7d33379b2f66e9","size":11}]}]}')

# A list, a range, the counts of left and right nodes by level, the offset, and the file size.
EXAMPLES = [
    (EXAMPLE, 1, 2, [(1, 1)], 100, 600),
    (EXAMPLE, 0, 3, [(0, 0)], 0, 600),
    ([reference_node(1)], 0, 1, [], 0, 100),
    (N28, 5, 6, [(1, 2), (1, 2), (0, 1)], 5, 28),
    (N28, 10, 22, [(2, 2), (2, 1), (0, 0)], 10, 28),
    (N28, 27, 28, [(3, 0), (2, 0), (1, 0)], 27, 28),
    (reference_list("0 1 0 1"), 3, 4, [(0, 0), (1, 0)], 100, 200),
    (reference_list("0 1 0 1"), 0, 1, [(0, 2), (0, 1)], 0, 200),
    ([plain(i) for i in range(1000)], 500, 501, [(5, 3), (3, 0), (0, 8), (2, 1)], 500, 1000),
    ([cutting(i) for i in range(10)], 4, 7, [(1, 2), (1, 1)], 4, 10),
    ([(seeded(1), m.MAX_U64), (seeded(2), 0)], 0, 1, [(0, 1)], 0, m.MAX_U64),
]


def json_of(chunks, *levels):
    """The JSON value of a proof by its nodes."""
    return r.to_json(r.RangeProof(tuple(chunks), tuple((tuple(left), tuple(right)) for left, right in levels)))


class HonestProofs(unittest.TestCase):
    def test_sides_offset_and_file_size(self):
        for nodes, first, end, counts, offset, file_size in EXAMPLES:
            proof = r.prove(nodes, first, end)
            self.assertEqual(proof.counts(), counts)
            self.assertEqual(proof.chunks, tuple(nodes[first:end]))
            known = r.open_file(proof, m.file_hash(nodes))
            self.assertEqual((known.offset, known.file_size), (offset, file_size))
            self.assertEqual(known, r.open_root(proof, m.xorb_hash(nodes)))
            self.assertEqual(known, r.open_file(proof, m.file_hash_with_salt(nodes, SALT), SALT))

    def test_sides_are_nodes_of_the_levels(self):
        proof, levels = r.prove(N28, 10, 22), r.levels_of(N28)
        self.assertEqual([len(level) for level in levels], [28, 7, 2, 1])
        self.assertEqual(proof.levels[0], (tuple(N28[8:10]), tuple(N28[22:24])))
        self.assertEqual(proof.levels[1], (levels[1][:2], levels[1][6:]))
        self.assertEqual(m.to_hex(m.file_hash(N28)), "29b84dfd9faff157a311a63bd0c126a8c7bc1009973803ea0af95f05a66e3c4f")

    def test_every_range_of_some_lists(self):
        for nodes in (N28[:13], [plain(i) for i in range(20)], [cutting(i) for i in range(8)], reference_list("0 1 0 1 0")):
            root = m.xorb_hash(nodes)
            for first, end in itertools.combinations(range(len(nodes) + 1), 2):
                proof = r.prove(nodes, first, end)
                known = r.open_root(proof, root)
                self.assertIsNone(r.broken_rule(proof))
                self.assertEqual((known.offset, known.file_size, known.chunks),
                                 (m.total_size(nodes[:first]), m.total_size(nodes), tuple(nodes[first:end])))

    def test_refusals(self):
        for first, end in ((0, 0), (2, 1), (0, 4), (3, 3), (-1, 1)):
            self.assertEqual(self.refusal(EXAMPLE, first, end), 1)
        great = [(seeded(1), m.MAX_U64), (seeded(2), 1)]
        self.assertEqual(self.refusal(great, 0, 1), 2)
        self.assertEqual(self.refusal(great, 0, 3), 1)
        self.assertEqual(self.refusal([], 0, 0), 1)

    def refusal(self, nodes, first, end):
        with self.assertRaises(m.Refused) as refused:
            r.prove(nodes, first, end)
        return refused.exception.number


class Opening(unittest.TestCase):
    def setUp(self):
        self.known = r.open_file(r.prove(NODES, 1, 2), FILE_HASH)

    def test_file_hashes(self):
        self.assertEqual((m.file_hash(NODES), m.file_hash_with_salt(NODES, SALT)), (FILE_HASH, SALTED))
        self.assertEqual(r.open_file(r.prove(NODES, 1, 2), SALTED, SALT), self.known)

    def test_places(self):
        self.assertEqual((r.begins(self.known, 0), r.ends(self.known, 0), self.known.file_size), (7, 14, 25))
        for number in (-1, 1):
            self.assertEqual((r.begins(self.known, number), r.ends(self.known, number)), (None, None))
        two = r.open_file(r.prove(NODES, 1, 3), FILE_HASH)
        self.assertEqual([(r.begins(two, k), r.ends(two, k)) for k in (0, 1)], [(7, 14), (14, 25)])

    def test_check(self):
        self.assertEqual(r.check(self.known, 0, b"another"), 7)
        for data in (b"a chunk", b"anothe", b"another ", b""):
            self.assertIsNone(r.check(self.known, 0, data))
        for number in (-1, 1):
            self.assertIsNone(r.check(self.known, number, b"another"))
        two = r.open_file(r.prove(NODES, 1, 3), FILE_HASH)
        self.assertEqual((r.check(two, 0, b"another"), r.check(two, 1, b"and a third")), (7, 14))
        self.assertIsNone(r.check(two, 1, b"another"))

    def test_read(self):
        self.assertEqual(r.read(self.known, 8, 10, b"another"), b"no")
        self.assertEqual(r.read(self.known, 7, 14, b"another"), b"another")
        self.assertEqual((r.read(self.known, 7, 7, b"another"), r.read(self.known, 14, 14, b"another")), (b"", b""))
        for start, stop in ((0, 2), (6, 8), (13, 15), (10, 8), (15, 15)):
            self.assertIsNone(r.read(self.known, start, stop, b"another"))
        for data in (b"anothex", b"another.", b"anothe", b""):
            self.assertIsNone(r.read(self.known, 8, 10, data))

    def test_read_checks_every_chunk(self):
        known = r.open_file(r.prove(NODES, 0, 3), FILE_HASH)
        self.assertEqual(r.read(known, 2, 16, b"".join(CHUNKS)), b"chunkanotheran")
        for at in (0, 7, 14, 24):
            data = bytearray(b"".join(CHUNKS))
            data[at] ^= 1
            self.assertIsNone(r.read(known, 2, 3, bytes(data)))

    def test_mismatches(self):
        proof, root = r.prove(NODES, 1, 2), m.xorb_hash(NODES)
        self.assertIsNone(r.open_file(proof, m.file_hash(N28)))
        self.assertIsNone(r.open_file(proof, FILE_HASH, SALT))
        self.assertIsNone(r.open_file(proof, root))
        self.assertIsNone(r.open_root(proof, FILE_HASH))
        self.assertIsNone(r.open_file(proof, ZERO))

    def test_default_hash(self):
        proof = r.prove([(ZERO, 5)], 0, 1)
        self.assertIsNone(r.open_root(proof, ZERO))
        self.assertIsNone(r.open_file(proof, ZERO))
        self.assertEqual(r.open_file(proof, m.file_hash([(ZERO, 5)])), r.OpenedRange(0, 5, ((ZERO, 5),)))

    def test_several_nodes_at_the_top(self):
        two = r.RangeProof(tuple(NODES[:2]), ())
        self.assertIsNone(r.open_root(two, NODES[0][0]))
        self.assertIsNone(r.open_file(two, m.hmac(NODES[0][0], ZERO)))
        ten = tuple(plain(i) for i in range(10))
        two_groups = r.RangeProof(ten, (((), ()),))
        self.assertIsNone(r.open_root(two_groups, m.parent(ten[:9])[0]))
        self.assertIsNotNone(r.open_root(r.prove(ten, 0, 10), m.xorb_hash(ten)))


class Alterations(unittest.TestCase):
    """Altered proofs are mismatches, or show what is so, or are checked against no data."""

    def test_each_is_refused_or_right(self):
        rng, seen = random.Random(1), set()
        nodes = [*NODES, *N28[:20]]
        for alteration in ALTERATIONS:
            for first, end in ((1, 2), (0, 3), (0, 1), (1, 3)) * 4:
                found = altered(rng, alteration, r.prove(nodes, first, end), plain(7))
                if found is None:
                    continue
                seen.add(alteration.name)
                known = r.open_file(found, m.file_hash(nodes))
                self.assertFalse(known is not None and alteration.is_mismatch, alteration.name)
                if known is not None:
                    self.assertEqual(known.file_size, m.total_size(nodes))
                    self.right(known)
        self.assertEqual(seen, {alteration.name for alteration in ALTERATIONS})

    def right(self, known):
        places = ((0, CHUNKS[0]), (7, CHUNKS[1]), (14, CHUNKS[2]))
        for number, (place, data) in itertools.product(range(len(known.chunks)), places):
            self.assertIn(r.check(known, number, data), (None, place))

    def test_parents_are_no_chunks(self):
        levels = r.levels_of(N28)
        known = r.open_root(r.prove(levels[1], 2, 3), m.xorb_hash(N28))
        self.assertEqual(known.chunks, (levels[1][2],))
        text = m.group_text(m.groups(N28)[2])
        self.assertEqual(m.compute_internal_node_hash(text), known.chunks[0][0])
        self.assertIsNone(r.check(known, 0, text))
        forged = r.OpenedRange(0, len(text), ((known.chunks[0][0], len(text)),))
        self.assertIsNone(r.check(forged, 0, text))

    def test_one_chunk_of_another_size(self):
        known = r.open_file(r.RangeProof(((NODES[0][0], 8),), ()), m.file_hash(NODES[:1]))
        self.assertEqual(known.file_size, 8)
        for data in (b"a chunk", b"a chunk\0"):
            self.assertIsNone(r.check(known, 0, data))


class ChunksAndBytes(unittest.TestCase):
    def test_chunks_at(self):
        for start, stop, wanted in (
                (0, 1, (0, 1)), (0, 7, (0, 1)), (0, 8, (0, 2)), (6, 8, (0, 2)), (7, 8, (1, 2)), (7, 14, (1, 2)),
                (13, 15, (1, 3)), (14, 25, (2, 3)), (24, 25, (2, 3)), (24, 10**9, (2, 3)), (0, m.MAX_U64, (0, 3)),
                (0, 0, None), (8, 8, None), (9, 8, None), (25, 26, None), (25, 25, None)):
            self.assertEqual(r.chunks_at(NODES, start, stop), wanted, (start, stop))
        self.assertIsNone(r.chunks_at([], 0, 1))

    def test_empty_chunks_are_in_no_range_at_its_ends(self):
        nodes = [(seeded(i), size) for i, size in enumerate((0, 3, 0, 0, 2, 0))]
        for start, stop, wanted in ((0, 1, (1, 2)), (0, 3, (1, 2)), (3, 4, (4, 5)), (2, 4, (1, 5)), (0, 9, (1, 5)),
                                    (5, 9, None)):
            self.assertEqual(r.chunks_at(nodes, start, stop), wanted, (start, stop))
        self.assertIsNone(r.chunks_at(nodes[:1], 0, 1))

    def test_bytes_of(self):
        for first, end, wanted in ((0, 1, (0, 7)), (1, 2, (7, 14)), (1, 3, (7, 25)), (0, 3, (0, 25))):
            self.assertEqual(r.bytes_of(NODES, first, end), wanted)
        for first, end in ((0, 0), (2, 1), (0, 4), (3, 3), (-1, 2)):
            self.assertIsNone(r.bytes_of(NODES, first, end))

    def test_greatest_sizes(self):
        nodes = [(seeded(1), m.MAX_U64 - 1), (seeded(2), 1)]
        self.assertEqual(r.chunks_at(nodes, m.MAX_U64 - 1, m.MAX_U64), (1, 2))
        self.assertEqual(r.chunks_at(nodes, m.MAX_U64 - 2, m.MAX_U64), (0, 2))
        self.assertEqual(r.bytes_of(nodes, 1, 2), (m.MAX_U64 - 1, m.MAX_U64))


class TwoFiles(unittest.TestCase):
    A, B, C, D = [(seeded(i), 10 ** i) for i in range(4)]

    def test_in_common(self):
        a, b = self.A, self.B
        for nodes, others, front, end in (
                ([], [], 0, 0), ([a], [], 0, 0), ([a], [b], 0, 0), ([a], [a], 1, 1), ([a, b], [a, a], 1, 0), ([a, b], [b, b], 0, 1),
                ([a, b, a], [a], 1, 1), ([a, a, a], [a, a], 2, 2), ([a, b], [b, a], 0, 0), ([a, b, a, b], [a, b], 2, 2),
                ([a], [(a[0], 2)], 0, 0), ([a, b], [(a[0], 2), b], 0, 1)):
            for one, other in ((nodes, others), (others, nodes)):
                self.assertEqual(r.common_prefix(one, other), front, (one, other))
                for most in (0, 1, 2, 3, m.MAX_U64):
                    self.assertEqual(r.common_suffix(one, other, most), min(end, most), (one, other))

    def test_difference(self):
        a, b, c, d = self.A, self.B, self.C, self.D
        for nodes, others, chunks, places in (
                ([a, b, c], [a, d, c], (1, 2, 2), (1, 11, 1001)), ([a, b, c], [a, c], (1, 2, 1), (1, 11, 1)),
                ([a, c], [a, b, c], (1, 1, 2), (1, 1, 11)), ([a, b], [a, b, c], (2, 2, 3), (11, 11, 111)),
                ([b, c], [a, b, c], (0, 0, 1), (0, 0, 1)), ([a, b], [], (0, 2, 0), (0, 11, 0)),
                ([a, a, a], [a], (1, 3, 1), (1, 3, 1)), ([a, b, a, b, a], [a, b, a], (3, 5, 3), (12, 23, 12)),
                ([a, b, c], [c, b, a], (0, 3, 3), (0, 111, 111)), ([a], [(a[0], 2)], (0, 1, 1), (0, 1, 2))):
            self.assertEqual(r.difference(nodes, others), (*chunks, *places), (nodes, others))
            self.assertIsNone(r.difference(nodes, nodes))


class Json(unittest.TestCase):
    def rule(self, value):
        with self.assertRaises(m.InvalidJson) as refused:
            r.from_json(value)
        return refused.exception.rule

    def test_text(self):
        self.assertEqual(r.to_json_text(r.prove(NODES, 1, 2)), TEXT)
        self.assertEqual(r.from_json_text(TEXT), r.prove(NODES, 1, 2))
        with self.assertRaises(m.NotJson):
            r.from_json_text(TEXT[:-1])

    def test_round_trips(self):
        for nodes, first, end, *_ in EXAMPLES:
            proof = r.prove(nodes, first, end)
            self.assertEqual(r.from_json_text(r.to_json_text(proof)), proof)
            self.assertEqual(r.from_flat(*r.to_flat(proof)), proof)

    def test_rules_of_form(self):
        good = json_of(NODES[:1], ((), NODES[1:]))
        for value in ([], None, 7, "{}", [good]):
            self.assertEqual(self.rule(value), 1)
        for value in ({}, {"chunks": []}, {"levels": []}, {**good, "chunks": {}}, {**good, "levels": None}):
            self.assertEqual(self.rule(value), 2)
        for level in ([], None, {}, {"left": []}, {"right": []}, {"left": [], "right": {}}):
            self.assertEqual(self.rule({**good, "levels": [level]}), 3)
        for node in ([], {}, {"hash": m.to_hex(seeded(1))}, {"hash": "0" * 63, "size": 1}, {"hash": "0" * 64, "size": -1},
                     {"hash": "0" * 64, "size": 2**64}, {"hash": "0" * 64, "size": True}, {"hash": "0" * 64, "size": 1.0}):
            self.assertEqual(self.rule({**good, "chunks": [node]}), 4)
            for side in ("left", "right"):
                self.assertEqual(self.rule({**good, "levels": [{"left": [], "right": [], side: [node]}]}), 4)

    def test_rules_of_values(self):
        self.assertEqual(self.rule(json_of([])), 5)
        self.assertEqual(self.rule(json_of([], (NODES, ()))), 5)
        self.assertEqual(self.rule(json_of(NODES, *[((), ())] * 65)), 6)
        nine = [plain(i) for i in range(9)]
        for level in ((nine, ()), ((), nine)):
            self.assertEqual(self.rule(json_of(NODES, ((), ()), level)), 7)
        half = [(seeded(1), 2**63)]
        for value in (json_of(half * 2), json_of(half, (half, ())), json_of(half, ((), half)),
                      json_of(NODES, (half, ()), ((), half))):
            self.assertEqual(self.rule(value), 8)

    def test_edges_are_kept(self):
        eight = tuple(plain(i) for i in range(8))
        for proof in (r.RangeProof(eight, (((), ()),) * 64), r.RangeProof(eight[:1], ((eight, eight),)),
                      r.RangeProof(((seeded(1), m.MAX_U64),), ((((seeded(2), 0),), ()),))):
            self.assertEqual(r.from_json(r.to_json(proof)), proof)

    def test_lowest_rule(self):
        self.assertEqual(self.rule({"chunks": 7, "levels": [7]}), 2)
        self.assertEqual(self.rule({"chunks": [7], "levels": [7]}), 3)
        self.assertEqual(self.rule({"chunks": [], "levels": [{"left": [7], "right": []}]}), 4)
        great = [(seeded(1), m.MAX_U64)] * 9
        self.assertEqual(self.rule(json_of([], *[(great, ())] * 65)), 5)
        self.assertEqual(self.rule(json_of(great, *[(great, ())] * 65)), 6)
        self.assertEqual(self.rule(json_of(great, (great, ()))), 7)

    def test_other_members_are_ignored(self):
        value = r.to_json(r.prove(NODES, 1, 2))
        value["x"] = value["levels"][0]["y"] = value["chunks"][0]["z"] = [None]
        self.assertEqual(r.from_json(value), r.prove(NODES, 1, 2))


class Flat(unittest.TestCase):
    def test_order(self):
        proof = r.prove(N28, 10, 22)
        counts, nodes = r.to_flat(proof)
        self.assertEqual(counts, [(2, 2), (2, 1), (0, 0)])
        above = r.levels_of(N28)[1]
        self.assertEqual(nodes, (*N28[8:10], *above[:2], *N28[10:22], above[6], *N28[22:24]))

    def test_rules(self):
        for counts, nodes, rule in (([], [], 5), ([(1, 0)], NODES[:1], 5), ([(1, 1)], NODES[:1], 5), ([(2**64, 0)], NODES, 5),
                                    ([(0, 0)] * 65, NODES, 6), ([(9, 0)], N28, 7), ([(0, 9)], N28, 7),
                                    ([(1, 0)], [(seeded(1), 2**63)] * 2, 8)):
            with self.assertRaises(m.InvalidJson) as refused:
                r.from_flat(counts, nodes)
            self.assertEqual(refused.exception.rule, rule)


if __name__ == "__main__":
    unittest.main()
