"""Range proofs: worked values, their forms, what is refused, and random alterations."""

import importlib.machinery
import importlib.util
import mmap
import pickle
import struct
import sys
from pathlib import Path

import pytest

import yurewha as y
from yurewha import _library

MAX = 2**64 - 1
MIB16 = 1 << 24
Z = y.Hash()
REPOSITORY = Path(__file__).resolve().parents[3]


def h(seed):
    return y.Hash.random_from_seed(seed)


def numbered(first, last, word):
    """Nodes of size 1 whose hashes have these numbers and a last word."""
    return [(y.Hash(struct.pack("<4Q", i, 0, 0, word(i))), 1) for i in range(first, last + 1)]


def n(first, last):
    return numbered(first, last, lambda i: i % 4 != 3)


def pattern(text):
    """Reference list 7's nodes: 0 is the default hash of size 0, and 1 is h1 of size 100."""
    return [(h(1), 100) if letter == "1" else (Z, 0) for letter in text]


THREE = [(h(1), 100), (h(2), 200), (h(3), 300)]

# A list, a range, the numbers of left and right nodes by level, where the range begins, and the size of the file.
EXAMPLES = [
    (THREE, 1, 2, ((1, 1),), 100, 600),
    (THREE, 0, 3, ((0, 0),), 0, 600),
    (THREE, 1, 3, ((1, 0),), 100, 600),
    ([(h(1), 100)], 0, 1, (), 0, 100),
    (n(0, 27), 5, 6, ((1, 2), (1, 2), (0, 1)), 5, 28),
    (n(0, 27), 10, 22, ((2, 2), (2, 1), (0, 0)), 10, 28),
    (n(0, 27), 27, 28, ((3, 0), (2, 0), (1, 0)), 27, 28),
    (pattern("0101"), 3, 4, ((0, 0), (1, 0)), 100, 200),
    (pattern("0101"), 0, 1, ((0, 2), (0, 1)), 0, 200),
    (numbered(0, 999, lambda i: 1), 500, 501, ((5, 3), (3, 0), (0, 8), (2, 1)), 500, 1000),
    (numbered(0, 9, lambda i: 0), 4, 7, ((1, 2), (1, 1)), 4, 10),
    ([(h(1), MAX), (h(2), 0)], 0, 1, ((0, 1),), 0, MAX),
]


@pytest.mark.parametrize("chunks, first, end, levels, offset, size", EXAMPLES)
def test_examples(chunks, first, end, levels, offset, size):
    tree = y.HashTree(chunks)
    proof = tree.proof(first, end)
    assert proof.levels == levels and proof.num_levels == len(levels)
    assert list(proof.chunks) == chunks[first:end] and tree.num_chunks == len(chunks) and tree.total_size == size
    assert tree.root == y.xorb_hash(chunks) and tree.bytes_of(first, end)[0] == offset
    for salt in (None, bytes(32), h(4).bytes):
        assert tree.file_hash(salt) == y.file_hash(chunks, salt)
        assert_opened(proof.open(tree.file_hash(salt), salt), chunks[first:end], offset, size)
    assert_opened(proof.open_root(tree.root), chunks[first:end], offset, size)


def assert_opened(opened, chunks, offset, size):
    assert (opened.num_chunks, opened.file_size) == (len(chunks), size)
    for number, (_, length) in enumerate(chunks):
        assert (opened.begins(number), opened.ends(number)) == (offset, offset + length)
        offset += length
    for missing in (len(chunks), MAX):
        for call in (opened.begins, opened.ends, lambda number: opened.check(number, b"")):
            with pytest.raises(y.InvalidArguments, match=f"the range has no chunk {missing}"):
                call(missing)


DATA = (b"a chunk", b"another", b"and a third")
FILE = b"".join(DATA)
CHUNKS = [(y.data_hash(data), len(data)) for data in DATA]
TREE = y.HashTree(CHUNKS)
NAME = y.Hash.from_hex("0497c2ffdb9b034977074a6a2fe7c2a9dcfc7cc0a4f98777ed580f0b8444090f")
SALTED = y.Hash.from_hex("5f5df6327d4bfe5fc6a4a47bab97d7457b550e0d38f3b44a43d6eaef6618f60e")
TEXT = (
    '{"chunks":[{"hash":"3481034b52254c2f1e0143ae20ce9e2459685799a774f5764bf5585211c865c1","size":7}],'
    '"levels":[{"left":[{"hash":"fc2d9e764137e94a0c4d7bdc0b584e73a34945fbf4efeef155acc8927c1399ff","size":7}],'
    '"right":[{"hash":"b5d2de3673ccda688a6ae4c470f097787aa87b128f134b1f5a7d33379b2f66e9","size":11}]}]}')


def test_the_worked_proof():
    assert (TREE.file_hash(), TREE.file_hash(h(4).bytes)) == (NAME, SALTED)
    proof = TREE.proof(1, 2)
    assert proof.to_json() == TEXT
    opened = proof.open(NAME)
    assert opened.check(0, b"another") == 7 and opened.read(8, 10, b"another") == b"no"
    for data in (b"a chunk", b"anothe", b"another.", b""):
        with pytest.raises(y.ProofMismatch, match="this isn't the data of chunk 0 of the range"):
            opened.check(0, data)
    both = TREE.proof(1, 3).open(NAME.bytes)
    assert both.check(0, b"another") == 7 and both.check(1, b"and a third") == 14
    assert both.read(7, 25, FILE[7:]) == FILE[7:] and both.read(9, 9, FILE[7:]) == b"" and both.read(13, 15, FILE[7:]) == b"ra"


UNREAD = [
    ("the proof is of the bytes from 7 up to 14, and not of those from 0 up to 2", 0, 2, b"another"),
    ("the proof is of the bytes from 7 up to 14, and not of those from 6 up to 8", 6, 8, b"another"),
    ("the proof is of the bytes from 7 up to 14, and not of those from 13 up to 15", 13, 15, b"another"),
    ("the proof is of the bytes from 7 up to 14, and not of those from 10 up to 8", 10, 8, b"another"),
    ("the proof is of the bytes from 7 up to 14, and not of those from 0 up to 18446744073709551615", 0, MAX, b"another"),
    ("the range has 7 bytes, and the data 8", 8, 10, b"another."),
    ("the range has 7 bytes, and the data 6", 8, 10, b"anothe"),
    ("the range has 7 bytes, and the data 0", 8, 8, b""),
    ("this isn't the data of the range", 8, 10, b"a chunk"),
    ("this isn't the data of the range", 8, 8, b"Another"),
    *(("this isn't the data of the range", *places, b"a chunk") for places in ((7, 14), (7, 7), (14, 14))),
]


@pytest.mark.parametrize("told, start, stop, data", UNREAD)
def test_data_that_isnt_read(told, start, stop, data):
    with pytest.raises(y.ProofMismatch, match=f"^{told}$"):
        TREE.proof(1, 2).open(NAME).read(start, stop, data)


def facts(error):
    return error.chunk, error.place, error.path


def test_what_a_mismatch_says_of_the_chunk():
    """Its number in the range, and its place in the file."""
    opened = TREE.proof(1, 3).open(NAME)
    for number, place in ((0, 7), (1, 14)):
        with pytest.raises(y.ProofMismatch) as raised:
            opened.check(number, b"a chunk")
        assert facts(raised.value) == facts(pickle.loads(pickle.dumps(raised.value))) == (number, place, None)
    for data, expected in (
        (b"Anotherand a third", (0, 7, None)), (b"anotherAnd a third", (1, 14, None)), (b"AnotherAnd a third", (0, 7, None)),
        (b"anotherand a thir", (1, 14, None)), (b"another", (1, 14, None)), (b"anothe", (0, 7, None)), (b"", (0, 7, None)),
        (b"anotherand a third.", (None, None, None)), (bytearray(b"anotherAnd a third"), (1, 14, None)),
    ):
        with pytest.raises(y.ProofMismatch) as raised:
            opened.read(7, 25, data)
        assert facts(raised.value) == expected
    for call in (lambda: opened.read(0, 7, FILE[7:]), lambda: TREE.proof(1, 3).open(h(5)), lambda: TREE.proof(1, 3).open_root(h(5))):
        with pytest.raises(y.ProofMismatch) as raised:
            call()
        assert facts(raised.value) == (None, None, None)


@pytest.mark.parametrize("count", [1, 100])
def test_longer_proofs_than_allowed_are_not_read(count):
    proof = y.HashTree([(h(1), 7)] * count).proof(0, count)
    text, packed = proof.to_json(), proof.to_bytes()
    forms = [(y.RangeProof.from_json, form) for form in (text, text.encode(), bytearray(text.encode()))]
    for read, given in (*forms, (y.RangeProof.from_bytes, packed), (y.RangeProof.from_bytes, memoryview(packed))):
        for limit in (len(given), len(given) + 1, None, 2**64 - 1):
            assert read(given, limit=limit) == proof
        for limit in (len(given) - 1, 0):
            with pytest.raises(y.ProofTooLong, match=f"^a proof must have at most {limit} bytes, got {len(given)}: see limit$"):
                read(given, limit=limit)
        for limit, error in ((-1, y.InvalidArguments), (2**64, y.InvalidArguments), ("7", TypeError), (7.0, TypeError)):
            with pytest.raises(error):
                read(given, limit=limit)


def test_a_proof_has_at_most_16_mib_unless_more_is_allowed(monkeypatch):
    """Of a longer one nothing is read."""
    calls = []
    for name in ("yurewha_range_proof_from_json", "yurewha_range_proof_from_bytes", "yurewha_range_proof_check"):
        for library in (_library.short, _library.long):
            monkeypatch.setattr(library, name, lambda *given: calls.append(name) or 0)
    for read, given in ((y.RangeProof.from_json, bytes(MIB16)), (y.RangeProof.from_bytes, bytes(MIB16 - 8)),
                        (y.RangeProof.from_bytes, bytes(MIB16 - 1))):
        calls.clear()
        read(given)
        assert len(calls) == 1
        for longer in (bytes(MIB16 + 1), bytearray(MIB16 + 40)):
            with pytest.raises(y.ProofTooLong, match=str(MIB16)):
                read(longer)
        assert len(calls) == 1
    with pytest.raises(y.ProofTooLong):
        y.RangeProof.from_json(" " * (MIB16 + 1))
    assert len(calls) == 1


def test_places():
    for first, end in ((0, 1), (0, 3), (1, 2), (2, 3)):
        start, stop = TREE.bytes_of(first, end)
        assert TREE.chunks_at(start, stop) == TREE.chunks_at(stop - 1 if end == first + 1 else start, stop) == (first, end)
        assert TREE.proof_of_bytes(start, stop) == TREE.proof(first, end)
    assert TREE.chunks_at(24, MAX) == (2, 3) and TREE.chunks_at(6, 15) == (0, 3) and TREE.chunks_at(7, 14) == (1, 2)
    empty = [(Z, 0), (Z, 5), (Z, 0), (Z, 0), (Z, 5), (Z, 0)]
    assert y.HashTree(empty).chunks_at(0, MAX) == (1, 5) and y.HashTree(empty).bytes_of(2, 4) == (5, 5)


REFUSED_RANGES = [(0, 0), (2, 1), (0, 4), (3, 3), (3, 4), (MAX, MAX), (0, MAX), (MAX, 0)]


@pytest.mark.parametrize("first, end", REFUSED_RANGES)
def test_ranges_without_a_proof(first, end):
    for call in (TREE.proof, TREE.bytes_of):
        with pytest.raises(y.InvalidArguments, match=f"the tree doesn't have the chunks from {first} up to {end}"):
            call(first, end)


@pytest.mark.parametrize("start, stop", [(0, 0), (7, 7), (9, 8), (25, 26), (25, MAX), (MAX, MAX)])
def test_no_such_bytes(start, stop):
    for call in (TREE.chunks_at, TREE.proof_of_bytes):
        with pytest.raises(y.InvalidArguments, match=f"the file has no bytes from {start} up to {stop}"):
            call(start, stop)


@pytest.mark.parametrize("count", [1, 2, 30])
def test_no_bytes_of_empty_chunks(count):
    """The proof of the first chunk shows the size of the file, to whoever asks for a byte."""
    tree = y.HashTree([(h(4), 0)] * count)
    for start, stop in ((0, 1), (0, MAX), (5, 6), (MAX - 1, MAX)):
        assert tree.proof_of_bytes(start, stop) == tree.proof(0, 1)
    for start, stop in ((0, 0), (5, 5), (5, 4), (1, 0), (MAX, MAX)):
        with pytest.raises(y.InvalidArguments, match=f"the file has no bytes from {start} up to {stop}"):
            tree.proof_of_bytes(start, stop)


def test_no_chunks():
    tree = y.HashTree([])
    assert tree.root == tree.file_hash() == tree.file_hash(h(4).bytes) == Z
    assert (tree.num_chunks, tree.total_size, repr(tree)) == (0, 0, "<yurewha.HashTree of 0 chunks, 0 bytes>")
    for call in (tree.proof, tree.bytes_of, tree.chunks_at):
        with pytest.raises(y.InvalidArguments):
            call(0, 1)


#: Each makes another proof of the honest one of [1, 2): the flat lists have a left node, the chunk and a right node.
ALTERED = {
    "the chunk exchanged": lambda levels, nodes: (levels, [nodes[0], CHUNKS[0], nodes[2]]),
    "another chunk": lambda levels, nodes: (levels, [nodes[0], nodes[1], nodes[1], nodes[2]]),
    "the chunk moved": lambda levels, nodes: (levels, [nodes[1], nodes[0], nodes[2]]),
    "the chunk a byte larger": lambda levels, nodes: (levels, [nodes[0], (nodes[1][0], 8), nodes[2]]),
    "a left node dropped": lambda levels, nodes: ([(0, 1)], nodes[1:]),
    "a left node added": lambda levels, nodes: ([(2, 1)], [nodes[0], *nodes]),
    "a left node a byte larger": lambda levels, nodes: (levels, [(nodes[0][0], 8), *nodes[1:]]),
    "a right node dropped": lambda levels, nodes: ([(1, 0)], nodes[:2]),
    "a right node added": lambda levels, nodes: ([(1, 2)], [*nodes, nodes[2]]),
    "a right node a byte larger": lambda levels, nodes: (levels, [*nodes[:2], (nodes[2][0], 12)]),
    "the level taken out": lambda levels, nodes: ([], nodes[1:2]),
    "an empty level below": lambda levels, nodes: ([(0, 0), *levels], nodes),
    "a byte moved": lambda levels, nodes: (levels, [(nodes[0][0], 8), (nodes[1][0], 6), nodes[2]]),
}


@pytest.mark.parametrize("name", ALTERED)
def test_altered_proofs(name):
    altered = y.RangeProof.from_flat(*ALTERED[name](*TREE.proof(1, 2).to_flat()))
    assert altered != TREE.proof(1, 2)
    for call in (lambda: altered.open(NAME), lambda: altered.open(SALTED, h(4).bytes), lambda: altered.open_root(TREE.root)):
        with pytest.raises(y.ProofMismatch, match="the proof doesn't show this"):
            call()


def test_an_empty_level_above_shows_nothing_new():
    """The parents of the one node above are that node's parent, so a level more is another root."""
    levels, nodes = TREE.proof(1, 2).to_flat()
    with pytest.raises(y.ProofMismatch):
        y.RangeProof.from_flat([*levels, (0, 0)], nodes).open(NAME)


def test_other_hashes_and_salts():
    proof = TREE.proof(1, 2)
    zeros = y.RangeProof.from_flat([], [(Z, 5)])
    for call in (
        lambda: proof.open(h(1)), lambda: proof.open(SALTED), lambda: proof.open(NAME, h(4).bytes), lambda: proof.open(Z),
        lambda: proof.open(TREE.root), lambda: proof.open_root(NAME), lambda: proof.open_root(Z), lambda: zeros.open_root(Z),
        lambda: zeros.open(Z),
    ):
        with pytest.raises(y.ProofMismatch):
            call()
    assert zeros.open(y.file_hash([(Z, 5)])).file_size == 5


def test_nodes_show_nothing_before_data_is_checked():
    """Parents pass as chunks, with a size that is no file's; but no data is accepted for them."""
    tree = y.HashTree(n(0, 27))
    levels, nodes = tree.proof(5, 6).to_flat()
    lefts = sum(left for left, _ in levels)
    above = y.RangeProof.from_flat([], [(tree.root, 7)])
    opened = above.open(tree.file_hash())
    assert opened.file_size == 7 != tree.total_size
    for data in (b"", bytes(7), nodes[lefts][0].bytes):
        with pytest.raises(y.ProofMismatch):
            opened.check(0, data)


# ---- Forms


def forms(proof):
    """The same proof, through each of its forms."""
    yield y.RangeProof.from_json(proof.to_json())
    yield y.RangeProof.from_json(proof.to_json().encode())
    yield y.RangeProof.from_json(bytearray(proof.to_json().replace(",", " , ").encode()))
    yield y.RangeProof.from_flat(*proof.to_flat())
    yield y.RangeProof.from_flat(iter([list(level) for level in proof.levels]), proof.to_flat()[1].packed)
    yield y.RangeProof.from_bytes(proof.to_bytes())
    yield y.RangeProof.from_bytes(memoryview(bytes(proof)))
    for protocol in range(pickle.HIGHEST_PROTOCOL + 1):
        yield pickle.loads(pickle.dumps(proof, protocol))


@pytest.mark.parametrize("chunks, first, end", [example[:3] for example in EXAMPLES])
def test_forms(chunks, first, end):
    proof, other = y.HashTree(chunks).proof(first, end), y.HashTree([*chunks[1:], (h(5), 0)]).proof(first, end)
    found = list(forms(proof))
    assert all(it == proof and it is not proof and hash(it) == hash(proof) for it in found)
    assert proof != other and proof != proof.to_json() and {proof, *found, other} == {proof, other}
    assert pickle.loads(pickle.dumps(y.HashTree(chunks))).proof(first, end) == proof
    counts = [(len(proof.left(level)), len(proof.right(level))) for level in range(proof.num_levels)]
    assert tuple(counts) == proof.levels
    sides = [*(proof.left(level) for level in range(len(counts))), proof.chunks]
    sides += [proof.right(level) for level in reversed(range(len(counts)))]
    assert sum(sides, y.Chunks()) == proof.to_flat()[1]
    assert proof.left(len(counts)) == proof.right(len(counts)) == proof.left(MAX) == proof.right(MAX) == y.Chunks()


NODE = '{"hash":"%064x","size":1}' % 1
GREAT = NODE.replace(":1}", f":{MAX}}}")


def json_of(chunks="", *levels):
    return '{"chunks":[%s],"levels":[%s]}' % (chunks, ",".join('{"left":[%s],"right":[%s]}' % level for level in levels))


BROKEN = [
    (1, "[]"),
    (1, "7"),
    (2, "{}"),
    (2, '{"chunks":[]}'),
    (2, '{"levels":[]}'),
    (2, '{"chunks":{},"levels":[]}'),
    (2, '{"chunks":[7],"levels":7}'),
    (3, '{"chunks":[7],"levels":[7]}'),
    (3, '{"chunks":[],"levels":[{"left":[]}]}'),
    (3, '{"chunks":[],"levels":[{"left":[],"right":{}}]}'),
    (4, '{"chunks":[7],"levels":[]}'),
    (4, '{"chunks":[{"hash":"00","size":1}],"levels":[]}'),
    (4, '{"chunks":[{"hash":"%064x","size":-1}],"levels":[]}' % 0),
    (4, '{"chunks":[{"hash":"%064x","size":18446744073709551616}],"levels":[]}' % 0),
    (4, json_of("", ("", "7"))),
    (5, json_of()),
    (5, json_of("", *65 * [("", "")])),
    (6, json_of(NODE, *65 * [(NODE, ",".join(9 * [NODE]))])),
    (7, json_of(GREAT, (",".join(9 * [NODE]), ""))),
    (7, json_of(NODE, ("", ",".join(9 * [NODE])))),
    (8, json_of(NODE, (GREAT, ""))),
    (8, json_of(f"{GREAT},{NODE}")),
]


@pytest.mark.parametrize("rule, text", BROKEN)
def test_rules(rule, text):
    with pytest.raises(y.InvalidProof, match=f"^invalid range proof: rule {rule}: ") as raised:
        y.RangeProof.from_json(text)
    assert raised.value.rule == rule and isinstance(raised.value, y.BrokenRule)


def test_texts_at_the_edge_of_the_rules():
    eight = ",".join(8 * [NODE])
    proof = y.RangeProof.from_json(json_of(NODE, *64 * [(eight, eight)]))
    assert proof.levels == 64 * ((8, 8),) and proof.to_json() == json_of(NODE, *64 * [(eight, eight)])
    assert y.RangeProof.from_json(json_of(GREAT)).chunks.sizes[0] == MAX
    more = '{"other":1,"levels":[],"chunks":[{"more":[],"size":1,"hash":"%064X"}]}' % 10
    assert y.RangeProof.from_json(more).to_json() == '{"chunks":[{"hash":"%064x","size":1}],"levels":[]}' % 10
    for text in ("", "{", TEXT[:-1], TEXT + "x", TEXT + TEXT):
        with pytest.raises(y.InvalidText):
            y.RangeProof.from_json(text)


ONE = (h(1), 1)
FLAT = [
    (5, [], []),
    (5, [(1, 0)], [ONE]),
    (5, [(1, 1)], [ONE]),
    (5, [(MAX, MAX)], [ONE]),
    (5, [(1 << 63, 1 << 63)], [ONE]),
    (5, 65 * [(1, 0)], [ONE]),
    (6, 65 * [(0, 0)], [ONE]),
    (7, [(9, 0)], 10 * [ONE]),
    (7, [(0, 9)], 10 * [ONE]),
    (8, [(1, 0)], [ONE, (h(1), MAX)]),
]


def longer(levels, nodes):
    """The bytes of flat lists in the longer form: each number has eight bytes."""
    return struct.pack("<Q", len(levels)) + b"".join(struct.pack("<QQ", *level) for level in levels) + y.Chunks(nodes).packed


@pytest.mark.parametrize("rule, levels, nodes", FLAT)
def test_rules_of_flat_lists(rule, levels, nodes):
    for call in (lambda: y.RangeProof.from_flat(levels, nodes), lambda: y.RangeProof.from_bytes(longer(levels, nodes))):
        with pytest.raises(y.InvalidProof) as raised:
            call()
        assert raised.value.rule == rule


def test_the_forms_of_bytes():
    """The shorter one has one byte for each number before the nodes, so its length is odd. The longer one is read, too."""
    for proof in (TREE.proof(0, 1), TREE.proof(1, 2), y.HashTree([ONE]).proof(0, 1), y.RangeProof.from_flat(64 * [(0, 0)], [ONE])):
        levels, nodes = proof.to_flat()
        data = bytes([len(levels), *(count for level in levels for count in level)]) + nodes.packed
        assert proof.to_bytes() == bytes(proof) == data and len(data) == proof._length() and len(data) % 2
        assert y.RangeProof.from_bytes(data) == y.RangeProof.from_bytes(longer(levels, nodes)) == proof


def test_bytes_of_another_form():
    good, eight = TREE.proof(1, 2).to_bytes(), struct.Struct("<Q").pack
    assert good[:3] == b"\1\1\1"
    broken = [(1, b""), (3, b"\1"), (3, b"\2" + bytes(3)), (3, b"\xff" + bytes(509)), (3, eight(MAX)), (4, good[:-1]), (4, good + b"\0"),
              (4, bytes(2)), (4, eight(1) + bytes(14)), (4, eight(2) + bytes(33)), (4, eight(2) + bytes(34)), (5, b"\0"), (5, good[:-80]),
              (6, b"\x41" + bytes(130) + bytes(40)), (7, b"\1\x09\0" + bytes(400))]
    # These have the longer form.
    broken += [(5, eight(0)), (5, eight(2) + bytes(32)), (6, eight(65) + bytes(16 * 65 + 40)), (7, longer([(9, 0)], 10 * [ONE]))]
    for rule, data in broken:
        with pytest.raises(y.InvalidProof) as raised:
            y.RangeProof.from_bytes(data)
        assert raised.value.rule == rule, data
    for data in (good + bytes(40), good[:-40]):
        try:
            assert y.RangeProof.from_bytes(data) != TREE.proof(1, 2)
        except y.InvalidProof as error:
            assert error.rule == 5


# ---- Bytes that aren't copied, and others


def test_what_read_returns(tmp_path):
    opened = TREE.proof(1, 3).open(NAME)
    whole = FILE[7:]
    for given, owner in ((whole, whole), (memoryview(whole), whole), (memoryview(FILE)[7:], FILE)):
        view = opened.read(9, 20, given)
        assert view == FILE[9:20] and view.readonly and view.obj is owner
    written = bytearray(whole)
    for given in (written, memoryview(written), memoryview(written)[::1]):
        view = opened.read(9, 20, given)
        assert view == FILE[9:20] and view.readonly and view.obj is not written
    view = opened.read(9, 20, written, nobody_writes=True)
    assert view == FILE[9:20] and view.readonly and view.obj is written
    backwards = memoryview(whole[::-1])[::-1]
    assert opened.read(9, 20, backwards, nobody_writes=True) == FILE[9:20]
    assert opened.read(9, 9, whole) == b""
    (tmp_path / "data").write_bytes(whole)
    with open(tmp_path / "data", "rb") as file, mmap.mmap(file.fileno(), 0, access=mmap.ACCESS_READ) as mapped:
        for promise in (False, True):
            view = opened.read(9, 20, mapped, nobody_writes=promise)
            assert view == FILE[9:20] and (view.obj is mapped) == promise
            view.release()
        assert opened.check(0, memoryview(mapped)[:7]) == 7
    assert opened.check(0, bytearray(b"another")) == opened.check(0, memoryview(backwards)[:7]) == 7
    assert opened.check(0, bytearray(b"another"), nobody_writes=True) == 7


def test_great_data():
    """Calls on data of 16 KiB or more release the interpreter's lock; the results are the same."""
    data = [bytes([number]) * (20_000 + number) for number in range(50)]
    tree = y.HashTree([(y.data_hash(it), len(it)) for it in data])
    opened = tree.proof(10, 40).open(tree.file_hash())
    start = sum(map(len, data[:10]))
    whole = b"".join(data)[start:][:sum(map(len, data[10:40]))]
    for given in (whole, bytearray(whole)):
        assert opened.read(start + 5, start + 500_000, given) == whole[5:500_000]
    for number in range(30):
        assert opened.check(number, bytearray(data[10 + number])) == opened.begins(number)
        other = data[10 + number][:-1] + b"x"
        for given in (other, bytearray(other), memoryview(other), data[11 + number], b""):
            with pytest.raises(y.ProofMismatch):
                opened.check(number, given)
    with pytest.raises(y.ProofMismatch):
        opened.read(start, start + 1, whole[:-1] + b"x")


def test_many_chunks():
    """There is room for the text of many nodes with long sizes, for their lists, and for their proof."""
    count = 6000
    chunks = y.Chunks([(h(number), MAX // count - number) for number in range(count)])
    tree = y.HashTree(chunks)
    proof = tree.proof(0, count)
    assert proof.chunks == chunks and proof == tree.proof_of_bytes(0, MAX) and tree.chunks_at(0, MAX) == (0, count)
    text = proof.to_json()
    assert len(text) > 100 * count - 10 and y.RangeProof.from_json(text) == y.RangeProof.from_bytes(proof.to_bytes()) == proof
    assert pickle.loads(pickle.dumps(proof)) == proof and pickle.loads(pickle.dumps(tree)).root == tree.root
    opened = proof.open(tree.file_hash())
    assert opened.num_chunks == count and opened.ends(count - 1) == opened.file_size == tree.total_size


def test_there_is_room_for_the_greatest_proof(monkeypatch):
    """At most 64 levels have at most 8 nodes on each side. No list of chunks that fits into a memory has such a proof."""
    def proved(handle, first, end, levels, level_room, nodes, room, level_count, node_count):
        level_count.value, node_count.value = 64, end - first + 2 * 8 * 64
        assert level_count.value <= level_room == len(levels) and node_count.value <= room == len(nodes)
        for level in levels:
            level.left = level.right = 8
        return 0

    monkeypatch.setattr(_library.short, "yurewha_hash_tree_proof", proved)
    for proof in (TREE.proof(1, 3), TREE.proof_of_bytes(8, 25)):
        assert proof.levels == 64 * ((8, 8),) and len(proof.chunks) == 2


def test_proofs_and_lists_have_many_hashes():
    """So dicts and sets of them aren't slow."""
    tree = y.HashTree(n(0, 27))
    proofs = [tree.proof(first, end) for first in range(28) for end in range(first + 1, 29)]
    for values in (proofs, [proof.chunks for proof in proofs], [proof.chunks.hashes for proof in proofs]):
        assert len(set(map(hash, values))) == len(set(values)) > 300


def test_representations():
    opened = TREE.proof(1, 3).open(NAME)
    assert repr(TREE) == "<yurewha.HashTree of 3 chunks, 25 bytes>"
    assert repr(TREE.proof(1, 3)) == "<yurewha.RangeProof of 2 chunks, with 1 node beside on 1 level>"
    assert repr(opened) == "<yurewha.OpenedRange of 2 chunks: bytes from 7 up to 25 of 25, by the proof's word>"
    for it in (opened, y.HashTree(CHUNKS)):
        it.__del__()
        assert repr(it) == f"<yurewha.{type(it).__name__} that can't be read>"


def campaign():
    """The script of tests/hostile/ as a module."""
    loader = importlib.machinery.SourceFileLoader("campaign", str(REPOSITORY / "tests/hostile" / "proofs"))
    module, path = importlib.util.module_from_spec(importlib.util.spec_from_loader("campaign", loader)), list(sys.path)
    loader.exec_module(module)
    sys.path[:] = path
    return module


@pytest.mark.parametrize("seed", range(2))
def test_random_proofs_and_alterations(seed):
    told = campaign().search(seed, 50, 6)
    assert told[-1] == "the package and the model agree, and nothing was accepted that isn't so"
