"""Reference hashes and worked examples."""

import copy
import ctypes
import json
import operator
import pickle
import random
import types

import pytest
import xet_model as m
from reference import load

import yurewha as y
from yurewha import _hash, _library

REFERENCE = load()
Z = y.Hash()


def seeded(k):
    return (y.Hash.random_from_seed(k) if k else Z, 100 * k)


def numbered(first, last):
    return [(y.Hash(m.to_bytes((i, 0, 0, 0 if i % 4 == 3 else 1))), 1) for i in range(first, last + 1)]


def with_cuts(length, cuts):
    return [(y.Hash(m.to_bytes((i, 0, 0, 0 if i in cuts else 1))), 1) for i in range(length)]


def counts(tree):
    return list(tree.levels)


def test_numbers_have_their_nouns():
    assert repr(y.HashTree([(y.Hash.random_from_seed(1), 1)])) == "<yurewha.HashTree of 1 chunk, 1 byte>"
    assert repr(y.HashTree([(y.Hash.random_from_seed(1), 0), (y.Hash.random_from_seed(1), 2)])) == "<yurewha.HashTree of 2 chunks, 2 bytes>"
    assert repr(y.Hasher()).endswith(", 0 bytes>") and repr(y.Subtree.from_chunks(True, [], True)).endswith(", 0 bytes>")


def test_the_reference_lists():
    assert len(REFERENCE) == 13
    for numbers, xorb, file, salted in REFERENCE:
        chunks = [seeded(int(number)) for number in numbers.split()]
        assert y.xorb_hash(chunks).hex() == xorb
        assert y.file_hash(chunks).hex() == y.file_hash(chunks, bytes(32)).hex() == file
        for salt, expected in salted:
            assert y.file_hash(chunks, y.Hash.from_hex(salt).bytes).hex() == expected


def test_texts_of_a_hash():
    it = y.Hash.from_bytes(bytes([
        22, 175, 58, 132, 4, 75, 131, 214, 190, 153, 138, 66, 226, 3, 153, 242,
        204, 86, 80, 234, 249, 153, 80, 99, 159, 80, 65, 138, 236, 231, 149, 78]))
    assert it.hex() == "d6834b04843aaf16f29903e2428a99be635099f9ea5056cc4e95e7ec8a41509f"
    assert it.base64() == "Fq86hARLg9a-mYpC4gOZ8sxWUOr5mVBjn1BBiuznlU4"
    assert y.Hash.from_hex(it.hex().upper()) == it
    assert Z.base64() == 43 * "A" and y.Hash(32 * b"\xff").base64() == 42 * "_" + "8"
    assert y.Hash(32 * b"\xff") % 4 == 3 and Z % 4 == 0
    assert repr(it) == f"Hash.from_hex('{it.hex()}')" and f"{it}" == it.hex()


def test_a_hash_is_no_bytes_and_has_the_order_of_its_text():
    hashes = [*map(y.Hash.random_from_seed, range(50)), y.Hash(b"\1" + bytes(31)), y.Hash(bytes(7) + b"\1" + bytes(24))]
    assert sorted(hashes) == sorted(hashes, key=y.Hash.hex) != sorted(hashes, key=bytes)
    assert all(it != it.bytes and it != it.hex() and it.bytes not in {it} for it in hashes)


def texts_of_the_library(hash_):
    """The hex text as the library writes it."""
    text, length = ctypes.create_string_buffer(64), ctypes.c_size_t()
    assert _library.short.yurewha_hex(hash_._raw, text, 64, length) == 0 and length.value == 64
    return text.raw.decode("ascii")


#: Bytes that are the same but for one, in each place, and others.
RAWS = [bytes(32), 32 * b"\xff", bytes(range(32)), *(bytes(place) + byte + bytes(31 - place) for place in range(32) for byte in (b"\1", b"\xff")),
        *map(random.Random(95).randbytes, 30 * [32])]
COMPARED = {"<": operator.lt, "<=": operator.le, ">": operator.gt, ">=": operator.ge, "==": operator.eq, "!=": operator.ne}


@pytest.mark.parametrize("name", COMPARED)
def test_hashes_have_the_order_of_the_library(name):
    """Whether they were compared before, or one of them was, or none."""
    compared = COMPARED[name]
    sign = {(one, other): _library.short.yurewha_compare(one, other) for one in RAWS for other in RAWS}
    for (one, other), order in sign.items():
        assert compared(y.Hash(one), y.Hash(other)) is compared(order, 0) is compared(m.compare(m.from_bytes(one), m.from_bytes(other)), 0)
    known, least = list(map(y.Hash, RAWS)), y.Hash(bytes(32))
    for its, one in zip(known, RAWS):
        assert its >= least and compared(its, y.Hash(other := RAWS[-1])) is compared(sign[one, other], 0)
        assert compared(y.Hash(other), its) is compared(sign[other, one], 0)
    assert all(compared(its, others) is compared(sign[one, other], 0)
               for its, one in zip(known, RAWS) for others, other in zip(known, RAWS))


def test_texts_are_those_of_the_library():
    for hash_ in map(y.Hash, RAWS):
        assert str(hash_) == hash_.hex() == texts_of_the_library(hash_) == m.to_hex(m.from_bytes(hash_.bytes))
        assert hash_.words == tuple(int(hash_.hex()[at:at + 16], 16) for at in range(0, 64, 16))


class Everything:
    """It has whatever it is asked for."""

    def __getattr__(self, name):
        return self


@pytest.mark.parametrize("before", [False, True])
@pytest.mark.parametrize("other", [
    bytes(32), 64 * "0", 0, None, (0, 0, 0, 0), object(), Everything(), y.Hasher(),
    types.SimpleNamespace(_raw=bytes(32), _Hash__in_order=_hash._UNMADE)])
def test_a_hash_has_no_order_with_anything_else(before, other):
    it = y.Hash()
    assert not before or it <= y.Hash()
    for name, compared in COMPARED.items():
        if name in ("==", "!="):
            assert compared(it, other) is compared(other, it) is (name == "!=")
        else:
            for pair in ((it, other), (other, it)):
                with pytest.raises(TypeError):
                    compared(*pair)


def test_formats_of_a_hash():
    it = y.Hash.random_from_seed(1)
    assert f"{it:.8}" == format(it, ".8") == it.hex()[:8] and f"{it!s:>66}" == f"{it:>66}" == "  " + it.hex()
    with pytest.raises(ValueError):
        format(it, "d")


def test_a_hash_in_json():
    value = {"root": y.Hash.random_from_seed(1), "hashes": [Z, Z]}
    read = json.loads(json.dumps(value, default=y.Hash.hex))
    assert y.Hash.from_hex(read["root"]) == value["root"] and list(map(y.Hash.from_hex, read["hashes"])) == value["hashes"]
    with pytest.raises((AttributeError, TypeError)):
        json.dumps({"root": object()}, default=y.Hash.hex)


def test_chunks_of_data():
    assert y.data_hash(b"abc").hex() == "a8803506f7aff014f19aa9e9b79dc6455c49672570f96156071329698dd0284e"
    assert y.data_hash(b"").hex() == "e0f2cf784e7e5f10c34f84af150e9a5ff9664216debad915364d741049870f67"
    file = y.file_hash([(y.data_hash(b"abc"), 3)])
    assert file.hex() == "55b9df318a7c45f470d57b04d8ca79a15b0637ffe94b25041a58d00c3528afff"


def test_greater_lists():
    chunks = [(y.Hash(m.to_bytes((i, 0, 0, 1))), 1) for i in range(1000)]
    assert y.xorb_hash(chunks).hex() == "57b8c4f35a46f3aa852fd11c0982fc63e516b770a0262fc05003bdda513b24cf"
    chunks = [(y.Hash(m.to_bytes((i, 0, 0, 0))), 1) for i in range(10)]
    assert y.xorb_hash(chunks).hex() == "267290865ec50d15a40c85a0a3a576930d9997fcc5ecfb744ba1ed6d300aeeeb"


def test_stable_points():
    assert (y.find_stable_start(numbered(0, 19)), y.find_stable_end(numbered(0, 19))) == (8, 16)
    for length, cuts, points in (
        (7, (0, 3, 6), (4, 4)), (15, (0, 7, 14), (8, 8)), (17, (0, 8, 16), (None, None)), (5, (0, 2, 4), (None, None)),
    ):
        nodes = with_cuts(length, cuts)
        assert (y.find_stable_start(nodes), y.find_stable_end(nodes)) == points
    seven = with_cuts(7, (0, 3, 6))
    assert counts(y.Subtree.from_chunks(False, seven, False)) == [(7, 0)]
    assert counts(y.Subtree.from_chunks(True, seven, False)) == [(0, 3), (1, 0)]
    assert counts(y.Subtree.from_chunks(False, seven, True)) == [(4, 0), (1, 0)]


@pytest.mark.parametrize("count, shown", [(8, 7 * ["(0, 0)"]), (9, 4 * ["(0, 0)"] + [".."] + 3 * ["(0, 0)"])])
def test_a_subtree_shows_eight_levels_or_the_ends_of_more(count, shown):
    tree = y.Subtree.from_flat(True, (count - 1) * [(0, 0)] + [(1, 0)], [(Z, 1)], True)
    assert repr(tree) == f"<yurewha.Subtree at the start and at the end, levels {' '.join(shown)} (1, 0), 1 byte>"


def test_merging():
    tree = y.Subtree.from_chunks(False, numbered(0, 19), False)
    assert counts(tree) == [(8, 4), (2, 0)] and tree.num_nodes == 14
    assert tree.merge_counted(y.Subtree.from_chunks(False, numbered(20, 23), False)) == 1
    assert counts(tree) == [(8, 4), (3, 0)] and tree == y.Subtree.from_chunks(False, numbered(0, 23), False)
    first = y.Subtree.from_chunks(False, numbered(0, 3), False)
    assert first + y.Subtree.from_chunks(False, numbered(4, 23), False) == tree
    rest = y.Subtree.from_chunks(False, numbered(4, 23), False) + y.Subtree.from_chunks(False, numbered(24, 27), False)
    head = y.Subtree.from_chunks(True, numbered(0, 3), False)
    assert head.merge_counted(rest) == 3 and counts(head) == [(0, 4), (6, 0)]
    head += y.Subtree.from_chunks(False, [], True)
    assert head.final_hash().hex() == "b1026a806e25e14a5a9d00c9400b8b5b92e81027e1c574046edb37f500fcdeae"
    assert head.final_hash() == y.xorb_hash(numbered(0, 27))


def test_the_sides_of_each_level():
    """The lists have the left nodes by rising level, then the right ones by falling level."""
    tree = y.Subtree.from_chunks(False, numbered(0, 499), False)
    flat, levels = tree.to_flat(), range(tree.num_levels)
    assert tuple((len(tree.left(level)), len(tree.right(level))) for level in levels) == flat.levels == tree.levels
    assert sum(min(counts) > 0 for counts in flat.levels) > 1
    assert sum([*map(tree.left, levels), *map(tree.right, reversed(levels))], y.Chunks()) == flat.nodes
    assert list(tree.left(0)) == numbered(0, 7) and list(tree.right(0)) == numbered(496, 499)
    assert tree.left(len(levels)) == tree.right(2**64 - 1) == y.Chunks()


def test_a_range_twice():
    one = y.Subtree.from_chunks(False, numbered(0, 19), False)
    twice = y.Subtree.from_chunks(False, numbered(0, 19) + numbered(0, 19), False)
    assert one + one == y.Subtree.merge_all([one, one]) == twice
    assert y.Subtree.merge_all([one, one, one]) == twice + one
    one += one
    assert one == twice and one == one


def test_the_handles_of_a_call_are_all_different(monkeypatch):
    seen = []
    for calls in (_library.short, _library.long):
        def spied(handles, count, merged, call=calls.yurewha_subtree_merge):
            seen.append([handles[place].at for place in range(count)])
            return call(handles, count, merged)
        monkeypatch.setattr(calls, "yurewha_subtree_merge", spied)
    one = y.Subtree.from_chunks(False, numbered(0, 19), False)
    other = one.copy()
    y.Subtree.merge_all([one, other, one, one, other])
    assert len(seen) == 1 and len(set(seen[0])) == 5


def test_sizes():
    top = 2**64 - 1
    assert y.xorb_hash([(Z, top), (Z, 0)]) and y.Subtree.from_chunks(True, [(Z, top), (Z, 0)], True).total_size == top
    one = y.Subtree.from_chunks(False, [(Z, top)], False)
    with pytest.raises(y.SizeOverflow):
        one += y.Subtree.from_chunks(False, [(Z, 1)], False)
    assert one == y.Subtree.from_chunks(False, [(Z, top)], False)


def test_empty_ranges():
    tree = y.Subtree.from_chunks(True, [], True)
    assert tree.is_empty and tree.final_hash() == Z and counts(tree) == [(0, 0)]
    assert tree.to_json() == '{"at_end":true,"at_start":true,"levels":[[0,0]],"nodes":[]}'
    assert y.Subtree.merge_all([]) == tree
    for marks in ((False, True), (True, False), (False, False)):
        assert y.Subtree.from_chunks(marks[0], [seeded(1)], marks[1]).final_hash() is None


def test_json_rules():
    text = '{"at_end":true,"at_start":true,"levels":%s,"nodes":[]}'
    top = 2**64 - 1
    for given, rule in (
        ("[]", 1), ("{}", 2), (text % "[]", 5), (text % "[[1,0]]", 6), (text % "[[0,0],[0,0]]", 11),
        (text % f"[[{top},1]]", 6), (text % "[[9223372036854775808,0],[9223372036854775808,0]]", 6),
    ):
        with pytest.raises(y.InvalidJson) as raised:
            y.Subtree.from_json(given)
        assert raised.value.rule == rule
    flat = y.Subtree.from_chunks(False, numbered(0, 23), False).to_flat()
    lefts, rights, above = flat.nodes[:8], flat.nodes[-4:], flat.nodes[8:11]
    assert y.Subtree.from_flat(False, [(8, 4), (3, 0)], lefts + above + rights, False).total_size == 24
    for levels, nodes, rule in (
        ([(16, 0), (2, 0)], lefts + y.Chunks(numbered(16, 23)) + above[:2], 12),
        ([(8, 4), (3, 0)], lefts + above + y.Chunks(with_cuts(4, ())), 13),
    ):
        with pytest.raises(y.InvalidLists) as raised:
            y.Subtree.from_flat(False, levels, nodes, False)
        assert raised.value.rule == rule


def test_the_json_of_many_nodes_with_long_sizes():
    count = 3000
    chunks = [(y.Hash(m.to_bytes((i, 0, 0, 1))), (2**64 - 1) // count - i) for i in range(count)]
    tree = y.Subtree.from_chunks(False, chunks, False)
    text = tree.to_json()
    assert tree.num_nodes == count and len(text) > 100 * count - 10 and y.Subtree.from_json(text) == tree


def test_the_session():
    session, one, two = y.Session(), seeded(1), seeded(2)
    assert session.put(2, [one, two]) == 2 and session.put(0, [one, two]) == 0
    assert session.finish(4).hex() == "284ea045e5a579e99c21ec597c20de1fc0c09e7168162aac00db8f61b3d82dbb"
    with pytest.raises(y.SessionGap):
        session.finish(3)
    with pytest.raises(y.SessionOverlap):
        session.put(3, [seeded(3)])
    assert list(session) == session.runs() == [(0, session.run(0)[1])] and dict(session)[0].total_size == 600
    assert session.num_runs == 1 and session.run(0)[1] == y.Subtree.from_chunks(False, [one, two] * 2, False)
    assert y.Session().finish(0) == y.Session().root(0) == Z and repr(session) == "<yurewha.Session of 1 runs>"


def test_a_copy_of_a_session():
    session = y.Session()
    session.put(2, [seeded(3), seeded(4)]), session.put(7, [seeded(1)])
    for other in (session.copy(), copy.copy(session), copy.deepcopy(session)):
        assert other.runs() == session.runs() and other.put(0, [seeded(1), seeded(2)]) == 1
        assert other.taken(0) and not session.taken(0)
    assert other.put(4, [seeded(1), seeded(2), seeded(3)]) == 0
    assert other.finish(8) == y.file_hash([seeded(k) for k in (1, 2, 3, 4, 1, 2, 3, 1)])


@pytest.mark.parametrize("copied", [copy.copy, copy.deepcopy, lambda it: it.copy()], ids=["copy", "deepcopy", "method"])
def test_what_can_change_is_copied(copied):
    """The copy changes by itself, and so does what it was copied from."""
    more = y.Subtree.from_chunks(False, numbered(0, 19), False)
    for make, look, change in (
        (lambda: y.Subtree.from_chunks(False, numbered(3, 7), False), y.Subtree.to_json, lambda it: it.merge(more)),
        (y.Session, y.Session.to_json, lambda it: it.put(3, numbered(0, 19))),
        (lambda: y.Hasher(b"a"), y.Hasher.hexdigest, lambda it: it.update(b"b")),
    ):
        one = make()
        other, before = copied(one), look(one)
        change(one)
        assert look(other) == before != look(one)
        change(other)
        assert look(other) == look(one)


@pytest.mark.parametrize("make, name", [(y.Hasher, "yurewha-data"), (y.Hasher.internal_node, "yurewha-internal-node"),
                                        (lambda data: y.Hasher.keyed(bytes(32), data), "blake3-keyed")])
def test_a_copy_of_a_hasher_has_its_key_and_name(make, name):
    one = make(b"a")
    for other in (one, one.copy(), copy.copy(one), copy.deepcopy(one), one.copy().copy()):
        assert other.name == name and repr(other) == f"<yurewha.Hasher {name}, 1 byte>"
        assert other.hash() == make(b"a").hash() and other.count == 1
        assert (other.block_size, other.digest_size) == (64, len(other.digest()))


def by_hand(session):
    """The session, restored by calls."""
    restored, run = y.Session(), session.run_from(0)
    while run is not None:
        restored.push_run(*run)
        run = session.run_from(run[1])
    restored.keep_hashes(session.known_hashes())
    return restored


@pytest.mark.parametrize("restored", [by_hand, lambda session: pickle.loads(pickle.dumps(session))], ids=["by hand", "pickle"])
def test_saved_sessions(restored):
    """Drawn sessions, and the same puts into each and what is restored of it."""
    rng = random.Random(16)
    for _ in range(100):
        session = y.Session()
        for _ in range(rng.randrange(12)):
            try:
                session.put(rng.randrange(100), [seeded(rng.randrange(30)) for _ in range(rng.randrange(20))])
            except y.SessionOverlap:
                pass
        session.keep_hashes([y.Hash.random_from_seed(rng.randrange(60))])
        other = restored(session)
        assert other.runs() == session.runs() and set(other.known_hashes()) == set(session.known_hashes())
        assert len(other.known_hashes()) == len(set(other.known_hashes()))
        for place in filter(lambda place: not session.taken(place), range(120)):
            chunk = seeded(rng.randrange(60))
            assert other.put(place, [chunk]) == session.put(place, [chunk])
        total = session.run_from(0)[1]
        assert total >= 120 and other.finish(total) == session.finish(total) and other.root(total) == session.root(total)


def test_runs_by_position():
    session = y.Session()
    session.put(2, [seeded(3), seeded(4)]), session.put(7, [seeded(1)])
    first, last = (2, 4, session.run(0)[1]), (7, 8, session.run(1)[1])
    assert [session.run_from(place) for place in range(9)] == 4 * [first] + 4 * [last] + [None]
    assert session.run_from(2**64 - 1) is None
