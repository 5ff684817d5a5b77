"""Each exception, and each argument that is refused before it crosses."""

import array
import ast
import itertools
import os
import pickle
import re
import resource
import subprocess
import sys
from pathlib import Path

import pytest

import yurewha as y
from yurewha import _errors, _library

MAX = 2**64 - 1
Z = y.Hash()
ONE = (Z, 1)


def open_tree():
    return y.Subtree.from_chunks(False, [ONE], False)


def closed_tree():
    return y.Subtree.from_chunks(True, [ONE], True)


def session(*positions):
    made = y.Session()
    for position in positions:
        made.put(position, [ONE])
    return made


def great_session(position):
    """A session whose chunk has the most bytes that a chunk can have."""
    made = y.Session()
    made.put(position, [(Z, MAX)])
    return made


def freed():
    tree = open_tree()
    tree.__del__()
    return tree


def freed_session():
    made = session(1)
    made.__del__()
    return made


NODE = (y.Hash.random_from_seed(1), 7)
TREE = y.HashTree([NODE, ONE])
PROOF = TREE.proof(0, 1)


def opened():
    return PROOF.open_root(TREE.root)


def freed_range():
    range_ = opened()
    range_.__del__()
    return range_


def freed_hash_tree():
    tree = y.HashTree([ONE])
    tree.__del__()
    return tree


def freed_index():
    index = y.HashIndex([Z])
    index.__del__()
    return index


def verified(fetch=lambda start, stop: b"", prove=lambda start, stop: PROOF, **options):
    return y.VerifiedFile(TREE.file_hash(), fetch, prove, **options)


def full_hasher():
    """No test can add 2^64 bytes, so the word that is the length of the message is written by hand."""
    hasher = y.Hasher(bytes(12345))
    hasher._state.state[list(hasher._state.state).index(12345)] = MAX
    return hasher


REFUSED = [
    (y.InvalidArguments, lambda: y.Hash(bytes(31))),
    (y.InvalidArguments, lambda: y.Hash.from_bytes(bytes(33))),
    (y.InvalidArguments, lambda: y.Hash.random_from_seed(-1)),
    (y.InvalidArguments, lambda: y.Hash.random_from_seed(MAX + 1)),
    (y.InvalidArguments, lambda: Z % -1),
    (y.InvalidArguments, lambda: Z % (MAX + 1)),
    (y.DivisionByZero, lambda: Z % 0),
    (ZeroDivisionError, lambda: Z % 0),
    (y.InvalidText, lambda: y.Hash.from_hex(63 * "0")),
    (y.InvalidText, lambda: y.Hash.from_hex(65 * "0")),
    (y.InvalidText, lambda: y.Hash.from_hex(62 * "0" + "\u00e9")),
    (y.InvalidText, lambda: y.Hash.from_hex(63 * "0" + "\ud800")),
    (y.InvalidText, lambda: y.Hash.from_base64(42 * "A")),
    (y.InvalidText, lambda: y.Hash.from_base64(42 * "A" + "B")),
    (y.InvalidText, lambda: y.Hash.from_base64(43 * "A" + "=")),
    (y.InvalidArguments, lambda: y.Hasher.keyed(bytes(31))),
    (y.SizeOverflow, lambda: full_hasher().update(b"a")),
    (y.SizeOverflow, lambda: full_hasher().update(bytearray(b"a"))),
    (y.SizeOverflow, lambda: full_hasher().update(bytearray(1 << 21))),
    (y.SizeOverflow, lambda: y.xorb_hash([(Z, MAX), ONE])),
    (y.SizeOverflow, lambda: y.file_hash([(Z, MAX), ONE])),
    (y.SizeOverflow, lambda: y.file_hash([(Z, MAX), ONE], bytes(32))),
    (y.SizeOverflow, lambda: y.Subtree.from_chunks(True, [(Z, MAX), ONE], False)),
    (y.SizeOverflow, lambda: open_tree() + y.Subtree.from_chunks(False, [(Z, MAX)], False)),
    (y.SizeOverflow, lambda: y.Subtree.merge_all([open_tree(), y.Subtree.from_chunks(False, [(Z, MAX)], False)])),
    (y.InvalidArguments, lambda: y.file_hash([], bytes(31))),
    (y.InvalidArguments, lambda: y.file_hash([ONE], bytes(33))),
    (y.InvalidArguments, lambda: y.xorb_hash([(Z, -1)])),
    (y.InvalidArguments, lambda: y.xorb_hash([(Z, MAX + 1)])),
    (y.InvalidArguments, lambda: y.xorb_hash(bytes(39))),
    (y.InvalidArguments, lambda: closed_tree() + open_tree()),
    (y.InvalidArguments, lambda: open_tree() + closed_tree()),
    (y.InvalidArguments, lambda: closed_tree().merge_counted(open_tree())),
    (y.InvalidArguments, lambda: y.Subtree.merge_all([open_tree(), closed_tree()])),
    (y.InvalidArguments, lambda: closed_tree().left(-1)),
    (y.InvalidText, lambda: y.Subtree.from_json("")),
    (y.InvalidText, lambda: y.Subtree.from_json("{")),
    (y.InvalidText, lambda: y.Subtree.from_json(b"\xff")),
    (y.InvalidText, lambda: y.Subtree.from_json('"\ud800"')),
    (y.InvalidJson, lambda: y.Subtree.from_json("[]")),
    (y.InvalidLists, lambda: y.Subtree.from_flat(False, [], [], False)),
    (y.InvalidLists, lambda: y.Subtree.from_flat(False, [(MAX, MAX)], [], False)),
    (y.InvalidArguments, lambda: y.Subtree.from_flat(False, [(-1, 0)], [], False)),
    (y.InvalidArguments, lambda: y.Subtree.from_flat(False, [(MAX + 1, 0)], [], False)),
    (y.InvalidArguments, lambda: y.svg_of([open_tree()], ["a", "b"])),
    (y.SessionOverlap, lambda: session(3).put(2, [ONE, ONE])),
    (y.SessionPositions, lambda: session().put(MAX, [ONE])),
    (y.SessionSizes, lambda: session(3).put(1, [(Z, MAX)])),
    (y.SessionGap, lambda: session(1).finish(1)),
    (y.SessionGap, lambda: session(0).root(2)),
    (y.InvalidArguments, lambda: session().put(-1, [])),
    (y.InvalidArguments, lambda: session().put(MAX + 1, [])),
    (y.InvalidArguments, lambda: session().taken(MAX + 1)),
    (y.InvalidArguments, lambda: session().finish(-1)),
    (y.InvalidArguments, lambda: session(1).run(1)),
    (y.InvalidArguments, lambda: session(1).run(-1)),
    (y.InvalidArguments, lambda: session(1).run_from(-1)),
    (y.InvalidArguments, lambda: session(1).push_run(2, 3, open_tree())),
    (y.InvalidArguments, lambda: session(1).push_run(1, 2, open_tree())),
    (y.InvalidArguments, lambda: session(1).push_run(0, 1, open_tree())),
    (y.InvalidArguments, lambda: session(1).push_run(3, 3, open_tree())),
    (y.InvalidArguments, lambda: session(1).push_run(3, 2, open_tree())),
    (y.InvalidArguments, lambda: session(1).push_run(3, 4, closed_tree())),
    (y.InvalidArguments, lambda: session().push_run(0, 1, y.Subtree.from_chunks(True, [ONE], False))),
    (y.InvalidArguments, lambda: session().push_run(0, 1, y.Subtree.from_chunks(False, [ONE], True))),
    (y.InvalidArguments, lambda: session().push_run(-1, 1, open_tree())),
    (y.InvalidArguments, lambda: session().push_run(0, MAX + 1, open_tree())),
    (y.SizeOverflow, lambda: session(1).push_run(3, 4, y.Subtree.from_chunks(False, [(Z, MAX)], False))),
    (y.InvalidArguments, lambda: session(1).put_range(3, 0, open_tree())),
    (y.InvalidArguments, lambda: session(1).put_range(1, 1, closed_tree())),
    (y.InvalidArguments, lambda: session().put_range(MAX, 1, y.Subtree.from_chunks(True, [ONE], False))),
    (y.InvalidArguments, lambda: session().put_range(0, 1, y.Subtree.from_chunks(False, [ONE], True))),
    (y.InvalidArguments, lambda: session().put_range(-1, 1, open_tree())),
    (y.InvalidArguments, lambda: session().put_range(MAX + 1, 1, open_tree())),
    (y.InvalidArguments, lambda: session().put_range(0, -1, open_tree())),
    (y.InvalidArguments, lambda: session().put_range(0, MAX + 1, open_tree())),
    (y.SessionOverlap, lambda: session(3).put_range(2, 2, y.Subtree.from_chunks(False, [(Z, MAX)], False))),
    (y.SessionOverlap, lambda: session(3).put_range(2, MAX, open_tree())),
    (y.SessionPositions, lambda: session(3).put_range(MAX, 1, y.Subtree.from_chunks(False, [(Z, MAX)], False))),
    (y.SessionPositions, lambda: session(3).put_range(4, MAX - 3, open_tree())),
    (y.SessionSizes, lambda: session(3).put_range(1, 1, y.Subtree.from_chunks(False, [(Z, MAX)], False))),
    (y.SessionOverlap, lambda: session(1, 3).join(session(2, 3))),
    (y.SessionOverlap, lambda: session(3).join(session(2, 3))),
    (y.SessionOverlap, lambda: (lambda one: one.join(one))(session(3))),
    (y.SessionOverlap, lambda: (lambda one: one.join(great_session(3)))(session(3))),
    (y.SessionSizes, lambda: session(3).join(great_session(1))),
    (y.SessionSizes, lambda: great_session(1).join(session(3))),
    (y.SizeOverflow, lambda: y.HashTree([(Z, MAX), ONE])),
    (y.InvalidArguments, lambda: y.HashTree([(Z, -1)])),
    (y.InvalidArguments, lambda: y.HashTree(bytes(39))),
    (y.InvalidArguments, lambda: TREE.proof(0, 0)),
    (y.InvalidArguments, lambda: TREE.proof(0, 3)),
    (y.InvalidArguments, lambda: TREE.proof(-1, 1)),
    (y.InvalidArguments, lambda: TREE.proof(0, MAX + 1)),
    (y.InvalidArguments, lambda: TREE.proof_of_bytes(8, 9)),
    (y.InvalidArguments, lambda: TREE.chunks_at(3, 3)),
    (y.InvalidArguments, lambda: TREE.chunks_at(-1, 3)),
    (y.InvalidArguments, lambda: TREE.bytes_of(2, 2)),
    (y.InvalidArguments, lambda: TREE.bytes_of(0, MAX + 1)),
    (y.InvalidArguments, lambda: TREE.file_hash(bytes(31))),
    (y.InvalidArguments, lambda: PROOF.open(bytes(31))),
    (y.InvalidArguments, lambda: PROOF.open(Z, bytes(33))),
    (y.InvalidArguments, lambda: PROOF.open_root(bytes(33))),
    (y.InvalidArguments, lambda: PROOF.left(-1)),
    (y.InvalidArguments, lambda: PROOF.right(MAX + 1)),
    (y.InvalidArguments, lambda: y.RangeProof.from_flat([(-1, 0)], [])),
    (y.InvalidArguments, lambda: y.RangeProof.from_flat([(0, MAX + 1)], [])),
    (y.InvalidArguments, lambda: y.RangeProof.from_flat([], bytes(39))),
    (y.InvalidProof, lambda: y.RangeProof.from_bytes(bytes(7))),
    (y.InvalidProof, lambda: y.RangeProof.from_bytes(bytes(8))),
    (y.InvalidProof, lambda: y.RangeProof.from_flat([], [])),
    (y.InvalidProof, lambda: y.RangeProof.from_json("[]")),
    (y.InvalidText, lambda: y.RangeProof.from_json("")),
    (y.InvalidText, lambda: y.RangeProof.from_json(b"\xff")),
    (y.InvalidText, lambda: y.RangeProof.from_json('"\ud800"')),
    (y.ProofMismatch, lambda: PROOF.open(Z)),
    (y.ProofMismatch, lambda: PROOF.open(TREE.root)),
    (y.ProofMismatch, lambda: PROOF.open_root(Z)),
    (y.ProofMismatch, lambda: opened().check(0, b"")),
    (y.ProofMismatch, lambda: opened().read(0, 1, b"")),
    (y.InvalidArguments, lambda: opened().check(1, b"")),
    (y.InvalidArguments, lambda: opened().check(-1, b"")),
    (y.InvalidArguments, lambda: opened().begins(1)),
    (y.InvalidArguments, lambda: opened().ends(MAX + 1)),
    (y.InvalidArguments, lambda: opened().read(-1, 1, b"")),
    (y.InvalidArguments, lambda: opened().read(0, MAX + 1, b"")),
    (y.InvalidArguments, lambda: verified(cache_size=-1)),
    (y.InvalidArguments, lambda: verified(chunk_limit=MAX + 1)),
    (y.InvalidArguments, lambda: verified(piece=-1)),
    (y.InvalidArguments, lambda: verified(salt=bytes(31))),
    (y.InvalidArguments, lambda: y.VerifiedFile(bytes(31), print, print)),
    (y.InvalidText, lambda: y.VerifiedFile(63 * "0", print, print)),
    (y.InvalidText, lambda: y.AsyncVerifiedFile("z" + 63 * "0", print, print)),
    (y.InvalidArguments, lambda: verified().seek(0, 3)),
    (y.ProofMismatch, lambda: verified().read(1)),
    (y.InvalidArguments, lambda: session().keep_hashes([bytes(31)])),
    (y.InvalidArguments, lambda: session().keep_hashes(bytes(33))),
    # Handles that were freed by hand, and one that nothing was put in
    *((y.EmptyHandle, call) for call in (
        lambda: y.Subtree.__new__(y.Subtree).num_nodes,
        lambda: freed().at_start,
        lambda: freed().at_end,
        lambda: freed().total_size,
        lambda: freed().num_nodes,
        lambda: freed().num_levels,
        lambda: freed().levels,
        lambda: freed().final_hash(),
        lambda: freed().to_json(),
        lambda: freed().to_flat(),
        lambda: freed().left(0),
        lambda: freed().copy(),
        lambda: freed().svg(),
        lambda: freed() == open_tree(),
        lambda: open_tree() == freed(),
        lambda: freed() + open_tree(),
        lambda: open_tree() + freed(),
        lambda: open_tree().merge_counted(freed()),
        lambda: y.Subtree.merge_all([open_tree(), freed()]),
        lambda: pickle.dumps(freed()),
        lambda: freed_session().put(0, [ONE]),
        lambda: freed_session().taken(0),
        lambda: freed_session().num_runs,
        lambda: freed_session().run(0),
        lambda: freed_session().runs(),
        lambda: freed_session().copy(),
        lambda: freed_session().run_from(0),
        lambda: freed_session().push_run(0, 1, open_tree()),
        lambda: session().push_run(0, 1, freed()),
        lambda: freed_session().put_range(0, 1, open_tree()),
        lambda: session().put_range(0, 1, freed()),
        lambda: session(0).put_range(0, 0, freed()),
        lambda: freed_session().join(session()),
        lambda: session().join(freed_session()),
        lambda: (lambda one: one.join(one))(freed_session()),
        lambda: freed_session().keep_hashes([Z]),
        lambda: freed_session().known_hashes(),
        lambda: pickle.dumps(freed_session()),
        lambda: freed_session().root(0),
        lambda: freed_session().finish(0),
        lambda: freed_hash_tree().root,
        lambda: freed_hash_tree().file_hash(),
        lambda: freed_hash_tree().num_chunks,
        lambda: freed_hash_tree().total_size,
        lambda: freed_hash_tree().chunks_at(0, 1),
        lambda: freed_hash_tree().bytes_of(0, 1),
        lambda: freed_hash_tree().proof(0, 1),
        lambda: freed_hash_tree().proof_of_bytes(0, 1),
        lambda: pickle.dumps(freed_hash_tree()),
        lambda: freed_hash_tree().diff(TREE),
        lambda: TREE.diff(freed_hash_tree()),
        lambda: freed_index().add(Z),
        lambda: freed_index().add_all([Z]),
        lambda: Z in freed_index(),
        lambda: freed_index().contains([Z]),
        lambda: freed_index().number(Z),
        lambda: freed_index().numbers([Z]),
        lambda: freed_index().new([Z]),
        lambda: len(freed_index()),
        lambda: freed_index().hashes(),
        lambda: freed_index() == y.HashIndex(),
        lambda: y.HashIndex() == freed_index(),
        lambda: freed_index().copy(),
        lambda: pickle.dumps(freed_index()),
        lambda: y.OpenedRange.__new__(y.OpenedRange).num_chunks,
        lambda: freed_range().num_chunks,
        lambda: freed_range().file_size,
        lambda: freed_range().begins(0),
        lambda: freed_range().ends(0),
        lambda: freed_range().check(0, b""),
        lambda: freed_range().read(0, 1, b""),
    )),
    # Types
    *((TypeError, call) for call in (
        lambda: y.Hash("00"),
        lambda: y.Hash(7),
        lambda: y.Hash.from_hex(b"00"),
        lambda: y.Hash.from_base64(7),
        lambda: y.Hash.random_from_seed(1.0),
        lambda: y.Hash.random_from_seed("1"),
        lambda: Z.hmac(bytes(32)),
        lambda: Z % 1.5,
        lambda: Z < bytes(32),
        lambda: y.data_hash("abc"),
        lambda: y.internal_node_hash(7),
        lambda: y.Hasher("abc"),
        lambda: y.Hasher.keyed(32 * "0"),
        lambda: y.xorb_hash(7),
        lambda: y.xorb_hash("abc"),
        lambda: y.xorb_hash([7]),
        lambda: y.xorb_hash([(Z, 1, 2)]),
        lambda: y.xorb_hash([(bytearray(32), 1)]),
        lambda: y.xorb_hash([(7, 1)]),
        lambda: y.xorb_hash([(Z, 1.0)]),
        lambda: y.xorb_hash([(Z, "1")]),
        lambda: y.file_hash([ONE], 32 * "0"),
        lambda: y.Subtree(),
        lambda: y.Subtree(True, [], False),
        lambda: y.Subtree.from_chunks(1, [], False),
        lambda: y.Subtree.from_chunks(False, [], None),
        lambda: y.Subtree.from_chunks([], False, False),
        lambda: open_tree() + 1,
        lambda: open_tree().merge(b""),
        lambda: y.Subtree.merge_all([open_tree(), None]),
        lambda: y.Subtree.from_json(7),
        lambda: y.Subtree.from_json({}),
        lambda: y.Subtree.from_flat(0, [], [], False),
        lambda: y.Subtree.from_flat(False, [7], [], False),
        lambda: y.Subtree.from_flat(False, [(1.0, 0)], [], False),
        lambda: hash(open_tree()),
        lambda: y.svg_of([1]),
        lambda: session().put("1", []),
        lambda: session().taken(1.0),
        lambda: session().run_from("0"),
        lambda: session().push_run(0, 1, [ONE]),
        lambda: session().push_run(0, 1.0, open_tree()),
        lambda: session().put_range(0, 1, [ONE]),
        lambda: session().put_range(0, 1, session(3)),
        lambda: session().put_range(0, 1.0, open_tree()),
        lambda: session().put_range("0", 1, open_tree()),
        lambda: session().put_range(0, open_tree(), 1),
        lambda: session().put_range(0, 1),
        lambda: session().join(),
        lambda: session().join(None),
        lambda: session().join(session(3).runs()),
        lambda: session().join(session(3).to_json()),
        lambda: session().join(open_tree()),
        lambda: session().keep_hashes([7]),
        lambda: session().keep_hashes(64 * "0"),
        lambda: pickle.dumps(y.Hasher()),
        lambda: y.HashTree(),
        lambda: y.HashTree(7),
        lambda: y.HashTree("abc"),
        lambda: TREE.proof("0", 1),
        lambda: TREE.proof(0, 1.0),
        lambda: TREE.chunks_at(0, None),
        lambda: TREE.bytes_of(b"", 1),
        lambda: TREE.file_hash(32 * "0"),
        lambda: y.RangeProof(),
        lambda: y.RangeProof([], []),
        lambda: y.RangeProof.from_json(7),
        lambda: y.RangeProof.from_json({}),
        lambda: y.RangeProof.from_flat(7, []),
        lambda: y.RangeProof.from_flat([7], []),
        lambda: y.RangeProof.from_flat([(1.0, 0)], []),
        lambda: y.RangeProof.from_flat([], [7]),
        lambda: y.RangeProof.from_bytes("text"),
        lambda: PROOF.left("0"),
        lambda: PROOF.open(64 * "0"),
        lambda: PROOF.open(None),
        lambda: PROOF.open(Z, 32 * "0"),
        lambda: PROOF.open_root(bytearray(32)),
        lambda: y.OpenedRange(),
        lambda: pickle.dumps(opened()),
        lambda: opened().begins("0"),
        lambda: opened().check(0, "text"),
        lambda: opened().check(0, b"", nobody_writes=1),
        lambda: opened().check(None, b""),
        lambda: opened().read(0, 1, "text"),
        lambda: opened().read(0, 1, b"", nobody_writes=None),
        lambda: opened().read(0.0, 1, b""),
        lambda: y.VerifiedFile(TREE.file_hash(), b"data", TREE.proof),
        lambda: y.VerifiedFile(TREE.file_hash(), print, TREE),
        lambda: y.VerifiedFile(7, print, print),
        lambda: verified(prove=lambda start, stop: PROOF.to_json()).read(1),
        lambda: verified(cache_size="1"),
        lambda: verified().read("1"),
        lambda: verified().seek(None),
        lambda: verified().readinto(b"abc"),
        lambda: pickle.dumps(verified()),
        lambda: type("Other", (y.Hash,), {}),
        lambda: type("Other", (y.Hasher,), {}),
        lambda: type("Other", (y.Chunks,), {}),
        lambda: type("Other", (y.Subtree,), {}),
        lambda: type("Other", (y.Session,), {}),
        lambda: type("Other", (y.HashTree,), {}),
        lambda: type("Other", (y.RangeProof,), {}),
        lambda: type("Other", (y.OpenedRange,), {}),
        lambda: type("Other", (y.VerifiedFile,), {}),
    )),
    (AttributeError, lambda: setattr(y.Hash(), "_raw", b"")),
    (AttributeError, lambda: delattr(y.Hash(), "_raw")),
    (AttributeError, lambda: setattr(y.Chunks(), "_packed", b"")),
    (AttributeError, lambda: setattr(open_tree(), "other", 1)),
    (AttributeError, lambda: setattr(PROOF, "_levels", b"")),
    (AttributeError, lambda: delattr(PROOF, "_nodes")),
    (AttributeError, lambda: setattr(TREE, "other", 1)),
    (IndexError, lambda: y.Chunks([ONE])[1]),
    (IndexError, lambda: y.Chunks([ONE])[-2]),
]


@pytest.mark.parametrize("number", range(len(REFUSED)))
def test_refused(number):
    error, call = REFUSED[number]
    with pytest.raises(error) as raised:
        call()
    if not issubclass(error, (TypeError, AttributeError, IndexError)):
        assert isinstance(raised.value, y.YurewhaError)
    if isinstance(raised.value, y.YurewhaError):
        again = pickle.loads(pickle.dumps(raised.value))
        assert type(again) is type(raised.value) and str(again) == str(raised.value) != ""


def test_a_refusal_changes_nothing():
    tree = closed_tree()
    for other in (open_tree(), closed_tree()):
        with pytest.raises(y.InvalidArguments):
            tree += other
    assert tree == closed_tree()
    one = session(3)
    for first, chunks in ((3, [ONE]), (2, [ONE, ONE]), (MAX, [ONE]), (0, [(Z, MAX)])):
        with pytest.raises(y.SessionError):
            one.put(first, chunks)
    great = y.Subtree.from_chunks(False, [(Z, MAX)], False)
    for first, end, subtree in ((4, 5, open_tree()), (5, 6, closed_tree()), (5, 6, great)):
        with pytest.raises((y.InvalidArguments, y.SizeOverflow)):
            one.push_run(first, end, subtree)
    for first, count, subtree in (
            (4, 0, open_tree()), (4, 1, closed_tree()), (3, 1, open_tree()), (2, 2, open_tree()), (MAX, 1, open_tree()), (0, 1, great)):
        with pytest.raises((y.InvalidArguments, y.SessionError)):
            one.put_range(first, count, subtree)
    for other in (session(3), session(0, 3, 9), great_session(0), one):
        other.keep_hashes([Z] if other is one else [Z, y.Hash.random_from_seed(1)])
        before = other.copy()
        with pytest.raises(y.SessionError):
            one.join(other)
        assert other == before
    assert list(one.known_hashes()) == [Z]
    assert [first for first, _ in one.runs()] == [3] and one.put(7, [ONE]) == 0
    hasher = full_hasher()
    with pytest.raises(y.SizeOverflow):
        hasher.update(bytearray(1 << 21))
    assert hasher.count == MAX


def test_an_error_inside_the_chunks_passes_through():
    def broken():
        yield ONE
        raise LookupError("mine")

    one = session()
    for call in (y.xorb_hash, lambda chunks: one.put(0, chunks)):
        with pytest.raises(LookupError):
            call(broken())
    assert one.num_runs == 0


def test_freed_twice():
    tree = open_tree()
    tree.__del__()
    tree.__del__()
    assert repr(tree) == "<yurewha.Subtree that can't be read>"
    again = y.Subtree.from_chunks(False, [ONE], False)
    assert again.num_nodes == 1
    assert repr(freed_session()) == "<yurewha.Session that can't be read>"
    assert repr(freed_index()) == "<yurewha.HashIndex that can't be read>"


NAMED = [
    ("chunk 2 ", lambda: y.xorb_hash([ONE, ONE, 7])),
    ("chunk 2 must be a pair of a hash and an int, got tuple of 3", lambda: y.xorb_hash([ONE, ONE, (Z, 1, 2)])),
    ("the hash of chunk 2 must be a Hash or 32 bytes, got int", lambda: y.xorb_hash([ONE, ONE, (1, Z)])),
    ("the hash of chunk 1 must be a Hash or 32 bytes, got str", lambda: y.xorb_hash([ONE, (64 * "0", 1)])),
    ("the hash of chunk 1 must have 32 bytes, got 31", lambda: y.xorb_hash([ONE, (bytes(31), 1)])),
    ("the size of chunk 2 ", lambda: y.xorb_hash([ONE, ONE, (Z, -1)])),
    ("the size of chunk 2 ", lambda: y.Chunks([ONE, ONE, (Z, MAX + 1)])),
    ("the size of chunk 1 ", lambda: session().put(0, [ONE, (Z, 1.5), ONE])),
    ("the size of chunk 1 ", lambda: y.Subtree.from_chunks(True, iter([ONE, (Z, None)]), True)),
    ("range 1 must be a Subtree", lambda: y.Subtree.merge_all([open_tree(), None])),
    ("range 1 is at the start", lambda: y.Subtree.merge_all([open_tree(), closed_tree(), open_tree()])),
    ("range 0 is at the end", lambda: y.Subtree.merge_all([closed_tree(), open_tree()])),
    ("level 1 ", lambda: y.Subtree.from_flat(False, [(1, 0), 7], [], False)),
    ("a count of level 1 ", lambda: y.Subtree.from_flat(False, [(1, 0), (0, -1)], [], False)),
    ("picture 1 ", lambda: y.svg_of([open_tree(), 7])),
    ("position 3 is taken", lambda: session(3).put(0, 5 * [ONE])),
    ("hash 1 ", lambda: y.Hashes([Z, 7])),
    ("hash 1 ", lambda: session().keep_hashes([Z, 7])),
    ("the run must have a position, .*, got the positions from 4 up to 5", lambda: session(3).push_run(4, 5, open_tree())),
    ("the run must be a Subtree, got list", lambda: session(3).push_run(5, 6, [ONE])),
    ("position 3 is taken$", lambda: session(3, 5).put_range(0, 5, open_tree())),
    ("position 3 is taken$", lambda: session(2, 3).put_range(3, 1, open_tree())),
    ("the range must have a chunk, .*, got 0 chunks from position 5 on$", lambda: session(3).put_range(5, 0, open_tree())),
    ("the range must have .* no mark at an end, got 1 chunk from position 5 on$", lambda: session(3).put_range(5, 1, closed_tree())),
    ("the range must be a Subtree, got list$", lambda: session(3).put_range(5, 1, [ONE])),
    ("position 5 is taken in both sessions$", lambda: session(3, 5, 9).join(session(0, 4, 5, 9))),
    ("position 4 is taken in both sessions$", lambda: session(2, 3, 4).join(session(4, 9))),
    ("position 3 is taken in both sessions$", lambda: (lambda one: one.join(one))(session(3, 9))),
    ("a Session must be joined with a Session, got Subtree$", lambda: session(3).join(open_tree())),
    ("chunk 1 ", lambda: y.HashTree([ONE, 7])),
    ("level 1 ", lambda: y.RangeProof.from_flat([(1, 0), 7], [])),
    ("a count of level 1 ", lambda: y.RangeProof.from_flat([(1, 0), (0, -1)], [])),
    ("the range has no chunk 1", lambda: opened().check(1, b"")),
    ("this isn't the data of chunk 0", lambda: opened().check(0, b"")),
]


@pytest.mark.parametrize("number", range(len(NAMED)))
def test_an_error_in_a_list_names_its_place(number):
    text, call = NAMED[number]
    with pytest.raises((TypeError, y.YurewhaError), match="^" + text):
        call()


U64 = "must be a whole number from 0 to 2^64 - 1, got"
TOLD = [
    (f"the size of chunk 1 {U64} -3", lambda: y.xorb_hash([ONE, (Z, -3)])),
    (f"the size of chunk 0 {U64} {MAX + 1}", lambda: y.xorb_hash([(Z, MAX + 1)])),
    *((f"size 2 {U64} -3", lambda code=code: y.Chunks.from_columns(4 * [Z], array.array(code, [1, 2, -3, -4]))) for code in "bhilq"),
    (f"size 1 {U64} -3", lambda: y.Chunks.from_columns([Z, Z], [1, -3])),
    (f"number {U64} -3", lambda: y.HashIndex().add(Z, -3)),
    (f"number 1 {U64} {MAX + 1}", lambda: y.HashIndex([Z, Z], [1, MAX + 1])),
    (f"number 2 {U64} -3", lambda: y.HashIndex(4 * [Z], array.array("h", [1, 2, -3, -4]))),
    ("number 1 must be a whole number, got NoneType: it is null", lambda: y.HashIndex([Z, Z], [1, None])),
    ("there must be one number for each hash, got 2 hashes and 1 numbers", lambda: y.HashIndex([Z, Z], [1])),
    ("a HashTree must be compared with a HashTree, got list", lambda: TREE.diff([ONE])),
    ("a column of numbers must have whole numbers, or be a buffer of eight bytes for each, the least first, got 'd': floats, as pandas "
     "makes of numbers with nulls", lambda: y.HashIndex([Z], array.array("d", [1]))),
    (f"position {U64} -1", lambda: session().put(-1, [ONE])),
    (f"position {U64} a number of 5001 bits", lambda: session().taken(1 << 5000)),
    (f"position {U64} a number of 129 bits", lambda: session().taken(1 << 128)),
    (f"position {U64} {2**128 - 1}", lambda: session().taken(2**128 - 1)),
    (f"position {U64} -1", lambda: session().put_range(-1, 1, open_tree())),
    (f"count {U64} -1", lambda: session().put_range(0, -1, open_tree())),
    (f"total {U64} -1", lambda: session().finish(-1)),
    (f"run number {U64} -1", lambda: session().run(-1)),
    ("there is no run 7", lambda: session(3).run(7)),
    (f"level {U64} -1", lambda: open_tree().left(-1)),
    (f"chunk number {U64} -1", lambda: TREE.proof(-1, 1)),
    (f"seed {U64} -1", lambda: y.Hash.random_from_seed(-1)),
    (f"a count of level 0 {U64} -1", lambda: y.Subtree.from_flat(False, [(-1, 0)], [], False)),
    ("the end of a run must be more than its first position 3, got 3", lambda: y.Run(3, 3, open_tree())),
    ("the file has no bytes from 0 up to 1", lambda: y.HashTree([]).proof_of_bytes(0, 1)),
    ("divisor must be at least 1, got 0", lambda: Z % 0),
    ("threads must be at least 1, got 0", lambda: y.data_hashes(b"abc", [0, 3], threads=0)),
    ("whence must be 0, 1 or 2, got a number of 5001 bits", lambda: verified().seek(0, 1 << 5000)),
    ("data must be bytes, or an object that lends its bytes, got NoneType", lambda: y.data_hash(None)),
    ("data must be bytes, or an object that lends its bytes, got str", lambda: opened().check(0, "text")),
    ("fetch must be a callable, got bytes", lambda: y.VerifiedFile(Z, b"data", print)),
    ("prove must return a RangeProof, got str", lambda: verified(prove=lambda start, stop: "text").read(1)),
    ("salt must have 32 bytes, got 31", lambda: y.file_hash([ONE], bytes(31))),
    ("key must have 32 bytes, got 0", lambda: y.Hasher.keyed(b"")),
    ("hash must have 32 bytes, got 33", lambda: y.Hash(bytes(33))),
    ("at_start must be a bool, got int", lambda: y.Subtree.from_chunks(1, [], False)),
    ("key must be a Hash, got bytes", lambda: Z.hmac(bytes(32))),
    ("chunk 0 must be a pair of a hash and an int, got int", lambda: y.xorb_hash([7])),
    ("level 0 must be a pair of numbers, of left and of right nodes, got tuple of 3", lambda: y.RangeProof.from_flat([(1, 2, 3)], [])),
    ("the hex text of a hash must be 64 hex digits, got 'g'", lambda: y.Hash.from_hex("g")),
    (f"the hex text of a hash must be 64 hex digits, got '{64 * 'g'}'", lambda: y.Hash.from_hex(64 * "g")),
    (f"the hex text of a hash must be 64 hex digits, got '{64 * '0'}'..", lambda: y.Hash.from_hex(65 * "0")),
    ("JSON must have no lone surrogate, got one at character 2", lambda: y.Subtree.from_json('{"\ud800"')),
    ("offset 1 must be at least 3, got 2", lambda: y.data_hashes(b"abc", [3, 2])),
    ("the last offset must be at most 3, the number of bytes, got 4", lambda: y.data_hashes(b"abc", [0, 4])),
    ("item 1 must be the number of one of 2 items, got 2", lambda: y.Chunks([ONE, ONE])[[0, 2]]),
    ("there must be a bool for each of 2 items, got 1", lambda: y.Chunks([ONE, ONE])[[True]]),
    ("there must be at most 1 captions, one for each subtree, got 2", lambda: y.svg_of([open_tree()], ["a", "b"])),
]


@pytest.mark.parametrize("number", range(len(TOLD)))
def test_an_error_says_what_must_be_and_what_it_got(number):
    text, call = TOLD[number]
    with pytest.raises((TypeError, IndexError, y.YurewhaError)) as raised:
        call()
    assert str(raised.value) == text


RULE_AS_FACT = re.compile(
    r", not |, and there (?:is|are) |there (?:is|are) at |(?<!must )\b(?:is|are|has|have|isn't) "
    r"(?:an? |the )?(?:whole|str|bool|Hash|pair|Subtree|callable|list|array|object)")


def test_an_array_is_told_by_its_type():
    """Though it isn't compared as a number is."""
    numpy = pytest.importorskip("numpy")
    with pytest.raises(TypeError, match="^key must be a Hash, got ndarray$"):
        Z.hmac(numpy.zeros(2))


def test_no_error_states_a_rule_as_a_fact():
    """A text like "a size is a whole number, not float" would be the text of no value but the right one."""
    for path in sorted(Path(y.__file__).parent.glob("*.py")):
        raised = [node for node in ast.walk(ast.parse(path.read_text())) if isinstance(node, ast.Raise)]
        texts = [node.value for each in raised for node in ast.walk(each) if isinstance(node, ast.Constant) and isinstance(node.value, str)]
        assert [text for text in texts if RULE_AS_FACT.search(text)] == [], path.name


class Changing:
    """A number that is another one each time."""

    def __init__(self, *numbers):
        self.numbers = list(numbers)

    def __index__(self):
        return self.numbers.pop(0) if len(self.numbers) > 1 else self.numbers[0]


def test_numbers_that_change():
    """A call takes a number that it was given, or refuses one, by a named error."""
    for bad in (-1, MAX + 1, -MAX):
        assert y.Chunks([(Z, Changing(bad, 7))]) == y.Chunks([(Z, 7)])
        assert list(y.Chunks.from_columns([Z], [Changing(bad, 7)]).sizes) == [7]
        for call in (lambda: y.Chunks([(Z, Changing(bad, bad))]), lambda: y.xorb_hash([ONE, (Z, Changing(bad))])):
            with pytest.raises(y.InvalidArguments, match="^the size of chunk"):
                call()
        with pytest.raises(y.InvalidArguments, match="^size 1 must be"):
            y.Chunks.from_columns([Z, Z], [1, Changing(bad)])
        for call in (lambda: session(1).taken(Changing(bad, 1)), lambda: session(1).gaps(Changing(bad, 1)),
                     lambda: session(1).put(Changing(bad, 0), [ONE]), lambda: Z % Changing(bad, 1)):
            with pytest.raises(y.InvalidArguments):
                call()
    chunks = y.Chunks([ONE, ONE])
    for place in (Changing(2, 0), Changing(-3, 0)):
        with pytest.raises(IndexError, match=f"^there is no item {place.numbers[0]} in"):
            chunks[place]
    assert y.data_hashes(b"abc", [Changing(0, 9), Changing(3, 9)]) == y.data_hashes(b"abc", [0, 3])


def at_depth(depth, call):
    return call() if depth == 0 else at_depth(depth - 1, call)


def deep_calls():
    """Calls of each kind, by what they return."""
    chunks = y.Chunks(30 * [(y.Hash.random_from_seed(1), 7)])
    tree, closed, one = (y.Subtree.from_chunks(False, chunks, False), closed_tree(), session(3, 9))
    great, text = bytearray((1 << 20) + 17), one.to_json()
    file = y.HashTree([(y.data_hash(great), len(great))])
    file_range = file.proof(0, 1).open_root(file.root)
    kept = y.VerifiedFile(file.file_hash(), lambda start, stop: great, file.proof_of_bytes, chunk_limit=len(great))
    kept.read(7)
    return [
        lambda: y.Hash(bytearray(32)), Z.hex, lambda: y.Hash.from_hex(64 * "0"), Z.base64, lambda: Z.hmac(Z), lambda: Z % 3,
        lambda: Z < Z, lambda: y.data_hash(great), lambda: y.internal_node_hash(memoryview(b"abc")[1:]),
        lambda: y.Hasher(great).copy().digest(), lambda: y.Hasher.keyed(bytes(32)).count,
        lambda: y.data_hashes(great, [0, 3, 1 << 20]), lambda: y.data_hashes(bytes(20_000), [0, 20_000]),
        lambda: y.Chunks.from_columns(chunks.hashes, chunks.sizes), lambda: y.xorb_hash(chunks),
        lambda: y.file_hash(chunks, bytes(32)), lambda: y.find_stable_start(chunks), lambda: closed.file_hash(bytes(32)),
        lambda: y.Subtree.from_chunks(False, chunks, True) == tree, lambda: (tree + tree).total_size,
        lambda: y.Subtree.merge_all([tree, tree]).levels, lambda: tree.copy().merge_counted(tree),
        lambda: y.Subtree.from_json(tree.to_json()).levels, lambda: y.Subtree.from_flat(*tree.to_flat()).levels,
        lambda: tree.svg("a"), lambda: repr(tree), lambda: pickle.loads(pickle.dumps(tree)).levels,
        lambda: session(3, 4).num_runs, lambda: one.taken(3), lambda: one.runs() == one.copy().runs(), lambda: one.run(1).end,
        lambda: one.run_from(0)[:2], lambda: one.gaps(20), lambda: session(0).finish(1, bytes(32)), one.known_hashes,
        lambda: pickle.loads(pickle.dumps(one)).num_runs, lambda: y.Session.from_json(text).to_json(),
        lambda: one.copy().keep_hashes([Z]), lambda: one.copy().push_run(20, 50, tree), lambda: one.copy().put_range(20, 30, tree),
        lambda: one.copy().join(session(4, 5)),
        lambda: y.HashTree(chunks).root, lambda: TREE.file_hash(bytes(32)), lambda: TREE.proof_of_bytes(0, 7) == PROOF,
        lambda: TREE.bytes_of(0, 2), lambda: y.RangeProof.from_json(PROOF.to_json()).left(0),
        lambda: y.RangeProof.from_flat(*PROOF.to_flat()).chunks, lambda: y.RangeProof.from_bytes(PROOF.to_bytes()).right(0),
        lambda: repr(opened()), lambda: opened().ends(0), lambda: file_range.check(0, memoryview(great)),
        lambda: file_range.read(3, 5, great).tobytes(), lambda: pickle.loads(pickle.dumps(PROOF)).levels,
        lambda: y.VerifiedFile(file.file_hash(), lambda start, stop: great, file.proof_of_bytes, chunk_limit=len(great)).read(7),
        lambda: y.HashIndex(chunks.hashes, range(30)).numbers([Z, NODE[0]]), lambda: (NODE[0] in y.HashIndex(chunks.hashes)),
        lambda: y.HashIndex([Z], [7]).copy().number(Z), lambda: pickle.loads(pickle.dumps(y.HashIndex([Z], [7]))).add(Z),
        lambda: TREE.diff(file),
        lambda: y.data_hash(b"abc"), lambda: y.Hasher(b"abc").count, lambda: kept.read_at(3, 5), lambda: str(Z), lambda: y.Hash() > y.Hash(),
    ]


@pytest.mark.parametrize("number", range(len(deep_calls())))
def test_a_stack_that_ends_anywhere(number):
    """A call returns what it should, or raises Python's own error. No buffer is kept, and nothing changes."""
    block = bytearray(b"abc")
    call = deep_calls()[number]
    expected, ended, ignored = call(), 0, []
    hook, sys.unraisablehook = sys.unraisablehook, lambda told: ignored.append(f"{told.err_msg}: {told.exc_value!r}")
    try:
        for depth in range(sys.getrecursionlimit() - 60, sys.getrecursionlimit()):
            for each in (call, lambda: y.data_hash(block)):
                try:
                    answer = at_depth(depth, each)
                    assert each is not call or answer == expected
                except RecursionError:
                    ended += 1
    finally:
        sys.unraisablehook = hook
    block.append(0)
    assert ended and not ignored and call() == expected


def test_what_the_exceptions_are():
    for error in (y.InvalidArguments, y.SizeOverflow, y.InvalidText, y.BrokenRule, y.InvalidJson, y.InvalidLists, y.InvalidProof,
                  y.ProofMismatch, y.SessionOverlap, y.SessionPositions, y.SessionSizes, y.SessionGap, y.EmptyHandle):
        assert issubclass(error, y.YurewhaError) and issubclass(error, ValueError)
    assert issubclass(y.ReentrantCall, RuntimeError) and issubclass(y.ReentrantCall, y.YurewhaError)
    assert issubclass(y.OutOfMemory, MemoryError) and issubclass(y.OutOfMemory, y.YurewhaError)
    of_status = {status: type(_errors.error_of(status)) for status in range(1, 60)}
    assert of_status[1] is y.InvalidArguments and of_status[2] is y.SizeOverflow and of_status[3] is y.OutOfMemory
    assert of_status[4] is y.InvalidText and of_status[6] is y.EmptyHandle
    assert [of_status[status] for status in range(17, 30)] == 13 * [y.InvalidJson]
    assert of_status[33] is y.SessionOverlap and of_status[34] is y.SessionPositions and of_status[37] is y.SessionGap
    assert all(of_status[status] is y.YurewhaError for status in (5, 8, 16, 30, 35, 36, 40, 48, 57))
    assert str(_errors.error_of(8)) == "the library returned status 8 (unknown status), which this call doesn't have"
    assert of_status[7] is y.ProofMismatch and [of_status[status] for status in range(49, 57)] == 8 * [y.InvalidProof]
    assert not issubclass(y.ProofMismatch, OSError)
    of_rules = (y.InvalidJson, y.InvalidLists, y.InvalidProof)
    assert all(issubclass(error, y.BrokenRule) for error in of_rules)
    assert not any(issubclass(error, other) for error, other in itertools.permutations(of_rules, 2))
    assert str(y.InvalidProof(7)) == "invalid range proof: rule 7: a side of a level has more than 8 nodes"
    assert str(y.InvalidProof(9)) == "invalid range proof: rule 9: no such rule"
    assert str(y.InvalidJson(6)) == "invalid JSON: rule 6: the counts don't add up to the number of nodes"
    assert str(y.InvalidJson(14)) == "invalid JSON: rule 14: no such rule"
    assert str(y.InvalidLists(6)) == "invalid flat lists: rule 6: the counts don't add up to the number of nodes"
    assert str(y.InvalidLists(14)) == "invalid flat lists: rule 14: no such rule"


EMPTY = '{"at_end":true,"at_start":true,"levels":%s,"nodes":[]}'
RUN = '{"runs":[{"first":0,"end":1,"chunks":%s}],"known_hashes":[]}'


def rebuilt(value, end):
    """What a pickle makes of a value, without the last bytes of its nodes."""
    make, arguments = value.__reduce__()
    return make(*(it[:end] if isinstance(it, bytes) else it for it in arguments))


BROKEN_RULES = [
    (y.InvalidJson, "invalid JSON: rule 5: ", lambda: y.Subtree.from_json(EMPTY % "[]")),
    (y.InvalidJson, "invalid JSON: rule 5: ", lambda: y.Session.from_json(RUN % (EMPTY % "[]"))),
    (y.InvalidLists, "invalid flat lists: rule 5: ", lambda: y.Subtree.from_flat(True, [], [], True)),
    (y.InvalidLists, "invalid flat lists: rule 6: ", lambda: y.Subtree.from_flat(True, [(1, 0)], [], True)),
    (y.InvalidLists, "invalid flat lists: rule 6: ", lambda: rebuilt(open_tree(), -40)),
    (y.InvalidProof, "invalid range proof: rule 1: ", lambda: y.RangeProof.from_json("[]")),
    (y.InvalidProof, "invalid range proof: rule 5: ", lambda: y.RangeProof.from_flat([], [])),
    (y.InvalidProof, "invalid range proof: rule 5: ", lambda: y.RangeProof.from_bytes(bytes(8))),
    (y.InvalidProof, "invalid range proof: rule 5: ", lambda: rebuilt(PROOF, -40)),
]


@pytest.mark.parametrize("number", range(len(BROKEN_RULES)))
def test_errors_of_broken_rules(number):
    """Each error names what broke the rule, and `except BrokenRule` catches them all."""
    error, text, call = BROKEN_RULES[number]
    with pytest.raises(y.BrokenRule, match=f"^{text}") as raised:
        call()
    assert type(raised.value) is error and f"rule {raised.value.rule}: " in text


OUT_OF_MEMORY = """
import resource, sys
sys.path[:0] = {path!r}
import yurewha as y
count = 1_000_000
chunks = y.Chunks(b"".join(i.to_bytes(24, "little") + b"\\1" + bytes(7) + b"\\1" + bytes(7) for i in range(count)))
tree = y.Subtree.from_chunks(False, chunks, False)
other = y.Subtree.from_chunks(False, [(y.Hash(), 1)], False)
session, full, hashes, numbers, index = y.Session(), y.Session(), chunks.hashes, bytes(8 * count), y.HashIndex([y.Hash()], [7])
full.put(0, chunks)
hash_tree = y.HashTree(chunks)
proof = hash_tree.proof(0, count)
pages = int(open("/proc/self/statm").read().split()[0])
resource.setrlimit(resource.RLIMIT_AS, (pages * resource.getpagesize() + (8 << 20), resource.RLIM_INFINITY))
calls = [
    lambda: y.Subtree.from_chunks(False, chunks, False),
    lambda: tree.copy(),
    lambda: tree + other,
    lambda: y.xorb_hash(chunks),
    lambda: y.file_hash(chunks),
    lambda: session.put(0, chunks),
    lambda: full.copy(),
    lambda: session.push_run(0, count, tree),
    lambda: session.put_range(0, count, tree),
    lambda: session.join(full),
    lambda: session.keep_hashes(hashes),
    lambda: index.add_all(hashes, numbers),
    lambda: y.Subtree.merge_all([tree, tree]),
    lambda: y.HashTree(chunks),
    lambda: proof.open_root(hash_tree.root),
    lambda: proof.open(hash_tree.file_hash()),
]
for number, call in enumerate(calls):
    try:
        call()
    except y.OutOfMemory as error:
        assert isinstance(error, MemoryError) and "out of memory" in str(error)
    else:
        raise AssertionError("call %d wasn't refused" % number)
for call in (lambda: hash_tree.proof(0, count), proof.to_json):  # Python has no memory for what the library writes to
    try:
        call()
    except MemoryError:
        pass
    else:
        raise AssertionError("a call wasn't refused")
assert list(index) == [y.Hash()] and index.number(y.Hash()) == 7
assert tree.num_nodes == count and session.num_runs == 0 and len(session.known_hashes()) == 0
assert hash_tree.proof(7, 8).open_root(hash_tree.root).begins(0) == 7
print("refused", len(calls))
"""


@pytest.mark.skipif(not Path("/proc/self/statm").exists(), reason="it needs /proc")
def test_out_of_memory():
    # Large blocks that are freed go back to the system, so that no later call finds them. Nor does a thread find room that was set
    # aside for threads before.
    environment = {**os.environ, "MALLOC_MMAP_THRESHOLD_": "65536", "MALLOC_TRIM_THRESHOLD_": "65536", "MALLOC_ARENA_MAX": "1"}
    done = subprocess.run(
        [sys.executable, "-c", OUT_OF_MEMORY.format(path=sys.path)], capture_output=True, text=True, check=False,
        env=environment)
    assert done.stdout == "refused 16\n", done.stderr


def test_no_leak():
    """Many objects, merges and refusals, and the process is no greater."""
    chunks = y.Chunks([(y.Hash.random_from_seed(i), 1) for i in range(100)])

    def round_():
        for _ in range(300):
            tree = y.Subtree.from_chunks(False, chunks, False)
            tree += tree
            y.Subtree.merge_all([tree, tree, y.Subtree.from_json(tree.to_json())])
            pickle.loads(pickle.dumps(tree))
            one = y.Session()
            one.put(0, chunks)
            one.runs()
            pickle.loads(pickle.dumps(one)).put_range(200, 100, y.Subtree.from_chunks(False, chunks, False))
            other = y.Session()
            other.put(300, chunks)
            other.join(one)
            y.Hasher(bytes(1000)).copy().digest()
            hash_tree = y.HashTree(chunks)
            pickle.loads(pickle.dumps(y.HashIndex(chunks.hashes, chunks.sizes))).numbers(chunks.hashes)
            hash_tree.diff(y.HashTree(chunks[1:]))
            proof = y.RangeProof.from_json(hash_tree.proof(7, 20).to_json())
            pickle.loads(pickle.dumps(proof)).open_root(hash_tree.root).begins(3)
            for call in (lambda: tree + closed_tree(), lambda: y.Subtree.from_json("[]"), lambda: proof.open(Z),
                         lambda: y.RangeProof.from_json("[]"), lambda: proof.open_root(hash_tree.root).read(0, 1, b"a")):
                with pytest.raises(ValueError):
                    call()

    round_()
    before = resource.getrusage(resource.RUSAGE_SELF).ru_maxrss
    for _ in range(4):
        round_()
    assert resource.getrusage(resource.RUSAGE_SELF).ru_maxrss - before < 2048


def test_the_library_is_the_one_that_was_asked_for():
    assert _library.NAME in _library.PATH
