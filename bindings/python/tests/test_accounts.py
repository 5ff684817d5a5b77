"""What an object says of its memory, beside what an allocator counts; and the texts by which Dask knows equal values."""

import contextlib
import copy
import gc
import pickle
import random
import sys
import threading

import pytest
from counting import counts
from drawn import MAX
from test_threads import block

import yurewha as y
from yurewha import _hash_index, _session

CHUNKS = block(91, 40_000)
Z = y.Hash()


def put(*lengths, keep_hashes=True, apart=1):
    """A session of runs of these lengths."""
    session, place, first = y.Session(keep_hashes=keep_hashes), 0, 0
    for length in lengths:
        session.put(place, CHUNKS[first:first + length])
        place, first = place + length + apart, (first + length) % 20_000
    return session


def ranges(count, length, apart=1, place=0):
    """A session of so many ranges of this length."""
    session = y.Session()
    for number in range(count):
        first = length * number
        session.put_range(place + first + apart * number, length, y.Subtree.from_chunks(False, CHUNKS[first:first + length], False))
    return session


def joined(one, other):
    one.join(other)
    return one


def merged(step):
    return y.Subtree.merge_all([y.Subtree.from_chunks(False, CHUNKS[at:at + step], False) for at in range(0, len(CHUNKS), step)])


def opened(count):
    tree = y.HashTree(CHUNKS[:count])
    return tree.proof(0, count).open_root(tree.root)


def hasher_of_file(count):
    """A hasher of so many MiB, which came one by one."""
    hasher, rng = y.FileHasher(b"a"), random.Random(96)
    for _ in range(count):
        hasher.update(rng.randbytes(1 << 20))
    return hasher


#: Objects, and how far what they say may be from what is counted.
OBJECTS = {
    **{f"HashTree of {count}": (lambda count=count: y.HashTree(CHUNKS[:count]), 0.1) for count in (100, 1000, 40_000)},
    **{f"HashIndex of {count}": (lambda count=count: y.HashIndex(CHUNKS.hashes[:count], range(count)), 0.1)
       for count in (20, 1000, 1152, 1153, 20_000, 40_000)},
    "HashIndex by parts": (
        lambda: [index := y.HashIndex(), [index.add_all(CHUNKS.hashes[at:at + 100]) for at in range(0, 40_000, 100)]][0], 0.1),
    "pickled HashIndex": (lambda: pickle.loads(pickle.dumps(y.HashIndex(CHUNKS.hashes))), 0.1),
    **{f"Session of {count}": (lambda count=count: put(count), 0.1) for count in (50, 1000, 1153, 20_000, 40_000)},
    "Session by parts": (lambda: put(*400 * [100], apart=0), 0.1),
    "Session of hashes": (lambda: [session := y.Session(), session.keep_hashes(CHUNKS.hashes)][0], 0.1),
    "pickled Session": (lambda: pickle.loads(pickle.dumps(put(20_000))), 0.1),
    "copied Session": (lambda: put(20_000).copy(), 0.5),  # a copy has no room for hashes that may come
    "Session of short runs": (lambda: put(*20_000 * [1], keep_hashes=False), 0.2),
    "Session of runs": (lambda: put(*100 * [200], keep_hashes=False), 0.2),
    "Session of long runs": (lambda: put(*10 * [2000], keep_hashes=False), 0.2),
    "Session of ranges": (lambda: ranges(100, 200), 0.2),
    "Session of adjacent ranges": (lambda: ranges(100, 200, apart=0), 0.2),
    "joined Session": (lambda: joined(put(*50 * [200]), ranges(50, 200, place=20_000)), 0.5),
    **{f"Subtree of {count}": (lambda count=count: y.Subtree.from_chunks(False, CHUNKS[:count], False), 0.15)
       for count in (500, 5000, 40_000)},
    "Subtree without stable points": (lambda: y.Subtree.from_chunks(False, [(Z, 1)] * 20_000, False), 0.1),
    "merged Subtree": (lambda: merged(1000), 0.15),
    "pickled Subtree": (lambda: pickle.loads(pickle.dumps(merged(500))), 0.15),
    **{f"FileHasher of {count} MiB": (lambda count=count: hasher_of_file(count), tolerance)
       for count, tolerance in ((0, 0.1), (50, 0.5), (400, 0.1))},
    **{f"OpenedRange of {count}": (lambda count=count: opened(count), 0.2) for count in (100, 40_000)},
}


@pytest.mark.skipif(counts is None, reason="nothing counts the library's memory")
@pytest.mark.parametrize("name", OBJECTS)
def test_an_object_says_about_what_the_library_has_for_it(name):
    make, tolerance = OBJECTS[name]
    gc.collect()
    before = counts.live_bytes()
    made = make()
    gc.collect()
    held, said = counts.live_bytes() - before, sys.getsizeof(made) - object.__sizeof__(made)
    assert held and abs(said / held - 1) <= tolerance + 0.02, (said, held)


def test_runs_of_many_lengths_are_looked_at(monkeypatch):
    """All of a few runs, and some of many, because a look at one copies it."""
    looked, run = [], y.Session.run
    monkeypatch.setattr(y.Session, "run", lambda self, number: looked.append(number) or run(self, number))
    few, many = put(1, 1, 2000, keep_hashes=False), put(*[1, 300] * 50, keep_hashes=False)
    assert sys.getsizeof(few) > y.Subtree.__sizeof__(few.run(2).subtree) and looked == [2]
    looked.clear()
    said = sys.getsizeof(many)
    assert looked == [number * 100 // 16 for number in range(16)] and said > 25 * y.Subtree.__sizeof__(many.run(1).subtree)


def test_an_object_says_what_python_has_for_it():
    proof, hashes = y.HashTree(CHUNKS).proof(5, 20_000), CHUNKS.hashes
    assert 40 * 40_000 < sys.getsizeof(CHUNKS) < 40 * 40_000 + 200 and 32 * 40_000 < sys.getsizeof(hashes) < 32 * 40_000 + 200
    assert len(proof.to_bytes()) - 100 < sys.getsizeof(proof) < len(proof.to_bytes()) + 500
    data = bytes(100_000)
    tree = y.HashTree([(y.data_hash(data), len(data))])
    for kind in (y.VerifiedFile, y.AsyncVerifiedFile):
        file = kind(tree.file_hash(), lambda start, stop: data[start:stop], tree.proof_of_bytes)
        before = sys.getsizeof(file)
        read = file.read_at(0, 5)
        if kind is y.AsyncVerifiedFile:
            with pytest.raises(StopIteration):
                read.send(None)
        assert before < 1000 and 100_000 <= sys.getsizeof(file) - before < 101_000


@pytest.mark.parametrize("make", [lambda: y.HashTree(CHUNKS), lambda: y.HashIndex(CHUNKS.hashes), lambda: put(1000), lambda: merged(500),
                                  lambda: opened(50), lambda: hasher_of_file(0)])
def test_a_freed_object_says_its_own_size(make):
    one = make()
    full = sys.getsizeof(one)
    one.__del__()
    assert sys.getsizeof(one) < 200 < full


def test_dask_accounts_for_objects():
    sizeof = pytest.importorskip("dask.sizeof").sizeof
    for one in (CHUNKS, CHUNKS.hashes, y.HashTree(CHUNKS), y.HashIndex(CHUNKS.hashes), put(40_000), opened(40_000)):
        assert sizeof(one) == sys.getsizeof(one) > 32 * len(CHUNKS)


# ---- Many chunks at once

@pytest.fixture
def small_pieces(monkeypatch):
    for module in (_session, _hash_index):
        monkeypatch.setattr(module, "AT_ONCE", 10)


def in_a_thread(call):
    """What a call returns or raises in another thread than the main one."""
    told = []

    def work():
        try:
            told.append(call())
        except Exception as error:
            told.append(error)

    thread = threading.Thread(target=work)
    thread.start(), thread.join(60)
    if isinstance(told[0], Exception):
        raise told[0]
    return told[0]


@pytest.mark.parametrize("keeps", [True, False])
@pytest.mark.parametrize("count", [0, 1, 9, 10, 11, 20, 21, 300])
def test_pieces_are_one_put(small_pieces, count, keeps):
    rng = random.Random(count)
    for first in (0, 7, MAX - count):
        chunks = y.Chunks([CHUNKS[rng.randrange(200)] for _ in range(count)])
        one, other = y.Session(keep_hashes=keeps), y.Session(keep_hashes=keeps)
        assert one.put(first, chunks) == other._put_each(first, chunks.packed) == len(set(chunks.hashes))
        assert one == other and one.num_runs == (count > 0) and one.keeps_hashes == keeps
        assert count == 0 or one.run(0) == y.Run(first, first + count, y.Subtree.from_chunks(False, chunks, False))
        assert set(one.known_hashes()) == (set(chunks.hashes) if keeps else set())
        index = y.HashIndex(chunks.hashes, range(count))
        assert index == [other := y.HashIndex(), other.add_all(chunks.hashes, range(count))][0]


@pytest.mark.parametrize("keeps", [True, False])
def test_what_pieces_refuse_is_refused_as_one_put(small_pieces, keeps):
    session = y.Session(keep_hashes=keeps)
    for first, sizes, error in (
            (MAX - 24, [1] * 25, y.SessionPositions), (MAX, [1] * 25, y.SessionPositions), (0, [1] * 24 + [MAX], y.SessionSizes)):
        with pytest.raises(error):
            session.put(first, y.Chunks.from_columns(CHUNKS.hashes[:25], sizes))
        assert session == y.Session() and not session.contains(CHUNKS.hashes[:25]).count(True) and session.num_runs == 0
    session.put(30, CHUNKS[:1])
    with pytest.raises(y.SessionOverlap, match="^position 30 is taken$"):
        session.put(0, CHUNKS[:40])
    for hashes, numbers in ((CHUNKS.hashes[:25], range(24)), (CHUNKS.hashes[:24], range(25))):
        with pytest.raises(y.InvalidArguments, match=f"one number for each hash, got {len(hashes)} hashes and {len(numbers)} numbers"):
            y.HashIndex(hashes, numbers)


def test_what_is_put_between_pieces_is_not_lost(small_pieces, monkeypatch):
    """A finalizer may run there. In the main thread handlers may, so that it puts all at once."""
    session, between = y.Session(), []

    def each(other, *given, plain=y.Session._put_each):
        between.append(session.put(1000, CHUNKS[:1]))
        return plain(other, *given)

    monkeypatch.setattr(y.Session, "_put_each", each)
    assert in_a_thread(lambda: session.put(0, CHUNKS[:50])) == 49 and between == [1]
    assert [(run.first, run.end) for run in session.runs()] == [(0, 50), (1000, 1001)]
    empty = y.Session()
    assert empty._put_in_pieces(0, CHUNKS[:50].packed, 50) is None and between == [1] and empty == y.Session()


#: As many as there are places in a table of hashes.
COUNT = 9 << 15
#: What takes many chunks, and how many bytes for each it may take beside what stays.
OF_MANY = {
    "Session.put": (lambda chunks: [session := y.Session(), session.put(0, chunks)][0], 10),
    "Session.put without hashes": (lambda chunks: [session := y.Session(keep_hashes=False), session.put(0, chunks)][0], 110),
    "HashIndex": (lambda chunks: y.HashIndex(chunks.hashes), 10),
    "restored Session": (lambda chunks: y.Session._restored([], chunks.hashes), 10),
    "HashTree": (lambda chunks: y.HashTree(chunks), 5),
    "Subtree.from_chunks": (lambda chunks: y.Subtree.from_chunks(False, chunks, False), 20),
}


@pytest.mark.skipif(counts is None, reason="nothing counts the library's memory")
@pytest.mark.parametrize("name", OF_MANY)
def test_many_chunks_take_little_memory_beside_what_stays(name):
    make, most = OF_MANY[name]
    chunks = block(93, COUNT)
    gc.collect()
    before = counts.live_bytes()
    counts.count_anew(-1)
    made = make(chunks)
    assert made is not None and (counts.most_bytes() - counts.live_bytes()) / COUNT <= most, (counts.live_bytes() - before) / COUNT


@pytest.mark.skipif(counts is None, reason="nothing counts the library's memory")
@pytest.mark.parametrize("keeps", [True, False])
def test_a_put_in_pieces_that_gets_no_memory_changes_nothing(small_pieces, keeps):
    """Each request is refused once, and all after it. The session then takes the chunks as before."""
    chunks, raised = CHUNKS[:60], 0
    for granted in range(10_000):
        session = y.Session(keep_hashes=keeps)
        counts.count_anew(granted)
        try:
            with contextlib.suppress(y.OutOfMemory):
                assert session.put(0, chunks) == 60
                break
        finally:
            counts.count_anew(-1)
        raised += 1
        assert session == y.Session() and session.num_runs == 0 and session.keeps_hashes == keeps
        assert session.put(0, chunks) == 60 and session.run(0).end == 60
    assert raised > 20 and session.num_chunks == 60


# ---- Texts of values

def sessions(*places, **options):
    made = y.Session(**options)
    for place in places:
        made.put(place, CHUNKS[place:place + 1])
    return made


TREE = y.HashTree(CHUNKS[:50])
#: By kind, values of which no two are equal.
VALUES = {
    "Hash": lambda: [y.Hash(), *CHUNKS.hashes[:20]],
    "Hashes": lambda: [y.Hashes(), y.Hashes([Z]), y.Hashes([Z, Z]), CHUNKS.hashes[:5], CHUNKS.hashes[:5][::-1]],
    "Chunks": lambda: [y.Chunks(), y.Chunks([(Z, 0)]), y.Chunks([(Z, 1)]), y.Chunks([(Z, 0)] * 2), CHUNKS[:4], CHUNKS],
    "Subtree": lambda: [y.Subtree.from_chunks(start, CHUNKS[:count], end) for count in (0, 1, 2, 3000) for start in (False, True)
                        for end in (False, True)],
    "Session": lambda: [sessions(), sessions(keep_hashes=False), sessions(0), sessions(1), sessions(0, 1), sessions(0, 2), put(3000),
                        put(3000, keep_hashes=False),
                        sessions(0, keep_hashes=False)],
    "HashTree": lambda: [y.HashTree(CHUNKS[:count]) for count in (0, 1, 2, 3000)] + [y.HashTree([(Z, 0)]), y.HashTree([(Z, 1)])],
    "HashIndex": lambda: [y.HashIndex(), y.HashIndex([Z]), y.HashIndex([Z], [1]), y.HashIndex(CHUNKS.hashes),
                          y.HashIndex(CHUNKS.hashes[1:])],
    "RangeProof": lambda: [TREE.proof(first, end) for first in range(3) for end in range(first + 1, 50, 9)],
    "Difference": lambda: [TREE.diff(y.HashTree(CHUNKS[:count])) for count in (0, 7, 60)],
    "Flat": lambda: [y.Subtree.from_chunks(mark, CHUNKS[:count], mark).to_flat() for count in (0, 1, 100) for mark in (False, True)],
    "Run": lambda: [y.Run(first, first + 2, y.Subtree.from_chunks(False, CHUNKS[:count], False)) for first in (0, 1) for count in (2, 3)],
}


@pytest.mark.parametrize("kind", VALUES)
def test_equal_values_have_one_text_for_dask(kind):
    tokenize = pytest.importorskip("dask.base").tokenize
    values, again = VALUES[kind](), VALUES[kind]()
    texts = [tokenize(value) for value in values]
    assert len(set(texts)) == len(texts) == len(values)
    for value, other, text in zip(values, again, texts):
        assert value == other and tokenize(other) == tokenize(pickle.loads(pickle.dumps(value))) == tokenize(copy.copy(value)) == text
        assert tokenize([value]) == tokenize([other]) != text


def test_the_text_does_not_tell_how_a_value_was_made():
    tokenize, rng = pytest.importorskip("dask.base").tokenize, random.Random(92)
    places = list(range(60))
    for _ in range(5):
        rng.shuffle(places)
        assert tokenize(sessions(*places)) == tokenize(put(60))
        index = y.HashIndex()
        for place in places:
            index.add(CHUNKS[place][0], place)
        assert tokenize(index) == tokenize(y.HashIndex(CHUNKS.hashes[:60], range(60)))
    assert tokenize(merged(100)) == tokenize(merged(7000)) == tokenize(y.Subtree.from_chunks(False, CHUNKS, False))
    kinds = [y.Hashes(), y.Chunks(), y.Session(), y.HashIndex(), y.HashTree([]), y.Subtree.merge_all([]), y.Hash()]
    assert len({tokenize(one) for one in kinds}) == len(kinds)
