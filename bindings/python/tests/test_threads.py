"""Threads with objects of their own, and with shared ones."""

import contextlib
import ctypes
import functools
import gc
import itertools
import pickle
import random
import signal
import sys
import threading
import time

import pytest
from counting import losing

import yurewha as y
from yurewha import _declarations, _guard, _hash, _hash_index, _library


def run(*calls):
    """All at once; what one of them raises is raised."""
    raised = []

    def guarded(call):
        try:
            call()
        except BaseException as error:
            raised.append(error)

    threads = [threading.Thread(target=guarded, args=(call,)) for call in calls]
    for thread in threads:
        thread.start()
    for thread in threads:
        thread.join(120)
        assert not thread.is_alive(), "a thread waits for ever"
    if raised:
        raise raised[0]


#: So many bytes of a block that others may change are taken in several copies.
LONG = (3 << 20) + 17


def block(seed, count):
    made = bytearray(random.Random(seed).randbytes(40 * count))
    for place in range(35, 40):
        made[place::40] = bytes(count)
    return y.Chunks(made)


def test_objects_of_their_own():
    def work(seed):
        chunks = block(seed, 2000)
        root = y.xorb_hash(chunks)
        for _ in range(5):
            tree = y.Subtree.from_chunks(True, chunks[:100], False)
            for at in range(100, 2000, 100):
                tree += y.Subtree.from_chunks(False, chunks[at:at + 100], at == 1900)
            assert tree.final_hash() == root
            session = y.Session()
            for at in random.Random(seed).sample(range(0, 2000, 200), 10):
                session.put(at, chunks[at:at + 200])
            assert session.root(2000) == root

    run(*(lambda seed=seed: work(seed) for seed in range(8)))


def test_one_subtree_shared():
    chunks = block(1, 3000)
    empty = y.Subtree.from_chunks(False, [], False)
    shared = y.Subtree.from_chunks(False, chunks, False)
    as_it_was = shared.copy()
    one = y.Subtree.from_chunks(False, chunks[:100], False)
    grown = y.Subtree.from_chunks(False, [], False)

    def look():
        for _ in range(30):
            assert shared.to_json() == text and shared == as_it_was and shared.num_nodes == nodes
            assert y.Subtree.from_flat(*shared.to_flat()) == as_it_was and shared.copy() == shared

    def change():
        nonlocal shared
        for _ in range(200):
            shared.merge(empty)
            empty.merge(empty)
            grown.merge(one)

    text, nodes = shared.to_json(), shared.num_nodes
    run(*(4 * [look] + 4 * [change]))
    assert shared == as_it_was
    assert grown == y.Subtree.merge_all(800 * [one])


def test_two_subtrees_merged_both_ways():
    empty, other = (y.Subtree.from_chunks(False, [], False) for _ in range(2))
    one = y.Subtree.from_chunks(False, block(3, 500), False)

    def there():
        for _ in range(300):
            empty.merge(other)
            assert y.Subtree.merge_all([one, empty, one, other]).num_nodes > 0

    def back():
        for _ in range(300):
            other.merge(empty)
            assert y.Subtree.merge_all([other, one, empty, one]) == one + one
            assert one != other

    run(there, back, there, back)


def test_two_hash_trees_compared_both_ways():
    chunks = block(9, 600)
    one, other = y.HashTree(chunks), y.HashTree(chunks[:300] + chunks[301:])

    def there():
        for _ in range(300):
            assert one.diff(other)[:3] == (300, 301, 300) and one.diff(one) is None

    def back():
        for _ in range(300):
            assert other.diff(one)[:3] == (300, 300, 301)

    run(there, back, there, back)


def test_one_hasher_shared():
    hasher = y.Hasher()
    piece = bytes(5000)

    def feed():
        for _ in range(100):
            hasher.update(piece)
            hasher.update(bytearray(piece))
            hasher.copy().update(b"lost")
        hasher.update(bytearray(LONG))

    run(*(8 * [feed]))
    assert hasher.count == 8 * (100 * 10_000 + LONG)
    assert hasher.hash() == y.data_hash(bytes(hasher.count))


def test_one_session_shared():
    chunks = block(4, 8000)
    session = y.Session()

    def put(thread):
        for at in range(100 * thread, 8000, 800):
            session.put(at, chunks[at:at + 100])
            assert session.taken(at)
            session.runs()

    run(*(lambda thread=thread: put(thread) for thread in range(8)))
    assert session.num_runs == 1 and session.root(8000) == y.xorb_hash(chunks)


def test_parts_put_and_joined_by_threads():
    """Some threads put ranges, and the others join sessions."""
    chunks = block(5, 8000)
    session = y.Session(keep_hashes=False)

    def put(thread):
        for at in range(100 * thread, 8000, 800):
            if at % 200:
                session.put_range(at, 100, y.Subtree.from_chunks(False, chunks[at:at + 100], False))
            else:
                other = y.Session()
                other.put(at, chunks[at:at + 100])
                assert session.join(other) == 100 and other.num_chunks == 100
            with pytest.raises(y.SessionOverlap, match=f"^position {at} is taken"):
                session.put_range(at, 100, y.Subtree.from_chunks(False, chunks[at:at + 100], False))

    run(*(lambda thread=thread: put(thread) for thread in range(8)))
    assert session.num_runs == 1 and session.root(8000) == y.xorb_hash(chunks) and session.num_chunks == 8000


def test_two_sessions_joined_both_ways():
    """Each of them has a part. Once one has both parts, they have a part in common."""
    def halves():
        one, other = y.Session(), y.Session()
        one.put(0, block(6, 10)), other.put(10, block(7, 10))
        return one, other

    pairs = [halves() for _ in range(300)]
    joined = []

    def join(turned):
        for one, other in pairs:
            try:
                joined.append(other.join(one) if turned else one.join(other))
            except y.SessionOverlap:
                pass

    run(*(lambda turned=turned: join(turned) for turned in (False, True, False, True)))
    assert joined == 300 * [10] and {max(one.num_chunks, other.num_chunks) for one, other in pairs} == {20}


def test_one_hash_tree_and_one_opened_range_shared():
    data = [bytes([number]) * 1000 for number in range(200)]
    tree = y.HashTree([(y.data_hash(it), len(it)) for it in data])
    proofs = [tree.proof(number, number + 20) for number in range(180)]
    opened, name = proofs[50].open(tree.file_hash()), tree.file_hash()

    def prove(thread):
        for number in range(thread, 180, 8):
            proof = tree.proof_of_bytes(1000 * number, 1000 * (number + 20))
            assert proof == proofs[number] == y.RangeProof.from_json(proof.to_json())
            assert tree.proof(number, number + 20).open(name).begins(3) == 1000 * (number + 3)

    def check(thread):
        for number in range(20):
            assert opened.check(number, data[50 + number]) == opened.begins(number) == 1000 * (50 + number)
            assert opened.read(50_000, 70_000, b"".join(data[50:70]))[:1] == bytes([50])

    run(*(lambda thread=thread, call=call: call(thread) for thread in range(8) for call in (prove, check)))


class Noted:
    """A lock that notes how often it was taken, and how often it is held."""

    def __init__(self, lock):
        self.lock, self.taken, self.held = lock, 0, 0

    def __enter__(self):
        self.lock.acquire()
        self.taken, self.held = self.taken + 1, self.held + 1

    def __exit__(self, *_):
        self.held -= 1
        self.lock.release()

    def _is_owned(self):
        return self.lock._is_owned()


def handle_of(item):
    return item._state if isinstance(item, (y.Hasher, y.Chunker)) else item._handle


def gets(item, arguments):
    """Whether a call of the library with these arguments gets the object's handle, by itself or in an array of handles."""
    handle = handle_of(item)
    return any(
        argument is handle or getattr(argument, "_obj", None) is handle or (
            isinstance(argument, ctypes.Array) and argument._type_ is _library.CSubtree
            and handle.at in [element.at for element in argument])
        for argument in arguments)


def subtrees():
    return y.Subtree.from_chunks(False, block(1, 40), False), y.Subtree.from_chunks(False, block(2, 2000), False)


def sessions():
    one, other = y.Session(), y.Session()
    one.put(0, block(1, 20)), one.put(30, block(2, 20)), other.put(60, block(3, 700))
    return one, other


def two_sessions():
    return sessions()


DATA = bytes(20_000)
CHUNKS_OF_DATA = [(y.data_hash(DATA), len(DATA)), (y.data_hash(b"abc"), 3)]


def trees():
    return (y.HashTree(CHUNKS_OF_DATA),)


def two_trees():
    return y.HashTree(block(1, 40)), y.HashTree(block(1, 300))


def indexes():
    return y.HashIndex(block(1, 20).hashes, range(20)), y.HashIndex(block(2, 300).hashes)


def ranges():
    tree = y.HashTree(CHUNKS_OF_DATA)
    return (tree.proof(0, 2).open_root(tree.root),)


def hashers():
    return (y.Hasher(b"abc"),)


def chunkers():
    return (y.Chunker(),)


def hashers_of_files():
    return (y.FileHasher(b"abc"),)


def refused(call, *arguments):
    """Makes a call that finds a position taken."""
    with pytest.raises(y.SessionOverlap):
        call(*arguments)


#: How the objects of a call are made, and calls with them.
USES = {
    subtrees: [
        lambda one, other: one.at_start, lambda one, other: one.at_end, lambda one, other: one.total_size,
        lambda one, other: one.num_nodes, lambda one, other: one.num_levels, lambda one, other: one.is_empty,
        lambda one, other: one.levels, lambda one, other: one.left(0), lambda one, other: one.right(0),
        lambda one, other: one.final_hash(), lambda one, other: one.file_hash(), lambda one, other: one.merge(other),
        lambda one, other: other.merge(one), lambda one, other: one.merge_counted(other), lambda one, other: one + other,
        lambda one, other: y.Subtree.merge_all([one, other]), lambda one, other: one.copy(), lambda one, other: one == other,
        lambda one, other: one.to_json(), lambda one, other: one.to_flat(), lambda one, other: pickle.dumps(one),
        lambda one, other: repr(one), lambda one, other: one.svg(), lambda one, other: y.Session().push_run(0, 1, one),
        lambda one, other: y.Session().put_range(0, 1, one)],
    sessions: [
        lambda one, other: one.put(20, block(3, 3)), lambda one, other: one.taken(3), lambda one, other: one.num_runs,
        lambda one, other: one.num_chunks, lambda one, other: one.total_size, lambda one, other: one.gaps(70),
        lambda one, other: one.run(0), lambda one, other: one.runs(), lambda one, other: one.run_from(0),
        lambda one, other: list(one), lambda one, other: other.copy(), lambda one, other: one.known_hashes(),
        lambda one, other: one.push_run(*other.run_from(0)), lambda one, other: one.keep_hashes(other.known_hashes()),
        lambda one, other: one.put_range(20, 10, other.run(0).subtree),
        lambda one, other: refused(one.put_range, 29, 2, other.run(0).subtree),
        lambda one, other: one.to_json(), lambda one, other: pickle.dumps(one), lambda one, other: repr(one)],
    two_sessions: [
        lambda one, other: one.join(other), lambda one, other: other.join(one), lambda one, other: refused(one.join, one),
        lambda one, other: refused(other.copy().join, other), lambda one, other: y.Session().join(other)],
    trees: [
        lambda tree: tree.root, lambda tree: tree.file_hash(), lambda tree: tree.num_chunks, lambda tree: tree.total_size,
        lambda tree: tree.chunks_at(0, 7), lambda tree: tree.bytes_of(0, 2), lambda tree: tree.proof(0, 2),
        lambda tree: tree.proof_of_bytes(0, 7), lambda tree: pickle.dumps(tree), repr],
    two_trees: [lambda one, other: one.diff(other), lambda one, other: other.diff(one), lambda one, other: one.diff(one)],
    indexes: [
        lambda one, other: one.add(y.Hash(), 7), lambda one, other: one.add_all(block(2, 300).hashes, range(300)),
        lambda one, other: y.Hash() in one, lambda one, other: one.contains(block(2, 300).hashes), lambda one, other: one.number(y.Hash()),
        lambda one, other: one.numbers([y.Hash()]), lambda one, other: one.new([y.Hash()]), lambda one, other: other.hashes(),
        lambda one, other: len(one), lambda one, other: list(one), lambda one, other: one == other, lambda one, other: one.copy(),
        lambda one, other: pickle.dumps(other), lambda one, other: repr(one)],
    ranges: [
        lambda range_: range_.file_size, lambda range_: range_.num_chunks, lambda range_: range_.begins(1),
        lambda range_: range_.ends(1), lambda range_: range_.check(0, DATA), lambda range_: range_.check(1, bytearray(b"abc")),
        lambda range_: range_.read(0, 7, DATA + b"abc"), lambda range_: range_.read(0, 7, bytearray(DATA + b"abc")),
        repr],
    hashers: [
        lambda hasher: hasher.update(b"abc"), lambda hasher: hasher.update(DATA), lambda hasher: hasher.update(bytearray(LONG)),
        lambda hasher: hasher.count, lambda hasher: hasher.hash(), lambda hasher: hasher.hexdigest(), repr],
    chunkers: [
        lambda chunker: chunker.next_boundary(b"abc"), lambda chunker: chunker.next_boundary(DATA),
        lambda chunker: chunker.next_boundary(bytearray(LONG)), lambda chunker: chunker.taken, repr],
    hashers_of_files: [
        lambda hasher: hasher.update(b"abc"), lambda hasher: hasher.update(DATA), lambda hasher: hasher.update(bytearray(LONG)),
        lambda hasher: hasher.size, lambda hasher: hasher.root(), lambda hasher: hasher.file_hash(),
        lambda hasher: hasher.file_hash(bytes(32)), sys.getsizeof, repr],
}


@pytest.mark.parametrize("make, number", [(make, number) for make, calls in USES.items() for number in range(len(calls))])
def test_each_call_with_a_handle_is_made_under_its_lock(monkeypatch, make, number):
    """So no two threads use one handle at once."""
    items, unlocked = make(), []
    for item in items:
        item._lock = Noted(item._lock)
    for calls in (_library.short, _library.long, _library.bare):
        for name in _declarations.DECLARATIONS:
            def spied(*arguments, call=getattr(calls, name), told=name):
                if any(gets(item, arguments) and not item._lock.held for item in items):
                    unlocked.append(told)
                return call(*arguments)
            monkeypatch.setattr(calls, name, spied)
    update = _hash.update_as_given

    def spied_update(*arguments):
        if not all(item._lock.held for item in items):
            unlocked.append("update_as_given")
        return update(*arguments)

    def spied_find(*arguments, call=_hash_index.find_as_given):
        if not any(gets(item, arguments) and item._lock.held for item in items):
            unlocked.append("find_as_given")
        return call(*arguments)

    monkeypatch.setattr(_hash, "update_as_given", spied_update)
    monkeypatch.setattr(_hash_index, "find_as_given", spied_find)
    USES[make][number](*items)
    assert unlocked == [] and any(item._lock.taken for item in items) and all(item._lock.held == 0 for item in items)


@pytest.mark.parametrize("make", USES)
def test_a_copy_is_taken_under_the_lock(make):
    item = make()[0]
    item._lock = Noted(item._lock)
    if hasattr(item, "copy"):
        item.copy()
        assert item._lock.taken > 0 == item._lock.held


@pytest.mark.parametrize("by_hand", [False, True])
@pytest.mark.parametrize("make", [subtrees, sessions, trees, indexes, ranges, hashers_of_files])
def test_an_object_is_freed_once_and_under_its_lock(monkeypatch, make, by_hand):
    item = make()[0]
    item._lock = lock = Noted(item._lock)
    kind, freed, plain = type(item), [], type(item)._free
    monkeypatch.setattr(kind, "_free", staticmethod(
        lambda handle: (freed.append(lock.held) if handle.at and lock.taken else None, plain(handle))))
    if by_hand:
        item.__del__()
        assert freed == [1] and not item._handle.at
    else:
        monkeypatch.setattr(lock, "taken", 1)
    del item
    gc.collect()
    assert freed == [1]


class Ordered(Noted):
    """A lock that no thread takes while it has one that comes later."""

    later: tuple = ()

    def __enter__(self):
        assert self.held or not any(lock.held for lock in self.later), "another thread may have the one lock, and wait for the other"
        super().__enter__()


@pytest.mark.parametrize("turned", [False, True])
@pytest.mark.parametrize("make, number", [
    (make, number) for make in (subtrees, two_sessions, two_trees, indexes) for number in range(len(USES[make]))])
def test_a_call_takes_two_locks_in_one_order(make, number, turned):
    """Whichever object comes first in it. Else two threads might wait for each other."""
    first, last = items = sorted(make(), key=id)
    for item in items:
        item._lock = Ordered(item._lock)
    first._lock.later = (last._lock,)
    USES[make][number](*(reversed(items) if turned else items))
    assert first._lock.held == last._lock.held == 0 < first._lock.taken + last._lock.taken


def test_threads_take_two_locks_in_one_order():
    """Whichever object comes first in a call. Else two threads might wait for each other."""
    one, other = subtrees()
    assert _guard.both_locked(one, other) == _guard.both_locked(other, one) == tuple(
        item._lock for item in sorted((one, other), key=id))
    taken = []

    class Named(Noted):
        def __init__(self, lock, name):
            super().__init__(lock)
            self.name = name

        def __enter__(self):
            taken.append(self.name)
            super().__enter__()

    items = [y.Subtree.from_chunks(False, block(seed, 3), False) for seed in range(10)]
    for item in items:
        item._lock = Named(item._lock, id(item))
    for given in (items, items[::-1], items[5:] + items[:5]):
        taken.clear()
        with _guard.all_locked(given):
            assert all(item._lock.held == 1 for item in items)
        assert taken == sorted(map(id, items)) and all(item._lock.held == 0 for item in items)


def test_locks_are_given_back_if_one_of_them_is_refused():
    *items, last = sorted((y.Subtree.from_chunks(False, block(seed, 3), False) for seed in range(10)), key=id)
    for item in items:
        item._lock = Noted(item._lock)
    holds, ends = threading.Event(), threading.Event()

    def hold():
        with last._lock:
            holds.set()
            ends.wait()

    thread = threading.Thread(target=hold)
    thread.start()
    holds.wait()
    last._generation = -1  # as in a process that was forked while the thread had it
    try:
        with pytest.raises(y.InUseAtFork):
            _guard.all_locked([last, *items])
    finally:
        ends.set()
        thread.join()
    assert [(item._lock.taken, item._lock.held) for item in items] == 9 * [(1, 0)]


def test_a_block_changed_by_another_thread():
    """What comes out is the hash of some bytes; nothing else is promised."""
    block_ = bytearray(40 * 2000)
    tree = y.HashTree([(y.data_hash(block_), len(block_))])
    opened = tree.proof(0, 1).open_root(tree.root)
    stop = threading.Event()

    def write():
        while not stop.is_set():
            block_[32::40] = random.randbytes(2000)
            block_[24::40] = random.randbytes(2000)
            time.sleep(0)

    def read():
        try:
            for _ in range(100):
                y.Subtree.from_chunks(False, block_, False)
                y.data_hash(block_)
                with contextlib.suppress(y.ProofMismatch):
                    opened.check(0, block_)
                with contextlib.suppress(y.ProofMismatch):
                    assert y.data_hash(opened.read(0, len(block_), block_)) == tree.root  # of what was checked, in a copy
        finally:
            stop.set()

    run(write, read)


def test_long_calls_give_up_the_interpreter():
    """Another thread goes on while a long call runs."""
    chunks = block(5, 1_000_000)
    steps, done = [], threading.Event()

    def long_call():
        y.xorb_hash(chunks)
        done.set()

    def count():
        while not done.is_set():
            steps.append(None)
            time.sleep(0.001)

    run(long_call, count)
    assert len(steps) > 5


@pytest.mark.filterwarnings("ignore::pytest.PytestUnraisableExceptionWarning")  # a handler may raise in __del__ too
def test_signals_that_use_the_object_or_end_the_call():
    """A handler runs between any two steps; it uses the same objects, and raises now and then."""
    with losing():
        use_objects_between_signals()


def use_objects_between_signals():
    class Ended(Exception):
        pass

    chunks = block(6, 300)
    one, other = (y.Subtree.from_chunks(False, chunks, False) for _ in range(2))
    expected, twice = one.copy(), one + other
    empty, session, hasher = y.Subtree.from_chunks(False, b"", False), y.Session(), y.Hasher()
    rng, count = random.Random(7), [0, 0]

    def handler(number, frame):
        count[0] += 1
        one.merge(empty)
        assert y.Subtree.merge_all([other, one]) == twice and one.to_flat() == expected.to_flat()
        hasher.update(b"a")
        session.put(count[0], chunks[:1])
        if rng.random() < 0.5:
            raise Ended

    before = signal.signal(signal.SIGALRM, handler)
    try:
        began = time.monotonic()
        # Three seconds; where the machine is busy, until there were as many signals as are asked for below.
        while time.monotonic() < began + 3 or (min(count[0], 5 * count[1]) <= 50 and time.monotonic() < began + 120):
            try:
                signal.setitimer(signal.ITIMER_REAL, 0.0005 + rng.random() / 1000)
                for _ in range(20):
                    y.Subtree.merge_all([one, other, one])
                    pickle.loads(pickle.dumps(one)).merge(other)
                    other.merge(empty)
                    other.copy().merge_counted(one)
                    session.runs()
                    hasher.copy().update(bytearray(3000))
                    y.Subtree.from_json(one.to_json())
            except Ended:
                count[1] += 1
            finally:
                signal.setitimer(signal.ITIMER_REAL, 0)
    finally:
        signal.setitimer(signal.ITIMER_REAL, 0)
        signal.signal(signal.SIGALRM, before)
    assert count[0] > 50 and count[1] > 10
    assert one == other == expected and one + other == twice
    assert 0 < session.num_runs <= count[0] and hasher.count <= count[0]


@contextlib.contextmanager
def handled(number, handler):
    before = signal.signal(number, handler)
    try:
        yield
    finally:
        signal.signal(number, before)


@pytest.mark.parametrize("given", [b"a", bytearray(b"a"), bytearray(LONG)], ids=["bytes", "bytearray", "long"])
@pytest.mark.parametrize("under_way", [b"abc", bytearray(b"abc"), bytearray(LONG)], ids=["bytes", "bytearray", "long"])
def test_a_handlers_update_counts_or_is_refused(monkeypatch, under_way, given):
    """The handler runs within the other update, before its first piece."""
    hasher, taken, refused, interrupted = y.Hasher(b"first"), [], [], []

    def handler(number, frame):
        try:
            hasher.update(given)
            taken.append(bytes(given))
        except y.ReentrantCall:
            refused.append(hasher.hash())

    def spied(state, *piece, plain):
        if piece[0] and not interrupted:
            interrupted.append(True)
            signal.raise_signal(signal.SIGUSR1)
        return plain(state, *piece)

    with handled(signal.SIGUSR1, handler):
        for name in ("_add", "update_as_given"):
            monkeypatch.setattr(_hash, name, functools.partial(spied, plain=getattr(_hash, name)))
        hasher.update(under_way)
        monkeypatch.undo()
    assert len(taken) + len(refused) == 1
    assert hasher.hash() == y.data_hash(b"first" + b"".join(taken) + bytes(under_way))
    assert refused == (len(under_way) == LONG) * [y.data_hash(b"first")]


def test_a_handler_that_ends_a_long_update(monkeypatch):
    hasher = y.Hasher(b"first")

    class Ended(Exception):
        pass

    def handler(number, frame):
        raise Ended

    def add(state, *piece, plain=_hash._add):
        plain(state, *piece)
        if piece[0]:
            signal.raise_signal(signal.SIGUSR1)

    with handled(signal.SIGUSR1, handler):
        monkeypatch.setattr(_hash, "_add", add)
        with pytest.raises(Ended):
            hasher.update(bytearray(LONG))
        monkeypatch.undo()
    assert hasher.hash() == y.data_hash(b"first")
    hasher.update(bytearray(LONG))
    hasher.update(b"last")
    assert hasher.hash() == y.data_hash(b"first" + bytes(LONG) + b"last")


@contextlib.contextmanager
def put_by_signals(session):
    """A handler puts a chunk every half millisecond, after a gap. After ten seconds it raises, once."""
    began, places = time.monotonic(), itertools.count(1 << 40, 2)

    def handler(number, frame):
        if time.monotonic() > began + 10:
            signal.setitimer(signal.ITIMER_REAL, 0)
            raise TimeoutError("the call doesn't end")
        place = next(places)
        session.put(place, [(y.Hash.random_from_seed(place), 1)])

    with handled(signal.SIGALRM, handler):
        signal.setitimer(signal.ITIMER_REAL, 0.0005, 0.0005)
        try:
            yield
        finally:
            signal.setitimer(signal.ITIMER_REAL, 0)


READS = {
    "list": list,
    "runs": y.Session.runs,
    "pickle": lambda session: pickle.loads(pickle.dumps(session)).runs(),
    "known hashes": lambda session: [session.known_hashes() for _ in range(500)],
    "to_json": lambda session: y.Session.from_json(session.to_json()).runs(),
    "gaps": lambda session: session.gaps(1 << 30),
}


@pytest.mark.parametrize("read", READS)
def test_reading_a_session_ends_although_a_handler_keeps_putting(read):
    session = y.Session()
    for place in range(0, 6000, 2):
        session.put(place, [(y.Hash(), 1)])
    with put_by_signals(session):
        assert len(READS[read](session)) > 0
    assert session.num_runs > 3000


def test_reading_a_subtree_ends_although_a_handler_keeps_merging():
    """The signal comes after each look at the number of nodes. The lists and the text are of one moment."""
    one = y.Subtree.from_chunks(False, [(y.Hash.random_from_seed(7), 1)], False)
    tree, count = one.copy(), [0]

    def trace(frame, event, argument):
        if event == "return" and frame.f_code.co_name == "num_nodes":
            count[0] += 1
            if count[0] > 1000:
                raise TimeoutError("the call doesn't end")
            signal.raise_signal(signal.SIGUSR1)

    with handled(signal.SIGUSR1, lambda number, frame: tree.merge(one)):
        sys.setprofile(trace)
        try:
            flat, text = tree.to_flat(), tree.to_json()
        finally:
            sys.setprofile(None)
    assert y.Subtree.from_flat(*flat).total_size == 1 and y.Subtree.from_json(text).total_size == 2
    assert tree.total_size == 3 and count[0] == 2


def test_what_is_read_is_of_one_moment(monkeypatch):
    """The handler puts what joins the first two of three runs, after one of them was looked at."""
    session, chunks = y.Session(), block(8, 3)
    for place in range(3):
        session.put(2 * place, chunks[place:place + 1])
    looked = []

    def look(self, plain=y.Session._walk):
        for found in plain(self):
            looked.append(found)
            if len(looked) == 1:
                signal.raise_signal(signal.SIGUSR1)
            yield found

    with handled(signal.SIGUSR1, lambda number, frame: session.put(1, [(y.Hash.random_from_seed(1), 1)])):
        monkeypatch.setattr(y.Session, "_walk", look)
        runs = session.runs()
        monkeypatch.undo()
    assert [first for first, _ in runs] == [0, 4] and runs == session.runs()


def test_a_range_that_is_given_twice_is_of_one_moment(monkeypatch):
    """Somebody merges into it before the call has its lock."""
    one, more = (y.Subtree.from_chunks(False, block(seed, 5), False) for seed in (8, 9))
    expected = (one + more) + (one + more)
    given = [one, one]

    def late(items, plain=_guard.all_locked):
        if given:
            given.clear()
            one.merge(more)
        return plain(items)

    monkeypatch.setattr("yurewha._subtree.all_locked", late)
    assert y.Subtree.merge_all([*given]) == expected and given == []


def test_a_subtree_added_to_itself_is_of_one_moment(monkeypatch):
    """Somebody merges into it after it was copied."""
    one, more = (y.Subtree.from_chunks(False, block(seed, 5), False) for seed in (8, 9))
    expected, plain = one + one.copy(), y.Subtree.copy

    def late(self):
        copied = plain(self)
        if self is one:
            one.merge(more)
        return copied

    monkeypatch.setattr(y.Subtree, "copy", late)
    assert one + one == expected


def test_the_text_of_a_subtree_is_of_one_moment(monkeypatch):
    """Somebody merges into it after its levels were read."""
    one, more = (y.Subtree.from_chunks(False, block(seed, 5), False) for seed in (8, 9))
    before, changed = repr(one), []

    def late(self, plain=y.Subtree._to_flat):
        flat = plain(self)
        changed.append(one.merge(more))
        return flat

    monkeypatch.setattr(y.Subtree, "_to_flat", late)
    assert repr(one) == before and len(changed) == 1
    monkeypatch.undo()
    assert repr(one) != before


@pytest.mark.parametrize("change", [
    lambda session: session.put(5, block(8, 1)), lambda session: session.push_run(5, 6, y.Subtree.from_chunks(False, block(8, 1), False)),
    lambda session: session.put_range(5, 1, y.Subtree.from_chunks(False, block(8, 1), False)), lambda session: session.join(sessions()[0]),
    lambda session: session.keep_hashes([y.Hash()])], ids=["put", "push_run", "put_range", "join", "keep_hashes"])
def test_each_change_by_a_handler_is_seen(change):
    """Whoever reads runs one after another looks whether something was changed meanwhile."""
    session = y.Session()
    before = session._changes
    assert not session.num_runs and session._changes == before
    change(session)
    assert session._changes > before


def test_a_pickle_while_a_handler_puts(monkeypatch):
    """The handler puts a chunk after the runs were looked at. The pickle has neither its run nor its hash."""
    session, chunks = y.Session(), block(8, 2)
    session.put(0, chunks[:1])

    def look(self, plain=y.Session._walk):
        yield from plain(self)
        signal.raise_signal(signal.SIGUSR1)

    with handled(signal.SIGUSR1, lambda number, frame: session.put(5, chunks[1:])):
        monkeypatch.setattr(y.Session, "_walk", look)
        pickled = pickle.dumps(session)
        monkeypatch.undo()
    read = pickle.loads(pickled)
    assert session.num_runs == 2 and read.num_runs == len(read.known_hashes()) == 1


def test_json_while_a_handler_puts(monkeypatch):
    """The handler puts chunks after the room for the text was computed, which is then too small. The text has them all."""
    session, chunks = y.Session(), block(8, 3000)
    session.put(0, chunks[:1])

    def look(self, plain=y.Session._num_known):
        known = plain(self)
        signal.raise_signal(signal.SIGUSR1)
        return known

    with handled(signal.SIGUSR1, lambda number, frame: session.taken(5) or session.put(5, chunks[1:])):
        monkeypatch.setattr(y.Session, "_num_known", look)
        text = session._to_json(True)
        monkeypatch.undo()
    read = y.Session.from_json(text)
    assert len(text) > 200_000 and session.num_runs == read.num_runs == 2 and len(read.known_hashes()) == 3000


def test_no_update_by_a_handler_is_lost():
    """Signals by the clock, at any place of the other updates."""
    hasher, counts = y.Hasher(), {"taken": 0, "refused": 0}
    data = bytearray(LONG)

    def handler(number, frame):
        try:
            hasher.update(b"a")
            counts["taken"] += 1
        except y.ReentrantCall:
            counts["refused"] += 1

    long_ones, began = 0, time.monotonic()
    with handled(signal.SIGALRM, handler):
        try:
            while sum(counts.values()) < 100 and time.monotonic() < began + 60:
                signal.setitimer(signal.ITIMER_REAL, 0.0005, 0.0005)
                hasher.update(data)
                hasher.update(b"bc")
                long_ones += 1
        finally:
            signal.setitimer(signal.ITIMER_REAL, 0)
    assert sum(counts.values()) >= 100
    assert hasher.count == long_ones * (LONG + 2) + counts["taken"]
