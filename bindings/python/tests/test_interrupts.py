"""Ctrl-C, and any other signal handler that raises, ends each call that takes long, and nothing is left half done."""

import _thread
import contextlib
import functools
import gc
import random
import signal
import sys
import threading
import time
import types

import pytest
from drawn import MAX

import yurewha as y
from yurewha import _declarations, _hash, _hashes, _in_threads, _interrupts, _lent, _library

pytestmark = pytest.mark.skipif(not hasattr(signal, "setitimer"), reason="there are no timers")

COUNT = 2 * _interrupts.MANY_NODES
#: A handler has to end a call so many seconds after the signal. The tests allow for a busy machine, too.
SOON, SLACK = 0.2, 0.8


class Ended(Exception):
    """What the handler raises."""


@pytest.fixture(scope="module")
def chunks():
    """Chunks without a stable point, so that each call on their subtree has all of them before it."""
    packed = bytearray(random.Random(61).randbytes(40 * COUNT))
    packed[24::40] = bytes([1]) * COUNT
    for place in range(35, 40):
        packed[place::40] = bytes(COUNT)
    return y.Chunks(bytes(packed))


def seconds(call, after):
    """How long a call takes if a handler raises after so many seconds, and whether it was ended.

    No garbage is collected meanwhile, because Python drops what a handler raises within a `__del__`.
    """
    def handler(number, frame):
        raise Ended

    gc.collect()
    gc.disable()
    signal.signal(signal.SIGALRM, handler)
    begun = time.perf_counter()
    try:
        signal.setitimer(signal.ITIMER_REAL, after)
        call()
        ended = False
    except Ended:
        ended = True
    finally:
        took = time.perf_counter() - begun
        # A thread that begins late may yet start the timer again.
        signal.signal(signal.SIGALRM, signal.SIG_IGN)
        signal.setitimer(signal.ITIMER_REAL, 0)
        gc.enable()
    return took, ended


def whole(chunks):
    return y.Subtree.from_chunks(False, chunks, False)


def opened():
    tree = y.HashTree([(y.Hash.random_from_seed(1), 7)])
    return tree.proof(0, 1).open_root(tree.root)


def known(chunks):
    session = y.Session()
    session.put(0, chunks)
    return session


def few():
    session = y.Session()
    session.put(COUNT, [(y.Hash(), 1)])
    return session


#: A call, made of what it needs. Making that isn't part of it.
CALLS = {
    "xorb_hash": lambda chunks: lambda: y.xorb_hash(chunks),
    "file_hash": lambda chunks: lambda: y.file_hash(chunks),
    "file_hash with a salt": lambda chunks: lambda: y.file_hash(chunks, bytes(32)),
    "xorb_hashes": lambda chunks: lambda: y.xorb_hashes(chunks, [0, 1, COUNT]),
    "file_hashes": lambda chunks: lambda: y.file_hashes(chunks, [0, 1, COUNT]),
    "file_hashes with a salt": lambda chunks: lambda: y.file_hashes(chunks, [0, 1, COUNT], bytes(32)),
    "Subtree.from_chunks": lambda chunks: lambda: y.Subtree.from_chunks(True, chunks, True),
    "HashTree": lambda chunks: lambda: y.HashTree(chunks),
    "Session.put": lambda chunks: (lambda session: lambda: session.put(7, chunks))(y.Session()),
    "Session.keep_hashes": lambda chunks: (lambda session, hashes: lambda: session.keep_hashes(hashes))(y.Session(), chunks.hashes),
    "Session.copy": lambda chunks: known(chunks).copy,
    "Session.known_hashes": lambda chunks: known(chunks).known_hashes,
    "Session.root": lambda chunks: (lambda session: lambda: session.root(COUNT))(known(chunks)),
    "Session.push_run": lambda chunks: (lambda session, tree: lambda: session.push_run(0, COUNT, tree))(y.Session(), whole(chunks)),
    "Session.put_range": lambda chunks: (lambda session, tree: lambda: session.put_range(7, COUNT, tree))(y.Session(), whole(chunks)),
    "Session.join": lambda chunks: (lambda session, other: lambda: session.join(other))(y.Session(), known(chunks)),
    "Session.join of few chunks": lambda chunks: (lambda session, other: lambda: session.join(other))(known(chunks), few()),
    "Session.to_json": lambda chunks: known(chunks).to_json,
    "Session.from_json": lambda chunks: (lambda text: lambda: y.Session.from_json(text))(bytes(_interrupts.MANY_BYTES)),
    "Subtree.copy": lambda chunks: whole(chunks).copy,
    "Subtree.merge": lambda chunks: (lambda tree, other: lambda: tree.merge(other))(whole(chunks), whole(chunks)),
    "Subtree.merge_all": lambda chunks: (lambda tree: lambda: y.Subtree.merge_all([tree, tree]))(whole(chunks)),
    "Subtree.from_json": lambda chunks: (lambda text: lambda: y.Subtree.from_json(text))(bytes(_interrupts.MANY_BYTES)),
    "HashTree.diff": lambda chunks: (lambda tree, other: lambda: tree.diff(other))(y.HashTree(chunks), y.HashTree(chunks[:-1])),
    "HashIndex.add_all": lambda chunks: (lambda index, hashes: lambda: index.add_all(hashes))(y.HashIndex(), chunks.hashes),
    "HashIndex.contains": lambda chunks: (lambda index, hashes: lambda: index.contains(hashes))(y.HashIndex(), chunks.hashes),
    "HashIndex.hashes": lambda chunks: y.HashIndex(chunks.hashes).hashes,
    "HashTree.proof": lambda chunks: (lambda tree: lambda: tree.proof(0, COUNT))(y.HashTree(chunks)),
    "RangeProof.open": lambda chunks: (lambda proof: lambda: proof.open_root(y.Hash()))(y.HashTree(chunks).proof(0, COUNT)),
    "RangeProof.from_json": lambda chunks: (lambda text: lambda: y.RangeProof.from_json(text))(bytes(_interrupts.MANY_BYTES)),
    "RangeProof.from_bytes": lambda chunks: (lambda data: lambda: y.RangeProof.from_bytes(data, limit=None))(bytes(_interrupts.MANY_BYTES + 1)),
    "OpenedRange.read": lambda chunks: (lambda opened, data: lambda: opened.read(0, 1, data))(opened(), bytes(_interrupts.MANY_BYTES)),
    "OpenedRange.check": lambda chunks: (lambda opened, data: lambda: opened.check(0, data))(opened(), bytes(_interrupts.MANY_BYTES)),
    "find_stable_start": lambda chunks: lambda: y.find_stable_start(chunks),
}


@pytest.mark.parametrize("name", CALLS)
def test_calls_of_many_chunks(name, chunks, monkeypatch):
    """Each call of the library takes 20 seconds, unless the test is over before. The signal comes once it has begun."""
    call, over, where = CALLS[name](chunks), threading.Event(), set()

    def slowly(*given, made):
        where.add(threading.get_ident())
        signal.setitimer(signal.ITIMER_REAL, 0.05)
        return over.wait(20) and made(*given)

    for long in _declarations.DECLARATIONS:
        monkeypatch.setattr(_library.long, long, functools.partial(slowly, made=getattr(_library.long, long)))
    try:
        took, ended = seconds(call, 15)
        assert ended and took < 10 and where and threading.get_ident() not in where
    finally:
        over.set()


def test_a_call_ends_soon_after_the_signal():
    """The root of many chunks takes seconds."""
    chunks = y.Chunks(bytes(40 * 6_000_000))
    took, ended = seconds(lambda: y.xorb_hash(chunks), 0.05)
    assert ended and took < 0.05 + SOON + SLACK


GREAT = bytes(1 << 31)  # of pages that nobody wrote to, which take no memory
OF_BYTES = {
    "data_hash": lambda: y.data_hash(GREAT),
    "data_hash of a view": lambda: y.data_hash(memoryview(GREAT)[1:]),
    "internal_node_hash": lambda: y.internal_node_hash(GREAT),
    "Hasher.update": lambda: y.Hasher().update(GREAT),
    "data_hashes": lambda: y.data_hashes(GREAT, range(0, len(GREAT) + 1, 1 << 16)),
    "data_hashes of one": lambda: y.data_hashes(GREAT, [0, len(GREAT)]),
    "data_hashes in threads": lambda: y.data_hashes(GREAT, range(0, len(GREAT) + 1, 1 << 16), threads=2),
    "data_hashes of one in threads": lambda: y.data_hashes(GREAT, [0, len(GREAT)], threads=2),
}


@pytest.mark.parametrize("name", OF_BYTES)
def test_calls_of_many_bytes(name):
    took, ended = seconds(OF_BYTES[name], 0.03)
    assert ended and took < 0.03 + SOON + SLACK


@pytest.mark.parametrize("name", OF_BYTES)
def test_no_work_goes_on_that_can_be_ended(name, monkeypatch):
    """After the call nothing is hashed any more."""
    made, over = [], []

    def counted(*given, call):
        if not made:  # the signal comes once the work has begun
            signal.setitimer(signal.ITIMER_REAL, 0.1)
        try:
            made.append(1)
            return call(*given)
        finally:
            over.append(1)

    for calls in (_hash.calls_for(0, 1), _hash.calls_for(1, 1)):
        for call in ("yurewha_hasher_update", "yurewha_data_hashes", "yurewha_data_hash", "yurewha_internal_node_hash"):
            monkeypatch.setattr(calls, call, functools.partial(counted, call=getattr(calls, call)))
    _, ended = seconds(OF_BYTES[name], 15)
    counts = len(made), len(over)
    time.sleep(0.2)
    assert ended and counts[0] == counts[1] == len(made) > 0
    assert name != "data_hashes of one in threads" or len(made) < len(GREAT) // _hash.STEP // 2


def test_no_further_piece_of_a_batch_is_begun():
    begun = []

    def work(piece, stopped):
        begun.append(piece)
        time.sleep(0.05)

    took, ended = seconds(lambda: list(_in_threads.in_threads(work, range(100), 2, 50)), 0.12)
    assert ended and took < 0.12 + SOON + SLACK and len(begun) < 60


class Reading:
    """Bytes that threads read. Each of them stops there until it may go on. The bytes can grow only if nobody has them lent."""

    def __init__(self, patch):
        self.data, self.now, self.late, self.went, self.threads = bytearray(400), [], [], False, _thread._count()
        self.begun, self.go_on, self.second = threading.Semaphore(0), threading.Event(), threading.Event()
        for owner, name in ((_hashes, "_hashed"), (_hash, "_add"), (_lent.Lent, "piece")):
            patch.setattr(owner, name, self.stopping(getattr(owner, name)))
        patch.setattr(_in_threads, "time", types.SimpleNamespace(sleep=self.waited_for))

    def stopping(self, read):
        def stopping(*given):
            if threading.current_thread() is threading.main_thread():
                return read(*given)
            self.late += self.went * [given]
            self.now.append(1)
            self.begun.release()
            try:
                assert self.go_on.wait(60)
                return read(*given)
            finally:
                self.now.pop()

        return stopping

    def waited_for(self, seconds):
        self.go_on.set()
        time.sleep(seconds)

    def first_error(self, outcome):
        """What `waited` does: once both threads read, the first handler raises."""
        assert self.begun.acquire(timeout=60) and self.begun.acquire(timeout=60)
        self.second.set()
        raise Ended

    def no_error(self, outcome, plain=_in_threads.waited):
        self.go_on.set()
        return plain(outcome)

    def are_given_back(self):
        """Returns whether nobody has the bytes. From then on nobody may read them."""
        try:
            self.data.append(0)
        except BufferError:
            return False
        self.went = True
        return True

    def ends(self):
        self.go_on.set()
        deadline = time.monotonic() + 60
        while _thread._count() > self.threads and time.monotonic() < deadline:
            time.sleep(0.001)
        assert _thread._count() <= self.threads, "a thread waits for ever"  # one of an earlier test may have ended, too


def raises_at(step, begins, call):
    """Makes a call in which a handler raises at an opcode, so many after the event `begins`. Returns whether there were so many."""
    files, left = {module.__file__ for module in (_hashes, _in_threads, _interrupts, _lent)}, [step]

    def trace(frame, event, argument):
        if frame.f_code.co_filename not in files:
            return None
        frame.f_trace_opcodes = True
        if event == "opcode" and begins.is_set():
            left[0] -= 1
            if left[0] == 0:
                raise Ended
        return trace

    before = sys.gettrace()
    sys.settrace(trace)
    try:
        with contextlib.suppress(Ended):
            call()
    finally:
        sys.settrace(before)
    return left[0] <= 0


#: How the threads read, and how many bytes they hash in one step.
WAYS = {"in place": (True, 1000), "in copies": (False, 1000), "in steps": (True, 50), "in copied steps": (False, 50)}


@pytest.mark.filterwarnings("ignore::pytest.PytestUnraisableExceptionWarning")  # a step may be one of a __del__
@pytest.mark.parametrize("errors", [1, 2])
@pytest.mark.parametrize("way", WAYS)
def test_no_thread_reads_bytes_that_were_given_back(monkeypatch, way, errors):
    """A handler raises at each step of the call, or a second one does at each step of what the first one began to unwind."""
    nobody_writes, step = WAYS[way]
    for name, value in (("STEP", step), ("PIECE", 100), ("_LEAST_SHARE", 100)):
        monkeypatch.setattr(_hashes, name, value)
    for number in range(1, 10_000):
        with monkeypatch.context() as patch:
            reading = Reading(patch)
            if errors == 1:
                reading.second.set()
            patch.setattr(_in_threads, "waited", reading.no_error if errors == 1 else reading.first_error)
            more = raises_at(number, reading.second, lambda: y.data_hashes(
                reading.data, range(0, 401, 100), nobody_writes=nobody_writes, threads=2))
            assert not (reading.are_given_back() and reading.now), f"a thread reads after an error at step {number}"
            reading.ends()
            assert reading.late == [] == reading.now
        if not more:
            break
    assert number > 30
    gc.collect()
    assert reading.are_given_back()


def test_two_errors_in_a_wait_leave_no_lock_locked():
    """A handler raises while a thread waits for another, and a second one at a step of what that unwinds, be it Python's own."""
    after = []

    def handler(number, frame):
        after.append(1)
        raise Ended

    def trace(frame, event, argument):
        if frame.f_code.co_filename == __file__:
            return None
        frame.f_trace_opcodes = True
        if event == "opcode" and after:
            after.append(1)
            if len(after) == 1 + step:
                raise Ended
        return trace

    before = signal.signal(signal.SIGALRM, handler)
    try:
        for step in range(1, 200):
            after.clear()
            outcome, go_on, ended = _interrupts.Outcome(), _thread.allocate_lock(), _thread.allocate_lock()
            go_on.acquire(), ended.acquire()
            _thread.start_new_thread(lambda: (go_on.acquire(), outcome.take(lambda: 7), ended.release()), ())
            traced, ended_by = sys.gettrace(), None
            sys.settrace(trace)
            try:
                signal.setitimer(signal.ITIMER_REAL, 0.002)
                _interrupts.waited(outcome)
            except BaseException as error:
                ended_by = type(error)
            finally:
                sys.settrace(traced)
            assert ended_by is Ended
            go_on.release()
            assert ended.acquire(timeout=20) and _interrupts.waited(outcome) == 7
            if len(after) <= step:
                break
    finally:
        signal.signal(signal.SIGALRM, before)
    assert step < 199


def test_a_second_signal_ends_no_wait(monkeypatch):
    """It comes while the call waits for its threads, after the first one. The call raises once they have read."""
    reading, signals = Reading(monkeypatch), [Ended("the second one")]

    def handler(number, frame):
        raise signals.pop()

    def sleep(seconds):
        if signals:
            signal.raise_signal(signal.SIGUSR1)
        reading.waited_for(seconds)

    monkeypatch.setattr(_in_threads, "time", types.SimpleNamespace(sleep=sleep))
    monkeypatch.setattr(_in_threads, "waited", reading.first_error)
    monkeypatch.setattr(_hashes, "_LEAST_SHARE", 100)
    before = signal.signal(signal.SIGUSR1, handler)
    try:
        with pytest.raises(Ended, match="the second one"):
            y.data_hashes(reading.data, range(0, 401, 100), nobody_writes=True, threads=2)
    finally:
        signal.signal(signal.SIGUSR1, before)
    assert not reading.now and not signals
    reading.ends()


def test_a_long_update_that_is_ended_appends_nothing():
    hasher = y.Hasher(b"abc")
    assert seconds(lambda: hasher.update(GREAT), 0.03)[1] and hasher.count == 3 and hasher.hash() == y.data_hash(b"abc")
    hasher.update(b"d")
    assert hasher.hash() == y.data_hash(b"abcd")


@pytest.mark.parametrize("show", [bytes, lambda data: memoryview(data)[1:]])
def test_a_long_update_of_a_file_that_is_ended_is_done_or_not_done(show):
    """The next use waits for it."""
    hasher, shown = y.FileHasher(b"abc"), show(GREAT)
    took, ended = seconds(lambda: hasher.update(shown), 0.03)
    assert ended and took < 0.03 + SOON + SLACK and hasher.size in (3, 3 + len(shown))
    if hasher.size == 3:
        hasher.update(shown)
    chunk = (y.data_hash(bytes(1 << 17)), 1 << 17)
    first, last = y.data_hash(b"abc" + bytes((1 << 17) - 3)), (3 + len(shown)) % (1 << 17)
    assert hasher.file_hash() == y.file_hash(
        [(first, 1 << 17), *(((3 + len(shown)) >> 17) - 1) * [chunk], (y.data_hash(bytes(last)), last)])


def test_the_same_hashes_in_steps(monkeypatch):
    data = random.Random(62).randbytes(100_000)
    expected = [y.data_hash(data[:end]) for end in (99, 100, 101, 1000, 100_000)]
    nodes = [y.internal_node_hash(data[:end]) for end in (99, 100, 101, 1000, 100_000)]
    lists = y.data_hashes(data, [3, 50, 250, 251, 99_999])
    monkeypatch.setattr("yurewha._hash.STEP", 100)
    monkeypatch.setattr("yurewha._hashes.STEP", 100)
    for show in (lambda data: data, memoryview, bytearray, lambda data: memoryview(b"x" + data)[1:]):
        for end, hash_, node in zip((99, 100, 101, 1000, 100_000), expected, nodes):
            assert y.data_hash(show(data[:end])) == hash_ and y.internal_node_hash(show(data[:end])) == node
            hasher = y.Hasher()
            hasher.update(show(data[:end // 2]), nobody_writes=True)
            hasher.update(show(data[end // 2:end]))
            assert hasher.hash() == hash_ and hasher.count == end
        for threads in (1, 3):
            assert y.data_hashes(show(data), [3, 50, 250, 251, 99_999], threads=threads) == lists


def test_a_put_that_is_ended_is_done_or_not_done(chunks):
    """The session is as before or after it, also for whoever uses it at once."""
    for after in (0.001, 0.05):
        session = y.Session()
        ended = seconds(lambda: session.put(7, chunks), after)[1]
        if session.taken(7):
            assert session.num_chunks == COUNT and session.run(0)[1] == y.Subtree.from_chunks(False, chunks, False)
        else:
            assert ended and session.num_runs == 0 and session.put(7, chunks) > 0


def test_work_that_is_ended_before_it_begins():
    """Another thread has the object until after the handler has raised. So the work is never done."""
    session, done = y.Session(), []
    go_on, taken = threading.Event(), threading.Event()

    def hold():
        with session._locked():
            taken.set()
            go_on.wait(20)

    thread = threading.Thread(target=hold)
    thread.start()
    assert taken.wait(10) and seconds(lambda: _interrupts.interruptible(lambda: done.append(1), True, session), 0.05)[1]
    go_on.set()
    thread.join()
    time.sleep(0.1)
    assert done == [] and not session.num_runs


def test_the_objects_of_long_work_are_locked_before_it_begins():
    session, other = y.Session(), y.Session()
    seen = _interrupts.interruptible(lambda: [item._lock._is_owned() for item in (session, other)], True, session)
    assert seen == [True, False] and not session._lock._is_owned()


def test_who_uses_an_object_meanwhile_waits(chunks):
    session = y.Session()
    seconds(lambda: session.put(7, chunks), 0.02)
    waited = []
    thread = threading.Thread(target=lambda: waited.append(session.num_runs))
    thread.start()
    thread.join(60)
    assert waited in ([0], [1]) and session.num_runs in (0, 1)
    tree = whole(chunks)
    with contextlib.suppress(Ended):
        seconds(lambda: tree.merge(tree), 0.01)
    assert tree.total_size in (sum(chunks.sizes), 2 * sum(chunks.sizes))


def test_an_object_that_nobody_has_any_more(chunks, monkeypatch):
    """It is freed once the call that goes on has ended, and so is what that put the chunks into."""
    freed = []
    for kind in (y.HashTree, y.Session):
        monkeypatch.setattr(kind, "_free", staticmethod(lambda handle, free=kind._free: freed.append(1) or free(handle)))
    over = threading.Event()

    def slowly(*given, made):
        signal.setitimer(signal.ITIMER_REAL, 0.02)  # the signal comes once the work has begun
        return over.wait(20) and made(*given)

    for long in ("yurewha_hash_tree_from_chunks", "yurewha_session_put"):
        monkeypatch.setattr(_library.long, long, functools.partial(slowly, made=getattr(_library.long, long)))
    assert seconds(lambda: y.HashTree(chunks), 15)[1] and seconds(lambda: y.Session().put(0, chunks), 15)[1] and freed == []
    over.set()
    deadline = time.monotonic() + 60
    while len(freed) < 3 and time.monotonic() < deadline:
        time.sleep(0.01)
    assert len(freed) == 3


def test_errors_of_long_calls_are_the_same():
    great = y.Chunks.from_columns(bytes(32 * _interrupts.MANY_NODES), [MAX] * _interrupts.MANY_NODES)
    for call in (lambda: y.xorb_hash(great), lambda: y.HashTree(great), lambda: y.Subtree.from_chunks(True, great, True)):
        with pytest.raises(y.SizeOverflow):
            call()
    session = y.Session()
    with pytest.raises(y.SessionSizes):
        session.put(0, great)
    session.put(1000, [(y.Hash(), 1)])
    with pytest.raises(y.SessionOverlap, match="^position 1000 is taken$"):
        session.put(0, bytes(40 * _interrupts.MANY_NODES))
    with pytest.raises(y.InvalidText):
        y.Subtree.from_json(b" " * _interrupts.MANY_BYTES)

    def losing():
        raise _interrupts.ThreadLost("a thread of its own")

    with pytest.raises(_interrupts.ThreadLost, match="^a thread of its own$"):
        _interrupts.interruptible(losing, True)


def test_handlers_and_threads_do_long_work_themselves(chunks):
    """A handler in the middle of another call on the object, and every thread but the main one."""
    session, used = y.Session(), []

    def handler(number, frame):
        used.append(session.put(7, chunks))

    def work():
        with session._locked():
            signal.raise_signal(signal.SIGUSR1)

    before = signal.signal(signal.SIGUSR1, handler)
    try:
        assert not seconds(work, 60)[1], "it waits for itself"
    finally:
        signal.signal(signal.SIGUSR1, before)
    assert used == [COUNT] and session.num_chunks == COUNT
    seen = []
    thread = threading.Thread(target=lambda: seen.append(_interrupts.interruptible(threading.get_ident, True)))
    thread.start(), thread.join()
    assert seen == [thread.ident] and _interrupts.interruptible(threading.get_ident, False) == threading.get_ident()


def test_where_no_thread_can_be_started(monkeypatch):
    def start(call, given):
        raise RuntimeError("can't start new thread")

    monkeypatch.setattr("_thread.start_new_thread", start)
    assert _interrupts.interruptible(lambda: 7, True) == 7


@pytest.mark.parametrize("step", ["the first", "the one after work was taken"])
def test_where_threads_end_before_their_work(monkeypatch, step):
    """A thread that finds no memory for a step ends. Nobody waits for it for ever: its work is done where it is waited for, or refused."""
    def start(run, given):
        return really_start(run if step != "the first" else lambda *_: None, given)

    def refused(outcome, work):
        raise MemoryError

    really_start = _thread.start_new_thread
    monkeypatch.setattr("_thread.start_new_thread", start)
    if step != "the first":
        monkeypatch.setattr(_interrupts.Outcome, "take", refused)
        monkeypatch.setattr(sys, "unraisablehook", lambda _: None)
    before = signal.signal(signal.SIGALRM, lambda *_: (_ for _ in ()).throw(TimeoutError))
    signal.alarm(60)
    try:
        assert _interrupts.interruptible(lambda: 7, True) == 7
        with pytest.raises(MemoryError, match="a thread had no memory for its work"):
            list(_in_threads.in_threads(lambda piece, _: piece, range(1000), 2))
    finally:
        signal.alarm(0)
        signal.signal(signal.SIGALRM, before)
