"""Subtrees through a pool of processes, and objects in forked ones."""

import base64
import concurrent.futures
import multiprocessing
import os
import pickle
import pickletools
import random
import signal
import threading
import time

import pytest

import yurewha as y
from yurewha import _guard


def block(seed, count):
    made = bytearray(random.Random(seed).randbytes(40 * count))
    for place in range(35, 40):
        made[place::40] = bytes(count)
    return y.Chunks(made)


def piece(seed):
    return y.Subtree.from_chunks(False, block(seed, 500), False)


def merged(pair):
    return pair[0] + pair[1]


def refused(_):
    return y.Subtree.from_json("[]")


@pytest.mark.parametrize("way", ["fork", "spawn"])
def test_a_pool(way):
    context = multiprocessing.get_context(way)
    whole = y.Chunks(b"".join(block(seed, 500).packed for seed in range(16)))
    with concurrent.futures.ProcessPoolExecutor(4, mp_context=context) as pool:
        trees = list(pool.map(piece, range(16)))
        while len(trees) > 1:
            trees = list(pool.map(merged, zip(trees[::2], trees[1::2])))
        chunks, hash_ = pool.submit(block, 3, 10).result(), pool.submit(y.data_hash, b"abc").result()
        with pytest.raises(y.InvalidJson) as raised:
            pool.submit(refused, 0).result()
    assert raised.value.rule == 1 and chunks == block(3, 10) and hash_ == y.data_hash(b"abc")
    start, end = y.Subtree.from_chunks(True, b"", False), y.Subtree.from_chunks(False, b"", True)
    assert (start + trees[0] + end).final_hash() == y.xorb_hash(whole)


@pytest.mark.parametrize("protocol", range(pickle.HIGHEST_PROTOCOL + 1))
def test_pickles(protocol):
    tree = piece(1)
    proof = y.HashTree(block(1, 100)).proof(7, 20)
    for value in (tree, y.Hash.random_from_seed(1), block(1, 10), [tree, {"a": tree}], proof, [proof, {"a": proof}]):
        assert pickle.loads(pickle.dumps(value, protocol)) == value
    session = y.Session()
    session.put(7, block(1, 10))
    read = pickle.loads(pickle.dumps(session, protocol))
    assert read.runs() == session.runs() and set(read.known_hashes()) == set(session.known_hashes())


#: Pickles by protocol, made when they named private modules, of what `test_pickles_that_name_private_modules` lists.
OLD = {
    2: (
        "gAJdcQAoY3l1cmV3aGEuX2hhc2gKSGFzaApxAWNfY29kZWNzCmVuY29kZQpxAlgwAAAAwpvDggNvf8OQw4XDj8KNw6A/wpYyQULCvyDDtcKqV1d9wqMZ"
        "w5ZWw40Fwp8RCMK/cQNYBgAAAGxhdGluMXEEhnEFUnEGhXEHUnEIY3l1cmV3aGEuX2NodW5rcwpDaHVua3MKcQloAlg4AAAAwpvDggNvf8OQw4XDj8KN"
        "w6A/wpYyQULCvyDDtcKqV1d9wqMZw5ZWw40Fwp8RCMK/ZAAAAAAAAABxCmgEhnELUnEMhXENUnEOY3l1cmV3aGEuX2hhc2hlcwpIYXNoZXMKcQ9oAlgw"
        "AAAAwpvDggNvf8OQw4XDj8KNw6A/wpYyQULCvyDDtcKqV1d9wqMZw5ZWw40Fwp8RCMK/cRBoBIZxEVJxEoVxE1JxFGNfX2J1aWx0aW5fXwpnZXRhdHRy"
        "CnEVY3l1cmV3aGEuX3N1YnRyZWUKU3VidHJlZQpxFlgJAAAAZnJvbV9mbGF0cReGcRhScRkoiEsBSwCGcRqFcRtoAlg4AAAAwpvDggNvf8OQw4XDj8KN"
        "w6A/wpYyQULCvyDDtcKqV1d9wqMZw5ZWw40Fwp8RCMK/ZAAAAAAAAABxHGgEhnEdUnEeiXRxH1JxIGN5dXJld2hhLl9zdWJ0cmVlCkZsYXQKcSEoiEsB"
        "SwCGcSKFcSNoCWgCWDgAAADCm8OCA29/w5DDhcOPwo3DoD/CljJBQsK/IMO1wqpXV33CoxnDllbDjQXCnxEIwr9kAAAAAAAAAHEkaASGcSVScSaFcSdS"
        "cSiJdHEpgXEqaBVjeXVyZXdoYS5fc2Vzc2lvbgpTZXNzaW9uCnErWAkAAABfcmVzdG9yZWRxLIZxLVJxLksDSwVoGSiJSwJLAIZxL4VxMGgCWHAAAADC"
        "m8OCA29/w5DDhcOPwo3DoD/CljJBQsK/IMO1wqpXV33CoxnDllbDjQXCnxEIwr9kAAAAAAAAAMKbw4IDb3/DkMOFw4/CjcOgP8KWMkFCwr8gw7XCqldX"
        "fcKjGcOWVsONBcKfEQjCv2QAAAAAAAAAcTFoBIZxMlJxM4l0cTRScTWHcTZLCUsKaBkoiUsBSwCGcTeFcThoAlg4AAAAwpvDggNvf8OQw4XDj8KNw6A/"
        "wpYyQULCvyDDtcKqV1d9wqMZw5ZWw40Fwp8RCMK/ZAAAAAAAAABxOWgEhnE6UnE7iXRxPFJxPYdxPoZxP2gPaAJYMAAAAMKbw4IDb3/DkMOFw4/CjcOg"
        "P8KWMkFCwr8gw7XCqldXfcKjGcOWVsONBcKfEQjCv3FAaASGcUFScUKFcUNScUSGcUVScUZjeXVyZXdoYS5fZXJyb3JzCkludmFsaWRKc29uCnFHSwWF"
        "cUhScUl9cUpYBAAAAHJ1bGVxS0sFc2JjeXVyZXdoYS5faGFzaApkYXRhX2hhc2gKcUxlLg=="
    ),
    4: (
        "gASVzAIAAAAAAABdlCiMDXl1cmV3aGEuX2hhc2iUjARIYXNolJOUQyCbwgNvf9DFz43gP5YyQUK/IPWqV1d9oxnWVs0FnxEIv5SFlFKUjA95dXJld2hh"
        "Ll9jaHVua3OUjAZDaHVua3OUk5RDKJvCA29/0MXPjeA/ljJBQr8g9apXV32jGdZWzQWfEQi/ZAAAAAAAAACUhZRSlIwPeXVyZXdoYS5faGFzaGVzlIwG"
        "SGFzaGVzlJOUQyCbwgNvf9DFz43gP5YyQUK/IPWqV1d9oxnWVs0FnxEIv5SFlFKUjBB5dXJld2hhLl9zdWJ0cmVllIwRU3VidHJlZS5mcm9tX2ZsYXSU"
        "k5QoiEsBSwCGlIWUQyibwgNvf9DFz43gP5YyQUK/IPWqV1d9oxnWVs0FnxEIv2QAAAAAAAAAlIl0lFKUaBOMBEZsYXSUk5QoiEsBSwCGlIWUaAlDKJvC"
        "A29/0MXPjeA/ljJBQr8g9apXV32jGdZWzQWfEQi/ZAAAAAAAAACUhZRSlIl0lIGUjBB5dXJld2hhLl9zZXNzaW9ulIwRU2Vzc2lvbi5fcmVzdG9yZWSU"
        "k5RLA0sFaBUoiUsCSwCGlIWUQ1CbwgNvf9DFz43gP5YyQUK/IPWqV1d9oxnWVs0FnxEIv2QAAAAAAAAAm8IDb3/Qxc+N4D+WMkFCvyD1qldXfaMZ1lbN"
        "BZ8RCL9kAAAAAAAAAJSJdJRSlIeUSwlLCmgVKIlLAUsAhpSFlEMom8IDb3/Qxc+N4D+WMkFCvyD1qldXfaMZ1lbNBZ8RCL9kAAAAAAAAAJSJdJRSlIeU"
        "hpRoD0Mgm8IDb3/Qxc+N4D+WMkFCvyD1qldXfaMZ1lbNBZ8RCL+UhZRSlIaUUpSMD3l1cmV3aGEuX2Vycm9yc5SMC0ludmFsaWRKc29ulJOUSwWFlFKU"
        "fZSMBHJ1bGWUSwVzYmgBjAlkYXRhX2hhc2iUk5RlLg=="
    ),
}


@pytest.mark.parametrize("protocol", OLD)
def test_pickles_that_name_private_modules(protocol):
    one = (y.Hash.random_from_seed(1), 100)
    hash_, chunks, hashes, tree, flat, session, error, call = pickle.loads(base64.b64decode(OLD[protocol]))
    assert hash_ == one[0] and chunks == y.Chunks([one]) and hashes == y.Hashes([one[0]]) and call is y.data_hash
    assert tree == y.Subtree.from_chunks(True, [one], False) and flat == tree.to_flat()
    assert [(run.first, run.end) for run in session.runs()] == [(3, 5), (9, 10)] and session.put(5, [one]) == 0
    assert type(error) is y.InvalidJson and error.rule == 5


@pytest.mark.parametrize("protocol", range(pickle.HIGHEST_PROTOCOL + 1))
def test_a_pickle_names_the_package_alone(protocol):
    session = y.Session()
    session.put(7, block(1, 10))
    values = [y.Hash(), block(1, 3), y.Hashes([y.Hash()]), piece(1), piece(1).to_flat(), session, session.runs(),
              y.SessionGap("a"), y.InvalidJson(3), y.data_hash, y.Session, y.Hash.from_hex, y.InvalidLists(6),
              y.InvalidProof(3), y.ProofMismatch("a"), y.HashTree(block(1, 3)), y.HashTree(block(1, 3)).proof(0, 2), y.RangeProof.from_json]
    for value in values:
        pickled = pickle.dumps(value, protocol)
        texts = [str(argument) for code, argument, _ in pickletools.genops(pickled)]
        assert any(text == "yurewha" or text.startswith("yurewha ") for text in texts)
        assert not any(text.startswith("yurewha.") for text in texts), value
        pickle.loads(pickled)


def test_a_changed_pickle():
    """The lists in a pickle are checked as others are. (Unpickling a stranger's file runs its code all the same.)"""
    make, (at_start, levels, nodes, at_end) = piece(1).__reduce__()
    for arguments in (
        (True, levels, nodes, at_end), (at_start, levels[:-1], nodes, at_end), (at_start, levels, nodes[40:], at_end),
    ):
        with pytest.raises(y.InvalidLists):
            make(*arguments)
    session = y.Session()
    session.put(7, block(1, 10)), session.put(2, block(2, 3))
    make, ((low, high), hashes) = session.__reduce__()
    for runs in ((high, low), (low, low), (low, (5, 8, high[2])), (low, (7, 7, high[2]))):
        with pytest.raises(y.InvalidArguments):
            make(runs, hashes)
    make, (levels, nodes) = y.HashTree(block(1, 100)).proof(7, 20).__reduce__()
    for arguments in ((levels, nodes[-40:]), (((9, 0), *levels), nodes + 9 * nodes[:40]), (65 * ((0, 0),), nodes)):
        with pytest.raises(y.InvalidProof):
            make(*arguments)


PACKED = [(y.Hash.random_from_seed(1), 32), (block(1, 3), 40), (y.Hashes([y.Hash()] * 3), 32), (y.HashIndex([y.Hash()]), 32),
          (y.HashTree(block(1, 3)), 40)]


@pytest.mark.parametrize("value, size", PACKED, ids=lambda value: type(value).__name__)
@pytest.mark.parametrize("protocol", range(2, pickle.HIGHEST_PROTOCOL + 1))
def test_a_pickle_of_bytes_that_were_cut_or_added(value, size, protocol):
    """A call of the library reads so many bytes, whatever the object has."""
    make, (packed,) = value.__reduce__()
    assert len(packed) % size == 0 and pickle.loads(pickle.dumps(value, protocol)) == value

    class Changed:
        def __reduce__(self):
            return make, (wrong,)

    for wrong in (packed[:-1], packed + b"a", packed[:1], packed[:size - 1], packed[size:] + packed[:31]):
        with pytest.raises(y.YurewhaError):
            pickle.loads(pickle.dumps(Changed(), protocol))


def in_child(work):
    """What the work answers in a forked process, as text. A child that waits for ever ends after a while, without an answer."""
    out, into = os.pipe()
    child = os.fork()
    if child == 0:
        try:
            signal.signal(signal.SIGALRM, signal.SIG_DFL)
            signal.alarm(30)
            os.close(out)
            os.write(into, str(work()).encode())
        finally:
            os._exit(0)
    os.close(into)
    answer = b""
    while True:
        more = os.read(out, 4096)
        if not more:
            break
        answer += more
    os.close(out)
    os.waitpid(child, 0)
    return answer.decode()


def test_objects_go_on_in_a_forked_process():
    tree, session, hasher = piece(1), y.Session(), y.Hasher(b"a")
    session.put(0, block(1, 10))

    def work():
        tree.merge(piece(2))
        session.put(10, block(2, 10))
        hasher.update(b"b")
        return tree == piece(1) + piece(2), session.num_runs, hasher.hash() == y.data_hash(b"ab")

    assert in_child(work) == "(True, 1, True)"
    assert tree == piece(1) and not session.taken(10) and hasher.count == 1
    assert in_child(lambda: in_child(work)) == "(True, 1, True)"


def test_an_object_in_use_when_a_process_is_forked():
    used, free = piece(1), piece(2)
    hasher = y.Hasher()
    holds, ends = threading.Event(), threading.Event()

    def hold():
        with used._locked(), hasher._locked():
            holds.set()
            ends.wait()

    thread = threading.Thread(target=hold)
    thread.start()
    holds.wait()

    def work():
        told = []
        for call in (
            lambda: used.num_nodes, lambda: used + free, lambda: free + used, lambda: y.Subtree.merge_all([free, used]),
            lambda: used == free, lambda: pickle.dumps(used), hasher.digest, lambda: hasher.update(b"a"), hasher.copy,
            lambda: used.num_nodes,
        ):
            try:
                told.append(call())
            except y.InUseAtFork:
                told.append("refused")
        used.__del__()
        told.append(bool(used._handle.at))
        free.merge(piece(3))
        return told, free == piece(2) + piece(3)

    try:
        assert in_child(work) == str((10 * ["refused"] + [True], True))
    finally:
        ends.set()
        thread.join()
    assert used == piece(1)


HASH = y.Hash.random_from_seed(1)
INDEX_CALLS = {
    "add": lambda index: index.add(HASH), "add_all": lambda index: index.add_all([HASH]), "in": lambda index: HASH in index,
    "contains": lambda index: index.contains([HASH]), "new": lambda index: index.new([HASH]), "hashes": lambda index: index.hashes(),
    "len": len, "list": list, "==": lambda index: index == y.HashIndex(), "copy": lambda index: index.copy(), "pickle": pickle.dumps,
    "number": lambda index: index.number(HASH), "numbers": lambda index: index.numbers([HASH]),
}


@pytest.mark.parametrize("name", INDEX_CALLS)
def test_an_index_in_use_when_a_process_is_forked(name):
    used, free = y.HashIndex([HASH]), y.HashIndex([HASH])
    holds, ends = threading.Event(), threading.Event()

    def hold():
        with used._locked():
            holds.set()
            ends.wait()

    thread = threading.Thread(target=hold)
    thread.start()
    holds.wait()

    def work():
        told = []
        for index in (free, used, used):
            try:
                INDEX_CALLS[name](index)
                told.append("done")
            except y.InUseAtFork:
                told.append("refused")
        return told, repr(used)

    try:
        assert in_child(work) == str((["done", "refused", "refused"], "<yurewha.HashIndex that can't be read>"))
    finally:
        ends.set()
        thread.join()
    assert len(used) == 1


def test_a_process_that_is_forked_while_a_thread_takes_an_object_over():
    """The child has a lock of its own for that, since nobody gives the parent's back there."""
    tree, takes, ends = piece(1), threading.Event(), threading.Event()

    def take():
        with _guard.process.now[1]:
            takes.set()
            ends.wait()

    thread = threading.Thread(target=take)
    thread.start()
    takes.wait()

    try:
        assert in_child(lambda: tree.num_nodes) == str(tree.num_nodes)
    finally:
        ends.set()
        thread.join()


def test_forks_under_a_long_call():
    """Processes are forked while a thread is in the library; none hangs, and what isn't in use can be used."""
    chunks = block(9, 300_000)
    shared, stop = y.Subtree.from_chunks(False, b"", False), threading.Event()
    session = y.Session()

    def work():
        first = 0
        while not stop.is_set():
            session.put(first, chunks[:3000])
            first += 3000
            shared.merge(y.Subtree.from_chunks(False, chunks, False))

    thread = threading.Thread(target=work)
    thread.start()
    told = set()
    try:
        until = time.monotonic() + 3
        while time.monotonic() < until:
            def child():
                answers = []
                for call in (lambda: shared.total_size, lambda: session.num_runs):
                    try:
                        answers.append(call() >= 0)
                    except y.InUseAtFork:
                        answers.append("refused")
                return answers, y.Subtree.from_chunks(True, chunks[:100], True).final_hash() == y.xorb_hash(chunks[:100])
            told.add(in_child(child))
            time.sleep(0.01)
    finally:
        stop.set()
        thread.join()
    assert all(answer.endswith("True)") for answer in told) and told


class Interrupted:
    """A lock whose first look by this process is interrupted by a signal."""

    def __init__(self, lock):
        self.lock, self.looks = lock, 0

    def acquire(self, blocking=True):
        self.looks += 1
        if self.looks == 1:
            signal.raise_signal(signal.SIGUSR1)
        return self.lock.acquire(blocking=blocking)

    def release(self):
        self.lock.release()

    def __enter__(self):
        return self.acquire()

    def __exit__(self, *_):
        self.release()


@pytest.mark.parametrize("same", [False, True])
def test_a_handler_uses_an_object_first_while_another_is_taken_over(same):
    tree, other = piece(1), piece(2)
    used = tree if same else other

    def work():
        counts = []
        signal.signal(signal.SIGUSR1, lambda number, frame: counts.append(used.num_nodes))
        tree._lock = Interrupted(tree._lock)
        counts.append(tree.num_nodes)
        return counts

    assert in_child(work) == str([used.num_nodes, tree.num_nodes])
