"""Locks: where they are, and that nobody waits for one in which the caller's code runs."""

import io
import random
import re
import threading
from pathlib import Path

import pytest
from test_verified_files import Source

import yurewha as y
from yurewha import _guard

PACKAGE = Path(y.__file__).parent
#: A flag of a session, which is a lock that nobody waits for.
FLAGS = {"_session.py": 1}


def test_objects_have_no_lock_but_that_of_the_guard():
    """So each object that threads share says at a fork whether another thread used it."""
    kinds = "(?:R?Lock|Condition|(?:Bounded)?Semaphore|Barrier)"
    for file in sorted(PACKAGE.glob("*.py")):
        made = re.findall(rf"\b{kinds}\(|\bimport .*\b{kinds}\b", file.read_text(encoding="utf-8"))
        assert file.name == "_guard.py" or len(made) <= FLAGS.get(file.name, 0), (file.name, made)


class Refusing:
    """A lock of an object. It raises where another thread would wait, and notes which locks a thread holds."""

    held = threading.local()

    def __init__(self):
        self.lock = threading.RLock()

    @classmethod
    def of_this_thread(cls):
        return cls.held.__dict__.setdefault("locks", [])

    def acquire(self, blocking=True):
        if not self.lock.acquire(blocking=False):
            raise AssertionError("a thread waits for the lock of another one")
        self.of_this_thread().append(self)
        return True

    def release(self):
        self.of_this_thread().remove(self)
        self.lock.release()

    def __enter__(self):
        return self.acquire()

    def __exit__(self, *_):
        self.release()

    def _is_owned(self):
        return self.lock._is_owned()


@pytest.fixture
def refusing(monkeypatch):
    """Each object that is made has such a lock."""
    class Threading:
        RLock = Refusing
    monkeypatch.setattr(_guard, "threading", Threading)


def in_a_thread(call):
    """Makes a call in another thread. Returns what it returns, or raises what it raises."""
    answers, errors = [], []

    def work():
        try:
            answers.append(call())
        except BaseException as error:
            errors.append(error)

    thread = threading.Thread(target=work)
    thread.start(), thread.join()
    for error in errors:
        raise error
    return answers[0]


SOURCE = Source(random.Random(71).randbytes(4_000_000), range(0, 4_000_001, 50_000))
PROPERTIES = {
    "name": lambda file: file.name == "data", "mode": lambda file: file.mode == "rb", "closed": lambda file: not file.closed,
    "file_hash": lambda file: file.file_hash == SOURCE.tree.file_hash(), "size": lambda file: file.size == 4_000_000,
    "tell": lambda file: file.tell() >= 0, "readable": lambda file: file.readable(), "seekable": lambda file: file.seekable(),
    "writable": lambda file: not file.writable(), "repr": lambda file: repr(file).startswith("<yurewha.VerifiedFile "),
}


@pytest.mark.parametrize("name", PROPERTIES)
@pytest.mark.parametrize("read_ahead", [0, 1 << 20])
@pytest.mark.parametrize("by", ["fetch", "prove"])
@pytest.mark.parametrize("own_thread", [False, True])
def test_the_callers_calls_use_each_property_of_a_file(read_ahead, by, name, own_thread):
    """Nobody waits for a reader, who waits for them."""
    seen = []

    def look():
        if file._size is not None:
            seen.append(in_a_thread(lambda: PROPERTIES[name](file)) if own_thread else PROPERTIES[name](file))

    def fetch(start, stop):
        if by == "fetch":
            look()
        return SOURCE.data[start:stop]

    def prove(start, stop):
        if by == "prove":
            look()
        return SOURCE.tree.proof_of_bytes(start, stop)

    file = y.VerifiedFile(SOURCE.tree.file_hash(), fetch, prove, name="data", read_ahead=read_ahead)
    file._guarded._lock = Refusing()
    assert b"".join(iter(lambda: file.read(400_000), b"")) == SOURCE.data
    assert len(seen) > 4 and all(seen)


@pytest.mark.parametrize("name", PROPERTIES)
def test_a_handler_uses_each_property_of_a_file_in_its_own_thread(refusing, name):
    """It may run wherever the main thread has a lock of the file."""
    file = y.VerifiedFile(SOURCE.tree.file_hash(), SOURCE.fetch, SOURCE.prove, name="data")
    assert file.size == 4_000_000
    with file._guarded._locked(), file._reader._locked():
        assert in_a_thread(lambda: PROPERTIES[name](file))


def unlocked(*allowed):
    """What the caller's code does: it looks whether its thread has a lock."""
    assert [lock for lock in Refusing.of_this_thread() if lock not in allowed] == []


def items(values):
    """The caller's own list, whose code runs for each item."""
    for value in values:
        unlocked()
        yield value


HASHES = [y.Hash.random_from_seed(seed) for seed in range(3)]
CHUNKS = [(hash_, 7) for hash_ in HASHES]


def a_file(tmp_path):
    path = tmp_path / "data"
    path.write_bytes(bytes(100))
    return path


#: Calls that run the caller's code.
CALLS = {
    "HashIndex": lambda folder: y.HashIndex(items(HASHES)),
    "HashIndex.add_all": lambda folder: y.HashIndex().add_all(items(HASHES)),
    "HashIndex.add_all of numbers": lambda folder: y.HashIndex().add_all(HASHES, items(range(3))),
    "HashIndex.contains": lambda folder: y.HashIndex().contains(items(HASHES)),
    "HashIndex.new": lambda folder: y.HashIndex().new(items(HASHES)),
    "HashIndex.numbers": lambda folder: y.HashIndex().numbers(items(HASHES)),
    "HashIndex.__iter__": lambda folder: [unlocked() for _ in y.HashIndex(HASHES)],
    "HashTree": lambda folder: y.HashTree(items(CHUNKS)),
    "Session.put": lambda folder: y.Session().put(0, items(CHUNKS)),
    "Session.keep_hashes": lambda folder: y.Session().keep_hashes(items(HASHES)),
    "Session.__iter__": lambda folder: (lambda session: [session.put(0, CHUNKS), [unlocked() for _ in session]])(y.Session()),
    "Subtree.merge_all": lambda folder: y.Subtree.merge_all(items([y.Subtree.from_chunks(False, CHUNKS, False)] * 2)),
    "hash_chunks": lambda folder: y.hash_chunks(a_file(folder), items([0, 50, 100]), progress=lambda done, total: unlocked(), threads=2),
    "data_hashes": lambda folder: y.data_hashes(bytearray(100), items([0, 50, 100]), threads=2),
    "VerifiedFile.read_at": lambda folder: read_at(y.VerifiedFile),
    "AsyncVerifiedFile": lambda folder: __import__("asyncio").run(read_at(y.AsyncVerifiedFile)),
}


def read_at(kind):
    def fetch(start, stop):
        unlocked()
        return SOURCE.data[start:stop]

    def prove(start, stop):
        unlocked()
        return SOURCE.tree.proof_of_bytes(start, stop)

    return kind(SOURCE.tree.file_hash(), fetch, prove, cache_size=0).read_at(5, 3_000_000)


@pytest.mark.parametrize("name", CALLS)
def test_the_callers_code_runs_outside_of_locks(refusing, tmp_path, name):
    CALLS[name](tmp_path)


def test_a_read_that_moves_the_position_has_the_lock_of_the_position_alone(refusing):
    """Two reads of one position can't go on at once. So whoever reads holds this lock while something is fetched."""
    def fetch(start, stop):
        unlocked(file._guarded._lock)
        return SOURCE.data[start:stop]

    file = y.VerifiedFile(SOURCE.tree.file_hash(), fetch, SOURCE.prove)
    assert io.BufferedReader(file, 1 << 16).read() == SOURCE.data
