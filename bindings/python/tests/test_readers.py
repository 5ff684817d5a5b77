"""Readers and parts, the library's handles by which files are checked: what a part hands out, what a reader keeps, locks, forks and frees."""

import gc
import os
import random
import signal
import threading

import pytest
from test_verified_files import Source, changed

import yurewha as y
from yurewha import _declarations, _library
from yurewha._reader import Part, Reader

SOURCE = Source(random.Random(81).randbytes(1000), range(0, 1001, 50))
HASH, SALT, MAX = SOURCE.tree.file_hash().bytes, bytes(32), 2**64 - 1
EMPTY = 32 * b"\0"


def part_of(start, stop, source=SOURCE, beyond=MAX):
    return Part(source.tree.proof_of_bytes(start, stop), source.tree.file_hash().bytes, SALT, start, stop, beyond)


def reader_of(*spans, most=MAX):
    """A reader that has taken these parts."""
    reader = Reader(HASH, SALT, most)
    for start, stop in spans:
        part = part_of(start, stop)
        assert bytes(part.check(SOURCE.data[part.begin:part.end], True)) == SOURCE.data[start:stop]
        assert reader.take(part)
    return reader


def test_a_part_hands_out_what_was_asked_for():
    for start, stop in ((0, 1), (0, 1000), (7, 203), (50, 100), (999, 1000), (120, 5000)):
        part = part_of(start, stop)
        assert (part.begin, part.end) == (start // 50 * 50, min((stop + 49) // 50 * 50, 1000))
        for keep in (False, True):
            assert bytes(part.check(SOURCE.data[part.begin:part.end], keep)) == SOURCE.data[start:stop]


def test_a_reader_hands_out_kept_bytes():
    reader = reader_of((60, 70), (210, 340), (120, 130))
    assert reader.size() == 1000 and reader.counted() == 5 * (50 + 128)
    for place in range(1001):
        kept = [at for at in range(place, 1000) if at // 50 in (1, 2, 4, 5, 6)]
        after = next((at for at in range(place, 1001) if at not in kept), place)
        for count in (0, 1, 7, 1000):
            data, end = reader.read(place, count)
            assert data == SOURCE.data[place:min(after, place + count)] and type(data) is bytes
            assert end == (place + len(data) if len(data) == count else min(place + count, 1000))
            assert data or reader.needs(place, place + count) == end


def test_bytes_that_were_handed_out_stay():
    """Each is an object of its own, also one of a single byte, of which Python has one for all."""
    reader = reader_of((0, 1000))
    singles = [reader.read(place, 1)[0] for place in range(1000)]
    whole = reader.read(0, 1000)[0]
    reader.keep_at_most(0)
    assert b"".join(singles) == whole == SOURCE.data and [bytes([byte]) for byte in range(256)] == [b"%c" % byte for byte in range(256)]


@pytest.mark.parametrize("number", [1, 2, 5])
def test_a_read_within_a_read(monkeypatch, number):
    """As a handler makes one, after the library has written what the first one is about to look at. So do threads."""
    reader, left = reader_of((0, 500)), []
    read = _library.bare.yurewha_reader_read

    def spied(*given):
        status = read(*given)
        if left:
            place = left.pop()
            assert reader.read(place, 70) == (SOURCE.data[place:min(place + 70, 500)], place + 70)
        return status

    monkeypatch.setattr(_library.bare, "yurewha_reader_read", spied)
    for _ in range(3):
        left += [450, *range(10, 10 * number, 10)]
        assert reader.read(0, 5) == (SOURCE.data[:5], 5) and not left
        assert reader.read(490, 100) == (SOURCE.data[490:500], 590)


def test_of_a_wrong_answer_the_first_right_chunks_are_kept():
    for wrong, right in ((changed(SOURCE.data, 333)[100:600], 200), (SOURCE.data[100:333], 200), (SOURCE.data[101:601], 0), (b"", 0)):
        part, reader = part_of(120, 560), Reader(HASH, SALT, MAX)
        with pytest.raises(y.ProofMismatch) as raised:
            part.check(wrong, True)
        assert (raised.value.chunk, raised.value.place) == (right // 50, 100 + right)
        assert reader.take(part) and reader.read(100, 500)[0] == SOURCE.data[100:100 + right]
        assert reader.size() == (1000 if right else None)


def test_a_part_of_another_file_is_not_taken():
    other = Source(random.Random(82).randbytes(100), (0, 50, 100))
    reader, part = reader_of((0, 50)), part_of(0, 50, other)
    assert bytes(part.check(other.data[:50], True)) == other.data[:50] and not reader.take(part)
    assert reader.read(0, 100)[0] == SOURCE.data[:50] and reader.size() == 1000


def test_a_part_that_was_taken_is_empty():
    reader, part = Reader(HASH, SALT, MAX), part_of(0, 50)
    part.check(SOURCE.data[:50], True)
    assert reader.take(part)
    for call in (lambda: part.check(SOURCE.data[:50], True), lambda: reader.take(part)):
        with pytest.raises(y.EmptyHandle):
            call()
    assert reader.read(0, 50)[0] == SOURCE.data[:50]


def test_empty_handles():
    reader, part = Reader(HASH, SALT, MAX), part_of(0, 50)
    reader.__del__(), part.__del__()
    for call in (lambda: reader.read(0, 5), reader.size, reader.counted, lambda: reader.keep_at_most(5), part._checked,
                 lambda: reader.take(part_of(0, 50)), lambda: Reader(HASH, SALT, 5).take(part), lambda: part.check(b"", True)):
        with pytest.raises(y.EmptyHandle):
            call()


USES = {
    "read": lambda reader, part: reader.read(0, 5), "size": lambda reader, part: reader.size(),
    "counted": lambda reader, part: reader.counted(), "needs": lambda reader, part: reader.needs(0, 5), "keep_at_most": lambda reader, part: reader.keep_at_most(5),
    "take": lambda reader, part: reader.take(part), "check": lambda reader, part: part.check(SOURCE.data[:50], True),
    "a wrong check": lambda reader, part: pytest.raises(y.ProofMismatch, part.check, b"", True),
}


@pytest.mark.parametrize("use", USES)
def test_each_call_is_made_under_the_locks(monkeypatch, use):
    reader, part, seen = Reader(HASH, SALT, MAX), part_of(0, 50), []
    for calls in (_library.short, _library.long, _library.bare):
        for name in _declarations.DECLARATIONS:
            def spied(*given, call=getattr(calls, name), name=name):
                seen.append((name, [item._lock._is_owned() for item in (reader, part) if any(it is item._handle for it in given)]))
                return call(*given)

            monkeypatch.setattr(calls, name, spied)
    USES[use](reader, part)
    assert seen and all(locked and all(locked) for _, locked in seen), seen


@pytest.mark.parametrize("kind", [Reader, Part])
@pytest.mark.parametrize("by_hand", [False, True])
def test_each_is_freed_once_and_under_its_lock(monkeypatch, kind, by_hand):
    gc.collect()
    freed, plain = [], kind._free
    item = Reader(HASH, SALT, 0) if kind is Reader else part_of(0, 50)
    lock, its = item._lock, item._handle

    def free(handle):
        if handle.at and handle is its:
            freed.append(lock._is_owned())
        plain(handle)

    monkeypatch.setattr(kind, "_free", staticmethod(free))
    if by_hand:
        item.__del__()
    del item
    gc.collect()
    assert freed == [True] and not its.at


@pytest.mark.skipif(not hasattr(os, "fork"), reason="there is no fork")
def test_a_reader_in_use_at_a_fork_is_refused():
    reader, has, go_on = reader_of((0, 50)), threading.Event(), threading.Event()

    def hold():
        with reader._lock:
            has.set()
            go_on.wait(20)

    thread = threading.Thread(target=hold)
    thread.start()
    has.wait(20)
    child = os.fork()
    if not child:
        signal.alarm(20)
        try:
            reader.read(0, 5)
        except y.InUseAtFork:
            os._exit(7)
        os._exit(1)
    go_on.set(), thread.join()
    assert os.waitstatus_to_exitcode(os.waitpid(child, 0)[1]) == 7 and reader.read(0, 5)[0] == SOURCE.data[:5]


def test_a_proof_that_does_not_fit():
    proof = SOURCE.tree.proof_of_bytes(100, 200)
    for start, stop, beyond, said in (
            (0, 50, MAX, "the proof is of the bytes from 100 up to 200, and not of those from 0 up to 50"),
            (150, 201, MAX, "the proof is of the bytes from 100 up to 200, and not of those from 150 up to 201"),
            (150, 160, 49, "the proof is of the bytes from 100 up to 200, too far beyond those from 150 up to 160: see chunk_limit")):
        with pytest.raises(y.ProofMismatch, match=f"^{said}$"):
            Part(proof, HASH, SALT, start, stop, beyond)
    assert Part(proof, HASH, SALT, 150, 160, 50).begin == 100
    for hash_, salt in ((bytes(31) + b"\1", SALT), (HASH, bytes(31) + b"\1"), (EMPTY, SALT)):
        with pytest.raises(y.ProofMismatch, match="^the proof doesn't show this file hash under this salt$"):
            Part(proof, hash_, salt, 150, 160, MAX)
