"""Hashing the chunks of a file: what is read, progress, Ctrl-C, and what is refused."""

import _thread
import array
import io
import itertools
import os
import pathlib
import random
import signal
import subprocess
import sys
import threading
import time

import pytest

import yurewha as y
from yurewha import _hashes, _in_threads

MIB = 1 << 20
rng = random.Random(51)


@pytest.fixture
def written(tmp_path):
    """Writes bytes to a file, and returns its path."""
    def write(data):
        path = tmp_path / f"data{len(data)}"
        path.write_bytes(data)
        return path

    return write


@pytest.mark.parametrize("end, count", [
    (0, 1), (0, 5), (1, 3), (1000, 100), (MIB, 1), (MIB + 1, 1), (2 * MIB, 1), (3 * MIB + 5, 2), (5 * MIB, 300), (9 * MIB, 4)])
def test_the_same_hashes_as_of_the_bytes(written, end, count):
    data = rng.randbytes(end)
    offsets = [0, *sorted(rng.randrange(end + 1) for _ in range(count - 1)), end]
    path, expected = written(data), y.data_hashes(data, offsets)
    for name in (path, str(path), os.fsencode(path)):
        assert y.hash_chunks(name, offsets) == expected
    assert y.hash_chunks(path, array.array("Q", offsets)) == y.hash_chunks(path, iter(offsets)) == expected
    assert y.hash_chunks(path, offsets[1:]) == expected[1:] and y.hash_chunks(path, offsets[:1]) == y.Hashes()


@pytest.mark.parametrize("threads", [2, 4, 100])
@pytest.mark.parametrize("end, count", [(0, 1), (0, 5), (1, 3), (1000, 100), (MIB + 1, 1), (3 * MIB + 5, 2), (5 * MIB, 300), (9 * MIB, 4)])
def test_the_same_hashes_in_threads(written, end, count, threads):
    data = rng.randbytes(end)
    offsets = [0, *sorted(rng.randrange(end + 1) for _ in range(count - 1)), end]
    expected = y.data_hashes(data, offsets)
    assert y.hash_chunks(written(data), offsets, threads=threads) == expected
    for show in (bytes, bytearray, memoryview, lambda data: memoryview(bytes(2 * len(data)))[::2]):
        shown = show(data)
        assert y.data_hashes(shown, offsets, threads=threads) == y.data_hashes(bytes(shown), offsets)


@pytest.mark.parametrize("offsets", [
    [0], [0, 0], [7, 7, 7], [0, 9 * MIB], [3, 4, 8 * MIB, 8 * MIB + 1], range(0, 9 * MIB, 1 << 16), range(0, 9 * MIB, 3 * MIB)])
@pytest.mark.parametrize("threads", [1, 3])
def test_progress_goes_from_the_first_offset_to_the_last(written, offsets, threads):
    path, told = written(bytes(9 * MIB)), []
    hashes = y.hash_chunks(path, offsets, progress=lambda done, total: told.append((done, total)), threads=threads)
    assert hashes == y.hash_chunks(path, offsets, progress=None)
    total = list(offsets)[-1] - list(offsets)[0]
    done = [done for done, _ in told]
    assert {of for _, of in told} == {total} and done[-1] == total and done == sorted(set(done))
    assert all(after - before <= MIB for before, after in zip([0, *done], done)) and len(done) <= 2 + 2 * total // MIB


@pytest.mark.parametrize("threads", [1, 3])
def test_an_error_of_progress_ends_the_call(written, threads):
    path, told = written(bytes(9 * MIB)), []

    def progress(done, total):
        told.append(done)
        if done >= 2 * MIB:
            raise LookupError("enough")

    with pytest.raises(LookupError, match="enough"):
        y.hash_chunks(path, [0, 9 * MIB], progress=progress, threads=threads)
    assert told == [MIB, 2 * MIB]
    told.clear()
    with pytest.raises(LookupError, match="enough"):
        y.hash_chunks(path, range(0, 9 * MIB + 1, MIB), progress=progress, threads=threads)
    assert told == [MIB, 2 * MIB]


@pytest.mark.parametrize("call", [
    lambda path, data, offsets: y.hash_chunks(path, offsets, threads=4),
    lambda path, data, offsets: y.data_hashes(data, offsets, threads=4)])
def test_threads_hash_pieces_at_once(written, monkeypatch, call):
    """No piece is done before four were begun."""
    data, meet = rng.randbytes(32 * MIB), threading.Barrier(4)
    begun, hashed = [], _hashes._hashed

    def spied(start, length, places):
        begun.append(threading.current_thread())
        if len(begun) <= 4:
            meet.wait(10)
        return hashed(start, length, places)

    expected = y.data_hashes(data, range(0, 32 * MIB + 1, MIB))
    assert len(set(expected)) == 32
    monkeypatch.setattr("yurewha._hashes._hashed", spied)
    assert call(written(data), data, range(0, 32 * MIB + 1, MIB)) == expected
    assert 1 < len(set(begun)) <= 4 and threading.main_thread() not in begun


def test_few_bytes_are_shared_among_all_threads(monkeypatch):
    """Each of four threads has a part of 8 MiB."""
    meet, begun, hashed = threading.Barrier(4), [], _hashes._hashed

    def spied(start, length, places):
        begun.append(length)
        if len(begun) <= 4:
            meet.wait(10)
        return hashed(start, length, places)

    data, offsets = rng.randbytes(8 * MIB), range(0, 8 * MIB + 1, 1 << 16)
    expected = y.data_hashes(data, offsets)
    monkeypatch.setattr("yurewha._hashes._hashed", spied)
    assert y.data_hashes(data, offsets, threads=4) == expected and len(begun) >= 12


def test_a_thread_is_handed_several_pieces_of_a_long_file(written, monkeypatch):
    handed, do = [], _in_threads._Crew.do

    def spied(crew, pieces):
        handed.append(len(pieces))
        return do(crew, pieces)

    monkeypatch.setattr("yurewha._in_threads._Crew.do", spied)
    for mebibytes, batches in ((9, 9 * [1]), (64, 16 * [4])):
        path, offsets = written(bytes(mebibytes * MIB)), range(0, mebibytes * MIB + 1, 1 << 18)
        handed.clear()
        assert y.hash_chunks(path, offsets, threads=4 if mebibytes == 64 else 2) == y.hash_chunks(path, offsets)
        assert handed == batches


@pytest.mark.parametrize("threads, batch", [(1, 1), (2, 1), (2, 4), (3, 100)])
def test_what_comes_before_an_error_is_yielded(threads, batch):
    results = _in_threads.in_threads(lambda piece, stopped: 60 // (10 - piece), range(20), threads, batch)
    assert list(itertools.islice(results, 10)) == [60 // (10 - piece) for piece in range(10)]
    with pytest.raises(ZeroDivisionError):
        next(results)
    assert list(results) == []


@pytest.mark.parametrize("batch", [1, 4])
def test_pieces_are_taken_as_they_are_needed(batch):
    pieces = itertools.count()
    results = _in_threads.in_threads(lambda piece, stopped: piece, pieces, 2, batch)
    assert list(itertools.islice(results, 100)) == list(range(100))
    results.close()
    assert next(pieces) <= 100 + 20 * batch


def come(outcome):
    """Whether something comes within 20 seconds."""
    deadline = time.monotonic() + 20
    while not outcome.has_come() and time.monotonic() < deadline:
        time.sleep(0.001)
    return outcome.has_come()


def test_what_is_handed_over_while_a_thread_ends():
    """It comes after the thread found nothing left, and before the thread gives its place back. So no other thread is started for it."""
    crew, later = _in_threads._Crew(lambda piece, stopped: piece, 1), []

    class Places(list):
        def append(self, place):
            if not later:
                later.append(crew.handed([2]))
            super().append(place)

    crew._free_places = Places()
    assert _in_threads.waited(crew.handed([1])) == ([1], None)
    while not later:
        time.sleep(0.001)
    assert come(later[0]) and _in_threads.waited(later[0]) == ([2], None)


def test_a_thread_whose_place_is_taken_ends():
    """Pieces are handed over once the thread has given its place back. So another one has the place, and no more threads work than may."""
    crew, later = _in_threads._Crew(lambda piece, stopped: piece, 1), []

    class Places(list):
        def append(self, place):
            super().append(place)
            if not later:
                later.extend(crew.handed([piece]) for piece in range(2, 50))

    crew._free_places = Places()
    assert _in_threads.waited(crew.handed([1])) == ([1], None)
    while len(later) < 48:
        time.sleep(0.001)
    assert all(map(come, later))
    deadline = time.monotonic() + 20
    while not crew._free_places and time.monotonic() < deadline:
        time.sleep(0.001)
    time.sleep(0.02)
    assert len(crew._free_places) == 1


def test_work_is_waited_for_whose_thread_was_not_the_last_to_begin():
    """The thread that was started last ends while another one still works."""
    begun, end, before = threading.Event(), threading.Event(), _thread._count()
    crew = _in_threads._Crew(lambda piece, stopped: (begun.set(), end.wait(20)) if piece == 1 else piece, 2)
    first = crew.handed([1])
    assert begun.wait(20) and _in_threads.waited(crew.handed([2])) == ([2], None)
    deadline = time.monotonic() + 20
    while _thread._count() > before + 1 and time.monotonic() < deadline:
        time.sleep(0.001)
    assert not first.is_lost()
    end.set()
    assert _in_threads.waited(first) == ([(None, True)], None)


def test_progress_is_told_in_the_thread_of_the_caller(written):
    seen = set()
    path = written(bytes(9 * MIB))
    y.hash_chunks(path, range(0, 9 * MIB + 1, MIB), threads=3, progress=lambda done, total: seen.add(threading.current_thread()))
    assert seen == {threading.current_thread()}


def test_no_thread_stays_and_no_file(written):
    path = written(bytes(20 * MIB))
    before = _thread._count()
    for _ in range(3):
        with pytest.raises(ZeroDivisionError):
            y.hash_chunks(path, range(0, 20 * MIB + 1, MIB), progress=lambda done, total: 1 / 0, threads=4)
        deadline = time.monotonic() + 20
        while _thread._count() > before and time.monotonic() < deadline:
            time.sleep(0.01)
        assert _thread._count() == before


@pytest.mark.parametrize("threads, error", [
    (0, y.InvalidArguments), (-1, y.InvalidArguments), (2**64, y.InvalidArguments), (1.5, TypeError), ("2", TypeError), (None, TypeError)])
def test_wrong_threads(written, threads, error):
    for call in (lambda: y.hash_chunks(written(bytes(3)), [0, 3], threads=threads), lambda: y.data_hashes(b"abc", [0, 3], threads=threads)):
        with pytest.raises(error):
            call()


ENDED = """
import signal
import sys
import yurewha as y
signal.signal(signal.SIGINT, signal.default_int_handler)  # a shell's background job begins with Ctrl-C ignored
def progress(done, total):
    if done == 1 << 20:
        print("begun", flush=True)
try:
    y.hash_chunks(sys.argv[1], [0, 1 << 42], progress=progress)
except KeyboardInterrupt:
    print("ended")
"""


def test_ctrl_c_ends_the_call(tmp_path):
    """The file has four TiB, which take no place on the disk."""
    path = tmp_path / "great"
    try:
        with open(path, "wb") as file:
            file.truncate(1 << 42)
    except OSError:
        pytest.skip("the file system has no files of that size")
    package = str(pathlib.Path(y.__file__).resolve().parents[1])
    with subprocess.Popen([sys.executable, "-c", ENDED, str(path)], stdout=subprocess.PIPE, text=True,
                          env={**os.environ, "PYTHONPATH": package}) as process:
        try:
            assert process.stdout.readline() == "begun\n"
            process.send_signal(signal.SIGINT)
            assert process.communicate(timeout=30)[0] == "ended\n"
        finally:
            process.kill()


@pytest.mark.parametrize("offsets, error, text", [
    ([], y.InvalidArguments, "got none"),
    ([0, 3, 2], y.InvalidArguments, "offset 2 must be at least 3, got 2"),
    ([-1, 3], y.InvalidArguments, "offset 0 must be at least 0, got -1"),
    ([0, 11], y.InvalidArguments, "the last offset must be at most 10, the number of bytes, got 11"),
    ([0, 2**63], y.InvalidArguments, "^the last offset must be at most 10, the number of bytes, got 9223372036854775808"),
    ([2**63, 2**63 - 1], y.InvalidArguments, "offset 1 must be at least 9223372036854775808, got 9223372036854775807"),
    ([0, 2**64], y.InvalidArguments, "the last offset"),
    (array.array("Q", [0, 2**63]), y.InvalidArguments, "^the last offset must be at most 10, the number of bytes, got 9223372036854775808"),
    (array.array("q", [0, -(2**63)]), y.InvalidArguments, "offset 1 must be at least 0, got -9223372036854775808"),
    ([0, 1.5], TypeError, "offset 1 must be a whole number, got float"),
    ([0, None], TypeError, "offset 1 must be a whole number, got NoneType"),
    (array.array("d", [0, 1]), y.InvalidArguments, "got 'd'"),
    (7, TypeError, ""),
    ("07", TypeError, ""),
])
def test_wrong_offsets(written, offsets, error, text):
    told = []
    with pytest.raises(error, match=text):
        y.hash_chunks(written(bytes(10)), offsets, progress=lambda *given: told.append(given))
    assert told == []


def test_wrong_paths(tmp_path):
    for path in (7, 1.5, None, ["data"], bytearray(b"data"), True):
        with pytest.raises(TypeError):
            y.hash_chunks(path, [0])
    with pytest.raises(FileNotFoundError):
        y.hash_chunks(tmp_path / "none", [0])
    with pytest.raises(IsADirectoryError):
        y.hash_chunks(tmp_path, [0])
    with pytest.raises(ValueError, match="null"):
        y.hash_chunks("a\0b", [0])


def test_wrong_progress(written):
    for progress in (7, "print", [], False, 0):
        with pytest.raises(TypeError, match="^progress must be a callable, got "):
            y.hash_chunks(written(bytes(3)), [0, 3], progress=progress)
    with pytest.raises(TypeError):
        y.hash_chunks(written(bytes(3)), [0, 3], print)


@pytest.mark.parametrize("most", [1, 1000, MIB - 1])
def test_a_system_that_reads_less_than_it_is_asked_to(written, monkeypatch, most):
    class Short(io.FileIO):
        def read(self, size=-1):
            return super().read(min(size, most))

    monkeypatch.setattr("yurewha._files.open", lambda name, mode, buffering: Short(name, mode), raising=False)
    length = min(3 * MIB, 3000 * most)
    data = rng.randbytes(length)
    pread = os.pread
    monkeypatch.setattr("os.pread", lambda file, size, at: pread(file, min(size, most), at))
    for offsets in ([0, 7, length], [0, length], [3, length // 2, length // 2 + 1, length]):
        for threads in (1, 3):
            assert y.hash_chunks(written(data), offsets, threads=threads) == y.data_hashes(data, offsets)


def test_threads_where_the_system_reads_at_no_place(written, monkeypatch):
    """As Windows doesn't: they read by turns."""
    monkeypatch.delattr("os.pread", raising=False)
    data = rng.randbytes(3 * MIB + 5)
    for offsets in ([0, 7, len(data)], range(0, len(data), 1 << 17)):
        assert y.hash_chunks(written(data), offsets, threads=4) == y.data_hashes(data, offsets)


def test_a_file_that_becomes_shorter(written):
    path = written(bytes(5 * MIB))

    def progress(done, total):
        os.truncate(path, 2 * MIB)

    for offsets in ([0, 5 * MIB], range(0, 5 * MIB + 1, MIB)):
        path.write_bytes(bytes(5 * MIB))
        with pytest.raises(y.InvalidArguments, match="the file became shorter while it was read"):
            y.hash_chunks(path, offsets, progress=progress)
    path.write_bytes(bytes(90 * MIB))
    with pytest.raises(y.InvalidArguments, match="the file became shorter while it was read"):
        y.hash_chunks(path, range(0, 90 * MIB + 1, MIB), progress=progress, threads=2)


def test_the_file_is_closed_also_after_an_error(written):
    path = written(bytes(3 * MIB))
    before = len(os.listdir("/proc/self/fd")) if os.path.exists("/proc/self/fd") else 0
    y.hash_chunks(path, [0, 3 * MIB])
    with pytest.raises(ZeroDivisionError):
        y.hash_chunks(path, [0, 3 * MIB], progress=lambda done, total: 1 / 0)
    assert not before or len(os.listdir("/proc/self/fd")) == before
