"""Files as Xet cuts them: where chunks end, and the hash of a file, beside the model; in pieces, by paths and streams, and in threads.

The cuts and the file hashes are the model's. The hashes of chunks are the package's own, which other tests compare with the model.
"""

import _thread
import array
import contextlib
import functools
import gc
import io
import os
import pathlib
import random
import signal
import subprocess
import sys
import threading
import time
import tracemalloc

import chunker as model
import pytest
import xet_model as m
from counting import counts

import yurewha as y
from yurewha import _guard, _hash_file, _library

MIB = 1 << 20
LEAST, MOST = 1 << 13, 1 << 17
#: A candidate of these bytes, repeated, is at every third place.
OFTEN = bytes([0, 148, 143])
rng = random.Random(111)


def mixed(count):
    """Bytes with cuts at distances of all kinds."""
    parts = []
    while count > 0:
        parts.append(rng.choice((rng.randbytes, bytes, lambda size: (OFTEN * size)[:size]))(min(rng.randrange(1, MOST), count)))
        count -= len(parts[-1])
    return b"".join(parts)


LENGTHS = (0, 1, 63, 64, 65, LEAST - 1, LEAST, LEAST + 1, LEAST + 2, MOST - 1, MOST, MOST + 1, MOST + LEAST - 1, MOST + LEAST, 2 * MOST + 1)
MESSAGES = {
    **{f"{length} zeros": bytes(length) for length in LENGTHS},
    **{f"{length} of one byte": b"\xff" * length for length in (1, LEAST, MOST + 1)},
    **{f"{length} with cuts as often as may be": (OFTEN * length)[:length] for length in LENGTHS},
    "a text": b"abc",
    "a million": model.mixed(10**6),
    "three million": mixed(3 * 10**6),
}
# A chunk that begins in one piece of a file and ends with the next, in which there is no cut.
MESSAGES["a MiB and five bytes"] = MESSAGES["three million"][:MIB + 5]
EACH = pytest.mark.parametrize("name", MESSAGES)


@functools.lru_cache(maxsize=None)
def cuts(name):
    return model.cuts(MESSAGES[name])


@functools.lru_cache(maxsize=None)
def chunks(name):
    """The chunks of a message."""
    data, ends = MESSAGES[name], cuts(name)
    return [(y.data_hash(data[start:end]), end - start) for start, end in zip([0, *ends], ends)]


@functools.lru_cache(maxsize=None)
def file_hash(name, salt=None):
    return y.file_hash(chunks(name), salt)


def pieces(data, size):
    """The pieces of a message, of so many bytes each, or of drawn sizes."""
    at = 0
    while at < len(data):
        length = size or rng.randrange(0, 3 * LEAST)
        yield data[at:at + length]
        at += length


class Stream:
    """A stream that gives at most so many bytes at once."""

    def __init__(self, data, most):
        self._stream, self._most = io.BytesIO(data), most

    def read(self, size):
        return self._stream.read(min(size, self._most))


@pytest.mark.parametrize("name", ["0 zeros", "1 zeros", "a text", f"{LEAST} zeros", f"{MOST + 1} zeros", "a million"])
def test_the_file_hash_is_the_models(name):
    """All of it is computed by the model, which takes seconds for a million bytes."""
    expected = y.Hash(m.to_bytes(model.file_hash(MESSAGES[name])))
    assert y.hash_file(io.BytesIO(MESSAGES[name])) == y.FileHasher(MESSAGES[name]).file_hash() == file_hash(name) == expected
    assert (expected == y.Hash()) == (name == "0 zeros")


def test_the_cuts_of_upstreams_own_test():
    assert len(cuts("a million")) == 19 and cuts(f"{2 * MOST + 1} with cuts as often as may be")[:2] == [8193, 16386]


# ---- In pieces

@EACH
@pytest.mark.parametrize("size", [1, 977, 0, MIB, 4 * MIB])
def test_a_chunker_in_pieces(name, size):
    if size == 1 and len(MESSAGES[name]) > LEAST + 2 and name != f"{MOST + 1} zeros":
        return
    chunker, found, place = y.Chunker(), [], 0
    for piece in pieces(memoryview(MESSAGES[name]), size):
        while (end := chunker.next_boundary(piece)) is not None:
            assert 0 < end <= len(piece) and chunker.taken == 0
            piece, place = piece[end:], place + end
            found.append(place)
        place += len(piece)
        assert chunker.taken == place - (found[-1] if found else 0)
    assert found + [place] * (chunker.taken > 0) == cuts(name)


SHOWN = {
    "bytes": bytes, "bytearray": bytearray, "view": memoryview, "view of a part": lambda data: memoryview(b"a" + data + b"b")[1:-1],
    "writable view": lambda data: memoryview(bytearray(data)), "words": lambda data: array.array("B", data),
    "every second byte": lambda data: memoryview(bytes(value for byte in data for value in (byte, 7)))[::2],
    "rows": lambda data: memoryview(data).cast("B", (1, len(data))) if data else b"",
}


@pytest.mark.parametrize("form", SHOWN)
@pytest.mark.parametrize("name", ["0 zeros", "1 zeros", "a text", f"{2 * MOST + 1} zeros", f"{MOST} with cuts as often as may be"])
def test_pieces_of_each_form(form, name):
    shown, chunker = SHOWN[form](MESSAGES[name]), y.Chunker()
    assert chunker.next_boundary(shown) == (cuts(name)[0] if len(MESSAGES[name]) > LEAST else None)
    hasher = y.FileHasher(shown)
    hasher.update(shown, nobody_writes=form != "every second byte")
    assert hasher.file_hash() == y.FileHasher(2 * MESSAGES[name]).file_hash()


def test_great_pieces_that_can_be_written_to_are_looked_at_chunk_by_chunk():
    left, count = memoryview(bytearray(64 * MIB)), 0
    tracemalloc.start()
    try:
        chunker = y.Chunker()
        while (end := chunker.next_boundary(left)) is not None:
            left, count = left[end:], count + 1
        assert count == 512 and tracemalloc.get_traced_memory()[1] < 2 * MOST
    finally:
        tracemalloc.stop()


def test_a_copy_of_a_chunker_goes_its_own_way():
    one = y.Chunker()
    one.next_boundary(OFTEN * 2000)
    other = one.copy()
    assert other.next_boundary(OFTEN * 2000) == one.next_boundary(OFTEN * 2000) == 8193 - 6000
    assert one.next_boundary(b"abc") is None and (one.taken, other.taken) == (3, 0)
    assert repr(one) == "<yurewha.Chunker, 3 bytes of a chunk>"


@EACH
@pytest.mark.parametrize("size", [1, 977, 0, MIB])
def test_a_hasher_in_pieces(name, size):
    data = MESSAGES[name][:20_000] if size == 1 else MESSAGES[name]
    hasher, salt, whole = y.FileHasher(), bytes(range(32)), len(data) == len(MESSAGES[name])
    for piece in pieces(data, size):
        hasher.update(piece)
    assert hasher.size == len(data) and repr(hasher) == f"<yurewha.FileHasher of {len(data)} byte{'s' * (len(data) != 1)}>"
    if whole:
        assert hasher.root() == y.xorb_hash(chunks(name))
        assert hasher.file_hash() == hasher.file_hash(bytes(32)) == file_hash(name) and hasher.file_hash(salt=salt) == file_hash(name, salt)
    else:
        assert hasher.file_hash() == y.FileHasher(data).file_hash()


def test_a_hasher_goes_on_after_each_hash():
    hasher, data = y.FileHasher(), MESSAGES["a million"]
    for place in range(0, len(data), 99_991):
        assert hasher.file_hash() == y.FileHasher(data[:place]).file_hash() and hasher.root() == y.FileHasher(data[:place]).root()
        hasher.update(data[place:place + 99_991])
    assert hasher.file_hash() == file_hash("a million")


def test_what_hashers_and_chunkers_refuse():
    hasher, chunker = y.FileHasher(b"abc"), y.Chunker()
    for call in (lambda: hasher.update("abc"), lambda: hasher.update(None), lambda: hasher.update(b"", nobody_writes=1),
                 lambda: hasher.file_hash("salt"), lambda: y.FileHasher(7), lambda: chunker.next_boundary("abc"),
                 lambda: chunker.next_boundary(7), lambda: type("Other", (y.FileHasher,), {}), lambda: type("Other", (y.Chunker,), {})):
        with pytest.raises(TypeError):
            call()
    with pytest.raises(y.InvalidArguments, match="^salt must have 32 bytes, got 31$"):
        hasher.file_hash(bytes(31))
    assert hasher.file_hash() == file_hash("a text") and chunker.taken == 0


def test_two_threads_feed_one_hasher():
    """Each piece goes in whole, in some order."""
    hasher, meet = y.FileHasher(), threading.Barrier(4)

    def feed():
        meet.wait(10)
        for _ in range(50):
            hasher.update(bytes(70_000))
            hasher.file_hash()

    threads = [threading.Thread(target=feed) for _ in range(4)]
    for thread in threads:
        thread.start()
    for thread in threads:
        thread.join()
    assert hasher.size == 200 * 70_000 and hasher.file_hash() == y.FileHasher(bytes(200 * 70_000)).file_hash()


def test_what_is_written_during_an_update_is_not_seen(monkeypatch):
    class Spied:
        """Calls of the library, before which the bytes are changed."""

        def __getattr__(self, name):
            def call(*arguments):
                for place in (0, 8190):
                    data[place] ^= 1
                return getattr(_library.long, name)(*arguments)
            return call if name in ("yurewha_file_hasher_update", "yurewha_chunker_next_boundary") else getattr(_library.long, name)

    data, hasher, expected = bytearray(OFTEN * 3000), y.FileHasher(), y.FileHasher(OFTEN * 3000).file_hash()
    monkeypatch.setattr("yurewha._file_hasher.calls_for", lambda count, bound: Spied())
    monkeypatch.setattr("yurewha._chunker.calls_for", lambda count, bound: Spied())
    hasher.update(data)
    assert data != OFTEN * 3000 and hasher.file_hash() == expected
    data[:] = OFTEN * 3000
    assert y.Chunker().next_boundary(data) == 8193 and data != OFTEN * 3000
    data[:] = OFTEN * 3000
    assert y.FileHasher(data).file_hash() == expected and data != OFTEN * 3000


@pytest.mark.skipif(counts is None, reason="nothing counts the library's memory")
def test_a_hasher_that_gets_no_memory_is_as_it_was():
    data, refused = MESSAGES["three million"], 0
    for allowed in range(50):
        hasher = y.FileHasher(data[:MIB])
        counts.count_anew(allowed)
        try:
            hasher.update(data[MIB:])
        except y.OutOfMemory:
            refused += 1
        finally:
            counts.count_anew(-1)
        assert hasher.size == (MIB if refused > allowed else len(data))
        if refused > allowed:
            hasher.update(data[MIB:])
        assert hasher.file_hash() == file_hash("three million")
        if refused <= allowed:
            break
    assert refused > 0


def test_a_freed_hasher_and_one_that_is_freed_twice():
    hasher = y.FileHasher(b"abc")
    hasher.__del__(), hasher.__del__()
    assert repr(hasher) == "<yurewha.FileHasher that can't be read>"
    for call in (lambda: hasher.update(b""), lambda: hasher.update(bytes(1 << 25)), hasher.root, hasher.file_hash, lambda: hasher.size):
        with pytest.raises(y.EmptyHandle):
            call()


# ---- Files

@pytest.fixture
def written(tmp_path):
    """Writes bytes to a file, and returns its path."""
    def write(data, name="data"):
        path = tmp_path / name
        path.write_bytes(data)
        return path

    return write


@EACH
@pytest.mark.parametrize("threads", [None, 1, 2, 4, 100])
def test_a_file_by_its_path_or_as_a_stream(written, name, threads):
    data, salt = MESSAGES[name], bytes(range(32))
    path = written(data)
    for given in (path, str(path), os.fsencode(path)):
        assert y.hash_file(given, threads=threads) == file_hash(name)
    assert y.hash_file(path, salt=salt, threads=threads) == file_hash(name, salt) == y.hash_file(path, salt=bytearray(salt))
    with open(path, "rb") as stream, open(path, "rb", buffering=0) as plain:
        assert y.hash_file(stream, threads=threads) == y.hash_file(plain, threads=threads) == file_hash(name)
        assert stream.read() == plain.read() == b""
    tree = y.HashTree.of_file(path, threads=threads)
    assert list(tree.chunks) == chunks(name) and tree == y.HashTree.of_file(io.BytesIO(data), threads=threads)
    for given in (path, str(path), io.BytesIO(data)):
        assert list(y.chunks_of(given)) == chunks(name)
    assert list(y.hash_cuts(io.BytesIO(data))) == list(y.hash_cuts(io.BytesIO(data), None)) == chunks(name)


@pytest.mark.parametrize("most", [1, 1000, LEAST, MOST + 1, MIB - 1])
@pytest.mark.parametrize("threads", [1, 3])
def test_streams_that_give_less_than_they_are_asked_for(most, threads):
    for name in MESSAGES:
        data = MESSAGES[name]
        if len(data) > 10_000 * most:
            continue
        assert y.hash_file(Stream(data, most), threads=threads) == file_hash(name)
        assert list(y.HashTree.of_file(Stream(data, most), threads=threads).chunks) == list(y.chunks_of(Stream(data, most))) == chunks(name)


def test_a_stream_is_read_from_where_it_is():
    stream = io.BytesIO(b"abcdef")
    stream.read(3)
    assert y.hash_file(stream) == y.hash_file(io.BytesIO(b"def"))


def test_a_chunk_comes_once_it_was_read():
    stream = io.BytesIO(bytes(10 * MIB))
    found = y.chunks_of(stream)
    assert stream.tell() == 0 and next(found)[1] == MOST and stream.tell() == MIB


def test_pipes_devices_and_files_of_the_system(tmp_path):
    pipe = tmp_path / "pipe"
    os.mkfifo(pipe)
    for call in (y.hash_file, lambda path: y.hash_file(path, threads=3), lambda path: y.file_hash(y.chunks_of(path))):
        writer = threading.Thread(target=pipe.write_bytes, args=[MESSAGES["three million"]])
        writer.start()
        assert call(pipe) == file_hash("three million")
        writer.join()
    assert y.hash_file(os.devnull) == y.Hash() and list(y.chunks_of(os.devnull)) == []
    if os.path.exists("/proc/version"):  # whose size is 0
        told = pathlib.Path("/proc/version").read_bytes()
        assert told and y.hash_file("/proc/version") == y.hash_file(io.BytesIO(told))


def test_a_sparse_file(tmp_path):
    path = tmp_path / "sparse"
    with open(path, "wb") as file:
        file.truncate(40 * MIB + 5)
    zeros = (y.data_hash(bytes(MOST)), MOST)
    expected = y.file_hash([*320 * [zeros], (y.data_hash(bytes(5)), 5)])
    assert y.hash_file(path) == y.hash_file(path, threads=1) == y.HashTree.of_file(path).file_hash() == expected


@pytest.mark.parametrize("threads", [1, 2, 4])
def test_progress_adds_up_to_the_size(written, threads):
    data = MESSAGES["three million"] + bytes(8 * MIB)
    told, seen = [], set()

    def progress(count):
        told.append(count), seen.add(threading.current_thread())

    y.hash_file(written(data), progress=progress, threads=threads)
    assert sum(told) == len(data) and 10 <= len(told) <= 13 and min(told) > 0 and seen == {threading.current_thread()}
    told.clear()
    y.HashTree.of_file(written(data), progress=progress, threads=threads)
    assert sum(told) == len(data) and seen == {threading.current_thread()}
    told.clear()
    y.hash_file(written(b""), progress=progress)
    assert told == []


@pytest.mark.parametrize("threads", [1, 3])
def test_an_error_of_progress_ends_the_call(written, threads):
    told = []

    def progress(count):
        told.append(count)
        if len(told) == 2:
            raise LookupError("enough")

    with pytest.raises(LookupError, match="enough"):
        y.hash_file(written(bytes(9 * MIB)), progress=progress, threads=threads)
    assert told == [MIB, MIB]


def test_others_hash_what_the_caller_reads(monkeypatch):
    """No piece is hashed before three were begun, in as many threads."""
    meet, begun, data_hashes = threading.Barrier(3), [], y.data_hashes

    def spied(data, offsets):
        begun.append(threading.current_thread())
        if len(begun) <= 3:
            meet.wait(10)
        return data_hashes(data, offsets)

    monkeypatch.setattr("yurewha._hash_file.data_hashes", spied)
    assert y.hash_file(io.BytesIO(bytes(8 * MIB)), threads=3) == y.FileHasher(bytes(8 * MIB)).file_hash()
    assert len(set(begun)) == 3 and threading.main_thread() not in begun


def test_how_many_threads_there_are(written, monkeypatch):
    used, in_threads = [], _hash_file.in_threads

    def spied(work, pieces, threads):
        used.append(threads)
        return in_threads(work, pieces, threads)

    monkeypatch.setattr("yurewha._hash_file.in_threads", spied)
    for processors, size, threads, expected in (
        (64, 9 * MIB, None, [4]), (3, 9 * MIB, None, [3]), (1, 9 * MIB, None, []), (64, 9 * MIB, 7, [7]), (64, 2 * MIB, 7, [3]),
        (64, MIB - 1, None, []), (64, 0, None, [4]), (64, 9 * MIB, 1, []),
    ):
        monkeypatch.setattr("os.sched_getaffinity", lambda process, count=processors: set(range(count)), raising=False)
        used.clear()
        y.hash_file(written(bytes(size)), threads=threads)
        assert used == expected, (processors, size, threads)
    monkeypatch.delattr("os.sched_getaffinity")
    monkeypatch.setattr("os.cpu_count", lambda: None)
    assert y.hash_file(written(b"abc")) == file_hash("a text")


class Zeros:
    """A long stream."""

    def __init__(self, mebibytes):
        self.left = mebibytes

    def read(self, size):
        self.left -= 1
        return bytes(size) if self.left >= 0 else b""


@pytest.mark.parametrize("call, most", [
    (lambda stream: y.hash_file(stream, threads=1), 4 * MIB), (lambda stream: y.hash_file(stream, threads=2), 26 * MIB),
    (lambda stream: y.file_hash(y.Chunks(y.chunks_of(stream))), 4 * MIB)])
def test_memory_does_not_grow_with_the_file(call, most):
    expected = y.file_hash(1600 * [(y.data_hash(bytes(MOST)), MOST)])
    tracemalloc.start()
    try:
        assert call(Zeros(200)) == expected
        assert tracemalloc.get_traced_memory()[1] < most
    finally:
        tracemalloc.stop()


@pytest.mark.parametrize("threads", [1, 3])
def test_no_object_is_freed_for_each_piece(monkeypatch, threads):
    """Python ignores what a handler raises while it frees an object, so Ctrl-C would be lost there."""
    gc.collect()
    freed, plain = [], _guard.Handle.__del__
    monkeypatch.setattr(_guard.Handle, "__del__", lambda self: (freed.append(type(self)), plain(self))[1])
    assert y.hash_file(io.BytesIO(bytes(20 * MIB)), threads=threads) == y.hash_file(io.BytesIO(bytes(20 * MIB)), threads=1)
    assert 0 < len(freed) < 10


def test_no_thread_stays_and_no_file(written):
    path, before = written(bytes(20 * MIB)), _thread._count()
    files = len(os.listdir("/proc/self/fd")) if os.path.exists("/proc/self/fd") else 0
    for threads in (1, 4):
        with pytest.raises(ZeroDivisionError):
            y.hash_file(path, progress=lambda count: 1 / 0, threads=threads)
    y.hash_file(path)
    found = y.chunks_of(path)
    next(found), found.close()
    deadline = time.monotonic() + 20
    while _thread._count() > before and time.monotonic() < deadline:
        time.sleep(0.01)
    assert _thread._count() == before and (not files or len(os.listdir("/proc/self/fd")) == files)


ENDED = """
import signal
import sys
import yurewha as y
signal.signal(signal.SIGINT, signal.default_int_handler)
def progress(count, told=[]):
    told or print("begun", flush=True)
    told.append(count)
try:
    y.hash_file(sys.argv[1], progress=progress, threads=int(sys.argv[2]))
except KeyboardInterrupt:
    print("ended")
"""


@pytest.mark.parametrize("threads", [1, 3])
def test_ctrl_c_ends_the_call(tmp_path, threads):
    """The file has four TiB, which take no place on the disk."""
    path = tmp_path / "great"
    try:
        with open(path, "wb") as file:
            file.truncate(1 << 42)
    except OSError:
        pytest.skip("the file system has no files of that size")
    package = str(pathlib.Path(y.__file__).resolve().parents[1])
    with subprocess.Popen([sys.executable, "-c", ENDED, str(path), str(threads)], stdout=subprocess.PIPE, text=True,
                          env={**os.environ, "PYTHONPATH": package}) as process:
        try:
            assert process.stdout.readline() == "begun\n"
            process.send_signal(signal.SIGINT)
            assert process.communicate(timeout=30)[0] == "ended\n"
        finally:
            process.kill()


# ---- What is refused

def changing(monkeypatch, change, at):
    """Changes a file before its piece of a number is read."""
    part_of, count = _hash_file.part_of, [0]

    def changed(stream, most):
        if count[0] == at:
            change()
        count[0] += 1
        return part_of(stream, most)

    monkeypatch.setattr("yurewha._hash_file.part_of", changed)
    monkeypatch.setattr("yurewha._cuts.part_of", changed)


CALLS = {
    "alone": lambda path: y.hash_file(path, threads=1), "in threads": lambda path: y.hash_file(path, threads=3),
    "of a tree": y.HashTree.of_file, "of chunks": lambda path: list(y.chunks_of(path)),
}


def appended(path, count):
    with open(path, "ab") as file:
        file.write(bytes(count))


@pytest.mark.parametrize("call", CALLS)
@pytest.mark.parametrize("size, at, change, became", [
    (5 * MIB, 2, lambda path: os.truncate(path, 4 * MIB), "shorter"), (5 * MIB, 2, lambda path: os.truncate(path, 0), "shorter"),
    (5 * MIB, 5, lambda path: os.truncate(path, 5 * MIB - 1), "shorter"), (5 * MIB, 2, lambda path: appended(path, 1), "longer"),
    (5 * MIB, 5, lambda path: appended(path, 1), "longer"), (5 * MIB, 2, lambda path: appended(path, 9 * MIB), "longer"),
    (0, 0, lambda path: appended(path, 5), "longer"), (5, 1, lambda path: os.truncate(path, 0), "shorter"),
])
def test_a_file_whose_size_changes(written, monkeypatch, call, size, at, change, became):
    path = written(bytes(size), "a name")
    changing(monkeypatch, lambda: change(path), at)
    with pytest.raises(y.InvalidArguments) as raised:
        CALLS[call](path)
    assert str(raised.value) == f"the file {str(path)!r} became {became} while it was read"


@pytest.mark.parametrize("call", CALLS)
def test_a_file_that_grows_for_ever_is_not_read_for_ever(written, monkeypatch, call):
    path, read, part_of = written(bytes(2 * MIB)), [], _hash_file.part_of

    def grown(stream, most):
        if len(read) < 40:
            appended(path, MIB)
        read.append(most)
        return part_of(stream, most)

    monkeypatch.setattr("yurewha._hash_file.part_of", grown)
    monkeypatch.setattr("yurewha._cuts.part_of", grown)
    with pytest.raises(y.InvalidArguments, match="became longer"):
        CALLS[call](path)
    assert len(read) == 3


def test_a_file_that_is_replaced_is_the_old_one(written, tmp_path, monkeypatch):
    path = written(bytes(3 * MIB))
    changing(monkeypatch, lambda: os.replace(written(b"abc", "new"), path), 1)
    assert y.hash_file(path) == y.FileHasher(bytes(3 * MIB)).file_hash() and path.read_bytes() == b"abc"


@pytest.mark.parametrize("call", [*CALLS.values(), y.chunks_of])
def test_wrong_paths(tmp_path, call):
    for path in (7, 1.5, None, ["data"], bytearray(b"data"), True):
        with pytest.raises(TypeError, match="^path must be a path, or a stream with a method `read`, got "):
            call(path)
    if call is y.chunks_of:
        return
    with pytest.raises(FileNotFoundError, match="none"):
        call(tmp_path / "none")
    with pytest.raises(IsADirectoryError, match=tmp_path.name):
        call(tmp_path)
    with pytest.raises(ValueError, match="null"):
        call("a\0b")
    with pytest.raises(TypeError, match="^`read` must return bytes, got str$"):
        call(io.StringIO("abc"))


def test_a_path_is_looked_at_when_the_first_chunk_is_asked_for(tmp_path):
    found = y.chunks_of(tmp_path / "none")
    with pytest.raises(FileNotFoundError):
        next(found)


def test_an_error_of_a_stream_passes_through():
    class Broken(Stream):
        def read(self, size):
            raise OSError(5, "broken")

    for call in CALLS.values():
        with pytest.raises(OSError, match="broken"):
            call(Broken(b"", 1))


def test_wrong_arguments(written):
    path = written(b"abc")
    for call in (y.hash_file, y.HashTree.of_file):
        for threads, error in ((0, y.InvalidArguments), (-1, y.InvalidArguments), (1.5, TypeError), ("2", TypeError)):
            with pytest.raises(error, match="^threads must be "):
                call(path, threads=threads)
        for progress in (7, "print", False):
            with pytest.raises(TypeError, match="^progress must be a callable, got "):
                call(path, progress=progress)
        with pytest.raises(TypeError):
            call(path, 2)
    for salt, error in ((bytes(31), y.InvalidArguments), ("salt", TypeError), (7, TypeError)):
        with pytest.raises(error):
            y.hash_file(path, salt=salt)
    with contextlib.suppress(FileNotFoundError):
        y.hash_file("/no such file", salt=bytes(32))
