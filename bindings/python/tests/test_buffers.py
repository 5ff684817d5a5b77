"""Bytes of other objects: which ones cross where they are, which are copied, and that each is given back."""

import array
import ctypes
import mmap
import random
import sys
import tracemalloc

import pytest

import yurewha as y
from yurewha import _declarations, _hashes, _library

MIB = 1 << 20
DATA = random.Random(21).randbytes(4 * MIB + 3)
EXPECTED = y.data_hash(DATA)


def copied(call):
    """The most memory that was taken at once while a call ran."""
    tracemalloc.start()
    try:
        call()
        return tracemalloc.get_traced_memory()[1]
    finally:
        tracemalloc.stop()


def read_only_forms(tmp_path):
    yield "a view of bytes", memoryview(b"a" + DATA)[1:]
    yield "a view of all bytes", memoryview(DATA)
    yield "a view of words", memoryview(DATA[:4 * MIB]).cast("Q")
    path = tmp_path / "data"
    path.write_bytes(DATA)
    with open(path, "rb") as file:
        yield "a file mapped to be read", mmap.mmap(file.fileno(), 0, access=mmap.ACCESS_READ)
    numpy = pytest.importorskip("numpy")
    yield "an array over bytes", numpy.frombuffer(b"a" + DATA, dtype="u1")[1:]
    yield "an array over a file", numpy.memmap(path, mode="r")
    own = numpy.frombuffer(DATA, dtype="u1").copy()
    own.flags.writeable = False
    yield "a read-only array", own
    yield "a read-only array of rows", own[:4 * MIB].view("<u8").reshape(-1, 8)


def writable_forms():
    yield "a bytearray", bytearray(DATA)
    yield "a view of a bytearray", memoryview(bytearray(b"a" + DATA))[1:]
    yield "a read-only view of a bytearray", memoryview(bytearray(DATA)).toreadonly()
    yield "an array", array.array("B", DATA)
    numpy = pytest.importorskip("numpy")
    own = numpy.frombuffer(DATA, dtype="u1").copy()
    yield "an array of NumPy", own
    shown = own.view()
    shown.flags.writeable = False
    yield "a read-only view of it", shown
    yield "an array over a read-only view", numpy.frombuffer(memoryview(bytearray(DATA)).toreadonly(), dtype="u1")


def test_read_only_bytes_are_hashed_where_they_are(tmp_path):
    for name, form in read_only_forms(tmp_path):
        expected = EXPECTED if memoryview(form).nbytes == len(DATA) else y.data_hash(DATA[:4 * MIB])
        assert y.data_hash(form) == y.Hasher(form).hash() == expected, name
        for call in (lambda: y.data_hash(form), lambda: y.internal_node_hash(form), lambda: y.Hasher().update(form)):
            assert copied(call) < MIB // 16, name


def test_others_are_copied_a_piece_at_a_time_or_cross_by_promise():
    for name, form in writable_forms():
        assert y.data_hash(form) == y.Hasher(form).hash() == y.data_hash(form, nobody_writes=True) == EXPECTED, name
        for call in (y.data_hash, y.internal_node_hash, y.Hasher().update):
            assert MIB <= copied(lambda: call(form)) < MIB + MIB // 16, name
            assert copied(lambda: call(form, nobody_writes=True)) < MIB // 16, name


def test_many_chunks_are_copied_a_piece_at_a_time():
    offsets = range(0, len(DATA), 1 << 16)
    expected = y.data_hashes(DATA, offsets)
    assert copied(lambda: y.data_hashes(memoryview(DATA), offsets)) < MIB // 16
    writable = bytearray(DATA)
    assert MIB <= copied(lambda: y.data_hashes(writable, offsets)) < MIB + MIB // 16
    assert copied(lambda: y.data_hashes(writable, offsets, nobody_writes=True)) < MIB // 16
    assert y.data_hashes(writable, offsets) == y.data_hashes(writable, offsets, nobody_writes=True) == expected


@pytest.mark.parametrize("length, threads, share", [
    (0, 1, 1 << 19), (1 << 21, 2, 1 << 19), (1 << 24, 2, 1 << 21), (1 << 25, 2, 1 << 22), (1 << 40, 2, 1 << 22)])
def test_how_many_bytes_a_thread_hashes_at_once(length, threads, share):
    assert _hashes._share(length, threads) == share


@pytest.mark.parametrize("length", [0, 1, 2047, 2048, 2049, MIB - 1, MIB, MIB + 1, 2 * MIB, 2 * MIB + 1])
def test_the_same_hashes_at_each_length(length):
    data = DATA[:length]
    inner = y.internal_node_hash(data)
    for form in (bytearray(data), memoryview(b"a" + data)[1:], memoryview(bytearray(data + b"a"))[:-1], array.array("B", data)):
        for promised in (False, True):
            assert y.data_hash(form, nobody_writes=promised) == y.data_hash(data)
            assert y.internal_node_hash(form, nobody_writes=promised) == inner
            hasher = y.Hasher(b"first")
            hasher.update(form, nobody_writes=promised)
            assert hasher.hash() == y.data_hash(b"first" + data)


class Unknown:
    """Lends its bytes to NumPy as read-only ones. It has no buffer that says who may write to them."""

    def __init__(self, room):
        self.room = (ctypes.c_char * len(room)).from_buffer(room)
        self.__array_interface__ = {
            "version": 3, "shape": (len(room),), "typestr": "|u1", "data": (ctypes.addressof(self.room), True)}


def shown_by_numpy(make):
    return lambda room: make(pytest.importorskip("numpy"), room)


#: What shows the bytes of a bytearray, which somebody may write to.
SHOWN = {
    "itself": lambda room: room,
    "a view": memoryview,
    "a part of it": lambda room: memoryview(room)[:],
    "a read-only view": lambda room: memoryview(room).toreadonly(),
    "a read-only view of a read-only view": lambda room: memoryview(memoryview(room).toreadonly())[:],
    "an array": shown_by_numpy(lambda numpy, room: numpy.frombuffer(room, dtype="u1")),
    "an array over a read-only view": shown_by_numpy(
        lambda numpy, room: numpy.frombuffer(memoryview(room).toreadonly(), dtype="u1")),
    "an array over what nobody knows": shown_by_numpy(lambda numpy, room: numpy.asarray(Unknown(room))),
}

#: Calls over bytes, each with what it gives for the bytes that it was given.
OVER_BYTES = {
    "data_hash": (lambda data, opened: y.data_hash(data), y.data_hash),
    "internal_node_hash": (lambda data, opened: y.internal_node_hash(data), y.internal_node_hash),
    "hasher": (lambda data, opened: y.Hasher(data).hash(), y.data_hash),
    "data_hashes": (lambda data, opened: y.data_hashes(data, [0, memoryview(data).nbytes])[0], y.data_hash),
    "check": (lambda data, opened: opened.check(0, data), lambda data: 0),
    "read": (lambda data, opened: bytes(opened.read(0, 7, data)), lambda data: data[:7]),
    "what read returns": (lambda data, opened: y.data_hash(opened.read(0, memoryview(data).nbytes, data)), y.data_hash),
}

#: The calls of the library that hash bytes.
HASHING = ["yurewha_" + name for name in (
    "data_hash", "internal_node_hash", "hasher_update", "data_hashes", "opened_range_check", "opened_range_read")]


@pytest.mark.parametrize("length", [100, 5000, 50_000, MIB])
@pytest.mark.parametrize("shown", SHOWN)
@pytest.mark.parametrize("name", OVER_BYTES)
def test_what_is_written_during_a_call_is_not_seen(monkeypatch, name, shown, length):
    """Somebody writes to the bytes at the moment at which the library gets them, so they have to be a copy."""
    data, (call, of) = DATA[:length], OVER_BYTES[name]
    room, tree = bytearray(data), y.HashTree([(y.data_hash(data), length)])
    opened, expected = tree.proof(0, 1).open_root(tree.root), of(data)
    form = SHOWN[shown](room)
    for calls in (_library.short, _library.long, _library.bare):
        for taking in HASHING:
            def spied(*arguments, call=getattr(calls, taking)):
                room[:] = bytes(length)
                return call(*arguments)
            monkeypatch.setattr(calls, taking, spied)
    assert call(form, opened) == expected and room == bytes(length)


def test_what_read_returns_can_never_be_written_to():
    tree = y.HashTree([(EXPECTED, len(DATA))])
    opened = tree.proof(0, 1).open_root(tree.root)
    for form in (DATA, bytearray(DATA), memoryview(bytearray(DATA)), memoryview(DATA)[::1]):
        view = opened.read(0, 100, form)
        assert view.readonly and type(view.obj) is bytes and view == DATA[:100]
    room = bytearray(DATA)
    assert len(DATA) <= copied(lambda: opened.read(0, 100, room)) < len(DATA) + MIB // 16
    assert copied(lambda: opened.read(0, 100, DATA)) < MIB // 16


def test_bytes_that_do_not_lie_one_after_the_other():
    view = memoryview(DATA)[::-3]
    for promised in (False, True):
        assert y.data_hash(view, nobody_writes=promised) == y.data_hash(DATA[::-3])


class Struct(ctypes.Structure):
    _fields_ = [("text", ctypes.c_char_p), ("O", ctypes.c_int)]


def arrays_of_addresses():
    yield (ctypes.py_object * 4)(1, 2, 3, 4)
    yield (ctypes.c_char_p * 4)(b"a", b"b", b"c", b"d")
    yield (ctypes.c_wchar_p * 4)("a", "b", "c", "d")
    yield (ctypes.c_void_p * 4)(1, 2, 3, 4)
    yield (ctypes.POINTER(ctypes.c_int) * 4)()
    yield (ctypes.CFUNCTYPE(None) * 4)()
    yield (Struct * 2)()
    numpy = pytest.importorskip("numpy")
    yield numpy.array([b"a", "b", None, 7], dtype=object)
    yield numpy.zeros(1000, dtype=object)
    yield numpy.zeros((2, 2), dtype=object)
    yield numpy.zeros(2, dtype=[("x", "u8"), ("y", "O")])
    yield numpy.zeros(2, dtype=[("x", [("y", "O"), ("z", "u8")])])


def test_addresses_of_objects_are_not_bytes():
    salted = (y.file_hash, y.Session().finish, y.Subtree.from_chunks(True, [], True).file_hash)
    calls = (
        y.Hash, y.Hash.from_bytes, y.data_hash, y.internal_node_hash, y.Hasher, y.Hasher.internal_node, y.Hasher.keyed,
        y.Hasher().update, lambda data: y.data_hash(data, nobody_writes=True), lambda data: y.data_hashes(data, [0]),
        lambda data: y.Hasher.keyed(bytes(32), data), lambda data: salted[0]([], salt=data), lambda data: salted[1](0, data),
        salted[2], y.Subtree.from_json, y.Session.from_json)
    for given in arrays_of_addresses():
        for form in (given, memoryview(given)):
            for call in calls:
                with pytest.raises(TypeError, match="the addresses of objects"):
                    call(form)
            for call in (y.Chunks, y.Hashes, y.xorb_hash, lambda sizes: y.Chunks.from_columns([], sizes)):
                with pytest.raises((TypeError, y.InvalidArguments)):
                    call(form)


def test_other_arrays_are_bytes():
    """Names of fields may have any letter, and complex numbers have a `Z` in their format."""
    numpy = pytest.importorskip("numpy")
    for array_ in (numpy.zeros(2, dtype=[("O", "u8"), ("P&X", "u8")]), numpy.arange(4, dtype="c16"), numpy.arange(4, dtype="c8"),
                   numpy.array(["a", "b"]), numpy.array([True, False]), numpy.arange(4, dtype="f2")):
        assert y.data_hash(array_) == y.data_hash(array_.tobytes())


def test_each_buffer_is_given_back():
    """A `bytearray` can't grow while somebody has its place."""
    full = y.Hasher(bytes(12345))
    full._state.state[list(full._state.state).index(12345)] = 2**64 - 1
    for length in (10, 3000, MIB + 1):
        for promised in (False, True):
            block = bytearray(length)
            y.data_hash(block, nobody_writes=promised)
            y.data_hashes(block, [0, length], nobody_writes=promised)
            with pytest.raises(y.SizeOverflow):
                full.update(block, nobody_writes=promised)
            with pytest.raises(y.InvalidArguments):
                y.data_hashes(block, [0, length + 1], nobody_writes=promised)
            block.append(0)
    assert full.count == 2**64 - 1


@pytest.fixture
def crossings(monkeypatch):
    """The calls of the library, in order: each name, and whether the interpreter's lock is given up."""
    made = []
    for calls in (_library.short, _library.long, _library.bare):
        for name in _declarations.DECLARATIONS:
            def spied(*arguments, call=getattr(calls, name), told=(name[8:], calls is _library.long)):
                made.append(told)
                return call(*arguments)
            monkeypatch.setattr(calls, name, spied)
    return made


def test_how_often_a_call_crosses(crossings):
    """64 KiB cross in one call, which gives up the lock, also as many chunks; a hundred pairs in one that is too short to."""
    data = bytes(1 << 16)
    chunks, hasher = y.Chunks(40 * 100 * b"\0"), y.Hasher()
    for call, expected in (
        (lambda: y.data_hash(data), [("data_hash", True)]),
        (lambda: y.data_hash(memoryview(b"a" + data)[1:]), [("data_hash", True)]),
        (lambda: y.data_hash(bytearray(data)), [("data_hash", True)]),
        (lambda: y.data_hash(bytearray(data), nobody_writes=True), [("data_hash", True)]),
        (lambda: y.internal_node_hash(memoryview(data)), [("internal_node_hash", True)]),
        (lambda: hasher.update(memoryview(b"a" + data)[1:]), [("hasher_update", True)]),
        (lambda: y.data_hashes(data, range(0, (1 << 16) + 1, 16)), [("data_hashes", True)]),
        (lambda: y.data_hashes(data, range(0, 65, 16)), [("data_hashes", False)]),
        (lambda: y.data_hashes(bytearray(3 * MIB), range(0, 3 * MIB + 1, 1 << 16)), 3 * [("data_hashes", True)]),
        (lambda: y.data_hashes(bytearray(3 * MIB), [0, 2 * MIB, 3 * MIB]), 2 * [("data_hashes", True)]),
        (lambda: y.data_hashes(bytearray(3 * MIB), [0, 3 * MIB], nobody_writes=True), [("data_hashes", True)]),
        (lambda: y.data_hash(data[:2000]), [("data_hash", False)]),
        (lambda: y.Subtree.from_chunks(False, chunks, False), [("subtree_from_chunks", False)]),
        (lambda: y.Subtree.from_chunks(False, y.Chunks(10 * chunks.packed), False), [("subtree_from_chunks", True)]),
        (lambda: y.Chunks.from_columns(chunks.hashes, chunks.sizes), []),
        (lambda: y.Hashes.from_hex(chunks.hashes.hex()), []),
    ):
        crossings.clear()
        call()
        assert crossings == expected


@pytest.mark.skipif(sys.version_info < (3, 12), reason="classes have no buffers before Python 3.12")
def test_a_buffer_that_is_another_one_each_time():
    """The bytes that were looked at are the ones that are hashed."""
    class Changing:
        def __init__(self):
            self.lengths = [1 << 16, 1, 1 << 16, 1]

        def __buffer__(self, flags):
            return memoryview(bytes(self.lengths.pop(0)))

    whole = bytes(1 << 16)
    for promised in (False, True):
        assert y.data_hash(Changing(), nobody_writes=promised) == y.data_hash(whole)
        assert y.data_hashes(Changing(), [0, 1 << 16], nobody_writes=promised)[0] == y.data_hash(whole)


def test_a_view_stays_the_callers(monkeypatch):
    """It can't be released during a call, and it can be used after one. A released view is refused."""
    view = memoryview(b"a" + DATA)[1:]
    hashed = _library.long.yurewha_data_hash

    def spied(*arguments):
        with pytest.raises(BufferError):
            view.release()
        return hashed(*arguments)

    monkeypatch.setattr(_library.long, "yurewha_data_hash", spied)
    assert y.data_hash(view) == y.data_hash(view) == EXPECTED
    view.release()
    with pytest.raises(ValueError, match="released"):
        y.data_hash(view)


def test_owners_without_end():
    class Endless(bytes):
        """Bytes that name themselves as their owner."""

        base = property(lambda self: self)

    assert y.data_hash(Endless(DATA)) == y.data_hash(Endless(DATA), nobody_writes=True) == EXPECTED


@pytest.mark.parametrize("others", [0, 1, 14, 15, 16, 17, 40])
def test_owners_behind_many_others(others):
    """Behind so many read-only owners there is one that can be written to. So the bytes are copied."""
    class Owned(bytes):
        """Bytes that name another object as their owner."""

        base = bytearray(DATA)

    form = Owned(DATA)
    for _ in range(others):
        form, form.base = Owned(DATA), form
    assert y.data_hash(form) == EXPECTED and copied(lambda: y.data_hash(form)) >= MIB


def test_the_promise_is_named_and_a_bool():
    with pytest.raises(TypeError):
        y.data_hash(bytearray(3), True)
    calls = (y.data_hash, y.internal_node_hash, y.Hasher().update, lambda data, **names: y.data_hashes(data, [0], **names))
    for value in (1, 0, None, "no"):
        for call in calls:
            with pytest.raises(TypeError, match="nobody_writes must be a bool"):
                call(bytearray(3), nobody_writes=value)
