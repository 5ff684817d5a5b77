"""Columns of hashes and sizes, many chunks in one call, and hex texts in bulk."""

import array
import copy
import ctypes
import pickle
import random
import struct
import sys
import types

import pytest

import yurewha as y

rng = random.Random(31)
MAX = 2**64 - 1
HASHES = [y.Hash.random_from_seed(seed) for seed in range(60)]
SIZES = [rng.getrandbits(40) for _ in HASHES]
CHUNKS = y.Chunks(zip(HASHES, SIZES))
RAW = b"".join(hash_.bytes for hash_ in HASHES)
RAW_SIZES = struct.pack("<60Q", *SIZES)


def test_plain_columns():
    for hashes in (HASHES, tuple(HASHES), [h.bytes for h in HASHES], RAW, bytearray(RAW), memoryview(RAW),
                   memoryview(RAW).cast("B", (60, 32)), memoryview(RAW).cast("Q"), memoryview(RAW).cast("Q").cast("B"),
                   y.Hashes(RAW), CHUNKS.hashes):
        for sizes in (SIZES, tuple(SIZES), array.array("Q", SIZES), array.array("q", SIZES), RAW_SIZES, CHUNKS.sizes):
            assert y.Chunks.from_columns(hashes, sizes) == CHUNKS
    assert y.Chunks.from_columns(iter(HASHES), iter(SIZES)) == CHUNKS
    assert y.Chunks.from_columns([], []) == y.Chunks.from_columns(b"", b"") == y.Chunks()
    assert y.Chunks.from_columns([y.Hash()], [MAX]) == y.Chunks([(y.Hash(), MAX)])
    assert list(CHUNKS.hashes) == HASHES and list(CHUNKS.sizes) == SIZES
    assert list(y.Chunks().hashes) == list(y.Chunks().sizes) == []


def test_columns_of_numpy():
    numpy = pytest.importorskip("numpy")
    words = numpy.frombuffer(RAW, dtype="<u8").reshape(60, 4)
    plain = numpy.frombuffer(RAW, dtype="u1").reshape(60, 32)
    sizes = numpy.array(SIZES, dtype="<u8")
    for hashes in (words, plain, words.copy(), numpy.asfortranarray(words), plain.T.copy().T, plain[:, :],
                   numpy.frombuffer(RAW, dtype="V32"), numpy.frombuffer(RAW, dtype="S32"), words.reshape(-1),
                   numpy.asarray(CHUNKS)["hash"], numpy.array([h.bytes for h in HASHES], dtype=object)):
        for column in (sizes, sizes.astype("i8"), numpy.asarray(CHUNKS)["size"], sizes.astype(object)):
            assert y.Chunks.from_columns(hashes, column) == CHUNKS
    assert y.Chunks.from_columns(words[::-2], sizes[::-2]) == CHUNKS[::-2]
    assert y.data_hashes(bytes(60), numpy.arange(61, dtype="u1")) == y.data_hashes(bytes(60), range(61))
    assert numpy.array_equal(numpy.asarray(y.Hashes(HASHES)), words) and numpy.array_equal(numpy.asarray(CHUNKS.sizes), sizes)
    assert not numpy.asarray(y.Hashes(HASHES)).flags.writeable


DATA = bytes(range(200)) * 20
TREE = y.HashTree([(y.data_hash(DATA), len(DATA))])
#: Calls that take an array, each with the array of NumPy that it gets.
OF_ARRAYS = {
    "Hashes": (y.Hashes, lambda np: np.asarray(CHUNKS.hashes)),
    "Hashes of bytes": (y.Hashes, lambda np: np.frombuffer(RAW, "u1").reshape(60, 32)),
    "Hashes of objects": (y.Hashes, lambda np: np.array([hash_.bytes for hash_ in HASHES], dtype=object)),
    "Chunks": (y.Chunks, np_chunks := lambda np: np.asarray(CHUNKS)),
    "file_hash": (y.file_hash, np_chunks),
    "Session.put": (lambda given: y.Session().put(0, given), np_chunks),
    "from_columns of hashes": (lambda given: y.Chunks.from_columns(given, SIZES), lambda np: np.asarray(CHUNKS.hashes)),
    "from_columns of texts": (lambda given: y.Chunks.from_columns(given, SIZES), lambda np: np.array(CHUNKS.hashes.hex())),
    "from_columns of sizes": (lambda given: y.Chunks.from_columns(HASHES, given), lambda np: np.array(SIZES, "u8")),
    "from_columns of objects": (lambda given: y.Chunks.from_columns(HASHES, given), lambda np: np.array(SIZES, dtype=object)),
    "picks by numbers": (lambda given: CHUNKS[given], lambda np: np.arange(7)),
    "picks by bools": (lambda given: CHUNKS.hashes[given], lambda np: np.arange(60) > 7),
    "HashIndex.add_all": (lambda given: y.HashIndex(HASHES, given), lambda np: np.arange(60)),
    "HashIndex.contains": (y.HashIndex(HASHES[:5]).contains, lambda np: np.asarray(CHUNKS.hashes)),
    "HashIndex.new": (y.HashIndex(HASHES[:5]).new, lambda np: np.asarray(CHUNKS.hashes)),
    "Session.contains": (y.Session().contains, lambda np: np.asarray(CHUNKS.hashes)),
    "Session.keep_hashes": (lambda given: y.Session().keep_hashes(given), lambda np: np.asarray(CHUNKS.hashes)),
    "data_hashes of offsets": (lambda given: y.data_hashes(DATA, given), lambda np: np.arange(50)),
    "file_hashes of offsets": (lambda given: y.file_hashes(CHUNKS, given), lambda np: np.arange(50)),
    "data_hashes": (lambda given: y.data_hashes(given, [0, 7]), np_bytes := lambda np: np.frombuffer(DATA, "u1")),
    "data_hash": (y.data_hash, np_bytes),
    "data_hash of few": (y.data_hash, lambda np: np.arange(3, dtype="u1")),
    "internal_node_hash": (y.internal_node_hash, np_bytes),
    "Hasher": (lambda given: y.Hasher(given).hash(), np_bytes),
    "Hasher.update": (lambda given: y.Hasher().update(given), np_bytes),
    "OpenedRange.check": (lambda given: TREE.proof(0, 1).open_root(TREE.root).check(0, given), np_bytes),
    "OpenedRange.read": (lambda given: bytes(TREE.proof(0, 1).open_root(TREE.root).read(0, 9, given)), np_bytes),
    "what fetch returns": (lambda given: y.VerifiedFile(TREE.file_hash(), lambda a, b: given, TREE.proof_of_bytes).read(9), np_bytes),
    "a salt": (lambda given: y.file_hash(CHUNKS, given), lambda np: np.arange(32, dtype="u1")),
    "RangeProof.from_bytes": (y.RangeProof.from_bytes, lambda np: np.frombuffer(TREE.proof(0, 1).to_bytes(), "u1")),
}


@pytest.mark.parametrize("name", OF_ARRAYS)
def test_masked_items_of_arrays_are_refused(name):
    """Under a mask there may be anything. A masked array without a masked item is taken as any other one is."""
    numpy = pytest.importorskip("numpy")
    call, make = OF_ARRAYS[name]
    array = make(numpy)
    masked, place = numpy.ma.array(array), len(array) - 1
    assert call(masked) == call(array)
    numpy.ma.getmaskarray(masked)
    masked[place] = numpy.ma.masked
    for given in (masked, memoryview(masked)) if array.dtype.kind not in "OU" else (masked,):
        with pytest.raises(y.InvalidArguments, match=f"^item {place} of the array is masked$"):
            call(given)


@pytest.mark.parametrize("kind", ["u1", "i1", "u2", "i2", "u4", "i4", "u8", "i8"])
def test_sizes_are_read_by_the_width_of_the_column(kind):
    numpy = pytest.importorskip("numpy")
    top = int(numpy.iinfo(kind).max)
    for count in (0, 1, 8, 60):
        hashes, sizes = HASHES[:count], [rng.randint(0, top) for _ in range(count)]
        sizes[:2] = [top, 0][:count]
        column = numpy.array(sizes, dtype=kind)
        typed = array.array(dict(u1="B", i1="b", u2="H", i2="h", u4="I", i4="i", u8="Q", i8="q")[kind], sizes)
        twice = numpy.repeat(column, 2)[::2]
        for form in (column, memoryview(column), twice, typed, memoryview(typed), column[::-1][::-1]):
            assert y.Chunks.from_columns(hashes, form) == y.Chunks(zip(hashes, sizes))
        with pytest.raises(y.InvalidArguments, match=f"got {count + 1} hashes and {count} sizes"):
            y.Chunks.from_columns([*hashes, y.Hash()], column)
    if kind[0] == "i":
        for negative in (-1, -1 - top):
            with pytest.raises(y.InvalidArguments, match="size 2 must be a whole number from 0"):
                y.Chunks.from_columns(HASHES[:4], numpy.array([0, top, negative, -1], dtype=kind))


def steps_of(call):
    """How many instructions of Python a call takes."""
    steps = 0

    def trace(frame, event, argument):
        nonlocal steps
        frame.f_trace_opcodes = True
        steps += event == "opcode"
        return trace

    before = sys.gettrace()
    sys.settrace(trace)
    try:
        call()
    finally:
        sys.settrace(before)
    return steps


@pytest.mark.parametrize("typecode", "Qq")
def test_no_instruction_of_python_is_taken_for_each_size(typecode):
    steps = []
    for count in (1000, 1000, 2000):  # the first call may take more, as it fills caches
        hashes, sizes = bytes(32 * count), array.array(typecode, range(count))
        steps.append(steps_of(lambda: y.Chunks.from_columns(hashes, sizes)))
    assert steps[1] == steps[2] > 0


def test_hex_texts_in_a_column():
    texts = [h.hex() for h in HASHES]
    for hashes in (texts, tuple(texts), iter(texts), (text.upper() for text in texts)):
        assert y.Chunks.from_columns(hashes, SIZES) == CHUNKS
    numpy = pytest.importorskip("numpy")
    for hashes in (numpy.array(texts), numpy.array(texts, dtype=object)):
        assert y.Chunks.from_columns(hashes, SIZES) == CHUNKS
    pandas = pytest.importorskip("pandas")
    for kind in ("object", "string"):
        assert y.Chunks.from_columns(pandas.Series(texts, dtype=kind), SIZES) == CHUNKS


def test_columns_of_pandas():
    pandas = pytest.importorskip("pandas")
    frame = pandas.DataFrame({"hash": [h.bytes for h in HASHES], "made": HASHES, "size": SIZES})
    for hashes in (frame["hash"], frame["made"], y.Hashes.from_hex(frame["made"].map(str))):
        for sizes in (frame["size"], frame["size"].astype("uint64"), frame["size"].astype("Int64")):
            assert y.Chunks.from_columns(hashes, sizes) == CHUNKS
    with pytest.raises(TypeError, match="size 3 "):
        y.Chunks.from_columns(frame["hash"], frame["size"].astype("Int64").where(frame.index != 3))
    with pytest.raises(y.InvalidArguments, match="got 'd'"):
        y.Chunks.from_columns(frame["hash"], frame["size"].where(frame.index != 3))
    with pytest.raises(TypeError, match="hash 3 "):
        y.Chunks.from_columns(frame["hash"].where(frame.index != 3), frame["size"])


class ArrowArray:
    """What `pyarrow.Array` has: its buffers, and a conversion to NumPy."""

    def __init__(self, raw, plain):
        self._raw, self._plain = raw, plain

    def buffers(self):
        return [None, memoryview(self._raw)]

    def __array__(self, dtype=None):
        return self._plain


def test_columns_of_arrow():
    numpy = pytest.importorskip("numpy")
    hashes = ArrowArray(RAW, numpy.array([h.bytes for h in HASHES], dtype=object))
    sizes = ArrowArray(RAW_SIZES, numpy.array(SIZES, dtype="u8"))
    assert y.Chunks.from_columns(hashes, sizes) == CHUNKS
    assert y.Chunks.from_columns(hashes.buffers()[1], sizes.buffers()[1]) == CHUNKS


WITHOUT = ctypes.CFUNCTYPE(None, ctypes.c_void_p)
NEXT = ctypes.CFUNCTYPE(ctypes.c_int, ctypes.c_void_p, ctypes.c_void_p)
LAST = ctypes.CFUNCTYPE(ctypes.c_void_p, ctypes.c_void_p)
new_capsule = ctypes.pythonapi["PyCapsule_New"]
new_capsule.argtypes, new_capsule.restype = [ctypes.c_void_p, ctypes.c_char_p, ctypes.c_void_p], ctypes.py_object


class Lender:
    """Lends a column as other packages do, by C structs that are written word by word as Arrow's page has them.

    A part is its bytes, its offset, how many items it has, and its bitmap or None. The structs that weren't given back yet are
    in `lent`.
    """

    def __init__(self, kind, *parts, dictionary=0, fails=False):
        self.kind, self.parts, self.dictionary, self.fails = kind, list(parts), dictionary, fails
        self.kept, self.lent = [], []

    def place(self, value):
        self.kept.append(value)
        return ctypes.cast(value, ctypes.c_void_p).value

    def release(self, words, at):
        """A callback that takes a struct back, of which this word says so."""
        def back(address):
            self.lent.remove(address)
            ctypes.c_uint64.from_address(address + 8 * at).value = 0

        words[at] = self.place(WITHOUT(back))
        return words

    def lend(self, words, address):
        self.lent.append(address)
        ctypes.memmove(address, (ctypes.c_uint64 * len(words))(*words), 8 * len(words))

    def lend_schema(self, address):
        text = ctypes.c_char_p(self.kind.encode())
        self.lend(self.release([self.place(text), 0, 0, 0, 0, 0, self.dictionary, 0, 0], 7), address)

    def lend_array(self, part, address):
        values, offset, count, bitmap = part
        buffers = (ctypes.c_void_p * 2)(bitmap and self.place(ctypes.c_char_p(bitmap)), self.place(ctypes.c_char_p(values)))
        nulls = 0 if bitmap is None else 2**64 - 1
        self.lend(self.release([count, nulls, offset, 2, 0, self.place(buffers), 0, 0, 0, 0], 8), address)

    def capsule(self, name, words, lend):
        address = self.place((ctypes.c_uint64 * words)())
        lend(address)
        return new_capsule(address, name, None)


class Array(Lender):
    def __arrow_c_array__(self, requested_schema=None):
        return (self.capsule(b"arrow_schema", 9, self.lend_schema),
                self.capsule(b"arrow_array", 10, lambda address: self.lend_array(self.parts[0], address)))


class Stream(Lender):
    def next_part(self, _, address):
        if not self.parts and self.fails:
            return 5
        if self.parts:
            self.lend_array(self.parts.pop(0), address)
        else:
            ctypes.memset(address, 0, 80)
        return 0

    def get_schema(self, _, address):
        self.lend_schema(address)
        return 0

    def lend_stream(self, address):
        told = self.place(ctypes.c_char_p(b"a disk failed"))
        calls = [NEXT(self.get_schema), NEXT(self.next_part), LAST(lambda _: told)]
        self.lend(self.release([*map(self.place, calls), 0, 0], 3), address)

    def __arrow_c_stream__(self, requested_schema=None):
        return self.capsule(b"arrow_array_stream", 5, self.lend_stream)


NUMBERS = {"c": "b", "C": "B", "s": "h", "S": "H", "i": "i", "I": "I", "l": "q", "L": "Q"}


@pytest.mark.parametrize("kind", NUMBERS)
def test_columns_by_arrows_c_data_interface(kind):
    small = [size % 120 for size in SIZES]
    sizes = struct.pack(f"=60{NUMBERS[kind]}", *small)
    expected = y.Chunks(zip(HASHES, small))
    for offset, count in ((0, 60), (7, 20), (59, 1), (60, 0)):
        lent = Array("w:32", (RAW, offset, count, None)), Array(kind, (sizes, offset, count, None))
        assert y.Chunks.from_columns(*lent) == expected[offset:offset + count]
        valid = b"\xff" * 8
        assert y.Chunks.from_columns(Array("w:32", (RAW, offset, count, valid)), small[offset:offset + count]) == (
            expected[offset:offset + count])
    for cuts in ([], [(0, 60)], [(3, 20), (23, 0), (23, 37)]):
        hashes = Stream("w:32", *((RAW, offset, count, None) for offset, count in cuts))
        column = Stream(kind, *((sizes, offset, count, None) for offset, count in cuts))
        assert y.Chunks.from_columns(hashes, column) == (expected[cuts[0][0]:] if cuts else y.Chunks())
        # The struct of a stream is the capsule's.
        assert len(hashes.lent) == len(column.lent) == 1


@pytest.mark.parametrize("offset, count, of_bitmap", [(0, 8, 1), (0, 9, 2), (7, 1, 1), (7, 2, 2), (7, 9, 2), (8, 52, 8)])
def test_no_byte_past_what_arrow_lends_is_read(monkeypatch, offset, count, of_bitmap):
    read = []
    monkeypatch.setattr("yurewha._arrow.string_at", lambda place, length: read.append(length) or ctypes.string_at(place, length))
    assert y.Hashes(Array("w:32", (RAW, offset, count, of_bitmap * b"\xff"))).packed == RAW[32 * offset:32 * (offset + count)]
    assert read == [of_bitmap, 32 * count]


@pytest.mark.parametrize("column, text", [
    (Array("w:32", (RAW, 3, 20, b"\xff\xef\xff")), "item 9 of the column of Arrow is null"),
    (Stream("w:32", (RAW, 0, 4, None), (RAW, 4, 9, b"\xff\xfe")), "item 8 of the column of Arrow is null"),
    (Array("w:32", (RAW, 0, 1, None), dictionary=1), "got a dictionary"),
    (Array("w:31", (RAW, 0, 32, None)), "32 bytes for each"),
    (Array("w:16", (RAW, 0, 120, None)), "32 bytes for each"),
    (Array("L", (RAW, 0, 3, None)), "32 bytes for each"),
    (Array("l", (RAW, 0, 240, None)), "got 'q'"),
    (Array("w:0", (RAW, 0, 0, None)), "got 'w:0'"),
    (Array("z", (RAW, 0, 1, None)), "got 'z'"),
    (Array("+s", (RAW, 0, 1, None)), "got '\\+s'"),
    (Stream("w:32", (RAW, 0, 4, None), fails=True), "a disk failed"),
])
def test_columns_of_arrow_that_are_none(column, text):
    with pytest.raises(y.InvalidArguments, match=text):
        y.Hashes(column)
    assert len(column.lent) == (1 if isinstance(column, Stream) else 2)


@pytest.mark.parametrize("form", [Array, Stream])
@pytest.mark.parametrize("kind", NUMBERS)
def test_numbers_of_a_dictionary_are_no_sizes(kind, form):
    """They say where in the dictionary the sizes stand."""
    column = form(kind, (struct.pack(f"=3{NUMBERS[kind]}", 0, 1, 1), 0, 3, None), dictionary=1)
    for call in (lambda: y.Chunks.from_columns(HASHES[:3], column), lambda: y.data_hashes(b"abc", column),
                 lambda: y.xorb_hashes(CHUNKS, column)):
        with pytest.raises(y.InvalidArguments, match="a dictionary"):
            call()

    class Listed(form):
        """A column that lists its own items, as those of other packages do."""

        def __iter__(self):
            return iter((5, 6, 6))

    listed = Listed(kind, (struct.pack(f"=3{NUMBERS[kind]}", 0, 1, 1), 0, 3, None), dictionary=1)
    assert list(y.Chunks.from_columns(HASHES[:3], listed).sizes) == [5, 6, 6]


def test_a_column_of_bytes_of_arrow_is_a_block_of_hashes():
    assert y.Hashes(Array("C", (RAW, 32, 1888, None))) == y.Hashes(HASHES[1:])


def test_wrong_sizes_of_arrow():
    for column, text in ((Array("w:8", (RAW_SIZES, 0, 60, None)), "whole numbers"), (Array("g", (RAW, 0, 60, None)), "got 'g'"),
                         (Array("l", (struct.pack("<q", -1) + RAW_SIZES, 0, 60, None)), "size 0 must be a whole number from .*, got -1")):
        with pytest.raises(y.InvalidArguments, match=text):
            y.Chunks.from_columns(HASHES, column)


def test_columns_of_arrow_of_another_type_that_give_their_items():
    """As the type `binary` has it: items of any length."""
    numpy = pytest.importorskip("numpy")
    for lender, given in ((Array, {"__array__": lambda self: numpy.array(HASHES, dtype=object)}),
                          (Array, {"__iter__": lambda self: iter(HASHES)}), (Stream, {"__iter__": lambda self: iter(HASHES)})):
        column = type("Column", (lender,), given)("z", (RAW, 0, 60, None))
        assert y.Chunks.from_columns(column, SIZES) == CHUNKS


def test_a_column_that_makes_an_array_and_is_no_stream():
    """As a column of pandas that holds objects."""
    numpy = pytest.importorskip("numpy")
    column = ArrowArray(RAW, numpy.array(HASHES, dtype=object))
    column.__arrow_c_stream__ = lambda: 1 / 0
    assert y.Chunks.from_columns(column, SIZES) == CHUNKS


def test_what_gives_no_column_of_arrow():
    released = Array("w:32", (RAW, 0, 1, None))
    released.release = lambda words, at: words
    with pytest.raises(y.InvalidArguments, match="given away before"):
        y.Hashes(released)
    for given in (None, (1, 2), ("a", "b"), (released.capsule(b"arrow_stream", 9, released.lend_schema),) * 2):
        other = type("Other", (), {"__arrow_c_array__": lambda self, given=given: given})()
        with pytest.raises((TypeError, ValueError)):
            y.Hashes(other)


WRONG_COLUMNS = [
    (y.InvalidArguments, "got 2 hashes and 1 sizes", 2 * [y.Hash()], [1]),
    (y.InvalidArguments, "got 1 hashes and 2 sizes", [y.Hash()], [1, 2]),
    (y.InvalidArguments, "got 0 hashes and 1 sizes", [], b"12345678"),
    (y.InvalidArguments, "size 1 must be a whole number from 0", 2 * [y.Hash()], [1, -1]),
    (y.InvalidArguments, "size 1 must be a whole number from 0", 2 * [y.Hash()], [1, MAX + 1]),
    (y.InvalidArguments, "size 1 must be a whole number from 0", 2 * [y.Hash()], array.array("q", [1, -1])),
    (TypeError, "size 1 must be a whole number, got float", 2 * [y.Hash()], [1, 1.0]),
    (TypeError, "size 1 must be a whole number, got NoneType", 2 * [y.Hash()], [1, None]),
    (y.InvalidArguments, "whole numbers, .* got 'd'", 2 * [y.Hash()], array.array("d", [1, 2])),
    (y.InvalidArguments, "whole numbers, .* got 'B'", 2 * [y.Hash()], bytes(15)),
    (y.InvalidText, "^text 1: the hex text of a hash must be 64 hex digits", [64 * "0", 63 * "0"], [1, 2]),
    (y.InvalidText, "^text 1: the hex text of a hash must be 64 hex digits", [64 * "0", 64 * "g"], [1, 2]),
    (y.InvalidText, "^text 0: hex must have no lone surrogate, got one at character 63", [63 * "0" + "\ud800", 64 * "0"], [1, 2]),
    (TypeError, "^text 1: hex must be a str, got NoneType", [64 * "0", None], [1, 2]),
    (TypeError, "^text 1: hex must be a str, got Hash", [64 * "0", y.Hash()], [1, 2]),
    (TypeError, "^hash 1 must be a Hash or 32 bytes, got str", [y.Hash(), 64 * "0"], [1, 2]),
    (TypeError, "^hash 1 must be a Hash or 32 bytes, got NoneType", [y.Hash(), None], [1, 2]),
    (y.InvalidArguments, "hash 1 must have 32 bytes, got 31", [y.Hash(), bytes(31)], [1, 2]),
    (y.InvalidArguments, "with 32 bytes for each, got ", bytes(63), [1, 2]),
    (y.InvalidArguments, "four unsigned words .* got 'q'", array.array("q", range(8)), [1, 2]),
    (y.InvalidArguments, "four unsigned words .* got 'I'", array.array("I", range(16)), [1, 2]),
    (y.InvalidArguments, "with 32 bytes for each, got ", memoryview(bytes(64)).cast("B", (32, 2)), [1, 2]),
    (TypeError, "Hashes.from_hex reads texts", 64 * "0", [1]),
    (y.InvalidArguments, "whole numbers, .* got 'B'", 2 * [y.Hash()], bytearray(2)),
    (y.InvalidArguments, "whole numbers, .* got 'b'", 2 * [y.Hash()], memoryview(bytes(2)).cast("b")),
    (y.InvalidArguments, "whole numbers, .* got '<f'", 2 * [y.Hash()], (ctypes.c_float * 2)()),
    (y.InvalidArguments, "whole numbers, .* got 'B'", 2 * [y.Hash()], memoryview(bytes(16)).cast("B", (2, 8))),
    (TypeError, "", 7, [1]),
    (TypeError, "", [y.Hash()], 7),
    (TypeError, "", [y.Hash()], None),
]


@pytest.mark.parametrize("number", range(len(WRONG_COLUMNS)))
def test_wrong_columns(number):
    error, text, hashes, sizes = WRONG_COLUMNS[number]
    with pytest.raises(error, match=text):
        y.Chunks.from_columns(hashes, sizes)


def test_wrong_columns_of_numpy():
    numpy = pytest.importorskip("numpy")
    for hashes in (numpy.zeros((2, 4), ">u8"), numpy.zeros((2, 4), "i8"), numpy.zeros((2, 4)), numpy.zeros((4, 2), "u8"),
                   numpy.zeros((2, 8), "u4"), numpy.zeros(2, "V31"), numpy.zeros(2, [("a", "V16"), ("b", "V16")]),
                   numpy.zeros((2, 31), "u1"), numpy.zeros(2, "M8[s]")):
        with pytest.raises(y.InvalidArguments):
            y.Hashes(hashes)
    for sizes in (numpy.zeros(2), numpy.zeros(2, ">u8"), numpy.zeros((1, 2), "u8"), numpy.zeros(2, "?"), numpy.zeros(2, "c16")):
        with pytest.raises(y.InvalidArguments):
            y.Chunks.from_columns(2 * [y.Hash()], sizes)


def test_hashes_are_a_sequence():
    hashes = y.Hashes(HASHES)
    assert hashes.packed == bytes(hashes) == RAW and len(hashes) == 60 and list(hashes) == HASHES
    assert hashes[0] == HASHES[0] and hashes[-1] == HASHES[-1] and list(hashes[3:20:5]) == HASHES[3:20:5]
    assert hashes[:7] + hashes[7:] == hashes == y.Hashes(RAW) and hashes[:7] + HASHES[7:] == hashes
    assert HASHES[7] in hashes and hashes.index(HASHES[7]) == 7 and hash(hashes) == hash(y.Hashes(RAW))
    assert hashes != HASHES and hashes != CHUNKS and y.Hashes(hashes) is hashes and repr(hashes) == "<yurewha.Hashes of 60>"
    assert pickle.loads(pickle.dumps(hashes)) == copy.copy(hashes) == copy.deepcopy(hashes) == hashes
    for call in (lambda: hashes[60], lambda: hashes[-61]):
        with pytest.raises(IndexError):
            call()
    for call in (lambda: setattr(hashes, "_packed", b""), lambda: delattr(hashes, "_packed")):
        with pytest.raises(AttributeError):
            call()
    with pytest.raises(TypeError):
        type("Other", (y.Hashes,), {})


def test_hex_in_bulk():
    hashes = y.Hashes(HASHES)
    texts = [hash_.hex() for hash_ in HASHES]
    assert hashes.hex() == texts and y.Hashes.from_hex(texts) == hashes
    assert y.Hashes.from_hex(text.upper() for text in texts) == hashes
    assert y.Hashes().hex() == [] and y.Hashes.from_hex([]) == y.Hashes()


@pytest.mark.parametrize("text", [
    "", 63 * "0", 65 * "0", 128 * "0", 62 * "0" + "0g", 62 * "0" + " 0", " " + 63 * "0", 63 * "0" + "\n",
    62 * "0" + "\u0660\u0661", 63 * "0" + "\ud800", 62 * "0" + "0x", 62 * "0" + "  ",
], ids=ascii)
def test_hex_texts_that_are_none(text):
    for texts in ([64 * "0", text], [64 * "0", text, text], [64 * "0", text, 64 * "0"]):
        with pytest.raises(y.InvalidText, match="^text 1: "):
            y.Hashes.from_hex(texts)


@pytest.mark.parametrize("lengths", [(63, 65), (66, 62), (0, 128), (128, 0)])
def test_hex_texts_that_are_as_long_as_two_together(lengths):
    with pytest.raises(y.InvalidText, match="^text 1: "):
        y.Hashes.from_hex([64 * "0", *(length * "0" for length in lengths)])


def test_wrong_types_of_hex_texts():
    for value in (None, 7, b"00", 64 * b"0"):
        with pytest.raises(TypeError, match="^text 1: hex must be a str"):
            y.Hashes.from_hex([64 * "0", value])
    for value in (64 * "0", 7, None):
        with pytest.raises(TypeError):
            y.Hashes.from_hex(value)


def drawn_offsets(end, count):
    return [0, *sorted(rng.randrange(end + 1) for _ in range(count - 1)), end]


@pytest.mark.parametrize("end, count", [(0, 1), (0, 5), (1, 3), (1000, 100), (50_000, 7), (3_000_000, 40), (2_200_000, 1)])
def test_many_chunks_in_one_call(end, count):
    data, offsets = rng.randbytes(end), drawn_offsets(end, count)
    expected = y.Hashes(y.data_hash(data[start:stop]) for start, stop in zip(offsets, offsets[1:]))
    for form in (data, bytearray(data), memoryview(data), memoryview(b"a" + data)[1:]):
        for promised in (False, True):
            assert y.data_hashes(form, offsets, nobody_writes=promised) == expected
    assert y.data_hashes(memoryview(data[::-1])[::-1], iter(offsets)) == expected
    for kind in "iIqQ" + "hH" * (end < 1 << 15) + "bB" * (end < 1 << 7):
        assert y.data_hashes(data, array.array(kind, offsets)) == expected
    assert y.data_hashes(data, offsets[1:]) == expected[1:] and y.data_hashes(data, offsets[:1]) == y.Hashes()
    pairs = y.Chunks.from_columns(expected, [stop - start for start, stop in zip(offsets, offsets[1:])])
    assert list(pairs) == [(y.data_hash(data[a:b]), b - a) for a, b in zip(offsets, offsets[1:])]


@pytest.mark.parametrize("offsets, error, text", [
    ([], y.InvalidArguments, "got none"),
    ([0, 3, 2], y.InvalidArguments, "offset 2 must be at least 3, got 2"),
    ([-1, 3], y.InvalidArguments, "offset 0 must be at least 0, got -1"),
    ([0, 11], y.InvalidArguments, "the last offset must be at most 10, the number of bytes, got 11"),
    ([0, 2**63], y.InvalidArguments, "^the last offset must be at most 10, the number of bytes, got 9223372036854775808"),
    ([2**63, 2**63 - 1], y.InvalidArguments, "offset 1 must be at least 9223372036854775808, got 9223372036854775807"),
    ([0, 2**64], y.InvalidArguments, "the last offset"),
    (array.array("Q", [0, 2**63]), y.InvalidArguments, "^the last offset must be at most 10, the number of bytes, got 9223372036854775808"),
    (array.array("q", [0, -(2**63)]), y.InvalidArguments, "offset 1 must be at least 0, got -9223372036854775808"),
    ([0, 1.5], TypeError, "offset 1 must be a whole number, got float"),
    ([0, None], TypeError, "offset 1 must be a whole number, got NoneType"),
    (array.array("d", [0, 1]), y.InvalidArguments, "got 'd'"),
    (b"\0\1", y.InvalidArguments, "got 'B'"),
    (7, TypeError, ""),
    ("07", TypeError, ""),
])
def test_wrong_offsets(offsets, error, text):
    with pytest.raises(error, match=text):
        y.data_hashes(bytes(10), offsets)


def test_wrong_data_for_many_chunks():
    for data in ("text", None, 7, [1, 2]):
        with pytest.raises(TypeError):
            y.data_hashes(data, [0, 1])


class PyArrow(types.ModuleType):
    """The calls of pyarrow that the package uses. They return what they got. Debian has no pyarrow."""

    class Column(tuple):
        def __arrow_c_array__(self, requested_schema=None):
            return "a schema", (*self, requested_schema)

    class Array:
        from_buffers = staticmethod(lambda *given: PyArrow.Column(given))

    class StructArray:
        from_arrays = staticmethod(lambda arrays, names: PyArrow.Column((arrays, names)))

    class Type(str):
        def __arrow_c_schema__(self):
            return f"a schema of {self}"

    binary = staticmethod(lambda width: PyArrow.Type(f"w:{width}"))
    uint64 = staticmethod(lambda: PyArrow.Type("L"))
    struct = staticmethod(lambda fields: PyArrow.Type(f"{fields}"))
    py_buffer = staticmethod(lambda data: data)


def test_columns_for_readers_of_arrow_by_pyarrow(monkeypatch):
    monkeypatch.setitem(sys.modules, "pyarrow", PyArrow("pyarrow"))
    hashes = y.Hashes(HASHES)
    for requested in (None, "another schema"):
        assert hashes.__arrow_c_array__(requested) == ("a schema", ("w:32", 60, [None, RAW], requested))
        columns = [("w:32", 60, [None, RAW]), ("L", 60, [None, RAW_SIZES])]
        assert CHUNKS.__arrow_c_array__(requested_schema=requested) == ("a schema", (columns, ["hash", "size"], requested))
    assert hashes.__arrow_c_array__()[1][2][1] is hashes.packed
    assert hashes.__arrow_c_schema__() == "a schema of w:32"
    assert CHUNKS.__arrow_c_schema__() == "a schema of [('hash', 'w:32'), ('size', 'L')]"


def test_columns_for_readers_of_arrow_without_pyarrow(monkeypatch):
    monkeypatch.setitem(sys.modules, "pyarrow", None)
    for block in (CHUNKS, CHUNKS.hashes):
        for call in (block.__arrow_c_array__, block.__arrow_c_schema__):
            with pytest.raises(ImportError, match="^pyarrow, which passes columns to readers of Arrow, can't be imported"):
                call()
    # Nothing else needs it.
    assert y.Chunks(CHUNKS) is CHUNKS and y.Hashes(CHUNKS.hashes) == y.Hashes(RAW)
    for call in (lambda: y.Hashes(CHUNKS), lambda: y.Chunks(CHUNKS.hashes), lambda: y.Chunks.from_columns(HASHES, CHUNKS)):
        with pytest.raises(TypeError):
            call()


def test_columns_by_pyarrow_itself():
    pyarrow = pytest.importorskip("pyarrow")
    column = pyarrow.array(CHUNKS.hashes)
    assert column.type == pyarrow.binary(32) and column.to_pylist() == [h.bytes for h in HASHES]
    rows = pyarrow.array(CHUNKS)
    assert rows.field("hash") == column and rows.field("size").to_pylist() == SIZES
    assert y.Chunks.from_columns(rows.field("hash"), rows.field("size")) == CHUNKS
    assert pyarrow.table(CHUNKS).column_names == ["hash", "size"]
