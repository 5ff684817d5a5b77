"""Packed chunks: where they come from, what they refuse, NumPy, and a million in one call."""

import array
import mmap
import random
import struct
import time
from xml.etree import ElementTree

import pytest

import yurewha as y
from yurewha import _library

rng = random.Random(11)
PAIRS = [(y.Hash.random_from_seed(i), rng.getrandbits(40)) for i in range(50)]
PACKED = b"".join(h.bytes + size.to_bytes(8, "little") for h, size in PAIRS)


def test_forms():
    chunks = y.Chunks(PAIRS)
    assert chunks.packed == bytes(chunks) == PACKED and len(chunks) == 50 and list(chunks) == PAIRS
    words = array.array("Q", struct.unpack("<250Q", PACKED))
    with mmap.mmap(-1, len(PACKED)) as mapped:
        mapped[:] = PACKED
        for form in (
            PACKED, bytearray(PACKED), memoryview(PACKED), memoryview(bytearray(PACKED)), words, memoryview(words), mapped,
            memoryview(PACKED).cast("B", (50, 40)), memoryview(PACKED).cast("c"), iter(PAIRS), tuple(PAIRS), chunks,
            memoryview(b"abc" + PACKED)[3:], (pair for pair in PAIRS), [list(pair) for pair in PAIRS],
        ):
            assert y.Chunks(form) == chunks
    with_bytes = [(h.bytes, size) for h, size in PAIRS]
    for form in (with_bytes, iter(with_bytes), PAIRS[:25] + with_bytes[25:]):
        assert y.Chunks(form) == chunks
    assert y.xorb_hash(with_bytes) == y.xorb_hash(PAIRS)
    assert y.Chunks(PACKED).packed is PACKED and y.Chunks(chunks) is chunks
    assert y.Chunks() == y.Chunks([]) == y.Chunks(b"") and len(y.Chunks()) == 0
    assert y.xorb_hash(memoryview(b"abc" + PACKED)[3:]) == y.xorb_hash(PAIRS)


def test_as_a_sequence():
    chunks = y.Chunks(PAIRS)
    assert chunks[0] == PAIRS[0] and chunks[-1] == PAIRS[-1] and chunks[49] == PAIRS[49]
    for cut in (slice(3, 7), slice(None), slice(40, 3), slice(None, None, -1), slice(1, 40, 7), slice(60, 70), slice(-3, None)):
        assert isinstance(chunks[cut], y.Chunks) and list(chunks[cut]) == PAIRS[cut]
    assert chunks[:20] + chunks[20:] == chunks and chunks[:20] + PAIRS[20:] == chunks
    assert PAIRS[7] in chunks and chunks.index(PAIRS[7]) == 7 and (y.Hash(), 1) not in chunks
    assert hash(y.Chunks(PACKED)) == hash(chunks) and chunks != PAIRS and chunks != y.Chunks(PAIRS[:-1])


def test_a_block_that_is_changed_afterwards():
    block = bytearray(PACKED)
    chunks = y.Chunks(block)
    block[:] = bytes(len(block))
    assert chunks.packed == PACKED


@pytest.mark.parametrize("block", [
    bytes(39), bytes(41), bytearray(1), memoryview(PACKED)[1:], memoryview(PACKED).cast("B", (40, 50)),
    array.array("Q", range(6)), array.array("d", range(10)), array.array("i", range(10)), array.array("I", range(10)),
    memoryview(PACKED).cast("Q", (25, 10)), memoryview(PACKED).cast("q"), memoryview(PACKED).cast("d"),
])
def test_blocks_that_are_none(block):
    with pytest.raises(y.InvalidArguments):
        y.Chunks(block)


def test_numpy():
    numpy = pytest.importorskip("numpy")
    chunks = y.Chunks(PAIRS)
    seen = numpy.asarray(chunks)
    assert seen.shape == (50,) and seen.dtype.names == ("hash", "size") and not seen.flags.writeable
    assert [tuple(int(word) for word in words) for words in seen["hash"]] == [h.words for h, _ in PAIRS]
    assert [int(size) for size in seen["size"]] == [size for _, size in PAIRS]
    assert chunks.__array_interface__["version"] == chunks.hashes.__array_interface__["version"] == 3  # which NumPy ignores
    words = numpy.frombuffer(PACKED, dtype="<u8")
    named = numpy.dtype([("hash", "S32"), ("size", "<u8")])
    raw = numpy.dtype([("hash", "u1", 32), ("size", "<u8")])
    for form in (
        seen, seen.copy(), words, words.reshape(50, 5), numpy.frombuffer(PACKED, dtype="u1"),
        numpy.frombuffer(PACKED, dtype="u1").reshape(50, 40), numpy.frombuffer(PACKED, dtype=named),
        numpy.frombuffer(PACKED, dtype=raw), numpy.asfortranarray(words.reshape(50, 5)),
    ):
        assert y.Chunks(form) == chunks and y.xorb_hash(form) == y.xorb_hash(PAIRS)
    assert list(y.Chunks(seen[::2])) == PAIRS[::2] and list(y.Chunks(seen[::-1])) == PAIRS[::-1]
    assert list(y.Chunks(words.reshape(50, 5)[10:20])) == PAIRS[10:20]
    for wrong in (
        words.astype(">u8"), words.astype("<f8"), words.reshape(25, 10), words.reshape(5, 50), words[1:],
        words.astype("i8"), seen.astype([("hash", "<u8", (4,)), ("size", "<f8")]),
        seen.astype([("hash", ">u8", (4,)), ("size", "<u8")]), seen["hash"], seen["size"][:7],
        numpy.zeros(40, dtype="O"), numpy.zeros(5, dtype="M8[s]"), numpy.zeros((5, 8), dtype="c16"),
    ):
        with pytest.raises((y.InvalidArguments, TypeError)):
            y.Chunks(wrong)
    assert y.data_hash(words) == y.data_hash(PACKED) == y.data_hash(seen)
    with pytest.raises(TypeError):
        y.xorb_hash([(h, float(size)) for h, size in PAIRS])
    assert y.xorb_hash([(h, numpy.uint64(size)) for h, size in PAIRS]) == y.xorb_hash(PAIRS)


def rows_of(numpy, fields, align=False):
    """The chunks as an array with these fields, of which those named `size` and otherwise have the sizes and hashes."""
    kind = numpy.dtype(fields, align=align)
    rows = numpy.zeros(len(PAIRS), dtype=kind)
    for name in kind.names:
        if name == "size":
            rows[name] = [size for _, size in PAIRS]
        elif kind[name].subdtype and kind[name].base.itemsize == 1:
            rows[name] = [list(h.bytes) for h, _ in PAIRS]
        elif kind[name].subdtype:
            rows[name] = [h.words[:kind[name].shape[0]] for h, _ in PAIRS]
        elif kind[name].itemsize == 32:
            rows[name] = [numpy.void(h.bytes) if kind[name].kind == "V" else h.bytes for h, _ in PAIRS]
    return rows


HASHES = [("hash", "V32"), ("hash", "S32"), ("hash", "u1", 32), ("hash", "<u8", 4), ("words", "<u8", 4)]


@pytest.mark.parametrize("hash_", HASHES, ids=str)
@pytest.mark.parametrize("size_first", [False, True])
def test_fields_are_taken_by_their_names(hash_, size_first):
    numpy = pytest.importorskip("numpy")
    fields = [hash_, ("size", "<u8")]
    rows = rows_of(numpy, fields[::-1] if size_first else fields)
    assert y.Chunks(rows) == y.Chunks(PAIRS) and y.Chunks(rows[:0]) == y.Chunks()
    assert list(y.Chunks(rows[::-2])) == PAIRS[::-2] and list(y.Chunks(rows[3])) == PAIRS[3:4]


@pytest.mark.parametrize("fields", [
    [("f", "<u4", 10)], [("hash", "<u4", 8), ("size", "<u8")], [("hash", "V32"), ("size", "<u4", 2)],
    [("hash", "V32"), ("length", "<u8")], [("key", "V32"), ("size", "<u8")], [("size", "V32"), ("hash", "<u8")],
    [("hash", "V32"), ("size", "<i8")], [("hash", "V32"), ("size", "<f8")], [("hash", "V32"), ("size", ">u8")],
    [("words", ">u8", 4), ("size", "<u8")], [("words", "<i8", 4), ("size", "<u8")], [("words", "<u8", (2, 2)), ("size", "<u8")],
    [("hash", "V31"), ("a", "u1"), ("size", "<u8")], [("hash", "V32"), ("size", "<u8"), ("more", "<u8")],
    [("hash", "V32"), ("size", "V8")], [("a", "<u8"), ("b", "<u8"), ("c", "<u8"), ("d", "<u8"), ("e", "<u8")],
], ids=str)
def test_other_fields_are_refused_by_name(fields):
    numpy = pytest.importorskip("numpy")
    for rows in (numpy.zeros(4, dtype=fields), numpy.zeros(4, dtype=numpy.dtype(fields, align=True))):
        with pytest.raises(y.InvalidArguments, match="`hash` .* of 32 bytes and `size`, an unsigned word"):
            y.Chunks(rows)


def test_the_table_of_a_notebook():
    for count, shown in ((0, []), (1, [0]), (7, range(7)), (10, range(10)), (11, [*range(5), None, *range(6, 11)]),
                         (50, [*range(5), None, *range(45, 50)])):
        table = ElementTree.fromstring(y.Chunks(PAIRS[:count])._repr_html_())
        size = sum(size for _, size in PAIRS[:count])
        assert table.find("caption").text == f"{count} chunk{'' if count == 1 else 's'}, {size:,} bytes"
        head, *rows = ([cell for cell in row] for row in table.iter("tr"))
        assert ["".join(cell.itertext()) for cell in head] == ["", "hash", "size"] and len(rows) == len(shown)
        for place, row in zip(shown, rows):
            expected = ["..", "", ""] if place is None else [str(place), PAIRS[place][0].hex(), f"{PAIRS[place][1]:,}"]
            assert ["".join(cell.itertext()) for cell in row] == expected
    assert "1,000,000 chunks, 1 byte<" in y.Chunks([(y.Hash(), 1), *999_999 * [(y.Hash(), 0)]])._repr_html_()


def test_blocks_of_c_structs():
    block = (_library.CChunk * len(PAIRS)).from_buffer_copy(PACKED)
    assert y.Chunks(block) == y.Chunks(PAIRS)


def test_great_messages():
    data = random.Random(12).randbytes((3 << 20) + 17)
    expected = y.data_hash(data)
    for form in (bytearray(data), memoryview(data), memoryview(bytearray(b"a" + data))[1:]):
        assert y.data_hash(form) == expected
    odd = memoryview(bytearray(2 * len(data)))[::2]
    odd[:] = data
    assert y.data_hash(odd) == y.Hasher(odd).hash() == expected


def drawn_block(count):
    """Chunks with drawn hashes, and sizes below 2^24."""
    block = bytearray(random.Random(13).randbytes(40 * count))
    for place in range(35, 40):
        block[place::40] = bytes(count)
    return bytes(block)


def test_a_million_in_one_call():
    count = 1_000_000
    chunks = y.Chunks(drawn_block(count))
    assert len(chunks) == count
    start = time.perf_counter()
    root = y.xorb_hash(chunks)
    taken = time.perf_counter() - start
    tree = y.Subtree.from_chunks(True, chunks, False)
    assert tree.num_nodes < 1000
    tree += y.Subtree.from_chunks(False, b"", True)
    assert tree.final_hash() == root and y.file_hash(chunks) == root.hmac(y.Hash())
    cuts = [0, 1, 333_333, 333_334, 700_000, count]
    parts = [y.Subtree.from_chunks(a == 0, chunks[a:b], b == count) for a, b in zip(cuts, cuts[1:])]
    assert y.Subtree.merge_all(parts).final_hash() == root
    one = y.Session()
    one.put(500_000, chunks[500_000:])
    one.put(0, chunks[:500_000])
    assert one.root(count) == root
    print(f"\nthe root of a million packed chunks: {1000 * taken:.0f} ms")
