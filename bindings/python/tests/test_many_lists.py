"""Roots and file hashes of many lists in one call, items that are picked from a block, and what is said of nulls and bytes."""

import array
import random

import pytest
import xet_model as m
from drawn import MAX, drawn_list, ours, packed, pairs

import yurewha as y
from yurewha import _interrupts

rng = random.Random(81)
Z = y.Hash()
CHUNKS = y.Chunks((y.Hash.random_from_seed(k), k) for k in range(60))


def lists_of(count):
    """Drawn lists, all of them one after another, and the offsets."""
    lists = [drawn_list(rng, rng.choice((0, 1, 2, 5, 40))) for _ in range(count)]
    offsets = [0]
    for nodes in lists:
        offsets.append(offsets[-1] + len(nodes))
    return lists, [node for nodes in lists for node in nodes], offsets


def test_the_hashes_of_each_list_are_those_of_the_model():
    for count in (0, 1, 7, 60):
        lists, nodes, offsets = lists_of(count)
        salt = rng.randbytes(32)
        for given in (pairs(nodes), packed(nodes), y.Chunks(packed(nodes))):
            for places in (offsets, array.array("Q", offsets), array.array("q", offsets), array.array("i", offsets), iter(offsets)):
                assert list(y.xorb_hashes(given, places)) == [ours(m.xorb_hash(nodes)) for nodes in lists]
            assert list(y.file_hashes(given, offsets)) == [ours(m.file_hash(nodes)) for nodes in lists]
            assert list(y.file_hashes(given, offsets, salt)) == [ours(m.file_hash_with_salt(nodes, salt)) for nodes in lists]


def test_lists_need_not_be_all_chunks():
    assert y.xorb_hashes(CHUNKS, [5, 9, 9, 20]) == y.Hashes([y.xorb_hash(CHUNKS[5:9]), Z, y.xorb_hash(CHUNKS[9:20])])
    assert y.xorb_hashes(CHUNKS, [60]) == y.file_hashes([], [0]) == y.Hashes()


def test_long_lists():
    great = bytes(40 * (_interrupts.MANY_NODES + 1))
    assert list(y.xorb_hashes(great, [0, 1, _interrupts.MANY_NODES + 1])) == [Z, y.xorb_hash(great[40:])]


@pytest.mark.parametrize("offsets, error, text", [
    ([], y.InvalidArguments, "one more than there are lists, got none"),
    ([0, 3, 2], y.InvalidArguments, "offset 2 must be at least 3, got 2"),
    ([0, 61], y.InvalidArguments, "^the last offset must be at most 60, the number of chunks, got 61"),
    ([0, 2**63], y.InvalidArguments, "^the last offset must be at most 60, the number of chunks, got 9223372036854775808"),
    ([0, 2**64 + 1], y.InvalidArguments, "^the last offset"),
    ([-1, 3], y.InvalidArguments, "offset 0 must be at least 0, got -1"),
    (array.array("Q", [0, MAX]), y.InvalidArguments, "^the last offset must be at most 60, .*, got 18446744073709551615"),
    (array.array("q", [0, -(2**63)]), y.InvalidArguments, "offset 1 must be at least 0, got -9223372036854775808"),
    (array.array("d", [0, 3]), y.InvalidArguments, "got 'd': floats, as pandas makes of numbers with nulls"),
    (b"00", y.InvalidArguments, "got 'B': bytes"),
    ([0, None], TypeError, "offset 1 must be a whole number, got NoneType: it is null"),
    ([0, float("nan")], TypeError, "offset 1 must be a whole number, got float: it is null"),
    ([0, 1.5], TypeError, "offset 1 must be a whole number, got float$"),
    (7, TypeError, ""), (None, TypeError, ""),
])
def test_wrong_offsets(offsets, error, text):
    for call in (y.xorb_hashes, y.file_hashes):
        with pytest.raises(error, match=text):
            call(CHUNKS, offsets)


def test_wrong_chunks_and_salts():
    great = [(Z, 1), (Z, MAX), (Z, 1), (Z, MAX)]
    assert len(y.xorb_hashes(great, [0, 1, 2, 3, 4])) == 4
    for call in (y.xorb_hashes, y.file_hashes):
        with pytest.raises(y.SizeOverflow, match="^list 1: size overflow"):
            call(great, [0, 1, 3, 4])
        with pytest.raises(y.InvalidArguments):
            call(bytes(39), [0])
    for salt, error in ((bytes(31), y.InvalidArguments), ("0" * 32, TypeError), (7, TypeError)):
        with pytest.raises(error):
            y.file_hashes(CHUNKS, [0, 1], salt)


def test_what_is_said_of_nulls_and_bytes():
    pandas = pytest.importorskip("pandas")
    hashes = [hash_.bytes for hash_, _ in CHUNKS[:4]]
    for column, error, text in (
        (pandas.Series([1, None, 3, 4]), y.InvalidArguments, "got 'd': floats, as pandas makes of numbers with nulls"),
        (pandas.Series([1, None, 3, 4], dtype="Int64"), TypeError, "size 1 must be a whole number, got NAType: it is null"),
        (pandas.Series([1, None, 3, 4], dtype=object), TypeError, "size 1 must be a whole number, got NoneType: it is null"),
        (pandas.Series([b"1", b"2", b"3", b"4"]), TypeError, "size 0 must be a whole number, got bytes"),
        (memoryview(b"12345678" * 4).cast("c"), None, ""),
    ):
        if error is None:
            assert len(y.Chunks.from_columns(hashes, column)) == 4
            continue
        with pytest.raises(error, match=text):
            y.Chunks.from_columns(hashes, column)
    first = hashes[:3]
    for column in (pandas.Series([*first, None]), [*first, None], [*first, float("nan")], pandas.Series([*first, pandas.NA])):
        with pytest.raises(TypeError, match="^hash 3 must be a Hash or 32 bytes, got .*: it is null"):
            y.Chunks.from_columns(column, [1, 2, 3, 4])
    numpy = pytest.importorskip("numpy")
    with pytest.raises(y.InvalidArguments, match="got '8s': bytes"):
        y.Chunks.from_columns(hashes, numpy.array([b"12345678"] * 4))


# ---- Items that are picked

@pytest.mark.parametrize("block", [CHUNKS, CHUNKS.hashes, y.Hashes()], ids=repr)
def test_items_by_numbers_and_by_bools(block):
    numpy = pytest.importorskip("numpy")
    count = len(block)
    for _ in range(20):
        numbers = [rng.randrange(-count, count) for _ in range(rng.randrange(9))] if count else []
        bools = [rng.random() < 0.3 for _ in range(count)]
        for form in (list, tuple, numpy.array, lambda them: array.array("q", them), lambda them: numpy.array(them, dtype="i2")):
            if numbers:
                assert list(block[form(numbers)]) == [block[number] for number in numbers] and type(block[form(numbers)]) is type(block)
        for form in (list, tuple, numpy.array, lambda them: list(numpy.array(them))):
            if bools:
                assert list(block[form(bools)]) == [item for item, is_picked in zip(block, bools) if is_picked]
    assert len(block[[]]) == len(block[numpy.array([], dtype="i8")]) == len(block[numpy.array([], dtype=bool)][:0]) == 0


def test_a_mask_of_an_index():
    index = y.HashIndex(CHUNKS.hashes[::3])
    assert CHUNKS.hashes[index.contains(CHUNKS.hashes)] == CHUNKS.hashes[::3]


def test_single_items_are_picked_as_before():
    numpy = pytest.importorskip("numpy")
    assert CHUNKS[numpy.int64(3)] == CHUNKS[3] == CHUNKS[numpy.array(3)] and CHUNKS[True] == CHUNKS[1]


@pytest.mark.parametrize("at, error", [
    ([60], IndexError), ([0, -61], IndexError), ([2**63], IndexError),
    ([True] * 59, IndexError), ([True] * 61, IndexError), ([False], IndexError),
    ([0, None], TypeError), ([0.5], TypeError), (["0"], TypeError), ([True, 0], TypeError), ("0", TypeError), (b"\0", TypeError),
    (bytearray(60), TypeError), (1.5, TypeError), (None, TypeError), (array.array("d", [1]), TypeError), (array.array("d"), TypeError), ({0}.__class__, TypeError)])
def test_wrong_picks(at, error):
    for block in (CHUNKS, CHUNKS.hashes):
        with pytest.raises(error):
            block[at]


def test_wrong_picks_of_numpy():
    numpy = pytest.importorskip("numpy")
    for at, error in ((numpy.ones(59, dtype=bool), IndexError), (numpy.array([60]), IndexError), (numpy.array([0.5]), TypeError),
                      (numpy.ones((60, 1), dtype=bool), TypeError), (numpy.ones((0, 60), dtype="i8"), TypeError),
                      (numpy.array([2**64 - 1], dtype="u8"), IndexError)):
        with pytest.raises(error):
            CHUNKS[at]


def test_a_block_is_a_buffer():
    """From Python 3.12 on `memoryview` calls this."""
    for block in (CHUNKS, CHUNKS.hashes):
        assert block.__buffer__(0) == block.packed and block.__buffer__(0).readonly
