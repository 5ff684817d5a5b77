"""Hashing the chunks of a stream while a chunker cuts it: one pass, what comes when, and what is refused."""

import io
import itertools
import random
import tracemalloc

import pytest

import yurewha as y

MIB = 1 << 20
rng = random.Random(52)


class Stream:
    """A stream that gives at most so many bytes at once, and counts how often it was read, and how many bytes it gave."""

    def __init__(self, data, most=MIB):
        self._stream, self._most = io.BytesIO(data), most
        self.reads = self.given = 0

    def read(self, size):
        piece = self._stream.read(min(size, self._most))
        self.reads, self.given = self.reads + 1, self.given + len(piece)
        return piece


def expected(data, cuts):
    offsets = [0, *cuts, *[len(data)] * (not cuts or cuts[-1] < len(data))] if data or cuts else [0]
    return [(hash_, end - start) for hash_, start, end in zip(y.data_hashes(data, offsets), offsets, offsets[1:])]


def given_as_soon_as_seen(cuts):
    """A chunker that knows its cuts, and yields each once it was given the bytes before it."""
    def chunker(pieces):
        left, place = list(cuts), 0
        for piece in pieces:
            place += len(piece)
            while left and left[0] <= place:
                yield left.pop(0)

    return chunker


@pytest.mark.parametrize("most", [1, 7, 100, 70_000, MIB])
@pytest.mark.parametrize("end, count", [(0, 0), (1, 0), (5, 1), (100, 3), (300, 40), (1000, 0), (1000, 1)])
def test_the_hashes_and_sizes_of_any_cuts(end, count, most):
    data = rng.randbytes(end)
    cuts = sorted(rng.randrange(1, end + 1) for _ in range(count))
    for given in (cuts, iter(cuts), given_as_soon_as_seen(cuts)):
        stream = Stream(data, most)
        assert list(y.hash_cuts(stream, given)) == expected(data, cuts) and stream.given == end


def test_chunks_of_several_pieces():
    data = rng.randbytes(5 * MIB + 3)
    cuts = [1, MIB - 1, MIB, 3 * MIB + 5, 5 * MIB]
    for given in (cuts, given_as_soon_as_seen(cuts)):
        assert list(y.hash_cuts(io.BytesIO(data), given)) == expected(data, cuts)
    chunks = y.Chunks(y.hash_cuts(io.BytesIO(data), cuts))
    assert y.file_hash(chunks) == y.file_hash(expected(data, cuts))


def test_an_empty_chunk_between_two_equal_cuts():
    assert list(y.hash_cuts(io.BytesIO(b"ab"), [0, 1, 1])) == expected(b"ab", [0, 1, 1]) and not list(y.hash_cuts(io.BytesIO(), []))


def test_a_chunk_comes_before_the_next_is_read():
    stream = Stream(b"abcdef", 2)
    chunks = y.hash_cuts(stream, given_as_soon_as_seen([2, 4, 6]))
    assert stream.reads == 0
    for number in (1, 2, 3):
        assert next(chunks)[1] == 2 and stream.reads == number
    assert list(chunks) == []


@pytest.mark.parametrize("cuts", [None, [], [2], [3], given_as_soon_as_seen([2]), given_as_soon_as_seen([3])])
def test_a_stream_is_not_read_after_its_end(cuts):
    """It may give more then, as a terminal does, and a file that grows."""
    stream, left = Stream(b""), [b"abc", b"", b"more", b""]
    stream.read = lambda size: left.pop(0)
    assert sum(size for _, size in y.hash_cuts(stream, cuts)) == 3 and left == [b"more", b""]


def test_what_came_before_an_error_is_right():
    class Broken(Exception):
        pass

    def breaks(pieces):
        yield len(next(pieces))
        raise Broken

    found = []
    with pytest.raises(Broken):
        found.extend(y.hash_cuts(Stream(b"abcdef", 2), breaks))
    assert found == [(y.data_hash(b"ab"), 2)]
    stream = Stream(b"abcdef", 2)
    stream.read = lambda size, read=stream.read: read(size) if stream.reads < 2 else (_ for _ in ()).throw(OSError("gone"))
    found = []
    with pytest.raises(OSError, match="gone"):
        found.extend(y.hash_cuts(stream, [1, 3, 5]))
    assert found == expected(b"abc", [1, 3])


def test_the_memory_of_a_long_chunk_is_that_of_a_piece():
    class Zeros:
        left = 64

        def read(self, size):
            self.left -= 1
            return bytes(size) if self.left >= 0 else b""

    whole = y.data_hash(bytes(64 * MIB))
    tracemalloc.start()
    try:
        assert list(y.hash_cuts(Zeros(), [])) == list(y.hash_cuts(Zeros(), [64 * MIB])) == [(whole, 64 * MIB)]
        assert [size for _, size in y.hash_cuts(Zeros(), [40 * MIB])] == [40 * MIB, 24 * MIB]
        assert tracemalloc.get_traced_memory()[1] < 4 * MIB
    finally:
        tracemalloc.stop()


@pytest.mark.parametrize("stream, cuts, error, told", [
    (io.BytesIO(b"abc"), [2, 1], y.InvalidArguments, "a cut must be at least the one before it, which is 2, got 1"),
    (io.BytesIO(b"abc"), [4], y.InvalidArguments, "a cut must be at most the number of bytes, 3, got 4"),
    (io.BytesIO(b"abc"), [-1], y.InvalidArguments, "a cut must be a whole number from 0 to 2^64 - 1, got -1"),
    (io.BytesIO(b"abc"), itertools.count(1), y.InvalidArguments, "a cut must be at most the number of bytes, 3, got 4"),
    (io.BytesIO(b"abc"), lambda pieces: [1], y.InvalidArguments,
     "a chunker's cut must be at most the number of bytes that it was given, 0, got 1"),
    (Stream(b"abc", 1), lambda pieces: [len(next(pieces)) + 1], y.InvalidArguments,
     "a chunker's cut must be at most the number of bytes that it was given, 1, got 2"),
    (io.BytesIO(b"abc"), ["1"], TypeError, "a cut must be a whole number, got str"),
    (io.BytesIO(b"abc"), 5, TypeError, "'int' object is not iterable"),
    (io.StringIO("abc"), [1], TypeError, "`read` must return bytes, got str"),
    ("data", [1], TypeError, "stream must have a method `read`, got str"),
])
def test_what_is_refused(stream, cuts, error, told):
    with pytest.raises(error) as raised:
        list(y.hash_cuts(stream, cuts))
    assert str(raised.value) == told
