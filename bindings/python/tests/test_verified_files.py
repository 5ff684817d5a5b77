"""Files that are read in parts: places, what is fetched, what is refused, and readers over them."""

import asyncio
import contextlib
import copy
import ctypes
import io
import os
import random
import sys
import tarfile
import threading
import zipfile

import pytest

import yurewha as y


class Source:
    """A file with its tree, and what was fetched of it."""

    def __init__(self, data, cuts):
        self.data = data
        self.cuts = cuts
        self.chunks = [(y.data_hash(data[a:b]), b - a) for a, b in zip(cuts, cuts[1:])]
        self.tree = y.HashTree(self.chunks)
        self.fetched, self.proved = [], []

    def fetch(self, start, stop):
        self.fetched.append((start, stop))
        return self.data[start:stop]

    def prove(self, start, stop):
        self.proved.append((start, stop))
        return self.tree.proof_of_bytes(start, stop)

    def again(self):
        """The same file, of which nothing was fetched. A thread of another test may still be fetching something of this one."""
        other = copy.copy(self)
        other.fetched, other.proved = [], []
        return other

    def open(self, **options):
        return y.VerifiedFile(self.tree.file_hash(), self.fetch, self.prove, **options)


def drawn(seed, count, longest=100):
    rng = random.Random(seed)
    cuts = [0]
    for _ in range(count):
        cuts.append(cuts[-1] + rng.randint(1, longest))
    return Source(rng.randbytes(cuts[-1]), cuts)


def test_it_reads_as_a_file_does():
    """The same calls as on a file in memory give the same."""
    source, rng = drawn(1, 200), random.Random(2)
    for options in ({}, {"cache_size": 0}, {"cache_size": 150}):
        file, plain = source.open(**options), io.BytesIO(source.data)
        assert file.size == len(source.data)
        for _ in range(1500):
            call = rng.randrange(6)
            if call == 0:
                place = rng.choice((rng.randrange(len(source.data) + 50), 0, len(source.data)))
                assert file.seek(place) == plain.seek(place)
            elif call == 1:
                back = rng.randrange(len(source.data))
                assert file.seek(-back, os.SEEK_END) == plain.seek(-back, os.SEEK_END)
            elif call == 2:
                step = rng.randrange(300)
                assert file.seek(step, os.SEEK_CUR) == plain.seek(step, os.SEEK_CUR)
            elif call == 3:
                count = rng.choice((0, 1, 7, rng.randrange(400)))
                assert file.read(count) == plain.read(count)
            elif call == 4:
                rooms = [bytearray(b"-" * rng.randrange(300))] * 2
                counts = [file.readinto(rooms[0]), plain.readinto(rooms[1])]
                assert counts[0] == counts[1] and rooms[0] == rooms[1]
            elif rng.random() < 0.05:
                assert file.read(rng.choice((-1, None))) == plain.read()
            assert file.tell() == plain.tell()


def test_what_is_fetched():
    """The chunks with the bytes that are asked for, once each while they are kept."""
    source = drawn(3, 100)
    file = source.open()
    start, stop = source.cuts[40] + 1, source.cuts[43] - 1
    file.seek(start)
    assert file.read(stop - start) == source.data[start:stop]
    assert source.fetched == [(source.cuts[40], source.cuts[43])] and source.proved == [(start, stop)]
    assert file.size == len(source.data)
    file.seek(source.cuts[40])
    assert file.read(source.cuts[43] - source.cuts[40]) == source.data[source.cuts[40]:source.cuts[43]]
    assert len(source.fetched) == 1
    file.seek(stop)
    assert file.read(2) == source.data[stop:stop + 2]
    assert source.fetched[1:] == [(source.cuts[43], source.cuts[44])]
    file.seek(0)
    assert file.readall() == source.data
    assert source.fetched[2:] == [(0, source.cuts[-1])]


def test_the_size_is_known_after_a_chunk_is_checked():
    source = drawn(4, 50)
    file = source.open()
    assert source.fetched == []
    assert file.seek(-3, os.SEEK_END) == len(source.data) - 3 and source.fetched == [(0, source.cuts[1])]
    assert file.read(100) == source.data[-3:] and file.read(100) == file.read() == b"" and file.readinto(bytearray(7)) == 0
    assert file.seek(2**70) == 2**70 and file.read(1) == source.open().read(0) == b""


@pytest.mark.parametrize("beyond", [0, 1, 5, 2**63])
def test_reading_at_the_end_while_the_size_is_unknown(beyond):
    """There is no proof of such bytes. So the first chunk is fetched, once, and its proof shows where the file ends."""
    source = drawn(4, 50)
    file, end = source.open(), len(source.data) + beyond
    assert file.seek(end) == end and source.fetched == []
    assert file.read(7) == b"" and file.readinto(bytearray(7)) == 0 and file.read() == b"" and file.tell() == end
    assert source.fetched == [(0, source.cuts[1])] and source.proved == [(end, end + 7), (0, 1)]
    assert file.size == len(source.data)


def test_an_error_of_prove_is_not_the_end_of_the_file():
    """A server that has no proof of bytes which the file has doesn't make a reader believe that it ends there."""
    source = drawn(4, 50)

    def prove(start, stop):
        if start > 0:
            raise ConnectionError("mine")
        return source.prove(start, stop)

    for known in (False, True):
        file = y.VerifiedFile(source.tree.file_hash(), source.fetch, prove, cache_size=0)
        if known:
            assert file.size == len(source.data)
        for place in (source.cuts[1], 700, len(source.data) - 1):
            file.seek(place)
            for read in (lambda: file.read(7), lambda: file.readinto(bytearray(7)), file.read):
                with pytest.raises(ConnectionError, match="mine"):
                    read()
            assert file.tell() == place
        assert file.seek(0, os.SEEK_END) == len(source.data) and file.read(7) == b""


def test_the_first_chunk_that_shows_the_end_is_checked():
    """What a server says of the size isn't believed before data was checked."""
    source = drawn(4, 50)
    end = len(source.data)
    parent = y.RangeProof.from_flat([], [(source.tree.root, 9)])
    for fetch, prove, said in (
        (lambda a, b: bytes(b - a), source.prove, "this isn't the data of the range"),
        (lambda a, b: bytes(b - a), lambda a, b: source.prove(a, b) if a else parent, "this isn't the data of the range"),
        (source.fetch, lambda a, b: source.prove(a, b) if a else OTHER.prove(0, 1), "the proof doesn't show this file hash"),
    ):
        file = y.VerifiedFile(source.tree.file_hash(), fetch, prove)
        for place in (end, end + 1):
            file.seek(place)
            for look in (lambda: file.read(1), lambda: file.size, lambda: file.seek(0, os.SEEK_END)):
                with pytest.raises(y.ProofMismatch, match=said):
                    look()
            assert file.tell() == place


def test_an_empty_file_needs_no_proof():
    file = Source(b"", [0]).open()
    assert (file.size, file.read(), file.read(7), file.seek(0, os.SEEK_END)) == (0, b"", b"", 0)


def test_the_cache_is_bounded():
    source = drawn(5, 300)
    file = source.open(cache_size=1000)
    rng = random.Random(6)
    for _ in range(500):
        place = rng.randrange(len(source.data))
        file.seek(place)
        assert file.read(5) == source.data[place:place + 5]
        assert 0 < file._reader.counted() <= 1000
    file.seek(0)
    assert file.read(5000) == source.data[:5000] and file._reader.counted() <= 1000


def test_a_part_that_is_read_stays_longer_than_others():
    source = Source(bytes(600), range(0, 601, 100))
    file = source.open(cache_size=3 * (100 + 128))
    for place in (0, 100, 200, 50, 300, 60, 400, 70):
        file.seek(place)
        assert len(file.read(1)) == 1
    assert source.fetched == [(0, 100), (100, 200), (200, 300), (300, 400), (400, 500)]


def test_a_part_is_kept_unless_something_else_is_said():
    source = Source(bytes(3 << 20), range(0, (3 << 20) + 1, 1 << 16))
    file = source.open()
    for _ in range(2):
        for place in range(0, 3 << 20, 1 << 16):
            file.seek(place)
            assert len(file.read(1)) == 1
    assert len(source.fetched) == 48


def test_long_reads_are_fetched_by_pieces(monkeypatch):
    great = Source(bytes(40 << 20), range(0, (40 << 20) + 1, 1 << 20))
    assert len(great.open().read()) == 40 << 20
    assert all(stop - start <= 17 << 20 for start, stop in great.fetched) and len(great.fetched) <= 5
    monkeypatch.setattr("yurewha._checked_parts.PIECE", 500)
    source = drawn(7, 100)
    assert source.open().read() == source.data
    assert len(source.fetched) > len(source.data) // 700 and all(stop - start < 500 + 200 for start, stop in source.fetched)


def test_long_reads_that_are_kept(monkeypatch):
    """All of one, the first part, and the end of the file."""
    monkeypatch.setattr("yurewha._checked_parts.PIECE", 500)
    source = drawn(7, 100)
    file = source.open()
    assert len(source.data) > 3000 and file.read() == file.read_at(0, 2**64 - 1) == source.data
    source.fetched.clear()
    for start, stop in ((0, 500), (0, 501), (3, 3000), (len(source.data) - 700, 2**64 - 1), (0, len(source.data)), (len(source.data), 2**64 - 1)):
        assert file.read_at(start, stop) == source.data[start:stop]
    assert source.fetched == []
    other = source.open()
    assert other.read_at(0, 500) == source.data[:500] and other.read_at(0, 2**64 - 1) == source.data


def test_a_salt():
    source = drawn(8, 20)
    salt = bytes(range(32))
    salted = y.VerifiedFile(source.tree.file_hash(salt), source.fetch, source.prove, salt)
    assert salted.read() == source.data and salted.file_hash == source.tree.file_hash(salt)
    for wrong in (y.VerifiedFile(source.tree.file_hash(salt), source.fetch, source.prove),
                  y.VerifiedFile(source.tree.file_hash(), source.fetch, source.prove, salt),
                  y.VerifiedFile(source.tree.root, source.fetch, source.prove)):
        with pytest.raises(y.ProofMismatch, match="the proof doesn't show this file hash under this salt"):
            wrong.read(1)


def test_a_salt_that_is_changed_afterwards():
    source, room = drawn(8, 20), bytearray(range(32))
    file = y.VerifiedFile(source.tree.file_hash(bytes(range(32))), source.fetch, source.prove, room)
    room[:] = bytes(32)
    assert file.read() == source.data


def changed(data, at):
    return data[:at] + bytes([data[at] ^ 1]) + data[at + 1:]


def is_right(file, source):
    """Whether all that is kept of a file is the data of its source."""
    readers = [reader for reader in (file._reader, file._rescued) if reader]
    return all(source.data[place:].startswith(reader.read(place, 1000)[0]) for reader in readers for place in range(0, len(source.data), 50))


OTHER = drawn(10, 100)

#: What a dishonest server does with the bytes and the proofs of an honest one, and what is said of it.
DISHONEST = {
    "a byte changed": ("this isn't the data of the range", lambda s: (lambda a, b: changed(s.data[a:b], (b - a) // 2), s.prove)),
    "a byte less": ("the range has ", lambda s: (lambda a, b: s.data[a:b - 1], s.prove)),
    "a byte more": ("the range has ", lambda s: (lambda a, b: s.data[a:b + 1], s.prove)),
    "no bytes": ("the range has ", lambda s: (lambda a, b: b"", s.prove)),
    "other bytes": ("this isn't the data of the range", lambda s: (lambda a, b: s.data[a + 1:b + 1], s.prove)),
    "another part and its proof": (
        "the proof is of the bytes", lambda s: (s.fetch, lambda a, b: s.tree.proof_of_bytes(a + 500, b + 500))),
    "the part before and its proof": (
        "the proof is of the bytes", lambda s: (s.fetch, lambda a, b: s.tree.proof_of_bytes(abs(a - 500), abs(b - 500) + 5))),
    "fewer chunks and their proof": (
        "the proof is of the bytes", lambda s: (s.fetch, lambda a, b: s.tree.proof_of_bytes(a, a + 1))),
    "another file's proof": (
        "the proof doesn't show this file hash", lambda s: (s.fetch, lambda a, b: OTHER.tree.proof_of_bytes(a, b))),
    "another file": (
        "the proof doesn't show this file hash", lambda s: (OTHER.fetch, lambda a, b: OTHER.tree.proof_of_bytes(a, b))),
    "the whole file for a part": (
        "see chunk_limit", lambda s: (s.fetch, lambda a, b: s.tree.proof(0, s.tree.num_chunks))),
    "a parent for a chunk": (
        "see chunk_limit", lambda s: (s.fetch, lambda a, b: y.RangeProof.from_flat([], [(s.tree.root, len(s.data))]))),
    "a parent for a chunk of no file": (
        "see chunk_limit", lambda s: (s.fetch, lambda a, b: y.RangeProof.from_flat([], [(s.tree.root, 2**64 - 1)]))),
    "a short parent for a chunk": (
        "this isn't the data of the range", lambda s: (
            lambda a, b: (s.data * 2)[a:b], lambda a, b: y.RangeProof.from_flat([], [(s.tree.root, b + 200)]))),
}


@pytest.mark.parametrize("options", [{}, {"cache_size": 0}, {"cache_size": 300}], ids=str)
@pytest.mark.parametrize("piece", [1, 7, 100, 1000, 2999, 1 << 62, 2**64 - 1])
def test_proofs_that_were_made_of_each_piece_answer_each_read(piece, options):
    """Each request is for a whole piece, also of a read across two, before the size is known, and beyond the end of the file."""
    source = drawn(31, 60)
    end = len(source.data)
    kept = {start: source.tree.proof_of_bytes(start, min(start + piece, 2**64 - 1)) for start in range(0, end, piece)}
    asked = []

    def prove(start, stop):
        asked.append((start, stop))
        return kept[start]

    def file_of_pieces():
        return y.VerifiedFile(source.tree.file_hash(), source.fetch, prove, piece=piece, chunk_limit=100, **options)

    rng, file = random.Random(piece), file_of_pieces()
    places = [rng.randrange(end + 50) for _ in range(40)]
    reads = [(0, 0), (5, 6), (piece - 1, piece + 1), (end - 3, end + 5), (end, end + 9), (2**64 - 1, 2**64 - 1)]
    for start, stop in [*reads, *((place, min(place + rng.choice((1, 30, 900)), 2**64 - 1)) for place in places)]:
        stop = min(stop, 2**64 - 1)
        for reader in (file, file_of_pieces()):  # the second doesn't know the size
            assert reader.read_at(start, stop) == source.data[start:stop], (start, stop)
    assert file.size == end
    before = len(asked)
    assert file_of_pieces().read() == source.data
    assert options or len(set(asked[before:])) == len(asked) - before, "what is kept is not asked for again"
    later = y.AsyncVerifiedFile(source.tree.file_hash(), source.fetch, prove, piece=piece, chunk_limit=100, **options)
    assert asyncio.run(later.read_at(0, end)) == source.data
    assert all(start % piece == 0 and stop in (min(start + piece, 2**64 - 1), end) for start, stop in asked)


@pytest.mark.parametrize("name", DISHONEST)
def test_dishonest_servers(name):
    said, of = DISHONEST[name]
    source = drawn(9, 150)
    fetch, prove = of(source)
    file = y.VerifiedFile(source.tree.file_hash(), fetch, prove, chunk_limit=2500)
    room = bytearray(300)
    for read in (lambda: file.read(300), lambda: file.readinto(room), lambda: io.BufferedReader(file, 300).read(300)):
        assert file.seek(2000) == 2000
        with pytest.raises(y.ProofMismatch, match=said):
            read()
    assert room == bytes(300) and is_right(file, source)
    file = y.VerifiedFile(source.tree.file_hash(), fetch, prove, chunk_limit=2500)
    with pytest.raises(y.ProofMismatch):
        zipfile.ZipFile(file)


@pytest.mark.parametrize("options", [{}, {"cache_size": 0}, {"cache_size": 1000}], ids=str)
@pytest.mark.parametrize("length", [5, 1500])
@pytest.mark.parametrize("at", [0, 3000, -1])
def test_a_server_that_turns_bad(options, at, length):
    """Each part is checked, also if it has been fetched before, is at the end of the file, or isn't kept."""
    source = drawn(21, 150)
    end = len(source.data)
    at %= end
    place, sent = min(max(at - 3, 0), end - length), [source.data]
    file = y.VerifiedFile(source.tree.file_hash(), lambda a, b: sent[0][a:b], source.prove, **options)
    file.seek(place)
    assert file.read(length) == source.data[place:place + length]
    file._reader.keep_at_most(0)
    file._reader.keep_at_most(file._cache_size)
    sent[0] = changed(source.data, at)
    for read in (lambda: file.read(length), lambda: file.readinto(bytearray(length)), file.read):
        file.seek(place)
        with pytest.raises(y.ProofMismatch):
            read()


@pytest.mark.parametrize("chunk", range(0, 20, 3))
def test_each_chunk_of_a_part_is_checked(chunk):
    source = drawn(26, 20)
    bad = changed(source.data, source.cuts[chunk])
    file = y.VerifiedFile(source.tree.file_hash(), lambda a, b: bad[a:b], source.prove)
    with pytest.raises(y.ProofMismatch):
        file.read(len(source.data))
    assert file.seek(source.cuts[chunk + 1]) and file.read(5) == source.data[source.cuts[chunk + 1]:][:5]


def test_a_buffer_that_is_used_again():
    """What was checked is a copy, so what `fetch` does with its buffer later changes nothing."""
    source, room = drawn(22, 20), bytearray()
    shown = [lambda: room, lambda: memoryview(room), lambda: memoryview(room).toreadonly()]
    for show in shown:
        def fetch(start, stop):
            nonlocal room
            room = bytearray(source.data[start:stop])
            return show()

        file = y.VerifiedFile(source.tree.file_hash(), fetch, source.prove)
        assert file.read(5) == source.data[:5]
        room[:] = bytes(len(room))
        file.seek(0)
        assert file.read(5) == source.data[:5]


def test_no_size_of_a_refused_proof():
    source = drawn(23, 150)
    parent = y.RangeProof.from_flat([], [(source.tree.root, 9)])
    file = y.VerifiedFile(source.tree.file_hash(), lambda a, b: bytes(b - a), lambda a, b: parent)
    for look in (lambda: file.read(1), lambda: file.size, lambda: file.seek(0, os.SEEK_END), lambda: file.read()):
        with pytest.raises(y.ProofMismatch):
            look()
    assert file.tell() == 0


def test_a_proof_that_goes_too_far_is_refused_before_anything_is_fetched():
    source = drawn(24, 150)
    for prove, options in (
        (lambda a, b: source.tree.proof(0, source.tree.chunks_at(a, b)[1]), {"chunk_limit": 1000}),
        (lambda a, b: source.tree.proof(source.tree.chunks_at(a, b)[0], 150), {"chunk_limit": 1000}),
        (lambda a, b: y.RangeProof.from_flat([], [(source.tree.root, b + (1 << 20) + 1)]), {}),
        (lambda a, b: y.RangeProof.from_flat([], [(source.tree.root, 2**64 - 1)]), {}),
    ):
        file = y.VerifiedFile(source.tree.file_hash(), source.fetch, prove, **options)
        file.seek(2000)
        with pytest.raises(y.ProofMismatch, match="see chunk_limit"):
            file.read(1)
        assert source.fetched == []


def test_a_mismatch_later_returns_nothing_and_leaves_the_position(monkeypatch):
    monkeypatch.setattr("yurewha._checked_parts.PIECE", 500)
    source = drawn(11, 100)
    bad = changed(source.data, 2500)
    file = y.VerifiedFile(source.tree.file_hash(), lambda a, b: bad[a:b], source.prove)
    assert file.read(100) == source.data[:100]
    with pytest.raises(y.ProofMismatch):
        file.read(4000)
    assert file.tell() == 100 and file.read(300) == source.data[100:400]


def test_a_buffer_without_bytes_is_filled():
    """Also one that has rows of some bytes, and no row, which `memoryview` doesn't show as bytes."""
    tree = y.HashTree([(y.data_hash(b"abc"), 3)])
    file = y.VerifiedFile(tree.file_hash(), lambda start, stop: b"abc"[start:stop], tree.proof_of_bytes)
    for room in (bytearray(), (ctypes.c_ubyte * 4 * 0)(), (ctypes.c_uint64 * 0)()):
        assert file.readinto(room) == io.BytesIO(b"abc").readinto(room) == file.tell() == 0
    rows = (ctypes.c_ubyte * 2 * 2)()
    assert file.readinto(rows) == 3 and bytes(rows) == b"abc\0"
    for wrong in (b"", b"abc"):
        with pytest.raises(TypeError, match="^the buffer must be writable, got a read-only one$"):
            file.readinto(wrong)


def test_errors_of_the_callers_calls_pass_through():
    source = drawn(12, 20)

    def broken(start, stop):
        raise ConnectionError("mine")

    for fetch, prove in ((broken, source.prove), (source.fetch, broken)):
        file = y.VerifiedFile(source.tree.file_hash(), fetch, prove)
        with pytest.raises(ConnectionError, match="mine"):
            file.read(10)
        assert file.tell() == 0
    for fetch, prove, said in (
        (lambda a, b: "text", source.prove, "lends its bytes"),
        (source.fetch, lambda a, b: None, "prove must return a RangeProof, got NoneType"),
    ):
        with pytest.raises(TypeError, match=said):
            y.VerifiedFile(source.tree.file_hash(), fetch, prove).read(10)


def test_data_in_other_forms():
    source = drawn(13, 20)
    for form in (bytearray, memoryview, lambda data: memoryview(bytearray(data))):
        file = y.VerifiedFile(source.tree.file_hash(), lambda a, b: form(source.data[a:b]), source.prove)
        assert file.read() == source.data


def test_positions_and_states():
    source = drawn(14, 20)
    file = source.open()
    assert file.readable() and file.seekable() and not file.writable() and not file.isatty()
    for call, error in (
        (lambda: file.seek(-1), OSError), (lambda: file.seek(-1, os.SEEK_CUR), OSError),
        (lambda: file.seek(-len(source.data) - 1, os.SEEK_END), OSError), (lambda: file.seek(0, 3), ValueError),
        (lambda: file.seek(0.5), TypeError), (lambda: file.read("1"), TypeError), (file.fileno, OSError),
    ):
        with pytest.raises(error):
            call()
        assert file.tell() == 0
    assert repr(file) == f"<yurewha.VerifiedFile {source.tree.file_hash()}>"
    with file as same:
        assert same is file and file.read(3) == source.data[:3]
    for call in (lambda: file.read(1), lambda: file.readinto(bytearray(1)), lambda: file.seek(0), file.tell, file.readable,
                 file.seekable, lambda: file.size, file.readall):
        with pytest.raises(ValueError, match="closed"):
            call()


def zipped(count):
    """A ZIP of files of random bytes, cut into chunks."""
    rng, room = random.Random(15), io.BytesIO()
    members = {f"folder/{number}.bin": rng.randbytes(rng.randrange(20_000)) for number in range(count)}
    with zipfile.ZipFile(room, "w", zipfile.ZIP_DEFLATED) as archive:
        for name, data in members.items():
            archive.writestr(name, data)
    data = room.getvalue()
    cuts = [*range(0, len(data), 1000), len(data)]
    return Source(data, cuts), members


def test_zipfile_reads_through_it():
    source, members = zipped(100)
    with zipfile.ZipFile(source.open()) as archive:
        assert archive.namelist() == list(members)
        assert archive.read("folder/57.bin") == members["folder/57.bin"]
    fetched = sum(stop - start for start, stop in source.fetched)
    assert fetched < 60_000 < len(source.data) // 10
    with zipfile.ZipFile(io.BufferedReader(source.open())) as archive:
        assert archive.testzip() is None and {name: archive.read(name) for name in members} == members


def test_a_changed_member_is_refused():
    source, members = zipped(20)
    place = zipfile.ZipFile(io.BytesIO(source.data)).getinfo("folder/7.bin").header_offset
    bad = changed(source.data, place + 200)
    with zipfile.ZipFile(y.VerifiedFile(source.tree.file_hash(), lambda a, b: bad[a:b], source.prove)) as archive:
        assert archive.read("folder/15.bin") == members["folder/15.bin"]
        with pytest.raises(y.ProofMismatch):
            archive.read("folder/7.bin")


def test_fsspec_reads_through_it():
    fsspec = pytest.importorskip("fsspec")
    source, members = zipped(50)
    files = fsspec.filesystem("zip", fo=source.open())
    assert sorted(files.ls("folder", detail=False)) == sorted(members)
    assert files.cat("folder/33.bin") == members["folder/33.bin"]


def test_tarfile_and_text_read_through_it():
    room = io.BytesIO()
    with tarfile.open(fileobj=room, mode="w") as archive:
        for number in range(30):
            info = tarfile.TarInfo(f"{number}.txt")
            info.size = 3000
            archive.addfile(info, io.BytesIO(b"%4d\n" % number * 600))
    data = room.getvalue()
    source = Source(data, [*range(0, len(data), 2000), len(data)])
    with tarfile.open(fileobj=source.open()) as archive:
        lines = io.TextIOWrapper(archive.extractfile("17.txt")).read().splitlines()
    assert lines == 600 * ["  17"]


READS = {
    "read": lambda file: file.read(700), "read to the end": lambda file: file.read(), "readall": lambda file: file.readall(),
    "readinto": lambda file: file.readinto(bytearray(700)), "size": lambda file: file.size,
    "seek from the end": lambda file: file.seek(-3, os.SEEK_END),
}


@pytest.mark.parametrize("name", READS)
def test_the_lock_is_held_while_something_is_fetched(name):
    source, held = drawn(25, 50), []

    def fetch(start, stop):
        held.append(file._guarded._lock._is_owned())
        return source.fetch(start, stop)

    def prove(start, stop):
        held.append(file._guarded._lock._is_owned())
        return source.prove(start, stop)

    file = y.VerifiedFile(source.tree.file_hash(), fetch, prove)
    READS[name](file)
    assert len(held) >= 2 and all(held) and not file._guarded._lock._is_owned()


@pytest.mark.parametrize("name", READS)
def test_the_lock_is_taken_also_when_nothing_is_fetched(name):
    file, taken = drawn(25, 50).open(), []
    assert file.read() and file.seek(0) == 0

    class Spied:
        """Notes that the lock was taken."""

        def _locked(self):
            taken.append(name)
            return contextlib.nullcontext()

    file._guarded = Spied()
    READS[name](file)
    assert bool(taken) == (name != "size")  # whoever asks for a size that is known waits for nobody
    taken.clear()
    assert file.seek(7) == 7 and taken


def at_each_line(modules, work, act, after=lambda: None):
    """Does the work again and again. Each time something is done at one line further in these modules, until there is none."""
    for step in range(10_000):
        steps = [step]

        def trace(frame, event, argument):
            if not frame.f_code.co_filename.endswith(modules):
                return None
            if event == "line":
                steps[0] -= 1
                if steps[0] == -1:
                    sys.settrace(None)
                    act()
            return trace

        before = sys.gettrace()
        sys.settrace(trace)
        try:
            work()
        finally:
            sys.settrace(before)
        after()
        if steps[0] >= 0:
            return step
    raise AssertionError("the work doesn't end")


class Ended(Exception):
    """What a signal handler raises."""


MODULES = ("_verified_file.py", "_checked_parts.py", "_reader.py")


# Python says of an exception in `__del__` that it is ignored.
@pytest.mark.filterwarnings("ignore::pytest.PytestUnraisableExceptionWarning")
@pytest.mark.parametrize("cache_size", [0, 250, 1000])
def test_a_handler_that_raises_between_any_two_lines(cache_size):
    """What is read later is right, and no more is kept than was said."""
    source = Source(random.Random(27).randbytes(1000), range(0, 1001, 50))
    file = source.open(cache_size=cache_size)

    def act():
        raise Ended

    def work():
        for place in (120, 130, 480, 700, 120, 40):
            with contextlib.suppress(Ended):
                file.seek(place)
                assert file.read(70) == source.data[place:place + 70]

    def after():
        assert file._reader.counted() <= cache_size and is_right(file, source)

    assert at_each_line(MODULES, work, act, after) > 100


@pytest.mark.parametrize("cache_size", [0, 250, 1000])
def test_a_handler_that_reads_between_any_two_lines(cache_size):
    source = Source(random.Random(28).randbytes(1000), range(0, 1001, 50))
    file = source.open(cache_size=cache_size)

    def act():
        position = file.tell()
        for place in (140, 700, 330):
            file.seek(place)
            assert file.read(60) == source.data[place:place + 60]
        file.seek(position)

    def work():
        for place in (120, 480, 700, 120):
            file.seek(place)
            assert file.read(70) == source.data[place:place + 70] and file.tell() == place + 70

    def after():
        assert file._reader.counted() <= cache_size and is_right(file, source)

    assert at_each_line(MODULES, work, act, after) > 100


def test_threads_read_one_file():
    source = drawn(16, 500, 1000)
    file = source.open(cache_size=5000)
    wrong = []

    def work(seed):
        rng = random.Random(seed)
        for _ in range(200):
            data = file.read(rng.randrange(1, 700))
            if data not in source.data:
                wrong.append(data)
            file.seek(rng.randrange(len(source.data)))

    threads = [threading.Thread(target=work, args=(seed,)) for seed in range(6)]
    for thread in threads:
        thread.start()
    for thread in threads:
        thread.join()
    assert wrong == []
