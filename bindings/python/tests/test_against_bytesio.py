"""Readers over files that are somewhere else, beside `io.BytesIO`: the same drawn calls give the same.

The server is drawn, too. It answers right, cuts off, changes, exchanges or refuses. Then a call raises an error and changes nothing.
"""

import asyncio
import io
import os
import random

import pytest
from test_verified_files import Source

import yurewha as y


class Down(Exception):
    """What a server that doesn't answer raises."""


#: What a call may raise if an answer was wrong.
REFUSALS = (Down, y.ProofMismatch, y.InvalidProof, y.InvalidArguments, y.SizeOverflow)
OTHER = y.HashTree([(y.data_hash(b"other"), 5)])


def drawn(rng):
    """A file of chunks of about one length, some of which are empty."""
    longest = rng.choice((1, 10, 300, 3000))
    cuts = [0]
    for _ in range(rng.choice((1, 2, 5, 20, 90, 145))):
        cuts.append(cuts[-1] + rng.choice((0, rng.randrange(longest), rng.randrange(longest), longest)))
    return Source(rng.randbytes(cuts[-1]), cuts)


class Server:
    """Answers of which `rate` are wrong."""

    def __init__(self, rng, source, rate):
        self.rng, self.source, self.rate = random.Random(rng.getrandbits(64)), source, rate

    def fetch(self, start, stop):
        right = self.source.data[start:stop]
        if self.rng.random() >= self.rate:
            return self.rng.choice((bytes, bytearray, memoryview))(right)
        kind, place = self.rng.randrange(8), self.rng.randrange(len(right) or 1)
        if kind == 0:
            raise Down
        changed = right[:place] + bytes([right[place] ^ 1 << place % 8]) + right[place + 1:] if right else b"a"
        moved = self.source.data[start + 1:stop + 1]
        return (right[:place], right + b"a", changed, moved, bytes(len(right)), b"", self.source.data)[kind - 1]

    def prove(self, start, stop):
        if self.rng.random() >= self.rate:
            return self.source.tree.proof_of_bytes(start, stop)
        kind, count = self.rng.randrange(6), self.source.tree.num_chunks
        first = self.rng.randrange(count)
        if kind == 0:
            raise Down
        if kind == 1:
            return OTHER.proof(0, 1)
        if kind == 2:
            return y.RangeProof.from_flat([], [(self.source.tree.root, self.rng.choice((0, 1, len(self.source.data))))])
        if kind == 3:
            return self.source.tree.proof_of_bytes(max(0, start - 50), stop + 50)
        return self.source.tree.proof(*((0, count) if kind == 4 else (first, self.rng.randint(first + 1, count))))

    async def fetch_later(self, start, stop):
        await asyncio.sleep(0)
        return self.fetch(start, stop)

    async def prove_later(self, start, stop):
        await asyncio.sleep(0)
        return self.prove(start, stop)


def options(rng):
    return {"cache_size": rng.choice((0, 1, 100, 5000, 1 << 22)), "chunk_limit": rng.choice((1 << 20, 1 << 40))}


def same(rng, server, call, expected):
    """Makes a call. It gives what is expected, or it raises because an answer was wrong. Returns whether it gave something."""
    try:
        given = call()
    except REFUSALS:
        assert server.rate, "an honest server is refused"
        return False
    assert given == expected
    return True


def places(rng, size):
    """Two places in order, within the file and beyond."""
    start = rng.choice((0, rng.randrange(size + 10), size, 2**64 - 1))
    return start, min(start + rng.choice((0, 1, 16, 300, 5000, size)), 2**64 - 1)


def call_both(rng, server, file, plain):
    """Makes a drawn call on a file and on the `BytesIO`. The position is the same after it."""
    kind, count, before = rng.randrange(6), rng.choice((0, 1, 16, 300, 5000, len(server.source.data))), plain.tell()
    if kind < 2:
        gave = same(rng, server, lambda: file.read(count), plain.read(count))
    elif kind == 2:
        gave = same(rng, server, file.read, plain.read())
    elif kind == 3:
        rooms = [bytearray(b"-" * count) for _ in range(2)]
        gave = same(rng, server, lambda: file.readinto(rooms[0]), plain.readinto(rooms[1]))
        assert rooms[0] == rooms[1] if gave else rooms[0] == b"-" * count or isinstance(file, io.BufferedReader)
    elif kind == 4:
        whence = rng.randrange(3)
        offset = rng.randrange(0, len(server.source.data) + 20) - (0, before, len(server.source.data))[whence]
        gave = same(rng, server, lambda: file.seek(offset, whence), plain.seek(offset, whence))
    else:
        gave = same(rng, server, lambda: file.size, len(server.source.data)) or True
    if not gave:
        plain.seek(before)
        if isinstance(file, io.BufferedReader):
            file.seek(before)  # what it had read before the error is lost
    assert file.tell() == plain.tell()


RATES = pytest.mark.parametrize("rate", [0, 0.02, 0.3])


@RATES
@pytest.mark.parametrize("read_ahead", [0, 1, 1000, 1 << 20])
def test_a_verified_file(monkeypatch, rate, read_ahead):
    monkeypatch.setattr("yurewha._read_ahead._LEAST", 100)
    rng = random.Random(f"{rate} {read_ahead}")
    for _ in range(25):
        source = drawn(rng)
        server, plain = Server(rng, source, rate), io.BytesIO(source.data)
        with y.VerifiedFile(source.tree.file_hash(), server.fetch, server.prove, read_ahead=read_ahead, **options(rng)) as file:
            for _ in range(40):
                call_both(rng, server, file, plain)
                start, stop = places(rng, len(source.data))
                same(rng, server, lambda: file.read_at(start, stop), source.data[start:stop])
            server.rate = 0
            assert file.seek(0) == 0 and file.read() == source.data and file.size == file.seek(0, os.SEEK_END) == len(source.data)


@RATES
def test_an_async_verified_file(rate):
    rng = random.Random(f"{rate} later")

    async def read_all(file, server, size):
        for _ in range(20):
            asked = [places(rng, size) for _ in range(3)]
            given = await asyncio.gather(file.size(), *(file.read_at(*ends) for ends in asked), return_exceptions=True)
            for answer, expected in zip(given, [size, *(server.source.data[start:stop] for start, stop in asked)]):
                assert answer == expected or server.rate and isinstance(answer, REFUSALS)
        server.rate = 0
        assert await file.size() == size and await file.read_at(0, 2**64 - 1) == server.source.data

    for _ in range(40):
        source = drawn(rng)
        server = Server(rng, source, rate)
        file = y.AsyncVerifiedFile(source.tree.file_hash(), server.fetch_later, server.prove_later, **options(rng))
        asyncio.run(read_all(file, server, len(source.data)))


@RATES
def test_a_file_system(rate):
    filesystem = pytest.importorskip("yurewha.filesystem")
    rng = random.Random(f"{rate} files")
    for _ in range(25):
        source = drawn(rng)
        server, plain, end = Server(rng, source, rate), io.BytesIO(source.data), len(source.data)
        files = filesystem.VerifiedFileSystem(
            {"a": source.tree.file_hash()}, lambda path, start, stop: server.fetch(start, stop),
            lambda path, start, stop: server.prove(start, stop), skip_instance_cache=True, threads=3, **options(rng))
        opened = files.open("a", block_size=rng.choice((1, 16, 1000, 1 << 20)))
        for _ in range(20):
            call_both(rng, server, opened, plain)
            start, stop = (rng.choice((None, rng.randint(-end - 5, end + 5))) for _ in range(2))
            same(rng, server, lambda: files.cat_file("a", start, stop), source.data[start:stop])
            starts = [rng.randrange(end + 5) for _ in range(4)]
            ends = [start + rng.randrange(end + 5) for start in starts]
            same(rng, server, lambda: files.cat_ranges(["a"] * 4, starts, ends, max_gap=rng.choice((None, 0, 7))),
                 [source.data[start:stop] for start, stop in zip(starts, ends)])
            same(rng, server, lambda: files.size("a"), end)
        server.rate = 0
        assert files.cat_file("a") == source.data and files.size("a") == end
