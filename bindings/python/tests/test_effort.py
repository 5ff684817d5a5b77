"""What reading costs, as numbers: how many requests, for how many bytes, and how many at once."""

import asyncio
import contextlib
import io
import random
import threading

import pytest

import yurewha as y

MIB = 1 << 20
CHUNK = 1 << 16
DATA = random.Random(95).randbytes(40 * MIB)
TREE = y.HashTree([(y.data_hash(DATA[at:at + CHUNK]), CHUNK) for at in range(0, len(DATA), CHUNK)])


class Server:
    """What was asked of it: how often for a proof and for bytes, for how many, and the most at once."""

    def __init__(self, together=0):
        self.proofs = self.fetches = self.bytes = self.now = self.most = 0
        self.lock, self.barrier = threading.Lock(), threading.Barrier(together) if together else None

    def prove(self, start, stop):
        with self.lock:
            self.proofs += 1
        return TREE.proof_of_bytes(start, stop)

    @contextlib.contextmanager
    def fetching(self, start, stop):
        with self.lock:
            self.fetches, self.bytes, self.now = self.fetches + 1, self.bytes + stop - start, self.now + 1
            self.most = max(self.most, self.now)
        try:
            if self.barrier:
                self.barrier.wait(30)
            yield DATA[start:stop]
        finally:
            with self.lock:
                self.now -= 1

    def fetch(self, start, stop):
        with self.fetching(start, stop) as data:
            return data

    @property
    def told(self):
        return self.proofs, self.fetches, self.bytes


def plainly(server, **options):
    file = y.VerifiedFile(TREE.file_hash(), server.fetch, server.prove, **options)
    return file.read_at, lambda: file.size


def by_tasks(server, **options):
    async def fetch(start, stop):
        with server.fetching(start, stop) as data:
            await asyncio.sleep(0)
            return data

    file = y.AsyncVerifiedFile(TREE.file_hash(), fetch, server.prove, **options)
    return lambda start, stop: asyncio.run(file.read_at(start, stop)), lambda: asyncio.run(file.size())


#: Reads, the options of the file, and how many proofs, fetches and bytes all of them ask for. A place is in chunks.
READS = {
    "a byte": ([(0, 1 / CHUNK)], {}, (1, 1, CHUNK)),
    "nothing": ([(5, 5)], {}, (0, 0, 0)),
    "two bytes of two chunks": ([(1 - 1 / CHUNK, 1 + 1 / CHUNK)], {}, (1, 1, 2 * CHUNK)),
    "a part twice": ([(3, 5), (3, 5), (4, 5)], {}, (1, 1, 2 * CHUNK)),
    "a part twice, kept nowhere": ([(3, 5), (3, 5)], {"cache_size": 0}, (2, 2, 4 * CHUNK)),
    "more of a part": ([(3, 5), (3, 7)], {}, (2, 2, 4 * CHUNK)),
    "what is around a part": ([(3, 5), (2, 6)], {}, (2, 2, 6 * CHUNK)),
    "a part that was forgotten": ([(0, 1), (8, 8 + 64), (0, 1)], {}, (3, 3, 66 * CHUNK)),
    "the whole file": ([(0, 640)], {}, (3, 3, 40 * MIB)),
    "the whole file, kept nowhere": ([(0, 640)], {"cache_size": 0}, (3, 3, 40 * MIB)),
    "beyond the end": ([(639, 700)], {}, (1, 1, CHUNK)),
    "each chunk": ([(at, at + 1) for at in range(50)], {}, (50, 50, 50 * CHUNK)),
    "each half of a chunk": ([(at / 2, at / 2 + 0.5) for at in range(100)], {}, (50, 50, 50 * CHUNK)),
}


@pytest.mark.parametrize("reader", [plainly, by_tasks])
@pytest.mark.parametrize("name", READS)
def test_what_reads_ask_for(reader, name):
    reads, options, expected = READS[name]
    server = Server()
    read_at, _ = reader(server, **options)
    for start, stop in reads:
        begin, end = int(start * CHUNK), int(stop * CHUNK)
        assert read_at(begin, end) == DATA[begin:end]
    assert server.told == expected and server.most <= 1


@pytest.mark.parametrize("reader", [plainly, by_tasks])
def test_the_size_costs_a_chunk_once(reader):
    server = Server()
    read_at, size = reader(server)
    assert [size(), size()] == 2 * [len(DATA)] and server.told == (1, 1, CHUNK)
    read_at(0, 5)
    assert server.told == (1, 1, CHUNK)


def in_steps(file, length):
    return b"".join(iter(lambda: file.read(length), b""))


#: Readers over a file, with its options: how many requests they make for all of it, at most, and how many of these at once.
READERS = {
    "read": (lambda file: file.read(), {}, 4, 1),
    "a buffer of a MiB": (lambda file: io.BufferedReader(file, MIB).read(), {}, 5, 1),
    "steps of a MiB": (lambda file: in_steps(file, MIB), {}, 42, 1),
    "a buffer for small steps": (lambda file: in_steps(io.BufferedReader(file, MIB), 10_000), {}, 42, 1),
    "ahead": (lambda file: in_steps(file, CHUNK), {"read_ahead": 8 * MIB}, 42, 9),
    "far ahead": (lambda file: in_steps(file, CHUNK), {"read_ahead": 64 * MIB}, 12, 9),
}


@pytest.mark.parametrize("name", READERS)
def test_what_readers_ask_for(name):
    read, options, requests, most = READERS[name]
    server = Server()
    file = y.VerifiedFile(TREE.file_hash(), server.fetch, server.prove, **options)
    assert read(file) == DATA
    assert server.proofs == server.fetches <= requests and server.most <= most and len(DATA) <= server.bytes <= len(DATA) + 2 * CHUNK


def test_tasks_ask_at_once_and_once_each():
    async def main():
        server = Server()

        async def fetch(start, stop):
            with server.fetching(start, stop) as data:
                await asyncio.sleep(0.01)
                return data

        file = y.AsyncVerifiedFile(TREE.file_hash(), fetch, server.prove)
        parts = await asyncio.gather(*(file.read_at(at * CHUNK, at * CHUNK + 7) for at in range(0, 60, 3)))
        assert parts == [DATA[at * CHUNK:at * CHUNK + 7] for at in range(0, 60, 3)]
        return server

    server = asyncio.run(main())
    assert server.told == (20, 20, 20 * CHUNK) and server.most == 20


def file_system(server, **options):
    """One with a file, or the test is skipped where fsspec isn't installed."""
    kind = pytest.importorskip("yurewha.filesystem").VerifiedFileSystem
    return kind({"a": TREE.file_hash()}, lambda path, *part: server.fetch(*part), lambda path, *part: server.prove(*part), **options)


@pytest.mark.parametrize("threads, together", [(None, 8), (1, 1), (3, 3)])
def test_a_file_system_fetches_as_many_ranges_at_once_as_is_said(threads, together):
    """And no more, however many ranges there are. As many are fetched at once, or the barrier breaks."""
    server, count = Server(together), 24
    options = {} if threads is None else {"threads": threads}
    files = file_system(server, cache_size=0, **options)
    starts = [at * 4 * CHUNK + 5 for at in range(count)]
    read = files.cat_ranges(["a"] * count, starts, [start + 9 for start in starts])
    assert read == [DATA[start:start + 9] for start in starts]
    assert server.told == (count, count, count * CHUNK) and server.most == together


#: What is asked of a file system, and how many proofs, fetches and bytes that takes.
OF_FILE_SYSTEMS = {
    "cat_file": (lambda files: files.cat_file("a", 5, 9), (1, 1, CHUNK)), "head": (lambda files: files.head("a", 9), (1, 1, MIB)),
    "cat_file twice": (lambda files: [files.cat_file("a", 5, 9) for _ in range(2)], (1, 1, CHUNK)),
    "size and info": (lambda files: (files.size("a"), files.info("a"), files.ls("", True)), (1, 1, CHUNK)),
    "names": (lambda files: (files.ls("", False), files.exists("b"), files.isdir("")), (0, 0, 0)),
    "tail": (lambda files: files.tail("a", 9), (2, 2, 2 * CHUNK)),
    "near ranges": (
        lambda files: files.cat_ranges(["a"] * 4, [0, 9, CHUNK, 2 * CHUNK - 9], [9, 99, CHUNK + 9, 2 * CHUNK]), (1, 1, 2 * CHUNK)),
    "one range twice": (lambda files: files.cat_ranges(["a"] * 2, [5, 5], [9, 9]), (1, 1, CHUNK)),
    "an opened file": (lambda files: files.open("a").read(9), (1, 1, MIB)),
    "small blocks": (lambda files: files.open("a", block_size=9).read(9), (1, 1, CHUNK)),
}


@pytest.mark.parametrize("name", OF_FILE_SYSTEMS)
def test_what_a_file_system_asks_for(name):
    use, expected = OF_FILE_SYSTEMS[name]
    server = Server()
    use(file_system(server))
    assert server.told == expected and server.most <= 1
