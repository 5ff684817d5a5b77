"""Files over a network: parts read by threads at once, by tasks, and ahead; and servers that lie, cut off, come late or die."""

import _thread
import asyncio
import contextlib
import io
import os
import random
import signal
import threading
import time

import pytest
from test_verified_files import OTHER, Ended, Source, at_each_line, changed, drawn, is_right

import yurewha as y
from yurewha import _checked_parts, _library

MIB = 1 << 20
#: What a chunk counts beside its bytes.
BESIDE = 128


def plainly(source, **options):
    """A file, and a call that reads a part of it and waits for no other."""
    file = source.open(**options)
    return file, file.read_at


def by_tasks(source, **options):
    """The same by an async file, each of whose calls is awaited."""
    async def fetch(start, stop):
        await asyncio.sleep(0)
        return source.fetch(start, stop)

    async def prove(start, stop):
        await asyncio.sleep(0)
        return source.prove(start, stop)

    file = y.AsyncVerifiedFile(source.tree.file_hash(), fetch, prove, **options)
    return file, lambda start, stop: asyncio.run(file.read_at(start, stop))


READERS = pytest.mark.parametrize("reader", [plainly, by_tasks])


@READERS
@pytest.mark.parametrize("options", [{}, {"cache_size": 0}, {"cache_size": 150}], ids=str)
def test_each_part_is_that_of_the_file(reader, options):
    source, rng = drawn(31, 200), random.Random(32)
    _, read_at = reader(source, **options)
    end = len(source.data)
    for _ in range(300):
        start = rng.choice((0, rng.randrange(end + 50), end, 2**64 - 1))
        stop = min(start + rng.choice((0, 1, 7, rng.randrange(500), end, 2**64)), 2**64 - 1)
        assert read_at(start, stop) == source.data[start:stop]


@READERS
@pytest.mark.parametrize("start, stop, error", [
    (5, 4, y.InvalidArguments), (-1, 4, y.InvalidArguments), (0, -1, y.InvalidArguments), (0, 2**64, y.InvalidArguments),
    (2**63, 0, y.InvalidArguments), (0.0, 4, TypeError), (0, "4", TypeError), (None, 4, TypeError), (0, None, TypeError)])
def test_wrong_places(reader, start, stop, error):
    source = drawn(31, 20)
    _, read_at = reader(source)
    with pytest.raises(error):
        read_at(start, stop)
    assert source.proved == source.fetched == []


def test_a_part_leaves_the_position():
    file = drawn(31, 20).open()
    file.seek(7)
    assert file.read_at(100, 200) == file.read_at(100, 200) and file.tell() == 7
    file.close()
    with pytest.raises(ValueError, match="closed"):
        file.read_at(0, 1)


def test_the_size_of_an_async_file():
    source = drawn(31, 20)
    file, _ = by_tasks(source)
    assert asyncio.run(file.size()) == len(source.data) and source.fetched == [(0, source.cuts[1])]
    assert file.file_hash == source.tree.file_hash() and repr(file) == f"<yurewha.AsyncVerifiedFile {file.file_hash}>"
    for call in (lambda: file.__reduce__(), lambda: type("Other", (y.AsyncVerifiedFile,), {})):
        with pytest.raises(TypeError):
            call()


def test_an_async_file_takes_plain_calls_and_a_salt():
    source, salt = drawn(31, 20), bytes(range(32))
    file = y.AsyncVerifiedFile(source.tree.file_hash(salt), source.fetch, source.prove, salt)
    assert asyncio.run(file.read_at(0, 2**63)) == source.data


# ---- At once

def all_at_once(count):
    """A call that returns once it was called `count` times at once."""
    barrier = threading.Barrier(count)
    return lambda: barrier.wait(10)


def started(*calls):
    """Runs each call in a thread, and returns what they returned or raised."""
    results = [None] * len(calls)

    def run(number, call):
        try:
            results[number] = call()
        except BaseException as error:
            results[number] = error

    threads = [threading.Thread(target=run, args=given) for given in enumerate(calls)]
    for thread in threads:
        thread.start()
    for thread in threads:
        thread.join(60)
        assert not thread.is_alive(), "a thread waits for ever"
    return results


@pytest.mark.parametrize("what", ["fetch", "prove"])
def test_threads_ask_at_once(what):
    """No thread gets its answer before four have asked."""
    source, meet = Source(random.Random(33).randbytes(400), range(0, 401, 100)), all_at_once(4)
    calls = {"fetch": source.fetch, "prove": source.prove}
    asked = calls[what]
    calls[what] = lambda start, stop: (meet(), asked(start, stop))[1]
    file = y.VerifiedFile(source.tree.file_hash(), calls["fetch"], calls["prove"])
    results = started(*(lambda at=at: file.read_at(at, at + 100) for at in range(0, 400, 100)))
    assert results == [source.data[at:at + 100] for at in range(0, 400, 100)]


def test_a_part_is_read_while_a_read_waits():
    source, meet = Source(random.Random(33).randbytes(400), range(0, 401, 100)), all_at_once(2)
    file = y.VerifiedFile(source.tree.file_hash(), lambda a, b: (meet(), source.fetch(a, b))[1], source.prove)
    assert started(lambda: file.read(100), lambda: file.read_at(200, 300)) == [source.data[:100], source.data[200:300]]


def test_tasks_ask_at_once():
    source, waiting = Source(random.Random(34).randbytes(400), range(0, 401, 100)), []

    async def main():
        everyone = asyncio.Event()

        async def fetch(start, stop):
            waiting.append(start)
            if len(waiting) == 4:
                everyone.set()
            await asyncio.wait_for(everyone.wait(), 10)
            return source.fetch(start, stop)

        file = y.AsyncVerifiedFile(source.tree.file_hash(), fetch, source.prove)
        return await asyncio.gather(*(file.read_at(at, at + 100) for at in range(0, 400, 100)))

    assert b"".join(asyncio.run(main())) == source.data


def test_the_lock_is_held_while_kept_parts_are_used(monkeypatch):
    held, file, names = [], drawn(31, 20).open(), {f"yurewha_reader_{name}" for name in ("read", "take", "size")}
    for name in names:
        calls = _library.bare if name == "yurewha_reader_read" else _library.short

        def spied(*given, call=getattr(calls, name), name=name):
            held.append((name, file._reader._lock._is_owned()))
            return call(*given)

        monkeypatch.setattr(calls, name, spied)
    assert file.read_at(3, 5) == file.read_at(3, 5) and file.size and {name for name, _ in held} == names and all(lock for _, lock in held)
    assert not file._reader._lock._is_owned()


@pytest.mark.parametrize("options", [{}, {"cache_size": 3000}], ids=str)
def test_threads_read_one_file_by_parts(options):
    source = drawn(35, 500, 1000)
    file = source.open(**options)

    def work(seed):
        rng = random.Random(seed)
        for _ in range(300):
            start = rng.randrange(len(source.data))
            stop = start + rng.randrange(3000)
            if file.read_at(start, stop) != source.data[start:stop]:
                return "wrong"
        return "right"

    assert started(*(lambda seed=seed: work(seed) for seed in range(6))) == 6 * ["right"]
    assert 0 < file._reader.counted() <= file._cache_size


# ---- What was checked before a failure

class Dying:
    """A server that dies after so many bytes: it sends what it has left, and then nothing."""

    def __init__(self, source, left):
        self.source, self.left, self.sent = source, left, 0

    def fetch(self, start, stop):
        if self.left == 0:
            raise ConnectionError("the server is gone")
        data = self.source.data[start:stop][:self.left]
        self.left -= len(data)
        self.sent += len(data)
        return data


def file_of(reader, source, server, **options):
    """A file that is read from a server, and the call that reads its parts."""
    shown = Source.__new__(Source)
    shown.__dict__.update(source.__dict__)
    shown.fetch = lambda start, stop: server[0].fetch(start, stop)
    return reader(shown, **options)


@READERS
@pytest.mark.parametrize("cache_size", [0, 1 << 22])
@pytest.mark.parametrize("left", [0, 1, 500, 2000, 2999, 5000, 9999])
def test_a_server_that_dies_in_the_middle(monkeypatch, reader, cache_size, left):
    """The next one is asked for the rest alone: for less than a chunk more."""
    monkeypatch.setattr("yurewha._checked_parts.PIECE", 1000)
    source = Source(random.Random(36).randbytes(10_000), range(0, 10_001, 50))
    server = [Dying(source, left)]
    _, read_at = file_of(reader, source, server, cache_size=cache_size)
    with pytest.raises((y.ProofMismatch, ConnectionError)):
        read_at(0, 10_000)
    first, server[0] = server[0], Dying(source, 1 << 60)
    assert read_at(0, 10_000) == source.data and first.sent + server[0].sent < 10_000 + 50


@READERS
def test_a_server_that_dies_again_and_again(monkeypatch, reader):
    monkeypatch.setattr("yurewha._checked_parts.PIECE", 1000)
    source = Source(random.Random(36).randbytes(10_000), range(0, 10_001, 50))
    server, sent = [Dying(source, 700)], 0
    _, read_at = file_of(reader, source, server, cache_size=0)
    for _ in range(30):
        try:
            assert read_at(0, 10_000) == source.data
            break
        except (y.ProofMismatch, ConnectionError):
            sent += server[0].sent
            server[0] = Dying(source, 700)
    assert 10_000 <= sent + server[0].sent < 10_000 + 30 * 50


@READERS
def test_all_of_a_long_read_is_rescued_again_and_again(monkeypatch, reader):
    """Also if it is longer than what is rescued beside the last read."""
    monkeypatch.setattr("yurewha._checked_parts.PIECE", 10_000)
    monkeypatch.setattr("yurewha._checked_parts._RESCUED", 100 * BESIDE)
    source = Source(random.Random(36).randbytes(100_000), range(0, 100_001, 1000))
    server, sent = [Dying(source, 15_000)], 0
    _, read_at = file_of(reader, source, server, cache_size=0)
    for _ in range(10):
        with contextlib.suppress(y.ProofMismatch, ConnectionError):
            assert read_at(0, 100_000) == source.data
            break
        sent += server[0].sent
        server[0] = Dying(source, 15_000)
    assert 100_000 <= sent + server[0].sent < 100_000 + 10 * 1000


@READERS
def test_what_is_rescued_was_checked(reader):
    """A server sends a wrong byte once. Of its answer only the chunks before this byte are used later."""
    source = Source(random.Random(37).randbytes(1000), range(0, 1001, 50))
    sent = [changed(source.data, 420)]

    class Lying:
        @staticmethod
        def fetch(start, stop):
            source.fetched.append((start, stop))
            return sent[0][start:stop]

    _, read_at = file_of(reader, source, [Lying], cache_size=0)
    with pytest.raises(y.ProofMismatch):
        read_at(0, 1000)
    sent[0] = source.data
    assert read_at(0, 1000) == source.data and source.fetched == [(0, 1000), (400, 1000)]


def test_what_is_rescued_is_forgotten_once_it_was_read(monkeypatch):
    monkeypatch.setattr("yurewha._checked_parts.PIECE", 1000)
    source = Source(random.Random(38).randbytes(10_000), range(0, 10_001, 50))
    server = [Dying(source, 3000)]
    file, read_at = file_of(plainly, source, server, cache_size=0)
    with pytest.raises(ConnectionError):
        read_at(0, 10_000)
    assert file._rescued.counted() == 3000 + 60 * BESIDE
    server[0] = Dying(source, 1 << 60)
    assert read_at(5000, 6000) == source.data[5000:6000] and file._rescued.counted() == 3000 + 60 * BESIDE
    assert read_at(0, 10_000) == source.data and file._rescued is None and file._reader.counted() == 0


@READERS
@pytest.mark.parametrize("start, stop", [(0, 1), (0, 3000), (1500, 1501), (2999, 3000), (7000, 7001)])
def test_another_read_leaves_what_is_rescued(monkeypatch, reader, start, stop):
    """It is of a part that was rescued, or of another one. Then the read that failed asks for its rest alone."""
    monkeypatch.setattr("yurewha._checked_parts.PIECE", 1000)
    source = Source(random.Random(38).randbytes(10_000), range(0, 10_001, 50))
    server = [Dying(source, 3000)]
    file, read_at = file_of(reader, source, server, cache_size=0)
    with pytest.raises(ConnectionError):
        read_at(0, 10_000)
    server[0] = Dying(source, 1 << 60)
    assert read_at(start, stop) == source.data[start:stop]
    before = server[0].sent
    assert read_at(0, 10_000) == source.data and server[0].sent - before == 7000 and file._rescued is None


def test_what_is_rescued_is_bounded(monkeypatch):
    """A server that dies in each read makes a reader keep no more than the last one had, and a fixed number of bytes."""
    monkeypatch.setattr("yurewha._checked_parts.PIECE", 1000)
    monkeypatch.setattr("yurewha._checked_parts._RESCUED", 2500)
    source = Source(random.Random(38).randbytes(100_000), range(0, 100_001, 50))
    server = [None]
    file, read_at = file_of(plainly, source, server, cache_size=0)
    for start in range(0, 90_000, 5000):
        server[0] = Dying(source, 2000)
        with pytest.raises(ConnectionError):
            read_at(start, start + 5000)
        had = 2000 + 40 * BESIDE
        assert had <= file._rescued.counted() <= had + 2500
        assert file._rescued.read(start, 2000)[0] == source.data[start:start + 2000]


def test_reads_by_position_rescue_too(monkeypatch):
    monkeypatch.setattr("yurewha._checked_parts.PIECE", 1000)
    source = Source(random.Random(36).randbytes(10_000), range(0, 10_001, 50))
    for read in (lambda file: file.read(), lambda file: file.readinto(bytearray(10_000)), lambda file: file.read(10_000)):
        server = [Dying(source, 6050)]
        file, _ = file_of(plainly, source, server, cache_size=0)
        assert file.size == 10_000
        with pytest.raises(ConnectionError):
            read(file)
        first, server[0] = server[0], Dying(source, 1 << 60)
        assert file.tell() == 0 and read(file) and first.sent + server[0].sent <= 10_000 + 50


def test_reads_that_fail_at_once_have_one_place_for_what_is_rescued(monkeypatch):
    """Who makes the place has the lock, or another read would make one, too, and what it had rescued would be lost."""
    source, held = drawn(31, 20), []
    file, read_at = file_of(plainly, source, [Dying(source, 500)])

    def made(*given, plain=_checked_parts.Reader):
        held.append(file._reader._lock._is_owned())
        return plain(*given)

    monkeypatch.setattr("yurewha._checked_parts.Reader", made)
    with pytest.raises((y.ProofMismatch, ConnectionError)):
        read_at(0, len(source.data))
    assert held == [True] and file._rescued.counted() > 0


# ---- Late answers

def test_answers_that_come_late_and_exchanged():
    """Two threads ask at once, and each gets the answer to the other one's request."""
    source, meet = Source(random.Random(39).randbytes(400), range(0, 401, 100)), all_at_once(2)
    asked = []

    def fetch(start, stop):
        asked.append((start, stop))
        meet()
        other = next(given for given in asked if given != (start, stop))
        return source.data[other[0]:other[1]]

    file = y.VerifiedFile(source.tree.file_hash(), fetch, source.prove)
    results = started(lambda: file.read_at(0, 100), lambda: file.read_at(200, 300))
    assert [type(result) for result in results] == 2 * [y.ProofMismatch] and file._reader.counted() == 0 and file._rescued is None


def test_a_late_answer_is_right_where_it_belongs():
    source, go_on = Source(random.Random(39).randbytes(400), range(0, 401, 100)), threading.Event()

    def fetch(start, stop):
        if start == 0:
            assert go_on.wait(10)
        return source.fetch(start, stop)

    file = y.VerifiedFile(source.tree.file_hash(), fetch, source.prove)

    def later():
        assert file.read_at(100, 400) == source.data[100:400]
        go_on.set()

    assert started(lambda: file.read_at(0, 250), later)[0] == source.data[:250]
    assert file.read_at(0, 400) == source.data


def test_answers_to_tasks_that_come_late_and_exchanged():
    """As with threads. What the tasks ask for afterwards is right."""
    source, asked, turned = Source(random.Random(39).randbytes(400), range(0, 401, 100)), [], [True]

    async def main():
        both = asyncio.Event()

        async def fetch(start, stop):
            asked.append((start, stop))
            if len(asked) == 2:
                both.set()
            await asyncio.wait_for(both.wait(), 10)
            if turned[0]:
                start, stop = next(given for given in asked if given != (start, stop))
            return source.data[start:stop]

        file = y.AsyncVerifiedFile(source.tree.file_hash(), fetch, source.prove)
        results = await asyncio.gather(file.read_at(0, 100), file.read_at(200, 300), return_exceptions=True)
        assert [type(result) for result in results] == 2 * [y.ProofMismatch] and file._reader.counted() == 0 and file._rescued is None
        turned[0] = False
        return await asyncio.gather(file.read_at(0, 100), file.read_at(200, 300))

    assert asyncio.run(main()) == [source.data[:100], source.data[200:300]]


def test_a_late_answer_to_a_task_is_right_where_it_belongs():
    source = Source(random.Random(39).randbytes(400), range(0, 401, 100))

    async def main():
        go_on = asyncio.Event()

        async def fetch(start, stop):
            if start == 0:
                await asyncio.wait_for(go_on.wait(), 10)
            return source.fetch(start, stop)

        async def later():
            assert await file.read_at(100, 400) == source.data[100:400]
            go_on.set()

        file = y.AsyncVerifiedFile(source.tree.file_hash(), fetch, source.prove)
        results = await asyncio.gather(file.read_at(0, 250), later())
        return results[0], await file.read_at(0, 400)

    assert asyncio.run(main()) == (source.data[:250], source.data)


def test_a_task_that_waits_no_longer(monkeypatch):
    """What it had checked isn't asked for again."""
    monkeypatch.setattr("yurewha._checked_parts.PIECE", 1000)
    source, late = Source(random.Random(40).randbytes(5000), range(0, 5001, 50)), [3000]

    async def fetch(start, stop):
        if start == late[0]:
            await asyncio.sleep(60)
        return source.fetch(start, stop)

    async def main():
        file = y.AsyncVerifiedFile(source.tree.file_hash(), fetch, source.prove, cache_size=0)
        with pytest.raises(asyncio.TimeoutError):
            await asyncio.wait_for(file.read_at(0, 5000), 0.2)
        late[0] = -1
        return await file.read_at(0, 5000)

    assert asyncio.run(main()) == source.data and sorted(source.fetched) == [(at, at + 1000) for at in range(0, 5000, 1000)]


class Interrupt(BaseException):
    """As Ctrl-C and the end of a task, it is no `Exception`."""


@READERS
@pytest.mark.parametrize("call", ["fetch", "prove"])
def test_what_was_checked_before_an_interrupt_is_not_asked_for_again(monkeypatch, reader, call):
    """Also while somebody keeps the error, and with it all that was under way."""
    monkeypatch.setattr("yurewha._checked_parts.PIECE", 1000)
    source, late = Source(random.Random(40).randbytes(5000), range(0, 5001, 50)), [3000]
    asked = getattr(source, call)

    def interrupted(start, stop):
        if start == late[0]:
            raise Interrupt
        return asked(start, stop)

    setattr(source, call, interrupted)
    _, read_at = reader(source, cache_size=0)
    with pytest.raises(Interrupt) as kept:
        read_at(0, 5000)
    late[0] = -1
    assert read_at(0, 5000) == source.data and source.fetched == [(at, at + 1000) for at in range(0, 5000, 1000)]
    assert kept.value.__traceback__ is not None


def test_a_task_that_is_cancelled(monkeypatch):
    """What it had checked isn't asked for again, also while somebody keeps its error."""
    monkeypatch.setattr("yurewha._checked_parts.PIECE", 1000)
    source = Source(random.Random(40).randbytes(5000), range(0, 5001, 50))

    async def main():
        waits, errors = asyncio.Event(), []

        async def fetch(start, stop):
            if start == 3000 and not errors:
                waits.set()
                await asyncio.sleep(60)
            return source.fetch(start, stop)

        file = y.AsyncVerifiedFile(source.tree.file_hash(), fetch, source.prove, cache_size=0)
        task = asyncio.ensure_future(file.read_at(0, 5000))
        await asyncio.wait_for(waits.wait(), 20)
        task.cancel()
        try:
            await task
        except asyncio.CancelledError as error:
            errors.append(error)
        assert len(errors) == 1
        return await file.read_at(0, 5000)

    assert asyncio.run(main()) == source.data and source.fetched == [(at, at + 1000) for at in range(0, 5000, 1000)]


DISHONEST = {
    "a byte changed": lambda s: (lambda a, b: changed(s.data[a:b], (b - a) // 2), s.prove),
    "a byte less": lambda s: (lambda a, b: s.data[a:b - 1], s.prove),
    "a byte more": lambda s: (lambda a, b: s.data[a:b + 1], s.prove),
    "no bytes": lambda s: (lambda a, b: b"", s.prove),
    "another part and its proof": lambda s: (s.fetch, lambda a, b: s.tree.proof_of_bytes(a + 500, b + 500)),
    "fewer chunks and their proof": lambda s: (s.fetch, lambda a, b: s.tree.proof_of_bytes(a, a + 1)),
    "another file": lambda s: (OTHER.fetch, lambda a, b: OTHER.tree.proof_of_bytes(a, b)),
    "the whole file for a part": lambda s: (s.fetch, lambda a, b: s.tree.proof(0, s.tree.num_chunks)),
    "a parent for a chunk": lambda s: (s.fetch, lambda a, b: y.RangeProof.from_flat([], [(s.tree.root, 2**64 - 1)])),
}


@READERS
@pytest.mark.parametrize("name", DISHONEST)
def test_dishonest_servers(reader, name):
    source = drawn(9, 150)
    source.fetch, source.prove = DISHONEST[name](source)
    file, read_at = reader(source, chunk_limit=2500)
    for _ in range(3):
        with pytest.raises(y.ProofMismatch):
            read_at(2000, 2300)
    assert is_right(file, source)
    assert name not in ("the whole file for a part", "a parent for a chunk") or source.fetched == []


@READERS
def test_a_server_that_has_no_proof_of_bytes_which_the_file_has(reader):
    """It doesn't make a reader believe that the file ends there."""
    source = drawn(9, 50)
    proved, end = source.prove, len(source.data)

    def prove(start, stop):
        if start > 0:
            raise ConnectionError("mine")
        return proved(start, stop)

    source.prove = prove
    _, read_at = reader(source, cache_size=0)
    for place in (source.cuts[1], 700, end - 1):
        with pytest.raises(ConnectionError, match="mine"):
            read_at(place, place + 7)
    assert read_at(end, end + 7) == read_at(end + 1, 2**64 - 1) == b""


@READERS
def test_a_server_that_dies_at_once(reader):
    source = drawn(9, 20)
    for broken in ("fetch", "prove"):
        def dead(start, stop):
            raise ConnectionError("mine")

        setattr(source, broken, dead)
        _, read_at = reader(source)
        with pytest.raises(ConnectionError, match="mine"):
            read_at(0, 10)
        delattr(source, broken)


# ---- Reading ahead

GREAT = Source(random.Random(41).randbytes(12 * MIB), range(0, 12 * MIB + 1, 1 << 16))


@READERS
def test_4_mib_are_kept_unless_another_number_is_given(reader):
    source = GREAT.again()
    _, read_at = reader(source)
    for place in range(0, 12 * MIB, MIB):
        assert read_at(place, place + MIB) == source.data[place:place + MIB]
    source.fetched.clear()
    first = 8 * MIB + (1 << 16)  # 63 chunks, since each counts a little more than its bytes
    for place in (first, *range(9 * MIB, 12 * MIB, MIB)):
        assert read_at(place, 12 * MIB) == source.data[place:]
    assert source.fetched == []
    assert read_at(first - 1, first) == source.data[first - 1:first] and len(source.fetched) == 1


def in_steps(file, length):
    return b"".join(iter(lambda: file.read(length), b""))


@pytest.mark.parametrize("read_ahead", [1, 1 << 20, 4 << 20, 1 << 40])
@pytest.mark.parametrize("length", [50_000, 1 << 16, 5_000_000])
def test_a_file_that_is_read_ahead_is_the_same(read_ahead, length):
    source = GREAT.again()
    assert in_steps(source.open(read_ahead=read_ahead), length) == source.data
    assert sum(stop - start for start, stop in source.fetched) < 1.3 * len(source.data)


def test_reading_ahead_asks_few_times():
    """192 reads of a chunk each are 192 requests without it."""
    for read_ahead, most in ((0, 192), (8 << 20, 14), (64 << 20, 10)):
        source = GREAT.again()
        assert in_steps(source.open(read_ahead=read_ahead), 1 << 16) == source.data
        assert len(source.fetched) <= most and (read_ahead or len(source.fetched) == most)


def test_a_piece_ahead_is_asked_for_in_parts_if_it_is_long(monkeypatch):
    monkeypatch.setattr("yurewha._checked_parts.PIECE", 300)
    monkeypatch.setattr("yurewha._read_ahead._LEAST", 1000)
    source = Source(random.Random(43).randbytes(10_000), range(0, 10_001, 50))
    assert in_steps(source.open(read_ahead=3000, cache_size=0), 170) == source.data
    assert max(stop - start for start, stop in source.fetched) <= 400 and len(source.fetched) < 50


def test_pieces_are_read_ahead_at_once():
    """No piece comes before eight were asked for."""
    source, meet = GREAT, all_at_once(8)

    def fetch(start, stop):
        if stop - start > 1 << 16 and start < 8 << 18:
            meet()
        return source.data[start:stop]

    file = y.VerifiedFile(source.tree.file_hash(), fetch, source.prove, read_ahead=8 << 18)
    assert file.read(1 << 16) + file.read(1) == source.data[:(1 << 16) + 1]


def test_no_more_is_read_ahead_than_was_said():
    source = GREAT.again()
    file = source.open(read_ahead=2 << 20)
    for place in range(2, 2 * MIB, 1 << 16):
        file.read(1 << 16)
        assert max(stop for _, stop in source.fetched) <= place + (1 << 16) + (2 << 20) + (1 << 18) + (1 << 16)
        assert len(file._ahead._pieces) <= 9


def test_what_is_far_away_is_read_by_itself():
    """Only a read that begins where the last one ended reads ahead."""
    source = GREAT.again()
    file = source.open(read_ahead=8 << 20, cache_size=0)
    for place in (0, 5 * MIB, 3 * MIB, 7 * MIB):
        file.seek(place)
        assert file.read(100) == source.data[place:place + 100]
    assert source.fetched == [(place, place + (1 << 16)) for place in (0, 5 * MIB, 3 * MIB, 7 * MIB)]
    assert file.read(100) == source.data[7 * MIB + 100:7 * MIB + 200] and file._ahead._pieces
    file.seek(0)
    assert file.read(100) == source.data[:100] and not file._ahead._pieces


def test_readers_of_lines_and_buffers_read_ahead():
    file = GREAT.open(read_ahead=4 << 20)
    assert io.BufferedReader(file, 1 << 16).read() == GREAT.data
    room = bytearray(12 * MIB)
    file = GREAT.open(read_ahead=4 << 20)
    assert file.readinto(memoryview(room)[:5]) == 5 and file.readinto(memoryview(room)[5:]) == 12 * MIB - 5 and room == GREAT.data


def test_an_error_ahead_is_raised_where_it_is_reached():
    """The bytes before it are read, the position stays, and reading again asks again for this piece alone."""
    wrong, fetched = [True], []

    def fetch(start, stop):
        fetched.append(start)
        data = GREAT.data[start:stop]
        return changed(data, 5 * MIB - start) if wrong[0] and start <= 5 * MIB < stop else data

    file = y.VerifiedFile(GREAT.tree.file_hash(), fetch, GREAT.prove, read_ahead=8 << 20)
    read = b""
    with pytest.raises(y.ProofMismatch, match="this isn't the data of the range"):
        while True:
            read += file.read(1 << 16)
    assert read == GREAT.data[:len(read)] and 4 * MIB <= file.tell() == len(read) <= 5 * MIB
    wrong[0], before = False, len(fetched)
    assert read + in_steps(file, 1 << 16) == GREAT.data and 4.5 * MIB <= min(fetched[before:]) <= 5 * MIB


@pytest.mark.parametrize("length", [1 << 16, 12 * MIB])
def test_pieces_that_came_before_an_error_are_not_read_again(length):
    """Nothing is asked for twice but the piece that failed."""
    left, fetched = [1], []

    def fetch(start, stop):
        if start > 6 * MIB and left[0]:
            left[0] = 0
            raise ConnectionError("mine")
        fetched.append((start, stop))
        return GREAT.data[start:stop]

    file = y.VerifiedFile(GREAT.tree.file_hash(), fetch, GREAT.prove, read_ahead=8 << 20, cache_size=0)
    read = file.read(1 << 16)
    for _ in range(2):
        with contextlib.suppress(ConnectionError):
            while part := file.read(length):
                read += part
    assert read == GREAT.data and sum(stop - start for start, stop in fetched) == len(GREAT.data)


def test_a_piece_that_a_handler_stopped_waiting_for_is_not_asked_for_again():
    """It comes meanwhile. The next read waits for it."""
    go_on, fetched = threading.Event(), []

    def fetch(start, stop):
        fetched.append((start, stop))
        assert not file.tell() or go_on.wait(60)
        return GREAT.data[start:stop]

    def handler(number, frame):
        raise Interrupt

    file = y.VerifiedFile(GREAT.tree.file_hash(), fetch, GREAT.prove, read_ahead=8 << 20, cache_size=0)
    read, before = file.read(1 << 16), signal.signal(signal.SIGALRM, handler)
    try:
        with pytest.raises(Interrupt):
            signal.setitimer(signal.ITIMER_REAL, 0.1)
            file.read(1 << 20)
    finally:
        signal.setitimer(signal.ITIMER_REAL, 0)
        signal.signal(signal.SIGALRM, before)
    go_on.set()
    assert read + in_steps(file, 1 << 20) == GREAT.data and sum(stop - start for start, stop in fetched) == len(GREAT.data)


def test_a_file_that_is_closed_reads_no_further_ahead():
    source = GREAT.again()
    file = source.open(read_ahead=8 << 20)
    assert file.read(1 << 16) + file.read(5) == source.data[:(1 << 16) + 5] and file._ahead._pieces
    file.close()
    assert not file._ahead._pieces
    source.fetched.clear()
    with pytest.raises(ValueError, match="closed"):
        file.read(1)
    unmade = y.VerifiedFile.__new__(y.VerifiedFile)
    unmade.close()


@pytest.mark.skipif(not hasattr(os, "fork"), reason="there is no fork")
def test_a_forked_process_reads_ahead_by_itself():
    """What its parent reads ahead never comes there."""
    go_on = threading.Event()

    def fetch(start, stop):
        if start > 1 << 18 and os.getpid() == parent:
            go_on.wait(20)
        return GREAT.data[start:stop]

    parent = os.getpid()
    file = y.VerifiedFile(GREAT.tree.file_hash(), fetch, GREAT.prove, read_ahead=2 << 20)
    assert file.read(1 << 16) + file.read(5) == GREAT.data[:(1 << 16) + 5]
    child = os.fork()
    if not child:
        file.seek((1 << 16) + 5)
        os._exit(0 if file.read(MIB) == GREAT.data[(1 << 16) + 5:][:MIB] else 1)
    deadline = time.monotonic() + 20
    status = (0, 0)
    while status[0] == 0 and time.monotonic() < deadline:
        status = os.waitpid(child, os.WNOHANG)
        time.sleep(0.01)
    if status[0] == 0:
        os.kill(child, 9)
        os.waitpid(child, 0)
    go_on.set()
    assert status == (child, 0)


def test_where_no_thread_can_be_started(monkeypatch):
    def start(call, given):
        raise RuntimeError("can't start new thread")

    file = GREAT.open(read_ahead=8 << 20)
    monkeypatch.setattr("_thread.start_new_thread", start)
    assert in_steps(file, 1 << 20) == GREAT.data


def test_where_threads_end_before_they_read(monkeypatch):
    file, really_start = GREAT.open(read_ahead=8 << 20), _thread.start_new_thread
    monkeypatch.setattr("_thread.start_new_thread", lambda run, given: really_start(lambda *_: None, given))
    with at_most(60):
        assert in_steps(file, 1 << 20) == GREAT.data


@contextlib.contextmanager
def at_most(seconds):
    """Ends what takes longer, as where a thread waits for ever."""
    def ended(number, frame):
        raise TimeoutError("it takes too long")

    before = signal.signal(signal.SIGALRM, ended)
    signal.alarm(seconds)
    try:
        yield
    finally:
        signal.alarm(0)
        signal.signal(signal.SIGALRM, before)


@pytest.mark.parametrize("act", ["raises", "reads"])
@pytest.mark.parametrize("cache_size", [0, 2 * (50 + BESIDE)])
def test_a_handler_between_any_two_lines_of_reading_ahead(monkeypatch, act, cache_size):
    monkeypatch.setattr("yurewha._read_ahead._LEAST", 100)
    source = Source(random.Random(42).randbytes(1000), range(0, 1001, 50))
    file = source.open(read_ahead=300, cache_size=cache_size)

    def interrupt():
        if act == "raises":
            raise Ended
        position = file.tell()
        for place in (0, 5, 330):
            file.seek(place)
            assert file.read(5) == source.data[place:place + 5]
        file.seek(position)

    def work():
        with contextlib.suppress(Ended):
            file.seek(0)
            for place in (0, 40, 80, 120):
                assert file.read(40) == source.data[place:place + 40]

    # Before a line that leaves a `with`, a trace raises where no signal handler can, and the lock that the threads need stays taken.
    modules = ("_verified_file.py", "_read_ahead.py") + (() if act == "raises" else ("_checked_parts.py", "_reader.py"))
    with at_most(100):
        assert at_each_line(modules, work, interrupt) > 80
    file.seek(0)
    assert in_steps(file, 40) == source.data


# ---- What a file is called, and what it can't do

def test_names_and_modes():
    source = drawn(31, 20)
    assert (source.open().name, source.open().mode) == (source.tree.file_hash().hex(), "rb")
    assert source.open(name="a.zip").name == "a.zip" == io.BufferedReader(source.open(name="a.zip")).name
    for name in (7, b"a", ["a"]):
        with pytest.raises(TypeError, match="^name must be a str, got "):
            source.open(name=name)
    for read_ahead, error in ((-1, y.InvalidArguments), (2**64, y.InvalidArguments), (1.5, TypeError), ("1", TypeError)):
        with pytest.raises(error):
            source.open(read_ahead=read_ahead)


@pytest.mark.parametrize("call", [
    lambda file: file.write(b"a"), lambda file: file.write(b""), lambda file: file.writelines([b"a"]),
    lambda file: file.writelines([]), lambda file: file.truncate(), lambda file: file.truncate(0)])
def test_a_file_can_not_be_written_to(call):
    file = drawn(31, 20).open()
    with pytest.raises(io.UnsupportedOperation, match="^a VerifiedFile can't be written to$"):
        call(file)
    assert not file.writable() and file.read(3) == drawn(31, 20).data[:3]
    file.close()
    with pytest.raises(ValueError, match="closed"):
        call(file)


# ---- The size of a file

#: How the first answer is wrong. Its first chunks are right.
WRONG_LATER = {"cut off": lambda data: data[:-70], "a byte changed": lambda data: changed(data, len(data) - 70),
               "cut off after one chunk": lambda data: data[:51]}
#: Calls that need the size of a file, and what they give.
LOOKS = {
    "size": lambda source: (lambda file: file.size, len(source.data)),
    "read": lambda source: (lambda file: file.read(), source.data),
    "readall": lambda source: (lambda file: file.readall(), source.data),
    "seek": lambda source: (lambda file: file.seek(-5, os.SEEK_END), len(source.data) - 5),
    "BufferedReader": lambda source: (lambda file: io.BufferedReader(file).read(), source.data),
    "read beyond the end": lambda source: (lambda file: file.read_at(len(source.data), 2**64 - 1), b""),
}


def wrong_once(source, wrong):
    """A call that fetches, and is wrong the first time."""
    answers = [wrong]
    return lambda start, stop: answers.pop()(source.data[start:stop]) if answers else source.data[start:stop]


@pytest.mark.parametrize("look", LOOKS)
@pytest.mark.parametrize("wrong", WRONG_LATER)
def test_the_size_after_an_answer_that_began_right(wrong, look):
    source = Source(random.Random(43).randbytes(1000), [0, 0, *range(50, 1001, 50)])
    file = y.VerifiedFile(source.tree.file_hash(), wrong_once(source, WRONG_LATER[wrong]), source.prove)
    with pytest.raises(y.ProofMismatch):
        file.read(500)
    call, expected = LOOKS[look](source)
    assert call(file) == expected


@pytest.mark.parametrize("wrong", WRONG_LATER)
def test_the_size_of_an_async_file_after_an_answer_that_began_right(wrong):
    source = Source(random.Random(43).randbytes(1000), range(0, 1001, 50))
    file = y.AsyncVerifiedFile(source.tree.file_hash(), wrong_once(source, WRONG_LATER[wrong]), source.prove)
    with pytest.raises(y.ProofMismatch):
        asyncio.run(file.read_at(0, 500))
    assert asyncio.run(file.size()) == 1000 and asyncio.run(file.read_at(0, 2000)) == source.data


def test_no_size_of_an_answer_that_began_wrong():
    """The first chunk is a parent of the file's chunks, which the proof says to be short."""
    source = Source(random.Random(43).randbytes(1000), range(0, 1001, 50))
    parent = y.RangeProof.from_flat([], [(source.tree.root, 9)])
    file = y.VerifiedFile(source.tree.file_hash(), lambda start, stop: source.data[start:stop - 1], lambda start, stop: parent)
    for _ in range(2):
        with pytest.raises(y.ProofMismatch):
            file.read(5)
        assert file._size is None


@READERS
@pytest.mark.parametrize("count", [1, 2, 300])
def test_a_file_of_empty_chunks(reader, count):
    source = Source(b"", [0] * (count + 1))
    assert source.tree.file_hash() != y.Hash()
    file, read_at = reader(source)
    assert read_at(5, 9) == read_at(0, 9) == read_at(0, 0) == b"" and source.fetched == []
    if reader is plainly:
        for fresh in (file, source.open(), source.open(read_ahead=9)):
            assert (fresh.read(5), fresh.read(), fresh.size, fresh.seek(0, os.SEEK_END)) == (b"", b"", 0, 0)
        assert io.BufferedReader(source.open()).read() == b""
    for start, stop in ((0, 0), (5, 4)):
        with pytest.raises(y.InvalidArguments):
            source.tree.proof_of_bytes(start, stop)


def test_a_file_that_a_proof_says_to_be_empty():
    """Any server can give a parent for an empty chunk. It isn't the hash of no data."""
    source = Source(random.Random(43).randbytes(1000), range(0, 1001, 50))
    empty = y.RangeProof.from_flat([], [(source.tree.root, 0)])
    file = y.VerifiedFile(source.tree.file_hash(), source.fetch, lambda start, stop: empty)
    for look in (lambda: file.read(5), lambda: file.size, file.read):
        with pytest.raises(y.ProofMismatch, match="this isn't the data of the range"):
            look()


# ---- Long parts

LONG = Source((GREAT.data * 2)[:20 * MIB], range(0, 20 * MIB + 1, 1 << 17))


@READERS
@pytest.mark.parametrize("mebibytes", [1, 5, 6, 16, 17])
@pytest.mark.parametrize("back", [None, 1])
def test_a_wrong_byte_in_a_long_part(reader, mebibytes, back):
    """It is the first or the last one. The part begins and ends within chunks, so that more is fetched than is asked for."""
    begin, end = 1 << 16, (1 << 16) + mebibytes * MIB
    wrong = changed(LONG.data, begin if back is None else end - back)

    class Lying:
        fetch = staticmethod(lambda start, stop: wrong[start:stop])

    _, read_at = file_of(reader, LONG, [Lying], cache_size=1 << 26)
    with pytest.raises(y.ProofMismatch):
        read_at(begin, end)


@pytest.mark.parametrize("mebibytes", [1, 15, 16, 17])
def test_what_is_read_of_a_bytearray_is_a_copy(mebibytes):
    end = mebibytes * MIB
    data = bytearray(LONG.data[:end])
    read = LONG.tree.proof_of_bytes(0, end).open(LONG.tree.file_hash()).read(0, end, data)
    data[:] = bytes(end)
    assert read == LONG.data[:end]


# ---- What errors say

@READERS
def test_a_mismatch_says_where_the_wrong_chunk_is(reader):
    """Of the chunks that were fetched it is the third, and it begins at byte 450."""
    source = Source(random.Random(44).randbytes(1000), range(0, 1001, 50))
    for wrong in (changed(source.data, 499), changed(changed(source.data, 450), 520), source.data[:499]):
        class Lying:
            fetch = staticmethod(lambda start, stop: wrong[start:stop])

        _, read_at = file_of(reader, source, [Lying])
        with pytest.raises(y.ProofMismatch) as raised:
            read_at(360, 600)
        assert (raised.value.chunk, raised.value.place, raised.value.path) == (2, 450, None)


@READERS
@pytest.mark.parametrize("beyond, fetches", [(MIB, 1), (MIB + 1, 0)])
def test_a_proof_goes_a_mib_too_far_unless_another_limit_is_given(reader, beyond, fetches):
    source = drawn(31, 20)
    source.prove = lambda start, stop: y.RangeProof.from_flat([], [(source.tree.root, stop + beyond)])
    _, read_at = reader(source)
    with pytest.raises(y.ProofMismatch):
        read_at(5, 9)
    assert len(source.fetched) == fetches


@READERS
def test_a_proof_that_is_too_long_is_not_opened(monkeypatch, reader):
    source = Source(random.Random(44).randbytes(1000), range(0, 1001, 50))
    length = len(source.tree.proof_of_bytes(0, 500).to_bytes())
    _, read_at = reader(source, proof_limit=length)
    assert read_at(0, 500) == source.data[:500]
    _, read_at = reader(source, proof_limit=length - 1)
    monkeypatch.setattr(y.RangeProof, "open", None)
    source.fetched.clear()
    with pytest.raises(y.ProofTooLong, match=f"^a proof must have at most {length - 1} bytes, got {length}: see proof_limit$"):
        read_at(0, 500)
    assert source.fetched == []


@READERS
def test_a_proof_of_more_than_16_mib_is_refused_unless_more_is_allowed(reader):
    source = Source(random.Random(44).randbytes(1000), range(0, 1001, 50))
    longer = y.RangeProof.from_flat([], y.Chunks(bytes(40) * (((1 << 24) - 8) // 40 + 1)))
    for limit, error in (({}, y.ProofTooLong), ({"proof_limit": 1 << 25}, y.ProofMismatch)):
        file = (y.VerifiedFile if reader is plainly else y.AsyncVerifiedFile)(
            source.tree.file_hash(), source.fetch, lambda start, stop: longer, **limit)
        with pytest.raises(y.ProofMismatch) as raised:
            file.read_at(0, 5) if reader is plainly else asyncio.run(file.read_at(0, 5))
        assert type(raised.value) is error


@pytest.mark.parametrize("kind", [y.VerifiedFile, y.AsyncVerifiedFile])
def test_a_file_hash_in_each_form(kind):
    source = drawn(31, 20)
    hash_ = source.tree.file_hash()
    for form in (hash_, hash_.hex(), hash_.bytes, hash_.hex().upper()):
        file = kind(form, source.fetch, source.prove)
        assert file.file_hash == hash_
    with pytest.raises(y.InvalidText):
        kind(hash_.hex()[1:], source.fetch, source.prove)


FILE = Source(b"abc", [0, 3])
#: Wrong arguments, what must be so, and what came.
MESSAGES = [
    (lambda: FILE.open().read_at(5, 3), "stop must be at least start, which is 5, got 3"),
    (lambda: y.VerifiedFile(FILE.tree.file_hash(), b"abc", FILE.prove), "fetch must be a callable, got bytes"),
    (lambda: y.AsyncVerifiedFile(FILE.tree.file_hash(), FILE.fetch, None), "prove must be a callable, got NoneType"),
    (lambda: y.VerifiedFile(FILE.tree.file_hash(), FILE.fetch, lambda *_: None).read(), "prove must return a RangeProof, got NoneType"),
    (lambda: FILE.open(name=7), "name must be a str, got int"),
    (lambda: FILE.open().seek(0, 9), "whence must be 0, 1 or 2, got 9"),
    (lambda: FILE.open().readinto(b"abc"), "the buffer must be writable, got a read-only one"),
    (lambda: y.data_hashes(b"abc", [0], threads=0), "threads must be at least 1, got 0"),
    (lambda: y.RangeProof.from_bytes(bytes(9), limit=8), "a proof must have at most 8 bytes, got 9: see limit"),
]


@pytest.mark.parametrize("number", range(len(MESSAGES)))
def test_errors_say_what_must_be_so_and_what_came(number):
    call, told = MESSAGES[number]
    with pytest.raises((ValueError, TypeError)) as raised:
        call()
    assert str(raised.value) == told


def test_a_position_before_the_start():
    with pytest.raises(OSError, match="a position must be at least 0, got -2"):
        FILE.open().seek(-5, os.SEEK_END)
