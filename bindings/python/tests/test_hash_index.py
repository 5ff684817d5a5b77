"""Indexes of hashes and their numbers: beside a dict, their forms, and what is refused."""

import array
import copy
import ctypes
import itertools
import pickle
import random
import signal
import threading
import time

import pytest
from drawn import MAX

import yurewha as y
from yurewha import _hash_index, _saving

Z = y.Hash()


def seeded(k):
    return y.Hash.random_from_seed(k)


def loaded(index, folder):
    index.save(folder / "saved")
    return y.HashIndex.load(folder / "saved")


#: Other indexes that are equal to one.
FORMS = {
    "copy": lambda index, folder: index.copy(), "copy.copy": lambda index, folder: copy.copy(index),
    "copy.deepcopy": lambda index, folder: copy.deepcopy(index), "file": loaded,
    "pickle": lambda index, folder: pickle.loads(pickle.dumps(index)),
    "list": lambda index, folder: y.HashIndex(list(index), index.numbers(list(index))),
}

#: Columns of numbers that calls take, made of a list.
COLUMNS = [list, tuple, iter, lambda numbers: array.array("Q", numbers), lambda numbers: memoryview(array.array("Q", numbers)),
           lambda numbers: array.array("Q", numbers).tobytes()]


def add_drawn(rng, index, known):
    """Adds some hashes with numbers to an index and a dict, one by one or as a list."""
    chosen = [seeded(rng.randrange(80)) for _ in range(rng.randrange(6))]
    numbers = [rng.choice((0, 1, MAX, rng.getrandbits(64))) for _ in chosen]
    before = dict(known)
    for hash_, number in zip(chosen, numbers):
        known.setdefault(hash_, number)
    if rng.random() < 0.5:
        assert index.add_all(rng.choice((chosen, y.Hashes(chosen), iter(chosen))), rng.choice(COLUMNS)(numbers)) == len(known) - len(before)
    else:
        for hash_, number in zip(chosen, numbers):
            assert index.add(rng.choice((hash_, hash_.bytes)), number) == (hash_ not in before)
            before.setdefault(hash_, number)


def test_an_index_is_a_dict_in_which_the_first_number_stays(tmp_path):
    rng, index, known = random.Random(73), y.HashIndex(), {}
    for _ in range(300):
        add_drawn(rng, index, known)
        asked = [seeded(rng.randrange(80)) for _ in range(rng.randrange(6))]
        assert index.contains(asked) == [hash_ in known for hash_ in asked]
        assert index.numbers(rng.choice((asked, y.Hashes(asked), iter(asked)))) == [known.get(hash_) for hash_ in asked]
        assert list(index.new(asked)) == [hash_ for hash_ in dict.fromkeys(asked) if hash_ not in known]
        for hash_ in asked:
            assert (hash_ in index) == (hash_.bytes in index) == (hash_ in known)
            assert index.number(hash_) == index.number(hash_.bytes) == known.get(hash_)
        assert len(index) == len(known) == len(index.hashes())
    assert set(index) == set(index.hashes()) == set(known) and index.numbers(index.hashes()) == [known[hash_] for hash_ in index]
    assert index == y.HashIndex(known, known.values()) and repr(index) == f"<yurewha.HashIndex of {len(known)}>"
    for form in FORMS.values():
        other = form(index, tmp_path)
        assert other == index and other.add(Z, 7) and other != index != other and Z not in index and other.number(Z) == 7


def test_many_hashes():
    """As many as calls release the interpreter's lock for, or are made in another thread."""
    for count in (255, 256, 257, 300_000):
        packed = random.Random(74).randbytes(32 * count)
        numbers = array.array("Q", range(MAX - count, MAX))
        index = y.HashIndex(packed, numbers)
        assert len(index) == count and index.add_all(packed) == 0
        assert all(index.contains(packed)) and index.numbers(packed) == numbers.tolist()
        assert index == y.HashIndex(y.Hashes(packed)[::-1], numbers[::-1]) == index.copy() and not any(index.contains(bytes(32 * count)))
        assert index != y.HashIndex(packed, numbers[::-1]) and index != y.HashIndex(packed[:-32], numbers[:-1])


def test_without_numbers_each_hash_has_0():
    index = y.HashIndex([Z])
    assert index.add(seeded(1)) and index.add_all([seeded(2), seeded(3)]) == 2
    assert index.numbers([Z, seeded(1), seeded(2), seeded(3), seeded(4)]) == [0, 0, 0, 0, None]
    assert index == y.HashIndex([Z, *map(seeded, (1, 2, 3))], [0] * 4) and y.HashIndex() != 7 and not y.HashIndex()


def test_columns_of_numbers():
    numpy = pytest.importorskip("numpy")
    hashes, numbers = [seeded(k) for k in range(5)], [0, 7, 1 << 31, (1 << 63) - 1, 3]
    great = [MAX, *numbers[1:]]
    for column in (*COLUMNS, lambda numbers: numpy.array(numbers, dtype="u8"), lambda numbers: list(numpy.array(numbers, dtype="u8"))):
        assert y.HashIndex(hashes, column(great)).numbers(hashes) == great
        with pytest.raises(y.InvalidArguments, match="^there must be one number for each hash, got 4 hashes and 5 numbers$"):
            y.HashIndex(hashes[:4], column(great))
    for column in (array.array("q", numbers), numpy.array(numbers), numpy.array([numbers, numbers]).T[:, 1]):
        assert y.HashIndex(hashes, column).numbers(hashes) == numbers
    for column in (range(5), array.array("B", range(5)), numpy.arange(5, dtype="i2"), numpy.arange(10, dtype="u8")[::2] // 2):
        assert y.HashIndex(hashes, column).numbers(hashes) == list(range(5))


WRONG = [
    (lambda index: index.add("00"), TypeError), (lambda index: index.add(bytes(31)), y.InvalidArguments),
    (lambda index: index.add(None), TypeError), (lambda index: index.add_all([seeded(1), None]), TypeError),
    (lambda index: index.add_all(bytes(33)), y.InvalidArguments), (lambda index: "00" in index, TypeError),
    (lambda index: bytes(33) in index, y.InvalidArguments), (lambda index: index.contains(7), TypeError),
    (lambda index: hash(index), TypeError), (lambda index: type("Other", (y.HashIndex,), {}), TypeError),
    (lambda index: index.add(seeded(1), -1), y.InvalidArguments), (lambda index: index.add(seeded(1), MAX + 1), y.InvalidArguments),
    (lambda index: index.add(seeded(1), "1"), TypeError), (lambda index: index.add(seeded(1), 1.0), TypeError),
    (lambda index: index.add(seeded(1), None), TypeError), (lambda index: index.number("00"), TypeError),
    (lambda index: index.number(bytes(31)), y.InvalidArguments), (lambda index: index.numbers("00"), TypeError),
    (lambda index: index.numbers(bytes(33)), y.InvalidArguments),
    *((lambda index, column=column: index.add_all([seeded(1), seeded(2)], column), y.InvalidArguments) for column in (
        [1], [1, 2, 3], [], b"", bytes(15), bytes(8), bytes(24), [1, -1], [1, MAX + 1], array.array("q", [1, -1]),
        array.array("d", [1, 2]), array.array("Q", [1]))),
    *((lambda index, column=column: index.add_all([seeded(1), seeded(2)], column), TypeError) for column in (
        7, "12", [1, "2"], [1, None], [1, 2.0])),
]


@pytest.mark.parametrize("number", range(len(WRONG)))
def test_after_an_error_nothing_was_added(number):
    call, error = WRONG[number]
    index = y.HashIndex([Z], [7])
    with pytest.raises(error):
        call(index)
    assert list(index) == [Z] and index.number(Z) == 7


def test_an_index_is_written_as_before_unless_a_number_is_not_0(tmp_path):
    path, plain = tmp_path / "saved", y.HashIndex([seeded(1), seeded(2)], [0, 0])
    plain.save(path)
    _saving.write_whole(tmp_path / "expected", b"hash index", plain.hashes().packed)
    assert path.read_bytes() == (tmp_path / "expected").read_bytes() and plain.__reduce__() == (y.HashIndex, (plain.hashes().packed,))
    for numbers in ([0, 1], [MAX, 0], [1 << 63, 0], [5, 6]):
        index = y.HashIndex([seeded(1), seeded(2)], numbers)
        index.save(path)
        assert len(path.read_bytes()) == len((tmp_path / "expected").read_bytes()) + 1 + 2 * 8
        packed, column = index.__reduce__()[1]
        assert y.HashIndex.load(path) == index == y.HashIndex(packed, column) and len(column) == 16
        for wrong in ((packed, column[:-1]), (packed, column[8:]), (packed[32:], column), (packed[:-1], column), (packed, 2 * column)):
            with pytest.raises(y.InvalidArguments):
                y.HashIndex(*wrong)


@pytest.mark.parametrize("body", [bytes(31), bytes(33), bytes(41), b"\2" + bytes(40), b"\1" + bytes(39), b"\1" + bytes(32)])
def test_a_saved_index_of_another_length(tmp_path, body):
    _saving.write_whole(tmp_path / "saved", b"hash index", body)
    with pytest.raises(y.InvalidText, match=f"^a saved hash index must have 32 bytes for each hash, .*, got {len(body)} bytes$"):
        y.HashIndex.load(tmp_path / "saved")


def test_threads_share_an_index():
    """The hashes that were new to a thread have its number."""
    index, news = y.HashIndex(), {}
    hashes = [seeded(k) for k in range(3000)]

    def work(thread):
        mine = hashes[:]
        random.Random(thread).shuffle(mine)
        news[thread] = sum(index.add(hash_, thread) for hash_ in mine[:1500]) + index.add_all(mine[1500:], [thread] * 1500)

    threads = [threading.Thread(target=work, args=(number,)) for number in range(6)]
    for thread in threads:
        thread.start()
    for thread in threads:
        thread.join()
    assert len(index) == 3000 and [index.numbers(hashes).count(thread) for thread in range(6)] == [news[thread] for thread in range(6)]


def test_equality_while_another_hash_is_added(monkeypatch):
    """The other index gets the same hash after its own were counted, and never has it alone."""
    one, other = y.HashIndex([seeded(1)]), y.HashIndex([seeded(2)])

    def look(self, plain=y.HashIndex.__len__):
        count = plain(self)
        if self is other:
            other.add(seeded(1))
        return count

    monkeypatch.setattr(y.HashIndex, "__len__", look)
    assert one != other


@pytest.mark.parametrize("more", [1, _hash_index._MORE_ROOM, _hash_index._MORE_ROOM + 1, 3000])
def test_entries_while_a_handler_adds(monkeypatch, more):
    """It adds hashes after each of the first looks at their number."""
    index, count, looks = y.HashIndex([Z], [7]), itertools.count(1), []

    def look(self, plain=y.HashIndex.__len__):
        number = plain(self)
        if len(looks) < 4:
            looks.append(number)
            added = [next(count) for _ in range(more)]
            index.add_all(map(seeded, added), added)
        return number

    monkeypatch.setattr(y.HashIndex, "__len__", look)
    other = index.copy()
    monkeypatch.undo()
    assert other == index and len(index) == 1 + 4 * more == len(looks) * more + 1


@pytest.mark.skipif(not hasattr(signal, "setitimer"), reason="there are no timers")
def test_reading_an_index_ends_although_a_handler_keeps_adding():
    index, count = y.HashIndex(random.Random(75).randbytes(32 * 100_000)), itertools.count(1)

    def handler(number, frame):
        index.add(seeded(next(count)), 7)

    before = signal.signal(signal.SIGALRM, handler)
    began = time.monotonic()
    try:
        signal.setitimer(signal.ITIMER_REAL, 0.0005, 0.0005)
        for _ in range(20):
            assert len(index.hashes()) >= 100_000
    finally:
        signal.setitimer(signal.ITIMER_REAL, 0)
        signal.signal(signal.SIGALRM, before)
    assert time.monotonic() - began < 60 and len(index) == 100_000 + next(count) - 1


class MallInfo(ctypes.Structure):
    """What glibc says of its heap: the bytes of blocks in use are `hblkhd` and `uordblks`."""

    _fields_ = [(name, ctypes.c_size_t) for name in (
        "arena", "ordblks", "smblks", "hblks", "hblkhd", "usmblks", "fsmblks", "uordblks", "fordblks", "keepcost")]


@pytest.mark.skipif(not hasattr(ctypes.CDLL(None), "mallinfo2"), reason="only glibc says what its heap has in use")
@pytest.mark.parametrize("count", [65_000, 72_000, 100_000])
def test_an_index_takes_60_to_120_bytes_for_each_hash(count):
    """A hash and its number have 40 bytes, and half of the places of a table that has just grown are free."""
    mallinfo = ctypes.CDLL(None).mallinfo2
    mallinfo.restype = MallInfo

    def in_use():
        now = mallinfo()
        return now.hblkhd + now.uordblks

    packed, before = random.Random(74).randbytes(32 * count), in_use()
    index = y.HashIndex(packed)
    assert len(index) == count and 41 * count < in_use() - before < 120 * count
