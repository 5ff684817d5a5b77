"""Sessions: what they say of their runs, gaps and sizes, salts, JSON, and what each refuses."""

import copy
import json
import pickle
import random
import struct

import pytest
import xet_model as m
from drawn import MAX, drawn_list, ours, pairs

import yurewha as y
from yurewha import _declarations, _library

Z = y.Hash()
ONE = (Z, 1)


def seeded(k):
    return y.Hash.random_from_seed(k), 100 * k


def session(*positions):
    made = y.Session()
    for position in positions:
        made.put(position, [ONE])
    return made


def test_a_run_is_a_pair_and_has_its_end():
    one = session(3, 4, 9)
    low, high = one.runs()
    assert (low.first, low.end, high.first, high.end) == (3, 5, 9, 10) == (*one.run_from(0)[:2], *one.run_from(5)[:2])
    first, subtree = low
    assert (first, subtree) == low == (low.first, low.subtree) == (low[0], low[1]) == one.run(0) and len(low) == 2
    assert subtree == y.Subtree.from_chunks(False, [ONE, ONE], False) and dict(one) == {3: subtree, 9: high.subtree}
    assert list(one) == one.runs() and one.run(1).end == 10 and isinstance(low, tuple)
    assert repr(low) == f"Run(first=3, end=5, subtree={subtree!r})"
    for other in (pickle.loads(pickle.dumps(low)), copy.copy(low), copy.deepcopy(low)):
        assert other == low and other.end == 5 and type(other) is y.Run
    with pytest.raises(AttributeError):
        low.end = 7


def test_runs_are_equal_if_all_that_they_say_is():
    tree, other = (y.Subtree.from_chunks(False, [(Z, size)] * 2, False) for size in (1, 2))
    run = y.Run(3, 5, tree)
    for equal in (y.Run(3, 5, tree.copy()), (3, tree), pickle.loads(pickle.dumps(run))):
        assert run == equal and equal == run and not run != equal and not equal != run
    for unequal in (y.Run(3, 6, tree), y.Run(4, 5, tree), y.Run(3, 5, other), (3, 5, tree), (4, tree), [3, tree], 3, None):
        assert run != unequal and unequal != run and not run == unequal and not unequal == run
    one, two = y.Session(), y.Session()
    one.push_run(0, 2, tree), two.push_run(0, 3, tree)
    assert one != two and one.runs() != two.runs() and one.run(0) != two.run(0) and one.runs() == one.copy().runs()
    with pytest.raises(TypeError, match="unhashable"):
        hash(run)


def test_wrong_runs():
    tree = y.Subtree.from_chunks(False, [ONE], False)
    for first, end in ((3, 3), (3, 2), (-1, 2), (0, MAX + 1), (MAX + 1, MAX + 2)):
        with pytest.raises(y.InvalidArguments):
            y.Run(first, end, tree)
    for given in ((3.0, 4, tree), (3, "4", tree), (None, 4, tree), (3, 4, None), (3, 4, [ONE]), (3, 4), (), (3, 4, tree, 5)):
        with pytest.raises(TypeError):
            y.Run(*given)
    with pytest.raises(TypeError):
        type("Other", (y.Run,), {})
    assert y.Run(0, MAX, tree).end == MAX


def test_drawn_sessions_say_what_they_hold():
    rng = random.Random(41)
    for _ in range(200):
        total, taken, size, one = rng.randrange(60), set(), 0, y.Session()
        for _ in range(rng.randrange(10)):
            first, chunks = rng.randrange(60), [(Z, rng.randrange(1000)) for _ in range(rng.randrange(6))]
            places = range(first, first + len(chunks))
            if not taken & set(places):
                one.put(first, chunks)
                taken |= set(places)
                size += sum(size for _, size in chunks)
        assert (one.num_chunks, one.total_size) == (len(taken), size)
        assert [place for gap in one.gaps(total) for place in gap] == [place for place in range(total) if place not in taken]
        gaps = one.gaps(total)
        assert all(gaps) and all(low.stop < high.start for low, high in zip(gaps, gaps[1:]))
        assert [place for run in one.runs() for place in range(run.first, run.end)] == sorted(taken)


def test_gaps_at_the_ends_of_what_is_possible():
    one = session(0, MAX - 1)
    assert one.gaps(MAX) == [range(1, MAX - 1)] and one.gaps(MAX - 1) == [range(1, MAX - 1)] and one.gaps(1) == one.gaps(0) == []
    assert y.Session().gaps(MAX) == [range(MAX)] and one.num_chunks == 2
    great = y.Session()
    great.put(5, [(Z, MAX)])
    assert great.total_size == MAX and y.Session().total_size == y.Session().num_chunks == 0


def test_salted_file_hashes_are_those_of_the_model():
    rng = random.Random(42)
    for _ in range(100):
        nodes, salt = drawn_list(rng, rng.choice((0, 0, 1, 2, 5, 40))), rng.randbytes(32)
        expected = ours(m.file_hash_with_salt(nodes, salt))
        one, cut = y.Session(), rng.randint(0, len(nodes))
        one.put(cut, pairs(nodes[cut:])), one.put(0, pairs(nodes[:cut]))
        closed = y.Subtree.from_chunks(True, pairs(nodes[:cut]), False) + y.Subtree.from_chunks(False, pairs(nodes[cut:]), True)
        for given in (salt, bytearray(salt), memoryview(salt)):
            assert one.finish(len(nodes), given) == one.finish(len(nodes), salt=given) == closed.file_hash(given) == expected
        assert one.finish(len(nodes)) == one.finish(len(nodes), bytes(32)) == ours(m.file_hash(nodes))
        assert closed.file_hash() == closed.file_hash(salt=None) == closed.file_hash(bytes(32)) == ours(m.file_hash(nodes))


def test_the_file_hash_of_no_chunks_is_the_default_hash():
    """It isn't the hmac of their root, which is the file hash of one chunk of no bytes with the default hash."""
    empty, one = y.Subtree.from_chunks(True, [], True), y.Subtree.from_chunks(True, [(Z, 0)], True)
    salt = bytes(range(32))
    assert empty.file_hash() == empty.file_hash(salt) == y.file_hash([], salt) == Z == y.Session().finish(0, salt)
    assert one.file_hash() == y.file_hash([(Z, 0)]) != Z and one.file_hash(salt) == y.file_hash([(Z, 0)], salt) != Z
    wrong = y.Session()
    wrong.push_run(0, 1, y.Subtree.from_chunks(False, [], False))  # a position without a chunk counts as one
    assert wrong.finish(1) == wrong.finish(1, bytes(32)) == Z.hmac(Z) and wrong.finish(1, salt) == Z.hmac(y.Hash(salt))
    for marks in ((False, True), (True, False), (False, False)):
        assert y.Subtree.from_chunks(marks[0], [ONE], marks[1]).file_hash(salt) is None


def test_a_subtree_that_is_not_whole_has_no_file_hash():
    rng = random.Random(47)
    for marks, said in (((False, False), "open at both ends"), ((True, False), "at the start"), ((False, True), "at the end")):
        for chunks in ([], [ONE]):
            part = y.Subtree.from_chunks(marks[0], chunks, marks[1])
            for call in (part.finish, lambda: part.finish(bytes(32)), lambda: part.finish(salt=bytes(32))):
                with pytest.raises(y.InvalidArguments) as raised:
                    call()
                assert str(raised.value) == f"a subtree must be marked at both ends to have a file hash, got one {said}"
            assert part.file_hash() is None
    for _ in range(30):
        nodes, salt = drawn_list(rng, rng.choice((0, 1, 2, 5, 40))), rng.randbytes(32)
        whole = y.Subtree.from_chunks(True, pairs(nodes), True)
        assert whole.finish() == ours(m.file_hash(nodes)) and whole.finish(salt) == ours(m.file_hash_with_salt(nodes, salt))


@pytest.mark.parametrize("salt, error", [
    (bytes(31), y.InvalidArguments), (bytes(33), y.InvalidArguments), (b"", y.InvalidArguments),
    (bytearray(64), y.InvalidArguments), (32 * "0", TypeError), (7, TypeError), ([], TypeError), (Z, TypeError)])
def test_wrong_salts(salt, error):
    one, closed = session(0), y.Subtree.from_chunks(True, [ONE], True)
    for call in (
        lambda: one.finish(1, salt), lambda: one.finish(2, salt=salt), lambda: y.Session().finish(0, salt),
        lambda: closed.file_hash(salt), lambda: closed.finish(salt), lambda: y.Subtree.from_chunks(False, [ONE], True).file_hash(salt),
        lambda: y.file_hash([ONE], salt),
    ):
        with pytest.raises(error):
            call()
    assert one.runs() == session(0).runs() and closed.file_hash() == y.file_hash([ONE])


@pytest.mark.parametrize("total, error", [
    (-1, y.InvalidArguments), (MAX + 1, y.InvalidArguments), (1.0, TypeError), ("1", TypeError), (None, TypeError)])
def test_wrong_totals(total, error):
    one = session(0)
    for call in (one.gaps, one.finish, one.root, lambda total: one.finish(total, bytes(32))):
        with pytest.raises(error):
            call(total)


def test_a_salted_finish_with_a_gap():
    with pytest.raises(y.SessionGap):
        session(1).finish(1, bytes(32))


def test_freed_sessions_and_subtrees():
    tree, one = y.Subtree.from_chunks(True, [ONE], True), session(0)
    tree.__del__(), one.__del__()
    for call in (lambda: one.num_chunks, lambda: one.total_size, lambda: one.gaps(3), one.to_json, tree.file_hash,
                 lambda: one.finish(1, bytes(32))):
        with pytest.raises(y.EmptyHandle):
            call()


@pytest.mark.parametrize("first, count, taken", [
    (0, 1_000_000, 999_999), (999_999, 1, 999_999), (1_000_001, 9, 1_000_001), (0, 3, 2)])
def test_an_overlap_is_found_by_few_calls(monkeypatch, first, count, taken):
    one, made = session(2, 999_999), []
    one.put(1_000_000, [ONE] * 5)
    if taken == 999_999:
        one = session(999_999)
    for calls in (_library.short, _library.long):
        for name in _declarations.DECLARATIONS:
            monkeypatch.setattr(calls, name, lambda *given, call=getattr(calls, name): made.append(call) or call(*given))
    with pytest.raises(y.SessionOverlap, match=f"^position {taken} is taken$"):
        one.put(first, bytes(40 * count))
    assert len(made) <= 4


def test_a_position_of_two_sessions_is_found_by_few_calls(monkeypatch):
    one, other, made = session(*range(0, 400, 2), 999_998), session(*range(1001, 1401, 2), 999_998), []
    for calls in (_library.short, _library.long):
        for name in _declarations.DECLARATIONS:
            monkeypatch.setattr(calls, name, lambda *given, call=getattr(calls, name): made.append(call) or call(*given))
    with pytest.raises(y.SessionOverlap, match="^position 999998 is taken in both sessions$"):
        one.join(other)
    assert len(made) <= 20


# ---- Parts of a file, as ranges and as sessions

def drawn_parts(rng, count):
    """The positions below a number as adjacent ranges, none of them empty, in drawn order."""
    cuts = sorted({0, count, *(rng.randint(0, count) for _ in range(rng.randrange(8)))})
    parts = [range(start, stop) for start, stop in zip(cuts, cuts[1:])]
    rng.shuffle(parts)
    return parts


class Index:
    """A whole number of another type, as NumPy has some."""

    def __init__(self, number):
        self.number = number

    def __index__(self):
        return self.number


def put_somehow(rng, one, nodes, part):
    """Puts a part of a list, as chunks or as a range."""
    chunks, form = pairs(nodes[part.start:part.stop]), rng.choice((int, Index))
    if rng.random() < 0.3:
        one.put(part.start, chunks)
    else:
        one.put_range(form(part.start), form(len(part)), y.Subtree.from_chunks(False, chunks, False))


def joined_in_a_tree(rng, sessions):
    """Any two sessions are joined, until one is left."""
    while len(sessions) > 1:
        one = sessions.pop(rng.randrange(len(sessions)))
        other = sessions.pop(rng.randrange(len(sessions)))
        known, before = set(one.known_hashes()), other.to_json()
        new = one.join(other)
        assert new == len(set(other.known_hashes()) - known) and other.to_json() == before
        assert set(one.known_hashes()) == (known | set(other.known_hashes()) if one.keeps_hashes else set())
        sessions.append(one)
    return sessions[0]


def is_refused(one, call, first):
    """Whether a call finds the first of its positions taken, and changes nothing."""
    before = one.copy()
    with pytest.raises(y.SessionOverlap, match=f"^position {first} is taken"):
        call()
    return one == before and one.to_json() == before.to_json()


def test_drawn_parts_in_any_order_give_the_file_hash_of_the_whole():
    """Some as ranges, the others as sessions that are joined in a drawn tree. A part that comes again is refused."""
    rng = random.Random(48)
    for _ in range(100):
        nodes, salt = drawn_list(rng, rng.choice((1, 2, 5, 40, 40, 150))), rng.randbytes(32)
        parts, whole = drawn_parts(rng, len(nodes)), y.Session(keep_hashes=rng.random() < 0.7)
        sessions = [whole] + [y.Session(keep_hashes=rng.random() < 0.7) for _ in range(rng.randrange(5))]
        for part in parts:
            put_somehow(rng, rng.choice(sessions), nodes, part)
        one = joined_in_a_tree(rng, sessions)
        assert one.finish(len(nodes)) == ours(m.file_hash(nodes)) and one.gaps(len(nodes)) == []
        assert one.finish(len(nodes), salt) == ours(m.file_hash_with_salt(nodes, salt))
        assert one.num_runs == 1 and one.num_chunks == len(nodes) and one.total_size == sum(size for _, size in nodes)
        assert one.run(0).subtree == y.Subtree.from_chunks(False, pairs(nodes), False)
        again, other = rng.choice(parts), y.Session()
        subtree = y.Subtree.from_chunks(False, pairs(nodes[again.start:again.stop]), False)
        other.put_range(again.start, len(again), subtree)
        other.keep_hashes([y.Hash(rng.randbytes(32))])
        assert is_refused(one, lambda: one.put_range(again.start, len(again), subtree), again.start)
        assert is_refused(one, lambda: one.join(other), again.start)
        assert is_refused(other, lambda: other.join(one), again.start)
        assert is_refused(one, lambda: one.join(one), 0)


def test_what_is_left_of_drawn_parts_is_put_where_it_belongs():
    """Ranges between others become one run with them, and those apart stay so."""
    rng = random.Random(49)
    for _ in range(100):
        nodes = drawn_list(rng, 60)
        parts = drawn_parts(rng, 60)
        del parts[rng.randrange(len(parts) + 1):]
        one, other, plain = y.Session(), y.Session(), y.Session()
        for part in parts:
            put_somehow(rng, rng.choice((one, other)), nodes, part)
            plain.put(part.start, pairs(nodes[part.start:part.stop]))
        one.join(other)
        assert one.runs() == plain.runs() and one.gaps(60) == plain.gaps(60) and one.total_size == plain.total_size


def test_a_range_teaches_no_hashes():
    one, chunks = y.Session(), [seeded(1), seeded(2)]
    assert one.put_range(3, 2, y.Subtree.from_chunks(False, chunks, False)) is None
    assert list(one.known_hashes()) == [] and one.put(5, chunks) == 2 and one.run(0).end == 7
    one.put_range(subtree=y.Subtree.from_chunks(False, chunks, False), count=2, first=0)
    assert one.gaps(8) == [range(2, 3), range(7, 8)]
    tree = y.Subtree.from_chunks(False, chunks, False)
    one.put_range(10, 5, tree)  # whether it has so many chunks can't be checked
    assert one.run(2).end == 15 and one.run(2).subtree == tree and one.num_chunks == 11


def test_ranges_at_the_ends_of_what_is_possible():
    one, other, tree = y.Session(), y.Session(), y.Subtree.from_chunks(False, [ONE], False)
    one.put_range(0, 1, tree), one.put_range(MAX - 1, 1, tree), other.put_range(1, MAX - 2, tree)
    assert one.join(other) == 0 and one.gaps(MAX) == [] and one.num_chunks == MAX and one.total_size == 3 and one.num_runs == 1
    with pytest.raises(y.SessionOverlap, match="^position 0 is taken$"):
        one.put_range(0, MAX, tree)
    with pytest.raises(y.SessionOverlap, match=f"^position {MAX - 1} is taken in both sessions$"):
        session(MAX - 1).join(one)


def test_what_a_session_learns_of_another():
    """The count is that of the hashes which the other knows and this one doesn't. One that keeps none takes each for new."""
    def known(*numbers, **options):
        made = y.Session(**options)
        made.put(100 * len(numbers), [seeded(number) for number in numbers])
        return made

    one = known(1, 2)
    one.keep_hashes([y.Hash.random_from_seed(5)])
    assert one.join(known(2, 3, 5, 9)) == 2 and len(one.known_hashes()) == 5
    assert one.join(known(7, 8, 9, 7, 7, keep_hashes=False)) == 0 and len(one.known_hashes()) == 5
    none = known(1, keep_hashes=False)
    assert none.join(one) == 5 and none.num_runs == 4 and len(none.known_hashes()) == 0 and not none.keeps_hashes
    assert y.Session().join(none) == 0 and one.join(y.Session()) == 0 and len(one.known_hashes()) == 5


def test_a_session_without_chunks_joined_with_itself():
    one = y.Session()
    assert one.join(one) == 0 and one == y.Session()
    one.keep_hashes([Z])
    assert one.join(one) == 0 and list(one.known_hashes()) == [Z] and one.num_runs == 0


# ---- JSON

def two_runs():
    made = y.Session()
    made.put(7, [seeded(3)]), made.put(2, [seeded(1), seeded(2)])
    return made


def test_the_form_is_that_of_the_rust_crate():
    """A text as `bindings/rust/tests/api/session_forms.rs` writes it, with the members in the order that serde has."""
    hash_ = y.Hash.random_from_seed(2)
    subtree = f'{{"nodes":[{{"hash":"{hash_}","size":200}}],"levels":[[1,0]],"at_start":false,"at_end":false}}'
    words = ",".join(map(str, hash_.words))
    text = f'{{"runs":[{{"first":7,"end":8,"chunks":{subtree}}}],"known_hashes":[[0,0,0,0],[{words}]]}}'
    made = y.Session()
    made.put(7, [seeded(2)]), made.keep_hashes([Z])
    assert json.loads(made.to_json()) == json.loads(text)
    for given in (text, text.encode(), bytearray(text.encode()), memoryview(text.encode()), f" {text} "):
        read = y.Session.from_json(given)
        assert read.runs() == made.runs() and set(read.known_hashes()) == {Z, hash_} and read.to_json() == made.to_json()
    assert y.Session().to_json() == '{"runs":[],"known_hashes":[]}'


@pytest.mark.parametrize("count", [0, 1, 2, 255, 4096, 40_000])
def test_hashes_are_written_by_rising_order(count):
    """Many hashes are sorted in parts. Some have the same first words."""
    drawn = random.Random(count)
    words = [(drawn.choice((1, 1 << 63, drawn.getrandbits(64))), *(drawn.getrandbits(64) for _ in range(3))) for _ in range(count)]
    session = y.Session()
    session.keep_hashes(b"".join(struct.pack("<4Q", *each) for each in words))
    assert [tuple(each) for each in json.loads(session.to_json())["known_hashes"]] == sorted(words)


def test_drawn_sessions_are_read_back():
    rng = random.Random(43)
    for _ in range(100):
        made = y.Session()
        for _ in range(rng.randrange(8)):
            try:
                first = rng.choice((rng.randrange(100), MAX - rng.randrange(50)))
                made.put(first, [seeded(rng.randrange(30)) for _ in range(rng.randrange(20))])
            except (y.SessionOverlap, y.SessionPositions):
                pass
        made.keep_hashes([y.Hash(rng.randbytes(32))])
        text = made.to_json()
        read = y.Session.from_json(text)
        assert read.runs() == made.runs() and [run.end for run in read.runs()] == [run.end for run in made.runs()]
        assert set(read.known_hashes()) == set(made.known_hashes()) and read.to_json() == text
        known = [y.Hash(b"".join(word.to_bytes(8, "little") for word in words)) for words in json.loads(text)["known_hashes"]]
        assert known == sorted(made.known_hashes())


#: What is said of a broken rule.
SAID = [None, *(f"^invalid JSON of a session: rule {rule}: " for rule in range(1, 8))]


def forged(*path, value):
    """The JSON of two runs, with another value at a path; without a path, another value."""
    tree = json.loads(two_runs().to_json())
    if not path:
        return json.dumps(value)
    at = tree
    for name in path[:-1]:
        at = at[name]
    at[path[-1]] = value
    return json.dumps(tree)


great = json.loads(y.Subtree.from_chunks(False, [(Z, MAX)], False).to_json())
FORGED = [
    (y.InvalidArguments, SAID[6], forged("runs", 0, "first", value=4)),
    (y.InvalidArguments, SAID[6], forged("runs", 0, "first", value=9)),
    (y.InvalidArguments, SAID[6], forged("runs", 0, "end", value=7)),
    (y.InvalidArguments, SAID[6], forged("runs", 0, "end", value=MAX)),
    (y.InvalidArguments, SAID[6], forged("runs", 1, "first", value=3)),
    (y.InvalidArguments, SAID[6], forged("runs", 1, "end", value=7)),
    (y.InvalidArguments, SAID[6], forged("runs", 1, "chunks", "at_start", value=True)),
    (y.InvalidArguments, SAID[6], forged("runs", 1, "chunks", "at_end", value=True)),
    (y.SizeOverflow, SAID[7], forged("runs", 1, "chunks", value=great)),
    (y.InvalidJson, "rule 6", forged("runs", 1, "chunks", "levels", 0, 0, value=2)),
    (y.InvalidJson, "rule 3", forged("runs", 1, "chunks", "nodes", 0, "size", value=-1)),
    (y.InvalidJson, "rule 3", forged("runs", 1, "chunks", "nodes", 0, "size", value=1.0)),
    (y.InvalidJson, "rule 3", forged("runs", 1, "chunks", "nodes", 0, "size", value=MAX + 1)),
    (y.InvalidJson, "rule 3", forged("runs", 1, "chunks", "nodes", 0, "hash", value="\u00e9")),
    (y.InvalidJson, "rule 4", forged("runs", 1, "chunks", "levels", 0, 0, value=True)),
    (y.InvalidJson, "rule 1", forged("runs", 1, "chunks", value=None)),
    *((y.InvalidText, SAID[3], forged("runs", 1, "first", value=value))
      for value in (-1, MAX + 1, 7.0, True, None, "7", [7], 10**30)),
    *((y.InvalidText, SAID[3], forged("runs", 1, value=value)) for value in ({}, [7, 8], {"first": 7}, {"first": 7, "end": 8}, None)),
    (y.InvalidText, SAID[3], forged("runs", 0, "end", value=-4)),
    (y.InvalidText, SAID[2], forged("runs", value=None)),
    (y.InvalidText, SAID[2], forged("known_hashes", value=7)),
    *((y.InvalidText, SAID[4], forged("known_hashes", 1, value=value))
      for value in ([1, 2, 3], [1, 2, 3, 4, 5], [1, 2, 3, -4], [1, 2, 3, 4.0], [1, 2, 3, True], [1, 2, 3, MAX + 1], 64 * "0",
                    None)),
    *((y.InvalidText, SAID[1], forged(value=value)) for value in (None, [], 7, "runs")),
    *((y.InvalidText, SAID[2], forged(value=value)) for value in ({"known_hashes": []}, {"runs": []}, {})),
    (y.InvalidText, SAID[2], y.Subtree.merge_all([]).to_json()),
    *((y.InvalidText, "^the text isn't JSON, or an object has a member twice$", text) for text in (
        '{"runs":[],"runs":[],"known_hashes":[]}', '{"runs":[],"known_hashes":[],"other":{"b":0,"a":1,"a":1}}',
        two_runs().to_json().replace('"end":8', '"end":8,"end":8'),
        two_runs().to_json().replace('"at_end":', '"at_end":true,"at_end":'), two_runs().to_json().replace('"size":', '"size":7,"size":'),
        "", "{", "nan", '{"runs":[],"known_hashes":[[NaN,0,0,0]]}', '{"runs":[],"known_hashes":[]}x', b"\xff",
        '{"runs":[],"known_hashes":[]}'.encode("utf-16"), "[" * 100_000, '{"a":' * 100_000, "[" * 33 + "]" * 33, "1" * 5000,
        forged("runs", 1, "chunks", "nodes", 0, "hash", value="\ud800"))),
    (y.InvalidText, "lone surrogate", '{"runs":[],"known_hashes":[],"\ud800":1}'),
    *((TypeError, "", value) for value in (7, None, {}, [], y.Session())),
]


@pytest.mark.parametrize("number", range(len(FORGED)))
def test_forged_texts_of_sessions(number):
    error, text, given = FORGED[number]
    with pytest.raises(error, match=text):
        y.Session.from_json(given)


def test_other_members_are_ignored():
    text = forged("other", value=[1.5, -3, 1e300, 10**30, {"a": None}, "\ud83d\ude00"])
    assert y.Session.from_json(text).to_json() == two_runs().to_json()


def test_mutated_texts_of_sessions():
    """Each is read, or raises an error of this package. What is read can be written and read again."""
    rng, text = random.Random(44), two_runs().to_json()
    letters = '0123456789abcdef[]{},:"-.e \u00e9'
    read = 0
    for _ in range(4000):
        mutated = list(text)
        for _ in range(rng.randint(1, 3)):
            place = rng.randrange(len(mutated))
            mutated[place:place + rng.randrange(3)] = rng.choice(letters)
        try:
            one = y.Session.from_json("".join(mutated))
        except y.YurewhaError:
            continue
        read += 1
        assert y.Session.from_json(one.to_json()).to_json() == one.to_json()
    assert read > 100
