"""Drawn cases against the model: hashes and texts, messages, lists, subtrees, bracketings, sessions, forged forms."""

import copy
import json
import pickle
import random

import pytest
import xet_model as m
from drawn import (
    MAX,
    bracketed,
    chunks,
    drawn_cuts,
    drawn_hash,
    drawn_list,
    maker,
    model_hash,
    ours,
    packed,
    pairs,
)

import yurewha as y

CASES = {
    "hashes": 3000,
    "texts": 2000,
    "messages": 400,
    "lists": 3000,
    "slow lists": 100,
    "subtrees": 3500,
    "bracketings": 4000,
    "sessions": 1500,
    "forged JSON": 6000,
    "forged lists": 1500,
}
assert sum(CASES.values()) >= 20_000


def test_hashes():
    rng = random.Random(1)
    last = m.DEFAULT_HASH
    for _ in range(CASES["hashes"]):
        h = drawn_hash(rng)
        it = ours(h)
        assert it.words == h and it.bytes == bytes(it) == m.to_bytes(h)
        assert it.hex() == str(it) == m.to_hex(h) and it.base64() == m.to_base64(h)
        upper = "".join(rng.choice((c, c.upper())) for c in it.hex())
        assert y.Hash.from_hex(upper) == it == y.Hash.from_base64(it.base64())
        divisor = rng.choice((1, 2, 3, 4, 7, MAX, rng.getrandbits(64) | 1))
        assert it % divisor == m.remainder(h, divisor)
        other = ours(last)
        order = m.compare(h, last)
        assert [it < other, it <= other, it == other, it != other, it >= other, it > other] == [
            order < 0, order <= 0, order == 0, order != 0, order >= 0, order > 0]
        assert it == copy.copy(it) == pickle.loads(pickle.dumps(it)) and hash(it) == hash(ours(h))
        if rng.random() < 0.1:
            assert model_hash(it.hmac(other)) == m.hmac(h, last)
            seed = rng.getrandbits(64)
            assert model_hash(y.Hash.random_from_seed(seed)) == m.random_from_seed(seed)
        last = rng.choice((h, drawn_hash(rng)))


def test_forged_texts_of_hashes():
    rng = random.Random(2)
    letters = "0123456789abcdefABCDEFgG-_+/=Az \n\0\u00e9\u0660"
    for _ in range(CASES["texts"]):
        h = drawn_hash(rng)
        for write, read, model in (
            (m.to_hex, y.Hash.from_hex, m.from_hex),
            (m.to_base64, y.Hash.from_base64, m.from_base64),
        ):
            text = list(write(h))
            for _ in range(rng.randrange(3)):
                place = rng.randrange(len(text))
                text[place:place + rng.randrange(3)] = rng.choice(letters)
            text = "".join(text)
            expected = model(text)
            if expected is None:
                with pytest.raises(y.InvalidText):
                    read(text)
            else:
                assert model_hash(read(text)) == expected


def test_messages():
    rng = random.Random(3)
    edges = [0, 1, 63, 64, 65, 127, 128, 129, 1023, 1024, 1025, 2047, 2048, 2049, 3072, 3073, 4096, 4097, 5121]
    for case in range(CASES["messages"]):
        data = rng.randbytes(edges[case] if case < len(edges) else rng.randrange(2500))
        key = rng.randbytes(32)
        whole, kind = [
            (m.compute_data_hash(data), y.Hasher),
            (m.compute_internal_node_hash(data), y.Hasher.internal_node),
            (m.from_bytes(m.blake(key, data)), lambda piece=b"": y.Hasher.keyed(key, piece)),
        ][case % 3]
        if case % 3 == 0:
            assert model_hash(y.data_hash(data)) == model_hash(y.data_hash(bytearray(data))) == whole
        if case % 3 == 1:
            assert model_hash(y.internal_node_hash(data)) == whole
            assert model_hash(y.internal_node_hash(memoryview(data))) == whole
        hasher, at = kind(), 0
        while at < len(data):
            piece = data[at:at + rng.choice((1, 63, 64, 500, 1024, 5000))]
            if rng.random() < 0.2:
                other = hasher.copy()
                other.update(b"lost")
            hasher.update(rng.choice((piece, bytearray(piece), memoryview(piece))))
            at += len(piece)
        assert hasher.count == len(data) and model_hash(hasher.hash()) == whole
        assert hasher.digest() == m.to_bytes(whole) and hasher.hexdigest() == m.to_hex(whole)
        assert kind(data).hash() == hasher.hash()


def check_list(rng, nodes, of_group):
    salt = rng.randbytes(32)
    calls = [
        lambda: y.xorb_hash(chunks(rng, nodes)),
        lambda: y.file_hash(chunks(rng, nodes)),
        lambda: y.file_hash(chunks(rng, nodes), salt),
        lambda: y.Subtree.from_chunks(rng.random() < 0.5, chunks(rng, nodes), rng.random() < 0.5),
    ]
    if not m.fits(nodes):
        for call in calls:
            with pytest.raises(y.SizeOverflow):
                call()
    else:
        root = m.root(nodes, of_group)
        assert model_hash(calls[0]()) == root
        for call, key in ((calls[1], bytes(32)), (calls[2], salt)):
            expected = m.from_bytes(m.blake(key, m.to_bytes(root))) if nodes else m.DEFAULT_HASH
            assert model_hash(call()) == expected
    assert y.find_stable_start(chunks(rng, nodes)) == m.find_stable_start(nodes)
    assert y.find_stable_end(chunks(rng, nodes)) == m.find_stable_end(nodes)


def test_lists():
    rng = random.Random(4)
    for _ in range(CASES["lists"]):
        nodes = drawn_list(rng, rng.choice((rng.randrange(12), rng.randrange(60))), great=rng.random() < 0.1)
        check_list(rng, nodes, maker)
    for _ in range(CASES["slow lists"]):
        check_list(rng, drawn_list(rng, rng.randrange(30)), m.blake_maker)


def same(tree, expected):
    """A subtree in all its forms."""
    assert tree.to_json() == m.to_json_text(expected)
    flat = tree.to_flat()
    assert (flat.at_start, flat.at_end) == (tree.at_start, tree.at_end) == (expected.at_start, expected.at_end)
    assert list(flat.levels) == list(tree.levels) == expected.counts()
    assert tree.num_levels == expected.num_levels() and tree.num_nodes == len(flat.nodes) == expected.num_nodes()
    assert tree.total_size == expected.total_size() and tree.is_empty == expected.is_empty()
    final = tree.final_hash()
    assert (None if final is None else model_hash(final)) == expected.final_hash()


def test_subtrees():
    rng = random.Random(5)
    for case in range(CASES["subtrees"]):
        nodes = drawn_list(rng, rng.choice((rng.randrange(6), rng.randrange(40), rng.randrange(120))))
        at_start, at_end = bool(case & 1), bool(case & 2)
        tree = y.Subtree.from_chunks(at_start, chunks(rng, nodes), at_end)
        expected = m.canon(nodes, at_start, at_end, maker)
        same(tree, expected)
        for level in range(expected.num_levels() + 1):
            assert tree.left(level).packed == packed(expected.left(level))
            assert tree.right(level).packed == packed(expected.right(level))
        others = [
            y.Subtree.from_json(tree.to_json()),
            y.Subtree.from_json(tree.to_json().encode()),
            y.Subtree.from_flat(*tree.to_flat()),
            pickle.loads(pickle.dumps(tree, rng.randrange(pickle.HIGHEST_PROTOCOL + 1))),
            copy.copy(tree), copy.deepcopy(tree), tree.copy(),
        ]
        assert all(other == tree and other is not tree for other in others)
        if nodes:
            place = rng.randrange(len(nodes))
            changed = nodes[:place] + [((1, 2, 3, nodes[place][0][3]), nodes[place][1])] + nodes[place + 1:]
            other = y.Subtree.from_chunks(at_start, pairs(changed), at_end)
            assert (other == tree) == (m.canon(changed, at_start, at_end, maker) == expected)
        assert tree != y.Subtree.from_chunks(not at_start, chunks(rng, nodes), at_end)


def test_bracketings():
    rng = random.Random(6)
    for _ in range(CASES["bracketings"]):
        great = rng.random() < 0.1
        nodes = drawn_list(rng, rng.choice((rng.randrange(6), rng.randrange(40), rng.randrange(120))), great)
        cuts = drawn_cuts(rng, nodes)
        at_start, at_end = rng.random() < 0.5, rng.random() < 0.5
        marks = [[at_start and i == 0, at_end and i == len(cuts) - 1] for i in range(len(cuts))]
        if rng.random() < 0.1:
            marks[rng.randrange(len(cuts))][rng.randrange(2)] = True
        leaves = [m.Leaf(tuple(cut), *mark) for cut, mark in zip(cuts, marks)]
        if not all(m.fits(cut) for cut in cuts):
            continue
        trees = [y.Subtree.from_chunks(leaf.at_start, chunks(rng, leaf.chunks), leaf.at_end) for leaf in leaves]
        before = [tree.to_json() for tree in trees]
        try:
            expected = m.merge_ranges(leaves, maker)
        except m.Refused as refusal:
            error = {m.INVALID_ARGUMENTS: y.InvalidArguments, m.SIZE_OVERFLOW: y.SizeOverflow}[refusal.number]
            with pytest.raises(error):
                y.Subtree.merge_all(trees)
            with pytest.raises((y.InvalidArguments, y.SizeOverflow)):
                bracketed(rng, trees, lambda a, b: a + b)
            assert [tree.to_json() for tree in trees] == before
            continue

        def join(a, b):
            (left, range_left), (right, range_right) = a, b
            way = rng.randrange(4)
            if way == 0:
                merged = left + right
            elif way == 1:
                merged = left.copy()
                merged += right
            elif way == 2:
                merged = y.Subtree.merge_all([left, right])
            else:
                merged = left.copy()
                assert merged.merge_counted(right) == m.joined_count(range_left, range_right, maker)
            return merged, m.join_ranges(range_left, range_right)

        merged, joined = bracketed(rng, zip(trees, leaves), join)
        same(merged, expected)
        assert y.Subtree.merge_all(iter(trees)) == merged
        assert joined.chunks == tuple(nodes) and [tree.to_json() for tree in trees] == before
        if not expected.at_start:
            merged = y.Subtree.from_chunks(True, [], False) + merged
        if not expected.at_end:
            merged += y.Subtree.from_chunks(False, [], True)
        assert model_hash(merged.final_hash()) == m.root(nodes, maker)


FAULTS = {1: y.SessionOverlap, 2: y.SessionPositions, 3: y.SessionSizes, 5: y.SessionGap}


def test_sessions():
    rng = random.Random(7)
    for case in range(CASES["sessions"]):
        session, model = y.Session(), m.Session()
        nodes = drawn_list(rng, rng.randrange(60), great=rng.random() < 0.1)
        puts, at = [], 0
        for cut in drawn_cuts(rng, nodes, 9):
            puts.append((at, cut))
            at += len(cut)
        rng.shuffle(puts)
        if rng.random() < 0.3:
            puts.insert(rng.randrange(len(puts) + 1), (rng.randrange(at + 3), drawn_list(rng, rng.randrange(4))))
        if rng.random() < 0.2:
            puts.insert(rng.randrange(len(puts) + 1), (MAX - rng.randrange(4), drawn_list(rng, rng.randrange(6))))
        for first, cut in puts:
            try:
                expected = model.put(first, cut)
            except m.SessionFault as fault:
                with pytest.raises(FAULTS[fault.number]):
                    session.put(first, chunks(rng, cut))
            else:
                assert session.put(first, chunks(rng, cut)) == expected
            place = rng.choice((rng.randrange(at + 3), MAX - rng.randrange(6)))
            assert session.taken(place) == model.taken(place)
            runs = model.runs()
            assert session.num_runs == len(runs)
            for (place, tree), (expected_place, run) in zip(session.runs(), runs):
                assert place == expected_place
                if case % 3 == 0:
                    same(tree, m.canon(run, False, False, maker))
        for total in {at, rng.randrange(at + 2), len(model.placed)}:
            try:
                placed = model._nodes_by_position(total)
            except m.SessionFault:
                with pytest.raises(y.SessionGap):
                    session.root(total)
                with pytest.raises(y.SessionGap):
                    session.finish(total)
            else:
                root = m.root(placed, maker)
                assert model_hash(session.root(total)) == root
                expected = m.hmac(root, m.DEFAULT_HASH) if placed else m.DEFAULT_HASH
                assert model_hash(session.finish(total)) == expected


def drawn_value(rng):
    return copy.deepcopy(rng.choice((
        None, True, False, 0, 1, 2, 9, -1, 1.5, 1e3, MAX, 2**64, 2**63, -2**63, "", "0" * 64, "F" * 64, "0" * 63, [], {},
        [0], [0, 0], [1, 0], [0, 1, 2], [1, True], [MAX, 1], [[0, 0]], {"hash": "0" * 64, "size": 1})))


def forged(rng, value):
    """A JSON value of a subtree with some changes."""
    for _ in range(rng.choice((0, 1, 1, 1, 2, 2, 3))):
        change = rng.randrange(16)
        nodes, levels = value.get("nodes"), value.get("levels")
        lists = isinstance(nodes, list) and isinstance(levels, list)
        if change == 0:
            value[rng.choice(("nodes", "levels", "at_start", "at_end"))] = drawn_value(rng)
        elif change == 1:
            value.pop(rng.choice(("nodes", "levels", "at_start", "at_end")), None)
        elif change == 2:
            value[rng.choice(("at_start", "at_end"))] = rng.random() < 0.5
        elif change == 3:
            value["other"] = drawn_value(rng)
        elif change in (4, 5) and lists and nodes:
            place = rng.randrange(len(nodes))
            if rng.random() < 0.4 or not isinstance(nodes[place], dict):
                nodes[place] = drawn_value(rng)
            else:
                nodes[place][rng.choice(("hash", "size"))] = drawn_value(rng)
        elif change in (6, 7) and lists and levels:
            place = rng.randrange(len(levels))
            if rng.random() < 0.3 or not isinstance(levels[place], list) or len(levels[place]) != 2:
                levels[place] = drawn_value(rng)
            else:
                levels[place][rng.randrange(2)] = rng.choice((0, 1, 2, 3, 8, MAX, -1, "1"))
        elif change == 8 and lists:
            levels.append(rng.choice(([0, 0], [1, 0], [0, 1], [2, 0])))
        elif change == 9 and lists and nodes:
            nodes.insert(rng.randrange(len(nodes) + 1), {"hash": m.to_hex(drawn_hash(rng)), "size": 1})
            if levels and isinstance(levels[0], list) and levels[0] and type(levels[0][0]) is int:
                levels[0][0] += 1
        elif change >= 13 and lists and nodes:
            node = rng.choice(nodes)
            if isinstance(node, dict):
                if rng.random() < 0.2:
                    node["size"] = MAX
                else:
                    node["hash"] = m.to_hex((1, 0, 0, rng.choice((0, 1))))
        elif change == 12 and lists and rng.random() < 0.3:
            levels.clear()
        elif change == 10 and lists and len(levels) > 1:
            a, b = rng.sample(range(len(levels)), 2)
            levels[a], levels[b] = levels[b], levels[a]
        elif change == 11 and lists and len(nodes) > 1:
            a, b = rng.sample(range(len(nodes)), 2)
            nodes[a], nodes[b] = nodes[b], nodes[a]
    return value


def test_forged_json():
    rng = random.Random(8)
    seen = {}
    for case in range(CASES["forged JSON"]):
        if case % 10 == 0:
            value = drawn_value(rng)
        else:
            nodes = drawn_list(rng, rng.choice((rng.randrange(4), rng.randrange(40))))
            value = forged(rng, m.to_json(m.canon(nodes, rng.random() < 0.5, rng.random() < 0.5, maker)))
        text = json.dumps(value, indent=rng.choice((None, 1)), sort_keys=rng.random() < 0.5)
        if case % 4 == 0:
            letters = list(text)
            for _ in range(rng.randrange(3)):
                place = rng.randrange(len(letters))
                letters[place:place + rng.randrange(2)] = rng.choice('{}[]",:0123456789-. trufalsenull\\')
            text = "".join(letters)
        try:
            expected = m.from_json_text(text)
        except m.NotJson:
            seen["text"] = seen.get("text", 0) + 1
            with pytest.raises(y.InvalidText):
                y.Subtree.from_json(text)
        except m.InvalidJson as error:
            seen[error.rule] = seen.get(error.rule, 0) + 1
            with pytest.raises(y.InvalidJson) as raised:
                y.Subtree.from_json(text.encode())
            assert raised.value.rule == error.rule, text
            assert f"rule {error.rule}:" in str(raised.value)
        else:
            seen["read"] = seen.get("read", 0) + 1
            tree = y.Subtree.from_json(text)
            same(tree, expected)
            assert pickle.loads(pickle.dumps(tree)) == tree
            # A value from no list can be merged as others; the marks and the sizes are promised of it.
            if not expected.at_end:
                tree += y.Subtree.from_chunks(False, [(y.Hash(), 0)], rng.random() < 0.5)
                assert tree.at_start == expected.at_start and tree.total_size == expected.total_size()
                assert y.Subtree.from_json(tree.to_json()) == tree
    assert set(seen) == {"text", "read", *range(1, 14)} and min(seen.values()) >= 5, sorted(seen.items(), key=str)


def test_forged_lists():
    rng = random.Random(9)
    seen = {}
    for _ in range(CASES["forged lists"]):
        nodes = drawn_list(rng, rng.choice((rng.randrange(4), rng.randrange(40))))
        value = m.to_json(m.canon(nodes, rng.random() < 0.5, rng.random() < 0.5, maker))
        levels = value["levels"]
        for _ in range(rng.randrange(3)):
            change = rng.randrange(5)
            if change == 0 and levels:
                levels[rng.randrange(len(levels))][rng.randrange(2)] = rng.choice((0, 1, 2, 8, MAX))
            elif change == 1:
                value[rng.choice(("at_start", "at_end"))] = rng.random() < 0.5
            elif change == 2 and levels:
                levels.pop()
            elif change == 3:
                levels.append([0, 0])
            elif value["nodes"]:
                rng.choice(value["nodes"])["size"] = rng.choice((MAX, 0))
        flat = [(m.from_hex(node["hash"]), node["size"]) for node in value["nodes"]]
        given = value["at_start"], levels, chunks(rng, flat), value["at_end"]
        try:
            expected = m.from_json(value)
        except m.InvalidJson as error:
            seen[error.rule] = seen.get(error.rule, 0) + 1
            with pytest.raises(y.InvalidLists) as raised:
                y.Subtree.from_flat(*given)
            assert raised.value.rule == error.rule
        else:
            same(y.Subtree.from_flat(*given), expected)
    assert set(seen) >= {5, 6, 7, 8, 9, 10, 11}, seen
