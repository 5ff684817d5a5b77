"""Each public call, from one table: with its object as its own argument, on objects of 0, 1 and 2 items, unpickled, freed or closed, two
at once; and that nothing of it lives afterwards. A public name that isn't in the table fails a test.

No value is expected here. What a call comes to is compared with what it comes to in another way.
"""

import asyncio
import copy
import gc
import inspect
import io
import itertools
import os
import pickle
import sys
import threading

import pytest
from counting import counts

import yurewha as y
from yurewha import _library

Z = y.Hash()
MAX = 2**64 - 1
DATA = [bytes([number]) * (7 + number) for number in range(6)]
WHOLE = b"".join(DATA)
CHUNKS = [(y.data_hash(data), len(data)) for data in DATA]
HASHES = [hash_ for hash_, _ in CHUNKS]
TREE = y.HashTree(CHUNKS)


def session(count):
    """A session with runs of one chunk each."""
    made = y.Session()
    for place in range(count):
        made.put(2 * place, CHUNKS[place:place + 1])
    return made


def file(kind, count):
    tree, whole = y.HashTree(CHUNKS[:count]), b"".join(DATA[:count])
    return kind(tree.file_hash(), lambda start, stop: whole[start:stop], tree.proof_of_bytes)


def chunker(count):
    """A chunker that has taken so many bytes."""
    made = y.Chunker()
    made.next_boundary(bytes(count))
    return made


#: An object of each kind with so many items, or with at least one where there is none with less.
KINDS = {
    "Hash": lambda count: y.Hash(bytes([count]) * 32),
    "Hasher": lambda count: y.Hasher(bytes(count)),
    "Chunker": chunker,
    "FileHasher": lambda count: y.FileHasher(9000 * bytes([0, 148, 143])[:count]),
    "Hashes": lambda count: y.Hashes(HASHES[:count]),
    "Chunks": lambda count: y.Chunks(CHUNKS[:count]),
    "Subtree": lambda count: y.Subtree.from_chunks(False, CHUNKS[:count], False),
    "Session": session,
    "HashIndex": lambda count: y.HashIndex(HASHES[:count], range(count)),
    "HashTree": lambda count: y.HashTree(CHUNKS[:count]),
    "RangeProof": lambda count: TREE.proof(0, count or 5),
    "OpenedRange": lambda count: TREE.proof(0, count or 5).open_root(TREE.root),
    "Run": lambda count: y.Run(0, count or 5, y.Subtree.from_chunks(False, CHUNKS[:count], False)),
    "Flat": lambda count: y.Subtree.from_chunks(True, CHUNKS[:count], False).to_flat(),
    "Difference": lambda count: TREE.diff(y.HashTree(CHUNKS[:count])),
    "VerifiedFile": lambda count: file(y.VerifiedFile, count),
    "AsyncVerifiedFile": lambda count: file(y.AsyncVerifiedFile, count),
}
HANDLES = ("Subtree", "Session", "HashIndex", "HashTree", "OpenedRange", "FileHasher")
#: Those that can't be pickled or copied, and say so.
NOT_PICKLED = ("Hasher", "Chunker", "FileHasher", "OpenedRange", "VerifiedFile", "AsyncVerifiedFile")
NOT_COPIED = ("FileHasher", "VerifiedFile", "AsyncVerifiedFile")


def through_a_file(write, read):
    """What is read of a file in memory, as far as the system has such files."""
    name = f"/dev/shm/yurewha-{os.getpid()}-{threading.get_ident()}"
    try:
        write(name)
        return read(name)
    finally:
        if os.path.exists(name):
            os.unlink(name)


def saved(one):
    return through_a_file(one.save, type(one).load)


def moved(one, by):
    """A session that knows the same hashes, and has the same runs so many positions later."""
    made = y.Session()
    for run in one.runs():
        made.push_run(run.first + by, run.end + by, run.subtree)
    made.keep_hashes(one.known_hashes())
    return made


def filled(file, count):
    room = bytearray(count)
    return file.readinto(room), room


#: What each call comes to on an object `a`, with `b` as its argument where it can take one of its kind, or something made of one.
CALLS = {
    # Functions
    "chunks_of": {"Chunks": lambda a, b: list(y.chunks_of(io.BytesIO(b.packed)))},
    "data_hash": {"Chunks": lambda a, b: y.data_hash(b.packed)},
    "data_hashes": {"Chunks": lambda a, b: y.data_hashes(b.packed, range(0, len(b.packed) + 1, 40))},
    "file_hash": {"Chunks": lambda a, b: y.file_hash(b)},
    "file_hashes": {"Chunks": lambda a, b: y.file_hashes(b, [0, len(b)])},
    "find_stable_end": {"Chunks": lambda a, b: y.find_stable_end(b)},
    "find_stable_start": {"Chunks": lambda a, b: y.find_stable_start(b)},
    "hash_chunks": {"Chunks": lambda a, b: y.hash_chunks(__file__, [0, *range(1, len(b) + 1)])},
    "hash_cuts": {"Chunks": lambda a, b: list(y.hash_cuts(io.BytesIO(b.packed), range(1, len(b) + 1)))},
    "hash_file": {"Chunks": lambda a, b: y.hash_file(io.BytesIO(b.packed), threads=2)},
    "internal_node_hash": {"Chunks": lambda a, b: y.internal_node_hash(b.packed)},
    "svg_of": {"Subtree": lambda a, b: y.svg_of([b], ["a"])},
    "write_svg": {"Subtree": lambda a, b: y.write_svg(os.devnull, [b])},
    "xorb_hash": {"Chunks": lambda a, b: y.xorb_hash(b)},
    "xorb_hashes": {"Chunks": lambda a, b: y.xorb_hashes(b, [0, len(b)])},
    # Members, by their kind
    "Hash": {
        "": lambda a, b: y.Hash(bytes(b)), "__bytes__": lambda a, b: bytes(a), "__eq__": lambda a, b: (a == b, a != b),
        "__format__": lambda a, b: f"{a:>70}", "__ge__": lambda a, b: a >= b, "__gt__": lambda a, b: a > b, "__le__": lambda a, b: a <= b,
        "__lt__": lambda a, b: a < b, "__hash__": lambda a, b: hash(a), "__mod__": lambda a, b: a % 7, "__str__": lambda a, b: str(a),
        "base64": lambda a, b: a.base64(), "bytes": lambda a, b: a.bytes, "from_base64": lambda a, b: y.Hash.from_base64(b.base64()),
        "from_bytes": lambda a, b: y.Hash.from_bytes(b.bytes), "from_hex": lambda a, b: y.Hash.from_hex(b.hex()),
        "hex": lambda a, b: a.hex(),
        "hmac": lambda a, b: a.hmac(b), "random_from_seed": lambda a, b: y.Hash.random_from_seed(b.words[0]), "words": lambda a, b: a.words,
    },
    "Hasher": {
        "": lambda a, b: y.Hasher(b.digest()), "block_size": lambda a, b: a.block_size, "copy": lambda a, b: a.copy(),
        "count": lambda a, b: a.count, "digest": lambda a, b: a.digest(), "digest_size": lambda a, b: a.digest_size,
        "hash": lambda a, b: a.hash(),
        "hexdigest": lambda a, b: a.hexdigest(), "internal_node": lambda a, b: y.Hasher.internal_node(b.digest()),
        "keyed": lambda a, b: y.Hasher.keyed(b.digest()), "name": lambda a, b: a.name, "update": lambda a, b: a.update(b"abc"),
        "update with itself": lambda a, b: a.update(b),
    },
    "Chunker": {
        "": lambda a, b: y.Chunker(b), "copy": lambda a, b: a.copy(), "taken": lambda a, b: a.taken,
        "next_boundary": lambda a, b: a.next_boundary(bytes(20_000)), "next_boundary with itself": lambda a, b: a.next_boundary(b),
    },
    "FileHasher": {
        "": lambda a, b: y.FileHasher(b.root().bytes), "file_hash": lambda a, b: a.file_hash(b.file_hash().bytes),
        "root": lambda a, b: a.root(), "size": lambda a, b: a.size, "update": lambda a, b: a.update(bytes(20_000)),
    },
    "Hashes": {
        "": lambda a, b: y.Hashes(b), "__add__": lambda a, b: a + b, "__array_interface__": lambda a, b: a.__array_interface__["shape"],
        "__arrow_c_array__": lambda a, b: a.__arrow_c_array__(), "__arrow_c_schema__": lambda a, b: a.__arrow_c_schema__(),
        "__buffer__": lambda a, b: bytes(a.__buffer__(0)), "__bytes__": lambda a, b: bytes(a), "__eq__": lambda a, b: a == b,
        "__getitem__": lambda a, b: a[b], "__hash__": lambda a, b: hash(a), "__iter__": lambda a, b: list(a),
        "__len__": lambda a, b: len(a),
        "from_hex": lambda a, b: y.Hashes.from_hex(b.hex()), "from_hex of itself": lambda a, b: y.Hashes.from_hex(b),
        "hex": lambda a, b: a.hex(),
        "packed": lambda a, b: a.packed, "as columns": lambda a, b: y.Chunks.from_columns(a, b),
    },
    "Chunks": {
        "": lambda a, b: y.Chunks(b), "__add__": lambda a, b: a + b, "__array_interface__": lambda a, b: a.__array_interface__["shape"],
        "__arrow_c_array__": lambda a, b: a.__arrow_c_array__(), "__arrow_c_schema__": lambda a, b: a.__arrow_c_schema__(),
        "__buffer__": lambda a, b: bytes(a.__buffer__(0)), "__bytes__": lambda a, b: bytes(a), "__eq__": lambda a, b: a == b,
        "__getitem__": lambda a, b: a[b], "__hash__": lambda a, b: hash(a), "__iter__": lambda a, b: list(a),
        "__len__": lambda a, b: len(a),
        "_repr_html_": lambda a, b: a._repr_html_(), "from_columns": lambda a, b: y.Chunks.from_columns(a.hashes, b.sizes),
        "hashes": lambda a, b: a.hashes, "packed": lambda a, b: a.packed, "sizes": lambda a, b: list(a.sizes),
    },
    "Subtree": {
        "": lambda a, b: y.Subtree(b), "__add__": lambda a, b: a + b, "__eq__": lambda a, b: a == b, "__hash__": lambda a, b: hash(a),
        "__iadd__": lambda a, b: a.__iadd__(b) is a, "at_end": lambda a, b: a.at_end, "at_start": lambda a, b: a.at_start,
        "copy": lambda a, b: a.copy(),
        "file_hash": lambda a, b: a.file_hash(), "final_hash": lambda a, b: a.final_hash(), "finish": lambda a, b: a.finish(),
        "from_chunks": lambda a, b: y.Subtree.from_chunks(True, b.left(0), True),
        "from_flat": lambda a, b: y.Subtree.from_flat(*b.to_flat()),
        "from_json": lambda a, b: y.Subtree.from_json(b.to_json()), "is_empty": lambda a, b: a.is_empty, "left": lambda a, b: a.left(0),
        "levels": lambda a, b: a.levels, "load": lambda a, b: saved(b), "merge": lambda a, b: a.merge(b),
        "merge_all": lambda a, b: y.Subtree.merge_all([a, b, b, a]), "merge_counted": lambda a, b: a.merge_counted(b),
        "num_levels": lambda a, b: a.num_levels, "num_nodes": lambda a, b: a.num_nodes, "right": lambda a, b: a.right(0),
        "save": lambda a, b: through_a_file(a.save, os.path.getsize), "svg": lambda a, b: a.svg(), "to_flat": lambda a, b: a.to_flat(),
        "to_json": lambda a, b: a.to_json(),
        "total_size": lambda a, b: a.total_size, "write_svg": lambda a, b: a.write_svg(os.devnull),
        "_repr_svg_": lambda a, b: a._repr_svg_(),
        "as a run": lambda a, b: y.Session().push_run(0, 1, b), "as a range": lambda a, b: y.Session().put_range(3, 1, b),
    },
    "Session": {
        "": lambda a, b: y.Session(keep_hashes=b.keeps_hashes), "__contains__": lambda a, b: HASHES[0] in a, "__eq__": lambda a, b: a == b,
        "__hash__": lambda a, b: hash(a), "__iter__": lambda a, b: list(a),
        "contains": lambda a, b: a.contains([HASHES[0], Z, *b.known_hashes()]),
        "copy": lambda a, b: a.copy(), "finish": lambda a, b: a.finish(1), "from_json": lambda a, b: y.Session.from_json(b.to_json()),
        "gaps": lambda a, b: a.gaps(5), "keep_hashes": lambda a, b: a.keep_hashes([*b.known_hashes(), HASHES[4]]),
        "keeps_hashes": lambda a, b: a.keeps_hashes, "known_hashes": lambda a, b: sorted(a.known_hashes()), "load": lambda a, b: saved(b),
        "num_chunks": lambda a, b: a.num_chunks, "num_runs": lambda a, b: a.num_runs,
        "join": lambda a, b: a.join(b), "join what follows": lambda a, b: a.join(moved(b, 5)),
        "push_run": lambda a, b: a.push_run(9, 10, b.run(0).subtree), "put_range": lambda a, b: a.put_range(1, 1, b.run(0).subtree),
        "put": lambda a, b: a.put(1, CHUNKS[3:4]), "put itself": lambda a, b: a.put(1, b), "root": lambda a, b: a.root(1),
        "run": lambda a, b: a.run(0),
        "run_from": lambda a, b: a.run_from(0), "runs": lambda a, b: a.runs(), "save": lambda a, b: through_a_file(a.save, os.path.getsize),
        "taken": lambda a, b: a.taken(0), "to_json": lambda a, b: a.to_json(), "total_size": lambda a, b: a.total_size,
    },
    "HashIndex": {
        "": lambda a, b: y.HashIndex(b), "__contains__": lambda a, b: HASHES[0] in a, "__eq__": lambda a, b: a == b,
        "__hash__": lambda a, b: hash(a),
        "__iter__": lambda a, b: sorted(a), "__len__": lambda a, b: len(a), "add": lambda a, b: a.add(HASHES[4], len(b)),
        "add_all": lambda a, b: a.add_all(b), "contains": lambda a, b: sorted(a.contains(b)), "copy": lambda a, b: a.copy(),
        "hashes": lambda a, b: sorted(a.hashes()), "load": lambda a, b: saved(b), "new": lambda a, b: a.new([*b, Z, Z]),
        "number": lambda a, b: a.number(HASHES[0]), "numbers": lambda a, b: sorted(a.numbers(b)),
        "save": lambda a, b: through_a_file(a.save, os.path.getsize),
    },
    "HashTree": {
        "": lambda a, b: y.HashTree(b.chunks), "__eq__": lambda a, b: a == b, "__hash__": lambda a, b: hash(a),
        "bytes_of": lambda a, b: a.bytes_of(0, 1),
        "chunks": lambda a, b: a.chunks, "chunks_at": lambda a, b: a.chunks_at(3, 8), "diff": lambda a, b: a.diff(b),
        "file_hash": lambda a, b: a.file_hash(), "load": lambda a, b: saved(b), "num_chunks": lambda a, b: a.num_chunks,
        "of_file": lambda a, b: y.HashTree.of_file(io.BytesIO(b.chunks.packed)),
        "proof": lambda a, b: a.proof(0, 1), "proof_of_bytes": lambda a, b: a.proof_of_bytes(3, 8), "root": lambda a, b: a.root,
        "save": lambda a, b: through_a_file(a.save, os.path.getsize), "total_size": lambda a, b: a.total_size,
    },
    "RangeProof": {
        "": lambda a, b: y.RangeProof(b), "__bytes__": lambda a, b: bytes(a), "__eq__": lambda a, b: a == b,
        "__hash__": lambda a, b: hash(a),
        "chunks": lambda a, b: a.chunks, "from_bytes": lambda a, b: y.RangeProof.from_bytes(bytes(b)),
        "from_flat": lambda a, b: y.RangeProof.from_flat(*b.to_flat()), "from_json": lambda a, b: y.RangeProof.from_json(b.to_json()),
        "left": lambda a, b: a.left(0), "levels": lambda a, b: a.levels, "num_levels": lambda a, b: a.num_levels,
        "open": lambda a, b: a.open(TREE.file_hash()), "open_root": lambda a, b: a.open_root(TREE.root), "right": lambda a, b: a.right(0),
        "to_bytes": lambda a, b: a.to_bytes(), "to_flat": lambda a, b: a.to_flat(), "to_json": lambda a, b: a.to_json(),
    },
    "OpenedRange": {
        "": lambda a, b: y.OpenedRange(b), "begins": lambda a, b: a.begins(0), "check": lambda a, b: a.check(0, DATA[0]),
        "ends": lambda a, b: a.ends(0), "file_size": lambda a, b: a.file_size, "num_chunks": lambda a, b: a.num_chunks,
        "read": lambda a, b: bytes(a.read(1, 3, b"".join(DATA[:b.num_chunks]))),
    },
    "Run": {
        "": lambda a, b: y.Run(*a[:1], b.end, b.subtree), "__eq__": lambda a, b: a == b, "__ne__": lambda a, b: a != b,
        "__hash__": lambda a, b: hash(a), "end": lambda a, b: a.end, "first": lambda a, b: a.first, "subtree": lambda a, b: a.subtree,
    },
    "Flat": {"": lambda a, b: y.Flat(*b), "at_end": lambda a, b: a.at_end, "at_start": lambda a, b: a.at_start,
             "levels": lambda a, b: a.levels, "nodes": lambda a, b: a.nodes},
    "Difference": {"": lambda a, b: y.Difference(*b), **{
        name: lambda a, b, name=name: getattr(a, name) for name in ("end", "first", "other_end", "other_stop", "start", "stop")}},
    "VerifiedFile": {
        "": lambda a, b: y.VerifiedFile(b.file_hash, a.read_at, TREE.proof_of_bytes).file_hash, "close": lambda a, b: a.close(),
        "file_hash": lambda a, b: a.file_hash, "mode": lambda a, b: a.mode, "name": lambda a, b: a.name,
        "read": lambda a, b: a.read(b.size),
        "read_at": lambda a, b: a.read_at(3, b.size), "readable": lambda a, b: a.readable(), "readall": lambda a, b: a.readall(),
        "readinto": lambda a, b: filled(a, 9), "readinto itself": lambda a, b: a.readinto(b), "seek": lambda a, b: a.seek(b.size),
        "seekable": lambda a, b: a.seekable(), "size": lambda a, b: a.size, "tell": lambda a, b: a.tell(),
        "truncate": lambda a, b: a.truncate(),
        "write": lambda a, b: a.write(b), "writelines": lambda a, b: a.writelines([b]),
    },
    "AsyncVerifiedFile": {
        "": lambda a, b: y.AsyncVerifiedFile(b.file_hash, a.read_at, TREE.proof_of_bytes).file_hash, "file_hash": lambda a, b: a.file_hash,
        "read_at": lambda a, b: asyncio.run(a.read_at(3, 9)), "size": lambda a, b: asyncio.run(a.size()),
    },
}
#: What each kind has that its own table doesn't name: the forms that Python asks for, each of which no object refuses.
COMMON = {
    "__repr__": lambda a, b: repr(a), "__copy__": lambda a, b: copy.copy(a), "__deepcopy__": lambda a, b: copy.deepcopy(a),
    "__reduce__": lambda a, b: pickle.loads(pickle.dumps(a)), "__dask_tokenize__": lambda a, b: a.__dask_tokenize__(),
    "__sizeof__": lambda a, b: a.__sizeof__() > 0,
}
#: What makes a class, and is no call of its own.
OF_CLASSES = {
    "__abstractmethods__", "__annotations__", "__del__", "__delattr__", "__dict__", "__doc__", "__final__", "__getnewargs__", "__init__",
    "__init_subclass__", "__match_args__", "__module__", "__new__", "__orig_bases__", "__parameters__", "__setattr__", "__slots__",
    "__weakref__",
    "__annotate_func__", "__annotations_cache__", "__static_attributes__", "__firstlineno__", "__replace__", "__slotnames__",
}


def members(kind):
    """The calls of a kind, with those that it has in common with others, by their names."""
    names = {name for base in kind.__mro__ if base.__module__.startswith("yurewha") for name in vars(base)}
    return {name for name in names if name.startswith("__") or not name.startswith("_")} - OF_CLASSES


def test_each_public_name_is_in_the_table():
    public = {name for name in y.__all__ if not (inspect.isclass(getattr(y, name)) and issubclass(getattr(y, name), Exception))}
    assert public == set(CALLS)
    for name in public:
        item = getattr(y, name)
        if not inspect.isclass(item):
            continue
        assert members(item) - set(COMMON) - set(CALLS[name]) == set(), name
        unknown = {call for call in CALLS[name] if not hasattr(item, call) and " " not in call}
        assert unknown == {""}, name


def rows():
    """Each call with its kind."""
    for name, calls in CALLS.items():
        for of, call in calls.items():
            yield (of, name, call) if name not in KINDS else (name, of, call)
    for kind in KINDS:
        for name, call in COMMON.items():
            if name in members(getattr(y, kind)) or name in ("__repr__", "__copy__", "__reduce__"):
                yield kind, name, call


ROWS = {f"{kind}.{name}": (kind, call) for kind, name, call in rows()}


def told(value):
    """What can be compared of a value, however it is."""
    if isinstance(value, y.Hasher):
        return "Hasher", value.hash(), value.count
    if isinstance(value, y.Chunker):
        return "Chunker", value.taken, value.copy().next_boundary(bytes(1 << 17))
    if isinstance(value, y.FileHasher):
        return "FileHasher", value.size, value.root()
    if isinstance(value, (y.VerifiedFile, y.AsyncVerifiedFile)):
        return type(value).__name__, value.file_hash, value._size
    if isinstance(value, y.OpenedRange):
        return "OpenedRange", value.file_size, value.num_chunks
    if isinstance(value, (y.HashIndex, y.Session, y.Subtree, y.HashTree)):
        return type(value).__name__, value.__dask_tokenize__()
    if isinstance(value, y.Run):
        return value.first, value.end, told(value.subtree)
    if isinstance(value, (list, tuple)) and type(value) is not y.Flat:
        return [told(item) for item in value]
    return value


def outcome(call, a, b):
    """What a call returns or raises."""
    try:
        return told(call(a, b))
    except AssertionError:
        raise
    except Exception as error:
        return type(error), str(error)


def after(call, a, b):
    """What a call comes to, and what its objects are then."""
    return outcome(call, a, b), told(a), told(b)


EACH = pytest.mark.parametrize("row", ROWS)


@EACH
@pytest.mark.parametrize("count", [0, 1, 2])
def test_an_object_may_be_its_own_argument(row, count):
    """It comes to the same as with an equal one."""
    kind, call = ROWS[row]
    one, two, equal = (KINDS[kind](count) for _ in range(3))
    got, itself, _ = after(call, one, one)
    expected, changed, _ = after(call, two, equal)
    if row not in ("Hash.__lt__", "VerifiedFile.read", "VerifiedFile.read_at", "VerifiedFile.seek"):
        assert (got, itself) == (expected, changed)
    else:
        assert got == expected
    assert kind != "Hash" or itself == one


@EACH
@pytest.mark.parametrize("count", [0, 1, 2])
def test_an_unpickled_or_copied_object_is_the_same(row, count):
    kind, call = ROWS[row]
    expected = after(call, KINDS[kind](count), KINDS[kind](2))
    one = KINDS[kind](count)
    if kind in NOT_PICKLED:
        with pytest.raises((TypeError, pickle.PicklingError)):
            pickle.dumps(one)
        again = []
    else:
        again = [pickle.loads(pickle.dumps(one, protocol)) for protocol in range(2, pickle.HIGHEST_PROTOCOL + 1)]
    if kind not in NOT_COPIED:
        again += [copy.copy(one), copy.deepcopy(one)]
    for other in again:
        assert after(call, other, KINDS[kind](2)) == expected
    assert told(one) == told(KINDS[kind](count))  # what changes the others leaves it as it was


#: Calls on a freed object that look at no handle: they return something, or raise another error.
WITHOUT_A_HANDLE = {
    *(f"{kind}.{name}" for kind in HANDLES for name in ("__repr__", "__sizeof__", "__eq__")),
    *(f"{kind}.__hash__" for kind in ("Subtree", "Session", "HashIndex")), "Subtree.", "OpenedRange.", "OpenedRange.__reduce__",
    "FileHasher.__copy__", "FileHasher.__reduce__",
}


@pytest.mark.parametrize("row", [row for row in ROWS if ROWS[row][0] in HANDLES])
def test_a_freed_object_is_refused(row):
    """As the object of a call or as its argument, and as both. An object is equal to itself, freed or not."""
    kind, call = ROWS[row]

    def is_refused(*freed):
        a, b = KINDS[kind](2), KINDS[kind](2)
        for number in freed:
            (a, b)[number].__del__()
        result = outcome(call, a, a if len(freed) == 2 else b)
        return isinstance(result, tuple) and result[0] is y.EmptyHandle

    assert is_refused(0, 1) == (row not in WITHOUT_A_HANDLE)
    assert (is_refused(0) or is_refused(1)) == (row not in WITHOUT_A_HANDLE or row.endswith("__eq__"))


#: What a closed file still says.
OF_CLOSED = {f"VerifiedFile.{name}" for name in (
    "", "close", "file_hash", "mode", "name", "readinto itself", "__repr__", "__sizeof__", "__copy__", "__reduce__")}


@pytest.mark.parametrize("row", [row for row in ROWS if row.startswith("VerifiedFile.")])
def test_a_closed_file_is_refused(row):
    closed = KINDS["VerifiedFile"](2)
    closed.close()
    result = outcome(ROWS[row][1], closed, KINDS["VerifiedFile"](2))
    assert (result == (ValueError, "I/O operation on a closed file")) == (row not in OF_CLOSED), result
    assert closed.close() is None and closed.closed


def forget_errors():
    """Of the last error Python keeps what it was about."""
    for name in ("last_traceback", "last_value", "last_type", "last_exc"):
        if hasattr(sys, name):
            delattr(sys, name)
    gc.collect()


@pytest.mark.skipif(counts is None, reason="nothing counts the library's memory")
@EACH
def test_nothing_of_a_call_lives_afterwards(row):
    kind, call = ROWS[row]
    outcome(call, KINDS[kind](1), KINDS[kind](1))  # what is made once for all
    forget_errors()
    before = counts.live_blocks()
    for count, number in itertools.product((0, 1, 2), (0, 1, 2)):
        outcome(call, KINDS[kind](count), KINDS[kind](number))
        one = KINDS[kind](count)
        outcome(call, one, one)
        if kind in HANDLES:
            one.__del__()
            outcome(call, one, KINDS[kind](count))
        del one
    forget_errors()
    assert counts.live_blocks() == before


# ---- Two at once

def in_turn(kind, *names):
    """What two calls on one object come to, one after the other in each order: their results, and the object then."""
    ends = []
    for order in ((0, 1), (1, 0)):
        shared, results = KINDS[kind](2), ["", ""]
        for place in order:
            results[place] = repr(outcome(ROWS[names[place]][1], shared, shared))
        ends.append((*results, repr(told(shared))))
    return ends


@pytest.fixture
def busy_threads(monkeypatch):
    """Each call gives up the interpreter, and threads change often."""
    for name, module in list(sys.modules.items()):
        if name.startswith("yurewha._") and hasattr(module, "calls_for"):
            monkeypatch.setattr(module, "calls_for", lambda count, bound: _library.long)
    before = sys.getswitchinterval()
    sys.setswitchinterval(1e-6)
    yield
    sys.setswitchinterval(before)


def at_once(shared, *names):
    """What calls come to that threads make at once on one object."""
    results, barrier = [None] * len(names), threading.Barrier(len(names))

    def run(place, name):
        barrier.wait(60)
        results[place] = repr(outcome(ROWS[name][1], shared, shared))

    threads = [threading.Thread(target=run, args=given) for given in enumerate(names)]
    for thread in threads:
        thread.start()
    for thread in threads:
        thread.join(120)
        assert not thread.is_alive(), f"{names} wait for each other"
    return (*results, repr(told(shared)))


@pytest.mark.parametrize("kind", ["Hasher", "Chunker", *HANDLES])
def test_two_calls_at_once_are_one_after_another(kind, busy_threads):
    """Each call with each call, on one object which is their argument, too."""
    names = [row for row in ROWS if ROWS[row][0] == kind]
    for pair in itertools.combinations_with_replacement(names, 2):
        expected = in_turn(kind, *pair)
        for _ in range(3):
            came = at_once(KINDS[kind](2), *pair)
            assert came in expected, pair


# ---- Damaged input

def read_part(data):
    """What a file says that gets this data for two chunks."""
    return y.VerifiedFile(TREE.file_hash(), lambda start, stop: data, TREE.proof_of_bytes).read_at(0, len(DATA[0]) + 1)


TEXT_OF_SESSION = session(2).to_json()
#: What can be read: whole, by which call, and at which ends something else may be read of its beginning, or of it with more after it.
READ = {
    "Hash": (CHUNKS[0][0].bytes, y.Hash, 0), "Hash.from_bytes": (CHUNKS[0][0].bytes, y.Hash.from_bytes, 0),
    "Hash.from_hex": (CHUNKS[0][0].hex(), y.Hash.from_hex, 0), "Hash.from_base64": (CHUNKS[0][0].base64(), y.Hash.from_base64, 0),
    "Hasher.keyed": (CHUNKS[0][0].bytes, lambda key: y.Hasher.keyed(key).hash(), 0), "a salt": (bytes(range(32)), TREE.file_hash, 0),
    "Hashes": (y.Hashes(HASHES).packed, y.Hashes, 32), "Hashes.from_hex": (HASHES[0].hex(), lambda text: y.Hashes.from_hex([text]), 0),
    "Chunks": (y.Chunks(CHUNKS).packed, y.Chunks, 40), "HashTree": (y.Chunks(CHUNKS).packed, y.HashTree, 40),
    "HashIndex": (y.Hashes(HASHES).packed, y.HashIndex, 32),
    "numbers": (bytes(8 * 6), lambda numbers: y.HashIndex(HASHES, numbers), 0),
    "Subtree.from_chunks": (y.Chunks(CHUNKS).packed, lambda data: y.Subtree.from_chunks(True, data, False), 40),
    "Subtree.from_json": (y.Subtree.from_chunks(True, CHUNKS, False).to_json(), y.Subtree.from_json, 0),
    "Session.from_json": (TEXT_OF_SESSION, y.Session.from_json, 0),
    "Session.put": (y.Chunks(CHUNKS).packed, lambda data: y.Session().put(0, data), 40),
    "RangeProof.from_json": (TREE.proof(1, 3).to_json(), y.RangeProof.from_json, 0),
    "RangeProof.from_bytes": (TREE.proof(1, 3).to_bytes(), lambda data: y.RangeProof.from_bytes(data).open_root(TREE.root), 0),
    "OpenedRange.check": (DATA[0], lambda data: TREE.proof(0, 2).open_root(TREE.root).check(0, data), 0),
    "OpenedRange.read": (DATA[0] + DATA[1], lambda data: bytes(TREE.proof(0, 2).open_root(TREE.root).read(1, 9, data)), 0),
    "what fetch returns": (DATA[0] + DATA[1], read_part, 0),
    **{f"{kind}.load": (KINDS[kind](2), type(KINDS[kind](2)).load, 0) for kind in ("Subtree", "Session", "HashIndex", "HashTree")},
}


@pytest.mark.parametrize("name", READ)
def test_what_is_cut_anywhere_is_refused(name, tmp_path):
    """Each beginning of it raises an error of the package, and so does it with more after it. Nothing of these stays."""
    whole, read, step = READ[name]
    if name.endswith(".load"):
        one, plain, path = whole, read, tmp_path / "saved"
        one.save(path)
        whole, read = path.read_bytes(), lambda data: (path.write_bytes(data), plain(path))[1]
    read(whole)
    forget_errors()
    before = counts.live_blocks() if counts else 0
    more = whole + whole[:1]
    for data in (*(whole[:end] for end in range(len(whole))), more):
        if step and len(data) % step == 0:
            read(data)
            continue
        with pytest.raises(y.YurewhaError):
            read(data)
    forget_errors()
    assert not counts or counts.live_blocks() == before


@pytest.mark.parametrize("form", ["Subtree.json", "Session.json", "RangeProof.json", "RangeProof.bytes"])
def test_a_wrong_byte_anywhere_is_refused_or_read(form):
    """What is read can be written and read again. Nothing else than an error of the package is raised."""
    kind, _, name = form.partition(".")
    whole = getattr(KINDS[kind](2), f"to_{name}")()
    data, read = whole if isinstance(whole, bytes) else whole.encode(), getattr(getattr(y, kind), f"from_{name}")
    for place, bit in itertools.product(range(len(data)), (1, 4, 0x80)):
        try:
            one = read(data[:place] + bytes([data[place] ^ bit]) + data[place + 1:])
        except y.YurewhaError:
            continue
        assert told(read(getattr(one, f"to_{name}")())) == told(one)
