"""The scripts of tests/vectors/, through the package: calls of the library with their answers. Skipped where there is no library."""

import functools
import json
import subprocess
import sys
from pathlib import Path

import pytest

y = pytest.importorskip("yurewha", reason="there is no libyurewha: run make -C bindings, or set YUREWHA_LIB_DIR")

VECTORS = Path(__file__).resolve().parents[3] / "tests/vectors"
FOLDER = VECTORS / "out/scripts"
NAMES = ("hashes", "texts", "roots", "subtrees", "merges", "subtree_json", "range_proofs", "sessions", "session_json", "hash_indexes",
         "files", "upstream")

# ---- Calls: what each call of the library is here

def compare(one, other):
    assert (one == other) is not (one != other) and (one == other) is (one <= other <= one)
    return (one > other) - (one < other)


def lines_of(nodes):
    return "".join(f"{hash_} : {size}\n" for hash_, size in nodes)


def entries(index):
    hashes = index.hashes()
    return sorted(zip(map(str, hashes), index.numbers(hashes)))


CALLS = {
    "data_hash": y.data_hash,
    "data_hashes": y.data_hashes,
    "internal_node_hash": y.internal_node_hash,
    "hmac": y.Hash.hmac,
    "random_from_seed": y.Hash.random_from_seed,
    "hash_to_bytes": bytes,
    "hash_from_bytes": y.Hash,
    "compare": compare,
    "remainder": y.Hash.__mod__,
    "hex": y.Hash.hex,
    "from_hex": y.Hash.from_hex,
    "base64": y.Hash.base64,
    "from_base64": y.Hash.from_base64,
    "hasher_begin_data": y.Hasher,
    "hasher_begin_internal": y.Hasher.internal_node,
    "hasher_begin_keyed": y.Hasher.keyed,
    "hasher_count": lambda hasher: hasher.count,
    "hasher_update": lambda hasher, data: hasher.update(data) and None,
    "hasher_finalize": y.Hasher.hash,
    "chunks": lambda chunks: chunks,
    "xorb_hash": y.xorb_hash,
    "file_hash": y.file_hash,
    "file_hash_with_salt": y.file_hash,
    "find_stable_start": y.find_stable_start,
    "find_stable_end": y.find_stable_end,
    "subtree_from_chunks": y.Subtree.from_chunks,
    "subtree_clone": y.Subtree.copy,
    "subtree_equal": y.Subtree.__eq__,
    "subtree_marks": lambda subtree: (subtree.at_start, subtree.at_end),
    "subtree_levels": lambda subtree: subtree.levels,
    "subtree_num_levels": lambda subtree: subtree.num_levels,
    "subtree_num_nodes": lambda subtree: subtree.num_nodes,
    "subtree_nodes": lambda subtree: lines_of(subtree.to_flat().nodes),
    "subtree_total_size": lambda subtree: subtree.total_size,
    "subtree_merge_into": y.Subtree.merge,
    "subtree_merge_into_counted": y.Subtree.merge_counted,
    "subtree_merge": y.Subtree.merge_all,
    "subtree_final_hash": y.Subtree.final_hash,
    "subtree_file_hash": y.Subtree.file_hash,
    "subtree_to_json": y.Subtree.to_json,
    "subtree_from_json": y.Subtree.from_json,
    "subtree_from_flat": y.Subtree.from_flat,
    "session_new": y.Session,
    "session_new_without_hashes": lambda: y.Session(keep_hashes=False),
    "session_keeps_hashes": lambda session: session.keeps_hashes,
    "session_put": y.Session.put,
    "session_taken": y.Session.taken,
    "session_num_chunks": lambda session: session.num_chunks,
    "session_total_size": lambda session: session.total_size,
    "session_num_runs": lambda session: session.num_runs,
    "session_run": lambda session, place: tuple(session.run(place)),
    "session_run_from": lambda session, position: (run := session.run_from(position)) and (run[:2], run[2]),
    "session_gaps": y.Session.gaps,
    "session_root": y.Session.root,
    "session_finish": y.Session.finish,
    "session_finish_with_salt": y.Session.finish,
    "session_copy": y.Session.copy,
    "session_put_range": y.Session.put_range,
    "session_join": y.Session.join,
    "session_push_run": y.Session.push_run,
    "session_keep_hashes": y.Session.keep_hashes,
    "session_num_known_hashes": lambda session: len(session.known_hashes()),
    "session_known_hashes": lambda session: sorted(map(str, session.known_hashes())),
    "session_knows": y.Session.__contains__,
    "session_knows_each": y.Session.contains,
    "session_to_json": y.Session.to_json,
    "session_from_json": y.Session.from_json,
    "hash_tree_from_chunks": y.HashTree,
    "hash_tree_root": lambda tree: tree.root,
    "hash_tree_file_hash": y.HashTree.file_hash,
    "hash_tree_num_chunks": lambda tree: tree.num_chunks,
    "hash_tree_total_size": lambda tree: tree.total_size,
    "hash_tree_chunks_at": y.HashTree.chunks_at,
    "hash_tree_bytes_of": y.HashTree.bytes_of,
    "hash_tree_proof": y.HashTree.proof,
    "hash_tree_diff": y.HashTree.diff,
    "range_proof_levels": lambda proof: proof.levels,
    "range_proof_nodes": lambda proof: lines_of(proof.to_flat()[1]),
    "range_proof_to_json": y.RangeProof.to_json,
    "range_proof_from_json": y.RangeProof.from_json,
    "range_proof_to_bytes": y.RangeProof.to_bytes,
    "range_proof_from_bytes": y.RangeProof.from_bytes,
    "range_proof_from_flat": y.RangeProof.from_flat,
    "range_proof_open": y.RangeProof.open,
    "range_proof_open_root": y.RangeProof.open_root,
    "opened_range_file_size": lambda opened: opened.file_size,
    "opened_range_num_chunks": lambda opened: opened.num_chunks,
    "opened_range_bytes_of": lambda opened, chunk: (opened.begins(chunk), opened.ends(chunk)),
    "opened_range_check": y.OpenedRange.check,
    "opened_range_read": y.OpenedRange.read,
    "hash_index_new": y.HashIndex,
    "hash_index_insert": y.HashIndex.add_all,
    "hash_index_find": y.HashIndex.numbers,
    "hash_index_entries": entries,
    "hash_index_len": y.HashIndex.__len__,
    "chunker_begin": y.Chunker,
    "chunker_next_boundary": y.Chunker.next_boundary,
    "chunker_taken": lambda chunker: chunker.taken,
    "file_hasher_new": y.FileHasher,
    "file_hasher_update": y.FileHasher.update,
    "file_hasher_size": lambda file_hasher: file_hasher.size,
    "file_hasher_root": y.FileHasher.root,
    "file_hasher_finish": y.FileHasher.file_hash,
    "file_hasher_finish_with_salt": y.FileHasher.file_hash,
}
#: Calls of the library that the package doesn't have.
ABSENT = {"session_next_gap", "hash_tree_common_prefix", "hash_tree_common_suffix", "range_proof_from_chunks"}
ERRORS = {
    "ARGUMENTS": y.InvalidArguments,
    "SIZES": y.SizeOverflow,
    "TEXT": y.InvalidText,
    "RULE": y.InvalidJson,
    "PROOF_RULE": y.InvalidProof,
    "MISMATCH": y.ProofMismatch,
    "SESSION_OVERLAP": y.SessionOverlap,
    "SESSION_POSITIONS": y.SessionPositions,
    "SESSION_GAP": y.SessionGap,
}
#: Where the package has another error than ERRORS says, or returns None.
OTHERWISE = {
    ("subtree_from_flat", "RULE"): y.InvalidLists,
    ("session_put", "SIZES"): y.SessionSizes, ("session_put_range", "SIZES"): y.SessionSizes, ("session_join", "SIZES"): y.SessionSizes,
    ("opened_range_check", "MISMATCH"): (y.ProofMismatch, y.InvalidArguments),  # that there is no such chunk is of its own class
    ("find_stable_start", "ARGUMENTS"): None,
    ("find_stable_end", "ARGUMENTS"): None,
    ("subtree_final_hash", "ARGUMENTS"): None,
    ("session_run_from", "ARGUMENTS"): None,
}


# ---- Values: what a script says, and how it would say what the package returns; tests/vectors/README.md has the rules

def hash_of_words(*words):
    return y.Hash(b"".join(word.to_bytes(8, "little") for word in words))


def counted(i, every):
    return hash_of_words(i, 0, 0, not every or i % every != every - 1), 1


RULES = {
    "pattern": lambda it: [(hash_of_words(i, 2 * i, 3 * i, 4 * i + (letter != "|")), 100 * i - 93) for i, letter in enumerate(it, 1)],
    "drawn": lambda it: [(y.Hash.random_from_seed((int(it["firstSeed"]) + i) % 2**64), 100 + 977 * i % 9901)
                         for i in range(it["count"])],
    "seeds": lambda it: [(y.Hash.random_from_seed(k) if k else y.Hash(), 100 * k) for k in map(int, it)],
    "nodes": lambda it: [(y.Hash.from_hex(node["hash"]), int(node["size"])) for node in it],
    "counted": lambda it: [counted(i, it["cutEvery"]) for i in range(it["count"])],
    "numbers": lambda it: [(y.data_hash(data), len(data)) for data in data_of_numbers(it)],
    "chunkBytes": lambda it: [(y.data_hash(data), len(data)) for data in map(bytes.fromhex, it)],
}


def data_of_numbers(it):
    """The data of chunks, each of which has a number again and again."""
    sized = ((it["first"] + i, it["lengths"][i % len(it["lengths"])]) for i in range(it["count"]))
    return ((b"%d " % number * length)[:length] for number, length in sized)


def chunks_of(told):
    """The chunks that a rule tells, or a part of them."""
    (rule, it), = ((rule, it) for rule, it in told.items() if rule != "part")
    return RULES[rule](it)[slice(*told.get("part", (0, None)))]


@functools.cache
def mixed_bytes(count):
    """The first numbers of SplitMix64 from the seed 0 on, each with its lowest byte first."""
    made, state, mask = bytearray(), 0, 2**64 - 1
    while len(made) < count:
        state = (state + 0x9E3779B97F4A7C15) & mask
        number = ((state ^ state >> 30) * 0xBF58476D1CE4E5B9) & mask
        number = ((number ^ number >> 27) * 0x94D049BB133111EB) & mask
        made += (number ^ number >> 31).to_bytes(8, "little")
    return bytes(made)


def data_of(told):
    """The bytes of a hex text, or those that a rule tells."""
    if isinstance(told, str):
        return bytes.fromhex(told)
    if "mixed" in told:
        return mixed_bytes(told["mixed"][1])[slice(*told["mixed"])]
    if "repeated" in told:
        repeated = bytes.fromhex(told["repeated"])
        return (repeated * (told["part"][1] // len(repeated) + 1))[slice(*told["part"])]
    return bytes(i % 251 for i in range(*told["message"]))


KINDS = {
    "number": int,
    "numbers": lambda it: list(map(int, it)),
    "bool": bool,
    "text": str,
    "hash": y.Hash.from_hex,
    "hashes": lambda it: list(map(y.Hash.from_hex, it)),
    "bytes": bytes.fromhex,
    "data": data_of,
    "chunks": chunks_of,
    "levels": lambda it: [tuple(map(int, level)) for level in it],
}
STATES = {y.Subtree: y.Subtree.to_json, y.Session: y.Session.to_json, y.RangeProof: y.RangeProof.to_json, y.Hasher: y.Hasher.hexdigest,
          y.HashIndex: entries}


def value_of(kind, it, objects):
    """The value of a kind that a script says, or an object by its name."""
    if kind == "subtrees":
        return [objects[name] for name in it]
    return objects[it] if isinstance(it, str) and it in objects and kind not in ("text", "data") else KINDS[kind](it)


def said(it):
    """A returned value as a script says it."""
    if isinstance(it, (tuple, list, y.Hashes)):
        return list(map(said, it))
    if isinstance(it, range):
        return said((it.start, it.stop))
    if isinstance(it, int) and not isinstance(it, bool):
        return it if it < 2**53 else str(it)
    return it.hex() if isinstance(it, (y.Hash, bytes, memoryview)) else it


def state(it):
    """All that an object says of itself."""
    return STATES.get(type(it), repr)(it)


# ---- Steps

def refused(call, answer, function, arguments):
    """Checks that a call is refused with its error, and with what the script says of it."""
    wanted = OTHERWISE.get((call, answer["error"]), ERRORS[answer["error"]])
    if wanted is None:
        assert function(*arguments) is None
        return
    with pytest.raises(wanted) as raised:
        function(*arguments)
    for name in answer.keys() & {"rule", "chunk", "place"}:
        assert said(getattr(raised.value, name)) == answer[name], f"{name}: {raised.value}"
    if "position" in answer:
        assert f"position {answer['position']} " in str(raised.value) or f"positions from {answer['position']} " in str(raised.value)
        assert said(getattr(raised.value, "position", int(answer["position"]))) == answer["position"]


def run_step(kinds, objects, call, given, answer=None):
    """Makes a call, and compares its answer. A refused call may change nothing."""
    function, arguments = CALLS[call], [value_of(kind, it, objects) for kind, it in zip(kinds[call], given)]
    if answer and "error" in answer:
        before = {name: state(it) for name, it in objects.items()}
        refused(call, answer, function, arguments)
        assert before == {name: state(it) for name, it in objects.items()}, "a refused call changed something"
        return
    found, answer = function(*arguments), answer or {"is": None}
    if "as" in answer:
        found, objects[answer["as"]] = found if "is" in answer else (None, found)
    if "hash" in answer:
        assert y.data_hash(found.encode()).hex() == answer["hash"], found
    if "is" in answer:
        assert said(found) == answer["is"]


def run_test(kinds, steps):
    """Runs the steps of a test, except calls that the package lacks, and calls on what these would have made."""
    objects, lacking = {}, set()
    for step in steps:
        if step[0] in ABSENT or lacking & {it for it in step[1] if isinstance(it, str)}:
            lacking.update(answer.get("as") for answer in step[2:])
        else:
            run_step(kinds, objects, *step)


@pytest.fixture(scope="module", autouse=True)
def scripts_are_made():
    subprocess.run([sys.executable, VECTORS / "make_vectors", "--scripts"], check=True)


@pytest.mark.parametrize("name", NAMES)
def test_vectors(name):
    with open(FOLDER / f"{name}.jsonl", encoding="utf-8") as lines:
        head, *tests = map(json.loads, lines)
    for test in tests:
        try:
            run_test(head["calls"], test["steps"])
        except BaseException as error:
            raise AssertionError(f"{name}.jsonl: {test['test']}") from error
    assert len(tests) == head["numberOfTests"]


def test_each_script_is_run():
    assert {path.stem for path in FOLDER.glob("*.jsonl")} == {*NAMES}


def test_each_call_that_the_package_has_is_made():
    """A call of the table isn't left out, and scripts make it."""
    called = {call for path in FOLDER.glob("*.jsonl") for call in json.loads(path.open(encoding="utf-8").readline())["calls"]}
    assert not ABSENT & CALLS.keys() and called == ABSENT | CALLS.keys()
