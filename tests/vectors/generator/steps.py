"""The steps of each type of test: what a test of a file of vectors says, as calls with their answers."""

from __future__ import annotations

import itertools
from typing import Any, Callable, Iterable, Iterator, Union

from . import lists, whole_files
from .files import File, Group, Test
from .hashes import message
from .model import m, range_proof
from .scripts import Script, Step, a_test, call, number, refused

ERRORS = {"SizeOverflow": "SIZES", "InvalidArguments": "ARGUMENTS", "NotJson": "TEXT", "NoSession": "TEXT", "InvalidJson": "RULE",
          "Mismatch": "MISMATCH"}
NO_SALT = bytes(32).hex()
#: What begins a hasher under a key of the format, and what hashes a message under it.
CALLS_OF_KEYS = {"data": ("hasher_begin_data", "data_hash"), "internal": ("hasher_begin_internal", "internal_node_hash")}
Steps = Iterator[Step]


def part(rule: dict[str, Any], first: int, end: int) -> dict[str, Any]:
    """A part of a list of chunks."""
    return {**rule, "part": [first, end]}


def whole(text: str) -> Union[int, str]:
    """A whole number that a test says as a text."""
    return number(int(text))


def data(start: int, end: int) -> dict[str, Any]:
    """A part of the message whose byte i is i mod 251."""
    return {"message": [start, end]}


# ---- Hashes and their texts

def message_hash(group: Group, it: Test) -> Steps:
    """A message under a key."""
    given = data(0, it["length"])
    yield call("hasher_begin_keyed", group.fields["keyBytes"], makes="h")
    yield call("hasher_update", "h", given)
    yield call("hasher_finalize", "h", gives=it["hash"])
    yield call("hash_from_bytes", it["digestBytes"], gives=it["hash"])
    if group.fields["keyName"] in CALLS_OF_KEYS:
        begun, called = CALLS_OF_KEYS[group.fields["keyName"]]
        yield call(begun, makes="k")
        yield call("hasher_update", "k", given)
        yield call("hasher_finalize", "k", gives=it["hash"])
        yield call(called, given, gives=it["hash"])


def piece_hash(_: Group, it: Test) -> Steps:
    """A message in pieces."""
    at = 0
    yield call("hasher_begin_data", makes="h")
    for length in it["pieces"]:
        yield call("hasher_update", "h", data(at, at + length))
        at += length
        yield call("hasher_count", "h", gives=number(at))
    yield call("hasher_finalize", "h", gives=it["hash"])
    yield call("data_hash", data(0, at), gives=it["hash"])
    offsets = [0, *itertools.accumulate(it["pieces"])]
    parts = [message(at)[start:end] for start, end in zip(offsets, offsets[1:])]
    yield call("data_hashes", data(0, at), offsets, gives=list(map(lists.data_hash, parts)))
    yield refused("data_hashes", data(0, at), [*offsets, at + 1], error="ARGUMENTS")
    if at > 1:
        yield refused("data_hashes", data(0, at), [0, at, at - 1], error="ARGUMENTS")


def chunk_ends(pieces: list[whole_files.Said], cuts: list[int]) -> Steps:
    """Where the chunks of a file end, by a chunker that gets its pieces. The last cut is no end if the chunk would go on."""
    made = list(map(whole_files.bytes_of, pieces))
    last_chunk = b"".join(made)[[0, 0, *cuts][-2]:]
    ends = cuts if whole_files.ends_of(last_chunk) else cuts[:-1]
    at = last = 0
    yield call("chunker_begin", makes="c")
    for piece, length in zip(pieces, map(len, made)):
        inside = [end for end in ends if at < end <= at + length]
        places = [at, *inside]
        for start, end in zip(places, inside):
            yield call("chunker_next_boundary", "c", whole_files.part_of(piece, start - at, length), gives=end - start)
        yield call("chunker_next_boundary", "c", whole_files.part_of(piece, places[-1] - at, length), gives=None)
        at, last = at + length, inside[-1] if inside else last
        yield call("chunker_taken", "c", gives=at - last)


def file_hash(_: Group, it: Test) -> Steps:
    """A file in pieces: its chunks, and its hashes, which can also be asked for before its end."""
    yield from chunk_ends(it["pieces"], it["cuts"])
    yield call("file_hasher_new", makes="f")
    for place, piece in enumerate(it["pieces"]):
        yield call("file_hasher_update", "f", piece)
        if place == 0 and 1 < len(it["pieces"]) < 9:
            begun = whole_files.a_file("", piece)
            yield call("file_hasher_root", "f", gives=begun["root"])
            yield call("file_hasher_finish", "f", gives=begun["fileHash"])
    yield call("file_hasher_size", "f", gives=it["cuts"][-1] if it["cuts"] else 0)
    yield call("file_hasher_root", "f", gives=it["root"])
    yield call("file_hasher_finish", "f", gives=it["fileHash"])
    for row in [{"saltBytes": NO_SALT, "fileHash": it["fileHash"]}, *it["salted"]]:
        yield call("file_hasher_finish_with_salt", "f", row["saltBytes"], gives=row["fileHash"])


def key(_: Group, it: Test) -> Steps:
    """A key of the format."""
    wanted = m.to_hex(lists.hash_of(m.blake(bytes.fromhex(it["keyBytes"]), message(3))))
    yield call("hasher_begin_keyed", it["keyBytes"], makes="h")
    yield call("hasher_update", "h", data(0, 3))
    yield call("hasher_finalize", "h", gives=wanted)
    yield call(CALLS_OF_KEYS[it["name"]][1], data(0, 3), gives=wanted)


def random_from_seed(_: Group, it: Test) -> Steps:
    """The hash of a seed."""
    yield call("random_from_seed", whole(it["seed"]), gives=it["hash"])


def hmac(_: Group, it: Test) -> Steps:
    """A hash under a hash."""
    yield call("hmac", it["hash"], it["key"], gives=it["hmac"])


def hash_forms(_: Group, it: Test) -> Steps:
    """The forms of a hash."""
    hash_ = it["hex"]
    yield call("hash_from_bytes", it["hashBytes"], gives=hash_)
    yield call("hash_to_bytes", hash_, gives=it["hashBytes"])
    yield call("hex", hash_, gives=hash_)
    yield call("base64", hash_, gives=it["base64"])
    for row in it["remainders"]:
        yield call("remainder", hash_, whole(row["divisor"]), gives=whole(row["remainder"]))


def text_of_a_hash(name: str) -> Callable[[Group, Test], Steps]:
    """A text that is read or refused."""
    def steps(_: Group, it: Test) -> Steps:
        good = it["result"] == "valid"
        yield call(name, it["text"], gives=it["hash"]) if good else refused(name, it["text"], error="TEXT")
    return steps


def hash_order(_: Group, it: Test) -> Steps:
    """The order of two hashes."""
    yield call("compare", it["first"], it["second"], gives=it["order"])


# ---- Lists of chunks and subtrees

def root(_: Group, it: Test) -> Steps:
    """The root and the file hashes of a list."""
    if it["result"] == "invalid":
        for name, *salt in (("xorb_hash",), ("file_hash",), ("file_hash_with_salt", NO_SALT)):
            yield refused(name, it["list"], *salt, error=ERRORS[it["error"]])
        return
    yield call("chunks", it["list"], makes="c")
    yield call("xorb_hash", "c", gives=it["root"])
    yield call("file_hash", "c", gives=it["fileHash"])
    if "salted" in it:
        yield from salted(it)


def length_of(rule: dict[str, Any]) -> int:
    """How many chunks a list has."""
    (told,) = rule.values()
    return int(told["count"]) if isinstance(told, dict) else len(told)


def different_hashes(rule: dict[str, Any]) -> int:
    """How many different hashes a list has by its rule, `pattern`, `drawn` or `seeds`. Different seeds have different hashes."""
    return len(set(rule["seeds"])) if "seeds" in rule else length_of(rule)


def salted(it: Test) -> Steps:
    """The file hash under salts: of the list, of its subtree, and of a session."""
    yield call("subtree_from_chunks", True, "c", True, makes="t")
    yield call("session_new", makes="s")
    yield call("session_put", "s", 0, "c", gives=different_hashes(it["list"]))
    for row in [{"saltBytes": NO_SALT, "fileHash": it["fileHash"]}, *it["salted"]]:
        salt, wanted = row["saltBytes"], row["fileHash"]
        yield call("file_hash_with_salt", "c", salt, gives=wanted)
        yield call("subtree_file_hash", "t", salt, gives=wanted)
        yield call("session_finish_with_salt", "s", length_of(it["list"]), salt, gives=wanted)


def parent(_: Group, it: Test) -> Steps:
    """A group of nodes with its text and its parent."""
    yield call("internal_node_hash", it["text"].encode().hex(), gives=it["hash"])
    yield call("subtree_from_chunks", False, it["list"], False, makes="t")
    yield call("subtree_total_size", "t", gives=whole(it["size"]))


def root_steps(_: Group, it: Test) -> Steps:
    """The root of each level."""
    yield call("xorb_hash", it["list"], gives=it["root"])
    for level in it["steps"]:
        yield call("xorb_hash", {"nodes": level["parents"]}, gives=it["root"])


def stable_points(_: Group, it: Test) -> Steps:
    """The stable points of a list."""
    for name, point in (("find_stable_start", it["first"]), ("find_stable_end", it["last"])):
        yield refused(name, it["list"], error="ARGUMENTS") if point is None else call(name, it["list"], gives=point)


def subtree_is(name: str, it: dict[str, Any]) -> Steps:
    """What a subtree is."""
    yield call("subtree_levels", name, gives=it["levels"])
    yield call("subtree_total_size", name, gives=whole(it["size"]))
    yield call("subtree_to_json", name, gives=it["json"]) if "json" in it else call("subtree_to_json", name, hash=it["jsonHash"])
    final = it["finalHash"]
    yield call("subtree_final_hash", name, gives=final) if final else refused("subtree_final_hash", name, error="ARGUMENTS")


def from_chunks(name: str, it: dict[str, Any]) -> Step:
    """A range of chunks under its marks."""
    return call("subtree_from_chunks", it["atStart"], it["list"], it["atEnd"], makes=name)


def subtree(_: Group, it: Test) -> Steps:
    """The subtree of a list."""
    if it["result"] == "invalid":
        yield refused("subtree_from_chunks", it["atStart"], it["list"], it["atEnd"], error=ERRORS[it["error"]])
        return
    yield from_chunks("t", it)
    yield call("subtree_marks", "t", gives=[it["atStart"], it["atEnd"]])
    yield call("subtree_num_levels", "t", gives=len(it["levels"]))
    yield call("subtree_num_nodes", "t", gives=sum(map(sum, it["levels"])))
    yield from subtree_is("t", it)


def merge(_: Group, it: Test) -> Steps:
    """A list that is cut in two and merged."""
    yield call("subtree_from_chunks", it["atStart"], part(it["list"], 0, it["cut"]), False, makes="l")
    yield call("subtree_from_chunks", False, part(it["list"], it["cut"], length_of(it["list"])), it["atEnd"], makes="r")
    yield call("subtree_merge", ["l", "r"], makes="m")
    yield from subtree_is("m", it)
    yield call("subtree_clone", "l", makes="k")
    yield call("subtree_merge_into", "k", "r")
    yield call("subtree_merge_into_counted", "l", "r", gives=it["parents"])
    for name in ("k", "l"):
        yield call("subtree_equal", name, "m", gives=True)


def merge_refused(_: Group, it: Test) -> Steps:
    """Two ranges that aren't merged."""
    names = [f"r{k}" for k in range(len(it["ranges"]))]
    yield from map(from_chunks, names, it["ranges"])
    for name in ("subtree_merge_into", "subtree_merge_into_counted"):
        yield refused(name, *names, error=ERRORS[it["error"]])
    yield refused("subtree_merge", names, error=ERRORS[it["error"]])


def bracketing(group: Group, it: Test) -> Steps:
    """Ranges that are merged two by two, and all at once."""
    names = [f"r{k}" for k in range(len(group.fields["ranges"]))]
    steps, parents = list(map(from_chunks, names, group.fields["ranges"])), iter(it["parents"])

    def merged(places: Any) -> str:
        if isinstance(places, int):
            return f"r{places}"
        left, right = map(merged, places)
        name = f"m{len(steps)}"
        steps.append(call("subtree_clone", left, makes=name))
        steps.append(call("subtree_merge_into_counted", name, right, gives=next(parents)))
        return name

    last = merged(it["bracketing"])
    yield from steps
    yield from subtree_is(last, group.fields)
    yield call("subtree_merge", names, makes="all")
    yield call("subtree_equal", "all", last, gives=True)


def read(of: str, name: str, rule: str) -> Callable[[Group, Test], Steps]:
    """A text that is read, and written again, or refused."""
    def steps(_: Group, it: Test) -> Steps:
        if it["result"] == "valid":
            yield call(f"{of}_{name}", it["text"], makes=of[0])
            yield call(f"{of}_to_json", of[0], gives=it.get("written", it["text"]))
        elif it["error"] == "InvalidJson":
            yield refused(f"{of}_{name}", it["text"], error=rule, rule=it["rule"])
        else:
            yield refused(f"{of}_{name}", it["text"], error=ERRORS[it["error"]])
    return steps


def subtree_json(group: Group, it: Test) -> Steps:
    """A text that is read or refused, and its flat lists if it has any: a value that breaks none of the rules 1 to 4 does."""
    yield from read("subtree", "from_json", "RULE")(group, it)
    if it["result"] == "invalid" and it.get("rule", 0) < 5:
        return
    value = m.parse_json_text(it.get("written", it["text"]))
    nodes = [(lists.hash_of_text(node["hash"]), node["size"]) for node in value["nodes"]]
    levels = [list(map(number, level)) for level in value["levels"]]
    given = ("subtree_from_flat", value["at_start"], levels, lists.given(nodes).said, value["at_end"])
    if it["result"] == "invalid":
        yield refused(*given, error="RULE", rule=it["rule"])
        return
    yield call(*given, makes="f")
    yield call("subtree_equal", "f", "s", gives=True)
    yield call("subtree_marks", "s", gives=[value["at_start"], value["at_end"]])
    yield call("subtree_levels", "s", gives=value["levels"])
    yield call("subtree_nodes", "s", hash=lists.data_hash(m.group_text(nodes)))


# ---- Range proofs

def hash_tree(_: Group, it: Test) -> Steps:
    """A list with its hashes, places and proofs."""
    if it["result"] == "invalid":
        yield refused("hash_tree_from_chunks", it["list"], error=ERRORS[it["error"]])
        return
    yield call("chunks", it["list"], makes="c")
    yield call("hash_tree_from_chunks", "c", makes="t")
    yield call("hash_tree_root", "t", gives=it["root"])
    yield call("hash_tree_num_chunks", "t", gives=length_of(it["list"]))
    yield call("hash_tree_total_size", "t", gives=whole(it["totalSize"]))
    for row in [{"saltBytes": NO_SALT, "fileHash": it["fileHash"]}, *it.get("salted", [])]:
        yield call("hash_tree_file_hash", "t", row["saltBytes"], gives=row["fileHash"])
    for row in it["chunksAt"]:
        given = ("hash_tree_chunks_at", "t", whole(row["start"]), whole(row["stop"]))
        yield refused(*given, error="ARGUMENTS") if row["chunks"] is None else call(*given, gives=list(row["chunks"]))
    for row in it["bytesOf"]:
        given = ("hash_tree_bytes_of", "t", row["first"], row["end"])
        yield refused(*given, error="ARGUMENTS") if row["bytes"] is None else call(*given, gives=list(map(whole, row["bytes"])))
    for row in it["proofs"]:
        yield from made_proof(it, row)


#: The members of a difference, and those of the difference that the other file has from this one.
ENDS = ("first", "end", "otherEnd", "start", "stop", "otherStop")
OTHER_ENDS = ("first", "otherEnd", "end", "start", "otherStop", "stop")


def difference(_: Group, it: Test) -> Steps:
    """Two files, each beside itself, and beside the other one."""
    for name, told in (("t", it["list"]), ("u", it["other"])):
        yield call("hash_tree_from_chunks", told, makes=name)
        yield call("hash_tree_common_prefix", name, name, gives=length_of(told))
        yield call("hash_tree_diff", name, name, gives=None)
    found = it["difference"]
    for one, other, ends in (("t", "u", ENDS), ("u", "t", OTHER_ENDS)):
        yield call("hash_tree_common_prefix", one, other, gives=it["commonPrefix"])
        for row in it["commonSuffixes"]:
            yield call("hash_tree_common_suffix", one, other, whole(row["most"]), gives=row["count"])
        yield call("hash_tree_diff", one, other, gives=found and [number(int(found[end])) for end in ends])


def made_proof(it: Test, row: dict[str, Any]) -> Steps:
    """A proof of some chunks of a tree, which is opened."""
    yield call("hash_tree_proof", "t", row["first"], row["end"], makes="p")
    yield call("range_proof_levels", "p", gives=row["levels"])
    yield call("range_proof_nodes", "p", hash=row["flatHash"])
    yield call("range_proof_to_json", "p", gives=row["json"]) if "json" in row else call("range_proof_to_json", "p", hash=row["jsonHash"])
    yield call("range_proof_from_chunks", "c", row["first"], row["end"], makes="q")
    yield call("range_proof_to_json", "q", hash=row["jsonHash"])
    for name, hash_, *salt in (("range_proof_open", it["fileHash"], NO_SALT), ("range_proof_open_root", it["root"])):
        if hash_ == m.to_hex(m.DEFAULT_HASH):
            yield refused(name, "p", hash_, *salt, error="MISMATCH")
            continue
        yield call(name, "p", hash_, *salt, makes="o")
        yield call("opened_range_file_size", "o", gives=whole(it["totalSize"]))
        yield from places("o", row["places"])


def places(name: str, wanted: list[str]) -> Steps:
    """Where the chunks of an opened range begin and end."""
    count = len(wanted) - 1
    yield call("opened_range_num_chunks", name, gives=count)
    for k in range(count):
        yield call("opened_range_bytes_of", name, k, gives=[whole(wanted[k]), whole(wanted[k + 1])])
    yield refused("opened_range_bytes_of", name, count, error="ARGUMENTS")


def proof_refused(_: Group, it: Test) -> Steps:
    """A range that has no proof. A tree is refused for its sizes alone, before it has any range."""
    yield call("chunks", it["list"], makes="c")
    yield refused("range_proof_from_chunks", "c", it["first"], it["end"], error=ERRORS[it["error"]])
    if m.total_size(lists.of_rule(it["list"]).nodes) > m.MAX_U64:
        yield refused("hash_tree_from_chunks", "c", error="SIZES")
        return
    yield call("hash_tree_from_chunks", "c", makes="t")
    yield refused("hash_tree_proof", "t", it["first"], it["end"], error=ERRORS[it["error"]])


def open_proof(_: Group, it: Test) -> Steps:
    """A proof that is opened, with data that is offered."""
    yield call("range_proof_from_json", it["text"], makes="p")
    given = ("range_proof_open_root", "p", it["root"]) if "root" in it else ("range_proof_open", "p", it["fileHash"], it["saltBytes"])
    if it["result"] == "invalid":
        yield refused(*given, error=ERRORS[it["error"]])
        return
    yield call(*given, makes="o")
    yield call("opened_range_file_size", "o", gives=whole(it["fileSize"]))
    yield from places("o", it["places"])
    for row in it["checks"]:
        yield checked(it["places"], row)
    for row in it["reads"]:
        given = ("opened_range_read", "o", whole(row["start"]), whole(row["stop"]), row["dataBytes"])
        read_bytes = row["readBytes"]
        yield refused(*given, error="MISMATCH", **first_wrong(it, row)) if read_bytes is None else call(*given, gives=read_bytes)


def first_wrong(it: Test, row: dict[str, Any]) -> dict[str, Any]:
    """The number and the place of the first chunk that isn't right in the data of a range; null if none is, or there is too much data."""
    ends, data_of_range = list(map(int, it["places"])), bytes.fromhex(row["dataBytes"])
    if len(data_of_range) <= ends[-1] - ends[0]:
        for k, node in enumerate(range_proof.from_json_text(it["text"]).chunks):
            chunk = data_of_range[ends[k] - ends[0]:ends[k + 1] - ends[0]]
            if (m.compute_data_hash(chunk), len(chunk)) != node:
                return {"chunk": k, "place": number(ends[k])}
    return {"chunk": None, "place": None}


def checked(all_places: list[str], row: dict[str, Any]) -> Step:
    """Data that is offered for a chunk. If it is refused, the number and the place of the chunk are told."""
    given = ("opened_range_check", "o", row["number"], row["dataBytes"])
    if row["place"] is not None:
        return call(*given, gives=whole(row["place"]))
    there = row["number"] < len(all_places) - 1
    return refused(*given, error="MISMATCH", **({"chunk": row["number"], "place": whole(all_places[row["number"]])} if there else {}))


def flat_proof(_: Group, it: Test) -> Steps:
    """A flat form that is read or refused."""
    given = ("range_proof_from_flat", [list(map(whole, level)) for level in it["levels"]], {"nodes": it["nodes"]})
    if it["result"] == "invalid":
        yield refused(*given, error="PROOF_RULE", rule=it["rule"])
        return
    yield call(*given, makes="p")
    yield call("range_proof_to_json", "p", gives=it["json"])
    yield call("range_proof_levels", "p", gives=given[1])


def proof_bytes(_: Group, it: Test) -> Steps:
    """Bytes that are read or refused."""
    given = ("range_proof_from_bytes", it["proofBytes"])
    if it["result"] == "invalid":
        yield refused(*given, error="PROOF_RULE", rule=it["rule"])
        return
    yield call(*given, makes="p")
    yield call("range_proof_to_json", "p", gives=it["json"])
    yield call("range_proof_to_bytes", "p", gives=it["proofBytes"])


KINDS: dict[str, Callable[[Group, Test], Iterable[Step]]] = {
    "MessageHash": message_hash, "PieceHash": piece_hash, "FileHash": file_hash, "Key": key, "RandomFromSeed": random_from_seed, "Hmac": hmac,
    "HashForms": hash_forms, "HexText": text_of_a_hash("from_hex"), "Base64Text": text_of_a_hash("from_base64"),
    "HashOrder": hash_order, "Root": root, "Parent": parent, "RootSteps": root_steps, "StablePoints": stable_points,
    "Subtree": subtree, "Merge": merge, "MergeRefused": merge_refused, "Bracketing": bracketing,
    "SubtreeJson": subtree_json, "SessionJson": read("session", "from_json", "RULE"),
    "HashTree": hash_tree, "Difference": difference, "ProofRefused": proof_refused, "OpenProof": open_proof,
    "ProofJson": read("range_proof", "from_json", "PROOF_RULE"), "FlatProof": flat_proof, "ProofBytes": proof_bytes}
#: What a test says that no call answers, for whoever looks for a fault.
TOLD = ("words", "rustFinalHash")


def script_of(file: File, means: list[str]) -> Script:
    """The script of a file of vectors, and what it tests, in the words of the file's header."""
    tests = []
    for group in file.groups:
        for it in group.tests:
            comment = ": ".join(text for text in (group.comment, it["comment"]) if text)
            told = {name: it[name] for name in TOLD if name in it}
            if group.type == "RootSteps":
                told["groups"] = [level["groups"] for level in it["steps"]]
            tests.append(a_test(comment, KINDS[group.type](group, it), *it["flags"], **told))
    rule = "PROOF_RULE" if file.name == "range_proofs" else "RULE"
    return Script(file.name, [with_statuses(text, {**ERRORS, "InvalidJson": rule}) for text in means], file.notes, tests)


def with_statuses(text: str, statuses: dict[str, str]) -> str:
    """A text with the names of statuses instead of those of errors."""
    for error, status in statuses.items():
        text = text.replace(error, status)
    return text
