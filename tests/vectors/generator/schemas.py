"""The JSON Schemas of the files of vectors."""

from __future__ import annotations

import json
from typing import Any

from .scripts import CALLS

Schema = dict[str, Any]

HASH: Schema = {"type": "string", "pattern": "^[0-9a-f]{64}$", "description": "the hex text of a hash"}
HEX: Schema = {"type": "string", "pattern": "^([0-9a-f]{2})*$", "description": "bytes in order, in hex"}
KEY: Schema = {"type": "string", "pattern": "^[0-9a-f]{64}$", "description": "32 bytes in order, in hex"}
NUMBER: Schema = {"type": "string", "pattern": "^(0|[1-9][0-9]{0,19})$", "description": "a whole number below 2^64"}
COUNT: Schema = {"type": "integer", "minimum": 0}
TRUTH: Schema = {"type": "boolean"}
TEXT: Schema = {"type": "string"}
OPTIONAL_HASH: Schema = {"anyOf": [{"$ref": "#/$defs/hash"}, {"type": "null"}]}


def one_of(*values: str) -> Schema:
    """One of some strings."""
    return {"enum": list(values)}


def array(items: Schema, **more: Any) -> Schema:
    """An array of such items."""
    return {"type": "array", "items": items, **more}


def record(needed: dict[str, Schema], optional: dict[str, Schema] | None = None) -> Schema:
    """An object with these members and no others."""
    return {"type": "object", "properties": {**needed, **(optional or {})}, "required": list(needed),
            "additionalProperties": False}


def ref(name: str) -> Schema:
    """A definition of the same schema."""
    return {"$ref": f"#/$defs/{name}"}


NODE = record({"hash": ref("hash"), "size": ref("number")})
LIST: Schema = {"oneOf": [
    record({"pattern": {"type": "string", "pattern": "^[.|]*$"}}),
    record({"drawn": record({"firstSeed": ref("number"), "count": COUNT})}),
    record({"seeds": array(ref("number"))}),
    record({"nodes": array(NODE)}),
]}
LEVELS = array(array(COUNT, minItems=2, maxItems=2), minItems=1)
SUBTREE = {"levels": ref("levels"), "size": ref("number"), "finalHash": OPTIONAL_HASH, "jsonHash": ref("hash")}
RANGE = record({"list": ref("list"), "atStart": TRUTH, "atEnd": TRUTH})
MARKS = {"atStart": TRUTH, "atEnd": TRUTH}
FILE: Schema = {"oneOf": [
    *LIST["oneOf"],
    record({"counted": record({"count": COUNT, "cutEvery": COUNT})}),
    record({"numbers": record({"first": COUNT, "count": COUNT, "lengths": array(COUNT, minItems=1)})}),
    record({"chunkBytes": array(ref("bytes"))}),
]}
PART = array(COUNT, minItems=2, maxItems=2)
DATA: Schema = {"oneOf": [HEX, record({"message": PART}), record({"mixed": PART}), record({"repeated": HEX, "part": PART})]}
DEFINITIONS: Schema = {"hash": HASH, "number": NUMBER, "key": KEY, "bytes": HEX, "data": DATA, "list": LIST, "file": FILE, "levels": LEVELS,
                       "range": RANGE,
                       "places": {"anyOf": [COUNT, array(ref("places"), minItems=2, maxItems=2)]}}


def test(needed: dict[str, Schema], optional: dict[str, Schema] | None = None) -> Schema:
    """A test: its number, comment, flags and result, and what its type has."""
    common: dict[str, Schema] = {"tcId": {"type": "integer", "minimum": 1}, "comment": TEXT, "flags": array(TEXT),
                                 "result": one_of("valid", "invalid")}
    return record({**common, **needed}, optional)


def valid_or_invalid(common: dict[str, Schema], answer: dict[str, Schema], refusal: dict[str, Schema],
                     optional: dict[str, Schema] | None = None) -> Schema:
    """A test that has an answer where it is valid, and a refusal where it isn't."""
    good = test({**common, "result": one_of("valid"), **answer}, optional)
    bad = test({**common, "result": one_of("invalid"), **refusal})
    return {"oneOf": [good, bad]}


def group(type_: str, tests: Schema, fields: dict[str, Schema] | None = None) -> Schema:
    """A group of tests of one type."""
    return record({"type": one_of(type_), "comment": TEXT, **(fields or {}), "tests": array(tests, minItems=1)})


def hashes() -> list[Schema]:
    """The groups of hashes.json."""
    return [
        group("MessageHash", test({"length": COUNT, "hash": ref("hash"), "digestBytes": ref("key")}),
              {"keyName": one_of("data", "internal", "given"), "keyBytes": ref("key")}),
        group("PieceHash", test({"pieces": array(COUNT), "hash": ref("hash")})),
        group("Key", test({"name": one_of("data", "internal"), "keyBytes": ref("key")})),
        group("RandomFromSeed", test({"seed": ref("number"), "hash": ref("hash")})),
        group("Hmac", test({"hash": ref("hash"), "key": ref("hash"), "hmac": ref("hash")})),
    ]


def files() -> list[Schema]:
    """The groups of files.json."""
    salted = array(record({"saltBytes": ref("key"), "fileHash": ref("hash")}))
    return [group("FileHash", test({"pieces": array(ref("data")), "cuts": array(COUNT), "root": ref("hash"), "fileHash": ref("hash"),
                                    "salted": salted}))]


def texts() -> list[Schema]:
    """The groups of texts.json."""
    remainder = record({"divisor": ref("number"), "remainder": ref("number")})
    base64: Schema = {"type": "string", "pattern": "^[-_0-9A-Za-z]{43}$"}
    forms = {"words": array(ref("number"), minItems=4, maxItems=4), "hashBytes": ref("key"), "hex": ref("hash"),
             "base64": base64, "naturalCut": TRUTH, "remainders": array(remainder)}
    read = valid_or_invalid({"text": TEXT}, {"hash": ref("hash")}, {})
    return [group("HashForms", test(forms)), group("HexText", read), group("Base64Text", read),
            group("HashOrder", test({"first": ref("hash"), "second": ref("hash"), "order": {"enum": [-1, 0, 1]}}))]


def roots() -> list[Schema]:
    """The groups of roots.json."""
    salted = array(record({"saltBytes": ref("key"), "fileHash": ref("hash")}))
    root = valid_or_invalid({"list": ref("list")}, {"root": ref("hash"), "fileHash": ref("hash")},
                            {"error": one_of("SizeOverflow")}, {"salted": salted})
    step = record({"groups": array(COUNT), "parents": array(NODE)})
    return [group("Root", root),
            group("Parent", test({"list": ref("list"), "text": TEXT, "hash": ref("hash"), "size": ref("number")})),
            group("RootSteps", test({"list": ref("list"), "steps": array(step), "root": ref("hash")}))]


def subtrees() -> list[Schema]:
    """The groups of subtrees.json."""
    point: Schema = {"anyOf": [COUNT, {"type": "null"}]}
    subtree = valid_or_invalid({"list": ref("list"), **MARKS}, SUBTREE, {"error": one_of("SizeOverflow")}, {"json": TEXT})
    return [group("StablePoints", test({"list": ref("list"), "first": point, "last": point})), group("Subtree", subtree)]


def merges() -> list[Schema]:
    """The groups of merges.json."""
    merge = test({"list": ref("list"), "cut": COUNT, **MARKS, "parents": COUNT, **SUBTREE})
    refused = test({"ranges": array(ref("range")), "error": one_of("InvalidArguments", "SizeOverflow")})
    bracketing = test({"bracketing": ref("places"), "parents": array(COUNT)}, {"rustFinalHash": ref("hash")})
    return [group("Merge", merge), group("MergeRefused", refused),
            group("Bracketing", bracketing, {"ranges": array(ref("range")), **SUBTREE})]


def subtree_json() -> list[Schema]:
    """The groups of subtree_json.json."""
    return [group("SubtreeJson", _json_texts(13))]


def _json_texts(rules: int) -> Schema:
    """Tests of texts that are read, that aren't JSON, or that break one of this many rules."""
    rule: Schema = {"type": "integer", "minimum": 1, "maximum": rules}
    return {"oneOf": [
        test({"result": one_of("valid"), "text": TEXT}, {"written": TEXT}),
        test({"result": one_of("invalid"), "text": TEXT, "error": one_of("NotJson")}),
        test({"result": one_of("invalid"), "text": TEXT, "error": one_of("InvalidJson"), "rule": rule}),
    ]}


def sessions() -> list[Schema]:
    """The groups of sessions.json."""
    def call(name: str, result: str, **fields: Schema) -> Schema:
        return record({"call": one_of(name), "result": one_of(result), **fields})

    run = record({"first": ref("number"), **SUBTREE})
    calls: list[Schema] = [
        call("put", "valid", first=ref("number"), list=ref("list"), newHashes=COUNT),
        call("put", "invalid", first=ref("number"), list=ref("list"), fault=one_of("Overlap", "Positions", "Sizes")),
        call("taken", "valid", position=ref("number"), taken=TRUTH),
        call("runs", "valid", runs=array(run)),
    ]
    for name in ("root", "finish"):
        calls.append(call(name, "valid", total=ref("number"), hash=ref("hash")))
        calls.append(call(name, "invalid", total=ref("number"), fault=one_of("Gap")))
    return [group("Session", test({"calls": array({"oneOf": calls})}))]


def session_json() -> list[Schema]:
    """The groups of session_json.json."""
    texts_ = _json_texts(13)
    refused = one_of("NoSession", "InvalidArguments", "SizeOverflow")
    texts_["oneOf"].append(test({"result": one_of("invalid"), "text": TEXT, "error": refused}))
    return [group("SessionJson", texts_)]


def range_proofs() -> list[Schema]:
    """The groups of range_proofs.json."""
    return [*_trees(), _opening(), *_proof_forms()]


def _trees() -> list[Schema]:
    pair = array(COUNT, minItems=2, maxItems=2)
    chunks_at = record({"start": ref("number"), "stop": ref("number"), "chunks": {"anyOf": [pair, {"type": "null"}]}})
    places = array(ref("number"), minItems=2)
    bytes_of = record({"first": COUNT, "end": COUNT, "bytes": {"anyOf": [{**places, "maxItems": 2}, {"type": "null"}]}})
    proof = record({"first": COUNT, "end": COUNT, "levels": array(pair), "places": places, "jsonHash": ref("hash"),
                    "flatHash": ref("hash")}, {"json": TEXT, "flatNodes": array(NODE)})
    answer = {"totalSize": ref("number"), "root": ref("hash"), "fileHash": ref("hash"), "chunksAt": array(chunks_at),
              "bytesOf": array(bytes_of), "proofs": array(proof)}
    salted = array(record({"saltBytes": ref("key"), "fileHash": ref("hash")}))
    tree = valid_or_invalid({"list": ref("file")}, answer, {"error": one_of("SizeOverflow")}, {"salted": salted})
    refused = test({"list": ref("file"), "first": COUNT, "end": COUNT, "error": one_of("InvalidArguments", "SizeOverflow")})
    return [group("HashTree", tree), group("Difference", _two_files()), group("ProofRefused", refused)]


def _two_files() -> Schema:
    suffix = record({"most": ref("number"), "count": COUNT})
    chunks = {name: COUNT for name in ("first", "end", "otherEnd")}
    difference = record({**chunks, **{name: ref("number") for name in ("start", "stop", "otherStop")}})
    return test({"list": ref("file"), "other": ref("file"), "commonPrefix": COUNT, "commonSuffixes": array(suffix),
                 "difference": {"anyOf": [difference, {"type": "null"}]}})


def _opening() -> Schema:
    place: Schema = {"anyOf": [ref("number"), {"type": "null"}]}
    check = record({"number": COUNT, "dataBytes": ref("bytes"), "place": place})
    read = record({"start": ref("number"), "stop": ref("number"), "dataBytes": ref("bytes"),
                   "readBytes": {"anyOf": [ref("bytes"), {"type": "null"}]}})
    answer = {"fileSize": ref("number"), "places": array(ref("number"), minItems=2), "checks": array(check),
              "reads": array(read)}
    kinds: list[Schema] = []
    for shown in ({"fileHash": ref("hash"), "saltBytes": ref("key")}, {"root": ref("hash")}):
        kinds += valid_or_invalid({"text": TEXT, **shown}, answer, {"error": one_of("Mismatch")})["oneOf"]
    return group("OpenProof", {"oneOf": kinds})


def _proof_forms() -> list[Schema]:
    flat = {"levels": array(array(ref("number"), minItems=2, maxItems=2)), "nodes": array(NODE)}
    rule: Schema = {"type": "integer", "minimum": 5, "maximum": 8}
    lists_ = valid_or_invalid(flat, {"json": TEXT}, {"error": one_of("InvalidJson"), "rule": rule})
    rule_of_bytes: Schema = {"enum": [1, 3, 4, 5, 6, 7, 8]}
    bytes_ = valid_or_invalid({"proofBytes": ref("bytes")}, {"json": TEXT}, {"error": one_of("InvalidJson"), "rule": rule_of_bytes})
    return [group("ProofJson", _json_texts(8)), group("FlatProof", lists_), group("ProofBytes", bytes_)]


def upstream() -> list[Schema]:
    """The groups of upstream.json."""
    return [it for it in roots() + subtrees() if it["properties"]["type"] in (one_of("Root"), one_of("Subtree"))]


SCHEMAS = {"hashes": hashes, "files": files, "texts": texts, "roots": roots, "subtrees": subtrees, "merges": merges,
           "subtree_json": subtree_json, "sessions": sessions, "session_json": session_json, "range_proofs": range_proofs,
           "upstream": upstream}


def schema(name: str) -> Schema:
    """The schema of a file."""
    groups = SCHEMAS[name]()
    body = record({
        "algorithm": TEXT, "version": {"type": "string", "pattern": "^[0-9]+[.][0-9]+[.][0-9]+$"},
        "schema": one_of(f"schemas/{name}_schema.json"), "numberOfTests": COUNT, "header": array(TEXT),
        "notes": {"type": "object", "additionalProperties": TEXT}, "testGroups": array({"oneOf": groups}, minItems=1)})
    used = _used(groups)
    definitions = {key: value for key, value in DEFINITIONS.items() if key in used}
    return {"$schema": "https://json-schema.org/draft/2020-12/schema", "title": f"{name}.json", **body, "$defs": definitions}


def _used(value: Any) -> set[str]:
    """The definitions that a schema needs."""
    if isinstance(value, list):
        return {name for it in value for name in _used(it)}
    if not isinstance(value, dict):
        return set()
    found = {name for it in value.values() for name in _used(it)}
    if isinstance(value.get("$ref"), str):
        name = value["$ref"].rsplit("/", 1)[1]
        if name != "places":
            found |= _used(DEFINITIONS[name])
        found.add(name)
    return found


def text(name: str) -> str:
    """The text of the schema of a file."""
    return json.dumps(script_schema() if name == "scripts" else schema(name), indent=1) + "\n"


# ---- Scripts

NAME: Schema = {"type": "string", "pattern": "^[a-z]+[0-9]*$", "description": "the name of an object of the test"}
SAID: Schema = {"oneOf": [{"type": "integer", "minimum": 0, "maximum": 2**53 - 1}, {"type": "string", "pattern": "^[1-9][0-9]{15,19}$"}],
                "description": "a whole number below 2^64, which is a text if it is 2^53 or more"}
KINDS: dict[str, Schema] = {
    "object": NAME, "number": SAID, "bool": TRUTH, "text": TEXT, "hash": HASH, "bytes": KEY, "hashes": array(ref("hash")), "numbers": array(SAID),
    "data": DATA,
    "chunks": {"oneOf": [NAME, *({**rule, "properties": {**rule["properties"], "part": PART}} for rule in FILE["oneOf"])]},
    "levels": array(array(SAID, minItems=2, maxItems=2)), "subtrees": array(NAME)}
ANSWER: Schema = {"oneOf": [
    record({}, {"as": NAME, "is": {}}), record({"hash": ref("hash")}),
    record({"error": one_of("ARGUMENTS", "SIZES", "TEXT", "RULE", "PROOF_RULE", "MISMATCH", "SESSION_OVERLAP", "SESSION_POSITIONS",
                            "SESSION_GAP")},
           {"rule": COUNT, "position": SAID, "chunk": {"anyOf": [COUNT, {"type": "null"}]}, "place": {"anyOf": [SAID, {"type": "null"}]}})]}


def kind(name: str) -> Schema:
    """An argument of a kind. Those that aren't named above are objects."""
    return {"$ref": f"#/$defs/kinds/{name if name in KINDS else 'object'}"}


def step_of(kinds: str) -> Schema:
    """A step whose call takes arguments of these kinds."""
    names = [name for name, taken in CALLS.items() if taken == kinds]
    given = list(map(kind, kinds.split()))
    arguments: Schema = {"type": "array", "minItems": len(given), "maxItems": len(given), **({"prefixItems": given} if given else {})}
    return {"type": "array", "minItems": 2, "maxItems": 3, "prefixItems": [one_of(*names), arguments, ref("answer")]}


def script_schema() -> Schema:
    """The schema of each line of a script."""
    head = record({"script": TEXT, "version": {"type": "string", "pattern": "^[0-9]+[.][0-9]+[.][0-9]+$"}, "numberOfTests": COUNT,
                   "header": array(TEXT), "notes": {"type": "object", "additionalProperties": TEXT},
                   "calls": {"type": "object", "additionalProperties": array(TEXT)}})
    steps = array({"anyOf": [step_of(kinds) for kinds in dict.fromkeys(CALLS.values())]}, minItems=1)
    one_test = record({"test": TEXT, "steps": steps}, {"flags": array(TEXT, minItems=1), "words": array(TEXT), "rustFinalHash": HASH,
                                                       "groups": array(array(COUNT))})
    return {"$schema": "https://json-schema.org/draft/2020-12/schema", "title": "a line of a script", "oneOf": [head, one_test],
            "$defs": {"hash": HASH, "number": NUMBER, "bytes": HEX, "answer": ANSWER, "kinds": KINDS}}


def steps_of(schema_of_lines: Schema) -> list[Schema]:
    """What the schema of the lines of scripts says of steps, one by one."""
    test_line = schema_of_lines["oneOf"][1]
    return list(test_line["properties"]["steps"]["items"]["anyOf"])
