"""The tests of range_proofs.json on JSON texts, flat forms and bytes of proofs, and the lowest rule that others break."""

from __future__ import annotations

import json
from typing import Any, Sequence

from . import lists
from .files import Group, Test, invalid, valid
from .model import m, range_proof

RULES = {
    1: "it is an object",
    2: "`chunks` and `levels` are arrays",
    3: "each level is an object whose `left` and `right` are arrays",
    4: "each node, of the chunks and of all sides, is an object with `hash`, 64 hex digits of either case, and `size`, a whole "
       "number from 0 to 2^64 - 1",
    5: "there is at least one chunk",
    6: "there are at most 64 levels",
    7: "each side has at most 8 nodes",
    8: "the sizes of all nodes add up to at most 2^64 - 1",
}
BYTE_RULES = {
    1: "there is a first byte",
    3: "two bytes follow for each level",
    4: "whole nodes follow, of 40 bytes each",
}
NOTES = {
    "ProofOfAList": "The proof of a range of a list.",
    "ProofOfNoList": "A value that keeps all rules, but is the proof of no list. It is read, and opening it decides.",
    "OtherSpelling": "White space, another order of members, other members, escapes, or digits of the other case.",
    "EqualMembers": "If a member occurs twice, the last one counts.",
    "NumberSpelling": "A number with a fraction, an exponent or a sign isn't a whole number, whatever its value. Neither is -0.",
    "Beyond64Bits": "A number of more than 64 bits, or numbers whose sum has more. The sum must not wrap. Leave out a flat form "
                    "whose counts don't fit your type for them.",
    "LaterRulesToo": "The value also breaks later rules. The lowest one is reported.",
}
MAX = m.MAX_U64
ONE, TWO, THREE = lists.numbered(1, 4)
GOOD = range_proof.RangeProof((ONE,), (((TWO,), ()), ((), ())))
TEXT = str(range_proof.to_json_text(GOOD))
EMPTY_LEVEL: tuple[Sequence[m.Node], Sequence[m.Node]] = ((), ())


def text_test(comment: str, text: str, *flags: str) -> Test:
    """A text with what the model makes of it."""
    try:
        proof = range_proof.from_json_text(text)
    except m.NotJson:
        return invalid(comment, *flags, text=text, error="NotJson")
    except m.InvalidJson as refusal:
        return invalid(comment, *flags, text=text, error="InvalidJson", rule=refusal.rule)
    written = range_proof.to_json_text(proof)
    return valid(comment, *flags, text=text, **({} if written == text else {"written": written}))


def said(chunks: Sequence[m.Node], *levels: tuple[Sequence[m.Node], Sequence[m.Node]]) -> str:
    """The text of a value by its nodes."""
    sides = tuple((tuple(left), tuple(right)) for left, right in levels)
    return str(range_proof.to_json_text(range_proof.RangeProof(tuple(chunks), sides)))


def good() -> Group:
    """Texts that are read."""
    chosen = [(lists.seeds([1]), 0, 1), (lists.seeds([1, 2, 3]), 0, 3), (lists.counted(28, 4), 10, 12),
              (lists.drawn(1, 40), 20, 21), (lists.sized(m.MAX_U64, 0), 1, 2)]
    tests = [text_test("", range_proof.to_json_text(range_proof.prove(told.nodes, first, end, lists.maker)), "ProofOfAList")
             for told, first, end in chosen]
    eight, (a, b) = lists.numbered(10, 18), ((1, 2, 3, 4), (1, 1, 1, 1))
    rows = [("an empty level", TEXT), ("64 levels", said([ONE], *[EMPTY_LEVEL] * 64)),
            ("8 nodes on each side", said([ONE], (eight, eight))), ("20 chunks", said(lists.numbered(0, 20))),
            ("the greatest sum", said([(a, 2**63)], ([(b, 2**63 - 1)], []))),
            ("the greatest size", said([(a, m.MAX_U64)], ([(b, 0)], []))),
            ("the size 0", said([(a, 0)])), ("the default hash", said([(m.DEFAULT_HASH, 0)]))]
    tests += [text_test(comment, text, "ProofOfNoList") for comment, text in rows]
    if any(test["result"] != "valid" or "written" in test for test in tests):
        raise ValueError("a text isn't read as it stands")
    return Group("ProofJson", "texts of proofs", tests + spellings())


def spellings() -> list[Test]:
    """Other spellings of a text that are read."""
    value = json.loads(TEXT)
    chunks, levels = (m.compact(value[name]) for name in ("chunks", "levels"))
    rows = [("white space", json.dumps(value, indent=1).replace("\n", "\r\n\t"), "OtherSpelling"),
            ("another order", f'{{"levels":{levels},"chunks":{chunks}}}', "OtherSpelling"),
            ("another order in a level", TEXT.replace('{"left":[],"right":[]}', '{"right":[],"left":[]}'), "OtherSpelling"),
            ("another member of the object", TEXT.replace('"levels"', '"file_size":1.5,"levels"'), "OtherSpelling"),
            ("another member of a level", TEXT.replace('"left":[]', '"left":[],"middle":[7]'), "OtherSpelling"),
            ("another member of a node", TEXT.replace('{"hash"', '{"data":null,"hash"'), "OtherSpelling"),
            ("escapes in a name", TEXT.replace('"chunks"', '"ch\\u0075nks"'), "OtherSpelling"),
            ("escapes in a digit", TEXT.replace('"hash":"0', '"hash":"\\u0030'), "OtherSpelling"),
            ("chunks twice", TEXT.replace('"chunks"', '"chunks":7,"chunks"'), "EqualMembers"),
            ("a side twice", TEXT.replace('"right"', '"right":{},"right"'), "EqualMembers")]
    tests = [text_test(*row) for row in rows]
    if any(test["result"] != "valid" or test.get("written") != TEXT for test in tests):
        raise ValueError("another spelling isn't read as the same proof")
    drawn = said([lists.seeds([1]).nodes[0]])
    return [*tests, text_test("upper-case digits", drawn.replace("cfc5d07f6f03c29b", "CFC5D07F6F03C29B"), "OtherSpelling")]


def not_json() -> Group:
    """Texts that aren't JSON."""
    texts = ["", "{", "nothing", TEXT + "}", TEXT + TEXT, TEXT[:-1], TEXT[:30], TEXT.replace("[]", "[,]"),
             TEXT.replace('"', "'"), TEXT[:-1] + ",}", TEXT + "\0"]
    texts += [TEXT.replace('"size":1', f'"size":{number}') for number in ("01", "+1", "1e999", "NaN")]
    return Group("ProofJson", "texts that aren't JSON", [text_test("", text) for text in texts])


def rules_1_to_3() -> list[Test]:
    """Values whose object, arrays or levels are wrong."""
    value = json.loads(TEXT)
    rows: list[tuple[str, Any]] = [(f"the value {m.compact(it)[:20]}", it) for it in ([], 7, None, "{}", True, [value])]
    rows += [("no members", {}), ("without chunks", {"levels": value["levels"]}),
             ("without levels", {"chunks": value["chunks"]})]
    others: list[Any] = [{}, None, 7, "[]"]
    no_levels: list[Any] = [[], None, 7, "{}", [[], []], {}]
    rows += [(f"{name} that are {m.compact(it)}", {**value, name: it}) for name in ("chunks", "levels") for it in others]
    rows += [(f"a last level that is {m.compact(it)}", {**value, "levels": [*value["levels"], it]}) for it in no_levels]
    rows.append(("a first level that is an array", {**value, "levels": [[[], []], *value["levels"]]}))
    for side, other in (("left", "right"), ("right", "left")):
        rows.append((f"a level without {side}", {**value, "levels": [{other: []}]}))
        rows += [(f"{side} nodes that are {m.compact(it)}", {**value, "levels": [{other: [], side: it}]}) for it in others]
    return [text_test(comment, m.compact(it)) for comment, it in rows]


def rule_4() -> list[Test]:
    """Values of which a node is wrong: a chunk, and a node of each side."""
    node = m.compact(range_proof.to_json(GOOD)["chunks"][0])
    digits = m.to_hex(ONE[0])
    rows = [("that is an array", f'["{digits}",1]'), ("that is null", "null"), ("that is a string", f'"{digits}"'),
            ("without a hash", node.replace("hash", "other")), ("without a size", node.replace("size", "other")),
            ("with a hash of 63 digits", node.replace('"0', '"')), ("with a hash of 65 digits", node.replace('"0', '"00')),
            ("with a hash of another letter", node.replace('"0', '"g')),
            ("with a hash that is a number", node.replace(f'"{digits}"', "1")),
            ("with a hash that is null", node.replace(f'"{digits}"', "null")),
            ("with a size that is a string", node.replace(":1}", ':"1"}')),
            ("with a size that is null", node.replace(":1}", ":null}")),
            ("with a size that is true", node.replace(":1}", ":true}"))]
    places = {"a chunk": ('"chunks":[', '"chunks":[NODE,'), "a left node": ('"left":[],', '"left":[NODE],'),
              "a right node": ('"right":[]', '"right":[NODE]')}
    tests = [text_test(f"{place} {comment}", TEXT.replace(old, new.replace("NODE", bad)))
             for place, (old, new) in places.items() for comment, bad in rows]
    for spelling in ("-1", "-0", "1.0", "1e0", "0.5"):
        tests.append(text_test(f"the size {spelling}", TEXT.replace('"size":1', f'"size":{spelling}', 1), "NumberSpelling"))
    return [*tests, text_test("the size 2^64", TEXT.replace('"size":1', f'"size":{2**64}', 1), "Beyond64Bits")]


def rules_5_to_7() -> list[Test]:
    """Values without a chunk, or with too many levels or nodes."""
    nine = lists.numbered(10, 19)
    rows = [("no chunk and no level", said([])), ("no chunk, but sides", said([], ([ONE], [TWO]))),
            ("no chunk, and an empty level", said([], EMPTY_LEVEL)), ("65 levels", said([ONE], *[EMPTY_LEVEL] * 65)),
            ("9 left nodes", said([ONE], (nine, []))), ("9 right nodes", said([ONE], ([], nine))),
            ("9 left nodes on the third level", said([ONE], EMPTY_LEVEL, EMPTY_LEVEL, (nine, [])))]
    return [text_test(comment, text) for comment, text in rows]


def rule_8() -> list[Test]:
    """Values whose sizes pass."""
    half, great, one = ((1, 2, 3, 4), 2**63), ((1, 2, 3, 4), m.MAX_U64), ((4, 3, 2, 1), 1)
    rows = [("two chunks", said([half, half])), ("a chunk and a left node", said([great], ([one], []))),
            ("a chunk and a right node", said([one], ([], [great]))), ("left and right nodes", said([ONE], ([half], [half]))),
            ("nodes of two levels", said([ONE], ([half], []), ([], [half]))),
            ("right nodes of two levels", said([ONE], ([], [great]), ([], [great]))), ("five times 2^63", said([half] * 5))]
    return [text_test(f"sizes that pass: {comment}", text, "Beyond64Bits") for comment, text in rows]


def several_rules() -> list[Test]:
    """Values that break several rules."""
    great = ((1, 2, 3, 4), m.MAX_U64)
    many = [([great] * 9, []), *[EMPTY_LEVEL] * 64]
    rows = [("rules 2 and 3", '{"chunks":7,"levels":[7]}'), ("rules 3 and 4", '{"chunks":[7],"levels":[7]}'),
            ("rules 4 and 5", '{"chunks":[],"levels":[{"left":[7],"right":[]}]}'), ("rules 5 to 8", said([], *many)),
            ("rules 6 to 8", said([great], *many)), ("rules 7 and 8", said([great], many[0]))]
    return [text_test(comment, text, "LaterRulesToo") for comment, text in rows]


def broken() -> Group:
    """Values that break a rule."""
    tests = rules_1_to_3() + rule_4() + rules_5_to_7() + rule_8() + several_rules()
    if {test.get("rule") for test in tests} != set(RULES):
        raise ValueError("a rule without a test, or a good text among bad ones")
    return Group("ProofJson", "values that describe no proof, with the lowest rule that they break", tests)


Counts = Sequence[tuple[int, int]]


def flat_test(comment: str, counts: Counts, nodes: Sequence[m.Node], *flags: str) -> Test:
    """A flat form with what the model makes of it."""
    fields = {"levels": [[str(left), str(right)] for left, right in counts], "nodes": lists.given(nodes).said["nodes"]}
    try:
        return valid(comment, *flags, **fields, json=range_proof.to_json_text(range_proof.from_flat(counts, nodes)))
    except m.InvalidJson as refusal:
        return invalid(comment, *flags, **fields, error="InvalidJson", rule=refusal.rule)


def flats() -> Group:
    """Flat forms that are read or refused."""
    proof = range_proof.prove(lists.counted(28, 4).nodes, 10, 12, lists.maker)
    nodes, twenty, half = (ONE, TWO, THREE), lists.numbered(0, 20), ((1, 2, 3, 4), 2**63)
    good_rows: list[tuple[str, Counts, Sequence[m.Node]]] = [
        ("no level", [], nodes), ("one chunk among sides of two levels", [(1, 0), (0, 1)], nodes),
        ("64 levels", [(0, 0)] * 64, nodes), ("8 nodes on a side", [(8, 0), (0, 8)], twenty)]
    bad_rows: list[tuple[str, Counts, Sequence[m.Node]]] = [
        ("no node", [], []), ("no node, and a level", [(0, 0)], []), ("no chunk", [(1, 1), (0, 1)], nodes),
        ("a node too few", [(1, 1), (1, 1)], nodes), ("far too few", [(0, 1000)], nodes), ("65 levels", [(0, 0)] * 65, nodes),
        ("9 left nodes", [(9, 0)], twenty), ("9 right nodes", [(0, 0), (0, 9)], twenty)]
    tests = [flat_test("", *range_proof.to_flat(proof), "ProofOfAList"), *(flat_test(*it, "ProofOfNoList") for it in good_rows),
             *(flat_test(*it) for it in bad_rows), flat_test("sizes that pass", [(1, 0)], [half, half], "Beyond64Bits"),
             flat_test("rules 6 and 7", [(9, 0)] + [(0, 0)] * 64, twenty, "LaterRulesToo"),
             flat_test("rules 5 and 7", [(9, 9)], nodes, "LaterRulesToo")]
    for counts in ([(MAX, 1)], [(MAX, 2)], [(2**63, 0), (2**63, 0)], [(2**63, 2**63 + 1)], [(MAX, MAX), (1, 2)]):
        tests.append(flat_test(f"the counts {counts}", counts, nodes, "Beyond64Bits"))
    return Group("FlatProof", "flat forms", tests)


def bytes_test(comment: str, data: bytes, *flags: str) -> Test:
    """Bytes with what the model makes of them."""
    try:
        return valid(comment, *flags, proofBytes=data.hex(), json=range_proof.to_json_text(range_proof.from_bytes(data)))
    except m.InvalidJson as refusal:
        return invalid(comment, *flags, proofBytes=data.hex(), error="InvalidJson", rule=refusal.rule)


def listed(counts: Counts, nodes: Sequence[m.Node]) -> bytes:
    """The bytes of flat lists, which may be those of no proof."""
    proof = range_proof.RangeProof(tuple(nodes), ())
    return bytes([len(counts), *(count for pair in counts for count in pair)]) + bytes(range_proof.to_bytes(proof)[1:])


def all_bytes() -> Group:
    """Bytes that are read or refused."""
    chosen = [(lists.seeds([1]), 0, 1), (lists.seeds([1, 2, 3]), 0, 3), (lists.counted(28, 4), 10, 12), (lists.drawn(1, 40), 20, 21),
              (lists.sized(m.MAX_U64, 0), 1, 2)]
    honest = [range_proof.to_bytes(range_proof.prove(told.nodes, first, end, lists.maker)) for told, first, end in chosen]
    tests = [bytes_test("", data, "ProofOfAList") for data in honest]
    twenty, half, great = lists.numbered(0, 20), ((1, 2, 3, 4), 2**63), ((1, 2, 3, 4), m.MAX_U64)
    tests += [bytes_test(comment, listed(counts, nodes), "ProofOfNoList") for comment, counts, nodes in (
        ("no level", [], (ONE, TWO, THREE)), ("one chunk among sides of two levels", [(1, 0), (0, 1)], (ONE, TWO, THREE)),
        ("64 levels", [(0, 0)] * 64, (ONE,)), ("8 nodes on a side", [(8, 0), (0, 8)], twenty),
        ("the greatest sum", [(1, 0)], [half, ((1, 1, 1, 1), 2**63 - 1)]), ("the greatest size", [], [great]),
        ("the default hash", [], [(m.DEFAULT_HASH, 0)]))]
    if any(test["result"] != "valid" for test in tests):
        raise ValueError("bytes of a proof aren't read")
    data = honest[2]
    rows = [("nothing", b""), ("a number of levels alone", data[:1]), ("half of the counts", data[:4]), ("a byte too few of the counts", data[:6]),
            ("a byte of a node", data[:8]), ("a byte too few", data[:-1]), ("a byte too many", data + b"\0"), ("a byte in front", b"\0" + data),
            ("a node cut in two", data[:-20]), ("255 levels, and nothing else", b"\xff"), ("no node", listed([], [])),
            ("no node, and a level", listed([(0, 0)], [])), ("no chunk", listed([(1, 1), (0, 1)], (ONE, TWO, THREE))),
            ("a node too few", honest[3][:-40]), ("far too few", listed([(255, 255)], (ONE,))), ("65 levels", listed([(0, 0)] * 65, (ONE,))),
            ("9 left nodes", listed([(9, 0)], twenty)), ("9 right nodes", listed([(0, 0), (0, 9)], twenty))]
    refused = [bytes_test(*row) for row in rows]
    refused += [bytes_test(f"sizes that pass: {comment}", listed(counts, nodes), "Beyond64Bits") for comment, counts, nodes in (
        ("a chunk and a left node", [(1, 0)], [half, half]), ("two chunks", [], [great, ONE]))]
    many = [(0, 0)] * 64
    refused += [bytes_test(f"rules {comment}", it, "LaterRulesToo") for comment, it in (
        ("3 and 5", b"\xff" + bytes(509)), ("4 and 5", b"\0\0"), ("5 and 7", listed([(9, 9)], (ONE,))), ("6 and 7", listed([(9, 0), *many], twenty)),
        ("6 to 8", listed([(9, 0), *many], [great] * 20)), ("7 and 8", listed([(9, 0)], [great] * 20)))]
    if {test.get("rule") for test in refused} != {*BYTE_RULES, 5, 6, 7, 8}:
        raise ValueError("a rule of bytes without a test, or good bytes among bad ones")
    return Group("ProofBytes", "bytes", tests + refused)


def groups() -> list[Group]:
    """All groups of tests of forms."""
    return [good(), not_json(), broken(), flats(), all_bytes()]
