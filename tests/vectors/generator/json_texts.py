"""subtree_json.json: JSON texts of subtrees, and the lowest rule that others break."""

from __future__ import annotations

import json
from typing import Any, Sequence

from . import lists
from .files import File, Group, Test, invalid, valid
from .lists import MARKS
from .model import drawn_cases, m

RULES = {
    1: "it is an object",
    2: "`nodes` and `levels` are arrays, and `at_start` and `at_end` are booleans",
    3: "a node is an object with `hash`, 64 hex digits of either case, and `size`, a whole number from 0 to 2^64 - 1",
    4: "a level is an array of two whole numbers from 0 to 2^64 - 1",
    5: "there is at least one level",
    6: "the counts of all levels add up to the number of nodes",
    7: "the sizes of all nodes add up to at most 2^64 - 1",
    8: "the top level has no right nodes; with `at_end`, no level has any",
    9: "with `at_start`, no level below the top has left nodes",
    10: "with both marks, the top level has at most one node",
    11: "if there are several levels, the top level has a node",
    12: "without `at_start`, the left nodes of each level below the top end with a natural cut 3 to 7 nodes after the natural "
        "cut before it, and have no stable point among them",
    13: "without `at_end`, the right nodes of each level below the top have their first natural cut at index 2 to 6, and have "
        "no stable point among them, even with a natural cut put in front of them",
}
MEANS = [
    "The JSON object of a subtree has four members. `at_start` and `at_end` are the marks. `levels` has an array of two numbers "
    "for each level, from the chunks up: its left and its right nodes. `nodes` has the left nodes of all levels, lowest level "
    "first, then the right nodes of all levels, highest level first. Each is an object with `hash`, hex text, and `size`, a "
    "number.",
    "It is written compactly, with the members in this order: `at_end`, `at_start`, `levels`, `nodes`; in a node `hash`, "
    "`size`.",
    "A text that isn't JSON is refused with NotJson, and a value that breaks a rule with InvalidJson and the lowest rule that it breaks.",
    *(f"Rule {number}: {text}." for number, text in RULES.items()),
]
HEADER = [*MEANS, "If the result is valid, `written` is the text of the subtree that was read, unless it is the given text."]
NOTES = {
    "Canonical": "The subtree of a list.",
    "FromNoList": "A value that keeps all rules, but comes from no list. It is read, and no promise says what it means.",
    "OtherSpelling": "White space, another order of members, other members, escapes, or digits of the other case.",
    "EqualMembers": "If a member occurs twice, the last one counts.",
    "NumberSpelling": "A number with a fraction, an exponent or a sign isn't a whole number, whatever its value. Neither is -0.",
    "Beyond64Bits": "A number of more than 64 bits, or counts whose sum has more. The sum must not wrap.",
    "LaterRulesToo": "The value also breaks later rules. The lowest one is reported.",
}
EMPTY = '{"at_end":true,"at_start":true,"levels":[[0,0]],"nodes":[]}'


def text_test(comment: str, text: str, *flags: str) -> Test:
    """A text with what the model makes of it."""
    try:
        tree = m.from_json_text(text)
    except m.NotJson:
        return invalid(comment, *flags, text=text, error="NotJson")
    except m.InvalidJson as refusal:
        return invalid(comment, *flags, text=text, error="InvalidJson", rule=refusal.rule)
    written = m.to_json_text(tree)
    return valid(comment, *flags, text=text, **({} if written == text else {"written": written}))


def said(levels: Any, nodes: Sequence[m.Node], at_start: bool = False, at_end: bool = False) -> dict[str, Any]:
    """A JSON value by its parts."""
    written = [{"hash": m.to_hex(h), "size": size} for h, size in nodes]
    return {"at_end": at_end, "at_start": at_start, "levels": levels, "nodes": written}


def good() -> Group:
    """Subtrees of lists."""
    chosen = [lists.given(()), lists.seeds([1]), lists.sized(m.MAX_U64, 0), lists.given(lists.numbered(0, 7)),
              lists.given(lists.numbered(0, 24)), lists.pattern("|..|..|"), lists.drawn(1, 40)]
    tests = [text_test("", m.to_json_text(m.canon(told.nodes, *marks, lists.maker)), "Canonical")
             for told in chosen for marks in MARKS]
    open_20 = m.canon(lists.numbered(0, 20), False, False, lists.maker)
    tests.append(text_test("one level of a list that could be split", m.compact(said([[20, 0]], lists.numbered(0, 20))),
                           "FromNoList"))
    tests.append(text_test("other parents", m.compact(said([[8, 4], [2, 0]], [*lists.numbered(0, 8), *lists.numbered(50, 52),
                                                                           *lists.numbered(16, 20)])), "FromNoList"))
    tests.append(text_test("one node at the top under both marks, over empty levels",
                           m.compact(said([[0, 0], [0, 0], [1, 0]], lists.numbered(0, 1), True, True)), "FromNoList"))
    return Group("SubtreeJson", "texts of subtrees", tests + spellings(m.to_json_text(open_20)))


def spellings(text: str) -> list[Test]:
    """Other spellings of a text that are read."""
    value = json.loads(text)
    rows = [("white space", json.dumps(value, indent=1).replace("\n", "\r\n\t"), "OtherSpelling"),
            ("another order", m.compact(value).replace('{"at_end":false,', "{").replace("]}", ']@}')
             .replace("@}", ',"at_end":false}'), "OtherSpelling"),
            ("another member of the object", text.replace('"levels"', '"x":[{"size":1.5},null],"levels"'), "OtherSpelling"),
            ("another member of a node", text.replace('{"hash"', '{"y":-1e3,"hash"'), "OtherSpelling"),
            ("upper-case digits", text.replace("c766feb0be4b62597c1be56c", "C766FEB0BE4B62597C1BE56C"), "OtherSpelling"),
            ("escapes in a digit", text.replace('"hash":"0', '"hash":"\\u0030'), "OtherSpelling"),
            ("escapes in a name", text.replace('"levels"', '"l\\u0065vels"'), "OtherSpelling"),
            ("a mark twice", text.replace('"at_end":false', '"at_end":true,"at_end":false'), "EqualMembers"),
            ("a mark twice, first of another kind", text.replace('"at_end":false', '"at_end":null,"at_end":false'),
             "EqualMembers"),
            ("nodes twice", text.replace('"nodes"', '"nodes":7,"nodes"'), "EqualMembers")]
    tests = [text_test(*row) for row in rows]
    if any(test["result"] != "valid" or test.get("written") != text for test in tests):
        raise ValueError("another spelling isn't read as the same subtree")
    return tests


def not_json() -> Group:
    """Texts that aren't JSON."""
    texts = ["", " ", "{", "}", "nothing", EMPTY + "}", EMPTY + EMPTY, EMPTY[:-1], EMPTY[:20], EMPTY.replace("[]", "[,]"),
             EMPTY.replace("true", "True"), EMPTY.replace('"nodes":[]', '"nodes":[],'), EMPTY.replace("[[0,0]]", "[[00,0]]"),
             EMPTY.replace("[[0,0]]", "[[+0,0]]"), EMPTY.replace("[[0,0]]", "[[.5,0]]"), EMPTY.replace("[[0,0]]", "[[1.,0]]"),
             EMPTY.replace("[[0,0]]", "[[1e999,0]]"), EMPTY.replace("[[0,0]]", "[[NaN,0]]"), "'{}'", EMPTY.replace('"', "'"),
             EMPTY + "\0"]
    return Group("SubtreeJson", "texts that aren't JSON", [text_test("", text) for text in texts])


def rules_1_to_5() -> list[Test]:
    """Values that break a rule of form."""
    one = lists.numbered(1, 2)
    node = m.compact(said([[1, 0]], one))
    rows = [(f"the value {value}", value) for value in ("[]", "7", "null", '"{}"', "true", f"[{EMPTY}]")]
    rows += [("no members", "{}")]
    rows += [(f"without {name}", EMPTY.replace(name, "other")) for name in ("at_end", "at_start", "levels", "nodes")]
    rows += [("a mark that is a number", EMPTY.replace('"at_end":true', '"at_end":1')),
             ("a mark that is null", EMPTY.replace('"at_start":true', '"at_start":null')),
             ("a mark that is a string", EMPTY.replace('"at_start":true', '"at_start":"true"')),
             ("nodes that are an object", EMPTY.replace('"nodes":[]', '"nodes":{}')),
             ("levels that are null", EMPTY.replace("[[0,0]]", "null")),
             ("a node that is an array", m.compact({**said([[1, 0]], one), "nodes": [[m.to_hex(one[0][0]), 1]]})),
             ("a node without a hash", node.replace('"hash"', '"other"')),
             ("a node without a size", node.replace('"size"', '"other"')),
             ("a hash of 63 digits", node.replace('"0000', '"000')), ("a hash of 65 digits", node.replace('"0000', '"00000')),
             ("a hash with another letter", node.replace('"0000', '"g000')),
             ("a hash that is a number", node.replace(f'"{m.to_hex(one[0][0])}"', "1")),
             ("a size that is a string", node.replace('"size":1', '"size":"1"')),
             ("a size that is null", node.replace('"size":1', '"size":null')),
             ("a level of one number", node.replace("[[1,0]]", "[[1]]")),
             ("a level of three", node.replace("[[1,0]]", "[[1,0,0]]")),
             ("an empty level", node.replace("[[1,0]]", "[[]]")), ("a level that is a number", node.replace("[[1,0]]", "[1]")),
             ("a level that is an object", node.replace("[[1,0]]", '[{"left":1,"right":0}]')),
             ("no level", EMPTY.replace("[[0,0]]", "[]")), ("no level, but a node", node.replace("[[1,0]]", "[]"))]
    tests = [text_test(comment, text) for comment, text in rows]
    for spelling in ("-1", "-0", "1.0", "1e0", "0.5", "1e3"):
        tests.append(text_test(f"the size {spelling}", node.replace('"size":1', f'"size":{spelling}'), "NumberSpelling"))
        tests.append(text_test(f"the count {spelling}", node.replace("[[1,", f"[[{spelling},"), "NumberSpelling"))
    tests.append(text_test("the size 2^64", node.replace('"size":1', f'"size":{2**64}'), "Beyond64Bits"))
    tests.append(text_test("the count 2^64", node.replace("[[1,", f"[[{2**64},"), "Beyond64Bits"))
    return tests


def rules_6_to_11() -> list[Test]:
    """Values whose counts, sizes or empty sides are wrong."""
    one, two = lists.numbered(0, 1), lists.numbered(0, 2)
    rows = [("a node that is counted and isn't there", said([[1, 0]], [])), ("a node that isn't counted", said([[0, 0]], one)),
            ("one too many on the right", said([[1, 1]], one)),
            ("sizes of 2^64", said([[2, 0]], [((1, 0, 0, 1), m.MAX_U64), ((2, 0, 0, 1), 1)])),
            ("sizes of twice 2^63", said([[2, 0]], [((1, 0, 0, 1), 2**63), ((2, 0, 0, 1), 2**63)])),
            ("right nodes at the top", said([[0, 1]], one)),
            ("right nodes at the top under the end mark", said([[0, 1]], one, False, True)),
            ("right nodes below the top under the end mark", said([[0, 1], [1, 0]], two, True, True)),
            ("left nodes below the top under the start mark", said([[1, 0], [1, 0]], two, True, False)),
            ("both marks, two nodes at the top", said([[2, 0]], two, True, True)),
            ("both marks, two nodes at the top over an empty level", said([[0, 0], [2, 0]], two, True, True)),
            ("an empty top", said([[0, 0], [0, 0]], [], True, True)),
            ("an empty top, open", said([[8, 4], [0, 0]], [*lists.numbered(0, 8), *lists.numbered(16, 20)]))]
    tests = [text_test(comment, m.compact(value)) for comment, value in rows]
    for levels in ([[m.MAX_U64, 1]], [[2**63, 0], [2**63, 0]], [[m.MAX_U64, m.MAX_U64], [2, 0]], [[m.MAX_U64, 0]]):
        tests.append(text_test(f"the counts {levels}", m.compact(said(levels, [], True, True)), "Beyond64Bits"))
    return tests


def rules_12_and_13() -> list[Test]:
    """Values whose sides can't be outside the stable points of a level."""
    left, right, top = lists.numbered(0, 8), lists.numbered(16, 20), [((9, 9, 9, 1), 4), ((8, 8, 8, 1), 4)]
    plain = [((i, 0, 0, 1), 1) for i in range(40, 50)]
    cut = ((5, 5, 5, 0), 1)
    lefts: list[tuple[str, Sequence[m.Node]]] = [
        ("no left nodes", []), ("left nodes with a stable point", [*left, *lists.numbered(8, 16)]),
        ("left nodes without a natural cut", plain[:8]), ("left nodes with one natural cut", [*plain[:3], cut]),
        ("left nodes that end after a natural cut", [*left, plain[0]]),
        ("left nodes with natural cuts at a distance of 2", [*left[:4], plain[0], cut]),
        ("left nodes with natural cuts at a distance of 8", [*left[:4], *plain[:7], cut])]
    rights: list[tuple[str, Sequence[m.Node]]] = [
        ("no right nodes", []), ("right nodes without a natural cut", plain[:4]),
        ("right nodes with the first natural cut at index 1", [plain[0], cut, *right]),
        ("right nodes with the first natural cut at index 7", [*plain[:7], cut]),
        ("right nodes with a stable point", [*right, *lists.numbered(20, 28)]),
        ("right nodes with a stable point once a natural cut is in front", [*right, *lists.numbered(20, 24)])]
    tests = [text_test(comment, m.compact(said([[len(side), 4], [2, 0]], [*side, *top, *right]))) for comment, side in lefts]
    tests += [text_test(comment, m.compact(said([[8, len(side)], [2, 0]], [*left, *top, *side]))) for comment, side in rights]
    tests.append(text_test("neither side is right", m.compact(said([[4, 4], [2, 0]], [*plain[:4], *top, *plain[4:8]])),
                           "LaterRulesToo"))
    return tests


def broken() -> Group:
    """Values that break a rule."""
    tests = rules_1_to_5() + rules_6_to_11() + rules_12_and_13()
    tests.append(text_test("rules 2 and 5", '{"at_end":true,"at_start":7,"levels":[],"nodes":[]}', "LaterRulesToo"))
    tests.append(text_test("rules 3 and 4", '{"at_end":true,"at_start":true,"levels":[7],"nodes":[7]}', "LaterRulesToo"))
    tests.append(text_test("rules 6 and 8",
                           m.compact(said([[0, 2]], lists.numbered(0, 1))), "LaterRulesToo"))
    if {test.get("rule") for test in tests} != set(RULES):
        raise ValueError("a rule without a test, or a good text among bad ones")
    return Group("SubtreeJson", "values that describe no subtree, with the lowest rule that they break", tests)


def drawn() -> Group:
    """Random changes of random values, some for each rule."""
    wanted = {rule: 6 for rule in (*RULES, 0)}
    tests = []
    for line in drawn_cases.cases("json", 1, 20000):  # type: ignore[no-untyped-call]
        if len(line["input"]) > 2600 or "not_json" in line:
            continue
        rule = line.get("rule", 0)
        if wanted[rule]:
            wanted[rule] -= 1
            tests.append(text_test("", line["input"]))
        if not any(wanted.values()):
            return Group("SubtreeJson", "drawn values with drawn changes", tests)
    raise ValueError(f"too few drawn values: {wanted}")


def file() -> File:
    """subtree_json.json."""
    return File("subtree_json", "JSON of subtrees", HEADER, NOTES, [good(), not_json(), broken(), drawn()])
