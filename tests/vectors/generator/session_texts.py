"""session_json.json: JSON texts of sessions, and why others are refused."""

from __future__ import annotations

import json
from typing import Any, Iterable, NamedTuple

from . import json_texts, lists
from .files import File, Group, Test, invalid, valid
from .model import m

MAX = m.MAX_U64
MEANS = [
    "The JSON object of a session has two members. `runs` has an object for each run of adjacent taken positions, by rising "
    "position: `first` and `end`, its first position and the one after its last, and `chunks`, the subtree of its chunks, which is "
    "open at both ends (subtree_json). `known_hashes` has the hashes that the session knows, each an array of its four words.",
    "It is written compactly, with the members in this order, and known hashes by rising order, each once. The members of a subtree "
    "have the order of subtree_json, or that of the fields of xet-core's struct: `nodes`, `levels`, `at_start`, `at_end`.",
    "A text is refused with NotJson if it isn't JSON; NoSession if the value has another form; InvalidJson for a subtree that breaks a "
    "rule of subtree_json; InvalidArguments for a run without a position, marked at an end, or without a gap after the runs before it; "
    "SizeOverflow if the sizes of all chunks add up to more than 2^64 - 1.",
    "A number is a whole one from 0 to 2^64 - 1, without a sign, a fraction or an exponent. Objects may have other members. None of "
    "the members that are named here and in subtree_json may occur twice in one object. That a run has as many chunks as "
    "positions can't be seen, and isn't asked.",
]
HEADER = [*MEANS, "If the result is valid, `written` is the text of the session that was read, unless it is the given text."]
NOTES = {
    "Above53Bits": "A number that a double can't have. It must not be rounded.",
    "OtherSpelling": "White space, another order of members, other members, escapes, or digits of the other case.",
    "TwiceInOneObject": "A member occurs twice. Alone, the JSON of a subtree would be read with the last one.",
    "NumberSpelling": "A number with a fraction, an exponent or a sign isn't a whole number, whatever its value. Neither is -0.",
    "ArrayForAnObject": "An array of what the members would be.",
}


class Run(NamedTuple):
    """Some positions, and the subtree of their chunks."""

    first: int
    end: int
    chunks: m.Subtree


class Refusal(Exception):
    """Why a text is refused: the members `error` and perhaps `rule`."""

    def __init__(self, error: str, **more: int) -> None:
        super().__init__(error)
        self.said: dict[str, Any] = {"error": error, **more}


def members(value: Any, *names: str) -> list[Any]:
    """The members of an object, each of which it has."""
    if not isinstance(value, dict) or not all(name in value for name in names):
        raise Refusal("NoSession")
    return [value[name] for name in names]


def in_array(value: Any) -> list[Any]:
    """The elements of an array."""
    if not isinstance(value, list):
        raise Refusal("NoSession")
    return value


def number(value: Any) -> int:
    """A whole number of 64 bits."""
    if not m.is_whole_number(value):
        raise Refusal("NoSession")
    return int(value)


def run_of(value: Any) -> Run:
    """The run that a value describes."""
    first, end, chunks = members(value, "first", "end", "chunks")
    try:
        return Run(number(first), number(end), m.from_json(chunks))
    except m.InvalidJson as refusal:
        raise Refusal("InvalidJson", rule=refusal.rule) from refusal


def check_runs(runs: list[Run]) -> None:
    """Refuses runs that aren't those of one session."""
    before = [-1, *(run.end for run in runs)]
    for run, end in zip(runs, before):
        if not end < run.first < run.end or run.chunks.at_start or run.chunks.at_end:
            raise Refusal("InvalidArguments")
    if sum(run.chunks.total_size() for run in runs) > MAX:
        raise Refusal("SizeOverflow")


def check_members(text: str) -> None:
    """Refuses a text with a member twice in one object."""
    def once(pairs: list[tuple[str, Any]]) -> dict[str, Any]:
        if len(dict(pairs)) < len(pairs):
            raise Refusal("NoSession")
        return dict(pairs)
    json.loads(text, object_pairs_hook=once)


def written(runs: Iterable[Run], hashes: Iterable[tuple[int, ...]]) -> str:
    """The text of a session."""
    said = (f'{{"first":{run.first},"end":{run.end},"chunks":{m.to_json_text(run.chunks)}}}' for run in runs)
    return f'{{"runs":[{",".join(said)}],"known_hashes":{m.compact(sorted(set(hashes)))}}}'


def text_test(comment: str, text: str, *flags: str) -> Test:
    """A text with what is to be made of it."""
    try:
        value = m.parse_json_text(text)
        check_members(text)
        runs_said, hashes_said = members(value, "runs", "known_hashes")
        runs = [run_of(run) for run in in_array(runs_said)]
        hashes = [tuple(number(word) for word in in_array(words)) for words in in_array(hashes_said)]
        if any(len(words) != 4 for words in hashes):
            raise Refusal("NoSession")
        check_runs(runs)
    except m.NotJson:
        return invalid(comment, *flags, text=text, error="NotJson")
    except Refusal as refusal:
        return invalid(comment, *flags, text=text, **refusal.said)
    again = written(runs, hashes)
    return valid(comment, *flags, text=text, **({} if again == text else {"written": again}))


def open_run(first: int, told: lists.Told, end: int | None = None) -> Run:
    """The run of some chunks from a position on."""
    return Run(first, first + len(told.nodes) if end is None else end, m.canon(told.nodes, False, False, lists.maker))


def session(*runs: tuple[int, lists.Told]) -> str:
    """The text of a session with these runs, which knows the hashes of their chunks."""
    return written((open_run(*run) for run in runs), (chunk for _, told in runs for chunk, _ in told.nodes))


ONE, TWO, NONE = lists.seeds([1]), lists.seeds([2, 3]), lists.given(())
EMPTY = written([], [])
TEXT = session((2, TWO), (7, ONE))
#: The subtree of the second run.
SUBTREE = m.to_json_text(open_run(7, ONE).chunks)


def good() -> Group:
    """Sessions of puts."""
    texts = [
        ("no chunk", EMPTY), ("one chunk at 0", session((0, ONE))), ("one chunk at 7", session((7, ONE))), ("two runs", TEXT),
        ("two runs with one position between", session((0, TWO), (3, ONE))),
        ("equal hashes", session((0, lists.seeds([1, 1, 2])), (9, lists.seeds([2, 0, 0])))),
        ("many chunks, some inner nodes", session((0, lists.given(lists.numbered(0, 24))), (30, lists.drawn(1, 40)))),
        ("natural cuts", session((5, lists.pattern("|..|..|"))))]
    tests = [text_test(*row) for row in texts]
    far = [("positions past 2^53", session((2**53 + 1, ONE), (2**60 + 3, TWO))),
           ("the last position", session((0, TWO), (MAX - 1, ONE))), ("a size past 2^53", session((0, lists.sized(2**53 + 1)))),
           ("the greatest sum of sizes", session((4, lists.sized(MAX, 0))))]
    tests += [text_test(*row, "Above53Bits") for row in far]
    hashes = [(MAX, MAX, MAX, MAX), (2**53 + 1, 0, 0, 1), (0, 0, 0, 0), (2**53, 0, 0, 1), (0, 0, 2**63, 0)]
    tests.append(text_test("hashes of no chunk", written([], hashes), "Above53Bits"))
    tests.append(text_test("hashes in another order, one of them twice", f'{{"runs":[],"known_hashes":{m.compact([*hashes, hashes[1]])}}}',
                           "Above53Bits"))
    tests.append(text_test("chunks whose hashes it doesn't know", written([open_run(3, TWO)], [])))
    tests.append(text_test("more positions than chunks", written([open_run(3, TWO, 90)], [])))
    tests.append(text_test("positions of no chunk", written([open_run(3, NONE, 5)], [])))
    return Group("SessionJson", "texts of sessions", tests)


def spellings() -> Group:
    """Other spellings of a text that are read."""
    value = json.loads(TEXT)
    turned = {"known_hashes": value["known_hashes"], "runs": [dict(sorted(run.items())) for run in value["runs"]]}
    fields = [{**run, "chunks": {name: run["chunks"][name] for name in ("nodes", "levels", "at_start", "at_end")}}
              for run in value["runs"]]
    rows = [("white space", json.dumps(value, indent=1).replace("\n", "\r\n\t")), ("another order", json.dumps(turned)),
            ("the order of a struct's fields", json.dumps({**value, "runs": fields}, separators=(",", ":"))),
            ("other members of the session", TEXT.replace('{"runs"', '{"x":[1.5,-3,1e300,{"runs":null}],"runs"')),
            ("other members of a run", TEXT.replace('"end":8', '"end":8,"y":{"first":"7"},"z":true')),
            ("another member of a subtree", TEXT.replace('{"at_end"', '{"":[[]],"at_end"')),
            ("another member of a node", TEXT.replace('{"hash"', '{"y":"\\u00e9\\"\\\\","hash"')),
            ("escapes in names", TEXT.replace('"runs"', '"r\\u0075ns"').replace('"first"', '"firs\\u0074"').replace('"chunks"',
                                                                                                           '"\\u0063hunks"')),
            ("upper-case digits", TEXT.replace("cfc5d07f6f03c29bbf42", "CFC5D07F6F03C29BBF42"))]
    tests = [text_test(*row, "OtherSpelling") for row in rows]
    if any(test["result"] != "valid" or test.get("written", "") != TEXT for test in tests):
        raise ValueError("another spelling isn't read as the same session")
    return Group("SessionJson", "other spellings of a session", tests)


def not_json() -> Group:
    """Texts that aren't JSON."""
    texts = ["", " ", "{", "runs", EMPTY + "}", EMPTY + EMPTY, EMPTY[:-1], TEXT[:100], EMPTY.replace("[]", "[,]"), EMPTY.replace('"', "'"),
             EMPTY.replace("}", ",}"), TEXT.replace('"first":7', '"first":07'), TEXT.replace('"first":7', '"first":+7'),
             TEXT.replace('"first":7', '"first":NaN'), TEXT.replace('"size":100', '"size":.5')]
    tests = [text_test("", text) for text in texts]
    if {test.get("error") for test in tests} != {"NotJson"}:
        raise ValueError("a text that is JSON")
    return Group("SessionJson", "texts that aren't JSON", tests)


def of_another_form() -> Group:
    """Values that have another form than a session."""
    run = TEXT[TEXT.index('{"first":7'):TEXT.index('],"known_hashes"')]
    rows = [(f"the value {value}", value) for value in ("[]", "null", "7", '"runs"', "true", "{}")]
    rows += [("a subtree", SUBTREE), ("without runs", '{"known_hashes":[]}'), ("without hashes", '{"runs":[]}')]
    rows += [(f"runs that are {value}", EMPTY.replace('"runs":[]', f'"runs":{value}')) for value in ("null", "{}", '""')]
    rows += [(f"hashes that are {value}", EMPTY.replace("[]}", f"{value}}}")) for value in ("null", "{}", "7")]
    rows += [(f"a run that is {value}", TEXT.replace(run, value)) for value in ("null", "{}", "[]", "7")]
    rows += [(f"a run without {name}", TEXT.replace(run, run.replace(f'"{name}"', '"x"'))) for name in ("first", "end", "chunks")]
    rows += [(f"a first position that is {value}", TEXT.replace('"first":7', f'"first":{value}'))
             for value in ('"7"', "null", "true", "[7]")]
    rows += [(f"an end that is {value}", TEXT.replace('"end":8', f'"end":{value}')) for value in ('"8"', "null")]
    rows += [(f"the hash {value}", f'{{"runs":[],"known_hashes":[{value}]}}')
             for value in ("null", "7", f'"{64 * "0"}"', "{}", "[]", "[1,2,3]", "[1,2,3,4,5]", '[1,2,3,"4"]', "[1,2,3,null]")]
    tests = [text_test(*row) for row in rows]
    for spelling in ("-1", "-0", "7.0", "7e0", f"{2**64}", "1000000000000000000000000000007"):
        tests.append(text_test(f"the first position {spelling}", TEXT.replace('"first":7', f'"first":{spelling}'), "NumberSpelling"))
    for spelling in ("-8", "8.0", f"{2**64}"):
        tests.append(text_test(f"the end {spelling}", TEXT.replace('"end":8', f'"end":{spelling}'), "NumberSpelling"))
        tests.append(text_test(f"the word {spelling}", f'{{"runs":[],"known_hashes":[[1,2,3,{spelling}]]}}', "NumberSpelling"))
    return Group("SessionJson", "values of another form", tests + arrays(run) + twice())


def arrays(run: str) -> list[Test]:
    """Arrays in the place of objects."""
    rows = [("an array of runs and hashes", "[[],[]]"), ("an array for a run", TEXT.replace(run, f"[7,8,{SUBTREE}]"))]
    return [text_test(*row, "ArrayForAnObject") for row in rows]


def twice() -> list[Test]:
    """Members that occur twice in one object."""
    rows = [(member, TEXT.replace(f'"{member}":', f'"{member}":{value},"{member}":', 1)) for member, value in (
        ("runs", "[]"), ("known_hashes", "[]"), ("first", "2"), ("end", "4"), ("chunks", SUBTREE), ("at_end", "false"),
        ("at_start", "false"), ("levels", "[[2,0]]"), ("nodes", "[]"), ("hash", f'"{64 * "0"}"'), ("size", "200"))]
    rows.append(("first, once with an escape", TEXT.replace('"first":7', '"firs\\u0074":7,"first":7')))
    return [text_test(f"twice {comment}", text, "TwiceInOneObject") for comment, text in rows]


def broken() -> Group:
    """Subtrees that break a rule, one for each, and runs that aren't those of a session."""
    of_rule: dict[int, Test] = {}
    for test in json_texts.broken().tests:
        if not test["flags"]:
            of_rule.setdefault(test["rule"], test)
    rows = [(f"a subtree that breaks rule {rule}: {test['comment']}", TEXT.replace(SUBTREE, test["text"]))
            for rule, test in sorted(of_rule.items())]
    marked = {name: SUBTREE.replace(f'"{name}":false', f'"{name}":true') for name in ("at_start", "at_end")}
    runs = [("no position", 7, 7), ("an end before the first position", 7, 6), ("the end 0", 7, 0), ("adjacent to the run before", 4, 5),
            ("over the run before", 3, 8), ("before the run before", 0, 1), ("at the run before", 2, 4)]
    rows += [(f"a run with {comment}" if first == 7 else f"a run {comment}",
              TEXT.replace('"first":7,"end":8', f'"first":{first},"end":{end}')) for comment, first, end in runs]
    rows += [("a first run that goes up to the second", TEXT.replace('"end":4', '"end":7')),
             ("a first run that goes past the second", TEXT.replace('"end":4', f'"end":{MAX}'))]
    rows += [(f"a run that is marked {name}", TEXT.replace(SUBTREE, text)) for name, text in marked.items()]
    great = m.to_json_text(open_run(7, lists.sized(MAX)).chunks)
    rows += [("sizes that add up to too much", TEXT.replace(SUBTREE, great))]
    tests = [text_test(*row) for row in rows]
    if {test.get("rule") for test in tests} != {None, *json_texts.RULES} or not all("error" in test for test in tests):
        raise ValueError("a rule without a test, or a good text among bad ones")
    return Group("SessionJson", "subtrees that break a rule, and runs that aren't those of a session", tests)


def file() -> File:
    """session_json.json."""
    return File("session_json", "JSON of sessions", HEADER, NOTES, [good(), spellings(), not_json(), of_another_form(), broken()])
