"""Compares the rows of bindings/c/numbers.c, and of longest.c, with the numbers that calls take, as the header declares them."""
from __future__ import annotations

import re
from collections.abc import Iterator

import memory
from header import ROOT, Header

TEST = ROOT / "bindings/c/numbers.c"
#: A row: the numbers, each as a call and a parameter, and the function that makes the calls.
ROW = re.compile(r'^    \{((?:"[^"]*"\s*)+),\s*(\w+)\},$', re.M)
#: What the rows of longest.c give each call: long lists, or their texts.
OF_LONGEST = {"count", "level_count", "node_count", "length"}


def wanted(header: Header) -> set[str]:
    """The numbers that calls take, without those that longest.c has."""
    longest = set(re.findall(r"ROW\((\w+)\)", memory.TEST.read_text(encoding="utf-8")))
    of_calls = ((export.name.removeprefix("yurewha_"), it) for export in header.exports for it in export.parameters)
    return {f"{call} {it.name}" for call, it in of_calls
            if it.type in ("size_t", "uint64_t") and not (call in longest and it.name in OF_LONGEST)}


def differences(header: Header) -> Iterator[str]:
    """The numbers that no row has, and what a row has that isn't one, or that its function doesn't call."""
    text, found = TEST.read_text(encoding="utf-8"), set()
    functions = dict(memory.FUNCTION.findall(text))
    for numbers, function in ROW.findall(text):
        for number in filter(None, "".join(re.findall(r'"([^"]*)"', numbers)).split(", ")):
            found.add(number)
            if f"yurewha_{number.split()[0]}(" not in functions.get(function, ""):
                yield f"its row {function} doesn't call yurewha_{number.split()[0]}"
    every = {f"{export.name.removeprefix('yurewha_')} {it.name}" for export in header.exports for it in export.parameters}
    yield from (f"it has no row of a large number: {it}" for it in sorted(wanted(header) - found))
    yield from (f"its rows name what no call takes: {it}" for it in sorted(found - every))
