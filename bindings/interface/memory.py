"""Compares the rows of bindings/c/longest.c with the calls that may be out of memory, as the header's comments say."""
from __future__ import annotations

import re
from collections.abc import Iterator

from header import ROOT, Header

TEST = ROOT / "bindings/c/longest.c"
#: What a comment says of a call that has the statuses of another one.
AS_ANOTHER = re.compile(r"The statuses[ \n*]+are[ \n*]+those[ \n*]+of[ \n*]+(yurewha_\w+)")
#: A function of the test without parameters, and its body.
FUNCTION = re.compile(r"^static void (\w+)\(void\)\n\{\n(.*?)^\}", re.M | re.S)


def may_be_out_of_memory(name: str, comments: dict[str, str]) -> bool:
    """Whether a call may return MEMORY, by the comments of all calls."""
    comment = comments.get(name, "")
    as_another = AS_ANOTHER.search(comment)
    return may_be_out_of_memory(as_another[1], comments) if as_another else bool(re.search(r"^ \*   MEMORY\s", comment, re.M))


def out_of_memory(header: Header) -> Iterator[str]:
    """The calls that may return MEMORY, without `yurewha_`."""
    comments = {export.name: export.comment for export in header.exports}
    yield from (name.removeprefix("yurewha_") for name in comments if may_be_out_of_memory(name, comments))


def differences(header: Header) -> Iterator[str]:
    """What the test has no row of, or no call in the row."""
    text = TEST.read_text(encoding="utf-8")
    rows, functions = re.findall(r"ROW\((\w+)\)", text), dict(FUNCTION.findall(text))
    for call in out_of_memory(header):
        if call not in rows:
            yield f"it has no row of yurewha_{call}, which may be out of memory"
        elif f"yurewha_{call}(" not in functions.get(call, ""):
            yield f"its row {call} doesn't call yurewha_{call}"
