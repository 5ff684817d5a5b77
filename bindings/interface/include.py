"""Makes the header, include/yurewha.h: it is yurewha.h.in, with the exports of the modules where it names these.

The comment of an export consists of paragraphs, then of a point for each status, one of which may have numbered rules, and at last
of the version that first had the export. In C, calls and statuses stand without quotes, and parameters have C's names.
"""
from __future__ import annotations

import re
import textwrap
from collections.abc import Iterable
from pathlib import Path
from typing import NamedTuple

from exports import CRATE, NAMES, STRUCTS, Call
from header import Unreadable

TEMPLATE = Path(__file__).with_name("yurewha.h.in")
#: Where the exports of some modules come.
PLACE = re.compile(r"^@(.*)@\n", re.M)
WIDTH = 126
#: The types of pointers to handles.
HANDLES = {f"{of_c} *" for name, of_c in STRUCTS.items() if name.endswith("Handle")}
SPAN = re.compile(r"`([^`]+)`")
#: What begins a point or a rule.
LABEL = re.compile(r"- (`[A-Z_]+`(?: \+ rule)?): |  (\d+)\. ")


class Block(NamedTuple):
    """A paragraph, or with its label a status or a rule."""

    label: str
    text: str

    @property
    def is_rule(self) -> bool:
        return self.label.isdecimal()


def in_c(text: str) -> str:
    """A text as C says it."""

    def span(it: re.Match[str]) -> str:
        name = NAMES.get(it[1], it[1])
        return name if re.fullmatch(r"[A-Z_]+|yurewha_\w+", name) else f"`{name}`"

    return SPAN.sub(span, text)


def blocks(call: Call) -> list[Block]:
    """The blocks of an export's comment."""
    found: list[Block] = []
    is_open = False
    for line in call.comment:
        label = LABEL.match(line)
        if label:
            found.append(Block(in_c(label[1] or label[2]), line[label.end() :]))
        elif line.startswith("- "):
            raise Unreadable(f"{call.name}: this point doesn't begin with a status: {line}", CRATE)
        elif line and is_open:
            found[-1] = found[-1]._replace(text=f"{found[-1].text} {line.strip()}")
        elif line:
            found.append(Block("", line))
        is_open = bool(line)
    return found


def filled(text: str, start: str, indent: str = " * ") -> list[str]:
    """The lines of a text. Quoted code isn't broken, and there is room for the end of a comment."""
    whole = SPAN.sub(lambda it: it[0].replace(" ", "\0"), in_c(text))
    lines = textwrap.wrap(whole, WIDTH - 3, initial_indent=start, subsequent_indent=indent, break_on_hyphens=False)
    return [line.replace("\0", " ") for line in lines]


def comment(listed: list[Block]) -> str:
    """A comment in C, whose statuses and rules stand in columns."""
    width, digits = (max((len(it.label) for it in listed if it.is_rule == is_rule), default=0) for is_rule in (False, True))
    lines: list[str] = []
    for it in listed:
        if not it.label:
            lines += [*([" *"] if lines else []), *filled(it.text, " * ")]
            continue
        label = f"{'':{width}}    {it.label:>{digits}}" if it.is_rule else f"{it.label:{width}}"
        start = f" *   {label}  "
        lines += filled(it.text.removesuffix("."), start, f" *{'':{len(start) - 2}}")
    return "/*" + "\n".join(lines).removeprefix(" *") + " */\n"


def handles(call: Call) -> list[str]:
    """The numbers of the parameters that are handles. A call reads each, since it frees what a handle owned to which it writes. The
    number of a list's length follows that of the list."""
    found = [(number, it) for number, it in enumerate(call.parameters, 1) if it.type in HANDLES]
    return [str(number) if it.is_reference else f"{number}, {number + 1}" for number, it in found]


def declaration(call: Call, version: str) -> str:
    """The declaration of an export, below its attributes."""
    references = [str(number) for number, it in enumerate(call.parameters, 1) if it.is_reference]
    initialized = [f"YUREWHA_INITIALIZED({it})" for it in handles(call)]
    attributes = [
        *(["YUREWHA_NODISCARD"] if call.answer != "void" else []),
        *([f"YUREWHA_NONNULL({', '.join(references)})"] if references else []),
        *initialized,
        f"YUREWHA_SINCE({version})",
    ]
    start = f"{call.answer} {call.name}("
    parameters = ", ".join(it.declared.replace(" ", "\0") for it in call.parameters)
    lines = textwrap.fill(parameters, WIDTH, initial_indent=start, subsequent_indent=" " * len(start), break_on_hyphens=False)
    return f"{' '.join(attributes)}\n{lines}".replace("\0", " ") + ");\n"


def export(call: Call) -> str:
    """An export as the header has it."""
    *said, last = blocks(call) or [Block("", "")]
    version = re.fullmatch(r"Since (\d+\.\d+)\.", last.text)
    if not version or not said:
        raise Unreadable(f"{call.name}: its comment has to end with the version that first had it, as in `Since 1.1.`", CRATE)
    return comment(said) + declaration(call, version[1])


def exports_of(calls: Iterable[Call], modules: list[str]) -> str:
    """The exports of some modules, in their order. The one that frees a handle comes last."""
    listed = sorted((it for it in calls if it.module in modules), key=lambda it: (it.name.endswith("_free"), modules.index(it.module)))
    return "\n".join(map(export, listed))


def text(calls: list[Call], made: str) -> str:
    """The header. The first line, which `made` replaces, is about the template alone."""
    _, template = TEMPLATE.read_text(encoding="utf-8").split("\n", 1)
    placed = [module for place in PLACE.finditer(template) for module in place[1].split()]
    if sorted(placed) != sorted({it.module for it in calls}):
        unlike = {it.module for it in calls} ^ {*placed}
        raise Unreadable(f"it has to name each module with exports once: see {', '.join(sorted(unlike)) or placed}", TEMPLATE)
    return f"/* {made} */\n" + PLACE.sub(lambda place: exports_of(calls, place[1].split()), template)
