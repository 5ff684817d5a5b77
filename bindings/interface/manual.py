"""The manual page of the header, yurewha.h(3): its comments, and its declarations without attributes.

The pages of the calls lead to this one. A page for each would need the rules at the top of the header again.
"""
from __future__ import annotations

import re
from collections.abc import Iterable, Iterator

from clang.cindex import Cursor, CursorKind, Token
from header import HEADER, Header, version

HEAD = """\
.TH YUREWHA.H 3 "" "yurewha" "Library Functions Manual"
.SH NAME
yurewha.h \\- hashes of the Hugging Face Xet store, and merging of ranges of chunks
.SH SYNOPSIS
.EX
.B #include <yurewha.h>
.EE
.PP
.B cc
.I file.c
.B $(pkg\\-config \\-\\-cflags \\-\\-libs yurewha)
.SH DESCRIPTION"""
FOOT = """\
.SH SEE ALSO
.BR xetroot (1),
.BR xetrange (1)
"""
#: The first version. The page doesn't say of its calls since when they are there.
FIRST = "1.1"
#: What may begin a line of a comment: a status with what it means, a number with its rule, or a point of a list.
ITEM = re.compile(r"\s*([A-Z]+(?:_[A-Z]+)*(?: \+ rule)?|\d+)(?:\s\s+)(\S.*)|- (.*)")


def escaped(text: str) -> str:
    """A line of text for groff: no line begins with a control character, hyphens stay as they are, and names are in italics."""
    text = text.replace("\\", "\\e").replace("-", "\\-").replace("^", "\\(ha")
    text = re.sub(r"`([^`]*)`", r"\\fI\1\\fP", text)
    return "\\&" + text if text.startswith((".", "'")) else text


def prose(comment: str) -> Iterator[str]:
    """The paragraphs, lists, statuses and examples of a comment. The lines of an example are indented by four spaces."""
    is_item, is_example = False, False
    for line in comment.split("\n"):
        line = re.sub(r"^ ?\*? ?", "", line.rstrip())
        item = ITEM.fullmatch(line)
        if is_example and line and not line.startswith("    "):
            is_example = False
            yield ".EE"
        if is_example or (line.startswith("    ") and not is_item):
            if not is_example:
                is_example = True
                yield ".EX"
            yield escaped(line)
            continue
        if not line:
            is_item = False
            yield ".PP"
        elif item and item[3] is not None:
            is_item = True
            yield from (".IP \\(bu 2", escaped(item[3]))
        elif item:
            is_item = True
            yield from (".TP 18", f".B {escaped(item[1])}", escaped(item[2]))
        else:
            if is_item and not line.startswith(" "):
                is_item = False
                yield ".PP"
            yield escaped(line.strip())


def heading(text: str) -> Iterator[str]:
    title, _, rest = text.partition(":")
    yield f".SH {escaped(title.upper())}"
    if rest:
        yield escaped(rest.strip().capitalize() + ".")


def lines_of(cursor: Cursor) -> range:
    """The lines of a declaration. Those of a call begin with its type, below its attributes."""
    start = cursor.location if cursor.kind == CursorKind.FUNCTION_DECL else cursor.extent.start
    return range(start.line, cursor.extent.end.line + 1)


def code(declarations: list[Cursor], lines: list[str]) -> Iterator[str]:
    """Declarations as the header has them, and which version first had the calls among them."""
    kept = [number for it in declarations for number in lines_of(it)]
    shown = [number for number in range(min(kept), max(kept) + 1) if number in kept or not lines[number - 1]]
    yield from (".PP", ".EX")
    yield from (escaped(lines[number - 1]) for number in shown)
    yield ".EE"
    calls = [it for it in declarations if it.kind == CursorKind.FUNCTION_DECL]
    for since in sorted({version(it) for it in calls} - {FIRST}):
        names = [it.spelling for it in calls if version(it) == since]
        yield from (".PP", f"{'' if len(names) == len(calls) else ', '.join(names) + ': '}Since version {since}.")


def comments_shown(comments: Iterable[Token]) -> list[Token]:
    """The comments that stand alone: the one at the top, below the line that says what the header is made of, and those from the
    first heading on."""
    _, top, *others = [it for it in comments if it.location.column == 1]
    first = next(at for at, it in enumerate(others) if it.spelling.startswith("/* ----"))
    return [top, *others[first:]]


def page(header: Header, made: str) -> str:
    lines = HEADER.read_text(encoding="utf-8").split("\n")
    kinds = (CursorKind.FUNCTION_DECL, CursorKind.TYPEDEF_DECL, CursorKind.MACRO_DEFINITION)
    shown = comments_shown(header.comments)
    made_of = [f'.\\" {made}', HEAD]
    follows_text = False
    for comment, after in zip(shown, [*(it.location.line for it in shown[1:]), len(lines)]):
        text = comment.spelling[2:-2].strip()
        if text.startswith("----"):
            made_of += heading(text[4:].strip())
            follows_text = ":" in text
        else:
            made_of += [*([".PP"] if follows_text else []), *prose(text)]
            follows_text = True
        declared = [it for it in header.cursors if it.kind in kinds and comment.extent.end.line < it.location.line < after]
        if declared and comment is not shown[0]:
            made_of += code(declared, lines)
            follows_text = True
    return "\n".join([*made_of, FOOT])
