"""Reads the header of the library, include/yurewha.h, by libclang, of which Debian's package python3-clang has the Python bindings.

pycparser wouldn't do: it doesn't show macros, comments, and the sizes of structs.
"""
from __future__ import annotations

import re
from collections.abc import Iterable, Iterator
from dataclasses import dataclass
from pathlib import Path

from clang.cindex import Cursor, CursorKind, Index, Token, TokenKind, TranslationUnit, Type, TypeKind

ROOT = Path(__file__).resolve().parents[2]
HEADER = ROOT / "bindings/include/yurewha.h"
#: How the header is compiled. The version of a call becomes an attribute, which libclang shows.
WORDS = ("-xc", "-std=c11", "-ffreestanding", "--target=x86_64-linux-gnu", "-DYUREWHA_SINCE(version)=__attribute__((annotate(#version)))")


class Unreadable(Exception):
    """What isn't of the form that is read here, in the header or in another file or folder."""

    def __init__(self, what: str, place: Path = HEADER) -> None:
        super().__init__(f"{place.relative_to(ROOT)}: it can't be read: {what}")


@dataclass(frozen=True)
class Member:
    """A member of a struct, or a parameter of a call: `count` things of a type, which is spelled as in C, such as `const char *`."""

    name: str
    type: str
    count: int = 1


@dataclass(frozen=True)
class Struct:
    """A struct, with its size and its alignment in bytes."""

    name: str
    members: tuple[Member, ...]
    size: int
    alignment: int

    @property
    def is_handle(self) -> bool:
        return any(member.type.endswith("*") for member in self.members)


@dataclass(frozen=True)
class Export:
    """A call: what it returns, its parameters, the version that first had it, and the heading and the comment above it."""

    name: str
    answer: str
    parameters: tuple[Member, ...]
    version: str
    heading: str
    comment: str


#: The call that is for C alone: what it takes are functions of C.
FOR_C = "yurewha_set_allocator"


@dataclass(frozen=True)
class Header:
    """What the header declares, in its order."""

    exports: tuple[Export, ...]
    structs: tuple[Struct, ...]
    statuses: dict[str, int]
    lengths: dict[str, int]
    #: The names of errors, by those of the statuses.
    errors: dict[str, str]
    #: How many bytes of a hasher the library uses.
    used_of_hasher: int
    #: Its declarations and macros, and its comments.
    cursors: tuple[Cursor, ...]
    comments: tuple[Token, ...]

    @property
    def for_languages(self) -> tuple[Export, ...]:
        """The calls that other languages declare."""
        return tuple(it for it in self.exports if it.name != FOR_C)


def of_data(c_type: str) -> str:
    """A type of C, in which data of any type is bytes."""
    return c_type.replace("const void *", "const uint8_t *")


def spelled(c_type: Type) -> str:
    """A type as C spells it. Data of any type crosses as bytes."""
    return of_data(str(c_type.spelling).replace("_Bool", "bool"))


def member(cursor: Cursor) -> Member:
    c_type, count = cursor.type, 1
    while c_type.kind == TypeKind.CONSTANTARRAY:
        c_type, count = c_type.element_type, count * c_type.element_count
    return Member(cursor.spelling, spelled(c_type), count)


def struct(cursor: Cursor) -> Struct:
    members = tuple(member(field) for field in cursor.type.get_fields())
    return Struct(cursor.spelling, members, cursor.type.get_size(), cursor.type.get_align())


def version(cursor: Cursor) -> str:
    """The version that first had a call, as its YUREWHA_SINCE says."""
    found = [it.spelling for it in cursor.get_children() if it.kind == CursorKind.ANNOTATE_ATTR]
    if len(found) != 1 or not re.fullmatch(r"\d+\.\d+", found[0]):
        raise Unreadable(f"{cursor.spelling}: one YUREWHA_SINCE has to say the two numbers of a version, and not {found}")
    return str(found[0])


def above(cursor: Cursor, texts: dict[int, str]) -> str:
    """The last of some texts, which begin at lines, above a declaration."""
    return [text for line, text in texts.items() if line < cursor.location.line][-1]


def export(cursor: Cursor, headings: dict[int, str], comments: dict[int, str]) -> Export:
    parameters = tuple(map(member, cursor.get_arguments()))
    answer = spelled(cursor.result_type)
    return Export(cursor.spelling, answer, parameters, version(cursor), above(cursor, headings), above(cursor, comments))


def numbers(cursors: Iterable[Cursor]) -> Iterator[tuple[str, int, int]]:
    """The names, the values and the lines of constants such as `4u`."""
    for cursor in cursors:
        if cursor.kind == CursorKind.MACRO_DEFINITION:
            words = [token.spelling for token in cursor.get_tokens()]
            if len(words) == 2 and re.fullmatch(r"\d+u", words[1]):
                yield cursor.spelling, int(words[1][:-1]), cursor.location.line


def parsed() -> tuple[tuple[Cursor, ...], tuple[Token, ...]]:
    """The declarations and macros of the header, and its comments."""
    unit = Index.create().parse(str(HEADER), WORDS, options=TranslationUnit.PARSE_DETAILED_PROCESSING_RECORD)
    if unit.diagnostics:
        raise Unreadable("\n".join(map(str, unit.diagnostics)))
    cursors = tuple(it for it in unit.cursor.get_children() if it.location.file and it.location.file.name == str(HEADER))
    return cursors, tuple(it for it in unit.get_tokens(extent=unit.cursor.extent) if it.kind == TokenKind.COMMENT)


def found_in(comments: Iterable[Token], pattern: str) -> dict[int, str]:
    """What the group of a pattern finds in comments, by the lines at which they begin."""
    return {it.location.line: found[1] for it in comments if (found := re.search(pattern, it.spelling))}


def read() -> Header:
    cursors, comments = parsed()
    constants = list(numbers(cursors))
    headings = found_in(comments, r"^/\* ---- ([^:*]*[^:* ])")
    texts = {it.location.line: it.spelling for it in comments}
    errors = found_in(comments, r"^/\* ([A-Z]\w+): ")
    used = found_in(comments, r"It uses the first (\d+) bytes")
    if len(used) != 1:
        raise Unreadable("one comment has to say how many bytes of a hasher the library uses")
    return Header(
        exports=tuple(export(it, headings, texts) for it in cursors if it.kind == CursorKind.FUNCTION_DECL),
        structs=tuple(struct(it) for it in cursors if it.kind == CursorKind.STRUCT_DECL),
        statuses={name: number for name, number, _ in constants if not name.endswith("_LENGTH")},
        lengths={name: number for name, number, _ in constants if name.endswith("_LENGTH")},
        errors={name: errors[line] for name, _, line in constants if line in errors},
        used_of_hasher=int(*used.values()),
        cursors=cursors,
        comments=comments,
    )
