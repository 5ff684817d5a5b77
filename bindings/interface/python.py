"""The declarations of the Python package, yurewha/_declarations.py: plain data, of which its `_library.py` makes those of ctypes."""
from __future__ import annotations

from collections.abc import Iterable

from header import Export, Header, Struct

WIDTH = 113
HEAD = '''\
"""The library's calls: the name, return type and argument types of each, as in the C header.

They are plain data, and importing them loads no library. `_library.py` makes the ctypes declarations from them.
"""

from __future__ import annotations

from typing import Dict, Tuple

#: The return type, and the types of the arguments in order.
Declaration = Tuple[str, Tuple[str, ...]]
#: The name of a member of a struct, its type, and how many of it there are.
Member = Tuple[str, str, int]

'''
STATUSES = "#: The statuses, by their names in the header.\n"
LENGTHS = "#: The lengths of a hash as hex text and as base64 text, and the greatest length of a status's text, by their names in the header.\n"
MEMBERS = "#: The members of each struct: the name, the type, and how many of it there are.\n"
STRUCTS = "#: The structs that calls use, and their sizes in bytes.\n"


def quoted(text: str) -> str:
    return f'"{text}"'


def tuple_of(parts: list[str]) -> str:
    return f"({', '.join(parts)}{',' * (len(parts) == 1)})"


def call(export: Export) -> str:
    types = tuple_of([quoted(it.type) for it in export.parameters])
    start, answer = f"    {quoted(export.name)}: (", f"{quoted(export.answer)}, "
    if len(f"{start}{answer}{types}),") <= WIDTH:
        return f"{start}{answer}{types}),\n"
    if len(f"        {answer}{types}),") <= WIDTH:
        return f"{start}\n        {answer}{types}),\n"
    return f"{start}\n        {answer.strip()}\n        {types}),\n"


def calls(exports: Iterable[Export]) -> str:
    """The calls under their headings."""
    lines, heading = [], ""
    for export in exports:
        if export.heading != heading:
            heading = export.heading
            lines.append(f"    # {heading}\n")
        lines.append(call(export))
    return "".join(lines)


def numbers(of_names: dict[str, int]) -> str:
    return "".join(f"    {quoted(name)}: {number},\n" for name, number in of_names.items())


def members(struct: Struct) -> str:
    return f"    {quoted(struct.name)}: {tuple_of([f'({quoted(it.name)}, {quoted(it.type)}, {it.count})' for it in struct.members])},\n"


def declarations(header: Header, made: str) -> str:
    sizes = numbers({struct.name: struct.size for struct in header.structs})
    tables = (
        f"DECLARATIONS: Dict[str, Declaration] = {{\n{calls(header.for_languages)}}}\n",
        f"{STATUSES}STATUSES: Dict[str, int] = {{\n{numbers(header.statuses)}}}\n",
        f"{LENGTHS}LENGTHS: Dict[str, int] = {{\n{numbers(header.lengths)}}}\n",
        f"{MEMBERS}MEMBERS: Dict[str, Tuple[Member, ...]] = {{\n{''.join(map(members, header.structs))}}}\n",
        f"{STRUCTS}STRUCTS: Dict[str, int] = {{\n{sizes}}}\n",
    )
    return f"# {made}\n{HEAD}" + "\n".join(tables)
