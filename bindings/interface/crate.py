"""Compares the header with the crates: the exports with the names and types of what crosses, the statuses, and the members of structs.

Names are compared because a contract goes by them: an export whose `from` and `to` changed places would be proved.
"""
from __future__ import annotations

import re
from collections.abc import Iterator
from pathlib import Path
from typing import NamedTuple

from exports import CRATE, SCALARS, STRUCTS, Call, in_c, parts_of
from header import FOR_C, ROOT, Export, Header, Member, Struct, Unreadable, of_data

#: The crates whose structs cross as they are.
STRUCT_CRATES = [ROOT / "crates" / name / "src" for name in ("keyed_blake3", "xet_chunker")]
#: The calls that aren't proved: dist/processor_level.c and dist/heap.c have them.
UNPROVED = ("yurewha_processor_level", FOR_C)
#: The struct whose members are private to the library, which uses the bytes that the header says.
HASHER = "yurewha_hasher"
SIZES = {"uint8_t": 1, "uint32_t": 4, "uint64_t": 8, "size_t": 8, "uint8_t *": 8}


def sources(folder: Path) -> str:
    """The text of a crate without comments."""
    return "\n".join(re.sub(r"//[^\n]*", "", it.read_text()) for it in sorted(folder.rglob("*.rt")))


class Signature(NamedTuple):
    """What an export returns, and the types and names of what it takes."""

    answer: str
    parameters: tuple[tuple[str, str], ...]

    def __str__(self) -> str:
        parameters = ", ".join(f"{kind} {name}" for kind, name in self.parameters)
        return f"{self.answer} ({parameters or 'void'})"


def signature_of(call: Call | Export) -> Signature:
    return Signature(call.answer, tuple((of_data(it.type), it.name) for it in call.parameters))


def members_of(text: str, name: str, prefix: str = "") -> Iterator[Member]:
    """The numbers of which a `#[repr(C)]` struct consists. A `Global` and what is ghost have no bytes."""
    struct = re.search(rf"#\[repr\(C\)\][^;}}]*struct {name} \{{([^}}]*)\}}", text)
    if not struct:
        raise Unreadable(f"there is no struct {name} that is repr(C)", CRATE)
    for member in parts_of(struct[1]):
        parts = re.fullmatch(r"(pub(?:\(\w+\))? )?(ghost )?(\w+): (.*)", member, re.S)
        if not parts:
            raise Unreadable(member, CRATE)
        kind, count = parts[4], 1
        if parts[2] or kind == "Global":
            continue
        while kind.startswith("["):
            kind, length = kind[1:-1].rsplit(";", 1)
            count *= number_of(text, length.strip())
        if kind in SCALARS or kind.startswith("*"):
            yield Member(prefix + parts[3], in_c(kind), count)
        else:
            yield from members_of(text, kind, f"{prefix}{parts[3]}.")


def number_of(text: str, word: str) -> int:
    said = re.search(rf"const {word}: usize = (\d+);", text)
    return int(said[1] if said else word)


def flattened(struct: Struct, structs: dict[str, Struct]) -> list[Member]:
    """The numbers of which a struct of the header consists."""
    numbers = []
    for member in struct.members:
        if member.type in structs:
            inner = flattened(structs[member.type], structs)
            numbers += [Member(f"{member.name}.{it.name}", it.type, it.count * member.count) for it in inner]
        else:
            numbers.append(member)
    return numbers


def of_exports(header: Header, calls: list[Call]) -> Iterator[str]:
    wanted = {it.name: signature_of(it) for it in header.exports if it.name not in UNPROVED}
    found = {it.name: signature_of(it) for it in calls}
    for name in sorted({*wanted, *found}):
        if wanted.get(name) != found.get(name):
            yield f"{name}: it has\n    {found.get(name)}\nand the header\n    {wanted.get(name)}"


def of_statuses(header: Header, text: str) -> Iterator[str]:
    found = {f"YUREWHA_{name}": int(number) for name, number in re.findall(r"pub const (\w+): u32 = (\d+);", text)}
    for name in sorted({*header.statuses, *found}):
        if header.statuses.get(name) != found.get(name):
            yield f"{name}: it has {found.get(name)}, and the header {header.statuses.get(name)}"


def of_structs(header: Header, text: str) -> Iterator[str]:
    structs = {it.name: it for it in header.structs}
    if {*structs} != {*STRUCTS.values()}:
        yield f"not in both: {sorted({*structs} ^ {*STRUCTS.values()})}"
    for rattle, name in STRUCTS.items():
        found, wanted = list(members_of(text, rattle)), structs.get(name)
        if name == HASHER and wanted:
            used = sum(SIZES[it.type] * it.count for it in found)
            if not used == header.used_of_hasher <= wanted.size:
                yield f"{name}: it uses {used} bytes, and the header says {header.used_of_hasher} of {wanted.size}"
        elif wanted and found != flattened(wanted, structs):
            yield f"{name}: it has\n    {found}\nand the header\n    {flattened(wanted, structs)}"


def differences(header: Header, calls: list[Call]) -> Iterator[str]:
    text = sources(CRATE)
    yield from of_exports(header, calls)
    yield from of_statuses(header, text)
    yield from of_structs(header, "\n".join([text, *map(sources, STRUCT_CRATES)]))
