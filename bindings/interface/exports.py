"""Reads the exports of the crate yurewha_c, as C sees them.

No tool reads Rattle outside its toolchain, so the few forms that matter are read here.
"""
from __future__ import annotations

import re
from collections.abc import Iterator
from typing import NamedTuple

from header import ROOT

CRATE = ROOT / "crates/yurewha_c/src"
SCALARS = {"u8": "uint8_t", "u32": "uint32_t", "u64": "uint64_t", "i32": "int32_t", "usize": "size_t", "bool": "bool"}
STRUCTS = {
    "Hash": "yurewha_hash",
    "Bytes": "yurewha_bytes",
    "Chunk": "yurewha_chunk",
    "Level": "yurewha_level",
    "Hasher": "yurewha_hasher",
    "Chunker": "yurewha_chunker",
    "SubtreeHandle": "yurewha_subtree",
    "SessionHandle": "yurewha_session",
    "HashTreeHandle": "yurewha_hash_tree",
    "OpenedRangeHandle": "yurewha_opened_range",
    "PartHandle": "yurewha_part",
    "ReaderHandle": "yurewha_reader",
    "HashIndexHandle": "yurewha_hash_index",
    "FileHasherHandle": "yurewha_file_hasher",
}
#: What C calls a parameter that has another name in the crate. In a contract, `length` and `result` mean something else.
NAMES = {"room": "text", "text_len": "length", "level_len": "level_count", "node_len": "node_count", "byte_len": "byte_count", "keyed": "result"}
#: An export: its comment, its name, its parameters and its answer.
EXPORT = re.compile(
    r"(?P<comment>(?:^///.*\n)*)(?:^#\[.*\n)*?^#\[unsafe\(no_mangle\)\]\n"
    r'pub extern "C" fn (?P<name>yurewha_\w+)\((?P<parameters>[^)]*)\)(?:\s*->\s*(?P<answer>[\w:]+))?', re.M,
)


class Parameter(NamedTuple):
    """What C passes: a name, a type, and whether the type is that of a reference, which may not be null."""

    name: str
    type: str
    is_reference: bool = False

    @property
    def declared(self) -> str:
        return f"{self.type}{self.name}" if self.type.endswith("*") else f"{self.type} {self.name}"


class Call(NamedTuple):
    """An export: its module, its name, what C takes and returns, and the lines of its comment."""

    module: str
    name: str
    answer: str
    parameters: tuple[Parameter, ...]
    comment: tuple[str, ...]


class Slice(NamedTuple):
    """A parameter that crosses as a pointer and a length, by its name in the crate."""

    name: str
    is_mutable: bool
    element: str

    @property
    def is_data(self) -> bool:
        """Whether it is bytes that the call reads."""
        return self.element == "u8" and not self.is_mutable

    @property
    def is_room(self) -> bool:
        """Whether the call writes a text to it."""
        return self.name == "room"

    @property
    def is_list(self) -> bool:
        return not self.is_data and not self.is_room


def in_c(rattle: str) -> str:
    """The type of C as which a type crosses."""
    for mark, of_c in (("*const ", "const {} *"), ("*mut ", "{} *"), ("&mut ", "{} *"), ("&", "const {} *")):
        if rattle.startswith(mark):
            return of_c.format(in_c(rattle[len(mark) :].strip()))
    name = rattle.rsplit("::", 1)[-1]
    return STRUCTS.get(name) or SCALARS.get(name) or name


def of_status(c_type: str) -> str:
    """A type of C, in which the one number of 32 bits that crosses is a status."""
    return c_type.replace("uint32_t", "yurewha_status")


def parts_of(list_of: str) -> list[str]:
    return [part.strip() for part in list_of.split(",") if part.strip()]


def slice_of(name: str, rattle: str) -> Slice | None:
    found = re.fullmatch(r"&(mut )?\[(\w+)\]", rattle)
    return Slice(name, bool(found[1]), found[2]) if found else None


def pointer_of(it: Slice) -> Parameter:
    """The pointer of a slice. Texts are `char`, and data that is read may be of any type."""
    is_text = it.is_room or it.name == "text"
    kind = "char" if is_text else "void" if it.is_data else in_c(it.element)
    return Parameter(NAMES.get(it.name, it.name), f"{kind} *" if it.is_mutable else f"const {kind} *")


def length_of(it: Slice, slices: list[Slice], names: set[str]) -> Parameter:
    """The length of a slice. A list has a `count`, or a `room` if the call writes how many it needs. If a call has several lists, this
    says of which one it is, except for hashes."""
    if not it.is_list:
        return Parameter("length" if it.is_data else "room", "size_t")
    one = it.name.removesuffix("s")
    what = "room" if f"{one}_len" in names else "count"
    is_one_of_several = sum(other.is_list for other in slices) > 1
    return Parameter(f"{one}_{what}" if is_one_of_several and it.name != "hashes" else what, "size_t")


def parameters_of(text: str) -> Iterator[Parameter]:
    """What C passes for parameters: for a slice a pointer and a length, and for a `Global` nothing."""
    types = {name.strip(): rattle.strip() for name, rattle in (it.split(":", 1) for it in parts_of(text))}
    slices = {name: it for name, rattle in types.items() if (it := slice_of(name, rattle))}
    for name, rattle in types.items():
        if name in slices:
            yield pointer_of(slices[name])
            yield length_of(slices[name], [*slices.values()], {*types})
        elif rattle != "Global":
            yield Parameter(NAMES.get(name, name), of_status(in_c(rattle)), rattle.startswith("&"))


def calls_in(module: str, text: str) -> Iterator[Call]:
    for it in EXPORT.finditer(text):
        comment = tuple(line.removeprefix("///").removeprefix(" ") for line in it["comment"].splitlines())
        answer = of_status(in_c(it["answer"])) if it["answer"] else "void"
        yield Call(module, it["name"], answer, tuple(parameters_of(it["parameters"])), comment)


def calls() -> list[Call]:
    """All exports, by their modules."""
    return [call for path in sorted(CRATE.rglob("*.rt")) for call in calls_in(path.stem, path.read_text(encoding="utf-8"))]
