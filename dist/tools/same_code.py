"""Compares the object that an assembler makes of a file for Linux (ELF) with that for macOS (Mach-O), piece by piece.

A piece is a function or what stands after a label of data. Two are the same if they have the same bytes, are as aligned, and if what the
linker fills in is in the same places and leads to the same place of the same piece, or to the same name of elsewhere. For Linux the file
has to be assembled so that labels of data stay (KEEP_LABELS); Mach-O keeps them anyway.
"""

from __future__ import annotations

import struct
from bisect import bisect_right
from dataclasses import dataclass, field
from pathlib import Path
from typing import Iterator

from proving import Fault

KEEP_LABELS = "-Wa,-L"
#: What an ELF relocation fills in: an address, a distance of 32 bits, a call, or a half of an address.
KINDS = {
    1: "address", 2: "distance", 4: "distance", 257: "address", 261: "distance", 282: "call", 283: "call", 275: "page",
    **dict.fromkeys((277, 278, 284, 285, 286, 299), "low half"),
}
#: The same of Mach-O, for x86-64 and arm64. The first of a pair says what is taken away from what the second says.
X86_64, ARM64 = 0x01000007, 0x0100000C
KINDS_OF_MACHO = {
    X86_64: {0: "address", **dict.fromkeys((1, 2, 6, 7, 8), "distance"), 5: "less"},
    ARM64: {0: "address", 1: "less", 2: "call", 3: "page", 4: "low half", 10: "added"},
}
#: A reference: where it is, its kind, and the piece or the outside name to which it leads, and how far from its beginning.
Reference = tuple[int, str, str, int]


@dataclass(frozen=True)
class Symbol:
    """A symbol: the section in which it is, or none if it is elsewhere, and where there. A section itself has no name."""

    name: str
    section: Section | None
    offset: int

    def place(self, added: int) -> tuple[str, int]:
        """The piece or the outside name, and the place from its beginning, that is so far from here."""
        return (self.name, added) if self.name or not self.section else self.section.place(self.offset + added)


@dataclass
class Section:
    """A section: its bytes, where only what the assembler knows is filled in, and where its symbols and references are."""

    contents: bytearray
    alignment: int
    is_code: bool
    #: Where it begins, in the object's own addresses.
    start: int = 0
    #: Where pieces begin, in order, with their names and their sizes, if these are known.
    pieces: list[tuple[int, str, int]] = field(default_factory=list)
    #: Where something is filled in, its kind, the symbol that it leads to, and how far from there.
    references: list[tuple[int, str, Symbol, int]] = field(default_factory=list)

    def place(self, offset: int) -> tuple[str, int]:
        """The piece in which an offset is, and how far from its beginning."""
        at = bisect_right(self.pieces, (offset, "\U0010ffff", 0)) - 1
        if at < 0:
            raise Fault(f"there is no piece at {offset:#x}")
        return self.pieces[at][1], offset - self.pieces[at][0]


@dataclass(frozen=True)
class Piece:
    """A function, or what stands after a label of data, and up to the next piece."""

    contents: bytes
    references: tuple[Reference, ...]
    is_code: bool
    #: How many of the bytes are its own, if that is known, and the most by which it is sure to be aligned.
    size: int
    alignment: int


def text_at(data: bytes, at: int) -> str:
    return data[at:data.index(b"\0", at)].decode()


def elf(data: bytes) -> list[Section]:
    """The sections of code and data of an ELF object."""
    (start,), (count,) = struct.unpack_from("<Q", data, 40), struct.unpack_from("<H", data, 60)
    heads = [struct.unpack_from("<IIQQQQIIQQ", data, start + 64 * at) for at in range(count)]
    names = heads[struct.unpack_from("<H", data, 62)[0]][4]
    found = {
        at: Section(bytearray(data[head[4]:head[4] + head[5]]), max(1, head[8]), bool(head[2] & 4))
        for at, head in enumerate(heads) if head[1] == 1 and text_at(data, names + head[0]).startswith((".text", ".rodata", ".data"))
    }
    (table,) = (head for head in heads if head[1] == 2)
    symbols = []
    for at in range(table[4], table[4] + table[5], 24):
        name_at, info, _, number, offset, size = struct.unpack_from("<IBBHQQ", data, at)
        name, section = text_at(data, heads[table[6]][4] + name_at), found.get(number)
        is_piece = section and info & 15 != 3 and not name.startswith("$") and not (section.is_code and name.startswith(".L"))
        symbols.append(Symbol(name.removeprefix(".L") if is_piece or not section else "", section, offset))
        if section and is_piece:
            section.pieces.append((offset, symbols[-1].name, size))
    for head in heads:
        if head[1] == 4 and head[7] in found:
            for at, info, added in struct.iter_unpack("<QQq", data[head[4]:head[4] + head[5]]):
                symbol, kind = symbols[info >> 32], KINDS.get(info & 0xFFFFFFFF, f"ELF's kind {info & 0xFFFFFFFF}")
                to = found[head[7]]
                # A distance for x86-64 is counted from its end on; where data holds one, from the piece's beginning on.
                added += 4 if kind == "distance" and to.is_code else 0
                to.references.append((at, kind, symbol, added))
    return list(found.values())


def macho_sections(data: bytes) -> Iterator[tuple[Section, int, int]]:
    """The sections of a Mach-O object, each with where its relocations are and how many."""
    at = 32
    for _ in range(struct.unpack_from("<I", data, 16)[0]):
        command, size = struct.unpack_from("<2I", data, at)
        if command == 0x19:
            for head in range(at + 72, at + 72 + 80 * struct.unpack_from("<I", data, at + 64)[0], 80):
                start, length, place, alignment, relocations, count, flags = struct.unpack_from("<2Q5I", data, head + 32)
                is_code = bool(flags & 0x80000000)
                yield Section(bytearray(data[place:place + length]), 1 << alignment, is_code, start), relocations, count
        at += size


def name_for_linux(name: str) -> str:
    """The name for Linux, without `.L`, of one for macOS. The library's own, with colons, are the same; others begin with `_` or `l`."""
    return name.removeprefix(".L") if "::" in name else name[1:]


def macho_symbols(data: bytes, sections: list[Section]) -> list[Symbol]:
    """The symbols of a Mach-O object, with the names that they have for Linux. Those that begin a piece are in its section, too."""
    at, found = 32, []
    for _ in range(struct.unpack_from("<I", data, 16)[0]):
        command, size = struct.unpack_from("<2I", data, at)
        if command == 2:
            table, count, texts, _ = struct.unpack_from("<4I", data, at + 8)
            for it in range(table, table + 16 * count, 16):
                name_at, kind, number, _, value = struct.unpack_from("<IBBHQ", data, it)
                name, section = text_at(data, texts + name_at), sections[number - 1] if kind & 0x0E == 0x0E else None
                found.append(Symbol(name_for_linux(name), section, value - (section.start if section else 0)))
                if section and not name.startswith("ltmp"):
                    section.pieces.append((found[-1].offset, found[-1].name, 0))
        at += size
    return found


class MachoReferences:
    """Reads the references of a section of a Mach-O object."""

    def __init__(self, processor: int, sections: list[Section], symbols: list[Symbol]) -> None:
        self.processor, self.sections, self.symbols = processor, sections, symbols
        #: What the last relocation said of the next one.
        self.less: Symbol | None = None
        self.added = 0

    def read(self, section: Section, at: int, word: int) -> None:
        """Reads a relocation, and takes what it says out of the bytes that it fills in."""
        number, is_far, is_outer, number_of_kind = word & 0xFFFFFF, word >> 25 & 3, word >> 27 & 1, word >> 28
        kind = KINDS_OF_MACHO[self.processor].get(number_of_kind, f"Mach-O's kind {number_of_kind}")
        if kind == "added":
            self.added = number - (1 << 24) if number >> 23 else number
            return
        if kind == "less":
            self.less = self.symbols[number]
            return
        offset, size = self.added, 1 << is_far
        if self.processor == X86_64 or kind == "address":
            offset += int.from_bytes(section.contents[at:at + size], "little", signed=True)
            section.contents[at:at + size] = bytes(size)
        to = self.symbols[number] if is_outer else Symbol("", self.sections[number - 1], 0)
        if not is_outer:
            offset -= self.sections[number - 1].start - (section.start + at + 4 if kind == "distance" else 0)
        if self.less:
            if (self.less.section, size, kind) != (section, 4, "address"):
                raise Fault(f"a difference at {at:#x} isn't that to a piece of its own section")
            kind, offset = "distance", offset + at - self.less.offset
        section.references.append((at, kind, to, offset))
        self.less, self.added = None, 0


def macho(data: bytes) -> list[Section]:
    """The sections of code and data of a Mach-O object."""
    heads = list(macho_sections(data))
    sections = [section for section, _, _ in heads]
    reader = MachoReferences(struct.unpack_from("<I", data, 4)[0], sections, macho_symbols(data, sections))
    for section, place, count in heads:
        if section.pieces:
            for at, word in struct.iter_unpack("<iI", data[place:place + 8 * count]):
                reader.read(section, at, word)
    return [section for section in sections if section.pieces]


def pieces(path: Path) -> dict[str, Piece]:
    """The pieces of an object, by their names."""
    data, found = path.read_bytes(), {}
    sections = elf(data) if data.startswith(b"\x7fELF") else macho(data)
    for section in sections:
        # Of two labels at one place, the first one's piece is empty.
        section.pieces.sort(key=lambda it: it[0])
    for section in sections:
        ends = [*(start for start, _, _ in section.pieces[1:]), len(section.contents)]
        references: dict[str, list[Reference]] = {}
        for at, kind, to, offset in sorted(section.references, key=lambda it: it[0]):
            name, place = section.place(at)
            if kind == "distance" and not section.is_code:
                offset -= place
            references.setdefault(name, []).append((place, kind, *to.place(offset)))
        for (start, name, size), end in zip(section.pieces, ends):
            if name in found:
                raise Fault(f"there are two pieces {name}")
            found[name] = Piece(bytes(section.contents[start:end]), tuple(references.get(name, ())), section.is_code,
                                size or end - start, min(section.alignment, start & -start or section.alignment))
    return found


def difference_of_pieces(linux: Piece, macos: Piece) -> str | None:
    """How a piece for macOS differs from that for Linux. After its own bytes there may be what aligns the next piece."""
    own, rest = macos.contents[:linux.size], macos.contents[linux.size:]
    if linux.contents[:linux.size] != own or not linux.is_code and any(rest):
        return "other bytes"
    if linux.references != macos.references:
        first = next((pair for pair in zip(linux.references, macos.references) if pair[0] != pair[1]), "another number")
        return f"other references: {first}"
    return "less alignment" if macos.alignment < linux.alignment else None


def difference(linux: Path, macos: Path) -> str | None:
    """The first difference between the objects of both files, or None."""
    first, second = pieces(linux), pieces(macos)
    if other := set(first) ^ set(second):
        return f"only one has {', '.join(sorted(other)[:3])}"
    for name, piece in first.items():
        if found := difference_of_pieces(piece, second[name]):
            return f"{name}: {found}"
    return None


def counted(path: Path) -> str:
    """How much an object holds, for people."""
    found = pieces(path).values()
    functions = [piece for piece in found if piece.is_code]
    return (f"{len(functions)} functions of {sum(piece.size for piece in functions)} bytes, {len(found) - len(functions)} pieces of data, "
            f"{sum(len(piece.references) for piece in found)} references")
