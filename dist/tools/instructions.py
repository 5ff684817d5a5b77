"""What an object file holds, in a form in which the objects of several assemblers can be compared.

Assemblers write instructions that do nothing, which align others, in ways of their own, and choose the lengths of jumps. So
instructions are counted here, without those that do nothing, and a jump goes to an instruction's number.
"""

from __future__ import annotations

import re
import subprocess
from bisect import bisect_left, bisect_right
from pathlib import Path
from typing import Sequence

NOTHING = re.compile(r"(?:(?:data16|cs) )*(?:nop[wl]?\b|xchg +%ax,%ax$)")
SYMBOL = re.compile(r"([0-9a-f]{16}) .{7} (\S.*)\t[0-9a-f]{16} (?:\.hidden )?(.+)")
RELOCATION = re.compile(r"([0-9a-f]+) +(R_\w+) +(.+?)([+-]0x[0-9a-f]+)?")
INSTRUCTION = re.compile(r" *([0-9a-f]+):\t(.*?) *")
#: Sections of constants of a size, which ends the name.
CONSTANTS = ".rodata.cst"
#: A line of data: where it is, up to 16 bytes, and these as text.
BYTES = re.compile(r"(?m)^ [0-9a-f]+ ((?:[0-9a-f]+ )+)")
#: An address in the same section, to which a jump goes, and what objdump says of it.
TARGET = re.compile(r"\b(?:0x)?([0-9a-f]+) <.*>$")
#: Two kinds that mean the same, unless the symbol is another library's.
SAME_KINDS = {"R_X86_64_PLT32": "R_X86_64_PC32"}

#: A relocation: where it is, its kind, and what it points to: a symbol, or a section with a place in it.
Relocation = tuple[int, str, str, int]


def dumped(objdump: str, path: Path, *flags: str) -> dict[str, list[str]]:
    """The lines that objdump prints of each section of a file."""
    done = subprocess.run([objdump, "-w", *flags, path], stdout=subprocess.PIPE, text=True, check=True)
    found: dict[str, list[str]] = {}
    section = ""
    for line in done.stdout.splitlines():
        start = re.fullmatch(r"(?:Disassembly of section|Contents of section|RELOCATION RECORDS FOR) \[?(.*?)\]?:", line)
        if start:
            section = start[1]
        elif section.startswith((".text", ".rodata", ".rdata", ".pdata", ".xdata")) or "-t" in flags:
            found.setdefault(section, []).append(line)
    return found


class Object:
    """An object file for x86-64 or aarch64, in which each function has a section."""

    def __init__(self, objdump: str, path: Path) -> None:
        self.objdump, self.path = objdump, path
        self.data = {name: it for name, it in dumped(objdump, path, "-s").items() if name.startswith(".rodata")}
        lines_of_code = dumped(objdump, path, "-d", "--no-show-raw-insn")
        found = {name: filter(None, map(INSTRUCTION.fullmatch, lines)) for name, lines in lines_of_code.items()}
        self.all_addresses = {name: [int(it[1], 16) for it in its] for name, its in found.items()}
        code = {name: self.code(lines) for name, lines in lines_of_code.items()}
        self.addresses = {name: [address for address, _ in lines] for name, lines in code.items()}
        self.instructions = {name: [self.numbered(name, text) for _, text in lines] for name, lines in code.items()}
        self.raw = raw = self.raw_relocations()
        self.tables = self.starts_of_tables(raw)
        self.relocations = {name: sorted(self.placed(name, it) for it in lines) for name, lines in raw.items()}

    @staticmethod
    def code(lines: list[str]) -> list[tuple[int, str]]:
        """The instructions of a section that do something, with their addresses."""
        found = [it for it in map(INSTRUCTION.fullmatch, lines) if it and not NOTHING.match(it[2])]
        return [(int(it[1], 16), re.sub(r" +#.*", "", it[2])) for it in found]

    def number(self, section: str, address: int) -> int:
        """The number of the instruction at an address, or of the one after what does nothing there."""
        return bisect_left(self.addresses[section], address)

    def numbered(self, section: str, text: str) -> str:
        """An instruction, whose target is a number."""
        target = TARGET.search(text)
        return text if not target else f"{text[:target.start()]}to {self.number(section, int(target[1], 16))}"

    def raw_relocations(self) -> dict[str, list[Relocation]]:
        """The relocations of each section. A place is a section and the offset in it, whether or not it has a symbol."""
        symbols = (SYMBOL.fullmatch(line) for lines in dumped(self.objdump, self.path, "-t").values() for line in lines)
        places = {it[3]: (it[2], int(it[1], 16)) for it in symbols if it and it[2] not in ("*UND*", "*ABS*")}
        found: dict[str, list[Relocation]] = {}
        for section, lines in dumped(self.objdump, self.path, "-r").items():
            for it in filter(None, map(RELOCATION.fullmatch, lines)):
                target, offset = places.get(it[3], (it[3], 0))
                kind = SAME_KINDS.get(it[2], it[2])
                found.setdefault(section, []).append((int(it[1], 16), kind, target, offset + int(it[4] or "0", 16)))
        return found

    @staticmethod
    def starts_of_tables(raw: dict[str, list[Relocation]]) -> dict[str, list[int]]:
        """Where tables of jumps may start in each section of data: wherever code of x86-64 points, 4 bytes before its end."""
        found: dict[str, set[int]] = {}
        for section, lines in raw.items():
            if section.startswith(".text"):
                for _, _, target, offset in lines:
                    found.setdefault(target, set()).add(offset + 4)
        return {name: sorted(starts) for name, starts in found.items()}

    def placed(self, section: str, relocation: Relocation) -> Relocation:
        """A relocation, where places in code are numbers of instructions."""
        at, kind, target, offset = relocation
        if section.startswith(".text"):
            return bisect_right(self.addresses[section], at) - 1, kind, target, offset
        if target.startswith(".text"):
            # An entry is a label less the table's start; the relocation is relative to the entry.
            starts = self.tables[section]
            offset -= at - starts[bisect_right(starts, at) - 1]
            return at, kind, target, self.number(target, offset)
        return relocation

    def constant(self, section: str, relocation: Relocation) -> Relocation:
        """A relocation of code for x86-64. If it points to a constant of a size, the constant stands in the place of where it is.

        Such constants are in one section for each size, of which the linker keeps one of each.
        """
        at, kind, target, offset = relocation
        if not target.startswith(CONSTANTS):
            return self.placed(section, relocation)
        # The place is relative to the end of the instruction.
        addresses = self.all_addresses[section]
        place = offset + addresses[bisect_right(addresses, at)] - at
        size, data = int(target.removeprefix(CONSTANTS)), bytes.fromhex("".join(BYTES.findall("\n".join(self.data[target]))))
        start = place - place % size
        return bisect_right(self.addresses[section], at) - 1, kind, data[start : start + size].hex(), place - start


def first_difference(what: str, here: Sequence[object], there: Sequence[object]) -> str | None:
    """The first difference of two lists, or None."""
    for number, (it, its) in enumerate(zip(here, there)):
        if it != its:
            return f"{what}, number {number}: {it} and {its}"
    return None if len(here) == len(there) else f"{what}: {len(here)} and {len(there)}"


def difference(first: Object, second: Object) -> str | None:
    """The first difference of two objects, or None."""
    for what in ("instructions", "relocations", "data"):
        one, other = getattr(first, what), getattr(second, what)
        for section in sorted({*one, *other}):
            if found := first_difference(f"{what} of {section}", one.get(section, []), other.get(section, [])):
                return found
    return None


def difference_of_some(whole: Object, some: Object) -> str | None:
    """The first difference of some of an object's functions, and the data that they have, from those of the object, or None."""
    for section, instructions in some.instructions.items():
        found = first_difference(f"instructions of {section}", whole.instructions.get(section, []), instructions)
        here, there = (sorted(it.constant(section, line) for line in it.raw.get(section, [])) for it in (whole, some))
        if found := found or first_difference(f"relocations of {section}", here, there):
            return found
    for section in some.data:
        if not section.startswith(CONSTANTS):
            for what in ("data", "relocations"):
                here, there = (getattr(it, what).get(section, []) for it in (whole, some))
                if found := first_difference(f"{what} of {section}", here, there):
                    return found
    return None
