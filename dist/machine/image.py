"""Files of dist/, assembled and linked at a fixed address, and their instructions, as objdump reads them."""

from __future__ import annotations

import re
import struct
import subprocess
from dataclasses import dataclass
from pathlib import Path
from typing import Dict, List, Sequence, Tuple

from fault import Fault

#: Where calls of the C library and of the heap go, for which machine.py stands in: near enough to the code for every kind of call.
OUTSIDE = {
    "memcpy": 0x7000010, "memmove": 0x7000020, "memset": 0x7000030,
    "yurewha_heap_alloc": 0x7000040, "yurewha_heap_dealloc": 0x7000050, "yurewha_heap_realloc": 0x7000060,
}
#: How the names of functions look, for objcopy.
_FUNCTIONS = "*::*"
_LABEL = re.compile(r"([0-9a-f]+) <(.*)>:$")


@dataclass(frozen=True)
class Instruction:
    """An instruction: the function that it is in, its bytes and its text."""

    function: str
    code: bytes
    text: str


@dataclass(frozen=True)
class Segment:
    """A part of the linked file: where it begins, its bytes, and whether they are code."""

    start: int
    data: bytes
    is_code: bool


class Image:
    """A linked file: its segments, the places of its functions, and its instructions."""

    def __init__(self, path: Path, objdump: Sequence[str]) -> None:
        self.path = path
        self.segments = segments_of(path.read_bytes())
        self.functions: Dict[str, int] = {}
        self.instructions: Dict[int, Instruction] = {}
        told = subprocess.run([*objdump, "-dw", path], stdout=subprocess.PIPE, universal_newlines=True, check=True).stdout
        function = ""
        for line in told.splitlines():
            label, parts = _LABEL.match(line), line.split("\t")
            if label:
                function = label[2]
                self.functions[function] = int(label[1], 16)
            elif len(parts) > 2:
                place, text = int(parts[0].strip()[:-1], 16), " ".join(parts[2:]).strip()
                self.instructions[place] = Instruction(function, bytes.fromhex(parts[1]), text)

    def function(self, name: str) -> int:
        """Where a function begins."""
        if name not in self.functions:
            raise Fault(f"there is no function {name}")
        return self.functions[name]


def segments_of(data: bytes) -> List[Segment]:
    """The loaded segments of an ELF file for 64 bits."""
    (table,) = struct.unpack_from("<Q", data, 32)
    (count,) = struct.unpack_from("<H", data, 56)
    found = []
    for i in range(count):
        kind, flags, offset, address, _, size = struct.unpack_from("<IIQQQQ", data, table + 56 * i)
        if kind == 1:
            found.append(Segment(address, data[offset:offset + size], bool(flags & 1)))
    return found


def linked(files: Sequence[Path], assembler: Sequence[str], binutils: str, options: Sequence[str], work: Path) -> Image:
    """The image of files of assembly by a compiler, made in a folder; the names of binutils begin so, and objdump gets options.

    Objects in COFF are linked to a file in ELF, too. The linker then drops names that aren't global, so those of functions are made so.
    """
    objects = [work / f"part{i}.o" for i, _ in enumerate(files)]
    for file, made in zip(files, objects):
        subprocess.run([*assembler, "-c", file, "-o", made], check=True)
        if made.read_bytes()[:4] != b"\x7fELF":
            subprocess.run([f"{binutils}objcopy", "--wildcard", f"--globalize-symbol={_FUNCTIONS}", made], check=True)
    outside = [word for name, place in OUTSIDE.items() for word in ("--defsym", f"{name}={place:#x}")]
    places = ["-z", "separate-code", "-Ttext-segment=0x400000", "-e", "0x400000"]
    subprocess.run([f"{binutils}ld", "-o", work / "linked", *objects, *places, *outside], check=True)
    return Image(work / "linked", [f"{binutils}objdump", *options])


def parts_of(text: str) -> Tuple[str, List[str]]:
    """The name of an instruction, and the texts of its operands, which commas part outside brackets and braces."""
    name, _, rest = text.partition(" ")
    return name, [it.strip() for it in re.findall(r"(?:[^,\[{]|\[[^]]*\]|\{[^}]*\})+", rest)]
