"""What two assemblers make of a file for Windows.

In COFF the two assemblers write down the place of one reference in several ways. So each object is linked alone, at one place. If
the jumps are as long in both, then instructions, constants and unwind tables have the same addresses, and are compared byte by
byte. Each assembler chooses the lengths of jumps, so it gets a copy of the file in which all are long.
"""

from __future__ import annotations

import re
import subprocess
from pathlib import Path

from instructions import BYTES, NOTHING, dumped, first_difference
from proving import printed

#: Where the linker puts what other objects have, each name elsewhere.
OUTSIDE = 0x7000000
DATA = (".rdata", ".pdata", ".xdata")
UNDEFINED = re.compile(r"(?m)^ +U (\S+)$")
JUMP = re.compile(r"(?m)^\t(j\w+\t)(?!\*)")
#: What the linker adds to the code: an empty list of constructors, which begins so.
ADDED = re.compile(r"(?m)^ *[0-9a-f]+:\tff +\t\(bad\)$")


def with_long_jumps(text: str) -> str:
    """Assembly in which all jumps to labels are long."""
    return JUMP.sub(r"\t{disp32} \1", text)


def linked(objdump: str, path: Path) -> Path:
    """The file of an object that was linked alone. It is written next to the object."""
    binutils, to = objdump.removesuffix("objdump"), path.with_suffix(".exe")
    names = sorted(UNDEFINED.findall(printed(f"{binutils}nm", "-u", path)))
    outside = [word for at, name in enumerate(names) for word in ("--defsym", f"{name}={OUTSIDE + 16 * at:#x}")]
    subprocess.run([f"{binutils}ld", path, "-o", to, "--image-base", "0x400000", "-e", "0x401000", *outside], check=True)
    return to


def instructions_of(objdump: str, path: Path) -> list[str]:
    """The instructions of a linked file that do something, each with its address and its bytes."""
    code = ADDED.split("\n".join(dumped(objdump, path, "-d")[".text"]))[0]
    return [line for line in code.splitlines() if line.count("\t") == 2 and not NOTHING.match(line.split("\t")[2])]


def data_of(objdump: str, path: Path, section: str) -> bytes:
    """The data of a section of a linked file. An assembler may fill its end with zeros."""
    lines = dumped(objdump, path, "-s", "-j", section).get(section, [])
    return bytes.fromhex("".join(BYTES.findall("\n".join(lines)))).rstrip(b"\0")


def difference_in_coff(objdump: str, first: Path, second: Path) -> str | None:
    """The first difference of two objects, or None."""
    one, other = linked(objdump, first), linked(objdump, second)
    if found := first_difference("instructions", instructions_of(objdump, one), instructions_of(objdump, other)):
        return found
    for section in DATA:
        if found := first_difference(f"data of {section}", data_of(objdump, one, section), data_of(objdump, other, section)):
            return found
    return None
