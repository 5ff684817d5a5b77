"""The library of a level: what files it is made of, and what its functions are called. All that depends on how dist/make lays it out is
here."""

from __future__ import annotations

import re
import sys
from pathlib import Path
from typing import TYPE_CHECKING, Dict, List, Optional, Tuple, Type

sys.path.insert(0, str(Path(__file__).resolve().parents[1] / "tools"))
from aarch64.machine import Aarch64  # noqa: E402
from assemblers import ASSEMBLERS  # noqa: E402
from cut import END, table_of, without_kernels  # noqa: E402
from image import linked  # noqa: E402
from levels import Level, levels, levels_for_windows  # noqa: E402
from systems import text_of  # noqa: E402
from x86_64.machine import X86, WindowsX86  # noqa: E402

if TYPE_CHECKING:
    from machine import Machine, Step

#: The levels, by their names.
LEVELS: Dict[str, Level] = {level.name: level for level in (*levels(), *levels_for_windows())}
#: The options of objdump for each processor.
_OPTIONS: Dict[str, List[str]] = {"x86_64": ["-Mintel"], "aarch64": []}
#: The machine of each platform.
_MACHINES: "Dict[str, Type[Machine]]" = {"x86_64": X86, "aarch64": Aarch64, "windows-x86_64": WindowsX86}
#: For each platform, the level whose file has the library, and its own kernels.
_LIBRARIES = {level.platform: level for level in LEVELS.values() if level.is_library}
#: The choice of a level, instead of processor_level.c's.
_CHOICE = "\t.data\n\t.globl\tyurewha_kernels\nyurewha_kernels:\n\t.quad\t{}\n"


class Library:
    """The library as it is linked, with the kernels of a level, or with a text that replaces the level's file."""

    def __init__(self, level: Level, assembler: str, work: Path, text: Optional[str] = None) -> None:
        self.level = level
        tools = ASSEMBLERS[level.platform]
        compiler = tools.gcc if assembler == "gcc" else tools.clang
        texts = [text_of(level) if text is None else text]
        if level.has_kernels:
            texts.append(_CHOICE.format(table_of(level)) + ("" if level.is_for_windows else END))
        if not level.is_library:
            library = _LIBRARIES[level.platform]
            texts.append(without_kernels(library, text_of(library)))
        files = [work / f"part{i}.s" for i, _ in enumerate(texts)]
        for file, part in zip(files, texts):
            file.write_text(part)
        # Also for Windows, the linker is that of Linux.
        binutils = "" if level.is_for_windows else tools.objdump[:-len("objdump")]
        self.image = linked(files, compiler, binutils, _OPTIONS[level.processor], work)
        #: What the instructions do that were met, and where the next one is.
        self.decoded: Dict[int, Tuple[Step, int]] = {}

    @property
    def kind(self) -> "Type[Machine]":
        """The machine of its processor."""
        return _MACHINES[self.level.platform]

    def machine(self) -> "Machine":
        """A machine that runs it."""
        return self.kind(self.image, self.decoded)

    def branches_of_kernels(self) -> List[int]:
        """The places of branches with a condition in the functions that each level has of its own."""
        names = inner(""), of_groups("")
        return [at for at, it in self.image.instructions.items() if it.function.startswith(names) and self.kind.BRANCH.match(it.text)]

    def call(self, name: str) -> str:
        """What a call of the library is called."""
        return f"yurewha_{name}"

    def has(self, function: str) -> bool:
        return function in self.image.functions


def inner(name: str) -> str:
    """What a function of keyed_blake3 is called."""
    return f"keyed_blake3::{name}"


def of_groups(name: str) -> str:
    """What a function of xet_roots is called that takes groups of nodes."""
    return f"xet_roots::groups::{name}"


def part_of(text: str, function: str) -> Tuple[int, int]:
    """Where a function begins and ends in a file of assembly: one of keyed_blake3, or one that takes groups of nodes."""
    start = text.index(f'\n"{function if function.startswith(of_groups("")) else inner(function)}":\n')
    end = re.compile(r"\.(?:cfi|seh)_endproc").search(text, start)
    assert end
    return start, end.start()
