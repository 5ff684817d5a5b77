"""The files of assembly: of the library, for each level of processors, and of the programs, for Linux and macOS, and for Windows; and the
sources that they are made of."""

from __future__ import annotations

import hashlib
import os
import re
from dataclasses import dataclass, replace
from pathlib import Path
from typing import Iterator

DIST = Path(__file__).resolve().parents[1]
ROOT = DIST.parent
#: What is made for each run, and kept for the next: modules, and a copy of the crates for each other number of lanes at most.
OUT = DIST / "out"
#: The WebAssembly module, which is part of the JavaScript package.
WASM = ROOT / "bindings/wasm/yurewha/yurewha.wasm"
#: The level whose module is translated after the proof.
TRANSLATED = "x86-64-v4"
#: What the names of levels for Windows begin with. They have the modules that are proved for Linux.
WINDOWS = "windows-"
#: What the files for Linux and macOS say in one way for each system.
HEADER = DIST / "assembly.h"
#: The crate of the library, and those of the programs.
LIBRARY = "yurewha_c"
#: A line of comments in a source.
COMMENT = re.compile(rb"^[ \t]*(?://|--).*\n", re.M)
PROGRAMS = ("xetroot", "xetrange")


@dataclass(frozen=True)
class Part:
    """A crate, as the toolchain compiles it for a processor: what a file of assembly is made of."""

    #: The name of the file, without its ending.
    name: str
    crate: str
    processor: str
    #: What `rt` is called with.
    flags: tuple[str, ...]
    #: Whether there are kernels to choose from, since the processor has several levels.
    has_kernels: bool

    @property
    def assembly(self) -> Path:
        """The file that dist/make writes."""
        return DIST / f"{self.name}.{self.ending}"

    @property
    def ending(self) -> str:
        """The ending of its file. What is for Linux and macOS, the preprocessor of C reads first."""
        return "s" if self.is_for_windows else "S"

    @property
    def folder(self) -> Path:
        """The folder that keeps what the toolchain makes of the crate. For Windows it makes nothing of its own."""
        return OUT / self.name_for_linux

    @property
    def is_for_windows(self) -> bool:
        """Whether it is for Windows, and not for Linux. Then there is no object that the toolchain built."""
        return WINDOWS in self.name

    @property
    def name_for_linux(self) -> str:
        """The name of what has the same module for Linux."""
        return self.name.replace(WINDOWS, "")

    @property
    def platform(self) -> str:
        """The processor, after the system if that is Windows."""
        return f"{WINDOWS if self.is_for_windows else ''}{self.processor}"

    @property
    def proved(self) -> Path:
        """The object that the toolchain built."""
        return self.folder / "proved.o"

    @property
    def is_translated(self) -> bool:
        """Whether its functions differ from those of the object that the toolchain builds."""
        return self.name_for_linux == TRANSLATED


@dataclass(frozen=True)
class Level(Part):
    """The library for a level of processors: a line of targets.txt."""

    lanes: int
    #: Whether the level's file has the whole library: it is the first level of its processor. The others' files have kernels alone.
    is_library: bool

    @property
    def is_whole(self) -> bool:
        """Whether the file has all that the proved object has."""
        return self.is_library


@dataclass(frozen=True)
class Program(Part):
    """A program for a processor, whichever level it has."""

    #: The level whose file has the library. The program is compiled for that level.
    library: Level

    @property
    def assembly(self) -> Path:
        """The file that dist/make writes."""
        return DIST / "programs" / f"{self.name}.{self.ending}"

    @property
    def is_whole(self) -> bool:
        """Whether the file has all that the proved object has. Where there are kernels, it has none."""
        return not self.has_kernels


def levels() -> list[Level]:
    """The levels of targets.txt, in its order, for Linux and macOS."""
    lines = [line.split() for line in (DIST / "targets.txt").read_text().splitlines() if not line.startswith("#")]
    processors = [processor for _, processor, *_ in lines]
    return [
        Level(name, LIBRARY, processor, tuple(flags), processors.count(processor) > 1, int(lanes), processors.index(processor) == at)
        for at, (name, processor, lanes, *flags) in enumerate(lines)
    ]


def levels_for_windows() -> list[Level]:
    """The levels of x86-64, for Windows."""
    return [replace(level, name=WINDOWS + level.name) for level in levels() if level.processor == "x86_64"]


def programs_over(libraries: list[Level]) -> list[Program]:
    """The programs, for each library of some levels."""
    return [
        Program(f"{name}-{level.name}", name, level.processor, level.flags, level.has_kernels, level)
        for level in libraries if level.is_library
        for name in PROGRAMS
    ]


def programs() -> list[Program]:
    """The programs, for each processor, for Linux and macOS."""
    return programs_over(levels())


def parts_for_linux() -> list[Level | Program]:
    """Whatever has a file of assembly for Linux and macOS. Each has a module of its own."""
    return [*levels(), *programs()]


def parts_for_windows() -> list[Level | Program]:
    """Whatever has a file of assembly for Windows."""
    return [*levels_for_windows(), *programs_over(levels_for_windows())]


def parts() -> list[Level | Program]:
    """Whatever has a file of assembly, for Linux and macOS first."""
    return [*parts_for_linux(), *parts_for_windows()]


def version() -> str:
    """The number of the version."""
    return (ROOT / "VERSION").read_text().strip().removesuffix("-dev")


def crates_below(top: str) -> dict[str, str]:
    """A crate and those that it is made of, each with its line of crates.txt."""
    lines = [line for line in (ROOT / "crates.txt").read_text().splitlines() if line and not line.startswith("#")]
    by_name = {line.split(":")[0].split()[0]: line for line in lines}
    found: dict[str, str] = {}
    open_names = [top]
    while open_names:
        name = open_names.pop()
        if name in by_name and name not in found:
            found[name] = by_name[name]
            open_names += by_name[name].split(":")[1].split()
    return found


def source_files(top: str) -> Iterator[Path]:
    """The files that decide what is made of a crate: the code and the definitions of it and of those below it."""
    for crate in crates_below(top):
        for folder in (ROOT / "crates" / crate / "src", ROOT / "crates" / crate / "specs"):
            for place, _, names in os.walk(folder):
                yield from (Path(place, name) for name in names)


def sources_sum(top: str) -> str:
    """A SHA-256 sum over the names and contents of these files, and the lines of crates.txt of their crates. Lines of comments don't count,
    so that a comment can be mended without making dist/ again."""
    total = hashlib.sha256()
    for path in sorted(source_files(top)):
        of_file = hashlib.sha256(COMMENT.sub(b"", path.read_bytes())).hexdigest()
        total.update(f"{of_file}  {path.relative_to(ROOT)}\n".encode())
    for line in sorted(crates_below(top).values()):
        total.update(f"{line}\n".encode())
    return total.hexdigest()


def sums() -> str:
    """What sums.txt should say: the sums of the sources, and that of each file that was made of them, and of what these files include."""
    of_sources = [f"{sources_sum(name)}  sources of {name}\n" for name in (LIBRARY, *PROGRAMS)]
    files = [HEADER, *(part.assembly for part in parts()), WASM]
    return "".join([*of_sources, *(f"{hashlib.sha256(path.read_bytes()).hexdigest()}  {path.name}\n" for path in files)])
