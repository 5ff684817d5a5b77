"""The compilers that assemble the files of each platform, and what reads their objects."""

from __future__ import annotations

from dataclasses import dataclass
from pathlib import Path

from avx512 import fault_of
from coff import difference_in_coff, with_long_jumps
from instructions import Object, difference
from levels import DIST, ROOT, Part
from proving import Fault, run
from same_code import KEEP_LABELS, difference as difference_of_pieces
from systems import text_of


@dataclass(frozen=True)
class Assemblers:
    """Two compilers, the words with which they are called, binutils' objdump, and Debian's packages that have them."""

    gcc: list[str]
    clang: list[str]
    objdump: str
    packages: tuple[str, ...]


ASSEMBLERS = {
    "x86_64": Assemblers(["gcc"], ["clang"], "objdump", ("gcc", "libc6-dev", "clang", "binutils", "make")),
    "aarch64": Assemblers(
        ["aarch64-linux-gnu-gcc"], ["clang", "--target=aarch64-linux-gnu"], "aarch64-linux-gnu-objdump",
        ("gcc-aarch64-linux-gnu", "clang")),
    "windows-x86_64": Assemblers(
        ["x86_64-w64-mingw32-gcc"], ["clang", "--target=x86_64-w64-mingw32"], "x86_64-w64-mingw32-objdump",
        ("gcc-mingw-w64-x86-64", "clang")),
}


#: What clang calls macOS, from its first version for arm64 on.
MACOS_TARGETS = {"x86_64": "x86_64-apple-macosx11.0", "aarch64": "arm64-apple-macosx11.0"}


def refuse_other_avx512(level: Part, work: Path) -> None:
    """Refuses the file of a translated level that has AVX-512 where it may not."""
    tools = ASSEMBLERS[level.platform]
    run(ROOT / "tools/install_packages", *tools.packages)
    for assembler in (tools.gcc, tools.clang):
        run(*assembler, "-c", level.assembly, "-o", work / "whole.o")
        if found := fault_of(tools.objdump, work / "whole.o"):
            raise Fault(f"{level.assembly.name} by {assembler[0]} has AVX-512 where it may not: {found}")


def difference_of_assemblers(part: Part, work: Path) -> str | None:
    """The first difference of what both compilers make of a part's file, or None."""
    tools, source = ASSEMBLERS[part.platform], part.assembly
    if part.is_for_windows:
        source = work / "long_jumps.s"
        source.write_text(with_long_jumps(part.assembly.read_text()))
    first, second = work / "by_gcc.o", work / "by_clang.o"
    run(*tools.gcc, "-c", source, "-o", first)
    run(*tools.clang, "-c", source, "-o", second)
    if part.is_for_windows:
        return difference_in_coff(tools.objdump, first, second)
    return difference(Object(tools.objdump, first), Object(tools.objdump, second))


def refuse_what_is_read_otherwise(part: Part, work: Path) -> None:
    """Refuses the file of a part of which the preprocessor makes something else than what these tools read."""
    tools, source = ASSEMBLERS[part.platform], work / "as_read.s"
    run(ROOT / "tools/install_packages", *tools.packages)
    source.write_text(text_of(part))
    for assembler in (tools.gcc, tools.clang):
        run(*assembler, "-c", part.assembly, "-o", work / "whole.o")
        run(*assembler, "-c", source, "-o", work / "as_read.o")
        if (work / "whole.o").read_bytes() != (work / "as_read.o").read_bytes():
            raise Fault(f"{part.assembly.name} by {assembler[0]} isn't what it is read as")


def difference_for_macos(part: Part, clang: str | Path, work: Path, file: Path | None = None) -> str | None:
    """The first difference of what a clang makes of a part's file for Linux, and of it, or of another file, for macOS, or None."""
    linux, macos = work / "for_linux.o", work / "for_macos.o"
    run(clang, f"--target={part.processor}-linux-gnu", KEEP_LABELS, "-c", part.assembly, "-o", linux)
    run(clang, f"--target={MACOS_TARGETS[part.processor]}", f"-I{DIST}", "-c", file or part.assembly, "-o", macos)
    return difference_of_pieces(linux, macos)
