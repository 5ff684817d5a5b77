"""Assembly of the proved library and programs, from the LLVM modules that the toolchain makes of them."""

from __future__ import annotations

import functools
import re
import tempfile
from pathlib import Path
from typing import Iterable

import avx512
import cut
import marks
import windows
from cut import KERNELS
from levels import Level, Part, Program, parts, version
from modules import kept_apart
from prefetches import with_prefetches
from proving import Fault, run, tool
from systems import NOTES, file_of

HEAD = """\
/* Yurewha {version} for {what}, as the toolchain compiles it. Made by dist/make, not by hand.
   The sum of its sources: {sources} */
"""
#: Where a program begins.
ENTRY = "yurewha_program"
#: What the toolchain calls so has another name here, which is nobody else's: functions of dist/heap.c, those of programs/run.c, and what
#: the latter calls.
OWN_NAMES = {
    "rattle_alloc": "yurewha_heap_alloc", "rattle_realloc": "yurewha_heap_realloc", "rattle_dealloc": "yurewha_heap_dealloc",
    "rattle_arg": "yurewha_run_argument", "rattle_errno": "yurewha_run_errno", "rattle_set_errno": "yurewha_run_set_errno",
    "__sysv_signal": "yurewha_run_signal", "main": ENTRY,
}
#: A name of assembly, and texts, which may have any words.
WORD = re.compile(r'(?m)^\t\.asci.*|"[^"\n]*"|(?<![\w.$])[A-Za-z_][\w.$]*')
#: What only names the compiler and its input.
NEEDLESS = re.compile(r"(?m)^\t\.(?:file|ident)\t.*\n")
#: What says how long a function or some data is, whose label is the last one before it, and the label of the end of a function.
SIZE = re.compile(r'(?m)^(\t\.size\t("[^"\n]*"|[\w.$]+), ).*$')
FUNCTION_END = re.compile(r"(?m)^\.Lfunc_end\d+:\n")
INDIRECT_JUMP = re.compile(r"(?m)^\tjmpq\t\*")
#: An instruction that sets the stack pointer, but for those that make a frame or leave it; and a return to an address that was pushed.
OTHER_FRAME = re.compile(
    r"(?m)^\t(?!\.|cmpq\t|(?:add|sub|and)q\t\$-?\d+, %rsp$|leaq\t-?\d+\(%rbp\), %rsp$|movq\t%rbp, %rsp$).*[ \t]%rsp$"
    r"|^\txchg.*%rsp|^\tpush.*\n(?:\t\.cfi_.*\n)*\tret")
#: An instruction for aarch64 with register x18, or its lower half.
OF_SYSTEM = re.compile(r"(?m)^\t[a-z].*\b[xw]18\b.*$")
#: What isn't among the instructions of the proved library: lines of tables, marks of targets of indirect jumps, signatures of the
#: addresses to return to, and prefetches.
ADDED = re.compile(r"(?m)^\t(?:\.cfi_.*|endbr64|prefetcht0\t.*|hint\t#(?:25|29|34|36))\n|(?<=^\t)notrack (?=jmpq)")


def with_unwind_tables(text: str) -> str:
    """The text of a module, whose functions ask for unwind tables."""
    text, count = re.subn(r'(?m)^(attributes #\d+ = \{)(.*"probe-stack")', r"\1 uwtable\2", text)
    used = set(re.findall(r"(?m)^define .* #(\d+)(?= .*\{$)", text))
    asked = set(re.findall(r"(?m)^attributes #(\d+) = \{ uwtable", text))
    if count == 0 or used - asked or len(re.findall(r"(?m)^define .* #\d+ .*\{$", text)) != text.count("\ndefine "):
        raise Fault("the module has functions without the attributes that the toolchain's had")
    return text


def renamed(text: str, names: dict[str, str]) -> str:
    """Assembly in which some names are others."""
    return WORD.sub(lambda it: names.get(it[0], it[0]), text)


def clang(part: Part, module: Path, to: Path, *more: str) -> None:
    """Compiles a module by the words with which the toolchain's clang makes the object of a part, to assembly, or as `more` says."""
    words = [word for word in (part.folder / "words").read_text().split("\0")[:-1] if not word.startswith("--sysroot")]
    if part.is_for_windows:
        words = windows.words_for_windows(words)
    try:
        words[words.index("-c")] = "-S"
        words[words.index("-x") + 2] = str(module)
        words[words.index("-o") + 1] = str(to)
    except ValueError:
        raise Fault(f"the toolchain calls clang in another way: {' '.join(words)}") from None
    run(tool("clang"), *words, "-fno-addrsig", "-fno-verbose-asm", *more)


def module_of(part: Part, work: Path) -> Path:
    """The part's module. For x86-64, its functions ask for unwind tables, and LLVM moves none that gets AVX-512 into another one. For
    Windows, it is changed as windows.py says.

    On aarch64 unwind tables would change the order of instructions; there, they are made of the assembly.
    """
    if part.processor != "x86_64":
        return part.folder / "module"
    module = work / "module.ll"
    run(tool("clang"), "-x", "ir", part.folder / "module", "-S", "-emit-llvm", "-Xclang", "-disable-llvm-passes", "-o", module)
    text = with_unwind_tables(module.read_text())
    if part.is_for_windows:
        # To a function that is called main LLVM would add a call of the C library's beginning.
        text = windows.module_for_windows(text.replace("@main(", f"@{ENTRY}("))
    if part.is_translated:
        text = kept_apart(text, avx512.FUNCTIONS, avx512.MOST_BITS)
    module.write_text(text)
    return module


@functools.lru_cache(maxsize=None)
def optimized(part: Part) -> str:
    """The part's module as LLVM has it when it begins to choose instructions."""
    with tempfile.TemporaryDirectory() as work:
        made = Path(work, "optimized.ll")
        clang(part, module_of(part, Path(work)), made, "-emit-llvm")
        return made.read_text()


@functools.lru_cache(maxsize=None)
def compiled(part: Part) -> str:
    """The assembly that the toolchain's clang makes of the part's module. A level that is translated gets AVX-512 for some functions."""
    with tempfile.TemporaryDirectory() as work:
        made = Path(work, "module.s")
        if part.is_translated:
            module = Path(work, "translated.ll")
            module.write_text(avx512.with_avx512(optimized(part)))
            clang(part, module, made, "-Xclang", "-disable-llvm-passes")
        else:
            clang(part, module_of(part, Path(work)), made)
        text = NEEDLESS.sub("", made.read_text())
        return windows.plain(text) if part.is_for_windows else text


def whole(part: Level | Program) -> str:
    """The assembly of a part, whose kernels are called as those of the library."""
    if part.has_kernels:
        library = optimized(next(it for it in parts() if it.platform == part.platform))
        cut.refuse_other_calls(library, optimized(part), part.name, has_all=isinstance(part, Level))
    return compiled(part)


def assembly(part: Level | Program, sources: str) -> str:
    """The file of a part."""
    return file_of(part, finished(part, whole(part), sources))


def finished(part: Level | Program, text: str, sources: str) -> str:
    """The assembly of a part for Linux or Windows, of that which clang made."""
    text = renamed(text, {**OWN_NAMES, **windows.OWN_NAMES} if part.is_for_windows else OWN_NAMES)
    exports = re.findall(r"(?m)^\t\.globl\t(.*)$", text)
    if not exports or not all(re.fullmatch(r"yurewha_\w+", name) for name in exports):
        raise Fault(f"the module exports {', '.join(exports) or 'nothing'}")
    if part.has_kernels:
        text = with_prefetches(text)
    if part.is_for_windows:
        text = windows.in_coff(in_file(part, text)) + (windows.PROBE_TEXT if part.is_whole else "")
    elif part.has_kernels:
        text = NOTES[part.processor] + in_file(part, with_branch_targets(text, [*exports, *KERNELS]))
    else:
        if instruction := OF_SYSTEM.search(text):
            raise Fault(f"register x18, which is the system's on Android and macOS, is used: {instruction[0].strip()}")
        text = marks.with_marks(text, exports)
    if not part.is_for_windows:
        text = SIZE.sub(r"\1.-\2", FUNCTION_END.sub("", text))
    return HEAD.format(version=version(), what=what_is(part), sources=sources) + text


def in_file(part: Level | Program, text: str) -> str:
    """What the file of a part has of the whole assembly, where there are kernels."""
    if isinstance(part, Program):
        return cut.program_alone(text, ENTRY)
    return (cut.with_stubs(text) if part.is_library else cut.kernels_alone(text)) + cut.table(part)


def what_is(part: Level | Program) -> str:
    """The processors that the file of a part is for, and what the file has."""
    if isinstance(part, Program):
        return f"{part.library.name}: the proved program {part.crate}"
    return f"{part.name}: {'the proved library' if part.is_library else 'the kernels of the proved library'}"


def with_branch_targets(text: str, targets: Iterable[str]) -> str:
    """Assembly for x86-64 with `endbr64` at each export and kernel, for processors that let indirect calls arrive nowhere else.

    No function's address is taken, so the other indirect jumps go to tables of the assembly's own, and say so by `notrack`. Assembly of
    which the note would be false is refused.
    """
    if re.search(r"(?m)^\tcallq\t\*", text):
        raise Fault("functions are called by their addresses")
    if other := OTHER_FRAME.search(text):
        raise Fault(f"a function may return elsewhere than to where it was called from: {other[0].strip()}")
    for name in targets:
        text = re.sub(rf'(?m)^("?{re.escape(name)}"?:\n(?:\t\.cfi_startproc\n)?)', r"\1\tendbr64\n", text)
    return INDIRECT_JUMP.sub("\tnotrack jmpq\t*", text)


def instructions_alone(part: Level | Program, text: str) -> str:
    """A part's assembly without what dist/make adds to the proved instructions, so that each has the address that it has there.

    It has the toolchain's names. Instead of stubs, a program has kernels without instructions.
    """
    text = text.replace(NOTES[part.processor], "")
    text = renamed(text, {own: name for name, own in OWN_NAMES.items()})
    if part.has_kernels:
        text = cut.without_stubs(text)
        text = cut.with_empty_kernels(text) if isinstance(part, Program) else text.replace(cut.table(part), "")
    return ADDED.sub("", text)
