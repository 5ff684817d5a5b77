"""The cut: the kernels, which are the few functions for which a level of processors matters, and the rest of the library.

The library for x86-64 is one file, and its first level's kernels are in it. For each further level there is a file with that level's
kernels and what they alone call. The rest of the library calls a kernel by a stub, which jumps to where the table of the chosen level
says. The choice is that of dist/processor_level.c. There is one table for all kernels, so the choice is one store, and no two kernels
are of different levels. A program has no kernels: its stubs lead to those of the library.
"""

from __future__ import annotations

import re
from typing import Iterable

from levels import Level
from modules import has_vectors_above
from proving import Fault
from windows import PROBE, in_coff

#: The functions that the rest of the library, or a program, calls by stubs, in the order of the tables.
KERNELS = (
    "keyed_blake3::keyed_hash",
    "keyed_blake3::compression::compress",
    "keyed_blake3::hasher::Hasher::update",
    "keyed_blake3::hasher::Hasher::finalize",
    "xet_roots::groups::two_parent_hashes",
    "xet_roots::groups::parent_hashes",
    "xet_roots::groups::write_text",
)
#: The kernels' labels.
LABELS = tuple(f'"{kernel}"' for kernel in KERNELS)
#: How a longer vector is passed depends on the processor.
MOST_BITS = 128
STUB = """\
	.section	.text.{name},"ax",@progbits
	.p2align	4
	.type	{name},@function
{name}:
	.cfi_startproc
	movq	yurewha_kernels(%rip), %r11
	jmpq	*{offset}(%r11)
	.cfi_endproc
	.size	{name}, .-{name}

"""
TABLE = """\
	.section	.data.rel.ro.{table},"aw",@progbits
	.p2align	3, 0x0
	.globl	{table}
	.hidden	{table}
	.type	{table},@object
{table}:
{entries}	.size	{table}, .-{table}

"""
EMPTY = """\
	.section	".text.{name}","ax",@progbits
"{name}":
"""
#: Attributes of a function that say for which processor it is compiled, whether it stays a function, and that it has an unwind table.
OF_PROCESSOR = re.compile(r'"(?:target-cpu|target-features|tune-cpu|min-legal-vector-width)"="[^"]*" ?|\b(?:uwtable|noinline) ?')
#: What begins a section, with the line that says of an object that it is one.
SECTION = re.compile(r"(?m)^(?:\t\.type\t\S+,@object\n)?\t\.section\t(.*)\n")
LABEL = re.compile(r'(?m)^("[^"\n]*"|[\w.$]+):')
NAME = re.compile(r'"[^"\n]*"|[A-Za-z_.$][\w.$]*')
#: What ends each file for Linux.
END = '\t.section\t".note.GNU-stack","",@progbits\n'
#: What says of a label that it is a function's, for Linux and for Windows.
FUNCTION = re.compile(r'(?m)^\t\.(?:type\t"?([^"\n]*?)"?,@function|def\t"?([^"\n]*?)"?;)$')


def calls_of(names: Iterable[str], module: str) -> dict[str, str]:
    """How some functions are called in a module that LLVM has optimized: what it says of the result, the parameters and the function.

    A function that it has moved into its callers isn't there.
    """
    groups = dict(re.findall(r"(?m)^attributes #(\d+) = \{ (.*) \}$", module))
    found = {}
    for name in names:
        if head := re.search(rf'(?m)^define (.*)@"{re.escape(name)}"(\(.*)#(\d+) \{{$', module):
            found[name] = f"{head[1]}{re.sub(r' %[^ ,()]+', '', head[2])}{OF_PROCESSOR.sub('', groups[head[3]])}"
    return found


def keeps_promises(of_other: str, called: str) -> bool:
    """Whether a function is called in the same way. Of a parameter whose address callers take for kept, it may promise more: that it
    neither writes there nor keeps the address."""
    known, more = " captures(address)", " readonly captures(none)"
    words, others = called.split(", "), of_other.split(", ")
    return len(words) == len(others) and all(it in (word, word.replace(known, more)) for it, word in zip(others, words))


def refuse_other_calls(library: str, other: str, name: str, *, has_all: bool = True) -> None:
    """Refuses a module whose kernels are called in another way than those of the library's module: a level's, or a program's.

    Each has to have all kernels, but for a program in which LLVM may have moved some into their callers.
    """
    called, of_other = calls_of(KERNELS, library), calls_of(KERNELS, other)
    for kernel in KERNELS:
        if kernel not in called or has_all and kernel not in of_other:
            raise Fault(f"{'the library' if kernel not in called else name} has no function {kernel}")
        if not keeps_promises(of_other.get(kernel, called[kernel]), called[kernel]):
            raise Fault(f"{kernel} is called as {called[kernel]}, and in {name} as {of_other[kernel]}")
        if has_vectors_above(MOST_BITS, called[kernel]):
            raise Fault(f"{kernel} is called with long vectors: {called[kernel]}")


def stub(kernel: str) -> str:
    """The name of the stub of a kernel."""
    return f"yurewha_stub_of_{kernel.rsplit('::', 1)[1]}"


def table_of(level: Level) -> str:
    """The name of a level's table."""
    return f"yurewha_{level.name_for_linux.replace('-', '_')}_kernels"


def stubs() -> list[str]:
    """The stubs. They use a register that has no argument and needs no keeping."""
    return [STUB.format(name=stub(kernel), offset=8 * i) for i, kernel in enumerate(KERNELS)]


def table(level: Level) -> str:
    """Where the level's kernels are."""
    entries = "".join(f'\t.quad\t"{kernel}"\n' for kernel in KERNELS)
    text = TABLE.format(table=table_of(level), entries=entries)
    return in_coff(text) if level.is_for_windows else text


def sections(text: str) -> tuple[str, list[str], str]:
    """What stands before the first section of the library, its sections, and the end."""
    starts = [found.start() for found in SECTION.finditer(text) if not found[1].startswith(".note")]
    end = text.rindex(END) if END in text else len(text)
    places = [it for it in starts if it < end] + [end]
    return text[:places[0]], [text[here:there] for here, there in zip(places, places[1:])], text[end:]


def reached(parts: list[str], roots: Iterable[str]) -> list[str]:
    """The sections that these labels reach, as far as there are some, in their order."""
    place = {label: i for i, part in enumerate(parts) for label in LABEL.findall(part)}
    wanted: set[int] = set()
    open_places = [place[root] for root in roots if root in place]
    while open_places:
        at = open_places.pop()
        if at not in wanted:
            wanted.add(at)
            open_places += {place[name] for name in NAME.findall(parts[at]) if name in place}
    return [parts[at] for at in sorted(wanted)]


def functions(parts: Iterable[str]) -> set[str]:
    """The names of the functions in some sections."""
    return {found[1] or found[2] for part in parts for found in FUNCTION.finditer(part)}


def with_stubs(text: str) -> str:
    """The library, or a program, in which all but the kernels call a kernel by its stub."""
    before, parts, end = sections(text)
    own = set(reached(parts, LABELS))
    calls = re.compile(rf'(?m)^(\t(?:callq|j\w+)\t)"({"|".join(map(re.escape, KERNELS))})"$')
    cut = [part if part in own else calls.sub(lambda it: it[1] + stub(it[2]), part) for part in parts]
    of_kernels = {f'"{name}"' for name in functions(own)}
    for part, old in zip(cut, parts):
        if old not in own and (found := of_kernels.intersection(NAME.findall(part))):
            raise Fault(f"{', '.join(sorted(found))} is reached, and not by a stub")
    called = {name for part in cut for name in NAME.findall(part)}
    return before + "".join(cut + [it for kernel, it in zip(KERNELS, stubs()) if stub(kernel) in called]) + end


def without_stubs(text: str) -> str:
    """The text as it was before with_stubs()."""
    for kernel, its_stub in zip(KERNELS, stubs()):
        text = re.sub(rf"\b{stub(kernel)}\b", f'"{kernel}"', text.replace(its_stub, ""))
    return text


def kernels_alone(text: str) -> str:
    """The kernels of a library, with what they reach."""
    before, parts, end = sections(text)
    return before + "".join(reached(parts, LABELS)) + end


def program_alone(text: str, entry: str) -> str:
    """What a program reaches from its entry, with stubs instead of the kernels."""
    before, parts, end = sections(with_stubs(text))
    return before + "".join(reached(parts, [entry])) + end


def with_empty_kernels(text: str) -> str:
    """A program whose calls of kernels go to functions again, which have no instructions."""
    return text + "".join(EMPTY.format(name=kernel) for kernel in KERNELS)


def without_kernels(level: Level, text: str) -> str:
    """The file of a library without its own kernels, what they alone call, and their table. All data stay, and the probe of stacks."""
    before, parts, end = sections(text.replace(table(level), ""))
    own = {part for part in reached(parts, LABELS) if functions([part]) - {PROBE}}
    return before + "".join(part for part in parts if part not in own) + end
