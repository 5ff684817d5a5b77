"""What makes a file for Windows of a module that is proved for Linux: a few lines of the module, and the form of the assembly.

In the module, the target is another one, as are the calls of what isn't proved:

- A frame of more than a page touches each of its pages, as on Linux, but by a call of PROBE: LLVM has no other way on Windows.
- C for Windows returns a pair by its place in memory, and LLVM in two registers. So two functions call the heap's for the library.

Functions are called by Windows' rules, by which callees keep other registers, nothing lies below the stack pointer, and vectors are
passed by their places. Functions of the library keep these rules among themselves, too. By the rules of Linux they would save fewer
registers, but each export, and each call of heap.c, would save ten vectors, and data could lie below the stack pointer, where Windows
may write. The assembly is in COFF, with Windows' directives for unwinding.
"""

from __future__ import annotations

import re

from proving import Fault

TRIPLE = "x86_64-pc-windows-gnu"
LAYOUT = "e-m:w-p270:32:32-p271:32:32-p272:64:64-i64:64-i128:128-f80:128-n8:16:32:64-S128"
#: What the toolchain asks of LLVM on Linux.
INLINE_PROBE = '"probe-stack"="inline-asm"'
PROBE = "yurewha_stack_probe"
#: Functions that return pairs, which the toolchain names so.
PAIRS = ("rattle_alloc", "rattle_realloc")
PAIR = "{ i64, i64 }"
#: A function for each of them, which returns the pair in registers.
IN_REGISTERS = """\
declare void @{name}(ptr sret({pair}), {parameters})
define internal {pair} @in_registers_of_{name}({parameters}) noinline nounwind uwtable {{
  %place = alloca {pair}
  call void @{name}(ptr sret({pair}) %place, {parameters})
  %pair = load {pair}, ptr %place
  ret {pair} %pair
}}
"""
#: What has another name here: what a program calls of programs/windows.c, since the C library's take other numbers.
OWN_NAMES = {"read": "yurewha_run_read", "write": "yurewha_run_write"}
#: Touches each page of a frame, from the stack pointer down, whose size is in rax, and changes nothing but flags. It is ours,
#: because those of gcc and of Microsoft have two names, and each comes with its own compiler.
PROBE_TEXT = f"""\
	.section	.text
	.globl	{PROBE}
	.p2align	4
	.def	{PROBE};
	.scl	2;
	.type	32;
	.endef
{PROBE}:
.seh_proc {PROBE}
	pushq	%rcx
	.seh_pushreg %rcx
	pushq	%rax
	.seh_pushreg %rax
	.seh_endprologue
	leaq	24(%rsp), %rcx
	jmp	.Lprobe_rest
.Lprobe_page:
	subq	$4096, %rcx
	orq	$0, (%rcx)
	subq	$4096, %rax
.Lprobe_rest:
	cmpq	$4096, %rax
	ja	.Lprobe_page
	subq	%rax, %rcx
	orq	$0, (%rcx)
	popq	%rax
	popq	%rcx
	retq
	.seh_endproc

"""
#: What clang 22 writes, and other assemblers don't know or don't need: a mark for another linker, and where epilogues are.
NEEDLESS = re.compile(r"(?m)^\t\.globl\t@feat\.00\n@feat\.00 = 0\n|^\t\.seh_(?:start|end)epilogue\n")
#: What COFF says of a symbol.
DEFINITION = re.compile(r"(?m)^\t\.def\t(.*);\n\t\.scl\t\d+;\n\t\.type\t\d+;\n\t\.endef\n")
#: Where a function or some data has a section with a name of its own, and what replaces that: gas and clang disagree on names with
#: colons. A linker then takes the library as a whole. It would anyway, since the unwind tables lead to each function.
CODE_SECTION = re.compile(r'(?m)^\t\.section\t\.text\$.*$')
DATA_SECTION = re.compile(r'(?m)^\t\.section\t\.rdata[$,].*$')
CODE, DATA = "\t.section\t.text", '\t.section\t.rdata,"dr"'
#: Data of a function before its end.
INNER_DATA = re.compile(rf"({DATA}\n(?:(?!\t\.section).*\n)*){CODE}\n((?:\t\.seh_.*\n)*\t\.seh_endproc\n)")
#: What cut.py writes that COFF hasn't or writes in another way.
OF_ELF = re.compile(r"(?m)^\t\.(?:type\t.*,@\w+|size\t.*|hidden\t.*|cfi_\w+)\n")
CODE_IN_ELF = re.compile(r'(?m)^\t\.section\t\.text\..*,"ax",@progbits$')
TABLE_IN_ELF = re.compile(r'(?m)^\t\.section\t\.data\.rel\.ro\..*,"aw",@progbits$')
LABEL = re.compile(r'(?m)^("[^"\n]*"|[\w.$]+):$')


def replaced(pattern: str, by: str, text: str) -> str:
    """The text with something else in each place that a pattern describes, of which there has to be one."""
    text, count = re.subn(pattern, by, text)
    if not count:
        raise Fault(f"the module for Linux has nothing like {pattern}")
    return text


def module_for_windows(text: str) -> str:
    """The text of a module for Linux, for Windows."""
    text = replaced(r"(?m)^target datalayout = .*", f'target datalayout = "{LAYOUT}"', text)
    text = replaced(r"(?m)^target triple = .*", f'target triple = "{TRIPLE}"', text)
    text = replaced(INLINE_PROBE, f'"probe-stack"="{PROBE}"', text)
    for name in PAIRS:
        found = re.search(rf"(?m)^declare .*{re.escape(PAIR)} @{name}\((.*)\).*\n", text)
        if not found:
            raise Fault(f"the module has no {name} that returns a pair")
        parameters = ", ".join(f"{kind.split()[0]} %a{at}" for at, kind in enumerate(found[1].split(", ")))
        text = text.replace(found[0], "").replace(f"@{name}(", f"@in_registers_of_{name}(")
        text += IN_REGISTERS.format(name=name, pair=PAIR, parameters=parameters)
    return text


def words_for_windows(words: list[str]) -> list[str]:
    """The words with which the toolchain calls clang, for Windows."""
    return [f"--target={TRIPLE}" if word.startswith("--target=") else word for word in words if word not in ("-fPIE", "-fPIC", "-pie")]


def plain(text: str) -> str:
    """The assembly that clang writes for Windows, as other assemblers know it, too.

    No section has a name of its own: assemblers disagree on names with colons. Where clang's has one, a section begins anew. What COFF says
    of a symbol stands before its label, and a function's data stand after the function.
    """
    text = DATA_SECTION.sub(DATA, CODE_SECTION.sub(CODE, NEEDLESS.sub("", text)))
    said = {it[1]: it[0] for it in DEFINITION.finditer(text)}
    text = INNER_DATA.sub(r"\2\n\1", DEFINITION.sub("", text))
    return LABEL.sub(lambda it: said.get(it[1], "") + it[0], text)


def in_coff(text: str) -> str:
    """Assembly in which the stubs and the tables are in COFF, too."""
    text = TABLE_IN_ELF.sub(DATA, CODE_IN_ELF.sub(CODE, text))
    return OF_ELF.sub("", text)
