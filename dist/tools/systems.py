"""Writes assembly for Linux (ELF) as a file for Linux and macOS (Mach-O): line for line the same, where the systems differ in the words of
dist/assembly.h. For another processor the file has nothing.

A line, a register or a name of elsewhere that isn't known here is refused, and so is register x18, which is the system's on macOS, and
what can't be read back. same_code.py compares what assemblers make of a file for both systems.
"""

from __future__ import annotations

import functools
import re

from levels import DIST, Part
from proving import Fault

#: What begins the assembly: the comment, and a section that says for which protections the code is marked.
HEAD = re.compile(r"/\* Yurewha .*\n.*\*/\n")
NOTE = """\
	.section	.note.gnu.property,"a",@note
	.p2align	3, 0x0
	.long	4, 16, 5
	.asciz	"GNU"
	.long	{}, 4, 3
	.p2align	3, 0x0
"""
#: For x86-64 this says that indirect calls and jumps arrive at `endbr64` alone (1, IBT), and that functions return to where they were
#: called from (2, SHSTK), as a shadow stack requires. For aarch64 it says the same of BTI (1) and PAC (2). The linker keeps what all
#: objects say. dist/assembly.h has it.
NOTES = {"x86_64": NOTE.format("0xc0000002"), "aarch64": NOTE.format("0xc0000000")}
#: What says that the stack has no code.
NO_STACK = '\t.section\t".note.GNU-stack","",@progbits'
#: What ends each file.
END = "#else\nNO_STACK\n#endif\nEND\n"
#: What the library and the programs call of the C library.
OF_C = ("memcpy", "memmove", "memset", "read", "write")
#: A name that other objects have or see. A C compiler for macOS puts an underscore before each.
OUTER = rf"(?:yurewha_\w+|{'|'.join(OF_C)})\b"
#: A name in quotation marks, of a place in a function, of a piece of data, and an outer one, as it is or as it is called.
NAME = re.compile(rf'("[^"\n]*")|\.LBB(\w+)|\.L(?!func_|tmp)([\w.$]+)|(?<![\w.$%])({OUTER})(@PLT)?')
LABEL = re.compile(r'("[^"\n]*"|[\w.$]+):')
SECTION = re.compile(r'\t\.section\t(\S+),"(ax|a|aw|aM)",@progbits(?:,(\d+))?')
#: The words for sections of code, of data, and of data with addresses, which the loader fills in before it makes them read-only.
KINDS = {("ax", ".text"): "CODE", ("a", ".rodata"): "CONSTANTS", ("aw", ".data.rel.ro"): "ADDRESSES"}
FLAGS = {word: flags for (flags, _), word in KINDS.items()}
TYPE = re.compile(r'\t\.type\t("[^"\n]*"|[\w.$]+),@(function|object)')
SIZE = re.compile(r'\t\.size\t("[^"\n]*"|[\w.$]+), \.-\1')
#: Directives that mean the same in both forms, those for data, and texts.
SAME = re.compile(r"\t\.(?:cfi_\w+|p2align)\b")
DATA = re.compile(r"\t\.(?:byte|short|hword|long|word|quad|xword|zero)\t")
TEXT = re.compile(r"\t\.asci[iz]\t")
#: The registers, and the other words of an instruction.
WORDS = {
    "x86_64": re.compile(r"%\w+|1to(?:4|8|16)|bs[fr][lq]"),
    "aarch64": re.compile(
        r"[xw](?:\d|1[0-79]|2\d|30|zr)|w?sp|[bhsdqv](?:\d|[12]\d|3[01])(?:\.\d*[bhsd])?|lsl|lsr|asr|ror|[us]xt[bhwx]"
        r"|eq|ne|hs|lo|mi|pl|vs|vc|hi|ls|ge|lt|gt|le"),
}
#: A word of an instruction or a number, and what may be between them.
WORD, NUMBER, BETWEEN = re.compile(r"%?[\w.]+"), re.compile(r"0x[0-9a-f]+|\d+"), re.compile(r"[-+*(){}\[\]!,#$ \t]*")
#: The halves of an address on aarch64: what is added to the page, and the page.
LOW = re.compile(r'(?<= ):lo12:("[^"]*"|[\w.$]+)')
PAGE = re.compile(r'(?<=^\tadrp\t)(\w+, )("[^"]*"|[\w.$]+)(?=$|\+\d+$)')
#: The words of a file for both systems for names, and for halves of addresses. Texts and names in quotation marks are left alone.
NAMED = re.compile(r'(?m)^\t\.asci.*|"[^"\n]*"|\b([LDC]|PLT)\(([^()\s]*)\)')
HALF = re.compile(r'(?m)^\t\.asci.*|\b(PAGE|LOW)\(("[^"\n]*"|[^()\s]*)\)')
FOR_LINUX = {"L": ".LBB{}", "D": ".L{}", "C": "{}", "PLT": "{}@PLT", "PAGE": "{}", "LOW": ":lo12:{}"}


def named(it: re.Match[str]) -> str:
    """How both systems name what has a name for Linux."""
    if it[1]:
        return it[1]
    word = "L" if it[2] else "D" if it[3] else "PLT" if it[5] else "C"
    return f"{word}({it[2] or it[3] or it[4]})"


def renamed(text: str) -> str:
    """A text with the names for both systems."""
    return NAME.sub(named, text)


def section(line: str) -> str:
    """The line that begins a section. Constants of a size are aligned by it, which ELF says of the section."""
    if not (found := SECTION.fullmatch(line)):
        raise Fault("section")
    name, flags, size = found.groups()
    if flags == "aM" and name == f".rodata.cst{size}":
        return f"SIZED({size}, {int(size).bit_length() - 1})"
    for (its_flags, start), word in KINDS.items():
        if flags == its_flags and not size and re.match(rf'"?{re.escape(start)}(?:\.|$)', name):
            return f"{word}({name})"
    raise Fault("section")


@functools.lru_cache(maxsize=None)
def is_word(word: str, processor: str) -> bool:
    """Whether an instruction may have a word, which isn't a name, or a number."""
    return bool(WORDS[processor].fullmatch(word) or NUMBER.fullmatch(word))


class Converter:
    """What is known of assembly while its lines are read."""

    def __init__(self, text: str, processor: str) -> None:
        self.lines, self.processor = text.splitlines(), processor
        self.labels = {line[:-1] for line in self.lines if LABEL.fullmatch(line)}
        #: Whether the line is in a section that macOS hasn't, or before the first one.
        self.is_left_out = True

    def refuse_unknown_names(self, line: str) -> None:
        """Refuses a line that names what is neither in this file nor known from outside. A function's own calls may lead anywhere here."""
        for it in NAME.finditer(line):
            if not it[4] and it[0] not in self.labels:
                raise Fault(f"name {it[0]}")

    def instruction(self, line: str) -> str:
        """An instruction for both systems."""
        mnemonic, _, operands = line[1:].partition("\t")
        self.refuse_unknown_names(operands)
        rest = NAME.sub("", LOW.sub(r"\1", operands) if self.processor == "aarch64" else operands)
        if unknown := [it for it in WORD.findall(rest) if not is_word(it, self.processor)]:
            raise Fault(f"{'register' if re.fullmatch('[wx]18', unknown[0]) else 'word'} {unknown[0]}")
        if not re.fullmatch(r"(?:notrack )?[a-z][\w.]*", mnemonic) or '$"' in operands or not BETWEEN.fullmatch(WORD.sub("", rest)):
            raise Fault("instruction")
        if self.processor == "aarch64":
            line = LOW.sub(r"LOW(\1)", PAGE.sub(r"\1PAGE(\2)", line))
        return renamed(line)

    def data(self, line: str) -> str:
        """Data for both systems."""
        self.refuse_unknown_names(line)
        rest = re.sub(">>2$", "", NAME.sub("", line.split("\t", 2)[2]))
        if not all(map(NUMBER.fullmatch, WORD.findall(rest))) or not BETWEEN.fullmatch(WORD.sub("", rest)):
            raise Fault("data")
        return renamed(line)

    def of_symbol(self, line: str) -> str:
        """What is said of a symbol, for both systems."""
        if found := re.fullmatch(rf"\t\.(globl|hidden)\t({OUTER})", line):
            return f"\t.globl\tC({found[2]})" if found[1] == "globl" else f"\tHIDDEN(C({found[2]}))"
        if found := TYPE.fullmatch(line):
            return f"\tTYPE({renamed(found[1])}, {found[2]})"
        if found := SIZE.fullmatch(line):
            return f"\tSIZE({renamed(found[1])})"
        raise Fault("line")

    def line(self, line: str) -> str:
        """What stands in the place of a line."""
        if line == NO_STACK or line.startswith("\t.section"):
            self.is_left_out = line == NO_STACK
            return "NO_STACK" if self.is_left_out else section(line)
        if not line:
            return line
        if self.is_left_out and not TYPE.fullmatch(line):
            raise Fault("line outside of a section")
        if LABEL.fullmatch(line) and NAME.fullmatch(line[:-1]):
            return renamed(line)
        if TEXT.match(line) and "??" not in line or SAME.match(line):
            return line
        if DATA.match(line):
            return self.data(line)
        return self.instruction(line) if re.match(r"\t[a-z]", line) else self.of_symbol(line)

    def converted(self) -> str:
        """The lines for both systems."""
        made = []
        for number, line in enumerate(self.lines, 1):
            try:
                made.append(f"{self.line(line)}\n")
            except Fault as fault:
                raise Fault(f"line {number} of what follows the note isn't known for macOS: {fault}: {line.strip()}") from None
        return "".join(made)


def for_both(text: str, processor: str, header: str) -> str:
    """The file for both systems of assembly for Linux, with the path of dist/assembly.h."""
    head = HEAD.match(text)
    if not head or not text.startswith(NOTES[processor], head.end()):
        raise Fault("the file begins in another way")
    lines = Converter(text[head.end() + len(NOTES[processor]):], processor).converted()
    made = f'{head[0]}#include "{header}"\n#ifdef __{processor}__\n{lines}{END}'
    if for_linux(made, processor) != text:
        raise Fault("what is made of the file can't be read back")
    return made


def for_linux(text: str, processor: str) -> str:
    """The assembly for Linux of a file for both systems."""
    words: list[tuple[str, str]] = [
        (r'#include ".*"\n#ifdef .*\n', NOTES[processor].replace("\t", "\\t")), (r"NO_STACK$", NO_STACK.replace("\t", "\\t")),
        (r"\tHIDDEN\((.*)\)$", r"\t.hidden\t\1"), (r"\tTYPE\((.*), (\w+)\)$", r"\t.type\t\1,@\2"),
        (r"\tSIZE\((.*)\)$", r"\t.size\t\1, .-\1"), (r"SIZED\((\d+), \d\)$", r'\t.section\t.rodata.cst\1,"aM",@progbits,\1'),
        *((rf"{word}\((.*)\)$", rf'\t.section\t\1,"{flags}",@progbits') for word, flags in FLAGS.items()),
    ]
    text = text.removesuffix(END)
    for pattern in (NAMED, HALF):
        text = pattern.sub(lambda it: FOR_LINUX[it[1]].format(it[2]) if it[1] else it[0], text)
    for line, by in words:
        text = re.sub(f"(?m)^{line}", by, text)
    return text


def file_of(part: Part, text: str) -> str:
    """The file of a part, of its assembly. That for Windows is as it is."""
    if part.is_for_windows:
        return text
    try:
        return for_both(text, part.processor, "../assembly.h" if part.assembly.parent != DIST else "assembly.h")
    except Fault as fault:
        raise Fault(f"{part.assembly.name}: {fault}") from None


def text_of(part: Part) -> str:
    """The assembly of a part's file, for Linux or Windows."""
    text = part.assembly.read_text()
    return text if part.is_for_windows else for_linux(text, part.processor)
