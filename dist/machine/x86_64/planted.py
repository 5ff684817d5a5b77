"""Errors that are planted in the assembly of the x86-64 levels."""

from __future__ import annotations

from typing import ClassVar, Dict, List, Sequence

from layout import of_groups
from planted import Plant
from rare import Writer, rare
from widths import of_width

X, Y, Z = r"%xmm\d+", r"%ymm\d+", r"%zmm\d+"
#: What a function starts with.
START = r'\A\n"[^"]*":\n(?:\t?\.(?:cfi_startproc|seh_proc)[^\n]*\n)?(?:\tendbr64\n)?'
#: What the check says of errors that only long messages and great numbers of chunks show.
LONG, AFTER = " bytes: another hash, whatever compresses the blocks", "another hash of pieces of "
#: What it says where a value doesn't outlast a call.
LOST = "depends on data"


class Arguments(Writer):
    """Arguments in registers, and others on the stack."""

    START = START
    CALL, KEPT = "callq", "register 3"
    #: The registers, with the names of their lower halves, and how many bytes a caller leaves free below the arguments on the stack.
    REGISTERS: ClassVar[Sequence[str]] = ("rdi", "rsi", "rdx", "rcx", "r8", "r9")
    HALVES: ClassVar[Sequence[str]] = ("edi", "esi", "edx", "ecx", "r8d", "r9d")
    ROOM: ClassVar[int] = 0

    def _offset(self, place: int) -> int:
        return self.ROOM + 8 * (place - len(self.REGISTERS) + self.is_inside)

    def _operand(self, place: int) -> str:
        return f"%{self.REGISTERS[place]}" if place < len(self.REGISTERS) else f"{self._offset(place)}(%rsp)"

    def cut(self, place: int) -> str:
        if place < len(self.REGISTERS):
            return f"\tmovl\t%{self.HALVES[place]}, %{self.HALVES[place]}\n"
        return f"\tmovl\t$0, {self._offset(place) + 4}(%rsp)\n"

    def clear(self, place: int) -> str:
        return f"\tmovq\t$0, {self._operand(place)}\n"

    def add(self, place: int, number: int) -> str:
        return f"\taddq\t${number}, {self._operand(place)}\n"

    def if_large(self, place: int, bits: int, then: str, offset: int = -1) -> str:
        loaded = f"\tmovq\t{offset}(%rax), %rax\n" if offset >= 0 else ""
        return f"\tmovq\t{self._operand(place)}, %rax\n{loaded}\tshrq\t${bits}, %rax\n\tje\t9f\n{then}9:\n"

    def lose(self) -> str:
        return "\txorl\t%ebx, %ebx\n"

    def write(self, place: int, offset: int) -> str:
        return f"\tmovb\t$0, {offset}({self._operand(place)})\n"

    def read(self, place: int, offset: int) -> str:
        return f"\tmovb\t{offset}({self._operand(place)}), %al\n"


class ArgumentsForWindows(Arguments):
    """The same by Windows' rules."""

    REGISTERS, HALVES, ROOM = ("rcx", "rdx", "r8", "r9"), ("ecx", "edx", "r8d", "r9d"), 32


PLANTS: Dict[str, List[Plant]] = {
    "x86-64": [
        *rare(4, Arguments),
        Plant("a shift of a rotation", of_width("chunks::take_block", 4), r"psrld\t\$12,", r"psrld\t$13,", 7),
        Plant("words of two lanes exchanged", of_width("chunks::take_block", 4), rf"punpckldq\t({X}), ({X})", r"punpckhdq\t\1, \2", 1),
        Plant("a sum left out", of_width("chunks::take_block", 4), rf"\tpaddd\t{X}, {X}\n", "\tnop\n", 40),
        Plant("the flags of the last block", of_width("chunks::chunk_values", 4), r"(\.LCPI\d+)_3\(", r"\1_2("),
        Plant("an exchange of words in one block", "compression::compress", r"pshufd\t\$57,", r"pshufd\t$147,", 1),
        Plant("a value in another register", "compression::two::compress_two_from", r"movaps\t(\d+)\(%rsp\), (%xmm\d+)", r"movaps\t\1(%rsp), %xmm15", 2),
        Plant("a value too few where 50 wait", "hasher::Hasher::finalize", r"shrq\t\$56, %rbx\n", r"shrq\t$56, %rbx\n\tcmpq\t$50, %rbx\n\tjne\t9f\n\tdecq\t%rbx\n9:\n", 0, "finalize: ", "finalize"),
    ],
    "x86-64-v2": [
        *rare(4, Arguments),
        Plant("a shift of a rotation", of_width("chunks::take_block", 4), r"psrld\t\$7,", r"psrld\t$8,", 3),
        Plant("a rotation by bytes left out", of_width("chunks::take_block", 4), rf"\tpshufb\t{X}, {X}\n", "\tnop\n", 5),
        Plant("the flags of the last block", of_width("chunks::chunk_values", 4), r"(\.LCPI\d+)_3\(", r"\1_1("),
        Plant("a shift in two blocks", "compression::two::compress_two_from", r"pslld\t\$20,", r"pslld\t$19,", 2),
        Plant("the lower half of a counter for the upper one", of_width("chunks::take_block", 4), r"(?m)(\d+)\(%r8\), (%xmm\d+)$", r"(%r8), \2", 0),
        Plant("the number of a chunk cut to 48 bits", "hasher::Hasher::finalize", r"movq\t%r15, %rdx\n", r"movq\t%r15, %rdx\n\tshlq\t$16, %rdx\n\tshrq\t$16, %rdx\n", 0, "finalize: ", "finalize"),
    ],
    "x86-64-v3": [
        *rare(8, Arguments),
        Plant("a shift of a rotation", of_width("chunks::take_block", 8), r"vpsrld\t\$12,", r"vpsrld\t$13,", 7),
        Plant("two lanes of a transposition", of_width("chunks::take_block", 8), r"vperm2[fi]128\t\$49,", r"vperm2i128\t$32,", 1),
        Plant("a rotation by bytes of another word", of_width("chunks::take_block", 8), rf"vpshufb\t({Y}), ({Y}), ({Y})", r"vpshufb\t\2, \1, \3", 9),
        Plant("a sum left out", of_width("chunks::take_block", 8), rf"\tvpaddd\t{Y}, {Y}, {Y}\n", "\tnop\n", 40),
        Plant("the flags of the last block", of_width("chunks::chunk_values", 8), r"(\.LCPI\d+)_3\(", r"\1_2("),
        Plant("the flags of a text's last block", of_groups("hash_at"), r"orl\t\$26,", r"orl\t$24,"),
        Plant("a lane whose text has ended goes on", of_groups("hash_at"), rf"vblendvps\t({Y}), (\d+\(%rsp\)), ({Y}), ({Y})", r"vmovups\t\2, \4", -1),
        Plant("a shift in one block", "compression::compress", r"vpsrld\t\$7,", r"vpsrld\t$8,", 3),
        Plant("an exchange of words in two blocks", "compression::two::compress_two_from", r"vpshufd\t\$147,", r"vpshufd\t$57,", 3),
        Plant("a shift in four chunks", "four_chunks::four_chunk_values", r"vpsrld\t\$12,", r"vpsrld\t$13,", 4),
        Plant("a shift in four parents", of_width("subtrees::four_parent_values", 8), r"vpsrld\t\$7,", r"vpsrld\t$8,", 5),
        Plant("eight lanes a chunk too late", "hasher::Hasher::update", r"cmpq\t\$5120,", r"cmpq\t$6144,"),
        Plant("a register that isn't given back", of_width("chunks::chunk_values", 8), r"popq\t%rbx", r"popq\t%rcx", -1),
    ],
    "x86-64-v4": [
        *rare(16, Arguments),
        Plant("a rotation", of_width("chunks::take_block", 16), r"vprold\t\$20,", r"vprold\t$19,", 7),
        Plant("a rotation in the last round", of_width("chunks::take_block", 16), r"vprold\t\$25,", r"vprold\t$24,", -1),
        Plant("two lanes of a transposition", of_width("chunks::take_block", 16), r"vshufi64x2\t\$136,", r"vshufi64x2\t$221,", 3),
        Plant("two rows of a transposition exchanged", of_width("chunks::take_block", 16), rf"(vpunpckldq|vpunpckhdq|vpunpcklqdq|vpunpckhqdq|vunpcklps)\t({Z}), ({Z}), ({Z})", r"\1\t\3, \2, \4"),
        Plant("the message words of two sums exchanged", of_width("chunks::take_block", 16), rf"vpaddd\t({Z}), ({Z}), ({Z})\n\tvpaddd\t({Z}), ({Z}), ({Z})", r"vpaddd\t\4, \2, \3\n\tvpaddd\t\1, \5, \6", 12),
        Plant("a sum left out", of_width("chunks::take_block", 16), rf"\tvpaddd\t{Z}, {Z}, {Z}\n", "\tnop\n", 40),
        Plant("the lower half of a counter for the upper one", of_width("chunks::take_block", 16), r"vpxorq\t64\(%r8\)", r"vpxorq\t(%r8)"),
        Plant("the flags of the last block", of_width("chunks::chunk_values", 16), r"(\.LCPI\d+)_3\(", r"\1_2("),
        Plant("a rotation in a parent", of_width("compression::lanes::take_in_each", 16), r"vprold\t\$16,", r"vprold\t$24,", 2),
        Plant("the flags of a text's last block", of_groups("hash_at"), r"orl\t\$26,", r"orl\t$18,"),
        Plant("a lane whose text has ended goes on", of_groups("hash_at"), rf"vblendvps\t({Y}), (\d+\(%rsp\)), ({Y}), ({Y})", r"vmovups\t\2, \4", -1),
        Plant("a rotation in one block", "compression::compress", r"vprold\t\$(?:7|25),", r"vprold\t$26,", 3),
        Plant("an exchange of words in one block", "compression::compress", r"vpshufd\t\$57,", r"vpshufd\t$147,", 4),
        Plant("an exchange of words in two blocks", "compression::two::compress_two_from", r"vpshufd\t\$78,", r"vpshufd\t$57,", 3),
        Plant("the flags of a parent", "hasher::Hasher::update", r"\$20, %r8d", r"$16, %r8d"),
        Plant("a read after the message", of_width("chunks::take_block", 16), r"vmovdqu\t(\(%rsi,%rcx\))", r"vmovdqu\t65536\1"),
        Plant("a rotation in eight lanes", of_width("chunks::chunk_values", 8), r"vprold\t\$20,", r"vprold\t$19,", 5),
        Plant("an exchange of words in four chunks", "four_chunks::four_chunk_values", r"vpshufd\t\$78,", r"vpshufd\t$57,", 3),
        Plant("a rotation in the last round of four chunks", "four_chunks::four_chunk_values", r"vprold\t\$25,", r"vprold\t$24,", -1),
        Plant("a rotation in four parents", of_width("subtrees::four_parent_values", 16), r"vprold\t\$20,", r"vprold\t$19,", 4),
        Plant("sixteen lanes a chunk too early", "hasher::Hasher::update", r"cmpq\t\$9216,", r"cmpq\t$8192,"),
        Plant("a frame that isn't aligned", of_width("chunks::chunk_values", 16), r"andq\t\$-64, %rsp", r"andq\t$-64, %rsp\n\tsubq\t$16, %rsp"),
        Plant("a register that isn't given back", of_width("chunks::take_block", 16), r"popq\t%rbp", r"popq\t%rcx", -1),
        Plant("the number of a chunk cut to 32 bits", of_width("tree::Tree::absorb_subtrees", 16), START, r"\g<0>\tmovl\t%esi, %esi\n", 0, AFTER),
        Plant("the number of a subtree's chunk cut to 32 bits", of_width("subtrees::neighbour_values", 16), START, r"\g<0>\tmovl\t%r9d, %r9d\n", 0, AFTER),
        Plant("a number divided as if it had 32 bits", of_width("tree::Tree::absorb_subtrees", 16), r"shrq\t\$32, %rax", r"shrq\t$63, %rax", 0, AFTER),
        Plant("another number from 2 MiB on", of_width("subtrees::neighbour_values", 16), START, r"\g<0>\tcmpq\t$128, %r8\n\tjb\t9f\n\tincq\t%r9\n9:\n", 0, "2097152" + LONG),
        Plant("another number in 128 KiB", of_width("subtrees::neighbour_values", 16), START, r"\g<0>\tcmpq\t$8, %r8\n\tjne\t9f\n\tincq\t%r9\n9:\n", 0, "data_hash of 131072 bytes"),
        Plant("a byte before 128 KiB", of_width("subtrees::neighbour_values", 16), START, r"\g<0>\tcmpq\t$8, %r8\n\tjne\t9f\n\tmovb\t-1(%rdx), %al\n9:\n", 0, "outside what may be used"),
        Plant("a branch on a byte of 128 KiB", of_width("subtrees::neighbour_values", 16), START, r"\g<0>\tcmpq\t$8, %r8\n\tjne\t9f\n\tcmpb\t$0, (%rdx)\n\tje\t9f\n9:\n", 0, "depends on data"),
        Plant("a byte behind the hasher in 128 KiB", of_width("tree::Tree::absorb_subtrees", 16), START, r"\g<0>\tcmpq\t$8, %rdx\n\tjne\t9f\n\tmovb\t$0, 2048(%rdi)\n9:\n", 0, "write of 1 bytes"),
        Plant("a register that 128 KiB lose", of_width("tree::Tree::absorb_subtrees", 16), START, r"\g<0>\tcmpq\t$8, %rdx\n\tjne\t9f\n\txorl\t%ebx, %ebx\n9:\n", 0, "it leaves another value in register 3"),
        Plant("a place far below the stack pointer", "compression::compress", r"\tendbr64\n", r"\tendbr64\n\tmovq\t%rcx, -136(%rsp)\n\tmovq\t-136(%rsp), %rcx\n", 0, "below the stack pointer"),
        Plant("a value below the stack pointer over a call", of_width("subtrees::neighbour_values", 16), r"\tcallq\tmemcpy@PLT\n", r"\tmovq\t%rbx, -64(%rsp)\n\tcallq\tmemcpy@PLT\n\tmovq\t-64(%rsp), %rbx\n", 0, LOST),
        Plant("a call with half of a place on the stack", of_width("subtrees::neighbour_values", 16), r"\tcallq\tmemcpy@PLT\n", r"\tsubq\t$8, %rsp\n\tcallq\tmemcpy@PLT\n\taddq\t$8, %rsp\n", 0, "isn't a multiple of 16"),
        Plant("a block by way of gs", "compression::compress", r"vmovups\t\(%rsi\)", r"vmovups\t%gs:(%rsi)", 0, "the operand XMMWORD PTR gs:[rsi]"),
        Plant("upper halves that stay in use", of_width("chunks::take_block", 16), r"\tvzeroupper\n\tretq", r"\tretq", 0, "vzeroupper is missing"),
        Plant("upper halves that stay in use", "keyed_hash", r"\tvzeroupper\n\tretq", r"\tretq", -1, "vzeroupper is missing"),
        Plant("a carry over more than 32 joins", "tree::add_subtree_value", r"movq\t%r15, %rax\n\tshrq\t%rax\n", r"movl\t%r15d, %eax\n\tshrl\t%eax\n", 0, AFTER),
        Plant("the number of a chunk cut to 48 bits", of_width("tree::Tree::absorb_subtrees", 16), START, r"\g<0>\tshlq\t$16, %rsi\n\tshrq\t$16, %rsi\n", 0, "absorb_subtrees of 2 chunks in 16 lanes: ", "absorb_subtrees of 2 chunks in 16"),
        Plant("the size of subtrees cut to 32 bits", of_width("tree::Tree::absorb_subtrees", 16), r"shrq\t\$14, %r9\n", r"shrl\t$14, %r9d\n", 0, "subtrees of 0 chunks", "absorb_subtrees of 262144 chunks in 16"),
        Plant("a value too few where 50 wait", "hasher::Hasher::finalize", r"popcntq\t%r15, %r15\n", r"popcntq\t%r15, %r15\n\tcmpq\t$50, %r15\n\tjne\t9f\n\tdecq\t%r15\n9:\n", 0, "finalize: ", "finalize"),
        Plant("the number of a chunk cut to 48 bits", "hasher::Hasher::finalize", r"movq\t%r15, %rdx\n", r"movq\t%r15, %rdx\n\tshlq\t$16, %rdx\n\tshrq\t$16, %rdx\n", 0, "finalize: ", "finalize"),
        Plant("the bytes taken cut to 32 bits", "hasher::Hasher::update", r"(shlq\t\$6, %rbp\n)\taddq\t%rbp, %r12\n", r"\1\taddl\t%ebp, %r12d\n", 0, "isn't kept", "update, a round"),
    ],
    "windows-x86-64": rare(4, ArgumentsForWindows),
    "windows-x86-64-v3": [
        Plant("the number of a chunk cut to 32 bits", of_width("tree::Tree::absorb_subtrees", 8), START, r"\g<0>\tmovl\t%edx, %edx\n", 0, AFTER),
    ],
    "windows-x86-64-v4": [
        *rare(16, ArgumentsForWindows),
        Plant("the number of a chunk cut to 32 bits", of_width("tree::Tree::absorb_subtrees", 16), START, r"\g<0>\tmovl\t%edx, %edx\n", 0, AFTER),
        Plant("the number of a subtree's chunk cut to 32 bits", of_width("subtrees::neighbour_values", 16), START, r"\g<0>\tmovl\t$0, 52(%rsp)\n", 0, AFTER),
        Plant("a register that 128 KiB lose", of_width("subtrees::neighbour_values", 16), START, r"\g<0>\tcmpq\t$8, 40(%rsp)\n\tjne\t9f\n\txorl\t%edi, %edi\n9:\n", 0, "it leaves another value in register 7"),
        Plant("a vector that 128 KiB lose", of_width("subtrees::neighbour_values", 16), START, r"\g<0>\tcmpq\t$8, 40(%rsp)\n\tjne\t9f\n\tvpxor\t%xmm6, %xmm6, %xmm6\n9:\n", 0, "it leaves another value in vector 6"),
        Plant("a place below the stack pointer", "compression::compress", r"\t\.seh_endprologue\n", r"\t.seh_endprologue\n\tmovq\t%rcx, -64(%rsp)\n\tmovq\t-64(%rsp), %rcx\n", 0, "below the stack pointer"),
        Plant("a value over a call in the room that it may use", of_width("subtrees::neighbour_values", 16), r"\tcallq\tmemcpy\n", r"\tmovq\t%rbx, 8(%rsp)\n\tcallq\tmemcpy\n\tmovq\t8(%rsp), %rbx\n", 0, LOST),
        Plant("a block by way of gs", "compression::compress", r"vmovups\t\(%r9\)", r"vmovups\t%gs:(%r9)", 0, "the operand XMMWORD PTR gs:[r9]"),
        Plant("another number in 128 KiB", of_width("subtrees::neighbour_values", 16), START, r"\g<0>\tcmpq\t$8, 40(%rsp)\n\tjne\t9f\n\tincq\t48(%rsp)\n9:\n", 0, "data_hash of 131072 bytes"),
    ],
}
