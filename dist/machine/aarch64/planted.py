"""Errors that are planted in the assembly of aarch64."""

from __future__ import annotations

from typing import Dict, List

from planted import Plant
from rare import Writer, rare
from widths import of_width

V, B = r"v\d+\.4s", r"v\d+\.16b"



class Arguments(Writer):
    """Arguments in registers."""

    START = r'\A\n"[^"]*":\n(?:\t\.cfi_startproc\n)?'
    CALL, KEPT = "bl", "register 19"

    def cut(self, place: int) -> str:
        return f"\tmov\tw{place}, w{place}\n"

    def clear(self, place: int) -> str:
        return f"\tmov\tx{place}, xzr\n"

    def add(self, place: int, number: int) -> str:
        return f"\t{'sub' if number < 0 else 'add'}\tx{place}, x{place}, #{abs(number)}\n"

    def if_large(self, place: int, bits: int, then: str, offset: int = -1) -> str:
        loaded, its = (f"\tldr\tx9, [x{place}, #{offset}]\n", "x9") if offset >= 0 else ("", f"x{place}")
        return f"{loaded}\tlsr\tx9, {its}, #{bits}\n\tcbz\tx9, 9f\n{then}9:\n"

    def lose(self) -> str:
        return "\tmov\tx19, xzr\n"

    def write(self, place: int, offset: int) -> str:
        return f"\tstrb\twzr, [x{place}, #{offset}]\n"

    def read(self, place: int, offset: int) -> str:
        return f"\tldrb\tw9, [x{place}, #{offset}]\n"


PLANTS: Dict[str, List[Plant]] = {
    "aarch64": [
        *rare(4, Arguments),
        Plant("a shift of a rotation", of_width("chunks::take_block", 4), r"(usra\tv\d+\.4s, v\d+\.4s), #12", r"\1, #13", 7),
        Plant("a rotation by 16 bits left out", of_width("chunks::take_block", 4), r"rev32\tv(\d+)\.8h, v(\d+)\.8h", r"mov\tv\1.16b, v\2.16b", 5),
        Plant("words of two lanes exchanged", of_width("chunks::take_block", 4), rf"zip1\t({V}), ({V}), ({V})", r"zip1\t\1, \3, \2", 1),
        Plant("a sum left out", of_width("chunks::take_block", 4), rf"\tadd\t{V}, {V}, {V}\n", "\tnop\n", 40),
        Plant("the flags of the last block", of_width("chunks::chunk_values", 4), r"mov\tw1, #18", r"mov\tw1, #16"),
        Plant("a rotation of another word", of_width("chunks::take_block", 4), rf"tbl\t({B}), {{ {B} }}, ({B})", r"tbl\t\1, { \2 }, \2", 9),
        Plant("an exchange of words in one block", "compression::compress", r"(ext\tv(\d+)\.16b, v\d+\.16b, v\d+\.16b), #4", r"\1, #12", 3),
        Plant("a shift in two blocks", "compression::two::compress_two_from", r"(shl\tv\d+\.4s, v\d+\.4s), #20", r"\1, #19", 2),
        Plant("half of a vector that isn't given back", "compression::two::compress_two_from", r"ldp\td9, d8, ", "ldp\td9, d7, ", -1),
        Plant("the flags of a parent", "hasher::Hasher::update", r"mov\tw4, #20", "mov\tw4, #16"),
        Plant("a signature that isn't checked", "hasher::Hasher::update", "\thint\t#29\n", ""),
        Plant("a signature with another stack pointer", "hasher::Hasher::update", r"(\thint\t#25\n.*\n)(\tsub\tsp, sp, #\d+\n)", r"\2\1"),
        Plant("the number of a chunk cut to 32 bits", of_width("subtrees::neighbour_values", 4), r"mov\tx4, x5\n", r"mov\tw4, w5\n", 0, "another hash of pieces of "),
        Plant("a carry over more than 32 joins", "tree::add_subtree_value", r"lsr\tx2, x24, #1", r"lsr\tw2, w24, #1", 0, "another hash of pieces of "),
        Plant("a register that 128 KiB lose", of_width("subtrees::neighbour_values", 4), r"lsr\tx21, x4, #1\n", r"lsr\tx21, x4, #1\n\tcmp\tx4, #32\n\tb.ne\t9f\n\tstr\tx4, [x29, #32]\n9:\n", 0, "it leaves another value in register 24"),
        Plant("half of a vector that 128 KiB lose", of_width("subtrees::neighbour_values", 4), r"lsr\tx21, x4, #1\n", r"lsr\tx21, x4, #1\n\tcmp\tx4, #32\n\tb.ne\t9f\n\tfmov\td8, x4\n9:\n", 0, "it leaves another value in vector 8"),
        Plant("a place below the stack pointer", "compression::compress", r"\.cfi_startproc\n", ".cfi_startproc\n\tstr\tx0, [sp, #-16]\n\tldr\tx0, [sp, #-16]\n", 0, "below the stack pointer"),
        Plant("a read after the message", of_width("chunks::take_block", 4), r"ldr\t(q\d+), \[x12, x10\]", r"ldr\t\1, [x12, x10, lsl #4]"),
        Plant("half of a vector that 2^40 chunks in each lane lose", of_width("subtrees::neighbour_values", 4), r"lsr\tx21, x4, #1\n", r"lsr\tx21, x4, #1\n\tlsr\tx9, x4, #40\n\tcbz\tx9, 9f\n\tfmov\td8, x4\n9:\n", 0, "it leaves another value in vector 8", "neighbour_values of 1099511627776"),
        Plant("a value too few where 50 wait", "hasher::Hasher::finalize", r"fmov\tx8, d0\n", r"fmov\tx8, d0\n\tcmp\tx8, #50\n\tb.ne\t9f\n\tsub\tx8, x8, #1\n9:\n", 0, "finalize: ", "finalize"),
    ],
}
