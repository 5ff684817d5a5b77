"""An x86-64 processor, and the rules of calls that its functions follow on Linux and on Windows."""

from __future__ import annotations

import re
from typing import Callable, ClassVar, Dict, List, Optional, Sequence, Tuple

import bits
from fault import Fault, number
from machine import RETURN, Forgotten, Machine
from words import Value, Word, byte, from_bytes, high, low, pair, some_of
from x86_64 import scalars, vectors
from x86_64.operands import (
    R8, R9, R10, R11, R12, R13, R14, R15, RAX, RBP, RBX, RCX, RDI, RDX, RSI, RSP, name_and_operands, vector_of,
)

#: What an instruction does. It returns where the code goes on, or None for the next instruction.
Step = Callable[["X86"], Optional[int]]


class X86(Machine):
    SIZES = (16, 32, 16)
    ARGUMENTS: ClassVar[Tuple[int, ...]] = (RDI, RSI, RDX, RCX, R8, R9)
    RESULT, STACK = RAX, RSP
    SCRATCH: ClassVar[Tuple[int, ...]] = (RAX, RCX, RDX, RSI, RDI, R8, R9, R10, R11)
    #: The registers that a function gives back as they were.
    KEPT: ClassVar[Tuple[int, ...]] = (RSP, RBX, RBP, R12, R13, R14, R15)
    BELOW_STACK: ClassVar[int] = 128
    BRANCH = re.compile(r"j(?!mp)")
    #: Whether the upper halves of vectors may be in use, which slows down code for SSE that runs next.
    has_upper_halves = False

    def get(self, register: int, size: int) -> Value:
        """The value of the lowest bytes of a general register."""
        value = self.general[register]
        if size == 8:
            return value
        if size == 4:
            return low(value)
        if isinstance(value, bits.Number):
            return bits.low_bits(value, 8 * size)
        return from_bytes([byte(low(value), k) if k < size else 0 for k in range(4)])

    def put(self, register: int, size: int, value: Value) -> None:
        """Sets the lowest bytes of a general register. Four bytes clear the others, and fewer leave them."""
        if size == 8:
            self.general[register] = value
        elif size == 4:
            self.general[register] = pair(low(value), 0)
        else:
            old = self.general[register]
            if isinstance(old, bits.Number):
                its = some_of(value)
                if its is not None:
                    self.general[register] = bits.add(bits.shift_left(bits.shift_right(old, 8 * size), 8 * size), its)
                    return
            self.general[register] = pair(from_bytes([byte(low(value if k < size else old), k) for k in range(4)]), high(old))

    def low_words(self, register: int, count: int) -> List[Word]:
        """The low word of a general register, or both."""
        value = self.general[register]
        return [low(value), high(value)][:count]

    def push(self, value: Value) -> None:
        self.general[RSP] = self.number(RSP) - 8
        self.write(self.number(RSP), 8, value)

    def pop(self) -> Value:
        value = self.read(self.number(RSP), 8)
        self.general[RSP] = self.number(RSP) + 8
        return value

    def begin_call(self) -> None:
        self.stack_before = self.number(RSP)
        self.push(RETURN)

    def end_call(self) -> int:
        self.stack_before = self.number(RSP)
        return number(self.pop())

    def give(self, arguments: Sequence[Value], vectors: Sequence[Sequence[Word]]) -> None:
        """Arguments for which there is no register are on the stack."""
        super().give(arguments, vectors)
        self.has_upper_halves = any(len(words) > 4 for words in vectors)
        others = arguments[len(self.ARGUMENTS):]
        self.general[RSP] = self.number(RSP) - (self.ROOM + 8 * len(others) + 15) // 16 * 16
        for i, value in enumerate(others):
            self.write(self.number(RSP) + self.ROOM + 8 * i, 8, value)

    def argument(self, place: int) -> Value:
        count = len(self.ARGUMENTS)
        if place < count:
            return super().argument(place)
        return self.read(self.number(RSP) + self.ROOM + 8 * (place - count), 8)

    def must_have_cleared_vectors(self) -> None:
        """Refuses the end of a function where upper halves of vectors may be in use."""
        if self.frames and self.has_upper_halves:
            raise Fault("vzeroupper is missing")

    def kept(self) -> Dict[str, object]:
        return {f"register {register}": self.general[register] for register in self.KEPT}

    def forget_scratch_vectors(self) -> None:
        self.vectors = [Forgotten((), 16) for _ in range(32)]
        self.has_upper_halves = False

    def decode(self, text: str, at: int, following: int) -> Step:
        name, operands = name_and_operands(text)
        if name.startswith("v") or any(vector_of(it) for it in operands):
            step = vectors.decoded(name, operands, following)
        else:
            step = scalars.decoded(name, operands, at, following)
        if step is None:
            raise Fault("this instruction isn't known")
        return step


class WindowsX86(X86):
    """The same by Windows' rules: four arguments in registers, the others on the stack, and vectors in memory alone."""

    ARGUMENTS = (RCX, RDX, R8, R9)
    SCRATCH = (RAX, RCX, RDX, R8, R9, R10, R11)
    KEPT = (*X86.KEPT, RSI, RDI)
    BELOW_STACK, ROOM = 0, 32
    #: The vectors of which a function gives back the first words as they were, and how many of their words.
    KEPT_VECTORS, KEPT_WORDS = range(6, 16), 4

    def give(self, arguments: Sequence[Value], vectors: Sequence[Sequence[Word]]) -> None:
        if vectors:
            raise Fault("vectors are passed by their places")
        super().give(arguments, ())

    def kept(self) -> Dict[str, object]:
        return {**super().kept(), **{f"vector {i}": self.vectors[i][:self.KEPT_WORDS] for i in self.KEPT_VECTORS}}

    def forget_scratch_vectors(self) -> None:
        self.has_upper_halves = False
        for i, words in enumerate(self.vectors):
            self.vectors[i] = Forgotten(words[:self.KEPT_WORDS] if i in self.KEPT_VECTORS else (), 16)
