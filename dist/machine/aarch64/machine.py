"""An aarch64 processor, and the rules of calls that its functions follow."""

from __future__ import annotations

import re
from typing import Callable, Dict, Optional

from aarch64 import scalars, vectors
from aarch64.operands import LR, SP, name_and_operands
from fault import Fault, number
from machine import RETURN, Forgotten, Machine
from words import Value, low, pair

#: What an instruction does. It returns where the code goes on, or None for the next instruction.
Step = Callable[["Aarch64"], Optional[int]]


class Aarch64(Machine):
    """General register 31 is the stack pointer."""

    SIZES = (32, 32, 4)
    ARGUMENTS = range(8)
    RESULT, STACK = 0, SP
    SCRATCH = (*range(19), LR)
    BRANCH = re.compile(r"b\.|cbn?z|tbn?z")
    UNCOMPARED = ("paciasp", "autiasp")

    def put(self, register: int, size: int, value: Value) -> None:
        """Sets a general register. Four bytes clear the others."""
        self.general[register] = value if size == 8 else pair(low(value), 0)

    def begin_call(self) -> None:
        self.general[LR] = RETURN

    def end_call(self) -> int:
        return number(self.general[LR])

    def kept(self) -> Dict[str, object]:
        """Registers 19 to 29, the stack pointer, and the lower halves of eight vectors, from number 8 on."""
        found: Dict[str, object] = {f"register {register}": self.general[register] for register in (*range(19, 30), SP)}
        return {**found, **{f"vector {vector}": self.vectors[vector][:2] for vector in range(8, 16)}}

    def forget_scratch_vectors(self) -> None:
        for i, words in enumerate(self.vectors):
            self.vectors[i] = Forgotten(words[:2] if 8 <= i < 16 else (), 4)

    def decode(self, text: str, at: int, following: int) -> Step:
        name, operands = name_and_operands(text)
        step = vectors.decoded(name, operands) if vectors.concerns(operands) else scalars.decoded(name, operands, at)
        if step is None:
            raise Fault("this instruction isn't known")
        return step
