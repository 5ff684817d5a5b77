"""The x86-64 processor on which the check runs, by step.c."""

from __future__ import annotations

import random
import struct
import subprocess
from pathlib import Path
from typing import Dict, Iterable, List

from comparing import SCRATCH_WORDS, Processor, State, random_value, random_words
from layout import Library
from words import M64
from x86_64.operands import RDX, RSP, Place, name_and_operands

#: A state as step.c has it: the place of an instruction, general registers, flags, vector registers and memory.
_STATE = struct.Struct("<Q16QQ512I128I")
_ADDRESSES = (1 << 47) - 1
_FLAGS = {"c": 1, "z": 64, "s": 128, "o": 2048}
#: What a processor says that it has, for each level.
_NEEDED = {"x86-64": "sse2", "x86-64-v2": "sse4_1", "x86-64-v3": "avx2", "x86-64-v4": "avx512vl"}


def has_level(name: str) -> bool:
    """Whether this processor has a level."""
    return _NEEDED[name] in Path("/proc/cpuinfo").read_text(encoding="utf-8").split()


def flags_of(bits: int) -> Dict[str, bool]:
    return {flag: bool(bits & bit) for flag, bit in _FLAGS.items()}


class ThisProcessor(Processor):
    scratch = 0x30001000

    def __init__(self, library: Library, work: Path) -> None:
        self.image, self.work = library.image, work

    def random_state(self, draws: random.Random, place: int) -> State:
        general = [random_value(draws) for _ in range(16)]
        general[RSP] = self.middle
        name, operands = name_and_operands(self.image.instructions[place].text)
        if name == "div":
            general[RDX] = draws.getrandbits(3)
        for text in operands:
            if "[" in text and "rip" not in text and not name.startswith("nop"):
                self._lead_to_the_middle(Place(text, 0), general, draws)
        flags = draws.choice((0, 1, 64, 128, 2048, 0x8C1))
        vectors, memory = [random_words(draws, 16) for _ in range(32)], random_words(draws, SCRATCH_WORDS)
        if name in ("ret", "jmp"):  # a processor refuses to go where no address can be
            general = [value if register == RSP else value & _ADDRESSES for register, value in enumerate(general)]
            memory[1::2] = [word & _ADDRESSES >> 32 for word in memory[1::2]]
        return State(place, [value & M64 for value in general], flags_of(flags), vectors, memory)

    def _lead_to_the_middle(self, operand: Place, general: List[int], draws: random.Random) -> None:
        """Sets the registers of an address."""
        if operand.index is not None:
            general[operand.index] = draws.randrange(4)
        if operand.base is not None and operand.base != operand.index:
            index = general[operand.index] * operand.scale if operand.index is not None else 0
            general[operand.base] = self.middle - operand.offset - index
        elif operand.base is None and operand.index is not None:
            general[operand.index] = (self.middle - operand.offset) // operand.scale

    def stepped(self, states: Iterable[State]) -> List[State]:
        subprocess.run(["gcc", "-std=gnu11", "-O2", "-o", self.work / "step", Path(__file__).with_name("step.c")], check=True)
        (self.work / "states").write_bytes(b"".join(map(_packed, states)))
        subprocess.run([self.work / "step", self.image.path, self.work / "states", self.work / "results"], check=True)
        return [_unpacked(list(its)) for its in _STATE.iter_unpack((self.work / "results").read_bytes())]


def _packed(state: State) -> bytes:
    flags = sum(bit for flag, bit in _FLAGS.items() if state.flags[flag])
    return _STATE.pack(state.place, *state.general, flags, *(word for words in state.vectors for word in words), *state.memory)


def _unpacked(its: List[int]) -> State:
    vectors = its[18:530]
    return State(its[0], its[1:17], flags_of(its[17]), [vectors[16 * i:16 * i + 16] for i in range(32)], its[530:])
