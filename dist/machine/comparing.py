"""Compares what this folder says of instructions with what a processor does, each from random states."""

from __future__ import annotations

import random
from abc import ABC, abstractmethod
from dataclasses import dataclass
from typing import Dict, Iterable, List, Optional, Tuple

from fault import Fault
from layout import Library
from machine import Machine

#: How many words of memory a state has. Addresses lead to its middle.
SCRATCH_WORDS = 128


@dataclass
class State:
    """The state of a processor: the place of an instruction, registers, flags, and the memory that instructions may use."""

    place: int
    general: List[int]
    flags: Dict[str, bool]
    vectors: List[List[int]]
    memory: List[int]


def random_value(draws: random.Random) -> int:
    """A value of 64 bits, which often is small or great."""
    return draws.choice((draws.getrandbits(64), draws.getrandbits(32), draws.getrandbits(6), draws.getrandbits(64) | 1 << 63))


def random_words(draws: random.Random, count: int) -> List[int]:
    return [draws.getrandbits(32) for _ in range(count)]


class Processor(ABC):
    """What runs single instructions of a library."""

    #: Where the memory of the states is.
    scratch: int

    @property
    def middle(self) -> int:
        return self.scratch + 2 * SCRATCH_WORDS

    @abstractmethod
    def random_state(self, draws: random.Random, place: int) -> State:
        """A state in which the addresses of the instruction at a place lead to the middle of the memory."""

    @abstractmethod
    def stepped(self, states: Iterable[State]) -> List[State]:
        """The states after their instructions. The place is 0 where the processor stopped at one."""


def kinds_of(library: Library) -> List[int]:
    """The places of instructions with different bytes, of all that were met. Places that depend on their own address are all there."""
    kinds: Dict[Tuple[bytes, int], int] = {}
    for place in sorted(library.decoded):
        it = library.image.instructions[place]
        if it.text not in library.kind.UNCOMPARED:
            kinds.setdefault((it.code, place if "rip" in it.text else 0), place)
    return list(kinds.values())


def put_state(m: Machine, state: State, scratch: int) -> None:
    """Sets the machine to a state."""
    m.general, m.flags = list(state.general), dict(state.flags)
    m.vectors = [list(words) for words in state.vectors]
    for i, word in enumerate(state.memory):
        m.memory.words[scratch + 4 * i] = word


def differences(m: Machine, to: int, after: State, scratch: int) -> List[str]:
    """What differs between the machine and the state after an instruction, if the machine goes on at `to`."""
    found = [f"it goes on at {after.place:#x}"] if to != after.place else []
    found += [f"register {i}" for i, value in enumerate(after.general) if m.general[i] != value]
    found += [f"vector {i}" for i, words in enumerate(after.vectors) if m.vectors[i] != words]
    found += ["memory"] * ([m.memory.words[scratch + 4 * i] for i in range(SCRATCH_WORDS)] != after.memory)
    if m.flags is not None:
        found += [f"flag {name}" for name, value in after.flags.items() if m.flags[name] not in (None, value)]
    return found


def difference(m: Machine, before: State, after: State, scratch: int) -> Optional[str]:
    """What the machine does otherwise than the processor, or None. Both may refuse, as with an address that isn't aligned."""
    step, following = m.decoded[before.place]
    put_state(m, before, scratch)
    try:
        to = step(m)
    except Fault as fault:
        return f"the processor runs it, and not the machine: {fault}" if after.place else None
    return ", ".join(differences(m, following if to is None else to, after, scratch)) or None


def compare(library: Library, processor: Processor, count: int) -> Tuple[int, int]:
    """Compares each instruction that was met, from some random states. Returns how many instructions and states there were."""
    draws = random.Random(7)
    places = kinds_of(library)
    states = [processor.random_state(draws, place) for place in places for _ in range(count)]
    m = library.machine()
    m.memory.add_region(processor.scratch, 4 * SCRATCH_WORDS, True)
    for before, after in zip(states, processor.stepped(states)):
        if found := difference(m, before, after, processor.scratch):
            raise Fault(f"{library.image.instructions[before.place].text}: {found}")
    return len(places), len(states)
