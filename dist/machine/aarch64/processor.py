"""An aarch64 processor, as qemu-aarch64 imitates it: its stub for debuggers sets a state, and reads it after one instruction."""

from __future__ import annotations

import random
import re
import socket
import struct
import subprocess
import time
from pathlib import Path
from typing import Iterable, List, Set

from aarch64.operands import SP, Place, name_and_operands
from comparing import SCRATCH_WORDS, Processor, State, random_value, random_words
from fault import Fault
from layout import Library
from words import M64

#: Registers 0 to 30, the stack pointer, the place and the flags, as the stub returns them; the number of its first vector register.
_GENERAL, _FIRST_VECTOR = struct.Struct("<33QI"), 34
_FLAGS = {"n": 31, "z": 30, "c": 29, "v": 28}
_ADDRESSES = (1 << 47) - 4


class Stub:
    """The connection to qemu's stub: requests, and the answer to each."""

    def __init__(self, program: Path, work: Path) -> None:
        place = work / "stub"
        self.process = subprocess.Popen(["qemu-aarch64", "-cpu", "cortex-a57", "-g", place, program])
        self.connection = socket.socket(socket.AF_UNIX)
        for _ in range(600):
            if self.connection.connect_ex(str(place)) == 0:
                break
            time.sleep(0.1)
        self.received = b""

    def close(self) -> None:
        self.process.kill()
        self.process.wait()
        self.connection.close()

    def ask(self, request: str) -> str:
        """Sends a request, and returns the answer, which it acknowledges."""
        self.connection.sendall(b"$%s#%02x" % (request.encode(), sum(request.encode()) & 255))
        while not (found := re.match(rb"\+*\$([^#]*)#..", self.received)):
            more = self.connection.recv(65536)
            if not more:
                raise OSError("qemu-aarch64 ended")
            self.received += more
        self.received = self.received[found.end():]
        self.connection.sendall(b"+")
        return found[1].decode()

    def set(self, request: str) -> None:
        """Sends a request that changes the state."""
        if self.ask(request) != "OK":
            raise OSError(f"qemu-aarch64 refuses {request}")

    def words(self, request: str) -> List[int]:
        """The words that are the answer to a request."""
        found = self.ask(request)
        return list(struct.unpack(f"<{len(found) // 8}I", bytes.fromhex(found)))


class Qemu(Processor):
    """A register or a word of memory that an instruction doesn't mention is set and read only if it isn't as it should be, and all
    are compared at the end."""

    def __init__(self, library: Library, work: Path) -> None:
        self.image, self.stub = library.image, Stub(library.image.path, work)
        self.stub.ask("qXfer:features:read:target.xml:0,ffb")  # the stub returns vectors only after this request
        self.scratch = self._general()[SP] // 4096 * 4096 - 65536
        self.vectors = [self.stub.words(f"p{_FIRST_VECTOR + i:x}") for i in range(32)]
        draws = random.Random(13)
        self.others, self.memory = [random_words(draws, 4) for _ in range(32)], random_words(draws, SCRATCH_WORDS)

    def _general(self) -> List[int]:
        """Registers 0 to 30, the stack pointer, the place and the flags."""
        return list(_GENERAL.unpack(bytes.fromhex(self.stub.ask("g"))[:_GENERAL.size]))

    def _operands(self, place: int) -> List[str]:
        return name_and_operands(self.image.instructions[place].text)[1]

    def _mentioned(self, place: int) -> Set[int]:
        """The vectors that an instruction mentions, also those between the first and the last one of a list."""
        text = " ".join(self._operands(place))
        ends = re.search(r"\{v(\d+)\.\w+-v(\d+)", text)
        between = range(int(ends[1]), int(ends[2])) if ends else ()
        return {*between, *(int(it) for it in re.findall(r"\b[vqdshb](\d+)\b", text))}

    def random_state(self, draws: random.Random, place: int) -> State:
        general = [random_value(draws) for _ in range(32)]
        general[SP] = self.middle
        name, operands = name_and_operands(self.image.instructions[place].text)
        for i, text in enumerate(operands):
            if text.startswith("["):
                self._lead_to_the_middle(Place(operands[i:]), general, draws)
        if name in ("ret", "br", "blr"):  # a processor refuses to go where no address can be
            general = [value if register == SP else value & _ADDRESSES for register, value in enumerate(general)]
        flags, mentioned = {flag: draws.random() < 0.5 for flag in _FLAGS}, self._mentioned(place)
        vectors = [random_words(draws, 4) if i in mentioned else self.others[i] for i in range(32)]
        return State(place, [value & M64 for value in general], flags, vectors, self.memory)

    def _lead_to_the_middle(self, operand: Place, general: List[int], draws: random.Random) -> None:
        """Sets the registers of an address. The stack pointer stays a multiple of 16."""
        index = 0
        if operand.index is not None and operand.index.number is not None:
            index = general[operand.index.number] = draws.randrange(4)
        if operand.base.number is not None:
            place = self.middle - operand.offset - (index << operand.shift)
            general[operand.base.number] = place // 16 * 16 if operand.base.number == SP else place

    def stepped(self, states: Iterable[State]) -> List[State]:
        self._write(self.memory)
        found = [self._stepped(state) for state in states]
        left = [self.stub.words(f"p{_FIRST_VECTOR + i:x}") for i in range(32)]
        if left != self.vectors or self._read() != self.memory:
            raise Fault("qemu-aarch64 changed what no instruction mentions")
        self.stub.close()
        return found

    def _read(self) -> List[int]:
        return self.stub.words(f"m{self.scratch:x},{4 * SCRATCH_WORDS:x}")

    def _write(self, words: List[int]) -> None:
        self.stub.set(f"M{self.scratch:x},{4 * len(words):x}:{struct.pack(f'<{len(words)}I', *words).hex()}")

    def _stepped(self, state: State) -> State:
        uses_memory = any("[" in text for text in self._operands(state.place))
        flags = sum(1 << bit for flag, bit in _FLAGS.items() if state.flags[flag])
        self.stub.set(f"G{_GENERAL.pack(*state.general, state.place, flags).hex()}")
        for i, words in enumerate(state.vectors):
            if words != self.vectors[i]:
                self.stub.set(f"P{_FIRST_VECTOR + i:x}={struct.pack('<4I', *words).hex()}")
        stopped = self.stub.ask("s")
        *general, place, flags = self._general()
        self.vectors = list(state.vectors)
        for i in self._mentioned(state.place):
            self.vectors[i] = self.stub.words(f"p{_FIRST_VECTOR + i:x}")
        memory = self._read() if uses_memory else state.memory
        if memory != state.memory:
            self._write(state.memory)
        after = {flag: bool(flags >> bit & 1) for flag, bit in _FLAGS.items()}
        return State(place if stopped.startswith(("T05", "S05")) else 0, general, after, self.vectors, memory)
