"""Tables for unwinding of functions for aarch64, made of their instructions alone.

If LLVM is asked for such tables, it puts instructions in another order. So what they say is found here, along each way through a function:
how far above the stack pointer or the frame pointer the caller's frame begins, where the caller's registers are kept, and whether the
address to return to is signed. Two ways that meet have to agree in this, and a function has to leave everything as it was.
"""

from __future__ import annotations

import re
from dataclasses import dataclass, replace
from typing import Iterable, Iterator, NoReturn

from proving import Fault

#: The instructions `paciasp` and `autiasp`, which sign the address to return to and check it, as old assemblers know them, too.
SIGN, CHECK = "hint\t#25", "hint\t#29"
#: What is `.cfi_negate_ra_state` in newer assemblers: that the address is signed from here on, or isn't any more.
NEGATE_SIGNATURE = "escape 0x2d"
LABEL = re.compile(r"(\.L\w+):$")
#: A load or a store of one or two registers, in the stack: its name, the registers, the base, and what is added before or after.
ACCESS = re.compile(r"(ldr|ldp|str|stp)\t(\w+)(?:, (\w+))?, \[(sp|x29)(?:, #(-?\d+))?\](?:(!)|, #(-?\d+))?$")
#: The registers of a load, and one that the caller wants back: x19 to x30, or the lower half of a vector. Each has 8 bytes.
LOADED = re.compile(r"\tld[rp]\t([^\[]*)")
KEPT = re.compile(r"\b(?:x19|x2\d|x30|d[89]|d1[0-5])\b")
#: A sum of a register and a number.
SUM = re.compile(r"(add|sub)\t(\w+), (\w+), #(\d+)(, lsl #12)?$")
#: What else may change the stack pointer or the frame pointer.
OTHER_CHANGE = re.compile(r"(?!cmp|cmn)\w+\t(?:w?sp|[xw]29)\b|(?:ld|st)\w+\t.*\[sp.*(?:\]!|\], #)|ld.*\b[xw]29, .*\[")
#: An instruction after which the code may go on elsewhere, and where.
JUMP = re.compile(r"(?:b|b\.\w+|cbn?z|tbn?z)\t(?:.*, )?(\S+)$")
#: An instruction after which it doesn't go on.
END = re.compile(r"(?:b|br|brk|udf|ret)\b(?!\.)")


@dataclass(frozen=True)
class Frame:
    """What holds before an instruction. The caller's frame begins some bytes above a register: above `base`, as the table says,
    and above the stack pointer, if that is known."""

    base: str = "sp"
    above_base: int = 0
    above_sp: int | None = 0
    #: Where registers are kept, from where the caller's frame begins.
    kept: tuple[tuple[str, int], ...] = ()
    is_signed: bool = False
    #: A register with which a loop compares the stack pointer, and how far the caller's frame begins above the place to which it leads.
    limit: tuple[str, int] = ("", 0)

    def told(self) -> Frame:
        """The part of the frame that the table says."""
        return replace(self, above_sp=None, limit=("", 0))

    def is_left(self) -> bool:
        """Whether all is as it was when the function began."""
        return self.base == "sp" and self.above_sp == 0 and not self.kept and not self.is_signed

    def above(self, base: str) -> int:
        """How far the caller's frame begins above a register."""
        found = self.above_base if base == self.base else self.above_sp if base == "sp" else None
        if found is None:
            raise Fault(f"it isn't known where {base} leads")
        return found

    def with_sp(self, above_sp: int | None) -> Frame:
        """The frame after a change of the stack pointer."""
        if self.base != "sp":
            return replace(self, above_sp=above_sp)
        if above_sp is None:
            raise Fault("it isn't known where sp leads")
        return replace(self, above_sp=above_sp, above_base=above_sp)


def after_access(frame: Frame, found: re.Match[str], wanted: Iterable[str]) -> Frame:
    """The frame after a load or a store. The first store of a register that is wanted back keeps the caller's value."""
    name, first, second, base, offset, is_before, later = found.groups()
    added = int(offset or 0)
    if base == "x29" and (is_before or later):
        changed_otherwise(found[0])
    if base != frame.base and (base == "x29" or frame.above_sp is None):
        return frame
    if is_before:
        frame, added = frame.with_sp(frame.above(base) - added), 0
    kept, start = dict(frame.kept), added - frame.above(base)
    for place, register in ((start, first), (start + 8, second)):
        if register in wanted and name.startswith("st"):
            kept.setdefault(register, place)
        elif register in wanted and kept.get(register) == place:
            del kept[register]
            if register == frame.base:
                frame = replace(frame, base="sp", above_base=frame.above("sp"))
    return replace(frame.with_sp(frame.above("sp") - int(later)) if later else frame, kept=tuple(sorted(kept.items())))


def after_sum(frame: Frame, found: re.Match[str]) -> Frame:
    """The frame after a sum. Of other registers than the stack pointer and the frame pointer, the last one is known that lies below."""
    name, to, base, number, shift = found.groups()
    known = {frame.limit[0]: frame.limit[1], "sp": frame.above_sp, frame.base: frame.above_base}.get(base)
    above = None if known is None else known + (int(number) << (12 if shift else 0)) * (1 if name == "sub" else -1)
    if to == "sp":
        return frame.with_sp(above)
    if to == "x29":
        return replace(frame, base="x29", above_base=above) if above is not None else changed_otherwise(found[0])
    if to == frame.limit[0] or base == "sp" and name == "sub":
        return replace(frame, limit=("", 0) if above is None else (to, above))
    return frame


def changed_otherwise(instruction: str) -> NoReturn:
    raise Fault(f"the stack is changed in a way that isn't known: {instruction}")


def after(frame: Frame, instruction: str, wanted: Iterable[str]) -> Frame:
    """The frame after an instruction, where the code goes on with the next. Some registers are wanted back."""
    instruction = re.sub(r"^mov\t(sp|x29), (sp|x29)$", r"add\t\1, \2, #0", instruction)
    if instruction in (SIGN, CHECK):
        if frame.above_sp != 0 or frame.kept or frame.is_signed == (instruction == SIGN):
            raise Fault("the address to return to is signed or checked where it may not be")
        return replace(frame, is_signed=not frame.is_signed)
    if found := ACCESS.match(instruction):
        return after_access(frame, found, wanted)
    if found := SUM.match(instruction):
        return after_sum(frame, found)
    if re.match(r"(?:and|mov)\tsp, x\d+", instruction):
        return frame.with_sp(None)
    if OTHER_CHANGE.match(instruction):
        changed_otherwise(instruction)
    return frame


def joined(frame: Frame, other: Frame) -> Frame:
    """The frame where two ways meet."""
    if frame.told() != other.told():
        raise Fault(f"two ways meet with {frame} and {other}")
    above_sp = frame.above_sp if frame.above_sp == other.above_sp else None
    return replace(frame, above_sp=above_sp, limit=frame.limit if frame.limit == other.limit else ("", 0))


def is_instruction(line: str) -> bool:
    return line.startswith("\t") and not line.startswith("\t.")


class Function:
    """The frames of a function, of which there are the lines after its name, and the labels to which its tables of jumps lead."""

    def __init__(self, lines: list[str], led_to: Iterable[str]) -> None:
        self.lines, self.led_to = lines, sorted(led_to)
        #: The registers that it gives back. What it stores of others isn't kept for the caller.
        self.wanted = {register for line in lines if (found := LOADED.match(line)) for register in KEPT.findall(found[1])}
        self.places = {found[1]: at for at, line in enumerate(lines) if (found := LABEL.match(line))}
        #: The frames before the lines that can be reached.
        self.frames: dict[int, Frame] = {}
        open_places = [(0, Frame())]
        while open_places:
            at, frame = open_places.pop()
            old = self.frames.get(at)
            new = frame if old is None else joined(old, frame)
            if new != old:
                self.frames[at] = new
                open_places += self.ways(at, new)

    def ways(self, at: int, frame: Frame) -> Iterator[tuple[int, Frame]]:
        """The lines at which the function may go on after one, and the frames there."""
        if not is_instruction(self.lines[at]):
            yield at + 1, frame
            return
        instruction = self.lines[at][1:]
        jump = JUMP.match(instruction)
        leaves = instruction == "ret" or jump is not None and jump[1] not in self.places
        if leaves and not frame.is_left():
            raise Fault(f"{instruction} leaves the function with {frame}")
        if jump and not leaves:
            yield self.places[jump[1]], frame
        if instruction.startswith("br\t"):
            yield from ((self.places[label], frame) for label in self.led_to)
        if not END.match(instruction):
            register, above = frame.limit
            is_loop = instruction.startswith("b.ne\t") and f"\tcmp\tsp, {register}" in self.lines[at - 2:at]
            yield at + 1, frame.with_sp(above) if is_loop else after(frame, instruction, self.wanted)

    def told(self) -> Iterator[tuple[int, str]]:
        """The directives that make its table, each with the number of the line before which it stands."""
        old = Frame().told()
        remembered: Frame | None = None
        for at, frame in sorted(self.frames.items()):
            new = frame.told()
            if not is_instruction(self.lines[at]) or new == old:
                continue
            if new == remembered:
                yield at, "restore_state"
                remembered = None
            else:
                if remembered is None and len(new.kept) < len(old.kept):
                    yield at, "remember_state"
                    remembered = old
                yield from ((at, it) for it in changes(old, new))
            old = new

    def with_table(self) -> list[str]:
        """The lines, with the directives."""
        found: dict[int, list[str]] = {}
        for at, directive in self.told():
            found.setdefault(at, []).append(f"\t.cfi_{directive}")
        return ["\t.cfi_startproc", *(line for at, its in enumerate(self.lines) for line in (*found.get(at, ()), its))]


def changes(old: Frame, new: Frame) -> Iterator[str]:
    """The directives that say how a frame differs from the one before."""
    if (old.base, old.above_base) != (new.base, new.above_base):
        yield f"def_cfa {new.base}, {new.above_base}"
    before, now = dict(old.kept), dict(new.kept)
    yield from (f"offset {register}, {place}" for register, place in new.kept if before.get(register) != place)
    yield from (f"restore {register}" for register in before if register not in now)
    if old.is_signed != new.is_signed:
        yield NEGATE_SIGNATURE
