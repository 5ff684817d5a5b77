"""What aarch64 instructions do to general registers, flags and places in memory.

Sums, operations on bits, shifts and moves take words of words.py. What sets a flag that is used later, and all other arithmetic, is known
for numbers alone: flags of symbols have no value.
"""

from __future__ import annotations

from typing import TYPE_CHECKING, Callable, Dict, List, Optional, Tuple

import bits
from aarch64.operands import LR, SP, General, Place, is_general, number_of, shifted
from bits import Some
from fault import Fault, number, some
from flags import FoundFlags, order_holds
from words import M64, Value, Word, add, add_64, and_, high, low, masked_some, or_, pair, shl, shl_64, shr, shr_64, some_of, xor

if TYPE_CHECKING:
    from aarch64.machine import Aarch64, Step

_CONDITIONS: Dict[str, Tuple[str, Callable[[Dict[str, bool]], bool]]] = {
    "eq": ("z", lambda f: f["z"]), "ne": ("z", lambda f: not f["z"]), "cs": ("c", lambda f: f["c"]), "cc": ("c", lambda f: not f["c"]),
    "hs": ("c", lambda f: f["c"]), "lo": ("c", lambda f: not f["c"]),
    "mi": ("n", lambda f: f["n"]), "pl": ("n", lambda f: not f["n"]), "vs": ("v", lambda f: f["v"]), "vc": ("v", lambda f: not f["v"]),
    "hi": ("cz", lambda f: f["c"] and not f["z"]), "ls": ("cz", lambda f: not f["c"] or f["z"]),
    "ge": ("nv", lambda f: f["n"] == f["v"]), "lt": ("nv", lambda f: f["n"] != f["v"]),
    "gt": ("nzv", lambda f: not f["z"] and f["n"] == f["v"]), "le": ("nzv", lambda f: f["z"] or f["n"] != f["v"]),
}
#: The orders of two numbers from 0 on, by conditions.
_ORDERS = {"cc": "<", "lo": "<", "cs": ">=", "hs": ">=", "eq": "==", "ne": "!=", "ls": "<=", "hi": ">"}
#: Instructions that do nothing here. At `bti` an indirect jump may arrive.
_NOTHING = ("nop", "bti")
#: Where the signature of an address to return to begins.
_SIGNATURE_BIT = 48


def holds(m: "Aarch64", condition: str) -> bool:
    """Whether a condition holds of the flags, which have to have values."""
    needed, test = _CONDITIONS[condition]
    flags = m.flags
    if isinstance(flags, FoundFlags) and flags.compared and condition in _ORDERS:
        return order_holds(_ORDERS[condition], *flags.compared)
    if flags is None or any(flags[it] is None for it in needed):
        raise Fault("a branch or a choice depends on data")
    return test(flags)  # type: ignore[arg-type]


class Given:
    """The last operands of an instruction as a value: a register or a number, and perhaps a shift."""

    def __init__(self, texts: List[str], size: int) -> None:
        self.shift = texts[1] if len(texts) > 1 else None
        self.register = General(texts[0]) if is_general(texts[0]) else None
        self.number = number_of(texts[0]) & (1 << 8 * size) - 1 if self.register is None else 0
        self.size = size

    def get(self, m: "Aarch64") -> Value:
        return shifted(self.number if self.register is None else self.register.get(m), self.shift, self.size)


# ---- Where the code goes on


def _jump(operands: List[str], at: int) -> "Step":
    to = int(operands[0], 16)
    return lambda m: to


def _jump_to_register(operands: List[str], at: int) -> "Step":
    register = General(operands[0])
    return lambda m: number(register.get(m))


def _return(operands: List[str], at: int) -> "Step":
    register = General(operands[0] if operands else f"x{LR}")

    def step(m: "Aarch64") -> Optional[int]:
        to = number(register.get(m))
        m.leave(to)
        return to

    return step


def _call(operands: List[str], at: int) -> "Step":
    to = int(operands[0], 16)

    def step(m: "Aarch64") -> Optional[int]:
        m.enter(at + 4)
        m.general[LR] = at + 4
        return to

    return step


def _branch(m: "Aarch64", at: int, to: int, is_taken: bool) -> Optional[int]:
    m.branches.add((at, is_taken))
    return to if is_taken else None


def _branch_if(condition: str, operands: List[str], at: int) -> "Step":
    to = int(operands[0], 16)
    return lambda m: _branch(m, at, to, holds(m, condition))


def _branch_if_zero(name: str, operands: List[str], at: int) -> "Step":
    """`cbz` and `cbnz`."""
    register, to = General(operands[0]), int(operands[1], 16)
    return lambda m: _branch(m, at, to, bits.is_zero(some(register.get(m))) == (name == "cbz"))


def _branch_if_bit(name: str, operands: List[str], at: int) -> "Step":
    """`tbz` and `tbnz`."""
    register, bit, to = General(operands[0]), number_of(operands[1]), int(operands[2], 16)
    return lambda m: _branch(m, at, to, bits.is_zero(bits.masked(some(register.get(m)), 1 << bit)) == (name == "tbz"))


def _trap(operands: List[str], at: int) -> "Step":
    def step(m: "Aarch64") -> Optional[int]:
        raise Fault("a trap")

    return step


def _signature(m: "Aarch64") -> int:
    """What an address is signed with here: it is never zero, and differs for two stack pointers that are near each other."""
    return (m.number(SP) >> 4 & 0x7FFF | 0x8000) << _SIGNATURE_BIT


def _sign(operands: List[str], at: int) -> "Step":
    """`paciasp`."""

    def step(m: "Aarch64") -> None:
        if m.number(LR) >> _SIGNATURE_BIT:
            raise Fault("the address to return to is signed already")
        m.general[LR] = m.number(LR) | _signature(m)

    return step


def _check_signature(operands: List[str], at: int) -> "Step":
    """`autiasp`."""

    def step(m: "Aarch64") -> None:
        if m.number(LR) >> _SIGNATURE_BIT << _SIGNATURE_BIT != _signature(m):
            raise Fault("the address to return to wasn't signed here with this stack pointer")
        m.general[LR] = m.number(LR) ^ _signature(m)

    return step


# ---- Moves


def _move(operands: List[str], at: int) -> "Step":
    to = General(operands[0])
    source = Given(operands[1:], to.size)
    return lambda m: to.put(m, source.get(m))


def _move_part(operands: List[str], at: int) -> "Step":
    """`movk`: 16 bits, the others of which stay."""
    to, shift = General(operands[0]), number_of(operands[2].split()[1]) if len(operands) > 2 else 0
    part, mask = number_of(operands[1]) << shift, M64 ^ 0xFFFF << shift
    return lambda m: to.put(m, number(to.get(m)) & mask | part)


def _page(operands: List[str], at: int) -> "Step":
    """`adrp` and `adr`, whose result objdump computes."""
    to, place = General(operands[0]), int(operands[1], 16)
    return lambda m: to.put(m, place)


def _access(name: str, operands: List[str]) -> Optional["Step"]:
    """Loads and stores of general registers, of one or two."""
    kind = name[:2] + name[3:] if name[2] == "u" else name
    known = {"ldr": 0, "str": 0, "ldrb": 1, "strb": 1, "ldrh": 2, "strh": 2, "ldp": 0, "stp": 0}
    if kind not in known or not is_general(operands[0]):
        return None
    count = 2 if kind.endswith("p") else 1
    registers, place = [General(it) for it in operands[:count]], Place(operands[count:])
    size = known[kind] or registers[0].size

    def load(m: "Aarch64") -> None:
        address = place.address(m)
        for i, register in enumerate(registers):
            register.put(m, m.read(address + size * i, size))

    def store(m: "Aarch64") -> None:
        values = [register.get(m) for register in registers]
        address = place.address(m)
        for i, value in enumerate(values):
            m.write(address + size * i, size, value)

    return load if kind.startswith("ld") else store


# ---- Arithmetic


def _sum_of_data(size: int, x: Value, y: Value) -> Value:
    return add_64(x, y) if size == 8 else add(low(x), low(y))


def _added(m: "Aarch64", size: int, x: int, y: int, carry: int, sets: bool) -> int:
    """A sum of numbers, and its flags, if it sets them."""
    mask, sign = (1 << 8 * size) - 1, 1 << (8 * size - 1)
    whole = x + y + carry
    result = whole & mask
    if sets:
        m.flags = {"n": bool(result & sign), "z": result == 0, "c": whole > mask, "v": bool(~(x ^ y) & (x ^ result) & sign)}
    return result


def _low(value: Some, size: int) -> Some:
    """A result of 64 bits, of which fewer may count."""
    return bits.low_bits(value, 8 * size)


def _is_negative(value: Some, size: int) -> bool:
    return not bits.less(value, 1 << 8 * size - 1)


def _added_some(m: "Aarch64", size: int, x: Some, y: Some, subtracts: bool, sets: bool) -> Some:
    """A sum or a difference of numbers of which bits are unknown, and its flags, if it sets them."""
    mask = (1 << 8 * size) - 1
    if subtracts and size < 8:
        result = bits.add(bits.subtract(x, y), int(bits.less(x, y)) << 8 * size)
    else:
        result = _low(bits.add(x, y, -1 if subtracts else 1), size)
    if sets:
        m.flags = FoundFlags({
            "n": lambda: _is_negative(result, size), "z": lambda: bits.is_zero(result), "v": lambda: None,
            "c": lambda: not bits.less(x, y) if subtracts else bits.less(bits.subtract(mask, y), x),
        }, (x, y) if subtracts else None)
    return result


def _add(name: str, operands: List[str]) -> "Step":
    """`add`, `sub`, those that set flags, and those that only compare."""
    to = General(operands[0])
    compares = name in ("cmp", "cmn")
    rest = operands if compares else operands[1:]
    x, y = General(rest[0]), Given(rest[1:], to.size)
    sets, subtracts, mask = compares or name.endswith("s"), name in ("sub", "subs", "cmp"), (1 << 8 * to.size) - 1

    def step(m: "Aarch64") -> None:
        one, other = x.get(m), y.get(m)
        if isinstance(one, int) and isinstance(other, int):
            result: Value = _added(m, to.size, one, other ^ (mask if subtracts else 0), int(subtracts), sets)
        elif some_of(one) is not None and some_of(other) is not None:
            result = _added_some(m, to.size, some(one), some(other), subtracts, sets)
        elif subtracts or sets:
            raise Fault("a difference of data")
        else:
            result = _sum_of_data(to.size, one, other)
        if not compares:
            to.put(m, result)

    return step


def _bits_of_some(name: str, x: Value, y: Value) -> Optional[Some]:
    """What an operation on bits gives for numbers, if they are such. Of a low half of a sum, some bits are a number, too."""
    one, other = some_of(x), some_of(y)
    if one is not None and other is not None:
        return {"orr": bits.or_, "eor": bits.xor}.get(name, bits.and_)(one, other)
    return None if name in ("orr", "eor") else masked_some(x, y)


def _flags_of_bits(found: Some, size: int) -> FoundFlags:
    """The flags of bits that an operation gives."""
    return FoundFlags({"n": lambda: _is_negative(found, size), "z": lambda: bits.is_zero(found), "c": lambda: False, "v": lambda: False})


def _of_bits(name: str, operands: List[str]) -> "Step":
    """`and`, `orr`, `eor`, `bic`, those that set flags, and `tst`."""
    to = General(operands[0])
    rest = operands if name == "tst" else operands[1:]
    x, y = General(rest[0]), Given(rest[1:], to.size)
    sets, mask, sign = name in ("ands", "tst", "bics"), (1 << 8 * to.size) - 1, 1 << (8 * to.size - 1)
    names: Dict[str, Callable[[Word, Word], Word]] = {"orr": or_, "eor": lambda one, other: xor(one, other)}
    of_words = names.get(name, and_)

    def step(m: "Aarch64") -> None:
        one, other = x.get(m), y.get(m)
        if name.startswith("bic"):
            other = number(other) ^ mask
        found = _bits_of_some(name, one, other)
        if found is not None:
            if sets:
                m.flags = _flags_of_bits(found, to.size)
            if name != "tst":
                to.put(m, found)
            return
        result = pair(of_words(low(one), low(other)), of_words(high(one), high(other))) if to.size == 8 else of_words(low(one), low(other))
        if sets:
            its = number(result)
            m.flags = {"n": bool(its & sign), "z": its == 0, "c": False, "v": False}
        if name != "tst":
            to.put(m, result)

    return step


def _not(name: str, operands: List[str]) -> "Step":
    """`mvn` and `neg`."""
    to = General(operands[0])
    source, mask = Given(operands[1:], to.size), (1 << 8 * to.size) - 1
    return lambda m: to.put(m, _low(bits.add(bits.subtract(mask, some(source.get(m))), int(name == "neg")), to.size))


def _shift(name: str, operands: List[str]) -> "Step":
    """`lsl`, `lsr`, `asr` and `ror`, by a number or by a register."""
    to, source = General(operands[0]), General(operands[1])
    by = Given(operands[2:], to.size)
    return lambda m: to.put(m, shifted(source.get(m), f"{name} #{number(by.get(m)) % (8 * to.size)}", to.size))


def _bits(name: str, operands: List[str]) -> "Step":
    """`ubfx` and `ubfiz`: some bits of a register, moved to the lowest place or from there."""
    to, source, start, count = General(operands[0]), General(operands[1]), number_of(operands[2]), number_of(operands[3])
    size = 8 * to.size
    left, right = (size - start - count, size - count) if name == "ubfx" else (size - count, size - count - start)

    def step(m: "Aarch64") -> None:
        value = source.get(m)
        its = some_of(value)
        if its is not None:
            field = bits.low_bits(bits.shift_right(its, start), count) if name == "ubfx" else bits.shift_left(bits.low_bits(its, count), start)
            to.put(m, field)
        elif to.size == 8:
            to.put(m, shr_64(shl_64(value, left), right))
        else:
            to.put(m, shr(shl(low(value), left), right))

    return step


def _product_of_some(name: str, size: int, x: Some, y: Some, z: Some) -> Some:
    """A product or a quotient of numbers of which bits are unknown."""
    if name == "udiv" and isinstance(y, int) and y and y & y - 1 == 0:
        return bits.shift_right(x, y.bit_length() - 1)
    if name in ("mul", "madd", "msub"):
        return _low(bits.add(z, bits.multiply(x, y), -1 if name == "msub" else 1), size)
    raise Fault("a product or a quotient that isn't known")


def _product(name: str, operands: List[str]) -> "Step":
    """`mul`, `madd`, `msub`, `umulh` and `udiv`."""
    to, x, y = (General(it) for it in operands[:3])
    z = General(operands[3]) if len(operands) > 3 else None
    mask = (1 << 8 * to.size) - 1

    def step(m: "Aarch64") -> None:
        one, other, third = some(x.get(m)), some(y.get(m)), some(z.get(m)) if z else 0
        if not (isinstance(one, int) and isinstance(other, int) and isinstance(third, int)):
            to.put(m, _product_of_some(name, to.size, one, other, third))
            return
        results = {"mul": one * other, "madd": third + one * other, "msub": third - one * other, "umulh": one * other >> 64}
        to.put(m, (one // other if other else 0) if name == "udiv" else results[name] & mask)

    return step


def _choice(name: str, operands: List[str]) -> "Step":
    """`csel`, `csinc`, `cinc` and `cset`: one of two values, by a condition, the second one increased for most of them."""
    to, condition = General(operands[0]), operands[-1]
    texts = {"cset": ["wzr" if to.size == 4 else "xzr"] * 2, "cinc": [operands[1]] * 2}.get(name, operands[1:3])
    x, y = General(texts[0]), General(texts[1])
    is_other_way_round = name in ("cset", "cinc")

    def step(m: "Aarch64") -> None:
        if holds(m, condition) != is_other_way_round:
            to.put(m, x.get(m))
        else:
            to.put(m, y.get(m) if name == "csel" else _low(bits.add(some(y.get(m)), 1), to.size))

    return step


def _compare_if(name: str, operands: List[str]) -> "Step":
    """`ccmp`: compares if a condition holds, or else sets the flags to a number."""
    x = General(operands[0])
    y, otherwise, condition, mask = Given(operands[1:2], x.size), number_of(operands[2]), operands[3], (1 << 8 * x.size) - 1

    def step(m: "Aarch64") -> None:
        if holds(m, condition):
            one, other = some(x.get(m)), some(y.get(m))
            if isinstance(one, int) and isinstance(other, int):
                _added(m, x.size, one, other ^ mask, 1, True)
            else:
                _added_some(m, x.size, one, other, True, True)
        else:
            m.flags = {flag: bool(otherwise >> bit & 1) for bit, flag in enumerate("vczn")}

    return step


_BY_NAME: Dict[str, Callable[[List[str], int], "Step"]] = {
    "b": _jump, "bl": _call, "br": _jump_to_register, "ret": _return, "brk": _trap, "udf": _trap,
    "mov": _move, "movk": _move_part, "adrp": _page, "adr": _page, "paciasp": _sign, "autiasp": _check_signature,
}
_GROUPS: Dict[Callable[[str, List[str]], "Step"], Tuple[str, ...]] = {
    _add: ("add", "sub", "adds", "subs", "cmp", "cmn"), _of_bits: ("and", "orr", "eor", "bic", "ands", "bics", "tst"), _not: ("mvn", "neg"),
    _shift: ("lsl", "lsr", "asr", "ror"), _bits: ("ubfx", "ubfiz"), _product: ("mul", "madd", "msub", "umulh", "udiv"),
    _choice: ("csel", "csinc", "cinc", "cset"), _compare_if: ("ccmp",),
}
_GROUP_OF = {name: group for group, names in _GROUPS.items() for name in names}
_BRANCHES: Dict[str, Callable[[str, List[str], int], "Step"]] = {
    "cbz": _branch_if_zero, "cbnz": _branch_if_zero, "tbz": _branch_if_bit, "tbnz": _branch_if_bit,
    **{f"b.{condition}": (lambda its, operands, at: _branch_if(its[2:], operands, at)) for condition in _CONDITIONS},
}


def decoded(name: str, operands: List[str], at: int) -> Optional["Step"]:
    """What an instruction does, or None if it isn't known."""
    if name in _NOTHING:
        return lambda m: None
    if name in _BY_NAME:
        return _BY_NAME[name](operands, at)
    if name in _BRANCHES:
        return _BRANCHES[name](name, operands, at)
    if name in _GROUP_OF:
        return _GROUP_OF[name](name, operands)
    return _access(name, operands) if name.startswith(("ld", "st")) else None
