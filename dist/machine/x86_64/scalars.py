"""What x86-64 instructions do to general registers, flags and places in memory.

Sums, exclusive ors, shifts and moves take words of words.py. What sets a flag that is used later, and all other arithmetic, is known
for numbers alone: flags of symbols have no value.
"""

from __future__ import annotations

import re
from typing import TYPE_CHECKING, Callable, Dict, List, Optional, Tuple

import bits
from bits import Some
from fault import Fault, number, some
from flags import FoundFlags, order_holds
from x86_64.operands import RAX, RDX, REGISTERS, Place, general, number_of
from words import Value, Word, add, add_64, and_, high, low, masked_some, or_, pair, ror, shl, shl_64, shr, shr_64, some_of, xor

if TYPE_CHECKING:
    from x86_64.machine import X86, Step

Get = Callable[["X86"], Value]
Put = Callable[["X86", Value], None]

_CONDITIONS: Dict[str, Tuple[str, Callable[[Dict[str, bool]], bool]]] = {
    "o": ("o", lambda f: f["o"]), "no": ("o", lambda f: not f["o"]), "b": ("c", lambda f: f["c"]), "ae": ("c", lambda f: not f["c"]),
    "e": ("z", lambda f: f["z"]), "ne": ("z", lambda f: not f["z"]), "s": ("s", lambda f: f["s"]), "ns": ("s", lambda f: not f["s"]),
    "be": ("cz", lambda f: f["c"] or f["z"]), "a": ("cz", lambda f: not (f["c"] or f["z"])),
    "l": ("so", lambda f: f["s"] != f["o"]), "ge": ("so", lambda f: f["s"] == f["o"]),
    "le": ("zso", lambda f: f["z"] or f["s"] != f["o"]), "g": ("zso", lambda f: not f["z"] and f["s"] == f["o"]),
}
#: The orders of two numbers from 0 on, by conditions.
_ORDERS = {"b": "<", "ae": ">=", "e": "==", "ne": "!=", "be": "<=", "a": ">"}
#: Instructions that change nothing. A prefetch has no address that would be a fault.
_NOTHING = ("nop", "nopw", "nopl", "endbr64", "prefetcht0")


def holds(m: "X86", condition: str) -> bool:
    """Whether a condition holds of the flags, which have to have values."""
    needed, test = _CONDITIONS[condition]
    flags = m.flags
    if isinstance(flags, FoundFlags) and flags.compared and condition in _ORDERS:
        return order_holds(_ORDERS[condition], *flags.compared)
    if flags is None or any(flags[it] is None for it in needed):
        raise Fault("a branch or a choice depends on data, or on a flag that has no value")
    return test(flags)  # type: ignore[arg-type]


def set_flags(m: "X86", result: int, size: int, carry: Optional[bool], overflow: Optional[bool]) -> None:
    m.flags = {"z": result == 0, "s": bool(result >> (8 * size - 1)), "c": carry, "o": overflow}


class Operand:
    """An operand: its size in bytes, and what gets and puts its value."""

    def __init__(self, text: str, following: int, size: Optional[int] = None) -> None:
        value = number_of(text)
        self.put: Optional[Put] = None
        if text in REGISTERS:
            register, self.size = REGISTERS[text]
            self.get: Get = lambda m: m.get(register, self.size)
            self.put = lambda m, it: m.put(register, self.size, it)
        elif value is not None and size:
            self.size, its = size, value & (1 << 8 * size) - 1
            self.get = lambda m: its
        else:
            place = Place(text, following)
            self.size = place.size
            if not self.size:
                raise Fault(f"the operand {text} has no size")
            self.get = lambda m: m.read(place.address(m), self.size)
            self.put = lambda m, it: m.write(place.address(m), self.size, it)
        if size not in (None, self.size):
            raise Fault(f"the operand {text} in the place of {size} bytes")

    def store(self, m: "X86", value: Value) -> None:
        if self.put is None:
            raise Fault("a number can't be written to")
        self.put(m, value)


# ---- Where the code goes on


def _jump(operands: List[str], at: int, following: int) -> "Step":
    if re.match(r"[0-9a-f]+$", operands[0]):
        to = int(operands[0], 16)
        return lambda m: to
    operand = Operand(operands[0], following)
    return lambda m: number(operand.get(m))


def _branch(condition: str, operands: List[str], at: int) -> "Step":
    to = int(operands[0], 16)

    def step(m: "X86") -> Optional[int]:
        is_taken = holds(m, condition)
        m.branches.add((at, is_taken))
        return to if is_taken else None

    return step


def _call(operands: List[str], at: int, following: int) -> "Step":
    to = int(operands[0], 16)

    def step(m: "X86") -> Optional[int]:
        m.enter(following)
        m.push(following)
        return to

    return step


def _return(operands: List[str], at: int, following: int) -> "Step":
    def step(m: "X86") -> Optional[int]:
        to = number(m.pop())
        m.must_have_cleared_vectors()
        m.leave(to)
        return to

    return step


def _trap(operands: List[str], at: int, following: int) -> "Step":
    def step(m: "X86") -> Optional[int]:
        raise Fault("a trap")

    return step


# ---- Moves


def _push(operands: List[str], at: int, following: int) -> "Step":
    operand = Operand(operands[0], following, 8)
    return lambda m: m.push(operand.get(m))


def _pop(operands: List[str], at: int, following: int) -> "Step":
    register = general(operands[0], 8)
    return lambda m: m.put(register, 8, m.pop())


def _move(operands: List[str], at: int, following: int) -> "Step":
    to = Operand(operands[0], following)
    source = Operand(operands[1], following, to.size)
    return lambda m: to.store(m, source.get(m))


def _exchange(operands: List[str], at: int, following: int) -> "Step":
    one, other = Operand(operands[0], following), Operand(operands[1], following)

    def step(m: "X86") -> None:
        first, second = one.get(m), other.get(m)
        one.store(m, second)
        other.store(m, first)

    return step


def _zero_extended(operands: List[str], at: int, following: int) -> "Step":
    to, source = Operand(operands[0], following), Operand(operands[1], following)
    return lambda m: to.store(m, pair(low(source.get(m)), 0) if to.size == 8 else source.get(m))


def _sign_extended(operands: List[str], at: int, following: int) -> "Step":
    to, source = Operand(operands[0], following), Operand(operands[1], following)
    sign, mask, above = 1 << (8 * source.size - 1), (1 << 8 * to.size) - 1, (1 << 8 * source.size)

    def step(m: "X86") -> None:
        value = some(source.get(m))
        if isinstance(value, int):
            to.store(m, ((value ^ sign) - sign) & mask)
        else:
            to.store(m, value if bits.less(value, sign) else bits.add(value, mask + 1 - above))

    return step


def _address(operands: List[str], at: int, following: int) -> "Step":
    """`lea`, which may add data, too."""
    register, size = REGISTERS[operands[0]]
    place = Place(operands[1], following)

    def step(m: "X86") -> None:
        value: Value = place.offset & (1 << 64) - 1
        for part, scale in ((place.base, 1), (place.index, place.scale)):
            if part is not None:
                its = m.general[part]
                value = add_64(value, its if scale == 1 else bits.multiply(some(its), scale))
        m.put(register, size, value if size == 8 else low(value))

    return step


def _choice(condition: str, operands: List[str], following: int) -> "Step":
    to, source = Operand(operands[0], following), Operand(operands[1], following)
    return lambda m: to.store(m, source.get(m) if holds(m, condition) else to.get(m))


def _set(condition: str, operands: List[str], following: int) -> "Step":
    to = Operand(operands[0], following)
    return lambda m: to.store(m, int(holds(m, condition)))


# ---- Arithmetic


def _of_data(name: str, size: int, x: Value, y: Value) -> Value:
    """A sum, or an operation on bits, of values that have symbols."""
    if name == "add" and size >= 4:
        return add_64(x, y) if size == 8 else add(low(x), low(y))
    if name in ("and", "or", "xor"):
        names: Dict[str, Callable[[Word, Word], Word]] = {"and": and_, "or": or_, "xor": lambda one, other: xor(one, other)}
        of_words = names[name]
        return pair(of_words(low(x), low(y)), of_words(high(x), high(y))) if size == 8 else of_words(low(x), low(y))
    raise Fault("arithmetic on data that isn't known")


def _of_numbers(m: "X86", name: str, size: int, x: int, y: int) -> int:
    """The result of two numbers; it sets the flags."""
    mask, sign = (1 << 8 * size) - 1, 1 << (8 * size - 1)
    if name in ("add", "adc"):
        whole = x + y + (name == "adc" and holds(m, "b"))
        set_flags(m, whole & mask, size, whole > mask, bool(~(x ^ y) & (x ^ whole) & sign))
    elif name in ("sub", "cmp", "sbb"):
        whole = x - y - (name == "sbb" and holds(m, "b"))
        set_flags(m, whole & mask, size, whole < 0, bool((x ^ y) & (x ^ whole) & sign))
    else:
        whole = x & y if name in ("and", "test") else x | y if name == "or" else x ^ y
        set_flags(m, whole, size, False, False)
    return whole & mask


def _low(value: Some, size: int) -> Some:
    """A result of 64 bits, of which fewer may count."""
    return bits.low_bits(value, 8 * size)


def _difference(x: Some, y: Some, size: int) -> Some:
    if size == 8:
        return bits.subtract(x, y)
    return bits.add(bits.subtract(x, y), int(bits.less(x, y)) << 8 * size)


def _of_some(m: "X86", name: str, size: int, x: Some, y: Some) -> Some:
    """The result of two numbers of which bits are unknown; it sets the flags."""
    mask = (1 << 8 * size) - 1
    if name in ("cmp", "sub", "sbb"):
        taken = bits.add(y, int(name == "sbb" and holds(m, "b")))
        m.flags = FoundFlags({
            "c": lambda: bits.less(x, taken), "z": lambda: bits.equal(x, taken), "o": lambda: None,
            "s": lambda: _is_negative(_difference(x, taken, size), size),
        }, (x, taken))
        return 0 if name == "cmp" else _difference(x, taken, size)
    if name in ("add", "adc"):
        added = bits.add(y, int(name == "adc" and holds(m, "b")))
        result = _low(bits.add(x, added), size)
        m.flags = FoundFlags({
            "c": lambda: bits.less(bits.subtract(mask, added), x), "z": lambda: bits.is_zero(result), "o": lambda: None,
            "s": lambda: _is_negative(result, size),
        })
        return result
    result = {"and": bits.and_, "test": bits.and_, "or": bits.or_, "xor": bits.xor}[name](x, y)
    m.flags = _flags_of(result, size)
    return result


def _is_negative(value: Some, size: int) -> bool:
    return not bits.less(value, 1 << 8 * size - 1)


def _flags_of(result: Some, size: int) -> FoundFlags:
    """The flags of a result without a carry."""
    return FoundFlags({
        "c": lambda: False, "o": lambda: False, "z": lambda: bits.is_zero(result), "s": lambda: _is_negative(result, size),
    })


def _flags_of_later(result: Callable[[], Some]) -> FoundFlags:
    """The flags of a result below 2^63 that is only found if they are asked for."""
    return FoundFlags({"c": lambda: None, "o": lambda: None, "z": lambda: bits.is_zero(result()), "s": lambda: False})


def _two(name: str, operands: List[str], following: int) -> "Step":
    """An operation on two operands, whose result goes to the first one, unless the operation only compares."""
    to = Operand(operands[0], following)
    source = Operand(operands[1], following, to.size)
    clears = name == "xor" and operands[0] == operands[1] and operands[0] in REGISTERS

    def step(m: "X86") -> None:
        x, y = (0, 0) if clears else (to.get(m), source.get(m))
        if isinstance(x, int) and isinstance(y, int):
            result: Value = _of_numbers(m, name, to.size, x, y)
        else:
            one, other = some_of(x), some_of(y)
            part = masked_some(x, y) if name in ("and", "test") else None
            if one is not None and other is not None:
                result = _of_some(m, name, to.size, one, other)
            elif part is not None:
                m.flags, result = _flags_of(part, to.size), part
            else:
                m.flags = None
                result = 0 if name in ("cmp", "test") else _of_data(name, to.size, x, y)
        if name not in ("cmp", "test"):
            to.store(m, result)

    return step


def _probe(operands: List[str], following: int) -> "Step":
    """`or` of a place and zero, which changes nothing: so Windows sees that a page below the stack pointer is in use."""
    place = Place(operands[0], following)

    def step(m: "X86") -> None:
        m.memory.touch(place.address(m), place.size, True)
        m.flags = None

    return step


def _one_of_some(m: "X86", name: str, size: int, x: Some) -> Some:
    """The result of a number of which bits are unknown; it sets the flags."""
    mask = (1 << 8 * size) - 1
    if name == "not":
        return bits.subtract(mask, x)
    old = m.flags
    if name == "inc":
        result = _low(bits.add(x, 1), size)
    else:
        result = _difference(*((0, x) if name == "neg" else (x, 1)), size)
    m.flags = FoundFlags({
        "c": lambda: not bits.is_zero(x) if name == "neg" else old["c"] if old else None, "o": lambda: None,
        "z": lambda: bits.is_zero(result), "s": lambda: _is_negative(result, size),
    })
    return result


def _one(name: str, operands: List[str], following: int) -> "Step":
    to = Operand(operands[0], following)
    mask, sign = (1 << 8 * to.size) - 1, 1 << (8 * to.size - 1)

    def step(m: "X86") -> None:
        x = some(to.get(m))
        if not isinstance(x, int):
            to.store(m, _one_of_some(m, name, to.size, x))
            return
        result = {"not": ~x, "neg": -x, "inc": x + 1, "dec": x - 1}[name] & mask
        if name == "neg":
            set_flags(m, result, to.size, x != 0, x == sign)
        elif name != "not":
            set_flags(m, result, to.size, m.flags["c"] if m.flags else None, result == sign if name == "inc" else x == sign)
        to.store(m, result)

    return step


def _shift_of_data(name: str, size: int, value: Value, count: int) -> Value:
    if size == 8 and name in ("shl", "shr"):
        return shl_64(value, count) if name == "shl" else shr_64(value, count)
    if size == 4 and name in ("rol", "ror"):
        return ror(low(value), count if name == "ror" else 32 - count)
    if size == 4 and name != "sar":
        return shl(low(value), count) if name == "shl" else shr(low(value), count)
    raise Fault("a shift of data that isn't known")


def _shift_of_number(m: "X86", name: str, size: int, value: int, count: int) -> int:
    """The result; it sets the flags, of which rotations leave none a value here."""
    bits = 8 * size
    mask = (1 << bits) - 1
    if name in ("rol", "ror"):
        m.flags = None
        turn = count % bits if name == "ror" else -count % bits
        return (value >> turn | value << (bits - turn)) & mask
    if name == "shl":
        result, carry = value << count & mask, bool(value << count & (mask + 1))
    else:
        whole = value - (mask + 1) if name == "sar" and value >> (bits - 1) else value
        result, carry = whole >> count & mask, bool(whole >> (count - 1) & 1)
    set_flags(m, result, size, carry, None)
    return result


def _shift_of_some(m: "X86", name: str, size: int, value: Some, count: int) -> Some:
    """The result of a number of which bits are unknown; it sets the flags."""
    if name not in ("shl", "shr", "sar") or name == "sar" and _is_negative(value, size):
        raise Fault("a shift of a number that isn't known")
    result = _low(bits.shift_left(value, count), size) if name == "shl" else bits.shift_right(value, count)
    m.flags = FoundFlags({
        "c": lambda: None if name == "shl" else not bits.is_zero(bits.masked(value, 1 << count - 1)), "o": lambda: None,
        "z": lambda: bits.is_zero(result), "s": lambda: _is_negative(result, size),
    })
    return result


def _shift(name: str, operands: List[str], following: int) -> "Step":
    to = Operand(operands[0], following)
    by_one = len(operands) == 1 or operands[1] == "1"
    by = None if by_one else Operand(operands[1], following, 1)

    def step(m: "X86") -> None:
        count = (number(by.get(m)) if by else 1) & (63 if to.size == 8 else 31)
        value = to.get(m)
        its = some_of(value)
        if isinstance(value, bits.Number) and (name, count) == ("shr", 32):
            to.store(m, shr_64(value, count))
            m.flags = _flags_of_later(lambda: bits.shift_right(some(value), count))
        elif its is not None and not isinstance(its, int):
            to.store(m, _shift_of_some(m, name, to.size, its, count) if count else its)
        elif not isinstance(value, int):
            m.flags = None
            to.store(m, _shift_of_data(name, to.size, value, count))
        else:
            to.store(m, _shift_of_number(m, name, to.size, value, count) if count else value)

    return step


def _product(operands: List[str], at: int, following: int) -> "Step":
    """`imul` with two operands or three."""
    to = Operand(operands[0], following)
    source = Operand(operands[1], following, to.size)
    factor = number_of(operands[2]) if len(operands) == 3 else None

    def step(m: "X86") -> None:
        other = some(to.get(m)) if factor is None else factor
        to.store(m, _low(bits.multiply(some(source.get(m)), other), to.size))
        m.flags = None

    return step


def _wide(name: str, operands: List[str], following: int) -> "Step":
    """`mul` and `div`, whose whole product or dividend is in two registers."""
    operand = Operand(operands[0], following)
    size = operand.size
    if size < 4:
        raise Fault("an operand of less than four bytes")

    def step(m: "X86") -> None:
        x, least, most = number(operand.get(m)), some(m.get(RAX, size)), number(m.get(RDX, size))
        if not isinstance(least, int):
            if name != "div" or most or x & x - 1 or not x:
                raise Fault("a product or a quotient that isn't known")
            least, most = bits.cut(least, x.bit_length() - 1)[::-1]
        elif name == "mul":
            most, least = divmod(x * least, 1 << 8 * size)
        else:
            dividend = most << 8 * size | least
            if x == 0 or dividend // x >> 8 * size:
                raise Fault("a quotient that has no room")
            least, most = divmod(dividend, x)
        m.put(RAX, size, least)
        m.put(RDX, size, most)
        m.flags = None

    return step


def _wide_without_flags(operands: List[str], at: int, following: int) -> "Step":
    """`mulx`: the upper half of the product goes to the first register, and the lower half to the second."""
    upper, lower, source = (Operand(it, following) for it in operands)

    def step(m: "X86") -> None:
        most, least = divmod(number(source.get(m)) * number(m.get(RDX, source.size)), 1 << 8 * source.size)
        lower.store(m, least)
        upper.store(m, most)

    return step


def _shifted_without_flags(operands: List[str], at: int, following: int) -> "Step":
    """`shrx`: a number shifted to the right by the count in the third operand."""
    to, source, count = (Operand(it, following) for it in operands)

    def step(m: "X86") -> None:
        to.store(m, number(source.get(m)) >> number(count.get(m)) % (8 * to.size))

    return step


def _other_order(operands: List[str], at: int, following: int) -> "Step":
    """`bswap`."""
    to = Operand(operands[0], following)
    return lambda m: to.store(m, int.from_bytes(number(to.get(m)).to_bytes(to.size, "little"), "big"))


def _count(name: str, operands: List[str], following: int) -> "Step":
    """`popcnt` and `blsr`."""
    to, source = Operand(operands[0], following), Operand(operands[1], following)

    def step(m: "X86") -> None:
        x = some(source.get(m))
        if name == "popcnt":
            to.store(m, bits.count_ones(x))
            m.flags = FoundFlags({"z": lambda: bits.is_zero(x), "s": lambda: False, "c": lambda: False, "o": lambda: False})
        else:
            is_none = bits.is_zero(x)
            result = 0 if is_none else bits.and_(x, bits.subtract(x, 1))
            to.store(m, result)
            m.flags = FoundFlags({
                "z": lambda: bits.is_zero(result), "s": lambda: _is_negative(result, to.size), "c": lambda: is_none, "o": lambda: False})

    return step


_BY_NAME = {
    "jmp": _jump, "call": _call, "ret": _return, "ud2": _trap, "push": _push, "pop": _pop, "mov": _move, "movabs": _move,
    "xchg": _exchange, "movzx": _zero_extended, "movsx": _sign_extended, "movsxd": _sign_extended, "lea": _address, "imul": _product,
    "mulx": _wide_without_flags, "shrx": _shifted_without_flags, "bswap": _other_order,
}
_GROUPS = {
    _two: ("add", "sub", "cmp", "adc", "sbb", "and", "or", "xor", "test"), _one: ("inc", "dec", "neg", "not"),
    _shift: ("shl", "shr", "sar", "rol", "ror"), _wide: ("mul", "div"), _count: ("popcnt", "blsr"),
}
_GROUP_OF = {name: group for group, names in _GROUPS.items() for name in names}


def decoded(name: str, operands: List[str], at: int, following: int) -> Optional["Step"]:
    """What an instruction does, or None if it isn't known."""
    if name in _NOTHING or (name, operands) == ("xchg", ["ax", "ax"]):
        return lambda m: None
    if name in _BY_NAME:
        return _BY_NAME[name](operands, at, following)
    if name == "or" and "[" in operands[0] and operands[1] == "0x0":
        return _probe(operands, following)
    if name in _GROUP_OF:
        return _GROUP_OF[name](name, operands, following)
    if name.startswith("j") and name[1:] in _CONDITIONS:
        return _branch(name[1:], operands, at)
    if name.startswith("cmov") and name[4:] in _CONDITIONS:
        return _choice(name[4:], operands, following)
    if name.startswith("set") and name[3:] in _CONDITIONS:
        return _set(name[3:], operands, following)
    return None
