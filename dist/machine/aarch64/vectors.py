"""What aarch64 instructions do to vector registers (NEON).

A vector is a list of four words, the lowest first. An instruction that writes fewer clears those above.
"""

from __future__ import annotations

import re
from functools import reduce
from typing import TYPE_CHECKING, Any, Callable, Dict, Iterable, List, Optional

from aarch64.operands import General, Place, Vector, is_general, is_vector, number_of
from bits import add as plus, count_ones_of_bytes, low_bits
from fault import Fault, number, some
from words import (
    M32, M64, Word, add, add_64, add_apart, and_, byte, from_bytes, high, low, or_, pair, ror, shl, shl_64, shr, shr_64, xor,
)

if TYPE_CHECKING:
    from aarch64.machine import Aarch64, Step

Words = List[Word]
OfVectors = Callable[..., Words]
ByUnits = Dict[int, OfVectors]
#: The bytes of a word that make a rotation of it, by the number whose bytes they are.
_ROTATIONS = {0x03020100: 0, 0x00030201: 8, 0x01000302: 16, 0x02010003: 24}


def bytes_of(words: Words) -> Words:
    return [byte(word, k) for word in words for k in range(4)]


def words_of_bytes(data: Words) -> Words:
    return [from_bytes(data[i:i + 4]) for i in range(0, len(data), 4)]


def put(m: "Aarch64", vector: Vector, words: Words) -> None:
    """Sets a register, and clears the words above."""
    m.vectors[vector.number] = [*words, *[0] * (4 - len(words))]


def get(m: "Aarch64", vector: Vector) -> Words:
    return m.vectors[vector.number][:max(vector.size // 4, 1)]


# ---- Functions of whole vectors


def _each(f: Callable[..., Any]) -> OfVectors:
    """A function of words, for each word."""
    return lambda *vectors: [f(*words) for words in zip(*vectors)]


def _each_pair(f: Callable[..., Any]) -> OfVectors:
    """A function of values of 64 bits, for each of them."""
    def of_vectors(*vectors: Words) -> Words:
        values = [f(*(pair(it[i], it[i + 1]) for it in vectors)) for i in range(0, len(vectors[0]), 2)]
        return [word for value in values for word in (low(value), high(value))]

    return of_vectors


def _each_byte(f: Callable[..., Any]) -> OfVectors:
    """A function of bytes that are numbers, for each of them."""
    return lambda *vectors: words_of_bytes([f(*map(number, data)) & 255 for data in zip(*map(bytes_of, vectors))])


def _exchanged(of_four: List[int], of_two: List[int], unit: int) -> OfVectors:
    """Units of this many words of two vectors, at places in both of them: those for vectors of four units, or of two."""
    def of_vectors(x: Words, y: Words) -> Words:
        both = [*x, *y]
        return [word for place in (of_four if len(x) == 4 * unit else of_two) for word in both[unit * place:unit * place + unit]]

    return of_vectors


#: Which unit of both vectors comes to which place, for vectors of four units and of two.
_EXCHANGES = {
    "zip1": ([0, 4, 1, 5], [0, 2]), "zip2": ([2, 6, 3, 7], [1, 3]), "uzp1": ([0, 2, 4, 6], [0, 2]), "uzp2": ([1, 3, 5, 7], [1, 3]),
    "trn1": ([0, 4, 2, 6], [0, 2]), "trn2": ([1, 5, 3, 7], [1, 3]),
}


def _selected(bits: Words, x: Words, y: Words) -> Words:
    """The bits of one vector where some bits are set, and those of another where they aren't."""
    return [or_(and_(a, mask), and_(b, xor(mask, M32))) for mask, a, b in zip(bits, x, y)]


def _by_units(of_bytes: Optional[OfVectors], of_words: Optional[OfVectors] = None, of_pairs: Optional[OfVectors] = None) -> ByUnits:
    """Functions of vectors by the size of the elements."""
    found = {1: of_bytes, 4: of_words, 8: of_pairs}
    return {unit: f for unit, f in found.items() if f}


_OF_TWO: Dict[str, ByUnits] = {
    "add": _by_units(_each_byte(lambda x, y: x + y), _each(add), _each_pair(add_64)),
    "cmhi": _by_units(_each_byte(lambda x, y: -(x > y)), _each(lambda x, y: M32 * (number(x) > number(y))),
                      _each_pair(lambda x, y: M64 * (number(x) > number(y)))),
    "sub": _by_units(None, None, _each_pair(lambda x, y: (number(x) - number(y)) & M64)),
    "cmhs": _by_units(_each_byte(lambda x, y: -(x >= y))),
    "cmeq": _by_units(_each_byte(lambda x, y: -(x == y)), _each(lambda x, y: M32 * (number(x) == number(y)))),
    **{name: _by_units(_each(f)) for name, f in {
        "eor": lambda x, y: xor(x, y), "and": and_, "orr": or_, "bic": lambda x, y: and_(x, xor(y, M32)),
    }.items()},
    **{name: _by_units(None, _exchanged(*places, 1), _exchanged(*places, 2)) for name, places in _EXCHANGES.items()},
}
#: Those that also read the register that they write.
_OF_THREE: Dict[str, OfVectors] = {
    "bsl": _selected, "bif": lambda d, n, mask: _selected(mask, d, n), "bit": lambda d, n, mask: _selected(mask, n, d),
}


def _reversed(unit: int, part: int) -> OfVectors:
    """The parts of each unit of this many bytes, in the other order."""
    def f(x: Words) -> Words:
        if part == 4:
            return [word for i in range(0, len(x), 2) for word in (x[i + 1], x[i])]
        if (unit, part) == (4, 2):
            return [ror(word, 16) for word in x]
        data = bytes_of(x)
        units = [data[i:i + unit] for i in range(0, len(data), unit)]
        return words_of_bytes([it for its in units for i in range(unit - part, -1, -part) for it in its[i:i + part]])

    return f


_OF_ONE: Dict[str, ByUnits] = {
    "mov": {1: _each(lambda x: x)}, "mvn": {1: _each(lambda x: xor(x, M32))}, "not": {1: _each(lambda x: xor(x, M32))},
    "rev64": {part: _reversed(8, part) for part in (1, 2, 4)}, "rev32": {part: _reversed(4, part) for part in (1, 2)},
    "cnt": {1: _each(lambda x: low(count_ones_of_bytes(some(x))))},
}


_SHIFTS: Dict[str, Callable[[int], ByUnits]] = {
    "shl": lambda k: _by_units(_each_byte(lambda x: x << k), _each(lambda x: shl(x, k)), _each_pair(lambda x: shl_64(x, k))),
    "ushr": lambda k: _by_units(_each_byte(lambda x: x >> k), _each(lambda x: shr(x, k)), _each_pair(lambda x: shr_64(x, k))),
}


# ---- Instructions by their operands


def _of_two(name: str, operands: List[str]) -> "Step":
    to, x, y = (Vector(it) for it in operands)
    f = _OF_TWO[name].get(to.unit)
    if f is None:
        raise Fault("elements of a size that isn't known")
    if name == "eor" and operands[1] == operands[2]:
        return lambda m: put(m, to, [0] * (to.size // 4))
    return lambda m: put(m, to, f(get(m, x), get(m, y)))  # type: ignore[misc]


def _of_three(name: str, operands: List[str]) -> "Step":
    to, x, y = (Vector(it) for it in operands)
    f = _OF_THREE[name]
    return lambda m: put(m, to, f(get(m, to), get(m, x), get(m, y)))


def _of_one(name: str, operands: List[str]) -> "Step":
    to, x = (Vector(it) for it in operands)
    f = _OF_ONE[name].get(to.unit)
    if f is None or to.element is not None or x.element is not None:
        raise Fault("elements that aren't known")
    return lambda m: put(m, to, f(get(m, x)))  # type: ignore[misc]


def _shift(name: str, operands: List[str]) -> "Step":
    to, x, by = Vector(operands[0]), Vector(operands[1]), number_of(operands[2])
    f = _SHIFTS[name](by)[to.unit]
    return lambda m: put(m, to, f(get(m, x)))


def _shift_and_add(name: str, operands: List[str]) -> "Step":
    """`usra`."""
    to, x, by = Vector(operands[0]), Vector(operands[1]), number_of(operands[2])
    shifted, joined = _SHIFTS["ushr"](by)[to.unit], _each(add_apart) if to.unit == 4 else _OF_TWO["add"][to.unit]
    return lambda m: put(m, to, joined(get(m, to), shifted(get(m, x))))


def _extract(name: str, operands: List[str]) -> "Step":
    """`ext`: bytes of two vectors that follow each other."""
    to, x, y, start = Vector(operands[0]), Vector(operands[1]), Vector(operands[2]), number_of(operands[3])

    def step(m: "Aarch64") -> None:
        both = [*get(m, x), *get(m, y)]
        if start % 4 == 0:
            put(m, to, both[start // 4:start // 4 + to.size // 4])
        else:
            put(m, to, words_of_bytes(bytes_of(both)[start:start + to.size]))

    return step


def _table(name: str, operands: List[str]) -> "Step":
    """`tbl`: bytes at places of one vector. Where it rotates whole words, they needn't be put together of bytes."""
    found = re.match(r"\{(v\d+\.16b)\}$", operands[1])
    if not found:
        raise Fault("a table of more than one vector")
    to, x, places = Vector(operands[0]), Vector(found[1]), Vector(operands[2])

    def step(m: "Aarch64") -> None:
        words = get(m, x)
        put(m, to, [_word_at(words, number(its)) for its in get(m, places)])

    return step


def _word_at(words: Words, places: int) -> Word:
    """The word of the bytes at four places."""
    four = [places >> 8 * k & 255 for k in range(4)]
    turn = _ROTATIONS.get(places & 0x03030303)
    if turn is not None and max(four) < 16 and len({place // 4 for place in four}) == 1:
        return ror(words[four[0] // 4], turn)
    data = [*bytes_of(words), 0]
    return from_bytes([data[min(place, 16)] for place in four])


def _immediate(name: str, operands: List[str]) -> "Step":
    """`movi`."""
    to, value = Vector(operands[0]), number_of(operands[1])
    shift = number_of(operands[2].split()[1]) if len(operands) > 2 else 0
    if to.unit not in (1, 4, 8) or len(operands) > 2 and not operands[2].startswith("lsl"):
        raise Fault("a number of a size that isn't known")
    words: Words = [value * 0x01010101] if to.unit == 1 else [value << shift & M32] if to.unit == 4 else [value & M32, value >> 32 & M32]
    count = max(to.size // 4, len(words))
    return lambda m: put(m, to, words * (count // len(words)))


def _words(text: str) -> Callable[["Aarch64"], Words]:
    """What gives the one word, or the two, of a general register, of an element or of the lowest part of a vector."""
    if is_general(text):
        register = General(text)
        return lambda m: [low(register.get(m)), high(register.get(m))][:register.size // 4]
    vector = Vector(text)
    if vector.unit not in (4, 8):
        raise Fault(f"the element {text}")
    count = vector.unit // 4
    start = count * (vector.element or 0)
    return lambda m: m.vectors[vector.number][start:start + count]


def _move(name: str, operands: List[str]) -> "Step":
    """`mov`, `fmov`, `umov` and `dup` of one element or register."""
    words = _words(operands[1])
    if is_general(operands[0]):
        register = General(operands[0])
        return lambda m: register.put(m, pair(*[*words(m), 0][:2]))
    to = Vector(operands[0])
    if to.unit not in (4, 8):
        raise Fault("an element of a size that isn't known")
    if to.element is None:
        return lambda m: put(m, to, words(m)[:to.unit // 4] * (to.size // to.unit))
    start = to.element * to.unit // 4

    def step(m: "Aarch64") -> None:
        its = list(m.vectors[to.number])
        its[start:start + to.unit // 4] = words(m)[:to.unit // 4]
        m.vectors[to.number] = its

    return step


def _widened(name: str, operands: List[str]) -> "Step":
    """`uxtl` and `shll`, and those of the upper half: words as values of 64 bits, or as their upper halves."""
    to, x = Vector(operands[0]), Vector(operands[1])
    start, is_shifted = 2 * name.endswith("2"), name.startswith("shll")
    if to.unit != 8 or is_shifted and number_of(operands[2]) != 32:
        raise Fault("elements that aren't known")
    return lambda m: put(m, to, [it for word in m.vectors[x.number][start:start + 2] for it in ((0, word) if is_shifted else (word, 0))])


def _narrowed(name: str, operands: List[str]) -> "Step":
    """`xtn` and `addhn`, and those that write the upper half: the lower halves of values of 64 bits, or the upper ones of sums."""
    to, x, y = Vector(operands[0]), Vector(operands[1]), Vector(operands[-1])
    if x.unit != 8:
        raise Fault("elements that aren't known")

    def step(m: "Aarch64") -> None:
        its = _OF_TWO["add"][8](get(m, x), get(m, y))[1::2] if name.startswith("addhn") else get(m, x)[::2]
        put(m, to, [*m.vectors[to.number][:2], *its] if name.endswith("2") else its)

    return step


def _sum_of_bytes(name: str, operands: List[str]) -> "Step":
    """`addv`."""
    to, x = Vector(operands[0]), Vector(operands[1])
    if to.unit != 1:
        raise Fault("elements that aren't known")
    return lambda m: put(m, to, [low(low_bits(reduce(plus, map(some, bytes_of(get(m, x)))), 8))])


# ---- Memory


def _access(name: str, operands: List[str]) -> "Step":
    """`ldr`, `ldur`, `ldp` and the stores."""
    count = 2 if name.endswith("p") else 1
    vectors, place = [Vector(it) for it in operands[:count]], Place(operands[count:])
    size = vectors[0].size

    def load(m: "Aarch64") -> None:
        address = place.address(m)
        for i, vector in enumerate(vectors):
            value = m.memory.load(address + size * i, size // 4) if size >= 4 else [low(m.read(address + size * i, size))]
            put(m, vector, value)

    def store(m: "Aarch64") -> None:
        address = place.address(m)
        for i, vector in enumerate(vectors):
            if size >= 4:
                m.memory.store(address + size * i, m.vectors[vector.number][:size // 4])
            else:
                m.write(address + size * i, size, m.vectors[vector.number][0])

    return load if name.startswith("ld") else store


def _listed(text: str) -> List[Vector]:
    """The vectors of a list in braces, which may be that of an element. Four have only the first and the last one written."""
    if ends := re.match(r"\{v(\d+)(\.\w+)-v(\d+)\2\}$", text):
        return [Vector(f"v{i}{ends[2]}") for i in range(int(ends[1]), int(ends[3]) + 1)]
    found = re.match(r"\{([^}]*)\}(\[\d+\])?$", text)
    if not found:
        raise Fault(f"the operand {text}")
    return [Vector(it.strip() + (found[2] or "")) for it in found[1].split(",")]


def _elements(words: Words, unit: int) -> List[Words]:
    """The elements of vectors: the words of each, or its byte."""
    parts, count = (bytes_of(words), 1) if unit == 1 else (words, unit // 4)
    return [parts[i:i + count] for i in range(0, len(parts), count)]


def _of_elements(elements: Iterable[Words], unit: int) -> Words:
    """The words of vectors with some elements."""
    parts = [part for its in elements for part in its]
    return words_of_bytes(parts) if unit == 1 else parts


def _structure(name: str, operands: List[str]) -> "Step":
    """`ld1`, `ld1r`, `ld2`, `ld4`, `st1` and `st2`: whole vectors, an element, or one that is repeated."""
    vectors, place = _listed(operands[0]), Place(operands[1:])
    first = vectors[0]
    if first.element is not None or name == "ld1r":
        return _of_element(name, first, place)
    size, count = first.size, len(vectors)
    if name in ("ld2", "ld4", "st2") and first.unit not in (1, 4, 8) or name in ("ld1", "st1") and count > 2:
        raise Fault("a structure that isn't known")

    def load(m: "Aarch64") -> None:
        address = place.address(m)
        parts = _elements(m.memory.load(address, count * size // 4), first.unit)
        share = len(parts) // count
        for i, vector in enumerate(vectors):
            its = parts[i::count] if name in ("ld2", "ld4") else parts[share * i:share * i + share]
            put(m, vector, _of_elements(its, first.unit))

    def store(m: "Aarch64") -> None:
        each = [_elements(get(m, vector), first.unit) for vector in vectors]
        elements = [it for both in zip(*each) for it in both] if name == "st2" else [it for its in each for it in its]
        m.memory.store(place.address(m), _of_elements(elements, first.unit))

    return load if name.startswith("ld") else store


def _of_element(name: str, vector: Vector, place: Place) -> "Step":
    """One element, which is loaded, stored, or loaded for all elements."""
    if vector.unit not in (4, 8):
        raise Fault("an element of a size that isn't known")
    count = vector.unit // 4
    start = count * (vector.element or 0)

    def step(m: "Aarch64") -> None:
        address, its = place.address(m), list(m.vectors[vector.number])
        if name == "st1":
            m.memory.store(address, its[start:start + count])
        elif name == "ld1r":
            put(m, vector, m.memory.load(address, count) * (vector.size // vector.unit))
        else:
            its[start:start + count] = m.memory.load(address, count)
            m.vectors[vector.number] = its

    return step


_DECODERS: Dict[str, Callable[[str, List[str]], "Step"]] = {
    **dict.fromkeys(_OF_TWO, _of_two), **dict.fromkeys(_OF_THREE, _of_three), **dict.fromkeys(_OF_ONE, _of_one),
    **dict.fromkeys(_SHIFTS, _shift),
    "usra": _shift_and_add, "ext": _extract, "tbl": _table, "movi": _immediate, **dict.fromkeys(("fmov", "umov", "dup"), _move),
    **dict.fromkeys(("uxtl", "uxtl2", "shll", "shll2"), _widened), **dict.fromkeys(("xtn", "xtn2", "addhn", "addhn2"), _narrowed),
    "addv": _sum_of_bytes, **dict.fromkeys(("ldr", "ldur", "ldp", "str", "stur", "stp"), _access),
    **dict.fromkeys(("ld1", "ld1r", "ld2", "ld4", "st1", "st2"), _structure),
}


def concerns(operands: List[str]) -> bool:
    """Whether an instruction reads or writes vectors."""
    return any(is_vector(it.strip("{}")) or it.startswith("{") for it in operands)


def decoded(name: str, operands: List[str]) -> Optional["Step"]:
    """What an instruction does, or None if it isn't known."""
    if name == "mov" and any(is_general(it) or "[" in it for it in operands):
        return _move(name, operands)
    return _DECODERS[name](name, operands) if name in _DECODERS else None
