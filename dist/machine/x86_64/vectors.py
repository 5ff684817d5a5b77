"""What x86-64 instructions do to vector registers: SSE, AVX and AVX-512 without masks.

A vector is a list of words, the lowest first. `LANE` words are 128 bits, within which many instructions move words.
"""

from __future__ import annotations

from typing import TYPE_CHECKING, Any, Callable, Dict, List, Optional, Tuple

from fault import Fault, number
from x86_64.operands import REGISTERS, Place, Source, few_words_of, general, number_of, value_of, vector_of, words_of
from words import M32, M64, Value, Word, add, add_64, and_, from_bytes, high, low, masked, or_, pair, ror, shl, shl_64, shr, shr_64, xor

if TYPE_CHECKING:
    from x86_64.machine import X86, Step

LANE = 4
Vector = List[Word]
#: A function of two vectors; one of one vector; and what gives such a function for the number in an instruction.
OfTwo = Callable[[Vector, Vector], Vector]
OfOne = Callable[[Vector], Vector]


class Form:
    """An instruction: its name without the `v` of AVX, its operands without a number at the end, and that number."""

    def __init__(self, name: str, operands: List[str], following: int) -> None:
        self.is_avx = name.startswith("v")
        self.name = name[1:] if self.is_avx else name
        self.number = number_of(operands[-1]) if operands else None
        self.operands = operands if self.number is None else operands[:-1]
        self.following = following

    @property
    def immediate(self) -> int:
        if self.number is None:
            raise Fault("a number is missing")
        return self.number

    def register(self, place: int) -> int:
        """The number of the vector register that an operand is."""
        found = vector_of(self.operands[place])
        if not found:
            raise Fault(f"{self.operands[place]} in the place of a vector")
        return found[0]

    def width(self, place: int = 0) -> int:
        """How many words an operand has, which is a vector register."""
        found = vector_of(self.operands[place])
        if not found:
            raise Fault(f"{self.operands[place]} in the place of a vector")
        return found[1]

    def source(self, place: int, width: Optional[int] = None, is_aligned: bool = False) -> Source:
        return words_of(self.operands[place], width or self.width(), self.following, is_aligned)

    def sources(self) -> List[Source]:
        """The last two operands. Before AVX, one of them in memory has to be aligned."""
        return [self.source(-2), self.source(-1, is_aligned=not self.is_avx)]

    def choices(self) -> Tuple[Source, Source, Source]:
        """Two vectors, and the one that chooses from them. Before AVX, the first one is also where the result goes."""
        if self.is_avx:
            return self.source(1), self.source(2), self.source(3)
        return self.source(0), self.source(1, is_aligned=True), self.source(2)

    def into(self, width: int, result: Callable[["X86"], Vector], place: int = 0) -> "Step":
        """Writes a result of this many words to a register. What is above it becomes 0 by AVX, and stays by SSE."""
        register = self.register(place)

        def step(m: "X86") -> None:
            above: Vector = [0] * (16 - width) if self.is_avx else m.vectors[register][width:]
            m.vectors[register] = [*result(m), *above]
            m.has_upper_halves |= width > LANE and register < 16

        return step

    def to_memory(self, count: int, result: Callable[["X86"], Vector], is_aligned: bool = False) -> "Step":
        """Writes a result of this many words to the first operand, a place in memory."""
        place = Place(self.operands[0], self.following).sized(4 * count)
        return lambda m: m.memory.store(place.address(m, 4 * count if is_aligned else 1), result(m))


# ---- Functions of whole vectors


def _each(f: Callable[..., Word]) -> Callable[..., Vector]:
    """A function of words, for each word."""
    return lambda *vectors: [f(*list(words)) for words in zip(*vectors)]


def _each_pair(f: Callable[..., Value]) -> Callable[..., Vector]:
    """A function of values of 64 bits, for each of them."""
    def of_vectors(*vectors: Vector) -> Vector:
        values = [f(*(pair(it[i], it[i + 1]) for it in vectors)) for i in range(0, len(vectors[0]), 2)]
        return [word for value in values for word in (low(value), high(value))]

    return of_vectors


def _each_lane(f: Callable[..., Vector]) -> Callable[..., Vector]:
    """A function of the words of a lane, for each lane."""
    return lambda *vectors: [word for i in range(0, len(vectors[0]), LANE) for word in f(*(it[i:i + LANE] for it in vectors))]


def _signed(value: int, bits: int = 64) -> int:
    return value - (1 << bits) if value >> bits - 1 else value


def _bytes_of(words: Vector) -> Vector:
    return [masked(shr(word, 8 * k), 255) for word in words for k in range(4)]


def _words_of_bytes(data: Vector) -> Vector:
    return [from_bytes(data[i:i + 4]) for i in range(0, len(data), 4)]


def _each_byte(f: Callable[..., Any]) -> Callable[..., Vector]:
    """A function of bytes that are numbers, for each of them."""
    return lambda *vectors: _words_of_bytes([f(*map(number, data)) & 255 for data in zip(*map(_bytes_of, vectors))])


def _byte_signed(x: int) -> int:
    return x - 256 if x >> 7 else x


def _mixed_bytes(half: int) -> Callable[..., Vector]:
    """The bytes of one half of each lane of two vectors, in turns."""
    return _each_lane(lambda a, b: _words_of_bytes([
        it for both in zip(_bytes_of(a[2 * half:2 * half + 2]), _bytes_of(b[2 * half:2 * half + 2])) for it in both]))


@_each_lane
def _shuffled_bytes(words: Vector, places: Vector) -> Vector:
    data = [*_bytes_of(words), 0]
    chosen = [number(k) for k in _bytes_of(places)]
    return _words_of_bytes([data[16 if k & 128 else k & 15] for k in chosen])


#: Bytes of a word that make a rotation of it, by the number whose bytes they are.
_ROTATIONS = {0x03020100: 0, 0x00030201: 8, 0x01000302: 16, 0x02010003: 24}


def _exchanged_bytes(words: Vector, places: Vector) -> Vector:
    """`pshufb`. Where it rotates whole words, they needn't be put together of bytes."""
    found = []
    for i, its in enumerate(places):
        turn = _ROTATIONS.get(number(its) & 0x03030303)
        is_one_word = len({number(its) >> shift & 0xFC for shift in (0, 8, 16, 24)}) == 1
        if turn is None or not is_one_word or number(its) & 0xF0:
            return _shuffled_bytes(words, places)
        found.append(ror(words[i - i % LANE + (number(its) >> 2 & 3)], turn))
    return found


_OF_TWO: Dict[str, OfTwo] = {
    "paddd": _each(add), "paddq": _each_pair(add_64), "psubq": _each_pair(lambda x, y: (number(x) - number(y)) & M64),
    "pmuludq": _each_pair(lambda x, y: number(low(x)) * number(low(y))),
    "pcmpgtq": _each_pair(lambda x, y: M64 * (_signed(number(x)) > _signed(number(y)))),
    "pcmpgtd": _each(lambda x, y: M32 * (_signed(number(x), 32) > _signed(number(y), 32))),
    "pcmpeqd": _each(lambda x, y: M32 if x is y else M32 * (number(x) == number(y))),
    "punpckldq": _each_lane(lambda a, b: [a[0], b[0], a[1], b[1]]), "punpckhdq": _each_lane(lambda a, b: [a[2], b[2], a[3], b[3]]),
    "punpcklqdq": _each_lane(lambda a, b: [*a[:2], *b[:2]]), "punpckhqdq": _each_lane(lambda a, b: [*a[2:], *b[2:]]),
    "pshufb": _exchanged_bytes, "punpcklbw": _mixed_bytes(0), "punpckhbw": _mixed_bytes(1),
    "paddb": _each_byte(lambda x, y: x + y), "pmaxub": _each_byte(max), "pminub": _each_byte(min),
    "pcmpeqb": _each_byte(lambda x, y: -(x == y)), "pcmpgtb": _each_byte(lambda x, y: -(_byte_signed(x) > _byte_signed(y))),
}
_ALIASES = {
    "punpckldq": "unpcklps", "punpckhdq": "unpckhps", "punpcklqdq": "unpcklpd", "punpckhqdq": "unpckhpd",
}
_OF_TWO.update({alias: _OF_TWO[name] for name, alias in _ALIASES.items()})
for _names, _f in (
    ("pxor pxord pxorq xorps xorpd", _each(xor)), ("por pord porq orps orpd", _each(or_)),
    ("pand pandd pandq andps andpd", _each(and_)), ("pandn pandnd pandnq andnps andnpd", _each(lambda x, y: and_(xor(x, M32), y))),
):
    _OF_TWO.update(dict.fromkeys(_names.split(), _f))


def _fours(k: int) -> List[int]:
    """Four places below four, of two bits each."""
    return [k >> 2 * i & 3 for i in range(4)]


def _shufps(k: int) -> OfTwo:
    p = _fours(k)
    return _each_lane(lambda a, b: [a[p[0]], a[p[1]], b[p[2]], b[p[3]]])


def _shufpd(k: int) -> OfTwo:
    def f(a: Vector, b: Vector) -> Vector:
        pairs = [(a, k >> i // 2 & 1, i) if i % LANE == 0 else (b, k >> i // 2 & 1, i - 2) for i in range(0, len(a), 2)]
        return [word for its, half, lane in pairs for word in its[lane + 2 * half:lane + 2 * half + 2]]

    return f


def _blend(unit: int) -> Callable[[int], OfTwo]:
    """Chooses units of this many words by the bits of a number."""
    return lambda k: lambda a, b: [b[i] if k >> i // unit & 1 else a[i] for i in range(len(a))]


def _pblendw(k: int) -> OfTwo:
    def f(a: Vector, b: Vector) -> Vector:
        return _words_of_bytes([y if k >> i // 2 & 1 else x for i, (x, y) in enumerate(zip(_bytes_of(a), _bytes_of(b)))])

    return _each_lane(f)


def _palignr(k: int) -> OfTwo:
    return _each_lane(lambda a, b: _words_of_bytes([*_bytes_of(b), *_bytes_of(a), *[0] * 16][min(k, 32):][:16]))


def _two_lanes(k: int) -> OfTwo:
    def f(a: Vector, b: Vector) -> Vector:
        lanes: List[Vector] = [a[:4], a[4:8], b[:4], b[4:8], [0] * 4]
        return [word for its in (k, k >> 4) for word in lanes[4 if its & 8 else its & 3]]

    return f


def _shuffled_lanes(k: int) -> OfTwo:
    def f(a: Vector, b: Vector) -> Vector:
        count = len(a) // LANE
        bits = count // 2
        chosen = [(a if i < count // 2 else b, k >> bits * i & (count - 1)) for i in range(count)]
        return [word for its, lane in chosen for word in its[LANE * lane:LANE * lane + LANE]]

    return f


def _align(unit: int) -> Callable[[int], OfTwo]:
    return lambda k: lambda a, b: [*b, *a][unit * (k & (len(a) // unit - 1)):][:len(a)]


_OF_TWO_BY_NUMBER: Dict[str, Callable[[int], OfTwo]] = {
    "shufps": _shufps, "shufpd": _shufpd, "blendps": _blend(1), "pblendd": _blend(1), "blendpd": _blend(2), "pblendw": _pblendw,
    "palignr": _palignr, "perm2i128": _two_lanes, "perm2f128": _two_lanes, "alignd": _align(1), "alignq": _align(2),
    **dict.fromkeys(("shufi64x2", "shuff64x2", "shufi32x4", "shuff32x4"), _shuffled_lanes),
}


def _pshufd(k: int) -> OfOne:
    return _each_lane(lambda a: [a[place] for place in _fours(k)])


def _half_words(half: int) -> Callable[[int], OfOne]:
    """Exchanges the four values of 16 bits in one half of each lane."""
    def by_number(k: int) -> OfOne:
        def f(a: Vector) -> Vector:
            data = _bytes_of(a)
            its = data[8 * half:8 * half + 8]
            data[8 * half:8 * half + 8] = [part for place in _fours(k) for part in its[2 * place:2 * place + 2]]
            return _words_of_bytes(data)

        return _each_lane(f)

    return by_number


def _permq(k: int) -> OfOne:
    return lambda a: [word for i in range(0, len(a), 8) for place in _fours(k) for word in a[i + 2 * place:i + 2 * place + 2]]


_OF_ONE_BY_NUMBER: Dict[str, Callable[[int], OfOne]] = {
    "pshufd": _pshufd, "permilps": _pshufd, "pshuflw": _half_words(0), "pshufhw": _half_words(1), "permq": _permq, "permpd": _permq,
    "permilpd": lambda k: lambda a: _shufpd(k)(a, a),
    "prord": lambda k: _each(lambda word: ror(word, k)), "prold": lambda k: _each(lambda word: ror(word, 32 - (k & 31))),
}
_SHIFTS: Dict[str, Callable[[int], OfOne]] = {
    "psrlw": lambda k: _each(lambda word: (number(word) & 0xFFFF) >> k | number(word) >> 16 >> k << 16),
    "psrld": lambda k: _each(lambda word: shr(word, k)), "pslld": lambda k: _each(lambda word: shl(word, k)),
    "psrlq": lambda k: _each_pair(lambda value: shr_64(value, k)), "psllq": lambda k: _each_pair(lambda value: shl_64(value, k)),
    "psrldq": lambda k: _each_lane(lambda a: _words_of_bytes([*_bytes_of(a), *[0] * 16][min(k, 16):][:16])),
    "pslldq": lambda k: _each_lane(lambda a: _words_of_bytes([*[0] * min(k, 16), *_bytes_of(a)][:16])),
}


# ---- Instructions by their operands


def _of_two(it: Form) -> "Step":
    f, (x, y) = _OF_TWO[it.name], it.sources()
    if _OF_TWO[it.name] is _OF_TWO["pxor"] and it.operands[-1] == it.operands[-2]:
        return it.into(it.width(), lambda m: [0] * it.width())
    return it.into(it.width(), lambda m: f(x(m), y(m)))


def _of_two_by_number(it: Form) -> "Step":
    f, (x, y) = _OF_TWO_BY_NUMBER[it.name](it.immediate), it.sources()
    return it.into(it.width(), lambda m: f(x(m), y(m)))


def _of_one_by_number(it: Form) -> "Step":
    f, x = _OF_ONE_BY_NUMBER[it.name](it.immediate), it.source(-1, is_aligned=not it.is_avx)
    return it.into(it.width(), lambda m: f(x(m)))


def _shift(it: Form) -> "Step":
    f, x = _SHIFTS[it.name](it.immediate), it.source(-1)
    return it.into(it.width(), lambda m: f(x(m)))


def _move(it: Form) -> "Step":
    """A whole vector, from or to memory or another register."""
    is_aligned = it.name in _ALIGNED_MOVES
    if vector_of(it.operands[0]):
        x = it.source(1, is_aligned=is_aligned)
        return it.into(it.width(), x)
    width, register = it.width(1), it.register(1)
    return it.to_memory(width, lambda m: m.vectors[register][:width], is_aligned)


def _low_move(it: Form) -> "Step":
    """`movd`, `movq` and the like: the lowest word or two, which clear the others where they come from elsewhere."""
    count = 1 if it.name in ("movd", "movss") else 2
    if not vector_of(it.operands[0]):
        register = it.register(1)
        if it.operands[0] in REGISTERS:
            to = general(it.operands[0], 4 * count)
            return lambda m: m.put(to, 4 * count, value_of(m.vectors[register][:count]))
        return it.to_memory(count, lambda m: m.vectors[register][:count])
    if it.name in ("movss", "movsd") and vector_of(it.operands[-1]):
        x, y = it.source(-2 if len(it.operands) == 3 else 0, LANE), it.source(-1, LANE)
        return it.into(LANE, lambda m: [*y(m)[:count], *x(m)[count:]])
    z = few_words_of(it.operands[-1], count, it.following)
    return it.into(LANE, lambda m: [*z(m), *[0] * (LANE - count)])


def _half_move(it: Form) -> "Step":
    """`movlps`, `movhps` and the like: two words in memory and one half of a register."""
    is_high = it.name.startswith("movh")
    if not vector_of(it.operands[0]):
        register, start = it.register(1), 2 * is_high
        return it.to_memory(2, lambda m: m.vectors[register][start:start + 2])
    other, two = it.source(1 if len(it.operands) == 3 else 0, LANE), few_words_of(it.operands[-1], 2, it.following)
    return it.into(LANE, lambda m: [*other(m)[:2], *two(m)] if is_high else [*two(m), *other(m)[2:]])


def _half_of_each(it: Form) -> "Step":
    """`movlhps` and `movhlps`."""
    x, y = it.source(-2 if len(it.operands) == 3 else 0, LANE), it.source(-1, LANE)
    return it.into(LANE, lambda m: [*x(m)[:2], *y(m)[:2]] if it.name == "movlhps" else [*y(m)[2:], *x(m)[2:]])


def _broadcast(it: Form) -> "Step":
    unit, width = _BROADCASTS[it.name], it.width()
    text = it.operands[1]
    if vector_of(text) or text not in REGISTERS:
        x = words_of(text, unit, it.following)
    else:
        x = few_words_of(text, unit, it.following)
    return it.into(width, lambda m: x(m) * (width // unit))


def _movddup(it: Form) -> "Step":
    """The two lowest words of each lane, twice."""
    if not vector_of(it.operands[1]):
        two = words_of(it.operands[1], 2, it.following)
        if it.width() != LANE:
            raise Fault("more than one lane of memory")
        return it.into(LANE, lambda m: two(m) * 2)
    x = it.source(1)
    return it.into(it.width(), lambda m: [word for i in range(0, it.width(), LANE) for word in x(m)[i:i + 2] * 2])


def _by_places(it: Form) -> "Step":
    """`permd`: words of the last operand, at the places in the one before."""
    places, x = it.sources()
    return it.into(it.width(), lambda m: [x(m)[number(place) & (it.width() - 1)] for place in places(m)])


def _of_both_by_places(it: Form) -> "Step":
    """`permi2d` and `permt2d`, with words or pairs of words: of two vectors, at the places that are in a third. They overwrite the
    places, or the first of both vectors."""
    unit, width, own = 2 if it.name.endswith("q") else 1, it.width(), it.register(0)
    x, y = it.sources()

    def result(m: "X86") -> Vector:
        first, places = m.vectors[own][:width], x(m)
        if it.name.startswith("permi"):
            first, places = places, first
        both = [*first, *y(m)]
        starts = [unit * (number(places[i]) & (2 * width // unit - 1)) for i in range(0, width, unit)]
        return [word for start in starts for word in both[start:start + unit]]

    return it.into(width, result)


def _insert(it: Form) -> "Step":
    """Puts a part of 128 or 256 bits into a vector."""
    unit, width = _part(it.name), it.width()
    start = unit * (it.immediate & (width // unit - 1))
    x, y = it.source(1), it.source(2, unit)
    return it.into(width, lambda m: [*x(m)[:start], *y(m), *x(m)[start + unit:]])


def _extract(it: Form) -> "Step":
    """Takes a part of 128 or 256 bits of a vector."""
    unit = _part(it.name)
    start = unit * (it.immediate & (it.width(1) // unit - 1))
    register = it.register(1)
    if vector_of(it.operands[0]):
        return it.into(unit, lambda m: m.vectors[register][start:start + unit])
    return it.to_memory(unit, lambda m: m.vectors[register][start:start + unit])


def _part(name: str) -> int:
    return 8 if name.endswith("64x4") else LANE


def _insertps(it: Form) -> "Step":
    k, other = it.immediate, it.source(1 if len(it.operands) == 3 else 0, LANE)
    is_register = vector_of(it.operands[-1])
    source = it.source(-1, LANE) if is_register else few_words_of(it.operands[-1], 1, it.following)

    def result(m: "X86") -> Vector:
        words = list(other(m))
        words[k >> 4 & 3] = source(m)[k >> 6 & 3 if is_register else 0]
        return [0 if k >> i & 1 else words[i] for i in range(LANE)]

    return it.into(LANE, result)


def _insert_words(it: Form) -> "Step":
    """`pinsrd` and `pinsrq`."""
    unit = 1 if it.name == "pinsrd" else 2
    start = unit * (it.immediate & (LANE // unit - 1))
    other, source = it.source(1 if len(it.operands) == 3 else 0, LANE), few_words_of(it.operands[-1], unit, it.following)
    return it.into(LANE, lambda m: [*other(m)[:start], *source(m), *other(m)[start + unit:]])


def _extract_words(it: Form) -> "Step":
    """`pextrd`, `pextrq` and `extractps`."""
    unit, register = 2 if it.name == "pextrq" else 1, it.register(1)
    start = unit * (it.immediate & (LANE // unit - 1))
    if it.operands[0] in REGISTERS:
        to, size = REGISTERS[it.operands[0]]
        if size < 4 * unit:
            raise Fault("a register that is too small")
        return lambda m: m.put(to, size, value_of([*m.vectors[register][start:start + unit], 0][:size // 4]))
    return it.to_memory(unit, lambda m: m.vectors[register][start:start + unit])


def _narrowed(it: Form) -> "Step":
    """`pmovqd`: the low word of each pair."""
    width, register = it.width(1), it.register(1)
    if not vector_of(it.operands[0]):
        return it.to_memory(width // 2, lambda m: m.vectors[register][:width:2])
    return it.into(max(width // 2, LANE), lambda m: [*m.vectors[register][:width:2], *[0] * (LANE - width // 2)])


def _widened(it: Form) -> "Step":
    """`pmovzxdq`: each word, and a 0 above it."""
    width = it.width()
    x = words_of(it.operands[1], width // 2, it.following)
    return it.into(width, lambda m: [word for its in x(m) for word in (its, 0)])


def _blend_by_signs(it: Form) -> "Step":
    """`blendvps` and `blendvpd`, whose choices are numbers."""
    unit = 1 if it.name == "blendvps" else 2
    x, y, signs = it.choices()

    def result(m: "X86") -> Vector:
        chosen = [number(sign) >> 31 for sign in signs(m)[unit - 1::unit]]
        return [b if chosen[i // unit] else a for i, (a, b) in enumerate(zip(x(m), y(m)))]

    return it.into(it.width(), result)


def _blend_bytes(it: Form) -> "Step":
    """`pblendvb`, whose choices are numbers."""
    x, y, signs = it.choices()

    def result(m: "X86") -> Vector:
        chosen = [number(sign) >> 7 for sign in _bytes_of(signs(m))]
        return _words_of_bytes([b if its else a for its, a, b in zip(chosen, _bytes_of(x(m)), _bytes_of(y(m)))])

    return it.into(it.width(), result)


def _of_three(it: Form) -> "Step":
    """`pternlogd`, as an exclusive or of three vectors."""
    if it.immediate != 0x96:
        raise Fault("a function of three bits that isn't known")
    own, (x, y) = it.source(0), it.sources()
    return it.into(it.width(), lambda m: [xor(*words) for words in zip(own(m), x(m), y(m))])


def _clear_above(it: Form) -> "Step":
    """`vzeroupper`."""
    def step(m: "X86") -> None:
        m.vectors[:16] = [[*words[:LANE], *[0] * 12] for words in m.vectors[:16]]
        m.has_upper_halves = False

    return step


_ALIGNED_MOVES = frozenset("movdqa movaps movapd movdqa32 movdqa64".split())
_BROADCASTS = {
    "pbroadcastd": 1, "broadcastss": 1, "pbroadcastq": 2, "broadcastsd": 2, "broadcasti64x4": 8, "broadcastf64x4": 8,
    **dict.fromkeys("broadcasti128 broadcastf128 broadcastf32x4 broadcasti32x4 broadcastf64x2 broadcasti64x2".split(), 4),
}
_DECODERS: Dict[str, Callable[[Form], "Step"]] = {
    **dict.fromkeys(_OF_TWO, _of_two), **dict.fromkeys(_OF_TWO_BY_NUMBER, _of_two_by_number),
    **dict.fromkeys(_OF_ONE_BY_NUMBER, _of_one_by_number), **dict.fromkeys(_SHIFTS, _shift), **dict.fromkeys(_BROADCASTS, _broadcast),
    **dict.fromkeys([*_ALIGNED_MOVES, *"movdqu movups movupd movdqu32 movdqu64 lddqu".split()], _move),
    **dict.fromkeys("movd movq movss movsd".split(), _low_move), **dict.fromkeys("movlps movlpd movhps movhpd".split(), _half_move),
    **dict.fromkeys(("movlhps", "movhlps"), _half_of_each), **dict.fromkeys(("permd", "permps"), _by_places), "movddup": _movddup,
    **dict.fromkeys("permi2d permi2ps permt2d permt2ps permi2q permt2q".split(), _of_both_by_places),
    **dict.fromkeys([f"insert{kind}" for kind in "i128 f128 i64x4 f64x4 i32x4 f32x4 i64x2 f64x2".split()], _insert),
    **dict.fromkeys([f"extract{kind}" for kind in "i128 f128 i64x4 f64x4 i32x4 f32x4 i64x2 f64x2".split()], _extract),
    "insertps": _insertps, **dict.fromkeys(("pinsrd", "pinsrq"), _insert_words), "zeroupper": _clear_above,
    **dict.fromkeys(("pextrd", "pextrq", "extractps"), _extract_words), "pmovqd": _narrowed, "pmovzxdq": _widened,
    **dict.fromkeys(("blendvps", "blendvpd"), _blend_by_signs), "pblendvb": _blend_bytes,
    **dict.fromkeys(("pternlogd", "pternlogq"), _of_three),
}


def decoded(name: str, operands: List[str], following: int) -> Optional["Step"]:
    """What an instruction does, or None if it isn't known."""
    if any("{" in it and "{1to" not in it for it in operands):
        raise Fault("a mask")
    it = Form(name, operands, following)
    return _DECODERS[it.name](it) if it.name in _DECODERS else None
