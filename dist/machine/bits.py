"""Numbers of 64 bits of which only some bits are known: lengths, counts, the numbers of chunks and of blocks.

A `Number` is a constant and a sum of unknown bits, each with a factor, modulo 2^64. Two that are the same number for every choice of the
bits are one object. Sums, differences, products with numbers, and shifts and masks are such sums again; of the bits that a population
count adds up, one by one or in parallel, it is the plain sum. What isn't such a sum, or depends on the bits, as a branch may, raises a
`Split`: explore.py then goes on for each answer to its question.

A `Class` is what is known of the bits: some of them, how many of some others are set, and lists of which one holds. Each unknown bit also
has a value that fits the class, and so each Number has a number, by which its arithmetic is checked as that of words.py is.
"""

from __future__ import annotations

import random
from typing import Dict, FrozenSet, Iterable, List, Optional, Tuple, Union

M32 = 0xFFFFFFFF
M64 = 0xFFFFFFFFFFFFFFFF

_DRAWS = random.Random(3)

#: A question about a number: which value a bit has; how many of some bits are set; or whether any of a list holds, where b says that bit b
#: is set, and ~b that it isn't.
Question = Union[int, FrozenSet[int], Tuple[int, ...]]
#: Answers to questions, in the order in which they were asked.
Answers = Tuple[Tuple[Question, int], ...]
#: The factors of bits, and the same as a set.
Factors = Dict[int, int]
Items = FrozenSet[Tuple[int, int]]


class Split(Exception):
    """What is done next depends on the answer to a question."""

    def __init__(self, question: Question) -> None:
        super().__init__("what is done next depends on bits that aren't known")
        self.question = question


class Impossible(Exception):
    """No number has these answers."""


class Beyond(Exception):
    """No number with these answers is one for which something is promised."""


def bit_of(said: int) -> int:
    """The bit of which b or ~b says something."""
    return said if said >= 0 else ~said


class Class:
    """What is known of bits: the values of some, how many of some others are set, and of which lists at least one holds."""

    def __init__(self, answers: Answers) -> None:
        self.answers = answers
        self.known: Dict[int, int] = {}
        self.sums: List[Tuple[FrozenSet[int], int]] = []
        self.any: List[FrozenSet[int]] = []
        for question, answer in answers:
            if isinstance(question, int):
                self._know(question, answer)
            elif isinstance(question, frozenset):
                self.sums.append((question, answer))
            elif answer:
                self.any.append(frozenset(question))
            else:
                for said in question:
                    self._know(bit_of(said), int(said < 0))
        while any([*map(self._reduce, range(len(self.sums))), self._reduce_any()]):
            pass
        self.sums = [its for its in self.sums if its[0]]
        # A list with all of another one says nothing more.
        self.any = [its for i, its in enumerate(self.any) if not any(other < its or other == its and i > k for k, other in enumerate(self.any))]
        self.values: Dict[int, int] = {}
        self._choose()

    def _know(self, bit: int, value: int) -> None:
        if self.known.setdefault(bit, value) != value:
            raise Impossible("a bit has two values")

    def _reduce(self, i: int) -> bool:
        """Takes the known bits from a sum. Returns whether others have become known."""
        its, count = self.sums[i]
        left = frozenset(bit for bit in its if bit not in self.known)
        count -= sum(self.known[bit] for bit in its if bit in self.known)
        if not 0 <= count <= len(left):
            raise Impossible("no number has so many bits set")
        self.sums[i] = left, count
        if not left or 0 < count < len(left):
            return False
        for bit in left:
            self._know(bit, int(count > 0))
        return True

    def _reduce_any(self) -> bool:
        """Takes the known bits from the lists of which one holds. Returns whether others have become known."""
        left = [frozenset(said for said in its if bit_of(said) not in self.known) for its in self.any if not self._one_holds(its, self.known)]
        self.any = [its for its in left if len(its) > 1]
        if not all(left):
            raise Impossible("none of a list holds")
        for its in left:
            if len(its) == 1:
                self._know(bit_of(min(its)), int(min(its) >= 0))
        return len(self.any) < len(left)

    @staticmethod
    def _one_holds(its: Iterable[int], values: Dict[int, int]) -> bool:
        """Whether one of a list holds for some values of bits."""
        return any(values.get(bit_of(said)) == int(said >= 0) for said in its)

    def _choose(self) -> None:
        """Gives the bits that are in sums or lists values that fit."""
        for _ in range(1000):
            self.values = dict(self.known)
            for its, count in self.sums:
                chosen = _DRAWS.sample(sorted(its), count)
                self.values.update({bit: int(bit in chosen) for bit in its})
            for its in self.any:
                for said in its:
                    self.value(bit_of(said))
                if not self._one_holds(its, self.values):
                    chosen_one = _DRAWS.choice(sorted(its))
                    self.values[bit_of(chosen_one)] = int(chosen_one >= 0)
            if all(sum(map(self.value, its)) == count for its, count in self.sums) and all(
                    self._one_holds(its, self.values) for its in self.any):
                return
        raise AssertionError("no number is found that has these answers")

    def value(self, bit: int) -> int:
        """The value that an unknown bit has among the numbers by which arithmetic is checked."""
        if bit not in self.values:
            self.values[bit] = _DRAWS.getrandbits(1)
        return self.values[bit]


class Number:
    """A constant and a sum of unknown bits with factors, and the number that it has for the values of these bits."""

    __slots__ = ("constant", "factors", "items", "number", "_span")

    def __init__(self, constant: int, factors: Factors, items: Items, number: int) -> None:
        self.constant, self.factors, self.items, self.number = constant, factors, items, number
        self._span: Optional[Tuple[int, int]] = None

    def __repr__(self) -> str:
        its = [f"{factor:#x} * bit {bit}" for bit, factor in sorted(self.factors.items())]
        return f"({self.constant:#x} + {' + '.join(its[:3] + ['..'] * (len(its) > 3))})"


#: A number, of which bits may be unknown.
Some = Union[int, Number]

_class = Class(())
_numbers: Dict[Tuple[int, Items], Number] = {}


def begin(its: Class) -> None:
    """Makes this the class of all Numbers from now on. Those of another class must not be used again."""
    global _class
    if its is not _class:
        _class = its
        _numbers.clear()


def number_of(value: Some) -> int:
    """The number that a value has for the values of the bits."""
    return value.number if isinstance(value, Number) else value


def variable(first: int, count: int) -> Some:
    """The number of some bits, the lowest of which is bit `first`."""
    return _made(0, {first + i: 1 << i for i in range(count)})


def _made(constant: int, factors: Factors) -> Some:
    """The one Number with these parts."""
    left: Factors = {}
    for bit, factor in factors.items():
        factor &= M64
        if bit in _class.known:
            constant += factor * _class.known[bit]
        elif factor:
            left[bit] = factor
    added, left = _without_sums(left)
    constant = constant + added & M64
    if not left:
        return constant
    items = frozenset(left.items())
    found = _numbers.get((constant, items))
    if found is None:
        number = constant + sum(factor * _class.value(bit) for bit, factor in left.items()) & M64
        found = _numbers[constant, items] = Number(constant, left, items, number)
    return found


def _without_sums(factors: Factors) -> Tuple[int, Factors]:
    """What bits add together of which it is known how many are set, and the factors of the others."""
    constant = 0
    for bits, count in _class.sums:
        if len(factors) >= len(bits):
            its = {factors.get(bit, 0) for bit in bits}
            if len(its) == 1 and 0 not in its:
                constant += its.pop() * count
                factors = {bit: factor for bit, factor in factors.items() if bit not in bits}
    return constant, factors


def _with_constant(value: Number, constant: int) -> Number:
    """The one Number with the same bits and another constant."""
    found = _numbers.get((constant, value.items))
    if found is None:
        number = value.number - value.constant + constant & M64
        found = _numbers[constant, value.items] = Number(constant, value.factors, value.items, number)
    return found


def _checked(result: Some, plain: int) -> Some:
    """A result, which must have the number that plain arithmetic gives."""
    if number_of(result) != plain & M64:
        raise AssertionError(f"arithmetic of numbers gives {result!r}, not {plain:#x}")
    return result


def _parts(value: Some) -> Tuple[int, Factors]:
    return (value.constant, value.factors) if isinstance(value, Number) else (value, {})


# ---- Sums and products


def add(x: Some, y: Some, times: int = 1) -> Some:
    """x + times * y."""
    if isinstance(y, int) and isinstance(x, int):
        return x + times * y & M64
    if isinstance(y, int) and isinstance(x, Number):
        return _checked(_with_constant(x, x.constant + times * y & M64), x.number + times * y)
    (constant, factors), (other, others) = _parts(x), _parts(y)
    joined = dict(factors)
    for bit, factor in others.items():
        joined[bit] = joined.get(bit, 0) + times * factor
    return _checked(_made(constant + times * other, joined), number_of(x) + times * number_of(y))


def subtract(x: Some, y: Some) -> Some:
    return add(x, y, -1)


def multiply(x: Some, y: Some) -> Some:
    """A product, of which one must be known."""
    if isinstance(x, Number) and isinstance(y, Number):
        raise Split(_greatest(min(x, y, key=lambda it: len(it.factors)).factors))
    if isinstance(x, int):
        x, y = y, x
    return add(0, x, number_of(y)) if isinstance(x, Number) else x * number_of(y) & M64


# ---- What a value may be


def _signed(factor: int) -> int:
    return factor if factor <= 1 << 63 else factor - (1 << 64)


def _greatest(factors: Factors) -> Question:
    """The bit that makes the most difference; or how many bits are set, if several make the same, as in a population count, or in the sum of
    two numbers."""
    sizes = {bit: (abs(_signed(factor)), factor) for bit, factor in factors.items() if factor}
    its = [bit for bit, size in sizes.items() if size == max(sizes.values())]
    return frozenset(its) if len(its) > 1 else its[0]


def _signed_factors(value: Some) -> Factors:
    return {bit: _signed(factor) for bit, factor in _parts(value)[1].items()}


def _moved(factors: Factors, sign: int) -> int:
    """How much more than the least (or less than the most, for the sign -1) a sum of bits is, because one of a list holds."""
    most = 0
    for its in _class.any:
        least: Optional[int] = None
        for said in its:
            factor = factors.get(said, 0) if said >= 0 else -factors.get(~said, 0)
            if factor * sign <= 0:
                break
            least = factor * sign if least is None else min(least, factor * sign)
        else:
            most = max(most, least or 0)
    return most


def _sum_bounds(constant: int, factors: Factors) -> Tuple[int, int]:
    """The least and the most that a sum may be, whose factors may be negative, whatever the lists say."""
    return constant + sum(its for its in factors.values() if its < 0), constant + sum(its for its in factors.values() if its > 0)


def _sum_span(constant: int, factors: Factors) -> Tuple[int, int]:
    """The least and the most that a sum may be, whose factors may be negative."""
    least, most = _sum_bounds(constant, factors)
    return least + _moved(factors, 1), most - _moved(factors, -1)


def _span(value: Number) -> Tuple[int, int]:
    """The least and the most that a value may be, as a sum that may pass 2^64, or be negative."""
    if value._span is None:
        value._span = _sum_span(value.constant, _signed_factors(value))
    return value._span


def span(value: Some) -> Optional[Tuple[int, int]]:
    """The least and the most that a value may be. None, if it passes 2^64 for some bits, and not for others."""
    if not isinstance(value, Number):
        return value, value
    least, most = _span(value)
    if least >> 64 != most >> 64:
        return None
    return least & M64, most & M64


def must_span(value: Some) -> Tuple[int, int]:
    """The same of a value for which it must be known."""
    found = span(value)
    if found is None:
        assert isinstance(value, Number)
        factors = _signed_factors(value)
        _ask_whether_moved(factors, -1, _sum_bounds(value.constant, factors)[1] & M64)
        raise Split(_greatest(value.factors))
    return found


def less(x: Some, y: Some) -> bool:
    """Whether x < y, as numbers from 0 on."""
    (least_x, most_x), (least_y, most_y) = must_span(x), must_span(y)
    if most_x < least_y:
        return _told(True, x, y)
    if least_x >= most_y:
        return _told(False, x, y)
    factors, others = _signed_factors(x), _signed_factors(y)
    constant = _constant(x, most_x, factors) - _constant(y, most_y, others)
    for bit, factor in others.items():
        factors[bit] = factors.get(bit, 0) - factor
    added, factors = _without_sums(factors)
    least, most = _sum_span(constant + added, factors)
    if most < 0:
        return _told(True, x, y)
    if least >= 0:
        return _told(False, x, y)
    least, most = _sum_bounds(constant + added, factors)
    _ask_whether_moved(factors, 1, -least - 1)
    _ask_whether_moved(factors, -1, most)
    raise Split(_greatest(factors))


def _ask_whether_moved(factors: Factors, sign: int, enough: int) -> None:
    """Asks whether a bit is other than in the least sum (the most, for the sign -1), of those each of which alone makes it differ from
    that by more than something."""
    _ask_any(bit if factor * sign > 0 else ~bit for bit, factor in factors.items() if abs(factor) > enough)


def _ask_any(said: Iterable[int]) -> None:
    """Asks whether any of a list holds, if it has more than one, and that isn't known."""
    its = tuple(sorted(said))
    if len(its) > 1 and not any(known <= set(its) for known in _class.any):
        raise Split(its)


def _constant(value: Some, most: int, factors: Factors) -> int:
    """The constant of a value, as a sum that doesn't pass 2^64."""
    if not isinstance(value, Number):
        return value
    return value.constant - (_span(value)[1] - most)


def _told(answer: bool, x: Some, y: Some) -> bool:
    if answer != (number_of(x) < number_of(y)):
        raise AssertionError(f"{x!r} < {y!r} isn't {answer}")
    return answer


def is_zero(value: Some) -> bool:
    """Whether a value is 0."""
    if not isinstance(value, Number):
        return value == 0
    unit = min(factor & -factor for factor in value.factors.values())
    bounds = span(value)
    if value.constant & unit - 1 or bounds and bounds[0] > 0:
        if value.number == 0:
            raise AssertionError(f"{value!r} isn't 0")
        return False
    factors = _signed_factors(value)
    least, most = _sum_bounds(value.constant, factors)
    if most - least < 1 << 64:
        for bound, sign in ((least, 1), (most, -1)):
            if bound & M64 == 0:
                _ask_whether_moved(factors, sign, 0)
    raise Split(_greatest(value.factors))


def equal(x: Some, y: Some) -> bool:
    return x is y or is_zero(subtract(x, y))


# ---- Parts of a value


def _at_place(value: Number, place: int) -> Tuple[int, Factors, Factors]:
    """The part of a value below a place, as a constant and factors, and the factors of the part from there on."""
    unit = 1 << place
    lower: Factors = {}
    upper: Factors = {}
    for bit, factor in value.factors.items():
        its = _signed(factor)
        if its > 0:
            lower[bit], upper[bit] = its & unit - 1, its >> place
        elif its % unit == 0:
            upper[bit] = its >> place
        else:
            lower[bit] = its
    lower, upper = ({bit: factor for bit, factor in its.items() if factor} for its in (lower, upper))
    constant = _signed(value.constant) % unit
    for below in (constant, constant - unit):
        least, most = _sum_span(below, lower)
        if 0 <= least and most < unit:
            return below, lower, upper
    for below in (constant, constant - unit):
        least, most = _sum_bounds(below, lower)
        if least >= 0:
            _ask_whether_moved(lower, -1, most - unit)
        if most < unit:
            _ask_whether_moved(lower, 1, -least - 1)
    raise Split(_greatest(lower or value.factors))


def cut(value: Some, place: int) -> Tuple[Some, Some]:
    """The bits of a value below a place, and those from there on."""
    if not isinstance(value, Number):
        return value & (1 << place) - 1, value >> place
    if place >= 64:
        return value, 0
    below, lower, upper = _at_place(value, place)
    above = _signed(value.constant) - below >> place
    least, most = _sum_span(above, upper)
    for turn in (0, 1 << 64 - place):
        if 0 <= least + turn and most + turn < 1 << 64 - place:
            return (_checked(_made(below, lower), value.number % (1 << place)), _checked(_made(above + turn, upper), value.number >> place))
    raise Split(_greatest(value.factors))


def shift_right(value: Some, count: int) -> Some:
    return cut(value, count)[1]


def shift_left(value: Some, count: int) -> Some:
    return multiply(value, 1 << count)


def low_bits(value: Some, count: int) -> Some:
    """The value modulo 2^count."""
    if count >= 64:
        return value
    if not isinstance(value, Number):
        return value & (1 << count) - 1
    below, lower, _ = _at_place(value, count)
    return _checked(_made(below, lower), value.number % (1 << count))


def masked(value: Some, mask: int) -> Some:
    """The bits of a value that a number has, too."""
    if not isinstance(value, Number):
        return value & mask
    found: Some = 0
    place, plain = 0, value.number & mask
    left = low_bits(value, mask.bit_length())
    while mask >> place and not (isinstance(left, int) and left == 0):
        # A run of bits that count, or don't, from this place on.
        is_in = mask >> place & 1
        end = place
        while end < 64 and mask >> end & 1 == is_in:
            end += 1
        below, left = cut(left, end - place)
        if is_in:
            found = add(found, shift_left(below, place))
        place = end
    return _checked(found, plain)


def _bits(value: Some) -> Tuple[Dict[int, int], int]:
    """Which unknown bit stands at which place of a value, and the other bits. Each place has one bit at most."""
    if not isinstance(value, Number):
        return {}, value
    places = {factor.bit_length() - 1: bit for bit, factor in value.factors.items() if factor & factor - 1 == 0}
    if len(places) < len(value.factors) or any(value.constant >> place & 1 for place in places):
        lowest = {bit: factor & -factor for bit, factor in value.factors.items()}
        raise Split(min(lowest, key=lambda bit: (lowest[bit], bit)))
    return places, value.constant


def and_(x: Some, y: Some) -> Some:
    """The bits that both have."""
    if x is y:
        return x
    if isinstance(x, int):
        return masked(y, x)
    if isinstance(y, int):
        return masked(x, y)
    (bits, constant), (others, other) = _bits(x), _bits(y)
    both: Factors = {}
    for place in {*bits, *others}:
        one, two = bits.get(place), others.get(place)
        if one is not None and two is not None and one != two:
            raise Split(one)
        bit, is_set = (one, True) if one == two else (one, other >> place & 1) if two is None else (two, constant >> place & 1)
        if is_set:
            assert bit is not None
            both[bit] = both.get(bit, 0) + (1 << place)
    return _checked(_made(constant & other, both), number_of(x) & number_of(y))


def or_(x: Some, y: Some) -> Some:
    return _checked(subtract(add(x, y), and_(x, y)), number_of(x) | number_of(y))


def xor(x: Some, y: Some) -> Some:
    return _checked(add(add(x, y), and_(x, y), -2), number_of(x) ^ number_of(y))


def count_ones(value: Some) -> Some:
    """How many bits are set."""
    places, constant = _bits(value)
    factors: Factors = {}
    for bit in places.values():
        factors[bit] = factors.get(bit, 0) + 1
    return _checked(_made(bin(constant).count("1"), factors), bin(number_of(value)).count("1"))


def count_ones_of_bytes(value: Some) -> Some:
    """How many bits of each byte are set, in this byte."""
    places, constant = _bits(value)
    factors: Factors = {}
    for place, bit in places.items():
        factors[bit] = factors.get(bit, 0) + (1 << place // 8 * 8)
    return _made(sum(bin(constant >> 8 * k & 255).count("1") << 8 * k for k in range(8)), factors)


def known(value: Some) -> int:
    """The value, of which every bit has to be known."""
    if isinstance(value, Number):
        raise Split(_greatest(value.factors))
    return value
