"""Words of 32 bits that are numbers, or expressions over symbols in a normal form.

A word is an int, or a `Node`. Two nodes with the same normal form are one object, so `is` compares expressions. The normal forms:

  in      a symbol
  add     a sum: a constant, and terms in a fixed order that aren't sums
  xor     an exclusive or: a constant, and terms (atom, rotation to the right, mask), with one term for each pair of an atom and a
          rotation. Rotations, shifts, masks, exchanges of bytes, and `or` of words that share no bit are all of this form. So a
          rotation is the same word, whether it was made by shifts, by bytes or by an instruction of its own.
  or, and, carry    of two words whose bits aren't known; nothing more is known of these
  low, high         a half of a Number of bits.py

Each function gives a word that stands for exactly what its name says, for every value of the symbols. So two words that are the same
object have the same value. Words that differ may still be equal; that would be a false alarm.

Each symbol also has a random number, which it gets when it is made. Each node has the number that its form gives for these. Each operation
compares the number of its result with what plain arithmetic gives for the numbers of its operands. So a normal form that stands for
something else is found where it is made, unless that happens to agree for these numbers.

A sealed exclusive or counts as one atom in those that are made of it from then on, and keeps them short. So an exclusive or that was made
earlier may have another form than an equal one that is made later. The definition seals them as soon as it makes them.
"""

from __future__ import annotations

import itertools
import random
from functools import reduce, wraps
from typing import Any, Callable, Dict, List, Optional, Tuple, TypeVar, Union, cast

import bits
from bits import Number, Some

M32 = 0xFFFFFFFF
M64 = 0xFFFFFFFFFFFFFFFF


class Node:
    """An expression: its form, what it is made of, its place in the order of nodes, and its number."""

    __slots__ = ("order", "form", "parts", "number", "is_sealed")

    def __init__(self, order: int, form: str, parts: Tuple[Any, ...]) -> None:
        self.order, self.form, self.parts = order, form, parts
        self.number, self.is_sealed = _meaning(form, parts), False

    def __repr__(self) -> str:
        return shown(self, 2)


Word = Union[int, Node]
#: A term of an exclusive or: an atom, how far it is rotated to the right, and which of its bits count then.
Term = Tuple[Node, int, int]
#: A value of up to 64 bits: a number, of which bits may be unknown, a word, or a low and a high word.
Value = Union[Some, Node, Tuple[Word, Word]]

_NODES: Dict[Tuple[Any, ...], Node] = {}
#: The results of operations.
_RESULTS: Dict[Tuple[Any, ...], Word] = {}
_DRAWS = random.Random(11)
_ORDER = itertools.count()


def number_of(word: Word) -> int:
    """The number of a word."""
    return word.number if isinstance(word, Node) else word


def _meaning(form: str, parts: Tuple[Any, ...]) -> int:
    """The number of a node of a form with these parts."""
    if form == "in":
        return _DRAWS.choice((0, M32)) if _DRAWS.random() < 0.05 else _DRAWS.getrandbits(32)
    if form == "add":
        return sum(map(number_of, parts)) & M32
    if form == "xor":
        number: int = parts[0]
        for atom, rotation, mask in parts[1:]:
            number ^= _rotated(atom.number, rotation) & mask
        return number
    if form in ("low", "high"):
        half: int = parts[0].number
        return half & M32 if form == "low" else half >> 32
    x, y = map(number_of, parts)
    return {"or": x | y, "and": x & y, "carry": (x + y) >> 32}[form]


def node(form: str, *parts: object) -> Node:
    """The one node of a form with these parts."""
    key = (form, *parts)
    found = _NODES.get(key)
    if found is None:
        found = _NODES[key] = Node(next(_ORDER), form, parts)
    return found


def forget() -> None:
    """Forgets all nodes. Words that were made before must not be compared with later ones."""
    _NODES.clear()
    _RESULTS.clear()


def symbol(name: str) -> Node:
    return node("in", name)


def unknown() -> Node:
    """A new symbol, for a word that nobody has set. It isn't kept among the nodes, since nothing asks for it again."""
    return Node(next(_ORDER), "in", ("unknown",))


def seal(word: Word) -> Word:
    """The word, which is an atom of exclusive ors from now on. One of a single term stays as it is, since that is no longer than an atom,
    and may be a part of others."""
    if isinstance(word, Node) and word.form == "xor" and len(word.parts) > 2:
        word.is_sealed = True
    return word


Operation = TypeVar("Operation", bound=Callable[..., Word])


def _compared(plain: Callable[..., Any]) -> Callable[[Operation], Operation]:
    """Makes an operation compare the number of its result with what plain arithmetic gives, and give just that for numbers alone. It
    remembers each result by the words, and by which of them are sealed, since nothing else makes a difference."""
    def of(operation: Operation) -> Operation:
        @wraps(operation)
        def compared(*words: Word) -> Word:
            key = (operation, *words, *[word.is_sealed for word in words if isinstance(word, Node)])
            result = _RESULTS.get(key)
            if result is None:
                number: int = plain(*[number_of(word) for word in words])
                if len(key) == 1 + len(words):
                    return number
                result = operation(*words)
                if number_of(result) != number:
                    raise AssertionError(f"{operation.__name__} of {', '.join(map(shown, words))} gives {shown(result)}")
                _RESULTS[key] = result
            return result

        return cast(Operation, compared)

    return of


def _rotated(number: int, count: int) -> int:
    return (number >> count | number << (32 - count)) & M32


@_compared(lambda *numbers: sum(numbers) & M32)
def add(*words: Word) -> Word:
    """The sum, without the carry out of the word. It takes apart each sum that it is made of, so it has one form, whatever was added up
    first. If a sum could be sealed, it would have two: the definition gives x + y, where a block has no byte for the third word, and
    x + y + z elsewhere, which code may add up from x + y."""
    constant = 0
    terms: List[Node] = []
    for word in words:
        if isinstance(word, int):
            constant += word
        elif word.form == "add":
            constant += word.parts[0]
            terms += word.parts[1:]
        else:
            terms.append(word)
    constant &= M32
    if not terms:
        return constant
    if len(terms) == 1 and constant == 0:
        return terms[0]
    terms.sort(key=lambda term: term.order)
    return node("add", constant, *terms)


def _split(word: Word) -> Tuple[int, Tuple[Term, ...]]:
    """A word as an exclusive or: its constant and its terms."""
    if isinstance(word, int):
        return word, ()
    if word.form == "xor" and not word.is_sealed:
        return word.parts[0], word.parts[1:]
    return 0, ((word, 0, M32),)


def _joined(constant: int, terms: List[Term]) -> Word:
    """The exclusive or of a constant and of terms with different atoms or rotations."""
    if not terms:
        return constant
    if constant == 0 and len(terms) == 1 and terms[0][1:] == (0, M32):
        return terms[0][0]
    return node("xor", constant, *sorted(terms, key=lambda term: (term[0].order, term[1])))


@_compared(lambda *numbers: reduce(int.__xor__, numbers))
def xor(*words: Word) -> Word:
    constant = 0
    masks: Dict[Tuple[Node, int], int] = {}
    for word in words:
        number, terms = _split(word)
        constant ^= number
        for atom, rotation, mask in terms:
            masks[atom, rotation] = masks.get((atom, rotation), 0) ^ mask
    return _joined(constant, [(atom, rotation, mask) for (atom, rotation), mask in masks.items() if mask])


def _turned(word: Word, count: int, mask: int) -> Word:
    """The word, rotated to the right, of which only some bits are left then. It doesn't make the whole rotated word on the way: where that
    is sealed, the bits that are left would have another form than those of the word itself."""
    constant, terms = _split(word)
    turned = [(atom, (rotation + count) & 31, _rotated(its, count) & mask) for atom, rotation, its in terms]
    return _joined(_rotated(constant, count) & mask, [term for term in turned if term[2]])


@_compared(lambda x, count: _rotated(x, count & 31))
def ror(word: Word, count: int) -> Word:
    """The word, rotated to the right."""
    return _turned(word, count & 31, M32)


@_compared(lambda x, mask: x & mask)
def masked(word: Word, mask: int) -> Word:
    """The word, of which only some bits are left."""
    return _turned(word, 0, mask)


@_compared(lambda x, count: x << count & M32)
def shl(word: Word, count: int) -> Word:
    return _turned(word, 32 - count, M32 << count & M32) if count < 32 else 0


@_compared(lambda x, count: x >> count)
def shr(word: Word, count: int) -> Word:
    return _turned(word, count, M32 >> count) if count < 32 else 0


def _possible(word: Word) -> int:
    """The bits that may be set."""
    if isinstance(word, Node) and word.form == "carry":
        return 1
    bits, terms = _split(word)
    for _, _, mask in terms:
        bits |= mask
    return bits


def _in_order(x: Word, y: Word) -> Tuple[Word, Word]:
    """Two words of which at least one is a node, in an order that doesn't depend on which came first."""
    if isinstance(x, int) or not isinstance(y, int) and x.order > y.order:
        return y, x
    return x, y


@_compared(int.__or__)
def or_(x: Word, y: Word) -> Word:
    if x is y:
        return x
    if isinstance(x, int) and isinstance(y, int):
        return x | y
    return xor(x, y) if _possible(x) & _possible(y) == 0 else node("or", *_in_order(x, y))


@_compared(lambda x, y: x + y & M32)
def add_apart(x: Word, y: Word) -> Word:
    """The sum, which is an exclusive or if no bit may be set in both: a rotation, if it is made so of its parts."""
    return add(x, y) if _possible(x) & _possible(y) else xor(x, y)


@_compared(int.__and__)
def and_(x: Word, y: Word) -> Word:
    if isinstance(x, int):
        x, y = y, x
    if isinstance(y, int):
        return masked(x, y)
    return x if x is y else node("and", *_in_order(x, y))


@_compared(lambda x, y: (x + y) >> 32)
def carry(x: Word, y: Word) -> Word:
    """1 if the sum of two words passes 2^32, else 0."""
    if isinstance(x, int) and isinstance(y, int):
        return (x + y) >> 32
    return 0 if x == 0 or y == 0 else node("carry", *_in_order(x, y))


def byte(word: Word, k: int) -> Word:
    """Byte k of a word, the lowest being byte 0."""
    if isinstance(word, Node) and word.form == "low":
        its = some_of(word)
        if its is not None:
            return low(bits.low_bits(bits.shift_right(its, 8 * k), 8))
    return word >> 8 * k & 255 if isinstance(word, int) else masked(shr(word, 8 * k), 255)


def from_bytes(four: List[Word]) -> Word:
    """The word of four bytes, the lowest first."""
    return xor(four[0], shl(four[1], 8), shl(four[2], 16), shl(four[3], 24))


# ---- Values of 64 bits


def some_of(value: Value) -> Optional[Some]:
    """The value as a number, of which bits may be unknown, if it is one."""
    if isinstance(value, (int, Number)):
        return value
    if isinstance(value, Node) and value.form == "low":
        its: Number = value.parts[0]
        if (bits.span(its) or (0, M64))[1] <= M32:
            return its
    return None


def masked_some(value: Value, mask: Value) -> Optional[Some]:
    """The bits of a value that a number has, too, as a number, if it is one: of the low half of a sum, too."""
    if isinstance(value, Node) and value.form == "low" and isinstance(mask, int):
        return bits.masked(value.parts[0], mask & M32)
    return None


def _half(value: Number, place: int) -> Word:
    """A half of a number as a word."""
    try:
        its = bits.cut(value, 32)[place]
    except bits.Split:
        return node("high" if place else "low", value)
    return its if isinstance(its, int) else node("low", its)


def low(value: Value) -> Word:
    if isinstance(value, int):
        return value & M32
    if isinstance(value, Number):
        return _half(value, 0)
    return value if isinstance(value, Node) else value[0]


def high(value: Value) -> Word:
    if isinstance(value, int):
        return value >> 32
    if isinstance(value, Number):
        return _half(value, 1)
    return 0 if isinstance(value, Node) else value[1]


def pair(x: Word, y: Word) -> Value:
    """The value with this low and this high word."""
    if isinstance(x, int) and isinstance(y, int):
        return x | y << 32
    if isinstance(x, Node) and x.form == "low" or isinstance(y, Node) and y.form == "low":
        lower, upper = some_of(x), some_of(y)
        if lower is not None and upper is not None:
            return bits.add(lower, upper, 1 << 32)
    if isinstance(x, Node) and isinstance(y, Node) and (x.form, y.form) == ("low", "high") and x.parts == y.parts:
        whole: Number = x.parts[0]
        return whole
    return x, y


def _both_some(x: Value, y: Value) -> Optional[Tuple[Some, Some]]:
    """Two values as numbers, if both are, and bits of one are unknown."""
    if isinstance(x, Number) or isinstance(y, Number):
        one, other = some_of(x), some_of(y)
        if one is not None and other is not None:
            return one, other
    return None


def add_64(x: Value, y: Value) -> Value:
    if isinstance(x, int) and isinstance(y, int):
        return (x + y) & M64
    both = _both_some(x, y)
    if both:
        return bits.add(*both)
    return pair(add(low(x), low(y)), add(high(x), high(y), carry(low(x), low(y))))


def shl_64(value: Value, count: int) -> Value:
    if isinstance(value, int):
        return value << count & M64
    if isinstance(value, Number):
        return bits.shift_left(value, count)
    if count >= 32:
        return pair(0, shl(low(value), count - 32))
    return pair(shl(low(value), count), or_(shl(high(value), count), shr(low(value), 32 - count))) if count else value


def shr_64(value: Value, count: int) -> Value:
    if isinstance(value, int):
        return value >> count if count < 64 else 0
    if isinstance(value, Number):
        if count == 32:
            return pair(high(value), 0)
        return bits.shift_right(value, count)
    if count >= 32:
        return pair(shr(high(value), count - 32), 0)
    return pair(or_(shr(low(value), count), shl(high(value), 32 - count)), shr(high(value), count)) if count else value


# ---- What a word is, for people


def shown(word: object, depth: int = 3) -> str:
    """A text of a word, in which deep parts are numbers of nodes."""
    if isinstance(word, tuple):
        atom, rotation, mask = word
        return f"{shown(atom, depth)}>>>{rotation}{'' if mask == M32 else f'&{mask:x}'}"
    if not isinstance(word, Node):
        return f"{word:#x}" if isinstance(word, int) else f"{word}"
    if word.form == "in":
        return str(word.parts[0])
    return f"{word.form}({', '.join(shown(it, depth - 1) for it in word.parts)})" if depth else f"#{word.order}"
