"""Columns of whole numbers, packed in one block of eight bytes each."""

from __future__ import annotations

import re
from array import array
from typing import Iterable, List, SupportsIndex, Union, cast

from ._errors import InvalidArguments, but_got
from ._hash import checked_u64, out_of_range
from ._lent import bytes_of
from ._packed import BYTE, block_or_items, is_column, told_format
from ._types import BytesLike

#: What a call accepts as whole numbers.
NumbersLike = Union[Iterable[SupportsIndex], BytesLike]

_NUMBER = re.compile("[@=<]?[bBhHiIlLqQ]")
_NEGATIVE = re.compile(b"[\x80-\xff]")


def packed_numbers(numbers: NumbersLike, name: str) -> bytes:
    """Returns eight bytes for each number of a column, little-endian. An error calls a number by the name.

    >>> packed_numbers([1, 2], "size") == packed_numbers(array("B", [1, 2]), "size") == bytes([1, *bytes(7), 2, *bytes(7)])
    True
    """
    expected = f"a column of {name}s must have whole numbers, or be a buffer of eight bytes for each, the least first"
    given = block_or_items(numbers, expected)
    if not isinstance(given, memoryview):
        return _pack(cast(Iterable[SupportsIndex], given), name)
    with given:
        if given.ndim == 1 and given.itemsize == 1 and not is_column(numbers):
            if re.fullmatch(BYTE, given.format) and given.nbytes % 8 == 0:
                return bytes_of(given)
        elif given.ndim == 1 and _NUMBER.fullmatch(given.format):
            return _widened(bytes_of(given), given.itemsize, given.format[-1].islower(), name)
        raise InvalidArguments(but_got(expected, told_format(given)))


def _widened(numbers: bytes, width: int, signed: bool, name: str) -> bytes:
    """Returns eight bytes for each whole number of a column, whose numbers have `width` bytes each."""
    if signed:
        negative = _NEGATIVE.search(numbers[width - 1::width])
        if negative:
            place = negative.start()
            number = int.from_bytes(numbers[width * place:width * (place + 1)], "little", signed=True)
            raise out_of_range(f"{name} {place}", number)
    if width == 8:
        return numbers
    out = bytearray(len(numbers) // width * 8)
    for place in range(width):
        out[place::8] = numbers[place::width]
    return bytes(out)


def _pack(numbers: Iterable[SupportsIndex], name: str) -> bytes:
    listed = list(numbers)
    try:
        return array("Q", cast(List[int], listed)).tobytes()
    except (TypeError, ValueError, OverflowError):
        return b"".join(checked_u64(number, f"{name} {place}").to_bytes(8, "little") for place, number in enumerate(listed))
