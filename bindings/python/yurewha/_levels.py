"""The counts of nodes by level, in flat lists."""

from __future__ import annotations

import struct
from typing import Iterable, Sequence, SupportsIndex, Tuple

from ._errors import but_got, told_items
from ._hash import checked_u64

#: How many left and right nodes each level has, from the chunks up.
Counts = Tuple[Tuple[int, int], ...]

#: The C struct of the counts of a level.
LEVEL = struct.Struct("<QQ")


def packed_levels(levels: Iterable[Sequence[SupportsIndex]]) -> bytes:
    """Returns the C structs of the counts of levels. Raises `TypeError` or `InvalidArguments`.

    >>> packed_levels([(1, 2)]) == b"\\x01" + bytes(7) + b"\\x02" + bytes(7)
    True
    """
    packed = bytearray()
    for number, level in enumerate(levels):
        try:
            left, right = level
        except (TypeError, ValueError):
            raise TypeError(but_got(f"level {number} must be a pair of numbers, of left and of right nodes", told_items(level))) from None
        what = f"a count of level {number}"
        packed += LEVEL.pack(checked_u64(left, what), checked_u64(right, what))
    return bytes(packed)
