"""Why machine code isn't shown to be right."""

from __future__ import annotations

import bits
from words import Value, some_of


class Fault(Exception):
    """It says where something is wrong or isn't known, and what."""


def some(value: Value) -> bits.Some:
    """A value that may not be data. Bits of it may be unknown."""
    found = some_of(value)
    if found is None:
        raise Fault("this instruction is known for numbers alone")
    return found


def number(value: Value) -> int:
    """A value that may not be data, of which each bit has to be known."""
    return value if isinstance(value, int) else bits.known(some(value))
