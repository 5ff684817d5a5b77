"""Calls by ctypes that raise Python's own error if the stack ends."""

from __future__ import annotations

import ctypes
from typing import Callable, TypeVar

_Result = TypeVar("_Result")


def named(call: Callable[..., _Result]) -> Callable[..., _Result]:
    """Returns the call. If the stack ends while ctypes converts the arguments, it raises `RecursionError`, as Python does.

    >>> named(ctypes.string_at)(b"abc", 2)
    b'ab'
    """
    def checked(*arguments: object) -> _Result:
        try:
            return call(*arguments)
        except ctypes.ArgumentError as error:
            raise error_in_python(error) from None

    return checked


def error_in_python(error: ctypes.ArgumentError) -> Exception:
    """Returns what to raise for an error of ctypes: Python's own error if the stack ended, else the same error.

    >>> error_in_python(ctypes.ArgumentError("argument 1: TypeError: wrong type"))
    ArgumentError('argument 1: TypeError: wrong type')
    """
    # It has the text of the error before it, or `???` if there was no stack left to make that.
    if "RecursionError" in str(error) or str(error).endswith("???"):
        return RecursionError("maximum recursion depth exceeded in a call by ctypes")
    return error


memmove = named(ctypes.memmove)
string_at = named(ctypes.string_at)
