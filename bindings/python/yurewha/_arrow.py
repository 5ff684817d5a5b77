"""Columns of Arrow, which other packages lend in capsules by its C data interface."""

from __future__ import annotations

import ctypes
import re
import struct
from typing import Iterator, List, Optional, Tuple, Type, TypeVar

from ._calls import named, string_at
from ._errors import InvalidArguments, but_got

_Release = ctypes.CFUNCTYPE(None, ctypes.c_void_p)


class _CSchema(ctypes.Structure):
    """`ArrowSchema`: the type of a column."""

    _fields_ = [
        ("format", ctypes.c_char_p),
        ("name", ctypes.c_char_p),
        ("metadata", ctypes.c_void_p),
        ("flags", ctypes.c_int64),
        ("n_children", ctypes.c_int64),
        ("children", ctypes.c_void_p),
        ("dictionary", ctypes.c_void_p),
        ("release", _Release),
        ("private_data", ctypes.c_void_p),
    ]


class _CArray(ctypes.Structure):
    """`ArrowArray`: a column or a part of one."""

    _fields_ = [
        ("length", ctypes.c_int64),
        ("null_count", ctypes.c_int64),
        ("offset", ctypes.c_int64),
        ("n_buffers", ctypes.c_int64),
        ("n_children", ctypes.c_int64),
        ("buffers", ctypes.POINTER(ctypes.c_void_p)),
        ("children", ctypes.c_void_p),
        ("dictionary", ctypes.c_void_p),
        ("release", _Release),
        ("private_data", ctypes.c_void_p),
    ]


class _CStream(ctypes.Structure):
    """`ArrowArrayStream`: a column in parts."""

    _fields_ = [
        ("get_schema", ctypes.CFUNCTYPE(ctypes.c_int, ctypes.c_void_p, ctypes.POINTER(_CSchema))),
        ("get_next", ctypes.CFUNCTYPE(ctypes.c_int, ctypes.c_void_p, ctypes.POINTER(_CArray))),
        ("get_last_error", ctypes.CFUNCTYPE(ctypes.c_char_p, ctypes.c_void_p)),
        ("release", _Release),
        ("private_data", ctypes.c_void_p),
    ]


_CStruct = TypeVar("_CStruct", _CSchema, _CArray, _CStream)

_pointer = ctypes.pythonapi["PyCapsule_GetPointer"]
_pointer.argtypes, _pointer.restype = [ctypes.py_object, ctypes.c_char_p], ctypes.c_void_p
_get_pointer = named(_pointer)

#: The buffer protocol's format for each of Arrow's formats of whole numbers.
_NUMBERS = {"c": "b", "C": "B", "s": "h", "S": "H", "i": "i", "I": "I", "l": "q", "L": "Q"}

#: The buffer protocol's format of an item, and the number of items in a row of a column.
_Row = Tuple[str, int]


def block_of_array(column: object) -> Optional[memoryview]:
    """Returns a copy of an Arrow array as a block of whole numbers or of rows of bytes.

    Returns None if `column` isn't an Arrow array, or if its items must be read in another way.

    >>> block_of_array(b"abc") is None
    True
    """
    give = getattr(column, "__arrow_c_array__", None)
    if give is None:
        return None
    schema, array = give()
    row = _row_of(_held(schema, b"arrow_schema", _CSchema), column)
    return None if row is None else _shaped(row, [_values(row, _held(array, b"arrow_array", _CArray), 0)])


def block_of_stream(column: object) -> Optional[memoryview]:
    """Does the same with an Arrow column that comes in parts.

    >>> block_of_stream(b"abc") is None
    True
    """
    give = getattr(column, "__arrow_c_stream__", None)
    if give is None:
        return None
    capsule = give()
    return _joined(_held(capsule, b"arrow_array_stream", _CStream), column)


def _held(capsule: object, name: bytes, kind: Type[_CStruct]) -> _CStruct:
    """Returns what a capsule holds. It stays valid as long as the capsule is kept."""
    held = kind.from_address(_get_pointer(capsule, name))
    if not held.release:
        raise InvalidArguments("the column of Arrow was given away before")
    return held


def _row_of(schema: _CSchema, column: object) -> Optional[_Row]:
    """Returns the form of a column's items, or None if they must be read from its array or one by one."""
    text = schema.format.decode("ascii", "replace")
    bytes_ = re.fullmatch("w:([1-9][0-9]{0,8})", text)
    if bytes_ and not schema.dictionary:
        return "B", int(bytes_[1])
    if text in _NUMBERS and not schema.dictionary:
        return _NUMBERS[text], 1
    if hasattr(column, "__array__") or hasattr(column, "__iter__"):
        return None
    kind = "a dictionary" if schema.dictionary else f"'{text}'"
    raise InvalidArguments(but_got("a column of Arrow must have whole numbers, or bytes of one size", kind))


def _values(row: _Row, array: _CArray, before: int) -> bytes:
    """Returns the bytes of a part. `before` is the number of items in the parts before it."""
    for place in _nulls(array):
        raise InvalidArguments(f"item {before + place} of the column of Arrow is null")
    if array.length == 0:
        return b""
    size = row[1] * struct.calcsize(row[0])
    return string_at(array.buffers[1] + size * array.offset, size * array.length)


def _nulls(array: _CArray) -> Iterator[int]:
    bitmap = array.buffers[0] if array.null_count and array.length else None
    if bitmap is None:
        return
    bits = string_at(bitmap, (array.offset + array.length + 7) // 8)
    for place in range(array.length):
        at = array.offset + place
        if not bits[at // 8] >> at % 8 & 1:
            yield place


def _shaped(row: _Row, parts: List[bytes]) -> memoryview:
    format_, count = row
    block = memoryview(b"".join(parts))
    if count == 1 or not block:
        return block.cast(format_)
    return block.cast(format_, (len(block) // count, count))


def _joined(stream: _CStream, column: object) -> Optional[memoryview]:
    """Returns the parts of a column as one block. Each part is released once it is copied."""
    schema = _CSchema()
    _check(stream, named(stream.get_schema)(ctypes.addressof(stream), schema))
    try:
        row = _row_of(schema, column)
        return None if row is None else _shaped(row, list(_parts(stream, row)))
    finally:
        schema.release(ctypes.addressof(schema))


def _parts(stream: _CStream, row: _Row) -> Iterator[bytes]:
    array, before = _CArray(), 0
    while True:
        _check(stream, named(stream.get_next)(ctypes.addressof(stream), array))
        if not array.release:
            return
        try:
            yield _values(row, array, before)
            before += array.length
        finally:
            array.release(ctypes.addressof(array))


def _check(stream: _CStream, status: int) -> None:
    if status:
        told = stream.get_last_error(ctypes.addressof(stream)) or b"no reason is given"
        raise InvalidArguments(f"the column of Arrow can't be read: {told.decode('utf-8', 'replace')}")
