"""Columns for readers of Arrow, which take them in capsules by its C data interface.

A reader gives a column back by a function in C, at any time, also while an exception is raised. A function of ctypes loses the
exception then. So pyarrow makes the capsules. Nothing else here needs it.
"""

from __future__ import annotations

from importlib import import_module
from typing import Any, Tuple

#: A schema and an array, each in a capsule.
Capsules = Tuple[object, object]


def _pyarrow() -> Any:
    try:
        return import_module("pyarrow")
    except ImportError as error:
        raise ImportError(f"pyarrow, which passes columns to readers of Arrow, can't be imported: {error}") from None


def _hashes(packed: bytes) -> Any:
    pyarrow = _pyarrow()
    return pyarrow.Array.from_buffers(pyarrow.binary(32), len(packed) // 32, [None, pyarrow.py_buffer(packed)])


def _sizes(sizes: memoryview) -> Any:
    pyarrow = _pyarrow()
    return pyarrow.Array.from_buffers(pyarrow.uint64(), len(sizes), [None, pyarrow.py_buffer(sizes.tobytes())])


def capsules_of_hashes(packed: bytes, requested_schema: object) -> Capsules:
    """Returns a column of hashes, which shares the block."""
    capsules: Capsules = _hashes(packed).__arrow_c_array__(requested_schema)
    return capsules


def capsules_of_chunks(hashes: bytes, sizes: memoryview, requested_schema: object) -> Capsules:
    """Returns a column of structs of a hash and a size."""
    columns = _pyarrow().StructArray.from_arrays([_hashes(hashes), _sizes(sizes)], names=["hash", "size"])
    capsules: Capsules = columns.__arrow_c_array__(requested_schema)
    return capsules


def schema_of_hashes() -> object:
    """Returns the type of a column of hashes in a capsule."""
    schema: object = _pyarrow().binary(32).__arrow_c_schema__()
    return schema


def schema_of_chunks() -> object:
    """Returns the type of a column of chunks in a capsule."""
    pyarrow = _pyarrow()
    schema: object = pyarrow.struct([("hash", pyarrow.binary(32)), ("size", pyarrow.uint64())]).__arrow_c_schema__()
    return schema
