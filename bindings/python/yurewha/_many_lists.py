"""Roots and file hashes of many lists of chunks in one call."""

from __future__ import annotations

import ctypes
from functools import partial
from typing import Callable, Optional

from ._chunks import Chunks, ChunksLike
from ._errors import error_of
from ._hash import checked_32, place_of
from ._hashes import Hashes, OffsetsLike, checked_offsets
from ._interrupts import MANY_NODES, interruptible
from ._library import LONG_CHUNKS, CChunk, CHash, calls_for
from ._types import BytesLike

__all__ = ["file_hashes", "xorb_hashes"]

_CHUNK_SIZE = ctypes.sizeof(CChunk)

#: Calls the library with the first chunk of a list, their number, and the place of its hash. Returns the status.
_Call = Callable[[ctypes.c_char_p, int, CHash], int]


def xorb_hashes(chunks: ChunksLike, offsets: OffsetsLike) -> Hashes:
    """Returns the root of each of many lists of chunks, as `xorb_hash` does. They stand one after another in one list.

    List i starts at the chunk of number offset i, and ends before that of number offset i + 1. So the offsets are those of a list
    column of Arrow. Raises `InvalidArguments` if there is no offset, if an offset is less than the one before it, or if one is past
    the end. Raises `SizeOverflow` with the number of the first list whose sizes add up to more than 2^64 - 1.

    >>> from yurewha import Hash, xorb_hash
    >>> chunks = [(Hash.random_from_seed(k), k) for k in range(5)]
    >>> list(xorb_hashes(chunks, [0, 2, 5])) == [xorb_hash(chunks[:2]), xorb_hash(chunks[2:])]
    True
    """
    def call(start: ctypes.c_char_p, count: int, out: CHash) -> int:
        return int(calls_for(count, LONG_CHUNKS).yurewha_xorb_hash(start, count, out))

    return _each(chunks, offsets, call)


def file_hashes(chunks: ChunksLike, offsets: OffsetsLike, salt: Optional[BytesLike] = None) -> Hashes:
    """Returns the file hash of each of many lists of chunks, as `file_hash` does. The lists are as for `xorb_hashes`.

    A salt has 32 bytes, and is that of all files. It raises the same errors as `xorb_hashes`.

    >>> from yurewha import Hash, file_hash
    >>> chunks = [(Hash.random_from_seed(k), k) for k in range(5)]
    >>> list(file_hashes(chunks, [0, 2, 5])) == [file_hash(chunks[:2]), file_hash(chunks[2:])]
    True
    """
    key = bytes(32) if salt is None else checked_32(salt, "salt")

    def call(start: ctypes.c_char_p, count: int, out: CHash) -> int:
        return int(calls_for(count, LONG_CHUNKS).yurewha_file_hash_with_salt(start, count, key, out))

    return _each(chunks, offsets, call)


def _made(packed: bytes, call: _Call, start: ctypes.c_char_p, count: int, out: CHash) -> int:
    """Makes a call. It has the block too, since the call may go on when nobody else has it any more."""
    return call(start, count, out)


def _each(chunks: ChunksLike, offsets: OffsetsLike, call: _Call) -> Hashes:
    """Makes the call for each list."""
    packed = Chunks(chunks).packed
    places = checked_offsets(offsets, len(packed) // _CHUNK_SIZE, "chunks")
    number, begin = len(places) - 1, place_of(packed)
    out = (CHash * number)()
    for place in range(number):
        first, count = places[place], places[place + 1] - places[place]
        start, to = ctypes.c_char_p(begin + _CHUNK_SIZE * first), out[place]
        if count < MANY_NODES:
            status = call(start, count, to)
        else:
            status = interruptible(partial(_made, packed, call, start, count, to), True)
        if status:
            error = error_of(status)
            raise type(error)(f"list {place}: {error}")
    return Hashes._of(bytes(out))
