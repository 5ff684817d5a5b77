"""Chunks in the library's form: 40 bytes each."""

from __future__ import annotations

import re
import struct
from typing import Dict, Iterable, Iterator, SupportsIndex, Tuple, Union, cast, final, overload

from ._arrow_out import Capsules, capsules_of_chunks, schema_of_chunks
from ._errors import InvalidArguments, but_got, told_items
from ._hash import Hash, HashLike, checked_u64, raw_of
from ._hashes import Hashes, HashesLike, HexTexts, column_of
from ._numbers import NumbersLike, packed_numbers
from ._packed import BYTE, HASH, WORD, Packed, block_or_items, checked_block
from ._types import BytesLike

__all__ = ["Chunks"]

#: A chunk: its hash, and its size in bytes.
Chunk = Tuple[Hash, int]
#: What a call accepts as chunks.
ChunksLike = Union["Chunks", Iterable[Tuple[HashLike, SupportsIndex]], BytesLike]

#: What a call accepts as sizes.
SizesLike = NumbersLike

_SIZE = 40
#: How many chunks of each end a notebook shows.
_SHOWN = 5
_PAIR = struct.Struct("<32sQ")

_HASH_FIELD = f"{HASH}:(?:hash|words):"
_SIZE_FIELD = f"{WORD}:size:"
_SIZE_FIRST = re.compile(rf"T\{{{_SIZE_FIELD}{_HASH_FIELD}\}}")
_FORMS = (
    (1, re.compile(BYTE)),
    (8, re.compile(WORD)),
    (_SIZE, re.compile(rf"{_SIZE}[sx]|\({_SIZE}\){BYTE}")),
    (_SIZE, re.compile(rf"T\{{{_HASH_FIELD}{_SIZE_FIELD}\}}")),
    (_SIZE, _SIZE_FIRST),
)
_EXPECTED = (
    "packed chunks must be bytes, unsigned words of 8 bytes, or items of 40 bytes: plain ones, or ones with the fields `hash` (or "
    "`words`) of 32 bytes and `size`, an unsigned word; each word has its least byte first")


def _pack(pairs: Iterable[Tuple[HashLike, SupportsIndex]]) -> bytes:
    packed = bytearray()
    add, pack = packed.extend, _PAIR.pack
    for pair in pairs:
        try:
            hash_, size = pair
        except (TypeError, ValueError):
            what = f"chunk {len(packed) // _SIZE} must be a pair of a hash and an int"
            raise TypeError(but_got(what, told_items(pair))) from None
        raw = hash_._raw if type(hash_) is Hash else raw_of(hash_, f"the hash of chunk {len(packed) // _SIZE}")
        try:
            add(pack(raw, size))
        except struct.error:
            add(pack(raw, checked_u64(size, f"the size of chunk {len(packed) // _SIZE}")))
    return bytes(packed)


def _unpack(view: memoryview) -> bytes:
    block = checked_block(view, _SIZE, _FORMS, _EXPECTED)
    return _hash_first(block) if _SIZE_FIRST.fullmatch(view.format) else block


def _hash_first(block: bytes) -> bytes:
    """Puts the hash of each chunk before its size."""
    out = bytearray(len(block))
    given, made = memoryview(block).cast("Q"), memoryview(out).cast("Q")
    for word in range(5):
        made[(word - 1) % 5::5] = given[word::5]
    return bytes(out)


def _rows(chunks: Chunks, first: int) -> Iterator[str]:
    """Yields a row of a table in HTML for each chunk. `first` is the number of the first one."""
    for place, (hash_, size) in enumerate(chunks, first):
        yield f"<tr><th>{place:,}</th><td><code>{hash_}</code></td><td>{size:,}</td></tr>"


@final
class Chunks(Packed[Chunk]):
    """A list of chunks in one block. Each has the 32 bytes of its hash, then its size in eight bytes, little-endian.

    It is made from pairs of a hash and a size, or from a block. A hash is a `Hash` or 32 `bytes`. A block is `bytes` or
    anything with the buffer protocol. It may be a NumPy array of bytes, of five unsigned words of eight bytes a row, or of
    items of 40 bytes. Items may have the fields `hash` (or `words`) of 32 bytes and `size`, in either order. Items with other
    fields raise `InvalidArguments`.

    The list is immutable. A block that others may change is copied once. So a million chunks go to the library in one call,
    without a million objects. `numpy.asarray(chunks)` is an array with the fields `hash` and `size`, which `Chunks` takes back.

    >>> chunks = Chunks([(Hash.random_from_seed(1), 100), (Hash.random_from_seed(2), 200)])
    >>> len(chunks), chunks[1][1], len(chunks.packed)
    (2, 200, 80)
    >>> Chunks(chunks.packed) == chunks
    True
    """

    __slots__ = ()

    _SIZE = _SIZE

    def __new__(cls, chunks: ChunksLike = ()) -> Chunks:
        if isinstance(chunks, Chunks):
            return chunks
        if isinstance(chunks, str):
            raise TypeError(but_got("chunks must be pairs of a hash and an int, or a block of bytes", "a str"))
        given = block_or_items(chunks, _EXPECTED)
        if not isinstance(given, memoryview):
            return cls._of(_pack(cast(Iterable[Tuple[HashLike, SupportsIndex]], given)))
        with given:
            return cls._of(_unpack(given))

    def __init_subclass__(cls) -> None:
        raise TypeError("Chunks can't be subclassed")

    @overload
    @staticmethod
    def from_columns(hashes: HashesLike, sizes: SizesLike) -> Chunks: ...

    @overload
    @staticmethod
    def from_columns(hashes: HexTexts, sizes: SizesLike) -> Chunks: ...

    @staticmethod
    def from_columns(hashes: Union[HashesLike, HexTexts], sizes: SizesLike) -> Chunks:
        """Returns the chunks of a column of hashes and a column of sizes: lists, or columns of NumPy, pandas or Arrow.

        Hashes are what `Hashes` accepts, or hex texts. Sizes are whole numbers from 0 to 2^64 - 1, in a column of signed or
        unsigned numbers of any width. They may also be a plain buffer of eight bytes for each, like `bytes` or a buffer of
        Arrow.

        Raises `InvalidArguments` with the index of the first size that is out of range. Also raises it if there isn't one size
        for each hash. Raises `InvalidText` with the index of the first text that isn't the hex text of a hash.

        >>> Chunks.from_columns([Hash(), Hash()], [1, 2]) == Chunks([(Hash(), 1), (Hash(), 2)])
        True
        """
        column, packed_sizes = column_of(hashes), packed_numbers(sizes, "size")
        if len(packed_sizes) != 8 * len(column):
            counts = f"{len(column)} hashes and {len(packed_sizes) // 8} sizes"
            raise InvalidArguments(but_got("there must be one size for each hash", counts))
        out = bytearray(_SIZE * len(column))
        made, words = memoryview(out).cast("Q"), memoryview(column.packed).cast("Q")
        for word in range(4):
            made[word::5] = words[word::4]
        made[4::5] = memoryview(packed_sizes).cast("Q")
        return Chunks._of(bytes(out))

    @property
    def hashes(self) -> Hashes:
        """The hashes, as a column.

        >>> Chunks([(Hash(), 1)]).hashes == Hashes([Hash()])
        True
        """
        out = bytearray(32 * len(self))
        made, given = memoryview(out).cast("Q"), memoryview(self._packed).cast("Q")
        for word in range(4):
            made[word::4] = given[word::5]
        return Hashes._of(bytes(out))

    @property
    def sizes(self) -> memoryview:
        """The sizes, as a column. NumPy shares it without a copy: `numpy.asarray(chunks.sizes)`.

        >>> list(Chunks([(Hash(), 1), (Hash(), 2)]).sizes)
        [1, 2]
        """
        return memoryview(self._packed).cast("Q")[4::5]

    @property
    def __array_interface__(self) -> Dict[str, object]:
        """Lets NumPy share the block, read-only.

        >>> Chunks([(Hash(), 1)]).__array_interface__["shape"]
        (1,)
        """
        return {
            "version": 3,
            "shape": (len(self),),
            "typestr": f"|V{_SIZE}",
            "descr": [("hash", "<u8", (4,)), ("size", "<u8")],
            "data": self._packed,
        }

    def __arrow_c_schema__(self) -> object:
        """Returns Arrow's type of the chunks, a struct of `hash` and `size`. It needs pyarrow, as `__arrow_c_array__` does."""
        return schema_of_chunks()

    def __arrow_c_array__(self, requested_schema: object = None) -> Capsules:
        """Gives readers of Arrow a column of structs of `hash`, 32 bytes, and `size`, an unsigned word.

        Raises `ImportError` if pyarrow isn't installed, as it makes the capsules.
        """
        return capsules_of_chunks(self.hashes.packed, self.sizes, requested_schema)

    def _repr_html_(self) -> str:
        """Returns the table that a notebook shows: the number of chunks, their size, and the first and the last ones."""
        ends = self[:_SHOWN], self[max(_SHOWN, len(self) - _SHOWN):]
        rows = [*_rows(ends[0], 0), *_rows(ends[1], len(self) - len(ends[1]))]
        if len(self) > 2 * _SHOWN:
            rows.insert(_SHOWN, "<tr><td>..</td><td></td><td></td></tr>")
        count, size = f"{len(self):,}", f"{sum(self.sizes):,}"
        caption = f"<caption>{count} chunk{'s' * (count != '1')}, {size} byte{'s' * (size != '1')}</caption>"
        return f"<table>{caption}<tr><th></th><th>hash</th><th>size</th></tr>{''.join(rows)}</table>"

    def _item(self, start: int) -> Chunk:
        raw, size = _PAIR.unpack_from(self._packed, start)
        return Hash._of(raw), size

    def __iter__(self) -> Iterator[Chunk]:
        for raw, size in _PAIR.iter_unpack(self._packed):
            yield Hash._of(raw), size

    def __add__(self, other: ChunksLike) -> Chunks:
        return Chunks._of(self._packed + Chunks(other)._packed)
