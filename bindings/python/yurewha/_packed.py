"""Items of one size, packed in one block of bytes."""

from __future__ import annotations

import re
from array import array
from operator import index
from typing import (
    TYPE_CHECKING,
    Any,
    ClassVar,
    Iterable,
    List,
    Pattern,
    Sequence,
    SupportsIndex,
    Tuple,
    Type,
    TypeVar,
    Union,
    cast,
    overload,
)

from ._accounts import token_of
from ._arrow import block_of_array, block_of_stream
from ._errors import InvalidArguments, but_got, told_type
from ._lent import bytes_of
from ._types import Array, check_mask, view_of

#: What picks items of a list: their numbers, or a bool for each, as a list or a column of NumPy.
Picked = Union[Sequence[SupportsIndex], Array]

_Item = TypeVar("_Item")
_Self = TypeVar("_Self", bound="Packed[Any]")

#: The forms that a block may have: the bytes of an item, and its format in the buffer protocol.
Forms = Sequence[Tuple[int, Pattern[str]]]

#: What columns of NumPy, pandas and Arrow have.
_COLUMNS = ("__array__", "__arrow_c_array__", "__arrow_c_stream__")

# In a format, `(4)L` is four native words, and `<Q` is a little-endian word of eight bytes. The name of a field comes after
# its type.
BYTE = "[@^=<]?[Bbc]"
WORD = "[@^=<]?[QL]"
HASH = rf"(?:32[sx]|\(32\){BYTE}|\(4\){WORD}|T\{{\(4\){WORD}:words:\}})"


def block_or_items(values: object, expected: str) -> Union[memoryview, Iterable[object]]:
    """Returns a view of a block, or the items if `values` isn't a block. A column becomes an Arrow column or an array.

    >>> block_or_items(b"abc", "bytes").nbytes, block_or_items([1, 2], "numbers")
    (3, [1, 2])
    """
    if isinstance(values, (list, tuple, Packed)):
        return values
    make = getattr(values, "__array__", None)
    column = block_of_array(values)
    if column is None and make is None:  # a column of pandas has both, and may hold what Arrow has no type for
        column = block_of_stream(values)
    if column is not None:
        return column
    if make is not None:
        check_mask(values)
        values = make()
    try:
        view = view_of(values)
    except TypeError:
        return cast(Iterable[object], values)
    except InvalidArguments:
        raise
    except (ValueError, BufferError) as error:
        raise InvalidArguments(but_got(expected, f"a buffer that can't be read: {error}")) from None
    # Arrays of objects or of texts have items.
    return cast(Iterable[object], values) if view.format == "O" or view.format.endswith("w") else view


def is_column(values: object) -> bool:
    """Returns whether an object, or what a view shows, has items of a type of its own. Else single bytes are just bytes.

    >>> from array import array
    >>> is_column(array("B", b"abc")), is_column(b"abc")
    (True, False)
    """
    owner = values.obj if isinstance(values, memoryview) else values
    return isinstance(owner, array) or any(hasattr(owner, name) for name in _COLUMNS)


def told_format(view: memoryview) -> str:
    """Returns how an error names the format of a column that isn't one of numbers.

    >>> from array import array
    >>> told_format(memoryview(array("d"))), told_format(memoryview(b""))
    ("'d': floats, as pandas makes of numbers with nulls", "'B': bytes")
    """
    told = {"d": "floats, as pandas makes of numbers with nulls", "f": "floats, as pandas makes of numbers with nulls",
            "s": "bytes", "x": "bytes", "c": "bytes", "B": "bytes", "b": "bytes"}.get(view.format[-1:])
    return f"'{view.format}'" + (f": {told}" if told else "")


def checked_block(view: memoryview, size: int, forms: Forms, expected: str) -> bytes:
    """Returns the bytes of a block of items of one size. If the block has rows, each row is an item.

    >>> import re
    >>> checked_block(memoryview(bytes(64)), 32, [(1, re.compile("B"))], "hashes are bytes") == bytes(64)
    True
    """
    if not any(view.itemsize == bytes_ and form.fullmatch(view.format) for bytes_, form in forms):
        raise InvalidArguments(but_got(expected, f"'{view.format}'"))
    in_a_row = size // view.itemsize
    if view.ndim == 1 or in_a_row == 1:
        fits = view.nbytes % size == 0
    else:
        fits = (view.shape or ())[-1:] == (in_a_row,)
    if not fits:
        raise InvalidArguments(but_got(f"{expected}, with {size} bytes for each", f"{view.nbytes} bytes"))
    return bytes_of(view)


def numbers_of(at: Picked, count: int) -> List[int]:
    """Returns the numbers of items that are picked from so many, by their numbers or by as many bools.

    >>> numbers_of([2, -1, 0], 3), numbers_of([True, False, True], 3)
    ([2, 2, 0], [0, 2])
    """
    expected = "items must be picked by whole numbers, or by a bool for each"
    if isinstance(at, (str, bytes, bytearray)):
        raise TypeError(but_got(expected, told_type(at)))
    given = block_or_items(at, expected)
    if isinstance(given, memoryview):
        listed: List[object]
        with given:
            if given.ndim != 1 or not re.fullmatch("[@=<]?[?bBhHiIlLqQ]", given.format):
                raise TypeError(but_got(expected, told_format(given)))
            listed = [*given.tolist()]
    else:
        listed = list(given)
    # NumPy's own bools aren't Python's.
    if listed and all(isinstance(item, bool) or type(item).__name__ in ("bool_", "bool") for item in listed):
        if len(listed) != count:
            raise IndexError(but_got(f"there must be a bool for each of {count} items", len(listed)))
        return [number for number, item in enumerate(listed) if item]
    return [_number_of(item, place, count, expected) for place, item in enumerate(listed)]


def _number_of(item: object, place: int, count: int, expected: str) -> int:
    if isinstance(item, bool) or not hasattr(item, "__index__"):
        raise TypeError(but_got(expected, f"{told_type(item)} as item {place}"))
    number = index(cast(SupportsIndex, item))
    if not -count <= number < count:
        raise IndexError(but_got(f"item {place} must be the number of one of {count} items", number))
    return number + count if number < 0 else number


class Packed(Sequence[_Item]):
    """Immutable items of one size in one block."""

    __slots__ = ("_packed",)

    #: The size of an item in bytes.
    _SIZE: ClassVar[int]
    _packed: bytes

    @classmethod
    def _of(cls: Type[_Self], packed: bytes) -> _Self:
        self = object.__new__(cls)
        object.__setattr__(self, "_packed", packed)
        return self

    def _item(self, start: int) -> _Item:
        """Returns the item that begins at this byte of the block."""
        raise NotImplementedError

    if not TYPE_CHECKING:  # as in `Hash`

        def __setattr__(self, name: str, value: object) -> None:
            raise AttributeError(f"{type(self).__name__} can't be changed")

        def __delattr__(self, name: str) -> None:
            raise AttributeError(f"{type(self).__name__} can't be changed")

    @property
    def packed(self) -> bytes:
        """The block, without a copy. `memoryview(chunks.packed)` passes it to anything that reads buffers.

        >>> from yurewha import Chunks, Hash
        >>> Chunks([(Hash(), 1)]).packed == bytes(32) + b"\\x01" + bytes(7)
        True
        """
        return self._packed

    def __len__(self) -> int:
        return len(self._packed) // self._SIZE

    @overload
    def __getitem__(self, at: int) -> _Item: ...

    @overload
    def __getitem__(self: _Self, at: Union[slice, Picked]) -> _Self: ...

    def __getitem__(self: _Self, at: Union[int, slice, Picked]) -> Union[_Item, _Self]:
        size = self._SIZE
        if isinstance(at, slice):
            start, stop, step = at.indices(len(self))
            if step == 1:
                return self._of(self._packed[size * start:size * max(start, stop)])
            places = range(start, stop, step)
            return self._of(b"".join(self._packed[size * place:size * (place + 1)] for place in places))
        if not hasattr(at, "__index__") and hasattr(at, "__iter__") or getattr(cast(object, at), "shape", None):
            return self._picked(cast(Picked, at))
        number = index(cast(int, at))
        place = number + len(self) if number < 0 else number
        if not 0 <= place < len(self):
            raise IndexError(f"there is no item {number} in {self!r}")
        item: _Item = self._item(size * place)
        return item

    def _picked(self: _Self, at: Picked) -> _Self:
        """Returns the items at some numbers, in their order, or those for which a list of as many bools has True."""
        size, numbers = self._SIZE, numbers_of(at, len(self))
        return self._of(b"".join([self._packed[size * number:size * (number + 1)] for number in numbers]))

    def __buffer__(self, flags: int) -> memoryview:
        """Lends the block to `memoryview` and other readers of buffers, from Python 3.12 on."""
        return memoryview(self._packed)

    def __eq__(self, other: object) -> bool:
        if not isinstance(other, type(self)):
            return NotImplemented
        return self._packed == other._packed

    def __hash__(self) -> int:
        return hash(self._packed)

    def __dask_tokenize__(self) -> Tuple[str, ...]:
        return token_of(type(self).__name__, self._packed)

    def __sizeof__(self) -> int:
        """Returns how many bytes the object takes with its block."""
        return object.__sizeof__(self) + len(self._packed)

    def __bytes__(self) -> bytes:
        return self._packed

    def __repr__(self) -> str:
        return f"<yurewha.{type(self).__name__} of {len(self)}>"

    def __copy__(self: _Self) -> _Self:
        return self

    def __deepcopy__(self: _Self, memo: object) -> _Self:
        return self

    def __reduce__(self: _Self) -> Tuple[Type[_Self], Tuple[bytes]]:
        return type(self), (self._packed,)
