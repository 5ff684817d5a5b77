"""The types of arguments, for type checkers. Each call checks its arguments itself."""

from __future__ import annotations

import sys
from typing import TYPE_CHECKING, Iterable, Iterator, Mapping, Union

from ._errors import InvalidArguments

if TYPE_CHECKING:
    from _typeshed import ReadableBuffer, WriteableBuffer
    from typing_extensions import Protocol

    class Array(Protocol):
        """A NumPy array, or another array that is shared in the same way."""

        @property
        def __array_interface__(self) -> Mapping[str, object]: ...

        def tobytes(self) -> bytes: ...

    class Readable(Protocol):
        """A stream of bytes. It gives at most as many as it is asked for, and none at its end."""

        def read(self, size: int, /) -> bytes: ...

    class Texts(Protocol):
        """A list of texts, or any other collection of them. A `str` doesn't pass for one, as it would for an `Iterable[str]`,
        because its `in` takes nothing but a `str`."""

        def __contains__(self, item: object) -> bool: ...

        def __iter__(self) -> Iterator[str]: ...

    #: Anything with the buffer protocol: `bytes`, `bytearray`, `memoryview`, `mmap.mmap`, `array.array`, NumPy arrays.
    BytesLike = Union[ReadableBuffer, Array]
    #: A buffer that a call writes to.
    Room = WriteableBuffer
else:
    BytesLike = Union[bytes, bytearray, memoryview]
    Room = Union[bytearray, memoryview]
    Readable = object
    Texts = Iterable[str]
    Array = Union[bytes, bytearray, memoryview]


def view_of(data: object) -> memoryview:
    """Returns a view of an object with the buffer protocol. Raises `TypeError` if the object doesn't have it.

    Raises `InvalidArguments` if it is, or shows, a masked array of NumPy that has a masked item.

    >>> view_of(b"ab").nbytes
    2
    """
    view = memoryview(data)  # type: ignore[arg-type]
    if type(view.obj) is not bytes:
        check_mask(view.obj)
    return view


def check_mask(array: object) -> None:
    """Raises `InvalidArguments` if an object is a masked array of NumPy that has a masked item, under which there may be anything.

    >>> check_mask(b"ab")
    """
    masked = sys.modules.get("numpy.ma")  # nobody has such an array before it is imported
    if masked is None or not isinstance(array, masked.MaskedArray):
        return
    mask = masked.getmaskarray(array)
    place = mask.tobytes().find(1)
    if place >= 0:
        raise InvalidArguments(f"item {place * len(mask) // mask.nbytes if mask.ndim else 0} of the array is masked")
