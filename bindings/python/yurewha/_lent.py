"""Bytes of other objects in place: their address in memory, for as long as a call needs it."""

from __future__ import annotations

import ctypes
import re
from typing import Callable, Optional, Type, TypeVar, cast

from ._calls import named, string_at
from ._errors import but_got
from ._types import BytesLike, check_mask, view_of


class _CBuffer(ctypes.Structure):
    """`Py_buffer` of CPython."""

    _fields_ = [
        ("buf", ctypes.c_void_p),
        ("obj", ctypes.c_void_p),
        ("len", ctypes.c_ssize_t),
        ("itemsize", ctypes.c_ssize_t),
        ("readonly", ctypes.c_int),
        ("ndim", ctypes.c_int),
        ("format", ctypes.c_char_p),
        ("shape", ctypes.c_void_p),
        ("strides", ctypes.c_void_p),
        ("suboffsets", ctypes.c_void_p),
        ("internal", ctypes.c_void_p),
    ]


_python = ctypes.PyDLL(None)
_get = _python["PyObject_GetBuffer"]
_get.argtypes, _get.restype = [ctypes.py_object, ctypes.POINTER(_CBuffer), ctypes.c_int], ctypes.c_int
_release = _python["PyBuffer_Release"]
_release.argtypes, _release.restype = [ctypes.POINTER(_CBuffer)], None
_get_buffer, _release_buffer = named(_get), named(_release)

_Result = TypeVar("_Result")

#: How many owners of a buffer are examined, each the owner of the one before.
_OWNERS = 16

#: The flag for contiguous bytes, with items of any format.
_PLAIN = 0

# In a format, the name of a field, and the letters for Python objects and other addresses. `Zd` is a complex number.
_FIELD = re.compile(":[^:]*:")
_ADDRESS = re.compile("[OPXz&]|Z(?![fdg])")


def checked_view(view: memoryview) -> memoryview:
    """Returns the same view. Raises `TypeError` if its bytes are addresses, as in a NumPy array of Python objects.

    Raises `InvalidArguments` if it shows a masked array of NumPy that has a masked item.

    >>> checked_view(memoryview(b"ab")).nbytes
    2
    """
    format_ = view.format
    if format_ != "B" and _ADDRESS.search(_FIELD.sub("", format_)):
        raise TypeError(but_got("data must be bytes", f"'{format_}', the addresses of objects"))
    if type(view.obj) is not bytes:
        check_mask(view.obj)
    return view


def view_of_bytes(data: BytesLike) -> memoryview:
    """Returns a view of bytes. Raises `TypeError` if the object has no buffer protocol, or if its bytes are addresses.

    >>> view_of_bytes(b"ab").nbytes
    2
    """
    try:
        view = memoryview(data)  # type: ignore[arg-type]
    except TypeError:
        raise TypeError(but_got("data must be bytes, or an object that lends its bytes", type(data).__name__)) from None
    return checked_view(view)


class Lent:
    """The bytes of a buffer. They stay in place until the end of the `with`.

    >>> with Lent(memoryview(b"abc")[1:]) as lent:
    ...     lent.hold()
    ...     lent.piece(0, lent.length)
    b'bc'
    """

    __slots__ = ("view", "length", "_start", "_buffer")

    #: A view of the buffer, and its length in bytes.
    view: memoryview
    length: int
    _start: int
    _buffer: _CBuffer

    def __init__(self, data: BytesLike) -> None:
        self._buffer = _CBuffer()
        self.view = view = view_of_bytes(data)
        self.length = view.nbytes

    def __enter__(self) -> Lent:
        return self

    def __exit__(self, kind: Optional[Type[BaseException]], error: object, trace: object) -> None:
        self._give_back()
        self.view.release()

    def __del__(self) -> None:
        # If a signal handler raised before the `with`, or the stack ended.
        try:
            self._give_back()
        except AttributeError:
            pass  # it wasn't completely made

    def _give_back(self) -> None:
        if self._buffer.obj:
            _release_buffer(self._buffer)

    def hold(self) -> None:
        """Gets the address in memory, which the calls below need. The view must be contiguous.

        >>> with Lent(b"abc") as lent:
        ...     lent.hold()
        """
        _get_buffer(self.view, self._buffer, _PLAIN)
        self._start = self._buffer.buf or 0

    def at(self, place: int) -> ctypes.c_char_p:
        """Returns the address of the byte at a place, for a call of the library.

        >>> with Lent(b"abc") as lent:
        ...     lent.hold()
        ...     ctypes.string_at(lent.at(1), 2)
        b'bc'
        """
        return ctypes.c_char_p(self._start + place)

    def piece(self, start: int, stop: int) -> bytes:
        """Returns a copy of the bytes from `start` up to, but not including, `stop`.

        >>> with Lent(b"abc") as lent:
        ...     lent.hold()
        ...     lent.piece(1, 3)
        b'bc'
        """
        return string_at(self._start + start, stop - start)


def in_place(view: memoryview, call: Callable[[ctypes.c_char_p, int], _Result]) -> _Result:
    """Passes the bytes of a view to a call, in place, and returns its result. The view must be contiguous.

    >>> in_place(memoryview(b"abc")[1:], ctypes.string_at)
    b'bc'
    """
    buffer = _CBuffer()
    try:
        _get_buffer(view, buffer, _PLAIN)
        return call(ctypes.c_char_p(buffer.buf), view.nbytes)
    finally:
        _release_buffer(buffer)  # does nothing if there is no buffer


def is_whole(view: memoryview) -> bool:
    """Returns whether a view shows a whole `bytes` object.

    >>> is_whole(memoryview(b"abc")), is_whole(memoryview(b"abc")[1:])
    (True, False)
    """
    return type(view.obj) is bytes and len(view.obj) == view.nbytes and view.c_contiguous


def bytes_of(view: memoryview) -> bytes:
    """Returns the bytes as an immutable object: the object of the view if that is `bytes` and whole, else a copy.

    >>> bytes_of(memoryview(b"abc")[1:])
    b'bc'
    """
    if is_whole(view):
        return cast(bytes, view.obj)
    return view.tobytes()


def is_read_only(view: memoryview) -> bool:
    """Returns whether neither the buffer nor any object behind it can be written to.

    >>> is_read_only(memoryview(b"abc")), is_read_only(memoryview(bytearray(3)).toreadonly())
    (True, False)
    """
    if not view.readonly or type(view.obj) is bytes:  # the common cases
        return view.readonly
    owner: object = view
    for _ in range(_OWNERS):
        if owner is None:
            return True
        try:
            with view_of(owner) as shown:
                if not shown.readonly:
                    return False
        except (TypeError, ValueError, BufferError):
            return False  # unknown
        owner = owner.obj if isinstance(owner, memoryview) else getattr(owner, "base", None)
    return False
