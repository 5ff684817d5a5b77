"""Hashes, and the calls and objects that hash bytes."""

from __future__ import annotations

import ctypes
import struct
from operator import index
from typing import TYPE_CHECKING, Any, Callable, NoReturn, Optional, SupportsIndex, Tuple, Type, TypeVar, Union, final

from ._calls import error_in_python, memmove
from ._declarations import LENGTHS
from ._errors import DivisionByZero, InvalidArguments, InvalidText, ReentrantCall, YurewhaError, but_got, counted, error_of, told_text, told_type
from ._guard import Guarded, process
from ._lent import Lent, bytes_of, checked_view, in_place, is_read_only, view_of_bytes
from ._library import LONG_BYTES, CBytes, CHash, CHasher, bare, calls_for, short, update_as_given
from ._types import BytesLike

__all__ = ["Hash", "Hasher", "data_hash", "internal_node_hash"]

_MAX_U64 = 2**64 - 1
#: How many bytes are copied at once.
PIECE = 1 << 20
#: How many bytes are hashed at once, in hundredths of a second. Between two of these Ctrl-C ends a call.
STEP = 1 << 25
# Shorter data is always copied. That is faster than lending it.
_SHORT = 2048
# So many bytes at most are appended in the shortest way, and what ctypes passes for their number. Nobody writes to these.
_FEW = 256
_SIZES = tuple(map(ctypes.c_size_t, range(_FEW + 1)))
_BASE64_LENGTH = LENGTHS["YUREWHA_BASE64_LENGTH"]
_CBase64 = ctypes.c_char * _BASE64_LENGTH

_Bytes = bytes
# The four words of a hash, and their bytes as hex text has them: the greatest byte of each word first.
_words_of = struct.Struct("<4Q").unpack
_bytes_in_order = struct.Struct(">4Q").pack
#: The start of bytes that are passed to the library.
Start = Union[bytes, ctypes.c_char_p]
_Result = TypeVar("_Result")


def whole_number(value: SupportsIndex, what: str) -> int:
    """Returns a whole number, or raises `TypeError`.

    >>> whole_number(-7, "offset")
    -7
    """
    try:
        return index(value)
    except TypeError:
        raise TypeError(but_got(f"{what} must be a whole number", told_type(value))) from None


def out_of_range(what: str, number: int) -> InvalidArguments:
    """Returns the error of a number that isn't from 0 to 2^64 - 1.

    >>> out_of_range("size", -3)
    InvalidArguments('size must be a whole number from 0 to 2^64 - 1, got -3')
    """
    return InvalidArguments(but_got(f"{what} must be a whole number from 0 to 2^64 - 1", number))


def checked_u64(value: SupportsIndex, what: str) -> int:
    """Returns a whole number from 0 to 2^64 - 1, or raises `TypeError` or `InvalidArguments`.

    >>> checked_u64(7, "size")
    7
    """
    number = whole_number(value, what)
    if not 0 <= number <= _MAX_U64:
        raise out_of_range(what, number)
    return number


def checked_bool(value: object, what: str) -> bool:
    """Returns True or False. Any other value, even 0 or 1, raises `TypeError`.

    >>> checked_bool(True, "at_start")
    True
    """
    if not isinstance(value, bool):
        raise TypeError(but_got(f"{what} must be a bool", told_type(value)))
    return value


def checked_text(value: object, what: str) -> bytes:
    """Returns the UTF-8 bytes of a `str`. A lone surrogate raises `InvalidText`.

    >>> checked_text("a", "text")
    b'a'
    """
    if not isinstance(value, str):
        raise TypeError(but_got(f"{what} must be a str", told_type(value)))
    try:
        return value.encode("utf-8")
    except UnicodeEncodeError as error:
        raise InvalidText(but_got(f"{what} must have no lone surrogate", f"one at character {error.start}")) from None


def own_bytes(value: BytesLike) -> bytes:
    """Returns the same bytes as immutable `bytes`. An object that is `bytes` isn't copied.

    >>> own_bytes(bytearray(b"ab"))
    b'ab'
    """
    if type(value) is bytes:
        return value
    with view_of_bytes(value) as view:
        return bytes_of(view)


def checked_32(value: BytesLike, what: str) -> bytes:
    """Returns 32 bytes, or raises `InvalidArguments`.

    >>> len(checked_32(bytes(32), "key"))
    32
    """
    data = own_bytes(value)
    if len(data) != 32:
        raise InvalidArguments(but_got(f"{what} must have 32 bytes", len(data)))
    return data


class _Unmade:
    """Stands for the bytes in order of a hash, which nobody has needed yet. All that is compared with it gives None."""

    __slots__ = ()

    def __lt__(self, other: object) -> Optional[bool]:
        return None

    __gt__ = __lt__


_UNMADE = _Unmade()


@final
class Hash:
    """A hash: 32 bytes. It is immutable, can be a key of a dict, and is ordered like its hex text.

    `Hash()` is the default hash, all of whose bytes are 0. `Hash(b)` has the 32 bytes `b`. `str` and formats give the hex
    text. For JSON, `default=Hash.hex` writes that text and `Hash.from_hex` reads it. Long lists are sorted soonest with `key=Hash.hex`.

    >>> Hash().hex() == 64 * "0"
    True
    >>> f"{Hash.random_from_seed(1):.8}"
    'cfc5d07f'
    >>> import json
    >>> text = json.dumps({"root": Hash()}, default=Hash.hex)
    >>> Hash.from_hex(json.loads(text)["root"]) == Hash()
    True
    """

    __slots__ = ("_raw", "__in_order")

    # The C struct in memory, 32 bytes.
    _raw: _Bytes
    # The same bytes, with the greatest byte of each word first. Their order is that of hashes, and Python compares them in one step.
    # The first comparison makes them, so this is either. What has no such member is no hash.
    __in_order: _Unmade

    def __new__(cls, data: BytesLike = bytes(32)) -> Hash:
        out = CHash()
        short.yurewha_hash_from_bytes(checked_32(data, "hash"), out)
        return cls._of(bytes(out))

    def __init_subclass__(cls) -> None:
        raise TypeError("Hash can't be subclassed")

    @classmethod
    def _of(cls, raw: _Bytes) -> Hash:
        self = _new(cls)
        _set_raw(self, raw)
        _set_in_order(self, _UNMADE)
        return self

    if not TYPE_CHECKING:  # a type checker would let each name be set

        def __setattr__(self, name: str, value: object) -> None:
            raise AttributeError("a hash can't be changed")

        def __delattr__(self, name: str) -> None:
            raise AttributeError("a hash can't be changed")

    @staticmethod
    def from_bytes(data: BytesLike) -> Hash:
        """Returns the hash with these 32 bytes. Raises `InvalidArguments` if there are more or fewer.

        >>> Hash.from_bytes(bytes(32)) == Hash()
        True
        """
        return Hash(data)

    @staticmethod
    def from_hex(text: str) -> Hash:
        """Returns the hash with this hex text: 64 digits, lower or upper case. Any other text raises `InvalidText`.

        >>> Hash.from_hex(63 * "0" + "A").hex()[-2:]
        '0a'
        """
        data = checked_text(text, "hex")
        out = CHash()
        status = short.yurewha_from_hex(data, len(data), out)
        if status:
            raise error_of(status, but_got("the hex text of a hash must be 64 hex digits", told_text(text)))
        return Hash._of(bytes(out))

    @staticmethod
    def from_base64(text: str) -> Hash:
        """Returns the hash with this base64 text, as `base64` writes it. Any other text raises `InvalidText`.

        >>> Hash.from_base64(43 * "A") == Hash()
        True
        """
        data = checked_text(text, "base64")
        out = CHash()
        status = short.yurewha_from_base64(data, len(data), out)
        if status:
            raise error_of(status, but_got("the base64 text of a hash must be 43 characters, as `base64` writes them", told_text(text)))
        return Hash._of(bytes(out))

    @staticmethod
    def random_from_seed(seed: int) -> Hash:
        """Returns a pseudorandom hash, for tests. The seed is from 0 to 2^64 - 1.

        >>> Hash.random_from_seed(1).hex()[:16]
        'cfc5d07f6f03c29b'
        """
        out = CHash()
        short.yurewha_random_from_seed(checked_u64(seed, "seed"), out)
        return Hash._of(bytes(out))

    def hex(self) -> str:
        """Returns the hex text that Xet uses for the hash. Unlike `bytes.hex`, it reverses the bytes in each group of eight.

        >>> Hash(bytes(range(32))).hex()[:16]
        '0706050403020100'
        """
        return _bytes_in_order(*_words_of(self._raw)).hex()

    def base64(self) -> str:
        """Returns the URL-safe base64 text of the 32 bytes: 43 characters, without padding.

        >>> Hash().base64() == 43 * "A"
        True
        """
        text, length = _CBase64(), ctypes.c_size_t()
        status = short.yurewha_base64(self._raw, text, _BASE64_LENGTH, length)
        if status:
            raise error_of(status)
        return text.raw.decode("ascii")

    @property
    def bytes(self) -> _Bytes:
        """The 32 bytes.

        >>> Hash().bytes == bytes(32)
        True
        """
        out = CBytes()
        short.yurewha_hash_to_bytes(self._raw, out)
        return bytes(out)

    def __bytes__(self) -> _Bytes:
        return self.bytes

    @property
    def words(self) -> Tuple[int, int, int, int]:
        """The four words as integers. Each is read from eight bytes, little-endian.

        >>> Hash(b"\\x01" + bytes(31)).words
        (1, 0, 0, 0)
        """
        first, second, third, fourth = _words_of(self._raw)
        return first, second, third, fourth

    def hmac(self, key: Hash) -> Hash:
        """Returns the keyed BLAKE3 hash of the bytes of this hash, under the bytes of the key.

        >>> Hash().hmac(Hash()).hex()[:16]
        '638a6bc391964a85'
        """
        if not isinstance(key, Hash):
            raise TypeError(but_got("key must be a Hash", told_type(key)))
        out = CHash()
        short.yurewha_hmac(self._raw, key._raw, out)
        return Hash._of(bytes(out))

    def __mod__(self, divisor: int) -> int:
        number = checked_u64(divisor, "divisor")
        out = ctypes.c_uint64()
        status = short.yurewha_remainder(self._raw, number, out)
        if number == 0:
            raise DivisionByZero(but_got("divisor must be at least 1", number))
        if status:
            raise error_of(status)
        return out.value

    def _ordered(self) -> _Bytes:
        """Returns the bytes in order, and keeps them. Two threads may make them at once, because both make the same."""
        made: object = self.__in_order
        if not isinstance(made, _Bytes):
            made = _bytes_in_order(*_words_of(self._raw))
            _set_in_order(self, made)
        return made

    def __eq__(self, other: object) -> bool:
        if not isinstance(other, Hash):
            return NotImplemented
        return self._raw == other._raw

    def __lt__(self, other: Hash) -> bool:
        try:
            if (less := self.__in_order < other.__in_order) is not None:
                return less
        except AttributeError:
            return NotImplemented
        return self._ordered() < other._ordered() if isinstance(other, Hash) else NotImplemented

    def __le__(self, other: Hash) -> bool:
        greater = Hash.__gt__(self, other)
        return greater if greater is NotImplemented else not greater

    def __gt__(self, other: Hash) -> bool:
        try:
            if (greater := self.__in_order > other.__in_order) is not None:
                return greater
        except AttributeError:
            return NotImplemented
        return self._ordered() > other._ordered() if isinstance(other, Hash) else NotImplemented

    def __ge__(self, other: Hash) -> bool:
        less = Hash.__lt__(self, other)
        return less if less is NotImplemented else not less

    def __hash__(self) -> int:
        return hash(self._raw)

    def __dask_tokenize__(self) -> Tuple[str, str]:
        return "yurewha.Hash", self.hex()

    def __str__(self) -> str:
        return _bytes_in_order(*_words_of(self._raw)).hex()

    def __format__(self, spec: str) -> str:
        return format(self.hex(), spec)

    def __repr__(self) -> str:
        return f"Hash.from_hex('{self.hex()}')"

    def __copy__(self) -> Hash:
        return self

    def __deepcopy__(self, memo: object) -> Hash:
        return self

    def __reduce__(self) -> Tuple[Type[Hash], Tuple[_Bytes]]:
        return Hash, (self.bytes,)


#: What a call accepts as a hash in a list: a `Hash`, or its 32 bytes.
HashLike = Union[Hash, bytes]


def raw_of(hash_: object, what: str) -> bytes:
    """Returns the C struct of a hash. Raises `InvalidArguments` or `TypeError`.

    >>> raw_of(bytes(32), "hash") == raw_of(Hash(), "hash")
    True
    """
    if type(hash_) is Hash:
        return hash_._raw
    if type(hash_) is bytes:
        return checked_32(hash_, what)
    raise TypeError(but_got(f"{what} must be a Hash or 32 bytes", told_type(hash_)))


# These set the members of a hash. They take half the time of `object.__setattr__`.
_new = object.__new__
_set_raw: Callable[[Hash, _Bytes], None] = Hash.__dict__["_raw"].__set__
_set_in_order: Callable[[Hash, object], None] = Hash.__dict__["_Hash__in_order"].__set__


def data_hash(data: BytesLike, *, nobody_writes: bool = False) -> Hash:
    """Returns the hash of a chunk with these bytes.

    Read-only bytes are hashed in place. Other bytes are copied, a MiB at a time, because another thread may write to them
    during the call. With `nobody_writes=True` the caller promises that nobody does, and they aren't copied. Ctrl-C ends the call,
    however long the data is.

    >>> data_hash(b"abc").hex()[:16]
    'a8803506f7aff014'
    >>> data_hash(bytearray(b"abc"), nobody_writes=True) == data_hash(b"abc")
    True
    """
    if type(data) is bytes and nobody_writes is False and len(data) < LONG_BYTES:  # the shortest way for the most common data
        out = bytes(32)
        try:
            bare.yurewha_data_hash(data, len(data), out)
        except ctypes.ArgumentError as error:
            raise error_in_python(error) from None
        return Hash._of(out)
    return _handed(data, nobody_writes, _data_hashed, _data_hashed_by_pieces)


def internal_node_hash(data: BytesLike, *, nobody_writes: bool = False) -> Hash:
    """Returns the hash of an inner node of the tree with this text. Bytes are read as by `data_hash`.

    >>> internal_node_hash(b"") == Hasher.internal_node().hash()
    True
    """
    return _handed(data, nobody_writes, _node_hashed, _node_hashed_by_pieces)


def _data_hashed(start: Start, length: int) -> Hash:
    if length > STEP:
        return Hasher()._hash_in_steps(start, length)
    out = bytes(32)
    calls_for(length, LONG_BYTES).yurewha_data_hash(start, length, out)
    return Hash._of(out)


def _node_hashed(start: Start, length: int) -> Hash:
    if length > STEP:
        return Hasher.internal_node()._hash_in_steps(start, length)
    out = bytes(32)
    calls_for(length, LONG_BYTES).yurewha_internal_node_hash(start, length, out)
    return Hash._of(out)


def _data_hashed_by_pieces(lent: Lent) -> Hash:
    return Hasher()._hash_by_pieces(lent)


def _node_hashed_by_pieces(lent: Lent) -> Hash:
    return Hasher.internal_node()._hash_by_pieces(lent)


def _handed(
    data: BytesLike, nobody_writes: bool, at_once: Callable[[Start, int], _Result], by_pieces: Callable[[Lent], _Result]
) -> _Result:
    """Passes bytes on at once, in place if nobody writes to them, else as one copy; or lends them to be copied by pieces."""
    if nobody_writes is not False:
        checked_bool(nobody_writes, "nobody_writes")
    if type(data) is bytes:
        return at_once(data, len(data))
    if type(data) is memoryview:
        return _handed_view(checked_view(data), nobody_writes, at_once, by_pieces)
    with view_of_bytes(data) as view:
        return _handed_view(view, nobody_writes, at_once, by_pieces)


def _handed_view(
    view: memoryview, nobody_writes: bool, at_once: Callable[[Start, int], _Result], by_pieces: Callable[[Lent], _Result]
) -> _Result:
    """Passes the bytes of a view on. It doesn't release the view, which may be the caller's."""
    length, owner = view.nbytes, view.obj
    if length < _SHORT or not view.c_contiguous or type(owner) is bytes and len(owner) == length:
        return at_once(bytes_of(view), length)
    if nobody_writes or type(owner) is bytes or is_read_only(view):
        return in_place(view, at_once)
    if length <= PIECE:
        return at_once(view.tobytes(), length)
    with Lent(view) as lent:
        lent.hold()
        return by_pieces(lent)


def place_of(start: Start) -> int:
    """Returns the address of the first of some bytes.

    >>> data = b"abc"
    >>> ctypes.string_at(place_of(data), 3)
    b'abc'
    """
    return ctypes.cast(ctypes.c_char_p(start) if isinstance(start, bytes) else start, ctypes.c_void_p).value or 0


def _add_copies(state: CHasher, lent: Lent) -> None:
    """Appends bytes that others may change, in copies."""
    for start in range(0, lent.length, PIECE):
        stop = min(start + PIECE, lent.length)
        _add(state, lent.piece(start, stop), stop - start)


def _add_in_steps(state: CHasher, start: Start, length: int) -> None:
    """Appends bytes in steps, between which a signal handler may end the call. The bytes stay where they are."""
    place = place_of(start)
    for at in range(0, length, STEP):
        _add(state, ctypes.c_char_p(place + at), min(STEP, length - at))


def _add(state: CHasher, start: Start, length: int) -> None:
    status = calls_for(length, LONG_BYTES).yurewha_hasher_update(state, start, length)
    if status:
        raise error_of(status)


@final
class Hasher(Guarded):
    """A hasher that takes a message in pieces, like those of `hashlib`. It computes the same hash as `data_hash`.

    >>> hasher = Hasher(b"a")
    >>> hasher.update(b"bc")
    >>> hasher.hash() == data_hash(b"abc")
    True
    """

    __slots__ = ("_state", "_reference", "_name", "_in_update")

    digest_size: int = 32
    block_size: int = 64

    # It stays in one place. So a call by a signal handler, made between two steps of another call, isn't lost.
    _state: CHasher
    # What ctypes passes to the library for it.
    _reference: Any
    _name: str
    # Whether a long update is under way, which overwrites the state at its end.
    _in_update: bool

    def __new__(cls, data: BytesLike = b"") -> Hasher:
        self = object.__new__(cls)
        self._guard()
        self._state = CHasher()
        self._reference = ctypes.byref(self._state)
        self._name = "yurewha-data"
        self._in_update = False
        short.yurewha_hasher_begin_data(self._state)
        self.update(data)
        return self

    def __init_subclass__(cls) -> None:
        raise TypeError("Hasher can't be subclassed")

    @staticmethod
    def internal_node(data: BytesLike = b"") -> Hasher:
        """Returns a hasher that computes the same hash as `internal_node_hash`.

        >>> Hasher.internal_node(b"abc").hash() == internal_node_hash(b"abc")
        True
        """
        self = Hasher()
        self._name = "yurewha-internal-node"
        short.yurewha_hasher_begin_internal(self._state)
        self.update(data)
        return self

    @staticmethod
    def keyed(key: BytesLike, data: BytesLike = b"") -> Hasher:
        """Returns a hasher for keyed BLAKE3 under a key of 32 bytes.

        >>> Hasher.keyed(bytes(32), bytes(32)).hash() == Hash().hmac(Hash())
        True
        """
        checked = checked_32(key, "key")
        self = Hasher()
        self._name = "blake3-keyed"
        short.yurewha_hasher_begin_keyed(self._state, checked)
        self.update(data)
        return self

    @property
    def name(self) -> str:
        """The name of its kind of key: `yurewha-data`, `yurewha-internal-node` or `blake3-keyed`.

        >>> Hasher().name
        'yurewha-data'
        """
        return self._name

    @property
    def count(self) -> int:
        """The length of the message in bytes.

        >>> Hasher(b"abc").count
        3
        """
        with self._locked():
            return int(short.yurewha_hasher_count(self._state))

    def update(self, data: BytesLike, *, nobody_writes: bool = False) -> None:
        """Appends a piece to the message. Raises `SizeOverflow` if it would have more than 2^64 - 1 bytes.

        Bytes are read as by `data_hash`. While more than a MiB is being copied, or more than 32 MiB is being hashed, `update` in a
        signal handler raises `ReentrantCall`. Any other update in a handler takes effect. A handler that raises, as Ctrl-C does,
        ends the call within hundredths of a second, and nothing is appended.

        >>> Hasher(bytearray(b"abc")).count
        3
        """
        if type(data) is bytes and nobody_writes is False and len(data) <= _FEW:  # the shortest way
            with self._lock if self._generation == process.now[0] else self._locked():
                if self._in_update:
                    self._refuse_reentry()
                status = update_as_given(self._reference, data, _SIZES[len(data)])
            if status:
                raise error_of(status)
            return
        with self._locked():
            _handed(data, nobody_writes, self._add, self._add_by_pieces)

    def _refuse_reentry(self) -> None:
        if self._in_update:
            raise ReentrantCall("a signal handler called update during a long update of the same hasher")

    def _add(self, start: Start, length: int) -> None:
        self._refuse_reentry()
        if length <= STEP:
            _add(self._state, start, length)
        else:
            self._add_all(lambda state: _add_in_steps(state, start, length))

    def _add_by_pieces(self, lent: Lent) -> None:
        self._refuse_reentry()
        self._add_all(lambda state: _add_copies(state, lent))

    def _add_all(self, add: Callable[[CHasher], None]) -> None:
        """Appends all that a call adds to a state, or nothing if the call ends early."""
        self._in_update = True
        try:
            state = CHasher.from_buffer_copy(self._state)
            add(state)
            memmove(self._reference, ctypes.byref(state), ctypes.sizeof(CHasher))
        finally:
            self._in_update = False

    def _hash_in_steps(self, start: Start, length: int) -> Hash:
        _add_in_steps(self._state, start, length)
        return self.hash()

    def _hash_by_pieces(self, lent: Lent) -> Hash:
        self._add_by_pieces(lent)
        return self.hash()

    def hash(self) -> Hash:
        """Returns the hash of the message so far. The hasher can take more pieces.

        >>> Hasher().hash() == data_hash(b"")
        True
        """
        out = bytes(32)
        with self._locked():
            short.yurewha_hasher_finalize(self._state, out)
        return Hash._of(out)

    def digest(self) -> bytes:
        """Returns the 32 bytes of the hash.

        >>> Hasher(b"abc").digest() == data_hash(b"abc").bytes
        True
        """
        return self.hash().bytes

    def hexdigest(self) -> str:
        """Returns the hex text of the hash, as `Hash.hex` writes it. It differs from `digest().hex()`.

        >>> Hasher(b"abc").hexdigest() == data_hash(b"abc").hex()
        True
        """
        return self.hash().hex()

    def copy(self) -> Hasher:
        """Returns an independent hasher of the same message.

        >>> one = Hasher(b"a"); other = one.copy(); other.update(b"b")
        >>> one.count, other.count
        (1, 2)
        """
        other = Hasher()
        with self._locked():
            other._name = self._name
            memmove(other._reference, self._reference, ctypes.sizeof(CHasher))
        return other

    def __copy__(self) -> Hasher:
        return self.copy()

    def __deepcopy__(self, memo: object) -> Hasher:
        return self.copy()

    def __reduce__(self) -> NoReturn:
        raise TypeError("a Hasher can't be pickled")

    def __repr__(self) -> str:
        try:
            return f"<yurewha.Hasher {self._name}, {counted(self.count, 'byte')}>"
        except YurewhaError:
            return "<yurewha.Hasher that can't be read>"
