"""An index of hashes that are known, for finding out which are new, and where each stands."""

from __future__ import annotations

import ctypes
import struct
from typing import ClassVar, Iterator, List, Optional, Tuple, Type, final

from ._accounts import memory_of_index, token_of
from ._calls import string_at
from ._declarations import STATUSES
from ._errors import InvalidText, YurewhaError, but_got, error_of
from ._guard import Handle
from ._hash import Hash, HashLike, checked_u64, raw_of
from ._hashes import Hashes, HashesLike
from ._interrupts import MANY_NODES, interruptible
from ._library import LONG_CHUNKS, CHash, CHashIndex, calls_for, find_as_given, short
from ._numbers import NumbersLike, packed_numbers
from ._saving import Path, read_whole, write_whole

__all__ = ["HashIndex"]

_SIZE, _SIZE_OF_NUMBER = 32, 8
_EACH = struct.Struct(f"{_SIZE}s")
_ONE = ctypes.c_size_t.from_param(1)
#: So many hashes are added at once where pieces are possible, because the library takes 73 bytes more for each while it adds it.
AT_ONCE = 1 << 14
#: More hashes than a signal handler adds while all are read.
_MORE_ROOM = 1 << 10
#: What a saved index begins with if a number isn't 0. The length shows that it is there.
_HAS_NUMBERS = b"\1"


@final
class HashIndex(Handle):
    """A number for each of some hashes, such as where a chunk stands. It says which hashes of a list are new, as one does before an upload.

    A hash is a `Hash` or its 32 bytes, and a list is what `Hashes` accepts. A number is a whole number from 0 to 2^64 - 1. Numbers are a
    list with one for each hash, or a column of NumPy or Arrow, or an `array.array`. A hash that comes without one has 0. The number that
    came first stays. The library has them, in 55 to 110 bytes each. Threads may use one index at once.

    >>> index = HashIndex([Hash()], [7])
    >>> index.add(Hash(), 8), index.add(Hash.random_from_seed(1)), Hash() in index, len(index)
    (False, True, True, 2)
    >>> index.numbers([Hash.random_from_seed(1), Hash(), Hash.random_from_seed(2)])
    [0, 7, None]
    """

    __slots__ = ()

    _handle: CHashIndex
    # An instance is mutable, so it has no hash.
    __hash__: ClassVar[None] = None  # type: ignore[assignment]

    def __new__(cls, hashes: HashesLike = (), numbers: Optional[NumbersLike] = None) -> HashIndex:
        self = object.__new__(cls)
        self._guard()
        self._handle = CHashIndex()
        status = short.yurewha_hash_index_new(self._handle)
        if status:
            raise error_of(status)
        packed, beside = self._columns(hashes, numbers)
        count = len(packed) // _SIZE
        interruptible(lambda: self._insert_each(packed, beside), count >= MANY_NODES, self)
        return self

    def __init_subclass__(cls) -> None:
        raise TypeError("HashIndex can't be subclassed")

    _free = staticmethod(short.yurewha_hash_index_free)

    def add(self, hash_: HashLike, number: int = 0) -> bool:
        """Adds a hash with its number, unless it is in the index. Returns whether it is new.

        Raises `InvalidArguments` if the number is out of range.

        >>> index = HashIndex()
        >>> index.add(Hash(), 7), index.add(Hash(), 8), index.number(Hash())
        (True, False, 7)
        """
        return self._insert(raw_of(hash_, "hash"), checked_u64(number, "number").to_bytes(_SIZE_OF_NUMBER, "little")) == 1

    def add_all(self, hashes: HashesLike, numbers: Optional[NumbersLike] = None) -> int:
        """Adds the hashes of a list that aren't in the index, with their numbers. Returns how many these are, each counted once.

        Raises `InvalidArguments` if there isn't one number for each hash, or with the index of the first that is out of range. After an
        error nothing was added.

        >>> index = HashIndex([Hash()])
        >>> index.add_all([Hash(), Hash.random_from_seed(1), Hash.random_from_seed(1)], [5, 6, 7]), index.number(Hash.random_from_seed(1))
        (1, 6)
        """
        packed, beside = self._columns(hashes, numbers)
        return interruptible(lambda: self._insert(packed, beside), len(packed) // _SIZE >= MANY_NODES, self)

    @staticmethod
    def _columns(hashes: HashesLike, numbers: Optional[NumbersLike]) -> Tuple[bytes, bytes]:
        """Returns the block of some hashes, and that of their numbers."""
        packed = Hashes(hashes).packed
        return packed, bytes(_SIZE_OF_NUMBER * (len(packed) // _SIZE)) if numbers is None else packed_numbers(numbers, "number")

    def _insert_each(self, packed: bytes, numbers: bytes) -> None:
        """Adds hashes in pieces, which takes less memory. After an error some are added, so nobody else may have the index."""
        if len(numbers) * _SIZE != len(packed) * _SIZE_OF_NUMBER:
            self._insert(packed, numbers)  # raises
        for start in range(0, len(packed) // _SIZE, AT_ONCE):
            end = start + AT_ONCE
            self._insert(packed[start * _SIZE:end * _SIZE], numbers[start * _SIZE_OF_NUMBER:end * _SIZE_OF_NUMBER])

    def _insert(self, packed: bytes, numbers: bytes) -> int:
        count, number_count, new = len(packed) // _SIZE, len(numbers) // _SIZE_OF_NUMBER, ctypes.c_size_t()
        with self._locked():
            status = calls_for(count, LONG_CHUNKS).yurewha_hash_index_insert(self._handle, packed, count, numbers, number_count, new)
        if status:
            raise error_of(status, but_got("there must be one number for each hash", f"{count} hashes and {number_count} numbers"))
        return new.value

    def number(self, hash_: HashLike) -> Optional[int]:
        """Returns the number of a hash, or None if it isn't in the index.

        >>> HashIndex([Hash()], [7]).number(Hash())
        7
        """
        found, number = self._found(hash_)
        return int.from_bytes(number, "little") if found[0] else None

    def __contains__(self, hash_: HashLike) -> bool:
        return self._found(hash_)[0][0] == 1

    def _found(self, hash_: HashLike) -> Tuple[bytes, bytes]:
        """Returns 1 if a hash is in the index, or 0, in the first of two bytes, and its number."""
        raw = hash_._raw if type(hash_) is Hash else raw_of(hash_, "hash")
        # The call writes to these new objects, which nobody else has seen.
        found, number = bytes(2), bytes(_SIZE_OF_NUMBER)
        with self._locked():
            status = find_as_given(ctypes.byref(self._handle), raw, _ONE, found, _ONE, number, _ONE)
        if status:
            raise error_of(status)
        return found, number

    def numbers(self, hashes: HashesLike) -> List[Optional[int]]:
        """Returns the number of each hash of a list, or None where it isn't in the index.

        >>> HashIndex([Hash()], [7]).numbers([Hash(), Hash.random_from_seed(1)])
        [7, None]
        """
        found, numbers = self._found_all(hashes)
        return [number if it else None for it, number in zip(found, memoryview(numbers).cast("Q"))]

    def contains(self, hashes: HashesLike) -> List[bool]:
        """Returns of each hash of a list whether it is in the index. `hashes[index.contains(hashes)]` has those that are.

        >>> HashIndex([Hash()]).contains([Hash(), Hash.random_from_seed(1)])
        [True, False]
        """
        return [it == 1 for it in self._found_all(hashes)[0]]

    def _found_all(self, hashes: HashesLike) -> Tuple[bytes, bytes]:
        """Returns 1 or 0 for each hash of a list, whether it is in the index, and their numbers."""
        packed = Hashes(hashes).packed
        count = len(packed) // _SIZE

        def work() -> Tuple[bytes, bytes]:
            found, numbers = (ctypes.c_uint8 * count)(), (ctypes.c_uint64 * count)()
            with self._locked():
                status = calls_for(count, LONG_CHUNKS).yurewha_hash_index_find(self._handle, packed, count, found, count, numbers, count)
            if status:
                raise error_of(status)
            return bytes(found), bytes(numbers)
        return interruptible(work, count >= MANY_NODES, self)

    def new(self, hashes: HashesLike) -> Hashes:
        """Returns the hashes of a list that aren't in the index, each once, in their order.

        >>> list(HashIndex([Hash()]).new([Hash(), Hash.random_from_seed(1)])) == [Hash.random_from_seed(1)]
        True
        """
        listed = Hashes(hashes)
        fresh = (raw for (raw,), is_known in zip(_EACH.iter_unpack(listed.packed), self._found_all(listed)[0]) if not is_known)
        return Hashes._of(b"".join(dict.fromkeys(fresh)))

    def hashes(self) -> Hashes:
        """Returns all hashes, in no particular order. `index.numbers(index.hashes())` has their numbers.

        >>> list(HashIndex([Hash()]).hashes()) == [Hash()]
        True
        """
        return Hashes._of(self._entries()[0])

    def _entries(self) -> Tuple[bytes, bytes]:
        """Returns all hashes, and their numbers."""
        return interruptible(self._all_entries, len(self) >= MANY_NODES, self)

    def _all_entries(self) -> Tuple[bytes, bytes]:
        with self._locked():
            while True:
                room = len(self) + _MORE_ROOM
                hashes, numbers = (CHash * room)(), (ctypes.c_uint64 * room)()
                count = min(len(self), room)
                status = calls_for(count, LONG_CHUNKS).yurewha_hash_index_entries(self._handle, hashes, count, numbers, count)
                if status != STATUSES["YUREWHA_ARGUMENTS"]:  # or else a handler added hashes before the call
                    break
        if status:
            raise error_of(status)
        return string_at(hashes, _SIZE * count), string_at(numbers, _SIZE_OF_NUMBER * count)

    def __len__(self) -> int:
        out = ctypes.c_size_t()
        with self._locked():
            status = short.yurewha_hash_index_len(self._handle, out)
        if status:
            raise error_of(status)
        return out.value

    def __iter__(self) -> Iterator[Hash]:
        return iter(self.hashes())

    def __eq__(self, other: object) -> bool:
        if not isinstance(other, HashIndex):
            return NotImplemented
        if self is other:
            return True
        # Nothing is ever taken out: an index that had all these hashes, and then had no more than these, had exactly these.
        hashes, numbers = self._entries()
        return other._found_all(hashes) == (b"\1" * (len(hashes) // _SIZE), numbers) and len(hashes) == _SIZE * len(other)

    def __dask_tokenize__(self) -> Tuple[str, ...]:
        hashes, numbers = self._entries()
        entries = sorted(zip(_EACH.iter_unpack(hashes), memoryview(numbers).cast("Q")))
        return token_of("HashIndex", b"".join(raw + number.to_bytes(_SIZE_OF_NUMBER, "little") for (raw,), number in entries))

    def _memory(self) -> int:
        return memory_of_index(len(self))

    def save(self, path: Path) -> None:
        """Writes the index to a file, whole or not at all: an error or a crash leaves the file that was there before.

        The file has 32 bytes for each hash, and eight more unless all numbers are 0.

        >>> import tempfile, os.path
        >>> with tempfile.TemporaryDirectory() as folder:
        ...     index, path = HashIndex([Hash()]), os.path.join(folder, "index")
        ...     index.save(path)
        ...     HashIndex.load(path) == index
        True
        """
        hashes, *numbers = self._written()
        write_whole(path, b"hash index", b"".join((_HAS_NUMBERS, hashes, *numbers)) if numbers else hashes)

    @staticmethod
    def load(path: Path) -> HashIndex:
        """Returns the index that `save` wrote to a file.

        Raises `InvalidText` if the file is of another kind, was cut off or was changed. Opening and reading it raise `OSError`.

        >>> import tempfile, os.path
        >>> with tempfile.TemporaryDirectory() as folder:
        ...     path = os.path.join(folder, "index")
        ...     HashIndex([Hash()]).save(path)
        ...     len(HashIndex.load(path))
        1
        """
        body = read_whole(path, b"hash index")
        if len(body) % _SIZE == 0:
            return HashIndex(body)
        count, more = divmod(len(body), _SIZE + _SIZE_OF_NUMBER)
        if more != len(_HAS_NUMBERS) or not body.startswith(_HAS_NUMBERS):
            raise InvalidText(but_got("a saved hash index must have 32 bytes for each hash, or 1 and 40 for each", f"{len(body)} bytes"))
        return HashIndex(body[1:1 + _SIZE * count], body[1 + _SIZE * count:])

    def copy(self) -> HashIndex:
        """Returns an independent index with the same hashes and numbers.

        >>> one = HashIndex([Hash()]); other = one.copy()
        >>> other.add(Hash.random_from_seed(1)), len(one), len(other)
        (True, 1, 2)
        """
        return HashIndex(*self._entries())

    def __copy__(self) -> HashIndex:
        return self.copy()

    def __deepcopy__(self, memo: object) -> HashIndex:
        return self.copy()

    def _written(self) -> Tuple[bytes, ...]:
        """Returns what is saved: all hashes, and their numbers unless all are 0."""
        hashes, numbers = self._entries()
        return (hashes, numbers) if numbers.strip(b"\0") else (hashes,)

    def __reduce__(self) -> Tuple[Type[HashIndex], Tuple[bytes, ...]]:
        return HashIndex, self._written()

    def __repr__(self) -> str:
        try:
            return f"<yurewha.HashIndex of {len(self)}>"
        except YurewhaError:
            return "<yurewha.HashIndex that can't be read>"
