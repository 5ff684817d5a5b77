"""Roots of lists of chunks, and subtrees of ranges of chunks."""

from __future__ import annotations

import ctypes
import os
from typing import (
    TYPE_CHECKING,
    Callable,
    ClassVar,
    Iterable,
    List,
    NamedTuple,
    NoReturn,
    Optional,
    Sequence,
    SupportsIndex,
    Tuple,
    Union,
    final,
)

from ._accounts import memory_of_nodes, token_of
from ._calls import string_at
from ._chunks import Chunks, ChunksLike
from ._declarations import STATUSES
from ._errors import InvalidArguments, InvalidLists, YurewhaError, but_got, counted, error_of
from ._guard import Handle, all_locked, both_locked
from ._hash import Hash, checked_32, checked_bool, checked_text, checked_u64, own_bytes
from ._interrupts import MANY_BYTES, MANY_NODES, interruptible
from ._levels import LEVEL, Counts, packed_levels
from ._library import (
    LONG_BYTES,
    LONG_CHUNKS,
    LONG_NODES,
    CChunk,
    CHash,
    CLevel,
    CSubtree,
    calls_for,
    short,
)
from ._saving import Path, read_whole, write_whole
from ._types import BytesLike, Texts

__all__ = ["Flat", "Subtree", "file_hash", "find_stable_end", "find_stable_start", "xorb_hash"]

_CHUNK_SIZE = ctypes.sizeof(CChunk)
#: What is said of the marks at the start and at the end.
_ENDS = {
    (False, False): "open at both ends",
    (True, False): "at the start",
    (False, True): "at the end",
    (True, True): "at the start and at the end",
}
_FromFlat = Callable[[bool, Iterable[Sequence[SupportsIndex]], ChunksLike, bool], "Subtree"]


def xorb_hash(chunks: ChunksLike) -> Hash:
    """Returns the root of a list of chunks. Raises `SizeOverflow` if the sizes add up to more than 2^64 - 1.

    >>> one, two = (Hash.random_from_seed(1), 100), (Hash.random_from_seed(2), 200)
    >>> xorb_hash([one, two, one, two]).hex()[:16]
    '90f8313ef12df385'
    """
    packed = Chunks(chunks).packed
    count = len(packed) // _CHUNK_SIZE
    return interruptible(lambda: _xorb_hash(packed, count), count >= MANY_NODES)


def _xorb_hash(packed: bytes, count: int) -> Hash:
    out = CHash()
    status = calls_for(count, LONG_CHUNKS).yurewha_xorb_hash(packed, count, out)
    if status:
        raise error_of(status)
    return Hash._of(bytes(out))


def file_hash(chunks: ChunksLike, salt: Optional[BytesLike] = None) -> Hash:
    """Returns the file hash of a list of chunks. A salt has 32 bytes. Raises `SizeOverflow` as `xorb_hash` does.

    >>> file_hash([(Hash(), 0)]).hex()[:16]
    '638a6bc391964a85'
    >>> file_hash([(Hash(), 0)], salt=bytes(32)) == file_hash([(Hash(), 0)])
    True
    """
    packed = Chunks(chunks).packed
    count, key = len(packed) // _CHUNK_SIZE, None if salt is None else checked_32(salt, "salt")
    return interruptible(lambda: _file_hash(packed, count, key), count >= MANY_NODES)


def _file_hash(packed: bytes, count: int, salt: Optional[bytes]) -> Hash:
    calls, out = calls_for(count, LONG_CHUNKS), CHash()
    if salt is None:
        status = calls.yurewha_file_hash(packed, count, out)
    else:
        status = calls.yurewha_file_hash_with_salt(packed, count, salt, out)
    if status:
        raise error_of(status)
    return Hash._of(bytes(out))


def _stable_point(nodes: ChunksLike, which: str) -> Optional[int]:
    packed = Chunks(nodes).packed
    count, out = len(packed) // _CHUNK_SIZE, ctypes.c_size_t()
    call = getattr(calls_for(count, LONG_CHUNKS), which)
    status = interruptible(lambda: int(call(packed, count, out)), count >= MANY_NODES)
    if status == 1:
        return None
    if status:
        raise error_of(status)
    return out.value


def find_stable_start(nodes: ChunksLike) -> Optional[int]:
    """Returns the number of nodes before the first stable point, or None if there is no such point.

    At a stable point a group ends, no matter which nodes come before and after the given ones.

    >>> find_stable_start([(Hash(bytes(24) + bytes([i % 4 != 3]) + bytes(7)), 1) for i in range(20)])
    8
    >>> find_stable_start([]) is None
    True
    """
    return _stable_point(nodes, "yurewha_find_stable_start")


def find_stable_end(nodes: ChunksLike) -> Optional[int]:
    """Returns the number of nodes before the last stable point, or None if there is no such point.

    >>> find_stable_end([(Hash(bytes(24) + bytes([i % 4 != 3]) + bytes(7)), 1) for i in range(20)])
    16
    """
    return _stable_point(nodes, "yurewha_find_stable_end")


class Flat(NamedTuple):
    """A subtree as flat lists.

    `at_start` and `at_end` are the marks. `levels` has the number of left and right nodes of each level, from the chunks up.
    `nodes` has the left nodes of all levels, lowest level first, then the right nodes of all levels, highest level first.

    >>> Subtree.from_chunks(True, [(Hash(), 7)], False).to_flat()
    Flat(at_start=True, levels=((1, 0),), nodes=<yurewha.Chunks of 1>, at_end=False)
    """

    at_start: bool
    levels: Counts
    nodes: Chunks
    at_end: bool


@final
class Subtree(Handle):
    """What is kept of a range of chunks. It is enough to merge the range with its neighbours, without the chunks.

    It has JSON and can be pickled. Unpickling a stranger's file runs its code, whatever this package checks.

    >>> one, two = (Hash.random_from_seed(1), 100), (Hash.random_from_seed(2), 200)
    >>> left = Subtree.from_chunks(True, [one, two, one], False)    # the beginning of a file
    >>> right = Subtree.from_chunks(False, [two], True)             # its end
    >>> (left + right).final_hash() == xorb_hash([one, two, one, two])
    True
    """

    __slots__ = ()

    _handle: CSubtree
    # An instance is mutable, so it has no hash.
    __hash__: ClassVar[None] = None  # type: ignore[assignment]

    if TYPE_CHECKING:

        def __init__(self, there_is_no_such_call: NoReturn) -> None: ...

    else:

        def __new__(cls, *arguments: object, **names: object) -> Subtree:
            return cls._empty()

        def __init__(self, *arguments: object, **names: object) -> None:
            raise TypeError("a Subtree is made by Subtree.from_chunks, .merge_all, .from_json or .from_flat")

    def __init_subclass__(cls) -> None:
        raise TypeError("Subtree can't be subclassed")

    _free = staticmethod(short.yurewha_subtree_free)

    @classmethod
    def _empty(cls) -> Subtree:
        self = object.__new__(cls)
        self._guard()
        self._handle = CSubtree()
        return self

    @staticmethod
    def from_chunks(at_start: bool, chunks: ChunksLike, at_end: bool) -> Subtree:
        """Returns the subtree of some chunks. `at_start` says that no chunk comes before them, `at_end` that none comes after.

        Raises `SizeOverflow` if the sizes add up to more than 2^64 - 1.

        >>> Subtree.from_chunks(False, [(Hash(), 7)], False)
        <yurewha.Subtree open at both ends, levels (1, 0), 7 bytes>
        """
        checked_bool(at_start, "at_start")
        checked_bool(at_end, "at_end")
        packed = Chunks(chunks).packed
        count = len(packed) // _CHUNK_SIZE
        return interruptible(lambda: Subtree._from_chunks(at_start, packed, count, at_end), count >= MANY_NODES)

    @staticmethod
    def _from_chunks(at_start: bool, packed: bytes, count: int, at_end: bool) -> Subtree:
        self = Subtree._empty()
        status = calls_for(count, LONG_CHUNKS).yurewha_subtree_from_chunks(at_start, packed, count, at_end, self._handle)
        if status:
            raise error_of(status)
        return self

    # ---- Properties

    @property
    def at_start(self) -> bool:
        """Whether no chunk comes before it.

        >>> Subtree.from_chunks(True, [], False).at_start
        True
        """
        return self._marks()[0]

    @property
    def at_end(self) -> bool:
        """Whether no chunk comes after it.

        >>> Subtree.from_chunks(True, [], False).at_end
        False
        """
        return self._marks()[1]

    def _marks(self) -> Tuple[bool, bool]:
        at_start, at_end = ctypes.c_bool(), ctypes.c_bool()
        with self._locked():
            status = short.yurewha_subtree_marks(self._handle, at_start, at_end)
        if status:
            raise error_of(status)
        return at_start.value, at_end.value

    @property
    def total_size(self) -> int:
        """The total size of the chunks in bytes.

        >>> Subtree.from_chunks(False, [(Hash(), 7), (Hash(), 8)], False).total_size
        15
        """
        out = ctypes.c_uint64()
        with self._locked():
            status = short.yurewha_subtree_total_size(self._handle, out)
        if status:
            raise error_of(status)
        return out.value

    @property
    def num_nodes(self) -> int:
        """The number of nodes that are kept.

        >>> Subtree.from_chunks(False, [(Hash(), 7), (Hash(), 8)], False).num_nodes
        2
        """
        return self._count(short.yurewha_subtree_num_nodes)

    @property
    def num_levels(self) -> int:
        """The number of levels.

        >>> Subtree.from_chunks(False, [], False).num_levels
        1
        """
        return self._count(short.yurewha_subtree_num_levels)

    def _count(self, call: Callable[[CSubtree, ctypes.c_size_t], int]) -> int:
        out = ctypes.c_size_t()
        with self._locked():
            status = call(self._handle, out)
        if status:
            raise error_of(status)
        return out.value

    def _nodes(self) -> int:
        """Returns the number of kept nodes, or 0 if the handle is empty. The caller holds the lock."""
        out = ctypes.c_size_t()
        short.yurewha_subtree_num_nodes(self._handle, out)
        return out.value

    @property
    def is_empty(self) -> bool:
        """Whether no node is kept.

        >>> Subtree.from_chunks(True, [], True).is_empty
        True
        """
        return self.num_nodes == 0

    @property
    def levels(self) -> Counts:
        """The number of left and right nodes of each level, from the chunks up.

        >>> Subtree.from_chunks(False, [(Hash(), 7), (Hash(), 8)], False).levels
        ((2, 0),)
        """
        return self.to_flat().levels

    def left(self, level: int) -> Chunks:
        """Returns the nodes that are kept of a level before the gap. There are none if there is no such level.

        >>> len(Subtree.from_chunks(False, [(Hash(), 7), (Hash(), 8)], False).left(0))
        2
        """
        return self._side(level, 0)

    def right(self, level: int) -> Chunks:
        """Returns the nodes that are kept of a level after the gap. There are none if there is no such level.

        >>> len(Subtree.from_chunks(False, [(Hash(), 7), (Hash(), 8)], False).right(0))
        0
        """
        return self._side(level, 1)

    def _side(self, level: int, side: int) -> Chunks:
        number = checked_u64(level, "level")
        flat = self.to_flat()
        if number >= len(flat.levels):
            return Chunks()
        return sides_of(flat)[number][side]

    def final_hash(self) -> Optional[Hash]:
        """Returns the root of the chunks, or None if an end isn't marked.

        >>> Subtree.from_chunks(True, [], True).final_hash() == Hash()
        True
        """
        out = CHash()
        with self._locked():
            status = short.yurewha_subtree_final_hash(self._handle, out)
        if status == 1:
            return None
        if status:
            raise error_of(status)
        return Hash._of(bytes(out))

    def file_hash(self, salt: Optional[BytesLike] = None) -> Optional[Hash]:
        """Returns the file hash of the chunks, or None if an end isn't marked. A salt has 32 bytes.

        Without chunks it is the default hash, with and without a salt. Raises `InvalidArguments` if a salt doesn't have 32
        bytes.

        >>> chunks = [(Hash.random_from_seed(1), 100), (Hash.random_from_seed(2), 200)]
        >>> Subtree.from_chunks(True, chunks, True).file_hash() == file_hash(chunks)
        True
        """
        key = Hash() if salt is None else Hash(checked_32(salt, "salt"))
        root = self.final_hash()
        # A subtree with both marks never changes, so it is still empty or not.
        return root if root is None or self.is_empty else root.hmac(key)

    def finish(self, salt: Optional[BytesLike] = None) -> Hash:
        """Returns the file hash of the chunks, as `file_hash` does, but raises `InvalidArguments` if an end isn't marked.

        `file_hash` returns None then, and so it does for any two subtrees that aren't whole.

        >>> chunks = [(Hash.random_from_seed(1), 100), (Hash.random_from_seed(2), 200)]
        >>> Subtree.from_chunks(True, chunks, True).finish() == file_hash(chunks)
        True
        """
        made = self.file_hash(salt)
        if made is None:
            raise InvalidArguments(but_got("a subtree must be marked at both ends to have a file hash", f"one {_ENDS[self._marks()]}"))
        return made

    # ---- Merging

    def merge(self, other: Subtree) -> None:
        """Merges `other`, the subtree of the range that follows, into this one. `front += back` does the same.

        Raises `InvalidArguments` if this one is marked at its end or `other` at its start. Raises `SizeOverflow` if the two
        sizes add up to more than 2^64 - 1. After an error nothing has changed. `other` never changes.

        >>> one = Subtree.from_chunks(True, [(Hash(), 7)], False)
        >>> one.merge(Subtree.from_chunks(False, [(Hash(), 8)], True)); one.total_size
        15
        """
        self._merge(other, None)

    def merge_counted(self, other: Subtree) -> int:
        """Does the same as `merge`. Returns how many parents were hashed for it, at most 2^64 - 1.

        >>> one = Subtree.from_chunks(True, [(Hash(), 7)], False)
        >>> one.merge_counted(Subtree.from_chunks(False, [(Hash(), 8)], True))
        1
        """
        parents = ctypes.c_uint64()
        self._merge(other, parents)
        return parents.value

    def _merge(self, other: Subtree, parents: Optional[ctypes.c_uint64]) -> None:
        if not isinstance(other, Subtree):
            raise TypeError(but_got("a Subtree must be merged with a Subtree", type(other).__name__))
        interruptible(lambda: self._merged(other, parents), self._has_many_nodes() or other._has_many_nodes(), self, other)

    def _has_many_nodes(self) -> bool:
        with self._locked():
            return self._nodes() >= MANY_NODES

    def _merged(self, other: Subtree, parents: Optional[ctypes.c_uint64]) -> None:
        first, second = both_locked(self, other)
        with first, second:
            if other is self:  # a call needs two different handles
                other = self.copy()
            calls = calls_for(self._nodes() + other._nodes(), LONG_NODES)
            if parents is None:
                status = calls.yurewha_subtree_merge_into(self._handle, other._handle)
            else:
                status = calls.yurewha_subtree_merge_into_counted(self._handle, other._handle, parents)
        if status:
            raise error_of(status, "the front subtree is marked at its end, or the back one at its start")

    def __iadd__(self, other: Subtree) -> Subtree:
        if not isinstance(other, Subtree):
            return NotImplemented
        self._merge(other, None)
        return self

    def __add__(self, other: Subtree) -> Subtree:
        if not isinstance(other, Subtree):
            return NotImplemented
        merged = self.copy()
        merged._merge(merged if other is self else other, None)  # another thread may have changed this one since
        return merged

    @staticmethod
    def merge_all(ranges: Iterable[Subtree]) -> Subtree:
        """Merges the subtrees of adjacent ranges, in order, and returns one subtree. They don't change.

        With no ranges, the result is the empty subtree with both marks. Raises `InvalidArguments` if a range other than the
        first is marked at its start, or one other than the last at its end. Raises `SizeOverflow` if the sizes of all ranges
        add up to more than 2^64 - 1.

        >>> Subtree.merge_all([]).final_hash() == Hash()
        True
        >>> Subtree.merge_all(Subtree.from_chunks(False, [(Hash(), size)], False) for size in (1, 2, 3)).total_size
        6
        """
        items: List[Subtree] = []
        for item in ranges:
            if not isinstance(item, Subtree):
                raise TypeError(but_got(f"range {len(items)} must be a Subtree", type(item).__name__))
            items.append(item)
        many = any(item._has_many_nodes() for item in items)
        return interruptible(lambda: Subtree._merged_all(items), many, *items)

    @staticmethod
    def _merged_all(given: List[Subtree]) -> Subtree:
        merged, seen = Subtree._empty(), set()
        items: List[Subtree] = []
        with all_locked(given):
            # A repeated object is copied, because a call needs different handles.
            for item in given:
                items.append(item._copied() if id(item) in seen else item)
                seen.add(id(item))
            nodes = sum(item._nodes() for item in items)
            handles = (CSubtree * len(items))()
            # The handles move into one array and stay there. At each moment the object has one of the two places, even if
            # a signal handler ends this call between two steps.
            for place, item in enumerate(items):
                handles[place].at = item._handle.at
                item._handle = handles[place]
            status = calls_for(nodes, LONG_NODES).yurewha_subtree_merge(handles, len(items), merged._handle)
            if status == STATUSES["YUREWHA_ARGUMENTS"]:
                raise InvalidArguments(_misplaced(items))
        if status:
            raise error_of(status)
        return merged

    # ---- Copies and forms

    def copy(self) -> Subtree:
        """Returns an equal, independent subtree.

        >>> one = Subtree.from_chunks(True, [], False)
        >>> one.copy() == one, one.copy() is one
        (True, False)
        """
        return interruptible(self._copied, self._has_many_nodes(), self)

    def _copied(self) -> Subtree:
        other = Subtree._empty()
        with self._locked():
            calls = calls_for(self._nodes(), LONG_NODES)
            status = calls.yurewha_subtree_clone(self._handle, other._handle)
        if status:
            raise error_of(status)
        return other

    def __copy__(self) -> Subtree:
        return self.copy()

    def __deepcopy__(self, memo: object) -> Subtree:
        return self.copy()

    def __eq__(self, other: object) -> bool:
        if not isinstance(other, Subtree):
            return NotImplemented
        if other is self:
            return True
        equal = ctypes.c_bool()
        first, second = both_locked(self, other)
        with first, second:
            calls = calls_for(self._nodes(), LONG_NODES)
            status = calls.yurewha_subtree_equal(self._handle, other._handle, equal)
        if status:
            raise error_of(status)
        return equal.value

    def __dask_tokenize__(self) -> Tuple[str, ...]:
        at_start, levels, nodes, at_end = self.to_flat()
        return token_of("Subtree", bytes([at_start, at_end]), packed_levels(levels), nodes.packed)

    def _memory(self) -> int:
        return memory_of_nodes(self.num_nodes, self.num_levels)

    def to_json(self) -> str:
        """Returns the subtree as compact JSON text.

        >>> Subtree.from_chunks(True, [], True).to_json()
        '{"at_end":true,"at_start":true,"levels":[[0,0]],"nodes":[]}'
        """
        return self.copy()._to_json()

    def _to_json(self) -> str:
        """Returns the JSON text. The subtree is a copy, which no signal handler can change between two steps."""
        nodes, length = self.num_nodes, ctypes.c_size_t()
        # A node has 64 hex digits, a size of at most 20 digits, and punctuation. A level has two numbers.
        room = 128 * nodes + 64 * self.num_levels + 128
        text = ctypes.create_string_buffer(room)
        with self._locked():
            status = calls_for(nodes, LONG_NODES).yurewha_subtree_to_json(self._handle, text, room, length)
        if status:
            raise error_of(status)
        return string_at(text, length.value).decode("ascii")

    @staticmethod
    def from_json(text: Union[str, BytesLike]) -> Subtree:
        """Returns the subtree that a JSON text describes. The text is a `str` or its bytes.

        Raises `InvalidText` if the text isn't JSON. Raises `InvalidJson` with the lowest rule, from 1 to 13, that it breaks.

        >>> Subtree.from_json('{"at_end":true,"at_start":true,"levels":[[0,0]],"nodes":[]}').is_empty
        True
        """
        data = checked_text(text, "JSON") if isinstance(text, str) else own_bytes(text)
        return interruptible(lambda: Subtree._from_json(data), len(data) >= MANY_BYTES)

    @staticmethod
    def _from_json(data: bytes) -> Subtree:
        self = Subtree._empty()
        status = calls_for(len(data), LONG_BYTES).yurewha_subtree_from_json(data, len(data), self._handle)
        if status:
            raise error_of(status, "the text isn't JSON")
        return self

    def save(self, path: Path) -> None:
        """Writes the subtree to a file, whole or not at all: an error or a crash leaves the file that was there before.

        >>> import tempfile, os.path
        >>> with tempfile.TemporaryDirectory() as folder:
        ...     one, path = Subtree.from_chunks(True, [(Hash(), 7)], False), os.path.join(folder, "subtree")
        ...     one.save(path)
        ...     Subtree.load(path) == one
        True
        """
        write_whole(path, b"subtree", self.to_json().encode("ascii"))

    @staticmethod
    def load(path: Path) -> Subtree:
        """Returns the subtree that `save` wrote to a file.

        Raises `InvalidText` if the file is of another kind, was cut off or was changed. Opening and reading it raise `OSError`.

        >>> import tempfile, os.path
        >>> with tempfile.TemporaryDirectory() as folder:
        ...     path = os.path.join(folder, "subtree")
        ...     Subtree.from_chunks(True, [(Hash(), 7)], False).save(path)
        ...     Subtree.load(path).total_size
        7
        """
        return Subtree.from_json(read_whole(path, b"subtree"))

    def to_flat(self) -> Flat:
        """Returns the subtree as flat lists.

        >>> Subtree.from_chunks(False, [(Hash(), 7)], True).to_flat().levels
        ((1, 0),)
        """
        return self.copy()._to_flat()

    def _to_flat(self) -> Flat:
        """Returns the flat lists. The subtree is a copy, as in `_to_json`."""
        at_start, at_end = self._marks()
        levels, nodes = (CLevel * self.num_levels)(), (CChunk * self.num_nodes)()
        level_count, node_count = ctypes.c_size_t(), ctypes.c_size_t()
        with self._locked():
            status = calls_for(len(nodes), LONG_NODES).yurewha_subtree_to_flat(
                self._handle, levels, len(levels), nodes, len(nodes), level_count, node_count)
        if status:
            raise error_of(status)
        return Flat(at_start, tuple((level.left, level.right) for level in levels), Chunks._of(bytes(nodes)), at_end)

    @staticmethod
    def from_flat(at_start: bool, levels: Iterable[Sequence[SupportsIndex]], nodes: ChunksLike, at_end: bool) -> Subtree:
        """Returns the subtree that flat lists describe, in the form of `to_flat`.

        Raises `InvalidLists` with the lowest rule, from 5 to 13, that they break.

        >>> Subtree.from_flat(True, [(1, 0)], [(Hash(), 7)], False).total_size
        7
        """
        checked_bool(at_start, "at_start")
        checked_bool(at_end, "at_end")
        counts, packed = packed_levels(levels), Chunks(nodes).packed
        count, self = len(packed) // _CHUNK_SIZE, Subtree._empty()
        status = calls_for(count, LONG_NODES).yurewha_subtree_from_flat(
            at_start, counts, len(counts) // LEVEL.size, packed, count, at_end, self._handle)
        if status:
            raise error_of(status, of_rule=InvalidLists)
        return self

    def __reduce__(self) -> Tuple[_FromFlat, Tuple[bool, Counts, bytes, bool]]:
        # A pickle has flat lists, which are checked like JSON. So a changed pickle gives a valid subtree or an error.
        flat = self.to_flat()
        return Subtree.from_flat, (flat.at_start, flat.levels, flat.nodes.packed, flat.at_end)

    def __repr__(self) -> str:
        try:
            one = self.copy()
            flat, size = one._to_flat(), one.total_size
        except YurewhaError:
            return "<yurewha.Subtree that can't be read>"
        ends = _ENDS[flat.at_start, flat.at_end]
        shown = [str(level) for level in flat.levels]
        if len(shown) > 8:
            shown[4:-4] = [".."]
        return f"<yurewha.Subtree {ends}, levels {' '.join(shown)}, {counted(size, 'byte')}>"

    # ---- Pictures

    def svg(self, caption: str = "") -> str:
        """Returns a picture of the subtree as SVG text. Each level is a row with its kept nodes on both sides of the gap.

        >>> Subtree.from_chunks(True, [(Hash(), 7)], True).svg()[:4]
        '<svg'
        """
        return svg_of([self], [caption])

    def _repr_svg_(self) -> str:
        return self.svg()

    def write_svg(self, path: Union[str, "os.PathLike[str]"], caption: str = "") -> None:
        """Writes the picture that a notebook shows to a file.

        >>> import tempfile, os.path
        >>> with tempfile.TemporaryDirectory() as folder:
        ...     Subtree.from_chunks(True, [(Hash(), 7)], True).write_svg(os.path.join(folder, "a.svg"))
        """
        write_svg(path, [self], [caption])


def _misplaced(ranges: Sequence[Subtree]) -> str:
    """Returns an error text that names the range with a mark between two ranges."""
    for place, item in enumerate(ranges):
        if place > 0 and item.at_start:
            return f"range {place} is at the start, and isn't the first"
        if place < len(ranges) - 1 and item.at_end:
            return f"range {place} is at the end, and isn't the last"
    return "the ranges don't follow one another"


def sides_of(flat: Flat) -> List[Tuple[Chunks, Chunks]]:
    """Returns the left and the right nodes of each level.

    >>> sides_of(Subtree.from_chunks(True, [(Hash(), 7)], False).to_flat())
    [(<yurewha.Chunks of 1>, <yurewha.Chunks of 0>)]
    """
    lefts, rights, at = [], [], 0
    for left, _ in flat.levels:
        lefts.append(flat.nodes[at:at + left])
        at += left
    for _, right in reversed(flat.levels):
        rights.append(flat.nodes[at:at + right])
        at += right
    return list(zip(lefts, reversed(rights)))


def svg_of(subtrees: Sequence[Subtree], captions: Texts = ()) -> str:
    """Returns one picture of several subtrees, one below the other, each with its caption.

    Raises `InvalidArguments` if there are more captions than subtrees, and `TypeError` if a caption isn't a `str`.

    >>> svg_of([Subtree.from_chunks(True, [(Hash(), 7)], True)], ["one chunk"]).count("one chunk")
    1
    """
    from ._picture import picture_of  # which programs that only hash don't load

    if isinstance(captions, str):
        raise TypeError(but_got("captions must be a list of them", "a str"))
    shown, texts = list(subtrees), list(captions)
    if len(texts) > len(shown):
        raise InvalidArguments(but_got(f"there must be at most {len(shown)} captions, one for each subtree", len(texts)))
    for place, caption in enumerate(texts):
        if not isinstance(caption, str):
            raise TypeError(but_got(f"caption {place} must be a str", type(caption).__name__))
    drawn = []
    for place, subtree in enumerate(shown):
        if not isinstance(subtree, Subtree):
            raise TypeError(but_got(f"picture {place} must be of a Subtree", type(subtree).__name__))
        flat = subtree.to_flat()
        drawn.append((texts[place] if place < len(texts) else "", flat.at_start, flat.at_end, sides_of(flat)))
    return picture_of(drawn)


def write_svg(
    path: Union[str, "os.PathLike[str]"], subtrees: Sequence[Subtree], captions: Texts = ()
) -> None:
    """Writes the picture of several subtrees to a file.

    >>> import tempfile, os.path
    >>> with tempfile.TemporaryDirectory() as folder:
    ...     write_svg(os.path.join(folder, "a.svg"), [Subtree.from_chunks(True, [(Hash(), 7)], True)])
    """
    text = svg_of(subtrees, captions)
    with open(path, "w", encoding="utf-8", newline="\n") as file:
        file.write(text)
