"""Range proofs: parts of a file that are checked against the hash of the file."""

from __future__ import annotations

import ctypes
from typing import (
    TYPE_CHECKING,
    Callable,
    Iterable,
    NoReturn,
    Optional,
    Sequence,
    SupportsIndex,
    Tuple,
    Union,
    final,
)

from ._accounts import memory_of_range, token_of
from ._calls import string_at
from ._chunks import Chunks, ChunksLike
from ._errors import ProofMismatch, ProofTooLong, YurewhaError, but_got, error_of
from ._guard import Handle
from ._hash import HashLike, Start, checked_32, checked_bool, checked_text, checked_u64, own_bytes, raw_of
from ._lent import in_place, is_read_only, view_of_bytes
from ._interrupts import MANY_BYTES, MANY_NODES, interruptible
from ._levels import LEVEL, Counts, packed_levels
from ._library import LONG_BYTES, LONG_NODES, CChunk, CLevel, COpenedRange, calls_for, short
from ._types import BytesLike

__all__ = ["OpenedRange", "RangeProof"]

_CHUNK_SIZE = ctypes.sizeof(CChunk)
#: How many bytes a proof may have, unless the caller allows more: as JSON, those of some 160,000 nodes.
PROOF_LIMIT = 1 << 24
#: The most levels of a proof.
MOST_LEVELS = 64
# The fewest bytes of a node in JSON.
_LEAST_NODE = len('{"hash":"","size":0}') + 64
_FromFlat = Callable[[Iterable[Sequence[SupportsIndex]], ChunksLike], "RangeProof"]


@final
class RangeProof:
    """The nodes of some adjacent chunks of a file, the *range*, and the other nodes of each group on the way up.

    With it, whoever knows the file hash checks these chunks, where in the file they are, and how long the file is. A
    `HashTree` makes it. It may come from anybody: until it is opened, nothing is known but that it has the right form. It is
    immutable, has JSON and bytes, and can be pickled. Unpickling a stranger's file runs its code, whatever this package checks.

    >>> from yurewha import HashTree, data_hash
    >>> tree = HashTree([(data_hash(data), len(data)) for data in (b"a chunk", b"another", b"and a third")])
    >>> proof = tree.proof(1, 2)
    >>> proof
    <yurewha.RangeProof of 1 chunk, with 2 nodes beside on 1 level>
    >>> proof.open(tree.file_hash()).check(0, b"another")    # it is at byte 7 of the file
    7
    """

    __slots__ = ("_levels", "_nodes")

    # The C structs of the flat lists.
    _levels: bytes
    _nodes: Chunks

    if TYPE_CHECKING:

        def __init__(self, there_is_no_such_call: NoReturn) -> None: ...

    else:

        def __init__(self, *arguments: object, **names: object) -> None:
            raise TypeError("a RangeProof is made by HashTree.proof, RangeProof.from_json, .from_flat or .from_bytes")

        def __setattr__(self, name: str, value: object) -> None:
            raise AttributeError("a range proof can't be changed")

        def __delattr__(self, name: str) -> None:
            raise AttributeError("a range proof can't be changed")

    def __init_subclass__(cls) -> None:
        raise TypeError("RangeProof can't be subclassed")

    @classmethod
    def _of(cls, levels: bytes, nodes: bytes) -> RangeProof:
        self = object.__new__(cls)
        object.__setattr__(self, "_levels", levels)
        object.__setattr__(self, "_nodes", Chunks._of(nodes))
        return self

    @classmethod
    def _written_to(cls, levels: ctypes.Array[CLevel], num_levels: int, nodes: ctypes.Array[CChunk], num_nodes: int) -> RangeProof:
        """Returns the proof that a call of the library wrote to these arrays."""
        return cls._of(string_at(levels, LEVEL.size * num_levels), string_at(nodes, _CHUNK_SIZE * num_nodes))

    # ---- Nodes

    @property
    def levels(self) -> Counts:
        """How many nodes are on the left and on the right side of each level, from the chunks up.

        The proof of a file of one chunk has no level.

        >>> from yurewha import Hash, HashTree
        >>> HashTree([(Hash(), 7), (Hash(), 8)]).proof(0, 1).levels
        ((0, 1),)
        """
        return tuple(LEVEL.iter_unpack(self._levels))  # type: ignore[arg-type]

    @property
    def num_levels(self) -> int:
        """The number of levels.

        >>> from yurewha import Hash, HashTree
        >>> HashTree([(Hash(), 7)]).proof(0, 1).num_levels
        0
        """
        return len(self._levels) // LEVEL.size

    @property
    def chunks(self) -> Chunks:
        """The nodes of the range. They show nothing by themselves: only data that was checked is shown.

        >>> from yurewha import Hash, HashTree
        >>> list(HashTree([(Hash(), 7), (Hash(), 8)]).proof(0, 1).chunks) == [(Hash(), 7)]
        True
        """
        lefts, rights = (sum(level[side] for level in self.levels) for side in (0, 1))
        return self._nodes[lefts:len(self._nodes) - rights]

    def left(self, level: int) -> Chunks:
        """Returns the nodes of a level before the range or the nodes above it. There are none if there is no such level.

        >>> from yurewha import Hash, HashTree
        >>> len(HashTree([(Hash(), 7), (Hash(), 8)]).proof(1, 2).left(0))
        1
        """
        counts, number = self.levels, checked_u64(level, "level")
        at = sum(left for left, _ in counts[:number])
        return self._nodes[at:at + counts[number][0]] if number < len(counts) else Chunks()

    def right(self, level: int) -> Chunks:
        """Returns the nodes of a level after the range or the nodes above it. There are none if there is no such level.

        >>> from yurewha import Hash, HashTree
        >>> len(HashTree([(Hash(), 7), (Hash(), 8)]).proof(1, 2).right(0))
        0
        """
        counts, number = self.levels, checked_u64(level, "level")
        after = len(self._nodes) - sum(right for _, right in counts[:number])
        return self._nodes[after - counts[number][1]:after] if number < len(counts) else Chunks()

    # ---- Opening

    def open(self, file_hash: HashLike, salt: Optional[BytesLike] = None) -> OpenedRange:
        """Opens the proof with a file hash, and the salt of 32 bytes that it is under. Returns the opened range.

        The proof shows that its nodes lead to this file hash. Whether they are chunks is shown only by checking data with
        `OpenedRange.check` or `read`. A stranger can give parents of chunks for chunks, with any places and file size.

        Raises `ProofMismatch` if the nodes don't lead to the file hash, or if that is the default hash, which is the hash of the
        empty file. Takes time and memory with the number of the proof's nodes.

        >>> from yurewha import Hash, HashTree
        >>> tree = HashTree([(Hash(), 7), (Hash(), 8)])
        >>> tree.proof(1, 2).open(tree.file_hash(salt=bytes(32)), salt=bytes(32))
        <yurewha.OpenedRange of 1 chunk: bytes from 7 up to 15 of 15, by the proof's word>
        """
        raw = raw_of(file_hash, "file hash")
        key = bytes(32) if salt is None else checked_32(salt, "salt")
        return self._opened("yurewha_range_proof_open", "the proof doesn't show this file hash under this salt", raw, key)

    def open_root(self, root: HashLike) -> OpenedRange:
        """Opens the proof with a root, such as the hash of a xorb, as `open` does with a file hash.

        >>> from yurewha import Hash, HashTree
        >>> tree = HashTree([(Hash(), 7), (Hash(), 8)])
        >>> tree.proof(0, 1).open_root(tree.root).file_size
        15
        """
        return self._opened("yurewha_range_proof_open_root", "the proof doesn't show this root", raw_of(root, "root"))

    def _opened(self, which: str, mismatch: str, *hashes: bytes) -> OpenedRange:
        opened, count = OpenedRange._empty(), len(self._nodes)
        call = getattr(calls_for(count, LONG_NODES), which)
        given = (self._levels, self.num_levels, self._nodes.packed, count, *hashes)
        status = interruptible(lambda: int(call(*given, opened._handle)), count >= MANY_NODES)
        if status:
            raise error_of(status, mismatch)
        return opened

    # ---- Forms

    def to_json(self) -> str:
        """Returns the proof as compact JSON text, about 100 bytes for each node.

        >>> from yurewha import Hash, HashTree
        >>> HashTree([(Hash(), 7)]).proof(0, 1).to_json().replace(64 * "0", "..")
        '{"chunks":[{"hash":"..","size":7}],"levels":[]}'
        """
        count, length = len(self._nodes), ctypes.c_size_t()
        # As in `Subtree._to_json`: a level's two arrays and its punctuation have less than 64 bytes.
        room = 128 * count + 64 * self.num_levels + 128
        text = ctypes.create_string_buffer(room)
        status = calls_for(count, LONG_NODES).yurewha_range_proof_to_json(
            self._levels, self.num_levels, self._nodes.packed, count, text, room, length)
        if status:
            raise error_of(status)
        return string_at(text, length.value).decode("ascii")

    @staticmethod
    def from_json(text: Union[str, BytesLike], *, limit: Optional[SupportsIndex] = PROOF_LIMIT) -> RangeProof:
        """Returns the proof that a JSON text describes. The text is a `str` or its bytes.

        Raises `InvalidText` if the text isn't JSON. Raises `InvalidProof` with the lowest rule, from 1 to 8, that it breaks. Time
        and memory are in proportion to the text. So a text of more than `limit` bytes raises `ProofTooLong`, and isn't read. That is
        16 MiB unless another number is given, or None for no limit.

        >>> RangeProof.from_json('{"chunks":[{"hash":"%064x","size":7}],"levels":[]}' % 1).levels
        ()
        """
        if isinstance(text, str):
            _check_length(len(text), limit)
        data = checked_text(text, "JSON") if isinstance(text, str) else own_bytes(text)
        _check_length(len(data), limit)
        return interruptible(lambda: RangeProof._from_json(data), len(data) >= MANY_BYTES)

    @staticmethod
    def _from_json(data: bytes) -> RangeProof:
        levels, nodes = (CLevel * MOST_LEVELS)(), (CChunk * (len(data) // _LEAST_NODE + 1))()
        level_count, node_count = ctypes.c_size_t(), ctypes.c_size_t()
        status = calls_for(len(data), LONG_BYTES).yurewha_range_proof_from_json(
            data, len(data), levels, len(levels), nodes, len(nodes), level_count, node_count)
        if status:
            raise error_of(status, "the text isn't JSON")
        return RangeProof._written_to(levels, level_count.value, nodes, node_count.value)

    def to_flat(self) -> Tuple[Counts, Chunks]:
        """Returns the proof as flat lists: the counts of `levels`, and all nodes in one list.

        The nodes are the left ones of all levels, lowest level first, then the range, then the right ones of all levels, highest
        level first.

        >>> from yurewha import Hash, HashTree
        >>> HashTree([(Hash(), 7), (Hash(), 8)]).proof(0, 1).to_flat()
        (((0, 1),), <yurewha.Chunks of 2>)
        """
        return self.levels, self._nodes

    @staticmethod
    def from_flat(levels: Iterable[Sequence[SupportsIndex]], nodes: ChunksLike) -> RangeProof:
        """Returns the proof that flat lists describe, in the form of `to_flat`.

        Raises `InvalidProof` with the lowest rule, from 5 to 8, that they break.

        >>> RangeProof.from_flat([], [(bytes(32), 7)]).levels
        ()
        """
        return RangeProof._of(packed_levels(levels), Chunks(nodes).packed)._checked()

    def _checked(self) -> RangeProof:
        """Returns the same proof. Raises `InvalidProof` with the lowest rule, from 5 to 8, that its lists break."""
        count = len(self._nodes)
        status = calls_for(count, LONG_NODES).yurewha_range_proof_check(self._levels, self.num_levels, self._nodes.packed, count)
        if status:
            raise error_of(status)
        return self

    def to_bytes(self) -> bytes:
        """Returns the proof as bytes, 40 for each node. In base64 they are short enough for a header of HTTP. All languages read them.

        They are a byte with the number of levels, two with the counts of each level, and the nodes, each a hash and a size of eight
        bytes, the least first.

        >>> len(RangeProof.from_flat([(0, 1)], [(bytes(32), 7), (bytes(32), 8)]).to_bytes())
        83
        """
        count, room, length = len(self._nodes), self._length(), ctypes.c_size_t()
        out = ctypes.create_string_buffer(room)
        status = calls_for(count, LONG_NODES).yurewha_range_proof_to_bytes(
            self._levels, self.num_levels, self._nodes.packed, count, out, room, length)
        if status:
            raise error_of(status)
        return string_at(out, length.value)

    def __bytes__(self) -> bytes:
        return self.to_bytes()

    def _length(self) -> int:
        """Returns how many bytes `to_bytes` has."""
        return 1 + 2 * self.num_levels + len(self._nodes.packed)

    @staticmethod
    def from_bytes(data: BytesLike, *, limit: Optional[SupportsIndex] = PROOF_LIMIT) -> RangeProof:
        """Returns the proof that bytes describe, in the form of `to_bytes`, or in a longer one that this package wrote before.

        Raises `InvalidProof` with the lowest rule that they break: 1 if there is no byte, 3 if there are fewer levels than the first byte
        says, 4 if no whole nodes follow, or one from 5 to 8. Raises `ProofTooLong` as `from_json` does.

        >>> proof = RangeProof.from_flat([(0, 1)], [(bytes(32), 7), (bytes(32), 8)])
        >>> RangeProof.from_bytes(proof.to_bytes()) == proof
        True
        """
        given = own_bytes(data)
        _check_length(len(given), limit)
        return interruptible(lambda: RangeProof._from_bytes(given), len(given) >= MANY_BYTES)

    @staticmethod
    def _from_bytes(data: bytes) -> RangeProof:
        longer = RangeProof._longer(data)
        if longer is not None:
            return longer._checked()
        levels, nodes = (CLevel * MOST_LEVELS)(), (CChunk * (len(data) // _CHUNK_SIZE))()
        level_count, node_count = ctypes.c_size_t(), ctypes.c_size_t()
        status = calls_for(len(nodes), LONG_NODES).yurewha_range_proof_from_bytes(
            data, len(data), levels, len(levels), nodes, len(nodes), level_count, node_count)
        if status:
            raise error_of(status)
        return RangeProof._written_to(levels, level_count.value, nodes, node_count.value)

    @staticmethod
    def _longer(data: bytes) -> Optional[RangeProof]:
        """Returns what bytes of the longer form describe, unchecked, or None if they have another form. Each number has eight bytes in it:
        the number of levels, the counts of each level, and the nodes. So its length is even, and that of the shorter form is odd."""
        at = 8 + LEVEL.size * int.from_bytes(data[:8], "little")
        if len(data) < at or (len(data) - at) % _CHUNK_SIZE:
            return None
        return RangeProof._of(data[8:at], data[at:])

    def __eq__(self, other: object) -> bool:
        if not isinstance(other, RangeProof):
            return NotImplemented
        return self._levels == other._levels and self._nodes == other._nodes

    def __hash__(self) -> int:
        return hash((self._levels, self._nodes))

    def __dask_tokenize__(self) -> Tuple[str, ...]:
        return token_of("RangeProof", self._levels, self._nodes.packed)

    def __sizeof__(self) -> int:
        """Returns how many bytes the object takes with its lists."""
        return object.__sizeof__(self) + len(self._levels) + len(self._nodes.packed)

    def __copy__(self) -> RangeProof:
        return self

    def __deepcopy__(self, memo: object) -> RangeProof:
        return self

    def __reduce__(self) -> Tuple[_FromFlat, Tuple[Counts, bytes]]:
        # As in `Subtree`, a pickle is checked when it is read.
        return RangeProof.from_flat, (self.levels, self._nodes.packed)

    def __repr__(self) -> str:
        chunks = len(self.chunks)
        beside = _counted(len(self._nodes) - chunks, "node")
        return f"<yurewha.RangeProof of {_counted(chunks, 'chunk')}, with {beside} beside on {_counted(self.num_levels, 'level')}>"


def _check_length(length: int, limit: Optional[SupportsIndex]) -> None:
    """Raises `ProofTooLong` if a proof has more bytes than are allowed."""
    if limit is not None and length > checked_u64(limit, "limit"):
        raise ProofTooLong(but_got(f"a proof must have at most {limit} bytes", f"{length}: see limit"))


def _counted(count: int, what: str) -> str:
    return f"{count} {what}{'s' * (count != 1)}"


@final
class OpenedRange(Handle):
    """A range proof that was opened with a file hash or a root, which checks the data of the range's chunks.

    It is proved what an accepted chunk means. Each file with the hash that the proof was opened with has these bytes at the place
    that `check` returns, and is as long as `file_size` says; or somebody has found a collision of BLAKE3. Until a chunk was
    checked, `begins`, `ends` and `file_size` are the proof's own word. A reader learns from them where to cut, and no more. A
    pickle has none of this: send the proof, and open it there.

    >>> from yurewha import HashTree, data_hash
    >>> tree = HashTree([(data_hash(data), len(data)) for data in (b"a chunk", b"another", b"and a third")])
    >>> opened = tree.proof(1, 3).open(tree.file_hash())
    >>> opened.check(1, b"and a third"), opened.begins(1)    # in any order, as they arrive
    (14, 14)
    >>> bytes(opened.read(12, 17, b"anotherand a third"))    # the bytes 12 to 16 of the file, from the data of both chunks
    b'erand'
    """

    __slots__ = ()

    _handle: COpenedRange

    if TYPE_CHECKING:

        def __init__(self, there_is_no_such_call: NoReturn) -> None: ...

    else:

        def __new__(cls, *arguments: object, **names: object) -> OpenedRange:
            return cls._empty()

        def __init__(self, *arguments: object, **names: object) -> None:
            raise TypeError("an OpenedRange is made by RangeProof.open or .open_root")

    def __init_subclass__(cls) -> None:
        raise TypeError("OpenedRange can't be subclassed")

    _free = staticmethod(short.yurewha_opened_range_free)

    @classmethod
    def _empty(cls) -> OpenedRange:
        self = object.__new__(cls)
        self._guard()
        self._handle = COpenedRange()
        return self

    @property
    def file_size(self) -> int:
        """The size of the file in bytes. It is the proof's own word until a chunk was checked.

        >>> from yurewha import Hash, HashTree
        >>> tree = HashTree([(Hash(), 7), (Hash(), 8)])
        >>> tree.proof(0, 1).open_root(tree.root).file_size
        15
        """
        out = ctypes.c_uint64()
        with self._locked():
            status = short.yurewha_opened_range_file_size(self._handle, out)
        if status:
            raise error_of(status)
        return out.value

    @property
    def num_chunks(self) -> int:
        """The number of chunks of the range. There is at least one.

        >>> from yurewha import Hash, HashTree
        >>> tree = HashTree([(Hash(), 7), (Hash(), 8)])
        >>> tree.proof(0, 2).open_root(tree.root).num_chunks
        2
        """
        out = ctypes.c_size_t()
        with self._locked():
            status = short.yurewha_opened_range_num_chunks(self._handle, out)
        if status:
            raise error_of(status)
        return out.value

    def begins(self, chunk: int) -> int:
        """Returns where in the file a chunk of the range begins. It is the proof's own word until a chunk was checked.

        The chunks of the range are numbered from 0. Raises `InvalidArguments` if there is no such chunk.

        >>> from yurewha import Hash, HashTree
        >>> tree = HashTree([(Hash(), 7), (Hash(), 8)])
        >>> tree.proof(1, 2).open_root(tree.root).begins(0)
        7
        """
        return self._bytes_of(chunk)[0]

    def ends(self, chunk: int) -> int:
        """Returns the place after the last byte of a chunk of the range, as `begins` does that of its first byte.

        >>> from yurewha import Hash, HashTree
        >>> tree = HashTree([(Hash(), 7), (Hash(), 8)])
        >>> tree.proof(1, 2).open_root(tree.root).ends(0)
        15
        """
        return self._bytes_of(chunk)[1]

    def _bytes_of(self, chunk: SupportsIndex) -> Tuple[int, int]:
        number, begin, end = checked_u64(chunk, "chunk number"), ctypes.c_uint64(), ctypes.c_uint64()
        with self._locked():
            status = short.yurewha_opened_range_bytes_of(self._handle, number, begin, end)
        if status:
            raise error_of(status, f"the range has no chunk {number}")
        return begin.value, end.value

    def check(self, chunk: int, data: BytesLike, *, nobody_writes: bool = False) -> int:
        """Checks the data of a chunk of the range. Returns where in the file it begins.

        The chunks of the range are numbered from 0. Raises `ProofMismatch` unless the data's hash and length are those of the
        chunk's node. Raises `InvalidArguments` if there is no such chunk. It never returns something for false, so a mismatch
        can't be overlooked. Read-only bytes are hashed in place, and others are copied, unless the caller promises with
        `nobody_writes=True` that nobody writes to them.

        >>> from yurewha import HashTree, data_hash
        >>> tree = HashTree([(data_hash(b"abc"), 3)])
        >>> tree.proof(0, 1).open(tree.file_hash()).check(0, b"abc")
        0
        """
        number, place = checked_u64(chunk, "chunk number"), ctypes.c_uint64()

        def check(start: Start, length: int) -> int:
            calls = calls_for(length, LONG_BYTES)
            with self._locked():
                return int(calls.yurewha_opened_range_check(self._handle, number, start, length, place))

        status = interruptible(lambda: passed(data, nobody_writes, check), is_great(data), self)
        if status:
            begin = self.begins(number)  # raises if there is no such chunk
            error = error_of(status, f"this isn't the data of chunk {number} of the range")
            if isinstance(error, ProofMismatch):
                error.chunk, error.place = number, begin
            raise error
        return place.value

    def read(self, start: int, stop: int, data: BytesLike, *, nobody_writes: bool = False) -> memoryview:
        """Checks the data of all chunks of the range, and returns the bytes of the file from `start` up to, but without, `stop`.

        `data` is the data of these chunks, one after another, and nothing else. Raises `ProofMismatch` unless each chunk checks
        and the range has these bytes. So a server that sends another part of the file, or another file, is refused.

        The result is a read-only view of the data if that is `bytes`, or a view of `bytes`. Other data is copied once, before it
        is checked. With `nobody_writes=True` the caller promises that nobody writes to it while the view is used, and it isn't
        copied.

        >>> from yurewha import HashTree, data_hash
        >>> tree = HashTree([(data_hash(data), len(data)) for data in (b"a chunk", b"another", b"and a third")])
        >>> bytes(tree.proof_of_bytes(8, 10).open(tree.file_hash()).read(8, 10, b"another"))
        b'no'
        """
        begin, end, at = checked_u64(start, "place"), checked_u64(stop, "place"), ctypes.c_size_t()
        view = _unchanging(data, nobody_writes)

        def read(first: Start, length: int) -> int:
            calls = calls_for(length, LONG_BYTES)
            with self._locked():
                return int(calls.yurewha_opened_range_read(self._handle, begin, end, first, length, at))

        def read_all() -> int:
            return read(data, len(data)) if type(data) is bytes else in_place(view, read)

        status = interruptible(read_all, view.nbytes >= MANY_BYTES, self)
        if status:
            error = error_of(status, self._told(begin, end, view.nbytes))
            if isinstance(error, ProofMismatch):
                error.chunk, error.place = self._first_wrong(view)
            raise error
        return view[at.value:at.value + end - begin]

    def _first_wrong(self, view: memoryview) -> Tuple[Optional[int], Optional[int]]:
        """Returns the number and the place of the first chunk that isn't right in the data of the range, if there is one."""
        begin = self.begins(0)
        try:
            for chunk in range(self.num_chunks if view.nbytes <= self.ends(self.num_chunks - 1) - begin else 0):
                first, end = self._bytes_of(chunk)
                self.check(chunk, view[first - begin:end - begin])
        except ProofMismatch as error:
            return error.chunk, error.place
        return None, None

    def _told(self, start: int, stop: int, length: int) -> str:
        """Returns why bytes couldn't be read from data of this length."""
        begin, end = self.begins(0), self.ends(self.num_chunks - 1)
        if not begin <= start <= stop <= end:
            return f"the proof is of the bytes from {begin} up to {end}, and not of those from {start} up to {stop}"
        if length != end - begin:
            return f"the range has {end - begin} bytes, and the data {length}"
        return "this isn't the data of the range"

    def _memory(self) -> int:
        return memory_of_range(self.num_chunks)

    def __copy__(self) -> OpenedRange:
        return self

    def __deepcopy__(self, memo: object) -> OpenedRange:
        return self

    def __reduce__(self) -> NoReturn:
        raise TypeError("an OpenedRange can't be pickled, but its RangeProof can")

    def __repr__(self) -> str:
        try:
            count = self.num_chunks
            places = f"bytes from {self.begins(0)} up to {self.ends(count - 1)} of {self.file_size}"
        except YurewhaError:
            return "<yurewha.OpenedRange that can't be read>"
        return f"<yurewha.OpenedRange of {_counted(count, 'chunk')}: {places}, by the proof's word>"


def is_great(data: BytesLike) -> bool:
    """Returns whether a call that reads these bytes may take longer than a tenth of a second.

    >>> is_great(b"abc")
    False
    """
    with view_of_bytes(data) as view:
        return view.nbytes >= MANY_BYTES


def passed(data: BytesLike, nobody_writes: bool, call: Callable[[Start, int], int]) -> int:
    """Passes bytes to a call at once, in place if nobody can write to them or if the caller promises it, else as a copy.

    >>> passed(b"abc", False, lambda start, length: length)
    3
    """
    checked_bool(nobody_writes, "nobody_writes")
    if type(data) is bytes:
        return call(data, len(data))
    with view_of_bytes(data) as view:
        if view.c_contiguous and (nobody_writes or is_read_only(view)):
            return in_place(view, call)
        return call(view.tobytes(), view.nbytes)


def _unchanging(data: BytesLike, nobody_writes: bool) -> memoryview:
    """Returns a read-only view of bytes, of a copy unless they are `bytes` or the caller promises that nobody writes to them."""
    checked_bool(nobody_writes, "nobody_writes")
    if type(data) is bytes:
        return memoryview(data)
    view = view_of_bytes(data)
    if view.format == "B" and view.ndim == 1 and view.c_contiguous and (nobody_writes or type(view.obj) is bytes):
        return view.toreadonly()
    return memoryview(view.tobytes())
