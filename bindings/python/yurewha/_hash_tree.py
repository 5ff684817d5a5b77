"""Hash trees, which make range proofs, and say how two files differ."""

from __future__ import annotations

import ctypes
from typing import NamedTuple, Optional, SupportsIndex, Tuple, Type, final

from ._accounts import memory_of_tree, token_of
from ._chunks import Chunks, ChunksLike
from ._errors import InvalidArguments, YurewhaError, but_got, counted, error_of
from ._guard import Handle, both_locked
from ._hash import Hash, checked_32, checked_u64
from ._hash_file import Progress, Source, all_chunks_of
from ._interrupts import MANY_NODES, interruptible
from ._library import LONG_CHUNKS, LONG_NODES, CChunk, CHash, CHashTree, CLevel, calls_for, short
from ._range_proof import MOST_LEVELS, RangeProof
from ._saving import Path, read_whole, write_whole
from ._types import BytesLike

__all__ = ["Difference", "HashTree"]

_CHUNK_SIZE = ctypes.sizeof(CChunk)
# At most 64 levels have at most 8 nodes on either side.
_MOST_BESIDE = 16 * MOST_LEVELS


class Difference(NamedTuple):
    """In what a file differs from another one: its chunks from `first` up to `end` stand where the other has those up to `other_end`.

    These are chunk numbers, and the chunks `end` and `other_end` aren't among them. All chunks before and after are the same in both
    files. `start`, `stop` and `other_stop` are the same places in bytes.

    >>> tree, other = HashTree([(Hash(), 7), (Hash(), 8), (Hash(), 9)]), HashTree([(Hash(), 7), (Hash(), 9)])
    >>> tree.diff(other)
    Difference(first=1, end=2, other_end=1, start=7, stop=15, other_stop=7)
    """

    first: int
    end: int
    other_end: int
    start: int
    stop: int
    other_stop: int


@final
class HashTree(Handle):
    """The chunks of a file, and all levels of nodes above them. Whoever has the list of the chunks proves parts of the file by it.

    A proof takes time with the number of levels and of its own nodes, and not with the number of chunks. A tree is immutable. Its
    pickle has the chunks alone, and the levels are made again.

    Raises `SizeOverflow` if the sizes add up to more than 2^64 - 1.

    >>> from yurewha import data_hash
    >>> tree = HashTree([(data_hash(data), len(data)) for data in (b"a chunk", b"another", b"and a third")])
    >>> proof = tree.proof_of_bytes(8, 10)                      # for whoever reads the bytes 8 and 9, and knows the file hash
    >>> bytes(proof.open(tree.file_hash()).read(8, 10, b"another"))
    b'no'
    """

    __slots__ = ()

    _handle: CHashTree

    def __new__(cls, chunks: ChunksLike) -> HashTree:
        packed = Chunks(chunks).packed
        count = len(packed) // _CHUNK_SIZE
        return interruptible(lambda: cls._made(packed, count), count >= MANY_NODES)

    @classmethod
    def _made(cls, packed: bytes, count: int) -> HashTree:
        self = object.__new__(cls)
        self._guard()
        self._handle = CHashTree()
        status = calls_for(count, LONG_CHUNKS).yurewha_hash_tree_from_chunks(packed, count, self._handle)
        if status:
            raise error_of(status)
        return self

    def __init_subclass__(cls) -> None:
        raise TypeError("HashTree can't be subclassed")

    _free = staticmethod(short.yurewha_hash_tree_free)

    @staticmethod
    def of_file(path: Source, *, threads: Optional[SupportsIndex] = None, progress: Optional[Progress] = None) -> HashTree:
        """Returns the tree of the chunks of a file, where Xet cuts it. The arguments are those of `hash_file`.

        >>> import io
        >>> HashTree.of_file(io.BytesIO(bytes(300_000)))
        <yurewha.HashTree of 3 chunks, 300000 bytes>
        """
        return HashTree(all_chunks_of(path, threads, progress))

    # ---- The file

    @property
    def root(self) -> Hash:
        """The root of the chunks, as `xorb_hash` returns it.

        >>> HashTree([]).root == Hash()
        True
        """
        out = CHash()
        with self._locked():
            status = short.yurewha_hash_tree_root(self._handle, out)
        if status:
            raise error_of(status)
        return Hash._of(bytes(out))

    def file_hash(self, salt: Optional[BytesLike] = None) -> Hash:
        """Returns the file hash of the chunks, as the function `file_hash` does. A salt has 32 bytes.

        >>> from yurewha import file_hash
        >>> HashTree([(Hash(), 7)]).file_hash() == file_hash([(Hash(), 7)])
        True
        """
        key, out = bytes(32) if salt is None else checked_32(salt, "salt"), CHash()
        with self._locked():
            status = short.yurewha_hash_tree_file_hash(self._handle, key, out)
        if status:
            raise error_of(status)
        return Hash._of(bytes(out))

    @property
    def num_chunks(self) -> int:
        """The number of chunks.

        >>> HashTree([(Hash(), 7), (Hash(), 8)]).num_chunks
        2
        """
        out = ctypes.c_size_t()
        with self._locked():
            status = short.yurewha_hash_tree_num_chunks(self._handle, out)
        if status:
            raise error_of(status)
        return out.value

    @property
    def total_size(self) -> int:
        """The total size of the chunks in bytes, which is the size of the file.

        >>> HashTree([(Hash(), 7), (Hash(), 8)]).total_size
        15
        """
        out = ctypes.c_uint64()
        with self._locked():
            status = short.yurewha_hash_tree_total_size(self._handle, out)
        if status:
            raise error_of(status)
        return out.value

    @property
    def chunks(self) -> Chunks:
        """The chunks that the tree was made of. They are copied.

        >>> list(HashTree([(Hash(), 7), (Hash(), 8)]).chunks) == [(Hash(), 7), (Hash(), 8)]
        True
        """
        count = self.num_chunks
        return self.proof(0, count).chunks if count else Chunks()

    def save(self, path: Path) -> None:
        """Writes the chunks of the tree to a file, whole or not at all: an error or a crash leaves the file that was there before.

        >>> import tempfile, os.path
        >>> with tempfile.TemporaryDirectory() as folder:
        ...     tree, path = HashTree([(Hash(), 7), (Hash(), 8)]), os.path.join(folder, "tree")
        ...     tree.save(path)
        ...     HashTree.load(path) == tree
        True
        """
        write_whole(path, b"hash tree", self.chunks.packed)

    @staticmethod
    def load(path: Path) -> HashTree:
        """Returns the tree of the chunks that `save` wrote to a file. Its levels are made again.

        Raises `InvalidText` if the file is of another kind, was cut off or was changed. Opening and reading it raise `OSError`.

        >>> import tempfile, os.path
        >>> with tempfile.TemporaryDirectory() as folder:
        ...     path = os.path.join(folder, "tree")
        ...     HashTree([(Hash(), 7), (Hash(), 8)]).save(path)
        ...     HashTree.load(path).total_size
        15
        """
        return HashTree(read_whole(path, b"hash tree"))

    # ---- Places

    def chunks_at(self, start: int, stop: int) -> Tuple[int, int]:
        """Returns the least range of chunks with the bytes from `start` up to `stop` or to the end of the file.

        These are the number of the first chunk, and one more than that of the last. Raises `InvalidArguments` if there is no such
        byte.

        >>> HashTree([(Hash(), 7), (Hash(), 8), (Hash(), 9)]).chunks_at(3, 15)
        (0, 2)
        """
        begin, end = checked_u64(start, "place"), checked_u64(stop, "place")
        first, after = ctypes.c_size_t(), ctypes.c_size_t()
        with self._locked():
            status = short.yurewha_hash_tree_chunks_at(self._handle, begin, end, first, after)
        if status:
            raise error_of(status, f"the file has no bytes from {begin} up to {end}")
        return first.value, after.value

    def bytes_of(self, first: int, end: int) -> Tuple[int, int]:
        """Returns where in the file the chunks from number `first` up to, but without, number `end` begin and end.

        Raises `InvalidArguments` if there is no such chunk, or not all of them are there.

        >>> HashTree([(Hash(), 7), (Hash(), 8), (Hash(), 9)]).bytes_of(1, 3)
        (7, 24)
        """
        number, after = checked_u64(first, "chunk number"), checked_u64(end, "chunk number")
        begin, stop = ctypes.c_uint64(), ctypes.c_uint64()
        with self._locked():
            status = short.yurewha_hash_tree_bytes_of(self._handle, number, after, begin, stop)
        if status:
            raise error_of(status, _no_chunks(number, after))
        return begin.value, stop.value

    def diff(self, other: HashTree) -> Optional[Difference]:
        """Returns in which chunks this file differs from another one, or None if both have the same chunks.

        These are all from the first that differs to the last, even if some between them are the same. Chunks are compared by their hashes
        and sizes.

        >>> tree, other = HashTree([(Hash(), 7), (Hash(), 8)]), HashTree([(Hash(), 7), (Hash(), 1), (Hash(), 2)])
        >>> difference = tree.diff(other)
        >>> tree.bytes_of(difference.first, difference.end), other.bytes_of(difference.first, difference.other_end)
        ((7, 15), (7, 10))
        """
        if not isinstance(other, HashTree):
            raise TypeError(but_got("a HashTree must be compared with a HashTree", type(other).__name__))
        count, other_count = self.num_chunks, other.num_chunks
        least = min(count, other_count)
        first, same = interruptible(lambda: self._in_common(other, least), least >= MANY_NODES, self, other)
        if first == count == other_count:
            return None
        end, other_end = count - same, other_count - same
        return Difference(first, end, other_end, self._place(first), self._place(end), other._place(other_end))

    def _in_common(self, other: HashTree, least: int) -> Tuple[int, int]:
        """Returns how many chunks two files have in common at the front, and at the end beside these. The shorter has `least` chunks."""
        calls, first, same = calls_for(least, LONG_CHUNKS), ctypes.c_size_t(), ctypes.c_size_t()
        one, two = both_locked(self, other)
        with one, two:
            status = calls.yurewha_hash_tree_common_prefix(self._handle, other._handle, first)
            status = status or calls.yurewha_hash_tree_common_suffix(self._handle, other._handle, least - first.value, same)
        if status:
            raise error_of(status)
        return first.value, same.value

    def _place(self, chunk: int) -> int:
        """Returns where in the file a chunk begins, or where the last one ends if the chunk would come after it."""
        return self.bytes_of(0, chunk)[1] if chunk else 0

    # ---- Proofs

    def proof(self, first: int, end: int) -> RangeProof:
        """Returns the proof of the chunks from number `first` up to, but without, number `end`.

        It can be opened with the file hash under each salt, and with the root. Each range has one proof. Raises `InvalidArguments`
        if there is no such chunk, or not all of them are there.

        >>> HashTree([(Hash(), 7), (Hash(), 8), (Hash(), 9)]).proof(1, 2)
        <yurewha.RangeProof of 1 chunk, with 2 nodes beside on 1 level>
        """
        number, after = checked_u64(first, "chunk number"), checked_u64(end, "chunk number")
        return self._proof(number, after, max(min(after, self.num_chunks) - number, 0))

    def _proof(self, number: int, after: int, count: int) -> RangeProof:
        """Returns the proof of chunks. There is room for so many, and for the other nodes."""
        room = count + _MOST_BESIDE
        return interruptible(lambda: self._proved(number, after, room), room >= MANY_NODES, self)

    def _proved(self, number: int, after: int, room: int) -> RangeProof:
        levels, nodes = (CLevel * MOST_LEVELS)(), (CChunk * room)()
        level_count, node_count = ctypes.c_size_t(), ctypes.c_size_t()
        with self._locked():
            status = calls_for(room - _MOST_BESIDE, LONG_NODES).yurewha_hash_tree_proof(
                self._handle, number, after, levels, MOST_LEVELS, nodes, room, level_count, node_count)
        if status:
            raise error_of(status, _no_chunks(number, after))
        return RangeProof._written_to(levels, level_count.value, nodes, node_count.value)

    def proof_of_bytes(self, start: int, stop: int) -> RangeProof:
        """Returns the proof of the chunks that `chunks_at` returns, those with the bytes from `start` up to `stop`.

        A server calls it for a reader. Raises `InvalidArguments` if there is no such byte. Of a file that has chunks, and none with a
        byte, it returns the proof of the first chunk, which shows the size of the file.

        >>> len(HashTree([(Hash(), 7), (Hash(), 8), (Hash(), 9)]).proof_of_bytes(3, 15).chunks)
        2
        """
        try:
            first, end = self.chunks_at(start, stop)
        except InvalidArguments:
            begin, after = checked_u64(start, "place"), checked_u64(stop, "place")
            if not self.total_size == 0 < self.num_chunks or begin >= after:
                raise
            first, end = 0, 1
        return self._proof(first, end, end - first)

    def __eq__(self, other: object) -> bool:
        if not isinstance(other, HashTree):
            return NotImplemented
        # Two lists with one root are two faces of a collision, or one of them has parents for chunks.
        return self is other or (self.root == other.root and self.chunks == other.chunks)

    def __hash__(self) -> int:
        return hash(self.root)

    def __dask_tokenize__(self) -> Tuple[str, ...]:
        return token_of("HashTree", self.chunks.packed)

    def _memory(self) -> int:
        return memory_of_tree(self.num_chunks)

    def __copy__(self) -> HashTree:
        return self

    def __deepcopy__(self, memo: object) -> HashTree:
        return self

    def __reduce__(self) -> Tuple[Type[HashTree], Tuple[bytes]]:
        return HashTree, (self.chunks.packed,)

    def __repr__(self) -> str:
        try:
            return f"<yurewha.HashTree of {counted(self.num_chunks, 'chunk')}, {counted(self.total_size, 'byte')}>"
        except YurewhaError:
            return "<yurewha.HashTree that can't be read>"


def _no_chunks(first: int, end: int) -> str:
    return f"the tree doesn't have the chunks from {first} up to {end}, or these are none"
