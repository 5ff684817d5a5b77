"""The hash of a file whose bytes come in pieces."""

from __future__ import annotations

import ctypes
from typing import NoReturn, Optional, final

from ._accounts import memory_of_file_hasher
from ._errors import YurewhaError, counted, error_of
from ._guard import Handle
from ._hash import Hash, Start, checked_32
from ._interrupts import interruptible
from ._library import LONG_BYTES, CFileHasher, CHash, calls_for, short
from ._range_proof import is_great, passed
from ._types import BytesLike

__all__ = ["FileHasher"]


@final
class FileHasher(Handle):
    """A hasher that takes a file in pieces, like those of `hashlib`, and has the hash by which Xet names the file.

    It cuts the file into chunks, as `Chunker` does, and keeps none of its bytes: if its chunks differ, and pieces have up to a MiB, it
    takes less than 1 MB. For a file that can be read, `hash_file` reads it, too.

    >>> from yurewha import data_hash, file_hash
    >>> hasher = FileHasher(b"a file")
    >>> hasher.update(b" in pieces")
    >>> hasher.file_hash() == file_hash([(data_hash(b"a file in pieces"), 16)])
    True
    """

    __slots__ = ()

    _handle: CFileHasher

    def __new__(cls, data: BytesLike = b"") -> FileHasher:
        self = object.__new__(cls)
        self._guard()
        self._handle = CFileHasher()
        status = short.yurewha_file_hasher_new(self._handle)
        if status:
            raise error_of(status)
        self.update(data)
        return self

    def __init_subclass__(cls) -> None:
        raise TypeError("FileHasher can't be subclassed")

    _free = staticmethod(short.yurewha_file_hasher_free)

    def update(self, data: BytesLike, *, nobody_writes: bool = False) -> None:
        """Appends a piece to the file. Raises `SizeOverflow` if it would have more than 2^64 - 1 bytes.

        Bytes that can be written to are copied first, unless the caller promises with `nobody_writes=True` that nobody writes to them
        during the call. After an error nothing is appended. If Ctrl-C ends the call, the piece was appended wholly or not.

        >>> hasher = FileHasher()
        >>> hasher.update(bytearray(b"abc")); hasher.size
        3
        """
        def add(start: Start, length: int) -> int:
            with self._locked():
                return int(calls_for(length, LONG_BYTES).yurewha_file_hasher_update(self._handle, start, length))

        status = interruptible(lambda: passed(data, nobody_writes, add), is_great(data), self)
        if status:
            raise error_of(status)

    @property
    def size(self) -> int:
        """How many bytes the file has so far.

        >>> FileHasher(b"abc").size
        3
        """
        out = ctypes.c_uint64()
        with self._locked():
            status = short.yurewha_file_hasher_size(self._handle, out)
        if status:
            raise error_of(status)
        return out.value

    def root(self) -> Hash:
        """Returns the root of the chunks of the file so far. The hasher can take more pieces.

        >>> FileHasher().root() == Hash()
        True
        """
        out = CHash()
        with self._locked():
            status = short.yurewha_file_hasher_root(self._handle, out)
        if status:
            raise error_of(status)
        return Hash._of(bytes(out))

    def file_hash(self, salt: Optional[BytesLike] = None) -> Hash:
        """Returns the file hash of the file so far. A salt has 32 bytes. The hasher can take more pieces.

        >>> FileHasher(b"abc").file_hash() == FileHasher(b"abc").file_hash(salt=bytes(32))
        True
        """
        key, out = None if salt is None else checked_32(salt, "salt"), CHash()
        with self._locked():
            if key is None:
                status = short.yurewha_file_hasher_finish(self._handle, out)
            else:
                status = short.yurewha_file_hasher_finish_with_salt(self._handle, key, out)
        if status:
            raise error_of(status)
        return Hash._of(bytes(out))

    def _memory(self) -> int:
        return memory_of_file_hasher(self.size)

    def __reduce__(self) -> NoReturn:
        raise TypeError("a FileHasher can't be pickled or copied")

    def __repr__(self) -> str:
        try:
            return f"<yurewha.FileHasher of {counted(self.size, 'byte')}>"
        except YurewhaError:
            return "<yurewha.FileHasher that can't be read>"
