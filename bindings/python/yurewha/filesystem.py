"""A read-only file system for fsspec, whose files are checked against their hashes. It needs fsspec, and nothing else here does.

fsspec knows it as `yurewha`, so that pandas, dask, zarr and others read through it:

    pandas.read_csv("yurewha://part.csv", storage_options={"hashes": hashes, "fetch": fetch, "prove": prove})

If the package isn't installed, fsspec knows it once this module was imported, or the package after fsspec: write `import
yurewha.filesystem` first.
"""

from __future__ import annotations

import errno
import io
import os
import uuid
from concurrent.futures import ThreadPoolExecutor
from typing import BinaryIO, Callable, Dict, Iterable, List, Mapping, NamedTuple, Optional, Sequence, SupportsIndex, Tuple, Union, cast

from fsspec import AbstractFileSystem, register_implementation  # type: ignore[import]

from ._checked_parts import hash_of
from ._errors import InvalidArguments, but_got
from ._hash import HashLike, checked_u64
from ._in_threads import checked_threads
from ._range_proof import PROOF_LIMIT, RangeProof
from ._types import BytesLike
from ._verified_file import VerifiedFile

__all__ = ["VerifiedFileSystem"]

_PROTOCOL = "yurewha"
#: How many bytes a reader of an opened file fetches at once, if it isn't told another number.
_BLOCK = 1 << 20
#: How many bytes between two ranges are fetched with them. A request takes longer than a chunk.
_GAP = 1 << 16

#: A place in a file: None is an end of the file, and a negative one counts from the end.
Place = Optional[int]
Ends = Union[Place, Sequence[Place]]


class _Range(NamedTuple):
    """Bytes that are asked for, and where their answer stands."""

    path: str
    start: int
    stop: int
    number: int


class VerifiedFileSystem(AbstractFileSystem):  # type: ignore[misc]
    """Read-only files that are somewhere else, by their paths. What is read of them is checked, as by a `VerifiedFile`.

    `hashes` has the file hash of each path: a `Hash`, its 32 bytes, or its hex text. `fetch(path, start, stop)` and
    `prove(path, start, stop)` return bytes and a proof of a file, as for a `VerifiedFile`. Several threads may call them at once.
    `salt`, `cache_size`, `chunk_limit`, `proof_limit`, `piece` and `read_ahead` are those of each `VerifiedFile`. `threads` is how many
    ranges `cat_ranges` reads at once.

    What is wrong raises `ProofMismatch`, whose `path` says which file it is. A path without a hash raises `FileNotFoundError`, and
    writing raises `io.UnsupportedOperation`. Each call makes a new file system, which equals no other one, because fsspec would compare
    two by the text of their arguments, and the text of a `fetch` doesn't say everything.

    >>> from yurewha import HashTree, data_hash
    >>> tree = HashTree([(data_hash(b"abc"), 3)])
    >>> files = VerifiedFileSystem(
    ...     {"a/b.txt": tree.file_hash()}, lambda path, start, stop: b"abc"[start:stop],
    ...     lambda path, start, stop: tree.proof_of_bytes(start, stop))
    >>> files.cat_file("a/b.txt", 1), files.ls("a", detail=False), files.size("yurewha://a/b.txt")
    (b'bc', ['a/b.txt'], 3)
    """

    protocol = _PROTOCOL
    root_marker = ""
    #: Whether fsspec returns an earlier file system in place of a new one.
    cachable = False

    def __init__(
        self,
        hashes: Mapping[str, Union[HashLike, str]],
        fetch: Callable[[str, int, int], BytesLike],
        prove: Callable[[str, int, int], RangeProof],
        salt: Optional[BytesLike] = None,
        *,
        cache_size: SupportsIndex = 1 << 22,
        chunk_limit: SupportsIndex = 1 << 20,
        proof_limit: SupportsIndex = PROOF_LIMIT,
        piece: SupportsIndex = 0,
        read_ahead: SupportsIndex = 0,
        threads: SupportsIndex = 8,
        **options: object,
    ) -> None:
        super().__init__(**options)
        for call, what in ((fetch, "fetch"), (prove, "prove")):
            if not callable(call):
                raise TypeError(but_got(f"{what} must be a callable", type(call).__name__))
        self._hashes = {self._name(path): hash_of(hash_, f"hash of {path}") for path, hash_ in hashes.items()}
        self._fetch, self._prove, self._salt = fetch, prove, salt
        self._cache_size, self._chunk_limit, self._proof_limit = cache_size, chunk_limit, proof_limit
        self._piece, self._read_ahead = piece, read_ahead
        self._threads = checked_threads(threads)
        self._files: Dict[str, VerifiedFile] = {}
        self._own_token = uuid.uuid4().hex

    @property
    def _fs_token(self) -> str:
        """What fsspec compares, and Dask takes for the value."""
        return self._own_token

    # ---- Files by their paths

    @classmethod
    def _name(cls, path: str) -> str:
        """Returns a path without the protocol and without slashes at its ends."""
        return cast(str, cls._strip_protocol(path)).strip("/")

    def _made(self, name: str) -> VerifiedFile:
        hash_ = self._hashes.get(name)
        if hash_ is None:
            raise FileNotFoundError(errno.ENOENT, os.strerror(errno.ENOENT), name)
        fetch, prove = self._fetch, self._prove
        file = VerifiedFile(
            hash_, lambda start, stop: fetch(name, start, stop), lambda start, stop: prove(name, start, stop), self._salt,
            cache_size=self._cache_size, chunk_limit=self._chunk_limit, proof_limit=self._proof_limit, piece=self._piece,
            read_ahead=self._read_ahead, name=name)
        file._path = name
        return file

    def _file(self, path: str) -> VerifiedFile:
        """Returns the file that all reads of parts share."""
        name = self._name(path)
        file = self._files.get(name)
        return self._files.setdefault(name, self._made(name)) if file is None else file

    def info(self, path: str, **options: object) -> Dict[str, object]:
        """Returns the name, size and type of a file or a directory. If nothing of a file was read yet, its first chunk is."""
        name = self._name(path)
        if name in self._hashes:
            return _told(name, self._file(name).size)
        if any(not name or other.startswith(name + "/") for other in self._hashes):
            return {"name": name, "size": 0, "type": "directory"}
        raise FileNotFoundError(errno.ENOENT, os.strerror(errno.ENOENT), name)

    def ls(self, path: str, detail: bool = True, **options: object) -> Union[List[str], List[Dict[str, object]]]:
        """Returns what a directory has, or a file itself. In a directory the size of a file is None unless something of it was read."""
        name = self._name(path)
        found = {name: self.info(name)} if name in self._hashes else self._inside(name)
        if not found and name:
            raise FileNotFoundError(errno.ENOENT, os.strerror(errno.ENOENT), name)
        if detail:
            return list(found.values())
        return list(found)

    def _inside(self, name: str) -> Dict[str, Dict[str, object]]:
        """Returns what a directory has, by its names."""
        before = f"{name}/" if name else ""
        found: Dict[str, Dict[str, object]] = {}
        for other in sorted(self._hashes):
            if other.startswith(before):
                first, slash, _ = other[len(before):].partition("/")
                inside = before + first
                file = self._files.get(other)
                size = None if file is None else file._size
                found[inside] = {"name": inside, "size": 0, "type": "directory"} if slash else _told(inside, size)
        return found

    def ukey(self, path: str) -> str:
        """Returns what changes with the file: its hash, as hex text."""
        return self._file(path).file_hash.hex()

    # ---- Reading

    def cat_file(self, path: str, start: Place = None, end: Place = None, **options: object) -> bytes:
        """Returns the bytes of a file from `start` up to, but without, `end`. Negative places count from the end, and None is an end."""
        file = self._file(path)
        return file.read_at(*_ends(file, start, end))

    def cat_ranges(
        self,
        paths: Sequence[str],
        starts: Ends,
        ends: Ends,
        max_gap: Optional[int] = None,
        on_error: str = "raise",
        **options: object,
    ) -> List[Union[bytes, BaseException]]:
        """Returns ranges of files, in the order in which they are asked for. A start or an end may be one for all.

        Ranges of a file that are at most `max_gap` bytes apart, 64 KiB if that is None, are fetched together, and others in several
        threads at once. With `on_error="return"` an error stands in the place of each range that it is of. Otherwise the first one is
        raised.
        """
        if on_error not in ("raise", "return"):
            raise InvalidArguments(but_got("on_error must be 'raise' or 'return'", repr(on_error)))
        gap = _GAP if max_gap is None else checked_u64(max_gap, "max_gap")
        places = [_for_all(places, len(paths)) for places in (starts, ends)]
        answers: List[Union[bytes, BaseException]] = [b""] * len(paths)
        ranges: List[_Range] = []
        for number, (path, start, end) in enumerate(zip(paths, *places)):
            try:
                file = self._file(path)
                ranges.append(_Range(self._name(path), *_ends(file, start, end), number))
            except Exception as error:
                answers[number] = error
        with ThreadPoolExecutor(self._threads) as pool:
            for range_, answer in (pair for pairs in pool.map(self._together, _grouped(ranges, gap)) for pair in pairs):
                answers[range_.number] = answer
        for answer in answers:
            if on_error == "raise" and isinstance(answer, BaseException):
                raise answer
        return answers

    def _together(self, ranges: List[_Range]) -> List[Tuple[_Range, Union[bytes, BaseException]]]:
        """Returns ranges of one file, each with its bytes or with the error of all. They are read as one."""
        begin = ranges[0].start
        try:
            data = self._file(ranges[0].path).read_at(begin, max(range_.stop for range_ in ranges))
        except Exception as error:
            return [(range_, error) for range_ in ranges]
        return [(range_, data[range_.start - begin:range_.stop - begin]) for range_ in ranges]

    def _open(self, path: str, mode: str = "rb", block_size: Optional[SupportsIndex] = None, **options: object) -> BinaryIO:
        if mode != "rb":
            raise io.UnsupportedOperation(but_got("mode must be 'rb'", f"{mode!r}: the files are read-only"))
        block = _BLOCK if block_size is None else checked_u64(block_size, "block_size")
        return _Opened(self._made(self._name(path)), block)


class _Opened(io.BufferedReader):
    """An opened file. fsspec asks such files for their size."""

    @property
    def size(self) -> int:
        return cast(VerifiedFile, self.raw).size


def _told(name: str, size: Optional[int]) -> Dict[str, object]:
    return {"name": name, "size": size, "type": "file"}


def _ends(file: VerifiedFile, start: Place, end: Place) -> Tuple[int, int]:
    """Returns two places as they are from the start of the file. Those that are out of order have no bytes between them."""
    begin = 0 if start is None else start
    stop = file.size if end is None else end
    begin, stop = (max(file.size + place, 0) if place < 0 else place for place in (begin, stop))
    return begin, max(begin, stop)


def _for_all(places: Ends, count: int) -> Sequence[Place]:
    """Returns as many places as there are paths."""
    if places is None or isinstance(places, int):
        return [places] * count
    if len(places) != count:
        raise InvalidArguments(but_got(f"places must be as many as the paths, {count}", len(places)))
    return places


def _grouped(ranges: Iterable[_Range], gap: int) -> List[List[_Range]]:
    """Returns ranges in groups. Those of a group are of one file, and at most so many bytes apart."""
    groups: List[List[_Range]] = []
    stop = 0
    for range_ in sorted(ranges):
        if groups and groups[-1][0].path == range_.path and range_.start <= stop + gap:
            groups[-1].append(range_)
            stop = max(stop, range_.stop)
        else:
            groups.append([range_])
            stop = range_.stop
    return groups


register_implementation(_PROTOCOL, VerifiedFileSystem, clobber=True)
