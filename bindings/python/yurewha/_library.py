"""The shared library: where it is found, and its calls by ctypes.

Each call exists twice. `short` keeps the interpreter's lock while it runs, and `long` releases it. The choice affects only
speed. With either, no two threads use an object at once, because each object has its own lock (`_guard.py`). `bare` has the calls of
`short` without a step between: who makes one has to raise `error_in_python` of an error of ctypes.
"""

from __future__ import annotations

import ctypes
import os
import platform
import sys
from pathlib import Path
from types import SimpleNamespace
from typing import Any, Dict, List, Optional, Tuple

from ._calls import named
from ._declarations import DECLARATIONS, MEMBERS, STRUCTS

IS_WINDOWS = sys.platform == "win32"
IS_MACOS = sys.platform == "darwin"
NAME = "libyurewha-1.dll" if IS_WINDOWS else "libyurewha.1.dylib" if IS_MACOS else "libyurewha.so.1"

#: A call releases the interpreter's lock if its message has at least this many bytes, or its list this many chunks or nodes.
#: Shorter calls take less time than passing the lock between threads.
LONG_BYTES = 1 << 14
LONG_CHUNKS = 256
LONG_NODES = 512


#: The ctypes type for each type of a struct's members.
_MEMBER_TYPES: Dict[str, Any] = {
    "uint8_t": ctypes.c_uint8,
    "uint64_t": ctypes.c_uint64,
    "size_t": ctypes.c_size_t,
    "uint8_t *": ctypes.c_void_p,
}


def _fields(struct: str) -> List[Tuple[str, Any]]:
    types = ((name, _MEMBER_TYPES[kind], count) for name, kind, count in MEMBERS[struct])
    return [(name, kind if count == 1 else kind * count) for name, kind, count in types]


class CHash(ctypes.Structure):
    _fields_ = _fields("yurewha_hash")


_MEMBER_TYPES["yurewha_hash"] = CHash


class CBytes(ctypes.Structure):
    _fields_ = _fields("yurewha_bytes")


class CChunk(ctypes.Structure):
    _fields_ = _fields("yurewha_chunk")


class CLevel(ctypes.Structure):
    _fields_ = _fields("yurewha_level")


class CHasher(ctypes.Structure):
    _fields_ = _fields("yurewha_hasher")


class CChunker(ctypes.Structure):
    _fields_ = _fields("yurewha_chunker")


class CSubtree(ctypes.Structure):
    _fields_ = _fields("yurewha_subtree")


class CSession(ctypes.Structure):
    _fields_ = _fields("yurewha_session")


class CHashTree(ctypes.Structure):
    _fields_ = _fields("yurewha_hash_tree")


class COpenedRange(ctypes.Structure):
    _fields_ = _fields("yurewha_opened_range")


class CReader(ctypes.Structure):
    _fields_ = _fields("yurewha_reader")


class CPart(ctypes.Structure):
    _fields_ = _fields("yurewha_part")


class CHashIndex(ctypes.Structure):
    _fields_ = _fields("yurewha_hash_index")


class CFileHasher(ctypes.Structure):
    _fields_ = _fields("yurewha_file_hasher")


#: The structs by their names in the header.
STRUCT_TYPES: Dict[str, Any] = {
    "yurewha_hash": CHash,
    "yurewha_bytes": CBytes,
    "yurewha_chunk": CChunk,
    "yurewha_level": CLevel,
    "yurewha_hasher": CHasher,
    "yurewha_chunker": CChunker,
    "yurewha_subtree": CSubtree,
    "yurewha_session": CSession,
    "yurewha_hash_tree": CHashTree,
    "yurewha_opened_range": COpenedRange,
    "yurewha_reader": CReader,
    "yurewha_part": CPart,
    "yurewha_hash_index": CHashIndex,
    "yurewha_file_hasher": CFileHasher,
}

#: The ctypes type for each type of the header. If a call only reads bytes, a hash, a key or chunks, it gets a Python `bytes`
#: object, which nobody changes during the call. If the length isn't passed too, it is checked before the call.
_TYPES: Dict[str, Any] = {
    "void": None,
    "bool": ctypes.c_bool,
    "size_t": ctypes.c_size_t,
    "int32_t": ctypes.c_int32,
    "uint64_t": ctypes.c_uint64,
    "yurewha_status": ctypes.c_uint32,
    "const size_t *": ctypes.POINTER(ctypes.c_size_t),
    "const uint64_t *": ctypes.c_char_p,
    "const char *": ctypes.c_char_p,
    "const uint8_t *": ctypes.c_char_p,
    "const yurewha_hash *": ctypes.c_char_p,
    "const yurewha_bytes *": ctypes.c_char_p,
    "const yurewha_chunk *": ctypes.c_char_p,
    "const yurewha_level *": ctypes.c_char_p,
    # A hasher or a chunker that is only read is an exception: it is one of the structs below.
    "const yurewha_hasher *": ctypes.POINTER(CHasher),
    "const yurewha_chunker *": ctypes.POINTER(CChunker),
    "char *": ctypes.POINTER(ctypes.c_char),
    "bool *": ctypes.POINTER(ctypes.c_bool),
    "size_t *": ctypes.POINTER(ctypes.c_size_t),
    "uint64_t *": ctypes.POINTER(ctypes.c_uint64),
    "uint8_t *": ctypes.c_void_p,
    **{f"{name} *": ctypes.POINTER(struct) for name, struct in STRUCT_TYPES.items()},
}

#: Calls that are often made for a few bytes. So they take what ctypes passes in the least time. A hash is written to a new `bytes`
#: object of 32 bytes, which nobody else has seen. A number is passed as an address is: on these machines both have 64 bits, and the
#: same place.
_QUICK = ("yurewha_data_hash", "yurewha_internal_node_hash", "yurewha_hasher_update", "yurewha_hasher_finalize", "yurewha_reader_read")
_QUICK_TYPES: Dict[str, Any] = {
    **_TYPES, "yurewha_hash *": ctypes.c_void_p, "size_t": ctypes.c_void_p, "uint64_t": ctypes.c_void_p}


def find(package: Optional[Path] = None) -> str:
    """Returns the path of the library, or its bare name if the system's loader must find it.

    >>> NAME in find()
    True
    """
    package = Path(__file__).resolve().parent if package is None else package
    own = package / "lib" / NAME
    if own.exists():
        return str(own)
    folder = os.environ.get("YUREWHA_LIB_DIR")
    if folder:
        named = Path(folder).resolve() / NAME
        if not named.exists():
            raise ImportError(f"yurewha: YUREWHA_LIB_DIR is {folder}, which has no {NAME}")
        return str(named)
    if package.parent.name == "python" and package.parent.parent.name == "bindings":
        processor = platform.machine().replace("arm64", "aarch64")
        folder_of_system = "windows-x86_64/bin" if IS_WINDOWS else f"{'macos-' if IS_MACOS else ''}{processor}/lib"
        built = package.parent.parent / "out" / folder_of_system / NAME
        if built.exists():
            return str(built)
    return NAME


def _declare(library: Any, path: str) -> Tuple[SimpleNamespace, SimpleNamespace]:
    """Returns the calls as they are, and the same with errors of Python."""
    plain, calls = SimpleNamespace(), SimpleNamespace()
    for name, (answer, arguments) in DECLARATIONS.items():
        try:
            call = getattr(library, name)
        except AttributeError:
            raise ImportError(f"yurewha: {path} has no {name}") from None
        call.restype = _TYPES[answer]
        types = _QUICK_TYPES if name in _QUICK else _TYPES
        call.argtypes = [types[argument] for argument in arguments]
        setattr(plain, name, call)
        setattr(calls, name, named(call))
    return plain, calls


def _check_machine() -> None:
    # A chunk's 40 bytes are the C struct in memory. The same bytes are written to files and sent to other machines.
    if sys.byteorder != "little" or ctypes.sizeof(ctypes.c_size_t) != 8:
        raise ImportError("yurewha: only little-endian 64-bit machines are supported")
    for name, struct in STRUCT_TYPES.items():
        if ctypes.sizeof(struct) != STRUCTS[name]:
            raise ImportError(f"yurewha: {name} has {ctypes.sizeof(struct)} bytes here")
    # The data of a `bytes` object follows its header, and objects are aligned. So the data is aligned for a word.
    if sys.implementation.name != "cpython" or (bytes.__basicsize__ - 1) % 8 != 0:
        raise ImportError("yurewha: only CPython is supported")


_check_machine()

#: The file that was loaded.
PATH: str = find()

try:
    _long = ctypes.CDLL(PATH)
except OSError as error:
    if sys.platform not in ("linux", "darwin", "win32"):
        raise ImportError(
            f"yurewha: there is no library for {sys.platform}: it is for Linux and macOS on x86_64 and aarch64, and for Windows on x86_64; "
            "elsewhere a Linux container runs it, and the JavaScript package runs as it is") from error
    raise ImportError(f"yurewha: {NAME} can't be loaded; YUREWHA_LIB_DIR may name its folder: {error}") from error
_short = ctypes.PyDLL(PATH, handle=_long._handle)

_, long = _declare(_long, PATH)
bare, short = _declare(_short, PATH)
#: Two calls of `short`, to which ctypes passes each argument as it is given: a reference to a state or a handle, `bytes`, and their
#: number as a `c_size_t`. Without conversions a call takes less time, and the end of the stack is no wrong argument.
update_as_given, find_as_given = _short["yurewha_hasher_update"], _short["yurewha_hash_index_find"]
update_as_given.restype = find_as_given.restype = ctypes.c_uint32

#: The level of processors that the library has chosen for this one, such as "x86-64-v3".
LEVEL: str = short.yurewha_processor_level().decode("ascii")


def calls_for(count: int, bound: int) -> SimpleNamespace:
    """Returns the calls for an input of this length. From `bound` on they are the ones that release the lock.

    >>> calls_for(1, LONG_CHUNKS) is short, calls_for(1000, LONG_CHUNKS) is long
    (True, True)
    """
    return short if count < bound else long
