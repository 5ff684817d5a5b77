"""Yurewha computes the hashes by which the Hugging Face Xet store names chunks and files, and merges hashed ranges.

A proved library computes each hash, root and merge. This package isn't proved. It passes arguments to the library and
returns the results. `hash_file` has the hash of a file.

>>> one, two = (Hash.random_from_seed(1), 100), (Hash.random_from_seed(2), 200)
>>> left, right = Subtree.from_chunks(True, [one, two], False), Subtree.from_chunks(False, [one, two], True)
>>> (left + right).final_hash() == xorb_hash([one, two, one, two])
True
"""

from __future__ import annotations

import sys

from . import _names
from ._async_verified_file import AsyncVerifiedFile
from ._chunker import Chunker
from ._chunks import Chunks
from ._cuts import hash_cuts
from ._errors import (
    BrokenRule,
    DivisionByZero,
    EmptyHandle,
    InUseAtFork,
    InvalidArguments,
    InvalidJson,
    InvalidLists,
    InvalidProof,
    InvalidText,
    OutOfMemory,
    ProofMismatch,
    ProofTooLong,
    ReentrantCall,
    SessionError,
    SessionGap,
    SessionOverlap,
    SessionPositions,
    SessionSizes,
    SizeOverflow,
    YurewhaError,
)
from ._file_hasher import FileHasher
from ._files import hash_chunks
from ._hash import Hash, Hasher, data_hash, internal_node_hash
from ._hash_file import chunks_of, hash_file
from ._hash_index import HashIndex
from ._hash_tree import Difference, HashTree
from ._hashes import Hashes, data_hashes
from ._many_lists import file_hashes, xorb_hashes
from ._range_proof import OpenedRange, RangeProof
from ._session import Run, Session
from ._subtree import (
    Flat,
    Subtree,
    file_hash,
    find_stable_end,
    find_stable_start,
    svg_of,
    write_svg,
    xorb_hash,
)
from ._verified_file import VerifiedFile

__version__ = "1.1.0.dev0"

__all__ = [
    "AsyncVerifiedFile",
    "BrokenRule",
    "Chunker",
    "Chunks",
    "Difference",
    "DivisionByZero",
    "EmptyHandle",
    "FileHasher",
    "Flat",
    "Hash",
    "HashIndex",
    "HashTree",
    "Hasher",
    "Hashes",
    "InUseAtFork",
    "InvalidArguments",
    "InvalidJson",
    "InvalidLists",
    "InvalidProof",
    "InvalidText",
    "OpenedRange",
    "OutOfMemory",
    "ProofMismatch",
    "ProofTooLong",
    "RangeProof",
    "ReentrantCall",
    "Run",
    "Session",
    "SessionError",
    "SessionGap",
    "SessionOverlap",
    "SessionPositions",
    "SessionSizes",
    "SizeOverflow",
    "Subtree",
    "VerifiedFile",
    "YurewhaError",
    "chunks_of",
    "data_hash",
    "data_hashes",
    "file_hash",
    "file_hashes",
    "find_stable_end",
    "find_stable_start",
    "hash_chunks",
    "hash_cuts",
    "hash_file",
    "internal_node_hash",
    "svg_of",
    "write_svg",
    "xorb_hash",
    "xorb_hashes",
]

_names.publish(__name__, [globals()[name] for name in __all__])

# An installed package says so itself, and `yurewha.filesystem` when it is imported. Nothing is imported here.
if "fsspec" in sys.modules:
    sys.modules["fsspec"].register_implementation("yurewha", "yurewha.filesystem.VerifiedFileSystem", clobber=True)
