"""What Dask and memory profilers ask of an object: how much memory the library has for it, and a text that equal values share.

The library doesn't tell its memory. So it is computed from what the object counts, by the figures of the page LIMITS.
"""

from __future__ import annotations

from typing import Tuple

from ._hash import data_hash

#: The bytes of a subtree without nodes, of each level, and of a node with the room that lists of them have beside.
_SUBTREE, _LEVEL, _NODE = 48, 80, 42
#: The bytes of a chunk in a hash tree, with those of the levels above; and in an opened range.
_CHUNK_OF_TREE, _CHUNK_OF_RANGE, _BESIDE = 68, 44, 112
#: A table of hashes has four places, or a power of two times as many. The bytes of a place in an index, and in a session.
_PLACES, _PLACE_OF_INDEX, _PLACE_OF_SESSION = 4, 56, 48
#: The bytes of a table that isn't empty beside its places; of an object with a table; of a run beside its subtree; of the first one more.
_TABLE, _WITH_TABLE, _RUN, _FIRST_RUN = 250, 160, 70, 600
#: The bytes of a new hasher of files, how many more bytes of a file make one more, and the most.
_FILE_HASHER, _BYTES_FOR_ONE, _MOST_OF_FILE_HASHER = 2700, 1000, 192_000


def token_of(kind: str, *parts: bytes) -> Tuple[str, ...]:
    """Returns what `dask.tokenize` takes for a value: its kind, and the hash of each part of it.

    >>> token_of("Hashes", b"abc")[0], len(token_of("Hashes", b"abc", b""))
    ('yurewha.Hashes', 3)
    """
    return (f"yurewha.{kind}", *(data_hash(part).hex() for part in parts))


def memory_of_nodes(nodes: int, levels: int) -> int:
    """Returns about how many bytes a subtree takes.

    >>> memory_of_nodes(300, 7)
    13208
    """
    return _SUBTREE + _LEVEL * levels + _NODE * nodes


def memory_of_tree(chunks: int) -> int:
    """Returns about how many bytes a hash tree takes.

    >>> memory_of_tree(1_000_000)
    68000112
    """
    return _BESIDE + _CHUNK_OF_TREE * chunks


def memory_of_range(chunks: int) -> int:
    """Returns about how many bytes an opened range takes.

    >>> memory_of_range(1000)
    44112
    """
    return _BESIDE + _CHUNK_OF_RANGE * chunks


def memory_of_index(hashes: int) -> int:
    """Returns about how many bytes an index of hashes takes.

    >>> memory_of_index(1_000_000) // 1_000_000
    58
    """
    return _WITH_TABLE + _table(hashes, _PLACE_OF_INDEX)


def memory_of_session(hashes: int, runs: int, looked_at: int, nodes: int, levels: int) -> int:
    """Returns about how many bytes a session takes that knows so many hashes. Of its runs some were looked at, with so many nodes in all.

    >>> memory_of_session(1_000_000, 1, 1, 300, 7) // 1_000_000
    50
    """
    each = (looked_at * (_RUN + _SUBTREE) + _LEVEL * levels + _NODE * nodes) // max(looked_at, 1)
    return _WITH_TABLE + _table(hashes, _PLACE_OF_SESSION) + _FIRST_RUN * (runs > 0) + runs * each


def memory_of_file_hasher(size: int) -> int:
    """Returns about how many bytes a hasher of a file of this size takes, if the file came in pieces of up to a MiB.

    >>> memory_of_file_hasher(1 << 40)
    192000
    """
    return min(_FILE_HASHER + size // _BYTES_FOR_ONE, _MOST_OF_FILE_HASHER)


def _table(count: int, each: int) -> int:
    places = _PLACES
    while places < count:
        places *= 2
    return _TABLE + each * places if count else 0
