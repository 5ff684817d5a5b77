"""Files that are written whole or not at all, and say by themselves whether they are whole."""

from __future__ import annotations

import os
from contextlib import suppress
from secrets import token_hex
from typing import Union

from ._errors import InvalidText
from ._hash import Hash, data_hash

#: What a call takes as the path of a file.
Path = Union[str, bytes, os.PathLike[str], os.PathLike[bytes]]

_HASH = 32


def write_whole(path: Path, kind: bytes, body: bytes) -> None:
    """Writes a file of a kind: a line with its kind, the hash of its body, and the body. After an error or a crash the old file is there.

    It writes another file in the same folder, has the system put it on the disk, and renames it. What the path led to before is gone
    only then. If the path is a symbolic link, the link is replaced.

    >>> import tempfile, os.path
    >>> with tempfile.TemporaryDirectory() as folder:
    ...     path = os.path.join(folder, "a")
    ...     write_whole(path, b"text", b"abc")
    ...     read_whole(path, b"text")
    b'abc'
    """
    name = os.fsdecode(path)
    folder = os.path.dirname(name) or os.curdir
    draft = os.path.join(folder, f".yurewha.{token_hex(8)}")  # short, since the name may be as long as names can be
    try:
        with open(draft, "xb") as out:
            out.write(_begun(kind) + data_hash(kind + body).bytes)
            out.write(body)
            out.flush()
            os.fsync(out.fileno())
        with suppress(FileNotFoundError):
            os.chmod(draft, os.stat(name).st_mode & 0o7777)
        os.replace(draft, name)
    except BaseException:
        with suppress(FileNotFoundError):
            os.unlink(draft)
        raise
    _sync(folder)


def read_whole(path: Path, kind: bytes) -> bytes:
    """Returns the body of a file that `write_whole` wrote.

    Raises `InvalidText` if it is of another kind, or if a byte of it is wrong or missing.

    >>> import tempfile, os.path
    >>> with tempfile.TemporaryDirectory() as folder:
    ...     path = os.path.join(folder, "a")
    ...     write_whole(path, b"text", b"abc")
    ...     read_whole(path, b"subtree")
    Traceback (most recent call last):
    yurewha.InvalidText: the file isn't a saved subtree of this version
    """
    with open(path, "rb") as file:
        begun = file.read(len(_begun(kind)))
        if begun != _begun(kind):
            raise InvalidText(f"the file isn't a saved {kind.decode('ascii')} of this version")
        told, body = file.read(_HASH), file.read()
    if len(told) < _HASH or Hash(told) != data_hash(kind + body):
        raise InvalidText("the saved file was cut off or changed")
    return body


def _begun(kind: bytes) -> bytes:
    return b"yurewha " + kind + b" 1\n"


def _sync(folder: str) -> None:
    """Has the system put the new name on the disk, where it can."""
    try:
        handle = os.open(folder, os.O_RDONLY)
    except OSError:
        return  # as on Windows
    try:
        os.fsync(handle)
    except OSError:
        pass
    finally:
        os.close(handle)
