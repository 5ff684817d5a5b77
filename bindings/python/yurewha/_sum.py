"""`python -m yurewha sum` prints the hashes by which Xet names files, and checks them, as `sha256sum` does with others."""

from __future__ import annotations

import argparse
import errno
import os
import re
import sys
from collections import Counter
from contextlib import nullcontext
from typing import BinaryIO, ContextManager, List, Optional, TextIO, Tuple, Union

from ._errors import YurewhaError, counted
from ._hash import Hash
from ._hash_file import all_chunks_of, hash_file

_STANDARD = "-"
#: Characters of a name that stand as two, because they would end a line.
_ESCAPES = {b"\\": b"\\\\", b"\n": b"\\n", b"\r": b"\\r"}
_PLAIN = {escape: plain for plain, escape in _ESCAPES.items()}
_LINE = re.compile(rb"(\\?)([0-9a-fA-F]{64}) [ *]([^\0]+)", re.S)


def main(words: List[str]) -> int:
    """Does what the words after `sum` say. Returns the status: 0, or 1 if something can't be read, or isn't what it should be."""
    given = _arguments(words)
    each = _checked_list if given.check else _printed_chunks if given.chunks else _printed
    is_well = True
    try:
        for name in given.files or [_STANDARD]:
            try:
                is_well = each(name, given.salt) and is_well
            except (OSError, YurewhaError) as fault:
                _tell(name, fault)
                is_well = False
    except _NoOutput as fault:
        _tell("standard output", fault.why)
        return 1
    return 0 if is_well else 1


def _arguments(words: List[str]) -> argparse.Namespace:
    parser = argparse.ArgumentParser(
        "python -m yurewha sum", allow_abbrev=False, description="Print the hashes by which Xet names files, or check them.",
        epilog="If there is no FILE, or FILE is -, standard input is read.")
    parser.add_argument("files", nargs="*", metavar="FILE")
    kinds = parser.add_mutually_exclusive_group()
    kinds.add_argument("-c", "--check", action="store_true", help="check the names that are in FILE with their hashes, as they are printed")
    kinds.add_argument("--chunks", action="store_true", help="print the hash and the size of each chunk of one FILE, which xetroot reads")
    parser.add_argument("--salt", type=_salt, metavar="HEX", help="hash under a salt, whose 32 bytes are 64 hex digits")
    given = parser.parse_args(words)
    if given.chunks and (len(given.files) > 1 or given.salt is not None):
        parser.error("--chunks takes one FILE and no --salt")
    return given


def _salt(text: str) -> bytes:
    if not re.fullmatch("[0-9a-fA-F]{64}", text):
        raise argparse.ArgumentTypeError("a salt must be 64 hex digits")
    return bytes.fromhex(text)


class _NoOutput(Exception):
    """Standard output can't be written to."""

    def __init__(self, why: OSError) -> None:
        super().__init__(why)
        self.why = why


def _print(*lines: bytes) -> None:
    """Writes lines to standard output at once, so that the interpreter has none of them left at its end."""
    left = memoryview(b"".join(line + b"\n" for line in lines))
    try:
        to = _open(sys.stdout).fileno()
        while left:
            left = left[os.write(to, left):]
    except OSError as fault:
        raise _NoOutput(fault) from None


def _open(standard: Optional[TextIO]) -> TextIO:
    """Returns standard input or output. Raises `OSError` if the process has none."""
    if standard is None:
        raise OSError(errno.EBADF, os.strerror(errno.EBADF))
    return standard


def _tell(name: str, fault: Union[Exception, str]) -> None:
    why = fault.strerror if isinstance(fault, OSError) and fault.strerror else fault
    print(f"yurewha sum: {name if name.isprintable() else repr(name)}: {why}", file=sys.stderr)


def _hash_of(name: str, salt: Optional[bytes]) -> Hash:
    return hash_file(_open(sys.stdin).buffer if name == _STANDARD else name, salt=salt)


def _printed(name: str, salt: Optional[bytes]) -> bool:
    mark, shown = _escaped(os.fsencode(name))
    _print(mark + _hash_of(name, salt).hex().encode() + b"  " + shown)
    return True


def _escaped(plain: bytes) -> Tuple[bytes, bytes]:
    """Returns what stands before a line, and what stands for the name in it."""
    shown = re.sub(rb"[\\\n\r]", lambda found: _ESCAPES[found[0]], plain)
    return b"" if shown == plain else b"\\", shown


def _printed_chunks(name: str, salt: Optional[bytes]) -> bool:
    """Prints the chunks once all were read, so that xetroot doesn't get a part of them."""
    chunks = all_chunks_of(_open(sys.stdin).buffer if name == _STANDARD else name, None, None)
    _print(*(f"{hash_} {size}".encode() for hash_, size in chunks))
    return True


def _parsed(line: bytes) -> Optional[Tuple[Hash, bytes]]:
    """Returns the hash and the name of a line, or None if it has another form."""
    found = _LINE.fullmatch(line.rstrip(b"\r\n"))
    if found is None:
        return None
    name = found[3]
    if found[1]:
        if re.fullmatch(rb"(?:[^\\]|\\[\\nr])+", name, re.S) is None:
            return None
        name = re.sub(rb"\\.", lambda escape: _PLAIN[escape[0]], name)
    return Hash.from_hex(found[2].decode()), name


def _list(name: str) -> ContextManager[BinaryIO]:
    if name == _STANDARD:
        return nullcontext(_open(sys.stdin).buffer)
    return open(name, "rb")


def _checked_list(name: str, salt: Optional[bytes]) -> bool:
    """Checks the files of a list. Returns whether there is one, and all are what they should be."""
    counts: Counter[str] = Counter()
    with _list(name) as lines:
        for line in lines:
            parsed = _parsed(line)
            if parsed is None or (name == _STANDARD and parsed[1] == os.fsencode(_STANDARD)):
                counts["other"] += line.strip() != b"" and not line.startswith(b"#")
            else:
                counts[_checked_file(*parsed, salt)] += 1
    _tell_counts(name, counts)
    return counts["OK"] > 0 and not counts["FAILED"] and not counts["FAILED open or read"]


def _checked_file(hash_: Hash, plain: bytes, salt: Optional[bytes]) -> str:
    """Prints how a file compares with its hash, and returns that."""
    name, said = os.fsdecode(plain), "FAILED"
    try:
        if _hash_of(name, salt) == hash_:
            said = "OK"
    except (OSError, YurewhaError) as fault:
        _tell(name, fault)
        said = "FAILED open or read"
    mark, shown = _escaped(plain) if b"\n" in plain else (b"", plain)
    _print(mark + shown + f": {said}".encode())
    return said


def _tell_counts(name: str, counts: Counter[str]) -> None:
    """Tells how many lines and files of a list aren't what they should be."""
    if sum(counts.values()) == counts["other"]:
        _tell(name, "no line has a hash and a name")
    elif counts["other"]:
        _tell(name, f"{counted(counts['other'], 'line')} without a hash and a name")
    if counts["FAILED open or read"]:
        _tell(name, f"{counted(counts['FAILED open or read'], 'file')} can't be read")
    if counts["FAILED"]:
        _tell(name, f"{counted(counts['FAILED'], 'file')} with another hash")
