"""Sessions as text and bytes: the JSON text that all languages read, and the body of a saved file."""

from __future__ import annotations

import struct
from typing import Tuple

from ._errors import InvalidText, but_got
from ._hashes import Hashes

_HEAD = struct.Struct("<?Q")
_EACH = 32


def body_of(runs: str, hashes: Hashes, keeps: bool) -> bytes:
    """Returns the body of a saved session: whether it keeps hashes, the length of the JSON of its runs, this JSON, and known hashes.

    >>> len(body_of('{"runs":[],"known_hashes":[]}', Hashes(), True))
    38
    """
    return _HEAD.pack(keeps, len(runs)) + runs.encode("ascii") + hashes.packed


def parts_of_body(body: bytes) -> Tuple[bytes, Hashes, bool]:
    """Returns the JSON of the runs and the known hashes of the body of a saved session, and whether it keeps hashes.

    >>> parts_of_body(body_of('{"runs":[],"known_hashes":[]}', Hashes(), True))
    (b'{"runs":[],"known_hashes":[]}', <yurewha.Hashes of 0>, True)
    """
    if len(body) < _HEAD.size:
        raise InvalidText(but_got(f"a saved session must have at least {_HEAD.size} bytes", len(body)))
    keeps, length = _HEAD.unpack_from(body)
    end = _HEAD.size + length
    if len(body) < end or (len(body) - end) % _EACH:
        raise InvalidText(but_got(f"a saved session must have {length} bytes of runs, and then {_EACH} for each hash", len(body) - _HEAD.size))
    return body[_HEAD.size:end], Hashes(body[end:]), keeps
