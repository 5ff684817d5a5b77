#!/usr/bin/env python3
"""Where Xet's chunker cuts a message, byte by byte, as Xet's protocol publishes the rule, and the file hash that this gives.

    chunker.py FILE     prints the place where each chunk ends, and the file hash

The table is read from crates/xet_chunker/specs/Gear.antt.
"""
from __future__ import annotations

import re
import sys
from pathlib import Path

import xet_model as m

LEAST, MOST, WINDOW, BITS = 8 << 10, 128 << 10, 64, (1 << 64) - 1
SPECS = Path(__file__).resolve().parents[2] / "crates/xet_chunker/specs/Gear.antt"
TABLE = [int(number, 16) for number in re.findall(r"0x([0-9A-F]{16})", SPECS.read_text(encoding="utf-8"))]


def cuts(message: bytes) -> list[int]:
    """The place where each chunk ends."""
    ends: list[int] = []
    start = gear = 0
    for place, byte in enumerate(message, 1):
        gear = 2 * gear + TABLE[byte] & BITS
        if place - start >= LEAST and (place - start >= MOST or gear >> 48 == 0):
            ends.append(place)
            start, gear = place, 0
    return ends + [len(message)] * (start < len(message))


def candidates(message: bytes) -> list[int]:
    """The places whose last 64 bytes alone would end a long enough chunk."""
    found: list[int] = []
    gear = 0
    for place, byte in enumerate(message, 1):
        gear = 2 * gear + TABLE[byte] & BITS
        if place >= WINDOW and gear >> 48 == 0:
            found.append(place)
    return found


def file_hash(message: bytes) -> m.Hash:
    """The file hash of the chunks of a message."""
    ends = cuts(message)
    chunks = [message[start:end] for start, end in zip([0, *ends], ends)]
    return m.file_hash([(m.compute_data_hash(chunk), len(chunk)) for chunk in chunks])


def mixed(count: int) -> bytes:
    """Bytes of SplitMix64 from the seed 0, each number's lowest byte first."""
    made = bytearray()
    state = 0
    while len(made) < count:
        state = state + 0x9E3779B97F4A7C15 & BITS
        number = (state ^ state >> 30) * 0xBF58476D1CE4E5B9 & BITS
        number = (number ^ number >> 27) * 0x94D049BB133111EB & BITS
        made += (number ^ number >> 31).to_bytes(8, "little")
    return bytes(made[:count])


def main() -> int:
    if len(sys.argv) != 2:
        print(__doc__, file=sys.stderr)
        return 2
    message = Path(sys.argv[1]).read_bytes()
    print(*cuts(message), m.to_hex(file_hash(message)), sep="\n")
    return 0


if __name__ == "__main__":
    sys.exit(main())
