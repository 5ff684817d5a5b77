#!/usr/bin/env python3
"""Ends with 0 if a WebAssembly module has a section of imports, with 1 if not.

    has_imports.py MODULE
"""

import sys
from typing import Iterator

IMPORTS = 2
HEADER_BYTES = 8


def section_numbers(module: bytes) -> Iterator[int]:
    """The number of each section. After it stands the section's length, seven bits in a byte, the low ones first."""
    at = HEADER_BYTES
    while at < len(module):
        yield module[at]
        at, shift, length = at + 1, 0, 0
        while True:
            byte = module[at]
            length |= (byte & 127) << shift
            at, shift = at + 1, shift + 7
            if byte < 128:
                break
        at += length


if __name__ == "__main__":
    with open(sys.argv[1], "rb") as file:
        sys.exit(0 if IMPORTS in section_numbers(file.read()) else 1)
