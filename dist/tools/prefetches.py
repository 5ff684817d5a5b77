"""Prefetches: instructions that ask the processor for memory which is needed soon.

A chunk that is hashed is mostly not in a cache yet, and Rattle has no call that prefetches. So where the kernels for x86-64 load a block
of each lane, dist/make puts a prefetch of what is two blocks further on behind the load. A prefetch changes no register, flag or memory,
and no address that it is given is a fault.
"""

from __future__ import annotations

import re

from proving import Fault
from widths import WIDTHS, of_width

#: The functions that take in a block of each lane, or each block of whole chunks.
TAKING_BLOCKS = "keyed_blake3::chunks::take_block", "keyed_blake3::chunks::chunk_values"
#: How far ahead of a load, in bytes: two blocks. One, three and four were slower over chunks of 8 to 128 KiB that weren't in a cache.
DISTANCE = 128
BLOCK = 64
#: A load of a vector or of half of one, from where a lane begins and where its block is.
LOAD = re.compile(r"(?m)^\t(?:v?mov\w+\t|vinserti64x4\t\$1, )(-?\d*)\((%\w+,%\w+)\), (?:%zmm\d+, )?%[xyz]mm\d+\n")
#: A line that is a prefetch.
PREFETCH = re.compile(r"(?m)^\tprefetcht0\t.*\n")


def with_prefetches(text: str) -> str:
    """Assembly for x86-64 in which each function that takes in a block of each lane has a prefetch for each."""
    for lanes in WIDTHS:
        for function in TAKING_BLOCKS:
            text = _with_those_of(of_width(function, lanes), lanes, text)
    return text


def _with_those_of(name: str, lanes: int, text: str) -> str:
    """Assembly in which a function has its prefetches, if it is there."""
    before, label, rest = text.partition(f'\n"{name}":\n')
    if not label:
        return text
    body, end, after = rest.partition("\n\t.section\t")
    body, count = LOAD.subn(_followed, body)
    if count_of(body) != lanes:
        raise Fault(f"{name} has {count_of(body)} prefetches in {count} loads: it should have {lanes}")
    return before + label + body + end + after


def count_of(text: str) -> int:
    """The number of prefetches in some assembly."""
    return len(PREFETCH.findall(text))


def _followed(load: re.Match[str]) -> str:
    """A load of the beginning of a block, with the prefetch that follows; any other load as it is."""
    place = int(load[1] or "0")
    return load[0] + (f"\tprefetcht0\t{place + DISTANCE}({load[2]})\n" if place % BLOCK == 0 else "")
