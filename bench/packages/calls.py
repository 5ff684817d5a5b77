#!/usr/bin/env python3
"""Prints the processor time of calls of the Python package in nanoseconds: the least of some turns. calls.c and calls.mjs do the same."""

from __future__ import annotations

import time
from typing import Callable

from yurewha import Chunks, Hash, data_hash, xorb_hash

MESSAGE, MESSAGES, CHUNKS, TURNS = 64 << 10, 2048, 100_000, 7

#: More bytes than any cache holds.
messages = bytes(range(251)) * (MESSAGE * MESSAGES // 251 + 1)
views = [memoryview(messages)[i * MESSAGE : (i + 1) * MESSAGE] for i in range(MESSAGES)]
chunks = Chunks([(Hash.random_from_seed(i), 100 + i % 9900) for i in range(CHUNKS)])


def hot() -> None:
    message = views[0]
    for _ in range(MESSAGES):
        data_hash(message)


def cold() -> None:
    for message in views:
        data_hash(message)


def root() -> None:
    xorb_hash(chunks)


def least(calls: Callable[[], None]) -> int:
    """The least time of a turn."""
    times = []
    for _ in range(TURNS):
        begun = time.process_time_ns()
        calls()
        times.append(time.process_time_ns() - begun)
    return min(times)


print(f"hot {least(hot) // MESSAGES}\ncold {least(cold) // MESSAGES}\nroot {least(root)}")
