"""What `check --numbers` runs at a level, and what it leaves out."""

from __future__ import annotations

import re
from itertools import chain
from typing import Iterator, List, Sequence, Tuple

import contracts
import exports
import hashers
import kernels
import rounds
from course import Check, Course
from fault import Fault
from layout import Library
from long_messages import check_length
from machine import Machine

#: What no level is run for.
NEVER: Sequence[str] = ("hashes of one group and of several at once",)
#: Whole messages: how many chunks they have, and how many bytes the last one has.
CHUNKS: Tuple[int, ...] = (*range(1, 34), 63, 64, 65, 127, 128, 129, 255, 257, 511, 513, 1024, 1025)
TAILS: Tuple[int, ...] = (1, 63, 64, 65, 600, 1023, 1024)
#: The same of a short check.
FEW_CHUNKS, FEW_TAILS = (1, 2, 9, 33, 1025), (1, 1024)


def function_of(check: Check) -> str:
    """The function that a check is of."""
    found = re.match(r"\w+", check.name)
    assert found
    return found[0]


def must_check_stand_ins(course: Course) -> None:
    """Refuses functions that were replaced in checks of others, and have none of their own, here or among the kernels."""
    missing = course.replaced - course.checked - {function for function, _, _ in kernels.all_checks(course.library)}
    if missing:
        raise Fault(f"replaced, but not checked: {', '.join(sorted(missing))}")


def checks(course: Course) -> Iterator[Check]:
    """The checks of a level."""
    return chain(contracts.checks(course), hashers.checks(course), rounds.checks(course), exports.checks(course))


def lengths(is_short: bool) -> List[int]:
    """The lengths of whole messages."""
    chunks, tails = (FEW_CHUNKS, FEW_TAILS) if is_short else (CHUNKS, TAILS)
    return [1024 * (count - 1) + tail for count in chunks for tail in tails]


def whole_messages(library: Library, is_short: bool) -> Iterator[Tuple[int, Machine]]:
    """Runs whole messages whose blocks are compressed by unknown functions; gives each length, and the machine that ran it."""
    for length in lengths(is_short):
        yield length, check_length(library, length)
