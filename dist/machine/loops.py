"""Where a function's loops begin, by its branches alone: no label of a compiler is used."""

from __future__ import annotations

import re
from typing import Dict, List, Set

from fault import Fault
from image import Image, Instruction
from machine import Machine

_TARGET = re.compile(r"\b([0-9a-f]+) <")
#: Jumps without a condition, and where the code ends.
_JUMPS, _ENDS = ("jmp", "b"), ("ret", "ud2", "brk", "udf", "br")


def successors(image: Image, function: str, kind: "type[Machine]") -> Dict[int, List[int]]:
    """Where the code of a function goes on after each of its instructions, as far as it stays in the function."""
    its = {at: it for at, it in image.instructions.items() if it.function == function}
    found: Dict[int, List[int]] = {}
    for at, it in its.items():
        words = [word for word in it.text.split() if word not in ("notrack", "bnd")]
        name, target = words[0], _TARGET.search(it.text)
        is_branch = bool(kind.BRANCH.match(name))
        goes_on = [at + len(it.code)] if name not in (*_JUMPS, *_ENDS) else []
        if target and (is_branch or name in _JUMPS):
            goes_on.append(int(target[1], 16))
        found[at] = [to for to in goes_on if to in its]
    return found


def reached(graph: Dict[int, List[int]], start: int, without: int) -> Set[int]:
    """What can be reached from a place, not through another one."""
    found: Set[int] = set()
    left = [start]
    while left:
        at = left.pop()
        if at not in found and at != without:
            found.add(at)
            left += graph[at]
    return found


def head_of_loop(image: Image, function: str, kind: "type[Machine]", callees: List[int]) -> int:
    """Where the innermost loop of a function begins that calls one of some functions."""
    found = loops(image, function, kind)
    calls = [head for head, body in found.items() if any(_calls(image.instructions[at], callees) for at in body)]
    if not calls:
        raise Fault(f"no loop of {function} calls what it should")
    return min(calls, key=lambda head: len(found[head]))


def loops(image: Image, function: str, kind: "type[Machine]") -> Dict[int, Set[int]]:
    """The loops of a function: where each begins, the place through which each way into it goes, and the places of its instructions."""
    graph = successors(image, function, kind)
    start = image.function(function)
    before: Dict[int, List[int]] = {at: [] for at in graph}
    for at, goes_on in graph.items():
        for to in goes_on:
            before[to].append(at)
    found: Dict[int, Set[int]] = {}
    alive = reached(graph, start, -1)
    for head, ends in before.items():
        if len(ends) > 1 and head != start:
            others = reached(graph, start, head)
            for end in (set(ends) & alive) - others:
                found.setdefault(head, {head}).update(reached(before, end, head))
    return found


def _calls(it: Instruction, callees: List[int]) -> bool:
    target = _TARGET.search(it.text)
    return it.text.split()[0] in ("call", "bl") and target is not None and int(target[1], 16) in callees
