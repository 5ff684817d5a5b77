"""Whether classes of numbers are all numbers but those that are left out on purpose. This file uses nothing else of this folder, so that it
can be read alone.

The numbers are choices of some bits, each 0 or 1. A class is a list of answers to questions in their order. A question is a bit, which the
answer gives; a set of bits, of which the answer gives how many are 1; or a list, of which the answer gives whether any of it holds. In a
list, b says that bit b is 1, and ~b that it is 0. A number is in a class if it has all its answers.
"""

from __future__ import annotations

from math import comb
from typing import Dict, FrozenSet, List, Sequence, Set, Tuple, Union

Question = Union[int, FrozenSet[int], Tuple[int, ...]]
Class = Tuple[Tuple[Question, int], ...]


def gap(classes: Sequence[Class], depth: int = 0) -> str:
    """What is missing, or nothing if each number is in exactly one class.

    All classes ask the same question first. For each answer that it may have, those with this answer cover all that is left. The answers of
    a bit, and of a list, are 0 and 1, and those of a set of bits are from 0 to how many they are. So a number is led to one class by its own answers."""
    if len(classes) == 1 and len(classes[0]) == depth:
        return ""
    if any(len(its) == depth for its in classes):
        return f"two classes have numbers in common, after {depth} answers"
    questions = {its[depth][0] for its in classes}
    if len(questions) != 1:
        return f"{len(questions)} questions are asked at once, after {depth} answers"
    question = questions.pop()
    by_answer: Dict[int, List[Class]] = {}
    for its in classes:
        by_answer.setdefault(its[depth][1], []).append(its)
    wanted = range(len(question) + 1 if isinstance(question, frozenset) else 2)
    if set(by_answer) != set(wanted):
        return f"of the answers 0 to {len(wanted) - 1}, {sorted(set(wanted) - set(by_answer))} are missing, after {depth} answers"
    for part in by_answer.values():
        found = gap(part, depth + 1)
        if found:
            return found
    return ""


def size(its: Class, bits: int) -> int:
    """How many of 2^bits numbers a class has."""
    known: Dict[int, int] = {}
    sums: List[Tuple[FrozenSet[int], int]] = []
    lists: List[FrozenSet[int]] = []
    for question, answer in its:
        if isinstance(question, tuple) and len(set(map(_bit, question))) < len(question):
            raise ValueError("a list says two things of one bit")
        if isinstance(question, frozenset):
            sums.append((question, answer))
        elif isinstance(question, tuple) and answer:
            lists.append(frozenset(question))
        else:
            for said in (question,) if isinstance(question, int) else question:
                bit, value = (said, answer) if said >= 0 else (~said, 1 - answer)
                if known.setdefault(bit, value) != value:
                    return 0
    return _size(known, sums, lists, bits)


def _bit(said: int) -> int:
    """The bit of which b or ~b says something."""
    return said if said >= 0 else ~said


def _size(known: Dict[int, int], sums: List[Tuple[FrozenSet[int], int]], lists: List[FrozenSet[int]], bits: int) -> int:
    """The same, of what is known of bits, sums, and lists of which one holds. Numbers of which one of a list holds are all but those of which
    none does. A list that has all of another one says nothing more."""
    left = {
        frozenset(said for said in one if _bit(said) not in known) for one in lists
        if not any(known.get(_bit(said)) == int(said >= 0) for said in one)}
    lists = [one for one in left if not any(other < one for other in left)]
    if lists:
        one, others = lists[0], lists[1:]
        none = {_bit(said): int(said < 0) for said in one}
        return _size(known, sums, others, bits) - _size({**known, **none}, sums, others, bits)
    seen: Set[int] = set()
    count = 1
    for question, answer in sums:
        if seen & question:
            raise ValueError("sets of bits overlap")
        seen |= question
        left = answer - sum(known.get(bit, 0) for bit in question)
        count *= comb(len([bit for bit in question if bit not in known]), left) if left >= 0 else 0
    return count << bits - len(seen | set(known))


def must_cover(run: Sequence[Class], beyond: Sequence[Class], empty: Sequence[Class], left_out: int, bits: int, what: str) -> None:
    """Refuses classes that leave out a number, in two ways: by their questions, and by how many numbers they have together. Those that
    were run must be all but as many as are left out on purpose, which are those beyond; the empty ones have none."""
    found = gap([*run, *beyond, *empty])
    if found:
        raise ValueError(f"{what}: {found}")
    for its, wanted, how in ((run, (1 << bits) - left_out, "run"), (beyond, left_out, "left out"), (empty, 0, "in classes without any")):
        counted = sum(size(one, bits) for one in its)
        if counted != wanted:
            raise ValueError(f"{what}: {counted} numbers of 2^{bits} are {how}, not {wanted}")
