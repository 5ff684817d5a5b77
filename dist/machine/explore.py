"""Runs something for every number: for each class of numbers for which it does the same, one run.

A run that meets a branch, an address or a count that its class doesn't decide raises a Split, which asks a question about the numbers. Then
it runs again for each answer. The answers of the runs that came to an end are the classes. covers.py shows which numbers they leave out.
"""

from __future__ import annotations

from typing import Callable, List, NamedTuple, Sequence

from bits import Answers, Beyond, Class, Impossible, Split
from fault import Fault

#: More classes than any function here has: one that has more depends on its numbers in a way that this can't split up.
MOST_CLASSES = 60000


class Explored(NamedTuple):
    """Classes, by what came of them: a run to the end; none, because nothing is promised for these numbers; none, as there are no such."""

    run: List[Answers]
    beyond: List[Answers]
    empty: List[Answers]


def classes(run: Callable[[Class], None], what: str, starts: Sequence[Answers] = ((),)) -> Explored:
    """The classes of something that is run, among the numbers with some first answers, or all numbers. A fault says for which check it
    came."""
    found = Explored([], [], [])
    left = list(starts)
    while left:
        answers = left.pop()
        try:
            run(Class(answers))
            found.run.append(answers)
        except Impossible:
            found.empty.append(answers)
        except Beyond:
            found.beyond.append(answers)
        except Split as split:
            most = len(split.question) if isinstance(split.question, frozenset) else 1
            left += [(*answers, (split.question, answer)) for answer in range(most + 1)]
        except Fault as fault:
            raise Fault(f"{what}: {fault}") from None
        if len(found.run) > MOST_CLASSES:
            raise Fault(f"{what}: an address or a count depends on too many bits")
    return found
