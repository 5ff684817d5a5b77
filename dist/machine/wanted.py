"""What the definition gives: for symbols, and in plain arithmetic for the numbers that these symbols have."""

from __future__ import annotations

from typing import Any, Callable, Sequence

from fault import Fault
from words import Node, Word, number_of


def numbers_of(given: Any) -> Any:
    """The same lists and tuples, with numbers instead of words."""
    if isinstance(given, (list, tuple)):
        return type(given)(map(numbers_of, given))
    return number_of(given) if isinstance(given, Node) else given


class Wanted:
    """The words that a part of the definition gives."""

    def __init__(self, definition: Callable[..., Sequence[Word]], *given: object) -> None:
        self.words = list(definition(*given))
        self.numbers = list(definition(*numbers_of(given)))

    def must_be(self, found: Sequence[Word], what: str) -> None:
        """Refuses other words, and words with other numbers."""
        if wrong := [i for i, (x, y) in enumerate(zip(found, self.words)) if x != y]:
            raise Fault(f"{what}: {len(wrong)} words differ from the definition, the first of them word {wrong[0]}")
        if len(found) != len(self.words) or list(map(number_of, found)) != self.numbers:
            raise Fault(f"{what}: the words are those of the definition, but the numbers aren't")
