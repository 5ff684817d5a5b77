"""Errors that are planted in the assembly of a level, one at a time; the checks must refuse each of them."""

from __future__ import annotations

import re
from dataclasses import dataclass

from layout import part_of


@dataclass(frozen=True)
class Plant:
    """An error: what it is, the function that has it, a pattern, what stands in the place of what it finds, which place of the function
    that is, counted from 0 or from the end, and what the check has to say of it. If only the checks of every number see it, `numbers` is how
    the name of that one begins."""

    what: str
    function: str
    pattern: str
    by: str
    which: int = 0
    reason: str = ""
    numbers: str = ""

    def applied_to(self, text: str) -> str:
        """The text of a level with the error, which has to change something."""
        start, end = part_of(text, self.function)
        found = list(re.finditer(self.pattern, text[start:end]))
        place = found[self.which]
        changed = place.expand(self.by)
        if changed == place[0]:
            raise ValueError(f"{self.what}: nothing changes")
        return text[:start + place.start()] + changed + text[start + place.end():]
