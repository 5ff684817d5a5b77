"""Flags of operations on numbers of which bits may be unknown: each is found when it is asked for."""

from __future__ import annotations

from typing import Callable, Dict, Optional, Tuple

from bits import Some, equal, less

#: What gives a flag.
Flag = Callable[[], Optional[bool]]


class FoundFlags(Dict[str, Optional[bool]]):
    """Flags that are found when they are asked for. If they come from a comparison, `compared` has both numbers."""

    def __init__(self, found_by: Dict[str, Flag], compared: Optional[Tuple[Some, Some]] = None) -> None:
        super().__init__()
        self.found_by, self.compared = found_by, compared

    def __missing__(self, name: str) -> Optional[bool]:
        found = self[name] = self.found_by[name]()
        return found


def order_holds(order: str, x: Some, y: Some) -> bool:
    """Whether two numbers from 0 on are in an order: <, >=, ==, !=, <= or >."""
    return {
        "<": lambda: less(x, y), ">=": lambda: not less(x, y), "==": lambda: equal(x, y), "!=": lambda: not equal(x, y),
        "<=": lambda: not less(y, x), ">": lambda: less(y, x),
    }[order]()
