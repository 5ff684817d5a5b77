"""The text of LLVM modules: functions with more attributes than the toolchain gave them, and how long the vectors are that they take."""

from __future__ import annotations

import re
from typing import Iterable

from proving import Fault

#: A vector among the parameters of a function.
VECTOR = re.compile(r"<(\d+) x i(\d+)>")


def has_vectors_above(most_bits: int, head: str) -> bool:
    """Whether a function whose head this is has longer vectors among its parameters."""
    return any(int(count) * int(bits) > most_bits for count, bits in VECTOR.findall(head))


def with_attributes(text: str, names: Iterable[str], attributes: str, most_bits: int) -> str:
    """The text of a module in which some functions, which take no vectors of more than some bits, have more attributes."""
    groups = dict(re.findall(r"(?m)^attributes #(\d+) = \{ (.*) \}$", text))
    made: dict[str, str] = {}
    for name in names:
        definition = re.compile(rf'(?m)^(define internal .*@"{re.escape(name)}"\(.*\)(?: \w+)* #)(\d+)(?= )')
        found = definition.search(text)
        if not found or "alwaysinline" in groups[found[2]] or "target-features" in groups[found[2]]:
            raise Fault(f"the module has no function {name} of its own that can stay apart")
        if has_vectors_above(most_bits, found[1]):
            raise Fault(f"{name} is called with vectors of more than {most_bits} bits, which are passed in several ways")
        number = made.setdefault(found[2], str(max(map(int, groups)) + 1 + len(made)))
        text = definition.sub(rf"\g<1>{number}", text)
    return text + "".join(f"\nattributes #{number} = {{ {groups[old]} {attributes} }}\n" for old, number in made.items())


def kept_apart(text: str, names: Iterable[str], most_bits: int) -> str:
    """The text of a module in which LLVM moves none of these functions into another one."""
    return with_attributes(text, names, "noinline", most_bits)
