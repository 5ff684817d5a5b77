"""The picture of the layers between a caller and the logic. The table of docs/TRUST.md says how far each is known to be right."""

from __future__ import annotations

import re
import textwrap
from pathlib import Path
from typing import Iterator, NamedTuple

from svg import box, picture, text

ROOT = Path(__file__).resolve().parents[2]
#: The first word of a state, its colour, and what it means.
STATES = {
    "proved": ("green", "for every input"),
    "compared": ("blue", "by a script"),
    "checked": ("violet", "on symbols, not all lengths"),
    "tested": ("orange", "on examples"),
    "trusted": ("red", "assumed"),
}
LEFT, BOXES, RIGHT, SPACE, LINE = 20, 164, 740, 8, 18


class Layer(NamedTuple):
    """How the layer's row in the table begins, its lines in the picture, and how wide it is compared with others."""

    row: str
    lines: tuple[str, ...]
    width: float = 1


def crates_of_the_exports() -> list[str]:
    """The crates that the library and both programs are made of, as crates.txt has them, from the exports down."""
    lines = (ROOT / "crates.txt").read_text(encoding="utf-8").splitlines()
    uses = {re.split(r"[ :]", line)[0]: line.split(":")[1].split() for line in lines if not line.startswith("#")}
    found: set[str] = set()
    left = ["yurewha_c", "xetroot", "xetrange"]
    while left:
        name = left.pop()
        if name in uses and name not in found:
            found.add(name)
            left += uses[name]
    return [name for name in reversed(uses) if name in found]


def stack() -> tuple[tuple[str, tuple[Layer, ...]], ...]:
    """The layers from the caller down, each row with its name."""
    crates = textwrap.wrap(", ".join(crates_of_the_exports()), 76, break_on_hyphens=False)
    return (
        ("what you call", (
            Layer("`yurewha.h`", ("C header",)),
            Layer("the crate `yurewha`", ("Rust crate",)),
            Layer("the Python package", ("Python package",), 1.2),
            Layer("the JavaScript package", ("JavaScript package",), 1.4),
        )),
        ("code in C", (
            Layer("choice of a processor level", ("choice of code for a processor, heap",), 1.2),
            Layer("what is around a program", ("arguments, signals of programs",)),
        )),
        ("machine code", (
            Layer("assembly for Linux in `dist/`", ("Linux",), 0.8),
            Layer("machine code that hashes", ("hashing of messages",), 1.05),
            Layer("the assembly for x86-64-v4", ("AVX-512",), 1.2),
            Layer("the assembly for Windows", ("Windows",), 1.2),
        )),
        ("how it is made", (Layer("translation to an LLVM", ("toolchain and LLVM",)),)),
        ("source in crates/", (Layer("code in `crates/`", tuple(crates)),)),
        ("what a proof needs", (
            Layer("definitions in", ("definitions in specs/",)),
            Layer("contracts of the toolchain", ("contracts of libraries",)),
            Layer("the logic and its prover", ("logic and prover",)),
        )),
        ("what all runs on", (Layer("C compiler", ("compilers, linker, C library, interpreters, kernel, processor",)),)),
    )


def states() -> dict[str, str]:
    """The state of each layer in the table of TRUST."""
    page = (ROOT / "docs/TRUST.md").read_text(encoding="utf-8")
    table = page[page.index("\n| Layer | State |") :].split("\n\n")[0]
    return dict(line[2:].split(" | ")[:2] for line in table.strip().splitlines()[2:])


def row(top: float, layers_of_row: tuple[Layer, ...], all_states: dict[str, str]) -> Iterator[str]:
    """The boxes of a row."""
    unit = (RIGHT - BOXES - SPACE * (len(layers_of_row) - 1)) / sum(layer.width for layer in layers_of_row)
    x: float = BOXES
    for layer in layers_of_row:
        (state,) = (state for name, state in all_states.items() if name.startswith(layer.row))
        word, width = re.split(r"\W", state)[0], round(unit * layer.width, 1)
        yield box(x, top, width, 26 + LINE * len(layer.lines), STATES[word][0], 4)
        for number, line in enumerate(layer.lines):
            yield text(round(x + 10, 1), top + LINE * (number + 1), line)
        also = ", tested" if "tested" in state.removeprefix(word) else ""
        yield text(round(x + 10, 1), top + LINE * (len(layer.lines) + 1), word + also, "bold")
        x = round(x + width + SPACE, 1)


def layers() -> str:
    """All layers, from the caller down."""
    all_states, parts, y = states(), [], 56
    for x, (word, (kind, meaning)) in zip((20, 156, 276, 496, 624), STATES.items()):
        parts += [box(x, y - 12, 14, 14, kind, 2), text(x + 20, y, word, "bold"), text(x + 20, y + 17, meaning, "quiet")]
    y += 36
    for name, boxes in stack():
        parts += [text(LEFT, y + 18, name, "quiet"), *row(y, boxes, all_states)]
        y += 26 + LINE * len(boxes[0].lines) + SPACE
    description = "; ".join(f"{name}: {', '.join(' '.join(layer.lines) for layer in boxes)}" for name, boxes in stack())
    return picture("From your call down to the logic: what each layer rests on", description, y + 8, parts)
