"""The picture of speeds compared with other code, from what bench/results says."""

from __future__ import annotations

import math
import re
from pathlib import Path
from typing import Iterator, NamedTuple

from svg import box, path, picture, text

RESULTS = Path(__file__).resolve().parents[2] / "bench" / "results"
LEFT, RIGHT, BAR, ROW, HEAD = 150, 725, 18, 26, 34
STEP = 50  # from one line of the axis to the next, in percent


class Bar(NamedTuple):
    """What was measured, and the peer's time in percent of ours."""

    name: str
    percent: float


def rows(file: str) -> list[list[str]]:
    """The cells of each line of the tables in a file of results: columns are two spaces apart."""
    lines = (RESULTS / file).read_text(encoding="utf-8").splitlines()
    return [re.split(" {2,}", line) for line in lines if "  " in line]


def when(file: str) -> tuple[str, str]:
    """The day and the processor of a file of results."""
    found = re.search(r"on ([\d-]+): (.*?), ", (RESULTS / file).read_text(encoding="utf-8"))
    assert found, file
    return found[1], found[2].replace("(R)", "")


def hashing() -> Iterator[Bar]:
    """A chunk of 64 KiB that isn't in a cache, at each level of processors, compared with `blake3` with the same instructions."""
    table = rows("hashes.txt")
    column = table[0].index("64 KiB, cold")
    for level, peer, name in (
        ("x86-64", "SSE2", "SSE2"), ("x86-64-v2", "SSE4.1", "SSE4.1"), ("x86-64-v3", "AVX2", "AVX2"), ("x86-64-v4", "SIMD", "AVX-512")
    ):
        (ratio,) = (row[column] for row in table if row[:2] == [level, f"`blake3`, {peer}"])
        yield Bar(name, 100 / float(ratio))


def roots() -> Iterator[Bar]:
    """Roots of lists, compared with a loop over `blake3` with all that the processor has; these rows come last."""
    table = rows("roots.txt")
    column = table[0].index("by a loop, the crate `hex`")
    found = {row[0]: row for row in table}
    for task, name in (("10^4", "10,000 chunks"), ("10^5", "100,000 chunks"), ("10^6", "1,000,000 chunks")):
        yield Bar(name, 100 / float(found[f"`xorb_hash`, {task} chunks"][column].split(" ")[0]))


def bars(top: int, most: int, head: str, peer: str, all_bars: list[Bar]) -> Iterator[str]:
    """A heading and its bars before an axis that ends with a percentage, from a height on."""
    def across(percent: float) -> float:
        return round(LEFT + percent / most * (RIGHT - LEFT), 1)

    yield text(20, top, head, "bold")
    yield text(20, top + 18, peer, "quiet")
    base = top + HEAD + len(all_bars) * ROW
    for percent in range(0, most + 1, STEP):
        yield path("thin", (across(percent), top + HEAD - 4), (across(percent), base))
        yield text(across(percent), base + 16, f"{percent} %", "bold" if percent == 100 else "quiet", "middle")
    for number, bar in enumerate(all_bars):
        y = top + HEAD + number * ROW
        yield text(LEFT - 12, y + 14, bar.name, "", "end")
        yield box(LEFT, y, round(across(bar.percent) - LEFT, 1), BAR, "blue" if bar.percent >= 100 else "orange", 2)
        yield text(across(bar.percent) - 6, y + 14, f"{bar.percent:.0f} %", "bold", "end")


def speed() -> str:
    """Bars of speed: 100 % is as fast as the other code."""
    (day, processor), (other_day, other) = when("hashes.txt"), when("roots.txt")
    days = day if day == other_day else f"{day} and {other_day}"
    assert processor == other
    first, second = list(hashing()), list(roots())
    top, most = 62, math.ceil(max(bar.percent for bar in first + second) / STEP) * STEP
    next_top = top + HEAD + ROW * len(first) + 54
    last = next_top + HEAD + ROW * len(second) + 48
    title = "Speed, in percent of that of other code on the same machine"
    return picture(title, "; ".join(f"{bar.name}: {bar.percent:.0f} %" for bar in first + second), last + 18, [
        *bars(top, most, "Hash of a chunk of 64 KiB that isn't in a cache", "beside the crate blake3 with the same instructions", first),
        *bars(next_top, most, "Root of a list", "beside a plain loop over blake3, which uses all that the processor has", second),
        text(20, last, f"bench/results/hashes.txt and roots.txt, {days}, {processor}", "quiet"),
    ])
