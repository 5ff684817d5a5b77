"""The pictures of docs/LIMITS.md, as SVG that is read on light and dark pages."""

from __future__ import annotations

import math
import pathlib
from typing import Callable, Iterator, NamedTuple, Sequence

DOCS = pathlib.Path(__file__).resolve().parents[2] / "docs"
Points = Sequence[tuple[float, float]]
WIDTH, HEIGHT, LEFT, RIGHT, TOP, BOTTOM = 760, 420, 78, 24, 96, 58

STYLE = """text{font:13px sans-serif;fill:#1f2328}.t{font-size:15px;font-weight:bold}.g{stroke:#d0d7de;stroke-width:1}
.x{stroke:#59636e;stroke-width:1.5}.a{stroke:#0969da;fill:none;stroke-width:2.5}
.b{stroke:#bc4c00;fill:none;stroke-width:2.5;stroke-dasharray:8 4}
.c{stroke:#cf222e;fill:none;stroke-width:2.5;stroke-dasharray:2 4}
.p{fill:#0969da;stroke:#fff;stroke-width:1.5}.q{fill:none;stroke:#bc4c00;stroke-width:2}
@media(prefers-color-scheme:dark){text{fill:#f0f6fc}.g{stroke:#3d444d}.x{stroke:#9198a1}.a{stroke:#4493f8}
.b{stroke:#f0883e}.c{stroke:#ff7b72}
.p{fill:#4493f8;stroke:#0d1117}.q{stroke:#f0883e}}"""


class Axis(NamedTuple):
    """An axis from one value to another: its name, its marks, and where a value stands on it, from 0 to 1."""

    name: str
    marks: Sequence[tuple[float, str]]
    place: Callable[[float], float]


class Series(NamedTuple):
    """Points with a class of the style; a line, or marks of one kind."""

    name: str
    style: str
    points: Points
    line: bool


def power_axis(name: str, first: int, last: int, step: int = 1) -> Axis:
    """An axis of powers of ten."""
    marks = [(10.0**exponent, power_text(exponent)) for exponent in range(first, last + 1, step)]
    return Axis(name, marks, lambda value: (math.log10(value) - first) / (last - first))


def power_text(exponent: int) -> str:
    """A power of ten, with its exponent raised."""
    small = {0: "1", 1: "10", 2: "100"}
    return small.get(exponent, f'10<tspan dy="-5" font-size="10">{exponent}</tspan>')


def plain_axis(name: str, last: int, step: int) -> Axis:
    """An axis of whole numbers from 0."""
    return Axis(name, [(value, f"{value:,}") for value in range(0, last + 1, step)], lambda value: value / last)


def at(axes: tuple[Axis, Axis], point: tuple[float, float]) -> tuple[float, float]:
    """Where a point stands in the picture."""
    across, up = axes[0].place(point[0]), axes[1].place(point[1])
    return LEFT + across * (WIDTH - LEFT - RIGHT), HEIGHT - BOTTOM - up * (HEIGHT - TOP - BOTTOM)


def grid(axes: tuple[Axis, Axis]) -> Iterator[str]:
    """Both axes with their marks and names."""
    base, end = HEIGHT - BOTTOM, WIDTH - RIGHT
    for value, text in axes[1].marks:
        y = at(axes, (axes[0].marks[0][0], value))[1]
        yield f'<path class="g" d="M{LEFT} {y:.1f}H{end}"/><text x="{LEFT - 8}" y="{y + 4:.1f}" text-anchor="end">{text}</text>'
    for value, text in axes[0].marks:
        x = at(axes, (value, axes[1].marks[0][0]))[0]
        yield f'<path class="g" d="M{x:.1f} {TOP}V{base}"/><text x="{x:.1f}" y="{base + 20}" text-anchor="middle">{text}</text>'
    yield f'<path class="x" fill="none" d="M{LEFT} {TOP}V{base}H{end}"/>'
    yield f'<text x="{(LEFT + end) / 2:.0f}" y="{HEIGHT - 14}" text-anchor="middle">{axes[0].name}</text>'
    middle = (TOP + base) / 2
    yield f'<text transform="rotate(-90 18 {middle:.0f})" x="18" y="{middle:.0f}" text-anchor="middle">{axes[1].name}</text>'


def drawn(axes: tuple[Axis, Axis], series: Series) -> Iterator[str]:
    """The line or the marks of a series."""
    places = [at(axes, point) for point in series.points]
    if series.line:
        yield f'<path class="{series.style}" d="M{"L".join(f"{x:.1f} {y:.1f}" for x, y in places)}"/>'
    else:
        yield from (f'<circle class="{series.style}" cx="{x:.1f}" cy="{y:.1f}" r="5"/>' for x, y in places)


def legend(all_series: Sequence[Series]) -> Iterator[str]:
    """What each series is, in two columns over the picture."""
    for number, series in enumerate(all_series):
        x, y = LEFT + number % 2 * 330, 46 + number // 2 * 22
        sample = f'<path class="{series.style}" d="M{x} {y}h36"/>' if series.line \
            else f'<circle class="{series.style}" cx="{x + 18}" cy="{y}" r="5"/>'
        yield f'{sample}<text x="{x + 44}" y="{y + 4}">{series.name}</text>'


def picture(title: str, axes: tuple[Axis, Axis], all_series: Sequence[Series]) -> str:
    """The text of a picture."""
    parts = [f'<svg xmlns="http://www.w3.org/2000/svg" width="{WIDTH}" height="{HEIGHT}" viewBox="0 0 {WIDTH} {HEIGHT}" '
             f'role="img"><title>{title}</title>', f"<style>{STYLE}</style>",
             f'<text class="t" x="{LEFT}" y="24">{title}</text>', *legend(all_series), *grid(axes)]
    parts += [text for series in all_series for text in drawn(axes, series)]
    return "\n".join([*parts, "</svg>", ""])


def write(mean: Points, high: Points, measured_mean: Points, measured_greatest: Points) -> Iterator[str]:
    """Writes both pictures, and prints where."""
    chunks = power_axis("chunks of a range", 1, 12)
    top = 100 * math.ceil(max(nodes for _, nodes in high) / 100)
    lines = [Series("mean, simulated", "a", mean, True), Series("99.9th percentile, simulated", "b", high, True)]
    nodes = plain_axis("nodes kept", top, 200 if top > 800 else 100)
    kept = picture("Nodes that a range of random chunks keeps", (chunks, nodes),
                   [*lines, Series("mean, measured by the model", "p", measured_mean, False),
                    Series("greatest, measured by the model", "q", measured_greatest, False)])
    whole = [(value, value) for value, _ in mean]
    hostile = picture("Nodes kept with and without stable points", (chunks, power_axis("nodes kept", 1, 12)),
                      [*lines, Series("without stable points: all chunks", "c", whole, True)])
    for name, text in (("scale-kept.svg", kept), ("scale-hostile.svg", hostile)):
        (DOCS / name).write_text(text)
        yield f"docs/{name}: {len(text)} bytes"
