"""What all pictures share: the colours of light and dark pages, text, boxes, and the picture around them."""

from __future__ import annotations

import html
import re
from typing import Iterable, Iterator

WIDTH = 760
LIGHT = {
    "ground": "#ffffff", "ink": "#1f2328", "quiet": "#59636e", "line": "#8c959f",
    "grey": "#eaeef2 #8c959f", "blue": "#b6d8fb #0969da", "green": "#b5e5c0 #1a7f37", "orange": "#ffcfa3 #bc4c00",
    "violet": "#dccdfb #8250df", "red": "#ffd0cc #cf222e",
}
DARK = {
    "ground": "#0d1117", "ink": "#f0f6fc", "quiet": "#9ea7b1", "line": "#656c76",
    "grey": "#21262d #656c76", "blue": "#143d6b #4493f8", "green": "#15432a #3fb950", "orange": "#6a3510 #f0883e",
    "violet": "#3c2a66 #ab7df8", "red": "#5c1f22 #ff7b72",
}
#: The colours of boxes, each with one for its edge.
PAIRS = ("grey", "blue", "green", "orange", "violet", "red")


def rules(colours: dict[str, str]) -> str:
    """The rules of one kind of page: of a class such as `blue` for a box, and `blue-line` for a line or an open box."""
    plain = f"text{{fill:{colours['ink']}}}.quiet{{fill:{colours['quiet']}}}.ground{{fill:{colours['ground']}}}" \
            f".thin{{stroke:{colours['line']}}}.dot{{fill:{colours['ink']}}}"
    boxes = ((name, *colours[name].split()) for name in PAIRS)
    return plain + "".join(f".{name}{{fill:{fill};stroke:{edge}}}.{name}-line{{stroke:{edge}}}" for name, fill, edge in boxes)


STYLE = "text{font:13px system-ui,-apple-system,'Segoe UI',Helvetica,Arial,sans-serif}.title{font-size:16px;font-weight:600}" \
        ".bold{font-weight:600}.thin{stroke-width:1}[class$=line]{fill:none;stroke-width:1.5}" \
        f"{rules(LIGHT)}@media(prefers-color-scheme:dark){{{rules(DARK)}}}"


def text(x: float, y: float, words: str, kind: str = "", anchor: str = "start") -> str:
    of_kind = f' class="{kind}"' if kind else ""
    at = "" if anchor == "start" else f' text-anchor="{anchor}"'
    return f'<text x="{x:g}" y="{y:g}"{of_kind}{at}>{html.escape(words, quote=False)}</text>'


def box(x: float, y: float, width: float, height: float, kind: str, round_by: float = 3) -> str:
    return f'<rect x="{x:g}" y="{y:g}" width="{width:g}" height="{height:g}" rx="{round_by:g}" class="{kind}"/>'


def path(kind: str, *points: tuple[float, float]) -> str:
    """A line through some points."""
    return f'<path class="{kind}" d="M{"L".join(f"{x:g} {y:g}" for x, y in points)}"/>'


def right_ends(drawn: str) -> Iterator[float]:
    """Where boxes, lines and texts end on the right. A sign of a text counts as 6 wide, which is less than most are."""
    for x, width in re.findall(r'<rect x="([-.\d]+)" y="[-.\d]+" width="([-.\d]+)"', drawn):
        yield float(x) + float(width)
    for points in re.findall(r' d="M([^"]*)"', drawn):
        yield from (float(point.split(" ")[0]) for point in points.split("L"))
    for x, rest, words in re.findall(r'<text x="([-.\d]+)"([^>]*)>([^<]*)<', drawn):
        share = 0 if '"end"' in rest else 0.5 if '"middle"' in rest else 1
        yield float(x) + share * 6 * len(html.unescape(words))


def picture(title: str, description: str, height: int, parts: Iterable[str]) -> str:
    """A picture with its title. The description is for those who can't see it."""
    parts = list(parts)
    for part in parts:
        assert max(right_ends(part), default=0) <= WIDTH, f"{title}: this is cut off: {part}"
    return "\n".join([
        f'<svg xmlns="http://www.w3.org/2000/svg" width="{WIDTH}" height="{height}" viewBox="0 0 {WIDTH} {height}" role="img">',
        f"<title>{html.escape(title)}</title>", f"<desc>{html.escape(description)}</desc>", f"<style>{STYLE}</style>",
        box(0, 0, WIDTH, height, "ground", 8), text(20, 30, title, "title"), *parts, "</svg>", "",
    ])
