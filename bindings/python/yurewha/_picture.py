"""Pictures of subtrees, as SVG text."""

from __future__ import annotations

import html
import textwrap
from typing import List, Sequence, Tuple

from ._chunks import Chunks

#: A caption, the marks, and the kept nodes of each level from the chunks up, left and right of the gap.
Drawn = Tuple[str, bool, bool, Sequence[Tuple[Chunks, Chunks]]]

_WIDTH = 760
_LEFT, _RIGHT = 92, 728
_STEP, _NODE, _HIGH = 14, 11, 16
_ROW = 46
_SHOWN = 12
_ROWS = 24

_CAPTION = 90  # the most characters in a line of a caption

# A notebook puts the picture into its page. So each rule applies to the inside of such a picture only.
_STYLE = "".join(f".yurewha {rule}" for rule in (
    "text{font:11px sans-serif;fill:#222}",
    ".c{font-weight:bold;font-size:13px}",
    ".s{font-size:9px;fill:#555}",
    ".n{fill:#cfe0f5;stroke:#3b6ea5}",
    ".k{fill:#3b6ea5;stroke:#234a75}",
    ".g{fill:#f3f3f3;stroke:#aaa;stroke-dasharray:3 3}",
    ".u{stroke:#aaa;stroke-dasharray:3 3}",
    ".m{stroke:#222;stroke-width:4}",
    ".o{stroke:#aaa;stroke-dasharray:2 4;stroke-width:2}",
))


def _text(x: int, y: int, text: str, kind: str = "", anchor: str = "") -> str:
    kept = "".join(c if c.isprintable() else " " for c in text)
    of_kind = f' class="{kind}"' if kind else ""
    at = f' text-anchor="{anchor}"' if anchor else ""
    return f'<text x="{x}" y="{y}"{of_kind}{at}>{html.escape(kept)}</text>'


def _plural(count: int, noun: str) -> str:
    return f"{count:,} {noun}{'' if count == 1 else 's'}"


def _line(x1: int, y1: int, x2: int, y2: int, kind: str) -> str:
    return f'<line x1="{x1}" y1="{y1}" x2="{x2}" y2="{y2}" class="{kind}"/>'


def _nodes(nodes: Chunks, places: Sequence[int], x: int, y: int) -> List[str]:
    out = []
    for step, place in enumerate(places):
        hash_, size = nodes[place]
        kind = "k" if hash_ % 4 == 0 else "n"
        out.append(
            f'<rect x="{x + _STEP * step}" y="{y}" width="{_NODE}" height="{_HIGH}" rx="2" class="{kind}">'
            f"<title>{hash_.hex()}: {_plural(size, 'byte')}</title></rect>")
    return out


def _side(nodes: Chunks, y: int, right: bool) -> Tuple[List[str], int]:
    """Returns the nodes of one side of a row, and their width."""
    count = len(nodes)
    if count == 0:
        return [], 0
    shown = min(count, _SHOWN)
    wide = _STEP * shown + (38 if count > shown else 0)
    size = sum(size for _, size in nodes)
    told = f"{_plural(count, 'node')}, {_plural(size, 'byte')}"
    if right:
        out = _nodes(nodes, range(count - shown, count), _RIGHT - _STEP * shown, y)
        out.append(_text(_RIGHT, y + _HIGH + 11, told, "s", "end"))
        if count > shown:
            out.append(_text(_RIGHT - _STEP * shown - 4, y + 12, f"+{count - shown:,}", "s", "end"))
    else:
        out = _nodes(nodes, range(shown), _LEFT, y)
        out.append(_text(_LEFT, y + _HIGH + 11, told, "s"))
        if count > shown:
            out.append(_text(_LEFT + _STEP * shown + 4, y + 12, f"+{count - shown:,}", "s"))
    return out, wide


def _one(drawn: Drawn, top: int) -> Tuple[List[str], int]:
    """Returns the drawing of one subtree from the height `top` on, and the height at its end."""
    caption, at_start, at_end, levels = drawn
    out: List[str] = []
    y = top + 18
    for line in textwrap.wrap(caption, _CAPTION) if len(caption) > _CAPTION else filter(None, [caption]):
        out.append(_text(10, y, line, "c"))
        y += 18
    of_level = [sum(size for _, size in left) + sum(size for _, size in right) for left, right in levels]
    nodes = sum(len(left) + len(right) for left, right in levels)
    out.append(_text(10, y, f"{_plural(nodes, 'node')} kept on {_plural(len(levels), 'level')}, for "
                            f"{_plural(sum(of_level), 'byte')} of chunks"))
    y += 12
    first_row = y
    rows = list(range(len(levels)))
    if len(rows) > _ROWS:
        rows = rows[:_ROWS // 2] + [-1] + rows[-(_ROWS // 2):]
    above = [0]
    for size in reversed(of_level):
        above.append(above[-1] + size)
    above.reverse()  # above[i] is the sum of the levels from i on
    for level in reversed(rows):
        if level < 0:
            out.append(_text(10, y + 12, f".. {_plural(len(levels) - len(rows) + 1, 'level')}"))
            y += _ROW
            continue
        left, right = levels[level]
        out.append(_text(10, y + 12, f"level {level}"))
        drawn_left, wide_left = _side(left, y, False)
        drawn_right, wide_right = _side(right, y, True)
        if level < len(levels) - 1:
            x1, x2 = _LEFT + wide_left + 2, _RIGHT - wide_right - 2
            out.append(f'<rect x="{x1}" y="{y}" width="{x2 - x1}" height="{_HIGH}" class="g"/>')
            out.append(_line(x1, y, _LEFT, y - _ROW + _HIGH + 14, "u"))
            out.append(_line(x2, y, _RIGHT, y - _ROW + _HIGH + 14, "u"))
            out.append(_text((x1 + x2) // 2, y + 12, f"hashed away: {_plural(above[level + 1], 'byte')}", "", "middle"))
        out += drawn_left + drawn_right
        y += _ROW
    for x, marked, name, anchor in ((_LEFT - 8, at_start, "start", "middle"), (_RIGHT + 8, at_end, "end", "middle")):
        out.append(_line(x, first_row - 2, x, y - 14, "m" if marked else "o"))
        out.append(_text(x, y - 3, name if marked else "open", "s", anchor))
    return out, y + 4


def picture_of(drawn: Sequence[Drawn]) -> str:
    """Returns one picture of several subtrees, one below the other.

    >>> picture_of([("nothing", True, True, [(Chunks(), Chunks())])]).count("level 0")
    1
    """
    parts: List[str] = []
    y = 0
    for one in drawn:
        more, y = _one(one, y)
        parts += more
    high = y + 18
    legend = [
        f'<rect x="{_LEFT}" y="{y}" width="{_NODE}" height="{_HIGH - 5}" rx="2" class="k"/>',
        _text(_LEFT + 16, y + 10, "a node that is a natural cut", "s"),
        f'<rect x="{_LEFT + 160}" y="{y}" width="{_NODE}" height="{_HIGH - 5}" rx="2" class="n"/>',
        _text(_LEFT + 176, y + 10, "another node", "s"),
        f'<rect x="{_LEFT + 260}" y="{y}" width="{3 * _NODE}" height="{_HIGH - 5}" class="g"/>',
        _text(_LEFT + 298, y + 10, "nodes whose parents are the row above", "s"),
    ]
    return "\n".join([
        f'<svg xmlns="http://www.w3.org/2000/svg" class="yurewha" width="{_WIDTH}" height="{high}" viewBox="0 0 {_WIDTH} {high}">',
        f"<style>{_STYLE}</style>",
        f'<rect width="{_WIDTH}" height="{high}" fill="#fff"/>',
        *parts,
        *legend,
        "</svg>",
    ]) + "\n"
