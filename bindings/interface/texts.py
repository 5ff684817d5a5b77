"""Finds copies of what the library says of statuses. The packages take these texts from `yurewha_status_text`."""
from __future__ import annotations

import re
from collections.abc import Iterator
from pathlib import Path

from header import ROOT

LIBRARY = "crates/yurewha_c/src/status_text.rt"
PACKAGES = ("bindings/rust/src", "bindings/python/yurewha", "bindings/wasm/yurewha")
KINDS = (".rs", ".py", ".js")
#: Comments, docstrings and unit tests.
ASIDE = re.compile(r'""".*?"""|/\*.*?\*/|^\s*//[^\n]*|^#\[cfg\(test\)\]\nmod tests.*', re.M | re.S)


def texts() -> list[str]:
    """The library's texts. Those of rules are without the number of the rule."""
    return re.findall(r'=> "(?:rule \d+: )?([^"]+)"', (ROOT / LIBRARY).read_text(encoding="utf-8"))


def sources() -> Iterator[Path]:
    for folder in PACKAGES:
        yield from sorted(it for it in (ROOT / folder).rglob("*") if it.suffix in KINDS and it.stem != "tests")


def copies() -> Iterator[tuple[str, str]]:
    """The files that have a text of the library, and the text."""
    literal = re.compile(rf"""["'`](?:rule \d+: )?({'|'.join(map(re.escape, texts()))})["'`]""")
    for path in sources():
        for text in literal.findall(ASIDE.sub("", path.read_text(encoding="utf-8"))):
            yield str(path.relative_to(ROOT)), text
