"""Planted bugs, called edits: how their files are read, and what an edit makes of the files that it changes.

A table is a file `*.edits`. It may begin with a line `file:`, which is then the file of each edit that names none. Each edit begins with
a line `edit: NAME`; they are sorted by their names. A file `*.edit` is one edit, named like the file. The lines of an edit:

    file: PATH       the file that it changes
    old: TEXT        the text that goes, which stands once in the file. Lines that follow one another are one text
    new: TEXT        the text that comes. More groups of these three apply to what the earlier ones made
    test: NAME       the test that has to fail, if a test must catch the edit and not the prover
"""
from __future__ import annotations

from itertools import groupby
from pathlib import Path
from typing import NamedTuple

#: How the names of tables end, and of files with one edit.
TABLE, SINGLE = ".edits", ".edit"


class Change(NamedTuple):
    path: str
    old: str
    new: str


class Edit(NamedTuple):
    file: Path
    name: str
    changes: list[Change]
    test: str


class Faulty(Exception):
    """Why an edit can't be tried."""


def edit_of(file: Path, name: str, path: str, lines: list[str]) -> Edit:
    """Makes an edit of its lines and of the path that it begins with."""
    pairs = [line.partition(":")[::2] for line in lines if line]
    texts = [(key, "\n".join(text.removeprefix(" ") for _, text in its)) for key, its in groupby(pairs, lambda pair: pair[0])]
    old, test, changes = "", "", []
    for key, text in texts:
        if key == "file":
            path = text
        elif key == "old":
            old = text
        elif key == "new":
            changes.append(Change(path, old, text))
        elif key == "test":
            test = text
        else:
            raise SystemExit(f"{file}: {name}: no line of an edit begins with {key!r}")
    if not path or not changes:
        raise SystemExit(f"{file}: {name}: an edit needs a file, an old and a new text")
    return Edit(file, name, changes, test)


def read(file: Path) -> list[Edit]:
    """Reads the edits of a table, or the one edit of a file."""
    lines = file.read_text(encoding="utf-8").splitlines()
    if file.suffix != TABLE:
        return [edit_of(file, file.stem, "", lines)]
    begun = [i for i, line in enumerate(lines) if line.startswith("edit: ")] + [len(lines)]
    path = "".join(lines[:begun[0]]).removeprefix("file: ")
    edits = [edit_of(file, lines[i].removeprefix("edit: "), path, lines[i + 1:end]) for i, end in zip(begun, begun[1:])]
    names = [edit.name for edit in edits]
    if not names or names != sorted(names):
        raise SystemExit(f"{file}: a table has edits, sorted by their names")
    return edits


def texts_with(folder: Path, edit: Edit) -> dict[Path, str]:
    """Returns the texts of the files that an edit changes, as it makes them. Paths begin at the folder."""
    texts: dict[Path, str] = {}
    for path, old, new in edit.changes:
        file = folder / path
        if not file.is_file():
            raise Faulty(f"there is no file {path}")
        text = texts.get(file, file.read_text(encoding="utf-8"))
        if text.count(old) != 1:
            raise Faulty(f"{path} has {text.count(old)} times: {old.strip()}")
        texts[file] = text.replace(old, new)
    return texts
