"""A file of vectors: its groups of tests, its notes, and its text."""

from __future__ import annotations

import dataclasses
import itertools
import json
import pathlib
from typing import Any, Iterable

FOLDER = pathlib.Path(__file__).resolve().parents[1]
VERSION = "1.1.0"
Test = dict[str, Any]


def valid(comment: str, *flags: str, **fields: Any) -> Test:
    """A test of a call that succeeds."""
    return {"comment": comment, "flags": list(flags), "result": "valid", **fields}


def invalid(comment: str, *flags: str, **fields: Any) -> Test:
    """A test of a call that is refused, or of an input that isn't read."""
    return {"comment": comment, "flags": list(flags), "result": "invalid", **fields}


@dataclasses.dataclass
class Group:
    """Tests of one type; `fields` are those that they share."""

    type: str
    comment: str
    tests: list[Test]
    fields: dict[str, Any] = dataclasses.field(default_factory=dict)


@dataclasses.dataclass
class File:
    """A file of vectors. `notes` says what each flag means."""

    name: str
    algorithm: str
    header: list[str]
    notes: dict[str, str]
    groups: list[Group]

    def text(self) -> str:
        """The file's text: a line for each test."""
        number = 0
        groups = []
        for group in self.groups:
            lines = []
            for test in group.tests:
                number += 1
                unknown = set(test["flags"]) - set(self.notes)
                if unknown:
                    raise ValueError(f"{self.name}: flags without a note: {unknown}")
                lines.append(compact({"tcId": number, **test}))
            head = compact({"type": group.type, "comment": group.comment, **group.fields})[:-1]
            groups.append(head + ',"tests":[\n' + ",\n".join(lines) + "\n]}")
        unused = set(self.notes) - {flag for group in self.groups for test in group.tests for flag in test["flags"]}
        if unused:
            raise ValueError(f"{self.name}: notes without a test: {unused}")
        return self._head(number) + ',\n"testGroups":[\n' + ",\n".join(groups) + "\n]\n}\n"

    def _head(self, number: int) -> str:
        head = {
            "algorithm": self.algorithm,
            "version": VERSION,
            "schema": f"schemas/{self.name}_schema.json",
            "numberOfTests": number,
            "header": self.header,
            "notes": self.notes,
        }
        return "{\n" + ",\n".join(f"{compact(key)}:{compact(value)}" for key, value in head.items())


def compact(value: Any) -> str:
    """JSON text without spaces, in ASCII."""
    return json.dumps(value, separators=(",", ":"))


def stored(name: str) -> File:
    """A file as it stands in this folder."""
    value = json.loads((FOLDER / f"{name}.json").read_text(encoding="utf-8"))
    groups = [Group(it.pop("type"), it.pop("comment"), it.pop("tests"), it) for it in value["testGroups"]]
    return File(name, value["algorithm"], value["header"], value["notes"], groups)


def differences(texts: dict[str, str]) -> Iterable[str]:
    """What differs between the texts of some files and what stands in this folder."""
    for name, text in texts.items():
        path = FOLDER / name
        if not path.exists():
            yield f"{name}: isn't there"
        elif path.read_bytes() != text.encode():
            lines = itertools.zip_longest(path.read_text().split("\n"), text.split("\n"))
            first = next(number for number, (old, new) in enumerate(lines, 1) if old != new)
            yield f"{name}: DIFFERENT from line {first} on"
    there = {str(path.relative_to(FOLDER)) for pattern in ("*.json", "schemas/*") for path in FOLDER.glob(pattern)}
    yield from (f"{name}: nothing makes it" for name in sorted(there - set(texts)))
