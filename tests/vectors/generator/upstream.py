"""upstream.json: lists of chunks with what the crate xet-core-structures computes for them.

The model doesn't make these answers. They stay as they are, and `tests/vectors/check` compares the model's with them.
"""

from __future__ import annotations

import json
from typing import Callable

from . import lists, roots, subtrees
from .files import FOLDER, File, Group, Test

HEADER = [
    "The crate xet-core-structures 1.5.2 itself computed these values on 2026-11-27: its own sources, compiled by rustc 1.95 in "
    "release mode. The model didn't make them. tests/vectors/check compares the model with all of them. tests/hostile/upstream makes them "
    "again with the crate, and compares.",
    "`root` is what xorb_hash gives, `fileHash` what file_hash gives, and each `fileHash` of `salted` what file_hash_with_salt "
    "gives. `levels` is from MerkleHashSubtree::from_chunks under the marks. `jsonHash` is the compute_data_hash of that "
    "subtree's compact JSON text, with members in alphabetical order.",
    "`size` is the sum of the list's sizes. `finalHash` is the list's root if both ends are marked, else null.",
]
MEANS = HEADER[:1]
NOTES = {**roots.NOTES, **subtrees.NOTES}


def by_model(kind: str, test: Test) -> Test:
    """A test of a type with the model's answer."""
    told = lists.of_rule(test["list"])
    if kind == "Root":
        return roots.root_of(test["comment"], told, tuple(bytes.fromhex(row["saltBytes"]) for row in test["salted"]))
    return subtrees.subtree_of(test["comment"], told, test["atStart"], test["atEnd"])


def as_stored(_: str, test: Test) -> Test:
    """A test with the answer that it has."""
    return {name: value for name, value in test.items() if name != "tcId"}


def file_with(answered: Callable[[str, Test], Test]) -> File:
    """upstream.json, with the stored lists, salts and marks, and an answer to each."""
    stored = json.loads((FOLDER / "upstream.json").read_text())["testGroups"]
    groups = [Group(group["type"], group["comment"], [answered(group["type"], test) for test in group["tests"]])
              for group in stored]
    used = {flag for group in groups for test in group.tests for flag in test["flags"]}
    notes = {flag: note for flag, note in NOTES.items() if flag in used}
    return File("upstream", "roots and canonical subtrees, by xet-core-structures 1.5.2", HEADER, notes, groups)


def kept_file() -> File:
    """upstream.json with the answers that it has."""
    return file_with(as_stored)


def model_file() -> File:
    """upstream.json as it is if the model gives the same answers."""
    return file_with(by_model)
