"""Types: what mypy passes and what it refuses, the signatures, and the hints at run time."""

import ast
import inspect
import os
import re
import shutil
import subprocess
import typing
from pathlib import Path

import pytest

import yurewha as y

PACKAGE = Path(y.__file__).resolve().parent
HERE = Path(__file__).resolve().parent

TYPED_NUMPY = """
import numpy
import yurewha as y
words = numpy.zeros((2, 5), dtype="<u8")
root: y.Hash = y.xorb_hash(words)
root = y.data_hash(words)
root = y.xorb_hash([(y.Hash(), numpy.uint64(1))])
chunks: y.Chunks = y.Chunks.from_columns(words[:, :4], words[:, 4])
hashes: y.Hashes = y.data_hashes(words, numpy.zeros(3, dtype="i8"))
"""


def mypy(tmp_path, *arguments):
    """The lines at which mypy finds an error, and all that it says."""
    values = {**os.environ, "MYPYPATH": str(PACKAGE.parent)}
    told = subprocess.run(
        ["mypy", "--strict", "--no-error-summary", "--cache-dir", str(tmp_path / "cache"), *arguments],
        capture_output=True, text=True, env=values, cwd=tmp_path, check=False)
    return [int(number) for number in re.findall(r":(\d+): error", told.stdout)], told.stdout + told.stderr


def refused_lines(text):
    """The numbers of the lines that have to be refused."""
    numbered = list(enumerate(text.splitlines(), 1))
    (start,) = [number for number, line in numbered if line == "# Each line from here on is refused."]
    return [number for number, line in numbered if number > start and line and not line.startswith("#")]


@pytest.mark.skipif(not shutil.which("mypy"), reason="there is no mypy")
def test_types(tmp_path):
    accepted, refused = HERE / "accepted_by_mypy.py", HERE / "refused_by_mypy.py"
    expected = refused_lines(refused.read_text(encoding="utf-8"))
    assert len(expected) > 300
    for arguments, expected_lines in (
        (["--python-version", "3.9", "-p", "yurewha"], []),
        ([str(accepted)], []),
        ([str(refused)], expected),
    ):
        lines, told = mypy(tmp_path, *arguments)
        assert sorted(set(lines)) == expected_lines, told
        assert "[no-redef]" not in told, told


@pytest.mark.skipif(not shutil.which("mypy"), reason="there is no mypy")
def test_types_of_numpy(tmp_path):
    pytest.importorskip("numpy")
    (tmp_path / "typed.py").write_text(TYPED_NUMPY)
    lines, told = mypy(tmp_path, "typed.py")
    assert lines == [], told


def public_signatures():
    """Each annotation of a call or a name that a user may see, with where it stands."""
    for path in sorted(PACKAGE.glob("*.py")):
        for node in ast.walk(ast.parse(path.read_text(encoding="utf-8"))):
            if isinstance(node, ast.FunctionDef) and (not node.name.startswith("_") or node.name.endswith("__")):
                kinds = node.args
                arguments = [*kinds.posonlyargs, *kinds.args, *kinds.kwonlyargs, kinds.vararg, kinds.kwarg]
                for annotation in [node.returns, *(argument.annotation for argument in arguments if argument)]:
                    if annotation is not None:
                        yield f"{path.name}: {node.name}", ast.unparse(annotation)


def test_no_public_signature_takes_anything():
    seen = list(public_signatures())
    assert len(seen) > 200
    assert [(place, text) for place, text in seen if re.search(r"\bAny\b", text)] == []


def test_the_hints_of_each_public_name_can_be_read():
    for name in y.__all__:
        item = getattr(y, name)
        typing.get_type_hints(item)
        for member in vars(item).values() if inspect.isclass(item) else ():
            function = getattr(member, "__func__", member)
            if inspect.isfunction(function) and hasattr(function, "__annotations__") and name != "Flat":
                typing.get_type_hints(function)
