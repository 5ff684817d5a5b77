"""What `tests/vectors/make_vectors` and `tests/vectors/check` do."""

from __future__ import annotations

import argparse
import concurrent.futures
import hashlib
import json
import pathlib
import sys
import tempfile
from typing import Callable, Iterable, Mapping

from . import (hash_indexes, hashes, json_texts, merges, range_proofs, roots, schemas, session_scripts, session_texts, sessions, subtrees,
               texts, upstream, whole_files)
from .files import FOLDER, File, differences, stored
from .scripts import Script
from .steps import script_of

Maker = Callable[[], File]
# What makes each file, the longest ones first. The answers of upstream.json aren't the model's: they are kept, and compared.
FILES: dict[str, Maker] = {
    "upstream": upstream.kept_file, "subtrees": subtrees.file, "roots": roots.file, "merges": merges.file, "hashes": hashes.file, "files": whole_files.file,
    "range_proofs": range_proofs.file, "subtree_json": json_texts.file, "sessions": sessions.file, "session_json": session_texts.file,
    "texts": texts.file}
BY_MODEL = {**FILES, "upstream": upstream.model_file}
# Scripts that are made of the stored files, each with what it tests.
MEANS = {"files": whole_files.MEANS, "hashes": hashes.MEANS, "merges": merges.MEANS, "range_proofs": range_proofs.MEANS, "roots": roots.MEANS,
         "session_json": session_texts.MEANS, "subtree_json": json_texts.MEANS, "subtrees": subtrees.MEANS, "texts": texts.MEANS,
         "upstream": upstream.MEANS}
# Scripts whose calls no file has.
SCRIPTS: dict[str, Callable[[], Script]] = {"hash_indexes": hash_indexes.script, "sessions": session_scripts.script}
# Where scripts are made. Git has only their sums, in the form of sha256sum.
MADE = FOLDER / "out/scripts"
SUMS = "scripts.sha256"


def made(maker: Maker) -> tuple[str, str]:
    """The path and the text of a file of vectors."""
    file = maker()
    return f"{file.name}.json", file.text()


def all_texts(makers: dict[str, Maker], jobs: int) -> dict[str, str]:
    """The texts of files of vectors and of their schemas, by path."""
    found = {f"schemas/{name}_schema.json": schemas.text(name) for name in (*makers, "scripts")}
    with concurrent.futures.ProcessPoolExecutor(jobs) as pool:
        found.update(pool.map(made, makers.values()))
    return found


def all_scripts() -> dict[str, bytes]:
    """All scripts, by name."""
    scripts = [*(script_of(stored(name), means) for name, means in MEANS.items()), *(maker() for maker in SCRIPTS.values())]
    return {f"{script.name}.jsonl": script.text().encode() for script in scripts}


def sums_of(scripts: Mapping[str, bytes]) -> str:
    """The sums of scripts: a line for each."""
    return "".join(f"{hashlib.sha256(scripts[name]).hexdigest()}  {name}\n" for name in sorted(scripts))


def write_scripts(scripts: Mapping[str, bytes]) -> None:
    """Writes scripts, and removes others. Two processes may do so at once, as each file is moved to its place."""
    MADE.mkdir(parents=True, exist_ok=True)
    with tempfile.TemporaryDirectory(dir=MADE.parent) as room:
        for name, data in scripts.items():
            (pathlib.Path(room) / name).write_bytes(data)
            (pathlib.Path(room) / name).replace(MADE / name)
    for path in MADE.iterdir():
        if path.name not in scripts:
            path.unlink(missing_ok=True)


def faults_of(name: str) -> Iterable[str]:
    """What a stored file has against its schema, and against the rules that a schema can't say."""
    import jsonschema  # type: ignore[import]

    value = json.loads((FOLDER / f"{name}.json").read_text())
    schema = json.loads((FOLDER / f"schemas/{name}_schema.json").read_text())
    jsonschema.Draft202012Validator.check_schema(schema)
    for error in jsonschema.Draft202012Validator(schema).iter_errors(value):
        yield f"{name}.json: {'/'.join(map(str, error.absolute_path))}: {error.message[:200]}"
    tests = [test for group in value["testGroups"] for test in group["tests"]]
    if [test["tcId"] for test in tests] != list(range(1, value["numberOfTests"] + 1)):
        yield f"{name}.json: the numbers of the tests aren't 1 to numberOfTests"
    if f"({name}.json) | {len(tests)} |" not in (FOLDER / "README.md").read_text():
        yield f"README.md says another number of tests of {name}.json, which has {len(tests)}"


def faults_of_script(name: str, data: bytes) -> Iterable[str]:
    """What a script has against the schema of its lines, and whether its head says how many tests there are."""
    import jsonschema

    schema = json.loads((FOLDER / "schemas/scripts_schema.json").read_text())
    line_is_valid = jsonschema.Draft202012Validator(schema).is_valid
    # Each step is compared with what the schema says of its call alone, because its other alternatives would take minutes.
    of_call = {called: jsonschema.Draft202012Validator({**step, "$defs": schema["$defs"]}).is_valid
               for step in schemas.steps_of(schema) for called in step["prefixItems"][0]["enum"]}
    head, *tests = map(json.loads, data.splitlines())
    for number, test in enumerate([head, *tests]):
        steps = test.get("steps", [])
        if not line_is_valid({**test, "steps": steps[:1]} if steps else test) or not all(of_call[step[0]](step) for step in steps):
            yield f"{name}: test {number} isn't as schemas/scripts_schema.json says"
    if [test["test"].split()[0] for test in tests] != [f"{number}" for number in range(1, head["numberOfTests"] + 1)]:
        yield f"{name}: the numbers of the tests aren't 1 to numberOfTests"


def parser_of(description: str) -> argparse.ArgumentParser:
    """A parser of arguments, one of which is how many processes are asked for."""
    parser = argparse.ArgumentParser(description=description)
    parser.add_argument("--jobs", type=int, default=2, help="processes at a time (2)")
    return parser


def make(arguments: list[str]) -> int:
    """Writes all files, or the scripts alone."""
    parser = parser_of("Makes the test vectors, their schemas and their scripts from tests/model/.")
    parser.add_argument("--scripts", action="store_true", help="the scripts alone, unless they are there")
    asked = parser.parse_args(arguments)
    if asked.scripts:
        return make_scripts()
    made_texts = all_texts(FILES, asked.jobs)
    (FOLDER / "schemas").mkdir(exist_ok=True)
    for name, text in sorted(made_texts.items()):
        (FOLDER / name).write_text(text)
        print(f"{name}: {len(text)} bytes")
    scripts = all_scripts()
    (FOLDER / SUMS).write_text(sums_of(scripts))
    write_scripts(scripts)
    return 0


def make_scripts() -> int:
    """Writes the scripts, unless those are there that have the stored sums."""
    wanted = (FOLDER / SUMS).read_text()
    if sums_of({path.name: path.read_bytes() for path in MADE.glob("*")}) == wanted:
        return 0
    scripts = all_scripts()
    if sums_of(scripts) != wanted:
        print(f"tests/vectors/make_vectors: the scripts that would be made have other sums than {SUMS} says; "
              "if they should, run this without --scripts", file=sys.stderr)
        return 1
    write_scripts(scripts)
    return 0


def check(arguments: list[str]) -> int:
    """Checks that the stored files are those that are made, and keep their schemas."""
    jobs = parser_of("Makes the test vectors again, compares them with the stored ones, and validates those.").parse_args(arguments).jobs
    try:
        faults = [fault for name in FILES for fault in faults_of(name)]
        scripts = all_scripts()
        faults += [fault for name, data in scripts.items() for fault in faults_of_script(name, data)]
    except ImportError:
        print("tests/vectors/check: install jsonschema (Debian: python3-jsonschema)", file=sys.stderr)
        return 1
    faults += differences({**all_texts(BY_MODEL, jobs), SUMS: sums_of(scripts)})
    print("\n".join(faults) or f"{len(FILES)} files and {len(scripts)} scripts are what the model says, and keep their schemas")
    return 1 if faults else 0
