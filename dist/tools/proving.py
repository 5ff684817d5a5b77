"""Proves and builds the library by `rt lib` and the programs by `rt run`, and keeps the LLVM module that the toolchain hands to its
clang."""

from __future__ import annotations

import os
import re
import shutil
import subprocess
import tempfile
from pathlib import Path

from levels import OUT, ROOT, Level, Part, Program

#: The proofs are checked by this logic, whatever the version of the kit. (`rt version` prints both.)
LOGIC = "logic dac8208d650f15bf"
#: Where the toolchain keeps what it proved on this machine, next to its own folder.
STORE = "rattle-kept"
#: The file that says how many lanes are used at most.
WIDEST = "crates/keyed_blake3/src/compression/width.rt"
#: This replaces clang. It keeps the last LLVM module that clang gets, and the words with which it is called, and then calls clang.
#: On aarch64 clang is told one thing more: to leave out register x18, which is the system's on Android and macOS.
KEEPING_CLANG = """\
#!/bin/sh
for word; do
    if [ "$before" = ir ]; then
        cp "$word" '{folder}/module'
        case "$*" in *--target=aarch64-*) set -- "$@" -ffixed-x18 ;; esac
        printf '%s\\0' "$@" >'{folder}/words'
    fi
    before=$word
done
exec '{clang}' "$@"
"""
#: This replaces the linker, which `rt` calls for x86-64 alone, before it runs the program. It makes a program that does nothing.
NO_LINKER = """\
#!/bin/sh
while [ "$1" != -o ]; do shift; done
printf '#!/bin/sh\\n' >"$2"
chmod +x "$2"
"""


class Fault(Exception):
    """Why a file isn't made."""


def run(*words: str | Path, folder: Path | None = None) -> None:
    """Runs a command, which has to succeed."""
    if subprocess.run(words, cwd=folder, check=False).returncode:
        raise Fault(f"{words[0]} fails: {' '.join(map(str, words[1:]))}")


def printed(*words: str | Path, folder: Path | None = None) -> str:
    """What a command prints, which has to succeed."""
    done = subprocess.run(words, cwd=folder, stdout=subprocess.PIPE, text=True, check=False)
    if done.returncode:
        raise Fault(f"{words[0]} fails: {' '.join(map(str, words[1:]))}")
    return done.stdout


def kit() -> Path:
    """The folder of the toolchain, which has to have the logic."""
    try:
        found = printed("rt", "version").strip()
    except FileNotFoundError:
        raise Fault("there is no `rt` on the path: the toolchain is needed") from None
    if not found.endswith(LOGIC):
        raise Fault(f"`rt version` prints {found!r}, and the proofs are for {LOGIC!r}")
    return Path(printed("rt", "doc").strip()).parent


def tool(name: str) -> Path:
    """One of the toolchain's programs."""
    return kit() / "toolchain/bin" / name


def keeping_kit(folder: Path, to: Path) -> Path:
    """A copy of the toolchain, made of links, whose clang keeps what it is handed in the folder. Returns its `rt`.

    It goes on from what the toolchain has proved on this machine, in whichever copy of the repository.
    """
    source = kit()
    (to.parent / STORE).symlink_to(source.parent / STORE)
    for name in ("bin", "toolchain/bin"):
        (to / name).mkdir(parents=True)
    for place in (source, source / "toolchain", source / "bin", source / "toolchain/bin"):
        for it in place.iterdir():
            if it.name not in ("bin", "toolchain", "clang"):
                (to / it.relative_to(source)).symlink_to(it)
    # These find the rest by their own places.
    for name in ("rt", "rtlib.py"):
        (to / "bin" / name).unlink()
        shutil.copy(source / "bin" / name, to / "bin" / name)
    write_script(to / "toolchain/bin/clang", KEEPING_CLANG.format(folder=folder, clang=source / "toolchain/bin/clang"))
    return to / "bin/rt"


def write_script(path: Path, text: str) -> None:
    """Writes a program, in the place of what is there."""
    path.unlink(missing_ok=True)
    path.write_text(text)
    path.chmod(0o755)


def contents(crate: Path) -> dict[str, bytes]:
    """The files of a crate that decide what is proved, but for the one with the most lanes."""
    paths = (Path(place, name) for place, _, names in os.walk(crate) for name in names)
    found = {str(path.relative_to(crate)): path for path in paths}
    return {
        name: path.read_bytes() for name, path in found.items() if not name.startswith("out/") and not WIDEST.endswith(f"/{name}")
    }


def with_lanes(level: Level) -> str:
    """The text of the file with the most lanes, where these are the level's."""
    text, count = re.subn(r"(?m)^(pub\(crate\) const WIDEST: usize =) \d+;$", rf"\1 {level.lanes};", (ROOT / WIDEST).read_text())
    if count != 1:
        raise Fault(f"{WIDEST} has another line for the most lanes")
    return text


def crates_for(level: Level) -> Path:
    """A folder with the crates, which use as many lanes as the level: the repository, or a copy.

    A crate that has changed since an earlier run comes into the copy with the proofs that the repository has kept. So `rt` proves
    again there what the number of lanes reaches, and takes the rest from what is kept.
    """
    lanes = with_lanes(level)
    if lanes == (ROOT / WIDEST).read_text():
        return ROOT
    copy = OUT / f"lanes-{level.lanes}"
    (copy / "crates").mkdir(parents=True, exist_ok=True)
    names = {crate.name for crate in (*(ROOT / "crates").iterdir(), *(copy / "crates").iterdir())}
    for name in sorted(names):
        source, place = ROOT / "crates" / name, copy / "crates" / name
        if contents(source) != contents(place):
            run("rm", "-rf", place)
            if source.exists():
                run("cp", "-a", source, place)
    for name in ("crates.txt", "HANDLES"):
        shutil.copy(ROOT / name, copy / name)
    (copy / WIDEST).write_text(lanes)
    return copy


def build(part: Part, crate: Path, verb: str, jobs: int) -> None:
    """Has `rt` prove and build a crate. The folder of the part then has the module and the words for clang."""
    shutil.rmtree(part.folder, ignore_errors=True)
    part.folder.mkdir(parents=True)
    with tempfile.TemporaryDirectory() as work:
        rt = keeping_kit(part.folder, Path(work) / "kit")
        write_script(rt.with_name("rattle-link"), NO_LINKER)
        run(rt, verb, *part.flags, "--jobs", str(jobs), folder=crate)
    if not (part.folder / "module").exists():
        raise Fault("the toolchain handed no LLVM module to its clang")


def prove_library(level: Level, jobs: int) -> None:
    """Proves the library for a level. The level's folder then has the object, too."""
    crate = crates_for(level) / "crates" / level.crate
    build(level, crate, "lib", jobs)
    run("ar", "x", "--output", level.folder, crate / f"out/lib{level.crate}.a")
    (level.folder / f"{level.crate}.o").rename(level.proved)


def prove_program(program: Program, jobs: int) -> None:
    """Proves a program. The program's folder then has the object, too."""
    out = ROOT / "crates" / program.crate / "out"
    build(program, out.parent, "run", jobs)
    (out / program.crate).unlink()
    (out / f"{program.crate}.o").rename(program.proved)


def prove(part: Level | Program, jobs: int) -> None:
    """Proves the library for a level, or a program."""
    if isinstance(part, Program):
        prove_program(part, jobs)
    else:
        prove_library(part, jobs)
