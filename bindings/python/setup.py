"""What pyproject.toml can't say: the shared library is compiled from C and assembly, and goes into the wheel, whose name says which
processor and C library it is for. These files are in native/ of a source distribution, and in dist/ of the repository.

With YUREWHA_LIBRARY=system there is no library in the wheel: the package then loads the system's. If it is the path of a library that
was built, as `make` builds the DLL for Windows, the wheel has that one:

    YUREWHA_LIBRARY=../out/windows-x86_64/bin/libyurewha-1.dll python3 setup.py bdist_wheel --plat-name win_amd64
"""

from __future__ import annotations

import os
import platform
import re
import shutil
import subprocess
import sys
import tempfile
from pathlib import Path

from setuptools import Extension, setup
from setuptools.command.build_ext import build_ext
from setuptools.command.sdist import sdist

try:
    from setuptools.command.bdist_wheel import bdist_wheel
except ImportError:  # before setuptools 70.1
    from wheel.bdist_wheel import bdist_wheel

PACKED = Path("native")
#: The folders of the repository that have the files, and what a source distribution takes of them.
FOLDERS = {Path("../../dist"): ("*.c", "*.S", "assembly.h", "targets.txt"), Path("../include"): ("yurewha.h",)}
IS_MACOS = sys.platform == "darwin"
NAME = "libyurewha.1.dylib" if IS_MACOS else "libyurewha.so.1"
#: What the wheel has: a library that is compiled here if this is empty.
CHOSEN = os.environ.get("YUREWHA_LIBRARY", "")
#: As in bindings/Makefile: by these the library says that it works with a protection of programs, which the start files may not say.
PROTECTIONS = {"x86_64": "-fcf-protection=full", "aarch64": "-mbranch-protection=standard"}
#: The oldest glibc that a manylinux wheel may ask for.
GLIBC = (2, 17)
#: The oldest macOS that a wheel for it may ask for: the first one on arm64.
MACOS = "11.0"


def files() -> list[Path]:
    """The files that the library is made of."""
    folders = {PACKED: ("*",)} if PACKED.exists() else FOLDERS
    return sorted(path for folder, patterns in folders.items() for pattern in patterns for path in folder.glob(pattern))


def copy_files(to: Path) -> None:
    """Copies the files that the library is made of to a folder."""
    to.mkdir(parents=True, exist_ok=True)
    for path in files():
        shutil.copy(path, to)


def sources(processor: str, folder: Path) -> list[str]:
    """The files of a folder that make the library for a processor, which are listed in targets.txt."""
    lines = [line.split() for line in (folder / "targets.txt").read_text(encoding="utf-8").splitlines()]
    levels = [words[0] for words in lines if words[0] != "#" and words[1] == processor]
    if not levels:
        raise SystemExit(
            f"yurewha: there is no library for {processor}: it is compiled for Linux and macOS on x86_64 and aarch64; for Windows on "
            "x86_64, YUREWHA_LIBRARY names the DLL that `make` builds; elsewhere a Linux container runs it, and the JavaScript package "
            "runs as it is")
    return [str(folder / name) for name in ("processor_level.c", "heap.c", *(f"{level}.S" for level in levels))]


class SourcesWithFiles(sdist):
    """A source distribution that has the files in native/."""

    def make_release_tree(self, base_dir: str, names: list[str]) -> None:
        super().make_release_tree(base_dir, names)
        copy_files(Path(base_dir, PACKED))


class BuildLibrary(build_ext):
    """Builds a shared library that isn't a module, from C and assembly."""

    def get_ext_filename(self, name: str) -> str:
        return str(Path(*name.split(".")[:-1], Path(CHOSEN).name or NAME))

    def takes(self, flag: str) -> bool:
        """Whether the compiler knows a flag. An old one doesn't."""
        words = [*self.compiler.compiler_so, flag, "-E", "-x", "c", os.devnull]
        try:
            return subprocess.run(words, capture_output=True, check=False).returncode == 0
        except FileNotFoundError:  # as the build says next
            return False

    def build_extension(self, extension: Extension) -> None:
        if CHOSEN:
            to = Path(self.get_ext_fullpath(extension.name))
            to.parent.mkdir(parents=True, exist_ok=True)
            shutil.copy(CHOSEN, to)
            return
        system, _, processor = self.plat_name.partition("-")
        folder = Path(self.build_temp, PACKED)
        copy_files(folder)
        if IS_MACOS:
            self.build_for_macos(folder, Path(self.get_ext_fullpath(extension.name)))
            return
        extension.sources = sources(processor if system == "linux" else self.plat_name, folder)
        extension.include_dirs = [str(folder)]
        if self.takes(PROTECTIONS[processor]):
            extension.extra_compile_args.append(PROTECTIONS[processor])
            extension.extra_link_args.append("-nostartfiles")
        self.compiler.src_extensions.append(".S")
        super().build_extension(extension)

    def build_for_macos(self, folder: Path, to: Path) -> None:
        """Calls the compiler for this Mac's processor, since Python's own words build a bundle for two processors at once."""
        processor = platform.machine()
        files = sources(processor.replace("arm64", "aarch64"), folder)
        to.parent.mkdir(parents=True, exist_ok=True)
        compiler = os.environ.get("CC", "cc").split()
        words = ["-arch", processor, f"-mmacosx-version-min={MACOS}", "-std=c11", "-O2", "-dynamiclib", f"-Wl,-install_name,@rpath/{NAME}"]
        try:
            subprocess.run([*compiler, *words, "-I", str(folder), *files, "-o", str(to)], check=True)
        except (OSError, subprocess.CalledProcessError) as fault:
            raise SystemExit(f"yurewha: the library can't be compiled, for which `xcode-select --install` has a compiler: {fault}") from fault

    def copy_extensions_to_source(self) -> None:
        Path("yurewha", "lib").mkdir(exist_ok=True)  # where the library of `pip install -e` goes
        super().copy_extensions_to_source()


class WheelForProcessor(bdist_wheel):
    """A wheel for any Python 3 on the processor of its library."""

    def get_tag(self) -> tuple[str, str, str]:
        _, _, system = super().get_tag()
        if self.root_is_pure:
            return "py3", "none", "any"
        if IS_MACOS and not CHOSEN:
            return "py3", "none", f"macosx_{MACOS.replace('.', '_')}_{platform.machine()}"
        # What `pip install -e` makes is for this machine alone, and its name is asked for before its library is made.
        if system.startswith(("win", "macosx")) or "editable_wheel" in self.distribution.commands:
            return "py3", "none", system
        library = Path(self.bdist_dir, "yurewha", "lib", NAME).read_bytes()
        versions = [(int(major), int(minor)) for major, minor in re.findall(rb"GLIBC_(\d+)\.(\d+)", library)]
        if versions and max(versions) <= GLIBC:
            system = system.replace("linux_", f"manylinux_{GLIBC[0]}_{GLIBC[1]}_")
        return "py3", "none", system


LIBRARY = Extension(
    "yurewha.lib.libyurewha",
    sources=["processor_level.c"],
    depends=[str(path) for path in files()],
    extra_compile_args=["-std=c11", "-g0"],
    extra_link_args=[f"-Wl,-soname,{NAME}", "-Wl,-z,defs", "-Wl,-z,text", "-Wl,-z,relro", "-Wl,-z,now"],
)
# Nothing stays in this folder, where a later build would take it.
with tempfile.TemporaryDirectory() as work:
    setup(
        ext_modules=[] if CHOSEN == "system" else [LIBRARY],
        cmdclass={"build_ext": BuildLibrary, "bdist_wheel": WheelForProcessor, "sdist": SourcesWithFiles},
        options={"build": {"build_base": work}, "egg_info": {"egg_base": work}},
    )
