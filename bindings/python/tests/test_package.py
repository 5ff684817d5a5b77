"""The package itself: doctests, declarations, types, and how the library is found."""

import ctypes
import doctest
import importlib
import inspect
import os
import pkgutil
import pydoc
import re
import shutil
import subprocess
import sys
import traceback
from pathlib import Path

import pytest

import yurewha as y
from yurewha import _declarations, _library

PACKAGE = Path(y.__file__).resolve().parent
REPOSITORY = Path(__file__).resolve().parents[3]
HEADER = REPOSITORY / "bindings" / "include" / "yurewha.h"
LIBRARY = os.path.realpath(os.environ.get("YUREWHA_LIB_DIR") or REPOSITORY / "bindings" / "out" / os.uname().machine / "lib")
MODULES = sorted(module.name for module in pkgutil.iter_modules([str(PACKAGE)]))


@pytest.mark.parametrize("name", ["", *MODULES])
def test_doctests(name):
    if name == "filesystem":
        pytest.importorskip("fsspec")
    module = importlib.import_module("yurewha" + ("." + name if name else ""))
    failed, _ = doctest.testmod(module)
    assert failed == 0


def test_each_public_call_has_an_example():
    for name in y.__all__:
        item = getattr(y, name)
        if name == "Flat" or inspect.isfunction(item) or inspect.isclass(item):
            assert ">>>" in item.__doc__, name
        if inspect.isclass(item) and not issubclass(item, Exception) and name != "Flat":
            for member, value in vars(item).items():
                value = value.__func__ if isinstance(value, (staticmethod, classmethod)) else value
                if not member.startswith("_") and (inspect.isfunction(value) or isinstance(value, property)):
                    assert ">>>" in value.__doc__, f"{name}.{member}"


def test_public_names_are_those_of_the_package():
    for name in y.__all__:
        item = getattr(y, name)
        assert item.__module__ == "yurewha", name
        for member, value in vars(item).items() if inspect.isclass(item) else ():
            function = getattr(value, "__func__", value)
            assert not inspect.isfunction(function) or function.__module__ == "yurewha", f"{name}.{member}"
    assert repr(y.Hash) == "<class 'yurewha.Hash'>" and "yurewha.InvalidText: " in "".join(
        traceback.format_exception_only(y.InvalidText, y.InvalidText("a")))


def header():
    text = re.sub(r"/\*.*?\*/", " ", HEADER.read_text(encoding="utf-8"), flags=re.S)
    calls = {}
    for answer, name, arguments in re.findall(r"^(\w+|const char \*) ?(yurewha_\w+)\(([^)]*)\);", text, flags=re.M):
        types = []
        for argument in arguments.split(",") if arguments != "void" else ():
            kind = re.sub(r"\w+$", "", argument.strip()).strip()
            # Data of any type crosses as bytes.
            types.append(re.sub(r"\s*\*", " *", kind).replace("const void *", "const uint8_t *"))
        calls[name] = (answer, tuple(types))
    constants = {name: int(value) for name, value in re.findall(r"^#define (YUREWHA_\w+) (\d+)u", text, flags=re.M)}
    return calls, constants


@pytest.mark.skipif(not HEADER.exists(), reason="there is no header beside the package")
def test_the_declarations_are_those_of_the_header():
    calls, constants = header()
    # A package's memory is nobody else's, so that call is for C alone.
    del calls["yurewha_set_allocator"]
    assert calls == _declarations.DECLARATIONS
    assert constants == {**_declarations.STATUSES, **_declarations.LENGTHS}


@pytest.mark.skipif(not (HEADER.exists() and shutil.which("gcc")), reason="there is no header, or no compiler")
def test_the_structs_are_those_of_the_header(tmp_path):
    """The compiler says where each member stands."""
    lines = []
    members = {
        "yurewha_hash": ["words"], "yurewha_bytes": ["bytes"], "yurewha_chunk": ["hash", "size"],
        "yurewha_level": ["left", "right"], "yurewha_hasher": ["state"], "yurewha_subtree": ["at"],
        "yurewha_session": ["at"], "yurewha_hash_tree": ["at"], "yurewha_opened_range": ["at"], "yurewha_reader": ["at"],
        "yurewha_part": ["at"], "yurewha_hash_index": ["at"], "yurewha_chunker": ["size", "gear"], "yurewha_file_hasher": ["at"],
    }
    expected = []
    for name, size in _declarations.STRUCTS.items():
        struct = _library.STRUCT_TYPES[name]
        lines.append(f'printf("%zu %zu\\n", sizeof({name}), _Alignof({name}));')
        expected.append(f"{size} {ctypes.alignment(struct)}")
        for member in members[name]:
            lines.append(f'printf("%zu %zu\\n", offsetof({name}, {member}), sizeof((({name} *)0)->{member}));')
            field = getattr(struct, member)
            expected.append(f"{field.offset} {field.size}")
        assert [field for field, _ in struct._fields_] == members[name]
    source = tmp_path / "sizes.c"
    source.write_text('#include <stdio.h>\n#include "yurewha.h"\nint main(void) {' + "\n".join(lines) + "return 0; }\n")
    program = tmp_path / "sizes"
    subprocess.run(["gcc", "-std=c11", "-I", str(HEADER.parent), "-o", str(program), str(source)], check=True)
    told = subprocess.run([str(program)], capture_output=True, text=True, check=True).stdout
    assert told.split("\n")[:-1] == expected


#: What Python does in less time than a call takes: the order and the hex text of a hash. And calls that save other languages a step: a
#: file's `prove` returns a proof that was read, and it has no limit of its size.
UNUSED = ["yurewha_compare", "yurewha_hex", "yurewha_part_file_size"]


def test_each_call_of_the_library_is_used():
    text = "".join(path.read_text(encoding="utf-8") for path in PACKAGE.glob("*.py") if path.name != "_declarations.py")
    assert [name for name in _declarations.DECLARATIONS if not re.search(rf"\b{name}\b", text)] == UNUSED


def test_nothing_but_the_standard_library():
    text = "".join(path.read_text(encoding="utf-8") for path in PACKAGE.glob("*.py"))
    taken = set(re.findall(r"^\s*(?:import|from) (\w+)", text, flags=re.M))
    standard = getattr(sys, "stdlib_module_names", taken)
    taken -= {"_typeshed", "typing_extensions"}  # for type checkers alone
    taken -= {"fsspec"}  # for its file system alone, which nothing else here imports
    others = (path.read_text(encoding="utf-8") for path in PACKAGE.glob("*.py") if path.name != "filesystem.py")
    assert not any(re.search(r"import fsspec|from fsspec|filesystem import|import filesystem", text) for text in others)
    assert taken <= set(standard), taken - set(standard)
    assert (PACKAGE / "py.typed").exists()


def found(environment, cwd, statement="import yurewha._library as l; print(l.PATH)"):
    values = {name: value for name, value in os.environ.items() if name != "YUREWHA_LIB_DIR"}
    values.update(environment)
    done = subprocess.run([sys.executable, "-c", statement], env=values, cwd=cwd, capture_output=True, text=True, check=False)
    return done.stdout.strip() or done.stderr.strip().rpartition("\n")[2]


@pytest.mark.skipif(not os.path.isabs(_library.PATH), reason="the library is the loader's")
def test_where_the_library_is_found(tmp_path):
    built = Path(_library.PATH).resolve()
    copy = tmp_path / "bindings" / "python" / "yurewha"
    shutil.copytree(PACKAGE, copy, ignore=shutil.ignore_patterns("lib", "__pycache__"))
    place = {"PYTHONPATH": str(copy.parent)}
    assert found(place, tmp_path).startswith("ImportError: yurewha: libyurewha.so.1 can't be loaded")
    loader = tmp_path / "loader"
    loader.mkdir()
    shutil.copy(built, loader / _library.NAME)
    assert found({**place, "LD_LIBRARY_PATH": str(loader)}, tmp_path) == _library.NAME
    out = tmp_path / "bindings" / "out" / os.uname().machine / "lib"
    out.mkdir(parents=True)
    shutil.copy(built, out / _library.NAME)
    assert found(place, tmp_path) == str(out / _library.NAME)
    assert found({**place, "YUREWHA_LIB_DIR": str(loader)}, tmp_path) == str(loader / _library.NAME)
    assert "which has no libyurewha.so.1" in found({**place, "YUREWHA_LIB_DIR": str(tmp_path)}, tmp_path)
    own = copy / "lib"
    own.mkdir()
    shutil.copy(built, own / _library.NAME)
    assert found({**place, "YUREWHA_LIB_DIR": str(loader)}, tmp_path) == str(own / _library.NAME)


@pytest.mark.skipif(not os.path.isabs(_library.PATH), reason="the library is the loader's")
def test_where_the_dll_is_found(tmp_path):
    """By the names of Windows, where this system's library stands for the DLL."""
    copy = tmp_path / "bindings" / "python" / "yurewha"
    shutil.copytree(PACKAGE, copy, ignore=shutil.ignore_patterns("lib", "__pycache__"))
    place = {"PYTHONPATH": str(copy.parent)}
    statement = "import ctypes, pathlib, platform, sys; sys.platform = 'win32'; import yurewha.__main__ as m; print(m.loaded())"
    assert found(place, tmp_path, statement).startswith("ImportError: yurewha: libyurewha-1.dll can't be loaded")
    out = tmp_path / "bindings" / "out" / "windows-x86_64" / "bin"
    out.mkdir(parents=True)
    shutil.copy(Path(_library.PATH).resolve(), out / "libyurewha-1.dll")
    assert found(place, tmp_path, statement) == str(out / "libyurewha-1.dll")
    assert "which has no libyurewha-1.dll" in found({**place, "YUREWHA_LIB_DIR": str(tmp_path)}, tmp_path, statement)


@pytest.mark.skipif(not os.path.isabs(_library.PATH), reason="the library is the loader's")
@pytest.mark.parametrize("machine,folder", [("x86_64", "macos-x86_64"), ("arm64", "macos-aarch64")])
def test_where_the_library_for_macos_is_found(tmp_path, machine, folder):
    """By the names of macOS, where this system's library stands for that one."""
    copy = tmp_path / "bindings" / "python" / "yurewha"
    shutil.copytree(PACKAGE, copy, ignore=shutil.ignore_patterns("lib", "__pycache__"))
    statement = (f"import ctypes, pathlib, platform, sys; sys.platform = 'darwin'; platform.machine = lambda: {machine!r}; "
                 "import yurewha.__main__ as m; print(m.loaded())")
    out = tmp_path / "bindings" / "out" / folder / "lib"
    out.mkdir(parents=True)
    shutil.copy(Path(_library.PATH).resolve(), out / "libyurewha.1.dylib")
    assert found({"PYTHONPATH": str(copy.parent)}, tmp_path, statement) == str(out / "libyurewha.1.dylib")


#: What is said where there is no library.
ELSEWHERE = "elsewhere a Linux container runs it, and the JavaScript package runs as it is"


def test_there_is_no_library_for_other_systems(tmp_path):
    copy = tmp_path / "yurewha"
    shutil.copytree(PACKAGE, copy, ignore=shutil.ignore_patterns("lib", "__pycache__"))
    statement = "import ctypes, pathlib, platform, sys; sys.platform = 'freebsd14'; import yurewha"
    assert found({"PYTHONPATH": str(tmp_path)}, tmp_path, statement) == (
        "ImportError: yurewha: there is no library for freebsd14: it is for Linux and macOS on x86_64 and aarch64, and for Windows on "
        "x86_64; " + ELSEWHERE)


@pytest.mark.skipif(not (PACKAGE.parent / "setup.py").exists(), reason="it needs the repository")
@pytest.mark.parametrize("system", ["macosx-11.0-arm64", "macosx-10.13-x86_64", "linux-riscv64", "win-amd64", "android-21-arm64_v8a"])
def test_there_is_nothing_to_compile_for_other_systems(tmp_path, system):
    pytest.importorskip("setuptools")
    done = subprocess.run(
        [sys.executable, "setup.py", "-q", "bdist_wheel", "--dist-dir", str(tmp_path)], cwd=PACKAGE.parent, capture_output=True,
        env={**os.environ, "_PYTHON_HOST_PLATFORM": system}, text=True, check=False)
    name = "riscv64" if system.startswith("linux") else system
    assert done.returncode != 0 and not list(tmp_path.iterdir())
    assert done.stderr.strip().rpartition("\n")[2] == (
        f"yurewha: there is no library for {name}: it is compiled for Linux and macOS on x86_64 and aarch64; for Windows on "
        f"x86_64, YUREWHA_LIBRARY names the DLL that `make` builds; {ELSEWHERE}")


@pytest.mark.skipif(not (PACKAGE.parent / "setup.py").exists(), reason="it needs the repository")
def test_an_installation_that_can_be_edited(tmp_path):
    """As `pip install -e` makes it, with the library in the folder of the package."""
    pytest.importorskip("setuptools.command.editable_wheel")
    copied = shutil.copytree(PACKAGE.parent, tmp_path / "python", ignore=shutil.ignore_patterns("lib", "edits", "tests", "__pycache__"))
    subprocess.run(
        [sys.executable, "setup.py", "-q", "editable_wheel", "--dist-dir", str(tmp_path / "made")], cwd=copied, check=True,
        env={**os.environ, "YUREWHA_LIBRARY": _library.PATH}, stderr=subprocess.DEVNULL)
    (wheel,) = (tmp_path / "made").glob("*.whl")
    assert wheel.name.endswith(f"-py3-none-linux_{os.uname().machine}.whl")
    assert (copied / "yurewha/lib" / _library.NAME).read_bytes() == Path(_library.PATH).read_bytes()


NUMBER = y.__version__.partition(".dev")[0]  # that of the library, which a release doesn't change
LEVELS = {"x86_64": ("x86-64", "x86-64-v2", "x86-64-v3", "x86-64-v4"), "aarch64": ("aarch64",)}


def installed(folder):
    """The lines that `python -m yurewha` prints, with the libraries in a folder."""
    variables = {**os.environ, "PYTHONPATH": str(PACKAGE.parent), "YUREWHA_LIB_DIR": str(folder)}
    told = subprocess.run([sys.executable, "-m", "yurewha"], env=variables, cwd="/", capture_output=True, text=True, check=True)
    return told.stdout.splitlines()


def test_what_is_installed():
    told = installed(LIBRARY)
    assert told == [f"yurewha {y.__version__}", f"library: {_library.PATH}, version {NUMBER}", f"level: {_library.LEVEL}"]
    assert _library.LEVEL in LEVELS.get(os.uname().machine, ())


def test_what_is_installed_by_a_link(tmp_path):
    (tmp_path / _library.NAME).symlink_to(Path(LIBRARY, _library.NAME))
    assert installed(tmp_path)[1] == f"library: {tmp_path / _library.NAME}, version {NUMBER}"


@pytest.mark.skipif(not Path("/proc/self/maps").exists(), reason="it needs /proc")
def test_what_is_installed_where_the_loader_finds_the_library(tmp_path):
    shutil.copytree(PACKAGE, tmp_path / "yurewha", ignore=shutil.ignore_patterns("lib", "__pycache__"))
    folder = tmp_path / "gefüllt"  # in a locale that has no such letter
    folder.mkdir()
    shutil.copy(Path(_library.PATH).resolve(), folder / _library.NAME)
    names = {"PYTHONPATH": str(tmp_path), "LD_LIBRARY_PATH": str(folder)}
    locale = {"LC_ALL": "C", "PYTHONCOERCECLOCALE": "0", "PYTHONUTF8": "0", "PYTHONIOENCODING": "utf-8"}
    told = subprocess.run(
        [sys.executable, "-m", "yurewha"], env={**os.environ, **names, **locale, "YUREWHA_LIB_DIR": ""}, cwd="/", capture_output=True,
        encoding="utf-8", check=True).stdout
    assert f"library: {folder / _library.NAME}, version {NUMBER}\n" in told


def test_a_library_without_a_call(tmp_path):
    if not shutil.which("gcc"):
        pytest.skip("there is no compiler")
    (tmp_path / "a.c").write_text("void yurewha_version(void) {}\n")
    subprocess.run(["gcc", "-shared", "-fPIC", "-o", str(tmp_path / _library.NAME), str(tmp_path / "a.c")], check=True)
    copy = tmp_path / "elsewhere" / "yurewha"
    shutil.copytree(PACKAGE, copy, ignore=shutil.ignore_patterns("lib", "__pycache__"))
    told = found({"PYTHONPATH": str(copy.parent), "YUREWHA_LIB_DIR": str(tmp_path)}, tmp_path)
    assert told == f"ImportError: yurewha: {tmp_path / _library.NAME} has no yurewha_status_text"


def test_a_struct_of_another_size(monkeypatch):
    monkeypatch.setitem(_declarations.STRUCTS, "yurewha_level", 24)
    with pytest.raises(ImportError, match="yurewha_level has 16 bytes here"):
        _library._check_machine()


ON_X86_64 = pytest.mark.skipif(os.uname().machine != "x86_64", reason="it is about x86-64")
STATEMENT = "import yurewha, yurewha._library as l; print(yurewha.data_hash(b'abc').hex()[:16], l.LEVEL)"


def on(level, *emulator):
    """What the statement prints and what is said on standard error, where YUREWHA_LEVEL is set."""
    done = subprocess.run(
        [*emulator, sys.executable, "-c", STATEMENT], cwd="/", capture_output=True, text=True, check=True,
        env={**os.environ, "PYTHONPATH": str(PACKAGE.parent), "YUREWHA_LIB_DIR": LIBRARY, "YUREWHA_LEVEL": level})
    return done.stdout.split(), [line for line in done.stderr.splitlines() if line.startswith("yurewha: ")]


@ON_X86_64
def test_a_lower_level_can_be_forced():
    assert on("x86-64") == (["a8803506f7aff014", "x86-64"], [])
    (hashed, level), (said,) = on("x86-64-v9")
    assert (hashed, level) == ("a8803506f7aff014", _library.LEVEL)
    assert said == f'yurewha: YUREWHA_LEVEL is "x86-64-v9", which is no level of this processor, so {level} is used'


@ON_X86_64
@pytest.mark.skipif(not shutil.which("qemu-x86_64"), reason="there is no qemu-x86_64")
@pytest.mark.parametrize("processor, level", [("qemu64", "x86-64"), ("Nehalem", "x86-64-v2"), ("Haswell", "x86-64-v3")])
def test_emulated_processors(processor, level):
    """On each the library runs the highest level that the processor has."""
    assert on("", "qemu-x86_64", "-cpu", processor) == (["a8803506f7aff014", level], [])


def test_the_example_of_the_readme():
    text = (REPOSITORY / "bindings" / "python" / "README.md").read_text(encoding="utf-8")
    (example,) = re.findall(r"```python\n(.*?)```", text, flags=re.S)
    exec(compile(example, "README.md", "exec"), {})


def test_the_help_lists_each_public_call():
    text = pydoc.plain(pydoc.render_doc(y))
    for name in y.__all__:
        assert re.search(rf"^    (class )?{name}\b", text, flags=re.M), name
        members = vars(getattr(y, name)) if inspect.isclass(getattr(y, name)) else {}
        for member in members:
            assert member.startswith("_") or re.search(rf"^     \|  {member}\b", text, flags=re.M), f"{name}.{member}"


def test_public_names_of_types():
    from yurewha import _chunks, _hash, _hashes, _numbers, _types, types

    assert types.__all__ == ["BytesLike", "Chunk", "ChunksLike", "HashLike", "HashesLike", "NumbersLike", "SizesLike"]
    homes = [_types, _chunks, _chunks, _hash, _hashes, _numbers, _chunks]
    assert all(getattr(types, name) is getattr(home, name) for name, home in zip(types.__all__, homes))
