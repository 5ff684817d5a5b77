"""`python -m yurewha sum`: what it prints and checks, as `sha256sum` does, and what it says of files that can't be read."""

import os
import pathlib
import re
import shutil
import signal
import subprocess
import sys
import time

import chunker as model
import pytest
import xet_model as m

import yurewha as y
from yurewha import _hash_file, _sum

PACKAGE = str(pathlib.Path(y.__file__).resolve().parents[1])
ABC = m.to_hex(model.file_hash(b"abc"))
NONE = 64 * "0"
#: Names that end a line, or are no text.
ODD = [b"a b", b"back\\slash", b"new\nline", b"return\rhere", b"\\n", b"\xff\xfe", b"-", b"\\", b" a", b"a ", "ß".encode(), b"*a"]


def run(*words, folder="/", given=b"", **more):
    """The status, standard output and standard error of a command."""
    done = subprocess.run([sys.executable, "-m", "yurewha", *words], cwd=folder, input=given, capture_output=True, check=False,
                          env={**os.environ, "PYTHONPATH": PACKAGE}, **more)
    return done.returncode, done.stdout.decode(errors="surrogateescape"), done.stderr.decode(errors="surrogateescape")


@pytest.fixture
def folder(tmp_path):
    """A folder with the files `a`, of three bytes, `none` and `long`."""
    (tmp_path / "a").write_bytes(b"abc")
    (tmp_path / "none").write_bytes(b"")
    (tmp_path / "long").write_bytes(model.mixed(300_000))
    return tmp_path


def test_hashes_and_names(folder):
    long = y.hash_file(folder / "long")
    assert run("sum", "a", "none", "./a", "long", folder=folder) == (0, f"{ABC}  a\n{NONE}  none\n{ABC}  ./a\n{long}  long\n", "")
    for words in ((), ("-",)):
        assert run("sum", *words, given=b"abc") == (0, f"{ABC}  -\n", "")
    assert run("sum", "a", "-", folder=folder, given=b"abc") == (0, f"{ABC}  a\n{ABC}  -\n", "")
    assert run("sum", "--", "a", folder=folder)[:2] == (0, f"{ABC}  a\n")


def test_a_salt(folder):
    salt = bytes(range(32))
    expected = y.hash_file(folder / "long", salt=salt)
    assert run("sum", "--salt", salt.hex(), "long", folder=folder) == (0, f"{expected}  long\n", "")
    assert run("sum", "--salt", salt.hex().upper(), "-c", folder=folder, given=f"{expected}  long\n".encode()) == (0, "long: OK\n", "")
    assert run("sum", "-c", folder=folder, given=f"{expected}  long\n".encode())[:2] == (1, "long: FAILED\n")


def test_the_chunks_are_what_xetroot_reads(folder):
    status, told, said = run("sum", "--chunks", "long", folder=folder)
    ends = model.cuts((folder / "long").read_bytes())
    chunks = [line.split(" ") for line in told.splitlines()]
    assert (status, said) == (0, "") and [int(size) for _, size in chunks] == [end - start for start, end in zip([0, *ends], ends)]
    assert y.file_hash([(y.Hash.from_hex(hash_), int(size)) for hash_, size in chunks]) == y.hash_file(folder / "long")
    assert run("sum", "--chunks", given=(folder / "long").read_bytes()) == (0, told, "")
    assert run("sum", "--chunks", "none", folder=folder) == (0, "", "")
    assert run("sum", "--chunks", ".", folder=folder) == (1, "", "yurewha sum: .: Is a directory\n")


def test_no_chunk_of_a_file_that_changes_is_printed(folder, monkeypatch, capfd):
    part_of, path = _hash_file.part_of, folder / "grown"
    path.write_bytes(bytes(5 << 20))

    def grown(stream, most):
        with open(path, "ab") as file:
            file.write(b"a")
        return part_of(stream, most)

    monkeypatch.setattr("yurewha._hash_file.part_of", grown)
    for words in (["--chunks", str(path)], [str(path)]):
        assert _sum.main(words) == 1
        told, said = capfd.readouterr()
        assert told == "" and re.fullmatch(r"yurewha sum: .*grown: the file '.*grown' became longer while it was read\n", said)


@pytest.mark.parametrize("name", ODD)
def test_names_that_end_a_line_or_are_no_text(tmp_path, name):
    path = os.path.join(os.fsencode(tmp_path), name)
    with open(path, "wb") as file:
        file.write(b"abc")
    given = b"./-" if name == b"-" else name
    status, told, said = run("sum", "--", os.fsdecode(given), folder=tmp_path)
    assert (status, said) == (0, "") and told.count("\n") == 1
    listed = told.encode(errors="surrogateescape")
    if shutil.which("sha256sum"):
        theirs = subprocess.run(["sha256sum", "--", given], cwd=tmp_path, capture_output=True, check=True).stdout
        assert re.sub(rb"[0-9a-f]{64}", ABC.encode(), theirs) == listed
        check = subprocess.run(["sha256sum", "-c"], cwd=tmp_path, capture_output=True, check=True, input=theirs).stdout
    else:
        check = None
    status, told, said = run("sum", "-c", folder=tmp_path, given=listed)
    assert (status, said) == (0, "") and (check is None or told.encode(errors="surrogateescape") == check)


def test_the_others_go_on(folder):
    os.mkfifo(folder / "pipe")
    status, told, said = run("sum", "a", "nothing", ".", "none", folder=folder)
    assert (status, told) == (1, f"{ABC}  a\n{NONE}  none\n")
    assert said == "yurewha sum: nothing: No such file or directory\nyurewha sum: .: Is a directory\n"
    if os.geteuid():
        (folder / "a").chmod(0)
        assert run("sum", "a", folder=folder) == (1, "", "yurewha sum: a: Permission denied\n")
    assert run("sum", "two\nlines", folder=folder) == (1, "", "yurewha sum: 'two\\nlines': No such file or directory\n")


LIST = f"{ABC}  a\n{NONE}  none\n"


@pytest.mark.parametrize("listed, status, told, said", [
    (LIST, 0, "a: OK\nnone: OK\n", ""),
    (LIST.upper().replace("  A", "  a").replace("NONE", "none"), 0, "a: OK\nnone: OK\n", ""),
    (LIST.replace("  a", " *a").replace("\n", "\r\n"), 0, "a: OK\nnone: OK\n", ""),
    (LIST[:-1], 0, "a: OK\nnone: OK\n", ""),
    (f"# a list\n\n{LIST}", 0, "a: OK\nnone: OK\n", ""),
    (f"{NONE}  a\n{NONE}  none\n", 1, "a: FAILED\nnone: OK\n", "LIST: 1 file with another hash\n"),
    (f"{ABC}  b\n{LIST}{ABC}  .\n", 1, "b: FAILED open or read\na: OK\nnone: OK\n.: FAILED open or read\n",
     "b: No such file or directory\n.: Is a directory\nLIST: 2 files can't be read\n"),
    (f"{LIST}junk\n{ABC} a\n{ABC[1:]}  a\n\\{ABC}  a\\b\n{ABC}  a\0b\n", 0, "a: OK\nnone: OK\n",
     "LIST: 5 lines without a hash and a name\n"),
    ("", 1, "", "LIST: no line has a hash and a name\n"),
    ("# nothing\n", 1, "", "LIST: no line has a hash and a name\n"),
    ("junk\n", 1, "", "LIST: no line has a hash and a name\n"),
])
def test_checking_a_list(folder, listed, status, told, said):
    (folder / "list").write_bytes(listed.encode())
    for words, name, given in ((["list"], "list", b""), ([], "-", listed.encode()), (["-"], "-", listed.encode())):
        expected = "".join(f"yurewha sum: {line}\n" for line in said.replace("LIST", name).splitlines())
        assert run("sum", "-c", *words, folder=folder, given=given) == (status, told, expected)


def test_a_list_that_names_standard_input(folder):
    (folder / "list").write_text(f"{ABC}  -\n")
    assert run("sum", "--check", "list", folder=folder, given=b"abc") == (0, "-: OK\n", "")
    assert run("sum", "-c", folder=folder, given=f"{ABC}  -\n".encode()) == (1, "", "yurewha sum: -: no line has a hash and a name\n")
    assert run("sum", "-c", "nothing", "list", folder=folder, given=b"abc") == (
        1, "-: OK\n", "yurewha sum: nothing: No such file or directory\n")


def test_a_list_of_bad_files_is_not_well_because_of_a_good_one_after_it(folder):
    (folder / "bad").write_text(f"{NONE}  a\n")
    (folder / "good").write_text(f"{ABC}  a\n")
    assert run("sum", "-c", "bad", "good", folder=folder)[:2] == (1, "a: FAILED\na: OK\n")


@pytest.mark.parametrize("words, said", [
    (["sum", "--chunks", "a", "b"], "--chunks takes one FILE and no --salt"), (["sum", "--chunks", "-c"], "not allowed with"),
    (["sum", "--chunks", "--salt", NONE], "--chunks takes one FILE and no --salt"),
    (["sum", "--salt", "00", "a"], "a salt must be 64 hex digits"),
    (["sum", "--salt", "0x" + 62 * "0", "a"], "a salt must be 64 hex digits"), (["sum", "--frob"], "unrecognized arguments: --frob"),
    (["sums"], "usage: python -m yurewha [sum"), (["-c"], "usage: python -m yurewha [sum"),
])
def test_wrong_words(words, said):
    status, told, error = run(*words)
    assert (status, told) == (2, "") and said in error and "Traceback" not in error


def test_help():
    status, told, said = run("sum", "--help")
    assert (status, said) == (0, "") and "xetroot" in told and "standard input" in told


@pytest.mark.skipif(not os.path.exists("/dev/full"), reason="there is no full device")
def test_output_that_is_not_taken(folder):
    for words in (["a"], ["--chunks", "long"], ["-c", "list"]):
        (folder / "list").write_text(LIST)
        with open("/dev/full", "wb") as full:
            done = subprocess.run([sys.executable, "-m", "yurewha", "sum", *words], cwd=folder, stdout=full, stderr=subprocess.PIPE,
                                  text=True, check=False, env={**os.environ, "PYTHONPATH": PACKAGE, "PYTHONUNBUFFERED": ""})
        assert (done.returncode, done.stderr) == (1, "yurewha sum: standard output: No space left on device\n")


def test_output_that_is_taken_in_parts(folder, monkeypatch, capfd):
    write = os.write
    monkeypatch.setattr("os.write", lambda to, data: write(to, data[:7]))
    assert _sum.main([str(folder / "a")]) == 0 and capfd.readouterr() == (f"{ABC}  {folder}/a\n", "")


@pytest.mark.parametrize("closed, told, said", [
    ("<&-", f"{ABC}  a\n", "yurewha sum: -: Bad file descriptor\n"), (">&-", "", "yurewha sum: standard output: Bad file descriptor\n")])
def test_a_process_without_standard_input_or_output(folder, closed, told, said):
    done = subprocess.run(["sh", "-c", f"'{sys.executable}' -m yurewha sum - a {closed}"], cwd=folder, capture_output=True, text=True,
                          check=False, env={**os.environ, "PYTHONPATH": PACKAGE}, stdin=subprocess.DEVNULL)
    assert (done.returncode, done.stdout, done.stderr) == (1, told, said)


INTERRUPTED = """
import signal
from yurewha.__main__ import main
signal.signal(signal.SIGINT, signal.default_int_handler)
print("begun", flush=True)
main(["sum"])
"""


def test_ctrl_c_ends_it_without_a_word():
    """It waits for standard input."""
    with subprocess.Popen([sys.executable, "-c", INTERRUPTED], stdin=subprocess.PIPE, stdout=subprocess.PIPE, stderr=subprocess.PIPE,
                          env={**os.environ, "PYTHONPATH": PACKAGE}) as process:
        try:
            assert process.stdout.readline() == b"begun\n"
            time.sleep(1)
            process.send_signal(signal.SIGINT)
            assert process.communicate(timeout=30) == (b"", b"") and process.returncode == -signal.SIGINT
        finally:
            process.kill()
