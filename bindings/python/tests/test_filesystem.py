"""The file system for fsspec: what it says of its files, what it reads, and readers over it."""

import dataclasses
import io
import os
import pickle
import random
import subprocess
import sys
from pathlib import Path

import pytest
from test_networks import Dying, all_at_once, started
from test_verified_files import OTHER, Source, changed, drawn

import yurewha as y

fsspec = pytest.importorskip("fsspec")
filesystem = pytest.importorskip("yurewha.filesystem")

FILES = {"a.bin": drawn(51, 100), "folder/b.bin": drawn(52, 50), "folder/in/c.bin": drawn(53, 3), "none": Source(b"", [0])}
HASHES = {path: source.tree.file_hash() for path, source in FILES.items()}


def fetch(path, start, stop):
    return FILES[path].fetch(start, stop)


def prove(path, start, stop):
    return FILES[path].prove(start, stop)


def made(hashes=HASHES, fetch=fetch, prove=prove, **options):
    return filesystem.VerifiedFileSystem(hashes, fetch, prove, **options)


@pytest.fixture(autouse=True)
def nothing_fetched():
    for source in FILES.values():
        source.fetched.clear(), source.proved.clear()


def test_what_it_has():
    files = made()
    assert files.ls("", detail=False) == files.ls("yurewha://", detail=False) == files.ls("/", detail=False) == ["a.bin", "folder", "none"]
    assert files.ls("folder", detail=False) == files.ls("/folder/", detail=False) == ["folder/b.bin", "folder/in"]
    assert files.ls("a.bin", detail=False) == ["a.bin"] and files.find("") == sorted(FILES)
    assert made({}).ls("") == []
    assert files.glob("folder/**.bin") == ["folder/b.bin", "folder/in/c.bin"]
    assert files.isdir("folder") and files.isdir("") and files.isfile("folder/in/c.bin") and not files.isfile("folder")
    assert files.exists("yurewha://a.bin") and not any(files.exists(path) for path in ("b.bin", "folder/b", "fold", "a.bin/"[:-2]))
    for call in (files.info, files.ls, files.cat_file, files.open, files.ukey):
        with pytest.raises(FileNotFoundError):
            call("folder/d.bin")


def test_sizes_are_checked_and_found_once():
    files = made()
    assert [entry["size"] for entry in files.ls("folder")] == [None, 0] and FILES["folder/b.bin"].fetched == []
    assert files.info("folder/b.bin") == {"name": "folder/b.bin", "size": len(FILES["folder/b.bin"].data), "type": "file"}
    assert files.size("folder/b.bin") == files.ls("folder")[0]["size"] == files.ls("folder/b.bin")[0]["size"]
    assert len(FILES["folder/b.bin"].fetched) == 1 and files.info("folder") == {"name": "folder", "size": 0, "type": "directory"}
    assert files.ukey("a.bin") == HASHES["a.bin"].hex() and files.size("none") == 0


def test_hashes_in_each_form():
    for form in (lambda hash_: hash_, lambda hash_: hash_.hex(), lambda hash_: hash_.bytes):
        files = made({f"yurewha://{path}": form(hash_) for path, hash_ in HASHES.items()})
        assert files.cat_file("a.bin", 5, 50) == FILES["a.bin"].data[5:50]
    for hashes, error in (({"a": "00"}, y.InvalidText), ({"a": bytes(31)}, y.InvalidArguments), ({"a": 7}, TypeError)):
        with pytest.raises(error):
            made(hashes)
    for options, error in (({"fetch": None}, TypeError), ({"prove": 7}, TypeError), ({"threads": 0}, y.InvalidArguments),
                           ({"threads": -1}, y.InvalidArguments), ({"threads": "1"}, TypeError)):
        with pytest.raises(error):
            made(**options)


def test_a_salt():
    salt, source = bytes(range(32)), FILES["a.bin"]
    files = made({"a.bin": source.tree.file_hash(salt)}, salt=salt)
    assert files.cat_file("a.bin") == source.data
    with pytest.raises(y.ProofMismatch):
        made(salt=salt).cat_file("a.bin")


def test_names_with_capitals():
    source = FILES["a.bin"]
    files = made({"Folder/A.bin": source.tree.file_hash()}, lambda path, a, b: source.fetch(a, b), lambda path, a, b: source.prove(a, b))
    assert files.cat_file("Folder/A.bin") == files.cat_file("yurewha://Folder/A.bin") == source.data
    assert files.ls("Folder", detail=False) == files.find("") == ["Folder/A.bin"] and files.isdir("Folder") and not files.exists("folder")
    with pytest.raises(FileNotFoundError):
        files.cat_file("folder/a.bin")


def test_each_file_has_the_limits_of_the_system():
    file = made(cache_size=11, chunk_limit=12, read_ahead=13, proof_limit=14, piece=15)._made("a.bin")
    assert (file._cache_size, file._chunk_limit, file._ahead._most, file._proof_limit, file._piece) == (11, 12, 13, 14, 15)
    file, alone = made()._made("a.bin"), y.VerifiedFile(HASHES["a.bin"], fetch, prove)
    for name in ("_cache_size", "_chunk_limit", "_ahead", "_proof_limit", "_piece"):
        assert getattr(file, name) == getattr(alone, name)
    for call in (lambda files: files.cat_file("a.bin", 5, 9), lambda files: files.open("a.bin", block_size=1).read(3)):
        files = made(prove=lambda path, start, stop: FILES[path].tree.proof(0, 100), chunk_limit=500)
        with pytest.raises(y.ProofMismatch, match="see chunk_limit"):
            call(files)
    with made(read_ahead=1000).open("a.bin", block_size=1) as opened:
        assert opened.read(200) + opened.read(200) == FILES["a.bin"].data[:400]
        assert max(stop for _, stop in FILES["a.bin"].fetched) >= 1000


def test_parts_of_files():
    files, rng = made(), random.Random(54)
    for path, source in FILES.items():
        end = len(source.data)
        assert files.cat_file(path) == source.data and files.cat(path) == source.data
        for _ in range(100):
            start, stop = (rng.choice((None, rng.randint(-end - 5, end + 5))) for _ in range(2))
            assert files.cat_file(path, start, stop) == source.data[start:stop]
    assert files.cat(["a.bin", "folder/b.bin"]) == {path: FILES[path].data for path in ("a.bin", "folder/b.bin")}
    assert files.head("a.bin", 7) == FILES["a.bin"].data[:7] and files.tail("a.bin", 7) == FILES["a.bin"].data[-7:]


@pytest.mark.parametrize("gap", [None, 0, 100])
def test_ranges_of_files(gap):
    files, rng = made(cache_size=0), random.Random(55)
    for _ in range(20):
        paths = [rng.choice(list(FILES)) for _ in range(rng.randrange(30))]
        starts = [rng.choice((None, rng.randrange(3000), -rng.randrange(100))) for _ in paths]
        ends = [rng.choice((None, rng.randrange(3000), -rng.randrange(100))) for _ in paths]
        expected = [FILES[path].data[start:end] for path, start, end in zip(paths, starts, ends)]
        assert files.cat_ranges(paths, starts, ends, max_gap=gap) == expected
    assert files.cat_ranges(["a.bin"] * 2, 3, [5, 9]) == [FILES["a.bin"].data[3:5], FILES["a.bin"].data[3:9]]
    assert files.cat_ranges([], [], []) == []


def test_ranges_that_are_near_are_fetched_together():
    source = Source(random.Random(56).randbytes(1 << 20), range(0, (1 << 20) + 1, 1 << 12))
    files = made({"a": source.tree.file_hash()}, lambda path, a, b: source.fetch(a, b), lambda path, a, b: source.prove(a, b))
    starts = [0, 4096, 10_000, 500_000, 504_096, 9000]
    ranges = files.cat_ranges(["a"] * 6, starts, [start + 4096 for start in starts])
    assert ranges == [source.data[start:start + 4096] for start in starts]
    assert sorted(source.fetched) == [(0, 4 << 12), (499_712, 4096 * 125)]


@pytest.mark.parametrize("gap, apart", [(None, 1 << 16), (0, 0), (5000, 5000)])
def test_ranges_are_near_up_to_a_gap(gap, apart):
    source = Source(random.Random(56).randbytes(1 << 17), range(0, (1 << 17) + 1, 1 << 12))
    for more in (0, 1):
        files = made({"a": source.tree.file_hash()}, lambda path, a, b: source.fetch(a, b), lambda path, a, b: source.prove(a, b), cache_size=0)
        source.fetched.clear()
        files.cat_ranges(["a", "a"], [0, 10 + apart + more], [10, 20 + apart + more], max_gap=gap)
        assert len(source.fetched) == 1 + more


def test_a_range_after_one_that_lies_within_another_is_fetched_with_them():
    source = Source(random.Random(56).randbytes(1 << 20), range(0, (1 << 20) + 1, 1 << 12))
    files = made({"a": source.tree.file_hash()}, lambda path, a, b: source.fetch(a, b), lambda path, a, b: source.prove(a, b))
    ends = [(0, 1 << 19), (10, 20), (1 << 19, 1 << 20)]
    assert files.cat_ranges(["a"] * 3, *map(list, zip(*ends))) == [source.data[start:end] for start, end in ends]
    assert source.fetched == [(0, 1 << 20)]


def test_ranges_that_are_far_apart_are_fetched_at_once():
    source, meet = Source(random.Random(56).randbytes(1 << 20), range(0, (1 << 20) + 1, 1 << 12)), all_at_once(4)
    files = made({"a": source.tree.file_hash()}, lambda path, a, b: (meet(), source.fetch(a, b))[1], lambda path, a, b: source.prove(a, b),
                 threads=4)
    starts = [0, 200_000, 400_000, 600_000]
    assert files.cat_ranges(["a"] * 4, starts, [at + 9 for at in starts]) == [source.data[at:at + 9] for at in starts]


def test_threads_that_read_a_file_first_read_one_file():
    files, meet = made(), all_at_once(2)
    files._made = lambda name, plain=files._made: (meet(), plain(name))[1]
    one, other = started(*2 * [lambda: files._file("a.bin")])
    assert one is other is files._file("a.bin")


def test_wrong_ranges():
    files = made()
    for call in (lambda: files.cat_ranges(["a.bin"], [0, 1], [1]), lambda: files.cat_ranges(["a.bin"], 0, []),
                 lambda: files.cat_ranges(["a.bin"], 0, 1, max_gap=-1), lambda: files.cat_ranges(["a.bin"], 0, 1, on_error="omit"),
                 lambda: files.cat_file("a.bin", 2**64, 2**65)):
        with pytest.raises(y.InvalidArguments):
            call()
    with pytest.raises(FileNotFoundError):
        files.cat_ranges(["a.bin", "b"], 0, 1)
    first, second = files.cat_ranges(["a.bin", "b"], 0, 1, on_error="return")
    assert first == FILES["a.bin"].data[:1] and isinstance(second, FileNotFoundError)


@pytest.mark.parametrize("call, told", [
    (lambda: made(fetch=b"abc"), "fetch must be a callable, got bytes"),
    (lambda: made(threads=0), "threads must be at least 1, got 0"),
    (lambda: made().cat_ranges(["a.bin"], 0, 1, on_error="omit"), "on_error must be 'raise' or 'return', got 'omit'"),
    (lambda: made().cat_ranges(["a.bin"], 0, [1, 2]), "places must be as many as the paths, 1, got 2"),
    (lambda: made().open("a.bin", "wb"), "mode must be 'rb', got 'wb': the files are read-only"),
])
def test_errors_say_what_must_be_so_and_what_came(call, told):
    with pytest.raises((ValueError, TypeError, io.UnsupportedOperation)) as raised:
        call()
    assert str(raised.value) == told


LIES = {
    "a byte changed": lambda s: (lambda p, a, b: changed(s.data[a:b], (b - a) // 2), lambda p, a, b: s.prove(a, b)),
    "a byte less": lambda s: (lambda p, a, b: s.data[a:b - 1], lambda p, a, b: s.prove(a, b)),
    "another file": lambda s: (lambda p, a, b: OTHER.fetch(a, b), lambda p, a, b: OTHER.tree.proof_of_bytes(a, b)),
    "another file of the system": lambda s: (lambda p, a, b: fetch("folder/b.bin", a, b), lambda p, a, b: prove("folder/b.bin", a, b)),
}


@pytest.mark.parametrize("name", LIES)
def test_dishonest_servers(name):
    files = made(HASHES, *LIES[name](FILES["a.bin"]))
    for call in (lambda: files.cat_file("a.bin", 0, 9), lambda: files.cat_ranges(["a.bin"], 0, 9), lambda: files.size("a.bin"),
                 lambda: files.open("a.bin").read(9), lambda: files.open("a.bin", "r").read(9), lambda: files.info("a.bin")):
        with pytest.raises(y.ProofMismatch):
            call()
    (answer,) = files.cat_ranges(["a.bin"], 0, 9, on_error="return")
    assert isinstance(answer, y.ProofMismatch)


def test_a_mismatch_says_which_file_it_is_of():
    source = FILES["folder/b.bin"]
    lies = (lambda p, a, b: changed(source.data[a:b], 0), prove, 0), (fetch, lambda p, a, b: OTHER.prove(a, b), None)
    for bytes_of, proof_of, chunk in lies:
        files = made(HASHES, bytes_of, proof_of)
        for call in (lambda: files.cat_file("folder/b.bin", 0, 9), lambda: files.cat_ranges(["none", "folder/b.bin"], 0, 9),
                     lambda: files.size("folder/b.bin"), lambda: files.open("yurewha://folder/b.bin").read(9)):
            with pytest.raises(y.ProofMismatch) as raised:
                call()
            assert (raised.value.path, raised.value.chunk) == ("folder/b.bin", chunk)
            assert raised.value.place == (None if chunk is None else 0)


def test_a_server_that_dies():
    server = Dying(FILES["a.bin"], 1000)
    files = made(HASHES, lambda path, start, stop: server.fetch(start, stop), cache_size=0)
    for call in (lambda: files.cat_file("a.bin"), lambda: files.cat_ranges(["a.bin"], 0, None), lambda: files.open("a.bin").read()):
        with pytest.raises((ConnectionError, y.ProofMismatch)):
            call()


def test_files_that_are_opened():
    files, source = made(), FILES["a.bin"]
    with files.open("a.bin") as file:
        assert file.read(5) == source.data[:5] and file.seek(-5, 2) and file.read() == source.data[-5:]
        assert file.name == "a.bin" and file.mode == "rb" and not file.writable()
    with files.open("a.bin", block_size=7) as file, files.open("a.bin") as other:
        assert (file.read(3), other.read(4), file.read(2)) == (source.data[:3], source.data[:4], source.data[3:5])
    for mode in ("wb", "ab", "xb", "r+b", "w"):
        with pytest.raises(io.UnsupportedOperation):
            files.open("a.bin", mode)


def test_fsspec_knows_it(tmp_path):
    files = fsspec.filesystem("yurewha", hashes=HASHES, fetch=fetch, prove=prove)
    again = pickle.loads(pickle.dumps(files))
    assert again.cat_file("a.bin") == files.cat_file("a.bin") == FILES["a.bin"].data
    with fsspec.open("yurewha://folder/b.bin", hashes=HASHES, fetch=fetch, prove=prove) as file:
        assert file.read() == FILES["folder/b.bin"].data
    files.get("folder", str(tmp_path / "copy"), recursive=True)
    assert (tmp_path / "copy" / "in" / "c.bin").read_bytes() == FILES["folder/in/c.bin"].data


@pytest.mark.skipif(not os.environ.get("YUREWHA_INSTALLED"), reason="the package isn't installed")
def test_fsspec_finds_the_installed_package():
    told = subprocess.run([sys.executable, "-c", "import fsspec; print(fsspec.get_filesystem_class('yurewha'))"], capture_output=True,
                          text=True, check=True).stdout
    assert told == "<class 'yurewha.filesystem.VerifiedFileSystem'>\n"


@dataclasses.dataclass
class Client:
    """A client of which its text shows no token."""

    token: str = dataclasses.field(repr=False)

    def fetch(self, path, start, stop):
        if self.token == "expired":
            raise PermissionError("401")
        return fetch(path, start, stop)


def test_a_new_file_system_is_never_an_earlier_one():
    """fsspec keeps file systems by the text of their arguments, which needn't say everything."""
    old, new = (filesystem.VerifiedFileSystem(HASHES, Client(token).fetch, prove) for token in ("expired", "fresh"))
    assert old is not new and old != new and len({old, new}) == 2 and old == old and hash(old) == hash(old)
    assert new.cat_file("a.bin") == FILES["a.bin"].data
    for again in (lambda: old.cat_file("a.bin"), lambda: pickle.loads(pickle.dumps(old)).cat_file("a.bin")):
        with pytest.raises(PermissionError):
            again()
    tokenize = pytest.importorskip("dask.base").tokenize
    assert tokenize(old) != tokenize(new) and tokenize(old) == tokenize(old)
    for token in ("fresh", "expired"):
        made = fsspec.filesystem("yurewha", hashes=HASHES, fetch=Client(token).fetch, prove=prove)
        assert made._fetch.__self__.token == token


@pytest.mark.parametrize("statement", [
    "import fsspec, yurewha.filesystem", "import yurewha.filesystem, fsspec", "import fsspec, yurewha",
    "import yurewha, fsspec, yurewha.filesystem"])
def test_fsspec_knows_the_protocol_of_a_folder(statement):
    """The package isn't installed: it is found by PYTHONPATH."""
    told = subprocess.run(
        [sys.executable, "-c", f"{statement}; found = fsspec.get_filesystem_class('yurewha'); print(found, found.protocol)"],
        env={**os.environ, "PYTHONPATH": str(Path(y.__file__).parents[1])}, capture_output=True, text=True, check=True).stdout
    assert told == "<class 'yurewha.filesystem.VerifiedFileSystem'> yurewha\n"


def test_fsspec_is_not_imported_for_its_sake():
    told = subprocess.run([sys.executable, "-c", "import sys, yurewha; print('fsspec' in sys.modules)"], capture_output=True, text=True,
                          env={**os.environ, "PYTHONPATH": str(Path(y.__file__).parents[1])}, check=True).stdout
    assert told == "False\n"


LINES = b"name,number\n" + b"".join(b"line%d,%d\n" % (number, number * number) for number in range(20_000))
TABLE = Source(LINES, [*range(0, len(LINES), 5000), len(LINES)])
OPTIONS = {"hashes": {"table.csv": TABLE.tree.file_hash()}, "fetch": lambda path, start, stop: TABLE.fetch(start, stop),
           "prove": lambda path, start, stop: TABLE.prove(start, stop)}


def test_pandas_reads_through_it():
    pandas = pytest.importorskip("pandas")
    frame = pandas.read_csv("yurewha://table.csv", storage_options=OPTIONS)
    assert len(frame) == 20_000 and frame["number"].iloc[-1] == 19_999**2


def test_dask_reads_through_it():
    dataframe = pytest.importorskip("dask.dataframe")
    frame = dataframe.read_csv("yurewha://table.csv", storage_options=OPTIONS, blocksize=100_000)
    assert frame.npartitions > 2 and frame["number"].sum().compute(scheduler="threads") == sum(k * k for k in range(20_000))


def test_zarr_reads_through_it(tmp_path):
    zarr, numpy = pytest.importorskip("zarr"), pytest.importorskip("numpy")
    numbers = numpy.arange(100_000, dtype="i8").reshape(100, 1000)
    zarr.save_array(str(tmp_path), numbers, chunks=(10, 1000))
    sources = {}
    for path in tmp_path.iterdir():
        data = path.read_bytes()
        sources[path.name] = Source(data, [*range(0, len(data), 999), len(data)])
    files = made({name: source.tree.file_hash() for name, source in sources.items()}, lambda path, a, b: sources[path].fetch(a, b),
                 lambda path, a, b: sources[path].prove(a, b), cache_size=0)
    read = zarr.open_array(zarr.storage.FSStore("", fs=files, mode="r"), mode="r")
    assert numpy.array_equal(read[:], numbers) and numpy.array_equal(read[33:55, 7:9], numbers[33:55, 7:9])
    sources["3.0"].data = changed(sources["3.0"].data, 50)
    with pytest.raises(y.ProofMismatch):
        files.cat_file("3.0", 0, 1)
