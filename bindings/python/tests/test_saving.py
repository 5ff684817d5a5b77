"""What is saved: whole or not at all, and refused if a byte of it is missing or wrong. Sessions that keep no hashes."""

import base64
import json
import os
import pickle
import random
import stat
import subprocess
import sys
from pathlib import Path

import pytest
from drawn import MAX

import yurewha as y
from yurewha import _saving

Z = y.Hash()


def seeded(k):
    return y.Hash.random_from_seed(k), 100 * k


def session(**options):
    made = y.Session(**options)
    made.put(7, [seeded(3)]), made.put(2, [seeded(1), seeded(2)])
    return made


SAVED = {
    "session": session, "session without hashes": lambda: session(keep_hashes=False), "empty session": y.Session,
    "subtree": lambda: y.Subtree.from_chunks(True, [seeded(k) for k in range(40)], False),
    "hash tree": lambda: y.HashTree([seeded(k) for k in range(40)]), "empty hash tree": lambda: y.HashTree([]),
    "hash index": lambda: y.HashIndex(seeded(k)[0] for k in range(40)), "empty hash index": y.HashIndex,
    "hash index with numbers": lambda: y.HashIndex((seeded(k)[0] for k in range(40)), range(40)),
}
EACH = pytest.mark.parametrize("name", SAVED)


@EACH
def test_what_is_loaded_is_what_was_saved(name, tmp_path):
    made, path = SAVED[name](), tmp_path / "saved"
    for form in (path, str(path), os.fsencode(path)):
        made.save(form)
        assert type(made).load(form) == made
    assert os.listdir(tmp_path) == ["saved"]


@EACH
def test_a_file_that_is_cut_anywhere_is_refused(name, tmp_path):
    made, path = SAVED[name](), tmp_path / "saved"
    made.save(path)
    whole = path.read_bytes()
    for end in range(len(whole)):
        path.write_bytes(whole[:end])
        with pytest.raises(y.InvalidText):
            type(made).load(path)
    for more in (b"\n", bytes(32), whole):
        path.write_bytes(whole + more)
        with pytest.raises(y.InvalidText):
            type(made).load(path)


@EACH
def test_a_file_with_a_wrong_byte_is_refused(name, tmp_path):
    made, path = SAVED[name](), tmp_path / "saved"
    made.save(path)
    whole = path.read_bytes()
    for place in range(0, len(whole), 3):
        path.write_bytes(whole[:place] + bytes([whole[place] ^ 1]) + whole[place + 1:])
        with pytest.raises(y.InvalidText):
            type(made).load(path)


@EACH
def test_a_file_of_another_kind_is_refused(name, tmp_path):
    path = tmp_path / "saved"
    SAVED[name]().save(path)
    for kind in (y.Session, y.Subtree, y.HashTree, y.HashIndex):
        if kind is not type(SAVED[name]()):
            with pytest.raises(y.InvalidText, match="^the file isn't a saved "):
                kind.load(path)


FORGED = [
    (y.InvalidText, y.Session, b"session", b""), (y.InvalidText, y.Session, b"session", b"\1" + (1 << 62).to_bytes(8, "little")),
    (y.InvalidText, y.Session, b"session", b"\1" + (2).to_bytes(8, "little") + b"[]"),
    (y.InvalidText, y.Session, b"session", b"\1" + (29).to_bytes(8, "little") + b'{"runs":[],"known_hashes":[]}' + bytes(31)),
    (y.InvalidText, y.Subtree, b"subtree", b""), (y.InvalidJson, y.Subtree, b"subtree", b"[]"),
    (y.InvalidArguments, y.HashTree, b"hash tree", bytes(39)), (y.SizeOverflow, y.HashTree, b"hash tree", 2 * (bytes(32) + b"\xff" * 8)),
    (y.InvalidText, y.HashIndex, b"hash index", bytes(31)), (y.InvalidText, y.HashIndex, b"hash index", b"\1" + bytes(39)),
]


@pytest.mark.parametrize("number", range(len(FORGED)))
def test_a_forged_file_raises_an_error_of_the_package(number, tmp_path):
    """Its hash is right, as anybody can compute it."""
    error, kind, name, body = FORGED[number]
    _saving.write_whole(tmp_path / "saved", name, body)
    with pytest.raises(error):
        kind.load(tmp_path / "saved")


class Ended(Exception):
    """What a system raises that fails."""


@pytest.mark.parametrize("what", ["fsync", "replace", "chmod"])
def test_after_an_error_the_old_file_is_there(what, tmp_path, monkeypatch):
    old, path = SAVED["hash tree"](), tmp_path / "saved"
    old.save(path)

    def broken(*given):
        raise Ended

    monkeypatch.setattr(f"os.{what}", broken)
    with pytest.raises(Ended):
        y.HashTree([seeded(7)]).save(path)
    monkeypatch.undo()
    assert y.HashTree.load(path) == old and os.listdir(tmp_path) == ["saved"]


def test_a_file_whose_permissions_can_not_be_kept_is_not_replaced(tmp_path, monkeypatch):
    """Else those might read it who may not."""
    old, path = SAVED["hash tree"](), tmp_path / "saved"
    old.save(path)

    def refused(*given):
        raise PermissionError("mine")

    monkeypatch.setattr("os.chmod", refused)
    with pytest.raises(PermissionError, match="mine"):
        y.HashTree([seeded(7)]).save(path)
    monkeypatch.undo()
    assert y.HashTree.load(path) == old and os.listdir(tmp_path) == ["saved"]


@pytest.mark.parametrize("is_here", [False, True])
def test_the_bytes_are_on_the_disk_before_the_name(tmp_path, monkeypatch, is_here):
    """What a crash leaves is one of two whole files."""
    monkeypatch.chdir(tmp_path)
    path, calls = Path("saved") if is_here else tmp_path / "saved", []

    def fsync(file, call=os.fsync):
        calls.append(("fsync", os.fstat(file).st_size if not stat.S_ISDIR(os.fstat(file).st_mode) else "folder"))
        call(file)

    def replace(old, new, call=os.replace):
        calls.append(("replace", os.path.basename(new)))
        call(old, new)

    monkeypatch.setattr("os.fsync", fsync), monkeypatch.setattr("os.replace", replace)
    SAVED["session"]().save(path)
    assert calls == [("fsync", path.stat().st_size), ("replace", "saved"), ("fsync", "folder")]


@pytest.mark.skipif(not os.path.exists("/proc/self/fd"), reason="it needs /proc")
def test_nothing_stays_open_after_a_save(tmp_path):
    before = len(os.listdir("/proc/self/fd"))
    SAVED["subtree"]().save(tmp_path / "saved")
    assert len(os.listdir("/proc/self/fd")) == before


def test_names_may_be_as_long_as_the_system_allows(tmp_path):
    longest = os.pathconf(tmp_path, "PC_NAME_MAX")
    for name in ("n" * longest, "n" * (longest - 18), "\u00e4" * (longest // 2)):
        path = tmp_path / name
        for made in (SAVED["session"](), SAVED["subtree"]()):
            made.save(path)
            assert type(made).load(path) == made
    with pytest.raises(OSError):
        y.Session().save(tmp_path / ("n" * (longest + 1)))
    assert len(os.listdir(tmp_path)) == 3


KILLED = """
import os, sys
import yurewha as y
old, new = y.HashTree([(y.Hash(), 1)] * 5), y.HashTree([(y.Hash.random_from_seed(k), 1) for k in range(2000)])
path, last = sys.argv[1], int(sys.argv[2])
lines = 0
def trace(frame, event, argument):
    global lines
    if not frame.f_code.co_filename.endswith("_saving.py"):
        return None
    lines += event == "line"
    if lines == last:
        os._exit(3)
    return trace
sys.settrace(trace)
new.save(path)
"""


def test_a_process_that_dies_at_any_line_leaves_the_old_or_the_new_file(tmp_path):
    old, new = y.HashTree([(Z, 1)] * 5), y.HashTree([(y.Hash.random_from_seed(k), 1) for k in range(2000)])
    path, seen, package = tmp_path / "saved", set(), os.path.dirname(os.path.dirname(y.__file__))
    for last in range(1, 100):
        old.save(path)
        words = [sys.executable, "-c", KILLED, str(path), str(last)]
        status = subprocess.run(words, env={**os.environ, "PYTHONPATH": package}, check=False).returncode
        found = y.HashTree.load(path)
        assert found in (old, new)
        seen.add(found.num_chunks)
        if status == 0:
            break
    assert status == 0 and last > 10 and seen == {5, 2000}


def test_permissions_stay_and_folders_must_be_there(tmp_path):
    path = tmp_path / "saved"
    y.HashIndex().save(path)
    mask = os.umask(0)
    os.umask(mask)
    assert path.stat().st_mode & 0o777 == 0o666 & ~mask
    for mode in (0o600, 0o7601):
        os.chmod(path, mode)
        y.HashIndex([Z]).save(path)
        assert path.stat().st_mode & 0o7777 == mode
    with pytest.raises(FileNotFoundError):
        y.HashIndex().save(tmp_path / "none" / "saved")
    with pytest.raises(FileNotFoundError):
        y.HashIndex.load(tmp_path / "none")
    for wrong in (7, None, [], 1.5):
        with pytest.raises(TypeError):
            y.HashIndex().save(wrong)


# ---- Sessions that keep no hashes

def loaded(one, path):
    one.save(path)
    return y.Session.load(path)


FORMS = {
    "itself": lambda one, path: one, "copy": lambda one, path: one.copy(), "pickle": lambda one, path: pickle.loads(pickle.dumps(one)),
    "file": loaded, "JSON": lambda one, path: y.Session.from_json(one.to_json(), keep_hashes=False),
}


def put_in_both(one, none, first, chunks):
    """Puts chunks in a session and in one without hashes. Both take them or neither, and the second counts each hash of theirs as new."""
    try:
        one.put(first, chunks)
    except y.SessionOverlap as error:
        with pytest.raises(y.SessionOverlap, match=str(error)):
            none.put(first, chunks)
    else:
        assert none.put(first, chunks) == len({hash_ for hash_, _ in chunks})


def test_a_session_without_hashes_is_the_same_but_for_them(tmp_path):
    rng = random.Random(71)
    for _ in range(60):
        one, none = y.Session(), y.Session(keep_hashes=False)
        for _ in range(rng.randrange(12)):
            put_in_both(one, none, rng.randrange(60), [seeded(rng.randrange(30)) for _ in range(rng.randrange(8))])
        assert none.runs() == one.runs() and none.gaps(70) == one.gaps(70) and none.total_size == one.total_size
        assert none.known_hashes() == y.Hashes() and json.loads(none.to_json())["known_hashes"] == []
        assert json.loads(none.to_json())["runs"] == json.loads(one.to_json(hashes=False))["runs"]
        for form in FORMS:
            other = FORMS[form](none.copy(), tmp_path / "saved")
            assert other == none and other.known_hashes() == y.Hashes()
            assert [other.put(place, [seeded(1)] * 2) for place in (200, 300)] == [1, 1] and other.known_hashes() == y.Hashes()
        assert y.Session.from_json(one.to_json(), keep_hashes=False) == none


def test_a_session_without_hashes_holds_none():
    one = y.Session(keep_hashes=False)
    for first in range(0, 400_000, 20_000):
        block = b"".join(number.to_bytes(32, "little") + bytes(8) for number in range(first, first + 20_000))
        assert one.put(first, block) == 20_000 and len(one.known_hashes()) == 0
    assert one.num_chunks == 400_000 and one.num_runs == 1


def test_a_session_without_hashes_keeps_none():
    one = y.Session(keep_hashes=False)
    one.keep_hashes([])
    with pytest.raises(y.InvalidArguments, match="^this session keeps no hashes$"):
        one.keep_hashes([Z])
    one.put(0, [(Z, 1)])
    assert Z not in one and one.contains([Z, Z]) == [False, False]
    for wrong in (0, 1, None, "no"):
        for call in (lambda: y.Session(keep_hashes=wrong), lambda: one.to_json(hashes=wrong), lambda: one.save("a", hashes=wrong),
                     lambda: y.Session.from_json("{}", keep_hashes=wrong)):
            with pytest.raises(TypeError):
                call()
    with pytest.raises(TypeError):
        y.Session(False)


def test_saved_runs_are_short(tmp_path):
    chunks = b"".join(number.to_bytes(24, "little") + (number % 4).to_bytes(8, "little") + b"\1" + bytes(7) for number in range(50_000))
    one = y.Session()
    one.put(0, chunks)
    one.save(tmp_path / "whole"), one.save(tmp_path / "runs", hashes=False)
    sizes = [(tmp_path / name).stat().st_size for name in ("whole", "runs")]
    assert sizes[0] - sizes[1] == 32 * 50_000 and sizes[1] == len(one.to_json(hashes=False)) + 8 + 1 + 32 + len(b"yurewha session 1\n")
    assert len(one.to_json(hashes=False)) < 100_000 < len(one.to_json()) and y.Session.load(tmp_path / "runs").runs() == one.runs()


# ---- What version 1.0 saved

def seeded_session(**options):
    made = y.Session(**options)
    made.put(7, [seeded(3)])
    return made


def seeded_proof():
    return y.HashTree([seeded(k) for k in (1, 2, 3)]).proof(1, 2)


def seeded_index():
    return y.HashIndex(seeded(k)[0] for k in (1, 2, 3))


def read_file(data, folder, kind=y.Session):
    (folder / "saved").write_bytes(data)
    return kind.load(folder / "saved")


def read_index(data, folder):
    return read_file(data, folder, y.HashIndex)


#: Pickles, saved files and bytes as the package wrote them before the library did, or before indexes had numbers, in base 85.
WRITTEN = {
    "pickled session": (session, pickle.loads, (
        'fC6J*Ut)D>Y;<XEUtbDmWprV5baD!D0AqP|a%FdDVG2`ab8~5LZVFfl0001Aa%FRLZ*pa1hEhucO9W^DV|jIQWp`*{3R87rbaG{73RnpM003rkZ*5;@Y+-bU'
        'QgHz&iAw@Y0EUHQUt@1%Wn*&+Wo~0{WMv9*0$6qc006?9!-4~Ef5VW&g~N}+jl-Zn!j>{YLc+fw!?nVyS66+)qZz}NR>O@2!k-Zc!oOqy00000001h(yu*aT'
        'wZepT!=}T7!-&JOK*FBGgMPw;!imF;!j!_S!iOmf!n?wzata~Cox{7sr7=sxhyVZp00000SOx$90Bm7&X>Kub1BOzGbW(>)2TKTO0Vs(}0ZRaeg=hj;H~;_u'
        'DQOwPxx$gdt1As8X)tcWpTn%fox-KUpTniYqi90HqQkVqoj1a-CBv0CM@GY#ECB!j00000Xaj~)iF8tjhGThka%FdDVG2lLb7*CA3TOgYl>h($DQOwPxx$gd'
        't1As8X)tcWpTn%fox-KUpTniYqi90HqQkVqoj1a-CBv0CM@GY#!kfc_18;xBki&(;kHU?^pg+QvGC@MZzaYc4!m3wSeZr#|!<JUVjRnG=5eUM+D#N_Pgu=DL'
        'gmuHF!-K<!!?Hlap2LHF!h^zz!;Qj}!mPrFDGS28!lrTxA;X=+yThe1OK1azQiW26QZ4')),
    "pickled session without hashes": (lambda: seeded_session(keep_hashes=False), pickle.loads, (
        'fC6J*Ut)D>Y;<XEUtbDmWprV5baD!D0AqP|a%FdDVG2`ab8~5LZVFfl0001Aa%FRLZ*pa1hEhuhO9*HHV|jIQWp`*{3R87rbaG{73RnpM003rkZ*5;@Y+-bU'
        'QYeW_0ZRaeg=1f1Z)9a-a|&f{V{c?-3RpM*001dz8N#{3k;AJi4J2tWZo;3#tizqcrNW=XrNg6WLc*fMw8Nb@!mlO6l{iO6!<Z}q00000003A90001NVRUJ3'
        'F@{o!bW(?fV|jIQWp`*{3P@pdXk~K>V_#olb!lvLX>MO%3SxP5WpfHCQiW29hf*#')),
    "session": (session, read_file, (
        'd3ADScW7ZCb7gaLX>V>IF$(kNPz@!Oq$BFDX-4nGq5M!yOre(xQK!!OluPk_KMVoY0RR910001cB64+Zb0Ruhdm?6Oa&vSdIx;LGWo~35Iy5XIV`z15YjYwx'
        'dm>?UUuAA&B06SaY;$ESB4Ko2b97;HbRs%tVQh0{EFx@Wc4cgHB05`JGAuA%T`VGQZ)9b2B05`pB4}ZAXd*fyV`gJDWH2{oHfAt0V=_5nVrDclG%+(WIW{w9'
        'WiU8oF*#u~H)J(8H8){lW;HS}VrDQnF)=x2Fg0UjH8x~6A}k_vX?kTMIx#RXeJpz-Xkl|`B03^tGi5e6H8?b4HDfepV=`elIXE*nWn(irWi&8mGGjPlHezBh'
        'Vlp{6H(_HrG-G5mVly#iHD+RDWHK=@VK*`&EFyDhdSxOyGB7ZGU44Bldm?6Oa&vSdIyWpLWo~35IyfvMV`z15YjYwxdm>?UUuAA&B06SaY;$ESB4Ko2b97;H'
        'bRs%tVQh0{EFx@Wc4cgHB05`JF)T1$T`VGQZ)9b2B05`pB4}ZAXd*fyFk~`fWnwuoVmUE6HaRjmVKroAWn(#JHf1v~HaRjhWMpPEVKOu_HaKN7Wi>fwWH>Z7'
        'G&eIiWHmB1VP-QoA}k_vX?kTMIx{dZeO-NhT`VGNZf|#PUua=-Xk~LEI$K?RDQOwGk?SiBBxx{ipX}YGpXK9dLZbBDH?JktI7dd<o5BNcf6&Fxjo?3)GC@MW'
        'AoZ$OSAC-y)>h30pAiVZD*VK?gmvb_$nrp*!+wK_&6KQ%DGR%%ata~c`{gl9')),
    "session without hashes": (lambda: seeded_session(keep_hashes=False), read_file, (
        'd3ADScW7ZCb7gaLX>V>IF$zFq2Dpsvq<#ko&Px&yIesz=Z(WKg{3T&<xF%!@+{ysW000000001cB64+Zb0Ruhdm?6Oa&vSdIyWpLWo~35IyfvMV`z15YjYwx'
        'dm>?UUuAA&B06SaY;$ESB4Ko2b97;HbRs%tVQh0{EFx@Wc4cgHB05`JF)T1$T`VGQZ)9b2B05`pB4}ZAXd*fyFk~`fWnwuoVmUE6HaRjmVKroAWn(#JHf1v~'
        'HaRjhWMpPEVKOu_HaKN7Wi>fwWH>Z7G&eIiWHmB1VP-QoA}k_vX?kTMIx{dZeO-NhT`VGNZf|#PUua=-Xk~LEI$K?R')),
    "pickled range proof": (seeded_proof, pickle.loads, (
        'fC6J*Ut)D>Y;<XEUtbDmWprV5baDz~d3ADScW7Y>QekdqWl(Z&Z)OTu2><{9W^!+BUuJA!bcRw(0ZRdfg=1f1Z)9a-a|&f{V{c?-3RtcH006?9!-4~Ef5VW&'
        'g~N}+jl-Zn!j>{YLc+fw!?nVyS66+)qZz}NR>O@2!k-Zc!oOqy00000001h(yu*aTwZepT!=}T7!-&JOK*FBGgMPw;!imF;!j!_S!iOmf!n?wzata~Cox{7s'
        'r7=sxhyVZp00000DQOwPxx$gdt1As8X)tcWpTn%fox-KUpTniYqi90HqQkVqoj1a-CBv0CM@GY#ECB!j00000SOx$90Bm7&X>KuwQif74')),
    "range proof": (seeded_proof, y.RangeProof.from_bytes, (
        '0RR91000000RR91000000RR9100000o5BNcf6&Fxjo?3)GC@MWAoZ$OSAC-y)>h30pAiVZWB>pF00000D*VK?gmvb_$nrp*!+wK_&6KQ%DGR%%ata~c`{gl9'
        '$N&HU00000DQOwGk?SiBBxx{ipX}YGpXK9dLZbBDH?JktI7dd<ECB!j00000')),
    "pickled hash index": (seeded_index, pickle.loads, (
        'fCQC*000000001t2YGdJWp`*{l#B^TVRL9nZe(S6l#`T0V4K1NZ-3Cm&yC<emNG#?zaaIhS66+b8P-<K1)mWJzbgF1wS;x%!^rYLp2L2FiOrO(hbarYrg91)'
        '-TUP+ODSm?xsmHD4J2tWZlCPkrJv>FXhNd&-8Zi#)i_5+*p!8oQj{(')),
    "hash index": (seeded_index, read_index, (
        'd3ADScW7ZCXkl|`AZc!7Wq2Sl3XvBGo;+V0^rERkd|!$VLBRWL$dojj1wj1>3VV6_z?;GYZ-3Cm&yC<emNG#?zaaIhS66+b8P-<K1)mWJzbgF1wS;x%!^rYL'
        'p2L2FiOrO(hbarYrg91)-TUP+ODSm?xsmHD4J2tWZlCPkrJv>FXhNd&-8Zi#)i_5+*Z')),
}


@pytest.mark.parametrize("name", WRITTEN)
def test_what_was_written_before_is_read(name, tmp_path):
    make, read, text = WRITTEN[name]
    data = base64.b85decode(text)
    found = read(data, tmp_path) if read in (read_file, read_index) else read(data)
    assert found == make() and getattr(found, "keeps_hashes", None) == getattr(make(), "keeps_hashes", None)


# ---- Comparing, looking for hashes, and what is said of gaps

def test_equal_sessions():
    assert session() == session() != y.Session() and session() != session(keep_hashes=False) and y.Session() == y.Session()
    other = session()
    assert other == session() and other.put(100, [seeded(1)]) == 0 and other != session()
    knowing = session()
    knowing.keep_hashes([Z])
    assert knowing != session() != knowing and session() != 7 and not session() == "session"
    turned = y.Session()
    turned.put(2, [seeded(1)]), turned.put(7, [seeded(3)]), turned.put(3, [seeded(2)])
    assert turned == session()
    with pytest.raises(TypeError):
        hash(session())


def test_equal_hash_trees():
    trees = [y.HashTree([seeded(k) for k in range(count)]) for count in (0, 1, 2, 40)]
    for place, tree in enumerate(trees):
        assert tree == tree == y.HashTree(tree.chunks) and hash(tree) == hash(y.HashTree(tree.chunks))
        assert [tree == other for other in trees] == [number == place for number in range(4)]
        assert list(tree.chunks) == [seeded(k) for k in range(tree.num_chunks)] and tree != 7
    assert len({*trees, y.HashTree([])}) == 4
    one = y.HashTree([(trees[2].root, trees[2].total_size)])
    assert one.root == trees[2].root and one != trees[2]


def test_hashes_in_a_session():
    one, rng, known = y.Session(), random.Random(72), set()
    for place in range(200):
        assert all((seeded(k)[0] in one) == (k in known) for k in rng.sample(range(60), 5)), place
        chosen, call = [rng.randrange(60) for _ in range(rng.randrange(4))], rng.randrange(4)
        if call == 0:
            one.keep_hashes(seeded(k)[0] for k in chosen)
        elif call == 1:
            with pytest.raises(y.SessionPositions):
                one.put(MAX, [seeded(k) for k in chosen] or [seeded(0)] * 2)
            continue
        else:
            one.put(10 * place, [seeded(k) for k in chosen])
        known |= set(chosen)
        asked = rng.sample(range(60), rng.randrange(6))
        assert one.contains(seeded(k)[0] for k in asked) == [k in known for k in asked]
    assert seeded(1)[0].bytes in one and Z not in one
    assert seeded(1)[0] in one.copy() and y.Session(keep_hashes=False).contains([Z, Z]) == [False, False]
    for wrong in (7, "00", None, (Z, 1)):
        with pytest.raises(TypeError):
            wrong in one  # noqa: B015
    with pytest.raises(y.InvalidArguments):
        bytes(31) in one  # noqa: B015


@pytest.mark.parametrize("total, said", [
    (10, "the positions from 0 to 1 have no chunk, and neither have others in 2 more gaps"),
    (8, "the positions from 0 to 1 have no chunk, and neither have others in 1 more gaps"),
    (2, "the positions from 0 to 1 have no chunk"), (1, "position 0 has no chunk"),
])
def test_what_is_said_of_gaps(total, said):
    for call in (session().finish, session().root, lambda total: session().finish(total, bytes(32))):
        with pytest.raises(y.SessionGap) as raised:
            call(total)
        for error in (raised.value, pickle.loads(pickle.dumps(raised.value))):
            assert str(error) == said and error.position == 0


def test_what_is_said_of_positions_beyond_the_total():
    one = y.Session()
    one.put(0, [seeded(k) for k in range(5)])
    for total, taken in ((4, 4), (0, 0)):
        with pytest.raises(y.SessionGap, match=f"^position {taken} is taken, and the total is {total}$") as raised:
            one.finish(total)
        assert raised.value.position == taken
    one.put(9, [seeded(1)])
    for total, position, said in ((5, 9, "position 9 is taken, and the total is 5"), (10, 5, "the positions from 5 to 8 have no chunk")):
        with pytest.raises(y.SessionGap, match=f"^{said}$") as raised:
            one.finish(total)
        assert raised.value.position == position


def test_subtrees_can_be_summed():
    parts = [y.Subtree.from_chunks(False, [seeded(k), seeded(k + 1)], False) for k in range(9)]
    start = y.Subtree.from_chunks(True, [], False)
    assert sum(parts, start) == y.Subtree.merge_all([start, *parts]) and start.is_empty
