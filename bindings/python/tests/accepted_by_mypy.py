"""What `mypy --strict` accepts. It is checked, and never run."""

import array
import io
import json
import mmap
import pathlib
import pickle
import zipfile
from typing import Collection, Dict, Iterator, List, Optional, Sequence, Set, Tuple, Union

import yurewha as y
from yurewha import types

# Hashing bytes.
data: Union[bytes, bytearray] = bytearray(b"abc")
root: y.Hash = y.data_hash(data)
root = y.data_hash(bytearray(), nobody_writes=True)
root = y.data_hash(array.array("Q"))
hashes: y.Hashes = y.data_hashes(b"abc", [0, 3])
hashes = y.data_hashes(b"abc", array.array("q", [0, 3])) + hashes[:1]
hashes = y.data_hashes(memoryview(b"abc"), range(0, 4), nobody_writes=True)
hashes = y.hash_chunks("data", [0, 3])
hashes = y.hash_chunks(pathlib.Path("data"), array.array("q", [0, 3]), progress=lambda done, total: print(done / total))
hashes = y.hash_chunks(b"data", range(3), progress=None)
with open("data", "rb") as stream:
    cut: y.Chunks = y.Chunks(y.hash_cuts(stream, lambda pieces: map(len, pieces)))
    sizes_of_cuts: List[int] = [size for _, size in y.hash_cuts(stream, [1, 2])]
    cut = y.Chunks(y.hash_cuts(stream)) + y.Chunks(y.chunks_of(stream)) + y.Chunks(y.chunks_of("data"))
    root = y.hash_file(stream)
root = y.hash_file("data", salt=bytes(32), threads=4, progress=print)
root = y.hash_file(pathlib.Path("data"), salt=None, threads=None, progress=None)
root = y.hash_file(io.BytesIO(b"abc"), progress=lambda count: count + 1)
whole_file: y.HashTree = y.HashTree.of_file(b"data", threads=2)
chunker: y.Chunker = y.Chunker().copy()
boundary: Optional[int] = chunker.next_boundary(memoryview(b"abc"))
taken: int = chunker.taken + y.FileHasher().size
file_hasher: y.FileHasher = y.FileHasher(b"abc")
file_hasher.update(bytearray(b"abc"), nobody_writes=True)
root = max(file_hasher.root(), file_hasher.file_hash(), file_hasher.file_hash(salt=bytearray(32)))

# Hashes and hashers.
names: Dict[y.Hash, str] = {root: "abc", y.Hash(): "none", y.Hash(memoryview(bytes(32))): "zeros"}
ordered: List[y.Hash] = sorted(names)
least: y.Hash = min(names, key=lambda hash_: hash_ % 4)
word, second, third, fourth = y.Hash.random_from_seed(1).words
text: str = f"{least:.16} {least!r}" + str(least) + root.hex() + y.Hasher(b"a").hexdigest()
message: bytes = bytes(least) + root.bytes + y.Hasher.internal_node(b"a").copy().digest()

# Chunks and columns.
one: Tuple[y.Hash, int] = (y.Hash.random_from_seed(1), 100)
mixed: List[Tuple[bytes, int]] = [(bytes(32), 1)]
parts: Iterator[Tuple[y.Hash, int]] = ((y.data_hash(part), len(part)) for part in (b"a", b"bc"))
packed: y.Chunks = y.Chunks([one])
packed = y.Chunks(mixed)
packed = y.Chunks([(root, 1), (bytes(32), 2)])
packed = y.Chunks(parts) + [(least, 7)]
first: Tuple[y.Hash, int] = packed[0]
some: y.Chunks = packed[1:]
backwards: Sequence[Tuple[y.Hash, int]] = packed[::-1]
total: int = sum(size for _, size in packed) + sum(packed.sizes)
found: bool = (least, 7) in packed and least in packed.hashes and packed.index((least, 7)) >= 0
root = hashes[0]
texts: List[str] = hashes.hex()
several: Sequence[str] = texts
collected: Collection[str] = set(texts)
hashes = y.Hashes.from_hex(texts)
hashes = y.Hashes.from_hex(several)
hashes = y.Hashes.from_hex(collected)
hashes = y.Hashes.from_hex(text for text in texts)
packed = y.Chunks.from_columns(hashes, packed.sizes)
packed = y.Chunks.from_columns([root, bytes(32)], [1, 2])
packed = y.Chunks.from_columns(texts, [1, 2])
packed = y.Chunks.from_columns(several, array.array("I", [1, 2]))
packed = y.Chunks.from_columns(iter(texts), array.array("q", [1, 2]))
table: str = packed._repr_html_()
schema: object = packed.__arrow_c_schema__()
capsules: Tuple[object, object] = hashes.__arrow_c_array__(requested_schema=schema)
json.dumps({"root": root}, default=y.Hash.hex)

# Roots.
root = y.xorb_hash([one, one])
root = y.xorb_hash(pair for pair in [one])
root = y.xorb_hash(mmap.mmap(-1, 40))
root = y.file_hash(packed.packed, salt=bytes(32))
for view in (memoryview(b""), memoryview(bytearray())):
    root = y.data_hash(view)
    root = y.xorb_hash(view)
point: Optional[int] = y.find_stable_start(packed)

# Subtrees.
tree: y.Subtree = y.Subtree.from_chunks(True, [one], False)
tree = y.Subtree.from_chunks(at_start=True, chunks=packed, at_end=False) + y.Subtree.from_chunks(False, (), True)
tree += y.Subtree.from_chunks(False, packed, True)
tree = y.Subtree.merge_all(iter([tree]))
tree = y.Subtree.from_json(tree.to_json().encode())
tree = y.Subtree.from_flat(True, [[1, 0]], [one], False)
tree = y.Subtree.from_flat(*tree.to_flat())
tree = pickle.loads(pickle.dumps(tree))
final: Optional[y.Hash] = tree.final_hash()
if final is not None:
    names[final] = final.hex()
root = tree.finish(salt=bytes(32))
hashed: Optional[y.Hash] = tree.file_hash(salt=memoryview(bytes(32)))
parents: int = tree.copy().merge_counted(y.Subtree.from_chunks(False, [], False))
lefts: List[int] = [left for left, right in tree.levels]
sides: Tuple[y.Chunks, y.Chunks] = (tree.left(0), tree.right(0))
tree.write_svg(pathlib.Path("a.svg"), caption="a")
text = y.svg_of([tree], texts) + y.svg_of([tree], several) + y.svg_of((tree,), ("a",))
y.write_svg("b.svg", (tree, tree), captions=[f"part {number}" for number in range(2)])

# Sessions.
session = y.Session()
new: int = session.put(0, packed)
try:
    new = session.put(first=3, chunks=packed)
except (y.SessionOverlap, y.SessionPositions, y.SessionSizes, y.OutOfMemory) as error:
    text = str(error)
except y.BrokenRule as broken:
    rule: int = broken.rule
try:
    tree = y.Subtree.from_json("[]")
except y.InvalidJson as broken_json:
    rule = broken_json.rule
try:
    tree = y.Subtree.from_flat(*tree.to_flat())
except y.InvalidLists as broken_lists:
    rule = broken_lists.rule
runs: Sequence[Tuple[int, y.Subtree]] = session.runs()
ends: List[int] = [one_run.end for one_run in session.runs()]
one_run: y.Run = session.run(0)
start, subtree = one_run
start = one_run.first + one_run.end + session.num_chunks + session.total_size
for position, part in session:
    tree = tree + part
for each in session:
    tree = tree + each.subtree
trees: Dict[int, y.Subtree] = dict(session)
gaps: List[range] = session.gaps(7)
missing: int = sum(len(gap) for gap in gaps)
root = session.finish(7, bytearray(32))
root = session.finish(total=3, salt=None) if session.taken(0) else session.root(3)
session = y.Session.from_json(session.to_json())
session = y.Session.from_json(session.to_json().encode())
run: Optional[Tuple[int, int, y.Subtree]] = session.run_from(0)
if run is not None:
    session.push_run(*run)
for each in session.runs():
    session.push_run(each.first, each.end, each.subtree)
    session.put_range(each.first, each.end - each.first, each.subtree)
session.put_range(first=3, count=1, subtree=tree)
new = session.join(session) + session.join(other=y.Session(keep_hashes=False))
session.keep_hashes(session.known_hashes())
session.keep_hashes(session.known_hashes().packed)
session.keep_hashes([y.Hash(), bytes(32)])
known: Set[y.Hash] = set(session.known_hashes())

# Range proofs.
hash_tree: y.HashTree = y.HashTree([one, (bytes(32), 7)])
hash_tree = y.HashTree(packed.packed)
root = hash_tree.root
root = hash_tree.file_hash(salt=bytes(32))
least_range: Tuple[int, int] = hash_tree.chunks_at(0, hash_tree.total_size)
proof: y.RangeProof = hash_tree.proof(*least_range)
proof = hash_tree.proof_of_bytes(*hash_tree.bytes_of(0, hash_tree.num_chunks))
proof = y.RangeProof.from_json(proof.to_json().encode())
proof = y.RangeProof.from_json(proof.to_json(), limit=None)
proof = y.RangeProof.from_flat(*proof.to_flat())
proof = y.RangeProof.from_flat([[0, 1]], [one, (bytes(32), 7)])
proof = y.RangeProof.from_bytes(memoryview(proof.to_bytes()))
proofs: Dict[y.RangeProof, str] = {proof: text}
packed = proof.chunks + proof.left(0) + proof.right(proof.num_levels)
lefts = [left for left, right in proof.levels]
opened: y.OpenedRange = proof.open(root, salt=bytes(32))
opened = proof.open_root(bytes(32))
total = opened.file_size + opened.begins(0) + opened.ends(opened.num_chunks - 1)
place: int = opened.check(0, bytearray(b"abc"), nobody_writes=True)
try:
    read: bytes = bytes(opened.read(0, 3, memoryview(b"abc")))
except y.ProofMismatch as mismatch:
    text = str(mismatch)
except y.InvalidProof as broken_proof:
    rule = broken_proof.rule
broken_rules: List[y.BrokenRule] = [y.InvalidJson(5), y.InvalidLists(5), y.InvalidProof(5)]


def fetch(start: int, stop: int) -> memoryview:
    return memoryview(bytes(stop - start))


verified: io.RawIOBase = y.VerifiedFile(root, fetch, hash_tree.proof_of_bytes)
verified = y.VerifiedFile(root.hex(), fetch, hash_tree.proof_of_bytes, proof_limit=1 << 20)
file: y.VerifiedFile = y.VerifiedFile(bytes(32), lambda start, stop: b"", lambda start, stop: proof, bytes(32), cache_size=0)
read = file.read(7) + file.read() + file.readall()
total = file.seek(-3, io.SEEK_END) + file.tell() + file.size + file.readinto(bytearray(7))
with y.VerifiedFile(root, fetch, hash_tree.proof_of_bytes, chunk_limit=1 << 20) as raw:
    texts = zipfile.ZipFile(raw).namelist()
buffered: io.BufferedReader = io.BufferedReader(file)


async def fetch_later(start: int, stop: int) -> bytes:
    return bytes(stop - start)


async def read_later() -> int:
    later: y.AsyncVerifiedFile = y.AsyncVerifiedFile(root, fetch_later, hash_tree.proof_of_bytes, cache_size=0)
    return len(await later.read_at(0, 7)) + await later.size() + len(later.file_hash.bytes)


read = file.read_at(0, 7)
text = file.name + file.mode
ahead = y.VerifiedFile(root, fetch, hash_tree.proof_of_bytes, read_ahead=8 << 20, name="data")
many: y.Hashes = y.data_hashes(b"abc", [0, 3], threads=4) + y.hash_chunks("data", [0, 3], threads=4)
many = y.file_hashes(packed, [0, 1], salt=bytes(32)) + y.xorb_hashes(packed, [0, 1])
picked: y.Chunks = packed[[0, 0]] + packed[[True]] + packed[1:]
few: y.Session = y.Session(keep_hashes=False)
few = y.Session.from_json(few.to_json(hashes=False), keep_hashes=False)
few.save("session", hashes=False)
few = y.Session.load(b"session")
same: bool = few == y.Session() or root in few or hash_tree == y.HashTree.load("tree")
hash_tree.save("tree")
all_chunks: y.Chunks = hash_tree.chunks
index: y.HashIndex = y.HashIndex([root, bytes(32)])
are_known: List[bool] = index.contains(many)
fresh: int = index.add_all(many) + index.add(root) + len(index) + len(index.new(many)) + len(many[are_known])
index = y.HashIndex(many, array.array("Q", [7]))
fresh = index.add_all([root], numbers=[7]) + index.add(bytes(32), 7) + index.add(root, number=7)
where: List[Optional[int]] = [index.number(root), *index.numbers([bytes(32), root])]
difference: Optional[y.Difference] = hash_tree.diff(y.HashTree(packed))
if difference is not None:
    changed_chunks = packed[difference.first:difference.end] + packed[difference.first:difference.other_end]
    _, _, _, start, stop, other_stop = difference
    read = read[start:stop] + read[difference.start:other_stop]


# Public names of types.
def name_of(chunks: types.ChunksLike, data: types.BytesLike, hash_: types.HashLike, sizes: types.SizesLike, hashes: types.HashesLike,
            numbers: types.NumbersLike = ()) -> y.Hash:
    y.HashIndex(hashes, numbers)
    pair: types.Chunk = (y.data_hash(data), 1)
    return y.file_hash(y.Chunks.from_columns(hashes, sizes) + y.Chunks([pair]) + y.Chunks([(hash_, 1)]) + y.Chunks(chunks))


name_of([(y.Hash(), 1)], b"abc", bytes(32), [1], [y.Hash()])
