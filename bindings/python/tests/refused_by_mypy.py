"""What `mypy --strict` refuses. It is checked, and never run."""

import json
from pathlib import Path
from typing import Hashable, List, Tuple

import yurewha as y

tree, session, hash_, hasher = y.Subtree.merge_all([]), y.Session(), y.Hash(), y.Hasher()
chunks, hashes = y.Chunks(), y.Hashes()
hash_tree = y.HashTree(chunks)
proof = hash_tree.proof(0, 1)
opened = proof.open(hash_)
file = y.VerifiedFile(hash_, lambda start, stop: b"", hash_tree.proof_of_bytes)

# Each line from here on is refused.

# Hashing bytes.
y.data_hash("text")
y.data_hash(data="text")
y.data_hash(None)
y.data_hash(7)
y.data_hash([1, 2, 3])
y.data_hash(chunks)
y.data_hash(hash_)
y.data_hash(Path("data"))
y.data_hash(open("data", "rb"))
y.data_hash(b"", True)
y.data_hash(b"", nobody_writes="yes")
y.internal_node_hash("abc")
y.internal_node_hash(7.5)
y.internal_node_hash(b"", False)
y.data_hashes("text", [0, 1])
y.data_hashes(None, [0])
y.data_hashes([b"abc"], [0, 3])
y.data_hashes(b"abc")
y.data_hashes(b"abc", 7)
y.data_hashes(b"abc", "03")
y.data_hashes(b"abc", [0, 1.5])
y.data_hashes(b"abc", [0, 3], True)
y.hash_chunks("data")
y.hash_chunks(offsets=[0, 1])
y.hash_chunks(7, [0, 1])
y.hash_chunks(open("data", "rb"), [0, 1])
y.hash_chunks("data", 7)
y.hash_chunks("data", None)
y.hash_chunks("data", "03")
y.hash_chunks("data", ["0"])
y.hash_chunks(b"data", [0.5])
y.hash_chunks("data", [0, 1], print)
y.hash_cuts("data", [1])
y.hash_cuts(open("data"), [1])
y.hash_cuts(open("data", "rb"), 1)
y.hash_cuts(open("data", "rb"), lambda: [1])
y.hash_file(7)
y.hash_file(open("data"))
y.hash_file("data", bytes(32))
y.hash_file("data", salt="0")
y.hash_file("data", threads="2")
y.hash_file("data", progress=lambda done, total: None)
y.chunks_of(None)
y.chunks_of("data", 2)
y.HashTree.of_file()
y.HashTree.of_file("data", salt=bytes(32))
y.Chunker(b"abc")
y.Chunker().next_boundary("abc")
y.Chunker().next_boundary(b"abc") + 1
y.Chunker().taken = 1
y.FileHasher("abc")
y.FileHasher().update()
y.FileHasher().update(b"abc", True)
y.FileHasher().size()
y.FileHasher().file_hash(7)
y.FileHasher().copy()
y.hash_chunks("data", [0, 1], nobody_writes=True)
y.hash_chunks("data", [0, 1], progress=7)
y.hash_chunks("data", [0, 1], progress=lambda done: None)
y.hash_chunks("data", [0, 1], progress=lambda done, total, more: None)
y.hash_chunks("data", [0, 1]).root()
hashed: y.Chunks = y.hash_chunks("data", [0, 1])

# Hashes.
y.Hash(7)
y.Hash(None)
y.Hash("00")
y.Hash([0] * 32)
y.Hash(bytes=bytes(32))
y.Hash.from_bytes("0" * 32)
y.Hash.from_hex()
y.Hash.from_hex(None)
y.Hash.from_hex(b"00")
y.Hash.from_base64(b"A" * 43)
y.Hash.random_from_seed(1.0)
y.Hash.random_from_seed("1")
hash_.words = (1, 2, 3, 4)
hash_.bytes = bytes(32)
hash_.colour = 1
hash_.word
hash_.bytes()
hash_.words[4]
hash_[0]
hash_ + hash_
hash_ < "00"
hash_ < None
hash_ < bytes(32)
hash_ % 1.5
hash_ % hash_
hash_.hex.strip()
hash_.hex(":")
hash_.base64(True)
hash_.hexdigest()
hash_.hmac()
hash_.hmac(None)
hash_.hmac("key")
hash_.hmac(bytes(32))
hash_.to_bytes()
len(hash_)
int(hash_)
"%d" % hash_
Path("chunks") / hash_
open("x", "wb").write(hash_)
json.loads(hash_)
text: str = hash_.bytes
called: str = hash_.base64
number: int = hash_

# Hashers.
y.Hasher("abc")
y.Hasher(None)
y.Hasher(key=bytes(32))
y.Hasher.internal_node("abc")
y.Hasher.keyed()
y.Hasher.keyed(32)
y.Hasher.keyed("key", b"")
y.Hasher.keyed(hash_)
hasher.update()
hasher.update(None)
hasher.update([1, 2])
hasher.update("text")
hasher.update(data="text")
hasher.update(b"", True)
hasher.update(b"a").update(b"b")
hasher.finish()
hasher.count()
hasher.name = "sha256"
hasher.colour = 1
bytes(hasher)
digest: str = hasher.digest()
hexdigest: bytes = hasher.hexdigest()

# Columns of hashes.
y.Hashes(None)
y.Hashes(hash_)
y.Hashes(chunks)
y.Hashes(64 * "0")
y.Hashes([1, 2])
y.Hashes([7, bytes(32)])
y.Hashes([64 * "0"])
y.Hashes.from_hex(7)
y.Hashes.from_hex(64 * "0")
y.Hashes.from_hex([7])
y.Hashes.from_hex([bytes(64)])
hashes.append(hash_)
hashes.colour = 1
hashes.hex().strip()
hashes[0] = hash_
hashes + [1]
" ".join(hashes)
b"".join(hashes)
for one, size in hashes: print(one, size)

# Chunks.
y.Chunks(7)
y.Chunks(None)
y.Chunks("00")
y.Chunks(hashes)
y.Chunks([bytes(32)])
y.Chunks([(32, 1)])
y.Chunks([(bytes(32), None)])
y.Chunks([(64 * "0", 1)])
y.Chunks.from_columns(chunks)
y.Chunks.from_columns([hash_])
y.Chunks.from_columns([1], [2])
y.Chunks.from_columns([None], [1])
y.Chunks.from_columns([hash_], ["1"])
y.Chunks.from_columns([hash_, 64 * "0"], [1, 2])
y.Chunks.from_columns(["0"], 1)
y.Chunks.from_columns(64 * "0", [1])
y.Chunks.from_columns(hashes, "12")
y.Chunks.from_columns(hashes=7, sizes=[1])
y.Chunks.from_columns(chunks.sizes, hashes)
chunks.append((hash_, 1))
chunks.extend(chunks)
chunks.sort()
chunks.count()
chunks.colour = 1
chunks.packed = b""
chunks.sizes = [1]
chunks.sizes()
chunks.size
chunks[0] = (hash_, 1)
chunks[0].hash
chunks["0"]
del chunks[0]
chunks + 1
first: y.Hash = chunks[0]
column: List[int] = chunks.hashes

# Roots and stable points.
y.xorb_hash(5)
y.xorb_hash("text")
y.xorb_hash(hash_)
y.xorb_hash(tree)
y.xorb_hash((hash_, 1))
y.xorb_hash([hash_])
y.xorb_hash({hash_: 1})
y.xorb_hash([(1, hash_)])
y.xorb_hash([(None, 1)])
y.xorb_hash([(hash_, "1")])
y.xorb_hash([(hash_, 1.5)])
y.xorb_hash([(64 * "0", 1)])
y.file_hash()
y.file_hash(None)
y.file_hash([], 32)
y.file_hash([], salt="pepper")
y.file_hash([], pepper=bytes(32))
y.file_hash(chunks, chunks)
y.file_hash(chunks, None, None)
y.find_stable_start([]) + 1
y.find_stable_start(tree)
y.find_stable_start(chunks, 7)
y.find_stable_end(7)
place: int = y.find_stable_end(chunks)
root: y.Subtree = y.xorb_hash([])

# Subtrees.
y.Subtree()
y.Subtree(1, 2, 3)
y.Subtree.from_chunks(chunks)
y.Subtree.from_chunks(0, chunks, 1)
y.Subtree.from_chunks(True, [], "no")
y.Subtree.from_chunks(chunks, True, True)
y.Subtree.from_chunks(at_start=True, at_end=True)
y.Subtree.from_json(7)
y.Subtree.from_json(None)
y.Subtree.from_json({"at_start": True})
y.Subtree.from_flat(tree.to_flat())
y.Subtree.from_flat(None, [], chunks, True)
y.Subtree.from_flat(True, None, chunks, True)
y.Subtree.from_flat(False, [7], [], False)
y.Subtree.from_flat(True, [(1, "0")], chunks, True)
y.Subtree.merge_all([None])
y.Subtree.merge_all(tree)
y.Subtree.merge_all(tree, tree)
y.Flat(True, [], chunks)
y.Flat(True, [], [], True).nodes.hashes.packed.hex
y.Flat(at_start=1, levels=(), nodes=chunks, at_end=True)
tree.at_start = True
tree.num_nodes = 3
tree.colour = 1
tree.at_start()
tree.total_size()
tree.is_empty()
tree.levels()
tree.levels.append((1, 0))
tree.levels[0] = (1, 0)
tree.left()
tree.left("0")
tree.left(0)[0].size
tree.right(0.5)
tree.merge()
tree.merge(None)
tree.merge([tree])
tree.merge(session)
tree.merge_into(tree)
tree.merge_counted()
tree.merge_counted(session)
tree.clone()
tree.final_hash().hex()
tree.file_hash().hex()
tree.file_hash("pepper")
tree.finish(32)
tree.file_hash(salt=32)
tree.file_hash(salt=hash_)
tree.file_hash(bytes(32), 1)
tree.to_json(indent=1)
tree.to_flat().size
tree.to_flat().at_start = False
tree.to_flat()[0] = True
tree += chunks
tree + 1
tree + None
tree < tree
sum([tree, tree])
sorted([tree, tree])
for level in tree: print(level)
final: y.Hash = tree.final_hash()
salted: y.Hash = tree.file_hash(bytes(32))
merged: y.Subtree = tree.merge(tree)
key: Hashable = tree

# Pictures.
tree.svg(None)
tree.svg(caption=7)
tree.write_svg()
tree.write_svg(7)
tree.write_svg("a.svg", caption=None)
y.svg_of(tree)
y.svg_of([chunks])
y.svg_of([tree], "caption")
y.svg_of([tree], [7])
y.svg_of([tree], captions=7)
y.write_svg("a.svg")
y.write_svg("a.svg", tree)
y.write_svg("a.svg", [tree], "caption")
y.write_svg(None, [tree])
y.write_svg([tree], "a.svg")
picture: bytes = tree.svg()

# Sessions.
y.Session(chunks)
session.put(0)
session.put([])
session.put(None, chunks)
session.put("0", [])
session.put(0.5, chunks)
session.put(0, None)
session.put(0, hash_)
session.put(0, [hash_])
session.put(first=0, chunk=chunks)
session.taken()
session.taken(hash_)
session.taken = True
session.num_runs()
session.num_chunks()
session.num_chunks + "1"
session.num_chunks = 7
session.total_size = 7
session.colour = 1
session.gaps()
session.gaps("7")
session.gaps(total=None)
session.gaps(7)[0].subtree
session.root()
session.root("7")
session.root(4, bytes(32))
session.finish()
session.finish(None)
session.finish("4")
session.finish(hash_)
session.finish(7, 32)
session.finish(7, "pepper")
session.finish(7, salt=hash_)
session.finish(7, bytes(32), 1)
session.finish(salt=bytes(32))
session.keep_hashes(7)
session.keep_hashes([7])
session.keep_hashes("text")
session.keep_hashes(chunks)
session.known_hashes().packed + 1
session.known_hashes()[0].hash
session.to_json(indent=2)
session.to_json().decode()
y.Session.from_json()
y.Session.from_json(7)
y.Session.from_json(None)
y.Session.from_json({})
y.Session.from_json(session)
session[0]
len(session)
sorted([session])
with session: print(session)
puts: y.Session = session.put(0, chunks)
pairs: List[Tuple[int, int]] = session.gaps(7)
saved: bytes = session.to_json()

# Runs.
y.Run(1, 2)
y.Run(1, 2, session)
y.Run("1", 2, tree)
session.run()
session.run("0")
session.run(0).last
session.run(0).end = 7
session.run(0).first = 3
session.run(0).subtree = tree
session.run(0)[2]
session.runs[0]
session.runs()[0][0] = 1
session.runs()[0].start
session.runs()[0].subtree.end
session.run_from()
session.run_from(None)
session.run_from(0)[0]
session.push_run(0, 1)
session.push_run(0, tree)
session.push_run(0, 1, [])
session.push_run(0, tree, 1)
session.push_run(*session.run(0))
session.push_run(*session.run_from(0))
session.put_range(0, 1)
session.put_range(0, tree)
session.put_range(0, 1, [])
session.put_range(0, 1, session)
session.put_range(0, tree, 1)
session.put_range(0, "1", tree)
session.put_range(0, end=1, subtree=tree)
session.put_range(*session.run(0))
session.join()
session.join(None)
session.join(tree)
session.join([session])
session.join(session, session)
joined: y.Session = session.join(session)
for run in session: run.merge(tree)
start, end, part = session.run_from(0)
low, high, whole = session.run(0)

# Range proofs.
y.HashTree()
y.HashTree(None)
y.HashTree("chunks")
y.HashTree([1, 2])
y.HashTree(chunks, 7)
hash_tree.root()
hash_tree.root = hash_
hash_tree.file_hash("salt")
hash_tree.file_hash(hash_)
hash_tree.total_size()
hash_tree.num_chunks = 3
hash_tree.chunks_at(0)
hash_tree.chunks_at("0", 1)
hash_tree.chunks_at(0, 1).first
hash_tree.bytes_of(0)
hash_tree.bytes_of(0, 1.5)
hash_tree.proof(0)
hash_tree.proof(0, "1")
hash_tree.proof((0, 1))
hash_tree.proof_of_bytes(0)
hash_tree.proof_of_bytes(0, None)
hash_tree.proof(0, 1).check(0, b"")
y.RangeProof()
y.RangeProof([], [])
y.RangeProof.from_chunks(chunks, 0, 1)
y.RangeProof.from_json({})
y.RangeProof.from_json(proof)
y.RangeProof.from_json("", 7)
y.RangeProof.from_json("", limit="7")
y.RangeProof.from_flat([1], chunks)
y.RangeProof.from_flat([(0, 1)])
y.RangeProof.from_bytes("text")
proof.chunks()
proof.chunks = chunks
proof.levels[0].left
proof.left("0")
proof.left()
proof.num_levels()
proof.open()
proof.open("00")
proof.open(hash_, "salt")
proof.open(hash_, hash_)
proof.open_root(hash_, bytes(32))
proof.open_root(None)
proof.file_size
proof.check(0, b"")
proof.to_json().decode()
proof + proof
proof < proof
y.OpenedRange()
y.OpenedRange(proof)
opened.file_size()
opened.begins()
opened.begins("0")
opened.ends(0.5)
opened.check(0)
opened.check(b"", 0)
opened.check(0, "text")
opened.check(0, b"", True)
opened.check(0, b"").begins
opened.read(0, b"")
opened.read(0, 1)
opened.read(0, 1, "text")
opened.read(0, 1, b"", True)
opened.read(0, 1, b"").decode()
y.VerifiedFile()
y.VerifiedFile(hash_)
y.VerifiedFile(hash_, b"data", hash_tree.proof_of_bytes)
y.VerifiedFile(7, lambda start, stop: b"", hash_tree.proof_of_bytes)
y.VerifiedFile(hash_, lambda start, stop: "text", hash_tree.proof_of_bytes)
y.VerifiedFile(hash_, lambda start: b"", hash_tree.proof_of_bytes)
y.VerifiedFile(hash_, lambda start, stop: b"", hash_tree)
y.VerifiedFile(hash_, lambda start, stop: b"", lambda start, stop: "proof")
y.VerifiedFile(hash_, lambda start, stop: b"", hash_tree.proof_of_bytes, hash_)
y.VerifiedFile(hash_, lambda start, stop: b"", hash_tree.proof_of_bytes, None, 7)
y.VerifiedFile(hash_, lambda start, stop: b"", hash_tree.proof_of_bytes, size=7)
file.size()
file.size = 7
file.file_hash = hash_
file.read("7")
file.readinto(b"abc")
file.seek("0")
file.salt

# Names, errors and classes.
y.MerkleHash()
y.SessionEnd
y.compute_data_hash(b"")
y.merge([tree, tree])
y.Hash = y.Hashes
y.InvalidJson()
y.InvalidJson("5")
y.InvalidJson(5).rule.strip()
y.SizeOverflow("").rule
class MyHash(y.Hash): pass
class MyHasher(y.Hasher): pass
class MyHashes(y.Hashes): pass
class MyChunks(y.Chunks): pass
class MyTree(y.Subtree): pass
class MySession(y.Session): pass
class MyRun(y.Run): pass
class MyHashTree(y.HashTree): pass
class MyProof(y.RangeProof): pass
class MyRange(y.OpenedRange): pass
class MyFile(y.VerifiedFile): pass
y.InvalidProof()
y.InvalidProof("5")
y.InvalidLists()
y.InvalidLists("5")
y.BrokenRule()
y.BrokenRule("5")
json_error: y.InvalidJson = y.InvalidLists(5)
lists_error: y.InvalidLists = y.InvalidProof(5)
proof_error: y.InvalidProof = y.BrokenRule(5)
y.ProofMismatch("").rule

# Files over networks, and threads.
file.read_at(0)
file.read_at("0", 7)
file.read_at(0.5, 7)
piece: str = file.read_at(0, 7)
file.name = "other"
file.mode = "wb"
y.VerifiedFile(hash_, lambda start, stop: b"", hash_tree.proof_of_bytes, read_ahead=0.5)
y.VerifiedFile(hash_, lambda start, stop: b"", hash_tree.proof_of_bytes, name=7)
y.AsyncVerifiedFile(hash_)
y.AsyncVerifiedFile(hash_, b"data", hash_tree.proof_of_bytes)
y.AsyncVerifiedFile(hash_, lambda start, stop: "text", hash_tree.proof_of_bytes)
y.AsyncVerifiedFile(hash_, lambda start, stop: b"", hash_tree)
y.AsyncVerifiedFile(hash_, lambda start, stop: b"", hash_tree.proof_of_bytes, read_ahead=7)
y.data_hashes(b"abc", [0, 3], threads="4")
y.data_hashes(b"abc", [0, 3], threads=None)
y.hash_chunks("data", [0, 3], threads=0.5)
y.hash_chunks("data", [0, 3], None, 4)

# Many lists, items that are picked, and what is saved.
y.file_hashes(chunks)
y.file_hashes(chunks, 7)
y.file_hashes(chunks, [0], "salt")
y.xorb_hashes(chunks, [0], bytes(32))
y.xorb_hashes("chunks", [0])
chunks["0"]
chunks[0.5]
chunks[["0"]]
hashes[None]
y.Session(False)
y.Session(keep_hashes=0)
session.to_json(False)
session.to_json(hashes=0)
session.save()
session.save(7)
session.load(["session"])
7 in y.HashIndex()
y.HashIndex("00")
y.HashIndex().add("00")
y.HashIndex().add_all(hash_)
y.HashIndex([hash_], "7")
y.HashIndex([hash_], [0.5])
y.HashIndex().add(hash_, "7")
y.HashIndex().add(hash_, None)
y.HashIndex().add_all([hash_], 7)
y.HashIndex().number(7)
y.HashIndex().numbers(hash_)
where: List[int] = y.HashIndex().numbers([hash_])
y.HashIndex().number(hash_) + 1
hash_tree.diff(chunks)
hash_tree.diff(None)
hash_tree.diff(hash_tree).first
y.Difference(0, 1, 2, 3, 4)
y.Difference(0, 1, 2, 3, 4, None)
index_key: Hashable = y.HashIndex()
class MyIndex(y.HashIndex): pass
class MyAsyncFile(y.AsyncVerifiedFile): pass
hash_tree.chunks = chunks
hash_tree.save(None)
