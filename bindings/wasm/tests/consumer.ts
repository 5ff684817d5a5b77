// A program that uses each declaration, for `tsc --strict`. It is compiled, and run as JavaScript.

import {
    BrokenRule,
    EmptyHandle,
    InvalidArguments,
    InvalidJson,
    InvalidLists,
    InvalidProof,
    InvalidText,
    OutOfMemory,
    ProofMismatch,
    SessionError,
    SessionGap,
    SessionOverlap,
    SessionPositions,
    SessionSizes,
    SizeOverflow,
    Trapped,
    YurewhaError,
    load,
    type CheckingOptions,
    type Chunk,
    type ChunkList,
    type Chunker,
    type ChunkerConstructor,
    type Chunks,
    type ChunksConstructor,
    type Data,
    type Difference,
    type FetchBytes,
    type FileHasher,
    type FileHasherConstructor,
    type Flat,
    type FlatInput,
    type FlatProof,
    type FlatProofInput,
    type Freed,
    type Hash,
    type HashConstructor,
    type HashFileOptions,
    type HashIndex,
    type HashIndexConstructor,
    type HashTree,
    type HashTreeConstructor,
    type Hasher,
    type HasherConstructor,
    type OpenedRange,
    type OpenedRangeConstructor,
    type Pieces,
    type Prove,
    type RangeProof,
    type RangeProofConstructor,
    type Received,
    type Run,
    type SavedHashIndex,
    type SavedSession,
    type Session,
    type SessionConstructor,
    type Source,
    type Subtree,
    type SubtreeConstructor,
    type U64,
    type VerifiedBlob,
    type VerifiedBlobConstructor,
    type VerifiedBlobOptions,
    type Yurewha,
} from "yurewha";

const y: Yurewha = await load();
const classes: [HashConstructor, ChunksConstructor, HasherConstructor, SubtreeConstructor, SessionConstructor] = [
    y.Hash, y.Chunks, y.Hasher, y.Subtree, y.Session,
];
const provers: [HashTreeConstructor, RangeProofConstructor, OpenedRangeConstructor] = [y.HashTree, y.RangeProof, y.OpenedRange];
const data = new TextEncoder().encode("a chunk");
const hash: Hash = y.dataHash(data);
const other: Hash = new y.Hash(hash.bytes);
const order: -1 | 0 | 1 = hash.compare(other);
const texts: string[] = [hash.hex(), hash.base64(), hash.toString(), hash.toJSON(), `${hash}`];
const read: Hash[] = [y.Hash.fromHex(texts[0]!), y.Hash.fromBase64(texts[1]!), y.Hash.fromJSON(JSON.stringify(hash)), new y.Hash(), hash.hmac(other)];
const cut: boolean = hash.remainder(4) === 0n;
const size: U64 = 7n;
const pairs: Chunk[] = [[hash, size], [y.Hash.randomFromSeed(1), 200]];
const lists: ChunkList[] = [pairs, new Set(pairs), pairs.values()];
const chunks: Chunks = y.Chunks.from(pairs);
const copies: Chunks[] = [new y.Chunks(chunks.bytes), y.Chunks.fromJSON(chunks.toJSON()), y.Chunks.fromJSON(JSON.stringify(chunks)), chunks.slice(-2)];
const last: [Hash, bigint] | undefined = chunks.at(-1);
const [first, ...rest]: string[] = [...chunks].map(([it, bytes]) => `${it.hex()} ${bytes}`);
const hasher: Hasher = new y.Hasher().update(data).clone();
const counts: [bigint, Hash] = [hasher.count, hasher.hash];
const others: Hasher[] = [y.Hasher.internalNode(), y.Hasher.keyed(hash.bytes)];
async function* given(): AsyncGenerator<Uint8Array> {
    yield data;
}
const sources: Pieces[] = [new Blob([data]).stream(), new Blob([data]), given(), [data]];
const streamed: Hash[] = [
    ...(await Promise.all(sources.map((it) => y.hashStream(it)))), ...y.dataHashes(data, [0, 7n]),
];
const chunkers: ChunkerConstructor = y.Chunker;
const chunker: Chunker = new chunkers().clone();
const boundaries: [number | undefined, number, Uint8Array] = [chunker.nextBoundary(data.buffer), chunker.taken, chunker.state];
const fileHashers: FileHasherConstructor = y.FileHasher;
const fileHasher: FileHasher = new fileHashers().update(data).update(data.buffer);
const hashFileOptions: HashFileOptions = { salt: new Uint8Array(32), signal: new AbortController().signal, onProgress: (bytes: number) => bytes.toFixed() };
const fileHashes: [bigint, ...Hash[]] = [
    fileHasher.size, fileHasher.hash, fileHasher.fileHash(new Uint8Array(32)), await y.hashFile([data, data], hashFileOptions), await y.hashBlob(new Blob([data, data])),
];
const ofFile: [Hash, number][] = [];
for await (const it of y.chunksOf(new Blob([data]))) ofFile.push(it);
for await (const it of y.hashCuts(given())) ofFile.push(it);
const root: Hash = y.xorbHash(chunks);
const inner: Hash = y.internalNodeHash(data);
const files: Hash[] = [y.fileHash(pairs), y.fileHash(new Set(pairs), new Uint8Array(32))];
const front: Subtree = y.Subtree.fromChunks(true, chunks.slice(0, 1), false);
const back: Subtree = y.Subtree.fromJSON(y.Subtree.fromChunks(false, pairs.slice(1), true).jsonText());
const whole: Subtree = y.Subtree.merge([front, back]);
const parents: number = front.mergeInto(back);
const flat: Flat = front.toFlat();
const input: FlatInput = { ...flat, levels: [[1n, 0]], nodes: pairs.slice(1), atStart: false };
const levels: [number, number][] = y.Subtree.fromFlat(flat).levels;
const nodes: Chunks = y.Subtree.fromFlat(input).nodes;
const told: [boolean, boolean, bigint, number, number] = [whole.atStart, whole.atEnd, whole.totalSize, whole.numNodes, whole.numLevels];
const final: Hash | null = whole.finalHash();
const file: Hash | null = whole.fileHash(new Uint8Array(32)) ?? whole.fileHash();
const finished: Hash = whole.finish(new Uint8Array(32)).equals(whole.finish()) ? new y.Hash() : whole.finish();
const session: Session = new y.Session();
const fresh: number = session.put(0, chunks);
const [position, end, run]: Run = session.runs()[0]!;
const start: bigint = position + end + run.totalSize + session.numChunks + session.totalSize;
const gaps: [bigint, bigint][] = session.gaps(5);
const saved: Run | null = session.runFrom(0) ?? session.run(0);
const restored: Session = new y.Session();
if (saved !== null) restored.pushRun(...saved);
const parts: Session = new y.Session({ keepHashes: false });
const joined: number = parts.join(session);
parts.putRange(joined + 7, 1n, run);
restored.keepHashes(session.knownHashes());
const form: SavedSession = restored.saved;
const sessionText: string = restored.jsonText();
y.Session.fromJSON(sessionText).free();
y.RangeProof.fromJSON(y.RangeProof.fromChunks(pairs, 0, 1).jsonText(), { limit: 2n ** 30n });
y.Session.fromJSON(new TextEncoder().encode(sessionText)).free();
const again: Session = y.Session.restore(JSON.parse(JSON.stringify(form)) as SavedSession).clone();
const taken: boolean = again.taken(1) && session.numRuns === 1;
const tree: HashTree = y.HashTree.fromChunks(pairs);
const [place, after]: [number, number] = tree.chunksAt(0, 5n)!;
const bytesOf: [bigint, bigint] | null = tree.bytesOf(place, after);
const difference: Difference | null = tree.diff(y.HashTree.fromChunks(pairs.slice(1)));
const differing: [number, number, number] = [difference!.first, difference!.end, difference!.otherEnd];
const differingBytes: [bigint, bigint, bigint] = [difference!.start, difference!.stop, difference!.otherStop];
const indexes: HashIndexConstructor = y.HashIndex;
const index: HashIndex = new indexes();
const added: number = index.insert(new Set([hash, other]), [7, 8n]) + index.size;
const numbers: (bigint | null)[] = [...index.find([hash]), index.get(root)];
const entries: [Hash, bigint][] = index.has(hash) ? index.entries() : [];
const savedIndex: SavedHashIndex = index.clone().saved;
const restoredIndex: HashIndex = indexes.restore(JSON.parse(JSON.stringify(savedIndex)) as SavedHashIndex);
const proof: RangeProof = tree.proof(place, BigInt(after));
const sides: [Chunks, Chunks, number] = [proof.left(0), proof.right(0n), proof.numLevels];
const flatProof: FlatProof = proof.toFlat();
const proofInput: FlatProofInput = { ...flatProof, levels: [[0n, 1]] };
const proofs: RangeProof[] = [
    y.RangeProof.fromChunks(chunks, 0, 1), y.RangeProof.fromJSON(proof.jsonText()), new y.RangeProof(proof.bytes), y.RangeProof.fromFlat(proofInput),
];
const opened: OpenedRange = proof.open(y.fileHash(pairs));
const byRoot: OpenedRange = proofs[0]!.openRoot(tree.root);
const places: (bigint | null)[] = [opened.begins(0), opened.ends(0n), opened.check(0, data), opened.fileSize];
const part: Uint8Array | null = opened.read(1, 3n, data);
const sure: [bigint, Uint8Array] = [opened.checkOrThrow(0, data.buffer), opened.readOrThrow(1, 3n, data.buffer)];
const bytesFrom: FetchBytes = async (from, to) => data.subarray(from, to);
const prove: Prove = (from, to, signal): Received<RangeProof> => (signal.aborted ? new Response() : tree.proof(...tree.chunksAt(from, to)!));
const options: VerifiedBlobOptions = { salt: new Uint8Array(32), type: "text/plain", cacheSize: 7, chunkLimit: 7n };
const blobs: VerifiedBlobConstructor = y.VerifiedBlob;
const remote: VerifiedBlob = await blobs.open(y.fileHash(pairs), bytesFrom, prove, options);
// It goes where a Blob's own members are called.
const remotePart: Blob = remote.slice(2).slice(0, 5, "text/html");
const inParts: [ArrayBuffer, string, Uint8Array] = [await remotePart.slice(0, 1).arrayBuffer(), await remote.slice(0, 7).text(), await remote.slice(0, 1).bytes()];
const pieces: ReadableStream<Uint8Array> = remote.slice(0, 7).stream();
const checked: string[] = [];
const limits: CheckingOptions = { chunkLimit: 7n };
for await (const it of new Blob([data]).stream().pipeThrough(opened.checking(limits)) as unknown as AsyncIterable<Uint8Array>) checked.push(new TextDecoder().decode(it));
const point: number | null = y.findStableStart(chunks) ?? y.findStableEnd(lists[0]!);
const freed: Freed[] = [again, back, restoredIndex, fileHasher];

try {
    y.Subtree.fromJSON("[]");
} catch (error) {
    if (!(error instanceof InvalidJson && error instanceof BrokenRule && error instanceof YurewhaError)) throw error;
    const rule: number = error.rule;
    if (rule !== 1) throw error;
}
for (const call of [() => y.Subtree.fromFlat({ ...flat, levels: [] }), () => y.RangeProof.fromFlat({ levels: [], nodes: [] })]) {
    try {
        call();
    } catch (error) {
        if (!(error instanceof InvalidLists || error instanceof InvalidProof)) throw error;
        const broken: BrokenRule = error;
        if (broken.rule !== 5) throw error;
    }
}
try {
    session.put(1n, pairs);
} catch (error) {
    if (!(error instanceof SessionOverlap)) throw error;
}
try {
    proof.open(root);
} catch (error) {
    if (!(error instanceof ProofMismatch)) throw error;
}
const kinds: (typeof YurewhaError)[] = [
    InvalidArguments, SizeOverflow, OutOfMemory, InvalidText, Trapped, SessionError, SessionPositions, SessionSizes, SessionGap,
];
freed.forEach((it) => it[Symbol.dispose]());
try {
    back.clone();
} catch (error) {
    if (!(error instanceof EmptyHandle)) throw error;
}

/** What the declarations refuse; it isn't called. Each line after a comment is wrong for the reason that the comment says. */
export async function refused(): Promise<void> {
    // @ts-expect-error a size is no text
    y.xorbHash([[hash, "7"]]);
    // @ts-expect-error a chunk has a hash first
    y.xorbHash([[7, hash]]);
    // @ts-expect-error a chunk has a size
    y.xorbHash([[hash]]);
    // @ts-expect-error a list is of chunks, not one chunk
    y.xorbHash([hash, 7]);
    // @ts-expect-error a hash isn't a list
    y.xorbHash(hash);
    // @ts-expect-error a clone of a list isn't a list
    y.xorbHash({ bytes: chunks.bytes });
    // @ts-expect-error the hash is a Hash, not its bytes
    y.xorbHash([[data, 1]]);
    // @ts-expect-error a chunk is a pair
    y.xorbHash([{ hash, size: 1 }]);
    // @ts-expect-error hashes have no sizes
    y.xorbHash([hash]);
    // @ts-expect-error a range isn't a list
    y.xorbHash(whole);
    // @ts-expect-error a list comes later
    y.xorbHash(Promise.resolve(pairs));
    // @ts-expect-error a root has no salt
    y.xorbHash(pairs, data);
    // @ts-expect-error there may be no stable point
    y.findStableEnd(chunks).toFixed();
    // @ts-expect-error a list has to be given
    y.fileHash();
    // @ts-expect-error a salt isn't a hash
    y.fileHash(pairs, hash);
    // @ts-expect-error a salt isn't a text
    whole.fileHash("salt");
    // @ts-expect-error a salt isn't text
    whole.finish("salt");
    // @ts-expect-error without a salt the argument is left out
    y.fileHash(pairs, null);
    // @ts-expect-error a salt isn't an array
    y.fileHash(pairs, [1, 2]);
    // @ts-expect-error the salt comes last
    y.fileHash(data, pairs);
    // @ts-expect-error there may be no file hash
    whole.fileHash().hex();
    // @ts-expect-error there may be no root
    whole.finalHash().hex();
    // @ts-expect-error a hash is no text
    hash.compare("00");
    // @ts-expect-error a key is a hash, not its bytes
    hash.hmac(hash.bytes);
    // @ts-expect-error a divisor is a number
    hash.remainder("4");
    // @ts-expect-error the bytes of a hash can't be replaced
    hash.bytes = new Uint8Array(32);
    // @ts-expect-error hex is a call
    const hex: string = hash.hex;
    // @ts-expect-error bytes aren't a call
    hash.bytes();
    // @ts-expect-error a hash has no words
    hash.words;
    // @ts-expect-error a hash has no items
    hash[0];
    // @ts-expect-error hashes can't be added
    hash + other;
    // @ts-expect-error a hash isn't compared with a text
    hash.equals(texts[0]!);
    // @ts-expect-error an order isn't true or false
    const less: boolean = hash.compare(other);
    // @ts-expect-error a remainder is a BigInt
    const four: number = hash.remainder(4);
    // @ts-expect-error a hash is made of bytes, not of its text
    new y.Hash("00");
    // @ts-expect-error a text isn't made of bytes
    y.Hash.fromHex(data);
    // @ts-expect-error a seed is a number
    y.Hash.randomFromSeed("1");
    // @ts-expect-error a class is called by new
    y.Hash();
    // @ts-expect-error a hash is made of bytes
    new y.Hash(hash);
    // @ts-expect-error a hash isn't a text
    y.Hash.fromHex(hash);
    // @ts-expect-error base64 is a text
    y.Hash.fromBase64(data);
    // @ts-expect-error the bytes are those of a Uint8Array
    y.dataHash([1, 2]);
    // @ts-expect-error a text has no bytes yet
    y.dataHash("abc");
    // @ts-expect-error other views are no Uint8Array
    y.dataHash(new DataView(data.buffer));
    // @ts-expect-error a salt is a Uint8Array
    y.fileHash(pairs, new ArrayBuffer(32));
    // @ts-expect-error a piece of a stream is a Uint8Array
    await y.hashStream([data.buffer]);
    // @ts-expect-error there has to be data
    y.dataHash(undefined);
    // @ts-expect-error the data of chunks isn't their list
    y.dataHash(chunks);
    // @ts-expect-error the offsets are many
    y.dataHashes(data, 3);
    // @ts-expect-error an offset is a number
    y.dataHashes(data, ["0"]);
    // @ts-expect-error the offsets have to be given
    y.dataHashes(data);
    // @ts-expect-error an offset is a number, not null
    y.dataHashes(data, [0, null]);
    // @ts-expect-error hashes come one by one
    y.dataHashes(data, [0, 7]).hex();
    // @ts-expect-error a stream is of bytes
    await y.hashStream(["text"]);
    // @ts-expect-error one piece isn't a stream
    await y.hashStream(data);
    // @ts-expect-error a stream of texts
    await y.hashStream(new ReadableStream<string>());
    // @ts-expect-error a hash comes later
    y.hashStream([data]).hex();
    // @ts-expect-error there may be no chunk
    chunks.at(0)[0];
    // @ts-expect-error an index is a Number
    chunks.at(0n);
    // @ts-expect-error a list has no items by brackets
    chunks[0];
    // @ts-expect-error a list can't be changed
    chunks.push([hash, 1]);
    // @ts-expect-error an end is a Number
    chunks.slice(0, 1n);
    // @ts-expect-error a chunk isn't a hash
    for (const it of chunks) it.hex();
    // @ts-expect-error a size is a BigInt
    for (const [, bytes] of chunks) bytes.toFixed();
    // @ts-expect-error a list has no length to set
    chunks.length = 3;
    // @ts-expect-error packed chunks are bytes
    new y.Chunks(pairs);
    // @ts-expect-error a chunk has two members
    y.Chunks.from([[hash, 1, 2]]);
    // @ts-expect-error packed chunks aren't pairs
    y.Chunks.fromJSON(chunks.bytes);
    // @ts-expect-error a size is a text here
    y.Chunks.fromJSON([["00", 7]]);
    // @ts-expect-error a hasher takes bytes
    hasher.update("abc");
    // @ts-expect-error a key is bytes
    y.Hasher.keyed(hash);
    // @ts-expect-error a hasher is made without data
    new y.Hasher(data);
    // @ts-expect-error a digest is a Hash
    hasher.digest("hex");
    // @ts-expect-error the hash so far isn't a call
    hasher.hash();
    // @ts-expect-error a chunk may not end in the data
    chunker.nextBoundary(data).toFixed();
    // @ts-expect-error a chunker takes bytes
    chunker.nextBoundary("abc");
    // @ts-expect-error a chunker holds no memory
    chunker.free();
    // @ts-expect-error a file's size is a BigInt
    const bytes: number = fileHasher.size;
    // @ts-expect-error a root is a call
    fileHasher.root.hex();
    // @ts-expect-error a salt is bytes
    fileHasher.fileHash(hash);
    // @ts-expect-error a file's hash comes later
    y.hashFile(new Blob([data])).hex();
    // @ts-expect-error a file has one way to be hashed
    await y.hashFile(new Blob([data]), { salted: data });
    // @ts-expect-error a stream isn't a Blob
    await y.hashBlob(new Blob([data]).stream());
    // @ts-expect-error progress is a number of bytes
    await y.hashFile([data], { onProgress: (bytes: string) => void bytes });
    // @ts-expect-error an instance's chunks come one after another
    y.chunksOf([data])[0];
    // @ts-expect-error a length can't be set
    hasher.count = 0n;
    // @ts-expect-error a Subtree is made by its calls
    new y.Subtree();
    // @ts-expect-error a mark is true or false
    y.Subtree.fromChunks(1, chunks, true);
    // @ts-expect-error a mark stands on each side
    y.Subtree.fromChunks(true, chunks);
    // @ts-expect-error ranges are merged as a list
    y.Subtree.merge(front, back);
    // @ts-expect-error a range isn't its text
    front.mergeInto(back.jsonText());
    // @ts-expect-error a list isn't a range
    y.Subtree.merge([front, chunks]);
    // @ts-expect-error a session isn't a range
    front.mergeInto(session);
    // @ts-expect-error parents are counted
    front.mergeInto(back).finalHash();
    // @ts-expect-error an object isn't a text
    y.Subtree.fromJSON(flat);
    // @ts-expect-error what JSON.stringify writes isn't a text yet
    y.Subtree.fromJSON(back.toJSON());
    // @ts-expect-error nor is that of a session
    y.Session.fromJSON(session.toJSON());
    // @ts-expect-error nor that of a proof
    y.RangeProof.fromJSON(proof.toJSON());
    // @ts-expect-error flat lists aren't a range
    front.equals(flat);
    // @ts-expect-error there may be no root
    const ended: Hash = whole.finalHash();
    // @ts-expect-error a size is a BigInt
    const sum: number = whole.totalSize;
    // @ts-expect-error a mark can't be set
    whole.atStart = true;
    // @ts-expect-error nodes can't be set
    whole.nodes = chunks;
    // @ts-expect-error flat lists can't be changed
    whole.toFlat().atEnd = true;
    // @ts-expect-error flat lists have nodes
    y.Subtree.fromFlat({ atStart: true, levels: [[0, 0]], atEnd: true });
    // @ts-expect-error a level is two counts
    y.Subtree.fromFlat({ ...flat, levels: [[1]] });
    // @ts-expect-error flat lists have names
    y.Subtree.fromFlat([true, [], [], true]);
    // @ts-expect-error the number of nodes can't be set
    front.numNodes = 3;
    // @ts-expect-error there may be no run
    session.runFrom(0)[0];
    // @ts-expect-error a position comes first
    session.put(chunks);
    // @ts-expect-error a run has an end
    session.pushRun(0, run);
    // @ts-expect-error a run has no names
    session.run(0).first;
    // @ts-expect-error a run has three members
    session.run(0)[3];
    // @ts-expect-error there may be no run
    const [low, high, part] = session.runFrom(0);
    // @ts-expect-error there may be no run
    session.pushRun(...session.runFrom(0));
    // @ts-expect-error chunks aren't a range
    session.pushRun(0, 1, chunks);
    // @ts-expect-error a range is of so many chunks
    session.putRange(0, run);
    // @ts-expect-error chunks aren't a range
    session.putRange(0, 1, chunks);
    // @ts-expect-error a range is no session
    session.join(run);
    // @ts-expect-error what is saved is no session
    session.join(session.saved);
    // @ts-expect-error positions are BigInts
    const holes: number[][] = session.gaps(7);
    // @ts-expect-error a session is no list
    for (const it of session) void it;
    // @ts-expect-error hashes have no sizes
    session.put(0, [hash]);
    // @ts-expect-error a position is a number
    session.taken("0");
    // @ts-expect-error a count is a BigInt
    session.numChunks + 1;
    // @ts-expect-error a count can't be set
    session.numChunks = 7n;
    // @ts-expect-error hashes are many
    session.keepHashes(hash);
    // @ts-expect-error hashes aren't their texts
    session.keepHashes([hash.hex()]);
    // @ts-expect-error hashes aren't packed
    session.knownHashes().bytes;
    // @ts-expect-error a total is a number
    session.finish("2");
    // @ts-expect-error a salt is bytes
    session.finish(2, "salt");
    // @ts-expect-error a salt isn't a hash
    session.finish(2, hash);
    // @ts-expect-error a root has no salt
    session.root(2, data);
    // @ts-expect-error a session isn't made of its form by new
    new y.Session(form);
    // @ts-expect-error a form has known hashes
    y.Session.restore({ runs: [] });
    // @ts-expect-error a form isn't JSON
    y.Session.fromJSON(form);
    // @ts-expect-error a form isn't its JSON
    y.Session.restore(JSON.stringify(form));
    // @ts-expect-error positions in a form are texts
    y.Session.restore({ runs: [[0, 1, "{}"]], knownHashes: [] });
    // @ts-expect-error a form can't be changed
    form.knownHashes[0] = "00";
    // @ts-expect-error a proof of one number
    y.RangeProof.fromChunks(chunks, 0);
    // @ts-expect-error a range has two numbers
    tree.proof([0, 1]);
    // @ts-expect-error there may be no such chunks
    const [begin, stop] = tree.chunksAt(0, 1);
    // @ts-expect-error places are BigInts
    const ends: [number, number] | null = tree.bytesOf(0, 1);
    // @ts-expect-error files may be the same
    tree.diff(tree).first;
    // @ts-expect-error a place is a BigInt
    const differs: number = difference!.start;
    // @ts-expect-error a difference isn't of chunks
    tree.diff(chunks);
    // @ts-expect-error each hash has a number
    index.insert([hash]);
    // @ts-expect-error a number isn't a text
    index.insert([hash], ["7"]);
    // @ts-expect-error hashes are many
    index.find(hash);
    // @ts-expect-error a hash may have no number
    index.get(hash).toString(16);
    // @ts-expect-error the size isn't a call
    index.size();
    // @ts-expect-error an index is made empty
    new y.HashIndex([hash]);
    // @ts-expect-error numbers in a saved index are texts
    y.HashIndex.restore([["00", 7]]);
    // @ts-expect-error a root isn't a call
    tree.root();
    // @ts-expect-error a file hash is a call
    tree.fileHash.hex();
    // @ts-expect-error a tree is made of chunks
    new y.HashTree(chunks);
    // @ts-expect-error a proof is made of bytes
    new y.RangeProof(proof.jsonText());
    // @ts-expect-error a proof has to be opened
    proof.check(0, data);
    // @ts-expect-error a proof is opened with a hash, not its text
    proof.open(hash.hex());
    // @ts-expect-error a salt is bytes
    proof.open(hash, hash);
    // @ts-expect-error a root has no salt
    proof.openRoot(root, data);
    // @ts-expect-error a proof holds no memory
    proof.free();
    // @ts-expect-error an opened range is made by a proof
    new y.OpenedRange(proof);
    // @ts-expect-error data may be refused
    opened.check(0, data).toString();
    // @ts-expect-error data may be refused
    opened.read(0, 1, data).length;
    // @ts-expect-error data is bytes
    opened.read(0, 1, "a chunk");
    // @ts-expect-error a place comes before the data
    opened.read(data, 0, 1);
    // @ts-expect-error a size is a BigInt
    const fileSize: number = opened.fileSize;
    // @ts-expect-error bytes come with their place
    opened.readOrThrow(data);
    // @ts-expect-error the proof of a file is needed
    await y.VerifiedBlob.open(hash, "https://localhost/data");
    // @ts-expect-error bytes are fetched, not their text
    await y.VerifiedBlob.open(hash, () => "a chunk", prove);
    // @ts-expect-error a proof isn't its text
    await y.VerifiedBlob.open(hash, bytesFrom, () => proof.jsonText());
    // @ts-expect-error a file is opened by a hash
    await y.VerifiedBlob.open(hash.hex(), bytesFrom, prove);
    // @ts-expect-error a limit is a number
    await y.VerifiedBlob.open(hash, bytesFrom, prove, { chunkLimit: "7" });
    // @ts-expect-error a file comes later
    y.VerifiedBlob.open(hash, bytesFrom, prove).size;
    // @ts-expect-error a part isn't made by new
    new y.VerifiedBlob();
    // @ts-expect-error a size can't be set
    remote.size = 7;
    // @ts-expect-error there is nothing to free
    remote.free();
    // @ts-expect-error a limit is a number
    opened.checking({ chunkLimit: "7" });
    // @ts-expect-error only a hash has a text
    const texts: string = remote.toString().toUpperCase();
    // @ts-expect-error a response gives pieces by its body
    await y.hashStream(new Response(data));
    // @ts-expect-error what is checked is bytes
    new ReadableStream<string>().pipeThrough(opened.checking());
    // @ts-expect-error the package comes later
    load().dataHash(data);
    // @ts-expect-error the module isn't a number
    await load(5);
    // @ts-expect-error the rule of another error
    new SizeOverflow("").rule;
    // @ts-expect-error an error's text is a text
    new SessionGap(7);
    // @ts-expect-error another error has no rule
    const broken: typeof BrokenRule = SizeOverflow;
    // @ts-expect-error a rule is a number
    new InvalidLists("rule 5");
    // @ts-expect-error an error of a broken rule has one
    new InvalidProof();
    // @ts-expect-error a class of the instance can't be replaced
    y.Hash = y.Hash;
    void hex;
}

const source: Source = new URL("https://localhost/yurewha.wasm");
const buffers: Data[] = [data, data.buffer];
const blobbed = `${remote.size} ${remote.start} ${remote.type} ${remotePart.type}` === "207 0 text/plain text/html" && remotePart.size === 5 && inParts[0].byteLength === 1 &&
    inParts[1] === "a chunk" && inParts[2].length === 1 && (await y.hashStream(pieces)).equals(hash) && remote.fileHash.equals(y.fileHash(pairs)) &&
    sure[0] === 0n && sure[1].length === 2 && buffers.every((it) => y.dataHash(it).equals(hash) && hasher.clone().update(it).count === 14n);
const same = final !== null && final.equals(root) && restored.root(2).equals(root) && session.root(2).equals(root) && files[0]!.equals(session.finish(2));
const hashed = order === 0 && streamed.length === 5 && streamed.every((it) => it.equals(hash)) && counts[1].equals(hash) && counts[0] === 7n;
const salted = file !== null && file.equals(files[1]!) && file.equals(session.finish(2, new Uint8Array(32)));
const listed = copies.every((it) => y.xorbHash(it).equals(root)) && last?.[1] === 200n && nodes.length === 1 && gaps.length === 1;
const proven = `${place} ${after} ${bytesOf}` === "0 1 0,7" && `${sides[0].length} ${sides[1].length} ${sides[2]}` === "0 1 1" &&
    proofs.every((it) => it.equals(proof)) && `${places}` === "0,7,0,207" && part?.length === 2 && checked.join() === "a chunk" && byRoot.numChunks === 1;
const indexed = `${added} ${numbers} ${entries.length} ${savedIndex.length} ${differing} ${differingBytes}` === "2 7, 1 1 0,1,0 0,7,0";
const more = taken && told[3] === 1 && read.length === 5 && !cut === (hash.remainder(4n) !== 0n) && others.length === 2 && !inner.equals(hash);
const cutFile = `${boundaries}` === `,7,${chunker.state}` && fileHashes[0] === 14n && fileHashes.slice(1).every((it) => it.toString() === fileHashes[1]!.toString()) &&
    ofFile.length === 2 && ofFile.every(([it, bytes]) => it.equals(hash) && bytes === 7);
console.log(
    same && indexed && cutFile && hashed && salted && listed && more && classes.length === 5 && provers.length === 3 && proven && blobbed && kinds.length === 9 && source !== null && fresh === 2 && start > 0n &&
        levels.length > 0 && parents >= 0 && point === null && `${first} ${rest[0]}`.length > 128,
);
