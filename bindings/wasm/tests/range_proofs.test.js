// Range proofs: what the vectors don't show. Streams that are checked, types of arguments, forms, and proofs that are altered.

import assert from "node:assert/strict";
import { setTimeout } from "node:timers/promises";
import * as errors from "../yurewha/index.js";
import { AREA } from "../yurewha/library.js";
import { Room } from "../yurewha/streams.js";
import { BYTES, chunksOf, dataOf, test, wrapped } from "./support.js";

const MAX = 2n ** 64n - 1n;
/** A number that is 0 in 32 bits. */
const TWO_TO_32 = 2n ** 32n;
const y = await errors.load(BYTES);
const FILE_HASH = "0497c2ffdb9b034977074a6a2fe7c2a9dcfc7cc0a4f98777ed580f0b8444090f";
const DATA = ["a chunk", "another", "and a third"].map((text) => Buffer.from(text));
const chunks = (it = y) => DATA.map((data) => [it.dataHash(data), data.length]);
const opened = (first, end) => y.RangeProof.fromChunks(chunks(), first, end).open(y.Hash.fromHex(FILE_HASH));
const hexes = (list) => Array.from(list, ([hash]) => hash.hex());
const nodes = (count) => chunksOf(y, { counted: { count, cutEvery: 4 } });

/** A file of chunks of many lengths, among them none, whose tree is kept. */
const FILE = { numbers: { first: 7, count: 60, lengths: [5, 0, 11, 300, 1] } };
const data = dataOf(FILE);
const tree = y.HashTree.fromChunks(chunksOf(y, FILE));
const rangeOf = (first, end) => tree.proof(first, end).open(tree.fileHash());

const counting = (length) => Uint8Array.from({ length }, (_, k) => k % 251);

/** What comes out of a stream of a range, given pieces; or the error that ends it, with what came before. */
async function passed(range, pieces, options) {
    const found = [];
    try {
        for await (const chunk of ReadableStream.from(pieces).pipeThrough(range.checking(options))) found.push(Buffer.from(chunk));
    } catch (error) {
        return [Buffer.concat(found), error];
    }
    return [Buffer.concat(found), null];
}

/** Bytes in pieces of some lengths, one after another. */
function* cut(bytes, lengths) {
    for (let at = 0, k = 0; at < bytes.length; at += lengths[k++ % lengths.length]) yield bytes.subarray(at, at + lengths[k % lengths.length]);
}

test("a stream passes on the chunks of a range, in whatever pieces the data comes", async () => {
    for (const [first, end] of [[0, 60], [3, 20], [20, 21], [1, 2], [0, 2], [5, 7]]) {
        const whole = Buffer.concat(data.slice(first, end));
        for (const lengths of [[1], [1000], [7, 1, 13], [1e6], [4, 0, 0, 9]]) {
            assert.deepEqual(await passed(rangeOf(first, end), [...cut(whole, lengths)]), [whole, null], `${first} ${end} ${lengths}`);
        }
    }
    const chunk = [];
    for await (const it of ReadableStream.from([Buffer.concat(DATA.slice(1))]).pipeThrough(opened(1, 3).checking())) chunk.push(`${Buffer.from(it)}`);
    assert.deepEqual(chunk, ["another", "and a third"]);
});

test("a chunk comes out of a stream once its last byte went in", async () => {
    const { readable, writable } = opened(1, 3).checking();
    const [reader, writer] = [readable.getReader(), writable.getWriter()];
    for (const chunk of DATA.slice(1)) {
        for (const piece of cut(chunk, [4])) void writer.write(piece);
        assert.equal(`${Buffer.from((await reader.read()).value)}`, `${chunk}`);
    }
    void writer.close();
    assert.equal((await reader.read()).done, true);
});

test("a stream passes on nothing that wasn't checked", async () => {
    const whole = Buffer.concat(data.slice(3, 20));
    const mismatch = ([, error]) => error instanceof errors.ProofMismatch && error instanceof errors.YurewhaError;
    for (let at = 0; at < whole.length; at += 5) {
        const wrong = Buffer.from(whole);
        wrong[at] ^= 1;
        const result = await passed(rangeOf(3, 20), [...cut(wrong, [64])]);
        assert.ok(mismatch(result) && result[0].equals(whole.subarray(0, result[0].length)) && result[0].length <= at, `${at}`);
    }
    for (let length = 0; length < whole.length; length += 7) {
        const result = await passed(rangeOf(3, 20), [whole.subarray(0, length)]);
        assert.ok(mismatch(result) && result[0].equals(whole.subarray(0, result[0].length)), `${length}`);
        assert.match(result[1].message, /^the data ends before chunk \d+ of the range is whole$/);
    }
    for (const more of [[whole, Buffer.from("x")], [Buffer.concat([whole, Buffer.from("x")])]]) {
        const result = await passed(rangeOf(3, 20), more);
        assert.ok(mismatch(result) && result[1].message === "there is more data than that of the range");
    }
    assert.ok(mismatch(await passed(rangeOf(3, 20), [Buffer.concat(data.slice(4, 21))])));
    for (const odd of ["text", null, [1], new ArrayBuffer(3)]) assert.ok((await passed(rangeOf(3, 20), [odd]))[1] instanceof TypeError);
    const range = rangeOf(3, 20);
    const stream = range.checking();
    range.free();
    const [, freed] = await passed({ checking: () => stream }, [whole]);
    assert.ok(freed instanceof errors.EmptyHandle);
});

test("data of any length is refused if a byte of it is wrong", async () => {
    for (const length of [1, 1024, 16_384, 65_535, 65_536, 65_537, AREA, 3_000_000]) {
        const right = Uint8Array.from({ length }, (_, k) => k % 251);
        const root = y.dataHash(right);
        const range = y.RangeProof.fromChunks([[root, length]], 0, 1).openRoot(root);
        assert.equal(range.check(0, right), 0n);
        assert.deepEqual(range.read(0, length, right), right);
        for (const at of new Set([0, length >> 1, length - 1])) {
            const wrong = right.slice();
            wrong[at] ^= 1;
            assert.deepEqual([range.check(0, wrong), range.read(0, length, wrong)], [null, null], `byte ${at} of ${length}`);
            const [found, error] = await passed(range, [wrong], { chunkLimit: length });
            assert.deepEqual([found.length, error], [0, new errors.ProofMismatch("the data of chunk 0 of the range isn't the file's")], `byte ${at} of ${length}`);
        }
    }
});

test("a stream takes chunks up to a limit, and keeps nothing of one that is longer by the proof's word", async () => {
    const refused = (chunk, length, limit) =>
        new errors.ProofMismatch(`by the proof, chunk ${chunk} of the range has ${length} bytes, more than chunkLimit, ${limit}`);
    const long = new Uint8Array((1 << 20) + 1).fill(7);
    for (const [length, options, limit] of [
        [1 << 20, undefined, 1 << 20], [1 << 20, {}, 1 << 20], [long.length, undefined, 1 << 20], [long.length, { chunkLimit: long.length }, long.length],
        [9, { chunkLimit: 9n }, 9], [10, { chunkLimit: 9n }, 9], [0, { chunkLimit: 0 }, 0],
    ]) {
        const whole = [data[0], long.subarray(0, length)];
        const proof = y.RangeProof.fromChunks(whole.map((it) => [y.dataHash(it), it.length]), 0, 2);
        const [found, error] = await passed(proof.openRoot(y.xorbHash(proof.chunks)), [Buffer.concat(whole)], options);
        const tooLong = whole.findIndex((it) => it.length > limit);
        if (tooLong < 0) assert.deepEqual([found, error], [Buffer.concat(whole), null], `${length}`);
        else assert.deepEqual([error, found.length <= whole[0].length], [refused(tooLong, whole[tooLong].length, limit), true]);
    }
    for (const size of [2 ** 40, MAX - 5n]) {
        const forged = y.HashTree.fromChunks([[y.Hash.randomFromSeed(1), size], [y.Hash.randomFromSeed(2), 5]]);
        const range = forged.proof(0, 1).open(forged.fileHash());
        let sent = 0;
        const endless = new ReadableStream({ pull: (controller) => (sent++, controller.enqueue(new Uint8Array(1000))) }, { highWaterMark: 0 });
        await assert.rejects(new Response(endless.pipeThrough(range.checking())).arrayBuffer(), refused(0, BigInt(size), 1 << 20));
        assert.ok(sent < 5, `${sent} pieces were taken`);
        const early = new errors.ProofMismatch("the data ends before chunk 0 of the range is whole");
        assert.deepEqual(await passed(range, [data[0]], { chunkLimit: MAX }), [Buffer.alloc(0), early], "there is no room for what doesn't come");
    }
    for (const chunkLimit of [1.5, "1", null]) assert.throws(() => rangeOf(0, 1).checking({ chunkLimit }), TypeError);
    assert.throws(() => rangeOf(0, 1).checking({ chunkLimit: -1 }), RangeError);
});

test("a stream keeps no piece, however short it is", async () => {
    const right = counting(3000);
    const root = y.dataHash(right);
    const range = y.RangeProof.fromChunks([[root, right.length]], 0, 1).openRoot(root);
    const { readable, writable } = range.checking();
    const [reader, writer] = [readable.getReader(), writable.getWriter()];
    const first = reader.read();
    const pieces = [];
    for (let at = 0; at < right.length - 1; at++) {
        const piece = right.slice(at, at + 1);
        pieces.push(new WeakRef(piece.buffer));
        await writer.write(piece);
    }
    const kept = () => pieces.filter((piece) => piece.deref()).length;
    for (let k = 0; k < 50 && kept() > 10; k++) {
        await setTimeout(10);
        globalThis.gc();
    }
    assert.ok(kept() <= 10, `${kept()} pieces are kept`);
    await writer.write(right.subarray(right.length - 1));
    assert.deepEqual((await first).value, right);
});

test("room for many short pieces is made a few times", () => {
    const [room, memories] = [new Room(3_000_000), new Set()];
    for (let left = 3000; left > 0; left--) {
        assert.equal(room.add(new Uint8Array(1000)).length, 0);
        memories.add(room.bytes.buffer);
    }
    assert.ok(room.isFull && memories.size < 10, `${memories.size} times`);
});

test("each of many chunks of a stream is checked", async () => {
    const many = Array.from({ length: 3000 }, (_, k) => Buffer.from(`${k} `));
    const proof = y.RangeProof.fromChunks(many.map((chunk) => [y.dataHash(chunk), chunk.length]), 0, many.length);
    const range = proof.openRoot(y.xorbHash(proof.chunks));
    const whole = Buffer.concat(many);
    assert.deepEqual(await passed(range, [whole]), [whole, null]);
    for (const chunk of [255, 256, 1000, 2999]) {
        const place = Number(range.begins(chunk));
        const wrong = Buffer.from(whole);
        wrong[place] ^= 1;
        const [found, error] = await passed(range, [wrong]);
        assert.ok(error instanceof errors.ProofMismatch && found.length <= place, `${chunk}`);
        assert.ok(found.equals(whole.subarray(0, found.length)));
        assert.equal(range.read(0, whole.length, wrong), null);
    }
});

test("a root as the node of an empty chunk shows nothing", async () => {
    const forged = y.RangeProof.fromFlat({ levels: [], nodes: [[tree.root, 0]] });
    for (const range of [forged.openRoot(tree.root), forged.open(tree.fileHash())]) {
        assert.deepEqual([range.check(0, new Uint8Array()), range.read(0, 0, new Uint8Array())], [null, null]);
        for (const pieces of [[], [new Uint8Array()]]) assert.ok((await passed(range, pieces))[1] instanceof errors.ProofMismatch);
    }
});

test("chunks that came out of a stream are the reader's own", async () => {
    const whole = Buffer.concat(DATA.slice(1));
    for (const lengths of [[whole.length], [DATA[1].length, DATA[2].length], [3]]) {
        const pieces = [...cut(whole, lengths)].map((piece) => Uint8Array.from(piece));
        const found = [];
        for await (const chunk of ReadableStream.from(pieces).pipeThrough(opened(1, 3).checking())) found.push(chunk);
        pieces.forEach((piece) => piece.fill(0));
        assert.deepEqual(found.map((chunk) => `${Buffer.from(chunk)}`), ["another", "and a third"], `${lengths}`);
    }
});

test("bytes that were read are the caller's own", () => {
    const both = Buffer.concat(DATA.slice(1));
    const found = opened(1, 3).read(7, 25, both);
    both.fill(0);
    y.dataHash(new Uint8Array(AREA / 4).fill(1));
    assert.deepEqual([`${Buffer.from(found)}`, found.buffer.byteLength], ["anotherand a third", 18]);
});

test("bytes are read of the data that was checked, not of what the caller has by then", async () => {
    const both = Buffer.concat(DATA.slice(1));
    // Another thread may change shared memory as soon as the module has checked its copy.
    const { yurewha: it } = await wrapped(BYTES, (exports) => ({
        ...exports,
        yurewha_opened_range_read: (...given) => {
            const status = exports.yurewha_opened_range_read(...given);
            both.fill(0);
            return status;
        },
    }));
    const range = it.RangeProof.fromChunks(chunks(it), 1, 3).open(it.Hash.fromHex(FILE_HASH));
    assert.equal(`${Buffer.from(range.read(12, 17, both))}`, "erand");
});

test("data is checked chunk by chunk, and bytes are read of all of it", () => {
    const range = y.RangeProof.fromChunks(chunks(y), 1, 3).open(y.Hash.fromHex(FILE_HASH));
    assert.deepEqual([range.check(0, DATA[1]), range.check(1, DATA[2]), range.fileSize, range.numChunks], [7n, 14n, 25n, 2]);
    for (const [chunk, given] of [[0, DATA[0]], [1, DATA[1]], [0, DATA[1].subarray(1)], [2, DATA[2]], [MAX, DATA[2]], [TWO_TO_32, DATA[1]], [0, new Uint8Array()]]) {
        assert.equal(range.check(chunk, given), null);
    }
    assert.deepEqual([0, 1].map((chunk) => [range.begins(chunk), range.ends(chunk)]), [[7n, 14n], [14n, 25n]]);
    for (const chunk of [2, TWO_TO_32, TWO_TO_32 + 1n, MAX]) assert.deepEqual([range.begins(chunk), range.ends(chunk)], [null, null]);
    const both = Buffer.concat(DATA.slice(1));
    assert.equal(`${Buffer.from(range.read(12, 17, both))}`, "erand");
    const places = [[0, 2], [8, 26], [10, 8], [8, MAX], [8, TWO_TO_32 + 10n], [TWO_TO_32 + 8n, TWO_TO_32 + 10n]];
    const others = [both.subarray(1), Buffer.concat([both, both]), new Uint8Array()];
    const reads = [...places.map(([from, to]) => [from, to, both]), ...others.map((other) => [8, 10, other])];
    for (const [from, to, given] of reads) assert.equal(range.read(from, to, given), null);
    assert.deepEqual(range.read(25, 25, both), new Uint8Array());
    const copy = range.read(7, 14, both);
    both.fill(0);
    assert.equal(`${Buffer.from(copy)}`, "another");
});

test("what can't be overlooked throws where the older calls return null", () => {
    const mismatch = (message) => new errors.ProofMismatch(message);
    assert.equal(opened(0, 1).checkOrThrow(0, DATA[0]), 0n);
    const range = y.RangeProof.fromChunks(chunks(y), 1, 3).open(y.Hash.fromHex(FILE_HASH));
    const both = Buffer.concat(DATA.slice(1));
    assert.deepEqual([range.checkOrThrow(0, DATA[1]), range.checkOrThrow(1n, DATA[2])], [7n, 14n]);
    assert.equal(`${Buffer.from(range.readOrThrow(12, 17n, both))}`, "erand");
    assert.deepEqual(range.readOrThrow(25, 25, both), new Uint8Array());
    for (const [chunk, given] of [[0, DATA[0]], [0, DATA[1].subarray(1)], [1, DATA[1]], [1n, new Uint8Array()]]) {
        assert.throws(() => range.checkOrThrow(chunk, given), mismatch(`this isn't the data of chunk ${chunk} of the range`));
    }
    for (const chunk of [2, TWO_TO_32, MAX]) assert.throws(() => range.checkOrThrow(chunk, DATA[1]), new errors.InvalidArguments(`the range has no chunk ${chunk}`));
    for (const [from, to] of [[0, 2], [8, 26], [10, 8], [8, MAX], [6, 6], [26, 26]]) {
        const message = `the proof is of the bytes from 7 up to 25, and not of those from ${from} up to ${to}`;
        assert.throws(() => range.readOrThrow(from, to, both), mismatch(message));
    }
    for (const [from, to] of [[8, 10], [7, 25], [7, 7], [25, 25]]) {
        assert.throws(() => range.readOrThrow(from, to, both.subarray(1)), mismatch("the range has 18 bytes, and the data 17"));
        assert.throws(() => range.readOrThrow(from, to, both.map((byte) => byte ^ 1)), mismatch("this isn't the data of the range"));
    }
    range.free();
    for (const call of [() => range.checkOrThrow(0, DATA[1]), () => range.readOrThrow(8, 10, both)]) assert.throws(call, errors.EmptyHandle);
});

test("data of a range may be an ArrayBuffer", () => {
    const range = opened(1, 3);
    const [first, both] = [DATA[1], Buffer.concat(DATA.slice(1))].map((given) => Uint8Array.from(given).buffer);
    assert.deepEqual([range.check(0, first), range.check(1, first), range.checkOrThrow(0, first)], [7n, null, 7n]);
    for (const found of [range.read(12, 17, both), range.readOrThrow(12, 17, both)]) assert.equal(`${Buffer.from(found)}`, "erand");
    assert.throws(() => range.readOrThrow(12, 17, first), new errors.ProofMismatch("the range has 18 bytes, and the data 7"));
});

test("a chunk that is longer than the area of calls is read", () => {
    const long = Uint8Array.from({ length: 3_000_000 }, (_, k) => k % 251);
    const hash = y.dataHash(long);
    const range = y.RangeProof.fromChunks([[hash, long.length]], 0, 1).openRoot(hash);
    assert.deepEqual(range.read(1_000_000, 2_500_000, long), long.slice(1_000_000, 2_500_000));
});

test("a proof is opened with the hash of its list alone", () => {
    const proof = y.RangeProof.fromChunks(chunks(), 1, 2);
    const salt = y.Hash.randomFromSeed(4).bytes;
    const salted = y.fileHash(chunks(), salt);
    assert.equal(salted.hex(), "5f5df6327d4bfe5fc6a4a47bab97d7457b550e0d38f3b44a43d6eaef6618f60e");
    const root = y.xorbHash(chunks());
    const file = y.Hash.fromHex(FILE_HASH);
    for (const range of [proof.open(file), proof.open(file, new Uint8Array(32)), proof.open(salted, salt), proof.openRoot(root)]) {
        assert.equal(range.begins(0), 7n);
        assert.ok(range.proof.equals(proof));
    }
    const refused = new errors.ProofMismatch("the proof doesn't show this hash");
    for (const call of [
        () => proof.open(root), () => proof.open(salted), () => proof.open(file, salt), () => proof.openRoot(file),
        () => proof.open(new y.Hash()), () => y.RangeProof.fromChunks([[new y.Hash(), 5]], 0, 1).openRoot(new y.Hash()),
    ]) {
        assert.throws(call, refused);
    }
});

test("a proof reads back from its forms, and tells its parts", () => {
    const list = nodes(28);
    for (const [first, end] of [[5, 6], [10, 22], [27, 28], [0, 28]]) {
        const proof = y.RangeProof.fromChunks(list, first, end);
        const json = JSON.stringify(proof);
        const others = [y.RangeProof.fromJSON(json), y.RangeProof.fromJSON(Buffer.from(json)), new y.RangeProof(proof.bytes), y.RangeProof.fromFlat(proof.toFlat())];
        for (const other of others) assert.ok(other.equals(proof) && proof.equals(other) && other.jsonText() === json);
        const { levels, nodes: flat } = proof.toFlat();
        const sides = levels.map((_, level) => [hexes(proof.left(level)), hexes(proof.right(level))]);
        assert.deepEqual(sides.map(([left, right]) => [left.length, right.length]), levels);
        assert.deepEqual(hexes(proof.chunks), hexes(list.slice(first, end)));
        const lefts = sides.flatMap(([left]) => left);
        assert.deepEqual([...lefts, ...hexes(proof.chunks), ...sides.reverse().flatMap(([, right]) => right)], hexes(flat));
        for (const level of [levels.length, MAX]) assert.deepEqual([proof.left(level).length, proof.right(level).length], [0, 0]);
        assert.equal(proof.bytes.length, 1 + 2 * levels.length + 40 * flat.length);
    }
    const [one, two] = [[5, 6], [5, 7]].map((range) => y.RangeProof.fromChunks(list, ...range));
    assert.ok(!one.equals(two));
    const { levels, nodes: [[hash, size], ...rest] } = one.toFlat();
    for (const first of [[hash, size + 1n], [new y.Hash(), size]]) assert.ok(!one.equals(y.RangeProof.fromFlat({ levels, nodes: [first, ...rest] })));
    const [onLeft, onRight] = [[1, 0], [0, 1]].map((counts) => y.RangeProof.fromFlat({ levels: [counts], nodes: nodes(2) }));
    assert.ok(!onLeft.equals(onRight));
    const [part, whole] = [1, 2].map((count) => y.RangeProof.fromFlat({ levels: [], nodes: nodes(count) }));
    for (const longer of [whole, y.RangeProof.fromFlat({ levels: [[0, 0]], nodes: nodes(1) })]) {
        assert.deepEqual([part.equals(longer), longer.equals(part)], [false, false]);
    }
    const bytes = one.bytes;
    const copied = new y.RangeProof(bytes);
    bytes.fill(0);
    assert.ok(copied.equals(one));
});

test("a proof of many chunks is made, written and read back", () => {
    const count = 20_000;
    const list = y.Chunks.from(nodes(count));
    const proof = y.RangeProof.fromChunks(list, 3, count - 2);
    assert.deepEqual(proof.chunks.bytes, list.slice(3, -2).bytes);
    assert.ok(y.RangeProof.fromJSON(proof.jsonText()).equals(proof) && new y.RangeProof(proof.bytes).equals(proof));
    const range = proof.openRoot(y.xorbHash(list));
    assert.deepEqual([range.numChunks, range.begins(0), range.ends(count - 6)], [count - 5, 3n, BigInt(count - 2)]);
});

test("a proof of 64 levels with 8 nodes on each side is written and read back", () => {
    const levels = Array(64).fill([8, 8]);
    const proof = y.RangeProof.fromFlat({ levels, nodes: nodes(64 * 16 + 1) });
    for (const other of [y.RangeProof.fromJSON(proof.jsonText()), new y.RangeProof(proof.bytes)]) {
        assert.ok(other.equals(proof));
        assert.deepEqual([other.toFlat().levels, other.chunks.length, other.left(63).length, other.right(63).length], [levels, 1, 8, 8]);
    }
});

test("packed bytes and lists that are none of a proof are refused", () => {
    const { bytes } = y.RangeProof.fromChunks(nodes(28), 5, 6);
    const packed = "a packed proof must be a number of levels, two counts for each, and 40 bytes for each node, got a Uint8Array of";
    const cut = [[3, bytes.subarray(0, 3)], [4, bytes.subarray(0, bytes.length - 1)]];
    for (const [rule, given] of [[1, []], ...cut, [4, [0, 1]], [3, [3, 1, 1]]]) {
        const refused = new errors.InvalidProof(rule, `${packed} ${given.length} bytes`);
        assert.throws(() => new y.RangeProof(Uint8Array.from(given)), refused);
    }
    const node = new Uint8Array(40);
    const broken = (rule) => (error) => error instanceof errors.InvalidProof && error.rule === rule && error.message.startsWith(`rule ${rule}: `);
    const table = [[5, [0]], [5, [1, 1, 0, ...node]], [5, [1, 255, 255, ...node]], [6, [65, ...Array(130).fill(0), ...node]], [7, [1, 9, 0, ...Array(400).fill(0)]]];
    for (const [rule, given] of table) assert.throws(() => new y.RangeProof(Uint8Array.from(given)), broken(rule));
    const great = [[new y.Hash(), MAX], [new y.Hash(), 1]];
    const many = [...nodes(100_000), ...great];
    for (const list of [great, many]) assert.throws(() => y.RangeProof.fromFlat({ levels: [], nodes: list }), broken(8));
    assert.throws(() => new y.RangeProof(Uint8Array.from([0, ...y.Chunks.from(many).bytes])), broken(8));
    for (const levels of [[[MAX, 1]], [[TWO_TO_32, 0]]]) assert.throws(() => y.RangeProof.fromFlat({ levels, nodes: great }), broken(5));
    assert.throws(() => y.RangeProof.fromJSON('{"chunks":[],"levels":[]}'), new errors.InvalidProof(5, "rule 5: there is no chunk"));
    assert.throws(() => y.RangeProof.fromJSON("{"), new errors.InvalidText('the text must be JSON, got "{"'));
});

test("lists of a proof are checked without making JSON of them", async () => {
    const { yurewha: it } = await wrapped(BYTES, (exports) => ({
        ...exports,
        yurewha_range_proof_to_json: () => assert.fail("JSON is made"),
    }));
    const { bytes } = y.RangeProof.fromChunks(nodes(28), 5, 6);
    const proof = new it.RangeProof(bytes);
    assert.deepEqual(it.RangeProof.fromFlat(proof.toFlat()).bytes, bytes);
    assert.throws(() => it.RangeProof.fromFlat({ levels: [], nodes: [] }), errors.InvalidProof);
});

test("deep and long texts are refused without a trap", () => {
    for (const text of ["[".repeat(1e6), '{"a":'.repeat(1e6)]) assert.throws(() => y.RangeProof.fromJSON(text), errors.InvalidText);
    assert.throws(() => y.RangeProof.fromJSON(JSON.stringify("a".repeat(1e7))), errors.InvalidProof);
});

test("a range that the list lacks has no proof", () => {
    const list = y.Chunks.from(nodes(3));
    const kept = y.HashTree.fromChunks(list);
    for (const [first, end] of [[0, 0], [2, 1], [0, 4], [3, 4], [0, MAX], [MAX, 0], [MAX, MAX]]) {
        assert.throws(() => y.RangeProof.fromChunks(list, first, end), errors.InvalidArguments);
        assert.throws(() => kept.proof(first, end), errors.InvalidArguments);
        assert.equal(kept.bytesOf(first, end), null);
    }
    const great = [[new y.Hash(), MAX], [new y.Hash(), 1]];
    assert.throws(() => y.HashTree.fromChunks(great), errors.SizeOverflow);
    assert.throws(() => y.RangeProof.fromChunks(great, 0, 1), errors.SizeOverflow);
    assert.throws(() => y.RangeProof.fromChunks(great, 0, 3), errors.InvalidArguments);
    assert.deepEqual([kept.chunksAt(1, 2), kept.chunksAt(1, MAX), kept.chunksAt(3, 4), kept.chunksAt(2, 1)], [[1, 2], [1, 3], null, null]);
    assert.deepEqual(kept.bytesOf(1, 3), [1n, 3n]);
});

test("arguments have their types", async () => {
    const other = await errors.load(BYTES);
    const proof = y.RangeProof.fromChunks(chunks(), 1, 2);
    const range = opened(1, 2);
    for (const value of [1.5, 2 ** 53, "1", null, undefined, {}, true]) {
        for (const call of [
            () => y.RangeProof.fromChunks(chunks(), value, 2), () => y.RangeProof.fromChunks(chunks(), 1, value), () => tree.proof(value, 2),
            () => tree.bytesOf(1, value), () => tree.chunksAt(value, 2), () => proof.left(value), () => proof.right(value), () => range.begins(value),
            () => range.ends(value), () => range.check(value, DATA[1]), () => range.read(value, 8, DATA[1]), () => range.read(7, value, DATA[1]),
        ]) {
            assert.throws(call, TypeError, `${call}`);
        }
    }
    for (const value of [-1, MAX + 1n]) assert.throws(() => range.begins(value), RangeError);
    for (const value of [null, "another", [1], {}, new ArrayBuffer(7)]) {
        const ofData = [() => range.check(0, value), () => range.checkOrThrow(0, value), () => range.read(7, 8, value), () => range.readOrThrow(7, 8, value)];
        for (const call of value instanceof ArrayBuffer ? [] : ofData) assert.throws(call, TypeError);
        assert.throws(() => y.RangeProof.fromFlat({ levels: [], nodes: value }), TypeError);
        if (typeof value !== "string") assert.throws(() => y.RangeProof.fromJSON(value), TypeError);
        assert.throws(() => new y.RangeProof(value), TypeError);
        assert.throws(() => proof.open(value), TypeError);
        assert.throws(() => proof.open(y.Hash.fromHex(FILE_HASH), value), TypeError);
        assert.throws(() => tree.fileHash(value), TypeError);
        assert.throws(() => proof.openRoot(value), TypeError);
        assert.throws(() => proof.equals(value), { name: "TypeError", message: /^the other must be a RangeProof, got / });
    }
    // They have bytes, too.
    for (const value of [new y.Hash(), new y.Chunks()]) {
        assert.throws(() => proof.equals(value), new TypeError("the other must be a RangeProof, got an object"));
    }
    assert.throws(() => proof.open(other.Hash.fromHex(FILE_HASH)), TypeError);
    assert.throws(() => new y.OpenedRange(), TypeError);
    assert.throws(() => new y.HashTree(), TypeError);
    assert.throws(() => proof.open(y.Hash.fromHex(FILE_HASH), new Uint8Array(31)), errors.InvalidArguments);
    assert.throws(() => tree.fileHash(new Uint8Array(33)), errors.InvalidArguments);
    for (const levels of [null, [1], [[1]], [[1, 2, 3]]]) assert.throws(() => y.RangeProof.fromFlat({ levels, nodes: [] }), TypeError);
});

test("a text of more bytes than the limit isn't read", async () => {
    let calls = 0;
    const { yurewha } = await wrapped(BYTES, (exports) => ({
        ...exports,
        yurewha_range_proof_from_json: (...given) => (calls++, exports.yurewha_range_proof_from_json(...given)),
    }));
    const { RangeProof } = yurewha;
    const proof = RangeProof.fromChunks([[new yurewha.Hash(), 7]], 0, 1);
    const text = proof.jsonText();
    const ofLength = (length) => text.padEnd(length);
    for (const [given, options] of [
        [text, {}], [ofLength(2 ** 24)], [ofLength(2 ** 24 + 1), { limit: 2 ** 24 + 1 }], [text, { limit: text.length }], [text, { limit: MAX }],
    ]) {
        for (const it of [given, Buffer.from(given)]) assert.ok(RangeProof.fromJSON(it, options).equals(proof));
    }
    calls = 0;
    // A letter of two bytes counts twice.
    const wide = text.replace("{", '{"\u00e9":0,');
    const table = [[ofLength(2 ** 24 + 1), 2 ** 24], [text, text.length - 1], [text, 0], [wide, wide.length]];
    for (const [given, limit] of table) {
        const message = `the JSON of a range proof must have at most ${limit} bytes, got a Uint8Array of ${Buffer.byteLength(given)} bytes`;
        for (const it of [given, Buffer.from(given)]) {
            assert.throws(() => RangeProof.fromJSON(it, limit === 2 ** 24 ? undefined : { limit }), new errors.ProofTooLong(message));
        }
    }
    assert.equal(calls, 0);
    for (const limit of [null, "5", 1.5]) assert.throws(() => RangeProof.fromJSON(text, { limit }), TypeError);
    assert.throws(() => RangeProof.fromJSON(text, { limit: -1 }), RangeError);
});
