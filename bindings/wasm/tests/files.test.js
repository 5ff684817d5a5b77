// Files: where they are cut, and their hashes. tests/model/chunker.py gave the cuts and hashes here.

import assert from "node:assert/strict";
import { openAsBlob, readFileSync, truncateSync, writeFileSync } from "node:fs";
import { mkdtemp, rm } from "node:fs/promises";
import { tmpdir } from "node:os";
import { join } from "node:path";
import { setTimeout } from "node:timers/promises";
import * as errors from "../yurewha/index.js";
import { STATUS } from "../yurewha/errors.js";
import { AREA } from "../yurewha/library.js";
import { BYTES, ROOT, mixed, test, wrapped } from "./support.js";

const y = await errors.load(BYTES);
const salt = new Uint8Array(32).fill(3);
const counting = (count) => Uint8Array.from({ length: count }, (_, k) => k % 251);
const zeros = (count) => new Uint8Array(count);
/** Bytes with a candidate for a cut at every third place. */
const candidates = (count) => Uint8Array.from({ length: count }, (_, k) => [0, 148, 143][k % 3]);
const MIXED = mixed(1_000_000);
const CUTS = [
    84493, 134421, 144853, 243318, 271793, 336457, 467529, 494581, 582000, 596735, 616815, 653164, 678202, 724510, 815591, 827760, 958832, 991092,
    1000000,
];

/** Data, where the model cuts it, and its file hash by the model. */
const FILES = [
    [counting(0), [], "0000000000000000000000000000000000000000000000000000000000000000"],
    [counting(1), [1], "41f5539a8d8bdd7509fd9a319268aca47ea6d40b33394170182e09fa86345c7e"],
    [counting(63), [63], "22ec62f8116a3ce7367cdcf77a86ddd2966b2440430d749092dbd7961f8577f3"],
    [counting(64), [64], "b63b82d9c6106c763afe9b27bfea78337f263d4b3812e5168b09bfe64716e8ee"],
    [counting(65), [65], "56061e713b571f2e09c11166cb8dca9f47b7c11bbd6ae825601a4c8334893b57"],
    [counting(8191), [8191], "af3035a271596fd3463aece07db2041dd85699cab4e27e1125b17e966a1b3ef3"],
    [counting(8192), [8192], "be6024a979c586dbcbc8d33a23023a003ab8d403f765562bc8435293a64aa8a4"],
    [counting(8193), [8193], "84eef0e3e9a081d05dce64ac6f67012e3b24b70fb48845ae665bc7848aebfe9a"],
    [counting(131071), [131071], "89264f4a84b5d4f14272acb7114b053c7b1080efc13e45e8025a4ec02a8db309"],
    [counting(131072), [131072], "c591135b587d04a52721338102602e8731a4e5b967af004d0b845c81e02c5a2b"],
    [counting(131073), [131072, 131073], "429ffffa77fb8eb03c0ff397e414eb0d0575785296b105fda3a2ceeab532c575"],
    [counting(139265), [131072, 139265], "e46493f3aeb6a4c6c356bcac1a12b046e9452615e1617b5f6f3d26210a9db6e0"],
    [counting(262145), [131072, 262144, 262145], "981d364485f8c2ed8cb03eb2cb396403c75223127e974c7d987beae7b0b7476a"],
    [zeros(131071), [131071], "72f8496f548b319d8624c1c76e8520b8776a2cbea5fceeeea7fcdb18860ca407"],
    [zeros(131072), [131072], "7a7c18448d7ae35cc61c072281981c565fedb8a079b42c6ef4a0c846bb78c50d"],
    [zeros(139265), [131072, 139265], "6e8fccd46d6015da62c551b09d9ceb3c21c1a3c631634049f6e1bef655f86990"],
    [candidates(8192), [8192], "df519fe634aaaabdbb99711f4e4365b0d40e324695f1ecd4845ebda446af27cb"],
    [candidates(8193), [8193], "96078eb0ea6735c002a241fa5f6da0b1fe48c59fa4fcbdac8f2e9c5398f77fc0"],
    [candidates(8194), [8193, 8194], "2dfc2c3572ca6097513be005e204766e59ee146748c5cc9e995605443c447057"],
    [candidates(20000), [8193, 16386, 20000], "981ed280a6888734b9595fda2f8ebb365de811d54fcd9d763971e52058851cb5"],
    [MIXED, CUTS, "3d17b2d7d64a0e011b6717a52d9a16bd2c3f05b743fa8adf52a7d75dafab6d89"],
];
const MIXED_HASH = FILES.at(-1)[2];

function* piecesOf(data, length) {
    for (let at = 0; at < data.length; at += length) yield data.slice(at, at + length);
}
/** The lengths of pieces in which a file is taken. */
const lengthsFor = ({ length }) => [...(length < 10_000 ? [1] : []), 4097, 65_537, 131_072, Math.max(length, 1)];

/** Where a chunker cuts pieces. The last chunk ends with the data. */
function cutsOf(pieces) {
    const chunker = new y.Chunker();
    const cuts = [];
    let place = 0;
    for (const piece of pieces) {
        let at = 0;
        for (let end; (end = chunker.nextBoundary(piece.subarray(at))) !== undefined; ) cuts.push(place + (at += end));
        place += piece.length;
    }
    return chunker.taken > 0 ? [...cuts, place] : cuts;
}
async function all(chunks) {
    const found = [];
    for await (const [hash, size] of chunks) found.push([`${hash}`, size]);
    return found;
}
/** The chunks of data between cuts, each with its hash as text. */
const between = (data, cuts) => cuts.map((end, k) => [`${y.dataHash(data.subarray(cuts[k - 1] ?? 0, end))}`, end - (cuts[k - 1] ?? 0)]);

test("a file has the model's chunks and hash, in whatever pieces it comes", async () => {
    for (const [data, cuts, hash] of FILES) {
        const chunks = between(data, cuts);
        const list = chunks.map(([hex, size]) => [y.Hash.fromHex(hex), size]);
        for (const length of lengthsFor(data)) {
            const [pieces, told] = [() => piecesOf(data, length), `${data.length} bytes in pieces of ${length}`];
            const hasher = new y.FileHasher();
            for (const piece of pieces()) hasher.update(piece);
            assert.deepEqual([hasher.size, hasher.fileHash().hex(), hasher.hash.hex()], [BigInt(data.length), hash, hash], told);
            assert.deepEqual([hasher.root(), hasher.fileHash(salt)], [y.xorbHash(list), y.fileHash(list, salt)], told);
            hasher.free();
            assert.deepEqual(cutsOf(pieces()), cuts, told);
            assert.deepEqual(await all(y.chunksOf(pieces())), chunks, told);
            assert.deepEqual(await all(y.hashCuts(ReadableStream.from(pieces()))), chunks, told);
            assert.equal(`${await y.hashFile(ReadableStream.from(pieces()))}`, hash, told);
        }
        for (const blob of [new Blob([data]), new File([data], "name")]) assert.equal(`${await y.hashBlob(blob)}`, hash, `${data.length} bytes`);
        const given = salt.slice();
        const salted = y.hashFile(new Blob([data]), { salt: given });
        given.fill(0);
        assert.deepEqual(await salted, y.fileHash(list, salt), "the salt is that of the call");
    }
});

test("a chunker takes no more than the end of the chunk, and its copies are apart", () => {
    const chunker = new y.Chunker();
    assert.deepEqual([chunker.nextBoundary(MIXED), chunker.taken], [CUTS[0], 0]);
    assert.deepEqual([chunker.nextBoundary(MIXED.subarray(CUTS[0], CUTS[1] - 1)), chunker.taken], [undefined, CUTS[1] - 1 - CUTS[0]]);
    const copy = chunker.clone();
    assert.deepEqual([chunker.nextBoundary(MIXED.subarray(CUTS[1] - 1)), chunker.taken, copy.taken], [1, 0, CUTS[1] - 1 - CUTS[0]]);
    assert.equal(copy.nextBoundary(MIXED.slice(CUTS[1] - 1).buffer), 1);
    assert.equal(chunker.nextBoundary(new Uint8Array()), undefined);
    assert.deepStrictEqual(copy, new y.Chunker());
    copy.state.fill(1);
    assert.equal(copy.taken, 0);
});

test("a chunker keeps all bytes of the state that the header has", async () => {
    const members = ["size_t size", "uint64_t gear"];
    const written = counting(8 * members.length);
    const seen = [];
    const header = readFileSync(new URL("bindings/include/yurewha.h", ROOT), "utf8");
    assert.ok(header.includes(`struct yurewha_chunker {\n    ${members.join(";\n    ")};\n}`));
    const { yurewha } = await wrapped(BYTES, (exports) => {
        const stateAt = (at) => new Uint8Array(exports.memory.buffer, at, written.length);
        return {
            ...exports,
            yurewha_chunker_begin: (at) => stateAt(at).set(written),
            yurewha_chunker_taken: (at) => (seen.push(stateAt(at).slice()), 0n),
        };
    });
    const chunker = new yurewha.Chunker();
    yurewha.dataHash(new Uint8Array(AREA / 2));
    assert.deepEqual([chunker.taken, chunker.state, ...seen], [0, written, written]);
});

test("a file's hasher goes on after it was asked, and takes pieces longer than the area of calls", () => {
    const hasher = new y.FileHasher();
    assert.deepEqual([hasher.size, hasher.root(), hasher.fileHash(), hasher.fileHash(salt)], [0n, ...Array(3).fill(new y.Hash())]);
    assert.equal(hasher.update(MIXED.subarray(0, 8191)), hasher);
    assert.deepEqual(hasher.root(), y.dataHash(MIXED.subarray(0, 8191)));
    assert.equal(hasher.update(MIXED.slice(8191).buffer).hash.hex(), MIXED_HASH);
    hasher.update(zeros(2 * AREA));
    assert.equal(hasher.size, BigInt(MIXED.length + 2 * AREA));
    for (const data of ["text", null, [1], new Uint16Array(2)]) assert.throws(() => hasher.update(data), TypeError);
    assert.throws(() => hasher.fileHash(new Uint8Array(31)), new errors.InvalidArguments("a salt must have 32 bytes, got a Uint8Array of 31 bytes"));
    assert.equal(hasher.size, BigInt(MIXED.length + 2 * AREA));
});

test("a piece is taken whole or not at all", async () => {
    for (const [kind, name, count] of [["FileHasher", "yurewha_file_hasher_update", "size"], ["Hasher", "yurewha_hasher_update", "count"]]) {
        for (let refused = 1; refused < 6; refused++) {
            let calls = 0;
            const { yurewha } = await wrapped(BYTES, (exports) => ({
                ...exports,
                [name]: (...given) => (++calls === refused ? STATUS.MEMORY : exports[name](...given)),
            }));
            const hasher = new yurewha[kind]();
            try {
                hasher.update(zeros(2 * AREA));
                assert.equal(hasher[count], BigInt(2 * AREA));
            } catch (error) {
                assert.deepEqual([error.constructor, hasher[count]], [errors.OutOfMemory, 0n], `${kind} ${refused}`);
            }
        }
    }
});

/** An instance that notes the lengths of the pieces which its hashers of files get, and how many of these are alive. */
async function noted() {
    const seen = { lengths: [], alive: 0 };
    const { yurewha } = await wrapped(BYTES, (exports) => ({
        ...exports,
        yurewha_file_hasher_new: (made) => (seen.alive++, exports.yurewha_file_hasher_new(made)),
        yurewha_file_hasher_update: (...given) => (seen.lengths.push(Number(given[2])), exports.yurewha_file_hasher_update(...given)),
        yurewha_file_hasher_free: (handle) => (seen.alive--, exports.yurewha_file_hasher_free(handle)),
    }));
    return { it: yurewha, seen };
}

test("short pieces of a file go to the module in long ones, and long ones in parts", async () => {
    const { it, seen } = await noted();
    assert.equal(`${await it.hashFile(piecesOf(MIXED, 100))}`, MIXED_HASH);
    assert.ok(seen.lengths.length < 20, `${seen.lengths.length} calls`);
    seen.lengths = [];
    assert.equal(`${await it.hashFile([MIXED])}`, MIXED_HASH);
    assert.deepEqual([Math.max(...seen.lengths), seen.alive], [AREA / 2, 0]);
});

test("the progress of a file is told after each piece, and an error of the caller's ends it", async () => {
    const { it, seen } = await noted();
    const told = [];
    // What it returns is nothing to the call.
    const hash = await it.hashFile(piecesOf(MIXED, 300_000), { onProgress: (count) => told.push(count) });
    assert.deepEqual([told, `${hash}`], [[300_000, 600_000, 900_000, 1_000_000], MIXED_HASH]);
    const failing = () => {
        throw new Error("of the caller");
    };
    await assert.rejects(it.hashFile([MIXED], { onProgress: failing }), new Error("of the caller"));
    await assert.rejects(it.hashFile(["text"]), TypeError);
    assert.equal(seen.alive, 0);
});

test("a file is hashed until its signal is aborted, also while its source doesn't answer", async () => {
    const { it, seen } = await noted();
    const [reason, listeners] = [new Error("enough"), new Set()];
    const signalOf = (controller) => {
        const { signal } = controller;
        signal.addEventListener = (kind, listener) => (listeners.add(listener), EventTarget.prototype.addEventListener.call(signal, kind, listener));
        signal.removeEventListener = (kind, listener) => (listeners.delete(listener), EventTarget.prototype.removeEventListener.call(signal, kind, listener));
        return signal;
    };
    await assert.rejects(it.hashFile([MIXED], { signal: AbortSignal.abort(reason) }), reason);
    assert.deepEqual(seen.lengths, []);
    const silent = [() => new ReadableStream(), () => ({ [Symbol.asyncIterator]: () => ({ next: () => new Promise(() => {}) }) })];
    for (const source of silent) {
        const controller = new AbortController();
        const hash = it.hashFile(source(), { signal: signalOf(controller) });
        await setTimeout(5);
        controller.abort(reason);
        assert.equal(await Promise.race([hash.catch((error) => error), setTimeout(20_000, "it waits", { ref: false })]), reason);
    }
    const after = new AbortController();
    assert.equal(`${await it.hashFile(piecesOf(MIXED, 70_000), { signal: signalOf(after) })}`, MIXED_HASH);
    after.abort(reason);
    assert.deepEqual([listeners.size, seen.alive], [0, 0]);
});

test("what isn't a way to hash a file is refused", async () => {
    const table = [
        [{ salt: new Uint8Array(31) }, new errors.InvalidArguments("a salt must have 32 bytes, got a Uint8Array of 31 bytes")],
        [{ salt: "salt" }, new TypeError('a salt must be a Uint8Array, got "salt"')],
        [{ salt: null }, new TypeError("a salt must be a Uint8Array, got null")],
        [{ signal: null }, new TypeError("a signal must be an AbortSignal, got null")],
        [{ onProgress: null }, new TypeError("onProgress must be a function, got null")],
        [{ signal: 5 }, new TypeError("a signal must be an AbortSignal, got 5")],
        [{ onProgress: {} }, new TypeError("onProgress must be a function, got an object")],
    ];
    for (const [options, error] of table) for (const call of [y.hashFile, y.hashBlob]) await assert.rejects(call(new Blob(), options), error);
    for (const [value, got] of [[[MIXED], "an array"], ["name", '"name"'], [new Response("").body, "an object"]]) {
        await assert.rejects(y.hashBlob(value), new TypeError(`a file must be a Blob or a File, got ${got}`));
    }
});

test("a file that changes while it is read has no hash", async () => {
    const changed = (file) => Object.assign(file, { stream: () => new Blob([MIXED.subarray(0, 5)]).stream() });
    for (const length of [4, 6]) {
        for (const [file, name] of [[new File([zeros(length)], "its name"), "its name"], [new Blob([zeros(length)]), "a Blob"]]) {
            await assert.rejects(y.hashFile(changed(file)), new Error(`${name} has ${length} bytes, and 5 came`));
        }
    }
    const folder = await mkdtemp(join(tmpdir(), "yurewha-"));
    try {
        const path = join(folder, "file");
        writeFileSync(path, MIXED);
        const blob = await openAsBlob(path);
        assert.equal(`${await y.hashBlob(blob)}`, MIXED_HASH);
        await assert.rejects(y.hashBlob(blob, { onProgress: () => truncateSync(path, 999_999) }));
    } finally {
        await rm(folder, { recursive: true });
    }
});

test("a file's chunks come before it is read further, from pieces that change afterwards", async () => {
    let given = 0;
    const piece = new Uint8Array(600_000);
    const stream = new ReadableStream({ pull: (controller) => (given++, piece.set(MIXED.subarray(0, 600_000)), controller.enqueue(piece)) }, { highWaterMark: 0 });
    const chunks = y.chunksOf(stream);
    for (const wanted of between(MIXED, CUTS.slice(0, 10))) {
        const { value: [hash, size] } = await chunks.next();
        assert.deepEqual([`${hash}`, size, given], [...wanted, 1]);
        piece.fill(0);
    }
    await chunks.return();
});
