// What the vectors don't show: types of arguments, forms of lists, each error, large inputs, and the sources of load().

import assert from "node:assert/strict";
import { execFileSync } from "node:child_process";
import { once } from "node:events";
import { readFileSync } from "node:fs";
import { createServer } from "node:http";
import { Readable } from "node:stream";
import { fileURLToPath } from "node:url";
import { format } from "node:util";
import { runInNewContext } from "node:vm";
import * as errors from "../yurewha/index.js";
import { STATUS, errorOf } from "../yurewha/errors.js";
import { AREA } from "../yurewha/library.js";
import { BYTES, ROOT, chunksOf, test, wrapped } from "./support.js";

const MAX = 2n ** 64n - 1n;
const y = await errors.load(BYTES);
const list = (count) => chunksOf(y, { drawn: { firstSeed: "1", count } });
const counting = (length) => Uint8Array.from({ length }, (_, k) => k % 251);
/** The model's hashes of chunks of `counting`, each from one offset to another. */
const hashesOfModel = (chunks) => {
    const model = `import sys; sys.path.insert(0, "tests/model"); import xet_model as m
for a, b in ${JSON.stringify(chunks)}: print(m.to_hex(m.compute_data_hash(bytes(k % 251 for k in range(a, b)))))`;
    return execFileSync("python3", ["-c", model], { cwd: fileURLToPath(ROOT), encoding: "utf8" }).trim().split("\n");
};
const bytesOf = (length) => Uint8Array.from({ length }, (_, k) => (7 * k + (k >> 8)) % 256);

test("a number is a BigInt or a safe integer, and of 64 bits", () => {
    const hash = new y.Hash();
    const session = new y.Session();
    const calls = {
        "a seed": (value) => y.Hash.randomFromSeed(value),
        "a divisor": (value) => hash.remainder(value),
        "the size of chunk 0": (value) => y.xorbHash([[hash, value]]),
        "a count of level 0": (value) => y.Subtree.fromFlat({ atStart: true, levels: [[value, 0]], nodes: [], atEnd: true }),
        "a position": (value) => session.taken(value),
        "the place of a run": (value) => session.run(value),
        "the total": (value) => session.root(value),
        "offset 0": (value) => y.dataHashes(new Uint8Array(9), [value]),
    };
    const wrong = new Map([["1", '"1"'], [{}, "an object"], [[1], "an array"], [Symbol("1"), "Symbol(1)"], [() => 1, "a function"]]);
    for (const value of [1.5, 2 ** 53, NaN, Infinity, null, undefined, true]) wrong.set(value, `${value}`);
    for (const [what, call] of Object.entries(calls)) {
        for (const [value, got] of wrong) {
            assert.throws(() => call(value), new TypeError(`${what} must be a BigInt or a safe integer, got ${got}`));
        }
        for (const value of [-1, -1n, MAX + 1n]) {
            assert.throws(() => call(value), new RangeError(`${what} must be a number from 0 to 2^64 - 1, got ${value}`));
        }
    }
    assert.equal(y.Hash.randomFromSeed(5).hex(), y.Hash.randomFromSeed(5n).hex());
    // A number that is 0 or 1 in 32 bits is another number.
    const [twoTo32, flat] = [2n ** 32n, { atStart: true, nodes: [[hash, 1]], atEnd: true }];
    for (const levels of [[[twoTo32 + 1n, 0]], [[1, twoTo32]]]) assert.throws(() => y.Subtree.fromFlat({ ...flat, levels }), errors.InvalidLists);
    session.put(twoTo32, [[hash, twoTo32]]);
    assert.deepEqual([session.taken(twoTo32), session.taken(0), session.totalSize, session.runFrom(0)[0]], [true, false, twoTo32, twoTo32]);
    assert.throws(() => session.run(twoTo32), errors.InvalidArguments);
    assert.throws(() => session.put("0", []), TypeError);
    assert.throws(() => session.finish(1.5), TypeError);
    assert.throws(() => session.gaps("1"), TypeError);
    assert.throws(() => session.finish("0", new Uint8Array(32)), TypeError);
});

test("bytes are a Uint8Array", () => {
    const hash = new y.Hash();
    const ofData = [
        y.dataHash,
        y.internalNodeHash,
        (value) => new y.Hasher().update(value),
        (value) => y.dataHashes(value, [0]),
    ];
    const others = [
        (value) => y.Hasher.keyed(value),
        (value) => new y.Hash(value),
        (value) => new y.Chunks(value),
        (value) => y.fileHash([[hash, 1]], value),
        (value) => y.Subtree.fromJSON(value),
        (value) => y.Subtree.fromChunks(true, [], true).fileHash(value),
        (value) => new y.FileHasher().fileHash(value),
        (value) => new y.Session().finish(0, value),
    ];
    const hostile = new Proxy(new Uint8Array(32), {
        get() {
            throw new Error("a caller's code runs");
        },
    });
    const detached = new Uint8Array(32);
    structuredClone(detached.buffer, { transfer: [detached.buffer] });
    const wrong = [null, 1, [1], {}, new SharedArrayBuffer(32), new DataView(new ArrayBuffer(32)), new Int8Array(32), new Uint16Array(16), hostile, detached];
    const ofAnotherRealm = ["SharedArrayBuffer(32)", "Int8Array(32)", "DataView(new ArrayBuffer(32))"].map((made) => runInNewContext(`new ${made}`));
    for (const call of [...ofData, ...others]) {
        for (const value of [...wrong, ...ofAnotherRealm]) assert.throws(() => call(value), TypeError);
    }
    for (const call of others) assert.throws(() => call(new ArrayBuffer(32)), TypeError);
    // A Uint8Array of another realm is one.
    const foreign = runInNewContext("Uint8Array.of(97, 98, 99)");
    assert.ok(!(foreign instanceof Uint8Array) && y.dataHash(foreign).equals(y.dataHash(Buffer.from("abc"))));
    assert.ok(y.dataHash(Buffer.from("abc")).equals(y.dataHash(new TextEncoder().encode("abc"))));
    assert.throws(() => y.dataHash("abc"), TypeError);
});

test("data may be an ArrayBuffer, of which all bytes are taken", () => {
    class Lying extends ArrayBuffer {
        get byteLength() {
            return 3;
        }
    }
    for (const length of [0, 3, 1026, AREA]) {
        const data = counting(length);
        const lying = new Lying(length);
        new Uint8Array(lying).set(data);
        for (const buffer of [data.buffer, lying, runInNewContext("new ArrayBuffer(length)", { length })]) {
            const its = new Uint8Array(buffer);
            its.set(data);
            assert.ok(y.dataHash(buffer).equals(y.dataHash(data)));
            assert.ok(y.internalNodeHash(buffer).equals(y.internalNodeHash(data)));
            assert.ok(new y.Hasher().update(buffer).digest().equals(y.dataHash(data)));
            assert.deepEqual(y.dataHashes(buffer, [0, length]).map(String), [y.dataHash(data).hex()]);
        }
    }
    assert.deepEqual([`${y.dataHash(counting(1026).buffer)}`], hashesOfModel([[0, 1026]]));
    const detached = new ArrayBuffer(32);
    structuredClone(detached, { transfer: [detached] });
    assert.throws(() => y.dataHash(detached), TypeError);
});

test("a Uint8Array isn't asked whether it is a buffer, for which an engine throws", async () => {
    const { get } = Object.getOwnPropertyDescriptor(ArrayBuffer.prototype, "byteLength");
    let asked = 0;
    const asking = {
        get() {
            asked++;
            return get.call(this);
        },
    };
    Object.defineProperty(ArrayBuffer.prototype, "byteLength", asking);
    const { dataOf } = await import("../yurewha/arguments.js?counted");
    Object.defineProperty(ArrayBuffer.prototype, "byteLength", { get });
    const data = counting(9);
    assert.deepEqual([dataOf(data, "data"), asked], [data, 0]);
    assert.deepEqual([dataOf(data.buffer, "data"), asked], [data, 1]);
});

test("texts are strings, marks are true or false, and lists are of pairs", () => {
    for (const [value, got] of [[null, "null"], [1, "1"], [[], "an array"], [new Uint8Array(64), "a Uint8Array of 64 bytes"]]) {
        assert.throws(() => y.Hash.fromHex(value), new TypeError(`the hex text of a hash must be a string, got ${got}`));
        assert.throws(() => y.Hash.fromBase64(value), new TypeError(`the base64 text of a hash must be a string, got ${got}`));
        assert.throws(() => y.Hash.fromJSON(value), new TypeError(`JSON must be a string, got ${got}`));
    }
    for (const value of [0, 1, "true", null, undefined]) {
        assert.throws(() => y.Subtree.fromChunks(value, [], false), TypeError);
        assert.throws(() => y.Subtree.fromChunks(false, [], value), TypeError);
        assert.throws(() => y.Subtree.fromFlat({ atStart: value, levels: [], nodes: [], atEnd: true }), TypeError);
        assert.throws(() => y.Subtree.fromFlat({ atStart: true, levels: [], nodes: [], atEnd: value }), TypeError);
    }
    const hash = new y.Hash();
    for (const value of [null, 5, [hash], [[hash]], [[hash, 1, 2]], [{ 0: hash, 1: 1, length: 2 }], [["00", 1]], [[null, 1]], ["ab"]]) {
        assert.throws(() => y.xorbHash(value), TypeError);
        assert.throws(() => y.findStableStart(value), TypeError);
    }
    assert.throws(() => y.xorbHash("ab"), new TypeError('chunk 0 must be a pair of a hash and a size, got "a"'));
    for (const levels of [null, [1], [[1]], [[1, 2, 3]]]) {
        assert.throws(() => y.Subtree.fromFlat({ atStart: true, levels, nodes: [], atEnd: true }), TypeError);
    }
});

test("a hex text is what the module writes and reads", async () => {
    const { library, yurewha } = await wrapped(BYTES, (exports) => exports);
    const [encoder, decoder] = [new TextEncoder(), new TextDecoder()];
    const written = (raw) =>
        library.over([raw, 64, 8], (at, room, out) => {
            library.call("yurewha_hex", at, room, 64n, out);
            return decoder.decode(library.read(room, 64));
        });
    /** The bytes of the hash that the module reads in a text, or null. */
    const read = (text) => {
        const given = encoder.encode(text);
        return library.over([given, 32], (at, out) => {
            return library.call("yurewha_from_hex", at, BigInt(given.length), out) === STATUS.DONE ? library.read(out, 32) : null;
        });
    };
    const raws = [bytesOf(32), counting(32), ...list(20).map(([hash]) => hash.bytes), ...Array.from({ length: 16 }, (_, k) => new Uint8Array(32).fill(17 * k))];
    const texts = raws.map(written);
    for (const [k, raw] of raws.entries()) assert.equal(new yurewha.Hash(raw).hex(), texts[k]);
    const [hex] = texts;
    const others = [hex.toUpperCase(), hex.slice(1), `${hex}0`, ` ${hex}`, `${hex}\n`, "", "0x".padEnd(64, "0"), "é".repeat(32), hex.repeat(2)];
    const letters = [...Array.from({ length: 256 }, (_, code) => String.fromCharCode(code)), "\u0130", "\ud800", "\uff10", "\uff41", "\u{10401}"];
    for (const letter of letters) for (const place of [0, 1, 31, 62, 63]) others.push(hex.slice(0, place) + letter + hex.slice(place + letter.length));
    for (const text of [...texts, ...others]) {
        const wanted = read(text);
        if (wanted) assert.deepEqual(yurewha.Hash.fromHex(text).bytes, wanted, text);
        else assert.throws(() => yurewha.Hash.fromHex(text), { name: "InvalidText", message: /^the hex text of a hash must be 64 hex digits, got "/ }, text);
    }
});

test("an error shows a long text by its first 70 characters", () => {
    const letters = "x".repeat(70);
    for (const [text, shown] of [[letters, letters], [`${letters}y`, `${letters}...`]]) {
        assert.throws(() => y.Hash.fromHex(text), new errors.InvalidText(`the hex text of a hash must be 64 hex digits, got "${shown}"`));
    }
});

test("an object of another instance is none of this one", async () => {
    const other = await errors.load(BYTES);
    const [here, there] = [y, other].map((it) => it.Subtree.fromChunks(false, [[new it.Hash(), 1]], false));
    assert.throws(() => new y.Hash().compare(new other.Hash()), TypeError);
    assert.throws(() => new y.Hash().hmac(new other.Hash()), TypeError);
    assert.throws(() => y.xorbHash([[new other.Hash(), 1]]), TypeError);
    assert.throws(() => here.mergeInto(there), TypeError);
    assert.throws(() => here.equals(there), TypeError);
    assert.throws(() => y.Subtree.merge([here, there]), TypeError);
    assert.throws(() => new y.Session().putRange(0, 1, there), TypeError);
    assert.throws(() => new y.Session().join(new other.Session()), TypeError);
    for (const [value, got] of [[null, "null"], [undefined, "undefined"], [1, "1"], [{}, "an object"], [[], "an array"]]) {
        assert.throws(() => here.mergeInto(value), new TypeError(`a range must be a Subtree of the same module, got ${got}`));
        assert.throws(() => new y.Hash().equals(value), new TypeError(`the hash must be a Hash of the same module, got ${got}`));
    }
    assert.throws(() => new y.Subtree(), TypeError);
});

test("lengths that don't fit are invalid arguments", () => {
    for (const length of [0, 31, 33]) {
        const given = new Uint8Array(length);
        for (const call of [
            () => new y.Hash(given), () => y.Hasher.keyed(given), () => y.fileHash([], given),
            () => y.Subtree.fromChunks(true, [], false).fileHash(given), () => new y.Session().finish(0, given),
        ]) {
            assert.throws(call, errors.InvalidArguments);
        }
    }
    for (const offsets of [5, null, undefined, { length: 1 }]) assert.throws(() => y.dataHashes(new Uint8Array(5), offsets), TypeError);
    for (const offsets of [[], [1, 0], [0, 6], [0, 3, 2], [6]]) {
        assert.throws(() => y.dataHashes(new Uint8Array(5), offsets), errors.InvalidArguments);
    }
    assert.throws(() => new y.Chunks(new Uint8Array(41)), errors.InvalidArguments);
    assert.throws(() => new y.Hash().remainder(0), errors.InvalidArguments);
    assert.throws(() => new y.Session().run(0), errors.InvalidArguments);
});

test("each status of the header has its error", () => {
    const header = readFileSync(new URL("bindings/include/yurewha.h", ROOT), "utf8");
    const stated = Object.fromEntries([...header.matchAll(/#define YUREWHA_(\w+) (\d+)u/g)].map(([, name, number]) => [name, Number(number)]));
    for (const [name, number] of Object.entries(STATUS)) assert.equal(stated[name], number);
    const lengths = Object.keys(stated).filter((name) => /_LENGTH$|^VERSION/.test(name));
    assert.deepEqual(Object.keys(stated).filter((name) => !lengths.includes(name)).sort(), Object.keys(STATUS).sort());
    const wanted = {
        ARGUMENTS: "InvalidArguments",
        SIZES: "SizeOverflow",
        MEMORY: "OutOfMemory",
        TEXT: "InvalidText",
        EMPTY_HANDLE: "EmptyHandle",
        MISMATCH: "ProofMismatch",
        SESSION_OVERLAP: "SessionOverlap",
        SESSION_POSITIONS: "SessionPositions",
        SESSION_GAP: "SessionGap",
    };
    for (const [name, kind] of Object.entries(wanted)) {
        const error = errorOf(STATUS[name], "a text", "a message");
        assert.equal(error.name, kind);
        assert.ok(error instanceof errors[kind] && error instanceof errors.YurewhaError && error.message.length > 0);
        assert.equal(error instanceof errors.SessionError, /^SESSION_/.test(name));
    }
    for (const status of [99, STATUS.RULE, STATUS.RULE + 14, STATUS.PROOF_RULE, STATUS.PROOF_RULE + 9]) {
        assert.equal(errorOf(status).name, "YurewhaError");
    }
});

test("an error says what the library says of its status", async () => {
    const rules = (first, count, name) => Array.from({ length: count }, (_, k) => [first + k + 1, name, k + 1]);
    const table = [
        [STATUS.SIZES, "SizeOverflow"],
        [STATUS.SESSION_OVERLAP, "SessionOverlap"],
        [STATUS.SESSION_POSITIONS, "SessionPositions"],
        [STATUS.SESSION_GAP, "SessionGap"],
        ...rules(STATUS.RULE, 13, "InvalidJson"),
        ...rules(STATUS.PROOF_RULE, 8, "InvalidProof"),
    ];
    let status;
    const { exports, yurewha } = await wrapped(BYTES, (it) => ({ ...it, yurewha_subtree_from_json: () => status }));
    const room = exports.allocate(104n);
    const out = room + 96;
    for (const [given, name, rule] of table) {
        assert.equal(exports.yurewha_status_text(given, room, 96n, out), STATUS.DONE);
        const [length] = new Uint32Array(exports.memory.buffer, out, 1);
        const message = Buffer.from(exports.memory.buffer, room, length).toString();
        status = given;
        assert.throws(() => yurewha.Subtree.fromJSON("{}"), { name, message, ...(rule && { rule }) }, `${given}`);
    }
});

test("an error of a broken rule names what broke it, and is a BrokenRule", () => {
    const flat = { atStart: true, levels: [], nodes: [], atEnd: true };
    const hash = y.Hash.randomFromSeed(1);
    const sessionOf = (json) => y.Session.restore({ runs: [["0", "1", json]], knownHashes: [] });
    const table = [
        ["InvalidJson", 1, "rule 1: the value isn't an object", () => y.Subtree.fromJSON("[]")],
        ["InvalidJson", 1, "rule 1: the value isn't an object", () => sessionOf("[]")],
        ["InvalidLists", 5, "rule 5: there is no level", () => y.Subtree.fromFlat(flat)],
        ["InvalidLists", 10, "rule 10: ", () => y.Subtree.fromFlat({ ...flat, levels: [[2, 0]], nodes: [[hash, 1], [hash, 1]] })],
        ["InvalidProof", 1, "rule 1: the range proof isn't an object, or has no byte", () => y.RangeProof.fromJSON("[]")],
        ["InvalidProof", 5, "rule 5: there is no chunk", () => y.RangeProof.fromFlat({ levels: [], nodes: [] })],
        ["InvalidProof", 5, "rule 5: there is no chunk", () => new y.RangeProof(new Uint8Array(1))],
    ];
    const kinds = ["InvalidJson", "InvalidLists", "InvalidProof"];
    for (const [name, rule, message, call] of table) {
        assert.throws(call, (error) => {
            assert.deepEqual(kinds.filter((kind) => error instanceof errors[kind]), [name]);
            assert.deepEqual([error.name, error.constructor, error.rule], [name, errors[name], rule]);
            return error instanceof errors.BrokenRule && error.message.startsWith(message) && !error.message.includes("JSON");
        });
    }
});

test("a hash has its texts, also in JSON, and doesn't change", () => {
    const raw = bytesOf(32);
    const hash = new y.Hash(raw);
    raw.fill(0);
    hash.bytes.fill(0);
    assert.deepEqual(hash.bytes, bytesOf(32));
    assert.equal(`${hash}`, hash.hex());
    assert.equal(JSON.stringify({ hash }), `{"hash":"${hash.hex()}"}`);
    assert.ok(new y.Hash().equals(y.Hash.fromHex("0".repeat(64))));
    assert.ok(y.Hash.fromBase64(hash.base64()).equals(hash));
});

test("chunks are packed once, and sliced as arrays are", () => {
    const pairs = list(10);
    const chunks = y.Chunks.from(pairs);
    const plain = (them) => Array.from(them, ([hash, size]) => [hash.hex(), BigInt(size)]);
    assert.equal(chunks.length, 10);
    assert.equal(y.Chunks.from(chunks), chunks);
    const raw = chunks.bytes;
    const copied = new y.Chunks(raw);
    raw.fill(0);
    assert.deepEqual(copied.bytes, chunks.bytes);
    assert.deepEqual(plain(chunks), plain(pairs));
    assert.deepEqual(new y.Chunks(chunks.bytes).bytes, chunks.bytes);
    for (const [start, end] of [[], [3], [3, 7], [-3], [0, -2], [7, 3], [20], [-20, 4], [2.5, 4.5]]) {
        assert.deepEqual(plain(chunks.slice(start, end)), plain(pairs).slice(start, end));
    }
    const at = (index) => plain(chunks.at(index) === undefined ? [] : [chunks.at(index)]);
    for (const index of [0, 9, 10, -1, -2, -10, -11, 0.5, -0.5, 9.9, NaN, undefined, "3", Infinity, -Infinity]) {
        assert.deepEqual(at(index), plain([pairs.at(index)].filter(Boolean)), `${index}`);
    }
    for (const index of [1n, Symbol("1")]) assert.throws(() => chunks.at(index), TypeError);
    for (const form of [pairs, chunks, new Set(pairs), pairs.values()]) assert.equal(y.xorbHash(form).hex(), y.xorbHash(pairs).hex());
    assert.equal(new y.Chunks().length, 0);
});

test("long messages and lists go through the module in pieces and at once alike", () => {
    const data = bytesOf(3_000_001);
    const pieces = new y.Hasher();
    for (let at = 0; at < data.length; at += 100_000) pieces.update(data.subarray(at, at + 100_000));
    for (const hash of [new y.Hasher().update(data).digest(), pieces.digest()]) assert.deepEqual(hash, y.dataHash(data));
    assert.deepEqual(y.Hasher.internalNode().update(data).digest(), y.internalNodeHash(data));
    const chunks = y.Chunks.from(chunksOf(y, { drawn: { firstSeed: "9", count: 60_000 } }));
    const [front, back] = [y.Subtree.fromChunks(true, chunks.slice(0, 31_000), false), y.Subtree.fromChunks(false, chunks.slice(31_000), true)];
    front.mergeInto(back);
    assert.ok(front.finalHash().equals(y.xorbHash(chunks)));
});

test("the model gives the same hash of a message that goes to the module in two pieces", () => {
    const length = AREA / 2 + 1025;
    assert.deepEqual([y.dataHash(counting(length)).hex()], hashesOfModel([[0, length]]));
});

test("a hasher keeps all bytes of the state that the header has", async () => {
    const header = readFileSync(new URL("bindings/include/yurewha.h", ROOT), "utf8");
    const [, words] = /struct yurewha_hasher \{\s*uint64_t state\[(\d+)\];/.exec(header);
    const written = counting(8 * Number(words));
    const seen = [];
    const { yurewha } = await wrapped(BYTES, (exports) => {
        const stateAt = (at) => new Uint8Array(exports.memory.buffer, at, written.length);
        return {
            ...exports,
            yurewha_hasher_begin_data: (at) => stateAt(at).set(written),
            yurewha_hasher_finalize: (at) => seen.push(stateAt(at).slice()),
        };
    });
    const hasher = new yurewha.Hasher();
    yurewha.dataHash(new Uint8Array(AREA / 2));
    hasher.digest();
    assert.deepEqual(seen, [written]);
});

test("a hasher goes on after it was asked, and its copies are apart", () => {
    const hasher = new y.Hasher().update(bytesOf(100));
    assert.ok(hasher.digest().equals(y.dataHash(bytesOf(100))));
    const copy = hasher.clone();
    hasher.update(bytesOf(200).subarray(100));
    assert.ok(hasher.digest().equals(y.dataHash(bytesOf(200))));
    assert.ok(copy.digest().equals(y.dataHash(bytesOf(100))));
    assert.deepEqual([hasher.count, copy.count], [200n, 100n]);
    assert.ok(y.Hasher.internalNode().update(bytesOf(5)).digest().equals(y.internalNodeHash(bytesOf(5))));
});

test("the number of bytes that a hasher got is of 64 bits", async () => {
    // WebAssembly's numbers of 64 bits have a sign in JavaScript.
    for (const [given, count] of [[2n ** 32n + 5n, 2n ** 32n + 5n], [-1n, MAX]]) {
        const { yurewha } = await wrapped(BYTES, (exports) => ({ ...exports, yurewha_hasher_count: () => given }));
        assert.equal(new yurewha.Hasher().count, count);
    }
});

test("a stream is hashed by its pieces, and cancelled at a piece that is none", async () => {
    const data = bytesOf(1_500_000);
    assert.ok((await y.hashStream(new Blob([data]).stream())).equals(y.dataHash(data)));
    assert.ok((await y.hashStream(ReadableStream.from([]))).equals(y.dataHash(new Uint8Array())));
    let reason;
    let left = 9;
    const odd = new ReadableStream({
        pull: (controller) => (left-- > 0 ? controller.enqueue("text") : controller.close()),
        cancel: (why) => (reason = why),
    });
    await assert.rejects(y.hashStream(odd), TypeError);
    assert.ok(reason instanceof TypeError);
    assert.equal(odd.locked, false);
    const failing = new ReadableStream({ pull: (controller) => controller.error(new Error("lost")) });
    await assert.rejects(y.hashStream(failing), new Error("lost"));
});

test("whatever gives pieces is hashed, and ended at a piece that is none", async () => {
    const data = bytesOf(300_000);
    const pieces = [data.subarray(0, 1), data.subarray(1, 1), data.subarray(1, 200_000), data.subarray(200_000)];
    let ended = 0;
    async function* given(...odd) {
        try {
            yield* [...pieces, ...odd];
        } finally {
            ended++;
        }
    }
    for (const source of [given(), pieces, new Set(pieces), Readable.from(pieces), pieces.values()]) {
        assert.ok((await y.hashStream(source)).equals(y.dataHash(data)));
    }
    for (const odd of ["text", 5, null, [1], new ArrayBuffer(3)]) await assert.rejects(y.hashStream(given(odd)), TypeError);
    assert.equal(ended, 6);
    for (const source of [null, undefined, 5, {}, "text", new Uint8Array(3)]) await assert.rejects(y.hashStream(source), TypeError);
});

test("the chunks of a file, of a stream and of other pieces have their hashes, wherever the pieces end", async () => {
    const data = bytesOf(300_000);
    for (const offsets of [[0, 300_000], [0, 0, 1, 1, 70_000, 200_000, 300_000], [5, 5, 9, 131_072, 131_073, 299_999], [7], [0], [300_000, 300_000], [9, 300_000, 300_000, 300_000]]) {
        const wanted = y.dataHashes(data, offsets).map(String);
        for (const length of [1, 997, 65_536, 300_000]) {
            if (length === 1 && offsets.at(-1) > 9) continue;
            const pieces = Array.from({ length: Math.ceil(300_000 / length) }, (_, k) => data.subarray(k * length, (k + 1) * length));
            for (const source of [pieces, ReadableStream.from(pieces)]) {
                assert.deepEqual((await y.hashChunks(source, offsets)).map(String), wanted, `${offsets} in pieces of ${length}`);
            }
        }
        assert.deepEqual((await y.hashChunks(new Blob([data]), offsets.map(BigInt))).map(String), wanted);
    }
});

test("chunks of a stream need all of their bytes, no more of it is read, and pieces are bytes", async () => {
    let [given, cancelled] = [0, 0];
    const stream = () => new ReadableStream({
        pull: (controller) => controller.enqueue(new Uint8Array(10 + 0 * given++)),
        cancel: () => void cancelled++,
    }, { highWaterMark: 0 });
    const longer = stream();
    assert.equal((await y.hashChunks(longer, [5, 20, 25])).length, 2);
    assert.deepEqual([given, cancelled, longer.locked], [3, 1, false]);
    const wrong = stream();
    await assert.rejects(y.hashChunks(wrong, [3, 2]), { name: "InvalidArguments" });
    assert.equal(wrong.locked, false);
    const few = [new Uint8Array(10)];
    for (const source of [few, ReadableStream.from(few), new Blob(few)]) {
        await assert.rejects(y.hashChunks(source, [0, 5, 11]), { name: "InvalidArguments" });
    }
    await assert.rejects(y.hashChunks(few, []), { name: "InvalidArguments" });
    for (const source of [["text"], ReadableStream.from([5]), null, 5]) await assert.rejects(y.hashChunks(source, [0, 1]), TypeError);
    const failing = new ReadableStream({ pull: (controller) => controller.error(new Error("lost")) });
    await assert.rejects(y.hashChunks(failing, [0, 1]), new Error("lost"));
});

const all = async (chunks) => {
    const found = [];
    for await (const [hash, size] of chunks) found.push([String(hash), size]);
    return found;
};

/** A chunker that knows its cuts, and gives each once it was given the bytes before it. */
const knowing = (cuts) =>
    async function* (pieces) {
        let [place, next] = [0, 0];
        for await (const piece of pieces) {
            place += piece.length;
            while (next < cuts.length && cuts[next] <= place) yield cuts[next++];
        }
    };

test("a stream is cut and hashed in one pass, wherever the pieces end", async () => {
    const data = bytesOf(300_000);
    for (const cuts of [[], [1], [300_000], [0, 0, 1, 1, 70_000, 200_000, 300_000], [131_072, 131_073, 299_999]]) {
        const offsets = [0, ...cuts, ...(cuts.at(-1) === 300_000 ? [] : [300_000])];
        const wanted = y.dataHashes(data, offsets).map((hash, k) => [String(hash), offsets[k + 1] - offsets[k]]);
        for (const length of [997, 65_536, 300_000]) {
            const pieces = Array.from({ length: Math.ceil(300_000 / length) }, (_, k) => data.subarray(k * length, (k + 1) * length));
            for (const given of [cuts, cuts.map(BigInt), ReadableStream.from(cuts), knowing(cuts)]) {
                assert.deepEqual(await all(y.hashCuts(ReadableStream.from(pieces), given)), wanted, `${cuts} in pieces of ${length}`);
            }
        }
        assert.deepEqual(await all(y.hashCuts(new Blob([data]), knowing(cuts))), wanted);
    }
    assert.deepEqual([await all(y.hashCuts([], [])), await all(y.hashCuts([new Uint8Array()], knowing([])))], [[], []]);
});

test("a chunk of a stream comes before the next is read, from pieces that change afterwards, and the stream is let go", async () => {
    let [given, cancelled] = [0, 0];
    const piece = new Uint8Array(10);
    const stream = new ReadableStream({
        pull: (controller) => controller.enqueue(piece.fill(given++)),
        cancel: () => void cancelled++,
    }, { highWaterMark: 0 });
    const chunks = y.hashCuts(stream, knowing([10, 30, 35]));
    assert.equal(given, 0);
    assert.deepEqual([String((await chunks.next()).value[0]), given], [String(y.dataHash(new Uint8Array(10))), 1]);
    const second = new Uint8Array([...new Array(10).fill(1), ...new Array(10).fill(2)]);
    assert.deepEqual([String((await chunks.next()).value[0]), given], [String(y.dataHash(second)), 3]);
    await chunks.return();
    assert.equal(cancelled, 1);
    const wiping = async function* (pieces) {
        for await (const given of pieces) given.fill(0);
    };
    assert.deepEqual(await all(y.hashCuts([bytesOf(5000)], wiping)), [[String(y.dataHash(bytesOf(5000))), 5000]], "a chunker may change its pieces");
});

test("cuts rise, are within the data, and a chunker's are of bytes that it was given", async () => {
    const few = () => [new Uint8Array(2), new Uint8Array(1)];
    const table = [
        [[2, 1], "a cut must be at least the one before it, 2, got 1"],
        [[4], "a cut must be at most the number of bytes, 3, got 4"],
        [() => [1], "a chunker's cut must be at most the number of bytes that it was given, 0, got 1"],
        [async function* (pieces) {
            yield (await pieces.next()).value.length + 1;
        }, "a chunker's cut must be at most the number of bytes that it was given, 2, got 3"],
    ];
    for (const [cuts, message] of table) await assert.rejects(all(y.hashCuts(few(), cuts)), { name: "InvalidArguments", message });
    for (const source of [["text"], ReadableStream.from([5]), null, 5]) await assert.rejects(all(y.hashCuts(source, [1])), TypeError);
    for (const cuts of [5, null, ["1"], [0.5]]) await assert.rejects(all(y.hashCuts(few(), cuts)), TypeError);
    const found = [];
    const failing = ReadableStream.from((function* () {
        yield new Uint8Array(5);
        throw new Error("lost");
    })());
    await assert.rejects(async () => {
        for await (const [hash] of y.hashCuts(failing, [2, 4, 6])) found.push(String(hash));
    }, new Error("lost"));
    assert.deepEqual(found, Array(2).fill(String(y.dataHash(new Uint8Array(2)))));
});

test("short pieces of a stream go to the module in long ones, in their order", async () => {
    const lengths = [];
    const { yurewha: it } = await wrapped(BYTES, (exports) => ({
        ...exports,
        yurewha_hasher_update: (state, at, length) => (lengths.push(Number(length)), exports.yurewha_hasher_update(state, at, length)),
    }));
    const data = bytesOf(1_000_000);
    const cut = (...ends) => ends.map((end, k) => data.subarray(ends[k - 1] ?? 0, end));
    const short = Array.from({ length: 1000 }, (_, k) => data.subarray(1000 * k, 1000 * (k + 1)));
    const mixed = cut(10, 100_000, 100_001, 100_001, 165_537, 165_540, 400_000, 465_535, 531_071, 531_072, 999_999, 1_000_000);
    for (const pieces of [short, mixed, [data]]) {
        lengths.length = 0;
        assert.ok((await it.hashStream(pieces)).equals(it.dataHash(data)));
        const calls = lengths.filter((length) => length > 0).length;
        assert.ok(calls <= 20, `${calls} calls`);
    }
    // A piece that is used again by its owner has been copied by then.
    async function* reusing() {
        const room = new Uint8Array(1000);
        for (const piece of short) {
            room.set(piece);
            yield room;
        }
    }
    assert.ok((await it.hashStream(reusing())).equals(it.dataHash(data)));
});

test("the hashes of many chunks are those of each", () => {
    const offsets = [1, 1, 2, 1026, 5000, 9000];
    const wanted = hashesOfModel(offsets.slice(1).map((end, k) => [offsets[k], end]));
    const data = bytesOf(2_000_003);
    const lists = [
        [0], [5], [0, 0, 0], [0, 1000], [3, 4, 4, 70_000, 600_000, 600_001, 1_999_999, 2_000_003],
        Array.from({ length: 9001 }, (_, k) => 7 * k), [0, 2_000_003], [2_000_003, 2_000_003],
    ];
    for (const form of [offsets, offsets.map(BigInt), offsets.values()]) {
        assert.deepEqual(y.dataHashes(counting(9000), form).map(String), wanted);
    }
    for (const list of lists) {
        const each = list.slice(1).map((end, k) => y.dataHash(data.subarray(list[k], end)).hex());
        assert.deepEqual(y.dataHashes(data, list).map(String), each);
    }
});

test("a subtree says what it keeps, and reads back from JSON and flat lists", () => {
    for (const [atStart, atEnd] of [[false, false], [true, false], [false, true], [true, true]]) {
        const chunks = list(300);
        const range = y.Subtree.fromChunks(atStart, chunks, atEnd);
        assert.deepEqual([range.atStart, range.atEnd], [atStart, atEnd]);
        assert.equal(range.totalSize, chunks.reduce((sum, [, size]) => sum + BigInt(size), 0n));
        assert.equal(range.numNodes, range.levels.flat().reduce((sum, count) => sum + count));
        assert.equal(range.numLevels, range.levels.length);
        assert.equal(range.finalHash()?.hex(), atStart && atEnd ? y.xorbHash(chunks).hex() : undefined);
        const json = JSON.stringify(range);
        for (const other of [y.Subtree.fromJSON(json), y.Subtree.fromJSON(Buffer.from(json)), y.Subtree.fromFlat(range.toFlat()), range.clone()]) {
            assert.ok(other.equals(range) && other !== range);
        }
        assert.ok(range.equals(range));
        assert.ok(!range.equals(y.Subtree.fromChunks(atStart, chunks.slice(1), atEnd)));
    }
});

test("ranges are equal only if their marks and nodes are", () => {
    const [[one, size], [two]] = list(2);
    const flat = { atStart: false, levels: [[2, 0]], nodes: [[one, size], [two, size]], atEnd: false };
    const changes = [
        { atStart: true }, { atEnd: true }, { levels: [[1, 0]], nodes: [[one, 2 * size]] },
        { nodes: [[one, size + 1], [two, size - 1]] }, { nodes: [[one, size], [one, size]] }, { nodes: [[two, size], [one, size]] },
    ];
    const range = y.Subtree.fromFlat(flat);
    assert.ok(range.equals(y.Subtree.fromFlat(flat)));
    for (const change of changes) {
        const other = y.Subtree.fromFlat({ ...flat, ...change });
        assert.deepEqual([range.equals(other), other.equals(range)], [false, false]);
    }
});

test("deep and long texts are refused, and thousands of levels merged, without a trap", () => {
    for (const text of ["[".repeat(1e6), '{"a":'.repeat(1e6), "[".repeat(1e6) + "]".repeat(1e6)]) {
        assert.throws(() => y.Subtree.fromJSON(text), errors.InvalidText);
    }
    assert.throws(() => y.Subtree.fromJSON(JSON.stringify("a".repeat(1e7))), errors.InvalidJson);
    const hash = (last) => new y.Hash(Uint8Array.from({ length: 32 }, (_, k) => (k === 24 ? last : 0)));
    const [plain, cut] = [[hash(5), 1], [hash(4), 1]];
    const count = 20_000;
    const levels = Array(count).fill([0, 3]);
    const nodes = [plain, ...Array(count).fill([plain, plain, cut]).flat()];
    const front = y.Subtree.fromFlat({ atStart: true, levels: [...levels, [1, 0]], nodes, atEnd: false });
    front.mergeInto(y.Subtree.fromChunks(false, [plain], true));
    assert.equal(front.totalSize, BigInt(nodes.length + 1));
    assert.ok(y.Subtree.fromJSON(front.jsonText()).equals(front));
});

test("a thousand ranges are merged at once", () => {
    const chunks = list(1000);
    const ranges = chunks.map((chunk, k) => y.Subtree.fromChunks(k === 0, [chunk], k === 999));
    assert.ok(y.Subtree.merge(ranges).finalHash().equals(y.xorbHash(chunks)));
});

test("a range merged with itself is the list twice", () => {
    const chunks = list(40);
    const range = y.Subtree.fromChunks(false, chunks, false);
    const twice = y.Subtree.fromChunks(false, [...chunks, ...chunks], false);
    assert.ok(y.Subtree.merge([range, range]).equals(twice));
    range.mergeInto(range);
    assert.ok(range.equals(twice));
});

test("the handles of one merge are distinct", async () => {
    let handles;
    const { yurewha: it } = await wrapped(BYTES, (exports) => ({
        ...exports,
        yurewha_subtree_merge: (at, count, made) => {
            handles = new BigUint64Array(exports.memory.buffer.slice(at, at + 8 * Number(count)));
            return exports.yurewha_subtree_merge(at, count, made);
        },
    }));
    const [one, two] = [1, 2].map((seed) => it.Subtree.fromChunks(false, [[it.Hash.randomFromSeed(seed), 1]], false));
    assert.equal(it.Subtree.merge([one, two, one, one]).totalSize, 4n);
    assert.deepEqual([handles.length, new Set(handles).size], [4, 4]);
});

test("of no range the merge is the empty list's", () => {
    const merged = y.Subtree.merge([]);
    assert.deepEqual([merged.atStart, merged.atEnd, merged.numNodes], [true, true, 0]);
    assert.ok(merged.finalHash().equals(new y.Hash()));
});

test("a session's faults have their classes", () => {
    const session = new y.Session();
    const hash = new y.Hash();
    assert.equal(session.put(5, [[hash, 1]]), 1);
    assert.throws(() => session.put(4, [[hash, 1], [hash, 1]]), errors.SessionOverlap);
    assert.throws(() => session.put(MAX, [[hash, 1], [hash, 1]]), errors.SessionPositions);
    assert.throws(() => session.put(7, [[hash, MAX]]), errors.SessionSizes);
    assert.throws(() => session.root(6), errors.SessionGap);
    assert.throws(() => session.finish(6), errors.SessionGap);
    assert.throws(() => session.put(4, [[hash, 1], [hash, 1], [hash, 1]]), new errors.SessionOverlap("position 5 is taken"));
    assert.deepEqual([session.numRuns, session.taken(5), session.taken(4)], [1, true, false]);
    const [first, end, range] = session.run(0);
    assert.deepEqual([first, end, range.totalSize], [5n, 6n, 1n]);
});

test("a gap is named by its positions", () => {
    const session = new y.Session();
    const gap = (total, message) => {
        for (const call of [() => session.root(total), () => session.finish(total), () => session.finish(total, bytesOf(32))]) {
            assert.throws(call, new errors.SessionGap(message));
        }
    };
    gap(1, "position 0 has no chunk");
    gap(MAX, `the positions from 0 to ${MAX - 1n} have no chunk`);
    session.put(2, list(2));
    gap(0, "position 2 is taken, and the total is 0");
    gap(1, "position 0 has no chunk");
    for (const total of [2, 3, 4, 9]) gap(total, "the positions from 0 to 1 have no chunk");
    session.put(0, list(1));
    for (const total of [2, 4, 9]) gap(total, "position 1 has no chunk");
    gap(1, "position 2 is taken, and the total is 1");
    session.put(1, list(1));
    session.put(MAX - 1n, list(1));
    gap(3, "position 3 is taken, and the total is 3");
    gap(4, `position ${MAX - 1n} is taken, and the total is 4`);
    gap(7, "the positions from 4 to 6 have no chunk");
    gap(MAX, `the positions from 4 to ${MAX - 2n} have no chunk`);
});

test("a session tells how many chunks and bytes it has, and where its gaps are", () => {
    const session = new y.Session();
    const told = () => [session.numChunks, session.totalSize, session.numRuns];
    assert.deepEqual([told(), session.gaps(0), session.gaps(3)], [[0n, 0n, 0], [], [[0n, 3n]]]);
    session.put(7, list(2));
    session.put(1, list(3));
    assert.deepEqual(told(), [5n, 1177n + 3231n, 2]);
    assert.deepEqual(session.runs().map(([first, end]) => [first, end]), [[1n, 4n], [7n, 9n]]);
    const gaps = { 0: [], 1: [[0n, 1n]], 4: [[0n, 1n]], 6: [[0n, 1n], [4n, 6n]], 9: [[0n, 1n], [4n, 7n]], 12: [[0n, 1n], [4n, 7n], [9n, 12n]] };
    for (const [total, wanted] of Object.entries(gaps)) assert.deepEqual(session.gaps(Number(total)), wanted, total);
    assert.throws(() => session.put(8, list(1)), errors.SessionOverlap);
    assert.throws(() => session.pushRun(0, 1, y.Subtree.fromChunks(false, list(1), false)), errors.InvalidArguments);
    assert.deepEqual(told(), [5n, 4408n, 2]);
    session.pushRun(20, 30, y.Subtree.fromChunks(false, list(2), false));
    assert.deepEqual(told(), [15n, 4408n + 1177n, 3]);
});

test("a session knows the hashes of its chunks and those that were kept", () => {
    const session = new y.Session();
    const [put, kept, other] = [1, 2, 3].map((seed) => y.Hash.randomFromSeed(seed));
    const known = (of) => [put, kept, other].map((hash) => of.knows(hash));
    assert.deepEqual(known(session), [false, false, false]);
    session.put(0, [[put, 7]]);
    assert.throws(() => session.put(0, [[other, 7]]), errors.SessionOverlap);
    assert.deepEqual(known(session), [true, false, false]);
    session.keepHashes([kept]);
    assert.deepEqual([known(session), known(session.clone())], [[true, true, false], [true, true, false]]);
});

test("a session without hashes knows none, in whatever form it was saved", () => {
    const session = new y.Session({ keepHashes: false });
    const [one, two] = [1, 2].map((seed) => y.Hash.randomFromSeed(seed));
    const text = (() => {
        const keeping = new y.Session();
        keeping.put(0, [[one, 7]]);
        return keeping.jsonText();
    })();
    assert.deepEqual([session.put(0, [[one, 7]]), session.keepsHashes, new y.Session({}).keepsHashes], [1, false, true]);
    const forms = {
        itself: session, clone: session.clone(), saved: y.Session.restore(session.saved, { keepHashes: false }),
        json: y.Session.fromJSON(text, { keepHashes: false }),
    };
    for (const [form, it] of Object.entries(forms)) {
        assert.deepEqual([it.numChunks, it.put(5, [[one, 7], [two, 7], [one, 7]]), it.put(9, [[one, 7]])], [1n, 2, 1], form);
        assert.deepEqual([it.knows(one), it.knownHashes(), it.keepsHashes], [false, [], false], form);
        it.keepHashes([]);
        assert.throws(() => it.keepHashes([one]), new errors.InvalidArguments("this session keeps no hashes"));
    }
    for (const keepHashes of [0, null, "no"]) assert.throws(() => new y.Session({ keepHashes }), TypeError);
});

test("the size of a session is exact for great sizes, and for many", () => {
    const hash = new y.Hash();
    for (const sizes of [[MAX], [MAX - 2n ** 33n, 2n ** 33n], [2n ** 32n, 2n ** 32n - 1n, 1n], Array(2 ** 21 + 5).fill(2n ** 32n - 1n)]) {
        const session = new y.Session();
        session.put(3, sizes.map((size) => [hash, size]));
        assert.equal(session.totalSize, sizes.reduce((sum, size) => sum + size));
    }
});

test("a clone of a session is apart", () => {
    const session = new y.Session();
    session.put(0, list(20));
    const copy = session.clone();
    assert.deepEqual([copy.numChunks, copy.totalSize, copy.put(20, list(21))], [20n, session.totalSize, 1]);
    assert.deepEqual([session.numChunks, session.taken(20), copy.taken(40)], [20n, false, true]);
    session.free();
    assert.equal(copy.root(41).hex(), y.xorbHash([...list(20), ...list(21)]).hex());
});

test("a file hash under a salt is that of the chunks, also of none and of a default hash", () => {
    const salt = bytesOf(32);
    for (const chunks of [[], [[new y.Hash(), 0]], [[new y.Hash(), 5]], list(1), list(2), list(300)]) {
        const whole = y.Subtree.fromChunks(true, chunks, true);
        const session = new y.Session();
        session.put(0, chunks);
        for (const given of [undefined, new Uint8Array(32), salt]) {
            const wanted = y.fileHash(chunks, given).hex();
            const found = [whole.fileHash(given), whole.finish(given), session.finish(chunks.length, given)];
            assert.deepEqual(found.map(String), [wanted, wanted, wanted]);
        }
    }
    for (const [atStart, atEnd] of [[false, false], [true, false], [false, true]]) {
        const part = y.Subtree.fromChunks(atStart, list(3), atEnd);
        assert.equal(part.fileHash(salt), null);
        const message = `a range must be marked at both ends, got one with atStart ${atStart} and atEnd ${atEnd}`;
        for (const given of [undefined, salt]) assert.throws(() => part.finish(given), new errors.InvalidArguments(message));
    }
    const none = new y.Session();
    none.pushRun(0, 2, y.Subtree.fromChunks(false, [], false));
    assert.deepEqual(none.finish(2, new Uint8Array(32)), none.finish(2));
    assert.throws(() => none.finish(3, salt), errors.SessionGap);
});

test("a session is restored by its runs and the hashes that it knows", () => {
    const chunks = chunksOf(y, { drawn: { firstSeed: "1", count: 60 } });
    const [session, restored] = [new y.Session(), new y.Session()];
    session.put(40, chunks.slice(40));
    session.put(0, chunks.slice(0, 30));
    session.runs().forEach((run) => restored.pushRun(...run));
    assert.deepEqual(restored.knownHashes(), []);
    restored.keepHashes(session.knownHashes());
    const known = session.knownHashes().map((hash) => hash.hex());
    assert.equal(new Set(known).size, 50);
    assert.deepEqual(restored.knownHashes().map((hash) => hash.hex()).sort(), known.sort());
    assert.deepEqual([restored.runFrom(35).slice(0, 2), restored.runFrom(60)], [[40n, 60n], null]);
    for (const each of [session, restored]) assert.equal(each.put(30, chunks.slice(25, 35)), 5);
    assert.ok(restored.root(60).equals(session.root(60)));
});

test("a session knows as many hashes as it was given", () => {
    const chunks = list(70_000);
    const session = new y.Session();
    assert.equal(session.put(0, chunks), 70_000);
    assert.deepEqual(new Set(session.knownHashes().map(String)), new Set(chunks.map(([hash]) => hash.hex())));
    const restored = new y.Session();
    restored.keepHashes(session.knownHashes());
    assert.equal(restored.put(0, chunks), 0);
});

test("a run that doesn't fit is refused", () => {
    const session = new y.Session();
    const run = (atStart, atEnd) => y.Subtree.fromChunks(atStart, [[new y.Hash(), 1]], atEnd);
    session.pushRun(5, 8, run(false, false));
    for (const [first, end, range] of [
        [9, 9, run(false, false)], [9, 8, run(false, false)], [8, 9, run(false, false)], [5, 8, run(false, false)],
        [0, 2, run(false, false)], [9, 10, run(true, false)], [9, 10, run(false, true)],
    ]) {
        assert.throws(() => session.pushRun(first, end, range), errors.InvalidArguments);
    }
    const great = y.Subtree.fromChunks(false, [[new y.Hash(), MAX]], false);
    assert.throws(() => session.pushRun(9, 10, great), errors.SizeOverflow);
    assert.throws(() => session.pushRun(9, 10, session), TypeError);
    assert.throws(() => session.pushRun(9, "10", great), TypeError);
    assert.throws(() => session.keepHashes([new y.Hash(), "00"]), new TypeError('hash 1 must be a Hash of the same module, got "00"'));
    assert.deepEqual([session.numRuns, session.knownHashes()], [1, []]);
});

test("a range is put at any position, and refused where it doesn't fit", () => {
    const chunks = list(6);
    const open = (from, to) => y.Subtree.fromChunks(false, chunks.slice(from, to), false);
    const session = new y.Session();
    session.put(5, chunks.slice(5));
    session.putRange(0, 2n, open(0, 2));
    assert.deepEqual([session.numChunks, session.numRuns, session.taken(1), session.taken(2), session.knows(chunks[0][0])], [3n, 2, true, false, false]);
    const [before, great] = [session.jsonText(), y.Subtree.fromChunks(false, [[new y.Hash(), MAX]], false)];
    const marked = (atStart, atEnd) => y.Subtree.fromChunks(atStart, chunks.slice(0, 1), atEnd);
    const unfit = (count, first) =>
        new errors.InvalidArguments(`a range must have a chunk, and no mark at an end, got one of ${count} chunks from position ${first} on`);
    for (const [first, count, range, error] of [
        [2, 0, open(2, 5), unfit(0, 2)], [2, 3, marked(true, false), unfit(3, 2)], [0, 3, marked(false, true), unfit(3, 0)],
        [0, 1, open(0, 1), new errors.SessionOverlap("position 0 is taken")], [1, 2, open(2, 4), new errors.SessionOverlap("position 1 is taken")],
        [2, 4, great, new errors.SessionOverlap("position 5 is taken")], [1n, MAX, open(0, 1), new errors.SessionOverlap("position 1 is taken")],
        [MAX, 1, great, errors.SessionPositions], [9, MAX, open(0, 1), errors.SessionPositions], [2, 3, great, errors.SessionSizes],
        [2, 3, session, TypeError], [2, "3", great, TypeError], [-1, 3, great, RangeError], [2, 2n ** 64n, great, RangeError],
    ]) {
        assert.throws(() => session.putRange(first, count, range), error);
        assert.equal(session.jsonText(), before);
    }
    session.putRange(2, 3, open(2, 5));
    assert.ok(session.finish(6).equals(y.fileHash(chunks)));
});

test("sessions are joined, unless a position is taken in both", () => {
    const chunks = list(9);
    const sessionOf = (...runs) => {
        const made = new y.Session();
        for (const [first, end] of runs) made.put(first, chunks.slice(first, end));
        return made;
    };
    const session = sessionOf([0, 1], [3, 5], [7, 8]);
    const great = new y.Session();
    great.put(20, [[new y.Hash(), MAX]]);
    const refusals = [
        [session, new errors.SessionOverlap("position 0 is taken in both")], [session.clone(), new errors.SessionOverlap("position 0 is taken in both")],
        [sessionOf([1, 3], [5, 9]), new errors.SessionOverlap("position 7 is taken in both")], [sessionOf([2, 9]), new errors.SessionOverlap("position 3 is taken in both")],
        [great, new errors.SessionSizes("the sizes of all chunks add up to more than 2^64 - 1")],
    ];
    const wrong = (what) => new TypeError(`the other must be a Session of the same module, got ${what}`);
    for (const [other, what] of [[null, "null"], [7, "7"], [undefined, "undefined"]]) refusals.push([other, wrong(what)]);
    for (const other of [{}, chunks, session.run(0)[2], session.saved]) refusals.push([other, TypeError]);
    const before = session.jsonText();
    for (const [other, error] of refusals) {
        const untouched = other instanceof y.Session ? other.jsonText() : null;
        assert.throws(() => session.join(other), error);
        assert.deepEqual([session.jsonText(), other instanceof y.Session ? other.jsonText() : null], [before, untouched]);
    }
    session.put(20, chunks.slice(1, 2));
    const others = sessionOf([1, 3], [5, 7], [8, 9]);
    assert.deepEqual([session.join(others), session.numRuns, others.numRuns], [4, 2, 3]);
    const [light, none] = [new y.Session({ keepHashes: false }), new y.Session()];
    assert.deepEqual([light.join(others), light.keepsHashes, light.knownHashes(), light.join(none), none.join(light)], [5, false, [], 0, 0]);
    assert.deepEqual([none.numChunks, none.knownHashes(), new y.Session().join(new y.Session())], [5n, [], 0]);
    const empty = new y.Session();
    assert.equal(empty.join(empty), 0);
});

test("drawn parts give the file hash of the whole, as ranges and as sessions that are joined in a drawn tree", () => {
    let drawn = 5n;
    const below = (bound) => Number(((drawn = (drawn * 6364136223846793005n + 1442695040888963407n) % 2n ** 64n) >> 33n) % BigInt(bound));
    for (let round = 0; round < 100; round++) {
        const chunks = list(below(80));
        const places = [0, chunks.length, ...Array.from({ length: below(6) }, () => below(chunks.length + 1))].sort((one, other) => one - other);
        const parts = places.slice(1).map((end, k) => [places[k], chunks.slice(places[k], end)]).filter(([, part]) => part.length > 0);
        const [whole, sessions] = [new y.Session(), [new y.Session()]];
        while (parts.length > 0) {
            const [[first, part]] = parts.splice(below(parts.length), 1);
            const range = y.Subtree.fromChunks(false, part, false);
            whole.putRange(first, part.length, range);
            assert.throws(() => whole.putRange(first, part.length, range), new errors.SessionOverlap(`position ${first} is taken`));
            const session = new y.Session();
            if (below(2)) session.put(first, part);
            else session.putRange(first, part.length, range);
            sessions.push(session);
        }
        while (sessions.length > 1) {
            const [other] = sessions.splice(below(sessions.length), 1);
            const one = sessions[below(sessions.length)];
            const known = other.knownHashes().filter((hash) => !one.knows(hash)).length;
            assert.equal(one.join(other), known);
            if (other.numRuns > 0) assert.throws(() => one.join(other), errors.SessionOverlap);
        }
        for (const it of [whole, ...sessions]) assert.ok(it.finish(chunks.length).equals(y.fileHash(chunks)));
        assert.deepEqual(whole.knownHashes(), []);
    }
});

test("load takes an address, bytes, a compiled module and a response", async () => {
    const bytes = BYTES;
    const file = new URL("bindings/wasm/yurewha/yurewha.wasm", ROOT);
    const buffer = bytes.buffer.slice(bytes.byteOffset, bytes.byteOffset + bytes.length);
    const sources = [undefined, "./yurewha.wasm", file, file.href, bytes, buffer, await WebAssembly.compile(bytes), new Response(bytes), Promise.resolve(bytes)];
    for (const source of sources) assert.ok((await errors.load(source)).dataHash(bytesOf(9)).hex() === y.dataHash(bytesOf(9)).hex());
    await assert.rejects(errors.load(new Uint8Array(8)), WebAssembly.CompileError);
    await assert.rejects(errors.load(new URL("none.wasm", file)));
});

test("load fetches a module, but not out of a response of failure", async () => {
    const server = createServer((request, response) => response.writeHead(request.url === "/found" ? 200 : 404).end(BYTES));
    await once(server.listen(0, "127.0.0.1"), "listening");
    const address = `http://127.0.0.1:${server.address().port}`;
    try {
        assert.equal((await errors.load(`${address}/found`)).dataHash(bytesOf(9)).hex(), y.dataHash(bytesOf(9)).hex());
        for (const lost of [`${address}/lost`, fetch(`${address}/lost`)]) {
            await assert.rejects(errors.load(lost), { message: `${address}/lost: status 404` });
        }
        await assert.rejects(errors.load(new Response(BYTES, { status: 500 })), { message: "a response: status 500" });
    } finally {
        server.close();
        server.closeAllConnections();
    }
});

test("a name of an instance can't be replaced", () => {
    assert.throws(() => (y.xorbHash = y.fileHash), TypeError);
    assert.throws(() => delete y.Hash, TypeError);
});

test("each declared name is there, and each that is there is declared", () => {
    const declared = readFileSync(new URL("bindings/wasm/yurewha/index.d.ts", ROOT), "utf8");
    const members = (name) => {
        const [, body] = new RegExp(`export interface ${name} (?:extends [^{]*)?\\{\\n(.*?)\\n\\}`, "s").exec(declared);
        return [...body.matchAll(/^ {4}(?:readonly )?(\w+)[(:?]/gm)].map(([, member]) => member);
    };
    const own = (it) => Object.getOwnPropertyNames(it);
    assert.deepEqual(own(y).sort(), members("Yurewha").sort());
    const classes = own(y).filter((name) => /^[A-Z]/.test(name));
    assert.deepEqual(classes.filter((name) => y[name].prototype.free), ["Subtree", "Session", "HashIndex", "HashTree", "OpenedRange", "FileHasher"]);
    for (const name of classes) {
        const freed = y[name].prototype.free ? ["free"] : [];
        assert.deepEqual(own(y[name].prototype).filter((it) => it !== "constructor").sort(), [...members(name), ...freed].sort());
        const statics = own(y[name]).filter((it) => !["length", "name", "prototype"].includes(it));
        assert.deepEqual(statics.sort(), members(`${name}Constructor`).filter((it) => it !== "prototype").sort());
    }
    const exported = [...declared.matchAll(/^export (?:class|function) (\w+)/gm)].map(([, name]) => name);
    assert.deepEqual(Object.keys(errors).sort(), exported.sort());
});

test("the examples of the declarations print what they say", async () => {
    const declared = readFileSync(new URL("bindings/wasm/yurewha/index.d.ts", ROOT), "utf8");
    const examples = [...declared.matchAll(/^ *\* ```js\n([^]*?)^ *\* ```$/gm)].map(([, lines]) => lines.replace(/^ *\* ?/gm, ""));
    assert.equal(examples.length, 26);
    for (const example of examples) {
        const printed = [];
        const run = new (async () => {}).constructor("y", "load", "console", example);
        await run(await errors.load(BYTES), () => errors.load(BYTES), { log: (...values) => printed.push(format(...values)) });
        assert.deepEqual(printed, [...example.matchAll(/console\.log.*; \/\/ (.*)$/gm)].map(([, said]) => said), example);
    }
});
