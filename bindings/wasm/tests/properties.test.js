// What holds of each call alike, by the table of all calls. Needs --expose-gc.

import assert from "node:assert/strict";
import { setTimeout } from "node:timers/promises";
import * as errors from "../yurewha/index.js";
import { BYTES, capped, pagesOf, test, wrapped } from "./support.js";
import { tableOf } from "./table.js";

const y = await errors.load(BYTES);
const COUNTS = [0, 1, 2];

/** Each row of a table, as a class, a name and what calls it. */
function* rowsOf(table) {
    for (const [kind, { make, calls }] of Object.entries(table)) {
        for (const [name, call] of Object.entries(calls)) yield { kind, name, call, make, title: `${kind}: ${name}` };
    }
}

/** What comes of a value that is a stream or gives others. */
async function gotten(value) {
    if (value instanceof ReadableStream) return new Uint8Array(await new Response(value).arrayBuffer());
    if (typeof value?.[Symbol.asyncIterator] !== "function") return value;
    const found = [];
    for await (const it of value) found.push(it);
    return found;
}

/** What a call comes to: a value, or the error's name and message. */
async function outcome(call, ...given) {
    try {
        return { value: await gotten(await call(...given)) };
    } catch ({ name, message }) {
        return { error: `${name}: ${message}` };
    }
}

function freeAll(value) {
    if (Array.isArray(value)) value.forEach(freeAll);
    else if (Symbol.dispose && value?.[Symbol.dispose]) value[Symbol.dispose]();
    else value?.free?.();
}

/** How many bytes of an instance's memory can be taken, which it all is before that. */
function roomOf(exports) {
    const blocks = [];
    let room = 0;
    for (let size = 1 << 22; size >= 1; size >>= 1) {
        for (let block; (block = exports.allocate(BigInt(size))); room += size) blocks.push(block);
    }
    blocks.forEach((block) => exports.release(block));
    return room;
}

/** An instance with little memory, all of which it has, and how much room there is in it. */
async function small() {
    const { exports } = await wrapped(BYTES, (it) => it);
    const it = await wrapped(capped(BYTES, pagesOf(exports) + 64), (them) => them);
    roomOf(it.exports);
    return { ...it, room: () => roomOf(it.exports) };
}

test("the table has each call that the package has, and no other", () => {
    assert.deepEqual(Object.keys(errors).filter((name) => !(errors[name].prototype instanceof Error)), ["load"]);
    const table = tableOf(y);
    const classes = Object.keys(y).filter((name) => /^[A-Z]/.test(name));
    assert.deepEqual(Object.keys(table).sort(), ["Yurewha", ...classes].sort());
    for (const [kind, { calls }] of Object.entries(table)) {
        const own = (it) => Object.getOwnPropertyNames(it);
        const members = kind === "Yurewha" ? own(y).filter((name) => !classes.includes(name)) : [
            ...own(y[kind].prototype), ...own(y[kind]).filter((name) => !["length", "name", "prototype"].includes(name)),
        ];
        const words = Object.keys(calls).map((name) => name.split(" ")[0]);
        assert.deepEqual([...new Set(words)].sort(), [...new Set(members)].sort(), kind);
    }
});

test("a call of an object with itself comes to what it does with its like, for none, one and two items", async () => {
    for (const { kind, call, make, title, name } of rowsOf(tableOf(y))) {
        for (const count of COUNTS) {
            const [it, other, self, untouched] = [await make(count), await make(count), await make(count), await make(count)];
            const [apart, alike] = [await outcome(call, it, other), await outcome(call, self, self)];
            assert.deepStrictEqual(alike, apart, `${title}, ${count}`);
            if (name === "free") continue;
            assert.deepStrictEqual(self, it, `${title}, ${count}`);
            if (apart.error) assert.deepStrictEqual(it, untouched, `${title}, ${count}: ${apart.error}`);
            assert.doesNotMatch(apart.error ?? "", /Trapped|undefined|is not a function|not iterable/, `${kind}: ${title}`);
        }
    }
});

test("a call with a freed object throws EmptyHandle, and leaves the other one as it was", async () => {
    const empty = { error: "EmptyHandle: the object was freed" };
    for (const { kind, call, make, title, name } of rowsOf(tableOf(y))) {
        if (!y[kind]?.prototype.free || call.length === 0) continue;
        for (const count of COUNTS) {
            const [freed, other, untouched] = [await make(count), await make(count), await make(count)];
            freed.free();
            freed.free();
            const found = await outcome(call, freed, other);
            if (name === "free") assert.deepEqual(found, { value: undefined }, title);
            else if (name === "toString") assert.match(found.error, /^TypeError: /, title);
            else assert.deepEqual(found, empty, title);
            if (call.length === 2) assert.deepEqual(await outcome(call, freed, freed), empty, `${title}, with itself`);
            if (call.length === 2) assert.deepEqual(await outcome(call, other, freed), empty, `${title}, by another object`);
            assert.deepStrictEqual(other, untouched, title);
        }
    }
});

test("nothing lives after each call, if what it gave is freed", async () => {
    const Real = globalThis.FinalizationRegistry;
    // What the collector frees would hide what a call forgot.
    globalThis.FinalizationRegistry = class {
        register() {}
        unregister() {}
    };
    const { yurewha, room } = await small();
    globalThis.FinalizationRegistry = Real;
    const wanted = room();
    for (const { kind, call, make, title } of rowsOf(tableOf(yurewha))) {
        // Such an object has nothing to free.
        if (kind === "VerifiedBlob") continue;
        for (const count of COUNTS) {
            const given = [make(count), make(count)];
            const { value } = await outcome(call, ...given);
            freeAll([...given, value]);
            assert.equal(room(), wanted, `${title}, ${count}`);
        }
    }
});

test("nothing lives some time after each call, if nobody frees what it gave", async () => {
    const { yurewha, room } = await small();
    const wanted = room();
    for (const [kind, { make, calls }] of Object.entries(tableOf(yurewha))) {
        for (const call of Object.values(calls)) for (const count of COUNTS) await outcome(call, await make(count), await make(count));
        for (let k = 0; k < 100 && room() !== wanted; k++) {
            globalThis.gc();
            await setTimeout(10);
        }
        assert.equal(room(), wanted, kind);
    }
});

/** Readers of what may come damaged: the whole, what reads it, and which lengths are a whole of their own. */
function readersOf(it) {
    const chunks = Array.from({ length: 9 }, (_, k) => [it.Hash.randomFromSeed(k), 100 + k]);
    const data = Array.from({ length: 5 }, (_, k) => Buffer.from(`chunk number ${k}`));
    const tree = it.HashTree.fromChunks(data.map((chunk) => [it.dataHash(chunk), chunk.length]));
    const range = it.Subtree.fromChunks(true, chunks, false);
    const session = new it.Session();
    session.put(3, chunks);
    const proof = tree.proof(1, 3);
    const opened = proof.open(tree.fileHash());
    const [part, whole] = [Buffer.concat(data.slice(1, 3)), Buffer.concat(data)];
    const [flat, flatProof, packed, hash] = [range.toFlat(), proof.toFlat(), it.Chunks.from(chunks).bytes, chunks[1][0]];
    const [json, sessionJson, proofJson, saved] = [range.jsonText(), session.jsonText(), proof.jsonText(), session.saved];
    const [beside, head] = [flatProof.nodes.length - proof.chunks.length, 1 + 2 * proof.numLevels];
    const blob = (fetch, prove) => it.VerifiedBlob.open(tree.fileHash(), fetch, prove);
    const first = tree.proof(0, 1);
    const readers = {
        "Subtree.fromJSON": [json, (given) => it.Subtree.fromJSON(given)],
        "Subtree.fromJSON of bytes": [Buffer.from(json), (given) => it.Subtree.fromJSON(given)],
        "Subtree.fromFlat": [[...flat.nodes], (nodes) => it.Subtree.fromFlat({ ...flat, nodes })],
        "Session.fromJSON": [sessionJson, (given) => it.Session.fromJSON(given)],
        "Session.restore of a subtree": [saved.runs[0][2], (given) => it.Session.restore({ ...saved, runs: [["3", "12", given]] })],
        "Session.restore of a hash": [hash.hex(), (given) => it.Session.restore({ ...saved, knownHashes: [given] })],
        "HashIndex.restore": [hash.hex(), (given) => it.HashIndex.restore([[chunks[2][0].hex(), "5"], [given, "7"]])],
        "RangeProof.fromJSON": [proofJson, (given) => it.RangeProof.fromJSON(given)],
        // Fewer nodes are those of fewer chunks.
        "RangeProof.fromFlat": [[...flatProof.nodes], (nodes) => it.RangeProof.fromFlat({ ...flatProof, nodes }), (count) => count > beside],
        "new RangeProof": [proof.bytes, (given) => new it.RangeProof(given), (length) => (length - head) % 40 === 0 && length > head + 40 * beside],
        "new Chunks": [packed, (given) => new it.Chunks(given), (length) => length % 40 === 0],
        "Chunks.fromJSON": [hash.hex(), (given) => it.Chunks.fromJSON([[given, "5"]])],
        "Chunks.fromJSON of a text": [JSON.stringify(it.Chunks.from(chunks)), (given) => it.Chunks.fromJSON(given)],
        "new Hash": [hash.bytes, (given) => new it.Hash(given)],
        "Hash.fromHex": [hash.hex(), (given) => it.Hash.fromHex(given)],
        "Hash.fromBase64": [hash.base64(), (given) => it.Hash.fromBase64(given)],
        "Hash.fromJSON": [JSON.stringify(hash), (given) => it.Hash.fromJSON(given)],
        checkOrThrow: [data[1], (given) => opened.checkOrThrow(0, given)],
        readOrThrow: [part, (given) => opened.readOrThrow(20, 22, given)],
        checking: [part, (given) => new Blob([given]).stream().pipeThrough(opened.checking())],
        "a fetch of a VerifiedBlob": [data[0], (given) => blob(() => given, () => first)],
        "a response of a VerifiedBlob": [data[0], (given) => blob(() => new Response(given), () => first)],
        "a proof of a VerifiedBlob": [first.jsonText(), (given) => blob(() => data[0], () => new Response(given))],
        hashChunks: [whole, (given) => it.hashChunks([given], [0, 7, whole.length])],
        hashCuts: [whole, (given) => it.hashCuts([given], [7, whole.length])],
    };
    return [readers, [tree, range, session, opened]];
}

test("what is cut off at any byte is refused by a named error, and leaves nothing", async () => {
    const { yurewha, room } = await small();
    const [readers, made] = readersOf(yurewha);
    const wanted = room();
    for (const [name, [whole, read, isWhole = () => false]] of Object.entries(readers)) {
        for (let length = 0; length <= whole.length; length++) {
            const error = await errorOf(read, whole.subarray ? whole.subarray(0, length) : whole.slice(0, length));
            const [kind] = error?.split(":") ?? [];
            if (length === whole.length || isWhole(length)) assert.equal(error, undefined, `${name}, ${length}`);
            else assert.ok(errors[kind]?.prototype instanceof errors.YurewhaError, `${name}, ${length} of ${whole.length}: ${error}`);
        }
        for (let k = 0; k < 100 && room() !== wanted; k++) {
            globalThis.gc();
            await setTimeout(10);
        }
        assert.equal(room(), wanted, name);
    }
    freeAll(made);

    async function errorOf(read, given) {
        const { value, error } = await outcome(read, given);
        freeAll(value);
        return error;
    }
});

test("a module that is cut off isn't loaded", async () => {
    for (let length = 0; length < BYTES.length; length += 4999) await assert.rejects(errors.load(BYTES.subarray(0, length)), WebAssembly.CompileError);
});

const MIB = 1 << 20;
const longData = Uint8Array.from({ length: 12 * MIB }, (_, k) => k >> 9);
const longTree = y.HashTree.fromChunks(y.dataHashes(longData, Array.from({ length: 13 }, (_, k) => k * MIB)).map((hash) => [hash, MIB]));

/** A file of twelve chunks of a MiB, and what was asked for of it: how many proofs and fetches, of how many MiB, and at most how many at once. */
async function asking(options) {
    const asked = { proofs: 0, fetches: 0, mib: 0, most: 0 };
    let open = 0;
    const counting = (call) => async (start, end) => {
        asked.most = Math.max(asked.most, ++open);
        await setTimeout(1);
        open--;
        return call(start, end);
    };
    const fetch = counting((start, end) => {
        asked.fetches++;
        asked.mib += (end - start) / MIB;
        return longData.slice(start, end);
    });
    const prove = counting((start, end) => {
        asked.proofs++;
        return longTree.proof(...longTree.chunksAt(start, end));
    });
    return [await y.VerifiedBlob.open(longTree.fileHash(), fetch, prove, options), asked];
}

test("a VerifiedBlob asks for no more than it needs, and for one thing at a time", async () => {
    const table = [
        ["it is opened", () => {}, [1, 1]],
        ["its first byte", (it) => it.slice(0, 1).bytes(), [1, 1], [2, 2]],
        ["a byte", (it) => it.slice(5 * MIB, 5 * MIB + 1).bytes(), [2, 2]],
        ["a byte twice", async (it) => [await it.slice(7 * MIB, 7 * MIB + 1).text(), await it.slice(7 * MIB, 7 * MIB + 1).text()], [2, 2], [3, 3]],
        ["bytes of two chunks", (it) => it.slice(5 * MIB - 1, 5 * MIB + 1).arrayBuffer(), [2, 3]],
        ["none", (it) => it.slice(5, 5).bytes(), [1, 1]],
        ["a slice of a slice", (it) => it.slice(5 * MIB).slice(MIB, MIB + 9).bytes(), [2, 2]],
        ["all but the first chunk", (it) => it.slice(MIB).bytes(), [4, 12]],
        ["all", (it) => it.bytes(), [4, 12], [4, 13]],
        ["the first piece of a stream, with one ahead", async (it, asked) => {
            const reader = it.slice(MIB).stream().getReader();
            await reader.read();
            while (asked.fetches < 3) await setTimeout(5);
            await setTimeout(50);
        }, [3, 9]],
        ["a stream that is cancelled unread", async (it) => it.stream().cancel(), [1, 1]],
        ["a stream that is cancelled after its first piece", async (it) => {
            const reader = it.slice(MIB).stream().getReader();
            await reader.read();
            await reader.cancel();
            await setTimeout(50);
            // A proof of the next piece was asked for, and its data isn't any more.
        }, [2, 5, 3]],
    ];
    for (const [what, read, kept, anew = kept] of table) {
        for (const [options, [fetches, mib, proofs = fetches]] of [[{}, kept], [{ cacheSize: 0 }, anew]]) {
            const [blob, asked] = await asking(options);
            await read(blob, asked);
            assert.deepEqual(asked, { proofs, fetches, mib, most: 1 }, `${what}, ${JSON.stringify(options)}`);
        }
    }
});

test("two reads at once come to what each does alone", async () => {
    const hashOf = (bytes) => `${bytes.length} ${y.dataHash(bytes)}`;
    const reads = {
        bytes: async (it) => hashOf(await it.bytes()),
        arrayBuffer: async (it) => hashOf(new Uint8Array(await it.arrayBuffer())),
        text: async (it) => hashOf(new TextEncoder().encode(await it.text())),
        "a part": async (it) => hashOf(await it.slice(MIB - 3, 5 * MIB).bytes()),
        "its stream": async (it) => `${await y.hashStream(it.stream())}`,
        "cuts of its stream": async (it) => `${await gotten(y.hashCuts(it.stream(), [5, MIB, 5 * MIB]))}`,
        "a stream that is cancelled": async (it) => {
            const reader = it.stream().getReader();
            await reader.read();
            return reader.cancel();
        },
    };
    const part = async (options) => (await asking(options))[0].slice(3 * MIB + 1, 9 * MIB);
    const alone = {};
    for (const [name, read] of Object.entries(reads)) alone[name] = await read(await part({}));
    const names = Object.keys(reads);
    for (const [k, one] of names.entries()) {
        for (const [n, two] of names.slice(k).entries()) {
            const it = await part(n % 2 ? {} : { cacheSize: 0 });
            assert.deepEqual(await Promise.all([reads[one](it), reads[two](it)]), [alone[one], alone[two]], `${one}, ${two}`);
        }
    }
});

test("what is freed while a stream is checked ends it, and two streams of one range don't disturb each other", async () => {
    const { make } = tableOf(y).OpenedRange;
    const range = make(2);
    const right = Uint8Array.of(1, 2, 3);
    const streams = [0, 1].map(() => range.checking());
    const [writers, readers] = [streams.map((it) => it.writable.getWriter()), streams.map((it) => it.readable.getReader())];
    for (const byte of right) {
        for (const k of [0, 1]) void writers[k].write(Uint8Array.of(byte));
        for (const k of [1, 0]) assert.deepEqual((await readers[k].read()).value, Uint8Array.of(byte));
    }
    for (const writer of writers) await writer.close();
    const stopped = range.checking();
    range.free();
    const read = new Response(new Blob([right]).stream().pipeThrough(stopped)).arrayBuffer();
    await assert.rejects(read, { name: "EmptyHandle" });
});
