// Freeing, and traps. Needs --expose-gc.

import assert from "node:assert/strict";
import { setTimeout } from "node:timers/promises";
import { EmptyHandle, SessionGap, SessionOverlap, Trapped } from "../yurewha/index.js";
import { AREA } from "../yurewha/library.js";
import { BYTES, chunksOf, test, wrapped } from "./support.js";

/** An instance that counts the blocks it has given out, and the calls of its exports. No call may get a block that was given back. */
async function counted() {
    const seen = { blocks: 0, calls: 0, trap: null };
    const freed = new Set();
    const wrap = (exports) =>
        new Proxy(exports, {
            get(target, name) {
                const found = target[name];
                if (typeof found !== "function") return found;
                return (...values) => {
                    seen.calls++;
                    if (seen.trap === name) throw new WebAssembly.RuntimeError("unreachable");
                    assert.ok(!values.some((value) => freed.has(value)), `${name} of a block that was given back`);
                    const result = found(...values);
                    if (name === "allocate") {
                        seen.blocks++;
                        freed.delete(result);
                    }
                    if (name === "release") {
                        seen.blocks--;
                        freed.add(values[0]);
                    }
                    return result;
                };
            },
        });
    // An object whose members can be replaced; those of an instance can't.
    return { ...(await wrapped(BYTES, (exports) => wrap({ ...exports }))), seen };
}
const list = (y, count) => chunksOf(y, { drawn: { firstSeed: "1", count } });

const openedRange = (y) => y.RangeProof.fromChunks(list(y, 3), 1, 2).openRoot(y.xorbHash(list(y, 3)));

/** Calls that run code of the caller's, each with an object that this code frees. */
function freeingCalls(y) {
    const hash = new y.Hash();
    const range = () => y.Subtree.fromChunks(false, list(y, 3), false);
    const session = () => new y.Session();
    const index = () => new y.HashIndex();
    /** What frees an object before it gives the rest. */
    const freeing = (object, ...given) => ({
        *[Symbol.iterator]() {
            object.free();
            yield* given;
        },
    });
    return {
        keepHashes: [session, (it) => it.keepHashes(freeing(it, hash))],
        "hashes of an index": [index, (it) => it.insert(freeing(it, hash), [1])],
        "numbers of an index": [index, (it) => it.insert([hash], freeing(it, 1))],
        find: [index, (it) => it.find(freeing(it, hash))],
        put: [session, (it) => it.put(0, freeing(it, [hash, 1]))],
        "a list of ranges": [range, (it) => y.Subtree.merge(freeing(it, it, range()))],
        "a list with a range twice": [range, (it) => y.Subtree.merge(freeing(it, it, it))],
        "a clone that was replaced": [range, (it) => Object.assign(it, { clone: () => (it.free(), range()) }) && y.Subtree.merge([it, it, ...freeing(it)])],
        "flat lists": [range, (it) => y.Subtree.fromFlat({ ...it.toFlat(), levels: freeing(it, [3, 0]) }) && it.numNodes],
        "a saved form": [session, (it) => y.Session.restore({ runs: [], knownHashes: freeing(it, hash.hex()) }) && it.numRuns],
    };
}

test("an object that the caller's code frees in a call isn't used after that", async () => {
    const { yurewha: y } = await counted();
    for (const [name, [make, call]] of Object.entries(freeingCalls(y))) assert.throws(() => call(make()), EmptyHandle, name);
});

test("a subclass of Uint8Array can't tell another length or other elements", async () => {
    const { yurewha: y } = await counted();
    let asked = 0;
    class Odd extends Uint8Array {
        get length() {
            return asked++ % 2 ? 1 << 22 : 0;
        }
        get byteLength() {
            return 1 << 22;
        }
        *[Symbol.iterator]() {
            yield 1;
        }
        subarray() {
            return new Uint8Array(1 << 22);
        }
        slice() {
            return new Uint8Array(3);
        }
    }
    const [odd, plain] = [new Odd(80).fill(7), new Uint8Array(80).fill(7)];
    asked = 0;
    const [odd32, plain32] = [new Odd(32).fill(7), new Uint8Array(32).fill(7)];
    const calls = [
        (data) => y.dataHash(data), (data) => y.internalNodeHash(data), (data) => new y.Hasher().update(data).digest(),
        (data) => new y.FileHasher().update(data).root(), (data) => new y.Hash(new Uint8Array(32).fill(new y.Chunker().nextBoundary(data) ?? 7)),
        (data) => y.xorbHash(new y.Chunks(data)), (data) => y.dataHashes(data, [0, 80])[0],
    ];
    for (const call of calls) assert.equal(call(odd).hex(), call(plain).hex(), `${call}`);
    const others = [(key) => new y.Hash(key), (key) => y.Hasher.keyed(key).digest(), (key) => y.fileHash([], key), (key) => y.fileHash(list(y, 2), key)];
    for (const call of others) assert.equal(call(odd32).hex(), call(plain32).hex(), `${call}`);
    const range = y.Subtree.fromChunks(true, list(y, 2), true);
    const json = new Odd(Buffer.from(range.jsonText()));
    assert.ok(y.Subtree.fromJSON(json).equals(range));
    const fake = Object.defineProperty(new Int8Array(32), Symbol.toStringTag, { value: "Uint8Array" });
    assert.throws(() => new y.Hash(fake), TypeError);
    assert.equal(asked, 0);
});

test("every block goes back", async () => {
    const { yurewha: y, seen } = await counted();
    const before = seen.blocks;
    const chunks = list(y, 100);
    const [front, back] = [y.Subtree.fromChunks(true, chunks.slice(0, 50), false), y.Subtree.fromChunks(false, chunks.slice(50), true)];
    const session = new y.Session();
    session.put(0, chunks);
    const [[, , run]] = session.runs();
    session.clone().free();
    y.Session.restore(session.saved).free();
    y.Session.fromJSON(session.jsonText()).free();
    for (const text of [front.jsonText(), session.jsonText().replace('"end":100', '"end":0')]) assert.throws(() => y.Session.fromJSON(text));
    for (const total of [99, 101]) assert.throws(() => session.root(total), SessionGap);
    assert.throws(() => session.put(7, chunks), SessionOverlap);
    assert.throws(() => session.putRange(7, 9, run), SessionOverlap);
    for (const other of [session, y.Session.restore(session.saved)]) {
        assert.throws(() => session.join(other), SessionOverlap);
        if (other !== session) other.free();
    }
    session.run(0)[2].free();
    session.gaps(200);
    session.finish(100, new Uint8Array(32));
    assert.throws(() => y.Session.restore({ runs: [...session.saved.runs, ["x", "y", front.jsonText()]], knownHashes: [] }));
    const made = [front.clone(), y.Subtree.merge([front, back]), y.Subtree.merge([run, run]), y.Subtree.fromJSON(front.jsonText()), y.Subtree.fromFlat(back.toFlat())];
    front.mergeInto(back);
    run.mergeInto(run);
    assert.throws(() => front.mergeInto(back));
    assert.throws(() => y.Subtree.merge([run, front, run]));
    for (const text of ["{}", " ".repeat(2 * AREA)]) assert.throws(() => y.Subtree.fromJSON(text));
    assert.throws(() => session.run(1));
    const tree = y.HashTree.fromChunks(chunks);
    const proof = tree.proof(3, 90);
    const opened = proof.open(tree.fileHash());
    for (const call of [() => tree.proof(3, 3), () => proof.openRoot(new y.Hash()), () => y.HashTree.fromChunks(5), () => y.RangeProof.fromJSON("{}")]) {
        assert.throws(call);
    }
    assert.equal(opened.check(0, new Uint8Array()), null);
    y.RangeProof.fromChunks(chunks, 3, 4);
    assert.equal(tree.diff(tree), null);
    const index = new y.HashIndex();
    index.insert(chunks.map(([hash]) => hash), chunks.map((_, k) => k));
    index.clone().free();
    y.HashIndex.restore(index.saved).free();
    const hasher = new y.FileHasher();
    for (const length of [9000, 2 * AREA]) hasher.update(new Uint8Array(length)).root();
    for (const call of [() => hasher.update("text"), () => hasher.fileHash(new Uint8Array(31))]) assert.throws(call);
    for (const given of [[[], [1]], [[1], [1]]]) assert.throws(() => index.insert(...given));
    made.push(tree, opened, index, hasher);
    y.xorbHash(y.Chunks.from(list(y, 30_000)));
    for (const object of [front, back, run, session, ...made]) object.free();
    assert.equal(seen.blocks, before);
});

test("an object is freed by Symbol.dispose", async () => {
    const { yurewha: y, seen } = await counted();
    const before = seen.blocks;
    for (const object of [y.Subtree.fromChunks(true, [], true), new y.Session(), new y.HashIndex(), y.HashTree.fromChunks([]), openedRange(y), new y.FileHasher()]) {
        object[Symbol.dispose]();
        assert.throws(() => object.numRuns ?? object.numNodes ?? object.numChunks ?? object.size, EmptyHandle);
    }
    assert.equal(seen.blocks, before);
});

test("an object that nobody can reach is freed some time later", async () => {
    const { yurewha: y, seen } = await counted();
    const before = seen.blocks;
    const kept = new y.Session();
    (() => {
        const made = () => [
            y.Subtree.fromChunks(true, list(y, 5), false), new y.Session(), new y.HashIndex(), y.HashTree.fromChunks(list(y, 5)), openedRange(y),
            new y.FileHasher(),
        ];
        for (let k = 0; k < 200; k++) made().forEach((it, n) => n + k === 0 && it.free());
    })();
    for (let k = 0; k < 50 && seen.blocks > before + 1; k++) {
        globalThis.gc();
        await setTimeout(10);
    }
    assert.equal(seen.blocks, before + 1);
    assert.equal(kept.numRuns, 0);
});

test("what is kept of a file that nobody can reach is freed, and so is a part whose data never comes", async () => {
    const { yurewha: y, seen } = await counted();
    const before = seen.blocks;
    await (async () => {
        const tree = y.HashTree.fromChunks([[y.dataHash(new Uint8Array(9)), 9]]);
        const never = new Promise(() => {});
        let stalls = false;
        const fetch = () => (stalls ? never : new Uint8Array(9));
        const file = await y.VerifiedBlob.open(tree.fileHash(), fetch, () => tree.proof(0, 1), { cacheSize: 0 });
        stalls = true;
        void file.slice(0, 3).bytes();
        await setTimeout(5);
        tree.free();
        assert.equal(seen.blocks, before + 2);
    })();
    for (let k = 0; k < 50 && seen.blocks > before; k++) {
        globalThis.gc();
        await setTimeout(10);
    }
    assert.equal(seen.blocks, before);
});

test("after a trap nothing of the instance is called again", async () => {
    const TRAPS = {
        yurewha_data_hash: (y) => y.dataHash(new Uint8Array(3)),
        yurewha_xorb_hash: (y) => y.xorbHash(list(y, 40_000)),
        yurewha_subtree_merge_into_counted: (y, range) => range.mergeInto(range.clone()),
        yurewha_subtree_from_chunks: (y) => y.Subtree.fromChunks(true, [], true),
        yurewha_session_new: (y) => new y.Session(),
        yurewha_subtree_free: (y, range) => range.free(),
        allocate: (y, range) => range.clone(),
    };
    for (const [name, call] of Object.entries(TRAPS)) {
        const { yurewha: y, seen } = await counted();
        const range = y.Subtree.fromChunks(false, list(y, 3), false);
        const hash = new y.Hash();
        const session = new y.Session();
        const hasher = new y.Hasher();
        seen.trap = name;
        const ofTrap = (error) => error instanceof Trapped && error.cause instanceof WebAssembly.RuntimeError;
        assert.throws(() => call(y, range), ofTrap, name);
        const { calls } = seen;
        seen.trap = null;
        const later = [
            () => call(y, range), () => hash.base64(), () => hash.equals(hash), () => hasher.digest(), () => hasher.update(new Uint8Array(1)),
            () => range.numNodes, () => range.clone(), () => session.root(0), () => new y.Session(), () => y.xorbHash([]),
        ];
        for (const it of later.slice(name === "yurewha_subtree_free" ? 1 : 0)) assert.throws(it, ofTrap, `${name}: ${it}`);
        range.free();
        session.free();
        assert.deepEqual(y.Hash.fromHex(hash.hex()).bytes, new Uint8Array(32));
        assert.equal(seen.calls, calls, name);
    }
});
