// Indexes of hashes: a number for each of some hashes.

import assert from "node:assert/strict";
import * as errors from "../yurewha/index.js";
import { STATUS } from "../yurewha/errors.js";
import { AREA } from "../yurewha/library.js";
import { BYTES, test, wrapped } from "./support.js";

const MAX = 2n ** 64n - 1n;
const y = await errors.load(BYTES);
const [one, two, three] = [1, 2, 3].map((seed) => y.Hash.randomFromSeed(seed));

/** An index of these entries. */
function indexOf(...entries) {
    const index = new y.HashIndex();
    index.insert(entries.map(([hash]) => hash), entries.map(([, number]) => number));
    return index;
}

/** The hash of four words. */
function ofWords(words) {
    const view = new DataView(new ArrayBuffer(32));
    words.forEach((word, k) => view.setBigUint64(8 * k, word, true));
    return new y.Hash(new Uint8Array(view.buffer));
}

test("the number that came first stays", () => {
    const index = new y.HashIndex();
    assert.deepEqual([index.size, index.get(one), index.find([]), index.entries()], [0, null, [], []]);
    assert.equal(index.insert([one, two, one], [0, MAX, 5]), 2);
    assert.equal(index.insert(new Set([two, one]), [6n, 7].values()), 0);
    assert.equal(index.insert([], []), 0);
    assert.deepEqual(index.find([three, two, one, two]), [null, MAX, 0n, MAX]);
    assert.deepEqual([one, two, three].map((hash) => index.get(hash)), [0n, MAX, null]);
    assert.deepEqual([one, two, three].map((hash) => index.has(hash)), [true, true, false]);
    assert.equal(index.size, 2);
});

test("drawn entries are found as in a Map", () => {
    let seed = 1;
    const below = (bound) => (seed = (seed * 48271) % 2147483647) % bound;
    // Hashes that have words in common, so that no single word tells them apart.
    const hash = () => ofWords(Array.from({ length: 4 }, () => [0n, 1n, MAX][below(3)]));
    for (let round = 0; round < 100; round++) {
        const [index, map] = [new y.HashIndex(), new Map()];
        for (let puts = below(6); puts > 0; puts--) {
            const hashes = Array.from({ length: below(40) }, hash);
            const numbers = hashes.map(() => BigInt(below(2 ** 31)) << 33n);
            const before = map.size;
            hashes.forEach((it, k) => map.has(it.hex()) || map.set(it.hex(), numbers[k]));
            assert.equal(index.insert(hashes, numbers), map.size - before);
            assert.equal(index.size, map.size);
        }
        const sought = Array.from({ length: 50 }, hash);
        const wanted = sought.map((it) => map.get(it.hex()) ?? null);
        assert.deepEqual(index.find(sought), wanted);
        assert.deepEqual(sought.map((it) => index.get(it)), wanted);
        assert.deepEqual(new Map(index.entries().map(([it, number]) => [it.hex(), number])), map);
        index.free();
    }
});

test("more hashes than the area of calls has room for have their numbers", () => {
    const count = AREA / 32 + 1000;
    const hashes = Array.from({ length: count }, (_, k) => ofWords([BigInt(k), ~BigInt(k), 0n, 7n]));
    const index = new y.HashIndex();
    assert.equal(index.insert(hashes, hashes.map((_, k) => BigInt(k) << 32n)), count);
    assert.ok(index.find(hashes).every((number, k) => number === BigInt(k) << 32n));
    const clone = index.clone();
    index.free();
    assert.deepEqual([clone.size, clone.get(hashes.at(-1)), clone.get(one)], [count, BigInt(count - 1) << 32n, null]);
    const entries = clone.entries();
    assert.ok(entries.length === count && entries.every(([hash, number]) => hash.equals(hashes[Number(number >> 32n)])));
});

test("a clone of an index is apart", () => {
    const index = indexOf([one, 0], [two, MAX]);
    const clone = index.clone();
    assert.deepEqual([index.insert([three], [3]), clone.insert([three, two], [4, 5])], [1, 1]);
    assert.deepEqual(index.find([one, two, three]), [0n, MAX, 3n]);
    index.free();
    assert.deepEqual(clone.find([one, two, three]), [0n, MAX, 4n]);
});

test("an index is restored from what was saved", async () => {
    const saved = [[one, 0], [two, MAX], [three, 7]].map(([hash, number]) => [hash.hex(), `${number}`]).sort();
    const index = indexOf([three, 7], [one, 0], [two, MAX]);
    assert.deepEqual(index.saved, saved);
    const other = await errors.load(BYTES);
    for (const sent of [saved, structuredClone(index).saved, JSON.parse(JSON.stringify(index)).saved]) {
        const restored = other.HashIndex.restore(sent);
        assert.deepEqual(restored.saved, saved);
        assert.equal(restored.get(other.Hash.randomFromSeed(2)), MAX);
    }
    const hex = one.hex();
    for (const wrong of [null, 5, {}, "ab", [[hex]], [[hex, 1]], [[hex, "01"]], [[hex, "-1"]], [[hex, ""]], [[1, "1"]], [[hex, "1", "2"]]]) {
        assert.throws(() => y.HashIndex.restore(wrong), TypeError, JSON.stringify(wrong));
    }
    assert.throws(() => y.HashIndex.restore([[hex, `${MAX + 1n}`]]), RangeError);
    assert.throws(() => y.HashIndex.restore([["0", "1"]]), errors.InvalidText);
});

test("a call that throws adds nothing", () => {
    const index = indexOf([one, 7]);
    const failing = function* () {
        yield two;
        throw new Error("of the caller");
    };
    const table = [
        [[[two, three], [1]], new errors.InvalidArguments("each hash must have a number, got 2 hashes and 1 numbers")],
        [[[two], [1, 2]], errors.InvalidArguments],
        [[[], [1]], errors.InvalidArguments],
        [[[two, "00"], [1, 2]], new TypeError('hash 1 must be a Hash of the same module, got "00"')],
        [[[two], ["1"]], new TypeError('number 0 must be a BigInt or a safe integer, got "1"')],
        [[[two, three], [1, MAX + 1n]], new RangeError(`number 1 must be a number from 0 to 2^64 - 1, got ${MAX + 1n}`)],
        [[[two], [-1]], RangeError],
        [[[two], [1.5]], TypeError],
        [[two, [1]], TypeError],
        [[[two], 1], TypeError],
        [[[two]], TypeError],
        [[failing(), [1]], new Error("of the caller")],
    ];
    for (const [given, error] of table) assert.throws(() => index.insert(...given), error);
    assert.deepEqual([index.size, index.find([one, two, three])], [1, [7n, null, null]]);
});

test("an index that can't be filled is freed", async () => {
    let [blocks, refuses] = [0, false];
    const { yurewha } = await wrapped(BYTES, (exports) => ({
        ...exports,
        allocate: (size) => (blocks++, exports.allocate(size)),
        release: (at) => (blocks--, exports.release(at)),
        yurewha_hash_index_insert: (...given) => (refuses ? STATUS.MEMORY : exports.yurewha_hash_index_insert(...given)),
    }));
    const index = yurewha.HashIndex.restore([[one.hex(), "7"]]);
    const before = blocks;
    refuses = true;
    for (const call of [() => index.clone(), () => yurewha.HashIndex.restore(index.saved)]) assert.throws(call, errors.OutOfMemory);
    assert.deepEqual([blocks, index.size], [before, 1]);
});

test("look-ups take hashes of the same instance", async () => {
    const [index, foreign] = [indexOf([one, 7]), new (await errors.load(BYTES)).Hash()];
    for (const [value, got] of [[null, "null"], ["00", '"00"'], [foreign, "an object"], [one.bytes, "a Uint8Array of 32 bytes"]]) {
        assert.throws(() => index.get(value), new TypeError(`a hash must be a Hash of the same module, got ${got}`));
        assert.throws(() => index.has(value), TypeError);
        assert.throws(() => index.find([one, value]), new TypeError(`hash 1 must be a Hash of the same module, got ${got}`));
    }
    for (const value of [null, 5, one]) assert.throws(() => index.find(value), TypeError);
});
