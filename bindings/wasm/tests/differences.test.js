// Where two files differ.

import assert from "node:assert/strict";
import * as errors from "../yurewha/index.js";
import { BYTES, test } from "./support.js";

const y = await errors.load(BYTES);
const treeOf = (chunks, it = y) => it.HashTree.fromChunks(chunks);
/** Chunk number `i`, which has 100 `i` bytes. */
const chunksOf = (...numbers) => numbers.map((i) => [y.Hash.randomFromSeed(i), 100 * i]);
const sizeOf = (chunks) => chunks.reduce((sum, [, size]) => sum + BigInt(size), 0n);

/** Where two lists of chunks differ. */
function difference(first, second) {
    const trees = [first, second].map((chunks) => treeOf(chunks));
    try {
        return trees[0].diff(trees[1]);
    } finally {
        trees.forEach((tree) => tree.free());
    }
}

/** The longest list that both begin with, and then the longest one that what is left of both ends with. */
function plainDifference(one, other) {
    const [texts, others] = [one, other].map((chunks) => chunks.map(([hash, size]) => `${hash} ${size}`));
    const longest = (most, same) => Array.from({ length: most + 1 }, (_, k) => most - k).find(same);
    const shorter = Math.min(texts.length, others.length);
    const first = longest(shorter, (count) => `${texts.slice(0, count)}` === `${others.slice(0, count)}`);
    const last = (list, count) => `${list.slice(list.length - count)}`;
    const after = longest(shorter - first, (count) => last(texts, count) === last(others, count));
    const [end, otherEnd] = [texts.length - after, others.length - after];
    const [start, stop] = [first, end].map((place) => sizeOf(one.slice(0, place)));
    const same = `${texts}` === `${others}`;
    return same ? null : { first, end, otherEnd, start, stop, otherStop: sizeOf(other.slice(0, otherEnd)) };
}

test("a difference says chunks and bytes of both files", () => {
    const table = [
        [[1, 2, 3], [1, 4, 3], [1, 2, 2], [100n, 300n, 500n]],
        [[1, 4, 5, 3], [1, 2, 3], [1, 3, 2], [100n, 1000n, 300n]],
        [[1, 2, 3], [1, 3], [1, 2, 1], [100n, 300n, 100n]],
        [[1, 3], [1, 2, 3], [1, 1, 2], [100n, 100n, 300n]],
        [[1, 2], [1, 2, 3], [2, 2, 3], [300n, 300n, 600n]],
        [[2, 3], [1, 2, 3], [0, 0, 1], [0n, 0n, 100n]],
        [[], [1, 2], [0, 0, 2], [0n, 0n, 300n]],
        [[1, 2], [], [0, 2, 0], [0n, 300n, 0n]],
        // No chunk counts on both sides.
        [[1, 1, 1], [1], [1, 3, 1], [100n, 300n, 100n]],
        [[1, 2, 1], [1, 2, 1, 2, 1], [3, 3, 5], [400n, 400n, 700n]],
        // A chunk without bytes.
        [[1, 0], [1], [1, 2, 1], [100n, 100n, 100n]],
    ];
    for (const [one, other, [first, end, otherEnd], [start, stop, otherStop]] of table) {
        assert.deepEqual(difference(chunksOf(...one), chunksOf(...other)), { first, end, otherEnd, start, stop, otherStop }, `${one} | ${other}`);
    }
});

test("files of the same chunks don't differ", () => {
    for (const numbers of [[], [1], [1, 1], [1, 2, 3]]) {
        const tree = treeOf(chunksOf(...numbers));
        assert.deepEqual([tree.diff(tree), tree.diff(treeOf(chunksOf(...numbers))), tree.numChunks], [null, null, numbers.length]);
    }
});

test("places in a difference are of 64 bits", () => {
    const [a, b, c] = [2n ** 32n, 2n ** 33n, 2n ** 63n + 1n].map((size, k) => [y.Hash.randomFromSeed(k), size]);
    const found = difference([a, b, c], [a, c]);
    assert.deepEqual([found.start, found.stop, found.otherStop], [2n ** 32n, 3n * 2n ** 32n, 2n ** 32n]);
    assert.equal(difference([b, c], [c, b]).stop, 2n ** 63n + 2n ** 33n + 1n);
});

test("drawn lists differ where plain code says", () => {
    let seed = 1;
    const below = (bound) => (seed = (seed * 48271) % 2147483647) % bound;
    const hashes = [0, 1].map((it) => y.Hash.randomFromSeed(it));
    const drawn = (most) => Array.from({ length: below(most) }, () => [hashes[below(2)], below(2)]);
    for (let round = 0; round < 1500; round++) {
        // Two lists that often begin and end with the same chunks.
        const [front, middle, other, end] = [4, 8, 8, 4].map(drawn);
        const [one, two] = [middle, other].map((it) => [...front, ...it, ...end]);
        for (const pair of [[one, two], [two, one], [one, one]]) assert.deepEqual(difference(...pair), plainDifference(...pair), `${round}`);
    }
});

test("long lists differ where one was edited", () => {
    const list = Array.from({ length: 5000 }, (_, k) => [y.Hash.randomFromSeed(k), k]);
    const added = (count) => Array.from({ length: count }, (_, k) => [y.Hash.randomFromSeed(10_000 + k), 7]);
    for (const [first, end, count] of [[0, 0, 3], [2500, 2501, 1], [2500, 2700, 0], [4999, 5000, 7], [5000, 5000, 1], [0, 5000, 5]]) {
        const edited = [...list.slice(0, first), ...added(count), ...list.slice(end)];
        const start = sizeOf(list.slice(0, first));
        const [stop, otherStop] = [start + 7n * BigInt(count), sizeOf(list.slice(0, end))];
        assert.deepEqual(difference(edited, list), { first, end: first + count, otherEnd: end, start, stop, otherStop });
    }
});

test("a tree differs from a tree of the same instance alone", async () => {
    const tree = treeOf(chunksOf(1));
    const other = treeOf([], await errors.load(BYTES));
    for (const [value, got] of [[null, "null"], [undefined, "undefined"], [5, "5"], [other, "an object"], [[], "an array"]]) {
        assert.throws(() => tree.diff(value), new TypeError(`the other must be a HashTree of the same module, got ${got}`));
    }
    assert.throws(() => tree.diff(chunksOf(1)), TypeError);
});
