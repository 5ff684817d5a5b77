// Readers of every kind get of a VerifiedBlob's stream what they get of a Blob's.

import assert from "node:assert/strict";
import { load } from "../yurewha/index.js";
import { BYTES, test } from "./support.js";

const y = await load(BYTES);
/** A file of more bytes than a stream fetches at once. */
const CHUNK = 100_003;
const data = Uint8Array.from({ length: 50 * CHUNK }, (_, k) => k >> 7);
const chunks = y.dataHashes(data, Array.from({ length: 51 }, (_, k) => k * CHUNK)).map((hash) => [hash, CHUNK]);
const tree = y.HashTree.fromChunks(chunks);
const fetch = (start, end) => data.subarray(start, end);
const verified = await y.VerifiedBlob.open(tree.fileHash(), fetch, (start, end) => tree.proof(...tree.chunksAt(start, end)));
const blob = new Blob([data]);

/** Numbers below others, which are the same in each run. */
function drawing(seed) {
    let count = 0;
    return (below) => Number(y.Hash.randomFromSeed(1000 * seed + count++).remainder(below));
}

/** All that a reader of some kind gets: the bytes, how the stream ends, and what one more read gives. */
async function gotten(stream, { byob, rooms }) {
    const reader = stream.getReader(byob ? { mode: "byob" } : {});
    const read = (room) => reader.read(...(byob ? [new Uint8Array(room)] : []));
    const found = [];
    let ended = null;
    while (!ended) {
        // All of these are asked for at once.
        for (const { done, value } of await Promise.all(rooms.map(read))) {
            assert.ok(!ended || done, "nothing comes after the end");
            if (done) ended = { length: value?.length, room: value?.buffer.byteLength > 0 };
            else found.push(value);
        }
    }
    const more = await read(9);
    await reader.closed;
    return [Buffer.concat(found), ended, more];
}

/** What the readers of both branches of a stream get. */
async function teed(stream, kinds) {
    return Promise.all(stream.tee().map((branch, k) => gotten(branch, kinds[k])));
}

/** What reads give that wait while a stream is cancelled, and what comes after that. */
async function cancelled(stream, { byob, rooms }) {
    const reader = stream.getReader(byob ? { mode: "byob" } : {});
    const read = (room) => reader.read(...(byob ? [new Uint8Array(room)] : []));
    await read(rooms[0]);
    const waiting = rooms.slice(1).map(read);
    await reader.cancel("enough");
    const answers = await Promise.all(waiting);
    await reader.closed;
    return [answers.at(-1)?.done, (await read(9)).done];
}

test("readers of every kind get what they get of a Blob", async () => {
    for (let seed = 1; seed <= 60; seed++) {
        const draw = drawing(seed);
        const kind = () => ({ byob: draw(3) > 0, rooms: Array.from({ length: 1 + draw(4) }, () => 50_000 + draw(3_000_000)) });
        const [kinds, run] = [[kind(), kind()], draw(4)];
        const [start, length] = [draw(data.length), draw(2) ? draw(data.length) : draw(200_000)];
        const given = `seed ${seed}: ${JSON.stringify({ kinds, run, start, length })}`;
        const [mine, its] = [verified, blob].map((it) => it.slice(start, start + length).stream());
        const how = { 0: teed, 1: cancelled }[run] ?? gotten;
        const [found, wanted] = [await how(mine, run === 0 ? kinds : kinds[0]), await how(its, run === 0 ? kinds : kinds[0])];
        assert.deepEqual(found, wanted, given);
    }
});

test("the last of several reads at once learns that the stream has ended", async () => {
    for (const length of [0, 1, 5000]) {
        const reader = verified.slice(0, length).stream().getReader({ mode: "byob" });
        const reads = [8192, 200_000, 8192].map((room) => reader.read(new Uint8Array(room)));
        const [last] = (await Promise.all(reads)).slice(-1);
        assert.deepEqual([last.done, last.value.length, last.value.buffer.byteLength], [true, 0, 8192]);
    }
});
