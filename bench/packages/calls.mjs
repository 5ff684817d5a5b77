// Prints the processor time of calls of the JavaScript package in nanoseconds: the least of some turns. calls.c and calls.py do the same.

import { load } from "../../bindings/wasm/yurewha/index.js";

const y = await load();
const [MESSAGE, MESSAGES, CHUNKS, TURNS] = [64 << 10, 2048, 100_000, 7];
// More bytes than any cache holds.
const messages = Uint8Array.from({ length: MESSAGE * MESSAGES }, (_, i) => i % 251);
const views = Array.from({ length: MESSAGES }, (_, i) => messages.subarray(i * MESSAGE, (i + 1) * MESSAGE));
const chunks = y.Chunks.from(Array.from({ length: CHUNKS }, (_, i) => [y.Hash.randomFromSeed(i), 100 + (i % 9900)]));

const print = (name, count, calls) => {
    let least = Infinity;
    for (let turn = 0; turn < TURNS; turn++) {
        const begun = process.cpuUsage();
        calls();
        const { user, system } = process.cpuUsage(begun);
        least = Math.min(least, 1000 * (user + system));
    }
    console.log(`${name} ${Math.round(least / count)}`);
};

print("hot", MESSAGES, () => views.forEach(() => y.dataHash(views[0])));
print("cold", MESSAGES, () => views.forEach((message) => y.dataHash(message)));
print("root", 1, () => y.xorbHash(chunks));
