// The module that `dist/make` made, and instances of it.

import { readFileSync } from "node:fs";
import { test as unlimited } from "node:test";
import { instanceOver } from "../yurewha/instance.js";
import { Library } from "../yurewha/library.js";

export const ROOT = new URL("../../../", import.meta.url);
export const BYTES = readFileSync(new URL("bindings/wasm/yurewha/yurewha.wasm", ROOT));

/** A test, which fails if it takes more than five minutes. */
export const test = (name, run) => unlimited(name, { timeout: 300_000 }, run);

/** A library whose exports pass through `wrap`, and the package over it. */
export async function wrapped(bytes, wrap) {
    const { instance } = await WebAssembly.instantiate(bytes, {});
    const library = new Library(wrap(instance.exports));
    return { exports: instance.exports, library, yurewha: instanceOver(library) };
}

const leb = (value) => {
    const out = [];
    do {
        out.push((value & 127) | (value > 127 ? 128 : 0));
        value >>>= 7;
    } while (value);
    return out;
};
const readLeb = (bytes, at) => {
    let value = 0;
    for (let shift = 0; ; shift += 7) {
        const byte = bytes[at++];
        value += (byte & 127) * 2 ** shift;
        if (byte < 128) return [value, at];
    }
};

/** The module with a memory of at most this many pages. */
export function capped(bytes, pages) {
    const MEMORY = 5;
    for (let at = 8; at < bytes.length; ) {
        const [length, start] = readLeb(bytes, at + 1);
        if (bytes[at] === MEMORY) {
            const [least] = readLeb(bytes, start + 2);
            const body = [1, bytes[start + 1] | 1, ...leb(least), ...leb(Math.max(pages, least))];
            return Uint8Array.from([...bytes.subarray(0, at), MEMORY, ...leb(body.length), ...body, ...bytes.subarray(start + length)]);
        }
        at = start + length;
    }
    throw new Error("there is no memory");
}

export const pagesOf = (exports) => exports.memory.buffer.byteLength / 65536;

const BITS = 2n ** 64n - 1n;
const MIXED = new BigUint64Array(125_000);

/** The first bytes, of up to a million, of SplitMix64 from the seed 0, each number's lowest byte first. */
export function mixed(count) {
    if (MIXED[0] === 0n) {
        MIXED.forEach((_, k) => {
            let number = (BigInt(k + 1) * 0x9e3779b97f4a7c15n) & BITS;
            number = ((number ^ (number >> 30n)) * 0xbf58476d1ce4e5b9n) & BITS;
            number = ((number ^ (number >> 27n)) * 0x94d049bb133111ebn) & BITS;
            MIXED[k] = number ^ (number >> 31n);
        });
    }
    return new Uint8Array(MIXED.buffer, 0, count);
}

/** The chunks that a rule of the vectors says; tests/vectors/README.md has the rules. */
export function chunksOf({ Hash, dataHash }, list) {
    const [[rule, said]] = Object.entries(list);
    const ofWords = (...words) => {
        const block = new DataView(new ArrayBuffer(32));
        words.forEach((word, k) => block.setBigUint64(8 * k, BigInt(word), true));
        return new Hash(new Uint8Array(block.buffer));
    };
    const rules = {
        pattern: () => [...said].map((letter, k) => [ofWords(k + 1, 2 * k + 2, 3 * k + 3, 4 * k + 4 + (letter === "|" ? 0 : 1)), 7 + 100 * k]),
        drawn: () =>
            Array.from({ length: said.count }, (_, k) => [
                Hash.randomFromSeed(BigInt.asUintN(64, BigInt(said.firstSeed) + BigInt(k))),
                100 + ((977 * k) % 9901),
            ]),
        seeds: () => said.map((seed) => [seed === "0" ? new Hash() : Hash.randomFromSeed(BigInt(seed)), 100n * BigInt(seed)]),
        nodes: () => said.map(({ hash, size }) => [Hash.fromHex(hash), BigInt(size)]),
        counted: () =>
            Array.from({ length: said.count }, (_, k) => [ofWords(k, 0, 0, said.cutEvery > 0 && k % said.cutEvery === said.cutEvery - 1 ? 0 : 1), 1]),
        numbers: () => ofData(),
        chunkBytes: () => ofData(),
    };
    const ofData = () => dataOf(list).map((data) => [dataHash(data), data.length]);
    return rules[rule]();
}

/** The data of the chunks that a rule of the vectors says. */
export function dataOf({ chunkBytes, numbers }) {
    if (chunkBytes) return chunkBytes.map((hex) => Buffer.from(hex, "hex"));
    return Array.from({ length: numbers.count }, (_, k) => {
        const text = `${numbers.first + k} `;
        const length = numbers.lengths[k % numbers.lengths.length];
        return Buffer.from(text.repeat(Math.ceil(length / text.length)).slice(0, length));
    });
}
