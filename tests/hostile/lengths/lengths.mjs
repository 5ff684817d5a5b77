// Compares the hashes of the WebAssembly module with those of the cases that `lengths --cases` writes to standard input.

import { readFileSync } from "node:fs";
import { Library } from "../../../bindings/wasm/yurewha/library.js";

const STATE_LENGTH = 2048;
const WAITING = 64;
const COUNT = WAITING + 54 * 32 + 64;

const module = readFileSync(new URL("../../../bindings/wasm/yurewha/yurewha.wasm", import.meta.url));
const { instance } = await WebAssembly.instantiate(module, {});
const library = new Library(instance.exports);

// All is little-endian here, so lists of numbers are read where they are.
const input = readFileSync(0);
let at = 0;
const taken = (length) => input.subarray(at, (at += length));
const number = () => taken(4).readUInt32LE();
const message = taken(number());

const [state, hash, room] = [STATE_LENGTH, 32, message.length].map((size) => library.allocate(size));

function dataHash(data) {
    library.write(room, data);
    library.call("yurewha_data_hash", room, BigInt(data.length), hash);
}

/** Gives a hasher the message in pieces, and asks for the hash. */
function update(lengths) {
    let done = 0;
    for (const length of lengths) {
        library.write(room, message.subarray(done, done + length));
        library.check(library.call("yurewha_hasher_update", state, room, BigInt(length)));
        done += length;
    }
    library.call("yurewha_hasher_finalize", state, hash);
}

const lengths = () => Array.from({ length: number() }, number);

// What each kind of case asks for, in the order of `Kind` in lengths.cc.
const kinds = [
    () => dataHash(message.subarray(0, number())),
    () => {
        library.call("yurewha_hasher_begin_data", state);
        update(lengths());
    },
    () => {
        const count = taken(8).readBigUInt64LE() * 1024n;
        library.write(room, taken(32));
        library.call("yurewha_hasher_begin_keyed", state, room);
        library.write(state + WAITING, taken(32 * number()));
        const bytes = Buffer.alloc(8);
        bytes.writeBigUInt64LE(count);
        library.write(state + COUNT, bytes);
        update(lengths());
    },
];

let [checks, failed] = [0, 0];
while (at < input.length) {
    const kind = number();
    kinds[kind]();
    checks += 1;
    if (Buffer.compare(taken(32), library.read(hash, 32)) && (failed += 1) <= 10) console.log(`case ${checks} of kind ${kind}`);
}
console.log(`${checks} checks, ${failed} failed`);
process.exitCode = failed || !checks ? 1 : 0;
