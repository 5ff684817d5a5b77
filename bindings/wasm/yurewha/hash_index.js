// Indexes of hashes: a number for each of some hashes.

import { decimal, pairOf, u64 } from "./arguments.js";
import { Handles, disposable } from "./handle.js";
import { HASH_LENGTH } from "./hash.js";
import { inspected, showing, textless } from "./shown.js";

const NUMBER_LENGTH = 8;

/** Numbers as the module has them. */
function packedNumbers(numbers) {
    const listed = [...numbers];
    const view = new DataView(new ArrayBuffer(NUMBER_LENGTH * listed.length));
    listed.forEach((number, k) => view.setBigUint64(NUMBER_LENGTH * k, u64(number, `number ${k}`), true));
    return new Uint8Array(view.buffer);
}

/** The class `HashIndex` over a library. */
export function makeHashIndex(library, { Hash, rawOf, packedHashes, unpacked }) {
    const handles = new Handles(library, "yurewha_hash_index_free");
    let filled;

    // A caller's iterators and getters may free the index. So each call takes the pointer after the last of them has run.
    class HashIndex {
        #handle;

        static {
            filled = (hashes, numbers) => {
                const index = new HashIndex();
                try {
                    index.#insert(hashes, numbers);
                } catch (error) {
                    index.free();
                    throw error;
                }
                return index;
            };
        }

        constructor() {
            this.#handle = handles.make((made) => library.check(library.call("yurewha_hash_index_new", made)));
            handles.watch(this, this.#handle);
            show(this);
        }

        static restore(saved) {
            const pairs = [...saved].map((pair, k) => pairOf(pair, `entry ${k}`, "a hex text and a number"));
            const hashes = packedHashes(pairs.map(([hex]) => Hash.fromHex(hex)));
            return filled(hashes, packedNumbers(pairs.map(([, digits], k) => decimal(digits, `number ${k}`))));
        }

        get size() {
            const { pointer } = this.#handle;
            return library.over([8], (out) => {
                library.check(library.call("yurewha_hash_index_len", pointer, out));
                return library.count(out);
            });
        }

        insert(hashes, numbers) {
            return this.#insert(packedHashes(hashes), packedNumbers(numbers));
        }

        find(hashes) {
            return this.#numbersOf(packedHashes(hashes));
        }

        get(hash) {
            return this.#numbersOf(rawOf(hash, "a hash"))[0];
        }

        has(hash) {
            return this.get(hash) !== null;
        }

        entries() {
            const [hashes, numbers] = this.#lists();
            const view = new DataView(numbers.buffer);
            return unpacked(hashes).map((hash, k) => [hash, view.getBigUint64(NUMBER_LENGTH * k, true)]);
        }

        get saved() {
            return this.entries()
                .map(([hash, number]) => [hash.hex(), `${number}`])
                .sort();
        }

        clone() {
            return filled(...this.#lists());
        }

        free() {
            this.#handle.free();
        }

        /** Inserts packed hashes with packed numbers. */
        #insert(hashes, numbers) {
            const { pointer } = this.#handle;
            const [count, numberCount] = [BigInt(hashes.length / HASH_LENGTH), BigInt(numbers.length / NUMBER_LENGTH)];
            return library.over([hashes, numbers, 8], (hashesAt, numbersAt, out) => {
                const status = library.call("yurewha_hash_index_insert", pointer, hashesAt, count, numbersAt, numberCount, out);
                library.check(status, `each hash must have a number, got ${count} hashes and ${numberCount} numbers`);
                return library.count(out);
            });
        }

        /** The number of each of some packed hashes, or null. */
        #numbersOf(hashes) {
            const { pointer } = this.#handle;
            const count = hashes.length / HASH_LENGTH;
            const length = BigInt(count);
            const [found, numbers] = library.over([hashes, count, NUMBER_LENGTH * count], (at, foundAt, numbersAt) => {
                library.check(library.call("yurewha_hash_index_find", pointer, at, length, foundAt, length, numbersAt, length));
                return [library.read(foundAt, count), library.read(numbersAt, NUMBER_LENGTH * count)];
            });
            const view = new DataView(numbers.buffer);
            return Array.from(found, (isThere, k) => (isThere ? view.getBigUint64(NUMBER_LENGTH * k, true) : null));
        }

        /** All hashes, and the number of each at the same place, packed. */
        #lists() {
            const count = this.size;
            const length = BigInt(count);
            const { pointer } = this.#handle;
            return library.over([HASH_LENGTH * count, NUMBER_LENGTH * count], (hashesAt, numbersAt) => {
                library.check(library.call("yurewha_hash_index_entries", pointer, hashesAt, length, numbersAt, length));
                return [library.read(hashesAt, HASH_LENGTH * count), library.read(numbersAt, NUMBER_LENGTH * count)];
            });
        }
    }
    const show = showing(HashIndex, ["saved"]);
    textless(HashIndex, "HashIndex", "its saved lists");
    inspected(HashIndex, "HashIndex", ({ size }, inspect) => ` ${inspect({ size })}`);
    return disposable(HashIndex);
}
