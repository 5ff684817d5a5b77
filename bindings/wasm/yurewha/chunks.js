// Lists of chunks.

import { bytes, decimal, mustBe, pairOf, u64 } from "./arguments.js";
import { InvalidArguments } from "./errors.js";
import { HASH_LENGTH } from "./hash.js";
import { valueOf } from "./json.js";
import { inspected, showing, textless } from "./shown.js";

export const CHUNK_LENGTH = 40;

/** How many chunks Node's console shows by default. */
const MOST_SHOWN = 100;

/** The class `Chunks` and `packedOf`, the bytes of a list: in 40 bytes a hash, and its size as eight bytes, the least first. */
export function makeChunks({ Hash, rawOf }) {
    let isChunks, packedOf;
    class Chunks {
        #packed;

        static {
            isChunks = (chunks) => typeof chunks === "object" && chunks !== null && #packed in chunks;
            packedOf = (chunks) => (isChunks(chunks) ? chunks.#packed : packed(chunks));
        }

        constructor(packed = new Uint8Array()) {
            const block = bytes(packed, "packed chunks").slice();
            if (block.length % CHUNK_LENGTH !== 0) throw new InvalidArguments(mustBe("packed chunks", "have 40 bytes each", block));
            this.#packed = block;
            show(this);
        }

        static from(chunks) {
            return isChunks(chunks) ? chunks : new Chunks(packed(chunks));
        }

        static fromJSON(json) {
            const pairs = typeof json === "string" ? valueOf(json) : json;
            return new Chunks(packed([...pairs].map(read)));
        }

        get bytes() {
            return this.#packed.slice();
        }

        get length() {
            return this.#packed.length / CHUNK_LENGTH;
        }

        at(index) {
            const place = Math.trunc(index) || 0;
            const start = CHUNK_LENGTH * (place < 0 ? this.length + place : place);
            if (!(start >= 0 && start < this.#packed.length)) return undefined;
            const size = new DataView(this.#packed.buffer).getBigUint64(start + HASH_LENGTH, true);
            return [new Hash(this.#packed.subarray(start, start + HASH_LENGTH)), size];
        }

        slice(start = 0, end = this.length) {
            return new Chunks(this.#packed.subarray(...[start, end].map((index) => CHUNK_LENGTH * Math.trunc(index))));
        }

        *[Symbol.iterator]() {
            for (let place = 0; place < this.length; place++) yield this.at(place);
        }

        toJSON() {
            return Array.from(this, ([hash, size]) => [hash.hex(), `${size}`]);
        }
    }
    const show = showing(Chunks, ["bytes"]);
    textless(Chunks, "Chunks", "its bytes or toJSON()");
    inspected(Chunks, "Chunks", (chunks, inspect, { maxArrayLength }) => {
        const { length } = chunks;
        const most = Math.min(length, maxArrayLength ?? MOST_SHOWN);
        const more = most < length ? ` and ${length - most} more` : "";
        return `(${length}) ${inspect([...chunks.slice(0, most)])}${more}`;
    });

    function packed(chunks) {
        const pairs = [...chunks];
        const block = new Uint8Array(CHUNK_LENGTH * pairs.length);
        const view = new DataView(block.buffer);
        pairs.forEach((pair, k) => {
            const [hash, size] = pairOf(pair, `chunk ${k}`, "a hash and a size");
            block.set(rawOf(hash, `the hash of chunk ${k}`), CHUNK_LENGTH * k);
            view.setBigUint64(CHUNK_LENGTH * k + HASH_LENGTH, u64(size, `the size of chunk ${k}`), true);
        });
        return block;
    }

    /** A pair of `toJSON`. */
    function read(pair, k) {
        const [hex, size] = pairOf(pair, `chunk ${k}`, "a hex text and a size");
        return [Hash.fromHex(hex), decimal(size, `the size of chunk ${k}`)];
    }
    return { Chunks, packedOf };
}
