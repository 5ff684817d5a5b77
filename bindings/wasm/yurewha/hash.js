// Hashes: values of 32 bytes.

import { bytes, mustBe, string, text, u64, wrongType } from "./arguments.js";
import { BASE64_LENGTH, HEX_LENGTH } from "./constants.js";
import { InvalidArguments, InvalidText, STATUS } from "./errors.js";
import { valueOf } from "./json.js";
import { inspected, showing } from "./shown.js";

export const HASH_LENGTH = 32;
/** The bytes of the default hash. */
const ZEROS = new Uint8Array(HASH_LENGTH);
const BASE64 = "be 43 characters that base64() gives";
const decoder = new TextDecoder();

/** The two hex digits of each byte. */
const DIGITS = Array.from({ length: 256 }, (_, byte) => byte.toString(16).padStart(2, "0"));
/** The value of the hex digit with some code. Other codes have none, or one above 15. */
const VALUES = new Uint8Array(128).fill(255);
[..."0123456789abcdef"].forEach((digit, value) => {
    for (const it of [digit, digit.toUpperCase()]) VALUES[it.charCodeAt(0)] = value;
});

/** The hex text of a hash. It has each group of eight bytes in reverse. */
function hexOf(raw) {
    let hex = "";
    for (let place = 0; place < HASH_LENGTH; place++) hex += DIGITS[raw[place ^ 7]];
    return hex;
}

/** The bytes of the hash with some hex text, or null if a text isn't 64 hex digits. */
function ofHex(hex) {
    if (hex.length !== HEX_LENGTH) return null;
    const raw = new Uint8Array(HASH_LENGTH);
    for (let place = 0; place < HASH_LENGTH; place++) {
        const high = VALUES[hex.charCodeAt(2 * place)];
        const low = VALUES[hex.charCodeAt(2 * place + 1)];
        if (!(high < 16 && low < 16)) return null;
        raw[place ^ 7] = 16 * high + low;
    }
    return raw;
}

/** A copy of 32 bytes. */
export function thirtyTwo(value, what) {
    const found = bytes(value, what);
    if (found.length !== HASH_LENGTH) throw new InvalidArguments(mustBe(what, "have 32 bytes", found));
    return found.slice();
}

/**
 * The class `Hash` over a library, and what looks into its objects. The memory of a module is little-endian, so the struct of a
 * hash there is its 32 bytes. `made` makes a hash of 32 bytes that nobody else has, without a copy.
 */
export function makeHash(library) {
    let made, rawOf;
    class Hash {
        #raw;

        static {
            rawOf = (hash, what = "the hash") => {
                if (typeof hash !== "object" || hash === null || !(#raw in hash)) {
                    throw wrongType(what, "be a Hash of the same module", hash);
                }
                return hash.#raw;
            };
            made = (raw) => {
                const hash = new Hash();
                hash.#raw = raw;
                return hash;
            };
        }

        constructor(raw) {
            this.#raw = raw === undefined ? ZEROS : thirtyTwo(raw, "a hash");
            show(this);
        }

        static fromHex(hex) {
            const raw = ofHex(string(hex, "the hex text of a hash"));
            if (raw === null) throw new InvalidText(mustBe("the hex text of a hash", "be 64 hex digits", hex));
            return made(raw);
        }

        static fromBase64(base64) {
            const what = "the base64 text of a hash";
            const given = text(base64, what);
            return result([given], (at, out) => {
                const status = library.call("yurewha_from_base64", at, BigInt(given.length), out);
                if (status !== STATUS.DONE) library.check(status, mustBe(what, BASE64, base64));
            });
        }

        static fromJSON(json) {
            return Hash.fromHex(valueOf(json));
        }

        static randomFromSeed(seed) {
            const number = u64(seed, "a seed");
            return result([], (out) => library.call("yurewha_random_from_seed", number, out));
        }

        get bytes() {
            return this.#raw.slice();
        }

        hex() {
            return hexOf(this.#raw);
        }

        base64() {
            return library.over([this.#raw, BASE64_LENGTH, 8], (hash, room, out) => {
                library.check(library.call("yurewha_base64", hash, room, BigInt(BASE64_LENGTH), out));
                return decoder.decode(library.read(room, BASE64_LENGTH));
            });
        }

        hmac(key) {
            return hmac(this.#raw, rawOf(key, "a key"));
        }

        remainder(divisor) {
            const number = u64(divisor, "a divisor");
            return library.over([this.#raw, 8], (hash, out) => {
                library.check(library.call("yurewha_remainder", hash, number, out), mustBe("a divisor", "be at least 1", divisor));
                return library.u64(out);
            });
        }

        compare(other) {
            return library.over([this.#raw, rawOf(other)], (first, second) => library.call("yurewha_compare", first, second));
        }

        equals(other) {
            return this.compare(other) === 0;
        }

        toString() {
            return this.hex();
        }

        toJSON() {
            return this.hex();
        }
    }
    const show = showing(Hash, ["bytes"]);
    inspected(Hash, "Hash", (hash) => `(${hash.hex()})`);

    /** The hash that a call writes to the last of its pointers. */
    function result(parts, run) {
        return library.over([...parts, HASH_LENGTH], (...pointers) => {
            run(...pointers);
            return made(library.read(pointers.at(-1), HASH_LENGTH));
        });
    }
    /** The bytes of some hashes, side by side. */
    const packedHashes = (hashes) => {
        const listed = [...hashes];
        const block = new Uint8Array(HASH_LENGTH * listed.length);
        listed.forEach((hash, k) => block.set(rawOf(hash, `hash ${k}`), HASH_LENGTH * k));
        return block;
    };
    /** The hashes that stand side by side. */
    const unpacked = (block) =>
        Array.from({ length: block.length / HASH_LENGTH }, (_, k) => made(block.slice(HASH_LENGTH * k, HASH_LENGTH * (k + 1))));
    /** The keyed hash of 32 bytes under 32 bytes. */
    const hmac = (raw, key) => result([raw, key], (...pointers) => library.call("yurewha_hmac", ...pointers));
    return { Hash, rawOf, result, packedHashes, unpacked, hmac };
}
