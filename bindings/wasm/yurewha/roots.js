// Roots, file hashes and stable points of lists of chunks.

import { STATUS } from "./errors.js";
import { CHUNK_LENGTH } from "./chunks.js";
import { thirtyTwo } from "./hash.js";

export function makeRoots(library, { result }, { packedOf }) {
    const count = (packed) => BigInt(packed.length / CHUNK_LENGTH);
    const root = (name) => (chunks) => {
        const packed = packedOf(chunks);
        return result([packed], (at, out) => library.check(library.call(name, at, count(packed), out)));
    };
    const salted = (chunks, salt) => {
        const packed = packedOf(chunks);
        const name = "yurewha_file_hash_with_salt";
        return result([packed, thirtyTwo(salt, "a salt")], (at, ...rest) => library.check(library.call(name, at, count(packed), ...rest)));
    };
    const unsalted = root("yurewha_file_hash");
    const stablePoint = (name) => (nodes) => {
        const packed = packedOf(nodes);
        return library.over([packed, 8], (at, out) => {
            const status = library.call(name, at, count(packed), out);
            if (status === STATUS.ARGUMENTS) return null;
            library.check(status);
            return library.count(out);
        });
    };
    return {
        xorbHash: root("yurewha_xorb_hash"),
        fileHash: (chunks, salt) => (salt === undefined ? unsalted(chunks) : salted(chunks, salt)),
        findStableStart: stablePoint("yurewha_find_stable_start"),
        findStableEnd: stablePoint("yurewha_find_stable_end"),
    };
}
