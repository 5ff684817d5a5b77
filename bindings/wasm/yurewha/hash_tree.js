// Hash trees: all levels of nodes over a list of chunks, which make range proofs.

import { u64, wrongType } from "./arguments.js";
import { CHUNK_LENGTH } from "./chunks.js";
import { STATUS } from "./errors.js";
import { Handle, Handles, disposable } from "./handle.js";
import { HASH_LENGTH, thirtyTwo } from "./hash.js";
import { MOST_BESIDE, noRange } from "./range_proof.js";
import { inspected, showing, textless } from "./shown.js";

/** The class `HashTree` over a library. `written` makes the proof that a call writes. */
export function makeHashTree(library, { result }, { packedOf }, written) {
    const handles = new Handles(library, "yurewha_hash_tree_free");
    let treeOf;

    class HashTree {
        #handle;

        static {
            treeOf = (tree) => {
                if (typeof tree !== "object" || tree === null || !(#handle in tree)) {
                    throw wrongType("the other", "be a HashTree of the same module", tree);
                }
                return tree;
            };
        }

        constructor(handle) {
            if (!(handle instanceof Handle)) throw new TypeError("a HashTree is made by fromChunks");
            this.#handle = handle;
            handles.watch(this, handle);
            show(this);
        }

        static fromChunks(chunks) {
            const packed = packedOf(chunks);
            return library.over([packed], (at) => {
                const count = BigInt(packed.length / CHUNK_LENGTH);
                return new HashTree(handles.make((made) => library.check(library.call("yurewha_hash_tree_from_chunks", at, count, made))));
            });
        }

        get root() {
            const { pointer } = this.#handle;
            return result([], (out) => library.check(library.call("yurewha_hash_tree_root", pointer, out)));
        }

        fileHash(salt) {
            const key = salt === undefined ? new Uint8Array(HASH_LENGTH) : thirtyTwo(salt, "a salt");
            const { pointer } = this.#handle;
            return result([key], (...pointers) => library.check(library.call("yurewha_hash_tree_file_hash", pointer, ...pointers)));
        }

        get numChunks() {
            return Number(this.#told("yurewha_hash_tree_num_chunks"));
        }

        get totalSize() {
            return this.#told("yurewha_hash_tree_total_size");
        }

        chunksAt(from, to) {
            const range = this.#pair("yurewha_hash_tree_chunks_at", u64(from, "a place"), u64(to, "a place"));
            return range && range.map(Number);
        }

        bytesOf(first, end) {
            return this.#pair("yurewha_hash_tree_bytes_of", u64(first, "the number of a chunk"), u64(end, "the number of a chunk"));
        }

        proof(first, end) {
            const [from, to] = [u64(first, "the number of a chunk"), u64(end, "the number of a chunk")];
            const count = this.numChunks;
            const most = from < to ? Math.min(count, Number(to - from)) : 0;
            const { pointer } = this.#handle;
            return written(most + MOST_BESIDE, [], (rooms) => {
                library.check(library.call("yurewha_hash_tree_proof", pointer, from, to, ...rooms), noRange(from, to, count));
            });
        }

        diff(other) {
            const its = treeOf(other);
            const [count, otherCount] = [this, its].map((tree) => tree.#told("yurewha_hash_tree_num_chunks"));
            const first = this.#told("yurewha_hash_tree_common_prefix", its.#handle.pointer);
            const most = (count < otherCount ? count : otherCount) - first;
            const after = this.#told("yurewha_hash_tree_common_suffix", its.#handle.pointer, most);
            const [end, otherEnd] = [count - after, otherCount - after];
            if (end === first && otherEnd === first) return null;
            const [start, stop, otherStop] = [this.#beginOf(first), this.#beginOf(end), its.#beginOf(otherEnd)];
            return { first: Number(first), end: Number(end), otherEnd: Number(otherEnd), start, stop, otherStop };
        }

        free() {
            this.#handle.free();
        }

        /** Where a chunk begins, or the size of the file if there are no more chunks. */
        #beginOf(chunk) {
            return this.#pair("yurewha_hash_tree_bytes_of", 0n, chunk)?.[1] ?? 0n;
        }

        /** A number that a call writes. */
        #told(name, ...given) {
            const { pointer } = this.#handle;
            return library.over([8], (out) => {
                library.check(library.call(name, pointer, ...given, out));
                return library.u64(out);
            });
        }

        /** Two numbers that a call writes, or null if there are none. */
        #pair(name, ...given) {
            const { pointer } = this.#handle;
            return library.over([8, 8], (...out) => {
                const status = library.call(name, pointer, ...given, ...out);
                if (status === STATUS.ARGUMENTS) return null;
                library.check(status);
                return out.map((at) => library.u64(at));
            });
        }
    }
    const show = showing(HashTree, ["root", "numChunks", "totalSize"]);
    textless(HashTree, "HashTree", "its root or fileHash()");
    inspected(HashTree, "HashTree", ({ numChunks, totalSize, root }, inspect) => ` ${inspect({ numChunks, totalSize, root })}`);
    return disposable(HashTree);
}
