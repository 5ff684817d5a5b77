// Files: their bytes go in, and the hashes by which Xet names them come out.

import { bytes, dataOf, wrongType } from "./arguments.js";
import { Handles, disposable } from "./handle.js";
import { thirtyTwo } from "./hash.js";
import { Gathered, PIECE } from "./hasher.js";
import { inspected, showing, textless } from "./shown.js";
import { readAll } from "./streams.js";

/** The class `FileHasher` over a library, and the calls that hash a whole file. */
export function makeFileHashing(library, { result }) {
    const handles = new Handles(library, "yurewha_file_hasher_free");

    class FileHasher {
        #handle;

        constructor() {
            this.#handle = handles.make((made) => library.check(library.call("yurewha_file_hasher_new", made)));
            handles.watch(this, this.#handle);
            show(this);
        }

        get size() {
            const { pointer } = this.#handle;
            return library.over([8], (out) => {
                library.check(library.call("yurewha_file_hasher_size", pointer, out));
                return library.u64(out);
            });
        }

        get hash() {
            return this.fileHash();
        }

        // The module gets all of the data at once, and not in parts: if it runs out of memory, it has taken nothing.
        update(data) {
            const piece = dataOf(data, "data");
            const { pointer } = this.#handle;
            library.over([piece], (at) => library.check(library.call("yurewha_file_hasher_update", pointer, at, BigInt(piece.length))));
            return this;
        }

        root() {
            return this.#told("yurewha_file_hasher_root");
        }

        fileHash(salt) {
            if (salt === undefined) return this.#told("yurewha_file_hasher_finish");
            return this.#told("yurewha_file_hasher_finish_with_salt", thirtyTwo(salt, "a salt"));
        }

        free() {
            this.#handle.free();
        }

        /** A hash that a call writes, which gets pointers to parts. */
        #told(name, ...parts) {
            const { pointer } = this.#handle;
            return result(parts, (...pointers) => library.check(library.call(name, pointer, ...pointers)));
        }
    }
    const show = showing(FileHasher, ["hash"]);
    textless(FileHasher, "FileHasher", "its root() or fileHash()");
    inspected(FileHasher, "FileHasher", ({ size, hash }, inspect) => ` ${inspect({ size, hash })}`);

    async function hashFile(source, { salt, signal, onProgress } = {}) {
        const key = salt === undefined ? undefined : thirtyTwo(salt, "a salt");
        if (signal !== undefined && !(signal instanceof AbortSignal)) throw wrongType("a signal", "be an AbortSignal", signal);
        if (onProgress !== undefined && typeof onProgress !== "function") throw wrongType("onProgress", "be a function", onProgress);
        const hasher = new FileHasher();
        const update = (piece) => {
            for (let at = 0; at < piece.length; at += PIECE) hasher.update(piece.subarray(at, at + PIECE));
        };
        const message = new Gathered({ update, digest: () => hasher.fileHash(key) });
        let count = 0;
        const take = (given) => {
            const piece = bytes(given, "a piece of data");
            message.add(piece);
            count += piece.length;
            onProgress?.(count);
        };
        try {
            await readAll(source, take, signal);
            const size = source instanceof Blob ? source.size : count;
            if (count !== size) throw new Error(`${source.name ?? "a Blob"} has ${size} bytes, and ${count} came`);
            return message.digest();
        } finally {
            hasher.free();
        }
    }

    async function hashBlob(blob, options) {
        if (!(blob instanceof Blob)) throw wrongType("a file", "be a Blob or a File", blob);
        return hashFile(blob, options);
    }
    return { FileHasher: disposable(FileHasher), hashBlob, hashFile };
}
