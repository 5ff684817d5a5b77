// What is read of a file that is somewhere else: a part checks what was fetched of it, and a reader keeps that.

import { ProofMismatch, STATUS } from "./errors.js";
import { Handles } from "./handle.js";

/** Whether a part gets copies of the chunks that are right, for a reader. */
const KEEP = 1;

/** Makes readers over a library. `overProof` calls a function with the arguments of a proof's lists, and with pointers to parts. */
export function makeReader(library, overProof) {
    const readers = new Handles(library, "yurewha_reader_free");
    const parts = new Handles(library, "yurewha_part_free");

    /** Some bytes of a file, whose chunks go from `begin` up to `end` by a proof that shows the file's hash. */
    class Part {
        #handle;

        constructor(handle, begin, end) {
            this.#handle = handle;
            this.begin = begin;
            this.end = end;
            parts.watch(this, handle);
        }

        get pointer() {
            return this.#handle.pointer;
        }

        /** The size of the file, as the proof says it. */
        get fileSize() {
            const { pointer } = this.#handle;
            return library.over([8], (out) => {
                library.check(library.call("yurewha_part_file_size", pointer, out));
                return library.u64(out);
            });
        }

        /** A copy of the bytes that were asked for, of the data of all chunks, once this is checked. */
        check(data) {
            const { pointer } = this.#handle;
            // What is checked is the module's copy of the data, so the bytes are taken from there.
            return library.over([data, 8, 8], (at, start, count) => {
                const status = library.call("yurewha_part_check", pointer, at, BigInt(data.length), KEEP, start, count);
                if (status === STATUS.MISMATCH) throw new ProofMismatch(this.#whyRefused(BigInt(data.length)));
                library.check(status);
                return library.read(at + library.count(start), library.count(count));
            });
        }

        free() {
            this.#handle.free();
        }

        /** Why data of some length was refused. */
        #whyRefused(length) {
            const wanted = this.end - this.begin;
            return length === wanted ? "this isn't the data of the range" : `the range has ${wanted} bytes, and the data ${length}`;
        }
    }

    /** What is kept of a file with a hash under a salt: chunks that were checked, as many as may be. */
    class Reader {
        #handle;
        #given;

        constructor(fileHash, salt, most) {
            this.#given = [fileHash, salt];
            this.#handle = library.over(this.#given, (...given) =>
                readers.make((made) => library.check(library.call("yurewha_reader_new", ...given, most, made))),
            );
            readers.watch(this, this.#handle);
        }

        /** The size of the file, or null until a chunk of it was checked. */
        get size() {
            const { pointer } = this.#handle;
            return library.over([8], (out) => {
                const status = library.call("yurewha_reader_size", pointer, out);
                if (status === STATUS.ARGUMENTS) return null;
                library.check(status);
                return library.count(out);
            });
        }

        /** What is kept of some bytes from a place on, and up to which place those after that have to be fetched. */
        read(from, count) {
            const { pointer } = this.#handle;
            return library.over([count, 8, 8], (room, filled, end) => {
                const length = BigInt(count);
                library.check(library.call("yurewha_reader_read", pointer, BigInt(from), room, length, length, filled, end));
                return { data: library.read(room, library.count(filled)), end: library.count(end) };
            });
        }

        /** Where the piece with a place begins and ends, of the pieces of so many bytes that follow one another in the file. */
        piece(place, length) {
            const { pointer } = this.#handle;
            return library.over([8, 8], (begin, end) => {
                library.check(library.call("yurewha_reader_piece", pointer, BigInt(place), length, begin, end));
                return [begin, end].map((it) => library.u64(it));
            });
        }

        /** The part of the bytes from one place up to another, by a proof, which may go so many bytes beyond them on each side. */
        open(proof, from, to, beyond) {
            return overProof(proof, [...this.#given, 8, 8], (lists, hash, salt, ...places) => {
                const told = () => places.map((place) => library.u64(place));
                const handle = parts.make((made) => {
                    const given = [hash, salt, BigInt(from), BigInt(to), beyond, ...places];
                    const status = library.call("yurewha_part_open", ...lists, ...given, made);
                    library.check(status, whyElsewhere(status, told, from, to));
                });
                return new Part(handle, ...told());
            });
        }

        /** Keeps the chunks of a part that were checked. */
        take(part) {
            const status = library.call("yurewha_reader_take", this.#handle.pointer, part.pointer);
            if (status === STATUS.ARGUMENTS) throw new ProofMismatch("the proof says another size of the file than was shown before");
            library.check(status);
        }
    }
    return { Reader };
}

/** Why the range of a proof isn't that of the bytes from one place up to another, if a status says so. */
function whyElsewhere(status, told, from, to) {
    if (status !== STATUS.ELSEWHERE && status !== STATUS.TOO_FAR) return undefined;
    const [begin, end] = told();
    const [range, asked] = [`the proof is of the bytes from ${begin} up to ${end}`, `those from ${from} up to ${to}`];
    return status === STATUS.ELSEWHERE ? `${range}, and not of ${asked}` : `${range}, too far beyond ${asked}: see chunkLimit`;
}
