// Opened ranges: chunks of a file, whose data is checked.

import { bytes, dataOf, u64 } from "./arguments.js";
import { InvalidArguments, ProofMismatch, STATUS } from "./errors.js";
import { Handle, Handles, disposable } from "./handle.js";
import { inspected, showing, textless } from "./shown.js";
import { Room } from "./streams.js";

/** How many bytes a chunk of a stream may have by default. */
const CHUNK_LIMIT = 1 << 20;

/** The class `OpenedRange` over a library, and `opened`, the range that a call writes to its handle. */
export function makeOpenedRange(library) {
    const handles = new Handles(library, "yurewha_opened_range_free");
    const opened = (proof, fill) => new OpenedRange(handles.make(fill), proof);
    /** What a call of a check has written, or null if it refused the data. */
    const accepted = (status, out) => {
        if (status === STATUS.MISMATCH) return null;
        library.check(status);
        return library.u64(out);
    };

    class OpenedRange {
        #handle;
        #proof;

        constructor(handle, proof) {
            if (!(handle instanceof Handle)) throw new TypeError("an OpenedRange is made by open or openRoot");
            this.#handle = handle;
            this.#proof = proof;
            handles.watch(this, handle);
            show(this);
        }

        get proof() {
            this.#handle.mustBeOwned();
            return this.#proof;
        }

        get fileSize() {
            return this.#told("yurewha_opened_range_file_size");
        }

        get numChunks() {
            return Number(this.#told("yurewha_opened_range_num_chunks"));
        }

        begins(chunk) {
            return this.#bytesOf(chunk)?.[0] ?? null;
        }

        ends(chunk) {
            return this.#bytesOf(chunk)?.[1] ?? null;
        }

        check(chunk, data) {
            const number = u64(chunk, "the number of a chunk");
            const given = dataOf(data, "data");
            const { pointer } = this.#handle;
            return library.over([given, 8], (at, out) =>
                accepted(library.call("yurewha_opened_range_check", pointer, number, at, BigInt(given.length), out), out),
            );
        }

        read(from, to, data) {
            const [start, stop] = [u64(from, "a place"), u64(to, "a place")];
            const given = dataOf(data, "data");
            const { pointer } = this.#handle;
            // What was checked is the module's copy of the data, so the bytes are taken from there.
            // The caller's array may be shared with a thread that writes to it meanwhile.
            return library.over([given, 8], (at, out) => {
                const place = accepted(library.call("yurewha_opened_range_read", pointer, start, stop, at, BigInt(given.length), out), out);
                return place === null ? null : library.read(at + Number(place), Number(stop - start));
            });
        }

        checkOrThrow(chunk, data) {
            const place = this.check(chunk, data);
            if (place !== null) return place;
            if (this.begins(chunk) === null) throw new InvalidArguments(`the range has no chunk ${chunk}`);
            throw new ProofMismatch(`this isn't the data of chunk ${chunk} of the range`);
        }

        readOrThrow(from, to, data) {
            const found = this.read(from, to, data);
            if (found !== null) return found;
            throw new ProofMismatch(this.#whyRefused(BigInt(from), BigInt(to), BigInt(dataOf(data, "data").length)));
        }

        checking({ chunkLimit = CHUNK_LIMIT } = {}) {
            const limit = u64(chunkLimit, "a chunk limit");
            this.#handle.mustBeOwned();
            let next = 0;
            /** What came of the next chunk. It is undefined before the first piece, and null after the last chunk. */
            let room;
            /** Passes on each chunk that a piece makes whole. */
            const pass = (piece, controller) => {
                if (room === undefined) room = this.#roomOf(next, limit);
                for (let rest = piece; ; room = this.#roomOf(++next, limit)) {
                    if (room === null && rest.length > 0) throw new ProofMismatch("there is more data than that of the range");
                    if (room === null) return;
                    rest = room.add(rest);
                    if (!room.isFull) return;
                    const data = room.bytes;
                    if (this.check(next, data) === null) throw new ProofMismatch(`the data of chunk ${next} of the range isn't the file's`);
                    if (data.length > 0) controller.enqueue(data);
                }
            };
            return new TransformStream({
                transform(piece, controller) {
                    pass(bytes(piece, "a piece of data"), controller);
                },
                flush(controller) {
                    pass(new Uint8Array(), controller);
                    if (room !== null) throw new ProofMismatch(`the data ends before chunk ${next} of the range is whole`);
                },
            });
        }

        free() {
            this.#handle.free();
        }

        /** Room for the data of a chunk, or null if there is no such chunk. How long it is is the proof's word. */
        #roomOf(chunk, limit) {
            const places = this.#bytesOf(chunk);
            if (places === null) return null;
            const length = places[1] - places[0];
            if (length > limit) throw new ProofMismatch(`by the proof, chunk ${chunk} of the range has ${length} bytes, more than chunkLimit, ${limit}`);
            return new Room(Number(length));
        }

        /** Why `read` refused data of some length. */
        #whyRefused(from, to, length) {
            const [begin, end] = [this.begins(0), this.ends(this.numChunks - 1)];
            if (from < begin || to < from || end < to) {
                return `the proof is of the bytes from ${begin} up to ${end}, and not of those from ${from} up to ${to}`;
            }
            if (length !== end - begin) return `the range has ${end - begin} bytes, and the data ${length}`;
            return "this isn't the data of the range";
        }

        /** A number that a call writes. */
        #told(name) {
            const { pointer } = this.#handle;
            return library.over([8], (out) => {
                library.check(library.call(name, pointer, out));
                return library.u64(out);
            });
        }

        /** Where in the file a chunk begins and ends, or null if there is no such chunk. */
        #bytesOf(chunk) {
            const number = u64(chunk, "the number of a chunk");
            const { pointer } = this.#handle;
            return library.over([8, 8], (...out) => {
                const status = library.call("yurewha_opened_range_bytes_of", pointer, number, ...out);
                if (status === STATUS.ARGUMENTS) return null;
                library.check(status);
                return out.map((at) => library.u64(at));
            });
        }
    }
    const show = showing(OpenedRange, ["proof"]);
    textless(OpenedRange, "OpenedRange", "its read() or proof");
    inspected(OpenedRange, "OpenedRange", (range, inspect) => {
        const { fileSize, numChunks } = range;
        return ` ${inspect({ fileSize, numChunks, begins: range.begins(0), ends: range.ends(numChunks - 1) })}`;
    });
    return { OpenedRange: disposable(OpenedRange), opened };
}
