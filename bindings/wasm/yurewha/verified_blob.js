// Files that somebody else keeps. They have a Blob's members, but are none. Nothing is handed on that wasn't checked.

import { dataOf, text, u64, wrongType } from "./arguments.js";
import { outOfMemory } from "./errors.js";
import { HASH_LENGTH, thirtyTwo } from "./hash.js";
import { PROOF_LIMIT } from "./range_proof.js";
import { inspected, showing, textless } from "./shown.js";
import { bodyOf, readAll } from "./streams.js";

/** How many bytes are fetched and checked at once, if more are asked for. */
const PIECE = 1 << 22;
const CACHE_SIZE = 1 << 22;
const CHUNK_LIMIT = 1 << 20;

/** What fetches bytes of the file at an address. */
const byRange = (address) => (start, end, signal) => fetch(address, { headers: { Range: `bytes=${start}-${end - 1}` }, signal });

/** A caller's function. */
function callable(value, what) {
    if (typeof value !== "function") throw wrongType(what, "be a function", value);
    return value;
}

/** A file that somebody else keeps, of which parts are fetched. A reader checks and keeps them. */
class RemoteFile {
    #reader;
    #fetch;
    #prove;
    #chunkLimit;
    #piece;

    /** `prove` returns a proof, and `fetch` data or a response. Each request is for `piece` bytes, or for what is missing if that is 0. */
    constructor(reader, fetch, prove, chunkLimit, piece) {
        this.#reader = reader;
        this.#fetch = fetch;
        this.#prove = prove;
        this.#chunkLimit = chunkLimit;
        this.#piece = piece;
    }

    /** The size of the file, which its first chunk shows. */
    async size(signal) {
        await this.#missing(0, 1, signal);
        const { size } = this.#reader;
        // A chunk that had no room in the module's memory shows nothing.
        if (size === null) throw outOfMemory();
        return size;
    }

    /** Bytes from a place on, in memory of their own: at least one, and none from `end` on, which isn't after the file's end. */
    async bytes(start, end, signal) {
        const kept = this.#reader.read(start, Math.min(end - start, PIECE));
        return kept.data.length > 0 ? kept.data : this.#missing(start, kept.end, signal);
    }

    /** Bytes that aren't kept, from a place on, and at most up to `end`. Asks for these, or for the piece with the first one. */
    async #missing(start, end, signal) {
        if (this.#piece === 0n) return this.#fetched(start, end, signal);
        const [begin, stop] = this.#reader.piece(start, this.#piece);
        const first = Number(begin);
        return (await this.#fetched(first, Math.min(Number(stop), Number.MAX_SAFE_INTEGER), signal)).slice(start - first, end - first);
    }

    /** The bytes from one place up to another, once they are fetched and checked. Their chunks are kept. */
    async #fetched(start, end, signal) {
        signal.throwIfAborted();
        const part = this.#reader.open(await this.#prove(start, end, signal), start, end, this.#chunkLimit);
        try {
            const data = part.check(dataOf(await this.#received(part, signal), "what fetch returns"));
            this.#reader.take(part);
            return data;
        } finally {
            part.free();
        }
    }

    /** What comes as the data of a part. */
    async #received({ begin, end, fileSize }, signal) {
        if (fileSize > Number.MAX_SAFE_INTEGER) throw new RangeError(`the file has ${fileSize} bytes, and a Blob at most 2^53 - 1`);
        // The proof may have come after nobody waited any more.
        signal.throwIfAborted();
        const received = await this.#fetch(Number(begin), Number(end), signal);
        return received instanceof Response ? bodyOf(received, Number(end - begin)) : received;
    }
}

/** The class `VerifiedBlob`. */
export function makeVerifiedBlob({ rawOf }, { RangeProof }, { Reader }) {
    class VerifiedBlob {
        #fileHash;
        #file;
        #start;
        #end;
        #type;

        constructor(fileHash, file, start, end, type) {
            if (!(file instanceof RemoteFile)) throw new TypeError("a VerifiedBlob is made by open");
            this.#fileHash = fileHash;
            this.#file = file;
            this.#start = start;
            this.#end = end;
            this.#type = type;
            show(this);
        }

        static async open(fileHash, source, prove, { salt, type = "", cacheSize = CACHE_SIZE, chunkLimit = CHUNK_LIMIT, piece = 0 } = {}) {
            const hash = rawOf(fileHash, "a file hash");
            const isAddress = typeof source === "string" || source instanceof URL;
            // A URL may be changed later.
            const fetch = isAddress ? byRange(`${source}`) : callable(source, "a source that is no address");
            const [most, limit] = [u64(cacheSize, "a cache size"), u64(chunkLimit, "a chunk limit")];
            const length = u64(piece, "a piece");
            const proving = proofOf(callable(prove, "prove"));
            const key = salt === undefined ? new Uint8Array(HASH_LENGTH) : thirtyTwo(salt, "a salt");
            const kind = mediaType(type);
            const file = new RemoteFile(new Reader(hash, key, most), fetch, proving, limit, length);
            // The default hash is that of the empty file, of which no proof shows anything.
            const isEmpty = hash.every((byte) => byte === 0);
            const size = isEmpty ? 0 : await file.size(new AbortController().signal);
            return new VerifiedBlob(fileHash, file, 0, size, kind);
        }

        get fileHash() {
            return this.#fileHash;
        }

        get start() {
            return this.#start;
        }

        get size() {
            return this.#end - this.#start;
        }

        get type() {
            return this.#type;
        }

        slice(start = 0, end = this.size, type = "") {
            const [from, to] = [start, end].map((place) => this.#placeOf(place));
            return new VerifiedBlob(this.#fileHash, this.#file, from, Math.max(from, to), mediaType(`${type}`));
        }

        stream() {
            const stop = new AbortController();
            const pieces = this.#pieces(stop.signal);
            let next = null;
            const pull = async (controller) => {
                const { value } = await (next ?? pieces.next());
                // The next piece is fetched while the reader uses this one. If that fails, the next pull says so.
                next = pieces.next();
                next.catch(() => {});
                controller.enqueue(value.piece);
                if (!value.isLast) return;
                controller.close();
                // A byte source answers a read that waits for a view, also when nothing is left to fill it with.
                controller.byobRequest?.respond(0);
            };
            return new ReadableStream({
                type: "bytes",
                start: (controller) => void (this.size === 0 && controller.close()),
                pull,
                cancel: (reason) => stop.abort(reason),
            }, { highWaterMark: 0 });
        }

        async bytes() {
            const room = new Uint8Array(this.size);
            let filled = 0;
            await readAll(this.stream(), (piece) => {
                room.set(piece, filled);
                filled += piece.length;
            });
            return room;
        }

        async arrayBuffer() {
            return (await this.bytes()).buffer;
        }

        async text() {
            return new TextDecoder().decode(await this.bytes());
        }

        /** The pieces of this part of the file, one after another. */
        async *#pieces(signal) {
            for (let at = this.#start; at < this.#end; ) {
                const piece = await this.#file.bytes(at, this.#end, signal);
                at += piece.length;
                yield { piece, isLast: at === this.#end };
            }
        }

        /** The place in the file of a place in this part, which counts from the end if it is negative. */
        #placeOf(place) {
            const number = Math.trunc(place) || 0;
            return this.#start + Math.min(number < 0 ? Math.max(this.size + number, 0) : number, this.size);
        }
    }
    const show = showing(VerifiedBlob, ["fileHash", "start", "size", "type"]);
    textless(VerifiedBlob, "VerifiedBlob", "await it.arrayBuffer(), or in a Response it.stream()");
    inspected(VerifiedBlob, "VerifiedBlob", ({ start, size, type, fileHash }, inspect) => ` ${inspect({ start, size, type, fileHash })}`);
    return { VerifiedBlob };

    /** What returns a proof, of a caller's function that returns one or a response with its JSON. */
    function proofOf(prove) {
        return async (start, end, signal) => {
            const received = await prove(start, end, signal);
            const proof = received instanceof Response ? RangeProof.fromJSON(await bodyOf(received, PROOF_LIMIT)) : received;
            const rule = "be a RangeProof of the same module, or a Response";
            if (!(proof instanceof RangeProof)) throw wrongType("what prove returns", rule, proof);
            return proof;
        };
    }
}

/** The type of a Blob that is made with this one. */
function mediaType(type) {
    text(type, "a type");
    return /^[\x20-\x7e]*$/.test(type) ? type.toLowerCase() : "";
}
