// What hashes bytes.

import { bytes, dataOf, mustBe, u64 } from "./arguments.js";
import { InvalidArguments } from "./errors.js";
import { HASH_LENGTH, thirtyTwo } from "./hash.js";
import { AREA } from "./library.js";
import { inspected, showing, textless } from "./shown.js";
import { Source, readAll } from "./streams.js";

/** The size of `yurewha_hasher`, which holds no pointers: a copy of its bytes is a copy of the hasher. */
const STATE_LENGTH = 2048;
/** How many bytes and how many chunks go to the module at once, so that they fit its area. */
export const PIECE = AREA / 2;
const MOST_CHUNKS = 4096;
/** Pieces of a stream that are shorter are gathered into pieces of this length, since a call costs as much as hashing some kilobytes. */
const SHORT = 1 << 16;
const CUTS = "be numbers, one after another, or a chunker that gives them";

/** The class `Hasher`, whose state is a copy in JavaScript's memory, so that there is nothing to free. */
function makeHasher(library, { result }) {
    const begun = (name, ...parts) =>
        library.over([STATE_LENGTH, ...parts], (state, ...pointers) => {
            library.call(name, state, ...pointers);
            return library.read(state, STATE_LENGTH);
        });
    class Hasher {
        #state = begun("yurewha_hasher_begin_data");

        constructor() {
            show(this);
        }

        static internalNode() {
            const hasher = new Hasher();
            hasher.#state = begun("yurewha_hasher_begin_internal");
            return hasher;
        }

        static keyed(key) {
            const hasher = new Hasher();
            hasher.#state = begun("yurewha_hasher_begin_keyed", thirtyTwo(key, "a key"));
            return hasher;
        }

        get count() {
            return library.over([this.#state], (state) => BigInt.asUintN(64, library.call("yurewha_hasher_count", state)));
        }

        get hash() {
            return this.digest();
        }

        update(data) {
            const message = dataOf(data, "data");
            let state = this.#state;
            for (let at = 0; at < message.length; at += PIECE) state = updated(state, message.subarray(at, at + PIECE));
            this.#state = state;
            return this;
        }

        digest() {
            return result([this.#state], (...pointers) => library.call("yurewha_hasher_finalize", ...pointers));
        }

        clone() {
            const copy = new Hasher();
            copy.#state = this.#state;
            return copy;
        }
    }
    const show = showing(Hasher, ["hash"]);
    textless(Hasher, "Hasher", "its digest()");
    inspected(Hasher, "Hasher", ({ count, hash }, inspect) => ` ${inspect({ count, hash })}`);
    return Hasher;

    function updated(before, piece) {
        return library.over([before, piece], (state, at) => {
            library.check(library.call("yurewha_hasher_update", state, at, BigInt(piece.length)));
            return library.read(state, STATE_LENGTH);
        });
    }
}

/** Pieces of a message, which a hasher gets in longer ones. */
export class Gathered {
    #hasher;
    #room = new Uint8Array(SHORT);
    #filled = 0;

    constructor(hasher) {
        this.#hasher = hasher;
    }

    add(given) {
        const piece = bytes(given, "a piece of data");
        if (piece.length > SHORT - this.#filled) this.#handOver();
        if (piece.length >= SHORT) {
            this.#hasher.update(piece);
            return;
        }
        this.#room.set(piece, this.#filled);
        this.#filled += piece.length;
    }

    digest() {
        this.#handOver();
        return this.#hasher.digest();
    }

    #handOver() {
        this.#hasher.update(this.#room.subarray(0, this.#filled));
        this.#filled = 0;
    }
}

/** The chunks between places in a message that comes in pieces. */
class Chunked {
    hashes = [];
    /** How many bytes of the message came. */
    at;
    #places;
    #begin;
    #message;

    constructor(places, begin, at) {
        this.#places = places;
        this.#begin = begin;
        this.#message = begin();
        this.at = at;
        this.#end();
    }

    add(given) {
        let piece = bytes(given, "a piece of data");
        while (piece.length > 0 && this.at < this.#places.at(-1)) {
            const isBefore = this.at < this.#places[0];
            const end = isBefore ? this.#places[0] : this.#places[this.hashes.length + 1];
            const part = piece.subarray(0, end - this.at);
            if (!isBefore) this.#message.add(part);
            this.at += part.length;
            piece = piece.subarray(part.length);
            this.#end();
        }
    }

    /** Ends each chunk whose last byte came, also empty ones. */
    #end() {
        while (this.at >= this.#places[0] && this.#places[this.hashes.length + 1] === this.at) {
            this.hashes.push(this.#message.digest());
            this.#message = this.#begin();
        }
    }
}

/** What is left of a message that comes in pieces: those that came and are not hashed yet, and those that did not come. */
class Left {
    /** How many bytes were hashed, and how many came. */
    place = 0;
    end = 0;
    #source;
    #came = [];
    #begin;

    constructor(source, begin) {
        this.#source = source;
        this.#begin = begin;
    }

    /** Waits for the pieces, one after another. What is hashed is a copy, because the caller's may change before a chunk ends. */
    async *pieces() {
        for (let it = await this.#source.next(); !it.done; it = await this.#source.next()) {
            const piece = bytes(it.value, "a piece of data");
            if (piece.length === 0) continue;
            this.#came.push(piece.slice());
            this.end += piece.length;
            yield piece;
        }
    }

    /** Whether there is another byte. */
    async hasMore() {
        return this.#came.length > 0 || !(await this.pieces().next()).done;
    }

    /** The hash and the size of the chunk that ends after so many bytes, or with the message. */
    async chunk(end = Infinity) {
        const [from, message] = [this.place, this.#begin()];
        while (this.place < end && (await this.hasMore())) {
            const piece = this.#came.shift();
            const part = piece.subarray(0, end - this.place);
            message.add(part);
            this.place += part.length;
            if (part.length < piece.length) this.#came.unshift(piece.subarray(part.length));
        }
        if (this.place < end && end < Infinity) throw new InvalidArguments(mustBe("a cut", `be at most the number of bytes, ${this.end}`, end));
        return [message.digest(), this.place - from];
    }
}

/** Offsets in a message of some length, as Numbers, none of which is less than the one before it. */
function checkedOffsets(offsets, length) {
    if (offsets.length === 0) throw new InvalidArguments(mustBe("the number of offsets", "be at least 1", 0));
    offsets.forEach((offset, k) => {
        const least = offsets[k - 1] ?? 0n;
        if (offset < least) throw new InvalidArguments(mustBe(`offset ${k}`, `be at least the one before it, ${least}`, offset));
        if (offset > BigInt(length)) throw new InvalidArguments(mustBe(`offset ${k}`, `be at most the number of bytes, ${length}`, offset));
    });
    return offsets.map(Number);
}

/** `Hasher`, and the calls that hash bytes at once or from a stream. `xetCuts` is the chunker of those that get no cuts. */
export function makeHashing(library, hashes, xetCuts) {
    const Hasher = makeHasher(library, hashes);
    const whole = (name, begin) => (data) => {
        const message = dataOf(data, "data");
        if (message.length > PIECE) return begin().update(message).digest();
        return hashes.result([message], (at, out) => library.call(name, at, BigInt(message.length), out));
    };
    const dataHash = whole("yurewha_data_hash", () => new Hasher());

    function dataHashes(data, offsets) {
        const listed = [...offsets].map((offset, k) => u64(offset, `offset ${k}`));
        const message = dataOf(data, "data");
        const places = checkedOffsets(listed, message.length);
        const found = [];
        for (let from = 0, to; from + 1 < places.length; from = to) {
            to = from + 1;
            while (to + 1 < places.length && places[to + 1] - places[from] <= PIECE && to - from < MOST_CHUNKS) to++;
            found.push(...hashesOf(message, places.slice(from, to + 1)));
        }
        return found;
    }

    /** The hashes of chunks that the module takes at once, or of one longer chunk. */
    function hashesOf(message, places) {
        const part = message.subarray(places[0], places.at(-1));
        if (part.length > PIECE) return [dataHash(part)];
        const count = places.length - 1;
        const offsets = new Uint8Array(BigUint64Array.from(places, (place) => BigInt(place - places[0])).buffer);
        return library.over([part, offsets, HASH_LENGTH * count], (at, offsetsAt, out) => {
            const given = [at, BigInt(part.length), offsetsAt, BigInt(places.length), out, BigInt(count)];
            library.check(library.call("yurewha_data_hashes", ...given));
            return hashes.unpacked(library.read(out, HASH_LENGTH * count));
        });
    }

    async function hashStream(source) {
        const message = new Gathered(new Hasher());
        await readAll(source, (piece) => message.add(piece));
        return message.digest();
    }

    async function hashChunks(source, offsets) {
        const listed = [...offsets].map((offset, k) => u64(offset, `offset ${k}`));
        const isBlob = source instanceof Blob;
        const places = checkedOffsets(listed, isBlob ? source.size : Number.MAX_SAFE_INTEGER);
        const [first, last] = [places[0], places.at(-1)];
        const chunks = new Chunked(places, () => new Gathered(new Hasher()), isBlob ? first : 0);
        await readAll(isBlob ? source.slice(first, last) : source, (piece) => {
            chunks.add(piece);
            return chunks.at >= last;
        });
        if (chunks.at < last) throw new InvalidArguments(mustBe("the number of bytes", `be at least the last offset, ${last}`, chunks.at));
        return chunks.hashes;
    }

    async function* hashCuts(source, cuts = xetCuts) {
        const isChunker = typeof cuts === "function";
        const pieces = new Source(source);
        const left = new Left(pieces, () => new Gathered(new Hasher()));
        let ends;
        try {
            ends = new Source(isChunker ? cuts(left.pieces()) : cuts, isChunker ? "what a chunker returns" : "cuts", CUTS);
            for (let it = await ends.next(); !it.done; it = await ends.next()) {
                const end = Number(u64(it.value, "a cut"));
                if (end < left.place) throw new InvalidArguments(mustBe("a cut", `be at least the one before it, ${left.place}`, end));
                if (isChunker && end > left.end) throw new InvalidArguments(mustBe("a chunker's cut", `be at most the number of bytes that it was given, ${left.end}`, end));
                yield await left.chunk(end);
            }
            if (await left.hasMore()) yield await left.chunk();
        } finally {
            ends?.leave();
            pieces.leave();
        }
    }

    const chunksOf = (source) => hashCuts(source);
    const internalNodeHash = whole("yurewha_internal_node_hash", () => Hasher.internalNode());
    return { Hasher, chunksOf, dataHash, dataHashes, hashChunks, hashCuts, hashStream, internalNodeHash };
}
