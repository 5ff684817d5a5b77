// Streams of bytes, and other sources of pieces.

import { wrongType } from "./arguments.js";
import { ProofMismatch } from "./errors.js";

/** How many bytes there is room for at first. */
const FIRST_ROOM = 1 << 16;
const PIECES = "be a Blob, a stream, such as the body of a Response, or what gives Uint8Arrays";

/** What comes one after another from a `Blob`, a stream, which may not be iterable itself, or an iterable. */
export class Source {
    #next;
    #leave;
    #isOver = false;

    constructor(given, what = "a source", rule = PIECES) {
        const stream = given instanceof Blob ? given.stream() : given;
        const isStream = typeof stream?.getReader === "function";
        const iterator = isStream ? null : iteratorOf(stream);
        if (isStream) this.#ofReader(stream.getReader());
        else if (iterator) this.#ofIterator(iterator);
        else throw wrongType(what, rule, given);
    }

    /** What comes next, as an iterator's `next` says it. */
    async next() {
        let it;
        try {
            it = await this.#next();
        } catch (error) {
            this.#isOver = true;
            throw error;
        }
        this.#isOver = Boolean(it.done);
        return this.#isOver ? { done: true } : { done: false, value: await it.value };
    }

    /** Lets the source go, perhaps for an error. Nobody waits for its own clean-up, or is told that this failed. */
    leave(reason) {
        (async () => this.#leave(reason))().catch(() => {});
    }

    #ofReader(reader) {
        this.#next = () => reader.read();
        this.#leave = (reason) => {
            const cancelled = this.#isOver ? null : reader.cancel(reason);
            reader.releaseLock();
            return cancelled;
        };
    }

    #ofIterator(iterator) {
        this.#next = () => iterator.next();
        this.#leave = () => (this.#isOver ? null : iterator.return?.());
    }
}

/** The iterator of what gives pieces. A text or bytes give none, though they are iterable. */
function iteratorOf(given) {
    if (typeof given === "string" || ArrayBuffer.isView(given)) return undefined;
    return given?.[Symbol.asyncIterator]?.() ?? given?.[Symbol.iterator]?.();
}

/** What comes next from a source. Throws the reason of a signal that is aborted before that. */
async function unlessAborted(signal, source) {
    signal.throwIfAborted();
    let abort;
    const aborted = new Promise((_, reject) => {
        abort = () => reject(signal.reason);
        signal.addEventListener("abort", abort);
    });
    try {
        return await Promise.race([source.next(), aborted]);
    } finally {
        signal.removeEventListener("abort", abort);
    }
}

/**
 * Hands all pieces of a source to `take`, or those up to the one for which it returns true. Then the source is let go, also after an error,
 * of which an aborted signal is one.
 */
export async function readAll(given, take, signal) {
    const source = new Source(given);
    const next = () => (signal ? unlessAborted(signal, source) : source.next());
    let reason;
    try {
        for (let it = await next(); !it.done && !take(it.value); ) it = await next();
    } catch (error) {
        reason = error;
        throw error;
    } finally {
        source.leave(reason);
    }
}

/** Bytes that come in pieces. Room for them is made as they come, because how many there are may be a stranger's word. */
export class Room {
    #bytes;
    #most;
    length = 0;

    constructor(most) {
        this.#most = most;
        this.#bytes = new Uint8Array(Math.min(most, FIRST_ROOM));
    }

    /** Whether as many bytes came as may. */
    get isFull() {
        return this.length === this.#most;
    }

    /** What came: of a full room, all of its memory. */
    get bytes() {
        return this.#bytes.subarray(0, this.length);
    }

    /** Copies the bytes of a piece for which there may be room. Returns the others. */
    add(piece) {
        const part = piece.subarray(0, this.#most - this.length);
        const length = this.length + part.length;
        if (length > this.#bytes.length) {
            const larger = new Uint8Array(Math.min(this.#most, 2 * length));
            larger.set(this.bytes);
            this.#bytes = larger;
        }
        this.#bytes.set(part, this.length);
        this.length = length;
        return piece.subarray(part.length);
    }
}

/** The body of a response. If it is longer than it may be, it is cancelled, so that nobody can fill the memory with it. */
export async function bodyOf(response, most) {
    if (!response.ok) {
        response.body?.cancel().catch(() => {});
        throw new Error(`${response.url}: status ${response.status}`);
    }
    const room = new Room(most);
    const take = (piece) => {
        if (room.add(piece).length > 0) throw new ProofMismatch(`more than ${most} bytes came`);
    };
    if (response.body) await readAll(response.body, take);
    return room.bytes;
}
