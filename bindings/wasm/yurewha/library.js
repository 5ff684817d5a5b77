// The module's exports and its memory.

import { InvalidLists, LAST_STATUS, STATUS, Trapped, errorOf, outOfMemory } from "./errors.js";
import { STATUS_TEXT_LENGTH } from "./constants.js";

/** How many bytes are kept for the arguments and results of a call. */
export const AREA = 1 << 20;
const ALIGNMENT = 16;
const decoder = new TextDecoder();

/** Up to the next multiple of the alignment. */
const aligned = (size) => Math.ceil(size / ALIGNMENT) * ALIGNMENT;

/**
 * The only place that calls the module and looks into its memory. A pointer is a Number. Each view of the memory is made where it
 * is used and kept nowhere, since a growth detaches it; what is read is copied.
 */
export class Library {
    #exports;
    #area;
    /** What each status means, read in advance, since a call that failed may leave no room for it. */
    #texts;
    #trap = null;

    constructor(exports) {
        this.#exports = exports;
        this.#area = this.allocate(AREA);
        this.#texts = Array.from({ length: LAST_STATUS + 1 }, (_, status) => this.#textOf(status));
    }

    /** Why the instance is never called again, or null. */
    get trap() {
        return this.#trap;
    }

    /** Calls an export. What it throws is a trap, after which nothing in the memory can be relied on. */
    call(name, ...values) {
        if (this.#trap) throw new Trapped("the module trapped in an earlier call; load() a new one", { cause: this.#trap });
        try {
            return this.#exports[name](...values);
        } catch (error) {
            this.#trap = error;
            throw new Trapped(`the module trapped in ${name}; load() a new one`, { cause: error });
        }
    }

    /** Throws the error of a status, unless it is 0. `what` and `OfRule` are as in `errorOf`. */
    check(status, what = "the arguments don't fit together", OfRule) {
        if (status !== STATUS.DONE) throw errorOf(status, this.#texts[status], what, OfRule);
    }

    /** The same for a call that reads the flat lists of a subtree. */
    checkLists(status) {
        this.check(status, undefined, InvalidLists);
    }

    /** A pointer to a block of memory. */
    allocate(size) {
        const block = this.call("allocate", BigInt(size));
        if (!block) throw outOfMemory();
        return block >>> 0;
    }

    /** Gives a block back; after a trap it does nothing. */
    release(block) {
        if (!this.#trap) this.call("release", block);
    }

    /**
     * Calls `run` with pointers to parts: bytes to copy in, or how many bytes of room. They are valid until `run` returns, and
     * `run` doesn't call `over`.
     */
    over(parts, run) {
        let size = 0;
        const offsets = parts.map((part) => {
            const offset = size;
            size += aligned(part.length ?? part);
            return offset;
        });
        const inArea = size <= AREA;
        const block = inArea ? this.#area : this.allocate(size);
        try {
            const pointers = offsets.map((offset) => block + offset);
            parts.forEach((part, k) => part.length && this.#view(pointers[k], part.length).set(part));
            return run(...pointers);
        } finally {
            if (!inArea) this.release(block);
        }
    }

    /**
     * The text that a call writes. It gets pointers to parts, and room with its length, and a place for the text's length. A text that
     * has no room in the area is written twice, since the first call says how long it is.
     */
    text(parts, run) {
        const tried = (length) =>
            this.over([length, 8, ...parts], (room, out, ...pointers) => {
                const status = run(...pointers, room, BigInt(length), out);
                if (status === STATUS.ROOM) return { needed: this.count(out) };
                this.check(status);
                return { text: decoder.decode(this.read(room, this.count(out))) };
            });
        const { text, needed } = tried(AREA / 2);
        return text ?? tried(needed).text;
    }

    /** What a status means, in the module's words. */
    #textOf(status) {
        return this.over([STATUS_TEXT_LENGTH, 8], (room, out) => {
            this.call("yurewha_status_text", status, room, BigInt(STATUS_TEXT_LENGTH), out);
            return decoder.decode(this.read(room, this.count(out)));
        });
    }

    #view(pointer, length) {
        return new Uint8Array(this.#exports.memory.buffer, pointer, length);
    }

    /** A copy of some bytes of the memory. */
    read(pointer, length) {
        return this.#view(pointer, length).slice();
    }

    write(pointer, bytes) {
        this.#view(pointer, bytes.length).set(bytes);
    }

    u64(pointer) {
        return new DataView(this.#exports.memory.buffer).getBigUint64(pointer, true);
    }

    /** A number that counts objects in the memory, so that it is a safe integer. */
    count(pointer) {
        return Number(this.u64(pointer));
    }

    truth(pointer) {
        return this.#view(pointer, 1)[0] !== 0;
    }
}
