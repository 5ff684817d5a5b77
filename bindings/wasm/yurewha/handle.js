// Handles: what the module's memory holds for an object.

import { emptyHandle } from "./errors.js";

export const HANDLE_LENGTH = 8;

/**
 * Keeps handles of one kind, which the export `free` frees. A handle is freed by hand, or once its object can't be reached; after
 * a trap it is left.
 */
export class Handles {
    #library;
    #free;
    #lost;

    constructor(library, free) {
        this.#library = library;
        this.#free = free;
        this.#lost = new FinalizationRegistry((pointer) => this.#release(pointer));
    }

    /** A handle that `fill` writes to. If it throws, there is none. */
    make(fill) {
        const pointer = this.#library.allocate(HANDLE_LENGTH);
        try {
            this.#library.write(pointer, new Uint8Array(HANDLE_LENGTH));
            fill(pointer);
        } catch (error) {
            this.#library.release(pointer);
            throw error;
        }
        return new Handle(this, pointer);
    }

    watch(object, handle) {
        this.#lost.register(object, handle.pointer, handle);
    }

    free(handle) {
        this.#lost.unregister(handle);
        this.#release(handle.pointer);
    }

    #release(pointer) {
        if (this.#library.trap) return;
        this.#library.call(this.#free, pointer);
        this.#library.release(pointer);
    }
}

export class Handle {
    #handles;
    #pointer;

    constructor(handles, pointer) {
        this.#handles = handles;
        this.#pointer = pointer;
    }

    /** Where it is; throws EmptyHandle after it was freed. */
    get pointer() {
        this.mustBeOwned();
        return this.#pointer;
    }

    /** Throws EmptyHandle after it was freed. */
    mustBeOwned() {
        if (this.#pointer === null) throw emptyHandle();
    }

    /** Frees it; nothing happens the second time. */
    free() {
        if (this.#pointer === null) return;
        this.#handles.free(this);
        this.#pointer = null;
    }
}

/** Lets `using` free objects of a class, in engines that have it. */
export function disposable(kind) {
    const value = kind.prototype.free;
    if (Symbol.dispose) Object.defineProperty(kind.prototype, Symbol.dispose, { value, writable: true, configurable: true });
    return kind;
}
