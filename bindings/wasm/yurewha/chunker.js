// Where Xet cuts a file into chunks.

import { dataOf } from "./arguments.js";
import { inspected, showing, textless } from "./shown.js";

/** The size of `yurewha_chunker`, which holds no pointers: a copy of its bytes is a copy of the chunker. */
const STATE_LENGTH = 16;
/** No chunk has more bytes, so no call needs more of a piece. */
const MOST_BYTES = 1 << 17;

/** The class `Chunker`, whose state is a copy in JavaScript's memory, so that there is nothing to free; and `xetCuts`, for `hashCuts`. */
export function makeChunker(library) {
    class Chunker {
        #state;

        constructor() {
            this.#state = library.over([STATE_LENGTH], (state) => {
                library.call("yurewha_chunker_begin", state);
                return library.read(state, STATE_LENGTH);
            });
            show(this);
        }

        get state() {
            return this.#state.slice();
        }

        get taken() {
            return library.over([this.#state], (state) => Number(library.call("yurewha_chunker_taken", state)));
        }

        nextBoundary(data) {
            const piece = dataOf(data, "data").subarray(0, MOST_BYTES);
            return library.over([this.#state, piece], (state, at) => {
                const end = Number(library.call("yurewha_chunker_next_boundary", state, at, BigInt(piece.length)));
                this.#state = library.read(state, STATE_LENGTH);
                return end === 0 ? undefined : end;
            });
        }

        clone() {
            const copy = new Chunker();
            copy.#state = this.#state;
            return copy;
        }
    }
    const show = showing(Chunker, ["state"]);
    textless(Chunker, "Chunker", "its taken");
    inspected(Chunker, "Chunker", ({ taken }, inspect) => ` ${inspect({ taken })}`);

    /** Where Xet cuts what comes in pieces. All ends in a piece are found before one is given, because the piece may change after that. */
    async function* xetCuts(pieces) {
        const chunker = new Chunker();
        let place = 0;
        for await (const piece of pieces) {
            const cuts = [];
            for (let at = 0, end; (end = chunker.nextBoundary(piece.subarray(at))) !== undefined; ) {
                at += end;
                cuts.push(place + at);
            }
            place += piece.length;
            yield* cuts;
        }
    }
    return { Chunker, xetCuts };
}
