// Sessions: chunks by their positions, which come in any order.

import { bytes, decimal, mustBe, text, u64, wrongType } from "./arguments.js";
import { CHUNK_LENGTH } from "./chunks.js";
import { STATUS, SessionGap, SessionOverlap, sessionSizes } from "./errors.js";
import { Handle, Handles, disposable } from "./handle.js";
import { HASH_LENGTH, thirtyTwo } from "./hash.js";
import { forStringify } from "./json.js";
import { inspected, showing, textless } from "./shown.js";

const KEEPS_NONE = "this session keeps no hashes";
const STRICT = "be JSON in which no object has a member twice";
const unfit = (first, end) =>
    `a run must have a position, no mark at an end, and a gap after the runs before it, got that from ${first} up to ${end}`;
const noRange = (first, count) =>
    `a range must have a chunk, and no mark at an end, got one of ${count} chunks from position ${first} on`;
const noHash = (first, end) =>
    end - first === 1n ? `position ${first} has no chunk` : `the positions from ${first} to ${end - 1n} have no chunk`;

/** Whether a session keeps hashes, by the options that it is made with. */
function keepsHashes(options) {
    const { keepHashes = true } = options ?? {};
    if (typeof keepHashes !== "boolean") throw wrongType("`keepHashes`", "be a boolean", keepHashes);
    return keepHashes;
}

/** The lists of a saved session, and the members of each run. */
function listsOf(saved) {
    const lists = ["runs", "knownHashes"].map((name) => {
        const list = saved?.[name];
        const isList = typeof list === "object" && typeof list?.[Symbol.iterator] === "function";
        if (!isList) throw wrongType("a saved session", "have lists as `runs` and `knownHashes` (`fromJSON` reads JSON)", saved);
        return [...list];
    });
    lists[0].forEach((run, k) => {
        if (!Array.isArray(run) || run.length !== 3) throw wrongType(`run ${k}`, "be an array of two positions and a JSON text", run);
    });
    return lists;
}

/** The class `Session` over a library. */
export function makeSession(library, { Hash, rawOf, result, packedHashes, unpacked }, { packedOf }, { Subtree, owned, pointerOf }) {
    const handles = new Handles(library, "yurewha_session_free");

    /** Throws the error of a put or of a join, unless the status is 0. */
    const check = (status, what) => {
        if (status === STATUS.SIZES) throw sessionSizes();
        library.check(status, what);
    };

    // A caller's iterators and getters may free the session. So each call takes the pointer after the last of them has run.
    class Session {
        #handle;

        constructor(options) {
            const name = () => (keepsHashes(options) ? "yurewha_session_new" : "yurewha_session_new_without_hashes");
            const fresh = (made) => library.check(library.call(name(), made));
            this.#handle = options instanceof Handle ? options : handles.make(fresh);
            handles.watch(this, this.#handle);
            show(this);
        }

        static fromJSON(json, options) {
            const given = typeof json === "string" ? text(json, "JSON") : bytes(json, "JSON");
            const keeps = keepsHashes(options) ? 1 : 0;
            const read = (at, made) => library.call("yurewha_session_from_json", at, BigInt(given.length), keeps, made);
            return library.over([given], (at) => new Session(handles.make((made) => library.check(read(at, made), mustBe("the text", STRICT, json)))));
        }

        static restore(saved, options) {
            const [runs, knownHashes] = listsOf(saved);
            const session = new Session(options);
            try {
                for (const [first, end, json] of runs) {
                    session.#pushSaved(decimal(first, "a position"), decimal(end, "a position"), Subtree.fromJSON(json));
                }
                const hashes = knownHashes.map((hex) => Hash.fromHex(hex));
                if (session.keepsHashes) session.keepHashes(hashes);
            } catch (error) {
                session.free();
                throw error;
            }
            return session;
        }

        clone() {
            const { pointer } = this.#handle;
            return new Session(handles.make((made) => library.check(library.call("yurewha_session_copy", pointer, made))));
        }

        put(first, chunks) {
            const position = u64(first, "a position");
            const packed = packedOf(chunks);
            const count = BigInt(packed.length / CHUNK_LENGTH);
            const { pointer } = this.#handle;
            let status;
            const fresh = library.over([packed, 8], (at, out) => {
                status = library.call("yurewha_session_put", pointer, position, at, count, out);
                return library.count(out);
            });
            this.#checkPut(status, position);
            return fresh;
        }

        putRange(first, count, range) {
            const [position, many] = [u64(first, "a position"), u64(count, "the number of chunks")];
            const { pointer } = this.#handle;
            const status = library.call("yurewha_session_put_range", pointer, position, many, pointerOf(range));
            this.#checkPut(status, position, noRange(position, many));
        }

        join(other) {
            if (other !== this) return this.#joined(other);
            const copy = this.clone();
            try {
                return this.#joined(copy);
            } finally {
                copy.free();
            }
        }

        taken(position) {
            const number = u64(position, "a position");
            const { pointer } = this.#handle;
            return library.over([1], (out) => {
                library.check(library.call("yurewha_session_taken", pointer, number, out));
                return library.truth(out);
            });
        }

        get numChunks() {
            return this.#number("yurewha_session_num_chunks");
        }

        get totalSize() {
            return this.#number("yurewha_session_total_size");
        }

        #number(name) {
            const { pointer } = this.#handle;
            return library.over([8], (out) => {
                library.check(library.call(name, pointer, out));
                return library.u64(out);
            });
        }

        get numRuns() {
            const { pointer } = this.#handle;
            return library.over([8], (out) => {
                library.check(library.call("yurewha_session_num_runs", pointer, out));
                return library.count(out);
            });
        }

        run(place) {
            const number = u64(place, "the place of a run");
            const noRun = mustBe("the place of a run", `be below the number of runs, ${this.numRuns}`, number);
            const { pointer } = this.#handle;
            const first = library.over([8], (out) => {
                const written = (made) => library.check(library.call("yurewha_session_run", pointer, number, out, made), noRun);
                owned(written).free();
                return library.u64(out);
            });
            return this.runFrom(first);
        }

        runFrom(position) {
            const number = u64(position, "a position");
            const { pointer } = this.#handle;
            return library.over([8, 8], (first, end) => {
                let status;
                const subtree = owned((made) => {
                    status = library.call("yurewha_session_run_from", pointer, number, first, end, made);
                    if (status !== STATUS.ARGUMENTS) library.check(status);
                });
                if (status === STATUS.DONE) return [library.u64(first), library.u64(end), subtree];
                subtree.free();
                return null;
            });
        }

        runs() {
            return [...this.#allRuns()];
        }

        gaps(total) {
            const limit = u64(total, "the total");
            const gaps = [];
            for (let gap = this.#nextGap(0n, limit); gap; gap = this.#nextGap(gap[1], limit)) gaps.push(gap);
            return gaps;
        }

        /** The first gap from a position on and below a total, or `null`. */
        #nextGap(position, total) {
            const { pointer } = this.#handle;
            return library.over([8, 8], (first, end) => {
                const status = library.call("yurewha_session_next_gap", pointer, position, total, first, end);
                if (status === STATUS.ARGUMENTS) return null;
                library.check(status);
                return [library.u64(first), library.u64(end)];
            });
        }

        pushRun(first, end, range) {
            const [from, to] = [u64(first, "a position"), u64(end, "a position")];
            const { pointer } = this.#handle;
            library.check(library.call("yurewha_session_push_run", pointer, from, to, pointerOf(range)), unfit(from, to));
        }

        keepHashes(hashes) {
            const packed = packedHashes(hashes);
            const { pointer } = this.#handle;
            library.over([packed], (at) => {
                library.check(library.call("yurewha_session_keep_hashes", pointer, at, BigInt(packed.length / HASH_LENGTH)), KEEPS_NONE);
            });
        }

        get keepsHashes() {
            const { pointer } = this.#handle;
            return library.over([1], (out) => {
                library.check(library.call("yurewha_session_keeps_hashes", pointer, out));
                return library.truth(out);
            });
        }

        knows(hash) {
            const raw = rawOf(hash, "a hash");
            const { pointer } = this.#handle;
            return library.over([raw, 1], (at, out) => {
                library.check(library.call("yurewha_session_knows", pointer, at, out));
                return library.truth(out);
            });
        }

        knownHashes() {
            const { pointer } = this.#handle;
            const count = library.over([8], (out) => {
                library.check(library.call("yurewha_session_num_known_hashes", pointer, out));
                return library.count(out);
            });
            const packed = library.over([HASH_LENGTH * count], (at) => {
                library.check(library.call("yurewha_session_known_hashes", pointer, at, BigInt(count)));
                return library.read(at, HASH_LENGTH * count);
            });
            return unpacked(packed);
        }

        get saved() {
            const saved = ([first, end, range]) => {
                const json = range.jsonText();
                range.free();
                return [`${first}`, `${end}`, json];
            };
            const knownHashes = this.knownHashes().map((hash) => hash.hex());
            return { runs: Array.from(this.#allRuns(), saved), knownHashes: knownHashes.sort() };
        }

        jsonText() {
            const { pointer } = this.#handle;
            return library.text([], (...room) => library.call("yurewha_session_to_json", pointer, 1, ...room));
        }

        toJSON() {
            return forStringify(this.jsonText());
        }

        root(total) {
            return this.#ofAll("yurewha_session_root", total);
        }

        finish(total, salt) {
            if (salt === undefined) return this.#ofAll("yurewha_session_finish", total);
            return this.#ofAll("yurewha_session_finish_with_salt", total, thirtyTwo(salt, "a salt"));
        }

        free() {
            this.#handle.free();
        }

        #ofAll(name, total, ...salt) {
            const number = u64(total, "the total");
            const { pointer } = this.#handle;
            let status;
            const hash = result(salt, (...places) => {
                status = library.call(name, pointer, number, ...places);
                if (status !== STATUS.SESSION_GAP) library.check(status);
            });
            if (status === STATUS.SESSION_GAP) throw new SessionGap(this.#whyNoHash(number));
            return hash;
        }

        /** Throws the error of a put at positions from one on, unless the status is 0. */
        #checkPut(status, position, what) {
            if (status === STATUS.SESSION_OVERLAP) throw new SessionOverlap(`position ${this.#takenFrom(position)} is taken`);
            check(status, what);
        }

        /** Joins another object, and returns how many of the hashes that it knows are new. */
        #joined(other) {
            const isOne = typeof other === "object" && other !== null && #handle in other;
            if (!isOne) throw wrongType("the other", "be a Session of the same module", other);
            const pointers = [this.#handle.pointer, other.#handle.pointer];
            let status;
            const fresh = library.over([8], (out) => {
                status = library.call("yurewha_session_join", ...pointers, out);
                return library.count(out);
            });
            if (status === STATUS.SESSION_OVERLAP) throw new SessionOverlap(`position ${this.#takenInBoth(other)} is taken in both`);
            check(status);
            return fresh;
        }

        /** Why the taken positions aren't those below the total. */
        #whyNoHash(total) {
            const gap = this.#nextGap(0n, total);
            return gap ? noHash(...gap) : `position ${this.#takenFrom(total)} is taken, and the total is ${total}`;
        }

        /** The first taken position from one on, which there is. */
        #takenFrom(position) {
            const [first] = this.#positionsFrom(position);
            return first > position ? first : position;
        }

        /** The first position that is taken here and in another session, which there is. */
        #takenInBoth(other) {
            let position = this.#takenFrom(0n);
            for (let theirs; (theirs = other.#takenFrom(position)) !== position; ) position = this.#takenFrom(theirs);
            return position;
        }

        /** The positions of the first run that ends after a position; if there is none, no number is as great as they are. */
        #positionsFrom(position) {
            const run = this.runFrom(position);
            run?.[2].free();
            return run ?? [Infinity, Infinity];
        }

        /** All runs by rising position: each is the first that ends after the one before it. */
        *#allRuns() {
            for (let run, end = 0n; (run = this.runFrom(end)) !== null; end = run[1]) yield run;
        }

        #pushSaved(first, end, range) {
            try {
                this.pushRun(first, end, range);
            } finally {
                range.free();
            }
        }
    }
    const show = showing(Session, ["saved"]);
    textless(Session, "Session", "its jsonText()");
    inspected(Session, "Session", ({ numChunks, totalSize, numRuns }, inspect) => ` ${inspect({ numChunks, totalSize, numRuns })}`);
    return disposable(Session);
}
