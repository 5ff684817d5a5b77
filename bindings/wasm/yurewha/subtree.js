// Subtrees: what is kept of a range of chunks.

import { bytes, noJson, text, truth, wrongType } from "./arguments.js";
import { CHUNK_LENGTH } from "./chunks.js";
import { InvalidArguments } from "./errors.js";
import { HANDLE_LENGTH, Handle, Handles, disposable } from "./handle.js";
import { thirtyTwo } from "./hash.js";
import { forStringify } from "./json.js";
import { LEVEL_LENGTH, packedLevels, unpackedLevels } from "./levels.js";
import { inspected, showing, textless } from "./shown.js";

const flag = (value) => (value ? 1 : 0);
const misplaced = "of adjacent ranges, only the first may be marked at its start, and only the last at its end";

/** The class `Subtree` over a library. `owned` makes one that a call writes to its handle; `pointerOf` is where a handle is. */
export function makeSubtree(library, { Hash, rawOf, result, hmac }, { Chunks, packedOf }) {
    const handles = new Handles(library, "yurewha_subtree_free");
    const owned = (fill) => new Subtree(handles.make(fill));
    let pointerOf;

    class Subtree {
        #handle;

        static {
            pointerOf = (subtree) => {
                if (typeof subtree !== "object" || subtree === null || !(#handle in subtree)) {
                    throw wrongType("a range", "be a Subtree of the same module", subtree);
                }
                return subtree.#handle.pointer;
            };
        }

        constructor(handle) {
            if (!(handle instanceof Handle)) throw new TypeError("a Subtree is made by fromChunks, merge, fromJSON or fromFlat");
            this.#handle = handle;
            handles.watch(this, handle);
            show(this);
        }

        static fromChunks(atStart, chunks, atEnd) {
            const marks = [flag(truth(atStart, "atStart")), flag(truth(atEnd, "atEnd"))];
            const packed = packedOf(chunks);
            return library.over([packed], (at) =>
                owned((made) => {
                    const count = BigInt(packed.length / CHUNK_LENGTH);
                    library.check(library.call("yurewha_subtree_from_chunks", marks[0], at, count, marks[1], made));
                }),
            );
        }

        static merge(ranges) {
            const seen = new Set();
            const copies = [];
            // The handles of one call are distinct, so a range that occurs twice is copied.
            const distinct = (range) => {
                if (!seen.has(range)) {
                    seen.add(range);
                    return range;
                }
                copies.push(cloned(range));
                return copies.at(-1);
            };
            try {
                return mergedAll([...ranges].map(distinct));
            } finally {
                copies.forEach((copy) => copy.free());
            }
        }

        static fromJSON(json) {
            const given = typeof json === "string" ? text(json, "JSON") : bytes(json, "JSON");
            return library.over([given], (at) =>
                owned((made) => {
                    library.check(library.call("yurewha_subtree_from_json", at, BigInt(given.length), made), noJson(json));
                }),
            );
        }

        static fromFlat({ atStart, levels, nodes, atEnd }) {
            const marks = [flag(truth(atStart, "atStart")), flag(truth(atEnd, "atEnd"))];
            const counts = packedLevels(levels);
            const packed = packedOf(nodes);
            return library.over([counts, packed], (levelsAt, nodesAt) =>
                owned((made) => {
                    const lists = [levelsAt, BigInt(counts.length / LEVEL_LENGTH), nodesAt, BigInt(packed.length / CHUNK_LENGTH)];
                    library.checkLists(library.call("yurewha_subtree_from_flat", marks[0], ...lists, marks[1], made));
                }),
            );
        }

        get atStart() {
            return marksOf(this)[0];
        }

        get atEnd() {
            return marksOf(this)[1];
        }

        get totalSize() {
            return totalSizeOf(this);
        }

        get numNodes() {
            return numNodesOf(this);
        }

        get numLevels() {
            return numLevelsOf(this);
        }

        get levels() {
            return flatOf(this).levels;
        }

        get nodes() {
            return flatOf(this).nodes;
        }

        mergeInto(back) {
            if (back !== this) return merged(this, back);
            const copy = cloned(this);
            try {
                return merged(this, copy);
            } finally {
                copy.free();
            }
        }

        finalHash() {
            return finalHashOf(this);
        }

        fileHash(salt) {
            const key = salt === undefined ? rawOf(new Hash()) : thirtyTwo(salt, "a salt");
            const root = finalHashOf(this);
            return root === null || numNodesOf(this) === 0 ? root : hmac(rawOf(root), key);
        }

        finish(salt) {
            const hash = this.fileHash(salt);
            if (hash !== null) return hash;
            const [atStart, atEnd] = marksOf(this);
            throw new InvalidArguments(`a range must be marked at both ends, got one with atStart ${atStart} and atEnd ${atEnd}`);
        }

        clone() {
            return cloned(this);
        }

        equals(other) {
            const pointers = [pointerOf(this), pointerOf(other)];
            if (other === this) return true;
            return library.over([1], (out) => {
                library.check(library.call("yurewha_subtree_equal", ...pointers, out));
                return library.truth(out);
            });
        }

        jsonText() {
            const pointer = pointerOf(this);
            return library.text([], (...room) => library.call("yurewha_subtree_to_json", pointer, ...room));
        }

        toJSON() {
            return forStringify(this.jsonText());
        }

        toFlat() {
            return flatOf(this);
        }

        free() {
            this.#handle.free();
        }
    }
    const show = showing(Subtree, ["atStart", "levels", "nodes", "atEnd"]);
    textless(Subtree, "Subtree", "its jsonText()");
    inspected(Subtree, "Subtree", ({ atStart, atEnd, totalSize, numLevels, numNodes }, inspect) => {
        return ` ${inspect({ atStart, atEnd, totalSize, numLevels, numNodes })}`;
    });

    /** A number that a call writes of a subtree. */
    const told = (name, subtree) => {
        const pointer = pointerOf(subtree);
        return library.over([8], (out) => {
            library.check(library.call(name, pointer, out));
            return library.u64(out);
        });
    };

    const totalSizeOf = (subtree) => told("yurewha_subtree_total_size", subtree);
    const numNodesOf = (subtree) => Number(told("yurewha_subtree_num_nodes", subtree));
    const numLevelsOf = (subtree) => Number(told("yurewha_subtree_num_levels", subtree));

    const marksOf = (subtree) => {
        const pointer = pointerOf(subtree);
        return library.over([1, 1], (...marks) => {
            library.check(library.call("yurewha_subtree_marks", pointer, ...marks));
            return marks.map((mark) => library.truth(mark));
        });
    };

    const cloned = (subtree) => {
        const pointer = pointerOf(subtree);
        return owned((copy) => library.check(library.call("yurewha_subtree_clone", pointer, copy)));
    };

    /** The root, or null if an end isn't marked. */
    function finalHashOf(subtree) {
        const pointer = pointerOf(subtree);
        if (marksOf(subtree).includes(false)) return null;
        return result([], (out) => library.check(library.call("yurewha_subtree_final_hash", pointer, out)));
    }

    function flatOf(subtree) {
        const pointer = pointerOf(subtree);
        const [atStart, atEnd] = marksOf(subtree);
        const [levelCount, nodeCount] = [numLevelsOf(subtree), numNodesOf(subtree)];
        const parts = [LEVEL_LENGTH * levelCount, CHUNK_LENGTH * nodeCount, 8, 8];
        return library.over(parts, (levels, nodes, ...counts) => {
            const rooms = [levels, BigInt(levelCount), nodes, BigInt(nodeCount)];
            library.check(library.call("yurewha_subtree_to_flat", pointer, ...rooms, ...counts));
            const packed = library.read(nodes, parts[1]);
            return { atStart, levels: unpackedLevels(library.read(levels, parts[0])), nodes: new Chunks(packed), atEnd };
        });
    }

    /** Merges the back range into the front one, another object, and returns how many parents were hashed. */
    function merged(front, back) {
        const pointers = [pointerOf(front), pointerOf(back)];
        return library.over([8], (parents) => {
            library.check(library.call("yurewha_subtree_merge_into_counted", ...pointers, parents), misplaced);
            return library.count(parents);
        });
    }

    /** The merge of distinct ranges, whose handles are copied side by side. */
    function mergedAll(ranges) {
        const block = new Uint8Array(HANDLE_LENGTH * ranges.length);
        ranges.forEach((range, k) => block.set(library.read(pointerOf(range), HANDLE_LENGTH), HANDLE_LENGTH * k));
        return library.over([block], (at) =>
            owned((made) => library.check(library.call("yurewha_subtree_merge", at, BigInt(ranges.length), made), misplaced)),
        );
    }

    return { Subtree: disposable(Subtree), owned, pointerOf };
}
