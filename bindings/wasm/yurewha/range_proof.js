// Range proofs: the nodes of some adjacent chunks of a file, and the other nodes of each group on the way up to the root.

import { bytes, mustBe, noJson, text, u64, wrongType } from "./arguments.js";
import { CHUNK_LENGTH } from "./chunks.js";
import { InvalidArguments, InvalidProof, ProofTooLong, STATUS } from "./errors.js";
import { HASH_LENGTH, thirtyTwo } from "./hash.js";
import { forStringify } from "./json.js";
import { LEVEL_LENGTH, packedLevels, unpackedLevels } from "./levels.js";
import { inspected, showing, textless } from "./shown.js";

const MOST_LEVELS = 64;
/** The most nodes beside a range: eight on each side of each level. */
export const MOST_BESIDE = 2 * 8 * MOST_LEVELS;
/** How many bytes the JSON of a proof may have by default. */
export const PROOF_LIMIT = 1 << 24;
/** The JSON text of a node has more bytes. */
const NODE_TEXT = 64;
/** The first rule of a proof that is one of its flat lists, and not of a form. */
const FIRST_OF_LISTS = 5;
const UNPACKED = "be a number of levels, two counts for each, and 40 bytes for each node";

/** The message of an error of a range of a list. */
export const noRange = (first, end, count) => {
    return `a range must have a chunk, and none from ${count} on, got those from ${first} up to ${end}`;
};

const areSame = (mine, its) => mine.length === its.length && mine.every((byte, place) => byte === its[place]);

/** The flat lists of a proof, packed as the module has them. */
class Lists {
    constructor(levels, nodes) {
        this.levels = levels;
        this.nodes = nodes;
    }

    /** The numbers of left and right nodes of each level. */
    get counts() {
        return unpackedLevels(this.levels);
    }

    /** The nodes from one number up to, and without, another. */
    slice(start, end) {
        return this.nodes.subarray(CHUNK_LENGTH * start, CHUNK_LENGTH * end);
    }
}

/**
 * The class `RangeProof` over a library; `written`, the proof that a call writes to room for some number of nodes; and `overProof`, which
 * calls a function with the arguments of a proof's lists, and with pointers to parts.
 */
export function makeRangeProof(library, { rawOf }, { Chunks, packedOf }, { opened }, HashTree) {
    let overProof;

    class RangeProof {
        #lists;

        static {
            overProof = (proof, ...given) => over(proof.#lists, ...given);
        }

        constructor(packed) {
            this.#lists = packed instanceof Lists ? packed : unpacked(bytes(packed, "a packed proof"));
            show(this);
        }

        static fromChunks(chunks, first, end) {
            const list = Chunks.from(chunks);
            const [from, to] = [first, end].map((number) => u64(number, "the number of a chunk"));
            // A tree is made only of sizes that fit, which come second.
            if (from >= to || to > BigInt(list.length)) throw new InvalidArguments(noRange(from, to, list.length));
            const tree = HashTree.fromChunks(list);
            try {
                return tree.proof(from, to);
            } finally {
                tree.free();
            }
        }

        static fromJSON(json, { limit = PROOF_LIMIT } = {}) {
            const most = u64(limit, "a limit");
            const given = typeof json === "string" ? text(json, "JSON") : bytes(json, "JSON");
            if (given.length > most) throw new ProofTooLong(mustBe("the JSON of a range proof", `have at most ${most} bytes`, given));
            const what = noJson(json);
            return written(Math.floor(given.length / NODE_TEXT), [given], (rooms, at) => {
                library.check(library.call("yurewha_range_proof_from_json", at, BigInt(given.length), ...rooms), what);
            });
        }

        static fromFlat({ levels, nodes }) {
            const counts = packedLevels(levels);
            return new RangeProof(checked(new Lists(counts, packedOf(nodes).slice())));
        }

        get bytes() {
            const length = 1 + 2 * this.numLevels + CHUNK_LENGTH * this.#numNodes;
            return over(this.#lists, [length, 8], (lists, room, out) => {
                library.check(library.call("yurewha_range_proof_to_bytes", ...lists, room, BigInt(length), out));
                return library.read(room, library.count(out));
            });
        }

        get chunks() {
            const [before, after] = this.#beside(this.numLevels);
            return new Chunks(this.#lists.slice(before, this.#numNodes - after));
        }

        get numLevels() {
            return this.#lists.levels.length / LEVEL_LENGTH;
        }

        get #numNodes() {
            return this.#lists.nodes.length / CHUNK_LENGTH;
        }

        left(level) {
            const place = Number(u64(level, "the number of a level"));
            if (place >= this.numLevels) return new Chunks();
            const [before] = this.#beside(place);
            return new Chunks(this.#lists.slice(before, before + this.#lists.counts[place][0]));
        }

        right(level) {
            const place = Number(u64(level, "the number of a level"));
            if (place >= this.numLevels) return new Chunks();
            const end = this.#numNodes - this.#beside(place)[1];
            return new Chunks(this.#lists.slice(end - this.#lists.counts[place][1], end));
        }

        open(fileHash, salt) {
            const key = salt === undefined ? new Uint8Array(HASH_LENGTH) : thirtyTwo(salt, "a salt");
            return this.#opened("yurewha_range_proof_open", rawOf(fileHash, "a file hash"), key);
        }

        openRoot(root) {
            return this.#opened("yurewha_range_proof_open_root", rawOf(root, "a root"));
        }

        equals(other) {
            if (typeof other !== "object" || other === null || !(#lists in other)) throw wrongType("the other", "be a RangeProof", other);
            return ["levels", "nodes"].every((name) => areSame(this.#lists[name], other.#lists[name]));
        }

        jsonText() {
            const { levels, nodes } = this.#lists;
            return library.text([levels, nodes], (levelsAt, nodesAt, ...room) =>
                library.call("yurewha_range_proof_to_json", ...lent(this.#lists, levelsAt, nodesAt), ...room),
            );
        }

        toJSON() {
            return forStringify(this.jsonText());
        }

        toFlat() {
            return { levels: this.#lists.counts, nodes: new Chunks(this.#lists.nodes) };
        }

        #opened(name, ...given) {
            return over(this.#lists, given, (lists, ...pointers) =>
                opened(this, (made) => library.check(library.call(name, ...lists, ...pointers, made))),
            );
        }

        /** How many nodes stand on the left and on the right of the levels below one. */
        #beside(level) {
            const below = this.#lists.counts.slice(0, level);
            return [0, 1].map((side) => below.reduce((sum, count) => sum + count[side], 0));
        }
    }
    const show = showing(RangeProof, ["bytes"]);
    textless(RangeProof, "RangeProof", "its bytes or jsonText()");
    inspected(RangeProof, "RangeProof", ({ chunks, numLevels }, inspect) => ` ${inspect({ chunks, numLevels })}`);

    /** The arguments of flat lists that stand at two places. */
    const lent = ({ levels, nodes }, levelsAt, nodesAt) => {
        return [levelsAt, BigInt(levels.length / LEVEL_LENGTH), nodesAt, BigInt(nodes.length / CHUNK_LENGTH)];
    };

    /** Calls `run` with the arguments of flat lists, and pointers to parts. */
    const over = (lists, parts, run) => {
        const given = [lists.levels, lists.nodes, ...parts];
        return library.over(given, (levelsAt, nodesAt, ...pointers) => run(lent(lists, levelsAt, nodesAt), ...pointers));
    };

    /** Lists that are those of a proof. */
    function checked(lists) {
        over(lists, [], (given) => library.check(library.call("yurewha_range_proof_check", ...given)));
        return lists;
    }

    /** The lists of a proof that a call writes, of at most this many nodes. The call gets pointers to parts, too. */
    function listed(most, parts, run) {
        const rooms = [LEVEL_LENGTH * MOST_LEVELS, CHUNK_LENGTH * most];
        return library.over([...parts, ...rooms, 8, 8], (...pointers) => {
            const [levels, nodes, levelCount, nodeCount] = pointers.splice(parts.length);
            run([levels, BigInt(MOST_LEVELS), nodes, BigInt(most), levelCount, nodeCount], ...pointers);
            const counts = library.read(levels, LEVEL_LENGTH * library.count(levelCount));
            return new Lists(counts, library.read(nodes, CHUNK_LENGTH * library.count(nodeCount)));
        });
    }

    /** The proof that a call writes in this way. */
    const written = (...given) => new RangeProof(listed(...given));

    /** The lists of the proof that packed bytes say. */
    function unpacked(packed) {
        return listed(Math.floor(packed.length / CHUNK_LENGTH), [packed], (rooms, at) => {
            const status = library.call("yurewha_range_proof_from_bytes", at, BigInt(packed.length), ...rooms);
            const rule = status - STATUS.PROOF_RULE;
            // The module's texts of these rules speak of JSON, too.
            if (0 < rule && rule < FIRST_OF_LISTS) throw new InvalidProof(rule, mustBe("a packed proof", UNPACKED, packed));
            library.check(status);
        });
    }
    return { RangeProof, written, overProof };
}
