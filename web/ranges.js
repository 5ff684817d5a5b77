// Ranges of one list of chunks, which are cut and merged. Each hash and count comes from the module.

/** A range: chunks from `start` up to, and without, `end`; its subtree; how it was merged, as text; and its last merge, if any. */
export class Ranges {
    #yurewha;

    constructor(yurewha, chunks) {
        this.#yurewha = yurewha;
        this.chunks = chunks;
        this.nodes = Array.from(chunks, (chunk) => this.nodeOf(chunk));
        this.rootAtOnce = yurewha.xorbHash(chunks).hex();
        this.cuts = [];
        this.parents = 0;
        this.ranges = [this.#made(0, chunks.length)];
    }

    /** What is shown of a node. A natural cut is a hash that leaves 0 modulo 4. */
    nodeOf([hash, size]) {
        return { hex: hash.hex(), size, isCut: hash.remainder(4n) === 0n };
    }

    /** Whether a range ends at a position between two chunks. */
    isCut(position) {
        return this.ranges.some((range) => range.end === position);
    }

    /** Cuts the range around a position in two, which are made from their chunks. */
    cut(position) {
        const place = this.ranges.findIndex((range) => range.start < position && position < range.end);
        const { start, end, subtree } = this.ranges[place];
        this.ranges.splice(place, 1, this.#made(start, position), this.#made(position, end));
        subtree.free();
        this.#remember();
    }

    /** Merges the two ranges around a position. */
    merge(position) {
        const place = this.ranges.findIndex((range) => range.end === position);
        const [front, back] = this.ranges.slice(place, place + 2);
        const before = front.subtree.numNodes + back.subtree.numNodes;
        const parents = front.subtree.mergeInto(back.subtree);
        back.subtree.free();
        const bound = Math.floor(before / 2) + front.subtree.numLevels;
        const merged = { ...front, end: back.end, name: `(${front.name} ${back.name})`, last: { before, parents, bound } };
        this.ranges.splice(place, 2, merged);
        this.parents += parents;
        return merged;
    }

    /** Cuts the list at some positions alone, so that no range is a merged one. */
    cutAt(positions) {
        this.ranges.forEach((range) => range.subtree.free());
        const ends = [...positions, this.chunks.length];
        this.ranges = ends.map((end, k) => this.#made(ends[k - 1] ?? 0, end));
        this.#remember();
    }

    /** The root, if one range is left that was merged. */
    get rootMerged() {
        const [whole] = this.ranges;
        return whole.last && this.ranges.length === 1 ? whole.subtree.finalHash().hex() : null;
    }

    free() {
        this.ranges.forEach((range) => range.subtree.free());
    }

    #remember() {
        this.cuts = this.ranges.slice(1).map((range) => range.start);
        this.parents = 0;
    }

    #made(start, end) {
        const { length } = this.chunks;
        const subtree = this.#yurewha.Subtree.fromChunks(start === 0, this.chunks.slice(start, end), end === length);
        return { start, end, subtree, name: start + 1 === end ? `${end}` : `${start + 1}–${end}`, last: null };
    }
}
