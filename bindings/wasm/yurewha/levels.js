// The levels of flat lists: how many nodes each has on the left and on the right.

import { pairOf, u64 } from "./arguments.js";

export const LEVEL_LENGTH = 16;

/** Levels as the module has them: two counts of eight bytes each. */
export function packedLevels(levels) {
    const pairs = [...levels];
    const counts = new DataView(new ArrayBuffer(LEVEL_LENGTH * pairs.length));
    pairs.forEach((pair, k) => {
        pairOf(pair, `level ${k}`, "counts, of left and right nodes").forEach((count, side) => {
            counts.setBigUint64(LEVEL_LENGTH * k + 8 * side, u64(count, `a count of level ${k}`), true);
        });
    });
    return new Uint8Array(counts.buffer);
}

/** The pairs of counts of packed levels. */
export function unpackedLevels(block) {
    const counts = new DataView(block.buffer);
    return Array.from({ length: block.length / LEVEL_LENGTH }, (_, k) =>
        [0, 8].map((side) => Number(counts.getBigUint64(LEVEL_LENGTH * k + side, true))),
    );
}
