// Draws the chunks of a file as a strip: each is as wide as it is long, and those that the files above have, too, are dark.

import { plural } from "./picture.js";
import { shape } from "./shape.js";

const COLUMNS = 300;
const HEIGHT = 12;
/** More cuts than these would hide what is between them. */
const MOST_CUTS = 100;

/** Which share of each column is of shared chunks. */
function sharesOf(sizes, isShared, total) {
    const shares = new Float64Array(COLUMNS);
    let begin = 0;
    sizes.forEach((size, k) => {
        const [from, to] = [begin, begin + size].map((place) => (COLUMNS * place) / total);
        for (let x = Math.floor(from); isShared[k] && x < to; x++) shares[x] += Math.min(to, x + 1) - Math.max(from, x);
        begin += size;
    });
    return shares;
}

/** Where chunks but the last one end, as lines. */
function cutsOf(sizes, total) {
    let end = 0;
    return sizes.slice(0, -1).map((size) => `M${(COLUMNS * (end += size)) / total} 0v${HEIGHT}`);
}

/** The strip of a file's chunks, of which there is at least one. */
export function strip(sizes, isShared) {
    const total = sizes.reduce((sum, size) => sum + size, 0);
    const dark = Array.from(sharesOf(sizes, isShared, total), (share, x) => (share > 0 ? `M${x} ${HEIGHT}v${-HEIGHT * share}h1V${HEIGHT}z` : ""));
    const cuts = sizes.length - 1 > MOST_CUTS ? [] : cutsOf(sizes, total);
    const label = `${plural(sizes.length, "chunk")}, of which the files above have ${isShared.filter(Boolean).length}`;
    const attributes = { class: "strip", role: "img", "aria-label": label, viewBox: `0 0 ${COLUMNS} ${HEIGHT}`, preserveAspectRatio: "none" };
    return shape("svg", attributes, shape("path", { class: "shared", d: dark.join("") }), shape("path", { class: "cuts", d: cuts.join("") }));
}
