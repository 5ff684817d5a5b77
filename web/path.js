// Draws the path from the chunks that were read to the root, as an SVG. The nodes of a level stand in a row, and the root is at the top.

import { shape } from "./shape.js";

/** A node's box, from one box to the next, from one row to the next, and the room for the names of rows. */
const [WIDTH, HEIGHT, STEP, ROW, NAME] = [48, 24, 56, 52, 88];
/** Of more nodes on the path, only the first and the last are drawn, half as many each. */
const MOST_ON_PATH = 8;
const encoder = new TextEncoder();

/** The groups of a list: each ends at the first natural cut from its third node on, or at its ninth node. */
function groupsOf(nodes) {
    const groups = [[]];
    for (const node of nodes) {
        const group = groups.at(-1);
        group.push(node);
        if (group.length === 9 || (group.length >= 3 && node.hash.remainder(4) === 0n)) groups.push([]);
    }
    return groups.filter((group) => group.length > 0);
}

/** The levels of a proof, from the chunks up. On each, `path` has the nodes of the range, or the parents that come from below. */
export function levelsOf({ internalNodeHash }, proof) {
    const nodesOf = (list) => Array.from(list, ([hash, size]) => ({ hash, size }));
    const parentOf = (group) => {
        const lines = group.map(({ hash, size }) => `${hash} : ${size}\n`);
        const parent = { hash: internalNodeHash(encoder.encode(lines.join(""))), size: group.reduce((sum, { size }) => sum + size, 0n) };
        for (const node of group) node.parent = parent;
        return parent;
    };
    const levels = [];
    let path = nodesOf(proof.chunks);
    for (let level = 0; level < proof.numLevels; level++) {
        const [left, right] = [nodesOf(proof.left(level)), nodesOf(proof.right(level))];
        levels.push({ left, path, right });
        path = groupsOf([...left, ...path, ...right]).map(parentOf);
    }
    return [...levels, { left: [], path, right: [] }];
}

/** The nodes of a row that are drawn, each with its kind; null is a gap. */
function drawnOf({ left, path, right }) {
    const half = MOST_ON_PATH / 2;
    const few = path.length <= MOST_ON_PATH ? path : [...path.slice(0, half), null, ...path.slice(-half)];
    const beside = (node) => ({ node, kind: "beside" });
    return [...left.map(beside), ...few.map((node) => node && { node, kind: "path" }), ...right.map(beside)];
}

function box({ node, kind, place: [x, y] }, isWrong) {
    const made = shape("g", { class: isWrong ? "wrong" : kind });
    const middle = { x: x + WIDTH / 2, y: y + HEIGHT / 2, "text-anchor": "middle", "dominant-baseline": "central" };
    made.append(
        shape("title", {}, `${node.hash}\n${node.size} bytes`),
        shape("rect", { x, y, width: WIDTH, height: HEIGHT, rx: 3 }),
        shape("text", middle, node.hash.hex().slice(0, 4)),
    );
    return made;
}

const nameOf = (level, top) => (level === 0 ? "Chunks" : level === top ? "Root" : `Level ${level}`);

/** Draws levels into an SVG. A path that leads to no known hash has a wrong top; chunks with numbers in `wrong` are wrong, too. */
export function drawPath(svg, levels, { isShown, wrong }) {
    const top = levels.length - 1;
    const rows = levels.map(drawnOf);
    const yOf = (level) => (top - level) * ROW;
    const places = new Map();
    rows.forEach((row, level) => {
        row.forEach((it, k) => {
            if (!it) return;
            it.place = [NAME + STEP * k, yOf(level)];
            places.set(it.node, it.place);
        });
    });
    const [lines, boxes] = [[], []];
    rows.forEach((row, level) => {
        boxes.push(shape("text", { class: "name", x: 0, y: yOf(level) + HEIGHT / 2, "dominant-baseline": "central" }, nameOf(level, top)));
        row.forEach((it, k) => {
            if (!it) {
                boxes.push(shape("text", { class: "name", x: NAME + STEP * k, y: yOf(level) + HEIGHT / 2, "dominant-baseline": "central" }, "…"));
                return;
            }
            const isWrong = (level === top && !isShown) || (level === 0 && wrong.some((number) => levels[0].path[number] === it.node));
            boxes.push(box(it, isWrong));
            const parent = places.get(it.node.parent);
            if (parent) lines.push(shape("line", { x1: it.place[0] + WIDTH / 2, y1: it.place[1], x2: parent[0] + WIDTH / 2, y2: parent[1] + HEIGHT }));
        });
    });
    const size = [NAME + STEP * Math.max(...rows.map((row) => row.length)), yOf(0) + HEIGHT + 2];
    svg.setAttribute("viewBox", `-1 -1 ${size[0] + 2} ${size[1] + 2}`);
    svg.setAttribute("width", size[0] + 2);
    svg.setAttribute("height", size[1] + 2);
    svg.setAttribute("aria-label", describe(levels, isShown));
    svg.replaceChildren(...lines, ...boxes);
}

/** The picture in words. */
function describe(levels, isShown) {
    const words = levels.slice(0, -1).map(({ left, path, right }, level) => {
        return `${nameOf(level, levels.length)}: ${path.length} on the path, ${left.length} on the left and ${right.length} on the right of it. `;
    });
    return `${words.join("")}${isShown ? "The path ends at the root of the file." : "The path doesn’t end at the root of the file."}`;
}
