// Draws ranges.

/** An element with attributes and children. */
export function element(name, attributes = {}, ...children) {
    const made = document.createElement(name);
    for (const [key, value] of Object.entries(attributes)) made.setAttribute(key, value);
    made.append(...children);
    return made;
}

const hidden = (text) => element("span", { class: "visually-hidden" }, text);
/** A count of things, as text. */
export const plural = (count, one) => `${count} ${one}${count === 1 ? "" : "s"}`;
/** The chunks of a range, by their numbers from 1 on. */
export const chunksOf = ({ start, end }) => (start + 1 === end ? `chunk ${end}` : `chunks ${start + 1} to ${end}`);

function box(node, what, isKept = true) {
    const made = element("span", { class: "node", title: `${what}\n${node.hex}\n${node.size} bytes` }, node.hex.slice(0, 4));
    made.classList.toggle("cut", node.isCut);
    made.classList.toggle("hidden", !isKept);
    if (node.isCut) made.append(hidden(", natural cut"));
    if (!isKept) made.append(hidden(", hashed away"));
    return made;
}

/** The button at a position between two chunks, which cuts or merges there. */
function boundary(position, isCut, press) {
    const label = `${isCut ? "Merge the ranges" : "Cut"} between chunk ${position} and chunk ${position + 1}`;
    const attributes = { type: "button", id: `between-${position}`, class: isCut ? "merge" : "cut-here", "aria-label": label, title: label };
    const button = element("button", attributes, isCut ? "merge" : "✂");
    button.addEventListener("click", () => press(position));
    return button;
}

/** The chunks of a range, of which those between its kept left and right ones are hashed away. */
function chunkRow(ranges, { start, end }, [left, right], press) {
    const row = element("div", { class: "row" });
    for (let place = start; place < end; place++) {
        const isKept = place < start + left || place >= end - right;
        const pair = element("span", { class: "pair" }, box(ranges.nodes[place], `chunk ${place + 1}`, isKept));
        if (place + 1 < end) pair.append(boundary(place + 1, false, press));
        row.append(pair);
    }
    return row;
}

/** The kept nodes of a level above the chunks. */
function nodeRow(left, right, level, isTop) {
    const boxes = (nodes) => nodes.map((node) => box(node, `level ${level}`));
    const gap = isTop ? [] : [element("span", { class: "gap" }, "…", hidden("nodes that are hashed away"))];
    return element("div", { class: "row" }, ...boxes(left), ...gap, ...boxes(right));
}

/** The left and right nodes of each level of flat lists. */
function sidesOf({ levels, nodes }, nodeOf) {
    const all = Array.from(nodes, nodeOf);
    const lefts = levels.map(([count]) => all.splice(0, count));
    const rights = levels.map(([, count]) => count).reverse().map((count) => all.splice(0, count)).reverse();
    return lefts.map((left, level) => [left, rights[level]]);
}

function figures({ subtree, start, end, last }) {
    const kept = `Keeps ${plural(subtree.numNodes, "node")} of ${plural(end - start, "chunk")}.`;
    if (!last) return kept;
    const bound = `at most ${last.bound}: half of the ${last.before} nodes that both kept, and one for each level`;
    return `${kept} The merge hashed ${plural(last.parents, "parent")}, and may hash ${bound}.`;
}

function card(ranges, range, press) {
    const flat = range.subtree.toFlat();
    const sides = sidesOf(flat, (node) => ranges.nodeOf(node));
    const levels = element("ol", { class: "levels", reversed: "" });
    for (let level = sides.length - 1; level >= 0; level--) {
        const [left, right] = sides[level];
        const name = level === 0 ? "Chunks" : `Level ${level}`;
        const label = element("div", { class: "label" }, `${name}: ${left.length} left, ${right.length} right`);
        const isTop = level === sides.length - 1;
        const row = level === 0 ? chunkRow(ranges, range, flat.levels[0], press) : nodeRow(left, right, level, isTop);
        levels.append(element("li", {}, label, row));
    }
    const title = chunksOf(range);
    const heading = element("h3", {}, title[0].toUpperCase() + title.slice(1));
    const how = range.last ? [element("p", { class: "bracketing" }, `Merged as ${range.name}`)] : [];
    return element("li", { class: "range" }, heading, ...how, levels, element("p", { class: "figures" }, figures(range)));
}

/** Draws all ranges into a list. `press` gets the position of a button that was pressed. */
export function draw(list, ranges, press) {
    const items = [];
    for (const range of ranges.ranges) {
        if (range.start > 0) items.push(element("li", { class: "joint" }, boundary(range.start, true, press)));
        items.push(card(ranges, range, press));
    }
    list.replaceChildren(...items);
}
