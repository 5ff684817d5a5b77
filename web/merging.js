// The first tab: ranges of chunks are cut and merged.

import { chunksOfLines } from "./pairs.js";
import { chunksOf, draw, element, plural } from "./picture.js";
import { Ranges } from "./ranges.js";

const MOST_CHUNKS = 500;
const FIRST_RANGES = 4;
const RANDOM_CUTS = 5;
const STEP_MS = 600;
const FAULT = "Another root: this build is faulty.";
const get = (id) => document.getElementById(id);
const below = (count) => Math.floor(Math.random() * count);

/** The tab over a loaded module. `report` runs something, shows what it throws, and returns whether it threw nothing. */
export class Merging {
    #yurewha;
    #report;
    #ranges = null;
    #timer = null;

    constructor(yurewha, report) {
        this.#yurewha = yurewha;
        this.#report = report;
        this.#on("draw", "submit", () => this.#show(this.#drawn()));
        this.#on("paste", "submit", () => this.#show(chunksOfLines(yurewha, get("pairs").value)));
        this.#on("cut-at-random", "click", () => this.#cutAtRandom());
        this.#on("cut-again", "click", () => this.#cutAgain());
        this.#on("play", "click", (wasPlaying) => wasPlaying || this.#play());
        this.#show(this.#drawn());
    }

    /** Runs something at an event, which ends what is playing. */
    #on(id, kind, run) {
        get(id).addEventListener(kind, (event) => {
            event.preventDefault();
            const wasPlaying = this.#timer !== null;
            this.#stop();
            this.#report(() => run(wasPlaying));
        });
    }

    #drawn() {
        const seed = BigInt(get("seed").value);
        const chunk = (_, k) => [this.#yurewha.Hash.randomFromSeed(seed + BigInt(k)), 100 + ((977 * k) % 9901)];
        return this.#yurewha.Chunks.from(Array.from({ length: Number(get("count").value) }, chunk));
    }

    /** Begins with a list, which is cut so that there is something to merge. */
    #show(chunks) {
        if (chunks.length > MOST_CHUNKS) throw new Error(`the page shows at most ${MOST_CHUNKS} chunks`);
        const made = new Ranges(this.#yurewha, chunks);
        this.#ranges?.free();
        this.#ranges = made;
        const places = Array.from({ length: FIRST_RANGES - 1 }, (_, k) => Math.floor(((k + 1) * chunks.length) / FIRST_RANGES));
        made.cutAt([...new Set(places)].filter((place) => place > 0));
        get("history").replaceChildren();
        get("no-history").hidden = false;
        this.#say(`${plural(chunks.length, "chunk")} in ${plural(made.ranges.length, "range")}.`);
    }

    /** Says what was done, and draws what is there now. */
    #say(text) {
        const { rootAtOnce, rootMerged, cuts } = this.#ranges;
        get("said").textContent = text;
        draw(get("picture"), this.#ranges, (position) => this.#press(position));
        get("root-at-once").textContent = rootAtOnce;
        get("root-merged").textContent = rootMerged ?? "";
        get("cut-again").disabled = cuts.length === 0;
        const isSame = rootMerged === rootAtOnce;
        get("verdict").className = rootMerged === null ? "" : isSame ? "same" : "other";
        get("verdict").textContent = rootMerged === null ? "Merge ranges until one is left." : isSame ? "The same." : FAULT;
    }

    /** Merges or cuts at a position, whose button then has the focus. */
    #press(position) {
        this.#stop();
        this.#report(() => (this.#ranges.isCut(position) ? this.#merge(position) : this.#cut(position)));
        get(`between-${position}`).focus();
    }

    #merge(position) {
        const merged = this.#ranges.merge(position);
        const kept = plural(merged.subtree.numNodes, "node");
        this.#say(`Merged to ${chunksOf(merged)}: ${plural(merged.last.parents, "parent")} hashed for it, ${kept} kept.`);
        if (this.#ranges.rootMerged === null) return;
        get("no-history").hidden = true;
        const parents = `, ${plural(this.#ranges.parents, "parent")} hashed: `;
        const root = element("code", {}, this.#ranges.rootMerged);
        get("history").append(element("li", {}, element("span", { class: "bracketing" }, merged.name), parents, root));
    }

    #cut(position) {
        this.#ranges.cut(position);
        this.#say(`Cut between chunk ${position} and chunk ${position + 1}.`);
    }

    #cutAtRandom() {
        const most = this.#ranges.chunks.length - 1;
        const positions = Array.from({ length: Math.min(RANDOM_CUTS, most) }, () => 1 + below(most));
        this.#ranges.cutAt([...new Set(positions)].sort((a, b) => a - b));
        this.#say(`Cut into ${plural(this.#ranges.ranges.length, "range")}.`);
    }

    #cutAgain() {
        this.#ranges.cutAt(this.#ranges.cuts);
        this.#say(`Cut into ${plural(this.#ranges.ranges.length, "range")} again.`);
    }

    #stop() {
        clearTimeout(this.#timer);
        this.#timer = null;
        get("play").textContent = "Play a random bracketing";
    }

    #play() {
        if (this.#ranges.cuts.length === 0) this.#cutAtRandom();
        else this.#cutAgain();
        get("play").textContent = "Stop";
        this.#step();
    }

    /** Merges two neighbours in a while, and goes on until one range is left. */
    #step() {
        const { ranges } = this.#ranges;
        if (ranges.length === 1) return this.#stop();
        const pause = matchMedia("(prefers-reduced-motion: reduce)").matches ? 0 : STEP_MS;
        this.#timer = setTimeout(() => {
            if (this.#report(() => this.#merge(ranges[below(ranges.length - 1)].end))) this.#step();
            else this.#stop();
        }, pause);
    }
}
