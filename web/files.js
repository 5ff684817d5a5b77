// The second tab: files are hashed in a worker.

import { element, plural } from "./picture.js";
import { strip } from "./strip.js";

const get = (id) => document.getElementById(id);

function showProgress(share, said) {
    get("progress").value = share;
    get("progress-said").textContent = said;
}

function showRow(id, ...cells) {
    get(id).append(element("tr", {}, ...cells.map((shown) => element("td", {}, shown))));
}

/** What is shown for each kind of message from the worker. */
const RECEIVED = {
    progress: ({ share }) => showProgress(share, `${Math.floor(100 * share)} %`),
    file({ name, size, sizes, isShared, hash }) {
        const shared = sizes.filter((_, k) => isShared[k]);
        const bytes = shared.reduce((sum, length) => sum + length, 0);
        const said = shared.length > 0 ? `${plural(shared.length, "chunk")} of ${bytes} bytes` : "none";
        const picture = sizes.length > 0 ? strip(sizes, isShared) : "";
        showRow("named", name, `${size}`, `${sizes.length}`, element("code", {}, hash), said, picture);
    },
    chunk: ({ name, size, hash }) => showRow("hashed", name, `${size}`, element("code", {}, hash)),
    roots({ count, root, file }) {
        get("files-count").textContent = `${count}`;
        get("files-root").textContent = root;
        get("files-hash").textContent = file;
        get("files-roots").hidden = false;
    },
    done: () => showProgress(1, "Done."),
};

/** The tab. `report` runs something, and shows what it throws. */
export class Files {
    #report;
    #worker = null;
    /** The files that were chosen last for their chunks. */
    #files = [];

    constructor(report) {
        this.#report = report;
        get("chunks-of").addEventListener("change", ({ target }) => this.#hash([...target.files], target));
        get("pairs-of").addEventListener("change", ({ target }) => this.#read([...target.files], target));
        get("cancel").addEventListener("click", () => this.#begin());
        get("cuts").addEventListener("change", () => this.#files.length > 0 && this.#hash(this.#files, get("chunks-of")));
        for (const kind of ["dragenter", "dragover", "dragleave", "drop"]) {
            get("drop").addEventListener(kind, (event) => {
                event.preventDefault();
                get("drop").classList.toggle("over", kind === "dragenter" || kind === "dragover");
                if (kind === "drop" && event.dataTransfer.files.length > 0) this.#hash([...event.dataTransfer.files]);
            });
        }
    }

    #hash(files, chosen) {
        this.#begin(files.length > 0 && { kind: "chunks", files, cuts: get("cuts").value }, chosen);
        this.#files = files;
    }

    #read([file], chosen) {
        this.#begin(file && { kind: "pairs", file }, chosen);
    }

    /** Begins some work, if there is any, in a new worker. What an earlier one still does is given up, and what it showed goes. */
    #begin(work, chosen) {
        this.#worker?.terminate();
        this.#worker = null;
        this.#files = [];
        for (const input of [get("chunks-of"), get("pairs-of")]) if (input !== chosen) input.value = "";
        get("named").replaceChildren();
        get("hashed").replaceChildren();
        get("files-roots").hidden = true;
        showProgress(0, work ? "Working." : "");
        this.#report(() => work && this.#start(work));
    }

    #start(work) {
        this.#worker = new Worker(new URL("./worker.js", import.meta.url), { type: "module" });
        this.#worker.addEventListener("message", ({ data }) => (data.kind === "error" ? this.#fail(data.text) : RECEIVED[data.kind](data)));
        this.#worker.addEventListener("error", () => this.#fail("the worker can't run"));
        this.#worker.postMessage(work);
    }

    #fail(text) {
        showProgress(0, "");
        this.#report(() => {
            throw new Error(text);
        });
    }
}
