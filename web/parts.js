// The third tab: a part of a file is read with a proof, by a reader who knows the hash of the file alone.

import { drawPath, levelsOf } from "./path.js";
import { element, plural } from "./picture.js";

const MOST_BYTES = 64 * 1024 * 1024;
const MOST_CHUNKS = 100_000;
const MOST_SHOWN = 240;
const get = (id) => document.getElementById(id);
const numberOf = (id) => Number(get(id).value);

/** What a server keeps of a file: its bytes, cut into chunks of one length, and their tree. */
class Server {
    constructor(yurewha, data, length) {
        if (!Number.isInteger(length) || length < 1) throw new Error("a chunk has a whole number of bytes, and at least one");
        const count = Math.ceil(data.length / length);
        if (count > MOST_CHUNKS) throw new Error(`the page makes at most ${MOST_CHUNKS} chunks of a file`);
        const offsets = Array.from({ length: count + 1 }, (_, k) => Math.min(k * length, data.length));
        const hashes = yurewha.dataHashes(data, offsets);
        this.data = data;
        this.tree = yurewha.HashTree.fromChunks(hashes.map((hash, k) => [hash, offsets[k + 1] - offsets[k]]));
    }

    /** What is sent to a reader of some bytes: the proof of the chunks that hold them, and the data of these chunks. */
    answer(from, to) {
        const range = this.tree.chunksAt(from, to);
        if (range === null) throw new Error("the file has no such bytes");
        const [start, stop] = this.tree.bytesOf(...range).map(Number);
        return { range, proof: this.tree.proof(...range), data: this.data.slice(start, stop) };
    }

    free() {
        this.tree.free();
    }
}

/** What may happen to an answer on its way. */
const CHANGES = {
    nothing: (_, answer) => answer,
    byte(_, { data, ...rest }) {
        data[Math.floor(data.length / 2)] ^= 1;
        return { data, ...rest };
    },
    node({ Chunks, RangeProof }, { proof, ...rest }) {
        const { levels, nodes } = proof.toFlat();
        const { bytes } = nodes;
        bytes[0] ^= 1;
        return { proof: RangeProof.fromFlat({ levels, nodes: new Chunks(bytes) }), ...rest };
    },
};

/** The numbers of the chunks of a range whose data isn't the file's. */
function wrongChunks(range, data) {
    const start = range.begins(0);
    const numbers = Array.from({ length: range.numChunks }, (_, k) => k);
    return numbers.filter((k) => range.check(k, data.subarray(...[range.begins(k), range.ends(k)].map((place) => Number(place - start)))) === null);
}

/** Reads bytes of a file whose hash is known from what a server sent: the bytes, or why they are refused. */
function read(fileHash, [from, to], { proof, data }) {
    let range;
    try {
        range = proof.open(fileHash);
    } catch (error) {
        if (error.name !== "ProofMismatch") throw error;
        return { isShown: false, wrong: [], refused: "Refused: the proof doesn’t lead to the hash of the file." };
    }
    try {
        // Fewer bytes are accepted only at the end of the file. Its size is shown by the same check.
        const stop = Math.min(to, Number(range.fileSize));
        const bytes = range.read(from, stop, data);
        if (bytes !== null) return { isShown: true, wrong: [], bytes, stop, fileSize: range.fileSize };
        const wrong = wrongChunks(range, data);
        return { isShown: true, wrong, refused: `Refused: ${plural(wrong.length, "chunk")} of the data isn’t the file’s.` };
    } finally {
        range.free();
    }
}

/** The tab over a loaded module. `report` runs something, and shows what it throws. */
export class Parts {
    #yurewha;
    #report;
    #server = null;
    /** How many files were chosen. */
    #choices = 0;

    constructor(yurewha, report) {
        this.#yurewha = yurewha;
        this.#report = report;
        this.#on("make-file", "submit", () => this.#make());
        this.#on("read-part", "submit", () => this.#read());
        this.#on("change", "change", () => this.#read());
        get("part-of").addEventListener("change", ({ target }) => this.#pick(target.files[0]));
        this.#make();
    }

    #on(id, kind, run) {
        get(id).addEventListener(kind, (event) => {
            event.preventDefault();
            this.#report(run);
        });
    }

    /** Reads a file of the user's, if there is one, and begins with it, unless another one was chosen meanwhile. */
    async #pick(file) {
        this.#report(() => this.#clear());
        const choice = this.#choices;
        const end = (run) => choice === this.#choices && this.#report(run);
        try {
            if (file?.size > MOST_BYTES) throw new Error(`the file has more than ${MOST_BYTES} bytes`);
            const data = await file?.arrayBuffer();
            end(() => data && this.#serve(new Uint8Array(data)));
        } catch (error) {
            end(() => {
                throw error;
            });
        }
    }

    /** Begins with a file of the page's own. */
    #make() {
        this.#clear();
        get("part-of").value = "";
        this.#serve(this.#made());
    }

    /** Gives up the file, also one that is still read, and takes away what was shown of it. */
    #clear() {
        this.#choices++;
        this.#server?.free();
        this.#server = null;
        for (const id of ["part-file-hash", "part-file-size"]) get(id).textContent = "";
        this.#clearPart();
    }

    #clearPart() {
        for (const id of ["sent", "part-verdict", "part-bytes", "path"]) get(id).replaceChildren();
        get("path").removeAttribute("aria-label");
    }

    /** Lines with their numbers, as many bytes as are asked for. */
    #made() {
        const length = numberOf("made-bytes");
        const lines = Array.from({ length: Math.ceil(length / 10) }, (_, k) => `line ${`${k + 1}`.padStart(4, "0")}\n`);
        return new TextEncoder().encode(lines.join("")).subarray(0, length);
    }

    /** Begins with a file. Of an empty one there is nothing to read. */
    #serve(data) {
        this.#server = new Server(this.#yurewha, data, numberOf("chunk-length"));
        const { tree } = this.#server;
        get("part-file-hash").textContent = tree.fileHash().hex();
        get("part-file-size").textContent = `${plural(data.length, "byte")} in ${plural(tree.numChunks, "chunk")}`;
        const last = Math.max(data.length - 1, 0);
        get("to").max = get("from").max = last;
        if (numberOf("from") > last) [get("from").value, get("to").value] = [0, Math.min(99, last)];
        if (data.length > 0) this.#read();
    }

    #read() {
        this.#clearPart();
        if (!this.#server) throw new Error("there is no file yet");
        const asked = [numberOf("from"), numberOf("to") + 1];
        const answer = CHANGES[get("change").value](this.#yurewha, this.#server.answer(...asked));
        const result = read(this.#server.tree.fileHash(), asked, answer);
        this.#say(answer, asked, result);
        drawPath(get("path"), levelsOf(this.#yurewha, answer.proof), result);
    }

    #say({ range: [first, end], proof, data }, [from], { refused, bytes, stop, fileSize }) {
        const sent = `${plural(data.length, "byte")} of ${plural(end - first, "chunk")}, and a proof of ${plural(proof.toFlat().nodes.length, "node")}`;
        get("sent").textContent = `${sent} (${plural(proof.jsonText().length, "byte")} of JSON).`;
        get("part-verdict").className = refused ? "other" : "same";
        get("part-verdict").textContent = refused ?? `Accepted: these are bytes ${from} to ${stop - 1} of a file of ${fileSize} bytes.`;
        const shown = bytes ? new TextDecoder().decode(bytes.subarray(0, MOST_SHOWN)) : "";
        const more = bytes?.length > MOST_SHOWN ? [element("span", { class: "figures" }, ` and ${bytes.length - MOST_SHOWN} more`)] : [];
        get("part-bytes").replaceChildren(shown, ...more);
    }
}
