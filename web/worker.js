// Hashes files, so that the page doesn't wait.

import { loaded } from "./package.js";
import { chunksOfLines } from "./pairs.js";

const MOST_PAIRS_BYTES = 256 * 1024 * 1024;

/** The hash of a file's bytes. `passed` gets the length of each piece. */
async function hashOf(yurewha, file, passed) {
    const counted = new TransformStream({
        transform(piece, controller) {
            passed(piece.length);
            controller.enqueue(piece);
        },
    });
    return yurewha.hashStream(file.stream().pipeThrough(counted));
}

/** The chunks of a file between the cuts that words say, with a name for each. */
function piecesOf(file, words) {
    const cuts = words.map((word) => (/^[0-9]+$/.test(word) ? Number(word) : NaN));
    const offsets = [...(cuts[0] === 0 ? [] : [0]), ...cuts, ...(cuts.at(-1) === file.size ? [] : [file.size])];
    if (!offsets.every((offset, k) => k === 0 || offset > offsets[k - 1])) {
        throw new Error(`the cuts must be whole numbers that rise, from 0 to the file's ${file.size} bytes`);
    }
    const ends = offsets.slice(1);
    return ends.map((end, k) => ({ name: `${file.name} from ${offsets[k]}`, data: file.slice(offsets[k], end) }));
}

/** What gets the lengths of pieces, and tells now and then which share of all bytes passed. */
function progressOf(total) {
    let [done, told] = [0, 0];
    return (length) => {
        done += length;
        if (done - told < total / 200) return;
        told = done;
        postMessage({ kind: "progress", share: done / total });
    };
}

/** Files, each of which is cut as Xet does, and compared with those before it. */
async function hashFiles(yurewha, files) {
    const passed = progressOf(files.reduce((sum, file) => sum + file.size, 0));
    const above = new yurewha.HashIndex();
    for (const file of files) {
        const chunks = [];
        for await (const chunk of yurewha.chunksOf(file)) {
            chunks.push(chunk);
            passed(chunk[1]);
        }
        const hashes = chunks.map(([hash]) => hash);
        const isShared = above.find(hashes).map((number) => number !== null);
        above.insert(hashes, hashes.keys());
        const sizes = chunks.map(([, size]) => size);
        postMessage({ kind: "file", name: file.name, size: file.size, sizes, isShared, hash: yurewha.fileHash(chunks).hex() });
    }
    postMessage({ kind: "done" });
}

async function hashChunks(yurewha, files, words) {
    if (files.length > 1) throw new Error("the cuts are those of one file: choose one, or leave the cuts empty");
    const passed = progressOf(files[0].size);
    const pairs = [];
    for (const { name, data } of piecesOf(files[0], words)) {
        const hash = await hashOf(yurewha, data, passed);
        pairs.push([hash, data.size]);
        postMessage({ kind: "chunk", name, size: data.size, hash: hash.hex() });
    }
    tellRoots(yurewha, yurewha.Chunks.from(pairs));
}

async function readPairs(yurewha, file) {
    if (file.size > MOST_PAIRS_BYTES) throw new Error(`the file has more than ${MOST_PAIRS_BYTES} bytes`);
    postMessage({ kind: "progress", share: 0.1 });
    const text = await file.text();
    postMessage({ kind: "progress", share: 0.5 });
    tellRoots(yurewha, chunksOfLines(yurewha, text));
}

function tellRoots(yurewha, chunks) {
    const [root, file] = [yurewha.xorbHash(chunks), yurewha.fileHash(chunks)].map((hash) => hash.hex());
    postMessage({ kind: "roots", count: chunks.length, root, file });
    postMessage({ kind: "done" });
}

addEventListener("message", async ({ data: { kind, file, files, cuts } }) => {
    try {
        const yurewha = await loaded();
        const words = cuts?.split(/[\s,;]+/).filter(Boolean) ?? [];
        if (kind === "pairs") await readPairs(yurewha, file);
        else if (words.length === 0) await hashFiles(yurewha, files);
        else await hashChunks(yurewha, files, words);
    } catch (error) {
        postMessage({ kind: "error", text: error.message });
    }
});
