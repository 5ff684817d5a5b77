// The calls that take pieces of data, beside one another: what one takes all take, and each lets a source go in the same way.

import assert from "node:assert/strict";
import { Readable } from "node:stream";
import { setTimeout } from "node:timers/promises";
import * as errors from "../yurewha/index.js";
import { BYTES, test } from "./support.js";

const y = await errors.load(BYTES);
const data = Uint8Array.from({ length: 5000 }, (_, k) => (k * k) % 251);
const PLACES = [0, 1000, 3500, 5000];
const hashes = y.dataHashes(data, PLACES);
const tree = y.HashTree.fromChunks(hashes.map((hash, k) => [hash, PLACES[k + 1] - PLACES[k]]));
const checking = (options) => tree.proof(0, 3).open(tree.fileHash()).checking(options);

async function* chunker(pieces) {
    let place = 0;
    for await (const { length } of pieces) {
        const before = place;
        place += length;
        yield* PLACES.slice(1).filter((cut) => before < cut && cut <= place);
    }
}
async function gathered(chunks) {
    const found = [];
    for await (const [hash] of chunks) found.push(hash);
    return found.map(String);
}
const cut = (source, cuts) => gathered(y.hashCuts(source, cuts));
/** Each call with what it gives of the whole data. */
const TEXTS = hashes.map(String);
const CALLS = {
    hashStream: [(source) => y.hashStream(source).then(String), String(y.dataHash(data))],
    hashChunks: [async (source) => (await y.hashChunks(source, PLACES)).map(String), TEXTS],
    hashCuts: [(source) => cut(source, PLACES.slice(1)), TEXTS],
    "hashCuts with a chunker": [(source) => cut(source, chunker), TEXTS],
    // The data has fewer bytes than a chunk that another follows.
    "hashCuts without cuts": [(source) => cut(source), [String(y.dataHash(data))]],
    chunksOf: [(source) => gathered(y.chunksOf(source)), [String(y.dataHash(data))]],
    hashFile: [(source) => y.hashFile(source).then(String), String(y.fileHash([[y.dataHash(data), data.length]]))],
};

function* pieces() {
    for (let at = 0; at < data.length; at += 700) yield data.slice(at, at + 700);
}
/** Pieces that all have one memory, as readers with buffers of their own give them. */
function* reusing() {
    const room = new Uint8Array(700);
    for (const piece of pieces()) {
        room.set(piece);
        yield room.subarray(0, piece.length);
    }
}
/** A stream that asks for a piece only once the one before it was taken. */
function streamed(iterator, { cancel, type } = {}) {
    const pull = (controller) => {
        const { done, value } = iterator.next();
        if (done) controller.close();
        else controller.enqueue(value);
    };
    return new ReadableStream({ pull, cancel, type }, { highWaterMark: 0 });
}

test("each call takes each source, also one that uses its memory again", async () => {
    const sources = {
        "a Blob": () => new Blob([data]),
        "a File": () => new File([data], "name"),
        "the body of a response": () => new Response(data).body,
        "a stream": () => streamed(pieces()),
        "a stream of bytes": () => streamed(pieces(), { type: "bytes" }),
        "a stream of one memory": () => streamed(reusing()),
        "a stream of Node": () => Readable.from(pieces()),
        "a list": () => [...pieces()],
        "a list of promises": () => [...pieces()].map((piece) => Promise.resolve(piece)),
        "a generator of one memory": () => reusing(),
        "an asynchronous generator of one memory": async function* () {
            yield* reusing();
        },
    };
    for (const [kind, make] of Object.entries(sources)) {
        for (const [name, [call, wanted]] of Object.entries(CALLS)) assert.deepEqual(await call(make()), wanted, `${name} of ${kind}`);
        const made = make();
        const stream = made instanceof Blob ? made.stream() : made instanceof ReadableStream ? made : ReadableStream.from(made);
        assert.deepEqual(new Uint8Array(await new Response(stream.pipeThrough(checking())).arrayBuffer()), data, `checking() of ${kind}`);
    }
});

test("calls at once come to what each does alone", async () => {
    const others = () => [...pieces()].map((piece) => piece.map((byte) => byte ^ 1));
    for (const [name, [call, wanted]] of Object.entries(CALLS)) {
        for (const [other, [its]] of Object.entries(CALLS)) {
            assert.deepEqual((await Promise.all([call(pieces()), its(others())]))[0], wanted, `${name}, ${other}`);
        }
    }
});

test("each call says what it takes", async () => {
    const rule = "be a Blob, a stream, such as the body of a Response, or what gives Uint8Arrays";
    const wrong = new Map([
        [new Response(data), "an object"], [data, "a Uint8Array of 5000 bytes"], [data.buffer, "an object"], ["text", '"text"'], [null, "null"],
        [undefined, "undefined"], [5, "5"], [{}, "an object"],
    ]);
    for (const [name, [call]] of Object.entries(CALLS)) {
        for (const [value, got] of wrong) await assert.rejects(call(value), new TypeError(`a source must ${rule}, got ${got}`), name);
        for (const [piece, got] of [["text", '"text"'], [5, "5"], [null, "null"], [new ArrayBuffer(3), "an object"]]) {
            for (const source of [[piece], streamed([piece].values())]) {
                await assert.rejects(call(source), new TypeError(`a piece of data must be a Uint8Array, got ${got}`), name);
            }
        }
    }
    const cuts = "be numbers, one after another, or a chunker that gives them";
    for (const [value, got] of [[5, "5"], [null, "null"], ["12", '"12"'], [{}, "an object"]]) {
        await assert.rejects(cut([data], value), new TypeError(`cuts must ${cuts}, got ${got}`));
        await assert.rejects(cut([data], () => value), new TypeError(`what a chunker returns must ${cuts}, got ${got}`));
    }
});

/** How a source may answer that nobody reads it any more. */
const ANSWERS = {
    "answers": () => {},
    "fails": () => Promise.reject(new Error("from the source")),
    "throws": () => {
        throw new Error("from the source");
    },
    "never answers": () => new Promise(() => {}),
};

/** Calls that don't read their source to its end, each with what it comes to. */
const LEAVING = {
    "all chunks came": [async (source) => (await y.hashChunks(source, [0, 1000])).map(String), [TEXTS[0]]],
    "no piece is needed": [(source) => y.hashChunks(source, [0, 0]).then((found) => found.length), 1],
    "a cut goes back": [(source) => cut(source, [10, 5]), "a cut must be at least the one before it, 10, got 5"],
    "a cut is ahead": [(source) => cut(source, () => [5]), "a chunker's cut must be at most the number of bytes that it was given, 0, got 5"],
    "cuts fail": [(source) => cut(source, streamed((function* () {
        yield 1000;
        throw new Error("no cut");
    })())), "no cut"],
    "the signal was aborted": [(source) => y.hashFile(source, { signal: AbortSignal.abort(new Error("enough")) }), "enough"],
    "the signal is aborted": [(source) => {
        const controller = new AbortController();
        return y.hashFile(source, { signal: controller.signal, onProgress: () => controller.abort(new Error("enough")) });
    }, "enough"],
    "the reader leaves": [async (source) => {
        const chunks = y.hashCuts(source, chunker);
        const { value } = await chunks.next();
        await chunks.return();
        return String(value[0]);
    }, TEXTS[0]],
};
const oddPieces = function* () {
    yield data.slice(0, 500);
    yield "text";
    yield* pieces();
};
const ODD = "a piece of data must be a Uint8Array, got \"text\"";
for (const [name, [call]] of Object.entries(CALLS)) LEAVING[`${name} gets no bytes`] = [call, ODD, oddPieces];

test("a call comes to its own end, whatever its source says when it is let go", async () => {
    const untold = [];
    const note = (error) => untold.push(error);
    process.on("unhandledRejection", note);
    for (const [why, [call, wanted, given = pieces]] of Object.entries(LEAVING)) {
        for (const [how, answer] of Object.entries(ANSWERS)) {
            let left = 0;
            const leave = () => (left++, answer());
            const stream = streamed(given(), { cancel: leave });
            const iterator = given();
            const iterable = { [Symbol.asyncIterator]: () => ({ next: async () => iterator.next(), return: leave }) };
            for (const source of [stream, iterable]) {
                left = 0;
                const came = await Promise.race([call(source).catch(({ message }) => message), setTimeout(20_000, "it waits", { ref: false })]);
                assert.deepEqual([came, left], [wanted, 1], `${why}, and the source ${how}`);
            }
            assert.equal(stream.locked, false, `${why}, and the source ${how}`);
        }
    }
    for (const [how, answer] of Object.entries(ANSWERS)) {
        let left = 0;
        const cuts = streamed([10, 5].values(), { cancel: () => (left++, answer()) });
        await assert.rejects(cut([data], cuts), { name: "InvalidArguments" });
        assert.deepEqual([left, cuts.locked], [1, false], `the cuts' source ${how}`);
    }
    await setTimeout(20);
    process.off("unhandledRejection", note);
    assert.deepEqual(untold, []);
});

test("a promised piece that fails is told, and its list is let go", async () => {
    for (const [name, [call]] of Object.entries(CALLS)) {
        let left = 0;
        const next = () => ({ done: false, value: Promise.reject(new Error("lost")) });
        await assert.rejects(call({ [Symbol.iterator]: () => ({ next, return: () => void left++ }) }), new Error("lost"), name);
        assert.equal(left, 1, name);
    }
});

test("a source that ended or failed isn't left again, and its failure is told", async () => {
    const failing = function* () {
        yield* pieces();
        throw new Error("lost");
    };
    for (const [name, [call]] of Object.entries(CALLS)) {
        // This one is done before the end.
        const given = name === "hashChunks" ? (source) => y.hashChunks(source, [0, 5001]) : call;
        for (const make of [pieces, failing]) {
            let left = 0;
            const [iterator, leave] = [make(), () => void left++];
            const iterable = { [Symbol.asyncIterator]: () => ({ next: async () => iterator.next(), return: leave }) };
            for (const source of [iterable, streamed(make(), { cancel: leave })]) {
                const { message } = await given(source).then(() => ({}), (error) => error);
                const early = name === "hashChunks" ? "the number of bytes must be at least the last offset, 5001, got 5000" : undefined;
                assert.deepEqual([message, left, source.locked ?? false], [make === failing ? "lost" : early, 0, false], name);
            }
        }
    }
});
