// What comparisons, structured clones, JSON and Node's console see of an object, and how another thread gets it.

import assert from "node:assert/strict";
import { inspect } from "node:util";
import { setFlagsFromString } from "node:v8";
import { runInNewContext } from "node:vm";
import { MessageChannel, receiveMessageOnPort } from "node:worker_threads";
import * as errors from "../yurewha/index.js";
import { BYTES, chunksOf, test, wrapped } from "./support.js";

const [y, other] = await Promise.all([errors.load(BYTES), errors.load(BYTES)]);
const list = (count, it = y) => chunksOf(it, { drawn: { firstSeed: "1", count } });
const sessionOf = (...puts) => {
    const session = new y.Session();
    puts.forEach(([first, count]) => session.put(first, list(count)));
    return session;
};
/** An index of these seeds of hashes, each with a number. */
const indexOf = (...entries) => {
    const index = new y.HashIndex();
    index.insert(entries.map(([seed]) => y.Hash.randomFromSeed(seed)), entries.map(([, number]) => number));
    return index;
};
/** A chunker and a hasher of so many bytes, of which the last may be another than 0. */
const zeros = (count, last) => new Uint8Array(count).fill(last, count - 1);
const chunkerOf = (count = 0, last = 0) => {
    const chunker = new y.Chunker();
    chunker.nextBoundary(zeros(count, last));
    return chunker;
};
const fileOf = (count = 0, last = 0) => new y.FileHasher().update(zeros(count, last));
const treeOf = (count) => y.HashTree.fromChunks(list(count));
const proofOf = (first, end) => y.RangeProof.fromChunks(list(30), first, end);
const rangeOf = (first, end) => proofOf(first, end).openRoot(y.xorbHash(list(30)));
const chunk = Buffer.from("one chunk");
const single = y.HashTree.fromChunks([[y.dataHash(chunk), chunk.length]]);
const openedBlob = (salt = new Uint8Array(32)) => y.VerifiedBlob.open(single.fileHash(salt), () => chunk, () => single.proof(0, 1), { salt });
const [blob, salted] = [await openedBlob(), await openedBlob(new Uint8Array(32).fill(1))];

/** For each class, calls that make objects of different values. */
const KINDS = {
    Hash: [() => new y.Hash(), () => y.Hash.randomFromSeed(1), () => y.Hash.randomFromSeed(2)],
    Chunks: [() => new y.Chunks(), () => y.Chunks.from(list(3)), () => y.Chunks.from(list(4))],
    Hasher: [() => new y.Hasher(), () => y.Hasher.internalNode(), () => new y.Hasher().update(Uint8Array.of(1)), () => new y.Hasher().update(Uint8Array.of(2))],
    Chunker: [() => chunkerOf(), () => chunkerOf(8193), () => chunkerOf(9000), () => chunkerOf(8193, 200)],
    FileHasher: [() => fileOf(), () => fileOf(1), () => fileOf(2), () => fileOf(2, 1), () => fileOf(140_000)],
    Subtree: [
        () => y.Subtree.fromChunks(true, [], true),
        () => y.Subtree.fromChunks(true, [], false),
        () => y.Subtree.fromChunks(false, list(100), false),
        () => y.Subtree.fromChunks(false, list(101), false),
    ],
    HashIndex: [() => indexOf(), () => indexOf([1, 7]), () => indexOf([2, 7]), () => indexOf([1, 8]), () => indexOf([1, 7], [2, 7])],
    HashTree: [() => treeOf(0), () => treeOf(1), () => treeOf(30), () => treeOf(31)],
    RangeProof: [() => proofOf(0, 1), () => proofOf(0, 2), () => proofOf(7, 9)],
    OpenedRange: [() => rangeOf(0, 1), () => rangeOf(0, 2), () => rangeOf(7, 9)],
    VerifiedBlob: [() => blob, () => salted, () => blob.slice(1), () => blob.slice(0, 8), () => blob.slice(1, 8), () => blob.slice(0, 8, "text/plain")],
    Session: [() => sessionOf(), () => sessionOf([0, 3]), () => sessionOf([1, 3]), () => sessionOf([0, 3], [7, 2])],
};

for (const [kind, makers] of Object.entries(KINDS)) {
    test(`a comparison sees the value of a ${kind}`, () => {
        makers.forEach((make, k) => {
            assert.deepStrictEqual(make(), make());
            for (const another of makers.slice(k + 1)) {
                assert.notDeepStrictEqual(make(), another());
                assert.notDeepEqual(make(), another());
            }
        });
    });
}

/** What takes data, and makes a text of what isn't any. Each returns the text. */
const CONSUMERS = {
    Response: (it) => new Response(it).text(),
    Request: (it) => new Request("http://127.0.0.1/", { method: "POST", body: it }).text(),
    Blob: (it) => new Blob([it]).text(),
    File: (it) => new File([it], "name").text(),
    "a part of a form": (it) => {
        const form = new FormData();
        form.append("it", it);
        return form.get("it");
    },
    "a text in a form": (it) => new URLSearchParams({ it }).get("it"),
    "a template": (it) => `${it}`,
    String,
    "a sum of texts": (it) => "" + it,
    "a list's text": (it) => [it].join(),
    toString: (it) => it.toString(),
    TextEncoder: (it) => new TextDecoder().decode(new TextEncoder().encode(it)),
    Buffer: (it) => Buffer.from(`${it}`).toString(),
};
/** What an error says to use of an object. */
const USES = {
    Chunks: "its bytes or toJSON()",
    Hasher: "its digest()",
    Chunker: "its taken",
    FileHasher: "its root() or fileHash()",
    Subtree: "its jsonText()",
    HashIndex: "its saved lists",
    HashTree: "its root or fileHash()",
    RangeProof: "its bytes or jsonText()",
    OpenedRange: "its read() or proof",
    VerifiedBlob: "await it.arrayBuffer(), or in a Response it.stream()",
    Session: "its jsonText()",
};

for (const [kind, [make]] of Object.entries(KINDS)) {
    test(`no consumer of data takes a text that isn't that of a ${kind}`, async () => {
        const told = new TypeError(`${kind} has no conversion to text, so no Response, Blob or template takes it: use ${USES[kind]}`);
        for (const [name, consume] of Object.entries(CONSUMERS)) {
            const taken = async () => consume(make());
            if (kind === "Hash") assert.equal(await taken(), make().hex(), name);
            else await assert.rejects(taken, told, name);
        }
        const clone = structuredClone(make());
        assert.deepEqual([Object.getPrototypeOf(clone), Object.keys(clone)], [Object.prototype, Object.keys(make())]);
    });
}

test("a VerifiedBlob is data by its stream or its buffer", async () => {
    const consumers = [(it) => new Response(it).text(), (it) => new Request("http://127.0.0.1/", { method: "POST", body: it, duplex: "half" }).text()];
    for (const consume of consumers) for (const it of [blob.stream(), await blob.arrayBuffer()]) assert.equal(await consume(it), "one chunk");
    assert.equal(await new Blob([await blob.arrayBuffer()]).text(), "one chunk");
    for (const consume of [(it) => URL.createObjectURL(it), (it) => new FormData().append("it", it, "name")]) assert.throws(() => consume(blob), TypeError);
});

test("a comparison sees what an object has become", () => {
    const [front, back] = [list(60).slice(0, 30), list(60).slice(30)].map((chunks) => y.Subtree.fromChunks(false, chunks, false));
    front.mergeInto(back);
    assert.deepStrictEqual(front, y.Subtree.fromChunks(false, list(60), false));
    const session = sessionOf([0, 3]);
    session.put(7, list(2));
    assert.deepStrictEqual(session, sessionOf([0, 3], [7, 2]));
    const index = indexOf([2, 7]);
    index.insert([y.Hash.randomFromSeed(1)], [8]);
    assert.deepStrictEqual(index, indexOf([1, 8], [2, 7]));
});

test("a session is saved alike, in whatever order its chunks were put", () => {
    const chunks = list(60);
    const [one, two] = [[0, 20, 40], [40, 0, 20]].map((places) => {
        const session = new y.Session();
        places.forEach((place) => session.put(place, chunks.slice(place, place + 20)));
        return session;
    });
    assert.deepStrictEqual(one, two);
    assert.deepEqual(one.saved.knownHashes, chunks.map(([hash]) => hash.hex()).sort());
});

test("an object doesn't change through its own properties", () => {
    const hash = y.Hash.randomFromSeed(1);
    const range = y.Subtree.fromChunks(false, list(30), false);
    const json = range.jsonText();
    assert.throws(() => (hash.bytes = new Uint8Array(32)), TypeError);
    hash.bytes.fill(0);
    range.nodes.bytes.fill(0);
    range.levels.length = 0;
    assert.equal(hash.hex(), y.Hash.randomFromSeed(1).hex());
    assert.equal(range.jsonText(), json);
    assert.deepStrictEqual({ ...range }, range.toFlat());
});

/** What another thread gets of a message. */
function received(message) {
    const { port1, port2 } = new MessageChannel();
    port1.postMessage(message);
    const found = receiveMessageOnPort(port2).message;
    port1.close();
    return found;
}

test("another thread makes each object again of what it is sent", () => {
    const hash = y.Hash.randomFromSeed(7);
    const chunks = y.Chunks.from(list(50));
    const range = y.Subtree.fromChunks(true, chunks, true);
    const session = sessionOf([40, 10], [0, 30]);
    const proof = proofOf(7, 9);
    const sent = received([hash.bytes, chunks.bytes, range.jsonText(), session.saved, proof.bytes]);
    assert.equal(new other.Hash(sent[0]).hex(), hash.hex());
    assert.equal(other.xorbHash(new other.Chunks(sent[1])).hex(), y.xorbHash(chunks).hex());
    assert.equal(other.Subtree.fromJSON(sent[2]).finalHash().hex(), range.finalHash().hex());
    assert.equal(new other.RangeProof(sent[4]).openRoot(other.xorbHash(list(30, other))).begins(0), rangeOf(7, 9).begins(0));
    const restored = other.Session.restore(sent[3]);
    for (const [it, made] of [[y, session], [other, restored]]) assert.equal(made.put(30, list(35, it).slice(25)), 5);
    assert.deepEqual(restored.saved, session.saved);
    assert.equal(restored.root(50).hex(), session.root(50).hex());
});

test("a structured clone is a plain object with the value, which no call takes", () => {
    const hash = y.Hash.randomFromSeed(7);
    assert.deepStrictEqual(structuredClone(hash), { bytes: hash.bytes });
    assert.deepStrictEqual(structuredClone(y.Chunks.from(list(2))), { bytes: y.Chunks.from(list(2)).bytes });
    assert.deepStrictEqual(structuredClone(indexOf([3, 2])), { saved: indexOf([3, 2]).saved });
    assert.deepStrictEqual(structuredClone(sessionOf([3, 2])), { saved: sessionOf([3, 2]).saved });
    assert.deepStrictEqual(structuredClone(proofOf(7, 9)), { bytes: proofOf(7, 9).bytes });
    assert.deepStrictEqual(structuredClone(rangeOf(7, 9)), { proof: { bytes: proofOf(7, 9).bytes } });
    assert.deepStrictEqual(structuredClone(treeOf(3)).numChunks, 3);
    const flat = structuredClone(y.Subtree.fromChunks(false, list(9), true));
    assert.deepStrictEqual([flat.atStart, flat.atEnd, flat.levels], [false, true, [[9, 0]]]);
    assert.throws(() => hash.equals(structuredClone(hash)), TypeError);
    assert.throws(() => y.xorbHash(structuredClone(y.Chunks.from(list(2)))), TypeError);
    assert.throws(() => y.Subtree.merge([flat]), TypeError);
});

test("chunks and sessions are read from their JSON", () => {
    const great = [[y.Hash.randomFromSeed(1), 2n ** 64n - 1n], [new y.Hash(), 0]];
    for (const chunks of [great, list(40), []]) {
        const text = JSON.stringify(y.Chunks.from(chunks));
        assert.deepStrictEqual(y.Chunks.fromJSON(JSON.parse(text)), y.Chunks.from(chunks));
    }
    assert.equal(JSON.stringify(y.Chunks.from(great.slice(1))), `[["${"0".repeat(64)}","0"]]`);
    const session = sessionOf([2n ** 63n, 3], [4, 2]);
    assert.deepStrictEqual(y.Session.restore(JSON.parse(JSON.stringify(session.saved))), session);
    assert.deepStrictEqual(y.Session.fromJSON(session.jsonText()), session);
    assert.equal(JSON.stringify(new y.Hasher()), JSON.stringify({ hash: y.dataHash(new Uint8Array()) }));
});

/** For each class that has a text of JSON, an object with a chunk of some size. */
function objectsOf(size) {
    const chunks = [[y.Hash.fromHex("1".repeat(64)), size], [y.Hash.randomFromSeed(1), 7]];
    const session = new y.Session({ keepHashes: false });
    session.put(4, chunks.slice(0, 1));
    return [y.Subtree.fromChunks(false, chunks, true), y.RangeProof.fromChunks(chunks, 0, 1), session];
}

test("JSON.stringify writes a text that fromJSON reads as the same object", () => {
    for (const it of [...objectsOf(5), ...objectsOf(2n ** 53n - 10n), y.Hash.randomFromSeed(1), y.Chunks.from(list(3)), new y.Chunks()]) {
        const text = JSON.stringify(it);
        if (it.jsonText) assert.equal(text, it.jsonText());
        assert.equal(JSON.stringify([{ it }]), `[{"it":${text}}]`);
        for (const given of [text, JSON.stringify(it, null, 4)]) assert.deepStrictEqual(it.constructor.fromJSON(given), it);
    }
});

test("JSON.stringify writes a number of 2^53 or more if the engine can, and else it throws", () => {
    // Node 20 has JSON.rawJSON behind a flag.
    setFlagsFromString("--harmony-json-parse-with-source");
    const { rawJSON } = runInNewContext("JSON");
    const before = Object.getOwnPropertyDescriptor(JSON, "rawJSON");
    const define = (value) => Object.defineProperty(JSON, "rawJSON", { value, configurable: true });
    const great = [2n ** 53n, 2n ** 53n + 1n, 2n ** 64n - 8n].flatMap((size) => objectsOf(size).map((it) => [it, size]));
    const words = y.Session.fromJSON('{"runs":[],"known_hashes":[[9007199254740993,2,3,4]]}');
    try {
        for (const [it, number] of [...great, [words, 2n ** 53n + 1n]]) {
            define(undefined);
            const error = new RangeError(`this engine's JSON.stringify writes no number of 2^53 or more, got ${number}: use jsonText()`);
            assert.throws(() => JSON.stringify(it), error);
            define(rawJSON);
            assert.equal(JSON.stringify(it), it.jsonText());
            assert.deepStrictEqual(it.constructor.fromJSON(JSON.stringify(it)), it);
        }
    } finally {
        if (before) Object.defineProperty(JSON, "rawJSON", before);
        else delete JSON.rawJSON;
    }
});

test("JSON that is none of chunks or a session is refused", () => {
    const hex = "0".repeat(64);
    for (const pairs of [null, 5, [[hex]], [[hex, 1]], [[hex, "01"]], [[hex, "-1"]], [[hex, ""]], [[hex, "1e3"]], [[1, "1"]]]) {
        assert.throws(() => y.Chunks.fromJSON(pairs), TypeError, JSON.stringify(pairs));
    }
    assert.throws(() => y.Chunks.fromJSON([[hex, `${2n ** 64n}`]]), RangeError);
    assert.throws(() => y.Chunks.fromJSON([["0", "1"]]), errors.InvalidText);
    for (const kind of [y.Chunks, y.Hash]) {
        for (const text of ["", "ab", hex, `"${hex}`]) {
            assert.throws(() => kind.fromJSON(text), new errors.InvalidText(`the text must be JSON, got ${JSON.stringify(text)}`));
        }
        for (const text of ["null", "5", "{}", `["${hex}"]`]) assert.throws(() => kind.fromJSON(text), TypeError, text);
    }
    assert.throws(() => y.Hash.fromJSON('"0"'), errors.InvalidText);
    const { runs, knownHashes } = sessionOf([4, 2]).saved;
    const [[first, end, json]] = runs;
    const table = [
        [null, TypeError],
        [{}, TypeError],
        [{ runs }, TypeError],
        [{ runs: [[4, end, json]], knownHashes }, TypeError],
        [{ runs: [[first, end, null]], knownHashes }, TypeError],
        [{ runs, knownHashes: [1] }, TypeError],
        [{ runs: 5, knownHashes }, TypeError],
        [{ runs, knownHashes: 5 }, TypeError],
        [{ runs: [[first, end, "x"]], knownHashes }, errors.InvalidText],
        [{ runs: [[first, end, "{}"]], knownHashes }, errors.InvalidJson],
        [{ runs, knownHashes: ["00"] }, errors.InvalidText],
        [{ runs: [[end, first, json]], knownHashes }, errors.InvalidArguments],
        [{ runs: [...runs, ...runs], knownHashes }, errors.InvalidArguments],
    ];
    for (const [saved, kind] of table) assert.throws(() => y.Session.restore(saved), kind, JSON.stringify(saved));
    const lists = "a saved session must have lists as `runs` and `knownHashes` (`fromJSON` reads JSON), got ";
    const none = [["{}", '"{}"'], [{}, "an object"], [{ runs: "ab", knownHashes }, "an object"], [undefined, "undefined"], [7, "7"]];
    for (const [saved, got] of none) {
        assert.throws(() => y.Session.restore(saved), new TypeError(lists + got));
    }
    for (const run of ["abc", [first, end], [first, end, json, ""], null]) {
        const message = `run 0 must be an array of two positions and a JSON text, got ${Array.isArray(run) ? "an array" : JSON.stringify(run)}`;
        assert.throws(() => y.Session.restore({ runs: [run], knownHashes }), new TypeError(message));
    }
    for (const text of [null, undefined, 5, {}, [], new y.Session()]) assert.throws(() => y.Session.fromJSON(text), TypeError);
    const text = Buffer.from(sessionOf([4, 2]).jsonText());
    const shared = new Uint8Array(new SharedArrayBuffer(text.length));
    shared.set(text);
    assert.deepStrictEqual(y.Session.fromJSON(shared), sessionOf([4, 2]));
    const cut = text.subarray(0, -1);
    for (const given of [cut, [0xef, 0xbb, 0xbf, ...text], [...cut, 0x2c, 0x22, 0xff, 0x22, 0x3a, 0x30, 0x7d]]) {
        assert.throws(() => y.Session.fromJSON(Uint8Array.from(given)), errors.InvalidText);
    }
});

test("a session's text is read as it was, though it changes meanwhile", async () => {
    const before = sessionOf([4, 2]).jsonText();
    const text = Buffer.from(before);
    const { yurewha } = await wrapped(BYTES, (exports) => ({
        ...exports,
        yurewha_session_from_json: (...given) => {
            text.fill(" ");
            return exports.yurewha_session_from_json(...given);
        },
    }));
    assert.equal(yurewha.Session.fromJSON(text).jsonText(), before);
});

test("a saved session has this form", () => {
    const json = `{"at_end":false,"at_start":false,"levels":[[1,0]],"nodes":[{"hash":"${"1".repeat(64)}","size":7}]}`;
    const text = JSON.stringify({ runs: [["4", "5", json]], knownHashes: ["1".repeat(64), "2".repeat(64)] });
    const session = y.Session.restore(JSON.parse(text));
    assert.equal(JSON.stringify(session.saved), text);
    const word = BigInt(`0x${"1".repeat(16)}`);
    const words = [word, 2n * word].map((it) => `[${it},${it},${it},${it}]`);
    assert.equal(session.jsonText(), `{"runs":[{"first":4,"end":5,"chunks":${json}}],"known_hashes":[${words}]}`);
});

test("the first rule that a session's JSON breaks is named", () => {
    const of = (...runs) => `{"runs":[${runs}],"known_hashes":[]}`;
    const run = (first, end, chunks) => `{"first":${first},"end":${end},"chunks":${chunks}}`;
    const [range, marked] = [y.Subtree.fromChunks(false, list(1), false), y.Subtree.fromChunks(true, list(1), false)].map((it) => it.jsonText());
    const great = y.Subtree.fromChunks(false, [[new y.Hash(), 2n ** 64n - 1n]], false).jsonText();
    const strict = (got) => `the text must be JSON in which no object has a member twice, got ${got}`;
    const table = [
        ["nope", new errors.InvalidText(strict('"nope"'))],
        ['{"runs":[],"known_hashes":[],"x":{"a":1,"a":1}}', new errors.InvalidText(strict('"{\\"runs\\":[],\\"known_hashes\\":[],\\"x\\":{\\"a\\":1,\\"a\\":1}}"'))],
        ["[]", new errors.InvalidText("rule 1: the session isn't an object")],
        ['{"runs":[]}', new errors.InvalidText("rule 2: the runs or known hashes aren't an array")],
        [of('{"first":1}'), new errors.InvalidText("rule 3: a run isn't an object with two positions and chunks")],
        [of(run(-1, 2, 0)), new errors.InvalidText("rule 3: a run isn't an object with two positions and chunks")],
        ['{"runs":[],"known_hashes":[[1,2,3,18446744073709551616]]}', new errors.InvalidText("rule 4: a known hash isn't an array of four words")],
        [of(run(0, 1, "[]")), new errors.InvalidJson(1, "rule 1: the value isn't an object")],
        [of(run(0, 1, marked)), new errors.InvalidArguments("rule 6: a run has no position, a marked end, or no free position before it")],
        [of(run(0, 1, range), run(2, 3, great)), new errors.SizeOverflow("rule 7: the sizes of all runs add up to more than 2^64 - 1")],
        // Of several rules it is the lowest, wherever the runs stand.
        [of(run(0, 0, range), run(2, 3, "[]"), "7"), new errors.InvalidText("rule 3: a run isn't an object with two positions and chunks")],
        [of(run(0, 0, range), run(2, 3, "[]")), new errors.InvalidJson(1, "rule 1: the value isn't an object")],
    ];
    for (const [text, error] of table) assert.throws(() => y.Session.fromJSON(text), error, text);
});

test("Node's console shows what an object is", () => {
    const hash = y.Hash.randomFromSeed(1);
    const plain = (it, options) => inspect(it, options).replace(/\s+/g, " ");
    assert.equal(inspect(hash), `Hash(${hash.hex()})`);
    assert.equal(plain({ hash }), `{ hash: Hash(${hash.hex()}) }`);
    assert.equal(plain(y.Chunks.from([[hash, 7]])), `Chunks(1) [ [ Hash(${hash.hex()}), 7n ] ]`);
    const many = plain(y.Chunks.from(list(250)));
    assert.ok(many.startsWith("Chunks(250) [ [ Hash(") && many.endsWith(" ] and 150 more"), many.slice(-40));
    assert.ok(plain(y.Chunks.from(list(5)), { maxArrayLength: 2 }).endsWith(" ] and 3 more"));
    assert.ok(plain(y.Chunks.from(list(120)), { maxArrayLength: null }).endsWith("n ] ]"));
    // Another engine may give no such option.
    const shown = y.Chunks.from(list(120))[Symbol.for("nodejs.util.inspect.custom")](2, {}, inspect);
    assert.ok(shown.endsWith(" and 20 more"), shown.slice(-40));
    const range = y.Subtree.fromChunks(true, [[hash, 7]], false);
    assert.equal(plain(range), "Subtree { atStart: true, atEnd: false, totalSize: 7n, numLevels: 1, numNodes: 1 }");
    assert.equal(plain(sessionOf([4, 3])), "Session { numChunks: 3n, totalSize: 3231n, numRuns: 1 }");
    assert.equal(plain(new y.Hasher().update(Uint8Array.of(1, 2))).slice(0, 24), "Hasher { count: 2n, hash");
    assert.equal(plain(chunkerOf(8193)), "Chunker { taken: 8193 }");
    assert.equal(plain(fileOf(0)), `FileHasher { size: 0n, hash: Hash(${new y.Hash()}) }`);
    assert.equal(plain(indexOf([1, 7], [2, 7])), "HashIndex { size: 2 }");
    assert.equal(plain(y.HashTree.fromChunks([[hash, 7]])), `HashTree { numChunks: 1, totalSize: 7n, root: Hash(${hash.hex()}) }`);
    const proof = y.RangeProof.fromChunks([[hash, 7]], 0, 1);
    assert.equal(plain(proof), "RangeProof { chunks: Chunks(1) [ [ [Hash], 7n ] ], numLevels: 0 }");
    assert.equal(plain(proof.openRoot(hash)), "OpenedRange { fileSize: 7n, numChunks: 1, begins: 0n, ends: 7n }");
    assert.equal(plain(blob.slice(2, 5, "text/plain")), `VerifiedBlob { start: 2, size: 3, type: 'text/plain', fileHash: Hash(${blob.fileHash}) }`);
    range.free();
    assert.equal(inspect(range), "Subtree <the object was freed>");
    assert.equal(plain({ a: { b: { hash } } }, { depth: 1 }), "{ a: { b: [Object] } }");
    assert.equal(plain([[[hash]]], { depth: 2 }), `[ [ [ [Hash] ] ] ]`);
});
