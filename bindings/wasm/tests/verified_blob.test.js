// Files that are read like a Blob from somewhere else: what they have in common with Blobs, and servers that lie, stall or die.

import assert from "node:assert/strict";
import { execFile } from "node:child_process";
import { once } from "node:events";
import { mkdirSync, mkdtempSync, readFileSync, rmSync, symlinkSync, writeFileSync } from "node:fs";
import { createServer } from "node:http";
import { tmpdir } from "node:os";
import { join } from "node:path";
import { after } from "node:test";
import { setTimeout } from "node:timers/promises";
import { fileURLToPath } from "node:url";
import { promisify } from "node:util";
import { STATUS } from "../yurewha/errors.js";
import * as errors from "../yurewha/index.js";
import { BYTES, ROOT, chunksOf, dataOf, test, wrapped } from "./support.js";

const y = await errors.load(BYTES);
/** A file of 6.6 million bytes in 300 chunks, some of them empty. A stream fetches it in two pieces. */
const FILE = { numbers: { first: 1, count: 300, lengths: [30_000, 1, 0, 60_000, 20_000] } };
const chunks = dataOf(FILE);
const data = Buffer.concat(chunks);
const list = y.Chunks.from(chunksOf(y, FILE));
const tree = y.HashTree.fromChunks(list);
const PIECE = 1 << 22;
const CACHE = 1 << 22;
const blob = new Blob([data]);

/** Where the chunks are that have the bytes from one place up to another. */
const proofOf = (start, end) => tree.proof(...tree.chunksAt(start, end));
const bytesOf = (start, end) => data.subarray(start, end);
const open = (options, fetch = bytesOf, prove = proofOf) => y.VerifiedBlob.open(tree.fileHash(options?.salt), fetch, prove, options);

/** A function, and its calls: the places that it was asked for. */
function counted(call) {
    const calls = [];
    return [calls, (start, end, signal) => (calls.push([start, end]), call(start, end, signal))];
}

/** What answers requests for data and proofs. Members of `answers` take the place of honest answers. */
async function served(answers = {}) {
    const honest = {
        proof: (response, start, end) => response.end(proofOf(start, end).jsonText()),
        data: (response, start, end) => response.writeHead(206).end(bytesOf(start, end)),
    };
    const asked = { ranges: [], closed: 0 };
    const server = createServer((request, response) => {
        response.on("close", () => response.writableFinished || asked.closed++);
        const [, start, end] = /^\/proof\?start=(\d+)&stop=(\d+)$/.exec(request.url) ?? [];
        if (start) return ({ ...honest, ...answers }).proof(response, Number(start), Number(end));
        asked.ranges.push(request.headers.range);
        const [, first, last] = /^bytes=(\d+)-(\d+)$/.exec(request.headers.range);
        ({ ...honest, ...answers }).data(response, Number(first), Number(last) + 1);
    });
    await once(server.listen(0, "127.0.0.1"), "listening");
    after(() => (server.closeAllConnections(), server.close()));
    const address = `http://127.0.0.1:${server.address().port}`;
    const prove = (start, end, signal) => fetch(`${address}/proof?start=${start}&stop=${end}`, { signal });
    return { asked, address, open: (options) => y.VerifiedBlob.open(tree.fileHash(), `${address}/data`, prove, options) };
}

/** Waits until a condition holds, for at most ten seconds. */
async function until(holds) {
    for (let left = 2000; !holds(); left--) {
        assert.ok(left > 0, `${holds}`);
        await setTimeout(5);
    }
}

test("it reads what a Blob reads", async () => {
    const verified = await open({ type: "Text/Plain" });
    assert.deepEqual([verified.size, verified.type, verified.start, `${verified.fileHash}`], [data.length, "text/plain", 0, `${tree.fileHash()}`]);
    const places = [
        [], [0], [7], [7, 19], [7, 7], [19, 7], [-9], [-9, -2], [0, -1], [-1e12, 5], [5, 1e12], [1e12], [undefined, 9],
        [29_999, 30_003], [-50_000], [PIECE - 3, PIECE + 3], [0, PIECE + 1],
    ];
    for (const given of places) {
        const [mine, its] = [verified, blob].map((it) => it.slice(...given));
        assert.equal(mine.size, its.size, `${given}`);
        assert.ok(Buffer.from(await mine.arrayBuffer()).equals(Buffer.from(await its.arrayBuffer())), `${given}`);
        if (its.size > 100_000) continue;
        assert.equal(await mine.text(), await its.text());
        const [inner, wanted] = [mine, its].map((it) => it.slice(2, -1));
        assert.deepEqual([await inner.text(), inner.start], [await wanted.text(), mine.start + Math.min(2, mine.size)]);
    }
    // Blobs of Node 20 take no such places, and browsers' read them so.
    for (const [given, wanted] of [[[NaN, 12], [0, 12]], [[null, 3], [0, 3]], [["3", "8"], [3, 8]]]) {
        assert.equal(await verified.slice(...given).text(), data.subarray(...wanted).toString());
    }
    for (const type of [undefined, null, 5, "", "Image/PNG", "ümlaut", "a\nb"]) assert.equal(verified.slice(0, 1, type).type, blob.slice(0, 1, type).type);
    const text = Buffer.from("\uFEFFäöü");
    const leaf = y.dataHash(text);
    const single = y.HashTree.fromChunks([[leaf, text.length]]);
    const marked = await y.VerifiedBlob.open(single.fileHash(), () => text, () => single.proof(0, 1));
    assert.deepEqual([await marked.text(), await marked.slice(3, 6).text()], [await new Blob([text]).text(), await new Blob([text.subarray(3, 6)]).text()]);
});

test("a stream has the bytes in order, for readers of either kind", async () => {
    const verified = await open();
    for (const part of [verified, verified.slice(1000, 5000), verified.slice(5, 5)]) {
        const wanted = data.subarray(part.start, part.start + part.size);
        const found = [];
        for await (const piece of part.stream()) found.push(piece);
        assert.ok(Buffer.concat(found).equals(wanted));
        const reader = part.stream().getReader({ mode: "byob" });
        const read = [];
        for (let room = new Uint8Array(100_000); ; ) {
            const { done, value } = await reader.read(room);
            if (done) break;
            read.push(value.slice());
            room = new Uint8Array(value.buffer);
        }
        assert.ok(Buffer.concat(read).equals(wanted));
    }
    assert.ok((await y.hashStream(verified.slice(0, chunks[0].length).stream())).equals(list.at(0)[0]));
});

test("it fetches by ranges of bytes, of whole chunks and no more", async () => {
    const server = await served();
    const verified = await server.open();
    assert.equal(await verified.slice(30_005, 30_010).text(), data.subarray(30_005, 30_010).toString());
    assert.deepEqual(server.asked.ranges, ["bytes=0-29999", "bytes=30001-90000"]);
    assert.ok(Buffer.from(await verified.arrayBuffer()).equals(data));
    const address = new URL(`${server.address}/data`);
    const its = await y.VerifiedBlob.open(tree.fileHash(), address, proofOf);
    address.port = 1;
    assert.equal(await its.slice(30_007, 30_009).text(), data.subarray(30_007, 30_009).toString());
});

test("the page's example reads a part from a server", async () => {
    const { address } = await served();
    const page = readFileSync(new URL("bindings/wasm/README.md", ROOT), "utf8");
    const [, , [, example]] = page.matchAll(/^```js\n([^]*?)^```$/gm);
    const folder = mkdtempSync(join(tmpdir(), "yurewha-"));
    after(() => rmSync(folder, { recursive: true }));
    mkdirSync(join(folder, "node_modules"));
    symlinkSync(fileURLToPath(new URL("bindings/wasm/yurewha", ROOT)), join(folder, "node_modules/yurewha"));
    writeFileSync(join(folder, "example.mjs"), example);
    const { stdout } = await promisify(execFile)(process.execPath, [join(folder, "example.mjs"), address, `${tree.fileHash()}`]);
    assert.equal(stdout, `${data.length} ${data.subarray(8, 10)}\n`);
});

test("nothing is handed on that wasn't checked", async () => {
    const wrong = (start, end) => Buffer.from(bytesOf(start, end).map((byte, place) => byte ^ (place === end - start - 1)));
    const other = y.HashTree.fromChunks([...list].reverse());
    const far = (start, end) => tree.proof(0, Math.min(list.length, tree.chunksAt(start, end)[1] + 100));
    const farEnd = Buffer.concat(chunks.slice(0, 4 + 100)).length;
    const lies = {
        "this isn't the data of the range": [wrong, proofOf],
        "the range has 60000 bytes, and the data 59999": [(start, end) => bytesOf(start, end - 1), proofOf],
        "the range has 60000 bytes, and the data 60001": [(start, end) => bytesOf(start, end + 1), proofOf],
        "the range has 60000 bytes, and the data 0": [() => new ArrayBuffer(0), proofOf],
        "the proof is of the bytes from 0 up to 30000, and not of those from 40000 up to 40010": [bytesOf, () => proofOf(0, 1)],
        "the proof is of the bytes from 30001 up to 90001, and not of those from 90000 up to 90010": [bytesOf, () => proofOf(90_000, 90_001), 90_000],
        "the proof doesn't show this hash": [bytesOf, (start, end) => other.proof(...other.chunksAt(start, end))],
        [`the proof is of the bytes from 0 up to ${farEnd}, too far beyond those from 40000 up to 40010: see chunkLimit`]: [bytesOf, far],
    };
    for (const [message, [fetch, prove, place = 40_000]] of Object.entries(lies)) {
        let honest = true;
        const verified = await open({}, (...given) => (honest ? bytesOf : fetch)(...given), (...given) => (honest ? proofOf : prove)(...given));
        honest = false;
        const part = verified.slice(place, place + 10);
        await assert.rejects(part.arrayBuffer(), new errors.ProofMismatch(message));
        await assert.rejects(part.stream().getReader().read(), new errors.ProofMismatch(message));
        honest = true;
        assert.equal(await part.text(), data.subarray(place, place + 10).toString(), "it is asked again");
        await assert.rejects(open({}, fetch, prove === proofOf ? proofOf : () => other.proof(0, 1)), errors.ProofMismatch);
    }
});

test("a part of any length is checked, to its last byte", async () => {
    const [count, length] = [160, 1 << 17];
    const long = Buffer.from(Uint8Array.from({ length: count * length }, (_, k) => k >> 9));
    const offsets = Array.from({ length: count + 1 }, (_, k) => k * length);
    const ofLong = y.HashTree.fromChunks(y.dataHashes(long, offsets).map((hash) => [hash, length]));
    let [more, wrong] = [0, long.length];
    /** Proves so many chunks more on each side. */
    const prove = (start, end) => {
        const [first, last] = ofLong.chunksAt(start, end);
        return ofLong.proof(Math.max(first - more, 0), Math.min(last + more, count));
    };
    const lying = (start, end) => {
        const sent = Buffer.from(long.subarray(start, end));
        sent[wrong - start] ^= 1;
        return sent;
    };
    const verified = await y.VerifiedBlob.open(ofLong.fileHash(), lying, prove, { cacheSize: 0, chunkLimit: long.length });
    for (const beyond of [0, 7, count]) {
        more = beyond;
        const part = verified.slice(30 * length, 62 * length);
        const [from, to] = [Math.max(30 - more, 0) * length, Math.min(62 + more, count) * length];
        for (wrong of [from, 40 * length + 1, to - 1]) {
            await assert.rejects(part.bytes(), new errors.ProofMismatch("this isn't the data of the range"), `${more} ${wrong}`);
        }
        wrong = to;
        assert.ok(long.subarray(30 * length, 62 * length).equals(await part.bytes()));
    }
});

test("a proof may go beyond what was asked for by chunkLimit bytes on each side", async () => {
    const small = y.HashTree.fromChunks(Array.from({ length: 100 }, () => [y.dataHash(Buffer.from("x")), 1]));
    for (const [first, end, fits] of [[45, 51, true], [44, 51, false], [50, 56, true], [50, 57, false], [45, 56, true], [44, 57, false]]) {
        const [calls, fetch] = counted((start, stop) => Buffer.alloc(stop - start, "x"));
        const prove = (start) => (start === 50 ? small.proof(first, end) : small.proof(0, 1));
        const verified = await y.VerifiedBlob.open(small.fileHash(), fetch, prove, { chunkLimit: 5 });
        const read = verified.slice(50, 51).text();
        if (fits) assert.equal(await read, "x");
        else await assert.rejects(read, errors.ProofMismatch);
        assert.deepEqual(calls, [[0, 1], ...(fits ? [[first, end]] : [])], "what doesn't fit isn't fetched");
    }
    // Of a MiB, if it isn't given.
    const parts = [1, 1 << 20, 1].map((length) => new Uint8Array(length));
    const long = y.HashTree.fromChunks(parts.map((part) => [y.dataHash(part), part.length]));
    const read = (end) => y.VerifiedBlob.open(long.fileHash(), (start, stop) => new Uint8Array(stop - start), () => long.proof(0, end));
    assert.equal((await read(2)).size, 2 + (1 << 20));
    await assert.rejects(read(3), errors.ProofMismatch);
});

test("proofs that were made of each piece answer each read", async () => {
    const end = data.length;
    for (const piece of [70_000, 1 << 20, 2 ** 40, Number.MAX_SAFE_INTEGER, 2n ** 64n - 1n]) {
        const length = Number(piece);
        const [asked, prove] = counted((start) => proofOf(start, Math.min(start + length, end)));
        const verified = await open({ piece, cacheSize: piece === 70_000 ? 0 : CACHE }, bytesOf, prove);
        assert.equal(verified.size, end);
        for (const [from, to] of [[0, 0], [5, 6], [69_999, 70_001], [(1 << 20) - 1, (1 << 20) + 1], [end - 3, end], [0, end], [end, end]]) {
            const read = await verified.slice(from, to).bytes();
            assert.ok(Buffer.from(read).equals(data.subarray(from, to)), `${piece} ${from} ${to}`);
            for await (const part of verified.slice(from, to).stream()) assert.equal(part.buffer.byteLength, part.length, "it keeps no more");
        }
        const whole = (start) => Math.min(start + length, Number.MAX_SAFE_INTEGER);
        assert.ok(asked.every(([start, stop]) => start % length === 0 && [whole(start), end].includes(stop)), `${piece}: ${asked}`);
    }
});

test("a piece ahead that fails is told to the next read, and to nobody else", async () => {
    const untold = [];
    const note = (error) => untold.push(error);
    process.on("unhandledRejection", note);
    const verified = await open({ cacheSize: 0 }, (start, end) => {
        if (start > 0) throw new Error("the connection is lost");
        return bytesOf(start, end);
    });
    const readers = [1, 2].map(() => verified.stream().getReader());
    for (const reader of readers) assert.equal((await reader.read()).done, false);
    // Rejections that nobody looked at are told before timers run.
    await setTimeout(20);
    process.off("unhandledRejection", note);
    assert.deepEqual(untold, []);
    await assert.rejects(readers[0].read(), /^Error: the connection is lost$/);
    await readers[1].cancel();
});

test("a stream passes on the pieces before a lie, and none after it", async () => {
    for (const lie of [() => new Uint8Array(3), () => { throw new Error("the connection is lost"); }]) {
        const verified = await open({}, (start, end) => (start < PIECE ? bytesOf(start, end) : lie()));
        const found = [];
        await assert.rejects(async () => {
            for await (const piece of verified.stream()) found.push(piece);
        }, /the range has|the connection is lost/);
        // The last chunk of a piece is checked to its end, and kept.
        const [, end] = tree.bytesOf(...tree.chunksAt(0, chunks[0].length + PIECE));
        assert.ok(Buffer.concat(found).equals(data.subarray(0, Number(end))));
        await assert.rejects(verified.bytes());
    }
});

test("a server that sends too much, or ends too early, is left", async () => {
    const endlessly = (status) => (response) => {
        response.writeHead(status);
        const more = () => response.write(Buffer.alloc(100_000)) && setImmediate(more);
        response.on("drain", more);
        more();
    };
    const [endless, failing] = [206, 404].map(endlessly);
    const dying = (response, start, end) => {
        response.writeHead(206, { "Content-Length": end - start });
        response.write(bytesOf(start, end - 1000), () => response.destroy());
    };
    const answers = [
        [{ data: endless }, new errors.ProofMismatch("more than 30000 bytes came")],
        [{ proof: endless }, new errors.ProofMismatch(`more than ${1 << 24} bytes came`)],
        [{ data: (response) => response.end(data) }, new errors.ProofMismatch("more than 30000 bytes came")],
        [{ data: dying }, TypeError],
        [{ data: (response) => response.end("short") }, new errors.ProofMismatch("the range has 30000 bytes, and the data 5")],
        [{ data: (response) => response.writeHead(204).end() }, new errors.ProofMismatch("the range has 30000 bytes, and the data 0")],
        [{ data: failing }, /status 404$/],
        [{ proof: failing }, /status 404$/],
        [{ data: (response) => response.writeHead(404).end("no") }, /^Error: http:\/\/127\.0\.0\.1:\d+\/data: status 404$/],
        [{ proof: (response) => response.writeHead(500).end("no") }, /^Error: http:\/\/127\.0\.0\.1:\d+\/proof\?start=0&stop=1: status 500$/],
        [{ proof: (response) => response.end("{") }, errors.InvalidText],
        [{ proof: (response) => response.end('{"chunks":[],"levels":[]}') }, errors.InvalidProof],
    ];
    for (const [answer, error] of answers) {
        const server = await served(answer);
        await assert.rejects(server.open(), error);
        if ([endless, failing].includes(Object.values(answer)[0])) await until(() => server.asked.closed);
    }
});

test("a stream that is cancelled ends its requests", async () => {
    let stalls = false;
    const server = await served({
        data: (response, start, end) => {
            response.writeHead(206, { "Content-Length": end - start });
            if (stalls) response.write(bytesOf(start, start + 10));
            else response.end(bytesOf(start, end));
        },
    });
    const verified = await server.open();
    stalls = true;
    const reader = verified.slice(100_000).stream().getReader();
    const read = reader.read();
    await until(() => server.asked.ranges.length === 2);
    await reader.cancel("enough");
    assert.equal((await read).done, true);
    await until(() => server.asked.closed);
    stalls = false;
    assert.equal(await verified.slice(100_000, 100_003).text(), data.subarray(100_000, 100_003).toString());
});

test("a stream that is cancelled fetches nothing more, and tells why to what it asked", async () => {
    const [untold, note] = [[], (error) => untold.push(error)];
    process.on("unhandledRejection", note);
    /** At which request the stream is cancelled, before or after its answer; and how many are made. The first two open the file. */
    for (const [at, isAfter, wanted] of [[3, false, 3], [3, true, 3], [4, false, 4], [4, true, 4], [5, false, 5], [5, true, 5]]) {
        const reason = new Error(`at ${at}`);
        const [signals, asked] = [[], []];
        let reader, answer;
        const waits = new Promise((resolve) => (answer = resolve));
        const counting = (what, call) => async (start, end, signal) => {
            asked.push(what);
            signals.push(signal);
            if (asked.length === at && !isAfter) void reader.cancel(reason);
            if (asked.length === at) await (isAfter ? waits : null);
            return call(start, end);
        };
        const verified = await open({ cacheSize: 0 }, counting("data", bytesOf), counting("proof", proofOf));
        reader = verified.stream().getReader();
        const reads = (async () => {
            while (!(await reader.read()).done);
        })();
        await until(() => asked.length >= at);
        if (isAfter) void reader.cancel(reason);
        answer();
        await reads;
        await setTimeout(20);
        assert.deepEqual(asked, Array.from({ length: wanted }, (_, k) => ["proof", "data"][k % 2]), `${at} ${isAfter}`);
        assert.equal(signals.at(-1).reason, reason);
        assert.ok(signals.slice(2).every((signal) => signal === signals.at(-1)) && !signals[0].aborted);
    }
    process.off("unhandledRejection", note);
    assert.deepEqual(untold, []);
});

test("a stream fetches one piece ahead, and no more", async () => {
    const [calls, fetch] = counted(bytesOf);
    const verified = await open({}, fetch);
    const reader = verified.stream().getReader();
    await setTimeout(20);
    assert.equal(calls.length, 1, "nothing is fetched before it is asked for");
    await reader.read();
    await setTimeout(20);
    assert.equal(calls.length, 2, "the first piece was kept, and one is fetched ahead");
    await reader.cancel();
});

test("what was read is the reader's own, and what was checked can't be changed any more", async () => {
    const shared = new Uint8Array(new SharedArrayBuffer(30_000));
    shared.set(chunks[0]);
    const verified = await open({}, (start, end) => (start === 0 ? shared : bytesOf(start, end)));
    const first = await verified.slice(0, 5).bytes();
    first.fill(0);
    shared.fill(0);
    assert.equal(await verified.slice(0, 5).text(), data.subarray(0, 5).toString());
    assert.equal(first.buffer.byteLength, 5);
    // A stream gives its memory away, so it has some of its own.
    const sent = Uint8Array.from(bytesOf(30_001, 90_001));
    const another = await open({}, (start, end) => (start === 30_001 ? sent : bytesOf(start, end)));
    assert.equal(await another.slice(40_000, 40_010).text(), data.subarray(40_000, 40_010).toString());
    assert.equal(sent.length, 60_000);
});

test("parts that were used last are kept, and no more than they may have", async () => {
    const [calls, fetch] = counted(bytesOf);
    const read = async (it, place) => assert.equal(await it.slice(place, place + 3).text(), data.subarray(place, place + 3).toString());
    const verified = await open({ cacheSize: 100_000 }, fetch);
    for (const place of [0, 10, 29_997, 40_000, 50_000, 0, 92_000, 0, 92_000, 40_000]) await read(verified, place);
    // The third part took the place of the one that was used longest ago, which is then fetched again.
    assert.deepEqual(calls.map(([start]) => start), [0, 30_001, 90_001, 30_001]);
    const [again, refetch] = counted(bytesOf);
    const without = await open({ cacheSize: 0 }, refetch);
    for (const place of [0, 0, 0]) await read(without, place);
    assert.equal(again.length, 4);
    // Of 4 MiB, if it isn't said: the file has more.
    const [all, fetchAll] = counted(bytesOf);
    const whole = await open({}, fetchAll);
    assert.equal((await whole.bytes()).length, data.length);
    for (const [place, more] of [[data.length - PIECE / 2, 0], [0, 1]]) {
        const before = all.length;
        await read(whole, place);
        assert.equal(all.length - before, more, `${place}`);
    }
    // Each chunk counts 128 bytes more, so ten of one byte fit here.
    const tiny = Array.from({ length: 100 }, () => Buffer.from("x"));
    const small = y.HashTree.fromChunks(tiny.map((it) => [y.dataHash(it), 1]));
    const [parts, part] = counted((start, end) => Buffer.alloc(end - start, "x"));
    const prove = (start, end) => small.proof(start, end);
    const ofTiny = await y.VerifiedBlob.open(small.fileHash(), part, prove, { cacheSize: 10 * (1 + 128) });
    for (let place = 0; place < 11; place++) assert.equal(await ofTiny.slice(place, place + 1).text(), "x");
    assert.equal(parts.length, 11);
    for (const place of [1, 10]) await ofTiny.slice(place, place + 1).text();
    assert.equal(parts.length, 11, "these are kept");
    await ofTiny.slice(0, 1).text();
    assert.equal(parts.length, 12, "and the first one isn't any more");
});

test("adjacent chunks that are kept are read at once, and no more is fetched than is missing", async () => {
    const [calls, fetch] = counted(bytesOf);
    const verified = await open({}, fetch);
    await verified.slice(40_000, 100_000).bytes();
    assert.deepEqual(calls, [[0, 30_000], [30_001, 110_001]]);
    // Up to a byte that no chunk before has, all is kept but this one.
    assert.ok(Buffer.from(await verified.slice(10, 110_000).bytes()).equals(data.subarray(10, 110_000)));
    assert.deepEqual(calls.slice(2), [[30_000, 110_001]]);
    assert.ok(Buffer.from(await verified.slice(10, 110_000).bytes()).equals(data.subarray(10, 110_000)));
    assert.equal(calls.length, 3, "now each is kept");
});

test("a salted file and an empty file are read", async () => {
    const salt = y.Hash.randomFromSeed(4).bytes;
    const kept = salt.slice();
    const verified = await open({ salt });
    salt.fill(0);
    assert.equal(await verified.slice(50_000, 50_003).text(), data.subarray(50_000, 50_003).toString());
    await assert.rejects(y.VerifiedBlob.open(tree.fileHash(kept), bytesOf, proofOf), errors.ProofMismatch);
    // A hash may have a byte of the empty file's.
    let seed = 0;
    while (tree.fileHash(y.Hash.randomFromSeed(seed).bytes).bytes[0] !== 0) seed++;
    assert.equal((await open({ salt: y.Hash.randomFromSeed(seed).bytes })).size, data.length);
    const never = () => assert.fail("nothing of an empty file is fetched");
    const empty = await y.VerifiedBlob.open(new y.Hash(), never, never);
    assert.deepEqual([empty.size, await empty.text(), (await empty.arrayBuffer()).byteLength], [0, "", 0]);
    for await (const piece of empty.stream()) assert.fail(`${piece}`);
});

test("a file that no Blob could be is refused before it is fetched", async () => {
    const chunk = Buffer.from("a chunk");
    const great = y.HashTree.fromChunks([[y.dataHash(chunk), chunk.length], [new y.Hash(), 2n ** 53n]]);
    const [calls, fetch] = counted(() => chunk);
    const message = `the file has ${2n ** 53n + 7n} bytes, and a Blob at most 2^53 - 1`;
    await assert.rejects(y.VerifiedBlob.open(great.fileHash(), fetch, () => great.proof(0, 1)), new RangeError(message));
    assert.deepEqual(calls, []);
    const greatest = y.HashTree.fromChunks([[y.dataHash(chunk), chunk.length], [new y.Hash(), 2n ** 53n - 8n]]);
    assert.equal((await y.VerifiedBlob.open(greatest.fileHash(), fetch, () => greatest.proof(0, 1))).size, 2 ** 53 - 1);
});

test("each part is freed, also after an error", async () => {
    let open = 0;
    const { yurewha: it } = await wrapped(BYTES, (exports) => ({
        ...exports,
        yurewha_part_open: (...given) => (open++, exports.yurewha_part_open(...given)),
        yurewha_part_free: (...given) => (open--, exports.yurewha_part_free(...given)),
    }));
    const own = it.HashTree.fromChunks(chunksOf(it, FILE));
    let lies = false;
    const verified = await it.VerifiedBlob.open(own.fileHash(), (start, end) => bytesOf(start, end - lies), (start, end) => own.proof(...own.chunksAt(start, end)));
    await verified.slice(50_000, 50_001).bytes();
    lies = true;
    await assert.rejects(verified.slice(100_000).bytes(), errors.ProofMismatch);
    assert.equal(open, 0);
});

test("what the module doesn't keep is no fault, but that the size isn't known is one", async () => {
    const answers = {};
    const { yurewha: it } = await wrapped(BYTES, (exports) => {
        const answering = (name) => (...given) => answers[name] ?? exports[name](...given);
        return { ...exports, ...Object.fromEntries(["yurewha_reader_take", "yurewha_reader_size"].map((name) => [name, answering(name)])) };
    });
    const own = it.HashTree.fromChunks(chunksOf(it, FILE));
    const opened = () => it.VerifiedBlob.open(own.fileHash(), bytesOf, (start, end) => own.proof(...own.chunksAt(start, end)));
    const verified = await opened();
    const { ARGUMENTS } = STATUS;
    answers.yurewha_reader_size = ARGUMENTS;
    await assert.rejects(opened(), errors.OutOfMemory);
    answers.yurewha_reader_take = ARGUMENTS;
    const message = "the proof says another size of the file than was shown before";
    await assert.rejects(verified.slice(50_000).bytes(), new errors.ProofMismatch(message));
});

test("arguments have their types, and results too", async () => {
    const hash = tree.fileHash();
    for (const value of [null, undefined, 5, {}, true]) {
        await assert.rejects(y.VerifiedBlob.open(value, bytesOf, proofOf), TypeError);
        // Of the empty file nothing is fetched.
        for (const fileHash of [hash, new y.Hash()]) {
            await assert.rejects(y.VerifiedBlob.open(fileHash, value, proofOf), TypeError);
            await assert.rejects(y.VerifiedBlob.open(fileHash, bytesOf, value), TypeError);
        }
        await assert.rejects(y.VerifiedBlob.open(hash, () => value, proofOf), TypeError);
        await assert.rejects(y.VerifiedBlob.open(hash, bytesOf, () => value), TypeError);
        if (value !== undefined) await assert.rejects(open({ type: value }), { name: "TypeError", message: /^a type must be a string, got / });
    }
    for (const name of ["cacheSize", "chunkLimit", "piece"]) {
        for (const value of [1.5, "1", null]) await assert.rejects(open({ [name]: value }), TypeError);
        await assert.rejects(open({ [name]: -1 }), RangeError);
    }
    // What isn't a proof can't say that it checked.
    const range = { begins: () => 0n, ends: () => 7n, numChunks: 1, fileSize: 7n, readOrThrow: (...given) => given[2], free: () => {} };
    const noProof = new TypeError("what prove returns must be a RangeProof of the same module, or a Response, got an object");
    await assert.rejects(y.VerifiedBlob.open(hash, () => Buffer.from("a chunk"), () => ({ open: () => range })), noProof);
    await assert.rejects(y.VerifiedBlob.open(hash, bytesOf, proofOf, { salt: new Uint8Array(31) }), errors.InvalidArguments);
    await assert.rejects(y.VerifiedBlob.open(hash, bytesOf, proofOf, { salt: null }), TypeError);
    assert.throws(() => new y.VerifiedBlob(), TypeError);
    const other = await errors.load(BYTES);
    await assert.rejects(other.VerifiedBlob.open(other.Hash.fromHex(hash.hex()), bytesOf, proofOf), TypeError);
});
