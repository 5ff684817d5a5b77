// Random cases with what the model gives for them, which `make_cases` printed to the file YUREWHA_CASES, through the module. `npm test` has no
// such file, and leaves them out; `bindings/wasm/test` makes it.

import assert from "node:assert/strict";
import { readFileSync } from "node:fs";
import * as errors from "../yurewha/index.js";
import { BYTES, test } from "./support.js";

const LEAST = 5000;
const file = process.env.YUREWHA_CASES;
const cases = file ? readFileSync(file, "utf8").trimEnd().split("\n").map((line) => JSON.parse(line)) : [];
const unhex = (text) => Uint8Array.from(Buffer.from(text, "hex"));

function checksOver(y) {
    const chunksOf = (nodes) => nodes.map(([hash, size]) => [y.Hash.fromHex(hash), BigInt(size)]);
    const refused = (call, name) => assert.throws(call, (error) => error.name === name && error instanceof errors.YurewhaError);
    const rangeOf = ([atStart, nodes, atEnd]) => y.Subtree.fromChunks(atStart, chunksOf(nodes), atEnd);
    return {
        message(it) {
            const data = Uint8Array.from({ length: it.length }, (_, k) => k % 251);
            const hasher = new y.Hasher();
            [0, ...it.cuts].forEach((from, k) => hasher.update(data.subarray(from, it.cuts[k])));
            const keyed = y.Hasher.keyed(unhex(it.key)).update(data).digest();
            assert.deepEqual([y.dataHash(data), y.internalNodeHash(data), keyed].map(String), it.hashes);
            assert.equal(hasher.digest().hex(), it.hashes[0]);
        },
        forms(it) {
            const [one, two] = [it.hash, it.other].map(y.Hash.fromHex);
            assert.deepEqual([one.bytes, one.base64(), one.hex()], [unhex(it.bytes), it.base64, it.hash]);
            assert.deepEqual([one.compare(two), one.equals(two), one.hmac(two).hex()], [it.order, it.order === 0, it.hmac]);
            assert.equal(one.remainder(BigInt(it.divisor)), BigInt(it.remainder));
        },
        root(it) {
            const chunks = y.Chunks.from(chunksOf(it.nodes));
            if (it.error) return refused(() => y.xorbHash(chunks), it.error);
            assert.equal(y.xorbHash(chunks).hex(), it.root);
            assert.deepEqual([y.fileHash(chunks), y.fileHash(chunks, unhex(it.salt))].map(String), it.files);
            assert.deepEqual([y.findStableStart(chunks), y.findStableEnd(chunks)], it.points);
        },
        merging(it) {
            if (it.early) return refused(() => it.ranges.map(rangeOf), it.error);
            const ranges = it.ranges.map(rangeOf);
            const before = ranges.map((range) => range.jsonText());
            if (it.error) {
                refused(() => y.Subtree.merge(ranges), it.error);
                return assert.deepEqual(ranges.map((range) => range.jsonText()), before);
            }
            assert.equal(y.Subtree.merge(ranges).jsonText(), it.json);
            assert.deepEqual(ranges.map((range) => range.jsonText()), before);
            const parents = it.places.map((place) => {
                const [back] = ranges.splice(place + 1, 1);
                return ranges[place].mergeInto(back);
            });
            assert.deepEqual([parents, ranges.length, ranges[0].jsonText()], [it.parents, 1, it.json]);
            assert.equal(ranges[0].finalHash()?.hex() ?? null, it.final);
        },
        forged(it) {
            if (!it.error) return assert.equal(y.Subtree.fromJSON(it.text).jsonText(), it.json);
            assert.throws(() => y.Subtree.fromJSON(it.text), (error) => error.name === it.error && error.rule === it.rule);
        },
        partial(it) {
            const data = it.data.map(unhex);
            const tree = y.HashTree.fromChunks(data.map((chunk) => [y.dataHash(chunk), chunk.length]));
            const honest = tree.proof(it.first, it.end);
            assert.equal(honest.jsonText(), it.honest);
            assert.equal(tree.fileHash(unhex(it.salt)).hex(), it.file);
            tree.free();
            const open = () => y.RangeProof.fromJSON(it.text).open(y.Hash.fromHex(it.file), unhex(it.salt));
            if (!it.checks) return refused(open, "ProofMismatch");
            const range = open();
            assert.deepEqual([range.fileSize, range.begins(0)], [BigInt(it.size), BigInt(it.begins)]);
            it.checks.forEach(([chunk, place], k) => assert.equal(range.check(k, unhex(chunk)), place && BigInt(place)));
            if (it.read) {
                const [from, to, bytes] = it.read;
                const found = range.read(BigInt(from), BigInt(to), Buffer.concat(data.slice(it.first, it.end)));
                assert.deepEqual(found && Buffer.from(found).toString("hex"), bytes);
            }
            range.free();
        },
        session(it) {
            const session = new y.Session();
            for (const call of it.calls) {
                const put = () => session.put(BigInt(call.first), chunksOf(call.nodes));
                if (call.error) refused(put, call.error);
                else assert.equal(put(), call.new);
                assert.equal(session.numRuns, call.runs.length);
                for (const [first, length] of call.runs) {
                    const places = [-1n, 0n, BigInt(length) - 1n, BigInt(length)].map((offset) => BigInt(first) + offset);
                    const taken = places.filter((place) => place >= 0n && place < 2n ** 64n).map((place) => session.taken(place));
                    assert.deepEqual(taken, places.flatMap((place, k) => (place >= 0n && place < 2n ** 64n ? [k === 1 || k === 2] : [])));
                }
            }
            assert.deepEqual(session.runs().map(([, , range]) => range.jsonText()), it.ranges);
            assert.deepEqual(session.runs().map(([first]) => `${first}`), it.calls.at(-1).runs.map(([first]) => first));
            const calls = [() => session.root(BigInt(it.total)), () => session.finish(BigInt(it.total))];
            if (it.error) calls.forEach((call) => refused(call, it.error));
            else assert.deepEqual(calls.map((call) => call().hex()), [it.root, it.file]);
        },
    };
}

test("wasm32 gives what the model does", { skip: !file }, async () => {
    const checks = checksOver(await errors.load(BYTES));
    assert.ok(cases.length >= LEAST);
    cases.forEach((it, k) => {
        try {
            checks[it.kind](it);
        } catch (error) {
            throw new Error(`line ${k + 1}: ${it.kind}`, { cause: error });
        }
    });
});

test("the cases have each error and each rule of JSON texts", { skip: !file }, () => {
    const seen = new Set(cases.map((it) => it.rule ?? it.error).concat(cases.flatMap((it) => (it.calls ?? []).map((call) => call.error))));
    for (const wanted of ["InvalidArguments", "SizeOverflow", "InvalidText", "SessionOverlap", "SessionPositions", "SessionSizes", "SessionGap"]) {
        assert.ok(seen.has(wanted), wanted);
    }
    for (let rule = 1; rule <= 13; rule++) assert.ok(seen.has(rule), `rule ${rule}`);
    const opened = cases.filter((it) => it.kind === "partial").map((it) => Boolean(it.checks));
    assert.ok(opened.includes(true) && opened.includes(false));
});
