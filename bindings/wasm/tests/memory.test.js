// Memory that can't grow: each call that takes memory, with the growth or the block refused at each point in turn.

import assert from "node:assert/strict";
import { InvalidText, OutOfMemory, load } from "../yurewha/index.js";
import { instanceOver } from "../yurewha/instance.js";
import { AREA, Library } from "../yurewha/library.js";
import { BYTES, capped, chunksOf, mixed, pagesOf, test, wrapped } from "./support.js";

const COUNT = 300;
/** The calls of a scene that take no memory. */
const TAKE_NONE = ["base64", "findStableStart", "findStableEnd", "a proof of bytes", "gaps", "look-ups of an index", "entries of an index", "diff"];
/** More than the area of calls has room for. */
const MUCH = new Uint8Array(2 * AREA);
const plain = (range) => [range.atStart, range.atEnd, range.levels, Buffer.from(range.toFlat().nodes.bytes).toString("hex")];

/** Objects of an instance, what they are, and calls on them, each with what it gives. */
function scene(y) {
    const chunks = y.Chunks.from(chunksOf(y, { drawn: { firstSeed: "1", count: COUNT } }));
    const front = y.Subtree.fromChunks(true, chunks.slice(0, 140), false);
    const back = y.Subtree.fromChunks(false, chunks.slice(140), true);
    const session = new y.Session();
    session.put(0, chunks.slice(0, 100));
    session.put(200, chunks.slice(200));
    const json = front.jsonText();
    const flat = back.toFlat();
    const hash = y.Hash.randomFromSeed(1);
    const base64 = hash.base64();
    const restored = new y.Session();
    const middle = y.Subtree.fromChunks(false, chunks.slice(100, 200), false);
    const [added, keeping] = [new y.Session(), new y.Session()];
    const [[one]] = chunks;
    added.put(600, chunks.slice(0, 50));
    const { saved } = session;
    const sessionText = session.jsonText();
    const tree = y.HashTree.fromChunks(chunks);
    const proof = tree.proof(100, 200);
    const [text, [fileHash, root]] = [proof.jsonText(), [tree.fileHash(), tree.root]];
    const told = (opened) => [opened.begins(0), opened.ends(99), opened.fileSize];
    const others = Array.from({ length: COUNT }, (_, k) => y.Hash.randomFromSeed(1000 + k));
    const numbers = others.map((_, k) => k);
    keeping.keepHashes(others);
    const index = new y.HashIndex();
    index.insert(others.slice(0, 100), numbers.slice(0, 100));
    const { saved: savedIndex } = index;
    const hasher = new y.FileHasher().update(new Uint8Array(1000));
    const shorter = y.HashTree.fromChunks(chunks.slice(0, 200));
    const state = () => [
        plain(front), plain(back), session.numRuns, restored.numRuns, restored.knows(one), added.numRuns, hasher.size, index.size, index.find(others.slice(90, 110)), [0, 99, 100, 199, 200, 299, 300].map((position) => session.taken(position)), hash.hex(),
    ];
    const calls = {
        base64: () => hash.base64(),
        fromBase64: () => y.Hash.fromBase64(base64).hex(),
        xorbHash: () => y.xorbHash(chunks).hex(),
        fileHash: () => y.fileHash(chunks).hex(),
        "fileHash with a salt": () => y.fileHash(chunks, new Uint8Array(32)).hex(),
        findStableStart: () => y.findStableStart(chunks),
        findStableEnd: () => y.findStableEnd(chunks),
        fromChunks: () => plain(y.Subtree.fromChunks(false, chunks, false)),
        clone: () => plain(front.clone()),
        merge: () => plain(y.Subtree.merge([front, back])),
        jsonText: () => front.jsonText(),
        fromJSON: () => plain(y.Subtree.fromJSON(json)),
        fromFlat: () => plain(y.Subtree.fromFlat(flat)),
        "new Session": () => new y.Session().numRuns,
        run: () => plain(session.run(1)[2]),
        "clone of a session": () => session.clone().numRuns,
        gaps: () => session.gaps(300),
        saved: () => session.saved,
        restore: () => y.Session.restore(saved).numRuns,
        "a session as JSON": () => session.jsonText(),
        "a session of JSON": () => y.Session.fromJSON(sessionText).numRuns,
        runFrom: () => plain(session.runFrom(100)[2]),
        knownHashes: () => session.knownHashes().length,
        "new HashIndex": () => new y.HashIndex().size,
        "clone of an index": () => index.clone().size,
        "restore of an index": () => y.HashIndex.restore(savedIndex).size,
        "look-ups of an index": () => index.find(others),
        "entries of an index": () => index.entries().length,
        diff: () => tree.diff(shorter),
        "a tree": () => y.HashTree.fromChunks(chunks).numChunks,
        "a proof of a tree": () => tree.proof(100, 200).bytes,
        "a proof of chunks": () => y.RangeProof.fromChunks(chunks, 100, 200).bytes,
        "a proof as JSON": () => proof.jsonText(),
        "a proof of JSON": () => y.RangeProof.fromJSON(text).bytes,
        "a proof of bytes": () => new y.RangeProof(proof.bytes).bytes,
        open: () => told(proof.open(fileHash)),
        openRoot: () => told(proof.openRoot(root)),
        "new FileHasher": () => new y.FileHasher().size,
        "root of a hasher": () => hasher.root().hex(),
        "file hash of a hasher": () => hasher.fileHash().hex(),
        // These change an object, so they come last.
        "update of a hasher": () => [hasher.update(MUCH).size, hasher.root().hex()],
        pushRun: () => [restored.pushRun(400, 500, middle), restored.numRuns],
        putRange: () => [restored.putRange(200, 100, middle), restored.numRuns],
        join: () => [restored.join(added), restored.numRuns],
        "join with itself": () => [keeping.join(keeping), keeping.knownHashes().length],
        "insert into an index": () => [index.insert(others, numbers), index.size],
        keepHashes: () => [restored.keepHashes(others), restored.knownHashes().length],
        put: () => [session.put(100, chunks.slice(100, 200)), session.numRuns],
        root: () => session.root(COUNT).hex(),
        finish: () => session.finish(COUNT).hex(),
        "finish with a salt": () => session.finish(COUNT, new Uint8Array(32)).hex(),
        mergeInto: () => [front.mergeInto(back), plain(front)],
    };
    return { state, calls };
}

/** Takes all memory that the instance has: a list of blocks, the smallest last. */
function filled(exports) {
    const blocks = [];
    for (let size = 1n << 22n; size >= 1n; size >>= 1n) {
        for (let block; (block = exports.allocate(size)); ) blocks.push(block);
    }
    return blocks;
}

test("wasm32: each block refused in turn", async () => {
    const expected = scene(await load(BYTES)).calls;
    const { exports: free } = await wrapped(BYTES, (exports) => exports);
    const cap = pagesOf(free) + 64;
    const { exports, yurewha } = await wrapped(capped(BYTES, cap), (it) => it);
    const { state, calls } = scene(yurewha);
    let refusals = 0;
    for (const [call, run] of Object.entries(calls)) {
        const wanted = expected[call]();
        const before = state();
        const blocks = filled(exports);
        let found;
        let refused = 0;
        while (found === undefined) {
            try {
                found = run();
            } catch (error) {
                assert.ok(error instanceof OutOfMemory, `${call}: ${error.stack}`);
                assert.deepEqual(state(), before, call);
                refused++;
                assert.ok(blocks.length > 0, `${call}: never done`);
                exports.release(blocks.pop());
            }
        }
        assert.deepEqual(found, wanted, call);
        if (!TAKE_NONE.includes(call)) assert.ok(refused > 0, `${call}: never refused`);
        refusals += refused;
        blocks.forEach((block) => exports.release(block));
    }
    assert.ok(refusals > 50, `${refusals} refusals`);
});

test("wasm32: each growth refused in turn", async () => {
    const big = (y) => y.Chunks.from(chunksOf(y, { drawn: { firstSeed: "1", count: 30_000 } }));
    const work = (y, chunks) => {
        const [front, back] = [y.Subtree.fromChunks(true, chunks.slice(0, 20_000), false), y.Subtree.fromChunks(false, chunks.slice(20_000), true)];
        front.mergeInto(back);
        return front.finalHash().hex();
    };
    const whole = await wrapped(BYTES, (it) => it);
    const least = pagesOf(whole.exports);
    const wanted = work(whole.yurewha, big(whole.yurewha));
    const most = pagesOf(whole.exports);
    assert.ok(most > least);
    for (let pages = least; pages <= most; pages++) {
        const { exports, yurewha } = await wrapped(capped(BYTES, pages), (it) => it);
        const chunks = big(yurewha);
        const kept = yurewha.Subtree.fromChunks(false, chunks.slice(0, 50), false);
        const before = plain(kept);
        try {
            assert.equal(work(yurewha, chunks), wanted);
            assert.ok(pages > least);
        } catch (error) {
            assert.ok(error instanceof OutOfMemory, `${pages}: ${error.stack}`);
        }
        assert.deepEqual(plain(kept), before);
        assert.equal(kept.mergeInto(kept.clone()) >= 0, true);
        assert.ok(pagesOf(exports) <= pages);
    }
});

test("wasm32: no call writes where another block is", async () => {
    const { exports, yurewha: y } = await wrapped(BYTES, (it) => it);
    // The area of calls is the last block so far, so this one stands behind it.
    const room = 4 * AREA;
    const place = exports.allocate(BigInt(room));
    const block = () => Buffer.from(exports.memory.buffer, place, room);
    block().fill(7);
    const root = y.dataHash(new Uint8Array(AREA + 500));
    const range = y.RangeProof.fromChunks([[root, AREA + 500]], 0, 1).openRoot(root);
    for (const length of [AREA - 40, AREA, AREA + 500, 2 * AREA]) {
        y.xorbHash(new y.Chunks(new Uint8Array(40 * Math.floor(length / 40))));
        range.read(0, length, new Uint8Array(length));
        assert.throws(() => y.Subtree.fromJSON(" ".repeat(length)));
    }
    assert.ok(block().equals(Buffer.alloc(room, 7)));
});

test("wasm32: no call writes a byte past a block that it was given", async () => {
    const GUARD = 4096;
    const guards = [];
    const guardAt = ({ memory }, place) => Buffer.from(memory.buffer, place, GUARD);
    // Each block has bytes behind it that no call may write.
    const { exports, yurewha: y } = await wrapped(BYTES, (it) => ({
        ...it,
        allocate(size) {
            const block = it.allocate(size + BigInt(GUARD)) >>> 0;
            assert.ok(block > 0);
            guards.push(block + Number(size));
            guardAt(it, guards.at(-1)).fill(7);
            return block;
        },
        release: () => {},
    }));
    const untouched = Buffer.alloc(GUARD, 7);
    const checked = (length) => guards.forEach((place) => assert.ok(guardAt(exports, place).equals(untouched), `${length}`));
    for (let length = AREA - 64; length <= AREA + 64; length++) assert.throws(() => y.Subtree.fromJSON("x".repeat(length)), InvalidText);
    checked("texts");
    for (let count = AREA / 40 - 5; count < AREA / 40 + 5; count++) y.xorbHash(new y.Chunks(new Uint8Array(40 * Math.floor(count))));
    checked("chunks");
});

test("wasm32: no call writes a byte past a part that it was given", async () => {
    const guard = Buffer.alloc(4096, 7);
    // Each part has a block of its own, and bytes behind it that no call may write.
    class Guarding extends Library {
        over(parts, run) {
            const blocks = parts.map((part) => [this.allocate((part.length ?? part) + guard.length), part.length ?? part]);
            blocks.forEach(([block, length], k) => {
                if (parts[k].length) this.write(block, parts[k]);
                this.write(block + length, guard);
            });
            const result = run(...blocks.map(([block]) => block));
            for (const [block, length] of blocks) assert.ok(guard.equals(this.read(block + length, guard.length)), `${length} bytes: ${run}`);
            return result;
        }
    }
    const { instance } = await WebAssembly.instantiate(BYTES, {});
    for (const call of Object.values(scene(instanceOver(new Guarding(instance.exports))).calls)) call();
});

test("wasm32: what an object held is used again after it was freed", async () => {
    const { exports, yurewha: y } = await wrapped(BYTES, (it) => it);
    // Without a natural cut every node is kept.
    const chunks = y.Chunks.from(chunksOf(y, { counted: { count: 5000, cutEvery: 0 } }));
    const put = (session) => session.put(0, chunks) && session;
    const proof = y.RangeProof.fromChunks(chunks, 0, 5000);
    const root = y.xorbHash(chunks);
    const saved = [...chunks].map(([hash], k) => [hash.hex(), `${k}`]);
    const makers = [
        () => y.Subtree.fromChunks(false, chunks, false), () => put(new y.Session()), () => y.HashTree.fromChunks(chunks), () => proof.openRoot(root),
        () => y.HashIndex.restore(saved), () => new y.FileHasher().update(mixed(500_000)),
    ];
    for (const make of makers) {
        make().free();
        const before = pagesOf(exports);
        for (let k = 0; k < 100; k++) make().free();
        assert.ok(pagesOf(exports) <= before + 16, `${make}: ${pagesOf(exports) - before} pages`);
    }
});

test("wasm32: no memory at all is refused by load, and no view outlives a growth", async () => {
    const { exports, yurewha: y } = await wrapped(BYTES, (it) => it);
    const hash = y.Hash.randomFromSeed(3);
    const range = y.Subtree.fromChunks(true, [[hash, 7]], true);
    const text = hash.hex();
    for (let k = 0; k < 5; k++) {
        const { buffer } = exports.memory;
        exports.allocate(1n << 23n);
        assert.equal(buffer.byteLength, 0);
        assert.equal(hash.hex(), text);
        assert.equal(range.finalHash().hex(), text);
        assert.equal(y.dataHash(new Uint8Array(70_000)).hex(), y.dataHash(new Uint8Array(70_000)).hex());
    }
    await assert.rejects(load(capped(BYTES, 1)), OutOfMemory);
});
