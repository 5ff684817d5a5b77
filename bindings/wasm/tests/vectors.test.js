// The scripts of tests/vectors/, through the module: calls of the library with their answers.

import assert from "node:assert/strict";
import { execFileSync } from "node:child_process";
import { readFileSync, readdirSync } from "node:fs";
import { fileURLToPath } from "node:url";
import * as errors from "../yurewha/index.js";
import { BYTES, ROOT, chunksOf, mixed, test } from "./support.js";

const FOLDER = new URL("tests/vectors/out/scripts/", ROOT);
const NAMES = [
    "files",
    "hashes",
    "texts",
    "roots",
    "subtrees",
    "merges",
    "subtree_json",
    "range_proofs",
    "sessions",
    "session_json",
    "hash_indexes",
    "upstream",
];
const y = await errors.load(BYTES);
try {
    execFileSync("python3", [fileURLToPath(new URL("tests/vectors/make_vectors", ROOT)), "--scripts"]);
} catch (cause) {
    throw new Error("python3 tests/vectors/make_vectors --scripts makes the scripts, and failed", { cause });
}

// ---- Calls: what each call of the library is here

function compare(one, other) {
    assert.equal(one.equals(other), one.compare(other) === 0);
    return one.compare(other);
}
const linesOf = (nodes) => Array.from(nodes, ([hash, size]) => `${hash} : ${size}\n`).join("");
const orNull = (pair) => (pair.every((it) => it === null) ? null : pair);
/** The ends of a difference. The numbers of chunks are doubles, and the places bigints. */
function endsOf(difference) {
    if (difference === null) return null;
    const { first, end, otherEnd, start, stop, otherStop } = difference;
    assert.ok([first, end, otherEnd].every(Number.isSafeInteger));
    return [...[first, end, otherEnd].map(BigInt), start, stop, otherStop];
}
const CALLS = {
    data_hash: (data) => y.dataHash(data),
    data_hashes: (data, offsets) => y.dataHashes(data, offsets),
    internal_node_hash: (data) => y.internalNodeHash(data),
    hmac: (hash, key) => hash.hmac(key),
    random_from_seed: (seed) => y.Hash.randomFromSeed(seed),
    hash_to_bytes: (hash) => hash.bytes,
    hash_from_bytes: (bytes) => new y.Hash(bytes),
    compare,
    remainder: (hash, divisor) => hash.remainder(divisor),
    hex: (hash) => hash.hex(),
    from_hex: (text) => y.Hash.fromHex(text),
    base64: (hash) => hash.base64(),
    from_base64: (text) => y.Hash.fromBase64(text),
    hasher_begin_data: () => new y.Hasher(),
    hasher_begin_internal: () => y.Hasher.internalNode(),
    hasher_begin_keyed: (key) => y.Hasher.keyed(key),
    hasher_count: (hasher) => hasher.count,
    hasher_update: (hasher, data) => void hasher.update(data),
    hasher_finalize: (hasher) => hasher.digest(),
    chunker_begin: () => new y.Chunker(),
    chunker_next_boundary: (chunker, data) => chunker.nextBoundary(data) ?? null,
    chunker_taken: (chunker) => chunker.taken,
    file_hasher_new: () => new y.FileHasher(),
    file_hasher_update: (hasher, data) => void hasher.update(data),
    file_hasher_size: (hasher) => hasher.size,
    file_hasher_root: (hasher) => hasher.root(),
    file_hasher_finish: (hasher) => hasher.fileHash(),
    file_hasher_finish_with_salt: (hasher, salt) => hasher.fileHash(salt),
    chunks: (chunks) => chunks,
    xorb_hash: (chunks) => y.xorbHash(chunks),
    file_hash: (chunks) => y.fileHash(chunks),
    file_hash_with_salt: (chunks, salt) => y.fileHash(chunks, salt),
    find_stable_start: (chunks) => y.findStableStart(chunks),
    find_stable_end: (chunks) => y.findStableEnd(chunks),
    subtree_from_chunks: (atStart, chunks, atEnd) => y.Subtree.fromChunks(atStart, chunks, atEnd),
    subtree_clone: (subtree) => subtree.clone(),
    subtree_equal: (one, other) => one.equals(other),
    subtree_marks: (subtree) => [subtree.atStart, subtree.atEnd],
    subtree_levels: (subtree) => subtree.levels,
    subtree_num_levels: (subtree) => subtree.numLevels,
    subtree_num_nodes: (subtree) => subtree.numNodes,
    subtree_nodes: (subtree) => linesOf(subtree.nodes),
    subtree_total_size: (subtree) => subtree.totalSize,
    subtree_merge_into: (front, back) => void front.mergeInto(back),
    subtree_merge_into_counted: (front, back) => front.mergeInto(back),
    subtree_merge: (subtrees) => y.Subtree.merge(subtrees),
    subtree_final_hash: (subtree) => subtree.finalHash(),
    subtree_file_hash: (subtree, salt) => subtree.fileHash(salt),
    subtree_to_json: (subtree) => subtree.jsonText(),
    subtree_from_json: (text) => y.Subtree.fromJSON(text),
    subtree_from_flat: (atStart, levels, nodes, atEnd) => y.Subtree.fromFlat({ atStart, levels, nodes, atEnd }),
    session_new: () => new y.Session(),
    session_new_without_hashes: () => new y.Session({ keepHashes: false }),
    session_keeps_hashes: (session) => session.keepsHashes,
    session_put: (session, first, chunks) => session.put(first, chunks),
    session_taken: (session, position) => session.taken(position),
    session_num_chunks: (session) => session.numChunks,
    session_total_size: (session) => session.totalSize,
    session_num_runs: (session) => session.numRuns,
    session_run: (session, place) => (([first, , subtree]) => [first, subtree])(session.run(place)),
    session_run_from: (session, position) => ((run) => run && [run.slice(0, 2), run[2]])(session.runFrom(position)),
    session_gaps: (session, total) => session.gaps(total),
    session_root: (session, total) => session.root(total),
    session_finish: (session, total) => session.finish(total),
    session_finish_with_salt: (session, total, salt) => session.finish(total, salt),
    session_copy: (session) => session.clone(),
    session_put_range: (session, first, count, subtree) => session.putRange(first, count, subtree),
    session_join: (session, other) => session.join(other),
    session_push_run: (session, first, end, subtree) => session.pushRun(first, end, subtree),
    session_keep_hashes: (session, hashes) => session.keepHashes(hashes),
    session_num_known_hashes: (session) => session.knownHashes().length,
    session_known_hashes: (session) => session.knownHashes().map(String).sort(),
    session_knows: (session, hash) => session.knows(hash),
    session_knows_each: (session, hashes) => hashes.map((hash) => session.knows(hash)),
    session_to_json: (session) => session.jsonText(),
    session_from_json: (text) => y.Session.fromJSON(text),
    hash_tree_from_chunks: (chunks) => y.HashTree.fromChunks(chunks),
    hash_tree_root: (tree) => tree.root,
    hash_tree_file_hash: (tree, salt) => tree.fileHash(salt),
    hash_tree_num_chunks: (tree) => tree.numChunks,
    hash_tree_total_size: (tree) => tree.totalSize,
    hash_tree_chunks_at: (tree, from, to) => tree.chunksAt(from, to),
    hash_tree_bytes_of: (tree, first, end) => tree.bytesOf(first, end),
    hash_tree_proof: (tree, first, end) => tree.proof(first, end),
    hash_tree_diff: (tree, other) => endsOf(tree.diff(other)),
    range_proof_from_chunks: (chunks, first, end) => y.RangeProof.fromChunks(chunks, first, end),
    range_proof_levels: (proof) => proof.toFlat().levels,
    range_proof_nodes: (proof) => linesOf(proof.toFlat().nodes),
    range_proof_to_json: (proof) => proof.jsonText(),
    range_proof_from_json: (text) => y.RangeProof.fromJSON(text),
    range_proof_from_flat: (levels, nodes) => y.RangeProof.fromFlat({ levels, nodes }),
    range_proof_to_bytes: (proof) => proof.bytes,
    range_proof_from_bytes: (bytes) => new y.RangeProof(bytes),
    range_proof_open: (proof, fileHash, salt) => proof.open(fileHash, salt),
    range_proof_open_root: (proof, root) => proof.openRoot(root),
    opened_range_file_size: (range) => range.fileSize,
    opened_range_num_chunks: (range) => range.numChunks,
    opened_range_bytes_of: (range, chunk) => orNull([range.begins(chunk), range.ends(chunk)]),
    // Where the first form returns null, the second one throws.
    opened_range_check: (range, chunk, data) => range.check(chunk, data) ?? range.checkOrThrow(chunk, data),
    opened_range_read: (range, from, to, data) => range.read(from, to, data) ?? range.readOrThrow(from, to, data),
    hash_index_new: () => new y.HashIndex(),
    hash_index_insert: (index, hashes, numbers) => index.insert(hashes, numbers),
    hash_index_find: (index, hashes) => index.find(hashes),
    hash_index_entries: (index) => index.entries().sort(([one], [other]) => one.compare(other)),
    hash_index_len: (index) => index.size,
};
/** Calls of the library that the package doesn't have. */
const ABSENT = new Set(["session_next_gap", "hash_tree_common_prefix", "hash_tree_common_suffix"]);
const ERRORS = {
    ARGUMENTS: errors.InvalidArguments,
    SIZES: errors.SizeOverflow,
    TEXT: errors.InvalidText,
    RULE: errors.InvalidJson,
    PROOF_RULE: errors.InvalidProof,
    MISMATCH: errors.ProofMismatch,
    SESSION_OVERLAP: errors.SessionOverlap,
    SESSION_POSITIONS: errors.SessionPositions,
    SESSION_GAP: errors.SessionGap,
};
/** Where the package has another error than ERRORS says, or returns null. */
const OTHERWISE = {
    "subtree_from_flat RULE": errors.InvalidLists,
    "session_put SIZES": errors.SessionSizes,
    "session_put_range SIZES": errors.SessionSizes,
    "session_join SIZES": errors.SessionSizes,
    "find_stable_start ARGUMENTS": null,
    "find_stable_end ARGUMENTS": null,
    "subtree_final_hash ARGUMENTS": null,
    "session_run_from ARGUMENTS": null,
    "hash_tree_chunks_at ARGUMENTS": null,
    "hash_tree_bytes_of ARGUMENTS": null,
    "opened_range_bytes_of ARGUMENTS": null,
};
/** The calls that answer with doubles. All others answer with bigints. */
const DOUBLES = new Set([
    "chunker_next_boundary",
    "chunker_taken",
    "compare",
    "find_stable_start",
    "find_stable_end",
    "subtree_levels",
    "subtree_num_levels",
    "subtree_num_nodes",
    "subtree_merge_into_counted",
    "session_put",
    "session_join",
    "session_num_runs",
    "session_num_known_hashes",
    "hash_tree_num_chunks",
    "hash_tree_chunks_at",
    "range_proof_levels",
    "opened_range_num_chunks",
    "hash_index_insert",
    "hash_index_len",
]);

// ---- Values: what a script says, and how it would say what the package returns

const unhex = (text) => Uint8Array.from(Buffer.from(text, "hex"));
const dataOf = (told) => {
    if (typeof told === "string") return unhex(told);
    if ("mixed" in told) return mixed(told.mixed[1]).subarray(told.mixed[0]);
    const bytes = "repeated" in told ? unhex(told.repeated) : Uint8Array.from({ length: 251 }, (_, k) => k);
    const [start, end] = told.part ?? told.message;
    return Uint8Array.from({ length: end - start }, (_, k) => bytes[(start + k) % bytes.length]);
};
const partOf = ({ part: [start, end] = [], ...rule }) => chunksOf(y, rule).slice(start, end);
const hashOf = (hex) => y.Hash.fromHex(hex);
const KINDS = {
    number: BigInt,
    numbers: (it) => it.map(BigInt),
    bool: (it) => it,
    text: (it) => it,
    hash: hashOf,
    bytes: unhex,
    data: dataOf,
    chunks: partOf,
    hashes: (it) => it.map(hashOf),
    levels: (it) => it.map((level) => level.map(BigInt)),
};

/** The value of a kind that a script says, or an object by its name. */
function valueOf(kind, it, objects) {
    if (kind === "subtrees") return it.map((name) => objects[name]);
    const isName = typeof it === "string" && it in objects && kind !== "text" && kind !== "data";
    return isName ? objects[it] : KINDS[kind](it);
}

/** A returned value as a script says it. */
function said(it, call) {
    if (typeof it === "number" || typeof it === "bigint") {
        assert.equal(typeof it, DOUBLES.has(call) ? "number" : "bigint");
        return it <= Number.MAX_SAFE_INTEGER ? Number(it) : `${it}`;
    }
    if (it instanceof Uint8Array) return Buffer.from(it).toString("hex");
    if (it instanceof y.Hash) return it.hex();
    return Array.isArray(it) ? it.map((each) => said(each, call)) : it;
}

/** All that the objects say of themselves. */
function state(it) {
    if (it instanceof y.HashTree) return it.root.hex();
    if (it instanceof y.OpenedRange) return it.proof.jsonText();
    if (it instanceof y.HashIndex) return it.saved;
    if (it instanceof y.Chunker) return it.state;
    return it instanceof y.Hasher || it instanceof y.FileHasher ? it.hash.hex() : (it.jsonText?.() ?? it.toJSON?.() ?? null);
}
const states = (objects) => Object.values(objects).map(state);

// ---- Steps

/** The class of the error with which a call is refused, or null. That there is no such chunk is of its own class. */
function errorOf(call, answer) {
    if (call === "opened_range_check" && !("chunk" in answer)) return errors.InvalidArguments;
    const key = `${call} ${answer.error}`;
    return key in OTHERWISE ? OTHERWISE[key] : ERRORS[answer.error];
}

/** Checks that a call is refused with its error, and with what the script says of it. */
function refused(call, answer, make) {
    const wanted = errorOf(call, answer);
    if (wanted === null) return assert.equal(make(), null);
    assert.throws(make, (error) => {
        assert.equal(error.constructor, wanted);
        assert.equal(error.rule, answer.rule);
        if ("position" in answer) assert.match(error.message, new RegExp(`positions? (from )?${answer.position} `));
        if (call === "opened_range_check" && "chunk" in answer) assert.match(error.message, new RegExp(`chunk ${answer.chunk} `));
        return true;
    });
}

/** Makes a call, and compares its answer. A refused call may change nothing. */
function runStep(kinds, objects, [call, given, answer = {}]) {
    const values = kinds[call].map((kind, k) => valueOf(kind, given[k], objects));
    if ("error" in answer) {
        const before = states(objects);
        refused(call, answer, () => CALLS[call](...values));
        assert.deepEqual(states(objects), before);
        return;
    }
    let found = CALLS[call](...values);
    if ("as" in answer) objects[answer.as]?.free?.();
    if ("as" in answer) [found, objects[answer.as]] = "is" in answer ? found : [undefined, found];
    if ("hash" in answer) assert.equal(y.dataHash(Buffer.from(found)).hex(), answer.hash, found);
    else assert.deepEqual(said(found, call), answer.is);
}

/** Runs the steps of a test, except calls that the package lacks, and calls on what these would have made. */
function runTest(kinds, steps) {
    const [objects, lacking] = [{}, new Set()];
    for (const step of steps) {
        if (ABSENT.has(step[0]) || step[1].some((it) => lacking.has(it))) lacking.add(step[2]?.as);
        else runStep(kinds, objects, step);
    }
    for (const it of Object.values(objects)) it.free?.();
}

const linesOfScript = (name) => {
    const lines = readFileSync(new URL(`${name}.jsonl`, FOLDER), "utf8").trimEnd().split("\n");
    return lines.map((line) => JSON.parse(line));
};

for (const name of NAMES) {
    test(`wasm32 answers as the script ${name} says`, () => {
        const [head, ...tests] = linesOfScript(name);
        for (const it of tests) {
            try {
                runTest(head.calls, it.steps);
            } catch (error) {
                throw new Error(`${it.test}: ${error.message}`, { cause: error });
            }
        }
        assert.equal(tests.length, head.numberOfTests);
    });
}

test("each script is run", () => {
    const there = readdirSync(FOLDER).filter((file) => file.endsWith(".jsonl"));
    assert.deepEqual(there.sort(), NAMES.map((name) => `${name}.jsonl`).sort());
});

test("each call that the package has is made", () => {
    const called = new Set(NAMES.flatMap((name) => Object.keys(linesOfScript(name)[0].calls)));
    assert.deepEqual([...called].sort(), [...ABSENT, ...Object.keys(CALLS)].sort());
});
