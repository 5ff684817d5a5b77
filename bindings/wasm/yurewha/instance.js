// Everything that the package has, over one library.

import { makeChunker } from "./chunker.js";
import { makeChunks } from "./chunks.js";
import { makeFileHashing } from "./file_hasher.js";
import { makeHash } from "./hash.js";
import { makeHashIndex } from "./hash_index.js";
import { makeHashTree } from "./hash_tree.js";
import { makeHashing } from "./hasher.js";
import { makeOpenedRange } from "./opened_range.js";
import { makeRangeProof } from "./range_proof.js";
import { makeReader } from "./reader.js";
import { makeRoots } from "./roots.js";
import { makeSession } from "./session.js";
import { makeSubtree } from "./subtree.js";
import { makeVerifiedBlob } from "./verified_blob.js";

export function instanceOver(library) {
    const hashes = makeHash(library);
    const lists = makeChunks(hashes);
    const { Chunker, xetCuts } = makeChunker(library);
    const subtrees = makeSubtree(library, hashes, lists);
    const ranges = makeOpenedRange(library);
    const HashTree = makeHashTree(library, hashes, lists, (...given) => proofs.written(...given));
    const proofs = makeRangeProof(library, hashes, lists, ranges, HashTree);
    return Object.freeze({
        Hash: hashes.Hash,
        Chunks: lists.Chunks,
        Chunker,
        Subtree: subtrees.Subtree,
        Session: makeSession(library, hashes, lists, subtrees),
        HashIndex: makeHashIndex(library, hashes),
        HashTree,
        RangeProof: proofs.RangeProof,
        OpenedRange: ranges.OpenedRange,
        ...makeVerifiedBlob(hashes, proofs, makeReader(library, proofs.overProof)),
        ...makeHashing(library, hashes, xetCuts),
        ...makeFileHashing(library, hashes),
        ...makeRoots(library, hashes, lists),
    });
}
