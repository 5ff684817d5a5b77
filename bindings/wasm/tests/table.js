// Each call of the package with arguments, for tests that try all calls in the same way. A new call needs a row here.

/**
 * For each class, `make`, which makes an object with so many items, and `calls`: for each member what calls it. A call with two parameters
 * takes another object of the class, which may be the same one, and a call without any takes none. The first word of a name is the member's.
 */
export function tableOf(y) {
    const chunks = (count, first = 1) => Array.from({ length: count }, (_, k) => [y.Hash.randomFromSeed(first + k), 100 + k]);
    const hashes = (count) => chunks(count).map(([hash]) => hash);
    const bytes = (count) => Uint8Array.from({ length: count }, (_, k) => k);
    const salt = new Uint8Array(32).fill(3);
    const treeOfBytes = (count) => y.HashTree.fromChunks(Array.from(bytes(count), (byte) => [y.dataHash(Uint8Array.of(byte)), 1]));
    const opened = (count) => {
        const tree = treeOfBytes(count + 3);
        const range = tree.proof(1, count + 2).open(tree.fileHash());
        tree.free();
        return range;
    };
    const blob = (count, options) => {
        const tree = treeOfBytes(count);
        const prove = (start, end) => tree.proof(...tree.chunksAt(start, end));
        return y.VerifiedBlob.open(tree.fileHash(), (start, end) => bytes(count).slice(start, end), prove, options);
    };
    const session = (count) => {
        const made = new y.Session();
        chunks(count).forEach((chunk, k) => made.put(2 * k, [chunk]));
        return made;
    };
    const index = (count) => {
        const made = new y.HashIndex();
        made.insert(hashes(count), hashes(count).map((_, k) => 7 + k));
        return made;
    };
    const own = { free: (it) => it.free(), toString: (it) => it.toString() };
    return {
        Yurewha: {
            make: (count) => y.Chunks.from(chunks(count)),
            calls: {
                dataHash: (it) => y.dataHash(it.bytes),
                internalNodeHash: (it) => y.internalNodeHash(it.bytes),
                dataHashes: (it) => y.dataHashes(it.bytes, [0, it.length, 40 * it.length]),
                hashChunks: (it) => y.hashChunks([it.bytes], [0, it.length, 40 * it.length]),
                hashCuts: (it) => y.hashCuts([it.bytes], [it.length]),
                "hashCuts without cuts": (it) => y.hashCuts([it.bytes]),
                chunksOf: (it) => y.chunksOf([it.bytes]),
                hashFile: (it) => y.hashFile([it.bytes, it.bytes]),
                "hashFile with a salt": (it) => y.hashFile([it.bytes], { salt }),
                hashBlob: (it) => y.hashBlob(new Blob([it.bytes])),
                hashStream: (it) => y.hashStream([it.bytes, it.bytes]),
                xorbHash: (it) => y.xorbHash(it),
                fileHash: (it) => y.fileHash(it),
                "fileHash with a salt": (it) => y.fileHash(it, salt),
                findStableStart: (it) => y.findStableStart(it),
                findStableEnd: (it) => y.findStableEnd(it),
            },
        },
        Hash: {
            make: (count) => y.Hash.randomFromSeed(count),
            calls: {
                constructor: (it) => new y.Hash(it.bytes),
                fromHex: (it) => y.Hash.fromHex(it.hex()),
                fromBase64: (it) => y.Hash.fromBase64(it.base64()),
                fromJSON: (it) => y.Hash.fromJSON(JSON.stringify(it)),
                randomFromSeed: () => y.Hash.randomFromSeed(5),
                bytes: (it) => it.bytes,
                hex: (it) => it.hex(),
                base64: (it) => it.base64(),
                compare: (it, other) => it.compare(other),
                equals: (it, other) => it.equals(other),
                hmac: (it, other) => it.hmac(other),
                remainder: (it) => it.remainder(4),
                toString: (it) => it.toString(),
                toJSON: (it) => it.toJSON(),
            },
        },
        Chunks: {
            make: (count) => y.Chunks.from(chunks(count)),
            calls: {
                constructor: (it) => new y.Chunks(it.bytes),
                from: (it) => y.Chunks.from(it),
                fromJSON: (it) => y.Chunks.fromJSON(it.toJSON()),
                "fromJSON of a text": (it) => y.Chunks.fromJSON(JSON.stringify(it)),
                length: (it) => it.length,
                bytes: (it) => it.bytes,
                at: (it) => [it.at(0), it.at(1), it.at(-1), it.at(2)],
                slice: (it) => [it.slice(1), it.slice(0, 1), it.slice(-1)],
                toJSON: (it) => it.toJSON(),
                toString: own.toString,
            },
        },
        Hasher: {
            make: (count) => new y.Hasher().update(bytes(count)),
            calls: {
                constructor: () => new y.Hasher(),
                internalNode: () => y.Hasher.internalNode(),
                keyed: () => y.Hasher.keyed(salt),
                count: (it) => it.count,
                hash: (it) => it.hash,
                update: (it, other) => it.update(other.digest().bytes),
                digest: (it) => it.digest(),
                clone: (it) => it.clone(),
                toString: own.toString,
            },
        },
        Chunker: {
            make: (count) => {
                const made = new y.Chunker();
                made.nextBoundary(bytes(count));
                return made;
            },
            calls: {
                constructor: () => new y.Chunker(),
                taken: (it) => it.taken,
                state: (it) => it.state,
                nextBoundary: (it, other) => it.nextBoundary(other.state),
                "nextBoundary of much": (it) => it.nextBoundary(new Uint8Array(140_000)),
                clone: (it) => it.clone(),
                toString: own.toString,
            },
        },
        FileHasher: {
            make: (count) => new y.FileHasher().update(bytes(count)),
            calls: {
                constructor: () => new y.FileHasher(),
                size: (it) => it.size,
                hash: (it) => it.hash,
                update: (it, other) => it.update(other.root().bytes),
                "update with much": (it) => it.update(new Uint8Array(140_000)),
                root: (it) => it.root(),
                fileHash: (it) => it.fileHash(),
                "fileHash with a salt": (it) => it.fileHash(salt),
                ...own,
            },
        },
        Subtree: {
            make: (count) => y.Subtree.fromChunks(false, chunks(count), false),
            calls: {
                constructor: () => new y.Subtree(),
                fromChunks: () => y.Subtree.fromChunks(true, chunks(2), true),
                merge: (it, other) => y.Subtree.merge([it, other]),
                "merge three": (it, other) => y.Subtree.merge([other, it, other]),
                "merge one": (it) => y.Subtree.merge([it]),
                "merge none": () => y.Subtree.merge([]),
                fromJSON: (it) => y.Subtree.fromJSON(it.jsonText()),
                fromFlat: (it) => y.Subtree.fromFlat(it.toFlat()),
                atStart: (it) => it.atStart,
                atEnd: (it) => it.atEnd,
                totalSize: (it) => it.totalSize,
                numNodes: (it) => it.numNodes,
                numLevels: (it) => it.numLevels,
                levels: (it) => it.levels,
                nodes: (it) => it.nodes,
                mergeInto: (it, other) => it.mergeInto(other),
                finalHash: (it) => it.finalHash(),
                fileHash: (it) => it.fileHash(),
                "fileHash with a salt": (it) => it.fileHash(salt),
                finish: (it) => it.finish(),
                clone: (it) => it.clone(),
                equals: (it, other) => it.equals(other),
                jsonText: (it) => it.jsonText(),
                toJSON: (it) => it.toJSON(),
                toFlat: (it) => it.toFlat(),
                ...own,
            },
        },
        Session: {
            make: session,
            calls: {
                constructor: () => new y.Session(),
                "constructor without hashes": () => new y.Session({ keepHashes: false }),
                fromJSON: (it) => y.Session.fromJSON(it.jsonText()),
                restore: (it, other) => [y.Session.restore(it.saved), y.Session.restore(other.saved, { keepHashes: false })],
                put: (it) => it.put(9, chunks(2)),
                "put nothing": (it) => it.put(0, []),
                taken: (it) => [it.taken(0), it.taken(1), it.taken(2)],
                numChunks: (it) => it.numChunks,
                totalSize: (it) => it.totalSize,
                numRuns: (it) => it.numRuns,
                run: (it) => it.run(0),
                runs: (it) => it.runs(),
                runFrom: (it) => it.runFrom(1),
                gaps: (it) => it.gaps(5),
                pushRun: (it, other) => {
                    const range = y.Subtree.fromChunks(false, chunks(Number(other.numChunks)), false);
                    try {
                        it.pushRun(20, 21, range);
                    } finally {
                        range.free();
                    }
                },
                putRange: (it, other) => {
                    const range = y.Subtree.fromChunks(false, chunks(Number(other.numChunks)), false);
                    try {
                        it.putRange(15, 3, range);
                    } finally {
                        range.free();
                    }
                },
                join: (it, other) => it.join(other),
                keepHashes: (it, other) => it.keepHashes(other.knownHashes()),
                keepsHashes: (it) => it.keepsHashes,
                knows: (it) => it.knows(hashes(1)[0]),
                knownHashes: (it) => it.knownHashes().map(String).sort(),
                jsonText: (it) => it.jsonText(),
                toJSON: (it) => it.toJSON(),
                saved: (it) => it.saved,
                root: (it) => it.root(1),
                finish: (it) => it.finish(1),
                "finish with a salt": (it) => it.finish(1, salt),
                clone: (it) => it.clone(),
                ...own,
            },
        },
        HashIndex: {
            make: index,
            calls: {
                constructor: () => new y.HashIndex(),
                restore: (it) => y.HashIndex.restore(it.saved),
                size: (it) => it.size,
                insert: (it, other) => it.insert(other.entries().map(([hash]) => hash), other.entries().map(([, number]) => number + 1n)),
                "insert others": (it) => it.insert(hashes(3), [1, 2, 3]),
                find: (it) => it.find(hashes(3)),
                get: (it) => it.get(hashes(1)[0]),
                has: (it) => it.has(hashes(1)[0]),
                entries: (it) => it.entries().map(String).sort(),
                saved: (it) => it.saved,
                clone: (it) => it.clone(),
                ...own,
            },
        },
        HashTree: {
            make: (count) => y.HashTree.fromChunks(chunks(count)),
            calls: {
                constructor: () => new y.HashTree(),
                fromChunks: () => y.HashTree.fromChunks(chunks(2)),
                root: (it) => it.root,
                fileHash: (it) => it.fileHash(),
                "fileHash with a salt": (it) => it.fileHash(salt),
                numChunks: (it) => it.numChunks,
                totalSize: (it) => it.totalSize,
                chunksAt: (it) => [it.chunksAt(0, 1), it.chunksAt(0, 1000), it.chunksAt(0, 0)],
                bytesOf: (it) => [it.bytesOf(0, 1), it.bytesOf(0, 2), it.bytesOf(0, 0)],
                proof: (it) => it.proof(0, 1),
                "proof of all": (it) => it.proof(0, it.numChunks),
                diff: (it, other) => it.diff(other),
                ...own,
            },
        },
        RangeProof: {
            make: (count) => y.RangeProof.fromChunks(chunks(count + 2), 0, count + 1),
            calls: {
                constructor: (it) => new y.RangeProof(it.bytes),
                fromChunks: () => y.RangeProof.fromChunks(chunks(2), 0, 1),
                "fromChunks of none": () => y.RangeProof.fromChunks([], 0, 0),
                fromJSON: (it) => y.RangeProof.fromJSON(it.jsonText()),
                fromFlat: (it) => y.RangeProof.fromFlat(it.toFlat()),
                chunks: (it) => it.chunks,
                numLevels: (it) => it.numLevels,
                bytes: (it) => it.bytes,
                left: (it) => it.left(0),
                right: (it) => it.right(0),
                open: (it) => it.open(y.fileHash(chunks(it.chunks.length + 1))),
                "open with another hash": (it) => it.open(salted()),
                openRoot: (it) => it.openRoot(y.xorbHash(chunks(it.chunks.length + 1))),
                equals: (it, other) => it.equals(other),
                jsonText: (it) => it.jsonText(),
                toJSON: (it) => it.toJSON(),
                toFlat: (it) => it.toFlat(),
                toString: own.toString,
            },
        },
        OpenedRange: {
            make: opened,
            calls: {
                constructor: () => new y.OpenedRange(),
                proof: (it) => it.proof,
                fileSize: (it) => it.fileSize,
                numChunks: (it) => it.numChunks,
                begins: (it) => [it.begins(0), it.begins(2)],
                ends: (it) => [it.ends(0), it.ends(2)],
                check: (it) => [it.check(0, bytes(2).subarray(1)), it.check(0, bytes(1))],
                checkOrThrow: (it) => it.checkOrThrow(0, bytes(2).subarray(1)),
                read: (it) => [it.read(1, 2, bytes(it.numChunks + 1).subarray(1)), it.read(0, 1, bytes(1))],
                readOrThrow: (it) => it.readOrThrow(1, 2, bytes(it.numChunks + 1).subarray(1)),
                checking: (it) => new Blob([bytes(it.numChunks + 1).subarray(1)]).stream().pipeThrough(it.checking()),
                "checking unread": (it) => void it.checking(),
                "checking nothing": (it) => new Blob([]).stream().pipeThrough(it.checking()),
                ...own,
            },
        },
        VerifiedBlob: {
            make: blob,
            calls: {
                constructor: () => new y.VerifiedBlob(),
                open: () => blob(2),
                "open with a salt": () => blob(2, { salt }),
                fileHash: (it) => it.fileHash,
                start: (it) => it.start,
                size: (it) => it.size,
                type: (it) => it.type,
                slice: (it) => [it.slice(1), it.slice(0, 1), it.slice(-1)],
                stream: (it) => it.stream(),
                bytes: (it) => it.bytes(),
                arrayBuffer: (it) => it.arrayBuffer(),
                text: (it) => it.text(),
                toString: own.toString,
            },
        },
    };

    function salted() {
        return new y.Hash(salt);
    }
}
