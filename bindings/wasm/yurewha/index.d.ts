/**
 * Cuts files into chunks as the Hugging Face Xet store does, and computes the hashes by which the store names chunks and files. Also
 * merges the subtrees of adjacent ranges of chunks without the chunks.
 *
 * The algorithm is proved. Its translation to WebAssembly and this package around it are only tested.
 *
 * Examples begin with `const y = await load();` and end with what they print.
 *
 * Objects keep their bytes in private members. What comparisons need is an own property of each, so `deepStrictEqual` of two
 * objects compares their values. A structured clone is a plain object with these properties, and no call takes it. A conversion to text
 * throws a `TypeError`, but for a `Hash`: "[object Object]" would be wrong data in a template, a `Response` or a `Blob`. To hand an
 * object to a worker, send what it can be made of again: `bytes` of a `Hash`, `Chunks` or `RangeProof`, `jsonText()` of a
 * `Subtree` or `Session`, `saved` of a `HashIndex`.
 */

declare global {
    interface SymbolConstructor {
        /** Frees an object at the end of the block that declares it with `using`. */
        readonly dispose: unique symbol;
    }
}

/** A size, a position, a seed or another number: a `BigInt` or a safe integer, from 0 to 2^64 - 1. A number outside that range is a
 * `RangeError`. Anything else is a `TypeError`. */
export type U64 = bigint | number;

/** A chunk, or any other node of the tree: its hash, and its size in bytes. */
export type Chunk = readonly [hash: Hash, size: U64];

/** The data of a chunk, or of a range of chunks. Of an `ArrayBuffer`, all bytes are taken. */
export type Data = Uint8Array | ArrayBuffer;

/** A file, or what gives pieces of data: a stream, such as the `body` of a `Response` or a stream of Node, or another iterable. Each piece is
 * copied or hashed before the next is asked for, so the source may use its memory again. Anything else is a `TypeError`, as is a piece that
 * isn't a `Uint8Array`. A source that isn't read to its end is let go: a stream is cancelled. No call waits for that, or fails with it. */
export type Pieces = Blob | ReadableStream<Uint8Array> | AsyncIterable<Uint8Array> | Iterable<Uint8Array>;

/** A list of chunks. */
export type ChunkList = Chunks | Iterable<Chunk>;

/** Where the module comes from: its compiled form, its bytes, a response with them, or the address of a file. */
export type Source = (WebAssembly.Module & object) | ArrayBuffer | Uint8Array | Response | URL | string;

/**
 * Loads the module, by default `yurewha.wasm` next to this file, and returns the package. Each call makes an instance with its
 * own memory. Using an object of one instance with another is a `TypeError`.
 *
 * Rejects with `OutOfMemory`, or with the error of reading or compiling the module.
 *
 * @example
 * ```js
 * const { xorbHash } = await load();
 * console.log(xorbHash([]).hex().length); // 64
 * ```
 */
export function load(source?: Source | PromiseLike<Source>): Promise<Yurewha>;

/** The package, with one instance of the module. */
export interface Yurewha {
    readonly Hash: HashConstructor;
    readonly Chunks: ChunksConstructor;
    readonly Chunker: ChunkerConstructor;
    readonly FileHasher: FileHasherConstructor;
    readonly Hasher: HasherConstructor;
    readonly Subtree: SubtreeConstructor;
    readonly Session: SessionConstructor;
    readonly HashIndex: HashIndexConstructor;
    readonly HashTree: HashTreeConstructor;
    readonly RangeProof: RangeProofConstructor;
    readonly OpenedRange: OpenedRangeConstructor;
    readonly VerifiedBlob: VerifiedBlobConstructor;

    /**
     * Returns the hash of a chunk. `data` is its data. The hash is keyed BLAKE3 under the data key.
     *
     * @example
     * ```js
     * const data = new TextEncoder().encode("a chunk");
     * console.log(y.dataHash(data).hex()); // fc2d9e764137e94a0c4d7bdc0b584e73a34945fbf4efeef155acc8927c1399ff
     * console.log(y.dataHash(data.buffer).equals(y.dataHash(data))); // true
     * ```
     */
    dataHash(data: Data): Hash;

    /**
     * Returns the hash of an inner node of the tree. `data` is its text. The hash is keyed BLAKE3 under the internal key.
     *
     * @example
     * ```js
     * const data = new TextEncoder().encode("a text");
     * console.log(y.internalNodeHash(data).hex()); // 1444c463273e6f4b5822b866e0448c14ac3a54c090633ae08b79ed8d4ddc85ae
     * ```
     */
    internalNodeHash(data: Data): Hash;

    /**
     * Returns the hashes of chunks whose data is in one array. The data of chunk i starts at `offsets[i]` and ends before
     * `offsets[i + 1]`, so there is one more offset than there are chunks.
     * @throws InvalidArguments there is no offset, an offset is less than the one before it, or greater than the number of bytes
     *
     * @example
     * ```js
     * const data = new TextEncoder().encode("a chunkanother");
     * const [first, second] = y.dataHashes(data, [0, 7, 14]);
     * console.log(first.equals(y.dataHash(data.slice(0, 7))), second.equals(y.dataHash(data.slice(7)))); // true true
     * ```
     */
    dataHashes(data: Data, offsets: Iterable<U64>): Hash[];

    /** Returns the hash of each chunk of a file or of what gives pieces: chunk k begins at offset k and ends at the next one. Of a `Blob` or
     * `File`, only the bytes between the first and the last offset are read. Of a stream, bytes before the first are skipped, and it is
     * let go after the last. Nothing is held but a piece.
     * @throws InvalidArguments there is no offset, an offset is less than the one before it, or the data ends before the last
     *
     * @example
     * ```js
     * const [first, second] = await y.hashChunks(new Blob(["a chunk", "another"]), [0, 7, 14]);
     * console.log(first.hex()); // fc2d9e764137e94a0c4d7bdc0b584e73a34945fbf4efeef155acc8927c1399ff
     * ```
     */
    hashChunks(source: Pieces, offsets: Iterable<U64>): Promise<Hash[]>;

    /** Returns the file hash of a file or of what gives pieces: the hash by which Xet, and so the Hub, names a file of these bytes. Each byte
     * is read once, and what is held doesn't grow with the file.
     * @throws InvalidArguments the salt has another length
     * @throws Error a `Blob` gives more or fewer bytes than its size, as it may if its file changes meanwhile. The message has its name.
     *
     * @example
     * ```js
     * const hash = await y.hashFile(new Blob(["all bytes of a file"]), { onProgress: console.log }); // 19
     * console.log(hash.hex()); // 35056c226e0c308e0a54bba3a9e68b4cc31b107a7a6eab24df760e16698c7e9b
     * ```
     */
    hashFile(source: Pieces, options?: HashFileOptions): Promise<Hash>;

    /** Does what `hashFile` does, of a `Blob` or `File` alone. Anything else is a `TypeError`. */
    hashBlob(blob: Blob, options?: HashFileOptions): Promise<Hash>;

    /** Yields the hash and the size of each chunk into which Xet cuts a file or what gives pieces. It is `hashCuts` without cuts.
     *
     * @example
     * ```js
     * const chunks = [];
     * for await (const chunk of y.chunksOf(new Blob([new Uint8Array(140_000)]))) chunks.push(chunk);
     * console.log(chunks.map(([hash, size]) => size), `${chunks[0][0]}`.slice(0, 8)); // [ 131072, 8928 ] 2e39f13c
     * ```
     */
    chunksOf(source: Pieces): AsyncGenerator<[hash: Hash, size: number], void, undefined>;

    /** Yields the hash and the size of each chunk of a file or of what gives pieces, once the chunk came. Each byte is read once.
     *
     * `cuts` says where chunks end, in bytes from the beginning. The last chunk ends with the data. `cuts` gives numbers, or is a chunker: a
     * function that gets the pieces as they come, and gives the numbers. Until it has given a cut, copies of the pieces after the last one
     * are kept. Without `cuts`, the data is cut as Xet does.
     * @throws InvalidArguments a cut is less than the one before it, is past the end, or is one of a chunker that wasn't given so many bytes
     *
     * @example
     * ```js
     * async function* afterEachLine(pieces) {
     *     let place = 0;
     *     for await (const piece of pieces) {
     *         for (const byte of piece) if (++place && byte === 10) yield place;
     *     }
     * }
     * const chunks = [];
     * for await (const chunk of y.hashCuts(new Blob(["a line\nanother\nthe rest"]), afterEachLine)) chunks.push(chunk);
     * console.log(chunks.map(([hash, size]) => size), y.fileHash(chunks).hex().slice(0, 8)); // [ 7, 8, 8 ] fc6e834f
     * ```
     */
    hashCuts(
        source: Pieces,
        cuts?: Iterable<U64> | AsyncIterable<U64> | ((pieces: AsyncIterable<Uint8Array>) => Iterable<U64> | AsyncIterable<U64>),
    ): AsyncGenerator<[hash: Hash, size: number], void, undefined>;

    /** Returns the hash of a chunk whose data comes in pieces. It is the same as that of `dataHash`. Short pieces are gathered, so that many
     * of them take hardly longer than a few long ones.
     *
     * @example
     * ```js
     * const hash = await y.hashStream(new Blob(["a ", "chunk"]).stream());
     * console.log(hash.hex()); // fc2d9e764137e94a0c4d7bdc0b584e73a34945fbf4efeef155acc8927c1399ff
     * ```
     */
    hashStream(source: Pieces): Promise<Hash>;

    /**
     * Returns the root of a list of chunks. With no chunks it is the default hash. With one chunk it is its own hash. With more
     * chunks it is the hash at the top of their tree.
     * @throws SizeOverflow the sizes add up to more than 2^64 - 1
     * @throws OutOfMemory the memory can't grow
     *
     * @example
     * ```js
     * const chunks = ["a chunk", "another"].map((text) => [y.dataHash(new TextEncoder().encode(text)), text.length]);
     * console.log(y.xorbHash(chunks).hex()); // afd6af66bfc0cef6ba85f876fc16efa5fa43c2187a61a17fb1bd26710cbad464
     * ```
     */
    xorbHash(chunks: ChunkList): Hash;

    /**
     * Returns the file hash of a list of chunks, without a salt or under one of 32 bytes.
     * @throws InvalidArguments the salt has another length
     * @throws SizeOverflow the sizes add up to more than 2^64 - 1
     * @throws OutOfMemory the memory can't grow
     *
     * @example
     * ```js
     * const chunks = ["a chunk", "another"].map((text) => [y.dataHash(new TextEncoder().encode(text)), text.length]);
     * console.log(y.fileHash(chunks).hex()); // 34c6a21285884a20f7008f0e4732ea405f7fca63b68f66072805817902d23d0b
     * ```
     */
    fileHash(chunks: ChunkList, salt?: Uint8Array): Hash;

    /**
     * Returns the first stable point, as the number of nodes before it, or null if there is none. At a stable point a group ends,
     * no matter which nodes come before and after the given ones.
     *
     * @example
     * ```js
     * // Every fourth hash is a natural cut, because its last word is 0.
     * const nodes = Array.from({ length: 20 }, (_, i) => {
     *     const bytes = new Uint8Array(32);
     *     [bytes[0], bytes[24]] = [i, i % 4 === 3 ? 0 : 1];
     *     return [new y.Hash(bytes), 1];
     * });
     * console.log(y.findStableStart(nodes), y.findStableEnd(nodes)); // 8 16
     * console.log(y.findStableStart(nodes.slice(0, 3))); // null
     * ```
     */
    findStableStart(nodes: ChunkList): number | null;

    /** Returns the last stable point, as the number of nodes before it, or null if there is none. `findStableStart` has an example. */
    findStableEnd(nodes: ChunkList): number | null;
}

/**
 * A hash: 32 bytes, which can't be changed. Its text is its hex text, in JSON too.
 *
 * @example
 * ```js
 * const hash = y.Hash.fromHex("fc2d9e764137e94a0c4d7bdc0b584e73a34945fbf4efeef155acc8927c1399ff");
 * console.log(hash.base64(), `${hash}`.slice(0, 8)); // Suk3QXaeLfxzTlgL3HtNDPHu7_T7RUmj_5kTfJLIrFU fc2d9e76
 * console.log(hash.equals(new y.Hash(hash.bytes)), hash.compare(new y.Hash())); // true 1
 * ```
 */
export interface Hash {
    /** A copy of the 32 bytes. */
    readonly bytes: Uint8Array;

    /** Returns the hex text by which Xet names the hash. It has each group of eight bytes in reverse. */
    hex(): string;

    /** Returns the URL-safe base64 text of the bytes, 43 characters without padding.
     * @throws OutOfMemory the memory can't grow */
    base64(): string;

    /** Returns -1, 0 or 1 if this hash is less than, equal to or greater than the other. The order is that of the hex texts. */
    compare(other: Hash): -1 | 0 | 1;

    equals(other: Hash): boolean;

    /** Returns the keyed BLAKE3 hash of the bytes of this hash, under the bytes of a key. */
    hmac(key: Hash): Hash;

    /** Returns the last eight bytes, as a little-endian number, modulo a divisor. A node is a natural cut if the remainder of its
     * hash modulo 4 is 0.
     * @throws InvalidArguments the divisor is 0 */
    remainder(divisor: U64): bigint;

    toString(): string;
    toJSON(): string;
}

export interface HashConstructor {
    /** Makes the hash that has these 32 bytes, which are copied. Without bytes it is the default hash, whose bytes are 0.
     * @throws InvalidArguments there are more or fewer bytes */
    new (bytes?: Uint8Array): Hash;
    readonly prototype: Hash;

    /** Returns the hash that has this hex text. It is 64 hex digits, lower or upper case.
     * @throws InvalidText it is anything else */
    fromHex(text: string): Hash;

    /** Returns the hash that has this base64 text. It is one that `base64` returns.
     * @throws InvalidText it is anything else
     * @throws OutOfMemory the memory can't grow */
    fromBase64(text: string): Hash;

    /** Reads a hash from JSON text: a string with its hex text. Another value is a `TypeError`.
     * @throws InvalidText the text isn't JSON, or the string isn't 64 hex digits */
    fromJSON(text: string): Hash;

    /** Returns a pseudorandom hash, for tests. */
    randomFromSeed(seed: U64): Hash;
}

/**
 * A packed list of chunks, 40 bytes each. Calls use it directly; they pack other lists first.
 *
 * @example
 * ```js
 * const chunks = y.Chunks.from([[y.Hash.randomFromSeed(1), 5], [y.Hash.randomFromSeed(2), 7]]);
 * console.log(chunks.length, chunks.at(-1)[1], chunks.bytes.length); // 2 7n 80
 * console.log(y.xorbHash(y.Chunks.fromJSON(chunks.toJSON())).equals(y.xorbHash(chunks))); // true
 * ```
 */
export interface Chunks extends Iterable<[hash: Hash, size: bigint]> {
    readonly length: number;

    /** A copy of the packed form: for each chunk its hash, then its size as eight bytes, little-endian. */
    readonly bytes: Uint8Array;

    /** Returns the chunk at an index, like `at` of arrays, or undefined if there is none. A negative index counts from the end. */
    at(index: number): [hash: Hash, size: bigint] | undefined;

    /** Returns the chunks from `start` up to, but not including, `end`, like `slice` of arrays. */
    slice(start?: number, end?: number): Chunks;

    /** Returns pairs of a hash's hex text and a size's decimal digits. Sizes are texts because they may be more than 2^53. */
    toJSON(): [hex: string, size: string][];

    /** Throws a `TypeError`: use `bytes` or `toJSON`. */
    toString(): never;
}

export interface ChunksConstructor {
    /** Makes a list from its packed form, which is copied.
     * @throws InvalidArguments its length isn't a multiple of 40 */
    new (bytes?: Uint8Array): Chunks;
    readonly prototype: Chunks;

    /** Packs a list. */
    from(chunks: ChunkList): Chunks;

    /** Makes a list of the pairs that `toJSON` returns, or of their JSON text.
     * @throws InvalidText the text isn't JSON, or a hex text isn't 64 hex digits */
    fromJSON(json: string | Iterable<readonly [hex: string, size: string]>): Chunks;
}

/**
 * A hasher for a message that comes in pieces. It holds no memory of the module, so there is nothing to free.
 *
 * @example
 * ```js
 * const text = new TextEncoder();
 * const hasher = new y.Hasher().update(text.encode("a "));
 * const other = hasher.clone().update(text.encode("part"));
 * console.log(hasher.update(text.encode("chunk")).digest().equals(y.dataHash(text.encode("a chunk")))); // true
 * console.log(other.digest().equals(y.dataHash(text.encode("a part"))), other.count); // true 6n
 * ```
 */
export interface Hasher {
    /** The length of the message in bytes. */
    readonly count: bigint;

    /** What `digest` returns. */
    readonly hash: Hash;

    /** Appends a piece to the message.
     * @throws SizeOverflow the message would have more than 2^64 - 1 bytes */
    update(data: Data): this;

    /** Returns the hash of the message. The hasher can take more pieces, and be asked again. */
    digest(): Hash;

    clone(): Hasher;

    /** Throws a `TypeError`: use `digest`. */
    toString(): never;
}

export interface HasherConstructor {
    /** Makes a hasher that computes the same as `dataHash`. */
    new (): Hasher;
    readonly prototype: Hasher;

    /** Makes a hasher that computes the same as `internalNodeHash`. */
    internalNode(): Hasher;

    /** Makes a hasher under a key of 32 bytes.
     * @throws InvalidArguments the key has another length */
    keyed(key: Uint8Array): Hasher;
}

/**
 * Where Xet cuts a file into chunks. A chunk has 8192 to 131072 bytes, but the last of a file may have fewer. The chunks are the same in
 * whatever pieces the file comes. It holds no memory of the module, so there is nothing to free.
 *
 * @example
 * ```js
 * const [chunker, ends] = [new y.Chunker(), []];
 * let piece = new Uint8Array(300_000);
 * for (let end; (end = chunker.nextBoundary(piece)) !== undefined; piece = piece.subarray(end)) ends.push(end);
 * console.log(ends, chunker.taken); // [ 131072, 131072 ] 37856
 * ```
 */
export interface Chunker {
    /** How many bytes of the chunk were taken so far. If the file ends here, and there are any, they are its last chunk. */
    readonly taken: number;

    /** What comparisons see: a copy of the state, whose form may change with a version. */
    readonly state: Uint8Array;

    /** Takes more of the file. If the chunk ends in the data, returns after how many bytes of it, and takes no more than these: the next call
     * begins with what follows. Otherwise takes all of it, and returns undefined. A chunk may end with the data. */
    nextBoundary(data: Data): number | undefined;

    clone(): Chunker;

    /** Throws a `TypeError`: use `taken`. */
    toString(): never;
}

export interface ChunkerConstructor {
    /** Makes a chunker at the beginning of a file, or of any chunk. */
    new (): Chunker;
    readonly prototype: Chunker;
}

/**
 * A hasher for a file that comes in pieces. It cuts the bytes into chunks as Xet does, hashes these, and keeps none of the bytes.
 * `hashFile` uses one.
 *
 * A call that throws leaves the hasher unchanged. Any call may throw `OutOfMemory`, if the memory can't grow.
 *
 * @example
 * ```js
 * const hasher = new y.FileHasher().update(new Uint8Array(200_000)).update(new Uint8Array(100_000));
 * console.log(hasher.fileHash().hex()); // 3d7bd4178bc2851ba07d59c24c3a88ae0c7220e9920d6c5c6a06b01556d46404
 * console.log(hasher.size); // 300000n
 * hasher.free();
 * ```
 */
export interface FileHasher extends Freed {
    /** How many bytes the file has so far. */
    readonly size: bigint;

    /** What `fileHash` returns without a salt. */
    readonly hash: Hash;

    /** Appends a piece to the file. The module's memory holds a copy of it meanwhile, so give a long file in pieces.
     * @throws SizeOverflow the file would have more than 2^64 - 1 bytes */
    update(data: Data): this;

    /** Returns the root of the chunks of the file so far. More pieces can follow. */
    root(): Hash;

    /** Returns the file hash of the file so far, without a salt or under one of 32 bytes. More pieces can follow.
     * @throws InvalidArguments the salt has another length */
    fileHash(salt?: Uint8Array): Hash;

    /** Throws a `TypeError`: use `root` or `fileHash`. */
    toString(): never;
}

export interface FileHasherConstructor {
    /** Makes a hasher of the empty file. */
    new (): FileHasher;
    readonly prototype: FileHasher;
}

/** How a file is hashed. */
export interface HashFileOptions {
    /** A salt of 32 bytes for the file hash. */
    readonly salt?: Uint8Array;

    /** Once it is aborted, the source is let go, and the call rejects with the signal's reason. */
    readonly signal?: AbortSignal;

    /** Gets how many bytes came so far, after each piece. The call rejects with what it throws. */
    readonly onProgress?: (bytes: number) => void;
}

/** An object that can be freed. Any other call of a freed object throws `EmptyHandle`. */
export interface Freed {
    /** Frees what the module keeps for the object. Freeing twice is harmless. An object that can't be reached any more is freed
     * some time later. */
    free(): void;

    /** Does the same, for `using`. Engines without `Symbol.dispose` don't have it. */
    [Symbol.dispose](): void;
}

/**
 * A subtree: what is kept of a range of chunks, to merge it with its neighbours without the chunks. Whichever adjacent ranges
 * merge first, the result is the subtree that `fromChunks` makes of all their chunks.
 *
 * A call that throws leaves each subtree unchanged. Any call may throw `OutOfMemory`, if the memory can't grow.
 *
 * @example
 * ```js
 * const chunks = Array.from({ length: 60 }, (_, seed) => [y.Hash.randomFromSeed(seed), 1000]);
 * const front = y.Subtree.fromChunks(true, chunks.slice(0, 25), false);
 * const back = y.Subtree.fromChunks(false, chunks.slice(25), true);
 * const sent = y.Subtree.fromJSON(JSON.stringify(back)); // as another machine gets it
 * front.mergeInto(sent);
 * console.log(front.finish().equals(y.fileHash(chunks)), front.totalSize); // true 60000n
 * for (const range of [front, back, sent]) range.free();
 * ```
 */
export interface Subtree extends Freed {
    /** Whether no chunk comes before the range. */
    readonly atStart: boolean;

    /** Whether no chunk comes after the range. */
    readonly atEnd: boolean;

    /** The sum of the sizes of the chunks, in bytes. */
    readonly totalSize: bigint;

    /** The number of kept nodes. */
    readonly numNodes: number;

    readonly numLevels: number;

    /** The numbers of left and right nodes of each level, from the chunks up. */
    readonly levels: [left: number, right: number][];

    /** The kept nodes, in the order of `Flat`. */
    readonly nodes: Chunks;

    /**
     * Merges the range that follows into this one, and returns how many parents were hashed for it. The other range is unchanged.
     * @throws InvalidArguments this range is marked at its end, or the other at its start
     * @throws SizeOverflow the two sizes add up to more than 2^64 - 1
     */
    mergeInto(back: Subtree): number;

    /** Returns the root of the chunks, or null if an end isn't marked. */
    finalHash(): Hash | null;

    /** Returns the file hash of the chunks, without a salt or under one of 32 bytes, or null if an end isn't marked.
     * @throws InvalidArguments the salt has another length */
    fileHash(salt?: Uint8Array): Hash | null;

    /** Returns the file hash of the chunks, without a salt or under one of 32 bytes.
     * @throws InvalidArguments an end isn't marked, or the salt has another length */
    finish(salt?: Uint8Array): Hash;

    clone(): Subtree;

    /** Returns whether both have the same marks, levels and nodes. */
    equals(other: Subtree): boolean;

    /** Returns the subtree as compact JSON text. */
    jsonText(): string;

    /** Returns what `JSON.stringify` writes as this text. In an engine without `JSON.rawJSON`, such as Node 20, a number of 2^53 or more is
     * a `RangeError`. */
    toJSON(): object;

    toFlat(): Flat;

    /** Throws a `TypeError`: use `jsonText`. */
    toString(): never;
}

export interface SubtreeConstructor {
    readonly prototype: Subtree;

    /** Makes the subtree of some chunks. `atStart` marks its start: no chunk comes before these. `atEnd` marks its end: no chunk
     * comes after these.
     * @throws SizeOverflow the sizes add up to more than 2^64 - 1 */
    fromChunks(atStart: boolean, chunks: ChunkList, atEnd: boolean): Subtree;

    /**
     * Merges adjacent ranges, in order, into a new subtree. With no ranges it is the empty subtree with both marks.
     * @throws InvalidArguments a range other than the first is marked at its start, or one other than the last at its end
     * @throws SizeOverflow the sizes add up to more than 2^64 - 1
     */
    merge(ranges: Iterable<Subtree>): Subtree;

    /** Reads a subtree from JSON text, or from its UTF-8 bytes.
     * @throws InvalidText the text isn't JSON
     * @throws InvalidJson the value breaks a rule */
    fromJSON(text: string | Uint8Array): Subtree;

    /** Makes a subtree from flat lists.
     * @throws InvalidLists they break a rule from 5 to 13 */
    fromFlat(flat: FlatInput): Subtree;
}

/** A subtree as flat lists. `levels` has the numbers of left and right nodes of each level, from the chunks up. `nodes` has the
 * left nodes of all levels, lowest level first, then the right nodes of all levels, highest level first. */
export interface Flat {
    readonly atStart: boolean;
    readonly levels: [left: number, right: number][];
    readonly nodes: Chunks;
    readonly atEnd: boolean;
}

export interface FlatInput {
    readonly atStart: boolean;
    readonly levels: Iterable<readonly [left: U64, right: U64]>;
    readonly nodes: ChunkList;
    readonly atEnd: boolean;
}

/**
 * The chunks of a file by their positions. They come in any order. A position can be taken only once.
 *
 * A call that throws leaves the session unchanged. Any call may throw `OutOfMemory`, if the memory can't grow.
 *
 * @example
 * ```js
 * const chunks = Array.from({ length: 5 }, (_, seed) => [y.Hash.randomFromSeed(seed), 1000]);
 * const session = new y.Session();
 * session.put(3, chunks.slice(3));
 * console.log(session.gaps(5)); // [ [ 0n, 3n ] ]
 * const text = session.jsonText(); // what a file keeps
 * const restored = y.Session.fromJSON(text);
 * console.log(restored.put(0, chunks.slice(0, 3)), restored.finish(5).equals(y.fileHash(chunks))); // 3 true
 * for (const it of [session, restored]) it.free();
 * ```
 */
export interface Session extends Freed {
    /**
     * Puts chunks at the positions from `first` on. Returns how many of their hashes the session didn't know, and counts each hash
     * once. With no chunks it returns 0 and changes nothing.
     * @throws SessionOverlap one of the positions is taken
     * @throws SessionPositions otherwise, `first` plus the number of chunks is more than 2^64 - 1
     * @throws SessionSizes otherwise, the sizes of all chunks add up to more than 2^64 - 1
     */
    put(first: U64, chunks: ChunkList): number;

    /**
     * Puts a range of `count` chunks at the positions from `first` on, as `put` puts chunks. The session gets a copy of `range`, the
     * subtree of these chunks. It doesn't know their hashes before they are kept or put. The call can't check that `range` is of so
     * many chunks. If it isn't, the root and the file hash are those of the chunks of the subtrees, and all else goes by the positions.
     * @throws InvalidArguments `count` is 0, or the range is marked at an end
     * @throws SessionOverlap otherwise, one of the positions is taken
     * @throws SessionPositions otherwise, `first` plus `count` is more than 2^64 - 1
     * @throws SessionSizes otherwise, the sizes of all chunks add up to more than 2^64 - 1
     */
    putRange(first: U64, count: U64, range: Subtree): void;

    /**
     * Puts copies of all runs of another session at their positions, and keeps the hashes that it knows, unless this one keeps none.
     * Returns how many of these hashes this session didn't know. Of many sessions that have no position in common any two can be
     * joined first, and the last one stands for the chunks of all. The other one is unchanged.
     * @throws SessionOverlap a position is taken in both
     * @throws SessionSizes otherwise, the sizes of all chunks add up to more than 2^64 - 1
     */
    join(other: Session): number;

    /** Returns whether a position is taken. */
    taken(position: U64): boolean;

    /** The number of taken positions. */
    readonly numChunks: bigint;

    /** The sum of the sizes of all chunks, in bytes. */
    readonly totalSize: bigint;

    /** The number of runs of adjacent taken positions. */
    readonly numRuns: number;

    /** Returns a run: its first position, the position after its last one, and a copy of the subtree of its chunks, open at both
     * ends. Runs are numbered from 0, by rising position. The time is proportional to the number.
     * @throws InvalidArguments there is no such run */
    run(place: U64): Run;

    /** Returns all runs, by rising position. */
    runs(): Run[];

    /** Returns the first run that ends after a position: the run that holds it or else the next one. The result is null if no run
     * ends after the position. */
    runFrom(position: U64): Run | null;

    /** Returns the positions below `total` that aren't taken, as ranges by rising position: the first position of each, and the
     * position after its last one. */
    gaps(total: U64): [first: bigint, end: bigint][];

    /**
     * Adds a run after all runs of this session: the positions from `first` to `end` - 1, and a copy of the subtree of its chunks. So
     * a session can be restored from what `runs` and `knownHashes` returned. The call can't check that there are as many chunks
     * as positions. If there aren't, the root and the file hash are those of the chunks of the subtrees, and all else goes by the
     * positions. The session doesn't know the hashes of the chunks before these are kept or put.
     * @throws InvalidArguments there is no position, the subtree is marked at an end, or a position from `first` - 1 on is taken
     * @throws SizeOverflow otherwise, the sizes of all chunks add up to more than 2^64 - 1
     */
    pushRun(first: U64, end: U64, range: Subtree): void;

    /** Keeps hashes, as if an earlier put had had them. The session then knows them.
     * @throws InvalidArguments there are hashes, and the session keeps none */
    keepHashes(hashes: Iterable<Hash>): void;

    /** Whether this session keeps the hashes of its chunks. */
    readonly keepsHashes: boolean;

    /** Returns whether this session knows a hash: whether a put had it, or it was kept. */
    knows(hash: Hash): boolean;

    /** Returns the hashes that this session knows, each once, in no particular order: those of all chunks that were put, and those
     * that were kept. */
    knownHashes(): Hash[];

    /** Returns the session as compact JSON text, which the Rust crate and the Python package read, too. It has `runs` with the positions
     * `first` and `end` and with `chunks`, the subtree, and `known_hashes` with the four words of each hash, in rising order. */
    jsonText(): string;

    /** Returns what `JSON.stringify` writes as this text, as for a `Subtree`. The hashes that a session keeps are such numbers. */
    toJSON(): object;

    /** The whole session as lists, of which `restore` makes it again, also from a structured clone. */
    readonly saved: SavedSession;

    /** Returns the root of all chunks in the order of their positions. The session is unchanged.
     * @throws SessionGap the taken positions aren't exactly those from 0 to `total` - 1 */
    root(total: U64): Hash;

    /** Returns the file hash, without a salt or under one of 32 bytes, of all chunks in the order of their positions. The session is
     * unchanged.
     * @throws InvalidArguments the salt has another length
     * @throws SessionGap the taken positions aren't exactly those from 0 to `total` - 1 */
    finish(total: U64, salt?: Uint8Array): Hash;

    /** Returns a session with the same chunks, which knows the same hashes, and keeps hashes if this one does. */
    clone(): Session;

    /** Throws a `TypeError`: use `jsonText`. */
    toString(): never;
}

export interface SessionOptions {
    /** Whether the session keeps the hashes of its chunks, as it does by default. If it doesn't, its memory is in proportion to its
     * number of runs, and it counts as new each hash of a put, once. */
    readonly keepHashes?: boolean;
}

export interface SessionConstructor {
    /** Makes a session without chunks. */
    new (options?: SessionOptions): Session;
    readonly prototype: Session;

    /** Reads what `jsonText` returned here, or what Rust or Python wrote. There may be other members. That a run has as many chunks as
     * positions can't be checked. If several things are wrong, the error is of the first of these, whichever run it is in.
     * @throws InvalidText the text isn't JSON or has another form, or a member occurs twice in one object
     * @throws InvalidJson a subtree breaks a rule
     * @throws InvalidArguments a run has no position, is marked at an end, or leaves no gap after the runs before it
     * @throws SizeOverflow otherwise, the sizes of all chunks add up to more than 2^64 - 1 */
    fromJSON(json: string | Uint8Array, options?: SessionOptions): Session;

    /** Makes a session of what `saved` returned, perhaps in another instance. A session that keeps no hashes leaves those that were
     * saved out. Errors are those of `Subtree.fromJSON`, `Hash.fromHex` and `pushRun`. */
    restore(saved: SavedSession, options?: SessionOptions): Session;
}

/** A run of adjacent taken positions: the first one, the one after the last, and the subtree of the chunks. */
export type Run = [first: bigint, end: bigint, range: Subtree];

/** A session as lists of texts: its runs by rising position, with their positions in decimal digits and the JSON text of each
 * subtree, and the hex texts of the hashes that it knows, in rising order. */
export interface SavedSession {
    readonly runs: readonly (readonly [first: string, end: string, json: string])[];
    readonly knownHashes: readonly string[];
}

/**
 * A number for each of some hashes, such as where the chunk with this hash stands. The number that came first stays.
 *
 * A call that throws leaves the index unchanged. Any call may throw `OutOfMemory`, if the memory can't grow.
 *
 * @example
 * ```js
 * const [one, two, three] = [1, 2, 3].map((seed) => y.Hash.randomFromSeed(seed));
 * const index = new y.HashIndex();
 * console.log(index.insert([one, two, one], [0, 1, 2])); // 2
 * console.log(index.find([one, two, three])); // [ 0n, 1n, null ]
 * console.log(index.insert([two, three], [7, 8]), index.get(two), index.size); // 1 1n 3
 * index.free();
 * ```
 */
export interface HashIndex extends Freed {
    /** How many hashes have a number. */
    readonly size: number;

    /** Gives each hash of a list the number at the same place of the other list, unless the hash has one already: the number that came
     * first stays, also among those of one call. Returns how many hashes are new, each counted once.
     * @throws InvalidArguments the lists have different lengths */
    insert(hashes: Iterable<Hash>, numbers: Iterable<U64>): number;

    /** Returns the number of each hash of a list, or null where a hash has none. */
    find(hashes: Iterable<Hash>): (bigint | null)[];

    /** Returns the number of a hash, or null if it has none. */
    get(hash: Hash): bigint | null;

    /** Returns whether a hash has a number. */
    has(hash: Hash): boolean;

    /** Returns all hashes with their numbers, each hash once, in no particular order. */
    entries(): [hash: Hash, number: bigint][];

    /** The whole index as a list of texts, of which `restore` makes it again, also from a structured clone. */
    readonly saved: SavedHashIndex;

    /** Returns an index in which each hash has the same number. */
    clone(): HashIndex;

    /** Throws a `TypeError`: use `saved`. */
    toString(): never;
}

export interface HashIndexConstructor {
    /** Makes an index without hashes. */
    new (): HashIndex;
    readonly prototype: HashIndex;

    /** Makes an index of what `saved` returned, perhaps in another instance. Errors are those of `Hash.fromHex`, and a `TypeError` or
     * `RangeError` if a number isn't one in decimal digits, or is more than 2^64 - 1. */
    restore(saved: SavedHashIndex): HashIndex;
}

/** The hex text of each hash, in rising order, with its number in decimal digits. */
export type SavedHashIndex = readonly (readonly [hash: string, number: string])[];

/**
 * All levels of nodes over a list of chunks, kept so that a proof takes time with the number of levels and of its own nodes, and not
 * with the number of chunks. Chunks and bytes count from 0.
 *
 * Any call may throw `OutOfMemory`, if the memory can't grow.
 *
 * @example
 * ```js
 * const chunks = Array.from({ length: 1000 }, (_, seed) => [y.Hash.randomFromSeed(seed), 50]);
 * const tree = y.HashTree.fromChunks(chunks);
 * const [first, end] = tree.chunksAt(120, 180);
 * console.log(first, end, tree.bytesOf(first, end)); // 2 4 [ 100n, 200n ]
 * console.log(tree.proof(first, end).open(tree.fileHash()).fileSize); // 50000n
 * tree.free();
 * ```
 */
export interface HashTree extends Freed {
    /** The root of the chunks. With no chunks it is the default hash. */
    readonly root: Hash;

    /** Returns the file hash of the chunks, without a salt or under one of 32 bytes. With no chunks it is the default hash.
     * @throws InvalidArguments the salt has another length */
    fileHash(salt?: Uint8Array): Hash;

    readonly numChunks: number;

    /** The sum of the sizes of the chunks: the size of the file in bytes. */
    readonly totalSize: bigint;

    /** Returns the least range of chunks that holds the bytes of the file from `from` up to, but not including, `to`, or those of them
     * that are in the file: the number of its first chunk, and one more than that of its last. Returns null if there are no such bytes. */
    chunksAt(from: U64, to: U64): [first: number, end: number] | null;

    /** Returns where in the file the chunks from `first` up to, but not including, `end` begin and end. Returns null unless there is
     * such a chunk, and only chunks of the list. */
    bytesOf(first: U64, end: U64): [from: bigint, to: bigint] | null;

    /** Returns the proof of the chunks from `first` up to, but not including, `end`. It opens under the file hash of all chunks,
     * whatever the salt, and under their root.
     * @throws InvalidArguments the range has no chunk, or one that isn't in the list */
    proof(first: U64, end: U64): RangeProof;

    /**
     * Returns where this file and another one differ, or null if they have the same chunks. The chunks before are as many as the two
     * have in common at the front, and those after as many of the rest as they have in common at the end. The time is in proportion to
     * their number. So whoever has the other file needs only the bytes of this one from `start` up to, but not including, `stop`.
     *
     * @example
     * ```js
     * const [a, b, c, d] = [1, 2, 3, 4].map((seed) => [y.Hash.randomFromSeed(seed), 100]);
     * const [older, newer] = [[a, b, c], [a, d, d, c]].map((chunks) => y.HashTree.fromChunks(chunks));
     * const { first, end, otherEnd, start, stop, otherStop } = newer.diff(older);
     * console.log(first, end, otherEnd, start, stop, otherStop); // 1 3 2 100n 300n 200n
     * console.log(newer.diff(newer)); // null
     * ```
     */
    diff(other: HashTree): Difference | null;

    /** Throws a `TypeError`: use `root` or `fileHash`. */
    toString(): never;
}

/** Where two files differ: the chunks from `first` up to, but not including, `end` of the one stand where the other has its chunks from
 * `first` up to, but not including, `otherEnd`. All chunks before and after are the same in both, and some between may be, too. `start`,
 * `stop` and `otherStop` are these places in bytes. Chunks and bytes count from 0. */
export interface Difference {
    readonly first: number;
    readonly end: number;
    readonly otherEnd: number;
    readonly start: bigint;
    readonly stop: bigint;
    readonly otherStop: bigint;
}

export interface HashTreeConstructor {
    readonly prototype: HashTree;

    /** Makes the tree over some chunks.
     * @throws SizeOverflow the sizes add up to more than 2^64 - 1 */
    fromChunks(chunks: ChunkList): HashTree;
}

/**
 * The nodes of some adjacent chunks of a file, and the other nodes of each group on the way up to the root. Whoever knows the file hash
 * opens the proof, and then checks the data of these chunks without the other chunks.
 *
 * A proof may come from anybody: making one of bytes, JSON or lists checks its form alone. A node alone shows nothing, since the
 * parents of a level pass as chunks of their own list. Only data that an `OpenedRange` accepted is part of the file.
 *
 * A proof can't be changed, and holds no memory of the module, so there is nothing to free.
 *
 * @example
 * ```js
 * const chunks = Array.from({ length: 30 }, (_, seed) => [y.Hash.randomFromSeed(seed), 50]);
 * const proof = y.RangeProof.fromChunks(chunks, 7, 9);
 * const sent = y.RangeProof.fromJSON(JSON.stringify(proof));
 * console.log(sent.equals(proof), sent.chunks.length, new y.RangeProof(proof.bytes).equals(proof)); // true 2 true
 * try {
 *     sent.open(y.Hash.randomFromSeed(1)); // the hash of another file
 * } catch (error) {
 *     console.log(error.name); // ProofMismatch
 * }
 * ```
 */
export interface RangeProof {
    /** The nodes of the range's chunks. There is at least one. */
    readonly chunks: Chunks;

    /** The number of levels on which nodes may stand beside those of the range. */
    readonly numLevels: number;

    /** A copy of the packed form: a byte with the number of levels; for each level, from the chunks up, two bytes with the numbers of
     * its left and right nodes; and the nodes in the order of `FlatProof`, packed as in `Chunks`. Rust and Python have this form, too. */
    readonly bytes: Uint8Array;

    /** Returns the nodes before those of the range on a level, at most 8. Levels count from 0, from the chunks up. There are none if
     * there is no such level. */
    left(level: U64): Chunks;

    /** Returns the nodes after those of the range on a level, in the same way. */
    right(level: U64): Chunks;

    /**
     * Opens the proof with a file hash, without a salt or under one of 32 bytes. That succeeds if its nodes have a common root, and this
     * root gives the file hash. The default hash is never shown, since it is the file hash of the empty file.
     * @throws ProofMismatch the proof doesn't show this hash: it is that of another file, was altered, or the salt is another
     * @throws InvalidArguments the salt has another length
     */
    open(fileHash: Hash, salt?: Uint8Array): OpenedRange;

    /** Opens the proof with the root of a list of chunks, such as the hash of a xorb.
     * @throws ProofMismatch the proof doesn't show this hash, or it is the default hash */
    openRoot(root: Hash): OpenedRange;

    /** Returns whether both have the same chunks, and the same nodes on the sides of each level. */
    equals(other: RangeProof): boolean;

    /** Returns the proof as compact JSON text. */
    jsonText(): string;

    /** Returns what `JSON.stringify` writes as this text, as for a `Subtree`. */
    toJSON(): object;

    toFlat(): FlatProof;

    /** Throws a `TypeError`: use `bytes` or `jsonText`. */
    toString(): never;
}

export interface RangeProofConstructor {
    /** Makes a proof from its packed form, which is copied.
     * @throws InvalidProof it breaks a rule: 1 if it has no number of levels, 3 if it has fewer levels than that, 4 if no whole nodes
     * follow, or one from 5 to 8 */
    new (bytes: Uint8Array): RangeProof;
    readonly prototype: RangeProof;

    /** Returns the proof of the chunks of a list from `first` up to, but not including, `end`. To make several proofs of one list, keep
     * its `HashTree`.
     * @throws InvalidArguments the range has no chunk, or one that isn't in the list
     * @throws SizeOverflow otherwise, the sizes add up to more than 2^64 - 1 */
    fromChunks(chunks: ChunkList, first: U64, end: U64): RangeProof;

    /** Reads a proof from JSON text, or from its UTF-8 bytes. Time and memory are in proportion to the text, which may be a stranger's.
     * So a text of more than `limit` bytes isn't read. The default is 16 MiB, for ranges of about 180,000 chunks.
     * @throws ProofTooLong the text has more bytes than `limit`
     * @throws InvalidText otherwise, it isn't JSON
     * @throws InvalidProof the value breaks a rule */
    fromJSON(text: string | Uint8Array, options?: { readonly limit?: U64 }): RangeProof;

    /** Makes a proof from flat lists.
     * @throws InvalidProof they break a rule from 5 to 8 */
    fromFlat(flat: FlatProofInput): RangeProof;
}

/** A range proof as flat lists. `levels` has the numbers of left and right nodes of each level, from the chunks up. `nodes` has the left
 * nodes of all levels, lowest level first, then the chunks of the range, then the right nodes of all levels, highest level first. */
export interface FlatProof {
    readonly levels: [left: number, right: number][];
    readonly nodes: Chunks;
}

export interface FlatProofInput {
    readonly levels: Iterable<readonly [left: U64, right: U64]>;
    readonly nodes: ChunkList;
}

/**
 * A range of a file's chunks, and where in the file it is, as a range proof shows it. It checks the chunks' data as they arrive, in any
 * order. The chunks of the range count from 0.
 *
 * If `check`, `read` or `checking` accepts data, each file with the hash that the proof was opened with has this data at this place, and
 * has `fileSize` bytes. Otherwise two messages with one BLAKE3 hash were found. A file is here a list of chunks. Until data was
 * accepted, the places and `fileSize` are the proof's own word. They tell a reader where to cut, and no more.
 *
 * @example
 * ```js
 * const data = ["a chunk", "another", "and a third"].map((text) => new TextEncoder().encode(text));
 * const tree = y.HashTree.fromChunks(data.map((chunk) => [y.dataHash(chunk), chunk.length]));
 * const range = tree.proof(1, 2).open(tree.fileHash());
 * console.log(new TextDecoder().decode(range.readOrThrow(8, 10, data[1]))); // no
 * console.log(range.checkOrThrow(0, data[1]), range.check(0, data[2])); // 7n null
 * ```
 */
export interface OpenedRange extends Freed {
    /** The proof that was opened. */
    readonly proof: RangeProof;

    /** The size of the file in bytes. */
    readonly fileSize: bigint;

    /** The number of chunks of the range. There is at least one. */
    readonly numChunks: number;

    /** Returns where in the file a chunk of the range begins, or null if there is no such chunk. */
    begins(chunk: U64): bigint | null;

    /** Returns where in the file a chunk of the range ends, or null if there is no such chunk. */
    ends(chunk: U64): bigint | null;

    /** Checks the data of a chunk. Returns where in the file it begins, if the data's hash and length are those of the chunk's node.
     * Returns null if not, or if there is no such chunk. Whoever forgets to look at the result accepts any data, so prefer
     * `checkOrThrow`. */
    check(chunk: U64, data: Data): bigint | null;

    /** Checks the data of a chunk. Returns where in the file it begins.
     * @throws ProofMismatch the data's hash or length isn't that of the chunk's node
     * @throws InvalidArguments there is no such chunk */
    checkOrThrow(chunk: U64, data: Data): bigint;

    /** Checks the data of all chunks of the range, one after another and nothing else, and returns a copy of the bytes of the file from
     * `from` up to, but not including, `to`. Returns null unless each chunk checks and the range holds these places. */
    read(from: U64, to: U64, data: Data): Uint8Array | null;

    /** Does the same, and never returns null.
     * @throws ProofMismatch a chunk doesn't check, the data has another length, or the range doesn't hold these places; the message says
     * which */
    readOrThrow(from: U64, to: U64, data: Data): Uint8Array;

    /**
     * Returns a stream that takes the data of the range in any pieces, such as the body of a response, and passes on each chunk once it
     * has checked. So whatever comes out of it is part of the file, from `begins(0)` on. It fails with `ProofMismatch` at the first chunk
     * that isn't the file's, or that is longer than `chunkLimit`, and if the data ends too early or doesn't end with the range. A piece
     * that isn't a `Uint8Array` is a `TypeError`. The stream copies what it keeps, so the source may use its memory again.
     *
     * The stream doesn't know which bytes were asked for, and a server may send another part of the file. So compare `begins` of the
     * first chunk and `ends` of the last one with the places that you asked for. Don't free the range before the stream has ended.
     *
     * @example
     * ```js
     * const text = new TextEncoder();
     * const chunks = ["a chunk", "another"].map((it) => [y.dataHash(text.encode(it)), it.length]);
     * const range = y.RangeProof.fromChunks(chunks, 1, 2).open(y.fileHash(chunks));
     * const checked = new Blob(["another"]).stream().pipeThrough(range.checking());
     * console.log(await new Response(checked).text(), range.begins(0), range.ends(0)); // another 7n 14n
     * range.free();
     * ```
     */
    checking(options?: CheckingOptions): TransformStream<Uint8Array, Uint8Array>;

    /** Throws a `TypeError`: use `read` or `proof`. */
    toString(): never;
}

export interface CheckingOptions {
    /** How many bytes a chunk may have; by default 1 MiB, and Xet's have at most 128 KiB. The stream keeps the data of one chunk until it
     * has checked it, and how long a chunk is is the proof's own word. So a server can't make a reader keep whatever it sends. */
    readonly chunkLimit?: U64;
}

export interface OpenedRangeConstructor {
    readonly prototype: OpenedRange;
}

/**
 * A part of a file that is somewhere else, or the whole file. It has a `Blob`'s members, but isn't one. What is read is
 * fetched then, and checked against the file hash before it is handed on. Neither the data nor the proofs have to come from somebody
 * trusted: each file with this hash has these bytes at this place, or two messages with one BLAKE3 hash were found.
 *
 * A call that reads rejects with `ProofMismatch` if other data or another proof comes, or more of it than was asked for; with the error
 * of the request if that fails; and with `InvalidText` or `InvalidProof` if what comes is no proof. It hands on nothing then, and the
 * next call asks again. A stream has handed on the pieces before, which were checked.
 *
 * Code that calls a `Blob`'s members takes it. What the browser itself implements doesn't: `new Response(file)`, `new Blob([file])` and
 * `URL.createObjectURL(file)` throw a `TypeError`. Take `new Response(file.stream())`, or `new Blob([await file.arrayBuffer()])`, which also
 * gets a URL. What it keeps is in the module's memory, and goes some time after nobody can reach the file or a part of it. So there is
 * nothing to free.
 *
 * @example
 * ```js
 * const data = ["a chunk", "another", "and a third"].map((text) => new TextEncoder().encode(text));
 * const tree = y.HashTree.fromChunks(data.map((chunk) => [y.dataHash(chunk), chunk.length]));
 * const whole = new Blob(data);
 * // Somebody else keeps the data and the tree. A reader knows the file hash alone.
 * const fetchBytes = (start, end) => whole.slice(start, end).arrayBuffer();
 * const prove = (start, end) => tree.proof(...tree.chunksAt(start, end));
 * const file = await y.VerifiedBlob.open(tree.fileHash(), fetchBytes, prove);
 * console.log(file.size, await file.slice(8, 10).text()); // 25 no
 * ```
 */
export interface VerifiedBlob {
    /** The hash that everything is checked against. */
    readonly fileHash: Hash;

    /** Where in the file this part begins. */
    readonly start: number;

    /** The number of bytes of this part. */
    readonly size: number;

    /** The media type, in lower case, or no text. */
    readonly type: string;

    /** Returns a part of this one, and fetches nothing. Places are as in `slice` of a `Blob`: those below 0 count from the end. */
    slice(start?: number, end?: number, type?: string): VerifiedBlob;

    /** Returns a stream of the bytes, for readers with and without buffers of their own. At most 4 MiB are fetched at once, and one such
     * piece ahead of the reader. To cancel the stream aborts its requests, with the same reason, and makes no others. */
    stream(): ReadableStream<Uint8Array>;

    /** Returns the bytes. */
    bytes(): Promise<Uint8Array>;

    /** Returns the bytes as an `ArrayBuffer`. */
    arrayBuffer(): Promise<ArrayBuffer>;

    /** Returns the bytes as UTF-8 text. */
    text(): Promise<string>;

    /** Throws a `TypeError`: use `stream`, or await `arrayBuffer`. */
    toString(): never;
}

/** What a fetch or a proof may come as. The body of a response is read only as far as it may go. */
export type Received<T> = T | Response | PromiseLike<T | Response>;

/** What fetches the bytes of a file from `start` up to, but not including, `end`. The signal says when nobody waits any more. */
export type FetchBytes = (start: number, end: number, signal: AbortSignal) => Received<Data>;

/** What returns the proof of the chunks with the bytes from `start` up to, but not including, `end`; or a response with its JSON text. */
export type Prove = (start: number, end: number, signal: AbortSignal) => Received<RangeProof>;

export interface VerifiedBlobOptions {
    /** The salt of the file hash, of 32 bytes; by default there is none. */
    readonly salt?: Uint8Array;

    /** The media type; by default there is none. */
    readonly type?: string;

    /** How many bytes are kept of what was used last, so that a reader of small parts fetches each chunk once; by default 4 MiB. Each
     * chunk counts 128 bytes more. */
    readonly cacheSize?: U64;

    /** How many bytes a proof's chunks may go beyond those that are asked for, on each side; by default 1 MiB. So a server can't make a
     * reader fetch a whole file for one byte. */
    readonly chunkLimit?: U64;

    /** With this, each request is for one of the pieces of so many bytes that follow one another from the file's start, the last of which
     * may end after the file. So `prove` may answer with proofs that were made of each piece and kept, as files on a server. */
    readonly piece?: U64;
}

export interface VerifiedBlobConstructor {
    readonly prototype: VerifiedBlob;

    /**
     * Opens a file with this hash. The first chunk is fetched and checked, which shows the size of the file.
     *
     * `source` is the address of the data, which is asked for ranges of bytes, or a function. A function can add headers and a time limit
     * to its requests, and return their responses: `(start, end) => fetch(address, { headers, signal: AbortSignal.timeout(9999) })`.
     *
     * Rejects with `InvalidArguments` if the salt has another length, with a `RangeError` if the file has more than 2^53 - 1 bytes, and as
     * calls that read do.
     */
    open(fileHash: Hash, source: string | URL | FetchBytes, prove: Prove, options?: VerifiedBlobOptions): Promise<VerifiedBlob>;
}

/** The base class of all errors of this package, except those for a wrong type or a number out of range. */
export class YurewhaError extends Error {}

/** The arguments don't fit together, or the requested thing doesn't exist. */
export class InvalidArguments extends YurewhaError {}

/** Sizes or lengths add up to more than 2^64 - 1. */
export class SizeOverflow extends YurewhaError {}

/** The memory can't grow. Nothing has changed. */
export class OutOfMemory extends YurewhaError {}

/** A text doesn't have the expected form. */
export class InvalidText extends YurewhaError {}

/** The base class of `InvalidJson`, `InvalidLists` and `InvalidProof`. */
export class BrokenRule extends YurewhaError {
    /** The lowest rule that is broken: from 1 to 13 for a subtree, from 1 to 8 for a range proof. */
    readonly rule: number;

    constructor(rule: number, message?: string);
}

/** A JSON value describes no subtree. */
export class InvalidJson extends BrokenRule {}

/** Flat lists describe no subtree. */
export class InvalidLists extends BrokenRule {}

/** A JSON value, flat lists or bytes describe no range proof. */
export class InvalidProof extends BrokenRule {}

/** A range proof doesn't show a hash, or data isn't that of the range. */
export class ProofMismatch extends YurewhaError {}

/** A range proof has more bytes than are allowed. It wasn't read. */
export class ProofTooLong extends ProofMismatch {}

/** The object was freed. */
export class EmptyHandle extends YurewhaError {}

/** The module trapped, in this call or an earlier one. Its instance is never called again; `load()` another. No input is known to
 * cause this, but a call with hardly any stack left may. */
export class Trapped extends YurewhaError {}

/** The base class of a session's errors, except `OutOfMemory`. */
export class SessionError extends YurewhaError {}

/** A position is taken. */
export class SessionOverlap extends SessionError {}

/** The first position plus the number of chunks is more than 2^64 - 1. */
export class SessionPositions extends SessionError {}

/** The sizes of all chunks add up to more than 2^64 - 1. */
export class SessionSizes extends SessionError {}

/** The taken positions aren't exactly those below the total. The message names the first positions without a chunk, or else the first
 * one from the total on that is taken. */
export class SessionGap extends SessionError {}
