/* Made of crates/yurewha_c/src and bindings/interface/yurewha.h.in by bindings/check_exports --write. */
/*
 * Yurewha computes the hashes by which the Hugging Face Xet store names chunks and files. It also merges the subtrees of
 * adjacent ranges of chunks without the chunks, and makes and opens range proofs, by which whoever knows the hash of a file
 * checks a part of it. The header is for C11 and C++17.
 *
 * Each call but yurewha_processor_level and yurewha_set_allocator is proved to satisfy the contract of its export in
 * crates/yurewha_c. The comments state these contracts in words.
 *
 * Rules for all calls
 *
 * - Most calls return a status. It is YUREWHA_DONE (0) if and only if the call succeeded. After any other status nothing
 *   has changed: no handle, no hasher and no out parameter. There are three exceptions: with YUREWHA_ROOM, the call writes the
 *   needed length or counts; with YUREWHA_ELSEWHERE and YUREWHA_TOO_FAR, it writes where a range is; and yurewha_part_check keeps
 *   what was right. A call that returns no status can't fail.
 * - No pointer may be null. Each must point to a correctly aligned object of its type. An array is passed with its length
 *   in elements, and must have at least that many. An array of length 0 may be null.
 * - No object that a call writes to may overlap another argument of the call. In particular, the two handles of a call
 *   must be two objects; only yurewha_subtree_equal, yurewha_hash_tree_common_prefix and yurewha_hash_tree_common_suffix may
 *   get one handle twice. No call reads the old value of an out parameter, unless it is a handle.
 * - Data is a `const void *` with a length in bytes, so that an array of any type is passed as it is.
 * - A text is an array of bytes with a length. It needs no 0 byte at its end, and the library writes none. A call writes a text to
 *   the beginning of `text`, which has room for `room` bytes.
 * - For callers in other languages: a `bool` is one byte, which is 0 or 1, and a `size_t` has 8 bytes.
 *
 * Handles
 *
 * - yurewha_subtree, yurewha_session, yurewha_hash_tree, yurewha_opened_range, yurewha_part, yurewha_reader, yurewha_hash_index
 *   and yurewha_file_hasher are handles. An empty handle is {0} and owns nothing. Any other handle was written by a call of this
 *   library and owns memory.
 * - A handle that a call writes to must be empty or own something. It must not be uninitialized. If the call succeeds, it
 *   frees what the handle owned before. If it fails, the handle keeps what it owned.
 * - A call leaves a handle as it was, unless its comment says otherwise.
 * - The call of a handle's type whose name ends with _free frees a handle and leaves it empty. Freeing an empty handle does
 *   nothing, so freeing twice is harmless. Any other call that reads an empty handle returns YUREWHA_EMPTY_HANDLE.
 * - A handle may be moved by copying its bytes. After that, only one of the copies may be used, except as the last of
 *   these rules says.
 * - A handle may go to another thread. No two threads may use the same handle at once, not even in two calls that only read
 *   it: while a call reads a handle, it writes to the handle, and a second call may crash. So handles are never const. Use a
 *   lock, or give each thread a handle of its own, as yurewha_subtree_clone does. Different handles are independent.
 * - Threads may share the lists that yurewha_subtree_to_flat wrote, since calls take these arrays as const. Each thread can
 *   make a handle of its own from them, by yurewha_subtree_from_flat.
 * - Threads may read one object at once if each call gets a copy of the handle of its own, as by `yurewha_hash_tree copy = *tree;`,
 *   for which the handle may be const. A call that leaves a handle unchanged writes to that copy, and not to what it owns. This is
 *   tested and not proved, since each contract is for one thread. Meanwhile nobody may change or free the object by any copy.
 *   Afterwards one copy is freed.
 *
 * Memory
 *
 * - The library allocates by malloc and realloc, and frees by free, or by the functions that yurewha_set_allocator got. These
 *   must belong together. They must align a block to each power of two up to 16 that divides its size. No exception of C++ and no
 *   longjmp may leave them, because what the call was doing would be lost.
 * - For any call 64 KiB of stack are enough, and most take less (docs/LIMITS.md). With too little, a signal ends the process.
 * - No call may be made from a signal handler. None may be made in the forked child of a process with several threads.
 */
#ifndef YUREWHA_H
#define YUREWHA_H

#include <stdbool.h>
#include <stddef.h>
#include <stdint.h>

#if SIZE_MAX != UINT64_MAX
#error "Yurewha is for machines whose pointers have 8 bytes."
#endif

/* Attributes, if the compiler has them: the result must be used, and the arguments with these numbers may not be null. What the
 * argument with the first number of YUREWHA_INITIALIZED points to must be initialized; a second number is that of its count. The last
 * one says which version of the library first had a call. It means nothing to a compiler, and is for readers and for tools. */
#if (defined(__cplusplus) && __cplusplus >= 201703L) || (defined(__STDC_VERSION__) && __STDC_VERSION__ >= 202311L)
#define YUREWHA_NODISCARD [[nodiscard]]
#elif defined(__GNUC__)
#define YUREWHA_NODISCARD __attribute__((warn_unused_result))
#else
#define YUREWHA_NODISCARD
#endif
#ifdef __GNUC__
#define YUREWHA_NONNULL(...) __attribute__((nonnull(__VA_ARGS__)))
#else
#define YUREWHA_NONNULL(...)
#endif
#ifdef __has_attribute
#if __has_attribute(access)
#define YUREWHA_INITIALIZED(...) __attribute__((access(read_write, __VA_ARGS__)))
#endif
#endif
#ifndef YUREWHA_INITIALIZED
#define YUREWHA_INITIALIZED(...)
#endif
#ifndef YUREWHA_SINCE
#define YUREWHA_SINCE(version)
#endif
/* In C++, a function that may throw isn't taken for one that the library calls. */
#if defined(__cplusplus) && __cplusplus >= 201703L
#define YUREWHA_NOEXCEPT noexcept
#else
#define YUREWHA_NOEXCEPT
#endif

#ifdef __cplusplus
extern "C" {
#endif

/* ---- Version */

/* The version of this header, and of the library that it was packaged with. What CHANGELOG calls not released has its number, too, and
 * may still change. A program may use a later version of the library if the first number is the same. YUREWHA_SINCE says which
 * version of the library first had a call. */
#define YUREWHA_VERSION "1.1.0"
#define YUREWHA_VERSION_MAJOR 1
#define YUREWHA_VERSION_MINOR 1
#define YUREWHA_VERSION_PATCH 0

/* ---- Statuses */

typedef uint32_t yurewha_status;

/* A name before a colon or in brackets is that of the error in Python, JavaScript and Rust. In Rust, SessionGap is
 * SessionFault::Gap. */
#define YUREWHA_DONE 0u         /* the call succeeded */
#define YUREWHA_ARGUMENTS 1u    /* InvalidArguments: the arguments don't fit together, or the requested thing doesn't exist */
#define YUREWHA_SIZES 2u        /* SizeOverflow: sizes or lengths add up to more than 2^64 - 1 */
#define YUREWHA_MEMORY 3u       /* OutOfMemory: an allocation failed */
#define YUREWHA_TEXT 4u         /* InvalidText: a text doesn't have the expected form */
#define YUREWHA_ROOM 5u         /* the room is too small; the needed length is written */
#define YUREWHA_EMPTY_HANDLE 6u /* EmptyHandle: a handle that the call reads is empty */
#define YUREWHA_MISMATCH 7u     /* ProofMismatch: a range proof doesn't show the hash, or the data isn't that of the range */

/* Calls of a part of a file return these, too. */
#define YUREWHA_ELSEWHERE 38u /* ProofMismatch: the range of a proof doesn't hold the bytes that are asked for */
#define YUREWHA_TOO_FAR 39u   /* ProofMismatch: it has more bytes beside them than are allowed */

/* YUREWHA_RULE + rule: a JSON value (InvalidJson) or flat lists (InvalidLists) describe no subtree. They break this rule, from 1
 * to 13, and no rule with a lower number. The rules are listed at yurewha_subtree_from_json. */
#define YUREWHA_RULE 16u

/* YUREWHA_PROOF_RULE + rule: a JSON value, bytes or flat lists are no range proof (InvalidProof). They break this rule, which is
 * one of 8, and no rule with a lower number. The rules are listed at yurewha_range_proof_from_json and yurewha_range_proof_from_bytes. */
#define YUREWHA_PROOF_RULE 48u

/* YUREWHA_SESSION_RULE + rule: the JSON value of a session breaks this rule, which is one of 7, and no rule with a lower number.
 * The rules are listed at yurewha_session_from_json. For rule 5 the status is YUREWHA_RULE + rule. */
#define YUREWHA_SESSION_RULE 64u

/* Calls of a session return these, too. */
#define YUREWHA_SESSION_OVERLAP 33u   /* SessionOverlap: a position is taken */
#define YUREWHA_SESSION_POSITIONS 34u /* SessionPositions: the first position plus the number of chunks passes 2^64 - 1 */
#define YUREWHA_SESSION_GAP 37u       /* SessionGap: the taken positions aren't exactly those below the total */

/* ---- Values */

/* A hash: four words. Its 32 bytes are the words in order, each little-endian. The default hash is all zeros. */
typedef struct yurewha_hash {
    uint64_t words[4];
} yurewha_hash;

/* A key, a salt, or the bytes of a hash. */
typedef struct yurewha_bytes {
    uint8_t bytes[32];
} yurewha_bytes;

/* A chunk, or any other node of the tree: its hash, and its size in bytes. The struct has 40 bytes. */
typedef struct yurewha_chunk {
    yurewha_hash hash;
    uint64_t size;
} yurewha_chunk;

/* How many nodes a subtree or a range proof has on a level, on the left side and on the right side. */
typedef struct yurewha_level {
    size_t left;
    size_t right;
} yurewha_level;

/* A streaming hasher of 2048 bytes, in the caller's own memory. Begin it before any other call. It holds no pointers and
 * allocates nothing. A copy of its bytes is a copy of the hasher, and there is nothing to free. The member is private to the
 * library. It uses the first 1864 bytes, and the other 184 are room for later versions. */
typedef struct yurewha_hasher {
    uint64_t state[256];
} yurewha_hasher;

/* A chunker, in the caller's own memory. Begin it before any other call. It holds no pointers, and a copy of its bytes is a copy of the
 * chunker. The members are private to the library. */
typedef struct yurewha_chunker {
    size_t size;
    uint64_t gear;
} yurewha_chunker;

/* Handles. The rules for them are at the top. The member is private to the library. */
typedef struct yurewha_subtree {
    uint8_t *at;
} yurewha_subtree;

typedef struct yurewha_session {
    uint8_t *at;
} yurewha_session;

typedef struct yurewha_hash_tree {
    uint8_t *at;
} yurewha_hash_tree;

typedef struct yurewha_opened_range {
    uint8_t *at;
} yurewha_opened_range;

typedef struct yurewha_part {
    uint8_t *at;
} yurewha_part;

typedef struct yurewha_reader {
    uint8_t *at;
} yurewha_reader;

typedef struct yurewha_hash_index {
    uint8_t *at;
} yurewha_hash_index;

typedef struct yurewha_file_hasher {
    uint8_t *at;
} yurewha_file_hasher;

/* The lengths of a hash as hex text and as base64 text, and the greatest length of a status's text. */
#define YUREWHA_HEX_LENGTH 64u
#define YUREWHA_BASE64_LENGTH 43u
#define YUREWHA_STATUS_TEXT_LENGTH 96u

/* ---- The library's version, and the texts of statuses */

/* Writes the version of the library to `text`, and its length to `length`. The version is three numbers with points
 * between them. The version of the header is YUREWHA_VERSION. It allocates nothing.
 *   DONE  it is written
 *   ROOM  the version doesn't fit, and `length` is the needed length */
YUREWHA_NODISCARD YUREWHA_NONNULL(3) YUREWHA_SINCE(1.1)
yurewha_status yurewha_version(char *text, size_t room, size_t *length);

/* Writes what a status means to `text`, in English, and the length of this text to `length`. For a number that is no
 * status the text is "unknown status". No text is longer than YUREWHA_STATUS_TEXT_LENGTH, which is 96. It allocates
 * nothing.
 *   DONE  it is written
 *   ROOM  the text doesn't fit, and `length` is the needed length */
YUREWHA_NODISCARD YUREWHA_NONNULL(4) YUREWHA_SINCE(1.1)
yurewha_status yurewha_status_text(yurewha_status status, char *text, size_t room, size_t *length);

/* Returns the level of processors that the library runs for: "x86-64", "x86-64-v2", "x86-64-v3", "x86-64-v4" or "aarch64". The text
 * ends with a 0 byte, and lasts as long as the program.
 *
 * On x86-64, the library holds code for each of four levels, and chooses the highest that the processor and the system have. The
 * choice is made once, when the library is loaded, or by this call if that is earlier; calls before that run the code for x86-64.
 * The environment variable YUREWHA_LEVEL may name a lower level, for tests, or to do without AVX-512: the code for x86-64-v4 is made
 * of the proved code after the proof (TRUST says how, and what checks it). If this processor has no level of that name, the library
 * says so on standard error, and chooses as it does without the variable. All levels give the same results. */
YUREWHA_NODISCARD YUREWHA_SINCE(1.1)
const char *yurewha_processor_level(void);

/* ---- Memory of the caller's own */

/* What malloc, realloc and free do: the second also keeps the content of a block, and the block itself if it returns a null pointer.
 * No size is 0, and no block that is handed over is a null pointer. Any thread that calls the library calls them. They may not call
 * the library. They return a null pointer where there is no memory, and throw nothing. */
typedef void *(*yurewha_allocate)(size_t size) YUREWHA_NOEXCEPT;
typedef void *(*yurewha_reallocate)(void *block, size_t size) YUREWHA_NOEXCEPT;
typedef void (*yurewha_release)(void *block) YUREWHA_NOEXCEPT;

/* Makes the library allocate by these functions, for all of the program. A program calls it before any other call of the library,
 * and while no other thread calls the library.
 *   DONE       the library allocates by them from now on
 *   ARGUMENTS  a pointer is null, or the library has allocated before; it goes on as it did */
YUREWHA_NODISCARD YUREWHA_SINCE(1.1)
yurewha_status yurewha_set_allocator(yurewha_allocate allocate, yurewha_reallocate reallocate, yurewha_release release);

/* ---- Hashes */

/* Writes the hash of a chunk. `bytes` is its data. The hash is keyed BLAKE3 under the data key. It allocates nothing. */
YUREWHA_NONNULL(3) YUREWHA_SINCE(1.1)
void yurewha_data_hash(const void *bytes, size_t length, yurewha_hash *hash);

/* Writes the hash of an inner node of the tree. `bytes` is its text. The hash is keyed BLAKE3 under the internal key. It
 * allocates nothing. */
YUREWHA_NONNULL(3) YUREWHA_SINCE(1.1)
void yurewha_internal_node_hash(const void *bytes, size_t length, yurewha_hash *hash);

/* Writes the keyed BLAKE3 hash of the bytes of `hash`, under the bytes of `key`. It allocates nothing. */
YUREWHA_NONNULL(1, 2, 3) YUREWHA_SINCE(1.1)
void yurewha_hmac(const yurewha_hash *hash, const yurewha_hash *key, yurewha_hash *result);

/* Writes a pseudorandom hash, for tests. Its bytes are the first 32 of Xoshiro256++, seeded by SplitMix64 from `seed`. */
YUREWHA_NONNULL(2) YUREWHA_SINCE(1.1)
void yurewha_random_from_seed(uint64_t seed, yurewha_hash *hash);

/* Writes the 32 bytes of a hash: its words in order, each little-endian on every machine. */
YUREWHA_NONNULL(1, 2) YUREWHA_SINCE(1.1)
void yurewha_hash_to_bytes(const yurewha_hash *hash, yurewha_bytes *bytes);

/* Writes the hash that has these 32 bytes. */
YUREWHA_NONNULL(1, 2) YUREWHA_SINCE(1.1)
void yurewha_hash_from_bytes(const yurewha_bytes *bytes, yurewha_hash *hash);

/* Compares the words of two hashes in order. This is also the order of their hex texts. Returns -1, 0 or 1 if the first
 * hash is less, equal or greater. */
YUREWHA_NODISCARD YUREWHA_NONNULL(1, 2) YUREWHA_SINCE(1.1)
int32_t yurewha_compare(const yurewha_hash *first, const yurewha_hash *second);

/* Writes word 3 of a hash modulo `divisor`.
 *   DONE       the divisor isn't 0
 *   ARGUMENTS  the divisor is 0 */
YUREWHA_NODISCARD YUREWHA_NONNULL(1, 3) YUREWHA_SINCE(1.1)
yurewha_status yurewha_remainder(const yurewha_hash *hash, uint64_t divisor, uint64_t *remainder);

/* Writes the hashes of chunks whose data is in one buffer. The data of chunk i starts at `offsets[i]` and ends before
 * `offsets[i + 1]`, so there is one more offset than there are chunks. It allocates nothing.
 *   DONE       the hashes are written
 *   ARGUMENTS  if and only if there isn't exactly one more offset than hashes, an offset is less than the one before it,
 *              or an offset is greater than the length of the buffer */
YUREWHA_NODISCARD YUREWHA_SINCE(1.1)
yurewha_status yurewha_data_hashes(const void *bytes, size_t length, const size_t *offsets, size_t offset_count,
                                   yurewha_hash *hashes, size_t count);

/* Writes the hex text of a hash to `text`. The text is 64 lower-case digits: 16 for each word in order, its highest digit
 * first. So it isn't the hex of the 32 bytes of the hash, in which each word is little-endian. `length` always becomes 64.
 *   DONE  there is room for at least 64 bytes
 *   ROOM  there is room for fewer than 64 bytes */
YUREWHA_NODISCARD YUREWHA_NONNULL(1, 4) YUREWHA_SINCE(1.1)
yurewha_status yurewha_hex(const yurewha_hash *hash, char *text, size_t room, size_t *length);

/* Writes the hash that has this hex text. It allocates nothing.
 *   DONE  the text is 64 hex digits, lower or upper case
 *   TEXT  the text is anything else */
YUREWHA_NODISCARD YUREWHA_NONNULL(3) YUREWHA_SINCE(1.1)
yurewha_status yurewha_from_hex(const char *text, size_t length, yurewha_hash *hash);

/* Writes the base64 text of a hash to `text`. The text is 43 characters of the URL-safe alphabet, without padding.
 * `length` always becomes 43. It allocates nothing.
 *   DONE  there is room for at least 43 bytes
 *   ROOM  there is room for fewer than 43 bytes */
YUREWHA_NODISCARD YUREWHA_NONNULL(1, 4) YUREWHA_SINCE(1.1)
yurewha_status yurewha_base64(const yurewha_hash *hash, char *text, size_t room, size_t *length);

/* Writes the hash that has this base64 text.
 *   DONE    the text is one that yurewha_base64 writes
 *   TEXT    it is any other text
 *   MEMORY  an allocation failed */
YUREWHA_NODISCARD YUREWHA_NONNULL(3) YUREWHA_SINCE(1.1)
yurewha_status yurewha_from_base64(const char *text, size_t length, yurewha_hash *hash);

/* ---- The streaming hasher */

/* Begins a hasher of the empty message under the data key. It computes the same as yurewha_data_hash. */
YUREWHA_NONNULL(1) YUREWHA_SINCE(1.1)
void yurewha_hasher_begin_data(yurewha_hasher *hasher);

/* Begins a hasher of the empty message under the internal key. It computes the same as yurewha_internal_node_hash. */
YUREWHA_NONNULL(1) YUREWHA_SINCE(1.1)
void yurewha_hasher_begin_internal(yurewha_hasher *hasher);

/* Begins a hasher of the empty message under any key of 32 bytes. */
YUREWHA_NONNULL(1, 2) YUREWHA_SINCE(1.1)
void yurewha_hasher_begin_keyed(yurewha_hasher *hasher, const yurewha_bytes *key);

/* Returns the length of the message in bytes. */
YUREWHA_NODISCARD YUREWHA_NONNULL(1) YUREWHA_SINCE(1.1)
uint64_t yurewha_hasher_count(const yurewha_hasher *hasher);

/* Appends a piece to the message.
 *   DONE   the message now has at most 2^64 - 1 bytes
 *   SIZES  it would have more */
YUREWHA_NODISCARD YUREWHA_NONNULL(1) YUREWHA_SINCE(1.1)
yurewha_status yurewha_hasher_update(yurewha_hasher *hasher, const void *piece, size_t length);

/* Writes the keyed hash of the message. The hasher is unchanged, so it can take more pieces, and be finalized again. */
YUREWHA_NONNULL(1, 2) YUREWHA_SINCE(1.1)
void yurewha_hasher_finalize(const yurewha_hasher *hasher, yurewha_hash *hash);

/* ---- The chunker: where Xet cuts a file into chunks */

/* Each chunk of a file that comes in pieces:
 *
 *     yurewha_chunker chunker;
 *     yurewha_chunker_begin(&chunker);
 *     // For each piece:
 *     while ((end = yurewha_chunker_next_boundary(&chunker, piece, length)) != 0) {
 *         // The first `end` bytes of the piece are the end of a chunk.
 *         piece += end;
 *         length -= end;
 *     }
 *     // What is left of the piece belongs to the next chunk. After the last piece, yurewha_chunker_taken says how many bytes it has. */

/* Begins a chunker at the beginning of a file, or of any chunk. */
YUREWHA_NONNULL(1) YUREWHA_SINCE(1.1)
void yurewha_chunker_begin(yurewha_chunker *chunker);

/* Takes more of the file. If the chunk ends in the piece, returns after how many bytes of it, and takes no more than
 * these: the next call begins with what follows. Otherwise takes the whole piece, and returns 0. A chunk may end with the
 * piece.
 *
 * A chunk has 8192 to 131072 bytes, but the last of a file may have fewer. The chunks are the same in whatever pieces the
 * file comes. */
YUREWHA_NODISCARD YUREWHA_NONNULL(1) YUREWHA_SINCE(1.1)
uint64_t yurewha_chunker_next_boundary(yurewha_chunker *chunker, const void *piece, size_t length);

/* Returns how many bytes of the chunk were taken so far. If the file ends here, and there are any, they are its last
 * chunk. */
YUREWHA_NODISCARD YUREWHA_NONNULL(1) YUREWHA_SINCE(1.1)
uint64_t yurewha_chunker_taken(const yurewha_chunker *chunker);

/* ---- Hashers of files: the bytes of a file go in, and the hash by which Xet names it comes out */

/* The hash of a file that comes in pieces:
 *
 *     yurewha_file_hasher hasher = {0};
 *     yurewha_status status = yurewha_file_hasher_new(&hasher);
 *     // For each piece, while `status` is YUREWHA_DONE:
 *     status = yurewha_file_hasher_update(&hasher, piece, length);
 *     // At the end:
 *     status = yurewha_file_hasher_finish(&hasher, &hash);
 *     yurewha_file_hasher_free(&hasher); */

/* Makes a hasher of the empty file. The handle owns it.
 *
 * It cuts the bytes into chunks, as yurewha_chunker_next_boundary does, hashes these, and keeps none of the bytes. In
 * pieces of up to 1 MiB, a file of random bytes takes less than 1 MB of memory, whatever its size. One whose chunks are
 * all equal takes up to 160 bytes for each.
 *   DONE    it is made
 *   MEMORY  an allocation failed */
YUREWHA_NODISCARD YUREWHA_NONNULL(1) YUREWHA_INITIALIZED(1) YUREWHA_SINCE(1.1)
yurewha_status yurewha_file_hasher_new(yurewha_file_hasher *hasher);

/* Appends a piece to the file.
 *   DONE          it is appended
 *   EMPTY_HANDLE  if and only if the handle is empty
 *   SIZES         if and only if there is a hasher, and the file would have more than 2^64 - 1 bytes
 *   MEMORY        an allocation failed; nothing of the piece is taken */
YUREWHA_NODISCARD YUREWHA_NONNULL(1) YUREWHA_INITIALIZED(1) YUREWHA_SINCE(1.1)
yurewha_status yurewha_file_hasher_update(yurewha_file_hasher *hasher, const void *piece, size_t length);

/* Writes how many bytes the file has so far. It allocates nothing.
 *   DONE          it is written
 *   EMPTY_HANDLE  the handle is empty */
YUREWHA_NODISCARD YUREWHA_NONNULL(1, 2) YUREWHA_INITIALIZED(1) YUREWHA_SINCE(1.1)
yurewha_status yurewha_file_hasher_size(yurewha_file_hasher *hasher, uint64_t *size);

/* Writes the root of the chunks of the file so far. More pieces can follow.
 *   DONE          the hash is written
 *   EMPTY_HANDLE  if and only if the handle is empty
 *   MEMORY        an allocation failed */
YUREWHA_NODISCARD YUREWHA_NONNULL(1, 2) YUREWHA_INITIALIZED(1) YUREWHA_SINCE(1.1)
yurewha_status yurewha_file_hasher_root(yurewha_file_hasher *hasher, yurewha_hash *root);

/* Writes the file hash, without a salt, of the file so far: the hash by which Xet names a file of these bytes. It is the
 * one under 32 zero bytes. More pieces can follow. The statuses are those of yurewha_file_hasher_root. */
YUREWHA_NODISCARD YUREWHA_NONNULL(1, 2) YUREWHA_INITIALIZED(1) YUREWHA_SINCE(1.1)
yurewha_status yurewha_file_hasher_finish(yurewha_file_hasher *hasher, yurewha_hash *hash);

/* Writes the file hash under a salt of the file so far. The statuses are those of yurewha_file_hasher_root. */
YUREWHA_NODISCARD YUREWHA_NONNULL(1, 2, 3) YUREWHA_INITIALIZED(1) YUREWHA_SINCE(1.1)
yurewha_status yurewha_file_hasher_finish_with_salt(yurewha_file_hasher *hasher, const yurewha_bytes *salt, yurewha_hash *hash);

/* Frees what the handle owns, and leaves it empty. */
YUREWHA_NONNULL(1) YUREWHA_INITIALIZED(1) YUREWHA_SINCE(1.1)
void yurewha_file_hasher_free(yurewha_file_hasher *hasher);

/* ---- Roots */

/* Writes the root of a list of chunks. The root of no chunks is the default hash. The root of one chunk is its own hash.
 * The root of more chunks is the hash at the top of their tree.
 *   DONE    the root is written
 *   SIZES   if and only if the sizes add up to more than 2^64 - 1
 *   MEMORY  an allocation failed; never with one chunk or none */
YUREWHA_NODISCARD YUREWHA_NONNULL(3) YUREWHA_SINCE(1.1)
yurewha_status yurewha_xorb_hash(const yurewha_chunk *chunks, size_t count, yurewha_hash *root);

/* Writes the file hash of a list of chunks without a salt. With no chunks it is the default hash. Otherwise it is the hmac
 * of their root under 32 zero bytes. The statuses are those of yurewha_xorb_hash. */
YUREWHA_NODISCARD YUREWHA_NONNULL(3) YUREWHA_SINCE(1.1)
yurewha_status yurewha_file_hash(const yurewha_chunk *chunks, size_t count, yurewha_hash *hash);

/* Writes the file hash of a list of chunks under a salt. With no chunks it is the default hash, whatever the salt.
 * Otherwise it is the hmac of their root under the bytes of the salt. The statuses are those of yurewha_xorb_hash. */
YUREWHA_NODISCARD YUREWHA_NONNULL(3, 4) YUREWHA_SINCE(1.1)
yurewha_status yurewha_file_hash_with_salt(const yurewha_chunk *chunks, size_t count, const yurewha_bytes *salt,
                                           yurewha_hash *hash);

/* Writes the first stable point of some nodes, as the number of nodes before it. At a stable point a group ends, no matter
 * which nodes come before and after the given ones. It allocates nothing.
 *   DONE       the point is written
 *   ARGUMENTS  there is none */
YUREWHA_NODISCARD YUREWHA_NONNULL(3) YUREWHA_SINCE(1.1)
yurewha_status yurewha_find_stable_start(const yurewha_chunk *nodes, size_t count, size_t *point);

/* Writes the last stable point of some nodes, as the number of nodes before it. It allocates nothing. The statuses are
 * those of yurewha_find_stable_start. */
YUREWHA_NODISCARD YUREWHA_NONNULL(3) YUREWHA_SINCE(1.1)
yurewha_status yurewha_find_stable_end(const yurewha_chunk *nodes, size_t count, size_t *point);

/* ---- Subtrees: what is kept of a range of chunks, to merge it with its neighbours without the chunks */

/* Makes the canonical subtree of some chunks, and writes it to the handle, which owns it. `at_start` marks its start: no
 * chunk comes before these. `at_end` marks its end: no chunk comes after these.
 *   DONE    it is made
 *   SIZES   if and only if the sizes add up to more than 2^64 - 1
 *   MEMORY  an allocation failed */
YUREWHA_NODISCARD YUREWHA_NONNULL(5) YUREWHA_INITIALIZED(5) YUREWHA_SINCE(1.1)
yurewha_status yurewha_subtree_from_chunks(bool at_start, const yurewha_chunk *chunks, size_t count, bool at_end,
                                           yurewha_subtree *subtree);

/* Copies a subtree. The second handle owns the copy. The first is unchanged.
 *   DONE          it is copied
 *   MEMORY        an allocation failed
 *   EMPTY_HANDLE  if and only if the first handle is empty */
YUREWHA_NODISCARD YUREWHA_NONNULL(1, 2) YUREWHA_INITIALIZED(1) YUREWHA_INITIALIZED(2) YUREWHA_SINCE(1.1)
yurewha_status yurewha_subtree_clone(yurewha_subtree *subtree, yurewha_subtree *copy);

/* Writes whether two subtrees have the same marks, levels and nodes. The contract is for two handles, but a caller may
 * pass one handle twice, and finds it equal to itself. It allocates nothing.
 *   DONE          it is written
 *   EMPTY_HANDLE  a handle is empty */
YUREWHA_NODISCARD YUREWHA_NONNULL(1, 2, 3) YUREWHA_INITIALIZED(1) YUREWHA_INITIALIZED(2) YUREWHA_SINCE(1.1)
yurewha_status yurewha_subtree_equal(yurewha_subtree *first, yurewha_subtree *second, bool *equal);

/* Writes the marks: whether no chunk comes before those of the subtree, and whether none comes after them. It allocates
 * nothing.
 *   DONE          they are written
 *   EMPTY_HANDLE  the handle is empty */
YUREWHA_NODISCARD YUREWHA_NONNULL(1, 2, 3) YUREWHA_INITIALIZED(1) YUREWHA_SINCE(1.1)
yurewha_status yurewha_subtree_marks(yurewha_subtree *subtree, bool *at_start, bool *at_end);

/* Writes the total size of the chunks in bytes, which is the sum of the sizes of all nodes. It allocates nothing.
 *   DONE          it is written
 *   EMPTY_HANDLE  the handle is empty */
YUREWHA_NODISCARD YUREWHA_NONNULL(1, 2) YUREWHA_INITIALIZED(1) YUREWHA_SINCE(1.1)
yurewha_status yurewha_subtree_total_size(yurewha_subtree *subtree, uint64_t *size);

/* Writes the number of kept nodes. It allocates nothing.
 *   DONE          it is written
 *   EMPTY_HANDLE  the handle is empty */
YUREWHA_NODISCARD YUREWHA_NONNULL(1, 2) YUREWHA_INITIALIZED(1) YUREWHA_SINCE(1.1)
yurewha_status yurewha_subtree_num_nodes(yurewha_subtree *subtree, size_t *count);

/* Writes the number of levels. There is at least one. It allocates nothing.
 *   DONE          it is written
 *   EMPTY_HANDLE  the handle is empty */
YUREWHA_NODISCARD YUREWHA_NONNULL(1, 2) YUREWHA_INITIALIZED(1) YUREWHA_SINCE(1.1)
yurewha_status yurewha_subtree_num_levels(yurewha_subtree *subtree, size_t *count);

/* Writes the root of the chunks. Both ends of the subtree must be marked. It allocates nothing.
 *   DONE          the root is written
 *   ARGUMENTS     an end isn't marked, so there is no root yet
 *   EMPTY_HANDLE  the handle is empty */
YUREWHA_NODISCARD YUREWHA_NONNULL(1, 2) YUREWHA_INITIALIZED(1) YUREWHA_SINCE(1.1)
yurewha_status yurewha_subtree_final_hash(yurewha_subtree *subtree, yurewha_hash *hash);

/* Merges `other`, the subtree of the range that follows, into `subtree`. `subtree` becomes the canonical subtree of the
 * concatenated chunk lists. It keeps its own start mark and takes the end mark of `other`. `other` is unchanged.
 *   DONE          they are merged
 *   EMPTY_HANDLE  if and only if a handle is empty
 *   ARGUMENTS     if and only if neither handle is empty, and `subtree` is marked at its end or `other` at its start
 *   SIZES         if and only if neither of these applies, and the two sizes add up to more than 2^64 - 1
 *   MEMORY        an allocation failed */
YUREWHA_NODISCARD YUREWHA_NONNULL(1, 2) YUREWHA_INITIALIZED(1) YUREWHA_INITIALIZED(2) YUREWHA_SINCE(1.1)
yurewha_status yurewha_subtree_merge_into(yurewha_subtree *subtree, yurewha_subtree *other);

/* Does the same as yurewha_subtree_merge_into, and writes how many parents were hashed for it, or 2^64 - 1 if there were
 * more. The statuses are those of yurewha_subtree_merge_into. */
YUREWHA_NODISCARD YUREWHA_NONNULL(1, 2, 3) YUREWHA_INITIALIZED(1) YUREWHA_INITIALIZED(2) YUREWHA_SINCE(1.1)
yurewha_status yurewha_subtree_merge_into_counted(yurewha_subtree *subtree, yurewha_subtree *other, uint64_t *parents);

/* Merges the subtrees of adjacent ranges, in order, into one. `merged` owns it. It is the canonical subtree of the
 * concatenated chunk lists, with the start mark of the first range and the end mark of the last one. With no ranges it is
 * the empty subtree with both marks. With one range it is a copy. The ranges are unchanged.
 *   DONE          they are merged
 *   EMPTY_HANDLE  if and only if the handle of a range is empty
 *   ARGUMENTS     if and only if no handle of a range is empty, and a range other than the first is marked at its start,
 *                 or one other than the last at its end
 *   SIZES         if and only if neither of these applies, and the sizes of all ranges add up to more than 2^64 - 1
 *   MEMORY        an allocation failed */
YUREWHA_NODISCARD YUREWHA_NONNULL(3) YUREWHA_INITIALIZED(1, 2) YUREWHA_INITIALIZED(3) YUREWHA_SINCE(1.1)
yurewha_status yurewha_subtree_merge(yurewha_subtree *ranges, size_t count, yurewha_subtree *merged);

/* Writes the compact JSON text of a subtree to `text`, and its length to `length`.
 *   DONE          it is written
 *   ROOM          the text doesn't fit, and `length` is the needed length
 *   MEMORY        an allocation failed
 *   EMPTY_HANDLE  if and only if the handle is empty */
YUREWHA_NODISCARD YUREWHA_NONNULL(1, 4) YUREWHA_INITIALIZED(1) YUREWHA_SINCE(1.1)
yurewha_status yurewha_subtree_to_json(yurewha_subtree *subtree, char *text, size_t room, size_t *length);

/* Reads a subtree from JSON text. The handle owns it. The value is an object with these members: `at_start` and `at_end`,
 * the marks; `levels`, the number of left and right nodes of each level, from the chunks up; and `nodes`, each with its
 * `hash` in hex and its `size`. `nodes` has the left nodes of all levels, lowest level first, then the right nodes of all
 * levels, highest level first.
 *   DONE         it is read
 *   TEXT         the text isn't UTF-8, isn't JSON, or is nested more than 32 deep
 *   RULE + rule  the value breaks this rule, and none with a lower number:
 *                   1  it is an object
 *                   2  `nodes` and `levels` are arrays, and `at_start` and `at_end` are booleans
 *                   3  a node is an object with `hash`, 64 hex digits, and `size`, a whole number below 2^64
 *                   4  a level is an array of two whole numbers below 2^64
 *                   5  there is at least one level
 *                   6  the counts of all levels add up to the number of nodes
 *                   7  the sizes of all nodes add up to at most 2^64 - 1
 *                   8  the top level has no right nodes; with `at_end`, no level has any
 *                   9  with `at_start`, no level below the top has left nodes
 *                  10  with both marks, the top level has at most one node
 *                  11  if there are several levels, the top level has a node
 *                  12  without `at_start`, left nodes below the top end like the nodes before a first stable point
 *                  13  without `at_end`, right nodes below the top begin like the nodes after a last stable point
 *   MEMORY       an allocation failed; this may be returned instead of TEXT or a rule */
YUREWHA_NODISCARD YUREWHA_NONNULL(3) YUREWHA_INITIALIZED(3) YUREWHA_SINCE(1.1)
yurewha_status yurewha_subtree_from_json(const char *text, size_t length, yurewha_subtree *subtree);

/* Makes a subtree from marks and flat lists. The handle owns it. `levels` has the number of left and right nodes of each
 * level, from the chunks up. `nodes` has the left nodes of all levels, lowest level first, then the right nodes of all
 * levels, highest level first.
 *   DONE         it is made
 *   RULE + rule  they break this rule, from 5 to 13 of yurewha_subtree_from_json, and none of these with a lower number
 *   MEMORY       an allocation failed; this may be returned instead of a rule */
YUREWHA_NODISCARD YUREWHA_NONNULL(7) YUREWHA_INITIALIZED(7) YUREWHA_SINCE(1.1)
yurewha_status yurewha_subtree_from_flat(bool at_start, const yurewha_level *levels, size_t level_count,
                                         const yurewha_chunk *nodes, size_t node_count, bool at_end, yurewha_subtree *subtree);

/* Writes a subtree as flat lists, which have the form that yurewha_subtree_from_flat takes. `level_count` and `node_count`
 * get the lengths of the lists. The lists and the marks together are the whole subtree. It allocates nothing.
 *   DONE          the lists are written
 *   ROOM          a list is longer than its room; nothing is written to either, and `level_count` and `node_count` are the
 *                 needed lengths
 *   EMPTY_HANDLE  if and only if the handle is empty */
YUREWHA_NODISCARD YUREWHA_NONNULL(1, 6, 7) YUREWHA_INITIALIZED(1) YUREWHA_SINCE(1.1)
yurewha_status yurewha_subtree_to_flat(yurewha_subtree *subtree, yurewha_level *levels, size_t level_room,
                                       yurewha_chunk *nodes, size_t node_room, size_t *level_count, size_t *node_count);

/* Frees what the handle owns, and leaves it empty. */
YUREWHA_NONNULL(1) YUREWHA_INITIALIZED(1) YUREWHA_SINCE(1.1)
void yurewha_subtree_free(yurewha_subtree *subtree);

/* ---- Sessions: chunks by their positions, which come in any order */

/* A session takes the chunks of a file in any order, and returns the hash of the file:
 *
 *     yurewha_chunk chunks[2] = {{.size = 7}, {.size = 7}};
 *     yurewha_session session = {0};
 *     yurewha_hash file = {{0}};
 *     uint64_t new_hashes = 0;
 *
 *     yurewha_data_hash("a chunk", 7, &chunks[0].hash);
 *     yurewha_data_hash("another", 7, &chunks[1].hash);
 *     yurewha_status status = yurewha_session_new(&session);
 *     if (status == YUREWHA_DONE) // the second chunk was ready first
 *         status = yurewha_session_put(&session, 1, &chunks[1], 1, &new_hashes);
 *     if (status == YUREWHA_DONE)
 *         status = yurewha_session_put(&session, 0, &chunks[0], 1, &new_hashes);
 *     if (status == YUREWHA_DONE)
 *         status = yurewha_session_finish(&session, 2, &file);
 *     yurewha_session_free(&session);
 *
 * `new_hashes` says after each put how many hashes the session didn't know, so that a client sends only these chunks. */

/* Makes a session without chunks. The handle owns it.
 *   DONE    it is made
 *   MEMORY  an allocation failed */
YUREWHA_NODISCARD YUREWHA_NONNULL(1) YUREWHA_INITIALIZED(1) YUREWHA_SINCE(1.1)
yurewha_status yurewha_session_new(yurewha_session *session);

/* Makes a session without chunks that keeps no hashes, so that its memory is proportional to the number of its runs. It
 * counts as new each hash of a put, once. The handle owns it. The statuses are those of yurewha_session_new. */
YUREWHA_NODISCARD YUREWHA_NONNULL(1) YUREWHA_INITIALIZED(1) YUREWHA_SINCE(1.1)
yurewha_status yurewha_session_new_without_hashes(yurewha_session *session);

/* Puts chunks at the positions from `first` on. Writes how many of their hashes the session didn't know, and counts each
 * hash once. It then knows them, unless it keeps no hashes. With no chunks it writes 0 and changes nothing, whatever
 * `first` is.
 *   DONE               the chunks are put
 *   EMPTY_HANDLE       if and only if the handle is empty
 *   SESSION_OVERLAP    one of the positions is taken
 *   SESSION_POSITIONS  otherwise, `first` plus the number of chunks is more than 2^64 - 1
 *   SIZES              otherwise, the sizes of all chunks add up to more than 2^64 - 1
 *   MEMORY             an allocation failed; this may be returned instead of the three above */
YUREWHA_NODISCARD YUREWHA_NONNULL(1, 5) YUREWHA_INITIALIZED(1) YUREWHA_SINCE(1.1)
yurewha_status yurewha_session_put(yurewha_session *session, uint64_t first, const yurewha_chunk *chunks, size_t count,
                                   uint64_t *new_hashes);

/* Writes whether a position is taken. It allocates nothing.
 *   DONE          it is written
 *   EMPTY_HANDLE  the handle is empty */
YUREWHA_NODISCARD YUREWHA_NONNULL(1, 3) YUREWHA_INITIALIZED(1) YUREWHA_SINCE(1.1)
yurewha_status yurewha_session_taken(yurewha_session *session, uint64_t position, bool *taken);

/* Writes the root of all chunks in the order of their positions.
 *   DONE          the hash is written
 *   EMPTY_HANDLE  if and only if the handle is empty
 *   SESSION_GAP   if and only if there is a session, and the taken positions aren't exactly those from 0 to `total` - 1
 *   MEMORY        an allocation failed */
YUREWHA_NODISCARD YUREWHA_NONNULL(1, 3) YUREWHA_INITIALIZED(1) YUREWHA_SINCE(1.1)
yurewha_status yurewha_session_root(yurewha_session *session, uint64_t total, yurewha_hash *root);

/* Writes the file hash, without a salt, of all chunks in the order of their positions. It is the one under 32 zero bytes.
 * The statuses are those of yurewha_session_root. */
YUREWHA_NODISCARD YUREWHA_NONNULL(1, 3) YUREWHA_INITIALIZED(1) YUREWHA_SINCE(1.1)
yurewha_status yurewha_session_finish(yurewha_session *session, uint64_t total, yurewha_hash *hash);

/* Copies a session. The second handle owns the copy, which has the same chunks, knows the same hashes, and keeps hashes if
 * the first session does. The first session is unchanged, and the two are independent.
 *   DONE          it is copied
 *   MEMORY        an allocation failed
 *   EMPTY_HANDLE  if and only if the first handle is empty */
YUREWHA_NODISCARD YUREWHA_NONNULL(1, 2) YUREWHA_INITIALIZED(1) YUREWHA_INITIALIZED(2) YUREWHA_SINCE(1.1)
yurewha_status yurewha_session_copy(yurewha_session *session, yurewha_session *copy);

/* Writes the number of chunks of a session, which is that of taken positions. It allocates nothing. The time is
 * proportional to the number of runs.
 *   DONE          it is written
 *   EMPTY_HANDLE  the handle is empty */
YUREWHA_NODISCARD YUREWHA_NONNULL(1, 2) YUREWHA_INITIALIZED(1) YUREWHA_SINCE(1.1)
yurewha_status yurewha_session_num_chunks(yurewha_session *session, uint64_t *count);

/* Writes the sum of the sizes of all chunks of a session, in bytes. It allocates nothing.
 *   DONE          it is written
 *   EMPTY_HANDLE  the handle is empty */
YUREWHA_NODISCARD YUREWHA_NONNULL(1, 2) YUREWHA_INITIALIZED(1) YUREWHA_SINCE(1.1)
yurewha_status yurewha_session_total_size(yurewha_session *session, uint64_t *size);

/* Writes the first gap of a session from a position on and below `total`: adjacent free positions, as many as there are.
 * `first` gets the first of them, and `end` the position after the last one. To go through all gaps, begin at position 0
 * and go on at each gap's end. Finding a gap takes logarithmic time. It allocates nothing.
 *   DONE          they are written
 *   EMPTY_HANDLE  if and only if the handle is empty
 *   ARGUMENTS     if and only if there is a session, and each of these positions is taken */
YUREWHA_NODISCARD YUREWHA_NONNULL(1, 4, 5) YUREWHA_INITIALIZED(1) YUREWHA_SINCE(1.1)
yurewha_status yurewha_session_next_gap(yurewha_session *session, uint64_t position, uint64_t total, uint64_t *first,
                                        uint64_t *end);

/* Writes whether a session knows a hash: whether a put had it, or yurewha_session_keep_hashes kept it. It allocates
 * nothing.
 *   DONE          it is written
 *   EMPTY_HANDLE  the handle is empty */
YUREWHA_NODISCARD YUREWHA_NONNULL(1, 2, 3) YUREWHA_INITIALIZED(1) YUREWHA_SINCE(1.1)
yurewha_status yurewha_session_knows(yurewha_session *session, const yurewha_hash *hash, bool *known);

/* Writes for each of some hashes 1 if a session knows it, and 0 if not. It allocates nothing.
 *   DONE          they are written
 *   EMPTY_HANDLE  if and only if the handle is empty
 *   ARGUMENTS     if and only if there is a session, and the two lists have different lengths */
YUREWHA_NODISCARD YUREWHA_NONNULL(1) YUREWHA_INITIALIZED(1) YUREWHA_SINCE(1.1)
yurewha_status yurewha_session_knows_each(yurewha_session *session, const yurewha_hash *hashes, size_t count, uint8_t *known,
                                          size_t known_count);

/* Writes the file hash under a salt of all chunks in the order of their positions. Under 32 zero bytes it is that of
 * yurewha_session_finish. The statuses are those of yurewha_session_root. */
YUREWHA_NODISCARD YUREWHA_NONNULL(1, 3, 4) YUREWHA_INITIALIZED(1) YUREWHA_SINCE(1.1)
yurewha_status yurewha_session_finish_with_salt(yurewha_session *session, uint64_t total, const yurewha_bytes *salt,
                                                yurewha_hash *hash);

/* Writes the number of runs of adjacent taken positions. Whatever calls a session has had, a free position lies between
 * any two of its runs, and its total size is that of the subtrees of all runs together. It allocates nothing.
 *   DONE          it is written
 *   EMPTY_HANDLE  the handle is empty */
YUREWHA_NODISCARD YUREWHA_NONNULL(1, 2) YUREWHA_INITIALIZED(1) YUREWHA_SINCE(1.1)
yurewha_status yurewha_session_num_runs(yurewha_session *session, size_t *count);

/* Writes the first position of a run of adjacent taken positions, and a copy of the subtree of its chunks. The subtree is
 * open at both ends, and `range` owns it. Runs are numbered from 0, by rising position. The time is proportional to the
 * index.
 *   DONE          they are written
 *   EMPTY_HANDLE  if and only if the handle of the session is empty
 *   ARGUMENTS     if and only if there is a session, and it has no such run
 *   MEMORY        an allocation failed */
YUREWHA_NODISCARD YUREWHA_NONNULL(1, 3, 4) YUREWHA_INITIALIZED(1) YUREWHA_INITIALIZED(4) YUREWHA_SINCE(1.1)
yurewha_status yurewha_session_run(yurewha_session *session, size_t index, uint64_t *first, yurewha_subtree *range);

/* Writes the first run that ends after a position: the run that holds it or else the next one. `first` gets the run's
 * first position, and `end` the position after its last one. `range` owns a copy of the subtree of its chunks, which is
 * open at both ends. To go through all runs, begin at position 0 and go on at each run's end. Finding a run takes
 * logarithmic time.
 *   DONE          they are written
 *   EMPTY_HANDLE  if and only if the handle of the session is empty
 *   ARGUMENTS     if and only if there is a session, and no run ends after the position
 *   MEMORY        an allocation failed */
YUREWHA_NODISCARD YUREWHA_NONNULL(1, 3, 4, 5) YUREWHA_INITIALIZED(1) YUREWHA_INITIALIZED(5) YUREWHA_SINCE(1.1)
yurewha_status yurewha_session_run_from(yurewha_session *session, uint64_t position, uint64_t *first, uint64_t *end,
                                        yurewha_subtree *range);

/* Frees what the handle owns, and leaves it empty. */
YUREWHA_NONNULL(1) YUREWHA_INITIALIZED(1) YUREWHA_SINCE(1.1)
void yurewha_session_free(yurewha_session *session);

/* ---- Joining what many machines hashed: ranges of chunks, and sessions */

/* Each machine sends the range of its chunks, or its session, in whatever order; the hash of the file is the same. A part that
 * was sent twice is refused, and changes nothing. */

/* Puts a range of `count` chunks at the positions from `first` on, as yurewha_session_put puts chunks. The session gets a
 * copy of `range`, the subtree of these chunks, which is unchanged. It doesn't know their hashes before they are kept or
 * put.
 *
 * The call can't check that `range` is of `count` chunks. If it isn't, all calls go by the positions of the runs as ever,
 * and the root and the file hash are those of the chunks of the subtrees.
 *   DONE               the range is put
 *   EMPTY_HANDLE       if and only if a handle is empty
 *   ARGUMENTS          `count` is 0, or `range` is marked at an end
 *   SESSION_OVERLAP    otherwise, one of the positions is taken
 *   SESSION_POSITIONS  otherwise, `first` plus `count` is more than 2^64 - 1
 *   SIZES              otherwise, the sizes of all chunks add up to more than 2^64 - 1
 *   MEMORY             an allocation failed; this may be returned instead of the four above */
YUREWHA_NODISCARD YUREWHA_NONNULL(1, 4) YUREWHA_INITIALIZED(1) YUREWHA_INITIALIZED(4) YUREWHA_SINCE(1.1)
yurewha_status yurewha_session_put_range(yurewha_session *session, uint64_t first, uint64_t count, yurewha_subtree *range);

/* Puts copies of all runs of another session at their positions, and keeps the hashes that it knows, unless the first
 * session keeps none. Writes how many of these the first session didn't know. The other session is unchanged.
 *
 * The order doesn't matter: of many sessions that have no position in common any two can be joined first, and the last one
 * stands for the chunks of all.
 *   DONE             the session has the runs of both
 *   EMPTY_HANDLE     if and only if a handle is empty
 *   SESSION_OVERLAP  a position is taken in both
 *   SIZES            otherwise, the sizes of all chunks add up to more than 2^64 - 1
 *   MEMORY           an allocation failed */
YUREWHA_NODISCARD YUREWHA_NONNULL(1, 2, 3) YUREWHA_INITIALIZED(1) YUREWHA_INITIALIZED(2) YUREWHA_SINCE(1.1)
yurewha_status yurewha_session_join(yurewha_session *session, yurewha_session *other, uint64_t *new_hashes);

/* ---- Saving a session: its runs, by yurewha_session_run_from, and the hashes that it knows */

/* As JSON: yurewha_session_to_json and yurewha_session_from_json. In another form: push the runs to a new session by rising
 * position, and keep the hashes. */

/* Adds a run after all runs of a session. Its positions are those from `first` to `end` - 1. The session gets a copy of
 * `range`, the subtree of the run's chunks. `range` is unchanged. The session doesn't know the hashes of these chunks
 * before they are kept or put.
 *
 * The call can't check that `range` is of `end` - `first` chunks. If it isn't, all calls go by the positions of the runs
 * as ever, and the root and the file hash are those of the chunks of the subtrees.
 *   DONE          the run is added
 *   EMPTY_HANDLE  if and only if a handle is empty
 *   ARGUMENTS     `end` isn't greater than `first`, `range` is marked at an end, or a position from `first` - 1 on is
 *                 taken
 *   SIZES         otherwise, the sizes of all chunks add up to more than 2^64 - 1
 *   MEMORY        an allocation failed; this may be returned instead of the two above */
YUREWHA_NODISCARD YUREWHA_NONNULL(1, 4) YUREWHA_INITIALIZED(1) YUREWHA_INITIALIZED(4) YUREWHA_SINCE(1.1)
yurewha_status yurewha_session_push_run(yurewha_session *session, uint64_t first, uint64_t end, yurewha_subtree *range);

/* Keeps hashes, as if an earlier put had had them: the session then knows them. Its runs are unchanged. Hashes that no
 * chunk has may be kept, too: they change only which hashes are new.
 *   DONE          they are kept
 *   EMPTY_HANDLE  if and only if the handle is empty
 *   ARGUMENTS     if and only if there are hashes, and a session that keeps none
 *   MEMORY        an allocation failed */
YUREWHA_NODISCARD YUREWHA_NONNULL(1) YUREWHA_INITIALIZED(1) YUREWHA_SINCE(1.1)
yurewha_status yurewha_session_keep_hashes(yurewha_session *session, const yurewha_hash *hashes, size_t count);

/* Writes whether a session keeps the hashes of its chunks. It allocates nothing.
 *   DONE          it is written
 *   EMPTY_HANDLE  the handle is empty */
YUREWHA_NODISCARD YUREWHA_NONNULL(1, 2) YUREWHA_INITIALIZED(1) YUREWHA_SINCE(1.1)
yurewha_status yurewha_session_keeps_hashes(yurewha_session *session, bool *keeps);

/* Writes the number of hashes that a session knows: those that puts had and those that yurewha_session_keep_hashes kept,
 * each counted once. It allocates nothing.
 *   DONE          it is written
 *   EMPTY_HANDLE  the handle is empty */
YUREWHA_NODISCARD YUREWHA_NONNULL(1, 2) YUREWHA_INITIALIZED(1) YUREWHA_SINCE(1.1)
yurewha_status yurewha_session_num_known_hashes(yurewha_session *session, size_t *count);

/* Writes all hashes that a session knows, each once, in no particular order.
 *   DONE          they are written
 *   EMPTY_HANDLE  if and only if the handle is empty
 *   ARGUMENTS     if and only if there is a session, and the length of the list isn't the number of hashes that it knows
 *   MEMORY        an allocation failed */
YUREWHA_NODISCARD YUREWHA_NONNULL(1) YUREWHA_INITIALIZED(1) YUREWHA_SINCE(1.1)
yurewha_status yurewha_session_known_hashes(yurewha_session *session, yurewha_hash *hashes, size_t count);

/* Writes the compact JSON text of a session to `text`, and its length to `length`. Equal sessions have equal texts: runs
 * are written by rising position, and hashes by rising order. If `with_hashes` is false, no hash is written.
 *   DONE          it is written
 *   ROOM          the text doesn't fit, and `length` is the needed length
 *   MEMORY        an allocation failed
 *   EMPTY_HANDLE  if and only if the handle is empty */
YUREWHA_NODISCARD YUREWHA_NONNULL(1, 5) YUREWHA_INITIALIZED(1) YUREWHA_SINCE(1.1)
yurewha_status yurewha_session_to_json(yurewha_session *session, bool with_hashes, char *text, size_t room, size_t *length);

/* Reads a session from JSON text. The handle owns it. If `keep_hashes` is false, the session keeps none, and those of the
 * text are left out. The value is an object with these members: `runs`, each an object with its positions, from `first` to
 * `end` - 1, and the subtree of its chunks as `chunks`; and `known_hashes`, each an array of its four words. Members with
 * other names are ignored. Time and memory are in proportion to the text, so refuse a stranger's text above a limit before
 * this call.
 *
 * The call can't check that a subtree is of as many chunks as its run has positions, as yurewha_session_push_run can't.
 *   DONE                 it is read
 *   TEXT                 the text isn't UTF-8, isn't JSON, is nested more than 32 deep, or has a member twice in an object
 *   SESSION_RULE + rule  the value breaks this rule, and none with a lower number:
 *                          1  it is an object
 *                          2  `runs` and `known_hashes` are arrays
 *                          3  a run is an object with `first` and `end`, whole numbers below 2^64, and `chunks`
 *                          4  a known hash is an array of four whole numbers below 2^64
 *                          5  each `chunks` is a subtree; this rule has the next status
 *                          6  each run can follow those before it: `end` is greater than `first`, its subtree is marked at
 *                             no end, and the position before `first` and all after it are free
 *                          7  the sizes of all chunks add up to at most 2^64 - 1
 *   RULE + rule          it breaks rule 5, and none with a lower number. The first `chunks` that is no subtree breaks this
 *                        rule of yurewha_subtree_from_json, and none with a lower number
 *   MEMORY               an allocation failed; this may be returned instead of TEXT or a rule */
YUREWHA_NODISCARD YUREWHA_NONNULL(4) YUREWHA_INITIALIZED(4) YUREWHA_SINCE(1.1)
yurewha_status yurewha_session_from_json(const char *text, size_t length, bool keep_hashes, yurewha_session *session);

/* ---- Hash trees: all levels over a list of chunks, which make range proofs */

/* Makes the hash tree over some chunks, and writes it to the handle, which owns it.
 *   DONE    it is made
 *   SIZES   if and only if the sizes add up to more than 2^64 - 1
 *   MEMORY  an allocation failed */
YUREWHA_NODISCARD YUREWHA_NONNULL(3) YUREWHA_INITIALIZED(3) YUREWHA_SINCE(1.1)
yurewha_status yurewha_hash_tree_from_chunks(const yurewha_chunk *chunks, size_t count, yurewha_hash_tree *tree);

/* Writes the root of the chunks. With no chunks it is the default hash. It allocates nothing.
 *   DONE          it is written
 *   EMPTY_HANDLE  the handle is empty */
YUREWHA_NODISCARD YUREWHA_NONNULL(1, 2) YUREWHA_INITIALIZED(1) YUREWHA_SINCE(1.1)
yurewha_status yurewha_hash_tree_root(yurewha_hash_tree *tree, yurewha_hash *root);

/* Writes the file hash of the chunks under a salt. With no chunks it is the default hash, whatever the salt. It allocates
 * nothing.
 *   DONE          it is written
 *   EMPTY_HANDLE  the handle is empty */
YUREWHA_NODISCARD YUREWHA_NONNULL(1, 2, 3) YUREWHA_INITIALIZED(1) YUREWHA_SINCE(1.1)
yurewha_status yurewha_hash_tree_file_hash(yurewha_hash_tree *tree, const yurewha_bytes *salt, yurewha_hash *hash);

/* Writes the number of chunks. It allocates nothing.
 *   DONE          it is written
 *   EMPTY_HANDLE  the handle is empty */
YUREWHA_NODISCARD YUREWHA_NONNULL(1, 2) YUREWHA_INITIALIZED(1) YUREWHA_SINCE(1.1)
yurewha_status yurewha_hash_tree_num_chunks(yurewha_hash_tree *tree, size_t *count);

/* Writes the sum of the chunks' sizes, which is the size of the file in bytes. It allocates nothing.
 *   DONE          it is written
 *   EMPTY_HANDLE  the handle is empty */
YUREWHA_NODISCARD YUREWHA_NONNULL(1, 2) YUREWHA_INITIALIZED(1) YUREWHA_SINCE(1.1)
yurewha_status yurewha_hash_tree_total_size(yurewha_hash_tree *tree, uint64_t *size);

/* Writes the least range of chunks that holds the bytes of the file from the place `from` up to, but without, the place
 * `to`, or up to the end of the file if that comes first. `first` gets the number of its first chunk, and `end` the number
 * after that of its last one. It allocates nothing.
 *   DONE          they are written
 *   ARGUMENTS     if and only if there is a tree, and there are no such bytes
 *   EMPTY_HANDLE  if and only if the handle is empty */
YUREWHA_NODISCARD YUREWHA_NONNULL(1, 4, 5) YUREWHA_INITIALIZED(1) YUREWHA_SINCE(1.1)
yurewha_status yurewha_hash_tree_chunks_at(yurewha_hash_tree *tree, uint64_t from, uint64_t to, size_t *first, size_t *end);

/* Writes where in the file the chunks from number `first` up to, but without, number `end` begin and end, in bytes. It
 * allocates nothing.
 *   DONE          the two places are written
 *   ARGUMENTS     if and only if there is a tree, and `first` isn't less than `end` or there are fewer than `end` chunks
 *   EMPTY_HANDLE  if and only if the handle is empty */
YUREWHA_NODISCARD YUREWHA_NONNULL(1, 4, 5) YUREWHA_INITIALIZED(1) YUREWHA_SINCE(1.1)
yurewha_status yurewha_hash_tree_bytes_of(yurewha_hash_tree *tree, size_t first, size_t end, uint64_t *from, uint64_t *to);

/* Writes the range proof of the chunks from number `first` up to, but without, number `end`, as flat lists. `levels` gets
 * the numbers of left and right nodes of each level, from the chunks up. `nodes` gets all nodes in the order of the file:
 * the left nodes of all levels, lowest level first, then the nodes of the chunks, then the right nodes of all levels,
 * highest level first. `level_count` and `node_count` get the lengths of the lists. A room for 64 levels and `end` -
 * `first` + 1024 nodes is always large enough.
 *   DONE          the lists are written
 *   ROOM          a list is longer than its room; nothing is written to either, and `level_count` and `node_count` are the
 *                 needed lengths
 *   ARGUMENTS     if and only if there is a tree, and `first` isn't less than `end` or there are fewer than `end` chunks
 *   MEMORY        an allocation failed
 *   EMPTY_HANDLE  if and only if the handle is empty */
YUREWHA_NODISCARD YUREWHA_NONNULL(1, 8, 9) YUREWHA_INITIALIZED(1) YUREWHA_SINCE(1.1)
yurewha_status yurewha_hash_tree_proof(yurewha_hash_tree *tree, size_t first, size_t end, yurewha_level *levels,
                                       size_t level_room, yurewha_chunk *nodes, size_t node_room, size_t *level_count,
                                       size_t *node_count);

/* Writes how many chunks two files have in common at the front: this many are the same in both hash trees, and no more
 * are. The chunk with this number is the first in which they differ, unless a file ends there. The contract is for two
 * handles, but a caller may pass one handle twice, and gets the number of its chunks. It allocates nothing. The time is
 * proportional to `count`.
 *   DONE          it is written
 *   EMPTY_HANDLE  a handle is empty */
YUREWHA_NODISCARD YUREWHA_NONNULL(1, 2, 3) YUREWHA_INITIALIZED(1) YUREWHA_INITIALIZED(2) YUREWHA_SINCE(1.1)
yurewha_status yurewha_hash_tree_common_prefix(yurewha_hash_tree *first, yurewha_hash_tree *second, size_t *count);

/* Writes how many chunks two files have in common at the end, but at most `most`. If `most` is how many chunks the shorter
 * file has beside those in common at the front, which yurewha_hash_tree_common_prefix counts, then no chunk is counted
 * twice. The contract is for two handles, but a caller may pass one handle twice. It allocates nothing. The time is
 * proportional to `count`.
 *   DONE          it is written
 *   EMPTY_HANDLE  a handle is empty */
YUREWHA_NODISCARD YUREWHA_NONNULL(1, 2, 4) YUREWHA_INITIALIZED(1) YUREWHA_INITIALIZED(2) YUREWHA_SINCE(1.1)
yurewha_status yurewha_hash_tree_common_suffix(yurewha_hash_tree *first, yurewha_hash_tree *second, size_t most, size_t *count);

/* Frees what the handle owns, and leaves it empty. */
YUREWHA_NONNULL(1) YUREWHA_INITIALIZED(1) YUREWHA_SINCE(1.1)
void yurewha_hash_tree_free(yurewha_hash_tree *tree);

/* ---- Range proofs: with one, whoever knows the hash of a file checks a part of it */

/* A range proof has the nodes of some adjacent chunks, and the other nodes of each group on the way up to the root. Its flat
 * lists are those that yurewha_hash_tree_proof writes. They may come from anybody. */

/* Writes the compact JSON text of a range proof to `text`, and its length to `length`.
 *   DONE               it is written
 *   ROOM               the text doesn't fit, and `length` is the needed length
 *   PROOF_RULE + rule  the lists break this rule, from 5 to 8 of yurewha_range_proof_from_json, and none of these with a
 *                      lower number
 *   MEMORY             an allocation failed; this may be returned instead of the two above */
YUREWHA_NODISCARD YUREWHA_NONNULL(7) YUREWHA_SINCE(1.1)
yurewha_status yurewha_range_proof_to_json(const yurewha_level *levels, size_t level_count, const yurewha_chunk *nodes,
                                           size_t node_count, char *text, size_t room, size_t *length);

/* Reads a range proof from JSON text, and writes it as flat lists. The value is an object with these members: `chunks`,
 * the nodes of the range's chunks; and `levels`, an object for each level, from the chunks up, with the nodes of both
 * sides as `left` and `right`. Each node has its `hash` in hex and its `size`. Time and memory are in proportion to the
 * text, so refuse a stranger's text of more than 2^24 bytes, or another limit, before this call: that many are enough for
 * about 180,000 chunks.
 *   DONE               the lists are written
 *   ROOM               a list is longer than its room; nothing is written to either, and `level_count` and `node_count`
 *                      are the needed lengths
 *   TEXT               the text isn't UTF-8, isn't JSON, or is nested more than 32 deep
 *   PROOF_RULE + rule  the value breaks this rule, and none with a lower number:
 *                        1  it is an object
 *                        2  `chunks` and `levels` are arrays
 *                        3  a level is an object, and its `left` and `right` are arrays
 *                        4  a node is an object with `hash`, 64 hex digits, and `size`, a whole number below 2^64
 *                        5  there is at least one chunk; in flat lists, the counts leave at least one node for the chunks
 *                        6  there are at most 64 levels
 *                        7  a side of a level has at most 8 nodes
 *                        8  the sizes of all nodes add up to at most 2^64 - 1
 *   MEMORY             an allocation failed; this may be returned instead of the three above */
YUREWHA_NODISCARD YUREWHA_NONNULL(7, 8) YUREWHA_SINCE(1.1)
yurewha_status yurewha_range_proof_from_json(const char *text, size_t length, yurewha_level *levels, size_t level_room,
                                             yurewha_chunk *nodes, size_t node_room, size_t *level_count, size_t *node_count);

/* Writes the binary form of a range proof to the beginning of `bytes`, and its length to `byte_count`. It is a byte with
 * the number of levels; for each level, from the chunks up, two bytes with the numbers of its left and right nodes; and
 * for each node, in the order of the flat list, the 32 bytes of its hash and the 8 of its size, little-endian. That is 1
 * byte, 2 for each level, and 40 for each node.
 *   DONE               it is written
 *   ROOM               it doesn't fit, and `byte_count` is the needed length
 *   PROOF_RULE + rule  the lists break this rule, from 5 to 8 of yurewha_range_proof_from_json, and none of these with a
 *                      lower number
 *   MEMORY             an allocation failed; this may be returned instead of the two above */
YUREWHA_NODISCARD YUREWHA_NONNULL(7) YUREWHA_SINCE(1.1)
yurewha_status yurewha_range_proof_to_bytes(const yurewha_level *levels, size_t level_count, const yurewha_chunk *nodes,
                                            size_t node_count, uint8_t *bytes, size_t byte_room, size_t *byte_count);

/* Reads a range proof from its binary form, which yurewha_range_proof_to_bytes writes, and writes it as flat lists. Time
 * and memory are in proportion to the bytes, so refuse more than 2^23 bytes from a stranger, or another limit, before this
 * call: that many are enough for about 200,000 chunks.
 *   DONE               the lists are written
 *   ROOM               a list is longer than its room; nothing is written to either, and `level_count` and `node_count`
 *                      are the needed lengths. There are at most 64 levels, and a node for each 40 bytes
 *   PROOF_RULE + rule  the bytes break this rule, and none with a lower number. It is one of these, or of those from 5 to
 *                      8 of yurewha_range_proof_from_json:
 *                        1  there is a first byte
 *                        3  two bytes follow for each level
 *                        4  whole nodes follow, of 40 bytes each
 *   MEMORY             an allocation failed; this may be returned instead of the two above */
YUREWHA_NODISCARD YUREWHA_NONNULL(7, 8) YUREWHA_SINCE(1.1)
yurewha_status yurewha_range_proof_from_bytes(const void *bytes, size_t length, yurewha_level *levels, size_t level_room,
                                              yurewha_chunk *nodes, size_t node_room, size_t *level_count, size_t *node_count);

/* Returns whether flat lists are those of a range proof, or which rule they break. It opens nothing, so DONE doesn't say
 * that the proof shows any hash. It allocates nothing.
 *   DONE               if and only if they are those of a range proof
 *   PROOF_RULE + rule  the lists break this rule, from 5 to 8 of yurewha_range_proof_from_json, and none of these with a
 *                      lower number */
YUREWHA_NODISCARD YUREWHA_SINCE(1.1)
yurewha_status yurewha_range_proof_check(const yurewha_level *levels, size_t level_count, const yurewha_chunk *nodes,
                                         size_t node_count);

/* Opens a range proof with a file hash under a salt. The handle owns the opened range. The default hash is never shown,
 * since it is the hash of the empty file.
 *   DONE               the proof shows the file hash
 *   MISMATCH           it doesn't
 *   PROOF_RULE + rule  the lists break this rule, from 5 to 8 of yurewha_range_proof_from_json, and none of these with a
 *                      lower number
 *   MEMORY             an allocation failed; this may be returned instead of the two above */
YUREWHA_NODISCARD YUREWHA_NONNULL(5, 6, 7) YUREWHA_INITIALIZED(7) YUREWHA_SINCE(1.1)
yurewha_status yurewha_range_proof_open(const yurewha_level *levels, size_t level_count, const yurewha_chunk *nodes,
                                        size_t node_count, const yurewha_hash *file_hash, const yurewha_bytes *salt,
                                        yurewha_opened_range *range);

/* Opens a range proof with the root of the file's chunks, as yurewha_range_proof_open does with a file hash. The statuses
 * are those of yurewha_range_proof_open, with the root in place of the file hash. */
YUREWHA_NODISCARD YUREWHA_NONNULL(5, 6) YUREWHA_INITIALIZED(6) YUREWHA_SINCE(1.1)
yurewha_status yurewha_range_proof_open_root(const yurewha_level *levels, size_t level_count, const yurewha_chunk *nodes,
                                             size_t node_count, const yurewha_hash *root, yurewha_opened_range *range);

/* Writes the size of the file in bytes. Like all places of an opened range, the size is the proof's own word until data
 * was checked: it tells a reader where to cut, and no more. It allocates nothing.
 *   DONE          it is written
 *   EMPTY_HANDLE  the handle is empty */
YUREWHA_NODISCARD YUREWHA_NONNULL(1, 2) YUREWHA_INITIALIZED(1) YUREWHA_SINCE(1.1)
yurewha_status yurewha_opened_range_file_size(yurewha_opened_range *range, uint64_t *size);

/* Writes the number of chunks of the range. It allocates nothing.
 *   DONE          it is written
 *   EMPTY_HANDLE  the handle is empty */
YUREWHA_NODISCARD YUREWHA_NONNULL(1, 2) YUREWHA_INITIALIZED(1) YUREWHA_SINCE(1.1)
yurewha_status yurewha_opened_range_num_chunks(yurewha_opened_range *range, size_t *count);

/* Writes where in the file a chunk of the range begins and ends, in bytes, as the proof says it. The chunks of the range
 * count from 0. It allocates nothing.
 *   DONE          the two places are written
 *   ARGUMENTS     if and only if there is a range, and it has no such chunk
 *   EMPTY_HANDLE  if and only if the handle is empty */
YUREWHA_NODISCARD YUREWHA_NONNULL(1, 3, 4) YUREWHA_INITIALIZED(1) YUREWHA_SINCE(1.1)
yurewha_status yurewha_opened_range_bytes_of(yurewha_opened_range *range, size_t chunk, uint64_t *from, uint64_t *to);

/* Checks the data of a chunk of the range, and writes where in the file it begins, in bytes. The chunks of the range count
 * from 0. It allocates nothing.
 *
 * After DONE, each file with the hash that the proof was opened with has this data at this place, and has the size that
 * the proof says, unless two messages that were hashed have the same BLAKE3 hash.
 *   DONE          the hash and the length of the data are those of the chunk's node
 *   MISMATCH      they aren't, or the range has no such chunk
 *   EMPTY_HANDLE  if and only if the handle is empty */
YUREWHA_NODISCARD YUREWHA_NONNULL(1, 5) YUREWHA_INITIALIZED(1) YUREWHA_SINCE(1.1)
yurewha_status yurewha_opened_range_check(yurewha_opened_range *range, size_t chunk, const void *data, size_t length,
                                          uint64_t *place);

/* Checks the data of all chunks of the range, which come one after another with nothing else, and finds in it the bytes of
 * the file from the place `from` up to, but without, the place `to`: they are the `to` - `from` bytes from `data[start]`
 * on. It allocates nothing.
 *
 * After DONE, each file with the hash that the proof was opened with has these bytes between these places, and has the
 * size that the proof says, unless two messages that were hashed have the same BLAKE3 hash.
 *   DONE          the data is that of the range's chunks, and the range holds both places, which are in order
 *   MISMATCH      the data isn't, or the range doesn't hold the places, or `to` is less than `from`
 *   EMPTY_HANDLE  if and only if the handle is empty */
YUREWHA_NODISCARD YUREWHA_NONNULL(1, 6) YUREWHA_INITIALIZED(1) YUREWHA_SINCE(1.1)
yurewha_status yurewha_opened_range_read(yurewha_opened_range *range, uint64_t from, uint64_t to, const void *data,
                                         size_t length, size_t *start);

/* Frees what the handle owns, and leaves it empty. */
YUREWHA_NONNULL(1) YUREWHA_INITIALIZED(1) YUREWHA_SINCE(1.1)
void yurewha_opened_range_free(yurewha_opened_range *range);

/* ---- Parts of a file that is somewhere else: they are fetched, checked, and kept in a reader */

/* A reader keeps chunks of a file that were checked. What it doesn't keep is fetched for a part:
 *
 *     size_t filled, start, count;
 *     uint64_t end, begin, stop;
 *
 *     yurewha_status status = yurewha_reader_read(&reader, from, bytes, length, piece, &filled, &end);
 *     // If from + filled < end, ask for a proof of these bytes, which gets levels and nodes.
 *     status = yurewha_part_open(levels, level_count, nodes, node_count, &hash, &salt, from + filled, end, beyond, &begin, &stop, &part);
 *     // Fetch the bytes of the file from begin up to stop.
 *     status = yurewha_part_check(&part, data, data_length, true, &start, &count);
 *     // Now the bytes that were missing are data[start] and the count - 1 after it.
 *     status = yurewha_reader_take(&reader, &part);
 *
 * Threads may share a reader under a lock: a part of their own needs none. */

/* Makes a reader of the file with a file hash under a salt. The handle owns it. It keeps nothing yet. Its chunks will
 * count at most `most`, where each counts its bytes and 128 for the memory beside them.
 *   DONE    it is made
 *   MEMORY  an allocation failed */
YUREWHA_NODISCARD YUREWHA_NONNULL(1, 2, 4) YUREWHA_INITIALIZED(4) YUREWHA_SINCE(1.1)
yurewha_status yurewha_reader_new(const yurewha_hash *file_hash, const yurewha_bytes *salt, uint64_t most,
                                  yurewha_reader *reader);

/* Copies the bytes that a reader keeps from the place `from` on to the beginning of `bytes`, as far as they follow one
 * another, and writes how many these are to `filled`. The rest of `bytes` stays the same. Writes to `end` which bytes are
 * wanted next: those from `from` + `filled`, which isn't kept, up to, but without, `end`. They are at most `piece`, or one
 * if that is 0. If `end` is `from` + `filled`, none is: `bytes` is full, or the file has no more.
 *
 * Each file with the hash and the salt of the reader has the copied bytes at their places, unless two messages that were
 * hashed have the same BLAKE3 hash. The chunks that they are of count as used last. It allocates memory for these notes
 * alone. If there is none, a chunk counts as used when it was before.
 *   DONE          it is copied and written
 *   EMPTY_HANDLE  if and only if the handle is empty */
YUREWHA_NODISCARD YUREWHA_NONNULL(1, 6, 7) YUREWHA_INITIALIZED(1) YUREWHA_SINCE(1.1)
yurewha_status yurewha_reader_read(yurewha_reader *reader, uint64_t from, uint8_t *bytes, size_t count, uint64_t piece,
                                   size_t *filled, uint64_t *end);

/* Writes what is missing of the bytes from the place `from` up to, but without, the place `to`, or up to the end of the
 * file if its size is known. `first` gets the place of the first byte that isn't kept, and `end` the place up to which the
 * bytes from there on are wanted: at most `piece` of them, or one if that is 0. It allocates nothing.
 *   DONE          they are written
 *   ARGUMENTS     if and only if there is a reader, and it keeps all these bytes
 *   EMPTY_HANDLE  if and only if the handle is empty */
YUREWHA_NODISCARD YUREWHA_NONNULL(1, 5, 6) YUREWHA_INITIALIZED(1) YUREWHA_SINCE(1.1)
yurewha_status yurewha_reader_needs(yurewha_reader *reader, uint64_t from, uint64_t to, uint64_t piece, uint64_t *first,
                                    uint64_t *end);

/* Writes which piece of the file has the place `place`, where pieces of `piece` bytes follow one another from the file's
 * start. `begin` gets where it begins, and `end` where it ends, which for the last piece is the end of the file if its
 * size is known. So a server can keep a proof of each piece. It allocates nothing.
 *   DONE          they are written
 *   ARGUMENTS     if and only if there is a reader, and `piece` is 0 or the file has no byte at the place. While its size
 *                 isn't known, only the place 2^64 - 1 is such a one
 *   EMPTY_HANDLE  if and only if the handle is empty */
YUREWHA_NODISCARD YUREWHA_NONNULL(1, 4, 5) YUREWHA_INITIALIZED(1) YUREWHA_SINCE(1.1)
yurewha_status yurewha_reader_piece(yurewha_reader *reader, uint64_t place, uint64_t piece, uint64_t *begin, uint64_t *end);

/* Writes the size of the file in bytes. It is known once a part with a checked chunk was taken. It allocates nothing.
 *
 * Each file with the hash and the salt of the reader has this size, unless two messages that were hashed have the same
 * BLAKE3 hash.
 *   DONE          it is written
 *   ARGUMENTS     if and only if there is a reader, and the size isn't known yet
 *   EMPTY_HANDLE  if and only if the handle is empty */
YUREWHA_NODISCARD YUREWHA_NONNULL(1, 2) YUREWHA_INITIALIZED(1) YUREWHA_SINCE(1.1)
yurewha_status yurewha_reader_size(yurewha_reader *reader, uint64_t *size);

/* Writes what all chunks of a reader count: their bytes, and 128 for each. It allocates nothing.
 *   DONE          it is written
 *   EMPTY_HANDLE  the handle is empty */
YUREWHA_NODISCARD YUREWHA_NONNULL(1, 2) YUREWHA_INITIALIZED(1) YUREWHA_SINCE(1.1)
yurewha_status yurewha_reader_counted(yurewha_reader *reader, uint64_t *counted);

/* Changes what all chunks of a reader may count to `most`. Drops the chunks that were used longest ago until they do. It
 * allocates nothing.
 *   DONE          it is changed
 *   EMPTY_HANDLE  if and only if the handle is empty */
YUREWHA_NODISCARD YUREWHA_NONNULL(1) YUREWHA_INITIALIZED(1) YUREWHA_SINCE(1.1)
yurewha_status yurewha_reader_keep_at_most(yurewha_reader *reader, uint64_t most);

/* Moves the chunks of a part that were checked to a reader, one after another, and then drops the chunks that were used
 * longest ago until all count as much as they may. Frees the part, and leaves its handle empty. If a chunk was checked,
 * the size of the file is known from now on. It hashes nothing, and copies no data. A chunk for which an allocation fails
 * isn't kept.
 *   DONE          the chunks are moved
 *   ARGUMENTS     if and only if neither handle is empty, and the part is of another file hash or salt than the reader, or
 *                 its proof says another size of the file than is known
 *   EMPTY_HANDLE  if and only if a handle is empty */
YUREWHA_NODISCARD YUREWHA_NONNULL(1, 2) YUREWHA_INITIALIZED(1) YUREWHA_INITIALIZED(2) YUREWHA_SINCE(1.1)
yurewha_status yurewha_reader_take(yurewha_reader *reader, yurewha_part *part);

/* Opens a range proof with a file hash under a salt, for the bytes of the file from the place `from` up to, but without,
 * the place `to`, or up to the end of the file if that comes first. The handle owns the part. Writes where in the file the
 * proof's range begins and ends: the data of these places is what yurewha_part_check checks. A part needs nothing of a
 * reader: any number may be open at once, and may be checked and taken in any order.
 *
 * A proof of a file without bytes is opened for any places. Its range ends where it begins.
 *   DONE               the proof shows the file hash, and its range holds the bytes
 *   PROOF_RULE + rule  the lists break this rule, from 5 to 8 of yurewha_range_proof_from_json, and none of these with a
 *                      lower number
 *   MISMATCH           the proof doesn't show the file hash
 *   ELSEWHERE          it does, and the file has bytes, but the range doesn't hold those that are asked for, or the file
 *                      ends before them. `begin` and `end` are written
 *   TOO_FAR            the range holds them, but begins more than `beyond` bytes before them, or ends more than that after
 *                      them. `begin` and `end` are written
 *   MEMORY             an allocation failed; this may be returned instead of another one */
YUREWHA_NODISCARD YUREWHA_NONNULL(5, 6, 10, 11, 12) YUREWHA_INITIALIZED(12) YUREWHA_SINCE(1.1)
yurewha_status yurewha_part_open(const yurewha_level *levels, size_t level_count, const yurewha_chunk *nodes,
                                 size_t node_count, const yurewha_hash *file_hash, const yurewha_bytes *salt, uint64_t from,
                                 uint64_t to, uint64_t beyond, uint64_t *begin, uint64_t *end, yurewha_part *part);

/* Checks the data of all chunks of a part's range, which come one after another with nothing else, and finds the wanted
 * bytes in it: they are the `count` bytes from `data[start]` on, and are all that were asked for, or all up to the end of
 * the file.
 *
 * `data` may be cut off anywhere or wrong. If `keep` is true, the part gets copies of the first chunks that are right, up
 * to the first one that is wrong, whatever is returned, instead of those of an earlier call; a chunk for which an
 * allocation fails isn't copied. If `keep` is false, the part has no chunks, and the call allocates nothing.
 *
 * After DONE, each file with the hash and the salt has these bytes at their place, unless two messages that were hashed
 * have the same BLAKE3 hash.
 *   DONE          the data is that of the range's chunks
 *   MISMATCH      it isn't. yurewha_part_checked says how much of it is
 *   EMPTY_HANDLE  if and only if the handle is empty */
YUREWHA_NODISCARD YUREWHA_NONNULL(1, 5, 6) YUREWHA_INITIALIZED(1) YUREWHA_SINCE(1.1)
yurewha_status yurewha_part_check(yurewha_part *part, const void *data, size_t length, bool keep, size_t *start, size_t *count);

/* Writes the size of the file in bytes as the proof of a part says it. It is the proof's own word until data was checked.
 * It allocates nothing.
 *   DONE          it is written
 *   EMPTY_HANDLE  the handle is empty */
YUREWHA_NODISCARD YUREWHA_NONNULL(1, 2) YUREWHA_INITIALIZED(1) YUREWHA_SINCE(1.1)
yurewha_status yurewha_part_file_size(yurewha_part *part, uint64_t *size);

/* Writes how many chunks of a part's range the last yurewha_part_check found right, and where in the file they end, in
 * bytes. The first chunk that was wrong has this number, as the chunks of the range count from 0, and begins at this
 * place. If all chunks were right, these are the number of chunks and the end of the range. It allocates nothing.
 *   DONE          they are written
 *   EMPTY_HANDLE  the handle is empty */
YUREWHA_NODISCARD YUREWHA_NONNULL(1, 2, 3) YUREWHA_INITIALIZED(1) YUREWHA_SINCE(1.1)
yurewha_status yurewha_part_checked(yurewha_part *part, size_t *chunks, uint64_t *place);

/* Frees what the handle owns, and leaves it empty. */
YUREWHA_NONNULL(1) YUREWHA_INITIALIZED(1) YUREWHA_SINCE(1.1)
void yurewha_reader_free(yurewha_reader *reader);

/* Frees what the handle owns, and leaves it empty. */
YUREWHA_NONNULL(1) YUREWHA_INITIALIZED(1) YUREWHA_SINCE(1.1)
void yurewha_part_free(yurewha_part *part);

/* ---- Indexes of hashes: a number for each of some hashes, such as where the chunk with this hash stands */

/* Makes an index without hashes. The handle owns it.
 *   DONE    it is made
 *   MEMORY  an allocation failed */
YUREWHA_NODISCARD YUREWHA_NONNULL(1) YUREWHA_INITIALIZED(1) YUREWHA_SINCE(1.1)
yurewha_status yurewha_hash_index_new(yurewha_hash_index *index);

/* Gives each hash of a list the number beside it in `numbers`, unless the hash has one already: the number that came first
 * stays, also among those of one call. `new_hashes` gets how many hashes had no number before, each counted once.
 *   DONE          each hash has a number
 *   EMPTY_HANDLE  if and only if the handle is empty
 *   ARGUMENTS     if and only if there is an index, and the two lists have different lengths
 *   MEMORY        an allocation failed */
YUREWHA_NODISCARD YUREWHA_NONNULL(1, 6) YUREWHA_INITIALIZED(1) YUREWHA_SINCE(1.1)
yurewha_status yurewha_hash_index_insert(yurewha_hash_index *index, const yurewha_hash *hashes, size_t count,
                                         const uint64_t *numbers, size_t number_count, size_t *new_hashes);

/* Writes for each of some hashes 1 to `found` and its number to `numbers`, or 0 to both if the index has no number for it.
 * It allocates nothing.
 *   DONE          they are written
 *   EMPTY_HANDLE  if and only if the handle is empty
 *   ARGUMENTS     if and only if there is an index, and the three lists don't have the same length */
YUREWHA_NODISCARD YUREWHA_NONNULL(1) YUREWHA_INITIALIZED(1) YUREWHA_SINCE(1.1)
yurewha_status yurewha_hash_index_find(yurewha_hash_index *index, const yurewha_hash *hashes, size_t count, uint8_t *found,
                                       size_t found_count, uint64_t *numbers, size_t number_count);

/* Writes all hashes that have a number, each once, in no particular order, and beside each its number. It allocates
 * nothing.
 *   DONE          they are written
 *   EMPTY_HANDLE  if and only if the handle is empty
 *   ARGUMENTS     if and only if there is an index, and the length of a list isn't the number of its hashes */
YUREWHA_NODISCARD YUREWHA_NONNULL(1) YUREWHA_INITIALIZED(1) YUREWHA_SINCE(1.1)
yurewha_status yurewha_hash_index_entries(yurewha_hash_index *index, yurewha_hash *hashes, size_t count, uint64_t *numbers,
                                          size_t number_count);

/* Writes how many hashes have a number. It allocates nothing.
 *   DONE          it is written
 *   EMPTY_HANDLE  the handle is empty */
YUREWHA_NODISCARD YUREWHA_NONNULL(1, 2) YUREWHA_INITIALIZED(1) YUREWHA_SINCE(1.1)
yurewha_status yurewha_hash_index_len(yurewha_hash_index *index, size_t *count);

/* Frees what the handle owns, and leaves it empty. */
YUREWHA_NONNULL(1) YUREWHA_INITIALIZED(1) YUREWHA_SINCE(1.1)
void yurewha_hash_index_free(yurewha_hash_index *index);

#ifdef __cplusplus
}
#endif

#endif
