/*
 * The same bytes, hashed in different ways: as messages of one length, by one call each or by one call for all, and as messages
 * of 64 KiB by a hasher that takes pieces. The root of a list, by calls that hash the texts of groups side by side, and by a call
 * for each text; and that of a session, by its own calls and by those of subtrees. The data of a chunk, hashed and checked. A file,
 * cut and hashed. And a single hash under a key. bindings/c/test counts the instructions of each way.
 */
#include "harness.h"

#include <inttypes.h>

enum { KIB = 1024, LONG = 64 * KIB, ALL = 4 * LONG, MOST = ALL / KIB };

static void by_one_call_each(const uint8_t *bytes, size_t length, yurewha_hash *hashes)
{
    for (size_t i = 0; i < ALL / length; i++)
        yurewha_data_hash(bytes + i * length, length, &hashes[i]);
}

static void by_one_call(const uint8_t *bytes, size_t length, yurewha_hash *hashes)
{
    size_t offsets[MOST + 1], count = ALL / length;
    for (size_t i = 0; i <= count; i++)
        offsets[i] = i * length;
    EXPECT_STATUS(YUREWHA_DONE, yurewha_data_hashes(bytes, ALL, offsets, count + 1, hashes, count));
}

static void by_pieces(const uint8_t *bytes, size_t length, yurewha_hash *hashes)
{
    for (size_t i = 0; i < ALL / LONG; i++) {
        yurewha_hasher hasher;
        yurewha_hasher_begin_data(&hasher);
        for (size_t at = 0; at < LONG; at += length) {
            const size_t rest = LONG - at;
            EXPECT_STATUS(YUREWHA_DONE,
                          yurewha_hasher_update(&hasher, bytes + i * LONG + at, length < rest ? length : rest));
        }
        yurewha_hasher_finalize(&hasher, &hashes[i]);
    }
}

static const struct way {
    const char *name;
    void (*hash)(const uint8_t *bytes, size_t length, yurewha_hash *hashes);
    size_t length; /* of a message, or of a piece */
} ways[] = {
    {"messages of 1 KiB", by_one_call_each, KIB},
    {"messages of 2 KiB", by_one_call_each, 2 * KIB},
    {"messages of 4 KiB", by_one_call_each, 4 * KIB},
    {"messages of 8 KiB", by_one_call_each, 8 * KIB},
    {"messages of 32 KiB", by_one_call_each, 32 * KIB},
    {"messages of 64 KiB", by_one_call_each, LONG},
    {"messages of 256 KiB", by_one_call_each, ALL},
    {"messages of 4 KiB in one call", by_one_call, 4 * KIB},
    {"messages of 16 KiB in one call", by_one_call, 16 * KIB},
    {"messages of 64 KiB in one call", by_one_call, LONG},
    {"pieces of 1 KiB", by_pieces, KIB},
    {"pieces of 3 KiB", by_pieces, 3 * KIB},
    {"pieces of 4 KiB", by_pieces, 4 * KIB},
    {"pieces of 5,000 bytes", by_pieces, 5000},
    {"pieces of 10,000 bytes", by_pieces, 10000},
    {"pieces of 16 KiB", by_pieces, 16 * KIB},
    {"pieces of 20,000 bytes", by_pieces, 20000},
    {"pieces of 50,000 bytes", by_pieces, 50000},
};

/* The hash of a message by a call that its way doesn't make, so that the instructions of a way's calls are those of the way. */
static yurewha_hash hash_otherwise(const struct way *it, const uint8_t *message, size_t length)
{
    yurewha_hash hash;
    yurewha_hasher hasher;
    if (it->hash == by_pieces) {
        yurewha_data_hash(message, length, &hash);
        return hash;
    }
    yurewha_hasher_begin_data(&hasher);
    EXPECT_STATUS(YUREWHA_DONE, yurewha_hasher_update(&hasher, message, length));
    yurewha_hasher_finalize(&hasher, &hash);
    return hash;
}

/* A hash under a key, by the call for that, and by a hasher. */
static void keyed(void)
{
    const yurewha_hash hash = {{1, 2, 3, 4}}, key = {{5, 6, 7, 8}};
    yurewha_bytes bytes, of_key;
    yurewha_hasher hasher;
    yurewha_hash by_call, by_hasher;
    row("hmac");
    if (!is_wanted())
        return;
    yurewha_hmac(&hash, &key, &by_call);
    yurewha_hash_to_bytes(&hash, &bytes);
    yurewha_hash_to_bytes(&key, &of_key);
    yurewha_hasher_begin_keyed(&hasher, &of_key);
    EXPECT_STATUS(YUREWHA_DONE, yurewha_hasher_update(&hasher, bytes.bytes, sizeof bytes.bytes));
    yurewha_hasher_finalize(&hasher, &by_hasher);
    EXPECT(same_hash(&by_call, &by_hasher));
}

enum { LEAST_OF_GROUP = 3, MOST_OF_GROUP = 9, LINE = 90 };

/* The length of the first group: up to a natural cut from the third node on, and of at most nine nodes. */
static size_t group_of(const yurewha_chunk *nodes, size_t count)
{
    const size_t most = count < MOST_OF_GROUP ? count : MOST_OF_GROUP;
    for (size_t length = LEAST_OF_GROUP; length <= most; length++)
        if (nodes[length - 1].hash.words[3] % 4 == 0)
            return length;
    return most;
}

static yurewha_chunk parent_of(const yurewha_chunk *nodes, size_t count)
{
    yurewha_chunk parent = {.size = 0};
    char text[MOST_OF_GROUP * LINE];
    size_t length = 0;
    for (size_t i = 0; i < count; i++) {
        size_t digits = 0;
        EXPECT_STATUS(YUREWHA_DONE, yurewha_hex(&nodes[i].hash, text + length, sizeof text - length, &digits));
        length += digits;
        length += (size_t)sprintf(text + length, " : %" PRIu64 "\n", nodes[i].size);
        parent.size += nodes[i].size;
    }
    yurewha_internal_node_hash(text, length, &parent.hash);
    return parent;
}

/* The root of a list, whose nodes it replaces by their parents, level by level. */
static yurewha_hash root_by_texts(yurewha_chunk *nodes, size_t count)
{
    while (count > 1) {
        size_t made = 0;
        for (size_t at = 0, length; at < count; at += length) {
            length = group_of(nodes + at, count - at);
            nodes[made++] = parent_of(nodes + at, length);
        }
        count = made;
    }
    return nodes[0].hash;
}

/* One root by several calls. */
static void root_of(size_t count, const char *name)
{
    yurewha_chunk *chunks = list_of(NULL, count);
    yurewha_hash root, of_tree, of_subtree;
    yurewha_hash_tree tree = {0};
    yurewha_subtree subtree = {0};
    row("%s", name);
    if (is_wanted()) {
        subtree = range_of(chunks, 0, count, true, true);
        EXPECT_STATUS(YUREWHA_DONE, yurewha_xorb_hash(chunks, count, &root));
        EXPECT_STATUS(YUREWHA_DONE, yurewha_hash_tree_from_chunks(chunks, count, &tree));
        EXPECT_STATUS(YUREWHA_DONE, yurewha_hash_tree_root(&tree, &of_tree));
        EXPECT_STATUS(YUREWHA_DONE, yurewha_subtree_final_hash(&subtree, &of_subtree));
        const yurewha_hash by_texts = root_by_texts(chunks, count);
        EXPECT(same_hash(&root, &by_texts) && same_hash(&of_tree, &by_texts) && same_hash(&of_subtree, &by_texts));
    }
    yurewha_hash_tree_free(&tree);
    yurewha_subtree_free(&subtree);
    free(chunks);
}

/* The root of a session, and of the subtree of the same chunks between the empty ones of both ends. */
static void root_of_session(void)
{
    enum { COUNT = 10000 };
    row("root of a session");
    if (!is_wanted())
        return;
    yurewha_chunk *chunks = list_of(NULL, COUNT);
    yurewha_session session = {0};
    yurewha_subtree ranges[] = {range_of(chunks, 0, 0, true, false), range_of(chunks, 0, COUNT, false, false),
                                range_of(chunks, 0, 0, false, true)}, merged = {0};
    const yurewha_hash no_salt = {{0, 0, 0, 0}};
    yurewha_hash root, file, of_subtree, of_root;
    uint64_t fresh = 0;
    EXPECT_STATUS(YUREWHA_DONE, yurewha_session_new(&session));
    EXPECT_STATUS(YUREWHA_DONE, yurewha_session_put(&session, 0, chunks, COUNT, &fresh));
    EXPECT_STATUS(YUREWHA_DONE, yurewha_session_root(&session, COUNT, &root));
    EXPECT_STATUS(YUREWHA_DONE, yurewha_session_finish(&session, COUNT, &file));
    EXPECT_STATUS(YUREWHA_DONE, yurewha_subtree_merge(ranges, LENGTH(ranges), &merged));
    EXPECT_STATUS(YUREWHA_DONE, yurewha_subtree_final_hash(&merged, &of_subtree));
    yurewha_hmac(&of_subtree, &no_salt, &of_root);
    EXPECT(same_hash(&root, &of_subtree) && same_hash(&file, &of_root));
    for (size_t i = 0; i < LENGTH(ranges); i++)
        yurewha_subtree_free(&ranges[i]);
    yurewha_subtree_free(&merged);
    yurewha_session_free(&session);
    free(chunks);
}

/* Cuts a file that comes in pieces of a length, and hashes its chunks. Returns how many these are. */
static size_t cut_and_hash(const uint8_t *bytes, size_t size, size_t piece, yurewha_chunk *chunks)
{
    yurewha_hasher hasher;
    yurewha_chunker chunker;
    size_t count = 0;
    yurewha_chunker_begin(&chunker);
    yurewha_hasher_begin_data(&hasher);
    for (size_t at = 0; at < size;) {
        const size_t left = size - at < piece ? size - at : piece;
        const uint64_t end = yurewha_chunker_next_boundary(&chunker, bytes + at, left), taken = end != 0 ? end : left;
        EXPECT_STATUS(YUREWHA_DONE, yurewha_hasher_update(&hasher, bytes + at, taken));
        at += taken;
        if (end == 0 && at < size)
            continue;
        chunks[count].size = yurewha_hasher_count(&hasher);
        yurewha_hasher_finalize(&hasher, &chunks[count++].hash);
        yurewha_hasher_begin_data(&hasher);
    }
    return count;
}

/* A file is cut, and its chunks are hashed, by calls for each of both and by a hasher of files: all bytes at once, or one by one. */
static void file_by(size_t piece, const char *name, size_t size)
{
    row("%s", name);
    if (!is_wanted())
        return;
    uint8_t *bytes = block(size);
    yurewha_chunk *chunks = block((size / 8192 + 1) * sizeof *chunks);
    yurewha_file_hasher file = {0};
    yurewha_hash root, wanted;
    for (size_t i = 0; i < size / sizeof root; i++) {
        yurewha_random_from_seed(i, &root);
        memcpy(bytes + i * sizeof root, &root, sizeof root);
    }
    const size_t count = cut_and_hash(bytes, size, piece, chunks);
    EXPECT_STATUS(YUREWHA_DONE, yurewha_file_hasher_new(&file));
    for (size_t at = 0; at < size; at += piece)
        EXPECT_STATUS(YUREWHA_DONE, yurewha_file_hasher_update(&file, bytes + at, size - at < piece ? size - at : piece));
    EXPECT_STATUS(YUREWHA_DONE, yurewha_file_hasher_root(&file, &root));
    EXPECT_STATUS(YUREWHA_DONE, yurewha_xorb_hash(chunks, count, &wanted));
    EXPECT(same_hash(&root, &wanted) && count > 1);
    yurewha_file_hasher_free(&file);
    free(bytes);
    free(chunks);
}

/* The data of a chunk is hashed, and checked and read by the proof of the file that it is, and checked as a part of that file. */
static void data_of_chunk(void)
{
    row("data of a chunk");
    if (!is_wanted())
        return;
    uint8_t *data = message_of(LONG);
    yurewha_chunk chunk = {.size = LONG};
    yurewha_opened_range range = {0};
    size_t start = 1;
    uint64_t place = 1;
    yurewha_data_hash(data, LONG, &chunk.hash);
    EXPECT_STATUS(YUREWHA_DONE, yurewha_range_proof_open_root(NULL, 0, &chunk, 1, &chunk.hash, &range));
    EXPECT_STATUS(YUREWHA_DONE, yurewha_opened_range_check(&range, 0, data, LONG, &place));
    EXPECT_STATUS(YUREWHA_DONE, yurewha_opened_range_read(&range, 0, LONG, data, LONG, &start));
    EXPECT(place == 0 && start == 0);
    const yurewha_hash no_key = {{0, 0, 0, 0}};
    const yurewha_bytes no_salt = {{0}};
    yurewha_hash file;
    yurewha_part part = {0};
    uint64_t begin = 1, end = 0;
    size_t count = 0;
    yurewha_hmac(&chunk.hash, &no_key, &file);
    EXPECT_STATUS(YUREWHA_DONE, yurewha_part_open(NULL, 0, &chunk, 1, &file, &no_salt, 0, LONG, 0, &begin, &end, &part));
    EXPECT_STATUS(YUREWHA_DONE, yurewha_part_check(&part, data, LONG, false, &start, &count));
    EXPECT(begin == 0 && end == LONG && start == 0 && count == LONG);
    yurewha_part_free(&part);
    yurewha_opened_range_free(&range);
    free(data);
}

void test_lanes(void)
{
    root_of(1000, "root of 1,000 chunks");
    root_of(100, "root of 100 chunks");
    root_of(LEAST_OF_GROUP, "root of one group");
    root_of_session();
    data_of_chunk();
    file_by(4 * KIB * KIB, "file of 4 MiB", 4 * KIB * KIB);
    file_by(1, "file of 256 KiB by bytes", 256 * KIB);
    keyed();
    uint8_t *bytes = block(ALL);
    yurewha_hash *hashes = block(MOST * sizeof *hashes);
    for (size_t i = 0; i < ALL; i++)
        bytes[i] = (uint8_t)(i % 251);
    for (size_t i = 0; i < LENGTH(ways); i++) {
        const struct way *it = &ways[i];
        const size_t length = it->hash == by_pieces ? (size_t)LONG : it->length;
        row("%s", it->name);
        if (!is_wanted())
            continue;
        it->hash(bytes, it->length, hashes);
        for (size_t j = 0; j < ALL / length; j++) {
            const yurewha_hash wanted = hash_otherwise(it, bytes + j * length, length);
            EXPECT(same_hash(&hashes[j], &wanted));
        }
    }
    free(bytes);
    free(hashes);
}
