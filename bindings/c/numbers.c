/*
 * Each number that a call takes, past the largest that a user has: bytes, items, levels, room, places, uses of a reader. The contracts
 * admit MEMORY, or to keep nothing, at any of them, so a library that gave up at 16 MiB, at 20 levels or after 16,384 uses would be proved.
 * `rows` names the numbers of each function below, and bindings/check_exports compares them with the header; longest.c has those of
 * lists of chunks.
 */
#include "harness.h"

enum {
    LARGE = (1 << 30) + 8,         /* bytes, of data and of room */
    CHUNK = 1 << 24,               /* bytes of a large chunk */
    KEPT = 65,                     /* such chunks, of more than 1 GiB */
    DEEP = 60,                     /* levels of a range proof */
    USES = (1 << 20) + 1,          /* of one reader */
    HASHES = (1 << 22) + 1,        /* that a session knows */
    PAIRS = (1 << 21) + 1,         /* of one insertion to an index */
    LEAST = 5000,                  /* texts of each length up to this one are read */
    NODES = 300
};
static const uint64_t distant = UINT64_C(1) << 41; /* a place in a file */
static const yurewha_bytes no_salt = {{0}};

/* LARGE bytes that are 0, which are lent to all rows. */
static uint8_t *large;

/* A hash that no other number has. */
static yurewha_hash hash_of(uint64_t number) { return (yurewha_hash){{number * UINT64_C(0x9e3779b97f4a7c15), number, 7, 1}}; }

/* ---- Bytes and room */

static void data(void)
{
    const size_t offsets[] = {0, 1, LARGE};
    yurewha_hash whole, rest, parts[2];
    yurewha_hasher hasher;
    yurewha_data_hash(large, LARGE, &whole);
    yurewha_hasher_begin_data(&hasher);
    EXPECT_STATUS(YUREWHA_DONE, yurewha_hasher_update(&hasher, large, LARGE));
    EXPECT(yurewha_hasher_count(&hasher) == LARGE);
    yurewha_hasher_finalize(&hasher, &rest);
    EXPECT(same_hash(&whole, &rest));
    yurewha_data_hash(large + 1, LARGE - 1, &rest);
    EXPECT_STATUS(YUREWHA_DONE, yurewha_data_hashes(large, LARGE, offsets, LENGTH(offsets), parts, LENGTH(parts)));
    EXPECT(same_hash(&parts[1], &rest));
    yurewha_hasher_begin_internal(&hasher);
    EXPECT_STATUS(YUREWHA_DONE, yurewha_hasher_update(&hasher, large, LARGE));
    yurewha_hasher_finalize(&hasher, &rest);
    yurewha_internal_node_hash(large, LARGE, &whole);
    EXPECT(same_hash(&whole, &rest));
    EXPECT_STATUS(YUREWHA_TEXT, yurewha_from_hex((const char *)large, LARGE, &rest));
    EXPECT_STATUS(YUREWHA_TEXT, yurewha_from_base64((const char *)large, LARGE, &rest));
}

/* A file whose bytes are 0, which is cut only where chunks are as long as they may be. */
static void one_piece(void)
{
    enum { MOST = 1 << 17, COUNT = (LARGE + MOST - 1) / MOST };
    yurewha_chunker chunker;
    yurewha_file_hasher hasher = {0};
    yurewha_chunk *chunks = block(COUNT * sizeof *chunks);
    yurewha_hash found, wanted;
    size_t count = 0, at = 0;
    uint64_t end, size = 0;
    yurewha_data_hash(large, MOST, &chunks[0].hash);
    yurewha_chunker_begin(&chunker);
    for (; (end = yurewha_chunker_next_boundary(&chunker, large + at, LARGE - at)) != 0; at += end) {
        EXPECT(end == MOST && count + 1 < COUNT);
        chunks[count++] = (yurewha_chunk){chunks[0].hash, end};
    }
    chunks[count].size = yurewha_chunker_taken(&chunker);
    EXPECT(count == COUNT - 1 && chunks[count].size == LARGE % MOST);
    yurewha_data_hash(large, LARGE % MOST, &chunks[count].hash);
    EXPECT_STATUS(YUREWHA_DONE, yurewha_file_hash(chunks, COUNT, &wanted));
    EXPECT_STATUS(YUREWHA_DONE, yurewha_file_hasher_new(&hasher));
    EXPECT_STATUS(YUREWHA_DONE, yurewha_file_hasher_update(&hasher, large, LARGE));
    EXPECT_STATUS(YUREWHA_DONE, yurewha_file_hasher_size(&hasher, &size));
    EXPECT_STATUS(YUREWHA_DONE, yurewha_file_hasher_finish(&hasher, &found));
    EXPECT(size == LARGE && same_hash(&found, &wanted));
    yurewha_file_hasher_free(&hasher);
    free(chunks);
}

/* As many chunks as data that is empty. */
static void many_offsets(void)
{
    size_t *offsets = block((USES + 1) * sizeof *offsets);
    yurewha_hash *hashes = block(USES * sizeof *hashes), wanted;
    memset(offsets, 0, (USES + 1) * sizeof *offsets);
    EXPECT_STATUS(YUREWHA_DONE, yurewha_data_hashes(large, 0, offsets, USES + 1, hashes, USES));
    yurewha_data_hash(NULL, 0, &wanted);
    EXPECT(same_hash(&hashes[0], &wanted) && same_hash(&hashes[USES - 1], &wanted));
    free(offsets);
    free(hashes);
}

/* A list without a stable point, then with many, and as the nodes of a range proof. */
static void many_nodes(void)
{
    yurewha_chunk *chunks = list_of(".", USES);
    size_t first = 0, last = 0;
    EXPECT_STATUS(YUREWHA_ARGUMENTS, yurewha_find_stable_start(chunks, USES, &first));
    EXPECT_STATUS(YUREWHA_ARGUMENTS, yurewha_find_stable_end(chunks, USES, &last));
    for (size_t i = 0; i < USES; i++)
        chunks[i].hash.words[3] = i % 4 != 3;
    EXPECT_STATUS(YUREWHA_DONE, yurewha_find_stable_start(chunks, USES, &first));
    EXPECT_STATUS(YUREWHA_DONE, yurewha_find_stable_end(chunks, USES, &last));
    EXPECT(first < 100 && last > USES - 100);
    EXPECT_STATUS(YUREWHA_DONE, yurewha_range_proof_check(NULL, 0, chunks, USES));
    free(chunks);
}

static void numbers_of_hashes(void)
{
    const yurewha_hash hash = {{1, 2, 3, UINT64_MAX}};
    yurewha_hash other;
    uint64_t rest = 1;
    EXPECT_STATUS(YUREWHA_DONE, yurewha_remainder(&hash, UINT64_MAX, &rest));
    EXPECT(rest == 0);
    yurewha_random_from_seed(UINT64_MAX, &other);
    EXPECT(!same_hash(&hash, &other));
}

/* What calls write to room that is larger than any text. */
static void rooms(void)
{
    char *room = (char *)large;
    const size_t of_levels = LARGE / sizeof(yurewha_level), of_nodes = LARGE / sizeof(yurewha_chunk);
    yurewha_level *levels = (yurewha_level *)large, few_levels[DEEP];
    yurewha_chunk *nodes = (yurewha_chunk *)large, few_nodes[NODES + DEEP], *chunks = list_of(NULL, NODES);
    yurewha_subtree range = range_of(chunks, 0, NODES, false, false);
    yurewha_session session = {0};
    yurewha_hash_tree tree = {0};
    size_t length = 0, level_count = 0, node_count = 0, again = 0;
    EXPECT_STATUS(YUREWHA_DONE, yurewha_version(room, LARGE, &length));
    EXPECT_STATUS(YUREWHA_DONE, yurewha_status_text(YUREWHA_DONE, room, LARGE, &length));
    EXPECT_STATUS(YUREWHA_DONE, yurewha_hex(&chunks[0].hash, room, LARGE, &length));
    EXPECT_STATUS(YUREWHA_DONE, yurewha_base64(&chunks[0].hash, room, LARGE, &length));
    EXPECT_STATUS(YUREWHA_DONE, yurewha_subtree_to_json(&range, room, LARGE, &length));
    EXPECT_STATUS(YUREWHA_DONE, yurewha_subtree_to_flat(&range, levels, of_levels, few_nodes, NODES, &level_count, &node_count));
    EXPECT_STATUS(YUREWHA_DONE, yurewha_subtree_to_flat(&range, few_levels, DEEP, nodes, of_nodes, &level_count, &again));
    EXPECT(node_count == again);
    EXPECT_STATUS(YUREWHA_DONE, yurewha_session_new(&session));
    EXPECT_STATUS(YUREWHA_DONE, yurewha_session_push_run(&session, 0, NODES, &range));
    EXPECT_STATUS(YUREWHA_DONE, yurewha_session_to_json(&session, true, room, LARGE, &length));
    EXPECT_STATUS(YUREWHA_DONE, yurewha_hash_tree_from_chunks(chunks, NODES, &tree));
    EXPECT_STATUS(YUREWHA_DONE, yurewha_hash_tree_proof(&tree, 0, 1, levels, of_levels, few_nodes, NODES, &level_count, &again));
    EXPECT_STATUS(YUREWHA_DONE, yurewha_hash_tree_proof(&tree, 0, 1, few_levels, DEEP, nodes, of_nodes, &level_count, &node_count));
    EXPECT_STATUS(YUREWHA_DONE, yurewha_hash_tree_proof(&tree, 0, 1, few_levels, DEEP, few_nodes, NODES, &level_count, &node_count));
    EXPECT(node_count == again);
    char *text = block(NODES * 200);
    EXPECT_STATUS(YUREWHA_DONE, yurewha_range_proof_to_json(few_levels, level_count, few_nodes, node_count, room, LARGE, &length));
    memcpy(text, room, length);
    EXPECT_STATUS(YUREWHA_DONE, yurewha_range_proof_from_json(text, length, levels, of_levels, few_nodes, NODES, &level_count, &again));
    EXPECT_STATUS(YUREWHA_DONE, yurewha_range_proof_from_json(text, length, few_levels, DEEP, nodes, of_nodes, &level_count, &again));
    EXPECT_STATUS(YUREWHA_DONE, yurewha_range_proof_to_bytes(few_levels, level_count, few_nodes, node_count, large, LARGE, &length));
    memcpy(text, large, length);
    EXPECT_STATUS(YUREWHA_DONE, yurewha_range_proof_from_bytes(text, length, levels, of_levels, few_nodes, NODES, &level_count, &again));
    EXPECT_STATUS(YUREWHA_DONE, yurewha_range_proof_from_bytes(text, length, few_levels, DEEP, nodes, of_nodes, &level_count, &again));
    EXPECT(node_count == again);
    free(text);
    yurewha_hash_tree_free(&tree);
    yurewha_session_free(&session);
    yurewha_subtree_free(&range);
    free(chunks);
}

/* ---- Levels, places and sizes: the last chunk of a file whose others have more than 2^41 bytes, by a proof of 60 levels */

static struct {
    yurewha_level levels[DEEP];
    yurewha_chunk nodes[DEEP + 1]; /* the last one is the chunk, which has CHUNK bytes that are 0 */
    yurewha_hash root, file;
    uint64_t from, end; /* where the chunk is */
} deep;

static void make_deep(void)
{
    deep.nodes[DEEP].size = CHUNK;
    yurewha_data_hash(large, CHUNK, &deep.nodes[DEEP].hash);
    yurewha_chunk pair[2] = {{.size = 0}, deep.nodes[DEEP]};
    for (size_t i = 0; i < DEEP; i++) {
        pair[0] = (yurewha_chunk){hash_of(i + 1), i == 0 ? distant : 1};
        deep.from += pair[0].size;
        deep.levels[i] = (yurewha_level){1, 0};
        deep.nodes[i] = pair[0];
        EXPECT_STATUS(YUREWHA_DONE, yurewha_xorb_hash(pair, 2, &pair[1].hash));
        pair[1].size += pair[0].size;
    }
    deep.end = deep.from + CHUNK;
    deep.root = pair[1].hash;
    const yurewha_hash zeros = {{0, 0, 0, 0}};
    yurewha_hmac(&deep.root, &zeros, &deep.file);
}

static void deep_proof(void)
{
    enum { TEXT = 1 << 16 };
    char *text = block(TEXT), *bytes = block(TEXT);
    size_t length = 0, byte_count = 0, level_count = 0, node_count = 0, start = 1, count = 0;
    yurewha_level levels[DEEP];
    yurewha_chunk nodes[DEEP + 1];
    yurewha_opened_range range = {0};
    uint64_t begin = 0, end = 0, place = 0;
    EXPECT_STATUS(YUREWHA_DONE, yurewha_range_proof_check(deep.levels, DEEP, deep.nodes, DEEP + 1));
    EXPECT_STATUS(YUREWHA_DONE, yurewha_range_proof_to_json(deep.levels, DEEP, deep.nodes, DEEP + 1, text, TEXT, &length));
    EXPECT_STATUS(YUREWHA_DONE, yurewha_range_proof_from_json(text, length, levels, DEEP, nodes, DEEP + 1, &level_count, &node_count));
    EXPECT(level_count == DEEP && node_count == DEEP + 1 && memcmp(nodes, deep.nodes, sizeof nodes) == 0);
    EXPECT_STATUS(YUREWHA_DONE, yurewha_range_proof_to_bytes(deep.levels, DEEP, deep.nodes, DEEP + 1, (uint8_t *)bytes, TEXT, &byte_count));
    EXPECT_STATUS(YUREWHA_DONE, yurewha_range_proof_from_bytes(bytes, byte_count, levels, DEEP, nodes, DEEP + 1, &level_count, &node_count));
    EXPECT(level_count == DEEP && node_count == DEEP + 1 && memcmp(nodes, deep.nodes, sizeof nodes) == 0);
    EXPECT_STATUS(YUREWHA_DONE, yurewha_range_proof_open(deep.levels, DEEP, deep.nodes, DEEP + 1, &deep.file, &no_salt, &range));
    EXPECT_STATUS(YUREWHA_DONE, yurewha_range_proof_open_root(deep.levels, DEEP, deep.nodes, DEEP + 1, &deep.root, &range));
    EXPECT_STATUS(YUREWHA_DONE, yurewha_opened_range_bytes_of(&range, 0, &begin, &end));
    EXPECT(begin == deep.from && end == deep.end);
    EXPECT_STATUS(YUREWHA_ARGUMENTS, yurewha_opened_range_bytes_of(&range, SIZE_MAX, &begin, &end));
    EXPECT_STATUS(YUREWHA_DONE, yurewha_opened_range_check(&range, 0, large, CHUNK, &place));
    EXPECT_STATUS(YUREWHA_MISMATCH, yurewha_opened_range_check(&range, 0, large, LARGE, &place));
    EXPECT_STATUS(YUREWHA_MISMATCH, yurewha_opened_range_check(&range, SIZE_MAX, large, CHUNK, &place));
    EXPECT_STATUS(YUREWHA_DONE, yurewha_opened_range_read(&range, deep.from + 1, deep.end, large, CHUNK, &start));
    EXPECT_STATUS(YUREWHA_MISMATCH, yurewha_opened_range_read(&range, deep.from + 1, deep.end, large, LARGE, &start));
    EXPECT(place == deep.from && start == 1);
    yurewha_part part = {0};
    EXPECT_STATUS(YUREWHA_DONE, yurewha_part_open(deep.levels, DEEP, deep.nodes, DEEP + 1, &deep.file, &no_salt, deep.end - 1, UINT64_MAX,
                                                  UINT64_MAX, &begin, &end, &part));
    EXPECT(begin == deep.from && end == deep.end);
    EXPECT_STATUS(YUREWHA_DONE, yurewha_part_check(&part, large, CHUNK, true, &start, &count));
    EXPECT(start == CHUNK - 1 && count == 1);
    yurewha_part_free(&part);
    yurewha_opened_range_free(&range);
    free(text);
    free(bytes);
}

/* A reader of that file, which is read far behind its begin. */
static void far_reader(void)
{
    yurewha_reader reader = {0};
    yurewha_part part = {0};
    uint64_t begin = 0, end = 0, counted = 0;
    size_t start = 0, count = 0, filled = 0;
    EXPECT_STATUS(YUREWHA_DONE, yurewha_reader_new(&deep.file, &no_salt, UINT64_MAX, &reader));
    EXPECT_STATUS(YUREWHA_DONE, yurewha_reader_read(&reader, UINT64_MAX - LARGE, large, LARGE, UINT64_MAX, &filled, &end));
    EXPECT(filled == 0);
    EXPECT_STATUS(YUREWHA_DONE, yurewha_part_open(deep.levels, DEEP, deep.nodes, DEEP + 1, &deep.file, &no_salt, deep.from, UINT64_MAX, 0,
                                                  &begin, &end, &part));
    EXPECT_STATUS(YUREWHA_DONE, yurewha_part_check(&part, large, CHUNK, true, &start, &count));
    EXPECT_STATUS(YUREWHA_DONE, yurewha_reader_take(&reader, &part));
    EXPECT_STATUS(YUREWHA_DONE, yurewha_reader_read(&reader, deep.from, large, LARGE, UINT64_MAX, &filled, &end));
    EXPECT(filled == CHUNK && end == deep.end);
    EXPECT_STATUS(YUREWHA_ARGUMENTS, yurewha_reader_needs(&reader, deep.from, UINT64_MAX, UINT64_MAX, &begin, &end));
    EXPECT_STATUS(YUREWHA_DONE, yurewha_reader_needs(&reader, 0, UINT64_MAX, UINT64_MAX, &begin, &end));
    EXPECT(begin == 0 && end >= deep.from);
    EXPECT_STATUS(YUREWHA_DONE, yurewha_reader_piece(&reader, deep.from, distant, &begin, &end));
    EXPECT(begin % distant == 0 && begin <= deep.from && deep.from < end && end <= begin + distant);
    EXPECT_STATUS(YUREWHA_DONE, yurewha_reader_keep_at_most(&reader, UINT64_MAX));
    EXPECT_STATUS(YUREWHA_DONE, yurewha_reader_counted(&reader, &counted));
    EXPECT(counted == CHUNK + 128);
    yurewha_reader_free(&reader);
}

/* ---- What a reader keeps, and how often it is used */

/* A file of equal chunks, its hash tree, and a reader of it. */
struct file {
    size_t count, size;
    yurewha_hash_tree tree;
    yurewha_hash hash;
    yurewha_reader reader;
};

static struct file file_of(const uint8_t *bytes, size_t size, size_t count, uint64_t most)
{
    struct file file = {.count = count, .size = size};
    yurewha_chunk *chunks = block(count * sizeof *chunks);
    yurewha_data_hash(bytes, size, &chunks[0].hash);
    chunks[0].size = size;
    for (size_t i = 1; i < count; i++)
        chunks[i] = chunks[0];
    EXPECT_STATUS(YUREWHA_DONE, yurewha_hash_tree_from_chunks(chunks, count, &file.tree));
    EXPECT_STATUS(YUREWHA_DONE, yurewha_hash_tree_file_hash(&file.tree, &no_salt, &file.hash));
    EXPECT_STATUS(YUREWHA_DONE, yurewha_reader_new(&file.hash, &no_salt, most, &file.reader));
    free(chunks);
    return file;
}

static void free_file(struct file *file)
{
    yurewha_hash_tree_free(&file->tree);
    yurewha_reader_free(&file->reader);
}

/* Gives a reader some chunks, whose data is this one. */
static void take(struct file *file, size_t first, size_t end, const uint8_t *bytes)
{
    yurewha_level levels[DEEP];
    yurewha_chunk nodes[NODES];
    yurewha_part part = {0};
    size_t level_count = 0, node_count = 0, start = 0, count = 0;
    uint64_t begin = 0, stop = 0;
    EXPECT_STATUS(YUREWHA_DONE, yurewha_hash_tree_proof(&file->tree, first, end, levels, DEEP, nodes, NODES, &level_count, &node_count));
    EXPECT_STATUS(YUREWHA_DONE, yurewha_part_open(levels, level_count, nodes, node_count, &file->hash, &no_salt, first * file->size,
                                                  end * file->size, 0, &begin, &stop, &part));
    EXPECT_STATUS(YUREWHA_DONE, yurewha_part_check(&part, bytes, (end - first) * file->size, true, &start, &count));
    EXPECT_STATUS(YUREWHA_DONE, yurewha_reader_take(&file->reader, &part));
}

/* Reads a chunk. Returns whether it is kept. */
static bool read_chunk(struct file *file, size_t chunk, uint8_t *room)
{
    size_t filled = 0;
    uint64_t end = 0;
    EXPECT_STATUS(YUREWHA_DONE, yurewha_reader_read(&file->reader, chunk * file->size, room, file->size, 1, &filled, &end));
    return filled == file->size;
}

static bool keeps(struct file *file, size_t chunk)
{
    uint64_t begin = 0, end = 0;
    return yurewha_reader_needs(&file->reader, chunk * file->size, (chunk + 1) * file->size, 1, &begin, &end) == YUREWHA_ARGUMENTS;
}

/* More than 1 GiB, in chunks of 16 MiB. */
static void much_kept(void)
{
    struct file file = file_of(large, CHUNK, KEPT, UINT64_MAX);
    uint8_t *room = block(CHUNK);
    uint64_t counted = 0;
    for (size_t i = 0; i < KEPT; i++)
        take(&file, i, i + 1, large);
    EXPECT_STATUS(YUREWHA_DONE, yurewha_reader_counted(&file.reader, &counted));
    EXPECT(counted == KEPT * (CHUNK + UINT64_C(128)));
    for (size_t i = 0; i < KEPT; i++)
        EXPECT(keeps(&file, i));
    EXPECT(read_chunk(&file, KEPT - 1, room) && memcmp(room, large, CHUNK) == 0);
    free(room);
    free_file(&file);
}

/* After many reads, and after many takes, chunks are kept, and those that were used longest ago are dropped first. A chunk is used where
 * it is read, as the second one of a read, too, and where it is taken, also again. */
static void many_uses(void)
{
    enum { SIZE = 10, COUNT = 5 };
    uint8_t room[2 * SIZE];
    struct file file = file_of(large, SIZE, COUNT, UINT64_MAX);
    size_t filled = 0;
    uint64_t end = 0;
    take(&file, 0, 2, large);
    for (size_t i = 0; i < USES; i++)
        EXPECT(read_chunk(&file, i % 2, room));
    for (size_t i = 0; i < USES / 16; i++)
        take(&file, 2, 4, large);
    take(&file, 4, 5, large); // the order is 0, 1, 2, 3, 4
    EXPECT_STATUS(YUREWHA_DONE, yurewha_reader_read(&file.reader, SIZE, room, 2 * SIZE, 1, &filled, &end)); // 0, 3, 4, 1, 2
    EXPECT(filled == 2 * SIZE);
    take(&file, 3, 4, large); // 0, 4, 1, 2, 3
    static const size_t dropped[COUNT] = {0, 4, 1, 2, 3};
    for (size_t i = 0; i < COUNT; i++) {
        EXPECT(keeps(&file, dropped[i]));
        EXPECT_STATUS(YUREWHA_DONE, yurewha_reader_keep_at_most(&file.reader, (COUNT - i) * (SIZE + 128) - 1));
        for (size_t j = 0; j < COUNT; j++)
            EXPECT(keeps(&file, dropped[j]) == (j > i));
    }
    free_file(&file);
}

/* ---- Positions and hashes of sessions, and indexes */

static void far_positions(void)
{
    const uint64_t first = UINT64_MAX - NODES;
    yurewha_chunk *chunks = list_of(NULL, NODES);
    yurewha_session session = {0};
    yurewha_subtree range = range_of(chunks, 0, NODES, false, false), found = {0};
    yurewha_hash root, file, salted;
    uint64_t fresh = 0, begin = 0, end = 0;
    bool is_taken = false;
    EXPECT_STATUS(YUREWHA_DONE, yurewha_session_new(&session));
    EXPECT_STATUS(YUREWHA_DONE, yurewha_session_put(&session, first, chunks, NODES, &fresh));
    EXPECT_STATUS(YUREWHA_DONE, yurewha_session_taken(&session, UINT64_MAX - 1, &is_taken));
    EXPECT(is_taken);
    EXPECT_STATUS(YUREWHA_DONE, yurewha_session_next_gap(&session, 0, UINT64_MAX, &begin, &end));
    EXPECT(begin == 0 && end == first);
    EXPECT_STATUS(YUREWHA_ARGUMENTS, yurewha_session_next_gap(&session, UINT64_MAX - 1, UINT64_MAX, &begin, &end));
    EXPECT_STATUS(YUREWHA_DONE, yurewha_session_run_from(&session, UINT64_MAX - 1, &begin, &end, &found));
    EXPECT(begin == first && end == UINT64_MAX && same_subtree(&found, &range));
    EXPECT_STATUS(YUREWHA_ARGUMENTS, yurewha_session_run(&session, SIZE_MAX, &begin, &found));
    yurewha_session_free(&session);
    EXPECT_STATUS(YUREWHA_DONE, yurewha_session_new(&session));
    EXPECT_STATUS(YUREWHA_DONE, yurewha_session_push_run(&session, 0, UINT64_MAX, &range));
    EXPECT_STATUS(YUREWHA_DONE, yurewha_session_root(&session, UINT64_MAX, &root));
    EXPECT_STATUS(YUREWHA_DONE, yurewha_session_finish(&session, UINT64_MAX, &file));
    EXPECT_STATUS(YUREWHA_DONE, yurewha_session_finish_with_salt(&session, UINT64_MAX, &no_salt, &salted));
    EXPECT(same_hash(&file, &salted));
    yurewha_subtree_free(&found);
    yurewha_subtree_free(&range);
    yurewha_session_free(&session);
    free(chunks);
}

/* Ranges at the last positions, and at all before them. */
static void far_ranges(void)
{
    yurewha_chunk *chunks = list_of(NULL, NODES);
    yurewha_session session = {0};
    yurewha_subtree range = range_of(chunks, 0, NODES, false, false), twice = {0}, found = {0};
    uint64_t begin = 1, end = 0;
    EXPECT_STATUS(YUREWHA_DONE, yurewha_subtree_clone(&range, &twice));
    EXPECT_STATUS(YUREWHA_DONE, yurewha_subtree_merge_into(&twice, &range));
    EXPECT_STATUS(YUREWHA_DONE, yurewha_session_new(&session));
    EXPECT_STATUS(YUREWHA_SESSION_POSITIONS, yurewha_session_put_range(&session, UINT64_MAX, UINT64_MAX, &range));
    EXPECT_STATUS(YUREWHA_DONE, yurewha_session_put_range(&session, UINT64_MAX - 1, 1, &range));
    EXPECT_STATUS(YUREWHA_SESSION_OVERLAP, yurewha_session_put_range(&session, 0, UINT64_MAX, &range));
    EXPECT_STATUS(YUREWHA_DONE, yurewha_session_put_range(&session, 0, UINT64_MAX - 1, &range));
    EXPECT_STATUS(YUREWHA_DONE, yurewha_session_run_from(&session, 0, &begin, &end, &found));
    EXPECT(begin == 0 && end == UINT64_MAX && same_subtree(&found, &twice));
    EXPECT_STATUS(YUREWHA_DONE, yurewha_session_new(&session));
    EXPECT_STATUS(YUREWHA_DONE, yurewha_session_put_range(&session, 0, UINT64_MAX, &range));
    EXPECT_STATUS(YUREWHA_DONE, yurewha_session_run_from(&session, UINT64_MAX - 1, &begin, &end, &found));
    EXPECT(begin == 0 && end == UINT64_MAX && same_subtree(&found, &range));
    yurewha_subtree_free(&found);
    yurewha_subtree_free(&twice);
    yurewha_subtree_free(&range);
    yurewha_session_free(&session);
    free(chunks);
}

static void many_hashes(void)
{
    yurewha_hash *hashes = block(HASHES * sizeof *hashes);
    uint8_t *known = block(HASHES);
    yurewha_session session = {0}, read = {0};
    size_t count = 0, length = 0;
    for (size_t i = 0; i < HASHES; i++)
        hashes[i] = hash_of(i);
    EXPECT_STATUS(YUREWHA_DONE, yurewha_session_new(&session));
    EXPECT_STATUS(YUREWHA_DONE, yurewha_session_keep_hashes(&session, hashes, HASHES));
    EXPECT_STATUS(YUREWHA_DONE, yurewha_session_knows_each(&session, hashes, HASHES, known, HASHES));
    EXPECT(known[0] == 1 && memcmp(known, known + 1, HASHES - 1) == 0);
    EXPECT_STATUS(YUREWHA_DONE, yurewha_session_known_hashes(&session, hashes, HASHES));
    free(hashes);
    free(known);
    EXPECT_STATUS(YUREWHA_ROOM, yurewha_session_to_json(&session, true, NULL, 0, &length));
    char *text = block(length);
    EXPECT_STATUS(YUREWHA_DONE, yurewha_session_to_json(&session, true, text, length, &length));
    yurewha_session_free(&session);
    EXPECT_STATUS(YUREWHA_DONE, yurewha_session_from_json(text, length, true, &read));
    EXPECT_STATUS(YUREWHA_DONE, yurewha_session_num_known_hashes(&read, &count));
    EXPECT(count == HASHES);
    yurewha_session_free(&read);
    free(text);
}

/* Many pairs at once, and as many again. */
static void many_pairs(void)
{
    yurewha_hash *hashes = block(2 * PAIRS * sizeof *hashes);
    uint64_t *numbers = block(2 * PAIRS * sizeof *numbers), *found = block(2 * PAIRS * sizeof *found);
    uint8_t *has = block(2 * PAIRS);
    yurewha_hash_index index = {0};
    size_t fresh = 0;
    for (size_t i = 0; i < 2 * PAIRS; i++) {
        hashes[i] = hash_of(i);
        numbers[i] = UINT64_MAX - i;
    }
    EXPECT_STATUS(YUREWHA_DONE, yurewha_hash_index_new(&index));
    for (size_t i = 0; i < 2; i++) {
        EXPECT_STATUS(YUREWHA_DONE, yurewha_hash_index_insert(&index, hashes + i * PAIRS, PAIRS, numbers + i * PAIRS, PAIRS, &fresh));
        EXPECT(fresh == PAIRS);
    }
    EXPECT_STATUS(YUREWHA_DONE, yurewha_hash_index_find(&index, hashes, 2 * PAIRS, has, 2 * PAIRS, found, 2 * PAIRS));
    EXPECT(has[0] == 1 && memcmp(has, has + 1, 2 * PAIRS - 1) == 0 && memcmp(found, numbers, 2 * PAIRS * sizeof *found) == 0);
    EXPECT_STATUS(YUREWHA_DONE, yurewha_hash_index_entries(&index, hashes, 2 * PAIRS, found, 2 * PAIRS));
    yurewha_hash_index_free(&index);
    free(hashes);
    free(numbers);
    free(found);
    free(has);
}

/* ---- Texts of each length */

/* Reads a text with spaces behind it, by each call that reads such a text. */
static void read_padded(const char *text, void (*read)(const char *text, size_t length))
{
    char *padded = block(LEAST);
    memset(padded, ' ', LEAST);
    memcpy(padded, text, strlen(text));
    for (size_t length = strlen(text); length <= LEAST; length++)
        read(padded, length);
    free(padded);
}

static void read_subtree(const char *text, size_t length)
{
    yurewha_subtree read = {0};
    EXPECT_STATUS(YUREWHA_DONE, yurewha_subtree_from_json(text, length, &read));
    yurewha_subtree_free(&read);
}

static void read_session(const char *text, size_t length)
{
    yurewha_session read = {0};
    EXPECT_STATUS(YUREWHA_DONE, yurewha_session_from_json(text, length, true, &read));
    yurewha_session_free(&read);
}

static void read_proof(const char *text, size_t length)
{
    yurewha_level level;
    yurewha_chunk node;
    size_t levels = 0, nodes = 0;
    EXPECT_STATUS(YUREWHA_DONE, yurewha_range_proof_from_json(text, length, &level, 1, &node, 1, &levels, &nodes));
}

static void each_length(void)
{
    static const char hash[] = "0100000000000000000000000000000000000000000000000000000000000000";
    char text[200];
    read_padded("{\"known_hashes\":[[1,2,3,4]],\"runs\":[]}", read_session);
    snprintf(text, sizeof text, "{\"chunks\":[{\"hash\":\"%s\",\"size\":7}],\"levels\":[]}", hash);
    read_padded(text, read_proof);
    yurewha_subtree range = {0};
    size_t length = 0;
    EXPECT_STATUS(YUREWHA_DONE, yurewha_subtree_from_chunks(true, NULL, 0, true, &range));
    EXPECT_STATUS(YUREWHA_DONE, yurewha_subtree_to_json(&range, text, sizeof text - 1, &length));
    text[length] = '\0';
    read_padded(text, read_subtree);
    yurewha_subtree_free(&range);
}

/* ---- Numbers of a hash tree */

static void far_in_tree(void)
{
    yurewha_chunk *chunks = list_of(NULL, NODES);
    chunks[1].size = distant;
    yurewha_hash_tree tree = {0};
    size_t first = 0, end = 0, count = 0;
    uint64_t from = 0, to = 0;
    EXPECT_STATUS(YUREWHA_DONE, yurewha_hash_tree_from_chunks(chunks, NODES, &tree));
    EXPECT_STATUS(YUREWHA_DONE, yurewha_hash_tree_chunks_at(&tree, distant, UINT64_MAX, &first, &end));
    EXPECT(first == 1 && end == NODES);
    EXPECT_STATUS(YUREWHA_DONE, yurewha_hash_tree_bytes_of(&tree, 2, NODES, &from, &to));
    EXPECT(from == distant + chunks[0].size);
    EXPECT_STATUS(YUREWHA_ARGUMENTS, yurewha_hash_tree_bytes_of(&tree, SIZE_MAX - 1, SIZE_MAX, &from, &to));
    EXPECT_STATUS(YUREWHA_ARGUMENTS, yurewha_hash_tree_proof(&tree, SIZE_MAX - 1, SIZE_MAX, NULL, 0, NULL, 0, &first, &end));
    EXPECT_STATUS(YUREWHA_DONE, yurewha_hash_tree_common_suffix(&tree, &tree, SIZE_MAX, &count));
    EXPECT(count == NODES);
    yurewha_hash_tree_free(&tree);
    free(chunks);
}

/* A subtree of one node above many levels without any. */
static void deep_lists(void)
{
    enum { TEXT = 2000 };
    const yurewha_chunk node = {hash_of(1), 1};
    yurewha_level levels[DEEP] = {{0, 0}};
    yurewha_subtree range = {0}, read = {0};
    char text[TEXT];
    size_t length = 0;
    levels[DEEP - 1].left = 1;
    EXPECT_STATUS(YUREWHA_DONE, yurewha_subtree_from_flat(true, levels, DEEP, &node, 1, true, &range));
    EXPECT_STATUS(YUREWHA_DONE, yurewha_subtree_to_json(&range, text, TEXT, &length));
    EXPECT_STATUS(YUREWHA_DONE, yurewha_subtree_from_json(text, length, &read));
    EXPECT(same_subtree(&read, &range));
    yurewha_subtree_free(&range);
    yurewha_subtree_free(&read);
}

/* The numbers that a function gives, each by its call and its name. */
static const struct {
    const char *numbers;
    void (*make)(void);
} rows[] = {
    {"data_hash length, internal_node_hash length, data_hashes length, hasher_update length, from_hex length, from_base64 length", data},
    {"chunker_next_boundary length, file_hasher_update length", one_piece},
    {"data_hashes offset_count, data_hashes count", many_offsets},
    {"find_stable_start count, find_stable_end count, range_proof_check node_count", many_nodes},
    {"remainder divisor, random_from_seed seed", numbers_of_hashes},
    {"range_proof_check level_count, range_proof_to_json level_count, range_proof_to_bytes level_count, range_proof_open level_count, "
     "range_proof_open_root level_count, part_open level_count, part_open from, part_open to, part_open beyond, "
     "opened_range_bytes_of chunk, opened_range_check chunk, opened_range_check length, "
     "opened_range_read from, opened_range_read to, opened_range_read length, part_check length", deep_proof},
    {"reader_new most, reader_read from, reader_read count, reader_read piece, reader_needs from, reader_needs to, reader_needs piece, "
     "reader_piece place, reader_piece piece, "
     "reader_keep_at_most most", far_reader},
    {"", much_kept},
    {"", many_uses},
    {"session_put first, session_taken position, session_next_gap position, session_next_gap total, session_run_from position, "
     "session_run index, session_push_run first, session_push_run end, session_root total, session_finish total, "
     "session_finish_with_salt total", far_positions},
    {"session_put_range first, session_put_range count", far_ranges},
    {"session_keep_hashes count, session_knows_each count, session_knows_each known_count, session_known_hashes count, "
     "session_from_json length", many_hashes},
    {"hash_index_insert count, hash_index_insert number_count, hash_index_find count, hash_index_find found_count, "
     "hash_index_find number_count, hash_index_entries count, hash_index_entries number_count", many_pairs},
    {"", each_length},
    {"hash_tree_chunks_at from, hash_tree_chunks_at to, hash_tree_bytes_of first, hash_tree_bytes_of end, hash_tree_proof first, "
     "hash_tree_proof end, hash_tree_common_suffix most", far_in_tree},
    {"subtree_from_flat level_count", deep_lists},
    // The last row, as it writes to `large`.
    {"version room, status_text room, hex room, base64 room, subtree_to_json room, subtree_to_flat level_room, subtree_to_flat node_room, "
     "session_to_json room, hash_tree_proof level_room, hash_tree_proof node_room, range_proof_to_json room, range_proof_from_json level_room, "
     "range_proof_from_json node_room, range_proof_to_bytes byte_room, range_proof_from_bytes level_room, range_proof_from_bytes node_room",
     rooms},
};

void test_numbers(void)
{
    if (largest() < HASHES)
        return;
    const long before = live_blocks();
    large = calloc(LARGE, 1);
    EXPECT(large != NULL);
    make_deep();
    for (size_t i = 0; i < LENGTH(rows); i++) {
        row("%.40s", rows[i].numbers);
        rows[i].make();
    }
    EXPECT(live_blocks() == before);
    free(large);
}
