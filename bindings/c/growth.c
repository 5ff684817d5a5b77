/*
 * What calls over lists ask of malloc. Each row of `rows` is made with few chunks and with many. It may make so many requests, and
 * ask for so many bytes, for each chunk, and some more whatever their number. bindings/c/test counts instructions of both sizes.
 *
 * The bounds are half as much again as is asked for:
 *
 * - A node has 40 bytes. Calls copy the list that they get once, or not at all for its root, its subtree and its stable points. The
 *   parents of n nodes are at most n / 3, and those of parents are made in their place.
 * - A subtree of random chunks keeps a few nodes a level. Without natural cuts it keeps all.
 * - A hash tree keeps all nodes of all levels.
 * - A hasher of a file keeps a range of its first chunks, and the nodes of at most 4096 after them in a list that grows by doubling. Its
 *   root copies both. The file has no stable point, so the range keeps all nodes.
 * - A table of hashes grows by doubling.
 * - The JSON of a subtree is written to one text, and what was written so is read without a tree of values, and written again. Other JSON
 *   is read and written by way of a tree of values, with four requests for each node.
 */
#include "harness.h"

enum { FEW = 1000, MANY = 10000, CHUNK = 10, LEVELS = 64, ROOM = MANY + 1024, CUT = 3 * 2731 };
static const size_t sizes[] = {FEW, MANY};

/* The requests and bytes that may be asked for whatever the number of chunks. */
enum { FEW_REQUESTS = 120, FEW_BYTES = 20000 };

/* A list, and what calls are made on. Chunk i has the bytes from 10 * i on. */
static struct list {
    size_t count;
    uint8_t *bytes;
    yurewha_chunk *chunks;
    yurewha_chunk *plain; /* without a natural cut */
    yurewha_hash root;
    yurewha_subtree front, back, *ranges;
    yurewha_session session, other;
    yurewha_hash_index index;
    yurewha_hash *hashes; /* of the chunks */
    uint64_t *numbers;
    yurewha_hash_tree tree;
    yurewha_opened_range opened;
    yurewha_part part;
    yurewha_reader reader;
    yurewha_file_hasher hasher;
    uint8_t cut[CUT]; /* a chunk of the file that is hashed, which has no others */
    yurewha_level levels[LEVELS];
    yurewha_chunk nodes[ROOM];
    size_t level_count, node_count, length;
    char *text;
} it;

static void make(size_t count)
{
    memset(&it, 0, sizeof it);
    it.count = count;
    it.bytes = message_of(count * CHUNK);
    it.chunks = block(count * sizeof *it.chunks);
    it.plain = list_of(".", count);
    for (size_t i = 0; i < count; i++) {
        memcpy(it.bytes + i * CHUNK, &i, sizeof i);
        yurewha_data_hash(it.bytes + i * CHUNK, CHUNK, &it.chunks[i].hash);
        it.chunks[i].size = CHUNK;
    }
}

static void unmake(void)
{
    for (size_t i = 0; it.ranges != NULL && i < it.count; i++)
        yurewha_subtree_free(&it.ranges[i]);
    yurewha_subtree_free(&it.front);
    yurewha_subtree_free(&it.back);
    yurewha_session_free(&it.session);
    yurewha_session_free(&it.other);
    yurewha_hash_index_free(&it.index);
    yurewha_hash_tree_free(&it.tree);
    yurewha_opened_range_free(&it.opened);
    yurewha_part_free(&it.part);
    yurewha_reader_free(&it.reader);
    yurewha_file_hasher_free(&it.hasher);
    free(it.ranges);
    free(it.text);
    free(it.bytes);
    free(it.chunks);
    free(it.plain);
    free(it.hashes);
    free(it.numbers);
}

/* ---- What is made before a call */

static void nothing(void) {}

static void two_halves(void)
{
    const size_t half = it.count / 2;
    it.front = range_of(it.chunks, 0, half, false, false);
    it.back = range_of(it.chunks, half, it.count, false, false);
}

static void plain_halves(void)
{
    const size_t half = it.count / 2;
    it.front = range_of(it.plain, 0, half, false, false);
    it.back = range_of(it.plain, half, it.count, false, false);
}

static void singles(void)
{
    it.ranges = block(it.count * sizeof *it.ranges);
    for (size_t i = 0; i < it.count; i++)
        it.ranges[i] = range_of(it.chunks, i, i + 1, false, false);
}

/* A range of the plain list, and one that has its last chunk alone. */
static void plain_and_one(void)
{
    it.front = range_of(it.plain, 0, it.count, false, false);
    it.back = range_of(it.plain, it.count - 1, it.count, false, false);
}

/* The same, where the one chunk is a natural cut. */
static void plain_and_cut(void)
{
    const yurewha_chunk cut = {{{1, 0, 0, 0}}, 1};
    it.front = range_of(it.plain, 0, it.count, false, false);
    it.back = range_of(&cut, 0, 1, false, false);
}

static void tree(void)
{
    EXPECT_STATUS(YUREWHA_DONE, yurewha_hash_tree_from_chunks(it.chunks, it.count, &it.tree));
    EXPECT_STATUS(YUREWHA_DONE, yurewha_hash_tree_root(&it.tree, &it.root));
}

static void proof(size_t first, size_t end)
{
    EXPECT_STATUS(YUREWHA_DONE, yurewha_hash_tree_proof(&it.tree, first, end, it.levels, LEVELS, it.nodes, ROOM, &it.level_count,
                                                        &it.node_count));
}

static void open(void)
{
    EXPECT_STATUS(YUREWHA_DONE, yurewha_range_proof_open_root(it.levels, it.level_count, it.nodes, it.node_count, &it.root,
                                                              &it.opened));
}

static void proof_of_one(void)
{
    tree();
    proof(it.count / 2, it.count / 2 + 1);
}

static void proof_of_all(void)
{
    tree();
    proof(0, it.count);
}

static void opened_one(void)
{
    proof_of_one();
    open();
}

static void opened_all(void)
{
    proof_of_all();
    open();
}

static const yurewha_bytes no_salt = {{0}};

static void open_part(uint64_t from, uint64_t to)
{
    yurewha_hash file;
    uint64_t begin = 0, end = 0;
    EXPECT_STATUS(YUREWHA_DONE, yurewha_hash_tree_file_hash(&it.tree, &no_salt, &file));
    EXPECT_STATUS(YUREWHA_DONE, yurewha_part_open(it.levels, it.level_count, it.nodes, it.node_count, &file, &no_salt, from, to, 0, &begin,
                                                  &end, &it.part));
}

static void open_all(void) { open_part(0, UINT64_MAX); }

static void part_of_all(void)
{
    proof_of_all();
    open_all();
}

static void part_of_one(void)
{
    const uint64_t from = it.count / 2 * CHUNK;
    proof_of_one();
    open_part(from, from + CHUNK);
}

static void check_part(void)
{
    size_t start = 0, count = 0;
    EXPECT_STATUS(YUREWHA_DONE, yurewha_part_check(&it.part, it.bytes, it.count * CHUNK, true, &start, &count));
}

static void check_part_alone(void)
{
    size_t start = 0, count = 0;
    EXPECT_STATUS(YUREWHA_DONE, yurewha_part_check(&it.part, it.bytes, it.count * CHUNK, false, &start, &count));
}

static void check_one_part(void)
{
    size_t start = 0, count = 0;
    EXPECT_STATUS(YUREWHA_DONE, yurewha_part_check(&it.part, it.bytes + it.count / 2 * CHUNK, CHUNK, true, &start, &count));
}

/* A reader without chunks, and a part of all of them that was checked. */
static void checked_part(void)
{
    yurewha_hash file;
    part_of_all();
    check_part();
    EXPECT_STATUS(YUREWHA_DONE, yurewha_hash_tree_file_hash(&it.tree, &no_salt, &file));
    EXPECT_STATUS(YUREWHA_DONE, yurewha_reader_new(&file, &no_salt, UINT64_MAX, &it.reader));
}

static void take(void) { EXPECT_STATUS(YUREWHA_DONE, yurewha_reader_take(&it.reader, &it.part)); }

/* A reader that keeps all chunks. */
static void taken_all(void)
{
    checked_part();
    take();
}

static void read_kept(void)
{
    uint8_t bytes[CHUNK];
    size_t filled = 0;
    uint64_t end = 0;
    EXPECT_STATUS(YUREWHA_DONE, yurewha_reader_read(&it.reader, it.count / 2 * CHUNK, bytes, CHUNK, 1, &filled, &end));
    EXPECT(filled == CHUNK && end == it.count / 2 * CHUNK + CHUNK);
}

static void needs_of_kept(void)
{
    uint64_t first = 0, end = 0;
    const uint64_t from = it.count / 2 * CHUNK;
    EXPECT_STATUS(YUREWHA_ARGUMENTS, yurewha_reader_needs(&it.reader, from, from + CHUNK, 1, &first, &end));
}

static void drop_one(void)
{
    EXPECT_STATUS(YUREWHA_DONE, yurewha_reader_keep_at_most(&it.reader, it.count * (CHUNK + 128) - 1));
}

static void put(uint64_t first, const yurewha_chunk *chunks, size_t count)
{
    uint64_t fresh = 0;
    EXPECT_STATUS(YUREWHA_DONE, yurewha_session_put(&it.session, first, chunks, count, &fresh));
}

/* A session of one run. */
static void one_run(void)
{
    EXPECT_STATUS(YUREWHA_DONE, yurewha_session_new(&it.session));
    put(0, it.chunks, it.count);
}

/* A session of as many runs as chunks. */
static void many_runs(void)
{
    EXPECT_STATUS(YUREWHA_DONE, yurewha_session_new(&it.session));
    for (size_t i = 0; i < it.count; i++)
        put(2 * i, &it.chunks[i], 1);
}

static void hashes(void)
{
    it.hashes = block(it.count * sizeof *it.hashes);
    it.numbers = block(it.count * sizeof *it.numbers);
    for (size_t i = 0; i < it.count; i++) {
        it.hashes[i] = it.chunks[i].hash;
        it.numbers[i] = i;
    }
}

static void index_of_none(void)
{
    hashes();
    EXPECT_STATUS(YUREWHA_DONE, yurewha_hash_index_new(&it.index));
}

static void insert(void)
{
    size_t fresh = 0;
    EXPECT_STATUS(YUREWHA_DONE, yurewha_hash_index_insert(&it.index, it.hashes, it.count, it.numbers, it.count, &fresh));
}

static void index_of_all(void)
{
    index_of_none();
    insert();
}

static void session_of_none(void)
{
    hashes();
    EXPECT_STATUS(YUREWHA_DONE, yurewha_session_new(&it.session));
}

static void keep_hashes(void) { EXPECT_STATUS(YUREWHA_DONE, yurewha_session_keep_hashes(&it.session, it.hashes, it.count)); }

static void session_of_hashes(void)
{
    session_of_none();
    keep_hashes();
}

/* A session without chunks, and a range of the plain list. */
static void session_and_range(void)
{
    it.front = range_of(it.plain, 0, it.count, false, false);
    session_of_none();
}

/* A session of one run, and another one without chunks, or with those that follow. */
static void run_and_none(void)
{
    one_run();
    EXPECT_STATUS(YUREWHA_DONE, yurewha_session_new(&it.other));
}

static void two_runs(void)
{
    uint64_t fresh = 0;
    run_and_none();
    EXPECT_STATUS(YUREWHA_DONE, yurewha_session_put(&it.other, it.count, it.chunks, it.count, &fresh));
}

/* Without a run. */
static void text_of_session(void)
{
    session_of_hashes();
    EXPECT_STATUS(YUREWHA_ROOM, yurewha_session_to_json(&it.session, true, NULL, 0, &it.length));
    it.text = block(it.length);
    EXPECT_STATUS(YUREWHA_DONE, yurewha_session_to_json(&it.session, true, it.text, it.length, &it.length));
}

static void text(void)
{
    it.front = range_of(it.plain, 0, it.count, false, false);
    EXPECT_STATUS(YUREWHA_ROOM, yurewha_subtree_to_json(&it.front, NULL, 0, &it.length));
    it.text = block(it.length);
    EXPECT_STATUS(YUREWHA_DONE, yurewha_subtree_to_json(&it.front, it.text, it.length, &it.length));
}

static void flat(void)
{
    it.front = range_of(it.plain, 0, it.count, false, false);
    EXPECT_STATUS(YUREWHA_DONE, yurewha_subtree_to_flat(&it.front, it.levels, LEVELS, it.nodes, ROOM, &it.level_count,
                                                        &it.node_count));
}

static void text_of_proof(void)
{
    proof_of_all();
    EXPECT_STATUS(YUREWHA_ROOM, yurewha_range_proof_to_json(it.levels, it.level_count, it.nodes, it.node_count, NULL, 0, &it.length));
    it.text = block(it.length);
    EXPECT_STATUS(YUREWHA_DONE, yurewha_range_proof_to_json(it.levels, it.level_count, it.nodes, it.node_count, it.text, it.length,
                                                            &it.length));
}

static void bytes_of_proof(void)
{
    proof_of_all();
    it.length = 1 + 2 * it.level_count + 40 * it.node_count;
    it.text = block(it.length);
    EXPECT_STATUS(YUREWHA_DONE, yurewha_range_proof_to_bytes(it.levels, it.level_count, it.nodes, it.node_count, (uint8_t *)it.text,
                                                             it.length, &it.length));
}

/* ---- The calls */

static void xorb_hash(void) { EXPECT_STATUS(YUREWHA_DONE, yurewha_xorb_hash(it.chunks, it.count, &it.root)); }
static void file_hash(void) { EXPECT_STATUS(YUREWHA_DONE, yurewha_file_hash(it.chunks, it.count, &it.root)); }

static void from_chunks(void)
{
    EXPECT_STATUS(YUREWHA_DONE, yurewha_subtree_from_chunks(false, it.chunks, it.count, false, &it.front));
}

static void from_plain_chunks(void)
{
    EXPECT_STATUS(YUREWHA_DONE, yurewha_subtree_from_chunks(false, it.plain, it.count, false, &it.front));
}

static void merge_into(void) { EXPECT_STATUS(YUREWHA_DONE, yurewha_subtree_merge_into(&it.front, &it.back)); }

/* The first one may copy all nodes, to have room for more. */
static void merge_into_often(void)
{
    for (size_t i = 0; i < 100; i++)
        merge_into();
}

/* So few times that there is no other cut near. */
static void merge_into_twice(void)
{
    merge_into();
    merge_into();
}

static void merge(void) { EXPECT_STATUS(YUREWHA_DONE, yurewha_subtree_merge(it.ranges, it.count, &it.front)); }
static void to_json(void) { EXPECT_STATUS(YUREWHA_DONE, yurewha_subtree_to_json(&it.front, it.text, it.length, &it.length)); }
static void from_json(void) { EXPECT_STATUS(YUREWHA_DONE, yurewha_subtree_from_json(it.text, it.length, &it.back)); }

static void from_flat(void)
{
    EXPECT_STATUS(YUREWHA_DONE, yurewha_subtree_from_flat(false, it.levels, it.level_count, it.nodes, it.node_count, false, &it.back));
}

static void stable_points(void)
{
    size_t point = 0;
    EXPECT_STATUS(YUREWHA_DONE, yurewha_find_stable_start(it.chunks, it.count, &point));
    EXPECT_STATUS(YUREWHA_DONE, yurewha_find_stable_end(it.chunks, it.count, &point));
}

static void proof_of_one_again(void) { proof(it.count / 2, it.count / 2 + 1); }
static void proof_of_all_again(void) { proof(0, it.count); }

static void chunks_at(void)
{
    size_t first = 0, end = 0;
    const uint64_t middle = it.count / 2 * CHUNK;
    EXPECT_STATUS(YUREWHA_DONE, yurewha_hash_tree_chunks_at(&it.tree, middle, middle + CHUNK, &first, &end));
    EXPECT(first == it.count / 2 && end == first + 1);
}

static void total_size(void)
{
    uint64_t size = 0;
    EXPECT_STATUS(YUREWHA_DONE, yurewha_hash_tree_total_size(&it.tree, &size));
    EXPECT(size == it.count * CHUNK);
}

static void check_lists(void)
{
    EXPECT_STATUS(YUREWHA_DONE, yurewha_range_proof_check(it.levels, it.level_count, it.nodes, it.node_count));
}

static void bytes_of_one(void)
{
    uint64_t from = 0, to = 0;
    EXPECT_STATUS(YUREWHA_DONE, yurewha_opened_range_bytes_of(&it.opened, it.count / 2, &from, &to));
    EXPECT(from == it.count / 2 * CHUNK && to == from + CHUNK);
}

static void taken(void)
{
    bool is_taken = false;
    EXPECT_STATUS(YUREWHA_DONE, yurewha_session_taken(&it.session, it.count / 2 * 2, &is_taken));
    EXPECT(is_taken);
}

static void num_runs(void)
{
    size_t count = 0;
    EXPECT_STATUS(YUREWHA_DONE, yurewha_session_num_runs(&it.session, &count));
    EXPECT(count == it.count);
}

static void session_root(void) { EXPECT_STATUS(YUREWHA_DONE, yurewha_session_root(&it.session, it.count, &it.root)); }
static void session_finish_with_salt(void)
{
    const yurewha_bytes salt = {{1, 2, 3}};
    EXPECT_STATUS(YUREWHA_DONE, yurewha_session_finish_with_salt(&it.session, it.count, &salt, &it.root));
}

static void session_num_chunks(void)
{
    uint64_t count = 0;
    EXPECT_STATUS(YUREWHA_DONE, yurewha_session_num_chunks(&it.session, &count));
    EXPECT(count == it.count);
}

static void session_total_size(void)
{
    uint64_t size = 0;
    EXPECT_STATUS(YUREWHA_DONE, yurewha_session_total_size(&it.session, &size));
    EXPECT(size == it.count * CHUNK);
}

static void next_gap(void)
{
    uint64_t first = 0, end = 0;
    EXPECT_STATUS(YUREWHA_DONE, yurewha_session_next_gap(&it.session, it.count / 2 * 2, UINT64_MAX, &first, &end));
    EXPECT(first == it.count / 2 * 2 + 1 && end == first + 1);
}

static void knows(void)
{
    bool known = false;
    EXPECT_STATUS(YUREWHA_DONE, yurewha_session_knows(&it.session, &it.chunks[it.count / 2].hash, &known));
    EXPECT(known);
}

static void session_finish(void) { EXPECT_STATUS(YUREWHA_DONE, yurewha_session_finish(&it.session, it.count, &it.root)); }

static void check_one(void)
{
    uint64_t place = 0;
    EXPECT_STATUS(YUREWHA_DONE, yurewha_opened_range_check(&it.opened, it.count / 2, it.bytes + it.count / 2 * CHUNK, CHUNK, &place));
}

static void read_one(void)
{
    size_t start = 0;
    const uint64_t from = it.count / 2 * CHUNK;
    EXPECT_STATUS(YUREWHA_DONE, yurewha_opened_range_read(&it.opened, from, from + 1, it.bytes + from, CHUNK, &start));
}

static void read_all(void)
{
    size_t start = 0;
    EXPECT_STATUS(YUREWHA_DONE, yurewha_opened_range_read(&it.opened, 0, it.count * CHUNK, it.bytes, it.count * CHUNK, &start));
}

/* Of data that is too long, no more is hashed than the chunk has. */
static void check_too_long(void)
{
    uint64_t place = 0;
    EXPECT_STATUS(YUREWHA_MISMATCH, yurewha_opened_range_check(&it.opened, 0, it.bytes, it.count * CHUNK, &place));
}

static void read_too_long(void)
{
    size_t start = 0;
    EXPECT_STATUS(YUREWHA_MISMATCH, yurewha_opened_range_read(&it.opened, it.count / 2 * CHUNK, it.count / 2 * CHUNK + 1, it.bytes,
                                                              it.count * CHUNK, &start));
}

static void proof_to_json(void)
{
    EXPECT_STATUS(YUREWHA_DONE, yurewha_range_proof_to_json(it.levels, it.level_count, it.nodes, it.node_count, it.text, it.length,
                                                            &it.length));
}

static void proof_from_json(void)
{
    EXPECT_STATUS(YUREWHA_DONE, yurewha_range_proof_from_json(it.text, it.length, it.levels, LEVELS, it.nodes, ROOM, &it.level_count,
                                                              &it.node_count));
}

static void proof_to_bytes(void)
{
    EXPECT_STATUS(YUREWHA_DONE, yurewha_range_proof_to_bytes(it.levels, it.level_count, it.nodes, it.node_count, (uint8_t *)it.text,
                                                             it.length, &it.length));
}

static void proof_from_bytes(void)
{
    EXPECT_STATUS(YUREWHA_DONE, yurewha_range_proof_from_bytes(it.text, it.length, it.levels, LEVELS, it.nodes, ROOM, &it.level_count,
                                                               &it.node_count));
}

static void insert_one(void)
{
    const yurewha_hash hash = {{1, 2, 3, 4}};
    size_t fresh = 0;
    EXPECT_STATUS(YUREWHA_DONE, yurewha_hash_index_insert(&it.index, &hash, 1, it.numbers, 1, &fresh));
    EXPECT(fresh == 1);
}

static void find(void)
{
    uint8_t *found = (uint8_t *)it.nodes;
    EXPECT_STATUS(YUREWHA_DONE, yurewha_hash_index_find(&it.index, it.hashes, it.count, found, it.count, it.numbers, it.count));
    EXPECT(found[0] == 1 && memcmp(found, found + 1, it.count - 1) == 0);
}

static void entries(void)
{
    EXPECT_STATUS(YUREWHA_DONE, yurewha_hash_index_entries(&it.index, it.hashes, it.count, it.numbers, it.count));
}

static void index_len(void)
{
    size_t count = 0;
    EXPECT_STATUS(YUREWHA_DONE, yurewha_hash_index_len(&it.index, &count));
    EXPECT(count == it.count);
}

static void knows_each(void)
{
    uint8_t *known = (uint8_t *)it.nodes;
    EXPECT_STATUS(YUREWHA_DONE, yurewha_session_knows_each(&it.session, it.hashes, it.count, known, it.count));
    EXPECT(known[0] == 1 && memcmp(known, known + 1, it.count - 1) == 0);
}

/* The bytes 0, 148, 143 again and again end each chunk after the same number of them. */
static void file_of_none(void)
{
    static const uint8_t pattern[] = {0, 148, 143};
    for (size_t i = 0; i < CUT; i++)
        it.cut[i] = pattern[i % 3];
    EXPECT_STATUS(YUREWHA_DONE, yurewha_file_hasher_new(&it.hasher));
}

static void hash_file(void)
{
    for (size_t i = 0; i < it.count; i++)
        EXPECT_STATUS(YUREWHA_DONE, yurewha_file_hasher_update(&it.hasher, it.cut, CUT));
}

static void file_of_all(void)
{
    file_of_none();
    hash_file();
}

static void file_size(void)
{
    uint64_t size = 0;
    EXPECT_STATUS(YUREWHA_DONE, yurewha_file_hasher_size(&it.hasher, &size));
    EXPECT(size == it.count * CUT);
}

static void file_root(void) { EXPECT_STATUS(YUREWHA_DONE, yurewha_file_hasher_root(&it.hasher, &it.root)); }
static void file_finish(void) { EXPECT_STATUS(YUREWHA_DONE, yurewha_file_hasher_finish(&it.hasher, &it.root)); }
static void file_finish_with_salt(void)
{
    EXPECT_STATUS(YUREWHA_DONE, yurewha_file_hasher_finish_with_salt(&it.hasher, &no_salt, &it.root));
}

static void cut_file(void)
{
    yurewha_chunker chunker;
    yurewha_chunker_begin(&chunker);
    for (size_t i = 0; i < it.count; i++)
        EXPECT(yurewha_chunker_next_boundary(&chunker, it.cut, CUT) == CUT);
    EXPECT(yurewha_chunker_taken(&chunker) == 0);
}

static void put_all(void) { put(0, it.chunks, it.count); }
static void put_range(void) { EXPECT_STATUS(YUREWHA_DONE, yurewha_session_put_range(&it.session, 0, it.count, &it.front)); }
static void join(void)
{
    uint64_t fresh = 0;
    EXPECT_STATUS(YUREWHA_DONE, yurewha_session_join(&it.other, &it.session, &fresh));
}
static void session_to_json(void)
{
    EXPECT_STATUS(YUREWHA_DONE, yurewha_session_to_json(&it.session, true, it.text, it.length, &it.length));
}
static void session_from_json(void)
{
    EXPECT_STATUS(YUREWHA_DONE, yurewha_session_from_json(it.text, it.length, true, &it.session));
}

static const struct {
    const char *name;
    void (*prepare)(void);
    void (*call)(void);
    size_t requests; /* for each chunk */
    size_t bytes;    /* for each chunk */
} rows[] = {
    {"xorb_hash", nothing, xorb_hash, 0, 20},
    {"file_hash", nothing, file_hash, 0, 20},
    {"subtree_from_chunks", nothing, from_chunks, 0, 35},
    {"subtree_from_chunks without cuts", nothing, from_plain_chunks, 0, 60},
    {"stable points", nothing, stable_points, 0, 0},
    {"merge_into", two_halves, merge_into, 0, 0},
    {"merge_into without cuts", plain_halves, merge_into, 0, 60},
    {"merge_into of one chunk", plain_and_one, merge_into_often, 0, 120},
    {"merge_into of one cut", plain_and_cut, merge_into_twice, 0, 120},
    {"merge", singles, merge, 1, 360},
    {"to_json", text, to_json, 0, 160},
    {"from_json", text, from_json, 0, 330},
    {"from_flat", flat, from_flat, 0, 120},
    {"hash_tree_from_chunks", nothing, tree, 0, 100},
    {"hash_tree_proof of one chunk", tree, proof_of_one_again, 0, 0},
    {"hash_tree_proof of all", tree, proof_of_all_again, 0, 120},
    {"hash_tree_chunks_at", tree, chunks_at, 0, 0},
    {"hash_tree_total_size", tree, total_size, 0, 0},
    {"range_proof_check of one chunk", proof_of_one, check_lists, 0, 0},
    {"range_proof_check of all", proof_of_all, check_lists, 0, 0},
    {"range_proof_open of one chunk", proof_of_one, open, 0, 0},
    {"range_proof_open of all", proof_of_all, open, 0, 290},
    {"range_proof_to_json", text_of_proof, proof_to_json, 5, 2000},
    {"range_proof_from_json", text_of_proof, proof_from_json, 5, 1800},
    {"range_proof_to_bytes", bytes_of_proof, proof_to_bytes, 0, 300},
    {"range_proof_from_bytes", bytes_of_proof, proof_from_bytes, 0, 250},
    {"opened_range_bytes_of", opened_all, bytes_of_one, 0, 0},
    {"opened_range_check", opened_all, check_one, 0, 0},
    {"opened_range_check of too long data", opened_one, check_too_long, 0, 0},
    {"opened_range_read of too long data", opened_one, read_too_long, 0, 0},
    {"opened_range_read of one chunk", opened_one, read_one, 0, 0},
    {"opened_range_read of all", opened_all, read_all, 0, 0},
    {"part_open of all", proof_of_all, open_all, 0, 290},
    {"part_check of one chunk", part_of_one, check_one_part, 0, 0},
    {"part_check of all", part_of_all, check_part, 2, 150},
    {"part_check without copies", part_of_all, check_part_alone, 0, 0},
    {"reader_take of all", checked_part, take, 2, 300},
    {"reader_read of one chunk", taken_all, read_kept, 0, 0},
    {"reader_needs of one chunk", taken_all, needs_of_kept, 0, 0},
    {"reader_keep_at_most", taken_all, drop_one, 0, 0},
    {"session_taken", many_runs, taken, 0, 0},
    {"session_num_runs", many_runs, num_runs, 0, 0},
    {"session_root", one_run, session_root, 0, 0},
    {"session_finish", one_run, session_finish, 0, 0},
    {"session_finish_with_salt", one_run, session_finish_with_salt, 0, 0},
    {"session_num_chunks", many_runs, session_num_chunks, 0, 0},
    {"session_total_size", many_runs, session_total_size, 0, 0},
    {"session_next_gap", many_runs, next_gap, 0, 0},
    {"session_knows", many_runs, knows, 0, 0},
    {"session_put", session_of_none, put_all, 0, 520},
    {"session_put_range", session_and_range, put_range, 0, 60},
    {"session_join", run_and_none, join, 0, 800},
    {"session_join of known hashes", two_runs, join, 0, 400},
    {"session_keep_hashes", session_of_none, keep_hashes, 0, 480},
    {"session_keep_hashes of known ones", session_of_hashes, keep_hashes, 0, 60},
    {"session_knows_each", session_of_hashes, knows_each, 0, 0},
    {"session_to_json of hashes", text_of_session, session_to_json, 0, 450},
    {"session_from_json of hashes", text_of_session, session_from_json, 3, 1450},
    {"hash_index_insert", index_of_none, insert, 0, 530},
    {"hash_index_insert of known ones", index_of_all, insert, 0, 60},
    {"hash_index_insert of one", index_of_all, insert_one, 0, 0},
    {"hash_index_find", index_of_all, find, 0, 0},
    {"hash_index_entries", index_of_all, entries, 0, 0},
    {"hash_index_len", index_of_all, index_len, 0, 0},
    {"chunker_next_boundary", file_of_none, cut_file, 0, 0},
    {"file_hasher_update", file_of_none, hash_file, 0, 180},
    {"file_hasher_size", file_of_all, file_size, 0, 0},
    {"file_hasher_root", file_of_all, file_root, 0, 190},
    {"file_hasher_finish", file_of_all, file_finish, 0, 190},
    {"file_hasher_finish_with_salt", file_of_all, file_finish_with_salt, 0, 190},
};

static void expect_cost(size_t place, size_t count)
{
    make(count);
    rows[place].prepare();
    count_requests();
    rows[place].call();
    const size_t asked = requests(), bytes = granted();
    EXPECT(asked <= rows[place].requests * count + FEW_REQUESTS);
    EXPECT(bytes <= rows[place].bytes * count + FEW_BYTES);
    unmake();
}

void test_growth(void)
{
    if (!sees_requests()) {
        printf("growth: left out, as no request of the library comes by here\n");
        return;
    }
    for (size_t i = 0; i < LENGTH(rows) * LENGTH(sizes); i++) {
        const size_t count = sizes[i % LENGTH(sizes)], place = i / LENGTH(sizes);
        row("%s, %zu chunks", rows[place].name, count);
        if (is_wanted() && count <= largest())
            expect_cost(place, count);
    }
}
