/*
 * Calls that may be out of memory, on more than 2^20 chunks, hashes, nodes or runs, with memory to spare. The contracts admit MEMORY at
 * any size, so a library that refused long lists would be proved. Each of these calls has a row, a function of its name, and
 * bindings/check_exports compares the rows with the header.
 */
#include "harness.h"

/* The positions that no session has begin far behind those that they have. */
enum { LONGEST = (1 << 20) + 1, LEVELS = 64, ROOM = LONGEST + 1024, ROOM_FOR_TEXT = 120 * LONGEST, FAR = 1 << 24, RUNS_IN_TEXT = 1 << 14 };

/* What the rows are about. */
static struct {
    yurewha_chunk *chunks; /* of one byte each and without a natural cut, so that a subtree keeps all nodes */
    yurewha_hash *hashes;  /* of the chunks */
    yurewha_subtree whole, one;
    yurewha_hash root, file; /* those that a hash tree says; the second without a salt */
    yurewha_level levels[LEVELS];
    yurewha_chunk *nodes; /* these and the levels are the proof of all chunks */
    size_t level_count, node_count;
    char *text;
    size_t length;
    yurewha_session run;  /* has the chunks from position 1 on */
    yurewha_session runs; /* has every second position from 0 on, and knows no hashes */
    yurewha_file_hasher hasher;
    yurewha_chunk *equal; /* the chunks of its file */
} it;

static const yurewha_chunk other = {{{0, 0, 7, 1}}, 1};

static void put(yurewha_session *session, uint64_t first, const yurewha_chunk *chunks, size_t count)
{
    uint64_t fresh = 0;
    EXPECT_STATUS(YUREWHA_DONE, yurewha_session_put(session, first, chunks, count, &fresh));
}

static void push(yurewha_session *session, uint64_t first, uint64_t end, yurewha_subtree *range)
{
    EXPECT_STATUS(YUREWHA_DONE, yurewha_session_push_run(session, first, end, range));
}

static const yurewha_bytes no_salt = {{0}};

static void make_lists(void)
{
    yurewha_hash_tree tree = {0};
    it.chunks = list_of(".", LONGEST);
    it.nodes = block(ROOM * sizeof *it.nodes);
    it.whole = range_of(it.chunks, 0, LONGEST, false, false);
    it.one = range_of(&other, 0, 1, false, false);
    EXPECT_STATUS(YUREWHA_DONE, yurewha_hash_tree_from_chunks(it.chunks, LONGEST, &tree));
    EXPECT_STATUS(YUREWHA_DONE, yurewha_hash_tree_root(&tree, &it.root));
    EXPECT_STATUS(YUREWHA_DONE, yurewha_hash_tree_file_hash(&tree, &no_salt, &it.file));
    EXPECT_STATUS(YUREWHA_DONE, yurewha_hash_tree_proof(&tree, 0, LONGEST, it.levels, LEVELS, it.nodes, ROOM, &it.level_count,
                                                        &it.node_count));
    yurewha_hash_tree_free(&tree);
}

static void free_lists(void)
{
    free(it.chunks);
    free(it.nodes);
    yurewha_subtree_free(&it.whole);
    yurewha_subtree_free(&it.one);
}

/* After the other rows, as JSON takes much memory. */
static void make_sessions(void)
{
    it.hashes = block(LONGEST * sizeof *it.hashes);
    EXPECT_STATUS(YUREWHA_DONE, yurewha_session_new(&it.run));
    EXPECT_STATUS(YUREWHA_DONE, yurewha_session_new(&it.runs));
    put(&it.run, 1, it.chunks, LONGEST);
    for (size_t i = 0; i < LONGEST; i++) {
        it.hashes[i] = it.chunks[i].hash;
        push(&it.runs, 2 * i, 2 * i + 1, &it.one);
    }
}

static void free_sessions(void)
{
    free(it.hashes);
    yurewha_session_free(&it.run);
    yurewha_session_free(&it.runs);
}

/* The subtree, which is freed, has so many nodes. */
static void expect_nodes(yurewha_subtree *subtree, size_t wanted)
{
    size_t count = 0;
    EXPECT_STATUS(YUREWHA_DONE, yurewha_subtree_num_nodes(subtree, &count));
    EXPECT(count == wanted);
    yurewha_subtree_free(subtree);
}

/* ---- Hashes and roots */

static void from_base64(void)
{
    yurewha_hash hash;
    it.text = block(LONGEST);
    memset(it.text, 'A', LONGEST);
    EXPECT_STATUS(YUREWHA_TEXT, yurewha_from_base64(it.text, LONGEST, &hash));
    free(it.text);
}

static void xorb_hash(void)
{
    yurewha_hash root;
    EXPECT_STATUS(YUREWHA_DONE, yurewha_xorb_hash(it.chunks, LONGEST, &root));
    EXPECT(same_hash(&root, &it.root));
}

static void file_hash(void)
{
    yurewha_hash hash;
    EXPECT_STATUS(YUREWHA_DONE, yurewha_file_hash(it.chunks, LONGEST, &hash));
    EXPECT(same_hash(&hash, &it.file));
}

static void file_hash_with_salt(void)
{
    yurewha_hash hash;
    EXPECT_STATUS(YUREWHA_DONE, yurewha_file_hash_with_salt(it.chunks, LONGEST, &no_salt, &hash));
    EXPECT(same_hash(&hash, &it.file));
}

/* ---- A hasher of a file, whose chunks are equal: of 8193 bytes, as three bytes end the first one after 3 * 2731 */

enum { PERIOD = 3 * 2731, PERIODS = 128 };

/* The bytes of so many chunks. */
static uint8_t *bytes_of(size_t count)
{
    static const uint8_t pattern[] = {0, 148, 143};
    uint8_t *bytes = block(count * PERIOD);
    for (size_t i = 0; i < count * PERIOD; i++)
        bytes[i] = pattern[i % 3];
    return bytes;
}

static void make_file(void)
{
    uint8_t *bytes = bytes_of(1);
    it.equal = block(LONGEST * sizeof *it.equal);
    yurewha_data_hash(bytes, PERIOD, &it.equal[0].hash);
    it.equal[0].size = PERIOD;
    for (size_t i = 1; i < LONGEST; i++)
        it.equal[i] = it.equal[0];
    free(bytes);
}

static void free_file(void)
{
    yurewha_file_hasher_free(&it.hasher);
    free(it.equal);
}

static void file_hasher_new(void)
{
    EXPECT_STATUS(YUREWHA_DONE, yurewha_file_hasher_new(&it.hasher));
}

static void file_hasher_update(void)
{
    uint8_t *piece = bytes_of(PERIODS);
    uint64_t size = 0;
    for (size_t i = 0; i < LONGEST / PERIODS; i++)
        EXPECT_STATUS(YUREWHA_DONE, yurewha_file_hasher_update(&it.hasher, piece, PERIODS * PERIOD));
    EXPECT_STATUS(YUREWHA_DONE, yurewha_file_hasher_update(&it.hasher, piece, LONGEST % PERIODS * PERIOD));
    EXPECT_STATUS(YUREWHA_DONE, yurewha_file_hasher_size(&it.hasher, &size));
    EXPECT(size == (uint64_t)LONGEST * PERIOD);
    free(piece);
}

static void file_hasher_root(void)
{
    yurewha_hash root, wanted;
    EXPECT_STATUS(YUREWHA_DONE, yurewha_file_hasher_root(&it.hasher, &root));
    EXPECT_STATUS(YUREWHA_DONE, yurewha_xorb_hash(it.equal, LONGEST, &wanted));
    EXPECT(same_hash(&root, &wanted));
}

static void file_hasher_finish(void)
{
    yurewha_hash hash, wanted;
    EXPECT_STATUS(YUREWHA_DONE, yurewha_file_hasher_finish(&it.hasher, &hash));
    EXPECT_STATUS(YUREWHA_DONE, yurewha_file_hash(it.equal, LONGEST, &wanted));
    EXPECT(same_hash(&hash, &wanted));
}

static void file_hasher_finish_with_salt(void)
{
    const yurewha_bytes salt = {{1, 2, 3}};
    yurewha_hash hash, wanted;
    EXPECT_STATUS(YUREWHA_DONE, yurewha_file_hasher_finish_with_salt(&it.hasher, &salt, &hash));
    EXPECT_STATUS(YUREWHA_DONE, yurewha_file_hash_with_salt(it.equal, LONGEST, &salt, &wanted));
    EXPECT(same_hash(&hash, &wanted));
}

/* ---- Subtrees */

static void subtree_from_chunks(void)
{
    yurewha_subtree made = {0};
    EXPECT_STATUS(YUREWHA_DONE, yurewha_subtree_from_chunks(false, it.chunks, LONGEST, false, &made));
    expect_nodes(&made, LONGEST);
}

static void subtree_clone(void)
{
    yurewha_subtree copy = {0};
    EXPECT_STATUS(YUREWHA_DONE, yurewha_subtree_clone(&it.whole, &copy));
    expect_nodes(&copy, LONGEST);
}

/* A subtree goes behind a long one, and before it. */
static void subtree_merge_into(void)
{
    yurewha_subtree front = range_of(it.chunks, 0, LONGEST, false, false), back = range_of(&other, 0, 1, false, false);
    EXPECT_STATUS(YUREWHA_DONE, yurewha_subtree_merge_into(&front, &it.one));
    EXPECT_STATUS(YUREWHA_DONE, yurewha_subtree_merge_into(&back, &it.whole));
    expect_nodes(&front, LONGEST + 1);
    expect_nodes(&back, LONGEST + 1);
}

static void subtree_merge_into_counted(void)
{
    yurewha_subtree front = range_of(it.chunks, 0, LONGEST, false, false), back = range_of(&other, 0, 1, false, false);
    uint64_t parents = 0;
    EXPECT_STATUS(YUREWHA_DONE, yurewha_subtree_merge_into_counted(&front, &it.one, &parents));
    EXPECT_STATUS(YUREWHA_DONE, yurewha_subtree_merge_into_counted(&back, &it.whole, &parents));
    expect_nodes(&front, LONGEST + 1);
    expect_nodes(&back, LONGEST + 1);
}

/* The first one is long, and the others have one chunk each. */
static void subtree_merge(void)
{
    yurewha_subtree *ranges = block(LONGEST * sizeof *ranges), merged = {0};
    ranges[0] = range_of(it.chunks, 0, LONGEST, false, false);
    for (size_t i = 1; i < LONGEST; i++)
        ranges[i] = range_of(&other, 0, 1, false, false);
    EXPECT_STATUS(YUREWHA_DONE, yurewha_subtree_merge(ranges, LONGEST, &merged));
    expect_nodes(&merged, 2 * LONGEST - 1);
    for (size_t i = 0; i < LONGEST; i++)
        yurewha_subtree_free(&ranges[i]);
    free(ranges);
}

static void subtree_to_json(void)
{
    it.text = block(ROOM_FOR_TEXT);
    EXPECT_STATUS(YUREWHA_DONE, yurewha_subtree_to_json(&it.whole, it.text, ROOM_FOR_TEXT, &it.length));
}

static void subtree_from_json(void)
{
    yurewha_subtree read = {0};
    EXPECT_STATUS(YUREWHA_DONE, yurewha_subtree_from_json(it.text, it.length, &read));
    expect_nodes(&read, LONGEST);
    free(it.text);
}

static void subtree_from_flat(void)
{
    const yurewha_level level = {LONGEST, 0};
    yurewha_subtree made = {0};
    EXPECT_STATUS(YUREWHA_DONE, yurewha_subtree_from_flat(false, &level, 1, it.chunks, LONGEST, false, &made));
    expect_nodes(&made, LONGEST);
}

/* ---- Hash trees and range proofs */

static void hash_tree_from_chunks(void)
{
    yurewha_hash_tree tree = {0};
    EXPECT_STATUS(YUREWHA_DONE, yurewha_hash_tree_from_chunks(it.chunks, LONGEST, &tree));
    yurewha_hash_tree_free(&tree);
}

/* Of one chunk in the middle, and of all. */
static void hash_tree_proof(void)
{
    yurewha_hash_tree tree = {0};
    size_t counts[2] = {0, 0};
    EXPECT_STATUS(YUREWHA_DONE, yurewha_hash_tree_from_chunks(it.chunks, LONGEST, &tree));
    EXPECT_STATUS(YUREWHA_DONE, yurewha_hash_tree_proof(&tree, LONGEST / 2, LONGEST / 2 + 1, it.levels, LEVELS, it.nodes, ROOM, &counts[0],
                                                        &counts[1]));
    EXPECT_STATUS(YUREWHA_DONE, yurewha_hash_tree_proof(&tree, 0, LONGEST, it.levels, LEVELS, it.nodes, ROOM, &counts[0], &counts[1]));
    EXPECT(counts[0] == it.level_count && counts[1] == it.node_count);
    yurewha_hash_tree_free(&tree);
}

static void range_proof_to_json(void)
{
    it.text = block(ROOM_FOR_TEXT);
    EXPECT_STATUS(YUREWHA_DONE, yurewha_range_proof_to_json(it.levels, it.level_count, it.nodes, it.node_count, it.text, ROOM_FOR_TEXT,
                                                            &it.length));
}

static void range_proof_from_json(void)
{
    yurewha_level levels[LEVELS];
    yurewha_chunk *nodes = block(ROOM * sizeof *nodes);
    size_t level_count = 0, node_count = 0;
    EXPECT_STATUS(YUREWHA_DONE, yurewha_range_proof_from_json(it.text, it.length, levels, LEVELS, nodes, ROOM, &level_count, &node_count));
    EXPECT(node_count == it.node_count && memcmp(nodes, it.nodes, node_count * sizeof *nodes) == 0);
    free(nodes);
    free(it.text);
}

static void range_proof_to_bytes(void)
{
    it.length = 1 + 2 * it.level_count + 40 * it.node_count;
    it.text = block(it.length);
    EXPECT_STATUS(YUREWHA_DONE, yurewha_range_proof_to_bytes(it.levels, it.level_count, it.nodes, it.node_count, (uint8_t *)it.text,
                                                             it.length, &it.length));
}

static void range_proof_from_bytes(void)
{
    yurewha_level levels[LEVELS];
    yurewha_chunk *nodes = block(ROOM * sizeof *nodes);
    size_t level_count = 0, node_count = 0;
    EXPECT_STATUS(YUREWHA_DONE, yurewha_range_proof_from_bytes(it.text, it.length, levels, LEVELS, nodes, ROOM, &level_count, &node_count));
    EXPECT(node_count == it.node_count && memcmp(nodes, it.nodes, node_count * sizeof *nodes) == 0);
    free(nodes);
    free(it.text);
}

static void expect_opened(yurewha_opened_range *range)
{
    size_t count = 0;
    EXPECT_STATUS(YUREWHA_DONE, yurewha_opened_range_num_chunks(range, &count));
    EXPECT(count == LONGEST);
    yurewha_opened_range_free(range);
}

static void range_proof_open(void)
{
    yurewha_opened_range range = {0};
    EXPECT_STATUS(YUREWHA_DONE, yurewha_range_proof_open(it.levels, it.level_count, it.nodes, it.node_count, &it.file, &no_salt, &range));
    expect_opened(&range);
}

static void range_proof_open_root(void)
{
    yurewha_opened_range range = {0};
    EXPECT_STATUS(YUREWHA_DONE, yurewha_range_proof_open_root(it.levels, it.level_count, it.nodes, it.node_count, &it.root, &range));
    expect_opened(&range);
}

/* ---- Readers and parts */

static void reader_new(void)
{
    yurewha_reader reader = {0};
    EXPECT_STATUS(YUREWHA_DONE, yurewha_reader_new(&it.file, &no_salt, UINT64_MAX, &reader));
    yurewha_reader_free(&reader);
}

static void expect_part(yurewha_part *part, uint64_t begin, uint64_t end)
{
    uint64_t size = 0;
    EXPECT_STATUS(YUREWHA_DONE, yurewha_part_file_size(part, &size));
    EXPECT(size == LONGEST && begin == 0 && end == LONGEST);
    yurewha_part_free(part);
}

static void part_open(void)
{
    yurewha_part part = {0};
    uint64_t begin = 1, end = 0;
    EXPECT_STATUS(YUREWHA_DONE, yurewha_part_open(it.levels, it.level_count, it.nodes, it.node_count, &it.file, &no_salt, 0, UINT64_MAX, 0,
                                                  &begin, &end, &part));
    expect_part(&part, begin, end);
}

/* ---- Sessions */

static void session_new(void)
{
    yurewha_session session = {0};
    EXPECT_STATUS(YUREWHA_DONE, yurewha_session_new(&session));
    yurewha_session_free(&session);
}

static void session_new_without_hashes(void)
{
    yurewha_session session = {0};
    EXPECT_STATUS(YUREWHA_DONE, yurewha_session_new_without_hashes(&session));
    put(&session, 0, it.chunks, LONGEST);
    yurewha_session_free(&session);
}

/* Right before a long run, right after it and far from it; and the same among many runs. */
static void session_put(void)
{
    const uint64_t free_of_run[] = {0, LONGEST + 1, FAR}, free_of_runs[] = {1, 2 * LONGEST - 1, FAR};
    uint64_t fresh = 0;
    for (size_t i = 0; i < 3; i++) {
        EXPECT_STATUS(YUREWHA_DONE, yurewha_session_put(&it.run, free_of_run[i], &other, 1, &fresh));
        EXPECT_STATUS(YUREWHA_DONE, yurewha_session_put(&it.runs, free_of_runs[i], &other, 1, &fresh));
    }
    put(&it.runs, 2 * FAR, it.chunks, LONGEST);
}

static void session_run(void)
{
    yurewha_subtree range = {0};
    uint64_t first = 0;
    EXPECT_STATUS(YUREWHA_DONE, yurewha_session_run(&it.run, 0, &first, &range));
    EXPECT_STATUS(YUREWHA_DONE, yurewha_session_run(&it.runs, LONGEST - 1, &first, &range));
    yurewha_subtree_free(&range);
}

static void session_run_from(void)
{
    yurewha_subtree range = {0};
    uint64_t first = 0, end = 0;
    EXPECT_STATUS(YUREWHA_DONE, yurewha_session_run_from(&it.run, LONGEST / 2, &first, &end, &range));
    EXPECT_STATUS(YUREWHA_DONE, yurewha_session_run_from(&it.runs, LONGEST, &first, &end, &range));
    yurewha_subtree_free(&range);
}

static void session_of_all(yurewha_session *session)
{
    EXPECT_STATUS(YUREWHA_DONE, yurewha_session_new(session));
    put(session, 0, it.chunks, LONGEST);
}

static void session_root(void)
{
    yurewha_session session = {0};
    yurewha_hash root;
    session_of_all(&session);
    EXPECT_STATUS(YUREWHA_DONE, yurewha_session_root(&session, LONGEST, &root));
    EXPECT(same_hash(&root, &it.root));
    yurewha_session_free(&session);
}

static void session_finish_with_salt(void)
{
    const yurewha_bytes zeros = {{0}};
    yurewha_session session = {0};
    yurewha_hash hash;
    session_of_all(&session);
    EXPECT_STATUS(YUREWHA_DONE, yurewha_session_finish_with_salt(&session, LONGEST, &zeros, &hash));
    EXPECT(same_hash(&hash, &it.file));
    yurewha_session_free(&session);
}

static void session_finish(void)
{
    yurewha_session session = {0};
    yurewha_hash hash;
    session_of_all(&session);
    EXPECT_STATUS(YUREWHA_DONE, yurewha_session_finish(&session, LONGEST, &hash));
    EXPECT(same_hash(&hash, &it.file));
    yurewha_session_free(&session);
}

static void session_copy(void)
{
    yurewha_session copy = {0};
    EXPECT_STATUS(YUREWHA_DONE, yurewha_session_copy(&it.run, &copy));
    EXPECT_STATUS(YUREWHA_DONE, yurewha_session_copy(&it.runs, &copy));
    yurewha_session_free(&copy);
}

/* A long run and a short one, behind a long run and behind many. */
static void session_push_run(void)
{
    for (uint64_t i = 3; i < 5; i++) {
        yurewha_subtree *range = i == 3 ? &it.whole : &it.one;
        EXPECT_STATUS(YUREWHA_DONE, yurewha_session_push_run(&it.run, i * FAR, i * FAR + 1, range));
        EXPECT_STATUS(YUREWHA_DONE, yurewha_session_push_run(&it.runs, i * FAR, i * FAR + 1, range));
    }
}

/* A short range right before a long run, right after it and far from it, and long ranges, of a session of few runs and of one of many. */
static void session_put_range(void)
{
    const uint64_t free_of_run[] = {3 * FAR - 1, 3 * FAR + 1, 5 * FAR}, free_for_many[] = {3 * FAR + 2, 6 * FAR};
    for (size_t i = 0; i < 3; i++) {
        EXPECT_STATUS(YUREWHA_DONE, yurewha_session_put_range(&it.run, free_of_run[i], 1, &it.one));
        EXPECT_STATUS(YUREWHA_DONE, yurewha_session_put_range(&it.runs, free_of_run[i], 1, &it.one));
    }
    for (size_t i = 0; i < 2; i++) {
        EXPECT_STATUS(YUREWHA_DONE, yurewha_session_put_range(&it.run, free_for_many[i], LONGEST, &it.whole));
        EXPECT_STATUS(YUREWHA_DONE, yurewha_session_put_range(&it.runs, free_for_many[i], LONGEST, &it.whole));
    }
    EXPECT_STATUS(YUREWHA_DONE, yurewha_session_put_range(&it.runs, 3, 1, &it.one));
}

/* A long run, and many runs, each to a session without chunks, to one of few runs and to one of many. */
static void session_join(void)
{
    yurewha_session long_run = {0}, many_runs = {0}, joined = {0};
    yurewha_session *to[] = {&joined, &it.run, &it.runs};
    uint64_t fresh = 0;
    EXPECT_STATUS(YUREWHA_DONE, yurewha_session_new(&long_run));
    EXPECT_STATUS(YUREWHA_DONE, yurewha_session_new(&many_runs));
    put(&long_run, 8 * FAR, it.chunks, LONGEST);
    for (size_t i = 0; i < LONGEST; i++)
        push(&many_runs, 9 * FAR + 2 * i, 9 * FAR + 2 * i + 1, &it.one);
    EXPECT_STATUS(YUREWHA_DONE, yurewha_session_new(&joined));
    for (size_t i = 0; i < 3; i++) {
        EXPECT_STATUS(YUREWHA_DONE, yurewha_session_join(to[i], &long_run, &fresh));
        EXPECT(fresh == (i == 0 ? LONGEST : 0));
        EXPECT_STATUS(YUREWHA_DONE, yurewha_session_join(to[i], &many_runs, &fresh));
        EXPECT(fresh == 0);
    }
    yurewha_session_free(&long_run);
    yurewha_session_free(&many_runs);
    yurewha_session_free(&joined);
}

/* Many at once, and one to many, beside a long run and beside many runs. */
static void session_keep_hashes(void)
{
    EXPECT_STATUS(YUREWHA_DONE, yurewha_session_keep_hashes(&it.run, it.hashes, LONGEST));
    EXPECT_STATUS(YUREWHA_DONE, yurewha_session_keep_hashes(&it.run, &other.hash, 1));
    EXPECT_STATUS(YUREWHA_DONE, yurewha_session_keep_hashes(&it.runs, it.hashes, LONGEST));
    EXPECT_STATUS(YUREWHA_DONE, yurewha_session_keep_hashes(&it.runs, &other.hash, 1));
}

static void session_known_hashes(void)
{
    size_t count = 0;
    EXPECT_STATUS(YUREWHA_DONE, yurewha_session_num_known_hashes(&it.run, &count));
    yurewha_hash *hashes = block(count * sizeof *hashes);
    EXPECT(count >= LONGEST);
    EXPECT_STATUS(YUREWHA_DONE, yurewha_session_known_hashes(&it.run, hashes, count));
    free(hashes);
}

/* Of as many hashes. A run takes so much memory while it is read that there are fewer. */
static void session_to_json(void)
{
    yurewha_session session = {0};
    it.text = block(ROOM_FOR_TEXT);
    EXPECT_STATUS(YUREWHA_DONE, yurewha_session_new(&session));
    EXPECT_STATUS(YUREWHA_DONE, yurewha_session_keep_hashes(&session, it.hashes, LONGEST));
    for (size_t i = 0; i < RUNS_IN_TEXT; i++)
        push(&session, 2 * i, 2 * i + 1, &it.one);
    EXPECT_STATUS(YUREWHA_DONE, yurewha_session_to_json(&session, true, it.text, ROOM_FOR_TEXT, &it.length));
    yurewha_session_free(&session);
}

static void session_from_json(void)
{
    yurewha_session read = {0};
    size_t known = 0, runs = 0;
    EXPECT_STATUS(YUREWHA_DONE, yurewha_session_from_json(it.text, it.length, true, &read));
    EXPECT_STATUS(YUREWHA_DONE, yurewha_session_num_known_hashes(&read, &known));
    EXPECT_STATUS(YUREWHA_DONE, yurewha_session_num_runs(&read, &runs));
    EXPECT(known == LONGEST && runs == RUNS_IN_TEXT);
    yurewha_session_free(&read);
    free(it.text);
}

static void hash_index_new(void)
{
    yurewha_hash_index index = {0};
    EXPECT_STATUS(YUREWHA_DONE, yurewha_hash_index_new(&index));
    yurewha_hash_index_free(&index);
}

/* Many at once, and one to many. */
static void hash_index_insert(void)
{
    yurewha_hash_index index = {0};
    size_t fresh = 0;
    uint64_t *numbers = block(LONGEST * sizeof *numbers);
    for (size_t i = 0; i < LONGEST; i++)
        numbers[i] = i;
    EXPECT_STATUS(YUREWHA_DONE, yurewha_hash_index_new(&index));
    EXPECT_STATUS(YUREWHA_DONE, yurewha_hash_index_insert(&index, it.hashes, LONGEST, numbers, LONGEST, &fresh));
    EXPECT(fresh == LONGEST);
    EXPECT_STATUS(YUREWHA_DONE, yurewha_hash_index_insert(&index, &other.hash, 1, numbers, 1, &fresh));
    yurewha_hash_index_free(&index);
    free(numbers);
}

#define ROW(call) {#call, call}
struct call {
    const char *name;
    void (*make)(void);
};

/* Each reader of JSON or bytes comes right after its writer, whose text it frees. */
static const struct call of_lists[] = {
    ROW(from_base64), ROW(xorb_hash), ROW(file_hash), ROW(file_hash_with_salt), ROW(subtree_from_chunks), ROW(subtree_clone),
    ROW(subtree_merge_into), ROW(subtree_merge_into_counted), ROW(subtree_to_json), ROW(subtree_from_json), ROW(subtree_from_flat), ROW(subtree_merge), ROW(hash_tree_from_chunks), ROW(hash_tree_proof),
    ROW(range_proof_to_json), ROW(range_proof_from_json), ROW(range_proof_to_bytes), ROW(range_proof_from_bytes), ROW(range_proof_open),
    ROW(range_proof_open_root), ROW(reader_new), ROW(part_open),
};
static const struct call of_file[] = {
    ROW(file_hasher_new), ROW(file_hasher_update), ROW(file_hasher_root), ROW(file_hasher_finish), ROW(file_hasher_finish_with_salt),
};
static const struct call of_sessions[] = {
    ROW(session_new), ROW(session_new_without_hashes), ROW(session_put), ROW(session_run), ROW(session_run_from), ROW(session_root),
    ROW(session_finish), ROW(session_finish_with_salt), ROW(session_copy), ROW(session_push_run), ROW(session_put_range),
    ROW(session_keep_hashes), ROW(session_join), ROW(session_known_hashes), ROW(session_to_json), ROW(session_from_json),
    ROW(hash_index_new), ROW(hash_index_insert),
};

static void make_calls(const struct call *calls, size_t count)
{
    for (size_t i = 0; i < count; i++) {
        row("%s", calls[i].name);
        calls[i].make();
    }
}

void test_longest(void)
{
    if (largest() < LONGEST)
        return;
    row("%d chunks", LONGEST);
    const long before = live_blocks();
    make_lists();
    make_calls(of_lists, LENGTH(of_lists));
    make_file();
    make_calls(of_file, LENGTH(of_file));
    free_file();
    make_sessions();
    make_calls(of_sessions, LENGTH(of_sessions));
    free_sessions();
    free_lists();
    EXPECT(live_blocks() == before);
}
