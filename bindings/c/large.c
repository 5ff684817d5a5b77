/*
 * Large lists, with memory to spare: no call is out of memory, each gives what another way to the same value gives, and none
 * leaves a block behind. Each row of `checks` is made with each list, and each row of `longer` with a list of its own. Lists of
 * more chunks than `largest` are left out.
 */
#include "harness.h"

/* Without a natural cut and of natural cuts alone, so that all nodes are kept; with stable points at rule; and drawn. */
static const char *const patterns[] = {".", "|", "...|", NULL};
static const size_t counts[] = {777, 1001, 5000, 10001, 100001};

struct list {
    const char *pattern;
    size_t count;
    yurewha_chunk *chunks;
    yurewha_subtree open; /* the subtree of all chunks, without a mark */
    yurewha_hash root;    /* of all chunks, merged of thirds */
    yurewha_hash file;
};

static const yurewha_hash zeros = {{0, 0, 0, 0}};

static void make(struct list *it)
{
    const size_t cuts[] = {0, it->count / 3, it->count / 2, it->count};
    yurewha_subtree ranges[3], merged = {0};
    it->chunks = list_of(it->pattern, it->count);
    it->open = range_of(it->chunks, 0, it->count, false, false);
    for (size_t i = 0; i < 3; i++)
        ranges[i] = range_of(it->chunks, cuts[i], cuts[i + 1], i == 0, i == 2);
    EXPECT_STATUS(YUREWHA_DONE, yurewha_subtree_merge(ranges, 3, &merged));
    EXPECT_STATUS(YUREWHA_DONE, yurewha_subtree_final_hash(&merged, &it->root));
    yurewha_hmac(&it->root, &zeros, &it->file);
    for (size_t i = 0; i < 3; i++)
        yurewha_subtree_free(&ranges[i]);
    yurewha_subtree_free(&merged);
}

static void unmake(struct list *it)
{
    yurewha_subtree_free(&it->open);
    free(it->chunks);
}

/* ---- Lists */

static void roots(struct list *it)
{
    const yurewha_bytes salt = {{1, 2, 3}};
    yurewha_hash key, salted, hash;
    yurewha_hash_from_bytes(&salt, &key);
    yurewha_hmac(&it->root, &key, &salted);
    EXPECT_STATUS(YUREWHA_DONE, yurewha_xorb_hash(it->chunks, it->count, &hash));
    EXPECT(same_hash(&hash, &it->root));
    EXPECT_STATUS(YUREWHA_DONE, yurewha_file_hash(it->chunks, it->count, &hash));
    EXPECT(same_hash(&hash, &it->file));
    EXPECT_STATUS(YUREWHA_DONE, yurewha_file_hash_with_salt(it->chunks, it->count, &salt, &hash));
    EXPECT(same_hash(&hash, &salted));
}

/* The nodes that are kept of the chunks are those before the first and after the last stable point. */
static void points(struct list *it)
{
    size_t level_count = 0, node_count = 0, first = it->count, last = 0;
    yurewha_level levels[16];
    yurewha_chunk *nodes = block(it->count * sizeof *nodes);
    EXPECT_STATUS(YUREWHA_DONE, yurewha_subtree_to_flat(&it->open, levels, LENGTH(levels), nodes, it->count, &level_count,
                                                        &node_count));
    const yurewha_status wanted = level_count == 1 ? YUREWHA_ARGUMENTS : YUREWHA_DONE;
    EXPECT_STATUS(wanted, yurewha_find_stable_start(it->chunks, it->count, &first));
    EXPECT_STATUS(wanted, yurewha_find_stable_end(it->chunks, it->count, &last));
    EXPECT(first == levels[0].left && it->count - last == (level_count == 1 ? it->count : levels[0].right));
    free(nodes);
}

/* ---- Subtrees */

static void parts(struct list *it)
{
    for (size_t i = 0; i < 4; i++) {
        const bool at_start = i % 2 != 0, at_end = i / 2 != 0;
        const size_t cut = i % 2 != 0 ? it->count / 2 : it->count - 1;
        yurewha_subtree whole = range_of(it->chunks, 0, it->count, at_start, at_end), copy = {0};
        yurewha_subtree front = range_of(it->chunks, 0, cut, at_start, false);
        yurewha_subtree back = range_of(it->chunks, cut, it->count, false, at_end);
        uint64_t parents = 0;
        EXPECT_STATUS(YUREWHA_DONE, yurewha_subtree_clone(&front, &copy));
        EXPECT_STATUS(YUREWHA_DONE, yurewha_subtree_merge_into(&front, &back));
        EXPECT(same_subtree(&front, &whole));
        EXPECT_STATUS(YUREWHA_DONE, yurewha_subtree_merge_into_counted(&copy, &back, &parents));
        EXPECT(same_subtree(&copy, &whole));
        yurewha_subtree_free(&whole);
        yurewha_subtree_free(&copy);
        yurewha_subtree_free(&front);
        yurewha_subtree_free(&back);
    }
}

/* As many ranges as chunks. */
static void ranges(struct list *it)
{
    yurewha_subtree *ranges = block(it->count * sizeof *ranges), merged = {0};
    for (size_t i = 0; i < it->count; i++)
        ranges[i] = range_of(it->chunks, i, i + 1, false, false);
    EXPECT_STATUS(YUREWHA_DONE, yurewha_subtree_merge(ranges, it->count, &merged));
    EXPECT(same_subtree(&merged, &it->open));
    for (size_t i = 0; i < it->count; i++)
        yurewha_subtree_free(&ranges[i]);
    yurewha_subtree_free(&merged);
    free(ranges);
}

static void json(struct list *it)
{
    yurewha_subtree read = {0}, same = {0};
    size_t length = 0;
    EXPECT_STATUS(YUREWHA_ROOM, yurewha_subtree_to_json(&it->open, NULL, 0, &length));
    char *text = block(length);
    EXPECT_STATUS(YUREWHA_DONE, yurewha_subtree_to_json(&it->open, text, length, &length));
    EXPECT_STATUS(YUREWHA_DONE, yurewha_subtree_from_json(text, length, &read));
    EXPECT(same_subtree(&read, &it->open));
    EXPECT_STATUS(YUREWHA_TEXT, yurewha_subtree_from_json(text, length - 1, &read));
    EXPECT_STATUS(YUREWHA_DONE, yurewha_subtree_clone(&it->open, &same));
    EXPECT(same_subtree(&read, &same));
    yurewha_subtree_free(&read);
    yurewha_subtree_free(&same);
    free(text);
}

/* Texts of as many bytes as the list has chunks: a row's text, whose last byte but one is repeated. */
static void texts_by_length(struct list *it)
{
    static const struct {
        const char *text;
        yurewha_status status;
    } rows[] = {
        {"{\"at_start\":true,\"at_end\":true,\"levels\":[[0,0]],\"nodes\":[] }", YUREWHA_DONE},
        {"{\"at_start\":true,\"at_end\":true,\"levels\":[[0,0]],\"nodes\":[] ]", YUREWHA_TEXT},
        {"[[", YUREWHA_TEXT},
        {"\"aa\"", YUREWHA_RULE + 1},
        {"\"aa", YUREWHA_TEXT},
        {"1.11", YUREWHA_RULE + 1},
        {"1.1x", YUREWHA_TEXT},
        {"  x", YUREWHA_TEXT},
    };
    char *text = block(it->count);
    for (size_t i = 0; i < LENGTH(rows); i++) {
        const size_t length = strlen(rows[i].text);
        yurewha_subtree read = {0};
        memset(text, rows[i].text[length - 2], it->count);
        memcpy(text, rows[i].text, length - 1);
        text[it->count - 1] = rows[i].text[length - 1];
        EXPECT_STATUS(rows[i].status, yurewha_subtree_from_json(text, it->count, &read));
        yurewha_subtree_free(&read);
    }
    free(text);
}

static void flat_lists(struct list *it)
{
    yurewha_level levels[16];
    yurewha_chunk *nodes = block(it->count * sizeof *nodes);
    yurewha_subtree made = {0};
    size_t level_count = 0, node_count = 0;
    EXPECT_STATUS(YUREWHA_DONE, yurewha_subtree_to_flat(&it->open, levels, LENGTH(levels), nodes, it->count, &level_count,
                                                        &node_count));
    EXPECT_STATUS(YUREWHA_DONE, yurewha_subtree_from_flat(false, levels, level_count, nodes, node_count, false, &made));
    EXPECT(same_subtree(&made, &it->open));
    EXPECT_STATUS(YUREWHA_RULE + 6,
                  yurewha_subtree_from_flat(false, levels, level_count, nodes, node_count - 1, false, &made));
    EXPECT(same_subtree(&made, &it->open));
    yurewha_subtree_free(&made);
    free(nodes);
}

/* ---- Sessions */

static void check_whole(yurewha_session *session, struct list *it)
{
    size_t runs = 0;
    uint64_t first = 1;
    yurewha_hash hash;
    yurewha_subtree range = {0};
    EXPECT_STATUS(YUREWHA_DONE, yurewha_session_num_runs(session, &runs));
    EXPECT(runs == 1);
    EXPECT_STATUS(YUREWHA_DONE, yurewha_session_run(session, 0, &first, &range));
    EXPECT(first == 0 && same_subtree(&range, &it->open));
    EXPECT_STATUS(YUREWHA_DONE, yurewha_session_root(session, it->count, &hash));
    EXPECT(same_hash(&hash, &it->root));
    EXPECT_STATUS(YUREWHA_DONE, yurewha_session_finish(session, it->count, &hash));
    EXPECT(same_hash(&hash, &it->file));
    yurewha_subtree_free(&range);
    yurewha_session_free(session);
}

static void put(yurewha_session *session, struct list *it, size_t from, size_t to)
{
    uint64_t fresh = 0;
    EXPECT_STATUS(YUREWHA_DONE, yurewha_session_put(session, from, it->chunks + from, to - from, &fresh));
    EXPECT(fresh == to - from);
}

static void one_put(struct list *it)
{
    yurewha_session session = {0};
    EXPECT_STATUS(YUREWHA_DONE, yurewha_session_new(&session));
    put(&session, it, 0, it->count);
    check_whole(&session, it);
}

/* Rising, and falling. */
static void puts_in_order(struct list *it)
{
    for (size_t i = 0; i < 2; i++) {
        yurewha_session session = {0};
        EXPECT_STATUS(YUREWHA_DONE, yurewha_session_new(&session));
        for (size_t j = 0; j < it->count; j++) {
            const size_t from = i == 0 ? j : it->count - 1 - j;
            put(&session, it, from, from + 1);
        }
        check_whole(&session, it);
    }
}

/* The runs of every second position, each from the end of the one before it. */
static void walk(yurewha_session *session, size_t runs)
{
    yurewha_subtree range = {0};
    uint64_t first = 0, end = 0;
    for (size_t i = 0; i < runs; i++) {
        EXPECT_STATUS(YUREWHA_DONE, yurewha_session_run_from(session, end, &first, &end, &range));
        EXPECT(first == 2 * i && end == 2 * i + 1);
    }
    EXPECT_STATUS(YUREWHA_ARGUMENTS, yurewha_session_run_from(session, end, &first, &end, &range));
    yurewha_subtree_free(&range);
}

/* Every second position from `from` on. */
static void put_every_second(yurewha_session *session, struct list *it, size_t from)
{
    for (size_t i = from; i < it->count; i += 2)
        put(session, it, i, i + 1);
}

/* Every second position, so that there are many runs, and then those between them. */
static void runs(struct list *it)
{
    yurewha_session session = {0};
    yurewha_subtree range = {0};
    size_t runs = 0;
    uint64_t first = 0;
    EXPECT_STATUS(YUREWHA_DONE, yurewha_session_new(&session));
    put_every_second(&session, it, 0);
    EXPECT_STATUS(YUREWHA_DONE, yurewha_session_num_runs(&session, &runs));
    EXPECT(runs == (it->count + 1) / 2);
    EXPECT_STATUS(YUREWHA_DONE, yurewha_session_run(&session, runs - 1, &first, &range));
    yurewha_subtree wanted = range_of(it->chunks, first, first + 1, false, false);
    EXPECT(first == 2 * (runs - 1) && same_subtree(&range, &wanted));
    EXPECT_STATUS(YUREWHA_ARGUMENTS, yurewha_session_run(&session, runs, &first, &range));
    walk(&session, runs);
    put_every_second(&session, it, 1);
    check_whole(&session, it);
    yurewha_subtree_free(&range);
    yurewha_subtree_free(&wanted);
}

/* Makes a session of the runs and the hashes of another one. */
static void restore(yurewha_session *saved, yurewha_session *restored)
{
    size_t count = 0;
    uint64_t first = 0, end = 0;
    yurewha_subtree range = {0};
    yurewha_hash *hashes = known_hashes(saved, &count);
    EXPECT_STATUS(YUREWHA_DONE, yurewha_session_new(restored));
    while (yurewha_session_run_from(saved, end, &first, &end, &range) == YUREWHA_DONE)
        EXPECT_STATUS(YUREWHA_DONE, yurewha_session_push_run(restored, first, end, &range));
    EXPECT_STATUS(YUREWHA_DONE, yurewha_session_keep_hashes(restored, hashes, count));
    yurewha_subtree_free(&range);
    free(hashes);
}

/* The two sessions have the same runs, and so many of them, and know the same hashes. */
static void expect_same(yurewha_session *one, yurewha_session *other, size_t runs)
{
    struct {
        uint64_t first, end;
        yurewha_subtree range;
        size_t count;
    } a = {0, 0, {0}, 0}, b = {0, 0, {0}, 0};
    for (size_t i = 0; i < runs; i++) {
        EXPECT_STATUS(YUREWHA_DONE, yurewha_session_run_from(one, a.end, &a.first, &a.end, &a.range));
        EXPECT_STATUS(YUREWHA_DONE, yurewha_session_run_from(other, b.end, &b.first, &b.end, &b.range));
        EXPECT(a.first == b.first && a.end == b.end && same_subtree(&a.range, &b.range));
    }
    EXPECT_STATUS(YUREWHA_ARGUMENTS, yurewha_session_run_from(one, a.end, &a.first, &a.end, &a.range));
    EXPECT_STATUS(YUREWHA_ARGUMENTS, yurewha_session_run_from(other, b.end, &b.first, &b.end, &b.range));
    yurewha_hash *known = known_hashes(one, &a.count), *same = known_hashes(other, &b.count);
    EXPECT(a.count == b.count && memcmp(known, same, a.count * sizeof *known) == 0);
    yurewha_subtree_free(&a.range);
    yurewha_subtree_free(&b.range);
    free(known);
    free(same);
}

/* A session of many runs is saved, restored and copied. The copy then takes the chunks between the runs. */
static void saved(struct list *it)
{
    const size_t runs = (it->count + 1) / 2;
    yurewha_session session = {0}, restored = {0}, copy = {0};
    EXPECT_STATUS(YUREWHA_DONE, yurewha_session_new(&session));
    put_every_second(&session, it, 0);
    restore(&session, &restored);
    expect_same(&session, &restored, runs);
    EXPECT_STATUS(YUREWHA_DONE, yurewha_session_copy(&restored, &copy));
    expect_same(&session, &copy, runs);
    put_every_second(&copy, it, 1);
    expect_same(&session, &restored, runs);
    check_whole(&copy, it);
    yurewha_session_free(&session);
    yurewha_session_free(&restored);
}

/* All chunks a second time, where the list's length is the first position, and where positions end. */
static void far_positions(struct list *it)
{
    const uint64_t positions[] = {it->count, UINT64_MAX - it->count};
    yurewha_session session = {0};
    EXPECT_STATUS(YUREWHA_DONE, yurewha_session_new(&session));
    for (size_t i = 0; i < LENGTH(positions); i++) {
        yurewha_subtree range = {0};
        uint64_t fresh = 0, first = 0;
        EXPECT_STATUS(YUREWHA_DONE, yurewha_session_put(&session, positions[i], it->chunks, it->count, &fresh));
        EXPECT(fresh == (i == 0 ? it->count : 0));
        EXPECT_STATUS(YUREWHA_DONE, yurewha_session_run(&session, i, &first, &range));
        EXPECT(first == positions[i] && same_subtree(&range, &it->open));
        yurewha_subtree_free(&range);
    }
    yurewha_session_free(&session);
}

/* ---- Texts of hashes: none of them has this length. */

static void hash_texts(struct list *it)
{
    char *text = block(it->count);
    yurewha_hash hash = it->root;
    size_t length = 0;
    memset(text, 'A', it->count);
    EXPECT_STATUS(YUREWHA_TEXT, yurewha_from_base64(text, it->count, &hash));
    EXPECT_STATUS(YUREWHA_TEXT, yurewha_from_hex(text, it->count, &hash));
    EXPECT(same_hash(&hash, &it->root));
    EXPECT_STATUS(YUREWHA_DONE, yurewha_base64(&it->root, text, it->count, &length));
    EXPECT_STATUS(YUREWHA_DONE, yurewha_from_base64(text, length, &hash));
    EXPECT(same_hash(&hash, &it->root));
    free(text);
}

/* ---- Hash trees and range proofs */

/* Chunks of four bytes each, of which chunk i has the number i. */
struct file {
    uint32_t *bytes;
    yurewha_chunk *chunks;
    yurewha_hash *hashes;
    size_t *offsets;
};

static struct file file_of(size_t count)
{
    struct file file = {block(count * sizeof *file.bytes), block(count * sizeof *file.chunks), block(count * sizeof *file.hashes),
                        block((count + 1) * sizeof *file.offsets)};
    for (size_t i = 0; i <= count; i++)
        file.offsets[i] = i * sizeof *file.bytes;
    for (size_t i = 0; i < count; i++)
        file.bytes[i] = (uint32_t)i;
    EXPECT_STATUS(YUREWHA_DONE, yurewha_data_hashes(file.bytes, count * sizeof *file.bytes, file.offsets, count + 1,
                                                    file.hashes, count));
    for (size_t i = 0; i < count; i++)
        file.chunks[i] = (yurewha_chunk){file.hashes[i], sizeof *file.bytes};
    return file;
}

static void free_file(struct file *file)
{
    free(file->bytes);
    free(file->chunks);
    free(file->hashes);
    free(file->offsets);
}

/* The proof of all chunks, of one, and of none but the last; each is opened, and reads what it shows. */
static void proofs(struct list *it)
{
    const size_t parts[][2] = {{0, it->count}, {it->count / 2, it->count / 2 + 1}, {it->count - 1, it->count}};
    struct file file = file_of(it->count);
    yurewha_hash_tree tree = {0};
    yurewha_opened_range range = {0};
    yurewha_level levels[64];
    yurewha_chunk *nodes = block((it->count + 1024) * sizeof *nodes);
    yurewha_hash root, of_tree;
    size_t level_count = 0, node_count = 0, start = 1, count = 0;
    EXPECT_STATUS(YUREWHA_DONE, yurewha_xorb_hash(file.chunks, it->count, &root));
    EXPECT_STATUS(YUREWHA_DONE, yurewha_hash_tree_from_chunks(file.chunks, it->count, &tree));
    EXPECT_STATUS(YUREWHA_DONE, yurewha_hash_tree_root(&tree, &of_tree));
    EXPECT(same_hash(&root, &of_tree));
    for (size_t i = 0; i < LENGTH(parts); i++) {
        const size_t first = parts[i][0], end = parts[i][1], bytes = sizeof *file.bytes;
        EXPECT_STATUS(YUREWHA_DONE, yurewha_hash_tree_proof(&tree, first, end, levels, LENGTH(levels), nodes, it->count + 1024,
                                                            &level_count, &node_count));
        EXPECT_STATUS(YUREWHA_DONE, yurewha_range_proof_open_root(levels, level_count, nodes, node_count, &root, &range));
        EXPECT_STATUS(YUREWHA_DONE, yurewha_opened_range_num_chunks(&range, &count));
        EXPECT_STATUS(YUREWHA_DONE, yurewha_opened_range_read(&range, first * bytes, end * bytes, file.bytes + first,
                                                              (end - first) * bytes, &start));
        EXPECT(count == end - first && start == 0);
    }
    yurewha_opened_range_free(&range);
    yurewha_hash_tree_free(&tree);
    free_file(&file);
    free(nodes);
}

/* The JSON text of the proof of all chunks, both ways. */
static void proof_texts(struct list *it)
{
    yurewha_hash_tree tree = {0};
    yurewha_level levels[64];
    yurewha_chunk *nodes = block((it->count + 1024) * sizeof *nodes), *read = block((it->count + 1024) * sizeof *nodes);
    size_t level_count = 0, node_count = 0, length = 0, read_count = 0;
    EXPECT_STATUS(YUREWHA_DONE, yurewha_hash_tree_from_chunks(it->chunks, it->count, &tree));
    EXPECT_STATUS(YUREWHA_DONE, yurewha_hash_tree_proof(&tree, 0, it->count, levels, LENGTH(levels), nodes, it->count + 1024,
                                                        &level_count, &node_count));
    EXPECT_STATUS(YUREWHA_ROOM, yurewha_range_proof_to_json(levels, level_count, nodes, node_count, NULL, 0, &length));
    char *text = block(length);
    EXPECT_STATUS(YUREWHA_DONE, yurewha_range_proof_to_json(levels, level_count, nodes, node_count, text, length, &length));
    EXPECT_STATUS(YUREWHA_DONE, yurewha_range_proof_from_json(text, length, levels, LENGTH(levels), read, it->count + 1024,
                                                              &level_count, &read_count));
    EXPECT(read_count == node_count && memcmp(read, nodes, node_count * sizeof *nodes) == 0);
    yurewha_hash_tree_free(&tree);
    free(nodes);
    free(read);
    free(text);
}

/* ---- Hashes and runs of a session, without its chunks */

static void known(struct list *it)
{
    struct file file = file_of(it->count);
    yurewha_session session = {0};
    size_t count = 0;
    uint64_t fresh = 1;
    EXPECT_STATUS(YUREWHA_DONE, yurewha_session_new(&session));
    EXPECT_STATUS(YUREWHA_DONE, yurewha_session_keep_hashes(&session, file.hashes, it->count));
    yurewha_hash *hashes = known_hashes(&session, &count);
    EXPECT(count == it->count);
    EXPECT_STATUS(YUREWHA_DONE, yurewha_session_put(&session, 0, file.chunks, it->count, &fresh));
    EXPECT(fresh == 0);
    yurewha_session_free(&session);
    free_file(&file);
    free(hashes);
}

static void pushed(struct list *it)
{
    yurewha_session session = {0};
    size_t runs = 0;
    yurewha_subtree one = range_of(it->chunks, 0, 1, false, false);
    EXPECT_STATUS(YUREWHA_DONE, yurewha_session_new(&session));
    for (size_t i = 0; i < it->count; i++)
        EXPECT_STATUS(YUREWHA_DONE, yurewha_session_push_run(&session, 2 * i, 2 * i + 1, &one));
    EXPECT_STATUS(YUREWHA_DONE, yurewha_session_num_runs(&session, &runs));
    EXPECT(runs == it->count);
    yurewha_subtree_free(&one);
    yurewha_session_free(&session);
}

static const struct check {
    const char *name;
    void (*make)(struct list *);
} checks[] = {
    {"roots", roots},           {"points", points},
    {"parts", parts},           {"ranges", ranges},
    {"json", json},             {"texts by length", texts_by_length},
    {"flat lists", flat_lists}, {"one put", one_put},
    {"puts in order", puts_in_order}, {"runs", runs},
    {"saved", saved},           {"far positions", far_positions},
    {"hash texts", hash_texts}, {"proofs", proofs},
    {"known", known},           {"pushed", pushed},
};

/* Each list that a call takes, of more than 2^20 elements; of JSON, with more than 2^20 bytes. */
#define LONGEST (((size_t)1 << 20) + 1)
static const struct {
    const char *pattern;
    size_t count;
    struct check check;
} longer[] = {
    {NULL, 200001, {"json", json}},
    {".", 200001, {"json", json}},
    {NULL, 200001, {"proof texts", proof_texts}},
    {NULL, LONGEST, {"roots", roots}},
    {"...|", LONGEST, {"points", points}},
    {".", LONGEST, {"parts", parts}},
    {"|", LONGEST, {"ranges", ranges}},
    {NULL, LONGEST, {"texts by length", texts_by_length}},
    {".", LONGEST, {"flat lists", flat_lists}},
    {NULL, LONGEST, {"one put", one_put}},
    {NULL, LONGEST, {"far positions", far_positions}},
    {NULL, LONGEST, {"proofs", proofs}},
    {NULL, LONGEST, {"known", known}},
    {NULL, LONGEST, {"pushed", pushed}},
};

/* Makes some checks of a list. */
static void check_list(const char *pattern, size_t count, const struct check *first, size_t check_count)
{
    const char *name = pattern != NULL ? pattern : "no pattern";
    struct list list = {.pattern = pattern, .count = count};
    if (count > largest())
        return;
    row("%zu chunks of %s", count, name);
    const long before = live_blocks();
    make(&list);
    for (size_t i = 0; list.open.at != NULL && i < check_count; i++) {
        const long live = live_blocks();
        row("%s of %zu chunks of %s", first[i].name, count, name);
        first[i].make(&list);
        EXPECT(live_blocks() == live);
    }
    unmake(&list);
    EXPECT(live_blocks() == before);
}

void test_large(void)
{
    for (size_t i = 0; i < LENGTH(counts) * LENGTH(patterns); i++)
        check_list(patterns[i % LENGTH(patterns)], counts[i / LENGTH(patterns)], checks, LENGTH(checks));
    for (size_t i = 0; i < LENGTH(longer); i++)
        check_list(longer[i].pattern, longer[i].count, &longer[i].check, 1);
}
