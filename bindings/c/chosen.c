/*
 * Calls that take hashes, with hashes that a stranger chose: they have the same first 8 bytes, which is all that a simple table reads of
 * a hash. Each row of `rows` is made with n of them and with twice as many. bindings/c/test counts instructions of both sizes.
 */
#include "harness.h"

enum { FEW = 2000 };
static const size_t sizes[] = {FEW, 2 * FEW};

/* Chunks of one size with chosen hashes, these hashes, and what calls are made on. */
static struct {
    size_t count, length;
    yurewha_chunk *chunks;
    yurewha_hash *hashes;
    uint64_t *numbers;
    uint8_t *found;
    yurewha_session session, copy;
    yurewha_hash_index index;
    char *text;
} it;

static void make(size_t count)
{
    memset(&it, 0, sizeof it);
    it.count = count;
    it.chunks = block(count * sizeof *it.chunks);
    it.hashes = block(count * sizeof *it.hashes);
    it.numbers = block(count * sizeof *it.numbers);
    it.found = block(count);
    for (size_t i = 0; i < count; i++) {
        yurewha_data_hash((const uint8_t *)&i, sizeof i, &it.hashes[i]);
        it.hashes[i].words[0] = 1;
        it.chunks[i] = (yurewha_chunk){.hash = it.hashes[i], .size = 1};
        it.numbers[i] = i;
    }
    EXPECT_STATUS(YUREWHA_DONE, yurewha_session_new(&it.session));
    EXPECT_STATUS(YUREWHA_DONE, yurewha_hash_index_new(&it.index));
}

static void unmake(void)
{
    yurewha_session_free(&it.session);
    yurewha_session_free(&it.copy);
    yurewha_hash_index_free(&it.index);
    free(it.chunks);
    free(it.hashes);
    free(it.numbers);
    free(it.found);
    free(it.text);
}

/* ---- What is made before a call, and the calls */

static void none(void) {}

static void put(void)
{
    uint64_t fresh = 0;
    EXPECT_STATUS(YUREWHA_DONE, yurewha_session_put(&it.session, 0, it.chunks, it.count, &fresh));
    EXPECT(fresh == it.count);
}

static void keep_hashes(void) { EXPECT_STATUS(YUREWHA_DONE, yurewha_session_keep_hashes(&it.session, it.hashes, it.count)); }

static void knows_each(void)
{
    EXPECT_STATUS(YUREWHA_DONE, yurewha_session_knows_each(&it.session, it.hashes, it.count, it.found, it.count));
    EXPECT(it.found[0] == 1 && memcmp(it.found, it.found + 1, it.count - 1) == 0);
}

static void list_hashes(void) { EXPECT_STATUS(YUREWHA_DONE, yurewha_session_known_hashes(&it.session, it.hashes, it.count)); }

static void copy(void) { EXPECT_STATUS(YUREWHA_DONE, yurewha_session_copy(&it.session, &it.copy)); }

/* A session of all hashes, and another one of none. */
static void hashes_and_none(void)
{
    keep_hashes();
    EXPECT_STATUS(YUREWHA_DONE, yurewha_session_new(&it.copy));
}

static void join(void)
{
    uint64_t fresh = 0;
    EXPECT_STATUS(YUREWHA_DONE, yurewha_session_join(&it.copy, &it.session, &fresh));
    EXPECT(fresh == it.count);
}

static void copy_of_hashes(void)
{
    keep_hashes();
    copy();
}

static void join_copy(void)
{
    uint64_t fresh = 1;
    EXPECT_STATUS(YUREWHA_DONE, yurewha_session_join(&it.copy, &it.session, &fresh));
    EXPECT(fresh == 0);
}

static void to_json(void)
{
    const size_t room = 200 * it.count + 4096;
    it.text = block(room);
    EXPECT_STATUS(YUREWHA_DONE, yurewha_session_to_json(&it.session, true, it.text, room, &it.length));
}

static void text_of_hashes(void)
{
    keep_hashes();
    to_json();
}

static void from_json(void) { EXPECT_STATUS(YUREWHA_DONE, yurewha_session_from_json(it.text, it.length, true, &it.copy)); }

static void insert(void)
{
    size_t fresh = 0;
    EXPECT_STATUS(YUREWHA_DONE, yurewha_hash_index_insert(&it.index, it.hashes, it.count, it.numbers, it.count, &fresh));
}

static void find(void)
{
    EXPECT_STATUS(YUREWHA_DONE, yurewha_hash_index_find(&it.index, it.hashes, it.count, it.found, it.count, it.numbers, it.count));
    EXPECT(it.found[0] == 1 && memcmp(it.found, it.found + 1, it.count - 1) == 0);
}

static void entries(void)
{
    EXPECT_STATUS(YUREWHA_DONE, yurewha_hash_index_entries(&it.index, it.hashes, it.count, it.numbers, it.count));
}

static const struct {
    const char *name;
    void (*prepare)(void);
    void (*call)(void);
} rows[] = {
    {"session_put", none, put},
    {"session_keep_hashes", none, keep_hashes},
    {"session_keep_hashes of known ones", keep_hashes, keep_hashes},
    {"session_knows_each", keep_hashes, knows_each},
    {"session_known_hashes", keep_hashes, list_hashes},
    {"session_copy", keep_hashes, copy},
    {"session_join", hashes_and_none, join},
    {"session_join of known ones", copy_of_hashes, join_copy},
    {"session_to_json", keep_hashes, to_json},
    {"session_from_json", text_of_hashes, from_json},
    {"hash_index_insert", none, insert},
    {"hash_index_insert of known ones", insert, insert},
    {"hash_index_find", insert, find},
    {"hash_index_entries", insert, entries},
};

void test_chosen(void)
{
    for (size_t i = 0; i < LENGTH(rows) * LENGTH(sizes); i++) {
        const size_t count = sizes[i % LENGTH(sizes)], place = i / LENGTH(sizes);
        row("%s, %zu chosen", rows[place].name, count);
        if (!is_wanted() || count > largest())
            continue;
        make(count);
        rows[place].prepare();
        rows[place].call();
        unmake();
    }
}
