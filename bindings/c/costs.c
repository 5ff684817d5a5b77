/*
 * What calls ask of malloc. Each row of `rows` is made with few runs and with many, and may ask for so many requests and bytes
 * for each run or hash, and for a few more whatever their number. So a call that copies all runs where it needn't asks for too
 * much of many runs, and a call that takes many times the memory that it needs, of few. bindings/c/test counts instructions.
 *
 * The bounds follow from the design, with room for half as much again:
 *
 * - A subtree of one chunk takes two requests, for a level and for a node of 40 bytes: 96 bytes. A handle takes 40 more.
 * - A hash has 32 bytes. A list of hashes, and the two parts of a map of hashes, double their room when it is used up. A list
 *   that is as long as it will be is made by one request.
 * - A node of the map of runs has room for several runs, and is made for each sixth or eleventh of them.
 * - The JSON of a run of one chunk and of a hash has 3 objects, with 9 names, and 4 arrays. To be read it is made a tree twice, one after
 *   the other. In one of them an object takes about 1,000 bytes. It is written to one text. A list and a text double their room when it is
 *   used up.
 * - A put copies its chunks, lists the new hashes, keeps them, and makes a subtree. One right before a run makes an entry, and an
 *   empty subtree for it, too.
 */
#include "harness.h"

static const size_t sizes[] = {10, 1000};

/* The requests and bytes that may be asked for whatever the number of runs, for lists that double their room. */
enum { FEW_REQUESTS = 50, FEW_BYTES = 1000 };

/* Room for the JSON text of a run of one chunk and of a hash. */
enum { ROOM_FOR_RUN = 300 };

/* A session of runs of one position each, of which no two are adjacent; and what is put into another one. */
struct runs {
    size_t count;
    yurewha_chunk *chunks;
    yurewha_hash *hashes; /* of the chunks */
    size_t *offsets;      /* of the chunks, as the bytes that they are */
    yurewha_subtree range;
    yurewha_session full;
    yurewha_session other;
    char *text; /* room for the JSON of the full session, and this */
    size_t length;
};

static void put(yurewha_session *session, uint64_t position, const yurewha_chunk *chunk)
{
    uint64_t fresh = 0;
    EXPECT_STATUS(YUREWHA_DONE, yurewha_session_put(session, position, chunk, 1, &fresh));
}

static void make(struct runs *it, size_t count)
{
    *it = (struct runs){.count = count, .chunks = list_of(".", count)};
    it->hashes = block(count * sizeof *it->hashes);
    it->offsets = block((count + 1) * sizeof *it->offsets);
    it->range = range_of(it->chunks, 0, 1, false, false);
    EXPECT_STATUS(YUREWHA_DONE, yurewha_session_new(&it->full));
    EXPECT_STATUS(YUREWHA_DONE, yurewha_session_new(&it->other));
    for (size_t i = 0; i <= count; i++)
        it->offsets[i] = i * sizeof *it->chunks;
    for (size_t i = 0; i < count; i++) {
        it->hashes[i] = it->chunks[i].hash;
        put(&it->full, 2 * i, &it->chunks[i]);
    }
    it->text = block(ROOM_FOR_RUN * (count + 1));
    EXPECT_STATUS(YUREWHA_DONE, yurewha_session_to_json(&it->full, true, it->text, ROOM_FOR_RUN * (count + 1), &it->length));
}

static void unmake(struct runs *it)
{
    yurewha_subtree_free(&it->range);
    yurewha_session_free(&it->full);
    yurewha_session_free(&it->other);
    free(it->chunks);
    free(it->hashes);
    free(it->offsets);
    free(it->text);
}

static void puts_apart(struct runs *it)
{
    for (size_t i = 0; i < it->count; i++)
        put(&it->other, 2 * i, &it->chunks[i]);
}

/* Each put joins two runs. */
static void puts_between(struct runs *it)
{
    for (size_t i = 0; i + 1 < it->count; i++)
        put(&it->full, 2 * i + 1, &it->chunks[i]);
}

/* Each put is right after or right before the one before it, so that there is one run, whose nodes are all kept. */
static void puts_rising(struct runs *it)
{
    for (size_t i = 0; i < it->count; i++)
        put(&it->other, i, &it->chunks[i]);
}

static void puts_falling(struct runs *it)
{
    for (size_t i = it->count; i > 0; i--)
        put(&it->other, i - 1, &it->chunks[i - 1]);
}

/* One run of all chunks, and then puts on one side of it. */
static void one_run(struct runs *it)
{
    uint64_t fresh = 0;
    EXPECT_STATUS(YUREWHA_DONE, yurewha_session_put(&it->other, it->count, it->chunks, it->count, &fresh));
}

static void puts_after(struct runs *it)
{
    one_run(it);
    for (size_t i = 0; i < it->count; i++)
        put(&it->other, 2 * it->count + i, &it->chunks[i]);
}

static void puts_before(struct runs *it)
{
    one_run(it);
    for (size_t i = it->count; i > 0; i--)
        put(&it->other, i - 1, &it->chunks[i - 1]);
}

static void puts_without_hashes(struct runs *it)
{
    EXPECT_STATUS(YUREWHA_DONE, yurewha_session_new_without_hashes(&it->other));
    puts_apart(it);
}

static void push_runs(struct runs *it)
{
    for (size_t i = 0; i < it->count; i++)
        EXPECT_STATUS(YUREWHA_DONE, yurewha_session_push_run(&it->other, 2 * i, 2 * i + 1, &it->range));
}

static void put_range(yurewha_session *session, uint64_t position, yurewha_subtree *range)
{
    EXPECT_STATUS(YUREWHA_DONE, yurewha_session_put_range(session, position, 1, range));
}

static void put_ranges(struct runs *it)
{
    for (size_t i = 0; i < it->count; i++)
        put_range(&it->other, 2 * i, &it->range);
}

/* Each range joins two runs. */
static void put_ranges_between(struct runs *it)
{
    for (size_t i = 0; i + 1 < it->count; i++)
        put_range(&it->full, 2 * i + 1, &it->range);
}

static void join(yurewha_session *session, yurewha_session *other)
{
    uint64_t fresh = 0;
    EXPECT_STATUS(YUREWHA_DONE, yurewha_session_join(session, other, &fresh));
}

/* Sessions of one run, which are joined one by one, and of which each joins two runs. */
static void join_one_by_one(struct runs *it)
{
    yurewha_session one = {0};
    for (size_t i = 0; i + 1 < it->count; i++) {
        EXPECT_STATUS(YUREWHA_DONE, yurewha_session_new(&one));
        put(&one, 2 * i + 1, &it->chunks[i]);
        join(&it->full, &one);
    }
    yurewha_session_free(&one);
}

static void join_all(struct runs *it) { join(&it->other, &it->full); }

/* Each run of one session is right after one of the other. */
static void join_between(struct runs *it)
{
    for (size_t i = 0; i < it->count; i++)
        put_range(&it->other, 2 * i + 1, &it->range);
    join(&it->full, &it->other);
}

static void runs_by_index(struct runs *it)
{
    uint64_t first = 0;
    for (size_t i = 0; i < it->count; i++)
        EXPECT_STATUS(YUREWHA_DONE, yurewha_session_run(&it->full, i, &first, &it->range));
}

static void runs_from(struct runs *it)
{
    uint64_t first = 0, end = 0;
    for (size_t i = 0; i < it->count; i++)
        EXPECT_STATUS(YUREWHA_DONE, yurewha_session_run_from(&it->full, end, &first, &end, &it->range));
}

static void copy(struct runs *it) { EXPECT_STATUS(YUREWHA_DONE, yurewha_session_copy(&it->full, &it->other)); }

static void keep_one_by_one(struct runs *it)
{
    for (size_t i = 0; i < it->count; i++)
        EXPECT_STATUS(YUREWHA_DONE, yurewha_session_keep_hashes(&it->other, &it->hashes[i], 1));
}

static void keep_all(struct runs *it)
{
    EXPECT_STATUS(YUREWHA_DONE, yurewha_session_keep_hashes(&it->other, it->hashes, it->count));
}

static void known(struct runs *it)
{
    EXPECT_STATUS(YUREWHA_DONE, yurewha_session_known_hashes(&it->full, it->hashes, it->count));
}

static void to_json(struct runs *it)
{
    EXPECT_STATUS(YUREWHA_DONE, yurewha_session_to_json(&it->full, true, it->text, it->length, &it->length));
}

static void from_json(struct runs *it)
{
    EXPECT_STATUS(YUREWHA_DONE, yurewha_session_from_json(it->text, it->length, true, &it->other));
}

static void data_hashes(struct runs *it)
{
    EXPECT_STATUS(YUREWHA_DONE, yurewha_data_hashes(it->chunks, it->count * sizeof *it->chunks, it->offsets,
                                                    it->count + 1, it->hashes, it->count));
}

static const struct {
    const char *name;
    void (*calls)(struct runs *);
    size_t requests; /* for each run or hash */
    size_t bytes;
} rows[] = {
    {"put apart", puts_apart, 5, 750},
    {"put between two runs", puts_between, 5, 750},
    {"put rising", puts_rising, 5, 750},
    {"put falling", puts_falling, 7, 900},
    {"put after a run", puts_after, 5, 750},
    {"put before a run", puts_before, 6, 900},
    {"put without hashes", puts_without_hashes, 9, 1010},
    {"push_run", push_runs, 3, 330},
    {"put_range", put_ranges, 5, 500},
    {"put_range between two runs", put_ranges_between, 5, 500},
    {"join of one run", join_one_by_one, 30, 3000},
    {"join of many runs", join_all, 9, 1500},
    {"join between many runs", join_between, 15, 2500},
    {"run", runs_by_index, 3, 200},
    {"run_from", runs_from, 3, 200},
    {"copy", copy, 3, 400},
    {"keep_hashes of one hash", keep_one_by_one, 3, 420},
    {"keep_hashes of all", keep_all, 0, 320},
    {"known_hashes", known, 0, 32},
    {"to_json", to_json, 0, 840},
    {"from_json", from_json, 47, 8600},
    {"data_hashes", data_hashes, 0, 0},
};

static void expect_cost(size_t place, size_t count)
{
    struct runs it;
    make(&it, count);
    count_requests();
    rows[place].calls(&it);
    const size_t asked = requests(), bytes = granted();
    EXPECT(asked <= rows[place].requests * count + FEW_REQUESTS);
    EXPECT(bytes <= rows[place].bytes * count + FEW_BYTES);
    unmake(&it);
}

void test_costs(void)
{
    if (!sees_requests()) {
        printf("costs: left out, as no request of the library comes by here\n");
        return;
    }
    for (size_t i = 0; i < LENGTH(rows) * LENGTH(sizes); i++) {
        const size_t count = sizes[i % LENGTH(sizes)], place = i / LENGTH(sizes);
        row("%s, %zu runs", rows[place].name, count);
        if (is_wanted())
            expect_cost(place, count);
    }
}
