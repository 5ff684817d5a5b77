/* The gaps of sessions, chunks that are put in any order, and parts of a list that are put together in any order. driver/ has what else a
 * session tells. */
#include "harness.h"

#define NEVER 12345

/* From each of the first positions, and below each total, the gap is the one that `taken` shows. */
static void gaps_of(yurewha_session *session)
{
    enum { POSITIONS = 60 };
    bool taken[POSITIONS + 1];
    for (uint64_t i = 0; i <= POSITIONS; i++)
        EXPECT_STATUS(YUREWHA_DONE, yurewha_session_taken(session, i, &taken[i]));
    for (uint64_t total = 0; total <= POSITIONS; total++)
        for (uint64_t position = 0; position <= POSITIONS; position++) {
            uint64_t first = NEVER, end = NEVER, free_from = position, free_to;
            while (free_from < total && taken[free_from])
                free_from++;
            for (free_to = free_from; free_to < total && !taken[free_to];)
                free_to++;
            const bool is_there = free_from < total;
            EXPECT_STATUS(is_there ? YUREWHA_DONE : YUREWHA_ARGUMENTS,
                          yurewha_session_next_gap(session, position, total, &first, &end));
            EXPECT(first == (is_there ? free_from : NEVER) && end == (is_there ? free_to : NEVER));
        }
}

/* Sessions of up to three runs, which are put, pushed, put as ranges, or joined. */
static void gaps(void)
{
    static const struct {
        uint64_t first;
        uint64_t end;
    } rows[][3] = {
        {{0, 0}},
        {{0, 4}},
        {{2, 4}},
        {{0, 3}, {10, 13}},
        {{1, 2}, {3, 4}, {5, 6}},
        {{7, 20}, {30, 58}, {60, 61}},
        {{0, 1}, {59, 61}},
        {{100, 105}},
        {{0, 60}},
        {{UINT64_MAX - 1, UINT64_MAX}},
    };
    yurewha_chunk *chunks = list_of(NULL, 60);
    yurewha_subtree range = range_of(chunks, 0, 2, false, false);
    static const char *const ways[] = {"put", "pushed", "put as ranges", "joined"};
    for (size_t i = 0; i < LENGTH(ways) * LENGTH(rows); i++) {
        const size_t way = i % LENGTH(ways), place = i / LENGTH(ways);
        yurewha_session session = {0}, other = {0};
        uint64_t fresh = 0;
        row("gaps of session %zu, %s", place, ways[way]);
        EXPECT_STATUS(YUREWHA_DONE, yurewha_session_new(&session));
        for (size_t j = 0; j < LENGTH(rows[0]); j++) {
            const uint64_t first = rows[place][j].first, end = rows[place][j].end;
            EXPECT_STATUS(YUREWHA_DONE, yurewha_session_new(&other));
            if (first < end && way == 1)
                EXPECT_STATUS(YUREWHA_DONE, yurewha_session_push_run(&session, first, end, &range));
            else if (first < end && way == 2)
                EXPECT_STATUS(YUREWHA_DONE, yurewha_session_put_range(&session, first, end - first, &range));
            else
                EXPECT_STATUS(YUREWHA_DONE, yurewha_session_put(way == 3 ? &other : &session, first, chunks, (size_t)(end - first), &fresh));
            EXPECT_STATUS(YUREWHA_DONE, yurewha_session_join(&session, &other, &fresh));
        }
        gaps_of(&session);
        yurewha_session_free(&session);
        yurewha_session_free(&other);
    }
    yurewha_subtree_free(&range);
    free(chunks);
}

/* The blocks of a list come by rising number, by falling number, or each third one first. */
static void orders(void)
{
    static const size_t blocks[] = {1, 7, 50};
    for (size_t i = 0; i < LENGTH(list_rows) * LENGTH(blocks) * 3; i++) {
        const struct list_row *it = &list_rows[i / (3 * LENGTH(blocks))];
        const size_t size = blocks[i / 3 % LENGTH(blocks)], count = (it->count + size - 1) / size;
        yurewha_chunk *chunks = list_of(it->pattern, it->count);
        yurewha_session session = {0};
        yurewha_hash root, file, hash;
        uint64_t sum = 0;
        row("%zu chunks by %zu, order %zu", it->count, size, i % 3);
        EXPECT_STATUS(YUREWHA_DONE, yurewha_session_new(&session));
        for (size_t j = 0; j < count; j++) {
            const size_t thirds = (count + 2) / 3, turn[] = {j, count - 1 - j, 0};
            size_t number = turn[i % 3];
            if (i % 3 == 2)
                number = j < thirds ? 3 * j : (j - thirds) / 2 * 3 + (j - thirds) % 2 + 1;
            const size_t first = number * size, length = it->count - first < size ? it->count - first : size;
            uint64_t fresh = NEVER;
            EXPECT_STATUS(YUREWHA_DONE, yurewha_session_put(&session, first, chunks + first, length, &fresh));
            sum += fresh;
        }
        EXPECT(sum == it->count);
        EXPECT_STATUS(YUREWHA_DONE, yurewha_xorb_hash(chunks, it->count, &root));
        EXPECT_STATUS(YUREWHA_DONE, yurewha_file_hash(chunks, it->count, &file));
        EXPECT_STATUS(YUREWHA_DONE, yurewha_session_root(&session, it->count, &hash));
        EXPECT(same_hash(&hash, &root));
        EXPECT_STATUS(YUREWHA_DONE, yurewha_session_finish(&session, it->count, &hash));
        EXPECT(same_hash(&hash, &file));
        yurewha_session_free(&session);
        free(chunks);
    }
}

/* The parts of a list in sessions of their own, of which each second one is put as a range. Each half is joined to the other one, from the
 * front to the back or back to front, until there is one session. */
static void parts_of(const struct list_row *it, size_t size, bool to_back)
{
    const size_t parts = (it->count + size - 1) / size;
    yurewha_chunk *chunks = list_of(it->pattern, it->count);
    yurewha_session *sessions = block(parts * sizeof *sessions);
    yurewha_hash wanted, hash;
    uint64_t fresh = 0, sum = 0;
    size_t known = 0;
    memset(sessions, 0, parts * sizeof *sessions);
    for (size_t i = 0; i < parts; i++) {
        const size_t first = i * size, length = it->count - first < size ? it->count - first : size;
        yurewha_subtree range = range_of(chunks, first, first + length, false, false);
        EXPECT_STATUS(YUREWHA_DONE, yurewha_session_new(&sessions[i]));
        if (i % 2 != 0)
            EXPECT_STATUS(YUREWHA_DONE, yurewha_session_put_range(&sessions[i], first, length, &range));
        else
            EXPECT_STATUS(YUREWHA_DONE, yurewha_session_put(&sessions[i], first, chunks + first, length, &fresh));
        sum += i % 2 != 0 ? 0 : length;
        yurewha_subtree_free(&range);
    }
    for (size_t count = parts, half; count > 1; count = half) {
        half = (count + 1) / 2;
        for (size_t i = 0; i + half < count; i++) {
            yurewha_session front = sessions[i], back = sessions[i + half];
            sessions[i] = to_back ? back : front;
            EXPECT_STATUS(YUREWHA_DONE, yurewha_session_join(&sessions[i], to_back ? &front : &back, &fresh));
            EXPECT_STATUS(YUREWHA_SESSION_OVERLAP, yurewha_session_join(&sessions[i], to_back ? &front : &back, &fresh));
            yurewha_session_free(to_back ? &front : &back);
        }
    }
    EXPECT_STATUS(YUREWHA_DONE, yurewha_session_num_known_hashes(&sessions[0], &known));
    EXPECT(known == sum);
    EXPECT_STATUS(YUREWHA_DONE, yurewha_file_hash(chunks, it->count, &wanted));
    EXPECT_STATUS(YUREWHA_DONE, yurewha_session_finish(&sessions[0], it->count, &hash));
    EXPECT(same_hash(&hash, &wanted));
    yurewha_session_free(&sessions[0]);
    free(sessions);
    free(chunks);
}

static void parts(void)
{
    static const size_t sizes[] = {1, 7, 50};
    for (size_t i = 0; i < LENGTH(list_rows) * LENGTH(sizes) * 2; i++) {
        const struct list_row *it = &list_rows[i / (2 * LENGTH(sizes))];
        const size_t size = sizes[i / 2 % LENGTH(sizes)];
        row("parts of %zu chunks by %zu, %s", it->count, size, i % 2 != 0 ? "to the back" : "to the front");
        if (it->count > 0)
            parts_of(it, size, i % 2 != 0);
    }
}

void test_sessions(void)
{
    gaps();
    orders();
    parts();
}
