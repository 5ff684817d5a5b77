/*
 * Handles and hashers that go from level to level, where the processor has all: `crossing LEVEL..` names those that it has. A static
 * library lets a program of its own write the choice.
 */
#include "yurewha.h"

#include <stdio.h>
#include <string.h>

struct kernels;
extern const struct kernels yurewha_x86_64_kernels, yurewha_x86_64_v2_kernels, yurewha_x86_64_v3_kernels,
    yurewha_x86_64_v4_kernels;
extern const struct kernels *_Atomic yurewha_kernels;

static const struct level {
    const char *name;
    const struct kernels *kernels;
} levels[] = {
    {"x86-64", &yurewha_x86_64_kernels},
    {"x86-64-v2", &yurewha_x86_64_v2_kernels},
    {"x86-64-v3", &yurewha_x86_64_v3_kernels},
    {"x86-64-v4", &yurewha_x86_64_v4_kernels},
};

enum { LEVELS = 4, LENGTH = 100000, PIECE = 9000, CHUNKS = 3000, PART = 700 };
static uint8_t message[LENGTH];
static yurewha_chunk chunks[CHUNKS];
/* The levels that take turns. */
static const struct level *turns[LEVELS];
static size_t count;

/* From now on, calls go to this turn's kernels. */
static void turn(size_t number)
{
    yurewha_kernels = turns[number % count]->kernels;
}

static bool same(const yurewha_hash *first, const yurewha_hash *second)
{
    return memcmp(first, second, sizeof *first) == 0;
}

/* One message in pieces. */
static bool hasher_crosses(void)
{
    yurewha_hasher hasher;
    yurewha_hash whole, pieces;
    bool holds = true;
    yurewha_data_hash(message, LENGTH, &whole);
    turn(0);
    yurewha_hasher_begin_data(&hasher);
    for (size_t at = 0, it = 1; at < LENGTH; at += PIECE, it++) {
        turn(it);
        holds = yurewha_hasher_update(&hasher, message + at, LENGTH - at < PIECE ? LENGTH - at : PIECE) == YUREWHA_DONE && holds;
    }
    turn(2);
    yurewha_hasher_finalize(&hasher, &pieces);
    return holds && same(&whole, &pieces);
}

/* A part of the list: its range is merged into the file, and its chunks are put into the session. */
static bool take_part(yurewha_subtree *file, yurewha_session *session, size_t at, size_t it)
{
    const size_t part = CHUNKS - at < PART ? CHUNKS - at : PART;
    yurewha_subtree range = {0};
    uint64_t fresh;
    turn(it);
    bool holds = yurewha_subtree_from_chunks(false, chunks + at, part, at + part == CHUNKS, &range) == YUREWHA_DONE;
    turn(it + 1);
    holds = yurewha_subtree_merge_into(file, &range) == YUREWHA_DONE && holds;
    turn(it + 2);
    holds = yurewha_session_put(session, at, chunks + at, part, &fresh) == YUREWHA_DONE && holds;
    yurewha_subtree_free(&range);
    return holds;
}

/* One list by ranges that are merged, and by positions. */
static bool handles_cross(void)
{
    yurewha_subtree file = {0};
    yurewha_session session = {0};
    yurewha_hash root, merged, by_position;
    bool holds = yurewha_xorb_hash(chunks, CHUNKS, &root) == YUREWHA_DONE
                 && yurewha_subtree_from_chunks(true, NULL, 0, false, &file) == YUREWHA_DONE
                 && yurewha_session_new(&session) == YUREWHA_DONE;
    for (size_t at = 0, it = 0; at < CHUNKS; at += PART, it++)
        holds = take_part(&file, &session, at, it) && holds;
    turn(0);
    holds = yurewha_subtree_final_hash(&file, &merged) == YUREWHA_DONE && same(&root, &merged) && holds;
    turn(1);
    holds = yurewha_session_root(&session, CHUNKS, &by_position) == YUREWHA_DONE && same(&root, &by_position) && holds;
    yurewha_subtree_free(&file);
    yurewha_session_free(&session);
    return holds;
}

int main(int words, char **names)
{
    for (size_t i = 0; i < LEVELS; i++)
        for (int it = 1; it < words; it++)
            if (strcmp(names[it], levels[i].name) == 0)
                turns[count++] = &levels[i];
    for (size_t i = 0; i < LENGTH; i++)
        message[i] = (uint8_t)(i * 7 % 251);
    for (size_t i = 0; i < CHUNKS; i++) {
        yurewha_random_from_seed(i, &chunks[i].hash);
        chunks[i].size = i;
    }
    const bool holds = count != 0 && hasher_crosses() && handles_cross();
    printf("%zu levels, %s\n", count, holds ? "and the same results across them" : "with other results across them");
    return !holds;
}
