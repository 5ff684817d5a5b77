/* What the C tests share: checks that are counted, the tests' names, and lists of chunks. */
#ifndef HARNESS_H
#define HARNESS_H

#include "yurewha.h"

#include <stdio.h>
#include <stdlib.h>
#include <string.h>

#define EXPECT(condition) expect((condition), #condition, __FILE__, __LINE__)
#define EXPECT_STATUS(wanted, call) expect_status((wanted), (call), #call, __FILE__, __LINE__)
#define LENGTH(array) (sizeof(array) / sizeof *(array))

/* Says which row of a table the checks that follow are about, and whether it is made: where YUREWHA_ROW is set, some tests make
 * the row of that name alone, so that its instructions can be counted. */
void row(const char *format, ...);
bool is_wanted(void);

/* Count a check, and tell it where it doesn't hold, up to ten of a row. */
void expect(bool holds, const char *what, const char *file, int line);
void expect_status(yurewha_status wanted, yurewha_status found, const char *what, const char *file, int line);

/* A block of exactly so many bytes, which free takes; for 0 bytes too. The program ends where there is none. */
void *block(size_t size);

/* The greatest number of chunks that a test takes: that in YUREWHA_LARGEST, if it is set. */
size_t largest(void);

bool same_hash(const yurewha_hash *first, const yurewha_hash *second);

/* A list of chunks in a block of its own. By a pattern, which is repeated, chunk i has the words i, 0, 0 and w, and the size 1; w is 0
 * where its character is '|', which makes a natural cut, else 1. Without a pattern, it has the hash of the seed i + 1 and the size
 * 100 + 977 * i % 9901. */
yurewha_chunk *list_of(const char *pattern, size_t count);

/* Lists that several tests take. */
static const struct list_row {
    const char *pattern;
    size_t count;
} list_rows[] = {
    {"", 0},
    {".", 1},
    {"|", 1},
    {"|..|..|", 7},
    {"|......|......|", 15},
    {"|.......|.......|", 17},
    {"|.|.|", 5},
    {"...|", 20},
    {"...|", 24},
    {"...|", 28},
    {NULL, 1},
    {NULL, 2},
    {NULL, 3},
    {NULL, 9},
    {NULL, 40},
    {NULL, 150},
    {NULL, 400},
};

/* The message whose byte i is i % 251, in a block of its own. */
uint8_t *message_of(size_t length);

/* The subtree of a part of a list. */
yurewha_subtree range_of(const yurewha_chunk *chunks, size_t from, size_t to, bool at_start, bool at_end);
bool same_subtree(yurewha_subtree *first, yurewha_subtree *second);

/* The hashes that a session knows, by rising order, in a block of their own. With an empty handle there are none. */
yurewha_hash *known_hashes(yurewha_session *session, size_t *count);

/* How many requests malloc and realloc got since the last call of the first one, and their bytes; and how many blocks are held. A block
 * that grows counts with all of its bytes each time. See counting.c. */
void count_requests(void);
size_t requests(void);
size_t granted(void);
long live_blocks(void);
bool sees_requests(void);

/* The tests. */
void test_layout(void);
void test_hasher(void);
void test_lanes(void);
void test_merging(void);
void test_sessions(void);
void test_range_proofs(void);
void test_costs(void);
void test_growth(void);
void test_chosen(void);
void test_large(void);
void test_longest(void);
void test_nesting(void);
void test_numbers(void);
void test_threads(void);

#endif
