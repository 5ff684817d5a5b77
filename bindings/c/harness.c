/* The harness, and `main`, which runs all tests, or those whose names are given. */
#include "harness.h"

#include <inttypes.h>
#include <stdarg.h>

/* How many failures of one row are reported. */
enum { TOLD = 10 };

static struct {
    size_t checks;
    size_t failures;
    size_t failures_of_row;
    char row[200];
} state;

void row(const char *format, ...)
{
    va_list rest;
    va_start(rest, format);
    vsnprintf(state.row, sizeof state.row, format, rest);
    va_end(rest);
    state.failures_of_row = 0;
}

bool is_wanted(void)
{
    const char *set = getenv("YUREWHA_ROW");
    return set == NULL || strcmp(set, state.row) == 0;
}

void expect(bool holds, const char *what, const char *file, int line)
{
    state.checks++;
    if (holds)
        return;
    state.failures++;
    state.failures_of_row++;
    if (state.failures_of_row <= TOLD)
        printf("%s:%d: [%s] fails: %s\n", file, line, state.row, what);
}

void expect_status(yurewha_status wanted, yurewha_status found, const char *what, const char *file, int line)
{
    expect(wanted == found, what, file, line);
    if (wanted != found && state.failures_of_row <= TOLD)
        printf("    status %" PRIu32 ", and not %" PRIu32 "\n", found, wanted);
}

void *block(size_t size)
{
    void *found = malloc(size != 0 ? size : 1);
    if (found == NULL)
        abort();
    return found;
}

size_t largest(void)
{
    const char *set = getenv("YUREWHA_LARGEST");
    return set != NULL ? (size_t)strtoull(set, NULL, 10) : SIZE_MAX;
}

bool same_hash(const yurewha_hash *first, const yurewha_hash *second)
{
    return memcmp(first, second, sizeof *first) == 0;
}

yurewha_chunk *list_of(const char *pattern, size_t count)
{
    const size_t length = pattern != NULL ? strlen(pattern) : 0;
    yurewha_chunk *chunks = block(count * sizeof *chunks);
    for (size_t i = 0; i < count; i++) {
        if (pattern != NULL) {
            chunks[i] = (yurewha_chunk){{{i, 0, 0, pattern[i % length] == '|' ? 0 : 1}}, 1};
        } else {
            yurewha_random_from_seed(i + 1, &chunks[i].hash);
            chunks[i].size = 100 + 977 * i % 9901;
        }
    }
    return chunks;
}

uint8_t *message_of(size_t length)
{
    uint8_t *message = block(length);
    for (size_t i = 0; i < length; i++)
        message[i] = (uint8_t)(i % 251);
    return message;
}

yurewha_subtree range_of(const yurewha_chunk *chunks, size_t from, size_t to, bool at_start, bool at_end)
{
    yurewha_subtree subtree = {0};
    EXPECT_STATUS(YUREWHA_DONE, yurewha_subtree_from_chunks(at_start, chunks + from, to - from, at_end, &subtree));
    return subtree;
}

bool same_subtree(yurewha_subtree *first, yurewha_subtree *second)
{
    bool equal = false;
    return yurewha_subtree_equal(first, second, &equal) == YUREWHA_DONE && equal;
}

static int by_order(const void *first, const void *second) { return yurewha_compare(first, second); }

yurewha_hash *known_hashes(yurewha_session *session, size_t *count)
{
    *count = 0;
    const yurewha_status status = yurewha_session_num_known_hashes(session, count);
    yurewha_hash *hashes = block(*count * sizeof *hashes);
    EXPECT_STATUS(status, yurewha_session_known_hashes(session, hashes, *count));
    qsort(hashes, *count, sizeof *hashes, by_order);
    return hashes;
}

int main(int count, char **names)
{
    static const struct {
        const char *name;
        void (*run)(void);
    } tests[] = {
        {"layout", test_layout}, {"hasher", test_hasher}, {"lanes", test_lanes}, {"merging", test_merging},
        {"sessions", test_sessions}, {"range_proofs", test_range_proofs}, {"costs", test_costs}, {"growth", test_growth},
        {"chosen", test_chosen}, {"large", test_large}, {"longest", test_longest}, {"nesting", test_nesting},
        {"numbers", test_numbers}, {"threads", test_threads},
    };
    for (size_t i = 0; i < LENGTH(tests); i++) {
        bool wanted = count < 2;
        for (int j = 1; j < count; j++)
            wanted = wanted || strcmp(names[j], tests[i].name) == 0;
        if (!wanted)
            continue;
        const size_t before = state.checks;
        tests[i].run();
        printf("%-14s %6zu checks\n", tests[i].name, state.checks - before);
    }
    printf("%zu checks, %zu failed\n", state.checks, state.failures);
    return state.failures != 0 || state.checks == 0;
}
