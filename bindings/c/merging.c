/* The bracketings of ranges. driver/ has what is told of subtrees, and which merge. */
#include "harness.h"

/* The five bracketings of four ranges: which two neighbours are merged first, second and third. */
void test_merging(void)
{
    static const size_t orders[][3] = {{0, 0, 0}, {0, 1, 0}, {1, 0, 0}, {1, 1, 0}, {2, 1, 0}};
    static const struct {
        const char *pattern;
        size_t count;
        size_t cuts[3];
    } rows[] = {
        {"...|...|...|...|...|...|...|", 28, {4, 24, 28}}, {"...|...|...|...|...|...|...|", 28, {1, 2, 3}},
        {NULL, 150, {37, 40, 110}},                        {NULL, 400, {0, 200, 399}},
        {"|..|..|", 7, {3, 3, 4}},                         {NULL, 3, {1, 2, 2}},
    };
    for (size_t i = 0; i < LENGTH(rows) * LENGTH(orders) * 4; i++) {
        const size_t number = i / (4 * LENGTH(orders)), count = rows[number].count, *cuts = rows[number].cuts;
        const size_t *order = orders[i / 4 % LENGTH(orders)];
        const bool at_start = i % 2 != 0, at_end = i / 2 % 2 != 0;
        yurewha_chunk *chunks = list_of(rows[number].pattern, count);
        row("list %zu, order %zu %zu, marks %d, %d", number, order[0], order[1], at_start, at_end);
        yurewha_subtree whole = range_of(chunks, 0, count, at_start, at_end), merged = {0};
        yurewha_subtree ranges[4] = {
            range_of(chunks, 0, cuts[0], at_start, false),
            range_of(chunks, cuts[0], cuts[1], false, false),
            range_of(chunks, cuts[1], cuts[2], false, false),
            range_of(chunks, cuts[2], count, false, at_end),
        };
        EXPECT_STATUS(YUREWHA_DONE, yurewha_subtree_merge(ranges, 4, &merged));
        EXPECT(same_subtree(&merged, &whole));
        for (size_t step = 0, left = 4; step < 3; step++, left--) {
            EXPECT_STATUS(YUREWHA_DONE, yurewha_subtree_merge_into(&ranges[order[step]], &ranges[order[step] + 1]));
            yurewha_subtree_free(&ranges[order[step] + 1]);
            for (size_t j = order[step] + 1; j + 1 < left; j++) {
                ranges[j] = ranges[j + 1];
                ranges[j + 1] = (yurewha_subtree){0};
            }
        }
        EXPECT(same_subtree(&ranges[0], &whole));
        yurewha_subtree_free(&ranges[0]);
        yurewha_subtree_free(&merged);
        yurewha_subtree_free(&whole);
        free(chunks);
    }
}
