/*
 * Merges ranges of one file's chunks that were hashed separately. SIZE is the file's size in bytes, so that a lost line or range
 * is noticed. Each other argument names a file with the pairs of a range. A line has one pair: the hash of a chunk in hex, a
 * space, and its size. The program prints how many nodes are kept of each range, and the root.
 *
 *     merge SIZE FIRST NEXT..
 */
#include <errno.h>
#include <inttypes.h>
#include <stdio.h>
#include <stdlib.h>
#include <string.h>
#include <yurewha.h>

/* A hash, a space, up to 20 digits, and the line end. */
enum { LONGEST_LINE = YUREWHA_HEX_LENGTH + 23 };

static void fail(const char *what, const char *name)
{
    fprintf(stderr, "merge: %s: %s\n", name, what);
}

/* Reads a number of decimal digits alone, up to the end of a text. */
static bool read_number(const char *text, uint64_t *number)
{
    char *end;
    errno = 0;
    *number = strtoumax(text, &end, 10);
    return errno == 0 && *end == '\0' && end != text && strspn(text, "0123456789") == strlen(text);
}

/* Reads a line of a pair. One without a line end may have been cut off, and one that is too long for a pair seems to have none. */
static bool read_pair(char *line, yurewha_chunk *chunk)
{
    char *size = strchr(line, ' '), *end = strchr(line, '\n');
    if (size == NULL || end == NULL)
        return false;
    *end = '\0';
    return read_number(size + 1, &chunk->size) && yurewha_from_hex(line, (size_t)(size - line), &chunk->hash) == YUREWHA_DONE;
}

/* Reads the pairs of a range and makes its subtree. */
static bool read_range(const char *name, bool at_start, bool at_end, yurewha_subtree *range)
{
    yurewha_chunk *chunks = NULL;
    size_t count = 0, room = 0;
    char line[LONGEST_LINE];
    FILE *file = fopen(name, "r");
    bool done = file != NULL;
    while (done && fgets(line, sizeof line, file) != NULL) {
        if (count == room) {
            room = 2 * room + 64;
            yurewha_chunk *more = realloc(chunks, room * sizeof *chunks);
            done = more != NULL;
            chunks = done ? more : chunks;
        }
        done = done && read_pair(line, &chunks[count++]);
    }
    done = done && !ferror(file) && yurewha_subtree_from_chunks(at_start, chunks, count, at_end, range) == YUREWHA_DONE;
    if (file != NULL)
        fclose(file);
    free(chunks);
    return done;
}

/* Merges all ranges. The first one is marked at its start, the last one at its end. */
static bool merge_all(int count, char **names, yurewha_subtree *merged)
{
    bool done = true;
    for (int i = 0; done && i < count; i++) {
        yurewha_subtree next = {0}, *range = i == 0 ? merged : &next;
        size_t nodes = 0;
        done = read_range(names[i], i == 0, i == count - 1, range) && yurewha_subtree_num_nodes(range, &nodes) == YUREWHA_DONE
               && (i == 0 || yurewha_subtree_merge_into(merged, range) == YUREWHA_DONE);
        yurewha_subtree_free(&next);
        if (done)
            printf("%s: %zu nodes are kept\n", names[i], nodes);
        else
            fail("it can't be read or merged", names[i]);
    }
    return done;
}

int main(int count, char **words)
{
    yurewha_subtree merged = {0};
    yurewha_hash root;
    char text[YUREWHA_HEX_LENGTH];
    uint64_t wanted = 0, size = 0;
    size_t length = 0;
    bool done = count > 2 && read_number(words[1], &wanted);
    if (!done)
        fail("it isn't the size of a file", count > 1 ? words[1] : "");
    done = done && merge_all(count - 2, words + 2, &merged);
    if (done && (yurewha_subtree_total_size(&merged, &size) != YUREWHA_DONE || size != wanted)) {
        fail("the ranges have another size", words[1]);
        done = false;
    }
    done = done && yurewha_subtree_final_hash(&merged, &root) == YUREWHA_DONE
           && yurewha_hex(&root, text, sizeof text, &length) == YUREWHA_DONE;
    if (done)
        printf("xorb %.*s\n", (int)length, text);
    if (fflush(stdout) != 0 || ferror(stdout)) {
        fail("it can't be written", "standard output");
        done = false;
    }
    yurewha_subtree_free(&merged);
    return done ? EXIT_SUCCESS : EXIT_FAILURE;
}
