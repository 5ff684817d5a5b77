/*
 * Cuts a file into chunks of 64 KiB. Prints the hash and the size of each, then the root and the file hash.
 *
 *     chunks FILE
 */
#include <inttypes.h>
#include <stdio.h>
#include <stdlib.h>
#include <yurewha.h>

enum { CHUNK_SIZE = 64 * 1024 };

struct list {
    yurewha_chunk *chunks;
    size_t count;
};

static void print_hash(const char *name, const yurewha_hash *hash)
{
    char text[YUREWHA_HEX_LENGTH];
    size_t length;
    if (yurewha_hex(hash, text, sizeof text, &length) == YUREWHA_DONE)
        printf("%s%.*s", name, (int)length, text);
}

/* Adds a chunk with this data. */
static bool add(struct list *list, const uint8_t *data, size_t size)
{
    yurewha_chunk *chunks = realloc(list->chunks, (list->count + 1) * sizeof *chunks);
    if (chunks == NULL)
        return false;
    list->chunks = chunks;
    yurewha_data_hash(data, size, &chunks[list->count].hash);
    chunks[list->count].size = size;
    list->count++;
    return true;
}

static bool read_chunks(FILE *file, struct list *list)
{
    static uint8_t data[CHUNK_SIZE];
    size_t size;
    while ((size = fread(data, 1, sizeof data, file)) > 0)
        if (!add(list, data, size))
            return false;
    return ferror(file) == 0;
}

int main(int count, char **words)
{
    struct list list = {NULL, 0};
    yurewha_hash root, hash;
    FILE *file = count == 2 ? fopen(words[1], "rb") : NULL;
    bool done = file != NULL && read_chunks(file, &list);
    done = done && yurewha_xorb_hash(list.chunks, list.count, &root) == YUREWHA_DONE
           && yurewha_file_hash(list.chunks, list.count, &hash) == YUREWHA_DONE;
    for (size_t i = 0; done && i < list.count; i++) {
        print_hash("", &list.chunks[i].hash);
        printf(" %" PRIu64 "\n", list.chunks[i].size);
    }
    if (done) {
        print_hash("xorb ", &root);
        print_hash("\nfile ", &hash);
        printf("\n");
    }
    done = fflush(stdout) == 0 && !ferror(stdout) && done;
    if (!done)
        fprintf(stderr, "chunks: the file can't be read, the output can't be written, or memory ran out\n");
    free(list.chunks);
    if (file != NULL)
        fclose(file);
    return done ? EXIT_SUCCESS : EXIT_FAILURE;
}
