/* The proofs of each range of files whose bytes are known, and altered ones. driver/ has what else is told and refused. */
#include "harness.h"

enum { LEVELS = 64, NODES = 1024 };

static const yurewha_bytes salt = {{1, 2, 3}};

/* A file: its bytes, its chunks, and where each of them begins, and last where the file ends. Chunk i has i % 5 bytes, so
 * that some have none. */
struct file {
    size_t count;
    uint8_t *bytes;
    yurewha_chunk *chunks;
    uint64_t *places;
};

static struct file file_of(size_t count)
{
    struct file file = {count, message_of(5 * count), block(count * sizeof *file.chunks),
                        block((count + 1) * sizeof *file.places)};
    uint64_t place = 0;
    for (size_t i = 0; i < count; i++) {
        file.places[i] = place;
        file.chunks[i].size = i % 5;
        yurewha_data_hash(file.bytes + place, i % 5, &file.chunks[i].hash);
        place += i % 5;
    }
    file.places[count] = place;
    return file;
}

static void free_file(struct file *file)
{
    free(file->bytes);
    free(file->chunks);
    free(file->places);
}

static yurewha_hash_tree tree_of(const yurewha_chunk *chunks, size_t count)
{
    yurewha_hash_tree tree = {0};
    EXPECT_STATUS(YUREWHA_DONE, yurewha_hash_tree_from_chunks(chunks, count, &tree));
    return tree;
}

/* The flat lists of a proof, with as much room as any proof of few chunks needs. */
struct proof {
    size_t level_count;
    size_t node_count;
    yurewha_level levels[LEVELS];
    yurewha_chunk nodes[NODES + 100];
};

static struct proof proof_of(yurewha_hash_tree *tree, size_t first, size_t end)
{
    struct proof proof;
    memset(&proof, 0, sizeof proof);
    EXPECT_STATUS(YUREWHA_DONE, yurewha_hash_tree_proof(tree, first, end, proof.levels, LEVELS, proof.nodes,
                                                        end - first + NODES, &proof.level_count, &proof.node_count));
    return proof;
}

static yurewha_status open_root(const struct proof *proof, const yurewha_hash *root, yurewha_opened_range *range)
{
    return yurewha_range_proof_open_root(proof->levels, proof->level_count, proof->nodes, proof->node_count, root, range);
}

static yurewha_status open_file(const struct proof *proof, const yurewha_hash *file_hash, yurewha_opened_range *range)
{
    return yurewha_range_proof_open(proof->levels, proof->level_count, proof->nodes, proof->node_count, file_hash, &salt,
                                    range);
}

/* ---- Proofs of each range of a file */

/* The chunks of an opened range are checked, and no other data is accepted in their place. */
static void checks(yurewha_opened_range *range, const struct file *file, size_t first, size_t end)
{
    static const uint8_t other[4] = {255, 255, 255, 255};
    for (size_t i = first; i <= end; i++) {
        const bool is_chunk = i < end;
        const uint8_t *data = file->bytes + file->places[i];
        const size_t length = is_chunk ? (size_t)(file->places[i + 1] - file->places[i]) : 0;
        uint64_t from = 12345, to = 23456, place = 34567;
        EXPECT_STATUS(is_chunk ? YUREWHA_DONE : YUREWHA_ARGUMENTS,
                      yurewha_opened_range_bytes_of(range, i - first, &from, &to));
        EXPECT(from == (is_chunk ? file->places[i] : 12345) && to == (is_chunk ? file->places[i + 1] : 23456));
        EXPECT_STATUS(YUREWHA_MISMATCH, yurewha_opened_range_check(range, i - first, data, length + 1, &place));
        if (length != 0)
            EXPECT_STATUS(YUREWHA_MISMATCH, yurewha_opened_range_check(range, i - first, other, length, &place));
        EXPECT(place == 34567);
        EXPECT_STATUS(is_chunk ? YUREWHA_DONE : YUREWHA_MISMATCH,
                      yurewha_opened_range_check(range, i - first, data, length, &place));
        EXPECT(place == (is_chunk ? file->places[i] : 34567));
    }
}

/* The bytes between each two places of a range are read, and those beyond the range aren't. */
static void reads(yurewha_opened_range *range, const struct file *file, size_t first, size_t end)
{
    const uint64_t begin = file->places[first], stop = file->places[end];
    const uint8_t *data = file->bytes + begin;
    const size_t length = (size_t)(stop - begin);
    for (uint64_t from = begin; from <= stop; from += 1 + (stop - begin) / 4)
        for (uint64_t to = from; to <= stop; to += 1 + (stop - begin) / 3) {
            size_t start = SIZE_MAX;
            EXPECT_STATUS(YUREWHA_DONE, yurewha_opened_range_read(range, from, to, data, length, &start));
            EXPECT(start == from - begin && memcmp(data + start, file->bytes + from, to - from) == 0);
        }
    size_t start = 12345;
    if (begin != 0)
        EXPECT_STATUS(YUREWHA_MISMATCH, yurewha_opened_range_read(range, begin - 1, stop, data, length, &start));
    EXPECT_STATUS(YUREWHA_MISMATCH, yurewha_opened_range_read(range, begin, stop + 1, data, length, &start));
    EXPECT_STATUS(YUREWHA_MISMATCH, yurewha_opened_range_read(range, stop + 1, stop, data, length, &start));
    EXPECT_STATUS(YUREWHA_MISMATCH, yurewha_opened_range_read(range, begin, stop, data, length + 1, &start));
    if (length != 0) {
        EXPECT_STATUS(YUREWHA_MISMATCH, yurewha_opened_range_read(range, begin, stop, data, length - 1, &start));
        EXPECT_STATUS(YUREWHA_MISMATCH, yurewha_opened_range_read(range, begin, stop, data + 1, length, &start));
    }
    EXPECT(start == 12345);
}

/* The lists of a proof are valid, and its JSON text is that of the same lists. */
static void texts(const struct proof *proof)
{
    struct proof again;
    size_t length = 0;
    memset(&again, 0, sizeof again);
    EXPECT_STATUS(YUREWHA_DONE, yurewha_range_proof_check(proof->levels, proof->level_count, proof->nodes, proof->node_count));
    EXPECT_STATUS(YUREWHA_ROOM, yurewha_range_proof_to_json(proof->levels, proof->level_count, proof->nodes, proof->node_count,
                                                            NULL, 0, &length));
    char *text = block(length);
    EXPECT_STATUS(YUREWHA_DONE, yurewha_range_proof_to_json(proof->levels, proof->level_count, proof->nodes, proof->node_count,
                                                            text, length, &length));
    EXPECT_STATUS(YUREWHA_DONE, yurewha_range_proof_from_json(text, length, again.levels, LEVELS, again.nodes,
                                                              LENGTH(again.nodes), &again.level_count, &again.node_count));
    EXPECT(memcmp(&again, proof, sizeof again) == 0);
    free(text);
}

static void proofs(void)
{
    static const size_t counts[] = {1, 2, 9, 40};
    for (size_t i = 0; i < LENGTH(counts); i++) {
        struct file file = file_of(counts[i]);
        yurewha_hash_tree tree = tree_of(file.chunks, file.count);
        yurewha_opened_range range = {0};
        yurewha_hash root, file_hash;
        EXPECT_STATUS(YUREWHA_DONE, yurewha_hash_tree_root(&tree, &root));
        EXPECT_STATUS(YUREWHA_DONE, yurewha_hash_tree_file_hash(&tree, &salt, &file_hash));
        for (size_t first = 0; first < file.count; first++)
            for (size_t end = first + 1; end <= file.count; end++) {
                uint64_t size = 0;
                size_t count = 0;
                row("proof of %zu to %zu of %zu", first, end, file.count);
                const struct proof proof = proof_of(&tree, first, end);
                EXPECT_STATUS(YUREWHA_MISMATCH, open_root(&proof, &file_hash, &range));
                EXPECT_STATUS(YUREWHA_DONE, open_root(&proof, &root, &range));
                EXPECT_STATUS(YUREWHA_MISMATCH, open_file(&proof, &root, &range));
                EXPECT_STATUS(YUREWHA_DONE, open_file(&proof, &file_hash, &range));
                EXPECT_STATUS(YUREWHA_DONE, yurewha_opened_range_file_size(&range, &size));
                EXPECT_STATUS(YUREWHA_DONE, yurewha_opened_range_num_chunks(&range, &count));
                EXPECT(size == file.places[file.count] && count == end - first);
                checks(&range, &file, first, end);
                reads(&range, &file, first, end);
                texts(&proof);
            }
        yurewha_opened_range_free(&range);
        yurewha_hash_tree_free(&tree);
        free_file(&file);
    }
}

/* ---- What is refused */

/* A proof with a bit of a node changed shows another hash, and the handle keeps its range. */
static void altered(void)
{
    struct file file = file_of(40);
    yurewha_hash_tree tree = tree_of(file.chunks, file.count);
    yurewha_opened_range range = {0};
    yurewha_hash root;
    size_t count = 0;
    EXPECT_STATUS(YUREWHA_DONE, yurewha_hash_tree_root(&tree, &root));
    struct proof proof = proof_of(&tree, 11, 14);
    EXPECT_STATUS(YUREWHA_DONE, open_root(&proof, &root, &range));
    for (size_t i = 0; i < 5 * proof.node_count; i++) {
        yurewha_chunk *node = &proof.nodes[i / 5];
        const yurewha_chunk before = *node;
        row("word %zu of node %zu altered", i % 5, i / 5);
        if (i % 5 < 4)
            node->hash.words[i % 5] ^= 1;
        else
            node->size ^= 1;
        EXPECT_STATUS(YUREWHA_MISMATCH, open_root(&proof, &root, &range));
        *node = before;
    }
    row("altered");
    EXPECT_STATUS(YUREWHA_DONE, yurewha_opened_range_num_chunks(&range, &count));
    EXPECT(count == 3);
    /* The default hash is never shown. */
    const yurewha_chunk zeros = {{{0, 0, 0, 0}}, 0};
    EXPECT_STATUS(YUREWHA_MISMATCH, yurewha_range_proof_open_root(NULL, 0, &zeros, 1, &zeros.hash, &range));
    EXPECT_STATUS(YUREWHA_DONE, yurewha_opened_range_num_chunks(&range, &count));
    EXPECT(count == 3);
    yurewha_opened_range_free(&range);
    yurewha_hash_tree_free(&tree);
    free_file(&file);
}

void test_range_proofs(void)
{
    proofs();
    altered();
}
