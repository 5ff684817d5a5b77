/*
 * Measures what calls of the static library take, and prints a line for each family: its name, the stack in bytes, and the
 * memory in bytes that is held at most in addition to the arguments, for COUNT chunks or bytes.
 *
 * The stack is one that was filled before: what isn't as it was has been used. The linker puts the allocator here before
 * malloc, by -Wl,--wrap=malloc,--wrap=realloc,--wrap=free.
 */
#define _GNU_SOURCE
#include "yurewha.h"

#include <malloc.h>
#include <pthread.h>
#include <stdio.h>
#include <stdlib.h>
#include <string.h>
#include <sys/mman.h>

enum { COUNT = 100000, STACK = 1 << 22, FILL = 0x5A, DEEPEST = 32 };

static struct {
    size_t held;
    size_t most;
} heap;

void *__real_malloc(size_t size);
void *__real_realloc(void *old, size_t size);
void __real_free(void *old);
void *__wrap_malloc(size_t size);
void *__wrap_realloc(void *old, size_t size);
void __wrap_free(void *old);

static void *counted(void *found)
{
    heap.held += malloc_usable_size(found);
    heap.most = heap.held > heap.most ? heap.held : heap.most;
    return found;
}

void *__wrap_malloc(size_t size) { return counted(__real_malloc(size)); }

/* While a block is moved, both are there. */
void *__wrap_realloc(void *old, size_t size)
{
    const size_t before = malloc_usable_size(old);
    void *found = __real_realloc(old, size);
    if (found != old && heap.held + malloc_usable_size(found) > heap.most)
        heap.most = heap.held + malloc_usable_size(found);
    heap.held -= before;
    return counted(found);
}

void __wrap_free(void *old)
{
    heap.held -= malloc_usable_size(old);
    __real_free(old);
}

/* The arguments of the calls: random chunks, chunks without a natural cut, texts, and room for results. */
static struct {
    yurewha_chunk *chunks[2];
    char *bytes;
    char *texts[2];
    size_t lengths[2];
    char *nested;
    size_t nested_length;
    yurewha_level levels[64];
    yurewha_chunk *nodes;
    yurewha_level proof_levels[64];
    yurewha_chunk *proof_nodes;
    size_t proof_counts[2];
    char *proof_text;
    size_t proof_length;
    yurewha_hash tree_hash;
    yurewha_hash hash;
    size_t count;
    uint64_t number;
    bool truth;
} it;

static void expect(yurewha_status status)
{
    if (status != YUREWHA_DONE) {
        fprintf(stderr, "exports: status %u\n", status);
        exit(1);
    }
}

static void nothing(void) {}

static void hashes(void)
{
    char text[YUREWHA_HEX_LENGTH];
    yurewha_data_hash((const uint8_t *)it.bytes, COUNT, &it.hash);
    yurewha_internal_node_hash((const uint8_t *)it.bytes, COUNT, &it.hash);
    yurewha_hmac(&it.hash, &it.hash, &it.hash);
    yurewha_random_from_seed(7, &it.hash);
    expect(yurewha_hex(&it.hash, text, sizeof text, &it.count));
    expect(yurewha_from_hex(text, it.count, &it.hash));
}

static void base64(void)
{
    char text[YUREWHA_BASE64_LENGTH];
    expect(yurewha_base64(&it.hash, text, sizeof text, &it.count));
    expect(yurewha_from_base64(text, it.count, &it.hash));
}

static yurewha_hasher hasher;

static void hashers(void)
{
    yurewha_hasher_begin_data(&hasher);
    expect(yurewha_hasher_update(&hasher, (const uint8_t *)it.bytes, COUNT));
    yurewha_hasher_finalize(&hasher, &it.hash);
}

/* A file of COUNT chunks, which all have the same bytes: 0, 148, 143 again and again. */
static void file_hashers(void)
{
    static char chunk[3 * 2731];
    yurewha_file_hasher file = {0};
    yurewha_chunker chunker;
    for (size_t i = 0; i < sizeof chunk; i++)
        chunk[i] = "\0\x94\x8f"[i % 3];
    yurewha_chunker_begin(&chunker);
    if (yurewha_chunker_next_boundary(&chunker, chunk, sizeof chunk) != sizeof chunk || yurewha_chunker_taken(&chunker) != 0)
        abort();
    expect(yurewha_file_hasher_new(&file));
    for (size_t i = 0; i < COUNT; i++)
        expect(yurewha_file_hasher_update(&file, chunk, sizeof chunk));
    expect(yurewha_file_hasher_size(&file, &it.number));
    expect(yurewha_file_hasher_root(&file, &it.hash));
    expect(yurewha_file_hasher_finish(&file, &it.hash));
    yurewha_file_hasher_free(&file);
}

static void roots_of(size_t kind)
{
    expect(yurewha_xorb_hash(it.chunks[kind], COUNT, &it.hash));
    expect(yurewha_file_hash(it.chunks[kind], COUNT, &it.hash));
}

static void roots(void) { roots_of(0); }
static void roots_without_cuts(void) { roots_of(1); }

static void stable_points(void)
{
    expect(yurewha_find_stable_start(it.chunks[0], COUNT, &it.count));
    expect(yurewha_find_stable_end(it.chunks[0], COUNT, &it.count));
}

static void subtree_of(size_t kind)
{
    yurewha_subtree subtree = {0};
    expect(yurewha_subtree_from_chunks(false, it.chunks[kind], COUNT, false, &subtree));
    yurewha_subtree_free(&subtree);
}

static void subtrees(void) { subtree_of(0); }
static void subtrees_without_cuts(void) { subtree_of(1); }

static void merges_of(size_t kind)
{
    yurewha_subtree ranges[2] = {{0}, {0}}, merged = {0};
    expect(yurewha_subtree_from_chunks(true, it.chunks[kind], COUNT / 2, false, &ranges[0]));
    expect(yurewha_subtree_from_chunks(false, it.chunks[kind] + COUNT / 2, COUNT / 2, true, &ranges[1]));
    expect(yurewha_subtree_merge(ranges, 2, &merged));
    expect(yurewha_subtree_merge_into_counted(&ranges[0], &ranges[1], &it.number));
    expect(yurewha_subtree_equal(&ranges[0], &merged, &it.truth));
    expect(yurewha_subtree_clone(&merged, &ranges[1]));
    expect(yurewha_subtree_final_hash(&merged, &it.hash));
    yurewha_subtree_free(&ranges[0]);
    yurewha_subtree_free(&ranges[1]);
    yurewha_subtree_free(&merged);
}

static void merges(void) { merges_of(0); }
static void merges_without_cuts(void) { merges_of(1); }

static void json_of(size_t kind)
{
    yurewha_subtree subtree = {0};
    expect(yurewha_subtree_from_json(it.texts[kind], it.lengths[kind], &subtree));
    expect(yurewha_subtree_to_json(&subtree, it.texts[kind], it.lengths[kind], &it.count));
    yurewha_subtree_free(&subtree);
}

static void json(void) { json_of(0); }
static void json_without_cuts(void) { json_of(1); }

static void json_nested(void)
{
    yurewha_subtree subtree = {0};
    expect(yurewha_subtree_from_json(it.nested, it.nested_length, &subtree));
    yurewha_subtree_free(&subtree);
}

static void flat_lists(void)
{
    yurewha_subtree subtree = {0};
    size_t levels = 0, nodes = 0;
    expect(yurewha_subtree_from_chunks(false, it.chunks[0], COUNT, false, &subtree));
    expect(yurewha_subtree_to_flat(&subtree, it.levels, 64, it.nodes, COUNT, &levels, &nodes));
    expect(yurewha_subtree_from_flat(false, it.levels, levels, it.nodes, nodes, false, &subtree));
    yurewha_subtree_free(&subtree);
}

/* Puts pieces of this length, from the last to the first. */
static void session_of(size_t piece)
{
    yurewha_session session = {0};
    yurewha_subtree range = {0};
    expect(yurewha_session_new(&session));
    for (size_t end = COUNT; end > 0; end -= piece)
        expect(yurewha_session_put(&session, end - piece, it.chunks[0] + end - piece, piece, &it.number));
    expect(yurewha_session_taken(&session, 7, &it.truth));
    expect(yurewha_session_run(&session, 0, &it.number, &range));
    expect(yurewha_session_root(&session, COUNT, &it.hash));
    expect(yurewha_session_finish(&session, COUNT, &it.hash));
    yurewha_subtree_free(&range);
    yurewha_session_free(&session);
}

static void sessions(void) { session_of(COUNT); }
static void sessions_of_pieces(void) { session_of(COUNT / 1000); }

/* Chunks of which no two are adjacent. */
static void sessions_of_gaps(void)
{
    yurewha_session session = {0};
    expect(yurewha_session_new(&session));
    for (size_t i = 0; i < COUNT; i++)
        expect(yurewha_session_put(&session, 2 * i, it.chunks[0] + i, 1, &it.number));
    yurewha_session_free(&session);
}

static const yurewha_bytes NO_SALT;

static void hash_trees(void)
{
    yurewha_hash_tree tree = {0};
    size_t end = 0, counts[2] = {0, 0};
    uint64_t place = 0;
    expect(yurewha_hash_tree_from_chunks(it.chunks[0], COUNT, &tree));
    expect(yurewha_hash_tree_file_hash(&tree, &NO_SALT, &it.hash));
    expect(yurewha_hash_tree_total_size(&tree, &it.number));
    expect(yurewha_hash_tree_chunks_at(&tree, it.number / 2, it.number / 2 + 1, &it.count, &end));
    expect(yurewha_hash_tree_bytes_of(&tree, it.count, end, &it.number, &place));
    expect(yurewha_hash_tree_proof(&tree, it.count, end, it.levels, 64, it.nodes, COUNT, &counts[0], &counts[1]));
    yurewha_hash_tree_free(&tree);
}

/* The proof of all chunks, each of which is a node. */
static void proofs_as_json(void)
{
    size_t counts[2] = {0, 0};
    expect(yurewha_range_proof_from_json(it.proof_text, it.proof_length, it.levels, 64, it.nodes, COUNT, &counts[0], &counts[1]));
    expect(yurewha_range_proof_to_json(it.levels, counts[0], it.nodes, counts[1], it.proof_text, it.proof_length, &it.count));
}

static void opened_ranges(void)
{
    yurewha_opened_range range = {0};
    uint64_t place = 0;
    expect(yurewha_range_proof_check(it.proof_levels, it.proof_counts[0], it.proof_nodes, it.proof_counts[1]));
    expect(yurewha_range_proof_open(it.proof_levels, it.proof_counts[0], it.proof_nodes, it.proof_counts[1], &it.tree_hash,
                                    &NO_SALT, &range));
    expect(yurewha_opened_range_file_size(&range, &it.number));
    expect(yurewha_opened_range_bytes_of(&range, COUNT - 1, &it.number, &place));
    if (yurewha_opened_range_check(&range, 7, it.bytes, COUNT, &place) != YUREWHA_MISMATCH
        || yurewha_opened_range_read(&range, 7, 8, it.bytes, COUNT, &it.count) != YUREWHA_MISMATCH)
        abort();
    yurewha_opened_range_free(&range);
}

static void *allotted(size_t size)
{
    void *found = malloc(size);
    if (found == NULL)
        abort();
    return found;
}

/* The proof of all chunks as flat lists and as JSON text, and the file hash that it shows. */
static void make_proof(void)
{
    yurewha_hash_tree tree = {0};
    it.proof_nodes = allotted(COUNT * sizeof *it.proof_nodes);
    expect(yurewha_hash_tree_from_chunks(it.chunks[0], COUNT, &tree));
    expect(yurewha_hash_tree_file_hash(&tree, &NO_SALT, &it.tree_hash));
    expect(yurewha_hash_tree_proof(&tree, 0, COUNT, it.proof_levels, 64, it.proof_nodes, COUNT, &it.proof_counts[0],
                                   &it.proof_counts[1]));
    yurewha_hash_tree_free(&tree);
    if (yurewha_range_proof_to_json(it.proof_levels, it.proof_counts[0], it.proof_nodes, it.proof_counts[1], NULL, 0,
                                    &it.proof_length)
        != YUREWHA_ROOM)
        abort();
    it.proof_text = allotted(it.proof_length);
    expect(yurewha_range_proof_to_json(it.proof_levels, it.proof_counts[0], it.proof_nodes, it.proof_counts[1], it.proof_text,
                                       it.proof_length, &it.count));
}

static void make_arguments(void)
{
    it.bytes = allotted(COUNT);
    memset(it.bytes, 'x', COUNT);
    it.nodes = allotted(COUNT * sizeof *it.nodes);
    for (size_t kind = 0; kind < 2; kind++) {
        yurewha_subtree subtree = {0};
        it.chunks[kind] = allotted(COUNT * sizeof *it.chunks[kind]);
        for (size_t i = 0; i < COUNT; i++) {
            yurewha_random_from_seed(i, &it.chunks[kind][i].hash);
            it.chunks[kind][i].hash.words[3] |= kind;
            it.chunks[kind][i].size = 1 + i % 100000;
        }
        expect(yurewha_subtree_from_chunks(false, it.chunks[kind], COUNT, false, &subtree));
        if (yurewha_subtree_to_json(&subtree, NULL, 0, &it.lengths[kind]) != YUREWHA_ROOM)
            abort();
        it.texts[kind] = allotted(it.lengths[kind]);
        expect(yurewha_subtree_to_json(&subtree, it.texts[kind], it.lengths[kind], &it.count));
        yurewha_subtree_free(&subtree);
    }
    make_proof();
    /* The object, and a member that isn't read, as deep as a text may be. */
    char open[DEEPEST] = {0}, close[DEEPEST] = {0};
    memset(open, '[', DEEPEST - 1);
    memset(close, ']', DEEPEST - 1);
    it.nested = allotted(1000);
    it.nested_length = (size_t)snprintf(
        it.nested, 1000, "{\"more\":%s%s,\"at_end\":true,\"at_start\":true,\"levels\":[[0,0]],\"nodes\":[]}", open, close);
}

static void *run(void *family)
{
    (*(void (**)(void))family)();
    return NULL;
}

static size_t stack_of(void (*family)(void))
{
    unsigned char *stack = mmap(NULL, STACK, PROT_READ | PROT_WRITE, MAP_PRIVATE | MAP_ANONYMOUS, -1, 0);
    pthread_attr_t attributes;
    pthread_t thread;
    if (stack == MAP_FAILED || pthread_attr_init(&attributes) != 0)
        abort();
    memset(stack, FILL, STACK);
    if (pthread_attr_setstack(&attributes, stack, STACK) != 0 || pthread_create(&thread, &attributes, run, &family) != 0
        || pthread_join(thread, NULL) != 0)
        abort();
    size_t untouched = 0;
    while (untouched < STACK && stack[untouched] == FILL)
        untouched++;
    munmap(stack, STACK);
    return STACK - untouched;
}

#define FAMILY(name) {#name, name}

int main(void)
{
    static const struct {
        const char *name;
        void (*run)(void);
    } families[] = {
        FAMILY(hashes),        FAMILY(base64),           FAMILY(hashers),
        FAMILY(file_hashers),
        FAMILY(roots),         FAMILY(roots_without_cuts), FAMILY(stable_points),
        FAMILY(subtrees),      FAMILY(subtrees_without_cuts), FAMILY(merges),
        FAMILY(merges_without_cuts), FAMILY(json),       FAMILY(json_without_cuts),
        FAMILY(json_nested),   FAMILY(flat_lists),       FAMILY(sessions),
        FAMILY(sessions_of_pieces), FAMILY(sessions_of_gaps),
        FAMILY(hash_trees),    FAMILY(proofs_as_json),   FAMILY(opened_ranges),
    };
    make_arguments();
    const size_t empty = stack_of(nothing);
    for (size_t i = 0; i < sizeof families / sizeof *families; i++) {
        const size_t before = heap.held;
        heap.most = heap.held;
        const size_t stack = stack_of(families[i].run);
        if (heap.held > before + 4096)
            fprintf(stderr, "%s: %zu bytes are still held\n", families[i].name, heap.held - before);
        printf("%s %zu %zu\n", families[i].name, stack > empty ? stack - empty : 0, heap.most - before);
    }
    return 0;
}
