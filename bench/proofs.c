/* Measures range proofs of one chunk, in files of 100 chunks and of ten times as many each time, up to the number that is given.
 * Prints a row of a table for each file. Times are processor time, the least of several turns. */
#define _POSIX_C_SOURCE 200809L
#include "yurewha.h"

#include <stdio.h>
#include <stdlib.h>
#include <time.h>

enum { TREE_TURNS = 7, PROOF_TURNS = 25, PROOFS = 2000, SIZE = 65536, MOST_LEVELS = 64, MOST_NODES = 1025, MOST_TEXT = 1 << 18 };
enum { NODE_HASHES = 60, GROUP_TEXT = 400 };

/* The proof of one chunk. */
typedef struct proof {
    yurewha_level levels[MOST_LEVELS];
    yurewha_chunk nodes[MOST_NODES];
    size_t level_count;
    size_t node_count;
} proof;

/* What is measured of a file: sums over all proofs, and the least times in nanoseconds. */
typedef struct figures {
    size_t nodes, most_nodes, text, most_text;
    double root, tree, proof, open, node_hashes;
} figures;

static void check(yurewha_status status)
{
    if (status != YUREWHA_DONE) {
        fprintf(stderr, "bench/proofs: a call returned status %u\n", (unsigned)status);
        exit(1);
    }
}

static double now(void)
{
    struct timespec time;
    clock_gettime(CLOCK_PROCESS_CPUTIME_ID, &time);
    return (double)time.tv_sec * 1e9 + (double)time.tv_nsec;
}

static void keep_least(double *least, double begun)
{
    const double taken = now() - begun;
    if (*least == 0 || taken < *least)
        *least = taken;
}

static size_t greater(size_t one, size_t other)
{
    return one < other ? other : one;
}

/* The next number of SplitMix64. */
static uint64_t drawn(uint64_t *state)
{
    uint64_t it = *state += 0x9e3779b97f4a7c15u;
    it = (it ^ (it >> 30)) * 0xbf58476d1ce4e5b9u;
    it = (it ^ (it >> 27)) * 0x94d049bb133111ebu;
    return it ^ (it >> 31);
}

static yurewha_chunk *drawn_chunks(size_t count)
{
    yurewha_chunk *chunks = malloc(count * sizeof *chunks);
    uint64_t state = 1;
    if (!chunks)
        exit(1);
    for (size_t i = 0; i < count; i++) {
        for (int word = 0; word < 4; word++)
            chunks[i].hash.words[word] = drawn(&state);
        chunks[i].size = SIZE;
    }
    return chunks;
}

static void prove(yurewha_hash_tree *tree, size_t chunk, proof *made)
{
    check(yurewha_hash_tree_proof(tree, chunk, chunk + 1, made->levels, MOST_LEVELS, made->nodes, MOST_NODES, &made->level_count,
                                  &made->node_count));
}

/* The time of making the tree, beside that of hashing the list. */
static void measure_trees(const yurewha_chunk *chunks, size_t count, figures *found, yurewha_hash_tree *tree)
{
    for (int turn = 0; turn < TREE_TURNS; turn++) {
        yurewha_hash root;
        double begun = now();
        check(yurewha_xorb_hash(chunks, count, &root));
        keep_least(&found->root, begun);
        yurewha_hash_tree_free(tree);
        begun = now();
        check(yurewha_hash_tree_from_chunks(chunks, count, tree));
        keep_least(&found->tree, begun);
    }
}

/* The sizes of proofs of random chunks, which are kept. */
static void measure_sizes(yurewha_hash_tree *tree, size_t count, figures *found, proof *proofs)
{
    static char text[MOST_TEXT];
    uint64_t state = 2;
    for (size_t i = 0; i < PROOFS; i++) {
        size_t length;
        prove(tree, drawn(&state) % count, &proofs[i]);
        check(yurewha_range_proof_to_json(proofs[i].levels, proofs[i].level_count, proofs[i].nodes, proofs[i].node_count, text,
                                          MOST_TEXT, &length));
        found->nodes += proofs[i].node_count;
        found->text += length;
        found->most_nodes = greater(found->most_nodes, proofs[i].node_count);
        found->most_text = greater(found->most_text, length);
    }
}

/* The times of making and opening these proofs, beside those of node hashes. */
static void measure_proofs(yurewha_hash_tree *tree, size_t count, figures *found, const proof *proofs)
{
    static const uint8_t group[GROUP_TEXT];
    static const yurewha_bytes salt;
    yurewha_opened_range range = {0};
    yurewha_hash name, hash;
    check(yurewha_hash_tree_file_hash(tree, &salt, &name));
    for (int turn = 0; turn < PROOF_TURNS; turn++) {
        uint64_t state = 2;
        proof again;
        double begun = now();
        for (size_t i = 0; i < PROOFS; i++)
            prove(tree, drawn(&state) % count, &again);
        keep_least(&found->proof, begun);
        begun = now();
        for (size_t i = 0; i < PROOFS; i++) {
            check(yurewha_range_proof_open(proofs[i].levels, proofs[i].level_count, proofs[i].nodes, proofs[i].node_count, &name,
                                           &salt, &range));
            yurewha_opened_range_free(&range);
        }
        keep_least(&found->open, begun);
        begun = now();
        for (size_t i = 0; i < PROOFS / 10 * NODE_HASHES; i++)
            yurewha_internal_node_hash(group, GROUP_TEXT, &hash);
        keep_least(&found->node_hashes, begun);
    }
}

static void print_row(size_t count, const figures *found, const figures *before)
{
    const double hashes = found->node_hashes * 10 / PROOFS, opening = found->open / PROOFS, proving = found->proof / PROOFS;
    printf("| %zu | %.1f, %zu | %.2f, %.2f | %.3f | %.3f | %.2f | %.2f | %.2f | ", count, (double)found->nodes / PROOFS,
           found->most_nodes, (double)found->text / PROOFS / 1000, (double)found->most_text / 1000, found->tree / 1e6,
           found->tree / found->root, proving / 1e3, opening / 1e3, opening / hashes);
    if (before->proof > 0)
        printf("%.2f, %.2f |\n", found->proof / before->proof, found->open / before->open);
    else
        printf("|\n");
    fflush(stdout);
}

int main(int count, char **words)
{
    const size_t most = count > 1 ? strtoull(words[1], NULL, 10) : 10000000;
    proof *proofs = malloc(PROOFS * sizeof *proofs);
    figures before = {0};
    if (!proofs)
        return 1;
    for (size_t chunks = 100; chunks <= most; chunks *= 10) {
        yurewha_chunk *list = drawn_chunks(chunks);
        yurewha_hash_tree tree = {0};
        figures found = {0};
        measure_trees(list, chunks, &found, &tree);
        measure_sizes(&tree, chunks, &found, proofs);
        measure_proofs(&tree, chunks, &found, proofs);
        print_row(chunks, &found, &before);
        before = found;
        yurewha_hash_tree_free(&tree);
        free(list);
    }
    free(proofs);
    return 0;
}
