/* Eight threads with objects of their own, handles that go from one thread to another and back, and one subtree's flat lists,
 * one hash tree and one opened range, which all threads read. */
#include "harness.h"

#include <pthread.h>

enum { THREADS = 8, TURNS = 20, SHARED = 200, FIRST = 50, PROVED = 60 };

/* A subtree's flat lists. */
struct lists {
    yurewha_level levels[16];
    yurewha_chunk nodes[SHARED];
    size_t level_count;
    size_t node_count;
};

/* What the first thread finds, one call after another. */
static struct {
    yurewha_hash root;
    yurewha_hash file;
} wanted[LENGTH(list_rows)];
static yurewha_hash wanted_message;

/* A hash tree of SHARED chunks, the data of those from FIRST on, and the opened proof of these. */
struct kept {
    yurewha_hash_tree tree;
    yurewha_opened_range range;
    yurewha_hash root;
    uint8_t data[PROVED];
};

struct work {
    pthread_t thread;
    size_t number;
    const struct lists *lists; /* those of the first SHARED chunks, closed, which all threads read */
    const struct kept *kept;   /* this, too */
    yurewha_subtree handed; /* made by the first thread, freed by it */
    bool holds;
};

/* One list by ranges, as a text, by positions, and as a message: whether all say what the first thread found. */
static bool is_right(size_t number, size_t size)
{
    const struct list_row *it = &list_rows[number];
    const size_t count = (it->count + size - 1) / size;
    yurewha_chunk *chunks = list_of(it->pattern, it->count);
    yurewha_subtree whole = {0}, range = {0}, read = {0};
    yurewha_session session = {0};
    yurewha_hash root, file, message;
    char *text = NULL;
    size_t length = 0;
    uint64_t fresh = 0;
    bool holds = yurewha_subtree_from_chunks(true, NULL, 0, false, &whole) == YUREWHA_DONE
                 && yurewha_session_new(&session) == YUREWHA_DONE;
    for (size_t i = 0; i < count; i++) {
        const size_t first = i * size, last = (count - 1 - i) * size;
        const size_t part = it->count - first < size ? it->count - first : size;
        const size_t other = it->count - last < size ? it->count - last : size;
        holds = holds && yurewha_subtree_from_chunks(false, chunks + first, part, i + 1 == count, &range) == YUREWHA_DONE
                && yurewha_subtree_merge_into(&whole, &range) == YUREWHA_DONE
                && yurewha_session_put(&session, last, chunks + last, other, &fresh) == YUREWHA_DONE;
    }
    holds = holds && yurewha_subtree_final_hash(&whole, &root) == YUREWHA_DONE && same_hash(&root, &wanted[number].root)
            && yurewha_session_finish(&session, it->count, &file) == YUREWHA_DONE && same_hash(&file, &wanted[number].file)
            && yurewha_subtree_to_json(&whole, NULL, 0, &length) == YUREWHA_ROOM;
    text = block(length);
    holds = holds && yurewha_subtree_to_json(&whole, text, length, &length) == YUREWHA_DONE
            && yurewha_subtree_from_json(text, length, &read) == YUREWHA_DONE && same_subtree(&read, &whole);
    yurewha_data_hash("\0\1\2", 3, &message);
    holds = holds && same_hash(&message, &wanted_message);
    free(text);
    free(chunks);
    yurewha_subtree_free(&whole);
    yurewha_subtree_free(&range);
    yurewha_subtree_free(&read);
    yurewha_session_free(&session);
    return holds;
}

/* A handle of this thread's own, made of lists that others read at the same time. */
static bool reads_shared(const struct lists *it)
{
    yurewha_subtree subtree = {0};
    yurewha_hash root, wanted;
    yurewha_chunk *chunks = list_of(NULL, SHARED);
    const bool holds = yurewha_subtree_from_flat(true, it->levels, it->level_count, it->nodes, it->node_count, true, &subtree)
                           == YUREWHA_DONE
                       && yurewha_subtree_final_hash(&subtree, &root) == YUREWHA_DONE
                       && yurewha_xorb_hash(chunks, SHARED, &wanted) == YUREWHA_DONE && same_hash(&root, &wanted);
    yurewha_subtree_free(&subtree);
    free(chunks);
    return holds;
}

/* What all threads ask one hash tree, each by a copy of the handle. A call that reads writes to the copy alone, and leaves it as it
 * was. allocator/read_only.c shows the same of all calls that read. */
static bool reads_one_tree(const struct kept *it)
{
    yurewha_hash_tree tree = it->tree;
    yurewha_opened_range opened = {0};
    yurewha_level levels[64];
    yurewha_chunk nodes[PROVED + 1024];
    yurewha_hash root, file;
    yurewha_bytes salt = {{0}};
    size_t level_count = 0, node_count = 0, count = 0, first = 0, end = 0;
    uint64_t size = 0, from = 0, to = 0;
    const bool holds =
        yurewha_hash_tree_root(&tree, &root) == YUREWHA_DONE && same_hash(&root, &it->root)
        && yurewha_hash_tree_file_hash(&tree, &salt, &file) == YUREWHA_DONE
        && yurewha_hash_tree_num_chunks(&tree, &count) == YUREWHA_DONE && count == SHARED
        && yurewha_hash_tree_total_size(&tree, &size) == YUREWHA_DONE && size == SHARED
        && yurewha_hash_tree_chunks_at(&tree, FIRST, FIRST + PROVED, &first, &end) == YUREWHA_DONE && first == FIRST
        && yurewha_hash_tree_bytes_of(&tree, first, end, &from, &to) == YUREWHA_DONE && to == FIRST + PROVED
        && yurewha_hash_tree_proof(&tree, first, end, levels, LENGTH(levels), nodes, LENGTH(nodes), &level_count, &node_count)
               == YUREWHA_DONE
        && yurewha_range_proof_open(levels, level_count, nodes, node_count, &file, &salt, &opened) == YUREWHA_DONE;
    yurewha_opened_range_free(&opened);
    return holds && tree.at == it->tree.at;
}

/* What all threads ask one opened range, in the same way. */
static bool reads_one_range(const struct kept *it)
{
    yurewha_opened_range range = it->range;
    size_t count = 0, start = 0;
    uint64_t size = 0, from = 0, to = 0, place = 0;
    const bool holds = yurewha_opened_range_file_size(&range, &size) == YUREWHA_DONE && size == SHARED
                       && yurewha_opened_range_num_chunks(&range, &count) == YUREWHA_DONE && count == PROVED
                       && yurewha_opened_range_bytes_of(&range, 3, &from, &to) == YUREWHA_DONE && from == FIRST + 3
                       && yurewha_opened_range_check(&range, 3, it->data + 3, 1, &place) == YUREWHA_DONE && place == from
                       && yurewha_opened_range_check(&range, 3, it->data + 4, 1, &place) == YUREWHA_MISMATCH
                       && yurewha_opened_range_read(&range, from, to, it->data, PROVED, &start) == YUREWHA_DONE && start == 3;
    return holds && range.at == it->range.at;
}

static void *work_on(void *given)
{
    struct work *work = given;
    bool at_start = false, at_end = true;
    work->holds = true;
    for (size_t i = 0; i < TURNS; i++) {
        const size_t number = (work->number + i) % LENGTH(list_rows);
        if (list_rows[number].count != 0)
            work->holds = is_right(number, 1 + (work->number + 3 * i) % 50) && work->holds;
        work->holds = reads_shared(work->lists) && work->holds;
        work->holds = reads_one_tree(work->kept) && reads_one_range(work->kept) && work->holds;
    }
    yurewha_subtree other = {0};
    work->holds = work->holds && yurewha_subtree_from_chunks(false, NULL, 0, true, &other) == YUREWHA_DONE
                  && yurewha_subtree_merge_into(&work->handed, &other) == YUREWHA_DONE
                  && yurewha_subtree_marks(&work->handed, &at_start, &at_end) == YUREWHA_DONE && at_start && at_end;
    yurewha_subtree_free(&other);
    return NULL;
}

static struct lists lists_of(yurewha_chunk *chunks)
{
    struct lists made;
    yurewha_subtree subtree = range_of(chunks, 0, SHARED, true, true);
    EXPECT_STATUS(YUREWHA_DONE, yurewha_subtree_to_flat(&subtree, made.levels, LENGTH(made.levels), made.nodes, SHARED,
                                                        &made.level_count, &made.node_count));
    yurewha_subtree_free(&subtree);
    free(chunks);
    return made;
}

/* Chunks of one byte, each of which is another one. */
static struct kept kept_of(void)
{
    struct kept made = {.tree = {0}};
    yurewha_chunk chunks[SHARED], nodes[PROVED + 1024];
    yurewha_level levels[64];
    size_t level_count = 0, node_count = 0;
    for (size_t i = 0; i < SHARED; i++) {
        const uint8_t byte = (uint8_t)i;
        yurewha_data_hash(&byte, 1, &chunks[i].hash);
        chunks[i].size = 1;
        if (FIRST <= i && i < FIRST + PROVED)
            made.data[i - FIRST] = byte;
    }
    EXPECT_STATUS(YUREWHA_DONE, yurewha_xorb_hash(chunks, SHARED, &made.root));
    EXPECT_STATUS(YUREWHA_DONE, yurewha_hash_tree_from_chunks(chunks, SHARED, &made.tree));
    EXPECT_STATUS(YUREWHA_DONE, yurewha_hash_tree_proof(&made.tree, FIRST, FIRST + PROVED, levels, LENGTH(levels), nodes,
                                                        LENGTH(nodes), &level_count, &node_count));
    EXPECT_STATUS(YUREWHA_DONE, yurewha_range_proof_open_root(levels, level_count, nodes, node_count, &made.root, &made.range));
    return made;
}

void test_threads(void)
{
    struct work works[THREADS];
    yurewha_hash root_of_40;
    struct kept kept = kept_of();
    const struct lists lists = lists_of(list_of(NULL, SHARED));
    yurewha_data_hash("\0\1\2", 3, &wanted_message);
    for (size_t i = 0; i < LENGTH(list_rows); i++) {
        yurewha_chunk *chunks = list_of(list_rows[i].pattern, list_rows[i].count);
        row("list %zu", i);
        EXPECT_STATUS(YUREWHA_DONE, yurewha_xorb_hash(chunks, list_rows[i].count, &wanted[i].root));
        EXPECT_STATUS(YUREWHA_DONE, yurewha_file_hash(chunks, list_rows[i].count, &wanted[i].file));
        free(chunks);
    }
    for (size_t i = 0; i < THREADS; i++) {
        yurewha_chunk *chunks = list_of(NULL, 40);
        row("thread %zu", i);
        works[i] = (struct work){.number = i, .lists = &lists, .kept = &kept, .handed = range_of(chunks, 0, 40, true, false)};
        EXPECT_STATUS(YUREWHA_DONE, yurewha_xorb_hash(chunks, 40, &root_of_40));
        free(chunks);
        EXPECT(pthread_create(&works[i].thread, NULL, work_on, &works[i]) == 0);
    }
    for (size_t i = 0; i < THREADS; i++) {
        yurewha_hash root = {{0}};
        row("thread %zu", i);
        EXPECT(pthread_join(works[i].thread, NULL) == 0);
        EXPECT(works[i].holds);
        EXPECT_STATUS(YUREWHA_DONE, yurewha_subtree_final_hash(&works[i].handed, &root));
        EXPECT(same_hash(&root, &root_of_40));
        yurewha_subtree_free(&works[i].handed);
    }
    yurewha_hash_tree_free(&kept.tree);
    yurewha_opened_range_free(&kept.range);
}
