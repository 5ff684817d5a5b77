/* All that can be told of an object. */
#include "driver.h"

static void add(yurewha_hasher *message, const void *bytes, size_t length)
{
    if (yurewha_hasher_update(message, bytes, length) != YUREWHA_DONE)
        fail("a message is too long", "");
}

static void need(yurewha_status status, const char *call)
{
    if (status != YUREWHA_DONE)
        fail("an object can't be told: ", call);
}

static void tell_subtree(yurewha_hasher *message, yurewha_subtree *subtree)
{
    size_t level_count = 0, node_count = 0;
    bool marks[2] = {false, false};
    (void)!yurewha_subtree_to_flat(subtree, NULL, 0, NULL, 0, &level_count, &node_count);
    yurewha_level *levels = (yurewha_level *)block(level_count * sizeof *levels);
    yurewha_chunk *nodes = (yurewha_chunk *)block(node_count * sizeof *nodes);
    need(yurewha_subtree_to_flat(subtree, levels, level_count, nodes, node_count, &level_count, &node_count), "to_flat");
    need(yurewha_subtree_marks(subtree, &marks[0], &marks[1]), "marks");
    add(message, levels, level_count * sizeof *levels);
    add(message, nodes, node_count * sizeof *nodes);
    add(message, marks, sizeof marks);
    free(levels);
    free(nodes);
}

static int by_order(const void *first, const void *second)
{
    return yurewha_compare((const yurewha_hash *)first, (const yurewha_hash *)second);
}

static void tell_known_hashes(yurewha_hasher *message, yurewha_session *session)
{
    size_t count = 0;
    need(yurewha_session_num_known_hashes(session, &count), "num_known_hashes");
    yurewha_hash *hashes = (yurewha_hash *)block(count * sizeof *hashes);
    need(yurewha_session_known_hashes(session, hashes, count), "known_hashes");
    if (count != 0)
        qsort(hashes, count, sizeof *hashes, by_order);
    add(message, hashes, count * sizeof *hashes);
    free(hashes);
}

static void tell_session(yurewha_hasher *message, yurewha_session *session)
{
    yurewha_subtree range = {NULL};
    uint64_t first = 0, end = 0;
    while (yurewha_session_run_from(session, end, &first, &end, &range) == YUREWHA_DONE) {
        add(message, &first, sizeof first);
        add(message, &end, sizeof end);
        tell_subtree(message, &range);
    }
    yurewha_subtree_free(&range);
    tell_known_hashes(message, session);
}

/* What determines the rest of a tree. */
static void tell_hash_tree(yurewha_hasher *message, yurewha_hash_tree *tree)
{
    yurewha_hash root;
    size_t count = 0;
    uint64_t size = 0;
    need(yurewha_hash_tree_num_chunks(tree, &count), "num_chunks");
    need(yurewha_hash_tree_total_size(tree, &size), "total_size");
    need(yurewha_hash_tree_root(tree, &root), "root");
    add(message, &count, sizeof count);
    add(message, &size, sizeof size);
    add(message, &root, sizeof root);
}

static void tell_opened_range(yurewha_hasher *message, yurewha_opened_range *range)
{
    size_t count = 0;
    uint64_t places[3] = {0, 0, 0};
    need(yurewha_opened_range_num_chunks(range, &count), "num_chunks");
    need(yurewha_opened_range_file_size(range, &places[2]), "file_size");
    for (size_t i = 0; i < count; i++) {
        need(yurewha_opened_range_bytes_of(range, i, &places[0], &places[1]), "bytes_of");
        add(message, places, sizeof places);
    }
}

static void tell_part(yurewha_hasher *message, yurewha_part *part)
{
    size_t chunks = 0;
    uint64_t places[2] = {0, 0};
    need(yurewha_part_file_size(part, &places[0]), "file_size");
    need(yurewha_part_checked(part, &chunks, &places[1]), "checked");
    add(message, places, sizeof places);
    add(message, &chunks, sizeof chunks);
}

/* What tells most of a reader: which of the first bytes it keeps. A read would change the order in which its chunks were used. */
static void tell_reader(yurewha_hasher *message, yurewha_reader *reader)
{
    uint64_t size = 0, counted = 0;
    const yurewha_status status = yurewha_reader_size(reader, &size);
    need(yurewha_reader_counted(reader, &counted), "counted");
    add(message, &status, sizeof status);
    add(message, &size, sizeof size);
    add(message, &counted, sizeof counted);
    for (uint64_t place = 0; place < 64; place++) {
        uint64_t first = 0, end = 0;
        const yurewha_status kept = yurewha_reader_needs(reader, place, place + 1, 1, &first, &end);
        add(message, &kept, sizeof kept);
    }
}

static void tell_hash_index(yurewha_hasher *message, yurewha_hash_index *index)
{
    size_t count = 0;
    need(yurewha_hash_index_len(index, &count), "len");
    yurewha_hash *hashes = (yurewha_hash *)block(count * sizeof *hashes);
    uint64_t *numbers = (uint64_t *)block(count * sizeof *numbers);
    uint8_t *found = (uint8_t *)block(count);
    need(yurewha_hash_index_entries(index, hashes, count, numbers, count), "entries");
    if (count != 0)
        qsort(hashes, count, sizeof *hashes, by_order);
    need(yurewha_hash_index_find(index, hashes, count, found, count, numbers, count), "find");
    add(message, hashes, count * sizeof *hashes);
    add(message, found, count);
    add(message, numbers, count * sizeof *numbers);
    free(hashes);
    free(numbers);
    free(found);
}

/* What tells most of a hasher: how much it took, and the root of that. */
static void tell_file_hasher(yurewha_hasher *message, yurewha_file_hasher *hasher)
{
    yurewha_hash root;
    uint64_t size = 0;
    need(yurewha_file_hasher_size(hasher, &size), "size");
    need(yurewha_file_hasher_root(hasher, &root), "root");
    add(message, &size, sizeof size);
    add(message, &root, sizeof root);
}

void tell(yurewha_hasher *message, enum type type, void *object)
{
    const bool is_empty = type >= SUBTREE && ((struct handle *)object)->at == NULL;
    add(message, &is_empty, sizeof is_empty);
    if (is_empty)
        return;
    if (type == HASHER)
        add(message, object, sizeof(yurewha_hasher));
    else if (type == CHUNKER)
        add(message, object, sizeof(yurewha_chunker));
    else if (type == SUBTREE)
        tell_subtree(message, (yurewha_subtree *)object);
    else if (type == SESSION)
        tell_session(message, (yurewha_session *)object);
    else if (type == HASH_TREE)
        tell_hash_tree(message, (yurewha_hash_tree *)object);
    else if (type == OPENED_RANGE)
        tell_opened_range(message, (yurewha_opened_range *)object);
    else if (type == PART)
        tell_part(message, (yurewha_part *)object);
    else if (type == READER)
        tell_reader(message, (yurewha_reader *)object);
    else if (type == HASH_INDEX)
        tell_hash_index(message, (yurewha_hash_index *)object);
    else
        tell_file_hasher(message, (yurewha_file_hasher *)object);
}
