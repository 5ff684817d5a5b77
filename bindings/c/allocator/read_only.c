/* Threads that read one object at once, each call by a copy of the handle. What the handles own lies in pages that nobody may write to,
 * so that a call that writes there ends the program. It is a program by itself, because its library allocates in these pages. */
#define _GNU_SOURCE
#include <pthread.h>
#include <signal.h>
#include <stdio.h>
#include <stdlib.h>
#include <string.h>
#include <sys/mman.h>
#include <sys/wait.h>
#include <unistd.h>
#include <yurewha.h>

enum { CHUNKS = 300, FIRST = 50, END = 110, THREADS = 2, TURNS = 50, ROOM = 1 << 26, LEVELS = 64, TEXT = 1 << 17, FILE_SIZE = 300000, REFUSED = 42 };

#define EXPECT(holds) \
    do { \
        if (!(holds)) { \
            fprintf(stderr, "read_only.c:%d: fails: %s\n", __LINE__, #holds); \
            exit(1); \
        } \
    } while (0)

/* Pages that blocks come from, one after another, until they are closed. Then blocks come from the C library. */
static char *pages;
static size_t used;
static bool is_closed;

static bool is_of_pages(const void *block)
{
    return (const char *)block >= pages && (const char *)block < pages + ROOM;
}

/* The length of a block stands in front of it. */
static void *allocate(size_t size)
{
    size_t *block = NULL;
    if (is_closed)
        block = malloc(size + 16);
    else if (size < ROOM - used - 32) {
        block = (size_t *)(pages + used);
        used += (size + 31) / 16 * 16;
    }
    if (block == NULL)
        return NULL;
    block[0] = size;
    return block + 2;
}

static void release(void *block)
{
    if (!is_of_pages(block))
        free((size_t *)block - 2);
    else if (is_closed)
        abort();
}

static void *reallocate(void *block, size_t size)
{
    const size_t before = ((size_t *)block)[-2];
    void *moved = allocate(size);
    if (moved != NULL) {
        memcpy(moved, block, before < size ? before : size);
        release(block);
    }
    return moved;
}

/* One object of each type. */
static struct {
    yurewha_subtree subtree, other;
    yurewha_session session;
    yurewha_hash_tree tree, tail;
    yurewha_opened_range range;
    yurewha_part part;
    yurewha_reader reader;
    yurewha_hash_index index;
    yurewha_file_hasher hasher;
} made;
static uint8_t data[CHUNKS];
/* The file of the hasher, which has an open chunk. */
static uint8_t bytes[FILE_SIZE];
static const yurewha_bytes salt = {{7}};
/* The file hash, and the proof of the chunks from FIRST up to END. */
static yurewha_hash file;
static yurewha_level levels[LEVELS];
static yurewha_chunk nodes[CHUNKS + 1024];
static size_t level_count, node_count;
/* The hashes of the index. */
static yurewha_hash hashes[CHUNKS];

/* All that is read of them. Each answer is copied here, so that two of them are compared by their bytes. */
struct answers {
    yurewha_hash hashes[8];
    uint64_t numbers[31];
    yurewha_hash known[CHUNKS], indexed[CHUNKS];
    uint64_t places[CHUNKS];
    yurewha_chunk nodes[CHUNKS + 1024];
    yurewha_level levels[LEVELS];
    char text[TEXT];
};

/* A copy of a handle, for one call. */
#define COPY(type, handle) (&(type){(handle).at})
#define SUBTREE COPY(yurewha_subtree, made.subtree)
#define OTHER COPY(yurewha_subtree, made.other)
#define SESSION COPY(yurewha_session, made.session)
#define TREE COPY(yurewha_hash_tree, made.tree)
#define TAIL COPY(yurewha_hash_tree, made.tail)
#define RANGE COPY(yurewha_opened_range, made.range)
#define PART COPY(yurewha_part, made.part)
#define READER COPY(yurewha_reader, made.reader)
#define INDEX COPY(yurewha_hash_index, made.index)
#define HASHER COPY(yurewha_file_hasher, made.hasher)

static void read_subtree(struct answers *to)
{
    yurewha_subtree copy = {0}, merged = {0};
    bool at_start = false, at_end = false, equal = false;
    size_t nodes = 0, levels = 0, length = 0;
    EXPECT(yurewha_subtree_marks(SUBTREE, &at_start, &at_end) == YUREWHA_DONE && at_start && at_end);
    EXPECT(yurewha_subtree_total_size(SUBTREE, &to->numbers[0]) == YUREWHA_DONE);
    EXPECT(yurewha_subtree_num_nodes(SUBTREE, &nodes) == YUREWHA_DONE);
    EXPECT(yurewha_subtree_num_levels(SUBTREE, &levels) == YUREWHA_DONE);
    EXPECT(yurewha_subtree_final_hash(SUBTREE, &to->hashes[0]) == YUREWHA_DONE);
    EXPECT(yurewha_subtree_to_json(SUBTREE, to->text, TEXT, &length) == YUREWHA_DONE);
    to->numbers[1] = nodes, to->numbers[2] = levels, to->numbers[3] = length;
    EXPECT(yurewha_subtree_to_flat(SUBTREE, to->levels, LEVELS, to->nodes, CHUNKS, &levels, &nodes) == YUREWHA_DONE);
    EXPECT(yurewha_subtree_clone(SUBTREE, &copy) == YUREWHA_DONE);
    EXPECT(yurewha_subtree_equal(SUBTREE, &copy, &equal) == YUREWHA_DONE && equal);
    EXPECT(yurewha_subtree_equal(SUBTREE, OTHER, &equal) == YUREWHA_DONE && !equal);
    EXPECT(yurewha_subtree_equal(SUBTREE, SUBTREE, &equal) == YUREWHA_DONE && equal);
    EXPECT(yurewha_subtree_merge((yurewha_subtree[2]){made.other, made.other}, 2, &merged) == YUREWHA_DONE);
    EXPECT(yurewha_subtree_merge_into(&merged, OTHER) == YUREWHA_DONE);
    EXPECT(yurewha_subtree_merge_into_counted(&merged, OTHER, &to->numbers[4]) == YUREWHA_DONE);
    EXPECT(yurewha_subtree_num_nodes(&merged, &nodes) == YUREWHA_DONE);
    to->numbers[5] = nodes;
    yurewha_subtree_free(&copy);
    yurewha_subtree_free(&merged);
}

static void read_session(struct answers *to)
{
    yurewha_session copy = {0}, joined = {0};
    yurewha_subtree run = {0};
    bool taken = false;
    size_t runs = 0, known = 0;
    EXPECT(yurewha_session_taken(SESSION, 7, &taken) == YUREWHA_DONE && taken);
    EXPECT(yurewha_session_keeps_hashes(SESSION, &taken) == YUREWHA_DONE && taken);
    EXPECT(yurewha_session_num_runs(SESSION, &runs) == YUREWHA_DONE && runs == 1);
    uint64_t first = 0, end = 0, total = 0;
    EXPECT(yurewha_session_num_chunks(SESSION, &total) == YUREWHA_DONE && total == CHUNKS);
    EXPECT(yurewha_session_total_size(SESSION, &total) == YUREWHA_DONE);
    EXPECT(yurewha_session_next_gap(SESSION, 0, 2 * CHUNKS, &first, &end) == YUREWHA_DONE && first == CHUNKS);
    EXPECT(yurewha_session_run(SESSION, 0, &to->numbers[6], &run) == YUREWHA_DONE);
    EXPECT(yurewha_session_run_from(SESSION, 3, &to->numbers[7], &to->numbers[8], &run) == YUREWHA_DONE);
    EXPECT(yurewha_session_root(SESSION, CHUNKS, &to->hashes[1]) == YUREWHA_DONE);
    EXPECT(yurewha_session_finish(SESSION, CHUNKS, &to->hashes[2]) == YUREWHA_DONE);
    EXPECT(yurewha_session_num_known_hashes(SESSION, &known) == YUREWHA_DONE && known == CHUNKS);
    EXPECT(yurewha_session_known_hashes(SESSION, to->known, CHUNKS) == YUREWHA_DONE);
    EXPECT(yurewha_session_to_json(SESSION, true, to->text, TEXT, &known) == YUREWHA_DONE);
    uint8_t is_known[2] = {0};
    EXPECT(yurewha_session_knows(SESSION, &to->known[CHUNKS - 1], &taken) == YUREWHA_DONE && taken);
    EXPECT(yurewha_session_knows_each(SESSION, to->known, 2, is_known, 2) == YUREWHA_DONE && is_known[0] && is_known[1]);
    const yurewha_bytes salt = {{1, 2, 3}};
    yurewha_hash salted = {{0}};
    EXPECT(yurewha_session_finish_with_salt(SESSION, CHUNKS, &salt, &salted) == YUREWHA_DONE);
    EXPECT(yurewha_session_new_without_hashes(&copy) == YUREWHA_DONE);
    EXPECT(yurewha_session_copy(SESSION, &copy) == YUREWHA_DONE);
    EXPECT(yurewha_session_push_run(&copy, 2 * CHUNKS, 2 * CHUNKS + 1, OTHER) == YUREWHA_DONE);
    EXPECT(yurewha_session_new(&joined) == YUREWHA_DONE);
    EXPECT(yurewha_session_put_range(&joined, CHUNKS, 80, OTHER) == YUREWHA_DONE);
    EXPECT(yurewha_session_join(&joined, SESSION, &total) == YUREWHA_DONE && total == CHUNKS);
    EXPECT(yurewha_session_join(&joined, SESSION, &total) == YUREWHA_SESSION_OVERLAP);
    yurewha_session_free(&copy);
    yurewha_session_free(&joined);
    yurewha_subtree_free(&run);
}

static void read_tree(struct answers *to)
{
    size_t count = 0, first = 0, end = 0, levels = 0, nodes = 0;
    EXPECT(yurewha_hash_tree_root(TREE, &to->hashes[3]) == YUREWHA_DONE);
    EXPECT(yurewha_hash_tree_file_hash(TREE, &salt, &to->hashes[4]) == YUREWHA_DONE);
    EXPECT(yurewha_hash_tree_num_chunks(TREE, &count) == YUREWHA_DONE && count == CHUNKS);
    EXPECT(yurewha_hash_tree_total_size(TREE, &to->numbers[9]) == YUREWHA_DONE);
    EXPECT(yurewha_hash_tree_chunks_at(TREE, FIRST, END, &first, &end) == YUREWHA_DONE && first == FIRST && end == END);
    EXPECT(yurewha_hash_tree_bytes_of(TREE, FIRST, END, &to->numbers[10], &to->numbers[11]) == YUREWHA_DONE);
    EXPECT(yurewha_hash_tree_proof(TREE, FIRST, END, to->levels, LEVELS, to->nodes, CHUNKS + 1024, &levels, &nodes) == YUREWHA_DONE);
    to->numbers[12] = levels, to->numbers[13] = nodes;
    EXPECT(yurewha_hash_tree_common_prefix(TREE, TAIL, &count) == YUREWHA_DONE && count == 0);
    EXPECT(yurewha_hash_tree_common_suffix(TREE, TAIL, CHUNKS, &count) == YUREWHA_DONE && count == CHUNKS - FIRST);
}

static void read_index(struct answers *to)
{
    size_t count = 0;
    uint8_t found[CHUNKS];
    EXPECT(yurewha_hash_index_len(INDEX, &count) == YUREWHA_DONE && count == CHUNKS);
    EXPECT(yurewha_hash_index_entries(INDEX, to->indexed, CHUNKS, to->places, CHUNKS) == YUREWHA_DONE);
    EXPECT(yurewha_hash_index_find(INDEX, hashes, CHUNKS, found, CHUNKS, to->places, CHUNKS) == YUREWHA_DONE);
    EXPECT(found[CHUNKS - 1] == 1 && to->places[CHUNKS - 1] == CHUNKS - 1);
}

static void read_range(struct answers *to)
{
    size_t count = 0, start = 0;
    EXPECT(yurewha_opened_range_file_size(RANGE, &to->numbers[14]) == YUREWHA_DONE);
    EXPECT(yurewha_opened_range_num_chunks(RANGE, &count) == YUREWHA_DONE && count == END - FIRST);
    EXPECT(yurewha_opened_range_bytes_of(RANGE, 3, &to->numbers[15], &to->numbers[16]) == YUREWHA_DONE);
    EXPECT(yurewha_opened_range_check(RANGE, 3, data + FIRST + 3, 1, &to->numbers[17]) == YUREWHA_DONE);
    EXPECT(yurewha_opened_range_check(RANGE, 3, data + FIRST + 4, 1, &to->numbers[18]) == YUREWHA_MISMATCH);
    EXPECT(yurewha_opened_range_read(RANGE, 60, 70, data + FIRST, END - FIRST, &start) == YUREWHA_DONE);
    to->numbers[19] = start;
}

static void read_hasher(struct answers *to)
{
    EXPECT(yurewha_file_hasher_size(HASHER, &to->numbers[29]) == YUREWHA_DONE && to->numbers[29] == FILE_SIZE);
    EXPECT(yurewha_file_hasher_root(HASHER, &to->hashes[5]) == YUREWHA_DONE);
    EXPECT(yurewha_file_hasher_finish(HASHER, &to->hashes[6]) == YUREWHA_DONE);
    EXPECT(yurewha_file_hasher_finish_with_salt(HASHER, &salt, &to->hashes[7]) == YUREWHA_DONE);
}

static void open_part(yurewha_part *part)
{
    uint64_t begin = 0, end = 0;
    EXPECT(yurewha_part_open(levels, level_count, nodes, node_count, &file, &salt, FIRST, END, 0, &begin, &end, part) == YUREWHA_DONE);
    EXPECT(begin == FIRST && end == END);
}

/* A part that was checked, and a reader that takes one. */
static void make_reader(yurewha_part *part, yurewha_reader *reader)
{
    yurewha_part other = {0};
    size_t start = 0, count = 0;
    EXPECT(yurewha_reader_new(&file, &salt, UINT64_MAX, reader) == YUREWHA_DONE);
    open_part(&other);
    EXPECT(yurewha_part_check(&other, data + FIRST, END - FIRST, true, &start, &count) == YUREWHA_DONE);
    EXPECT(yurewha_reader_take(reader, &other) == YUREWHA_DONE);
    open_part(part);
    EXPECT(yurewha_part_check(part, data + FIRST, 3, true, &start, &count) == YUREWHA_MISMATCH);
}

/* A reader of this thread's own is changed, and the one of all threads is read. */
static void read_reader(struct answers *to)
{
    yurewha_part part = {0};
    yurewha_reader reader = {0};
    size_t chunks = 0, filled = 0;
    uint8_t bytes[END - FIRST];
    make_reader(&part, &reader);
    EXPECT(yurewha_reader_read(&reader, FIRST, bytes, sizeof bytes, 1, &filled, &to->numbers[20]) == YUREWHA_DONE);
    EXPECT(filled == sizeof bytes && memcmp(bytes, data + FIRST, sizeof bytes) == 0);
    EXPECT(yurewha_reader_keep_at_most(&reader, 0) == YUREWHA_DONE);
    yurewha_part_free(&part);
    yurewha_reader_free(&reader);
    EXPECT(yurewha_part_file_size(PART, &to->numbers[21]) == YUREWHA_DONE && to->numbers[21] == CHUNKS);
    EXPECT(yurewha_part_checked(PART, &chunks, &to->numbers[22]) == YUREWHA_DONE && chunks == 3 && to->numbers[22] == FIRST + 3);
    EXPECT(yurewha_reader_size(READER, &to->numbers[23]) == YUREWHA_DONE && to->numbers[23] == CHUNKS);
    EXPECT(yurewha_reader_counted(READER, &to->numbers[24]) == YUREWHA_DONE && to->numbers[24] == (END - FIRST) * 129);
    EXPECT(yurewha_reader_needs(READER, FIRST, CHUNKS, 7, &to->numbers[25], &to->numbers[26]) == YUREWHA_DONE);
    EXPECT(to->numbers[25] == END && to->numbers[26] == END + 7);
    EXPECT(yurewha_reader_needs(READER, FIRST, END, 7, &to->numbers[27], &to->numbers[28]) == YUREWHA_ARGUMENTS);
    EXPECT(yurewha_reader_piece(READER, CHUNKS - 1, 7, &to->numbers[29], &to->numbers[30]) == YUREWHA_DONE);
    EXPECT(to->numbers[29] == (CHUNKS - 1) / 7 * 7 && to->numbers[30] == CHUNKS);
}

/* The answers to all questions, again and again. Returns the last ones. */
static void *read_all(void *given)
{
    struct answers *to = given;
    for (size_t turn = 0; turn < TURNS; turn++) {
        read_subtree(to);
        read_session(to);
        read_tree(to);
        read_index(to);
        read_range(to);
        read_reader(to);
        read_hasher(to);
    }
    return NULL;
}

static void make_all(void)
{
    static yurewha_chunk chunks[CHUNKS];
    static uint64_t places[CHUNKS];
    uint64_t fresh = 0;
    size_t new_hashes = 0;
    for (size_t i = 0; i < CHUNKS; i++) {
        data[i] = (uint8_t)i;
        yurewha_data_hash(data + i, 1, &chunks[i].hash);
        chunks[i].hash.words[1] ^= i; /* so that all of them differ, but those of the range are right */
        if (i >= FIRST && i < END)
            yurewha_data_hash(data + i, 1, &chunks[i].hash);
        chunks[i].size = 1;
        hashes[i] = chunks[i].hash;
        places[i] = i;
    }
    EXPECT(yurewha_subtree_from_chunks(true, chunks, CHUNKS, true, &made.subtree) == YUREWHA_DONE);
    EXPECT(yurewha_subtree_from_chunks(false, chunks + 9, 80, false, &made.other) == YUREWHA_DONE);
    EXPECT(yurewha_session_new(&made.session) == YUREWHA_DONE);
    EXPECT(yurewha_session_put(&made.session, 100, chunks + 100, CHUNKS - 100, &fresh) == YUREWHA_DONE);
    EXPECT(yurewha_session_put(&made.session, 0, chunks, 100, &fresh) == YUREWHA_DONE);
    EXPECT(yurewha_hash_tree_from_chunks(chunks, CHUNKS, &made.tree) == YUREWHA_DONE);
    EXPECT(yurewha_hash_tree_from_chunks(chunks + FIRST, CHUNKS - FIRST, &made.tail) == YUREWHA_DONE);
    EXPECT(yurewha_hash_index_new(&made.index) == YUREWHA_DONE);
    EXPECT(yurewha_hash_index_insert(&made.index, hashes, CHUNKS, places, CHUNKS, &new_hashes) == YUREWHA_DONE);
    EXPECT(yurewha_hash_tree_file_hash(&made.tree, &salt, &file) == YUREWHA_DONE);
    EXPECT(yurewha_hash_tree_proof(&made.tree, FIRST, END, levels, LEVELS, nodes, CHUNKS + 1024, &level_count, &node_count)
           == YUREWHA_DONE);
    EXPECT(yurewha_range_proof_open(levels, level_count, nodes, node_count, &file, &salt, &made.range) == YUREWHA_DONE);
    make_reader(&made.part, &made.reader);
    for (size_t i = 0; i < FILE_SIZE; i++)
        bytes[i] = (uint8_t)(i % 251);
    EXPECT(yurewha_file_hasher_new(&made.hasher) == YUREWHA_DONE);
    EXPECT(yurewha_file_hasher_update(&made.hasher, bytes, FILE_SIZE) == YUREWHA_DONE);
}

/* Ends a program that wrote to a closed page, without a word of the shell or of qemu. */
static void end_refused(int number)
{
    (void)number;
    _exit(REFUSED);
}

/* A call that changes what the handle owns ends a program. So the pages show whoever writes to them. */
static bool ends_by_writing(void)
{
    static const yurewha_hash unknown = {{1, 2, 3, 4}};
    int status = 0;
    const pid_t child = fork();
    if (child == 0) {
        signal(SIGSEGV, end_refused);
        _exit(yurewha_session_keep_hashes(SESSION, &unknown, 1) == YUREWHA_DONE);
    }
    EXPECT(child > 0 && waitpid(child, &status, 0) == child);
    return WIFEXITED(status) && WEXITSTATUS(status) == REFUSED;
}

int main(void)
{
    pthread_t threads[THREADS];
    struct answers *answers = calloc(THREADS + 1, sizeof *answers);
    pages = mmap(NULL, ROOM, PROT_READ | PROT_WRITE, MAP_PRIVATE | MAP_ANONYMOUS, -1, 0);
    EXPECT(answers != NULL && pages != MAP_FAILED);
    EXPECT(yurewha_set_allocator(allocate, reallocate, release) == YUREWHA_DONE);
    make_all();
    is_closed = true;
    EXPECT(mprotect(pages, ROOM, PROT_READ) == 0);
    for (size_t i = 0; i < THREADS; i++)
        EXPECT(pthread_create(&threads[i], NULL, read_all, &answers[i]) == 0);
    for (size_t i = 0; i < THREADS; i++)
        EXPECT(pthread_join(threads[i], NULL) == 0);
    read_all(&answers[THREADS]);
    for (size_t i = 0; i < THREADS; i++)
        EXPECT(memcmp(&answers[i], &answers[THREADS], sizeof *answers) == 0);
    EXPECT(ends_by_writing());
    EXPECT(mprotect(pages, ROOM, PROT_READ | PROT_WRITE) == 0);
    is_closed = false;
    yurewha_subtree_free(&made.subtree);
    yurewha_subtree_free(&made.other);
    yurewha_session_free(&made.session);
    yurewha_hash_tree_free(&made.tree);
    yurewha_hash_tree_free(&made.tail);
    yurewha_hash_index_free(&made.index);
    yurewha_opened_range_free(&made.range);
    yurewha_part_free(&made.part);
    yurewha_reader_free(&made.reader);
    yurewha_file_hasher_free(&made.hasher);
    munmap(pages, ROOM);
    free(answers);
    printf("%d threads read the same objects, which lie in %zu bytes that nobody may write to\n", THREADS, used);
    return 0;
}
