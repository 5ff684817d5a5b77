/* A program whose library allocates by functions of its own. It is a program by itself, because they are named before any other call.
 * The C library's functions are wrapped, so that a block that isn't from here is seen. */
#include <stdio.h>
#include <stdlib.h>
#include <string.h>
#include <yurewha.h>

enum { CHUNKS = 60 };

void *__real_malloc(size_t size);
void *__real_realloc(void *block, size_t size);
void __real_free(void *block);
void *__wrap_malloc(size_t size);
void *__wrap_realloc(void *block, size_t size);
void __wrap_free(void *block);

/* How often the C library's functions were called, and how many blocks are held of those here, of how many that were made. */
static size_t of_c, held, made, moved;
/* How many requests succeed before one is refused. */
static size_t before_refusal = SIZE_MAX;

void *__wrap_malloc(size_t size)
{
    of_c++;
    return __real_malloc(size);
}

void *__wrap_realloc(void *block, size_t size)
{
    of_c++;
    return __real_realloc(block, size);
}

void __wrap_free(void *block)
{
    of_c++;
    __real_free(block);
}

static bool is_refused(void)
{
    return before_refusal != SIZE_MAX && before_refusal-- == 0;
}

/* Each block has a mark in front of it, so that a block of another heap is seen. */
static const uint64_t mark[2] = {0x6d61726b206f6620, 0x746869732068656c};

static void *marked(void *block)
{
    return block == NULL ? NULL : (char *)memcpy(block, mark, sizeof mark) + sizeof mark;
}

static void *unmarked(void *block)
{
    char *start = (char *)block - sizeof mark;
    if (block == NULL || memcmp(start, mark, sizeof mark) != 0)
        abort();
    return start;
}

static void *allocate(size_t size)
{
    if (size == 0)
        abort();
    if (is_refused())
        return NULL;
    made++;
    held++;
    return marked(__real_malloc(size + sizeof mark));
}

static void *reallocate(void *block, size_t size)
{
    void *start = unmarked(block);
    if (size == 0)
        abort();
    if (is_refused())
        return NULL;
    moved++;
    return marked(__real_realloc(start, size + sizeof mark));
}

static void release(void *block)
{
    held--;
    __real_free(unmarked(block));
}

/* The root of some chunks by a session, and by a subtree that goes through JSON. */
static yurewha_status roots(const yurewha_chunk *chunks, yurewha_hash *of_session, yurewha_hash *of_subtree)
{
    static char text[1 << 16];
    yurewha_session session = {0};
    yurewha_subtree subtree = {0}, read = {0};
    uint64_t fresh = 0;
    size_t length = 0;
    yurewha_status status = yurewha_session_new(&session);
    for (size_t i = CHUNKS; status == YUREWHA_DONE && i-- > 0;)
        status = yurewha_session_put(&session, i, &chunks[i], 1, &fresh);
    if (status == YUREWHA_DONE)
        status = yurewha_session_root(&session, CHUNKS, of_session);
    if (status == YUREWHA_DONE)
        status = yurewha_subtree_from_chunks(true, chunks, CHUNKS, true, &subtree);
    if (status == YUREWHA_DONE)
        status = yurewha_subtree_to_json(&subtree, text, sizeof text, &length);
    if (status == YUREWHA_DONE)
        status = yurewha_subtree_from_json(text, length, &read);
    if (status == YUREWHA_DONE)
        status = yurewha_subtree_final_hash(&read, of_subtree);
    yurewha_session_free(&session);
    yurewha_subtree_free(&subtree);
    yurewha_subtree_free(&read);
    return status;
}

#define EXPECT(holds) \
    do { \
        if (!(holds)) { \
            fprintf(stderr, "own.c:%d: fails: %s\n", __LINE__, #holds); \
            return 1; \
        } \
    } while (0)

int main(void)
{
    yurewha_chunk chunks[CHUNKS];
    yurewha_hash of_session, of_subtree, wanted;
    size_t refusals = 0;
    for (size_t i = 0; i < CHUNKS; i++) {
        yurewha_random_from_seed(i, &chunks[i].hash);
        chunks[i].size = i;
    }
    EXPECT(yurewha_set_allocator(NULL, realloc, free) == YUREWHA_ARGUMENTS);
    EXPECT(yurewha_set_allocator(malloc, NULL, free) == YUREWHA_ARGUMENTS);
    EXPECT(yurewha_set_allocator(malloc, realloc, NULL) == YUREWHA_ARGUMENTS);
    /* As long as nothing was allocated, the last one holds. */
    EXPECT(yurewha_set_allocator(malloc, realloc, free) == YUREWHA_DONE);
    EXPECT(yurewha_set_allocator(allocate, reallocate, release) == YUREWHA_DONE);
    of_c = 0;
    EXPECT(roots(chunks, &of_session, &of_subtree) == YUREWHA_DONE);
    EXPECT(yurewha_xorb_hash(chunks, CHUNKS, &wanted) == YUREWHA_DONE);
    EXPECT(yurewha_compare(&of_session, &wanted) == 0 && yurewha_compare(&of_subtree, &wanted) == 0);
    EXPECT(of_c == 0 && made > 0 && moved > 0 && held == 0);
    /* It is too late for another one, and nothing changes. */
    EXPECT(yurewha_set_allocator(malloc, realloc, free) == YUREWHA_ARGUMENTS);
    EXPECT(roots(chunks, &of_session, &of_subtree) == YUREWHA_DONE && of_c == 0 && held == 0);
    for (size_t before = 0;; before++) {
        before_refusal = before;
        const yurewha_status status = roots(chunks, &of_session, &of_subtree);
        EXPECT(held == 0);
        if (status == YUREWHA_DONE)
            break;
        EXPECT(status == YUREWHA_MEMORY);
        refusals++;
    }
    EXPECT(refusals > 100 && of_c == 0);
    printf("the library allocates by functions of the program: %zu blocks, %zu refusals\n", made, refusals);
    return 0;
}
