/* What heap.c, which is included here, asks of malloc, realloc and free, and what it returns. */
#include "checks.h"

#include <stdint.h>
#include <stdlib.h>
#include <string.h>

/* The last call of the C library's heap, and what it returns next. */
static struct call {
    const char *name;
    void *old;
    size_t size;
} last;
static unsigned calls;
static void *next;

static void *call(const char *name, void *old, size_t size)
{
    last = (struct call){name, old, size};
    calls++;
    return next;
}

#define malloc(size) call("malloc", NULL, size)
#define realloc(old, size) call("realloc", old, size)
#define free(old) (void)call("free", old, 0)
#include "../heap.c"

/* One call was made, of this name, with this block and this size. */
static void expect_call(const char *name, const void *old, size_t size)
{
    expect(calls == 1 && strcmp(last.name, name) == 0 && last.old == old && last.size == size,
           "the C library is called once, with the block and the size", name);
    calls = 0;
}

/* A block that there is, or none. */
static void expect_block(struct tried found, const char *in)
{
    expect(found.ok == (next != NULL), "ok says whether there is a block", in);
    expect(next != NULL ? found.at == next : found.at != NULL, "the pointer is that of the block, and never null", in);
}

static void *allocate(size_t size) { return call("allocate", NULL, size); }
static void *reallocate(void *block, size_t size) { return call("reallocate", block, size); }
static void release(void *block) { (void)call("release", block, 0); }

/* After a request for so many bytes, functions of the caller's own come too late, whether there was a block or not. */
static void expect_late(size_t size, size_t alignment)
{
    memset(&own, 0, sizeof own);
    (void)yurewha_heap_alloc(size, alignment);
    expect(yurewha_set_allocator(allocate, reallocate, release) == YUREWHA_ARGUMENTS && own.allocate == NULL,
           "functions that come after a request are refused", "set_allocator");
    calls = 0;
}

int main(void)
{
    static uint8_t block[64], old[64];
    static const size_t sizes[] = {0, 1, 7, 40, 4096, (size_t)1 << 40, SIZE_MAX / 2, SIZE_MAX - 15, SIZE_MAX};
    static const size_t alignments[] = {1, 2, 4, 8, 16};
    for (size_t i = 0; i < 2 * 9 * 5; i++) {
        const size_t size = sizes[i / 2 % 9], alignment = alignments[i / 18], wanted = size != 0 ? size : alignment;
        next = i % 2 == 0 ? block : NULL;
        expect_late(size, alignment);
        expect_block(yurewha_heap_alloc(size, alignment), "alloc");
        expect_call("malloc", NULL, wanted);
        for (size_t kept = 0; kept <= 64; kept += 32) {
            expect_block(yurewha_heap_realloc(old, kept, size, alignment), "realloc");
            expect_call("realloc", old, wanted);
        }
    }
    yurewha_heap_dealloc(old);
    expect_call("free", old, 0);
    /* The proved code finds them in the registers rax and rdx: two words. */
    expect(sizeof(struct tried) == 16 && offsetof(struct tried, at) == 8, "the result is two words", "");
    return result();
}
