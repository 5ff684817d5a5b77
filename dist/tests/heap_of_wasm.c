/* What bindings/wasm/heap.c, which is included here, asks of the C library, and what it returns. It is written for wasm32, and its
 * sizes have 64 bits there, too; here all sizes have. */
#include "checks.h"

#include <stddef.h>
#include <string.h>

/* The last call of the C library's heap, and what it returns next. */
static struct call {
    const char *name;
    void *old;
    size_t size;
} last;
static unsigned calls;
static void *next;

static void *call(const char *name, void *old, size_t size)
{
    last = (struct call){name, old, size};
    calls++;
    return next;
}

#undef NULL
#define malloc malloc_here
#define realloc realloc_here
#define free free_here
#include "../../bindings/wasm/heap.c"

void *malloc(size_t size) { return call("malloc", NULL, size); }
void *realloc(void *old, size_t size) { return call("realloc", old, size); }
void free(void *old) { (void)call("free", old, 0); }

/* Checks the number of calls, and that the last one has this name, this block and this size. */
static void expect_calls(unsigned wanted, const char *name, const void *old, uint64_t size)
{
    expect(calls == wanted, "the C library is called once, and not for more than there can be", name);
    expect(calls == 0 || (strcmp(last.name, name) == 0 && last.old == old && last.size == size), "with the block and the size", name);
    calls = 0;
}

/* A block, if one of this size can be and there is one. */
static void expect_block(struct tried found, bool can_be, const char *in)
{
    const bool is = can_be && next != NULL;
    expect(found.ok == is, "ok says whether there is a block", in);
    expect(is ? found.at == (uintptr_t)next : found.at != 0, "the pointer is that of the block, and never null", in);
}

int main(void)
{
    static uint8_t block[64], old[64];
    static const uint64_t sizes[] = {0, 1, 7, 40, 4096, PTRDIFF_MAX, (uint64_t)PTRDIFF_MAX + 1, ~(uint64_t)0};
    static const uint64_t alignments[] = {1, 2, 4, 8, 16};
    for (size_t i = 0; i < 2 * 8 * 5; i++) {
        const uint64_t size = sizes[i / 2 % 8], alignment = alignments[i / 16], wanted = size != 0 ? size : alignment;
        const bool can_be = size <= PTRDIFF_MAX;
        next = i % 2 == 0 ? block : NULL;
        expect_block(rattle_alloc(size, alignment), can_be, "alloc");
        expect_calls(can_be, "realloc", NULL, wanted);
        for (uint64_t kept = 0; kept <= 64; kept += 32) {
            expect_block(rattle_realloc(old, kept, size, alignment), can_be, "realloc");
            expect_calls(can_be, "realloc", old, wanted);
        }
        expect(allocate(size) == (can_be ? next : NULL), "arguments have a block, or null", "allocate");
        expect_calls(can_be, "realloc", NULL, size != 0 ? size : 1);
    }
    rattle_dealloc(old);
    expect_calls(1, "free", old, 0);
    release(block);
    expect_calls(1, "free", block, 0);
    expect(sizeof(struct tried) == 16 && offsetof(struct tried, at) == 8, "the result is two words", "");
    return result();
}
