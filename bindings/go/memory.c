/* malloc, realloc and free, with counts: the garbage collector of Go doesn't see how much the library has. */
#include "memory.h"

#include <stddef.h>
#include <stdlib.h>
#include <yurewha.h>

/* Before each block stands its size, in as many bytes as keep the block aligned. */
enum { BEFORE = 16 };

int64_t yurewha_go_bytes;
int64_t yurewha_go_blocks;

static void count(int64_t bytes, int64_t blocks)
{
    __atomic_add_fetch(&yurewha_go_bytes, bytes, __ATOMIC_RELAXED);
    __atomic_add_fetch(&yurewha_go_blocks, blocks, __ATOMIC_RELAXED);
}

/* What malloc or realloc returned for a block, of which `before` bytes were counted. */
static void *counted(size_t *begin, size_t size, size_t before, int64_t blocks)
{
    if (begin == NULL)
        return NULL;
    *begin = size;
    count((int64_t)size - (int64_t)before, blocks);
    return (char *)begin + BEFORE;
}

static size_t *begin_of(void *block)
{
    return (size_t *)(void *)((char *)block - BEFORE);
}

static void *allocate(size_t size)
{
    return size > SIZE_MAX - BEFORE ? NULL : counted(malloc(BEFORE + size), size, 0, 1);
}

static void *reallocate(void *block, size_t size)
{
    size_t *begin = begin_of(block);
    const size_t before = *begin;
    return size > SIZE_MAX - BEFORE ? NULL : counted(realloc(begin, BEFORE + size), size, before, 0);
}

static void release(void *block)
{
    size_t *begin = begin_of(block);
    count(-(int64_t)*begin, -1);
    free(begin);
}

void yurewha_go_count(void)
{
    /* The program may have named its own functions, and used them. */
    (void)!yurewha_set_allocator(allocate, reallocate, release);
}
