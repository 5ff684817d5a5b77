/*
 * An allocator that counts, for the library in a Python process: `counting.py` passes it to `yurewha_set_allocator` before the library
 * asks for any memory. So nothing of Python's own is counted. A block counts the bytes that malloc gave it, and 8 for what malloc keeps
 * beside them.
 */
#include <malloc.h>
#include <stdatomic.h>
#include <stdlib.h>

enum { BESIDE = 8 };

static atomic_long blocks, bytes, peak, requests, refused_after = -1;

static void add(long count, long size)
{
    atomic_fetch_add(&blocks, count);
    long now = atomic_fetch_add(&bytes, size) + size, before = atomic_load(&peak);
    while (now > before && !atomic_compare_exchange_weak(&peak, &before, now))
        ;
}

/* Whether this request is one of those that are refused. */
static int is_refused(void)
{
    long number = atomic_fetch_add(&requests, 1), limit = atomic_load(&refused_after);
    return limit >= 0 && number >= limit;
}

static long size_of(void *at) { return (long)malloc_usable_size(at) + BESIDE; }

void *counted_malloc(size_t size)
{
    void *at = is_refused() ? NULL : malloc(size);
    if (at != NULL)
        add(1, size_of(at));
    return at;
}

void *counted_realloc(void *old, size_t size)
{
    long before = old != NULL ? size_of(old) : 0;
    void *at = is_refused() ? NULL : realloc(old, size);
    if (at != NULL)
        add(old == NULL, size_of(at) - before);
    return at;
}

void counted_free(void *old)
{
    if (old != NULL)
        add(-1, -size_of(old));
    free(old);
}

long live_blocks(void) { return atomic_load(&blocks); }
long live_bytes(void) { return atomic_load(&bytes); }
long most_bytes(void) { return atomic_load(&peak); }

/* Counts the greatest number of bytes and the requests anew. Those after so many are refused, or none if the number is negative. */
void count_anew(long granted)
{
    atomic_store(&peak, atomic_load(&bytes));
    atomic_store(&requests, 0);
    atomic_store(&refused_after, granted);
}
