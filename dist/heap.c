/*
 * The heap of the proved library, over the C library's or the caller's own. It isn't proved.
 *
 * `yurewha_heap_alloc` and `yurewha_heap_realloc` return whether there is a block, and where. For 0 bytes, the block has as many
 * as the alignment says.
 */
#include "yurewha.h"

#include <stdatomic.h>
#include <stdlib.h>

struct tried {
    bool ok;
    uint8_t *at;
};

#pragma GCC visibility push(hidden)
struct tried yurewha_heap_alloc(size_t size, size_t alignment);
struct tried yurewha_heap_realloc(uint8_t *old, size_t kept, size_t size, size_t alignment);
void yurewha_heap_dealloc(uint8_t *old);
#pragma GCC visibility pop

/* A pointer is never null, not even where there is no block. */
static struct tried tried(uint8_t *at)
{
    static const uint8_t nothing = 0;
    const struct tried found = {at != NULL, at != NULL ? at : (uint8_t *)(uintptr_t)&nothing};
    return found;
}

/* The functions of the caller's own, or null pointers; and whether a block was asked for, after which they stay as they are. */
static struct {
    yurewha_allocate allocate;
    yurewha_reallocate reallocate;
    yurewha_release release;
    atomic_bool was_asked;
} own;

yurewha_status yurewha_set_allocator(yurewha_allocate allocate, yurewha_reallocate reallocate, yurewha_release release)
{
    if (allocate == NULL || reallocate == NULL || release == NULL || atomic_load_explicit(&own.was_asked, memory_order_relaxed))
        return YUREWHA_ARGUMENTS;
    own.allocate = allocate;
    own.reallocate = reallocate;
    own.release = release;
    return YUREWHA_DONE;
}

struct tried yurewha_heap_alloc(size_t size, size_t alignment)
{
    /* Threads that only read this don't slow each other down. */
    if (!atomic_load_explicit(&own.was_asked, memory_order_relaxed))
        atomic_store_explicit(&own.was_asked, true, memory_order_relaxed);
    if (own.allocate != NULL)
        return tried(own.allocate(size != 0 ? size : alignment));
    return tried(malloc(size != 0 ? size : alignment));
}

struct tried yurewha_heap_realloc(uint8_t *old, size_t kept, size_t size, size_t alignment)
{
    if (own.reallocate != NULL)
        return tried(own.reallocate(old, size != 0 ? size : alignment));
    (void)kept;
    return tried(realloc(old, size != 0 ? size : alignment));
}

void yurewha_heap_dealloc(uint8_t *old)
{
    if (own.release != NULL) {
        own.release(old);
        return;
    }
    free(old);
}
