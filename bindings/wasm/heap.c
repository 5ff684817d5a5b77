/*
 * The heap of the proved library, and of the package, over malloc. It isn't proved. Sizes have 64 bits for wasm32, too, since the
 * library was compiled for 64 bits.
 */
#include "types.h"

void *malloc(size_t size);
void *realloc(void *old, size_t size);
void free(void *old);

/* Whether there is a block, and where: two words, as the code for x86-64 gets them. The second has zeros above a narrow pointer.
 * A pointer is never null, not even where there is no block. */
struct tried {
    uint64_t ok;
    uint64_t at;
};

static struct tried tried(uint8_t *at)
{
    static const uint8_t nothing = 0;
    return (struct tried){at != NULL, (uintptr_t)(at != NULL ? at : &nothing)};
}

/* A block has at least one byte; a size that this machine doesn't have is refused. */
static uint8_t *resized(uint8_t *old, uint64_t size, uint64_t least)
{
    if (size == 0)
        size = least;
    return size > PTRDIFF_MAX ? NULL : realloc(old, (size_t)size);
}

struct tried rattle_alloc(uint64_t size, uint64_t alignment)
{
    return tried(resized(NULL, size, alignment));
}

struct tried rattle_realloc(uint8_t *old, uint64_t kept, uint64_t size, uint64_t alignment)
{
    (void)kept;
    return tried(resized(old, size, alignment));
}

void rattle_dealloc(uint8_t *old)
{
    free(old);
}

/* For the package: a block for arguments, null if there is no memory. */
uint8_t *allocate(uint64_t size)
{
    return resized(NULL, size, 1);
}

void release(uint8_t *at)
{
    free(at);
}
