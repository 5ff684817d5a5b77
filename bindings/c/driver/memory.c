/* The functions by which the library allocates in the driver. They count, and refuse requests. */
#include "driver.h"

static struct {
    unsigned long requests; /* since the last call of `refuse` */
    unsigned long number;   /* of the request that is refused, or 0 */
    bool all;               /* whether those after it are refused, too */
    bool refused;
    long live;
} state;

void refuse(unsigned long number, bool all_from_there)
{
    state.requests = 0;
    state.number = number;
    state.all = all_from_there;
    state.refused = false;
}

unsigned long requests(void) { return state.requests; }
bool was_refused(void) { return state.refused; }
long live_blocks(void) { return state.live; }

static bool is_refused(void)
{
    state.requests++;
    const bool refused = state.number != 0 && (state.all ? state.requests >= state.number : state.requests == state.number);
    state.refused = state.refused || refused;
    return refused;
}

static void *allocate(size_t size) YUREWHA_NOEXCEPT
{
    void *found = is_refused() ? NULL : malloc(size);
    state.live += found != NULL;
    return found;
}

static void *reallocate(void *old, size_t size) YUREWHA_NOEXCEPT { return is_refused() ? NULL : realloc(old, size); }

static void release(void *old) YUREWHA_NOEXCEPT
{
    state.live--;
    free(old);
}

void set_allocator(void)
{
    if (yurewha_set_allocator(allocate, reallocate, release) != YUREWHA_DONE)
        stop("the library takes no allocator", "");
}

void *block(size_t size)
{
    void *found = size != 0 ? malloc(size) : NULL;
    if (size != 0 && found == NULL)
        stop("out of memory", "");
    return found;
}
