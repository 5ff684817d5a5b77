/*
 * An allocator before malloc, which counts. The linker puts it there, by
 *
 *     -Wl,--wrap=malloc,--wrap=realloc,--wrap=free
 *
 * for all that is linked into the program: so for libyurewha.a, and not for libyurewha.so. On macOS, whose linker knows no such flag, the
 * library is told before main to allocate by these functions, so that its own requests alone are counted. Each thread counts for itself.
 */
#include "harness.h"

#include <stdlib.h>

static _Thread_local struct {
    size_t requests; /* since the last call of `count_requests` */
    size_t granted;  /* their bytes */
    long live;
} state;

void *__wrap_malloc(size_t size);
void *__wrap_realloc(void *old, size_t size);
void __wrap_free(void *old);
#ifdef __APPLE__
#define __real_malloc malloc
#define __real_realloc realloc
#define __real_free free
__attribute__((constructor)) static void count_all(void)
{
    EXPECT_STATUS(YUREWHA_DONE, yurewha_set_allocator(__wrap_malloc, __wrap_realloc, __wrap_free));
}
#else
void *__real_malloc(size_t size);
void *__real_realloc(void *old, size_t size);
void __real_free(void *old);
#endif

void count_requests(void)
{
    state.requests = 0;
    state.granted = 0;
}

size_t requests(void) { return state.requests; }
size_t granted(void) { return state.granted; }
long live_blocks(void) { return state.live; }

void *__wrap_malloc(size_t size)
{
    void *found = __real_malloc(size);
    state.requests++;
    state.granted += found != NULL ? size : 0;
    state.live += found != NULL;
    return found;
}

void *__wrap_realloc(void *old, size_t size)
{
    void *found = __real_realloc(old, size);
    state.requests++;
    state.granted += found != NULL ? size : 0;
    state.live += old == NULL && found != NULL;
    return found;
}

void __wrap_free(void *old)
{
    state.live -= old != NULL;
    __real_free(old);
}

bool sees_requests(void)
{
    yurewha_subtree subtree = {0};
    count_requests();
    EXPECT_STATUS(YUREWHA_DONE, yurewha_subtree_from_chunks(true, NULL, 0, true, &subtree));
    yurewha_subtree_free(&subtree);
    return requests() != 0;
}
