/*
 * That Windows can unwind the stack through the library, as its debuggers, profilers and exceptions do: from each call of malloc to the
 * functions of this file. The linker puts the malloc of this file before the C library's, by -Wl,--wrap=malloc.
 */
#include "yurewha.h"

#include <windows.h>
#include <stdio.h>

enum { FRAMES = 62, CHUNKS = 3000 };

void *__real_malloc(size_t size);
void *__wrap_malloc(size_t size);
static void merge(void);

static unsigned walked, lost;

/* Whether the frames lead to this file's merge(), which makes all calls. Each on the way has to be in a function that is known. */
static bool is_reached(void)
{
    void *frames[FRAMES];
    const unsigned count = RtlCaptureStackBackTrace(0, FRAMES, frames, NULL);
    for (unsigned at = 0; at < count; at++) {
        DWORD64 base;
        const RUNTIME_FUNCTION *function = RtlLookupFunctionEntry((DWORD64)frames[at], &base, NULL);
        if (function == NULL)
            return false;
        if (base + function->BeginAddress == (DWORD64)merge)
            return true;
    }
    return false;
}

void *__wrap_malloc(size_t size)
{
    walked++;
    lost += !is_reached();
    return __real_malloc(size);
}

static yurewha_chunk chunks[CHUNKS];

__attribute__((noinline)) static void merge(void)
{
    yurewha_subtree parts[2] = {{0}}, merged = {0};
    yurewha_hash hash;
    yurewha_status worst = yurewha_xorb_hash(chunks, CHUNKS, &hash);
    for (int i = 0; i < 2 && worst == YUREWHA_DONE; i++)
        worst = yurewha_subtree_from_chunks(i == 0, chunks + i * CHUNKS / 2, CHUNKS / 2, i == 1, &parts[i]);
    if (worst == YUREWHA_DONE)
        worst = yurewha_subtree_merge(parts, 2, &merged);
    if (worst == YUREWHA_DONE)
        worst = yurewha_subtree_final_hash(&merged, &hash);
    yurewha_subtree_free(&merged);
    lost += worst != YUREWHA_DONE;
}

int main(void)
{
    for (size_t i = 0; i < CHUNKS; i++) {
        yurewha_random_from_seed(i, &chunks[i].hash);
        chunks[i].size = 1000 + i;
    }
    walked = lost = 0;
    merge();
    printf("%u calls of malloc, %u not unwound\n", walked, lost);
    return walked < 10 || lost != 0;
}
