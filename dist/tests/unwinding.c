/*
 * That the stack is unwound through the library, as by exceptions, profilers and sanitizers: from each call of malloc to this file's
 * merge(), which makes all calls. On a processor that signs addresses to return to, each is checked on the way. The linker puts the malloc
 * of this file before the C library's, by -Wl,--wrap=malloc. The first argument is how many chunks there are, an even number.
 */
#include "yurewha.h"

#include <stdio.h>
#include <stdlib.h>
#include <string.h>
#include <unwind.h>

enum { MOST_CHUNKS = 3000 };

void *__real_malloc(size_t size);
void *__wrap_malloc(size_t size);
void merge(void);

static unsigned walked, lost;
/* Whether merge() runs, and this file isn't walking already, for which memory may be taken, too. */
static bool is_walked;

static _Unwind_Reason_Code look(struct _Unwind_Context *context, void *is_reached)
{
    if (_Unwind_GetRegionStart(context) != (_Unwind_Ptr)merge)
        return _URC_NO_REASON;
    *(bool *)is_reached = true;
    return _URC_END_OF_STACK;
}

void *__wrap_malloc(size_t size)
{
    if (is_walked) {
        bool is_reached = false;
        is_walked = false;
        (void)_Unwind_Backtrace(look, &is_reached);
        is_walked = true;
        walked++;
        lost += !is_reached;
    }
    return __real_malloc(size);
}

static yurewha_chunk chunks[MOST_CHUNKS];
static size_t count;

/* Calls functions of the library, among them some with large frames, with frames that are aligned, and with tables of jumps. */
__attribute__((noinline)) void merge(void)
{
    static const char text[] = "{\"chunks\": [1, 2.5, {\"null\": null}, \"\\u00e4\"]}";
    yurewha_subtree parts[2] = {{0}}, merged = {0};
    yurewha_hash hash;
    yurewha_data_hash((const uint8_t *)chunks, sizeof *chunks * count, &hash);
    yurewha_status worst = yurewha_xorb_hash(chunks, count, &hash);
    for (int i = 0; i < 2 && worst == YUREWHA_DONE; i++)
        worst = yurewha_subtree_from_chunks(i == 0, chunks + i * count / 2, count / 2, i == 1, &parts[i]);
    if (worst == YUREWHA_DONE)
        worst = yurewha_subtree_merge(parts, 2, &merged);
    if (worst == YUREWHA_DONE)
        worst = yurewha_subtree_final_hash(&merged, &hash);
    if (yurewha_subtree_from_json(text, strlen(text), &parts[0]) == YUREWHA_DONE)
        lost++;
    yurewha_subtree_free(&merged);
    lost += worst != YUREWHA_DONE;
}

int main(int argc, char **argv)
{
    count = argc > 1 ? strtoul(argv[1], NULL, 10) : 0;
    if (count > MOST_CHUNKS)
        return 2;
    for (size_t i = 0; i < count; i++) {
        yurewha_random_from_seed(i, &chunks[i].hash);
        chunks[i].size = 1000 + i;
    }
    is_walked = true;
    merge();
    is_walked = false;
    printf("%u calls of malloc, %u not unwound\n", walked, lost);
    return walked == 0 || lost != 0;
}
