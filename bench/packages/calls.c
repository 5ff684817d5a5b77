/* Prints the processor time of calls of the C library in nanoseconds: the least of some turns. calls.py and calls.mjs do the same. */
#define _POSIX_C_SOURCE 200809L
#include "yurewha.h"

#include <stdio.h>
#include <stdlib.h>
#include <time.h>

enum { MESSAGE = 64 << 10, MESSAGES = 2048, CHUNKS = 100000, TURNS = 7 };

static yurewha_hash hash;
static yurewha_chunk chunks[CHUNKS];
/* More bytes than any cache holds. */
static uint8_t *messages;

static double now(void)
{
    struct timespec time;
    clock_gettime(CLOCK_PROCESS_CPUTIME_ID, &time);
    return (double)time.tv_sec * 1e9 + (double)time.tv_nsec;
}

static void hot(int count)
{
    for (int i = 0; i < count; i++)
        yurewha_data_hash(messages, MESSAGE, &hash);
}

static void cold(int count)
{
    for (int i = 0; i < count; i++)
        yurewha_data_hash(messages + (size_t)i * MESSAGE, MESSAGE, &hash);
}

static void root(int count)
{
    for (int i = 0; i < count; i++)
        if (yurewha_xorb_hash(chunks, CHUNKS, &hash) != YUREWHA_DONE)
            abort();
}

static void print(const char *name, void (*calls)(int), int count)
{
    double least = 1e18;
    for (int turn = 0; turn < TURNS; turn++) {
        const double begun = now();
        calls(count);
        const double taken = (now() - begun) / count;
        least = taken < least ? taken : least;
    }
    printf("%s %.0f\n", name, least);
}

int main(void)
{
    messages = malloc((size_t)MESSAGES * MESSAGE);
    if (messages == NULL)
        return 1;
    for (size_t i = 0; i < (size_t)MESSAGES * MESSAGE; i++)
        messages[i] = (uint8_t)(i % 251);
    for (uint64_t i = 0; i < CHUNKS; i++) {
        yurewha_random_from_seed(i, &chunks[i].hash);
        chunks[i].size = 100 + i % 9900;
    }
    print("hot", hot, MESSAGES);
    print("cold", cold, MESSAGES);
    print("root", root, 1);
    free(messages);
    return 0;
}
