/* Prints how the time of a hash depends on where the stack stands, as a line of a table. One message of 64 KiB is hashed with the
 * stack pointer at each of the 256 places of a page that are a multiple of 16 bytes. A place's time is its median over all turns, each
 * divided by the median of its turn, since the processor's clock changes from turn to turn. The line has the median of all times in
 * the first turn, the best and the worst place beside it, the worst over the best, and how many take more than 1.05 of the best. */
#define _POSIX_C_SOURCE 200809L
#include "yurewha.h"

#include <alloca.h>
#include <stdio.h>
#include <stdlib.h>
#include <string.h>
#include <time.h>

enum { PLACES = 256, STEP = 16, TURNS = 200, LENGTH = 64 * 1024 };

static uint8_t message[LENGTH];

static double now(void)
{
    struct timespec time;
    clock_gettime(CLOCK_THREAD_CPUTIME_ID, &time);
    return (double)time.tv_sec * 1e9 + (double)time.tv_nsec;
}

/* The time of a hash after the stack was moved by so many bytes. */
__attribute__((noinline)) static double time_at(size_t moved)
{
    volatile char *room = alloca(moved + 1);
    yurewha_hash hash;
    room[moved] = 1;
    const double begun = now();
    yurewha_data_hash(message, sizeof message, &hash);
    return now() - begun;
}

static int by_size(const void *first, const void *second)
{
    const double one = *(const double *)first, other = *(const double *)second;
    return (one > other) - (one < other);
}

static double median(const double *times, size_t count)
{
    static double sorted[TURNS > PLACES ? TURNS : PLACES];
    memcpy(sorted, times, count * sizeof *times);
    qsort(sorted, count, sizeof *sorted, by_size);
    return sorted[count / 2];
}

int main(void)
{
    static double of_place[PLACES][TURNS];
    double in_turn[PLACES], first = 0, ratios[PLACES], best = 1e12, worst = 0;
    int slow = 0;
    for (int i = 0; i < LENGTH; i++)
        message[i] = (uint8_t)(i % 251);
    for (int turn = 0; turn < TURNS; turn++) {
        for (int place = 0; place < PLACES; place++)
            in_turn[place] = time_at((size_t)place * STEP);
        const double middle = median(in_turn, PLACES);
        first = turn == 0 ? middle : first;
        for (int place = 0; place < PLACES; place++)
            of_place[place][turn] = in_turn[place] / middle;
    }
    for (int place = 0; place < PLACES; place++) {
        ratios[place] = median(of_place[place], TURNS);
        best = ratios[place] < best ? ratios[place] : best;
        worst = ratios[place] > worst ? ratios[place] : worst;
    }
    for (int place = 0; place < PLACES; place++)
        slow += ratios[place] > 1.05 * best;
    printf("| %s | %.1f µs | %.3f | %.3f | %.3f | %d of %d |\n", yurewha_processor_level(), first / 1000, best, worst, worst / best, slow,
           PLACES);
    return 0;
}
