/*
 * Prints the level that the library runs for. Eight threads at once make calls before it is chosen, choose it, and make calls after it,
 * in a constructor that runs before the library's own.
 */
#define _POSIX_C_SOURCE 200809L
#include "yurewha.h"

#include <pthread.h>
#include <stdio.h>

enum { THREADS = 8 };

static const char text[] = "abc";
static yurewha_hash before[THREADS], after[THREADS];
static const char *levels[THREADS];
static pthread_mutex_t lock = PTHREAD_MUTEX_INITIALIZER;
static pthread_cond_t all_are_here = PTHREAD_COND_INITIALIZER;
static unsigned here;

/* A barrier, which macOS' threads lack. */
static void wait_for_all(void)
{
    pthread_mutex_lock(&lock);
    if (++here == THREADS)
        pthread_cond_broadcast(&all_are_here);
    while (here < THREADS)
        pthread_cond_wait(&all_are_here, &lock);
    pthread_mutex_unlock(&lock);
}

static void *call(void *number)
{
    const size_t i = (size_t)number;
    wait_for_all();
    yurewha_data_hash(text, sizeof text - 1, &before[i]);
    levels[i] = yurewha_processor_level();
    yurewha_data_hash(text, sizeof text - 1, &after[i]);
    return NULL;
}

__attribute__((constructor(101))) static void call_first(void)
{
    pthread_t threads[THREADS];
    for (size_t i = 0; i < THREADS; i++)
        pthread_create(&threads[i], NULL, call, (void *)i);
    for (size_t i = 0; i < THREADS; i++)
        pthread_join(threads[i], NULL);
}

/* The hash of abc, by the model. */
int main(void)
{
    for (size_t i = 0; i < THREADS; i++)
        if (before[i].words[0] != 0xa8803506f7aff014 || after[i].words[0] != 0xa8803506f7aff014 ||
            levels[i] != yurewha_processor_level())
            return 1;
    return puts(yurewha_processor_level()) == EOF;
}
