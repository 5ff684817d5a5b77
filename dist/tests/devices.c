/*
 * Stands before the C library of a program, by LD_PRELOAD, and treats it as bad devices and little memory do. The environment says how:
 *
 *     YUREWHA_SHORT=1         each read and each write moves one byte
 *     YUREWHA_INTERRUPTED=N   before each read and each write that is made, N others are interrupted
 *     YUREWHA_REFUSED=N       the Nth request for memory is refused, and each one after it
 */
#include <errno.h>
#include <stdlib.h>
#include <sys/syscall.h>
#include <unistd.h>

void *__libc_malloc(size_t size);
void *__libc_realloc(void *old, size_t size);

static long is_short, interruptions, interrupted, refused, requests;

static long number(const char *name)
{
    const char *text = getenv(name);
    return text != NULL ? atol(text) : 0;
}

__attribute__((constructor)) static void begin(void)
{
    is_short = number("YUREWHA_SHORT");
    interruptions = number("YUREWHA_INTERRUPTED");
    refused = number("YUREWHA_REFUSED");
}

static int is_interrupted(void)
{
    errno = EINTR;
    interrupted = interrupted < interruptions ? interrupted + 1 : 0;
    return interrupted != 0;
}

static size_t moved(size_t length)
{
    return is_short && length > 0 ? 1 : length;
}

ssize_t read(int file, void *bytes, size_t length)
{
    return is_interrupted() ? -1 : syscall(SYS_read, file, bytes, moved(length));
}

ssize_t write(int file, const void *bytes, size_t length)
{
    return is_interrupted() ? -1 : syscall(SYS_write, file, bytes, moved(length));
}

static int is_refused(void)
{
    return refused != 0 && ++requests >= refused;
}

void *malloc(size_t size)
{
    return is_refused() ? NULL : __libc_malloc(size);
}

void *realloc(void *old, size_t size)
{
    return is_refused() ? NULL : __libc_realloc(old, size);
}
