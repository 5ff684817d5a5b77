/*
 * What a proved program asks of run.c on Windows alone: to read and to write as on Linux. The C library's calls there count in 32 bits,
 * and change the ends of lines unless a stream is binary.
 *
 * This file isn't proved.
 */
#include <fcntl.h>
#include <io.h>
#include <limits.h>
#include <stddef.h>
#include <stdint.h>

int64_t yurewha_run_read(int32_t stream, void *to, size_t room);
int64_t yurewha_run_write(int32_t stream, const void *from, size_t length);
void yurewha_run_signal(int32_t number, intptr_t handler);

static unsigned at_most(size_t length)
{
    return length < INT_MAX ? (unsigned)length : INT_MAX;
}

int64_t yurewha_run_read(int32_t stream, void *to, size_t room)
{
    return _read(stream, to, at_most(room));
}

int64_t yurewha_run_write(int32_t stream, const void *from, size_t length)
{
    return _write(stream, from, at_most(length));
}

/* There is no SIGPIPE to ignore: a pipe without a reader is a fault of the call that writes. */
void yurewha_run_signal(int32_t number, intptr_t handler)
{
    (void)number;
    (void)handler;
}

__attribute__((constructor)) static void make_streams_binary(void)
{
    for (int stream = 0; stream < 3; stream++)
        (void)_setmode(stream, _O_BINARY);
}
