/*
 * Runs a proved program. Its assembly begins at yurewha_program, reads and writes by the C library's `read` and `write`, and asks this
 * file for the words of the command line, for errno and for how signals are handled (on Windows windows.c). heap.c is its heap.
 *
 * This file isn't proved. It does what the toolchain's own C code does for a program that the toolchain links, but for words that aren't
 * UTF-8, of which a program takes none: its own name is left out, which nobody reads and a system may spell in any way, and any other one
 * is told of.
 */
#include <errno.h>
#include <signal.h>
#include <stdbool.h>
#include <stddef.h>
#include <stdint.h>
#ifndef _WIN32
#include <unistd.h>
#endif

#pragma GCC visibility push(hidden)
int32_t yurewha_program(void);
int64_t yurewha_run_argument(size_t index, uint8_t *text, size_t room);
int32_t yurewha_run_errno(void);
void yurewha_run_set_errno(int32_t number);
void yurewha_run_signal(int32_t number, intptr_t handler);
#ifdef _WIN32
int64_t yurewha_run_write(int32_t stream, const void *from, size_t length);
#else
#define yurewha_run_write write
#endif
#pragma GCC visibility pop

#define WRONG_ARGUMENTS 64

static size_t count;
static char **words;

/* Copies a word of the command line, and returns its length, or -1 if there is no such word, or -2 if there is no room for it. The
 * program's own name is empty. */
int64_t yurewha_run_argument(size_t index, uint8_t *text, size_t room)
{
    if (index >= count)
        return -1;
    size_t length = 0;
    if (index == 0)
        return 0;
    for (const char *word = words[index]; word[length] != '\0'; length++) {
        if (length == room)
            return -2;
        text[length] = (uint8_t)word[length];
    }
    return (int64_t)length;
}

int32_t yurewha_run_errno(void)
{
    return errno;
}

void yurewha_run_set_errno(int32_t number)
{
    errno = number;
}

#ifndef _WIN32
/* A program begins by ignoring SIGPIPE, so that a pipe without a reader is a fault that it reports. */
void yurewha_run_signal(int32_t number, intptr_t handler)
{
    (void)signal(number, (void (*)(int))handler);
}
#endif

/* Whether a word is UTF-8, as Unicode defines it. */
static bool is_utf8(const char *word)
{
    for (const unsigned char *at = (const unsigned char *)word; *at != 0;) {
        const int more = *at < 0x80 ? 0 : *at < 0xe0 ? 1 : *at < 0xf0 ? 2 : 3;
        const uint32_t least = (const uint32_t[]){0, 0x80, 0x800, 0x10000}[more];
        if ((*at >= 0x80 && *at < 0xc0) || *at >= 0xf8)
            return false;
        uint32_t number = more == 0 ? *at : *at & (0x3fu >> more);
        at++;
        for (int i = 0; i < more; i++, at++) {
            if ((*at & 0xc0) != 0x80)
                return false;
            number = number << 6 | (*at & 0x3f);
        }
        if (number < least || number > 0x10ffff || (number >= 0xd800 && number < 0xe000))
            return false;
    }
    return true;
}

int main(int argc, char **argv)
{
    count = (size_t)argc;
    words = argv;
    for (int i = 1; i < argc; i++)
        if (!is_utf8(argv[i])) {
            static const char told[] = "an argument isn't UTF-8\n";
            (void)!yurewha_run_write(2, told, sizeof told - 1);
            return WRONG_ARGUMENTS;
        }
    return yurewha_program();
}
