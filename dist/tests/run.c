/* What programs/run.c, which is included here, hands to a program and takes from it. */
#include "checks.h"

#include <string.h>

#define main main_of_run
#include "../programs/run.c"
#undef main

#define ROOM 8

/* The number of a signal and its handler, as `signal` gets them. */
static int signal_number;

static void handler(int number)
{
    signal_number = number;
}

static char *given[] = {"name\xff", "", "a", "four", "\xc3\xbc", NULL};
#define GIVEN (sizeof given / sizeof *given - 1)
/* How many of these words the program gets. */
static size_t given_count;

/* A word, for a room: what comes back, and that no byte after it is written. */
static void expect_argument(size_t index, size_t room)
{
    uint8_t text[ROOM];
    memset(text, '?', sizeof text);
    const int64_t length = yurewha_run_argument(index, text, room);
    const char *word = index >= given_count ? NULL : index == 0 ? "" : given[index];
    if (word == NULL)
        expect(length == -1, "there is no word", "argument");
    else if (strlen(word) > room)
        expect(length == -2, "a word that is too long is refused", word);
    else
        expect(length == (int64_t)strlen(word) && memcmp(text, word, strlen(word)) == 0, "a word is copied", word);
    for (size_t i = length >= 0 ? (size_t)length : room; i < ROOM; i++)
        expect(text[i] == '?', "nothing is written after it", word != NULL ? word : "argument");
}

int32_t yurewha_program(void)
{
    for (size_t room = 0; room < ROOM; room++) {
        for (size_t index = 0; index < GIVEN + 2; index++)
            expect_argument(index, room);
        expect_argument(SIZE_MAX, room);
    }
    return 7;
}

/* Words at the ends of what UTF-8 allows, and beside these. */
static void words_are_utf8(void)
{
    static char *const right[] = {"", "abc", "\x7f", "\xc2\x80", "\xdf\xbf", "\xe0\xa0\x80", "\xed\x9f\xbf", "\xee\x80\x80",
                                 "\xef\xbf\xbf", "\xf0\x90\x80\x80", "\xf4\x8f\xbf\xbf", "a\xc3\xbcz"};
    static char *const wrong[] = {"\x80", "\xbf", "\xc1\xbf", "\xe0\x9f\xbf", "\xed\xa0\x80", "\xed\xbf\xbf", "\xf0\x8f\xbf\xbf",
                                 "\xf4\x90\x80\x80", "\xf7\xbf\xbf\xbf", "\xf8\x88\x80\x80\x80", "\xff", "J\xfcrgen", "\xc3", "\xe2\x82",
                                 "\xf0\x9f\x98", "\xc3\xc3\xbc", "a\xc3z"};
    for (size_t i = 0; i < sizeof right / sizeof *right; i++)
        expect(is_utf8(right[i]), "a word is UTF-8", right[i]);
    for (size_t i = 0; i < sizeof wrong / sizeof *wrong; i++) {
        expect(!is_utf8(wrong[i]), "a word isn't UTF-8", wrong[i]);
        char *argv[] = {"name", "a", wrong[i], NULL};
        expect(main_of_run(3, argv) == WRONG_ARGUMENTS, "the program doesn't run with it", wrong[i]);
    }
}

int main(void)
{
    words_are_utf8();
    for (given_count = 0; given_count <= GIVEN; given_count++)
        expect(main_of_run((int)given_count, given) == 7, "its status is returned", "main");
    for (int32_t number = 0; number < 3; number++) {
        yurewha_run_set_errno(number);
        expect(errno == number && yurewha_run_errno() == number, "errno is set and read", "errno");
        errno = number + 7;
        expect(yurewha_run_errno() == number + 7, "errno is the C library's", "errno");
    }
    yurewha_run_signal(SIGPIPE, (intptr_t)handler);
    expect(raise(SIGPIPE) == 0 && signal_number == SIGPIPE, "a signal has the handler", "signal");
    yurewha_run_signal(SIGPIPE, (intptr_t)SIG_IGN);
    expect(raise(SIGPIPE) == 0, "a signal is ignored", "signal");
    return result();
}
