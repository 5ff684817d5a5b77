/* Checks that are counted, for programs that include a file of this folder's parent. */
#ifndef CHECKS_H
#define CHECKS_H

#include <stdbool.h>
#include <stdio.h>

static unsigned checks, failures;

/* Counts a check, and says where it fails: what it shows, and in which case. */
static void expect(bool holds, const char *what, const char *in)
{
    checks++;
    failures += !holds;
    if (!holds)
        fprintf(stderr, "fails: %s: %s\n", what, in);
}

/* The status of the program. */
static int result(void)
{
    printf("%u checks, %u failed\n", checks, failures);
    return failures != 0 || checks == 0;
}

#endif
