/*
 * The checks of a C host, counted. HOST is its name, defined before.
 */
#ifndef CHECKS_H
#define CHECKS_H

#include <stddef.h>
#include <stdio.h>

static unsigned made, failed;

/* Counts a check of a call with a buffer of so many places; prints one that fails. */
static void expect(int passes, const char *memory, const char *name, size_t length)
{
    made++;
    if (passes)
        return;
    failed++;
    printf(HOST ": %s: %s, buffer of length %zu\n", memory, name, length);
}

/* Prints how the checks ended; the exit status. */
static int ended(void)
{
    if (failed > 0) {
        printf(HOST ": %u of %u checks failed\n", failed, made);
        return 1;
    }
    printf(HOST ": %u checks ok\n", made);
    return 0;
}

#endif
