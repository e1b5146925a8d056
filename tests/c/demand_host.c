/*
 * A C host of the demand call and its remainder: the paper's ten marked cases, and the refusal at
 * each bound; and of the version, which is that of the header.
 * Prints what fails; the exit status is 0 only if nothing does.
 */
#include <inttypes.h>
#include <stdio.h>

#include "reference_engine.h"

_Static_assert(REFERENCE_ENGINE_REFUSAL(1) == UINT64_MAX, "refusal 1 is 2^64 - 1");

struct check {
    const char *name;
    uint64_t ce, d, m1, m2, p;
    uint64_t expected, remainder;
};

static const struct check checks[] = {
    {"marked case 40,000", 20000, 1000, 900, 1200, 40000, 900, 0},
    {"marked case 30,001", 20000, 1000, 900, 1200, 30001, 950, 100},
    {"marked case 30,000", 20000, 1000, 900, 1200, 30000, 950, 0},
    {"marked case 29,999", 20000, 1000, 900, 1200, 29999, 951, 19900},
    {"marked case 25,999", 20000, 1000, 900, 1200, 25999, 971, 19900},
    {"marked case 20,000", 20000, 1000, 900, 1200, 20000, 1000, 0},
    {"marked case 19,999", 20000, 1000, 900, 1200, 19999, 1001, 19600},
    {"marked case 19,950", 20000, 1000, 900, 1200, 19950, 1001, 0},
    {"marked case 19,949", 20000, 1000, 900, 1200, 19949, 1002, 19600},
    {"marked case 10,000", 20000, 1000, 900, 1200, 10000, 1200, 0},
    {"CE below 2", 0, 1000, 900, 1200, 0, UINT64_MAX, UINT64_MAX},
    {"CE odd", 3, 1000, 900, 1200, 3, UINT64_MAX, UINT64_MAX},
    {"CE above 500,000", 500002, 1000, 900, 1200, 500002, UINT64_MAX, UINT64_MAX},
    {"M1 0", 20000, 1000, 0, 1200, 20000, UINT64_MAX, UINT64_MAX},
    {"M1 not below D", 20000, 1000, 1000, 1200, 20000, UINT64_MAX, UINT64_MAX},
    {"D not below M2", 20000, 1200, 900, 1200, 20000, UINT64_MAX, UINT64_MAX},
    {"M2 above 10^11", 20000, 1000, 900, UINT64_C(100000000001), 20000, UINT64_MAX, UINT64_MAX},
    {"p below the floor", 20000, 1000, 900, 1200, 9999, UINT64_MAX, UINT64_MAX},
    {"p above 2 CE", 20000, 1000, 900, 1200, 40001, UINT64_MAX, UINT64_MAX},
};

static int holds(const struct check *check)
{
    uint64_t got = demand(check->ce, check->d, check->m1, check->m2, check->p);
    uint64_t remainder = demand_remainder(check->ce, check->d, check->m1, check->m2, check->p);
    if (got == check->expected && remainder == check->remainder)
        return 1;
    printf("demand_host: %s: got %" PRIu64 " and %" PRIu64 ", expected %" PRIu64 " and %" PRIu64
           "\n",
           check->name, got, remainder, check->expected, check->remainder);
    return 0;
}

static int version_holds(void)
{
    unsigned major, minor, patch;
    char more;
    if (sscanf(REFERENCE_ENGINE_VERSION, "%u.%u.%u%c", &major, &minor, &patch, &more) == 3 &&
        minor < 1000 && patch < 1000 &&
        engine_version() == UINT64_C(1000000) * major + 1000 * minor + patch)
        return 1;
    printf("demand_host: the library has version %" PRIu64 ", the header " REFERENCE_ENGINE_VERSION
           "\n",
           engine_version());
    return 0;
}

int main(void)
{
    const size_t cases = sizeof checks / sizeof checks[0], count = cases + 1;
    size_t held = version_holds();
    for (size_t i = 0; i < cases; i++)
        held += holds(&checks[i]);
    if (held != count) {
        printf("demand_host: %zu of %zu checks failed\n", count - held, count);
        return 1;
    }
    printf("demand_host: %zu checks ok\n", count);
    return 0;
}
