/*
 * A C host of sealed_auction. Lists and buffers have exact lengths (memory.h).
 * Prints what fails; the exit status is 0 only if nothing does.
 */
#define HOST "sealed_host"
#include "memory.h"
#include "checks.h"
#include <string.h>

#include "reference_engine.h"

_Static_assert(REFERENCE_ENGINE_REFUSAL(18) == UINT64_MAX - 17, "refusal 18 is 2^64 - 18");
_Static_assert(REFERENCE_ENGINE_REFUSAL(19) == UINT64_MAX - 18, "refusal 19 is 2^64 - 19");

enum { MOST = 17, LISTS = 4, OUT_OF_BOUNDS = 18, ABOVE_CEILING = 19 };

#define DEMAND_BOUND UINT64_C(100000000000)
#define GREATEST 1000000000

/* Three offers by their prices, quantities, minimums and ages. The second is taken first, being of
 * the oldest group; then the third, which is cheaper than the first. */
#define THREE {3, {500, 400, 300}}, {3, {100, 80, 60}}, {3, {10, 80, 20}}, {3, {3, 5, 3}}
#define SIXTEEN {16, {1, 1, 1, 1, 1, 1, 1, 1, 1, 1, 1, 1, 1, 1, 1, 1}}
#define SEVENTEEN {17, {1, 1, 1, 1, 1, 1, 1, 1, 1, 1, 1, 1, 1, 1, 1, 1, 1}}
#define ONE(price, quantity, minimum, age) {1, {price}}, {1, {quantity}}, {1, {minimum}}, {1, {age}}
#define NONE {0, {0}}, {0, {0}}, {0, {0}}, {0, {0}}

struct list {
    size_t length;
    uint64_t numbers[MOST];
};

/* An auction: the refusal, or 0 with what is left and the awards. */
struct check {
    const char *name;
    uint64_t ceiling, demand;
    struct list lists[LISTS];
    unsigned refusal;
    uint64_t left, awards[MOST];
};

static const struct check checks[] = {
    {"docs/PYTHON.md's example", 30000, 1130,
     {{5, {21000, 19000, 18000, 18000, 17000}}, {5, {400, 500, 300, 250, 60}},
      {5, {100, 500, 200, 50, 50}}, {5, {2, 5, 2, 2, 0}}}, 0, 20, {0, 500, 300, 250, 60}},
    {"more than is offered", 500, 250, {THREE}, 0, 10, {100, 80, 60}},
    {"all that is offered", 500, 240, {THREE}, 0, 0, {100, 80, 60}},
    {"first cut", 500, 239, {THREE}, 0, 0, {99, 80, 60}},
    {"first at its minimum", 500, 150, {THREE}, 0, 0, {10, 80, 60}},
    {"first below its minimum", 500, 149, {THREE}, 0, 9, {0, 80, 60}},
    {"third below its minimum, the first tried", 500, 99, {THREE}, 0, 0, {19, 80, 0}},
    {"second below its minimum", 500, 79, {THREE}, 0, 0, {19, 0, 60}},
    {"nothing left for the others", 500, 80, {THREE}, 0, 0, {0, 80, 0}},
    {"demand 0", 500, 0, {THREE}, 0, 0, {0, 0, 0}},
    {"no offer", 1, 7, {NONE}, 0, 7, {0}},
    {"least numbers", 1, 1, {ONE(1, 1, 1, 0)}, 0, 0, {1}},
    {"greatest numbers", 1000000, DEMAND_BOUND, {ONE(1000000, GREATEST, GREATEST, 20)}, 0,
     DEMAND_BOUND - GREATEST, {GREATEST}},
    {"list order", 9, 5, {{2, {9, 9}}, {2, {4, 4}}, {2, {1, 1}}, {2, {7, 7}}}, 0, 0, {4, 1}},
    {"sixteen", 1, 3, {SIXTEEN, SIXTEEN, SIXTEEN, SIXTEEN}, 0, 0, {1, 1, 1}},

    {"seventeen", 1, 3, {SEVENTEEN, SEVENTEEN, SEVENTEEN, SEVENTEEN}, OUT_OF_BOUNDS, 0, {0}},
    {"no price", 1, 1, {{0, {0}}, {1, {1}}, {1, {1}}, {1, {0}}}, OUT_OF_BOUNDS, 0, {0}},
    {"no quantity", 1, 1, {{1, {1}}, {0, {0}}, {1, {1}}, {1, {0}}}, OUT_OF_BOUNDS, 0, {0}},
    {"no minimum", 1, 1, {{1, {1}}, {1, {1}}, {0, {0}}, {1, {0}}}, OUT_OF_BOUNDS, 0, {0}},
    {"no age", 1, 1, {{1, {1}}, {1, {1}}, {1, {1}}, {0, {0}}}, OUT_OF_BOUNDS, 0, {0}},
    {"prices alone", 1, 1, {{1, {1}}, {0, {0}}, {0, {0}}, {0, {0}}}, OUT_OF_BOUNDS, 0, {0}},
    {"two and two", 1, 1, {{2, {1, 1}}, {2, {1, 1}}, {1, {1}}, {1, {0}}}, OUT_OF_BOUNDS, 0, {0}},
    {"ceiling 0", 0, 1, {NONE}, OUT_OF_BOUNDS, 0, {0}},
    {"ceiling too high", 1000001, 1, {ONE(1, 1, 1, 0)}, OUT_OF_BOUNDS, 0, {0}},
    {"demand too high", 1, DEMAND_BOUND + 1, {ONE(1, 1, 1, 0)}, OUT_OF_BOUNDS, 0, {0}},
    {"price 0", 1, 1, {ONE(0, 1, 1, 0)}, OUT_OF_BOUNDS, 0, {0}},
    {"price too high", 1000000, 1, {ONE(1000001, 1, 1, 0)}, OUT_OF_BOUNDS, 0, {0}},
    {"quantity 0", 1, 1, {ONE(1, 0, 0, 0)}, OUT_OF_BOUNDS, 0, {0}},
    {"quantity too high", 1, 1, {ONE(1, GREATEST + 1, 1, 0)}, OUT_OF_BOUNDS, 0, {0}},
    {"minimum 0", 1, 1, {ONE(1, 1, 0, 0)}, OUT_OF_BOUNDS, 0, {0}},
    {"minimum above quantity", 1, 1, {ONE(1, 1, 2, 0)}, OUT_OF_BOUNDS, 0, {0}},
    {"age 21", 1, 1, {ONE(1, 1, 1, 21)}, OUT_OF_BOUNDS, 0, {0}},
    {"greatest of all", UINT64_MAX, UINT64_MAX,
     {ONE(UINT64_MAX, UINT64_MAX, UINT64_MAX, UINT64_MAX)}, OUT_OF_BOUNDS, 0, {0}},
    {"bounds before the ceiling", 1, 1, {ONE(2, 1, 1, 21)}, OUT_OF_BOUNDS, 0, {0}},

    {"above the ceiling", 499, 240, {THREE}, ABOVE_CEILING, 0, {0}},
    {"all above the ceiling", 299, 240, {THREE}, ABOVE_CEILING, 0, {0}},
};

/* The buffer's refusal is tested last. */
static unsigned refusal(const struct check *check, size_t length)
{
    if (check->refusal != 0)
        return check->refusal;
    return length < check->lists[0].length ? 11 : 0;
}

/* Whether the buffer has the awards, if there are any, and is untouched behind them. */
static int awarded(const struct check *check, const uint64_t *buffer, size_t length)
{
    size_t written = refusal(check, length) == 0 ? check->lists[0].length : 0;
    return memcmp(buffer, check->awards, written * sizeof *buffer) == 0 &&
           holds((const uint8_t *)(buffer + written), (length - written) * sizeof *buffer, "", 0);
}

static uint64_t *lend_list(const struct memory *memory, const struct list *list)
{
    void *lent = memory->lend(list->length * sizeof *list->numbers);
    return memcpy(lent, list->numbers, list->length * sizeof *list->numbers);
}

/* Holds the auction with a buffer of so many numbers for the awards. */
static void award_into(const struct memory *memory, const struct check *check, size_t length)
{
    const struct list *lists = check->lists;
    uint64_t *lent[LISTS];
    for (size_t i = 0; i < LISTS; i++)
        lent[i] = lend_list(memory, &lists[i]);
    void *buffer = memory->lend(length * sizeof(uint64_t));
    uint64_t *awards = memset(buffer, UNTOUCHED, length * sizeof(uint64_t));

    uint64_t result = sealed_auction(check->ceiling, check->demand, lent[0], lists[0].length, lent[1],
                                     lists[1].length, lent[2], lists[2].length, lent[3],
                                     lists[3].length, awards, length);
    unsigned refused = refusal(check, length);
    int passes = result == (refused == 0 ? check->left : REFERENCE_ENGINE_REFUSAL(refused)) &&
                 awarded(check, awards, length);
    for (size_t i = 0; i < LISTS; i++) {
        passes &= memcmp(lent[i], lists[i].numbers, lists[i].length * sizeof(uint64_t)) == 0;
        memory->give_back(lent[i]);
    }
    memory->give_back(awards);
    expect(passes, memory->name, check->name, length);
}

/* A length of 0 goes with NULL. */
static void award_null(void)
{
    uint64_t one = 1, award = UNTOUCHED;
    expect(sealed_auction(1, 7, NULL, 0, NULL, 0, NULL, 0, NULL, 0, NULL, 0) == 7, "NULL",
           "no offer", 0);
    expect(sealed_auction(1, 7, NULL, 0, NULL, 0, NULL, 0, NULL, 0, &award, 1) == 7 &&
               award == UNTOUCHED,
           "NULL", "no offer", 1);
    expect(sealed_auction(1, 7, &one, 1, NULL, 0, &one, 1, &one, 1, &award, 1) ==
                   REFERENCE_ENGINE_REFUSAL(18) &&
               award == UNTOUCHED,
           "NULL", "no quantity", 1);
    expect(sealed_auction(1, 7, &one, 1, &one, 1, &one, 1, &one, 1, NULL, 0) ==
               REFERENCE_ENGINE_REFUSAL(11),
           "NULL", "one offer", 0);
}

int main(void)
{
    for (size_t m = 0; m < sizeof memories / sizeof memories[0]; m++)
        for (size_t i = 0; i < sizeof checks / sizeof checks[0]; i++)
            for (size_t length = 0; length <= MOST + 1; length++)
                award_into(&memories[m], &checks[i], length);
    award_null();
    return ended();
}
