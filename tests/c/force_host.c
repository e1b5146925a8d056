/*
 * A C host of who_can_force. Records, price lists and buffers have exact lengths (memory.h).
 * Prints what fails; the exit status is 0 only if nothing does.
 */
#define HOST "force_host"
#include "memory.h"
#include "checks.h"
#include <string.h>

#include "reference_engine.h"

_Static_assert(REFERENCE_ENGINE_REFUSAL(2) == UINT64_MAX - 1, "refusal 2 is 2^64 - 2");
_Static_assert(REFERENCE_ENGINE_REFUSAL(17) == UINT64_MAX - 16, "refusal 17 is 2^64 - 17");

#define BITS(n) (UINT64_C(1) << (n))

/*
 * In MWh per day: plant 1 exists, has 900 and lodged a fall to 500 at 15,000. The others are new: 2
 * and 4 of project 2 have 100 and 60, 3 has 150, and 5, which makes no offer, falls from 50 to 0. So
 * supply is 1,150: 1,110 once 2 has withdrawn, 1,000 once 3 has. Demand is 1,002 at 19,900, 1,020 at
 * 19,000, 1,040 at 18,000, 1,060 at 17,000, 1,080 at 16,000, 1,120 at 14,000, 1,160 at 12,000 and
 * 1,200 at 10,000.
 */
#define SET_UP "0100004E2000000F424000000DBBA00000124F8000009C40\n"
#define READY                                             \
    SET_UP                                                \
    "020101010000000000000000020007A120000DBBA0\n"       \
    "07010100003A980007A120\n"                           \
    "02020202000000000000000001000186A0\n"               \
    "02030302000000000000000001000249F0\n"               \
    "020204020000000000000000010000EA60\n"               \
    "020405020000000000000000010000C350\n"
#define ROUND READY "0300004E20\n040200\n040300\n040400\n"
#define BETWEEN ROUND "05\n"                                       /* down to 20,000 */
#define LATER BETWEEN "0300004650\n040200\n040300\n040400\n05\n"   /* down to 18,000 */
#define CLOSED BETWEEN "0300002710\n040200\n040300\n040400\n05\n"  /* down to the floor */

enum { MOST = 11, PHASE = 2, NOT_AS_DESCRIBED = 17 };

struct list {
    size_t length;
    uint64_t numbers[MOST];
};

#define THREE {3, {18000, 16000, 14000}}
#define TEN 19900, 19800, 19700, 19600, 19500, 19400, 19300, 19200, 19100, 19000

/* A game: the refusal, or 0 with the outcome and the first move. */
struct check {
    const char *name, *record;
    uint64_t first, second;
    struct list prices;
    unsigned refusal;
    uint64_t outcome;
    uint8_t move;
};

static const struct check checks[] = {
    /* 1,110 cover 16,000 and not 14,000, which 1,150 cover: 2 has to withdraw before 14,000. */
    {"2 against 3", BETWEEN, 2, 3, THREE, 0, 16000, 1},
    {"3 against 2", BETWEEN, 3, 2, THREE, 0, 18000, 1},
    {"3 against 4", BETWEEN, 3, 4, THREE, 0, 18000, 1},
    {"one below another of its project", BETWEEN, 4, 3, THREE, 0, 14000, 0},
    {"first at 0", BETWEEN, 5, 2, THREE, 0, 14000, 0},
    {"second at 0", BETWEEN, 2, 5, THREE, 0, 16000, 1},
    /* 2 gets 17,000 by withdrawing at 17,000 as well as at 19,000. */
    {"withdrawing later will do", BETWEEN, 2, 3, {4, {19000, 18000, 17000, 14000}}, 0, 17000, 0},
    /* A withdrawal counts below its price. */
    {"one price", BETWEEN, 3, 2, {1, {18000}}, 0, 18000, 0},
    {"lower price not covered", BETWEEN, 2, 3, {2, {19000, 12000}}, 0, 19000, 0},
    {"no price covered", BETWEEN, 2, 3, {1, {12000}}, 0, 20000, 0},
    {"floor", BETWEEN, 2, 3, {1, {10000}}, 0, 20000, 0},
    {"below the standing price", BETWEEN, 2, 3, {1, {19999}}, 0, 19999, 0},
    {"ten prices", BETWEEN, 3, 2, {10, {TEN}}, 0, 19900, 1},
    {"without its last 0A", ROUND "05", 2, 3, THREE, 0, 16000, 1},
    {"malformed and settling", SET_UP "\n0G\n" BETWEEN "0600000001\n\n", 2, 3, THREE, 0, 16000, 1},
    {"second round", LATER, 2, 3, {3, {17000, 16000, 14000}}, 0, 16000, 1},
    {"second round, no price covered", LATER, 2, 3, {1, {12000}}, 0, 18000, 0},

    {"empty record", "", 2, 3, THREE, PHASE, 0, 0},
    {"set up", SET_UP, 2, 3, THREE, PHASE, 0, 0},
    {"before the first round", READY, 2, 3, THREE, PHASE, 0, 0},
    {"open round", ROUND, 2, 3, THREE, PHASE, 0, 0},
    {"closed", CLOSED, 2, 3, THREE, PHASE, 0, 0},
    {"phase before the pair", CLOSED, 2, 2, {0, {0}}, PHASE, 0, 0},

    {"the same twice", BETWEEN, 2, 2, THREE, NOT_AS_DESCRIBED, 0, 0},
    {"one project", BETWEEN, 2, 4, THREE, NOT_AS_DESCRIBED, 0, 0},
    {"existing plant first", BETWEEN, 1, 2, THREE, NOT_AS_DESCRIBED, 0, 0},
    {"existing plant second", BETWEEN, 2, 1, THREE, NOT_AS_DESCRIBED, 0, 0},
    {"unknown first", BETWEEN, 6, 2, THREE, NOT_AS_DESCRIBED, 0, 0},
    {"unknown second", BETWEEN, 2, 6, THREE, NOT_AS_DESCRIBED, 0, 0},
    {"developer 0", BETWEEN, 0, 2, THREE, NOT_AS_DESCRIBED, 0, 0},
    {"developer 33", BETWEEN, 2, 33, THREE, NOT_AS_DESCRIBED, 0, 0},
    {"first beyond a byte", BETWEEN, BITS(8) + 2, 3, THREE, NOT_AS_DESCRIBED, 0, 0},
    {"second beyond 32 bits", BETWEEN, 2, BITS(32) + 3, THREE, NOT_AS_DESCRIBED, 0, 0},
    {"greatest numbers", BETWEEN, UINT64_MAX, UINT64_MAX - 1, THREE, NOT_AS_DESCRIBED, 0, 0},
    {"no price", BETWEEN, 2, 3, {0, {0}}, NOT_AS_DESCRIBED, 0, 0},
    {"eleven prices", BETWEEN, 2, 3, {11, {TEN, 18900}}, NOT_AS_DESCRIBED, 0, 0},
    {"equal prices", BETWEEN, 2, 3, {2, {18000, 18000}}, NOT_AS_DESCRIBED, 0, 0},
    {"rising prices", BETWEEN, 2, 3, {2, {16000, 18000}}, NOT_AS_DESCRIBED, 0, 0},
    {"standing price", BETWEEN, 2, 3, {1, {20000}}, NOT_AS_DESCRIBED, 0, 0},
    {"standing price of the second round", LATER, 2, 3, THREE, NOT_AS_DESCRIBED, 0, 0},
    {"below the floor", BETWEEN, 2, 3, {2, {18000, 9999}}, NOT_AS_DESCRIBED, 0, 0},
    {"price 0", BETWEEN, 2, 3, {1, {0}}, NOT_AS_DESCRIBED, 0, 0},
    {"price beyond 32 bits", BETWEEN, 2, 3, {1, {BITS(32) + 18000}}, NOT_AS_DESCRIBED, 0, 0},
};

/* The buffer's refusal is tested last. */
static uint64_t expected(const struct check *check, size_t length)
{
    if (check->refusal != 0)
        return REFERENCE_ENGINE_REFUSAL(check->refusal);
    return length > 0 ? check->outcome : REFERENCE_ENGINE_REFUSAL(11);
}

/* Plays the game with a buffer of so many bytes for the move. */
static void force_into(const struct memory *memory, const struct check *check, size_t length)
{
    size_t record_length = strlen(check->record), count = check->prices.length;
    uint8_t *record = memory->lend(record_length), *move = memory->lend(length);
    uint8_t *lent = memory->lend(count * sizeof(uint64_t));
    uint64_t *prices = (uint64_t *)lent;
    memcpy(record, check->record, record_length);
    memcpy(prices, check->prices.numbers, count * sizeof(uint64_t));
    memset(move, UNTOUCHED, length);

    uint64_t result = who_can_force(record, record_length, check->first, check->second, prices,
                                    count, move, length);
    int tells = check->refusal == 0 && length > 0;
    const char byte = (char)check->move;
    expect(result == expected(check, length) && holds(move, length, &byte, tells) &&
               memcmp(record, check->record, record_length) == 0 &&
               memcmp(prices, check->prices.numbers, count * sizeof(uint64_t)) == 0,
           memory->name, check->name, length);
    memory->give_back(record);
    memory->give_back(lent);
    memory->give_back(move);
}

/* A length of 0 goes with NULL. */
static void force_null(void)
{
    uint8_t record[] = BETWEEN, move[] = {UNTOUCHED};
    size_t length = sizeof record - 1;
    uint64_t price = 18000;
    expect(who_can_force(NULL, 0, 2, 3, NULL, 0, NULL, 0) == REFERENCE_ENGINE_REFUSAL(2), "NULL",
           "empty record", 0);
    expect(who_can_force(record, length, 2, 3, NULL, 0, move, 1) == REFERENCE_ENGINE_REFUSAL(17) &&
               move[0] == UNTOUCHED,
           "NULL", "no price", 1);
    expect(who_can_force(record, length, 2, 3, &price, 1, NULL, 0) == REFERENCE_ENGINE_REFUSAL(11),
           "NULL", "one price", 0);
}

int main(void)
{
    for (size_t m = 0; m < sizeof memories / sizeof memories[0]; m++)
        for (size_t i = 0; i < sizeof checks / sizeof checks[0]; i++)
            for (size_t length = 0; length <= 3; length++)
                force_into(&memories[m], &checks[i], length);
    force_null();
    return ended();
}
