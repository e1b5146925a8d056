/*
 * A C host of demand and replay. Records and buffers have exact lengths (memory.h).
 * Prints what fails; the exit status is 0 only if nothing does.
 */
#define HOST "replay_host"
#include "memory.h"
#include "checks.h"
#include <string.h>

#include "reference_engine.h"

_Static_assert(REFERENCE_ENGINE_REFUSAL(11) == UINT64_MAX - 10, "refusal 11 is 2^64 - 11");

#define SAMPLE                                            \
    "0100004E2000000003E8000000038400000004B000009C40\n" \
    "0201010100000000000000000100000334\n"               \
    "02020202000001900000000A0200000064000000C8\n"       \
    "02020302000001F40000001401000000C8\n"               \
    "0203040200000000000000000100000096\n"               \
    "03000061A8\n"                                       \
    "0402010000659000000064\n"                           \
    "0403010000659000000000\n"                           \
    "0404010000659000000000\n"                           \
    "05\n"                                               \
    "0600000064"

#define SAMPLE_REPLIES                                                              \
    "0100\n0200\n0200\n0200\n0200\n0300\n0400\n0400\n0400\n"                     \
    "0500FFFFFFFFFFFFFFC900000000\n"                                               \
    "06000000659000000003CA00000003FC0000000400000003020101000003340203000000C8"   \
    "0000000000006590000000006590\n"

/* An existing plant of 300 and 700 beside one of 950; the first lodges a fall to 300. */
#define LODGED                                            \
    "0100004E2000000003E8000000038400000004B000009C40\n" \
    "020101010000000000000000020000012C000002BC\n"       \
    "02020201000000000000000001000003B6\n"               \
    "070101000075300000012C\n"                           \
    "0300002710\n"                                       \
    "05\n"                                               \
    "0600000001\n"

#define LODGED_REPLIES                     \
    "0100\n0200\n0200\n0700\n0300\n"       \
    "0500000000000000003200000000\n"       \
    "06000000271000000004B000000004E2"     \
    "000000010000000102"                   \
    "01010000012C0202000003B6"             \
    "0000000000007530000000002710\n"

/* 820 of 1,000 and a new plant of 200, both of agent 1, so that 22,000 are paid at 26,000; agents 0
 * and 33 are refused. */
#define FOR_AN_AGENT                                      \
    "0100004E2000000003E8000000038400000004B000009C40\n" \
    "0201010100000000000000000100000334\n"               \
    "0802020200000000000000000001000000C8\n"             \
    "0802020221000000000000000001000000C8\n"             \
    "0802020201000000000000000001000000C8\n"             \
    "03000061A8\n"                                       \
    "0402010000659000000000\n"                           \
    "05\n"                                               \
    "0600000002\n"

#define FOR_AN_AGENT_REPLIES                \
    "0100\n0200\n0803\n0803\n0800\n0300\n" \
    "0400\n0500FFFFFFFFFFFFFF6500000000\n" \
    "06000000659000000003CA00000003FC"      \
    "000000020000000102"                    \
    "0101000003340202000000C8"              \
    "00000000000065900001000055F0\n"

struct check {
    const char *name, *record, *replies;
};

static const struct check checks[] = {
    {"sample", SAMPLE "\n", SAMPLE_REPLIES},
    {"sample without its last 0A", SAMPLE, SAMPLE_REPLIES},
    {"blank line behind the sample", SAMPLE "\n\n", SAMPLE_REPLIES "FF0C\n"},
    {"empty record", "", ""},
    {"lone 0A", "\n", "FF0C\n"},
    {"cut frame", "0", "FF0C\n"},
    {"closing before set-up", "05", "0502\n"},
    {"lodged list", LODGED, LODGED_REPLIES},
    {"lodging before set-up", "070100", "0702\n"},
    {"cancellation before set-up", "0902", "0902\n"},
    {"agent", FOR_AN_AGENT, FOR_AN_AGENT_REPLIES},
    {"registration for an agent before set-up", "0805050205000000000000000001000000C8", "0802\n"},
    {"cut frame 08", "0802", "FF0C\n"},
    {"kind 0A", "0A02", "FF0C\n"},
};

/* Replays the record into a buffer of so many bytes. */
static void replay_into(const struct memory *memory, const struct check *check, size_t length)
{
    size_t record_length = strlen(check->record), replies_length = strlen(check->replies);
    uint8_t *record = memory->lend(record_length), *buffer = memory->lend(length);
    memcpy(record, check->record, record_length);
    memset(buffer, UNTOUCHED, length);

    uint64_t result = replay(record, record_length, buffer, length);
    int fits = replies_length <= length;
    size_t written = fits ? replies_length : 0;
    expect(result == (fits ? replies_length : REFERENCE_ENGINE_REFUSAL(11)) &&
               holds(buffer, length, check->replies, written) &&
               memcmp(record, check->record, record_length) == 0,
           memory->name, check->name, length);
    memory->give_back(record);
    memory->give_back(buffer);
}

/* Buffers of no bytes, one too short, exact, and longer. */
static void replay_check(const struct memory *memory, const struct check *check)
{
    size_t exact = strlen(check->replies);
    replay_into(memory, check, 0);
    if (exact > 0)
        replay_into(memory, check, exact - 1);
    replay_into(memory, check, exact);
    replay_into(memory, check, exact + 1);
    replay_into(memory, check, exact + 5000);
}

/* A length of 0 goes with NULL. */
static void replay_null(void)
{
    uint8_t record[] = {'0', '5', '\n'}, buffer[] = {UNTOUCHED};
    expect(replay(NULL, 0, NULL, 0) == 0, "NULL", "empty record", 0);
    expect(replay(NULL, 0, buffer, 1) == 0 && buffer[0] == UNTOUCHED, "NULL", "empty record", 1);
    expect(replay(record, sizeof record, NULL, 0) == REFERENCE_ENGINE_REFUSAL(11), "NULL",
           "closing before set-up", 0);
}

int main(void)
{
    for (size_t m = 0; m < sizeof memories / sizeof memories[0]; m++)
        for (size_t i = 0; i < sizeof checks / sizeof checks[0]; i++)
            replay_check(&memories[m], &checks[i]);
    replay_null();
    expect(demand(20000, 1000, 900, 1200, 29999) == 951, "demand", "accepted", 0);
    expect(demand(3, 1000, 900, 1200, 3) == REFERENCE_ENGINE_REFUSAL(1), "demand", "refused", 0);
    expect(demand_remainder(20000, 1000, 900, 1200, 29999) == 19900, "remainder", "accepted", 0);
    return ended();
}
