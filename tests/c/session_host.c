/*
 * A C host of the calls over a record and over a session. Texts and buffers have exact lengths
 * (memory.h). Prints what fails; the exit status is 0 only if nothing does.
 */
#define HOST "session_host"
#include "memory.h"
#include "checks.h"
#include <string.h>

#include "reference_engine.h"

_Static_assert(REFERENCE_ENGINE_REFUSAL(20) == UINT64_MAX - 19, "refusal 20 is 2^64 - 20");

#define BITS(n) (UINT64_C(1) << (n))
#define MINUS(n) (UINT64_C(0) - (n))

/* The sample record, set up, in its round, and closed. */
#define SET_UP "0100004E2000000003E8000000038400000004B000009C40\n"
#define READY                                        \
    SET_UP                                           \
    "0201010100000000000000000100000334\n"           \
    "02020202000001900000000A0200000064000000C8\n"   \
    "02020302000001F40000001401000000C8\n"           \
    "0203040200000000000000000100000096\n"
#define OPEN READY "03000061A8\n"
#define OFFERED                  \
    OPEN                         \
    "0402010000659000000064\n"   \
    "0403010000659000000000\n"   \
    "0404010000659000000000\n"
#define CLOSED OFFERED "05\n"
#define SETTLEMENT_FIGURES {26000, 970, 0, 1020, 4, 3, 2, 26000, 0, 0, 26000, 2}
#define AWARDS "\x01\x01\x00\x00\x03\x34\x02\x03\x00\x00\x00\xC8"

/* The session of docs/FORMAT.md up to its ninth line, and all of it. */
#define SEATED                                                   \
    "0000" SET_UP                                                \
    "00000201010100000000000000000100000334\n"                   \
    "020202020202000001900000000A0200000064000000C8\n"           \
    "000002020202000001900000000A0200000064000000C8\n"           \
    "000003000061A8\n"                                           \
    "00000402010000659000000064\n"                               \
    "02020402010000659000000064\n"                               \
    "02030902\n"                                                 \
    "02020600000064\n"
#define SETTLED SEATED "000105\n010005\n000005\n01000600000064\n"
#define SETTLED_REPLIES                                          \
    "0100\n0200\n0214\n0200\n0300\n0414\n0400\n0914\n0614\nFF0C\n0514\n" \
    "0500FFFFFFFFFFFFFFC900000000\n"                             \
    "06000000659000000003CA00000003FC0000000200000001"           \
    "020101000003340202000000C80000000000006590000000006590\n"
#define SETTLED_RECORD                                           \
    SET_UP                                                       \
    "0201010100000000000000000100000334\n"                       \
    "02020202000001900000000A0200000064000000C8\n"               \
    "03000061A8\n"                                               \
    "0402010000659000000064\n"                                   \
    "05\n0600000064\n"

/* The auction of force_host.c between rounds, through seats. */
#define BETWEEN                                                  \
    "00000100004E2000000F424000000DBBA00000124F8000009C40\n"     \
    "0000020101010000000000000000020007A120000DBBA0\n"           \
    "000007010100003A980007A120\n"                               \
    "000002020202000000000000000001000186A0\n"                   \
    "000002030302000000000000000001000249F0\n"                   \
    "0000020204020000000000000000010000EA60\n"                   \
    "0000020405020000000000000000010000C350\n"                   \
    "00000300004E20\n0202040200\n0203040300\n0204040400\n000005\n"

static const uint64_t prices[] = {18000, 16000, 14000};

enum call {
    STATE, PREVIEW, CURVE, SETTLEMENT, /* over a record */
    READING, HALL_PREVIEW, HALL_CURVE, HALL_SETTLEMENT, FORCING, REPLIES, PLAIN_RECORD,
};

/* A call: its refusal before the buffers are looked at, or 0 with its answer, figures and bytes. */
struct check {
    const char *name, *text;
    enum call call;
    uint64_t seat, number, limit;
    unsigned refusal;
    uint64_t answer;
    size_t count;
    uint64_t figures[16];
    const char *bytes;
    size_t bytes_length;
};

#define NO_RIGHT(name, call, seat, number) {name, SETTLED, call, seat, number, 9, 20, 0, 0, {0}, "", 0}
#define REFUSED(name, text, call, limit, refusal) {name, text, call, 0, 0, limit, refusal, 0, 0, {0}, "", 0}

static const struct check checks[] = {
    {"fresh state", "", STATE, 0, 0, 0, 0, 0, 5, {0, 0, 0, 0, 0}, "", 0},
    {"malformed", "0g\n\n05", STATE, 0, 0, 0, 0, 0, 5, {0, 0, 0, 0, 0}, "", 0},
    {"ready", READY, STATE, 0, 0, 0, 0, 0, 5, {1, 0, 0, 0, 0}, "", 0},
    {"round", OPEN, STATE, 0, 0, 0, 0, 0, 5, {2, 40000, 25000, 0, 0}, "", 0},
    {"closed", CLOSED "05\n", STATE, 0, 0, 0, 0, 0, 5, {4, 40000, 25000, MINUS(55), 1}, "", 0},
    REFUSED("preview before a round", READY, PREVIEW, 0, 2),
    {"preview without offers", OPEN, PREVIEW, 0, 0, 0, 0, 0, 3, {MINUS(155), 0, 1}, "", 0},
    {"preview", OFFERED, PREVIEW, 0, 0, 0, 0, 0, 3, {MINUS(55), 0, 1}, "", 0},
    REFUSED("preview behind the closing", CLOSED, PREVIEW, 0, 2),
    {"no point", OFFERED, CURVE, 0, 0, 0, 0, 0, 0, {0}, "", 0},
    {"one point", CLOSED, CURVE, 0, 0, 0, 0, 1, 3, {26000, 1170, 920}, "", 0},
    REFUSED("settlement before the closing", OFFERED, SETTLEMENT, 100, 2),
    REFUSED("above the limit", CLOSED, SETTLEMENT, 3, 10),
    REFUSED("limit 0", CLOSED, SETTLEMENT, 0, 10),
    {"settlement", CLOSED, SETTLEMENT, 0, 0, 4, 0, 0, 12, SETTLEMENT_FIGURES, AWARDS, 12},
    {"beyond 32 bits", CLOSED, SETTLEMENT, 0, 0, BITS(32), 0, 0, 12, SETTLEMENT_FIGURES, AWARDS, 12},
    {"greatest limit", CLOSED, SETTLEMENT, 0, 0, UINT64_MAX, 0, 0, 12, SETTLEMENT_FIGURES, AWARDS, 12},

    {"auctioneer reads", SEATED, READING, 0, 0, 0, 0, 4, 4, {40000, 25000, 0, 2}, "", 0},
    {"auditor reads", SETTLED, READING, 1, 0, 0, 0, 4, 4, {40000, 25000, MINUS(55), 4}, "", 0},
    {"fresh developer", "", READING, 2, 2, 0, 0, 7, 7, {0, 0, 0, 0, 0, 0, 0}, "", 0},
    {"offer", SEATED, READING, 2, 2, 0, 0, 11, 11,
     {40000, 25000, 0, 2, 2, 100, 200, 1, 1, 26000, 100}, "", 0},
    {"no offer", SEATED, READING, 2, 1, 0, 0, 8, 8, {40000, 25000, 0, 2, 1, 820, 0, 0}, "", 0},
    {"unregistered", SEATED, READING, 2, 3, 0, 0, 7, 7, {40000, 25000, 0, 2, 0, 0, 0}, "", 0},
    {"nobody", SEATED, READING, 2, 0, 0, 0, 7, 7, {40000, 25000, 0, 2, 0, 0, 0}, "", 0},
    {"beyond a byte", SEATED, READING, 2, BITS(8) + 2, 0, 0, 7, 7, {40000, 25000, 0, 2, 0, 0, 0}, "", 0},
    {"beyond 32 bits", SEATED, READING, 2, BITS(32) + 2, 0, 0, 7, 7, {40000, 25000, 0, 2, 0, 0, 0}, "", 0},
    NO_RIGHT("auctioneer with a number reads", READING, 0, 2),
    NO_RIGHT("auditor with a number reads", READING, 1, 1),
    NO_RIGHT("seat 3 reads", READING, 3, 0),
    NO_RIGHT("seat beyond a byte reads", READING, BITS(8) + 2, 2),

    {"auctioneer previews", SEATED, HALL_PREVIEW, 0, 0, 0, 0, 0, 3, {MINUS(55), 0, 1}, "", 0},
    REFUSED("auctioneer previews behind the closing", SETTLED, HALL_PREVIEW, 0, 2),
    NO_RIGHT("auditor previews", HALL_PREVIEW, 1, 0),
    NO_RIGHT("developer previews", HALL_PREVIEW, 2, 2),
    NO_RIGHT("auctioneer with a number previews", HALL_PREVIEW, 0, 1),
    {"auctioneer's curve", SETTLED, HALL_CURVE, 0, 0, 0, 0, 1, 3, {26000, 1020, 920}, "", 0},
    NO_RIGHT("auditor's curve", HALL_CURVE, 1, 0),
    NO_RIGHT("developer's curve", HALL_CURVE, 2, 2),
    {"auctioneer settles", SETTLED, HALL_SETTLEMENT, 0, 0, 2, 0, 0, 12,
     {26000, 970, 0, 1020, 2, 1, 1, 26000, 0, 0, 26000, 2}, "\1\1\0\0\3\x34\2\2\0\0\0\xC8", 12},
    {"auditor settles", SETTLED, HALL_SETTLEMENT, 1, 0, UINT64_MAX, 0, 0, 12,
     {26000, 970, 0, 1020, 2, 1, 1, 26000, 0, 0, 26000, 2}, "\1\1\0\0\3\x34\2\2\0\0\0\xC8", 12},
    REFUSED("above the limit through a seat", SETTLED, HALL_SETTLEMENT, 1, 10),
    REFUSED("settlement through a seat before the closing", SEATED, HALL_SETTLEMENT, 100, 2),
    NO_RIGHT("developer settles", HALL_SETTLEMENT, 2, 2),
    NO_RIGHT("auditor with a number settles", HALL_SETTLEMENT, 1, 1),
    {"auctioneer's game", BETWEEN, FORCING, 0, 0, 0, 0, 16000, 0, {0}, "\1", 1},
    REFUSED("game in an open round", SEATED, FORCING, 0, 2),
    NO_RIGHT("auditor's game", FORCING, 1, 0),
    NO_RIGHT("developer's game", FORCING, 2, 3),

    {"replies", SETTLED, REPLIES, 0, 0, 0, 0, sizeof SETTLED_REPLIES - 1, 0, {0}, SETTLED_REPLIES,
     sizeof SETTLED_REPLIES - 1},
    {"empty session", "", REPLIES, 0, 0, 0, 0, 0, 0, {0}, "", 0},
    {"lone 0A", "\n", REPLIES, 0, 0, 0, 0, 5, 0, {0}, "FF0C\n", 5},
    {"a record's line", "05\n", REPLIES, 0, 0, 0, 0, 5, 0, {0}, "FF0C\n", 5},
    {"small letters", "02aa090A", REPLIES, 0, 0, 0, 0, 5, 0, {0}, "FF0C\n", 5},
    {"developer FF", "02FF09FF", REPLIES, 0, 0, 0, 0, 5, 0, {0}, "0902\n", 5},
    {"plain record", SETTLED, PLAIN_RECORD, 0, 0, 0, 0, sizeof SETTLED_RECORD - 1, 0, {0},
     SETTLED_RECORD, sizeof SETTLED_RECORD - 1},
    {"without its last 0A", "010005\n0200090\n000005", PLAIN_RECORD, 0, 0, 0, 0, 3, 0, {0}, "05\n", 3},
    {"plain record of nothing", "010005\n", PLAIN_RECORD, 0, 0, 0, 0, 0, 0, {0}, "", 0},
};

static uint64_t result_of(const struct check *check, const uint8_t *text, size_t length,
                          uint64_t *figures, size_t count, uint8_t *bytes, size_t bytes_length)
{
    uint64_t seat = check->seat, number = check->number;
    switch (check->call) {
    case STATE:
        return record_state(text, length, figures, count);
    case PREVIEW:
        return record_preview(text, length, figures, count);
    case CURVE:
        return record_curve(text, length, figures, count);
    case SETTLEMENT:
        return record_settlement(text, length, check->limit, figures, count, bytes, bytes_length);
    case READING:
        return session_reading(text, length, seat, number, figures, count);
    case HALL_PREVIEW:
        return session_preview(text, length, seat, number, figures, count);
    case HALL_CURVE:
        return session_curve(text, length, seat, number, figures, count);
    case HALL_SETTLEMENT:
        return session_settlement(text, length, seat, number, check->limit, figures, count, bytes,
                                  bytes_length);
    case FORCING:
        return session_forcing(text, length, seat, number, 2, 3, prices, 3, bytes, bytes_length);
    case REPLIES:
        return session_replay(text, length, bytes, bytes_length);
    case PLAIN_RECORD:
        return session_record(text, length, bytes, bytes_length);
    }
    return 0;
}

/* The call with buffers of so many numbers and bytes. */
static void call_with(const struct memory *memory, const struct check *check, size_t count,
                      size_t bytes_length)
{
    size_t length = strlen(check->text);
    uint8_t *text = memory->lend(length), *bytes = memory->lend(bytes_length);
    uint8_t *lent = memory->lend(count * sizeof(uint64_t));
    memcpy(text, check->text, length);
    memset(bytes, UNTOUCHED, bytes_length);
    memset(lent, UNTOUCHED, count * sizeof(uint64_t));

    uint64_t result = result_of(check, text, length, (uint64_t *)lent, count, bytes, bytes_length);
    int fits = check->count <= count && check->bytes_length <= bytes_length;
    int tells = check->refusal == 0 && fits;
    uint64_t expected = tells ? check->answer
                              : REFERENCE_ENGINE_REFUSAL(check->refusal != 0 ? check->refusal : 11);
    size_t written = tells ? check->count * sizeof(uint64_t) : 0;
    expect(result == expected && memcmp(text, check->text, length) == 0 &&
               holds(lent, count * sizeof(uint64_t), (const char *)check->figures, written) &&
               holds(bytes, bytes_length, check->bytes, tells ? check->bytes_length : 0),
           memory->name, check->name, count + bytes_length);
    memory->give_back(text);
    memory->give_back(bytes);
    memory->give_back(lent);
}

/* Buffers of nothing, one too short, exact, and longer, each with each. */
static void call_check(const struct memory *memory, const struct check *check)
{
    size_t counts[] = {0, check->count - (check->count > 0), check->count, check->count + 1, 40};
    size_t lengths[] = {0, check->bytes_length - (check->bytes_length > 0), check->bytes_length,
                        check->bytes_length + 1, 900};
    for (size_t i = 0; i < 5; i++)
        for (size_t j = 0; j < 5; j++)
            call_with(memory, check, counts[i], lengths[j]);
}

/* The digits, or the refusal, of a seat. */
static const struct {
    uint64_t kind, number;
    const char *digits;
} seats[] = {
    {0, 0, "0000"}, {1, 0, "0100"}, {2, 0, "0200"}, {2, 32, "0220"}, {2, 255, "02FF"},
    {0, 1, NULL}, {1, 255, NULL}, {2, 256, NULL}, {2, BITS(32) + 1, NULL}, {3, 0, NULL},
    {256, 0, NULL}, {BITS(32) + 2, 1, NULL}, {UINT64_MAX, UINT64_MAX, NULL},
};

static void write_seats(const struct memory *memory)
{
    for (size_t i = 0; i < sizeof seats / sizeof seats[0]; i++)
        for (size_t length = 0; length <= 6; length++) {
            uint8_t *bytes = memory->lend(length);
            memset(bytes, UNTOUCHED, length);
            uint64_t result = write_seat(seats[i].kind, seats[i].number, bytes, length);
            int writable = seats[i].digits != NULL, tells = writable && length >= 4;
            uint64_t expected = tells ? 4 : REFERENCE_ENGINE_REFUSAL(writable ? 13 : 14);
            expect(result == expected && holds(bytes, length, seats[i].digits, tells ? 4 : 0),
                   memory->name, "write_seat", length);
            memory->give_back(bytes);
        }
}

/* A length of 0 goes with NULL. */
static void call_null(void)
{
    uint64_t short_buffer = REFERENCE_ENGINE_REFUSAL(11), phase = REFERENCE_ENGINE_REFUSAL(2);
    uint64_t figures[12], none = 0;
    const uint8_t line[] = "000005";
    expect(record_state(NULL, 0, NULL, 0) == short_buffer, "NULL", "record_state", 0);
    expect(record_state(NULL, 0, figures, 12) == none, "NULL", "record_state", 12);
    expect(record_preview(NULL, 0, NULL, 0) == phase, "NULL", "record_preview", 0);
    expect(record_curve(NULL, 0, NULL, 0) == none, "NULL", "record_curve", 0);
    expect(record_settlement(NULL, 0, 1, NULL, 0, NULL, 0) == phase, "NULL", "record_settlement", 0);
    expect(write_seat(0, 0, NULL, 0) == REFERENCE_ENGINE_REFUSAL(13), "NULL", "write_seat", 0);
    expect(session_replay(NULL, 0, NULL, 0) == none, "NULL", "session_replay", 0);
    expect(session_replay(line, 6, NULL, 0) == short_buffer, "NULL", "session_replay of a line", 0);
    expect(session_reading(NULL, 0, 0, 0, NULL, 0) == short_buffer, "NULL", "session_reading", 0);
    expect(session_reading(NULL, 0, 3, 0, NULL, 0) == REFERENCE_ENGINE_REFUSAL(20), "NULL",
           "session_reading of no seat", 0);
    expect(session_preview(NULL, 0, 0, 0, NULL, 0) == phase, "NULL", "session_preview", 0);
    expect(session_curve(NULL, 0, 0, 0, NULL, 0) == none, "NULL", "session_curve", 0);
    expect(session_settlement(NULL, 0, 1, 0, 1, NULL, 0, NULL, 0) == phase, "NULL",
           "session_settlement", 0);
    expect(session_forcing(NULL, 0, 0, 0, 2, 3, NULL, 0, NULL, 0) == phase, "NULL",
           "session_forcing", 0);
    expect(session_record(NULL, 0, NULL, 0) == none, "NULL", "session_record", 0);
    expect(session_record(line, 6, NULL, 0) == short_buffer, "NULL", "session_record of a line", 0);
}

int main(void)
{
    for (size_t m = 0; m < sizeof memories / sizeof memories[0]; m++) {
        for (size_t i = 0; i < sizeof checks / sizeof checks[0]; i++)
            call_check(&memories[m], &checks[i]);
        write_seats(&memories[m]);
    }
    call_null();
    return ended();
}
