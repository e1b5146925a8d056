/*
 * Deliberately wrong engines over the right one, to see that the comparisons report a fault: each is a
 * row of the table at the end. WRONG in the environment names it; without it the engine is right.
 */
#include "reference_engine.h"
#include <stdlib.h>
#include <string.h>

struct list {
    const uint64_t *at;
    size_t length;
};

/* A call: how the right engine makes it; its numbers as the header has them, but an agent last; its
 * lists and its record, or session; the lent buffer, of bytes or of awards, and that of figures; the
 * answer; and its fault's number. */
struct call {
    uint64_t (*made)(const struct call *);
    uint64_t numbers[6];
    struct list lists[4];
    const uint8_t *record;
    size_t record_length;
    uint8_t *bytes;
    uint64_t *awards;
    size_t length;
    uint64_t *figures;
    size_t figures_length;
    uint64_t answer;
    int by;
};

static uint64_t answered(struct call call);

/* CALL(NAME, PARAMETERS, ARGUMENTS, FIELDS): a call of the header. Its parameters are these fields of a
 * struct call, and the right one, right_NAME by tests/run, gets its arguments out of that. */
#define CALL(name, parameters, arguments, ...)                                                    \
    extern __typeof__(name) right_##name;                                                         \
    static uint64_t made_##name(const struct call *call) {                                        \
        (void)call;                                                                               \
        return right_##name arguments;                                                            \
    }                                                                                             \
    uint64_t name parameters { return answered((struct call){.made = made_##name, __VA_ARGS__}); }

/* Arguments, parameters and fields that many have. */
#define N(place) call->numbers[place]
#define L(place) call->lists[place].at, call->lists[place].length
#define RECORD call->record, call->record_length
#define LENT call->bytes, call->length
#define LIST(name) const uint64_t *name, size_t name##_length
#define FRAME uint8_t *frame, size_t frame_length
#define IN_FRAME .bytes = frame, .length = frame_length

CALL(engine_version, (void), (), )
CALL(demand, (uint64_t ce, uint64_t d, uint64_t m1, uint64_t m2, uint64_t p),
     (N(0), N(1), N(2), N(3), N(4)), .numbers = {ce, d, m1, m2, p})
CALL(demand_remainder, (uint64_t ce, uint64_t d, uint64_t m1, uint64_t m2, uint64_t p),
     (N(0), N(1), N(2), N(3), N(4)), .numbers = {ce, d, m1, m2, p})
CALL(replay, (const uint8_t *record, size_t record_length, uint8_t *replies, size_t replies_length),
     (RECORD, LENT), .record = record, .record_length = record_length, .bytes = replies,
     .length = replies_length)
CALL(write_set_up, (uint64_t ce, uint64_t d, uint64_t m1, uint64_t m2, uint64_t a, FRAME),
     (N(0), N(1), N(2), N(3), N(4), LENT), .numbers = {ce, d, m1, m2, a}, IN_FRAME)
CALL(write_registration,
     (uint64_t project, uint64_t developer, uint64_t kind, uint64_t study, uint64_t day, LIST(levels),
      FRAME),
     (N(0), N(1), N(2), N(3), N(4), L(0), LENT), .numbers = {project, developer, kind, study, day},
     .lists = {{levels, levels_length}}, IN_FRAME)
CALL(write_registration_for,
     (uint64_t project, uint64_t developer, uint64_t kind, uint64_t agent, uint64_t study,
      uint64_t day, LIST(levels), FRAME),
     (N(0), N(1), N(2), N(5), N(3), N(4), L(0), LENT),
     .numbers = {project, developer, kind, study, day, agent}, .lists = {{levels, levels_length}},
     IN_FRAME)
CALL(write_opening, (uint64_t c, FRAME), (N(0), LENT), .numbers = {c}, IN_FRAME)
CALL(write_offer, (uint64_t developer, LIST(prices), LIST(levels), FRAME), (N(0), L(0), L(1), LENT),
     .numbers = {developer}, .lists = {{prices, prices_length}, {levels, levels_length}}, IN_FRAME)
CALL(write_closing, (FRAME), (LENT), IN_FRAME)
CALL(write_settling, (uint64_t limit, FRAME), (N(0), LENT), .numbers = {limit}, IN_FRAME)
CALL(write_lodging, (uint64_t developer, LIST(prices), LIST(levels), FRAME), (N(0), L(0), L(1), LENT),
     .numbers = {developer}, .lists = {{prices, prices_length}, {levels, levels_length}}, IN_FRAME)
CALL(write_cancellation, (uint64_t developer, FRAME), (N(0), LENT), .numbers = {developer}, IN_FRAME)
CALL(who_can_force,
     (const uint8_t *record, size_t record_length, uint64_t first, uint64_t second, LIST(prices),
      uint8_t *move, size_t move_length),
     (RECORD, N(0), N(1), L(0), LENT), .record = record, .record_length = record_length,
     .numbers = {first, second}, .lists = {{prices, prices_length}}, .bytes = move,
     .length = move_length)
CALL(sealed_auction,
     (uint64_t ceiling, uint64_t demand, LIST(prices), LIST(quantities), LIST(minimums), LIST(ages),
      uint64_t *awards, size_t awards_length),
     (N(0), N(1), L(0), L(1), L(2), L(3), call->awards, call->length), .numbers = {ceiling, demand},
     .lists = {{prices, prices_length}, {quantities, quantities_length}, {minimums, minimums_length},
               {ages, ages_length}},
     .awards = awards, .length = awards_length)

/* Those of calls over a record and over a session, which lend figures. */
#define OVER_RECORD const uint8_t *record, size_t record_length
#define OVER_SESSION const uint8_t *session, size_t session_length
#define SEAT uint64_t seat, uint64_t number
#define NUMBERS(name) uint64_t *name, size_t name##_length
#define BYTES(name) uint8_t *name, size_t name##_length
#define FIGURES call->figures, call->figures_length
#define IN_RECORD .record = record, .record_length = record_length
#define IN_SESSION .record = session, .record_length = session_length
#define IN_FIGURES(name) .figures = name, .figures_length = name##_length
#define IN_BYTES(name) .bytes = name, .length = name##_length

CALL(record_state, (OVER_RECORD, NUMBERS(figures)), (RECORD, FIGURES), IN_RECORD, IN_FIGURES(figures))
CALL(record_preview, (OVER_RECORD, NUMBERS(figures)), (RECORD, FIGURES), IN_RECORD,
     IN_FIGURES(figures))
CALL(record_curve, (OVER_RECORD, NUMBERS(points)), (RECORD, FIGURES), IN_RECORD, IN_FIGURES(points))
CALL(record_settlement, (OVER_RECORD, uint64_t limit, NUMBERS(figures), BYTES(awards)),
     (RECORD, N(2), FIGURES, LENT), IN_RECORD, .numbers = {0, 0, limit}, IN_FIGURES(figures),
     IN_BYTES(awards))
CALL(write_seat, (uint64_t kind, uint64_t number, BYTES(bytes)), (N(0), N(1), LENT),
     .numbers = {kind, number}, IN_BYTES(bytes))
CALL(session_replay, (OVER_SESSION, BYTES(replies)), (RECORD, LENT), IN_SESSION, IN_BYTES(replies))
CALL(session_reading, (OVER_SESSION, SEAT, NUMBERS(reading)), (RECORD, N(0), N(1), FIGURES),
     IN_SESSION, .numbers = {seat, number}, IN_FIGURES(reading))
CALL(session_preview, (OVER_SESSION, SEAT, NUMBERS(figures)), (RECORD, N(0), N(1), FIGURES),
     IN_SESSION, .numbers = {seat, number}, IN_FIGURES(figures))
CALL(session_curve, (OVER_SESSION, SEAT, NUMBERS(points)), (RECORD, N(0), N(1), FIGURES), IN_SESSION,
     .numbers = {seat, number}, IN_FIGURES(points))
CALL(session_settlement, (OVER_SESSION, SEAT, uint64_t limit, NUMBERS(figures), BYTES(awards)),
     (RECORD, N(0), N(1), N(2), FIGURES, LENT), IN_SESSION, .numbers = {seat, number, limit},
     IN_FIGURES(figures), IN_BYTES(awards))
CALL(session_forcing,
     (OVER_SESSION, SEAT, uint64_t first, uint64_t second, LIST(prices), BYTES(move)),
     (RECORD, N(0), N(1), N(2), N(3), L(0), LENT), IN_SESSION,
     .numbers = {seat, number, first, second}, .lists = {{prices, prices_length}}, IN_BYTES(move))
CALL(session_record, (OVER_SESSION, BYTES(record)), (RECORD, LENT), IN_SESSION, IN_BYTES(record))

/* Places of numbers, of demand, a registration, a game, a sealed auction, a seat and a settlement, and of
 * lists. */
enum { CE = 0, PRICE_ASKED = 4, DEVELOPER = 1, STUDY = 3, AGENT = 5, RIVALS = 0, CEILING = 0 };
enum { KIND_OF_SEAT = 0, NUMBER_OF_SEAT = 1, LIMIT = 2 };
enum { PRICES = 0, MINIMUMS = 2 };

/* How a call is wrong before it is made. */

static void exchange(uint64_t *pair) {
    uint64_t first = pair[0];
    pair[0] = pair[1];
    pair[1] = first;
}

static void exchanged(struct call *call) { exchange(call->numbers + call->by); }

static void own_number(struct call *call) { call->numbers[AGENT] = call->numbers[DEVELOPER]; }

static void without_agent(struct call *call) {
    if (call->numbers[AGENT] == call->numbers[DEVELOPER])
        call->made = made_write_registration;
}

static void cut_to_field(struct call *call) { call->numbers[0] = (uint32_t)call->numbers[0]; }

static void as_offer(struct call *call) { call->made = made_write_offer; }

/* How an answer is wrong. */

static void raised(struct call *call) { call->answer += call->by; }

static void raised_at_ce(struct call *call) {
    if (call->numbers[PRICE_ASKED] == call->numbers[CE])
        raised(call);
}

static void less_than_ce(struct call *call) {
    if (call->answer > 0)
        call->answer = call->numbers[CE] - call->answer;
}

static void refuse(struct call *call) { call->answer = REFERENCE_ENGINE_REFUSAL(call->by); }

static void refuse_if_short(struct call *call) {
    /* The bytes of a settling's frame. */
    enum { SETTLING = 11 };
    if (call->length < SETTLING)
        refuse(call);
}

static void refuse_above_ceiling(struct call *call) {
    for (size_t place = 0; place < call->lists[PRICES].length; place++)
        if (call->lists[PRICES].at[place] > call->numbers[CEILING])
            refuse(call);
}

/* How a buffer is wrong: by the byte so far from its start, or from the end of what is written. */

static void byte(struct call *call) {
    if ((size_t)call->by < call->length)
        call->bytes[call->by] ^= 1;
}

static void byte_from_end(struct call *call) {
    if (call->answer > 0 && call->answer + call->by < call->length)
        call->bytes[call->answer + call->by] ^= 1;
}

static void byte_of_steps(struct call *call) {
    if (call->lists[PRICES].length > 0)
        byte_from_end(call);
}

static void byte_of_long(struct call *call) {
    /* The most bytes of replies that the engine keeps until it knows that they fit. */
    enum { KEPT = 24576 };
    if (call->answer > KEPT && call->answer == call->length)
        byte_from_end(call);
}

static void all_but_one(struct call *call) {
    struct call longer = *call;
    longer.bytes = malloc(++longer.length);
    if (longer.made(&longer) == longer.length)
        memcpy(call->bytes, longer.bytes, call->length);
    free(longer.bytes);
}

/* How replies are wrong. Of a settling's: where P and the awards begin, the digits of a price, of each
 * award, and of all behind the awards: remainder, second price and its mark, then the mark of
 * participation and the price paid. */
enum { P = 4, PRICE = 8, AWARDS = 50, AWARD = 12, BEHIND = 28 };
enum { EXCESS, SHORT, PARTICIPATION, PAID, ORDER };

static void in_reply(uint8_t *reply, uint64_t length, int what) {
    if (memcmp(reply, what == EXCESS ? "0500" : "0600", 4) != 0)
        return;
    uint8_t first[AWARD], *awards = reply + AWARDS, *paid = reply + length - PRICE;
    if (what == EXCESS)
        reply[length - 1] ^= 1;
    if (what == SHORT)
        paid[-3] = '0';
    if (what == PARTICIPATION)
        paid[-1] = '0';
    if (what == PAID)
        memcpy(paid, reply + P, PRICE);
    if (what == ORDER && length >= AWARDS + 2 * AWARD + BEHIND) {
        memcpy(first, awards, AWARD);
        memcpy(awards, awards + AWARD, AWARD);
        memcpy(awards + AWARD, first, AWARD);
    }
}

static void in_replies(struct call *call) {
    uint64_t start = 0;
    for (uint64_t end = 0; end < call->answer; end++)
        if (call->bytes[end] == '\n') {
            in_reply(call->bytes + start, end - start, call->by);
            start = end + 1;
        }
}

/* Where the first line of an offer names a higher developer than the second; digits are in the order of
 * their characters. */
static void in_replies_by_arrival(struct call *call) {
    const uint8_t *first = NULL;
    for (size_t place = 0; place + 4 <= call->record_length; place++) {
        const uint8_t *line = call->record + place;
        if ((place > 0 && line[-1] != '\n') || memcmp(line, "04", 2) != 0)
            continue;
        if (first != NULL) {
            if (memcmp(first + 2, line + 2, 2) > 0)
                in_replies(call);
            return;
        }
        first = line;
    }
}

/* The reply of the first accepted settling in place of those refused by 10 behind it, as far as the
 * buffer is long enough. */
static void settled_again(struct call *call) {
    /* Bytes of the longest reply and of a refusal, with their 0A. */
    enum { LONGEST = 463, REFUSAL = 5 };
    uint8_t first[LONGEST], *replies = call->bytes;
    uint64_t start = 0, length = 0;
    for (uint64_t end = 0; end < call->answer; end++) {
        if (replies[end] != '\n')
            continue;
        if (length == 0 && memcmp(replies + start, "0600", 4) == 0) {
            length = end + 1 - start;
            memcpy(first, replies + start, length);
        }
        int refused = length > 0 && memcmp(replies + start, "060A", 4) == 0;
        uint64_t more = refused ? length - REFUSAL : 0;
        if (refused && more <= call->length - call->answer) {
            memmove(replies + end + 1 + more, replies + end + 1, call->answer - end - 1);
            memcpy(replies + start, first, length);
            call->answer += more;
            end += more;
        }
        start = end + 1;
    }
}

/* How an outcome is wrong: the lowest price that is the outcome of a game of its own; in a game of one
 * price no move lowers the supply there. */
static void all_keep(struct call *call) {
    uint8_t move;
    struct call game = *call;
    game.bytes = &move;
    game.length = 1;
    for (size_t left = call->lists[PRICES].length; left > 0; left--) {
        game.lists[PRICES] = (struct list){call->lists[PRICES].at + left - 1, 1};
        call->answer = call->made(&game);
        if (call->answer == *game.lists[PRICES].at)
            break;
    }
}

/* How the awards of a sealed auction are wrong. */

/* The most sealed offers. */
enum { OFFERS = 16 };

static void reverse(uint64_t *to, const uint64_t *from, size_t count) {
    for (size_t place = 0; place < count; place++)
        to[place] = from[count - 1 - place];
}

/* The list the other way round, which only those alike feel. */
static void later_first(struct call *call) {
    uint64_t lists[4][OFFERS], awards[OFFERS];
    size_t count = call->lists[PRICES].length;
    struct call reversed = *call;
    for (size_t list = 0; list < 4; list++) {
        reverse(lists[list], call->lists[list].at, count);
        reversed.lists[list].at = lists[list];
    }
    reversed.awards = awards;
    reversed.length = count;
    call->answer = call->made(&reversed);
    reverse(call->awards, awards, count);
}

static void minimums_of_one(struct call *call) {
    static const uint64_t ones[OFFERS] = {1, 1, 1, 1, 1, 1, 1, 1, 1, 1, 1, 1, 1, 1, 1, 1};
    struct call cut = *call;
    cut.lists[MINIMUMS].at = ones;
    call->answer = call->made(&cut);
}

static void first_awards(struct call *call) {
    if (call->lists[PRICES].length > 1)
        exchange(call->awards);
}

static void award_behind(struct call *call) {
    size_t count = call->lists[PRICES].length;
    if (count < call->length)
        call->awards[count] ^= 1;
}

/* How figures are wrong. */

/* Places of figures of a state, a preview, a point of the curve and a settlement, and how many they are. */
enum { PHASE = 0, ROUND_PRICES = 1, CLOSINGS = 4, STATE = 5, CLOSES = 2, PREVIEW = 3, SUPPLIES = 1 };
enum { CLOSING_PRICE = 0, COVERING = 5, KEPT = 6, SECOND_PRICE = 7, SETTLEMENT = 12, RECORDS = 192 };

static void closed_between(struct call *call) {
    if (call->figures[PHASE] == 4)
        call->figures[PHASE] = 3;
}

static void exchanged_figures(struct call *call) {
    if (call->figures_length >= (size_t)call->by + 2)
        exchange(call->figures + call->by);
}

static void refused_closings(struct call *call) {
    call->figures[CLOSINGS] = 0;
    for (size_t place = 0; place + 2 <= call->record_length; place++)
        if ((place == 0 || call->record[place - 1] == '\n') && memcmp(call->record + place, "05", 2) == 0)
            call->figures[CLOSINGS]++;
}

static void figure_behind(struct call *call) {
    if ((size_t)call->by < call->figures_length)
        call->figures[call->by] ^= 1;
}

static void never_closes(struct call *call) { call->figures[CLOSES] = 0; }

static void without_sign(struct call *call) {
    if ((int64_t)call->figures[0] < 0)
        call->figures[0] = -call->figures[0];
}

static void short_first(struct call *call) {
    if (call->figures_length < (size_t)call->by)
        call->answer = REFERENCE_ENGINE_REFUSAL(11);
}

static void numbers_not_points(struct call *call) { call->answer *= 3; }

static void limit_of_32_bits(struct call *call) { call->numbers[LIMIT] = (uint32_t)call->numbers[LIMIT]; }

static void all_covering_kept(struct call *call) { call->figures[KEPT] = call->figures[COVERING]; }

static void one_price(struct call *call) { call->figures[SECOND_PRICE] = call->figures[CLOSING_PRICE]; }

static void figures_without_awards(struct call *call) {
    uint8_t awards[RECORDS];
    struct call longer = *call;
    longer.bytes = awards;
    longer.length = sizeof awards;
    if (call->answer == REFERENCE_ENGINE_REFUSAL(11))
        longer.made(&longer);
}

/* How seats are wrong. */

static void without_number(struct call *call) {
    if (call->numbers[KIND_OF_SEAT] < 2)
        call->numbers[NUMBER_OF_SEAT] = 0;
}

static void number_of_a_byte(struct call *call) {
    call->numbers[NUMBER_OF_SEAT] = (uint8_t)call->numbers[NUMBER_OF_SEAT];
}

static void refuse_if_shorter_than_seat(struct call *call) {
    if (call->length < 4)
        refuse(call);
}

/* A seat of the kind that the fault names is taken for the auctioneer. */
static void as_auctioneer(struct call *call) {
    if (call->numbers[KIND_OF_SEAT] == (uint64_t)call->by)
        call->numbers[KIND_OF_SEAT] = call->numbers[NUMBER_OF_SEAT] = 0;
}

static void unknown_as_auditor(struct call *call) {
    if (call->numbers[KIND_OF_SEAT] > 2) {
        call->numbers[KIND_OF_SEAT] = 1;
        call->numbers[NUMBER_OF_SEAT] = 0;
    }
}

static void of_another(struct call *call) {
    if (call->numbers[KIND_OF_SEAT] == 2)
        call->numbers[NUMBER_OF_SEAT] ^= 1;
}

/* In an open round a developer reads the excess that closing it would give. */
static void excess_ahead(struct call *call) {
    uint64_t figures[PREVIEW];
    struct call looks = *call;
    looks.numbers[KIND_OF_SEAT] = looks.numbers[NUMBER_OF_SEAT] = 0;
    looks.figures = figures;
    looks.figures_length = PREVIEW;
    if (call->numbers[KIND_OF_SEAT] == 2 && made_session_preview(&looks) == 0)
        call->figures[2] = figures[0];
}

/* An offer of no steps reads as none: behind four published values and the levels with their number. */
static void empty_offer_as_none(struct call *call) {
    uint64_t *offer = call->figures + 5 + call->figures[4];
    if (call->answer > 4 && offer[1] == 0)
        offer[0] = 0;
}

/* How sessions are wrong: the call is made again over another one. */
enum { OWN_NUMBER, NO_NUMBER };

static void in_line(uint8_t *line, size_t length, int what) {
    if (what == NO_NUMBER && length >= 4 && memcmp(line, "00", 2) == 0)
        memcpy(line, "0000", 4);
    int offers = length >= 8 && (memcmp(line + 4, "04", 2) == 0 || memcmp(line + 4, "09", 2) == 0);
    if (what == OWN_NUMBER && offers && memcmp(line, "02", 2) == 0)
        memcpy(line + 2, line + 6, 2);
}

static void other_session(struct call *call) {
    uint8_t *session = malloc(call->record_length + 1);
    struct call other = *call;
    size_t start = 0;
    memcpy(session, call->record, call->record_length);
    for (size_t end = 0; end <= call->record_length; end++)
        if (end == call->record_length || session[end] == '\n') {
            in_line(session + start, end - start, call->by);
            start = end + 1;
        }
    other.record = session;
    call->answer = other.made(&other);
    free(session);
}

/* Settlings without the right are refused by the phase. */
static void phase_before_right(struct call *call) {
    for (uint64_t place = 0; place + 4 < call->answer; place++)
        if ((place == 0 || call->bytes[place - 1] == '\n') && memcmp(call->bytes + place, "0614", 4) == 0)
            memcpy(call->bytes + place, "0602", 4);
}

static void without_settlings(struct call *call) {
    uint64_t start = 0, kept = 0;
    for (uint64_t end = 0; end < call->answer; end++)
        if (call->bytes[end] == '\n') {
            if (memcmp(call->bytes + start, "06", 2) != 0) {
                memmove(call->bytes + kept, call->bytes + start, end + 1 - start);
                kept += end + 1 - start;
            }
            start = end + 1;
        }
    call->answer = kept;
}

static void without_last(struct call *call) {
    if (call->answer > 0)
        call->answer--;
}

/* Each wrong engine: its name; the call that it makes wrong; whether before the call is made, or where
 * it is accepted or refused; how, and by what number. */
static const struct fault {
    const char *name;
    uint64_t (*call)(const struct call *);
    enum { BEFORE, ACCEPTED, REFUSED } when;
    void (*how)(struct call *);
    int by;
} faults[] = {
    {"version", made_engine_version, ACCEPTED, raised, 1}, /* the next one */
    {"demand", made_demand, ACCEPTED, raised_at_ce, 1}, /* one kWh more at CE */
    {"remainder", made_demand_remainder, ACCEPTED, less_than_ce, 0}, /* that of the quotient */
    {"digit", made_replay, ACCEPTED, byte_from_end, -2}, /* the last digit */
    {"far", made_replay, ACCEPTED, byte_of_long, -2}, /* of long replies in an exact buffer */
    {"behind", made_replay, ACCEPTED, byte_from_end, 0}, /* the byte behind the replies */
    {"part", made_replay, REFUSED, all_but_one, 0}, /* written where one byte does not fit */
    {"again", made_replay, ACCEPTED, settled_again, 0}, /* an accepted settling for 10 behind it */
    {"mark", made_replay, ACCEPTED, in_replies, SHORT}, /* the second price is never short */
    {"sufficient", made_replay, ACCEPTED, in_replies, PARTICIPATION}, /* participation is */
    {"paid", made_replay, ACCEPTED, in_replies, PAID}, /* existing plants are always paid P */
    {"order", made_replay, ACCEPTED, in_replies, ORDER}, /* the first two awards change places */
    {"arrival", made_replay, ACCEPTED, in_replies_by_arrival, EXCESS}, /* the last digit of closings */
    {"cost", made_write_set_up, ACCEPTED, byte, 2}, /* the first digit of CE */
    {"study", made_write_registration, BEFORE, exchanged, STUDY}, /* with the start day */
    {"agent", made_write_registration_for, BEFORE, own_number, 0}, /* always the developer's own */
    {"own", made_write_registration_for, BEFORE, without_agent, 0}, /* that one in frame 02 */
    {"width", made_write_opening, BEFORE, cut_to_field, 0}, /* a price too wide is cut */
    {"step", made_write_offer, ACCEPTED, byte_of_steps, -2}, /* the last digit */
    {"short", made_write_closing, REFUSED, refuse, 14}, /* 14 for 13 */
    {"early", made_write_settling, REFUSED, refuse_if_short, 13}, /* 13 tested before 14 */
    {"touched", made_write_settling, REFUSED, byte, 0}, /* the first byte */
    {"kind", made_write_lodging, BEFORE, as_offer, 0}, /* written as an offer */
    {"longer", made_write_cancellation, ACCEPTED, raised, 1}, /* said to have one byte more */
    {"move", made_who_can_force, ACCEPTED, byte, 0}, /* keep and withdraw change places */
    {"beyond", made_who_can_force, ACCEPTED, byte, 1}, /* the byte behind the move */
    {"rivals", made_who_can_force, BEFORE, exchanged, RIVALS}, /* the second begins */
    {"kept", made_who_can_force, ACCEPTED, all_keep, 0}, /* the outcome when both keep */
    {"ties", made_sealed_auction, ACCEPTED, later_first, 0}, /* of those alike the later one first */
    {"cut", made_sealed_auction, ACCEPTED, minimums_of_one, 0}, /* awards below a minimum */
    {"listed", made_sealed_auction, ACCEPTED, first_awards, 0}, /* two change places */
    {"beyond", made_sealed_auction, ACCEPTED, award_behind, 0}, /* the number behind the awards */
    {"ceiling", made_sealed_auction, REFUSED, refuse_above_ceiling, 19}, /* 19 tested before 18 */
    {"phase", made_record_state, ACCEPTED, closed_between, 0}, /* a closed auction is between rounds */
    {"prices", made_record_state, ACCEPTED, exchanged_figures, ROUND_PRICES}, /* change places */
    {"closings", made_record_state, ACCEPTED, refused_closings, 0}, /* refused ones are counted */
    {"sixth", made_record_state, ACCEPTED, figure_behind, STATE}, /* the number behind the figures */
    {"open", made_record_preview, ACCEPTED, never_closes, 0}, /* the auction would never be closed */
    {"sign", made_record_preview, ACCEPTED, without_sign, 0}, /* the excess has none */
    {"first", made_record_preview, REFUSED, short_first, PREVIEW}, /* 11 tested before 2 */
    {"supplies", made_record_curve, ACCEPTED, exchanged_figures, SUPPLIES}, /* of the first point */
    {"points", made_record_curve, ACCEPTED, numbers_not_points, 0}, /* the number of numbers */
    {"limit", made_record_settlement, BEFORE, limit_of_32_bits, 0}, /* a wide one is cut */
    {"covering", made_record_settlement, ACCEPTED, all_covering_kept, 0}, /* all are kept */
    {"second", made_record_settlement, ACCEPTED, one_price, 0}, /* that of new plants is P */
    {"partly", made_record_settlement, REFUSED, figures_without_awards, 0}, /* figures without awards */
    {"numbered", made_write_seat, BEFORE, without_number, 0}, /* an auctioneer with a number is one */
    {"low", made_write_seat, BEFORE, number_of_a_byte, 0}, /* a developer's number is cut */
    {"sooner", made_write_seat, REFUSED, refuse_if_shorter_than_seat, 13}, /* 13 tested before 14 */
    {"anybody", made_session_replay, ACCEPTED, other_session, OWN_NUMBER}, /* offers for any developer */
    {"nobody", made_session_replay, ACCEPTED, other_session, NO_NUMBER}, /* an auctioneer with a number */
    {"right", made_session_replay, ACCEPTED, phase_before_right, 0}, /* 2 tested before 20 */
    {"reply", made_session_replay, ACCEPTED, byte_from_end, -2}, /* the last digit */
    {"far", made_session_replay, ACCEPTED, byte_of_long, -2}, /* of long replies in an exact buffer */
    {"others", made_session_reading, BEFORE, of_another, 0}, /* levels and offer of another */
    {"ahead", made_session_reading, ACCEPTED, excess_ahead, 0}, /* the excess is that of a preview */
    {"empty", made_session_reading, ACCEPTED, empty_offer_as_none, 0}, /* an offer of no steps is none */
    {"unknown", made_session_reading, BEFORE, unknown_as_auditor, 0}, /* seat 3 reads */
    {"byte", made_session_reading, BEFORE, number_of_a_byte, 0}, /* a developer's number is cut */
    {"auditor", made_session_preview, BEFORE, as_auctioneer, 1}, /* previews */
    {"developer", made_session_curve, BEFORE, as_auctioneer, 2}, /* reads the curve */
    {"settles", made_session_settlement, BEFORE, as_auctioneer, 2}, /* a developer does */
    {"forces", made_session_forcing, BEFORE, as_auctioneer, 1}, /* an auditor asks who does */
    {"unsettled", made_session_record, ACCEPTED, without_settlings, 0}, /* settlings are left out */
    {"end", made_session_record, ACCEPTED, without_last, 0}, /* the last 0A is missing */
};

/* The row that WRONG names, if it is one of this call. */
static const struct fault *named(const struct call *call) {
    const char *wrong = getenv("WRONG");
    for (size_t row = 0; wrong != NULL && row < sizeof faults / sizeof *faults; row++)
        if (faults[row].call == call->made && strcmp(faults[row].name, wrong) == 0)
            return &faults[row];
    return NULL;
}

static uint64_t answered(struct call call) {
    const struct fault *fault = named(&call);
    if (fault == NULL)
        return call.made(&call);
    call.by = fault->by;
    if (fault->when == BEFORE)
        fault->how(&call);
    call.answer = call.made(&call);
    if (fault->when == (call.answer < REFERENCE_ENGINE_REFUSAL(20) ? ACCEPTED : REFUSED))
        fault->how(&call);
    return call.answer;
}
