/*
 * The Reference Engine of the firm-energy clock auction, for hosts in C.
 * Link with target/staticlib/libhost.a, made by: tools/build host
 *
 * Quantities are whole kWh per day; prices are whole thousandths of US$ per MWh.
 *
 * No call takes memory of the heap. The stack of a thread that makes calls should have 128 KiB or
 * more for them: `replay` took at most 74 KiB, `who_can_force` 56 KiB, in every record that was
 * measured (with the older kit).
 */
#ifndef REFERENCE_ENGINE_H
#define REFERENCE_ENGINE_H

#include <stddef.h>
#include <stdint.h>

#ifdef __cplusplus
extern "C" {
#endif

#define REFERENCE_ENGINE_VERSION "0.42.0" /* the engine's version: 0, the landing, and 0 */

/* What a call returns for refusal n: 2^64 - n. docs/RULES.md has the table of refusal numbers. */
#define REFERENCE_ENGINE_REFUSAL(n) (UINT64_C(0) - (n))

/*
 * The version of the library that is linked, in one number: of 1.2.3 it is 1002003, a million times the
 * first, a thousand times the second, and the third. It is that of REFERENCE_ENGINE_VERSION, unless a
 * host was compiled with the header of another version.
 *
 * The call is never refused, keeps no state and touches no memory of the host, so any number of threads
 * may make it at once.
 */
uint64_t engine_version(void);

/*
 * Demand at price p on the curve of numeral 3.8.
 *
 *   ce   entrant's cost, a price; even, 2 to 500,000
 *   d    target demand, a quantity; m1 < d < m2
 *   m1   lower margin, a quantity; above 0
 *   m2   upper margin, a quantity; at most 10^11
 *   p    price asked, from the floor ce / 2 to 2 * ce
 *
 * Returns Dem(p): the least whole quantity, m1 to m2, that the curve prices at p or less; at
 * 2 * ce it is m1. If any argument is beyond its bounds it returns
 * REFERENCE_ENGINE_REFUSAL(1), which is 2^64 - 1.
 *
 * There are no preconditions: any five numbers may be passed. The call keeps no state and
 * touches no memory of the host, so any number of threads may make it at once.
 */
uint64_t demand(uint64_t ce, uint64_t d, uint64_t m1, uint64_t m2, uint64_t p);

/*
 * What rounding adds to exact demand at price p, in ce-ths of a kWh per day. The arguments are
 * those of `demand`. Exact demand is the quantity, m1 to m2, that the curve prices at p itself.
 *
 * Returns Dem(p) times ce less exact demand times ce: a whole number, 0 to ce - 1, and 0 exactly
 * if Dem(p) is exact. So exact demand is Dem(p) less the remainder over ce. Where `demand`
 * returns REFERENCE_ENGINE_REFUSAL(1), so does this call; all else said of `demand` holds of it.
 */
uint64_t demand_remainder(uint64_t ce, uint64_t d, uint64_t m1, uint64_t m2, uint64_t p);

/*
 * Replays a recorded auction from a fresh one: a frame a line in, a reply a line out, as
 * docs/FORMAT.md describes them. The awards in a settling's reply stand by rising project number.
 *
 *   record   the record's bytes, record_length of them; only read
 *   replies  the lent buffer, replies_length bytes; it must not overlap the record
 *
 * Returns the number of bytes written, from the buffer's start; the bytes behind them stay. If
 * the replies do not fit, the buffer stays as it was and the call returns
 * REFERENCE_ENGINE_REFUSAL(11), which is 2^64 - 11.
 *
 * A buffer of this size always fits: for each line of the record 5 bytes, 24 more if its second
 * character is 5, 458 more if it is 6. So long are the longest replies, to a closing and to a
 * settling with 32 awards. A shorter buffer may do; where the replies are longer than 24,576 bytes,
 * finding that out makes each call twice.
 *
 * The record may hold any bytes in any number, and a length of 0 goes with any pointer, NULL
 * too. Refused calls and malformed lines are answered in the replies. The call keeps no state and
 * touches no other memory of the host, so any number of threads may make it at once, each with
 * its own buffer.
 */
uint64_t replay(const uint8_t *record, size_t record_length, uint8_t *replies,
                size_t replies_length);

/*
 * Who can force the price: a game of two developers late in an auction. The calls of a record are
 * made from a fresh auction, as `replay` makes them; settlings and malformed lines change nothing.
 * The auction must then stand between rounds, after at least one closed round, whose closing price
 * is the standing price. From the first listed price to the last the two move in turn, one move a
 * price, the first developer beginning: the mover keeps its quantity, or withdraws to 0 at that
 * price; one at 0 can only keep. All others keep theirs, and no lodged withdrawal is applied. After
 * the last price the outcome is the lowest covered listed price, or the standing price if no listed
 * one is covered. The first developer wants it high, the second low.
 *
 *   record   the record's bytes, record_length of them; only read
 *   first    the number of the developer that moves first
 *   second   that of the other; both are of kind 2, in different projects
 *   prices   prices_length of them, 1 to 10, falling strictly, from the floor to the standing price
 *            less 1; only read
 *   move     the lent buffer, move_length bytes; it must not overlap the record or the prices
 *
 * Returns the outcome that the first can force against every reply, and the second can hold it to
 * against every reply. A best first move stands in the first byte of the buffer: 0 keep, 1
 * withdraw; keep, where both force the outcome. The bytes behind it stay. There are three
 * refusals, tested in this order, and each leaves every byte of the buffer as it was:
 *
 *   REFERENCE_ENGINE_REFUSAL(2), which is 2^64 - 2: the auction is in another phase.
 *
 *   REFERENCE_ENGINE_REFUSAL(17), which is 2^64 - 17: the developers or the prices are not as
 *   described.
 *
 *   REFERENCE_ENGINE_REFUSAL(11), which is 2^64 - 11: the buffer has no byte.
 *
 * Any numbers, prices and bytes may be passed, in any number, and a length of 0 goes with any
 * pointer, NULL too. The call keeps no state and touches no other memory of the host, so any
 * number of threads may make it at once, each with its own buffer.
 */
uint64_t who_can_force(const uint8_t *record, size_t record_length, uint64_t first,
                       uint64_t second, const uint64_t *prices, size_t prices_length,
                       uint8_t *move, size_t move_length);

/*
 * A live auction: the record is the state. A host appends the frame of each call to its record (the
 * write calls below write frames) and asks; nothing is held between calls, and every answer is that
 * of the whole record, made from a fresh auction as `replay` makes it. Settlings and malformed lines
 * change nothing. tests/c/live_example.c runs an auction of two rounds so.
 *
 *   record   the record's bytes, record_length of them; only read
 *   figures  the lent numbers, figures_length of them; they must not overlap the record
 *
 * Figures are written from the buffer's start, in the order given for each call; the numbers behind
 * them stay. An excess is signed, in two's complement: (int64_t)figures[0]. A refusal leaves every
 * number and byte of the buffers as it was; that of a buffer too short is tested last.
 *
 * The record may hold any bytes in any number, and a length of 0 goes with any pointer, NULL too.
 * The calls keep no state and touch no other memory of the host, so any number of threads may make
 * them at once, each with its own buffers.
 */

/*
 * The state of the auction that a record leaves behind. Returns 0, with 5 figures:
 *
 *   phase           0 fresh, 1 ready (set up, no round yet), 2 a round is open, 3 between rounds,
 *                   4 closed
 *   opening price   of the open round, or else of the latest one; 0 before there is any
 *   closing price   of the same round; 0 before there is any
 *   excess          of the latest accepted closing; 0 before there is any
 *   closings        the number of accepted closings
 *
 *   REFERENCE_ENGINE_REFUSAL(11), which is 2^64 - 11: the buffer has fewer than 5 numbers.
 */
uint64_t record_state(const uint8_t *record, size_t record_length, uint64_t *figures,
                      size_t figures_length);

/*
 * Looks before closing: what closing the open round now would answer. The round stays open. Returns
 * 0, with 3 figures:
 *
 *   excess      supply less demand at the round's closing price
 *   remainder   that of demand there, as `demand_remainder` gives it
 *   closed      1 if the auction would then be closed, else 0
 *
 *   REFERENCE_ENGINE_REFUSAL(2), which is 2^64 - 2, tested first: no round is open.
 *
 *   REFERENCE_ENGINE_REFUSAL(11), which is 2^64 - 11: the buffer has fewer than 3 numbers.
 */
uint64_t record_preview(const uint8_t *record, size_t record_length, uint64_t *figures,
                        size_t figures_length);

/*
 * The supply curve: the distinct prices at which somebody has withdrawn, falling. The steps of an
 * open round's offers are not in it before the round is closed. Returns the number of points, 0 to
 * 256, with 3 numbers each, one point behind the other:
 *
 *   price
 *   supply before the withdrawals at this price
 *   supply after them
 *
 *   points   the lent numbers, points_length of them; 768 always fit
 *
 *   REFERENCE_ENGINE_REFUSAL(11), which is 2^64 - 11: the buffer has fewer than 3 numbers a point.
 */
uint64_t record_curve(const uint8_t *record, size_t record_length, uint64_t *points,
                      size_t points_length);

/*
 * Settles the closed auction that a record leaves behind.
 *
 *   limit    the most admissible choices that are accepted, any number; above 65,536 it means 65,536
 *   figures  the lent numbers, 12 of which are written
 *   awards   the lent bytes, awards_length of them; 192 always fit. They must not overlap the record
 *            or the figures
 *
 * Returns 0, with 12 figures:
 *
 *   closing price P
 *   demand at P
 *   remainder of demand at P
 *   total of the award
 *   choices that are admissible
 *   covering ones among them
 *   kept, those covering ones that the search does not set aside
 *   second price, that for new plants
 *   short, 1 if the second price is marked so, else 0
 *   insufficient, 1 if participation is, else 0
 *   price paid to existing plants
 *   number of award records
 *
 * The award records stand in the lent bytes, 6 bytes each, by rising project: project, developer, and
 * the quantity in 4 bytes, high byte first; the bytes behind them stay. There are three refusals,
 * tested in this order:
 *
 *   REFERENCE_ENGINE_REFUSAL(2), which is 2^64 - 2: the auction is not closed.
 *
 *   REFERENCE_ENGINE_REFUSAL(10), which is 2^64 - 10: more choices than the limit, or than 65,536.
 *
 *   REFERENCE_ENGINE_REFUSAL(11), which is 2^64 - 11: fewer than 12 figures are lent, or too few bytes
 *   for the award records; then neither buffer is written.
 */
uint64_t record_settlement(const uint8_t *record, size_t record_length, uint64_t limit,
                           uint64_t *figures, size_t figures_length, uint8_t *awards,
                           size_t awards_length);

/*
 * The sealed auction for plants with long building times: one year's demand is given to offers in
 * turn, those of the oldest group first, of equal ages the lower price first, of equal prices
 * too the one earlier in the list. Each gets the lesser of its quantity and what is left, or
 * nothing if that is below its minimum, and the next is tried.
 *
 *   ceiling     ceiling price, 1 to 1,000,000
 *   demand      demand of the year, 0 to 10^11
 *   prices      the offers' prices, 1 to 1,000,000, at most the ceiling
 *   quantities  their quantities, 1 to 10^9
 *   minimums    the least that each takes, 1 to its quantity
 *   ages        the ages of their groups in years, 0 to 20
 *   awards      the lent buffer, awards_length numbers; it must not overlap the lists
 *
 * The four lists have one length, 0 to 16, and are only read. Returns what is left, with the
 * award of each offer in list order from the start of the buffer; the numbers behind them stay.
 * The awards and what is left sum to the demand. There are three refusals, tested in this order,
 * and each leaves every number of the buffer as it was:
 *
 *   REFERENCE_ENGINE_REFUSAL(18), which is 2^64 - 18: more than 16 offers, lists of different
 *   lengths, or a number out of its bounds.
 *
 *   REFERENCE_ENGINE_REFUSAL(19), which is 2^64 - 19: an offered price above the ceiling.
 *
 *   REFERENCE_ENGINE_REFUSAL(11), which is 2^64 - 11: the buffer is shorter than the list.
 *
 * Any numbers may be passed, in any number, and a length of 0 goes with any pointer, NULL too. The
 * call keeps no state and touches no other memory of the host, so any number of threads may make
 * it at once, each with its own buffer.
 */
uint64_t sealed_auction(uint64_t ceiling, uint64_t demand, const uint64_t *prices,
                        size_t prices_length, const uint64_t *quantities,
                        size_t quantities_length, const uint64_t *minimums,
                        size_t minimums_length, const uint64_t *ages, size_t ages_length,
                        uint64_t *awards, size_t awards_length);

/*
 * Writing the record of an auction, a call at a time: each call from here to `write_cancellation`
 * writes one frame, the line of docs/FORMAT.md with its 0A, from the start of the lent buffer. Frames
 * written one behind the other are a record: lend the rest of the record's buffer to each call.
 *
 *   frame    the lent buffer, frame_length bytes; it must not overlap the lists
 *
 * Returns the number of bytes written, at most 161; the bytes behind them stay. There are two
 * refusals, and either leaves every byte of the buffer as it was:
 *
 *   REFERENCE_ENGINE_REFUSAL(14), which is 2^64 - 14, tested first: the call is not writable. A
 *   number does not fit the digits of its field, the two lists of an offer or a lodging are not
 *   equally long, or the line would have more than 160 characters.
 *
 *   REFERENCE_ENGINE_REFUSAL(13), which is 2^64 - 13, tested last: the buffer is too short for the
 *   frame with its 0A.
 *
 * Any numbers may be passed, and any lists in any lengths; a length of 0 goes with any pointer,
 * NULL too. Whether the auction will accept the call is not asked: project 0 is written, and
 * replaying it gets its refusal. The calls keep no state and touch no other memory of the host, so
 * any number of threads may make them at once, each with its own buffer.
 */

/*
 * Frame 01, set-up: entrant's cost, target demand, lower and upper margin, opening price. ce and a
 * fit below 2^32; d, m1 and m2 below 2^40. The frame has 49 bytes.
 */
uint64_t write_set_up(uint64_t ce, uint64_t d, uint64_t m1, uint64_t m2, uint64_t a, uint8_t *frame,
                      size_t frame_length);

/*
 * Frame 02, a developer's registration with its declared levels. project, developer and kind (1
 * existing, 2 new) fit below 2^8; study value, start day and each level below 2^32. The frame has
 * 27 bytes and 8 a level; 16 levels fit a line.
 */
uint64_t write_registration(uint64_t project, uint64_t developer, uint64_t kind, uint64_t study,
                            uint64_t day, const uint64_t *levels, size_t levels_length,
                            uint8_t *frame, size_t frame_length);

/*
 * Frame 08, a developer's registration that names its agent, 1 to 32; replaying frame 02 makes the
 * developer's number its agent. The agent fits below 2^8; all else is as in frame 02. The frame has 29
 * bytes and 8 a level; 16 levels fit a line.
 */
uint64_t write_registration_for(uint64_t project, uint64_t developer, uint64_t kind, uint64_t agent,
                                uint64_t study, uint64_t day, const uint64_t *levels,
                                size_t levels_length, uint8_t *frame, size_t frame_length);

/* Frame 03, opening of a round down to the closing price c, below 2^32. The frame has 11 bytes. */
uint64_t write_opening(uint64_t c, uint8_t *frame, size_t frame_length);

/*
 * Frame 04, a developer's offer: the steps' prices, and the level that each step falls to. The
 * developer fits below 2^8, each price and level below 2^32, and the lists are equally long. The
 * frame has 7 bytes and 16 a step; 9 steps fit a line.
 */
uint64_t write_offer(uint64_t developer, const uint64_t *prices, size_t prices_length,
                     const uint64_t *levels, size_t levels_length, uint8_t *frame,
                     size_t frame_length);

/* Frame 05, closing of the round. The frame has 3 bytes. */
uint64_t write_closing(uint8_t *frame, size_t frame_length);

/* Frame 06, settling, with its limit on admissible choices, below 2^32. The frame has 11 bytes. */
uint64_t write_settling(uint64_t limit, uint8_t *frame, size_t frame_length);

/*
 * Frame 07, lodging of an existing plant's withdrawals, before the first round: the steps' prices,
 * and the level that each step falls to. A list lodged again replaces the one before; an empty one
 * takes it back. Fields, widths and lengths are those of an offer.
 */
uint64_t write_lodging(uint64_t developer, const uint64_t *prices, size_t prices_length,
                       const uint64_t *levels, size_t levels_length, uint8_t *frame,
                       size_t frame_length);

/*
 * Frame 09, cancellation: the developer takes back its offer of the open round. The developer fits
 * below 2^8. The frame has 5 bytes.
 */
uint64_t write_cancellation(uint64_t developer, uint8_t *frame, size_t frame_length);

/*
 * Sessions: calls through the seats of an auction hall. A session is a record whose lines name the
 * seat that asks: 2 digits for the kind of seat, 2 for its number, then the frame (docs/FORMAT.md,
 * Sessions). The hall has these seats:
 *
 *   0 auctioneer, number 0: every call but offers and cancellations
 *   1 auditor, number 0: settling
 *   2 developer, with its number: offers and cancellations of its own
 *
 * All of them read. A server appends the line of each seat, as it comes, to the session and asks;
 * nothing is held between calls. tests/c/class_example.c seats a class of three so.
 *
 * What a developer is sent tells it nothing of what others offer: two sessions that give developer n
 * the same view give it the same numbers from `session_reading` and the same replies to its own lines,
 * at every line, whatever the lines of others hold. Its view of a session is the list of its own lines,
 * of the accepted registrations and lodgings made for it, and of the changes of the published values
 * (both prices, excess and phase), in their order.
 *
 *   session  the session's bytes, session_length of them; only read
 *   seat     the kind of seat through which the call is made
 *   number   its number; a developer's may be any, and no developer has one outside 1 to 32
 *
 * A call through what is no seat (another kind; an auctioneer or an auditor with a number other than
 * 0), or through a seat that has no right to it, is refused by 20, before every other check. The other
 * checks, figures and refusals of a call are those of the same call over the record of what was
 * permitted. A refusal leaves every number and byte of the buffers as it was.
 *
 * The session may hold any bytes in any number, a length of 0 goes with any pointer, NULL too, and a
 * lent buffer must not overlap what the call reads. The calls keep no state and touch no other memory
 * of the host, so any number of threads may make them at once, each with its own buffers.
 */

/*
 * The four digits of a seat, with which a line of a session begins; its frame is to be written behind
 * them.
 *
 *   kind     0 auctioneer, 1 auditor, 2 developer
 *   number   0, or the developer's, below 2^8
 *   bytes    the lent buffer, bytes_length bytes
 *
 * Returns 4, the number of bytes written; those behind them stay. There are two refusals, and either
 * leaves every byte of the buffer as it was:
 *
 *   REFERENCE_ENGINE_REFUSAL(14), which is 2^64 - 14, tested first: no line names such a seat.
 *
 *   REFERENCE_ENGINE_REFUSAL(13), which is 2^64 - 13, tested last: the buffer has fewer than 4 bytes.
 */
uint64_t write_seat(uint64_t kind, uint64_t number, uint8_t *bytes, size_t bytes_length);

/*
 * Replays a session from a fresh auction: a line of a seat in, a reply a line out. A line that names no
 * seat, or whose frame is malformed, gets FF0C. One whose seat has no right to what it asks gets its
 * kind and 14, which is 20 in hexadecimal, whatever else would refuse it. Every other line gets the
 * reply that `replay` gives to its frame in the record of what was permitted so far.
 *
 *   replies  the lent buffer, replies_length bytes
 *
 * Returns the number of bytes written, from the buffer's start; the bytes behind them stay. A buffer of
 * 463 bytes for each line always fits.
 *
 *   REFERENCE_ENGINE_REFUSAL(11), which is 2^64 - 11: the replies do not fit; the buffer stays.
 */
uint64_t session_replay(const uint8_t *session, size_t session_length, uint8_t *replies,
                        size_t replies_length);

/*
 * What a seat reads behind the last line. Returns how many numbers that is, with 4 for every seat:
 *
 *   opening price and closing price of the open round, or else of the latest one; 0 before there is any
 *   excess of the latest accepted closing, signed; 0 before there is any
 *   phase, as `record_state` gives it
 *
 * and behind them, for a developer:
 *
 *   number of its declared levels, and the levels, rising; 0 where it is not registered
 *   1 if an offer of it stands in the open round, else 0
 *   number of the offer's steps, and of each step its price and its level; 0 where there is no offer
 *
 *   reading  the lent numbers, reading_length of them; 31 always fit. Those behind the reading stay
 *
 *   REFERENCE_ENGINE_REFUSAL(20), which is 2^64 - 20, tested first: there is no such seat.
 *
 *   REFERENCE_ENGINE_REFUSAL(11), which is 2^64 - 11: the buffer has too few numbers.
 */
uint64_t session_reading(const uint8_t *session, size_t session_length, uint64_t seat,
                         uint64_t number, uint64_t *reading, size_t reading_length);

/*
 * What closing the open round now would answer, for the auctioneer: returns 0 with the figures of
 * `record_preview`.
 *
 *   REFERENCE_ENGINE_REFUSAL(20), which is 2^64 - 20, tested first: the seat is not the auctioneer's.
 *
 *   REFERENCE_ENGINE_REFUSAL(2), which is 2^64 - 2: no round is open.
 *
 *   REFERENCE_ENGINE_REFUSAL(11), which is 2^64 - 11: the buffer has fewer than 3 numbers.
 */
uint64_t session_preview(const uint8_t *session, size_t session_length, uint64_t seat,
                         uint64_t number, uint64_t *figures, size_t figures_length);

/*
 * The supply curve, for the auctioneer: returns the number of points, with those of `record_curve`.
 *
 *   REFERENCE_ENGINE_REFUSAL(20), which is 2^64 - 20, tested first: the seat is not the auctioneer's.
 *
 *   REFERENCE_ENGINE_REFUSAL(11), which is 2^64 - 11: the buffer has fewer than 3 numbers a point.
 */
uint64_t session_curve(const uint8_t *session, size_t session_length, uint64_t seat,
                       uint64_t number, uint64_t *points, size_t points_length);

/*
 * Settles the closed auction, for the auctioneer or the auditor: returns 0 with the figures and the
 * award records of `record_settlement`.
 *
 *   REFERENCE_ENGINE_REFUSAL(20), which is 2^64 - 20, tested first: the seat is neither's.
 *
 *   REFERENCE_ENGINE_REFUSAL(2), which is 2^64 - 2: the auction is not closed.
 *
 *   REFERENCE_ENGINE_REFUSAL(10), which is 2^64 - 10: more choices than the limit, or than 65,536.
 *
 *   REFERENCE_ENGINE_REFUSAL(11), which is 2^64 - 11: either buffer is too short.
 */
uint64_t session_settlement(const uint8_t *session, size_t session_length, uint64_t seat,
                            uint64_t number, uint64_t limit, uint64_t *figures,
                            size_t figures_length, uint8_t *awards, size_t awards_length);

/*
 * Who can force the price, for the auctioneer: arguments, outcome and move are those of
 * `who_can_force`.
 *
 *   REFERENCE_ENGINE_REFUSAL(20), which is 2^64 - 20, tested first: the seat is not the auctioneer's.
 *
 *   REFERENCE_ENGINE_REFUSAL(2), which is 2^64 - 2: the auction is not between rounds.
 *
 *   REFERENCE_ENGINE_REFUSAL(17), which is 2^64 - 17: the developers or the prices are not as
 *   `who_can_force` describes them.
 *
 *   REFERENCE_ENGINE_REFUSAL(11), which is 2^64 - 11: the buffer has no byte.
 */
uint64_t session_forcing(const uint8_t *session, size_t session_length, uint64_t seat,
                         uint64_t number, uint64_t first, uint64_t second, const uint64_t *prices,
                         size_t prices_length, uint8_t *move, size_t move_length);

/*
 * The plain record of a session, for `replay` and all calls over a record: the frames of all lines that
 * are neither malformed nor refused by 20, settlings and calls with another refusal among them, each
 * with its 0A. Replayed, it gives the replies that these lines get in the session.
 *
 *   record   the lent buffer, record_length bytes; one as long as the session always fits
 *
 * Returns the number of bytes written, from the buffer's start; the bytes behind them stay.
 *
 *   REFERENCE_ENGINE_REFUSAL(11), which is 2^64 - 11: the record does not fit; the buffer stays.
 */
uint64_t session_record(const uint8_t *session, size_t session_length, uint8_t *record,
                        size_t record_length);

#ifdef __cplusplus
}
#endif

#endif
