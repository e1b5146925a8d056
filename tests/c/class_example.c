/*
 * A class of three seats: an auctioneer and developers 2 and 3. The server writes each line behind its
 * session as it comes, sends its sender the reply, and sends every seat what it reads. Developer 2 tries
 * what it has no right to, and never sees what developer 3 offers.
 */
#include "reference_engine.h"
#include <inttypes.h>
#include <stdio.h>
#include <stdlib.h>

enum { AUCTIONEER = 0, DEVELOPER = 2 };

static uint8_t session[4096], replies[65536];
static size_t length;    /* bytes of the session so far */
static uint64_t replied; /* bytes of the replies so far */

#define REST session + length, sizeof session - length
#define LIST(...) (const uint64_t[]){__VA_ARGS__}

/* Adds what a call has written at the end of the session. */
static void add(uint64_t written) {
    if (written > sizeof session)
        exit(EXIT_FAILURE); /* refusal 13 or 14 */
    length += written;
}

/* The seat whose frame is written next. */
static void from(uint64_t seat, uint64_t number) {
    printf("seat %" PRIu64 " %" PRIu64 ": ", seat, number);
    add(write_seat(seat, number, REST));
}

/* The frame, and the reply to its line: what the replies have more than before. */
static void asks(uint64_t written) {
    add(written);
    uint64_t now = session_replay(session, length, replies, sizeof replies);
    if (now > sizeof replies)
        exit(EXIT_FAILURE); /* refusal 11 */
    fwrite(replies + replied, 1, now - replied, stdout);
    replied = now;
}

/* What a seat is sent. */
static void reads(uint64_t seat, uint64_t number) {
    uint64_t reading[31];
    uint64_t count = session_reading(session, length, seat, number, reading, 31);
    printf("  seat %" PRIu64 " %" PRIu64 " reads", seat, number);
    for (uint64_t i = 0; i < count; i++)
        printf(" %" PRId64, (int64_t)reading[i]);
    printf("\n");
}

static void all_read(void) {
    reads(AUCTIONEER, 0);
    reads(DEVELOPER, 2);
    reads(DEVELOPER, 3);
}

int main(void) {
    uint64_t figures[12];
    uint8_t awards[192];

    from(AUCTIONEER, 0), asks(write_set_up(20000, 1000, 900, 1200, 40000, REST));
    from(AUCTIONEER, 0), asks(write_registration(1, 1, 1, 0, 0, LIST(820), 1, REST));
    from(DEVELOPER, 2), asks(write_registration(2, 2, 2, 0, 0, LIST(900), 1, REST)); /* no right */
    from(AUCTIONEER, 0), asks(write_registration(2, 2, 2, 400, 10, LIST(100, 200), 2, REST));
    from(AUCTIONEER, 0), asks(write_registration(3, 3, 2, 500, 20, LIST(150), 1, REST));
    from(AUCTIONEER, 0), asks(write_opening(25000, REST));
    all_read();

    from(DEVELOPER, 3), asks(write_offer(3, LIST(26000), 1, LIST(0), 1, REST));
    from(DEVELOPER, 2), asks(write_offer(3, LIST(26000), 1, LIST(0), 1, REST)); /* for another */
    from(DEVELOPER, 2), asks(write_offer(2, LIST(27000, 26000), 2, LIST(100, 0), 2, REST));
    all_read();
    if (session_preview(session, length, DEVELOPER, 2, figures, 3) == REFERENCE_ENGINE_REFUSAL(20))
        printf("  developer 2 does not look before closing\n");
    if (session_preview(session, length, AUCTIONEER, 0, figures, 3) == 0)
        printf("  the auctioneer does: excess %" PRId64 "\n", (int64_t)figures[0]);

    from(DEVELOPER, 2), asks(write_closing(REST)); /* no right */
    from(AUCTIONEER, 0), asks(write_closing(REST));
    all_read();
    if (session_settlement(session, length, AUCTIONEER, 0, 100, figures, 12, awards, 192) == 0)
        printf("  the auctioneer settles: price %" PRIu64 ", award %" PRIu64 "\n", figures[0], figures[3]);

    static uint8_t record[4096];
    uint64_t written = session_record(session, length, record, sizeof record);
    if (written > sizeof record)
        return EXIT_FAILURE; /* refusal 11 */
    fwrite(record, 1, written, stdout);
    return EXIT_SUCCESS;
}
