/*
 * A live auction of two rounds: the host writes each call behind its record and asks the engine what
 * that means. It looks before each closing, reads the state behind it, and settles at the end.
 */
#include "reference_engine.h"
#include <inttypes.h>
#include <stdio.h>
#include <stdlib.h>

static uint8_t record[4096];
static size_t length; /* bytes of the record so far */

#define REST record + length, sizeof record - length
#define LIST(...) (const uint64_t[]){__VA_ARGS__}

/* Adds the frame that a call has written at the end of the record. */
static void add(uint64_t written) {
    if (written > sizeof record)
        exit(EXIT_FAILURE); /* refusal 13 or 14 */
    length += written;
}

static void state(void) {
    static const char *const phases[] = {"fresh", "ready", "round", "between rounds", "closed"};
    uint64_t figures[5];
    if (record_state(record, length, figures, 5) != 0)
        exit(EXIT_FAILURE); /* refusal 11 */
    printf("%s, prices %" PRIu64 " to %" PRIu64 ", excess %" PRId64 ", closings %" PRIu64 "\n",
           phases[figures[0]], figures[1], figures[2], (int64_t)figures[3], figures[4]);
}

static void preview(void) {
    uint64_t figures[3];
    uint64_t answer = record_preview(record, length, figures, 3);
    if (answer == REFERENCE_ENGINE_REFUSAL(2))
        printf("  no round is open\n");
    else if (answer == 0)
        printf("  closing now: excess %" PRId64 ", %s\n", (int64_t)figures[0],
               figures[2] == 1 ? "and the auction is over" : "and another round may open");
}

static void curve(void) {
    uint64_t points[3 * 256];
    uint64_t count = record_curve(record, length, points, 3 * 256);
    for (uint64_t i = 0; i < count; i++)
        printf("  at %" PRIu64 " supply falls from %" PRIu64 " to %" PRIu64 "\n", points[3 * i],
               points[3 * i + 1], points[3 * i + 2]);
}

static void settlement(void) {
    uint64_t figures[12];
    uint8_t awards[192];
    if (record_settlement(record, length, 1000, figures, 12, awards, sizeof awards) != 0)
        exit(EXIT_FAILURE); /* refusal 2 or 10 */
    printf("closing price %" PRIu64 ", demand %" PRIu64 ", award %" PRIu64 " of %" PRIu64
           " choices, second price %" PRIu64 ", paid %" PRIu64 "\n",
           figures[0], figures[1], figures[3], figures[4], figures[7], figures[10]);
    for (const uint8_t *award = awards; award < awards + 6 * figures[11]; award += 6)
        printf("  project %d: developer %d, %lu\n", award[0], award[1],
               (unsigned long)award[2] << 24 | award[3] << 16 | award[4] << 8 | award[5]);
}

int main(void) {
    add(write_set_up(20000, 1000000, 900000, 1200000, 40000, REST));
    add(write_registration(1, 1, 1, 0, 0, LIST(700000), 1, REST)); /* an existing plant */
    add(write_registration(2, 2, 2, 0, 0, LIST(100000, 200000), 2, REST));
    add(write_registration(3, 3, 2, 0, 0, LIST(250000), 1, REST));
    state();
    preview();

    add(write_opening(25000, REST));
    preview(); /* new plants without an offer would withdraw */
    add(write_offer(2, NULL, 0, NULL, 0, REST)); /* no steps: it keeps its quantity */
    preview();
    add(write_offer(3, NULL, 0, NULL, 0, REST));
    preview();
    add(write_closing(REST));
    state();

    add(write_opening(20000, REST));
    add(write_offer(2, LIST(22000), 1, LIST(100000), 1, REST));
    add(write_offer(3, NULL, 0, NULL, 0, REST));
    preview();
    add(write_cancellation(3, REST)); /* it thinks again */
    add(write_offer(3, LIST(21000), 1, LIST(0), 1, REST));
    preview();
    add(write_closing(REST));
    state();
    curve();
    settlement();
    return EXIT_SUCCESS;
}
