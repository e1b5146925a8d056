#include "reference_engine.h"
#include <stdio.h>
#include <stdlib.h>

static uint8_t record[4096], replies[4096];
static size_t length; /* bytes of the record so far */

#define REST record + length, sizeof record - length
#define LIST(...) (const uint64_t[]){__VA_ARGS__}

/* Adds the frame that a call has written at the end of the record. */
static void add(uint64_t written) {
    if (written > sizeof record)
        exit(EXIT_FAILURE); /* refusal 13 or 14 */
    length += written;
}

int main(void) {
    add(write_set_up(20000, 1000, 900, 1200, 40000, REST));
    add(write_registration(1, 1, 1, 0, 0, LIST(820), 1, REST));
    add(write_registration(2, 2, 2, 400, 10, LIST(100, 200), 2, REST));
    add(write_registration(2, 3, 2, 500, 20, LIST(200), 1, REST));
    add(write_registration(3, 4, 2, 0, 0, LIST(150), 1, REST));
    add(write_opening(25000, REST));
    add(write_offer(2, LIST(26000), 1, LIST(100), 1, REST));
    add(write_offer(3, LIST(26000), 1, LIST(0), 1, REST));
    add(write_offer(4, LIST(26000), 1, LIST(0), 1, REST));
    add(write_closing(REST));
    add(write_settling(100, REST));
    fwrite(record, 1, length, stdout);

    uint64_t written = replay(record, length, replies, sizeof replies);
    if (written > sizeof replies)
        return EXIT_FAILURE; /* refusal 11 */
    fwrite(replies, 1, written, stdout);
    return EXIT_SUCCESS;
}
