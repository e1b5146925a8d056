#include "reference_engine.h"
#include <stdio.h>
#include <string.h>

int main(void) {
    const char *record = "0100004E2000000003E8000000038400000004B000009C40\n" /* set-up */
                         "02010101000000000000000001000003E8\n" /* an existing plant of 1,000 */
                         "0300002710\n05\n"                     /* a round down to the floor */
                         "0600000001\n";                        /* settling */
    uint8_t replies[4096];
    uint64_t written = replay((const uint8_t *)record, strlen(record), replies, sizeof replies);
    if (written == REFERENCE_ENGINE_REFUSAL(11))
        return 1; /* the buffer is too short */
    fwrite(replies, 1, written, stdout);
    return 0;
}
