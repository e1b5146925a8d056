/*
 * Replays a record, with an ample and with an exact buffer, asks who can force the price behind it, reads
 * its figures, and does the same with its calls through seats, in a thread with no more stack than the
 * header asks for, and little beside it for the thread itself.
 */
#include "reference_engine.h"
#include <pthread.h>
#include <stdio.h>
#include <string.h>

#define STACK (128 * 1024)
#define ITSELF (16 * 1024)

static const char record[] = "0100004E2000000003E8000000038400000004B000009C40\n"
                             "02010102000000000000000001000003E8\n"
                             "02020202000000000000000001000003E8\n"
                             "0300006590\n040100\n040200\n05\n"
                             "0600000064\n";
static const char session[] = "00000100004E2000000003E8000000038400000004B000009C40\n"
                              "000002010102000000000000000001000003E8\n"
                              "000002020202000000000000000001000003E8\n"
                              "00000300006590\n0201040100\n0202040200\n000005\n"
                              "01000600000064\n";
static const uint64_t prices[] = {25999, 10000};
static uint8_t replies[4096], awards[192];
static uint64_t figures[768];
static uint64_t written, exact, outcome, seated, refused;

#define RECORD (const uint8_t *)record, strlen(record)
#define SESSION (const uint8_t *)session, strlen(session)

static void *calls(void *unused)
{
    uint8_t move;

    (void)unused;
    written = replay(RECORD, replies, sizeof replies);
    exact = replay(RECORD, replies, written);
    outcome = who_can_force(RECORD, 1, 2, prices, 2, &move, 1);
    /* 0 in all: between rounds 2 refuses previews and settlements, and nobody has withdrawn. */
    refused = record_state(RECORD, figures, 768) + record_preview(RECORD, figures, 768) + 2 +
              record_curve(RECORD, figures, 768) +
              record_settlement(RECORD, 100, figures, 768, awards, sizeof awards) + 2 +
              session_preview(SESSION, 0, 0, figures, 768) + 2 +
              session_curve(SESSION, 0, 0, figures, 768) +
              session_settlement(SESSION, 1, 0, 100, figures, 768, awards, sizeof awards) + 2 +
              (session_reading(SESSION, 2, 1, figures, 768) != 8) +
              (session_forcing(SESSION, 0, 0, 1, 2, prices, 2, &move, 1) != outcome) +
              (session_record(SESSION, replies, sizeof replies) != strlen(record));
    seated = session_replay(SESSION, replies, sizeof replies);
    return NULL;
}

int main(void)
{
    pthread_attr_t attributes;
    pthread_t thread;

    if (pthread_attr_init(&attributes) != 0 ||
        pthread_attr_setstacksize(&attributes, STACK + ITSELF) != 0 ||
        pthread_create(&thread, &attributes, calls, NULL) != 0 || pthread_join(thread, NULL) != 0)
        return 1;
    printf("thread_host: %llu bytes, outcome %llu\n", (unsigned long long)written,
           (unsigned long long)outcome);
    return written > REFERENCE_ENGINE_REFUSAL(20) || exact != written || seated != written ||
           outcome > REFERENCE_ENGINE_REFUSAL(20) || refused != 0;
}
