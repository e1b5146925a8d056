/*
 * A C host of the calls that write frames. Lists and buffers have exact lengths (memory.h).
 * Prints what fails; the exit status is 0 only if nothing does.
 */
#include "memory.h"
#include <string.h>

#include "reference_engine.h"

_Static_assert(REFERENCE_ENGINE_REFUSAL(13) == UINT64_MAX - 12, "refusal 13 is 2^64 - 13");
_Static_assert(REFERENCE_ENGINE_REFUSAL(14) == UINT64_MAX - 13, "refusal 14 is 2^64 - 14");

#define BITS(n) (UINT64_C(1) << (n))
#define MAX32 UINT64_C(0xFFFFFFFF)
#define MAX40 UINT64_C(0xFFFFFFFFFF)
#define EIGHT "0000000100000002000000030000000400000005000000060000000700000008"

enum { MOST = 18 };

struct list {
    size_t length;
    uint64_t numbers[MOST];
};

#define UP_TO_8 1, 2, 3, 4, 5, 6, 7, 8

/* A call: its kind, its numbers, and the lists of those that have some. */
struct check {
    int kind;
    uint64_t numbers[6];
    struct list first, second;
    const char *frame; /* NULL if the call is not writable */
};

static const struct check checks[] = {
    {1, {20000, 1000, 900, 1200, 40000}, {0}, {0},
     "0100004E2000000003E8000000038400000004B000009C40\n"},
    {1, {0}, {0}, {0}, "010000000000000000000000000000000000000000000000\n"},
    {1, {MAX32, MAX40, MAX40, MAX40, MAX32}, {0}, {0},
     "01FFFFFFFFFFFFFFFFFFFFFFFFFFFFFFFFFFFFFFFFFFFFFF\n"},
    {1, {BITS(32), 1000, 900, 1200, 40000}, {0}, {0}, NULL},
    {1, {20000, BITS(40), 900, 1200, 40000}, {0}, {0}, NULL},
    {1, {20000, 1000, BITS(40), 1200, 40000}, {0}, {0}, NULL},
    {1, {20000, 1000, 900, BITS(40), 40000}, {0}, {0}, NULL},
    {1, {20000, 1000, 900, 1200, BITS(32)}, {0}, {0}, NULL},
    {1, {20000, 1000, 900, 1200, UINT64_MAX}, {0}, {0}, NULL},

    {2, {2, 2, 2, 400, 10}, {2, {100, 200}}, {0}, "02020202000001900000000A0200000064000000C8\n"},
    {2, {0, 0, 77, 0, 0}, {1, {0}}, {0}, "0200004D00000000000000000100000000\n"},
    {2, {255, 255, 255, MAX32, MAX32}, {1, {MAX32}}, {0}, "02FFFFFFFFFFFFFFFFFFFFFF01FFFFFFFF\n"},
    {2, {1, 2, 3, 4, 5}, {0}, {0}, "02010203000000040000000500\n"},
    {2, {1, 2, 3, 4, 5}, {16, {UP_TO_8, UP_TO_8}}, {0},
     "02010203000000040000000510" EIGHT EIGHT "\n"},
    {2, {1, 2, 3, 4, 5}, {17, {UP_TO_8, UP_TO_8, 9}}, {0}, NULL},
    {2, {BITS(8), 2, 3, 4, 5}, {1, {6}}, {0}, NULL},
    {2, {1, BITS(8), 3, 4, 5}, {1, {6}}, {0}, NULL},
    {2, {1, 2, BITS(8), 4, 5}, {1, {6}}, {0}, NULL},
    {2, {1, 2, 3, BITS(32), 5}, {1, {6}}, {0}, NULL},
    {2, {1, 2, 3, 4, BITS(32)}, {1, {6}}, {0}, NULL},
    {2, {1, 2, 3, 4, 5}, {2, {6, BITS(32)}}, {0}, NULL},
    {2, {1, 2, 3, 4, 5}, {2, {BITS(63), 6}}, {0}, NULL},

    {3, {25000}, {0}, {0}, "03000061A8\n"},
    {3, {MAX32}, {0}, {0}, "03FFFFFFFF\n"},
    {3, {BITS(32)}, {0}, {0}, NULL},

    {4, {2}, {1, {26000}}, {1, {100}}, "0402010000659000000064\n"},
    {4, {255}, {2, {MAX32, 0}}, {2, {0, MAX32}}, "04FF02FFFFFFFF0000000000000000FFFFFFFF\n"},
    {4, {2}, {0}, {0}, "040200\n"},
    {4, {2}, {9, {0}}, {9, {0}},
     "040209"
     "000000000000000000000000000000000000000000000000000000000000000000000000"
     "000000000000000000000000000000000000000000000000000000000000000000000000\n"},
    {4, {2}, {10, {0}}, {10, {0}}, NULL},
    {4, {BITS(8)}, {1, {26000}}, {1, {100}}, NULL},
    {4, {2}, {1, {BITS(32)}}, {1, {100}}, NULL},
    {4, {2}, {1, {26000}}, {1, {BITS(32)}}, NULL},
    {4, {2}, {2, {26000, 25000}}, {1, {100}}, NULL},
    {4, {2}, {1, {26000}}, {2, {100, 0}}, NULL},
    {4, {2}, {0}, {1, {100}}, NULL},

    {5, {0}, {0}, {0}, "05\n"},

    {6, {100}, {0}, {0}, "0600000064\n"},
    {6, {MAX32}, {0}, {0}, "06FFFFFFFF\n"},
    {6, {BITS(32)}, {0}, {0}, NULL},

    {7, {1}, {1, {26000}}, {1, {100}}, "0701010000659000000064\n"},
    {7, {255}, {2, {MAX32, 0}}, {2, {0, MAX32}}, "07FF02FFFFFFFF0000000000000000FFFFFFFF\n"},
    {7, {0}, {0}, {0}, "070000\n"},
    {7, {1}, {9, {0}}, {9, {0}},
     "070109"
     "000000000000000000000000000000000000000000000000000000000000000000000000"
     "000000000000000000000000000000000000000000000000000000000000000000000000\n"},
    {7, {1}, {10, {0}}, {10, {0}}, NULL},
    {7, {BITS(8)}, {1, {26000}}, {1, {100}}, NULL},
    {7, {1}, {1, {BITS(32)}}, {1, {100}}, NULL},
    {7, {1}, {1, {26000}}, {1, {BITS(32)}}, NULL},
    {7, {1}, {2, {26000, 25000}}, {1, {100}}, NULL},
    {7, {1}, {1, {26000}}, {2, {100, 0}}, NULL},
    {7, {1}, {1, {26000}}, {0}, NULL},

    {8, {2, 3, 2, 1, 500, 20}, {1, {200}}, {0}, "0802030201000001F40000001401000000C8\n"},
    {8, {2, 3, 2, 3, 500, 20}, {1, {200}}, {0}, "0802030203000001F40000001401000000C8\n"},
    {8, {0, 0, 77, 0, 0, 0}, {1, {0}}, {0}, "0800004D0000000000000000000100000000\n"},
    {8, {255, 255, 255, 255, MAX32, MAX32}, {1, {MAX32}}, {0},
     "08FFFFFFFFFFFFFFFFFFFFFFFF01FFFFFFFF\n"},
    {8, {1, 2, 3, 6, 4, 5}, {0}, {0}, "0801020306000000040000000500\n"},
    {8, {1, 2, 3, 6, 4, 5}, {16, {UP_TO_8, UP_TO_8}}, {0},
     "0801020306000000040000000510" EIGHT EIGHT "\n"},
    {8, {1, 2, 3, 6, 4, 5}, {17, {UP_TO_8, UP_TO_8, 9}}, {0}, NULL},
    {8, {BITS(8), 2, 3, 6, 4, 5}, {1, {6}}, {0}, NULL},
    {8, {1, BITS(8), 3, 6, 4, 5}, {1, {6}}, {0}, NULL},
    {8, {1, 2, BITS(8), 6, 4, 5}, {1, {6}}, {0}, NULL},
    {8, {1, 2, 3, BITS(8), 4, 5}, {1, {6}}, {0}, NULL},
    {8, {1, 2, 3, BITS(32) + 6, 4, 5}, {1, {6}}, {0}, NULL},
    {8, {1, 2, 3, 6, BITS(32), 5}, {1, {6}}, {0}, NULL},
    {8, {1, 2, 3, 6, 4, BITS(32)}, {1, {6}}, {0}, NULL},
    {8, {1, 2, 3, 6, 4, 5}, {2, {6, BITS(32)}}, {0}, NULL},
    {8, {1, 2, 3, 6, 4, 5}, {2, {BITS(63), 6}}, {0}, NULL},

    {9, {2}, {0}, {0}, "0902\n"},
    {9, {0}, {0}, {0}, "0900\n"},
    {9, {255}, {0}, {0}, "09FF\n"},
    {9, {BITS(8)}, {0}, {0}, NULL},
    {9, {BITS(32) + 2}, {0}, {0}, NULL},
};

static unsigned made, failed;

/* The check's call, with its lists where they lie now. */
static uint64_t write_frame(const struct check *check, const uint64_t *first,
                            const uint64_t *second, uint8_t *frame, size_t length)
{
    const uint64_t *n = check->numbers;
    switch (check->kind) {
    case 1:
        return write_set_up(n[0], n[1], n[2], n[3], n[4], frame, length);
    case 2:
        return write_registration(n[0], n[1], n[2], n[3], n[4], first, check->first.length, frame,
                                  length);
    case 3:
        return write_opening(n[0], frame, length);
    case 4:
        return write_offer(n[0], first, check->first.length, second, check->second.length, frame,
                           length);
    case 5:
        return write_closing(frame, length);
    case 6:
        return write_settling(n[0], frame, length);
    case 7:
        return write_lodging(n[0], first, check->first.length, second, check->second.length, frame,
                             length);
    case 8:
        return write_registration_for(n[0], n[1], n[2], n[3], n[4], n[5], first,
                                      check->first.length, frame, length);
    default:
        return write_cancellation(n[0], frame, length);
    }
}

static uint64_t *lend_list(const struct memory *memory, const struct list *list)
{
    size_t bytes = list->length * sizeof list->numbers[0];
    return memcpy(memory->lend(bytes), list->numbers, bytes);
}

/* Makes the call with a buffer of so many bytes. */
static void write_into(const struct memory *memory, const struct check *check, size_t length)
{
    uint64_t *first = lend_list(memory, &check->first);
    uint64_t *second = lend_list(memory, &check->second);
    uint8_t *buffer = memory->lend(length);
    memset(buffer, UNTOUCHED, length);

    size_t exact = check->frame == NULL ? 0 : strlen(check->frame);
    uint64_t expected = check->frame == NULL ? REFERENCE_ENGINE_REFUSAL(14)
                        : length < exact     ? REFERENCE_ENGINE_REFUSAL(13)
                                             : exact;
    uint64_t result = write_frame(check, first, second, buffer, length);
    made++;
    if (result != expected || !holds(buffer, length, check->frame, length < exact ? 0 : exact)) {
        failed++;
        printf("write_host: %s: check %td, kind %d, buffer of %zu bytes\n", memory->name,
               check - checks, check->kind, length);
    }
    memory->give_back(first);
    memory->give_back(second);
    memory->give_back(buffer);
}

/* Buffers of no bytes, one too short, exact, and longer; around a line where there is no frame. */
static void write_check(const struct memory *memory, const struct check *check)
{
    size_t exact = check->frame == NULL ? 161 : strlen(check->frame);
    write_into(memory, check, 0);
    write_into(memory, check, exact - 1);
    write_into(memory, check, exact);
    write_into(memory, check, exact + 1);
    write_into(memory, check, exact + 300);
}

/* A length of 0 goes with NULL. */
static void write_null(void)
{
    uint8_t frame[] = "......";
    made++;
    if (write_offer(2, NULL, 0, NULL, 0, NULL, 0) != REFERENCE_ENGINE_REFUSAL(13) ||
        write_registration(BITS(8), 1, 1, 0, 0, NULL, 0, NULL, 0) != REFERENCE_ENGINE_REFUSAL(14) ||
        write_registration_for(1, 1, 1, 1, 0, 0, NULL, 0, NULL, 0) !=
            REFERENCE_ENGINE_REFUSAL(13) ||
        write_closing(NULL, 0) != REFERENCE_ENGINE_REFUSAL(13) ||
        write_lodging(2, NULL, 0, NULL, 0, NULL, 0) != REFERENCE_ENGINE_REFUSAL(13) ||
        write_cancellation(2, NULL, 0) != REFERENCE_ENGINE_REFUSAL(13) ||
        write_offer(2, NULL, 0, NULL, 0, frame, sizeof frame) != sizeof frame ||
        memcmp(frame, "040200\n", sizeof frame) != 0) {
        failed++;
        printf("write_host: NULL\n");
    }
}

int main(void)
{
    for (size_t m = 0; m < sizeof memories / sizeof memories[0]; m++)
        for (size_t i = 0; i < sizeof checks / sizeof checks[0]; i++)
            write_check(&memories[m], &checks[i]);
    write_null();
    if (failed > 0) {
        printf("write_host: %u of %u checks failed\n", failed, made);
        return 1;
    }
    printf("write_host: %u checks ok\n", made);
    return 0;
}
