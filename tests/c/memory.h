/*
 * Memory of exact lengths in which a byte beyond either end is seen: on the heap by the
 * sanitizers, beside closed pages by the processor, which watches the engine's own code too.
 */
#ifndef MEMORY_H
#define MEMORY_H

#define _DEFAULT_SOURCE
#include <stdint.h>
#include <stdio.h>
#include <stdlib.h>
#include <sys/mman.h>
#include <unistd.h>

/* What lent buffers hold before a call. */
enum { UNTOUCHED = 0xEE };

static void *must(void *memory)
{
    if (memory == NULL || memory == MAP_FAILED) {
        perror("memory");
        exit(EXIT_FAILURE);
    }
    return memory;
}

/* Pages for so many bytes between two closed ones. They are kept until the program ends. */
static uint8_t *open_pages(size_t length, size_t *opened)
{
    size_t page = (size_t)sysconf(_SC_PAGESIZE);
    *opened = (length / page + 1) * page;
    uint8_t *pages = must(mmap(NULL, *opened + 2 * page, PROT_NONE,
                               MAP_PRIVATE | MAP_ANONYMOUS, -1, 0));
    if (mprotect(pages + page, *opened, PROT_READ | PROT_WRITE) != 0)
        must(NULL);
    return pages + page;
}

static uint8_t *before_closed_page(size_t length)
{
    size_t opened;
    uint8_t *pages = open_pages(length, &opened);
    return pages + opened - length;
}

static uint8_t *behind_closed_page(size_t length)
{
    size_t opened;
    return open_pages(length, &opened);
}

static uint8_t *on_heap(size_t length)
{
    return must(malloc(length));
}

struct memory {
    const char *name;
    uint8_t *(*lend)(size_t length);
    void (*give_back)(void *lent);
};

static void keep(void *lent)
{
    (void)lent;
}

static const struct memory memories[] = {
    {"heap", on_heap, free},
    {"before a closed page", before_closed_page, keep},
    {"behind a closed page", behind_closed_page, keep},
};

/* Whether the buffer holds so many bytes of the text and is untouched behind them. */
static int holds(const uint8_t *buffer, size_t length, const char *text, size_t written)
{
    for (size_t i = 0; i < length; i++)
        if (buffer[i] != (i < written ? (uint8_t)text[i] : UNTOUCHED))
            return 0;
    return 1;
}

#endif
