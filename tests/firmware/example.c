/* A cabinet in small: it holds one entry, answers offers, and comes back after a power cut.
   The store is an array here. A cabinet's own is flash. */
#include "cabinet.h"

#include <stdio.h>
#include <string.h>

enum { OPEN = 1, CLOSED = 2 };

/* All zeros is the factory entry: stamp (0,0) and unknown. */
static uint8_t store[CABINET_ENTRY_BYTES];
static uint8_t held[CABINET_ENTRY_BYTES];

/* A power cut in here must leave the old entry or the new one, whole. Answers 0 if the entry is not in the store. */
static int write_store(const uint8_t *entry)
{
    memcpy(store, entry, CABINET_ENTRY_BYTES);
    return 1;
}

/* Answers 0 if what the store has is no entry: the cabinet then stays down. */
static int start(void)
{
    static const uint8_t factory[CABINET_ENTRY_BYTES];

    memcpy(held, store, sizeof held);
    return cabinet_offer(held, sizeof held, factory, sizeof factory) == CABINET_KEPT;
}

/* One offer, from its arrival to its end. Answers whether to acknowledge it. */
static int offered(const uint8_t *message, size_t length)
{
    uint8_t next[CABINET_ENTRY_BYTES];

    memcpy(next, held, sizeof next);
    switch (cabinet_offer(next, sizeof next, message, length)) {
    case CABINET_TAKEN:
        if (!write_store(next)) /* the store first: held is never ahead of it */
            return 0;
        memcpy(held, next, sizeof held);
        return 1;
    case CABINET_KEPT: /* what is held is as new or newer, and in the store */
        return 1;
    default: /* CABINET_REFUSED: no entry, so there is nothing to acknowledge */
        return 0;
    }
}

static void put(uint8_t *at, uint64_t value, int bytes)
{
    while (bytes-- > 0) {
        at[bytes] = (uint8_t)(value & 0xff);
        value >>= 8;
    }
}

/* The low byte of each number is enough for these. */
static void say_held(void)
{
    printf(", held (%u,%u)\n", held[7], held[11]);
}

static void offer(uint64_t counter, uint32_t writer, uint32_t reading, uint32_t minutes)
{
    uint8_t message[CABINET_ENTRY_BYTES];

    put(message, counter, 8);
    put(message + 8, writer, 4);
    put(message + 12, reading, 4);
    put(message + 16, minutes, 4);
    printf("offer (%u,%u): %s", (unsigned)counter, (unsigned)writer,
           offered(message, sizeof message) ? "acknowledged" : "no answer");
    say_held();
}

int main(void)
{
    if (!start())
        return 1;
    offer(1, 1, OPEN, 6);            /* taken */
    offer(1, 1, OPEN, 6);            /* kept: sent again */
    offer(2, 3, CLOSED, 0);          /* taken */
    offer(1, 8, OPEN, 12);           /* kept: late */
    offer(3, 2, OPEN, 241);          /* refused: too many minutes */
    memset(held, 0xff, sizeof held); /* a power cut: working memory is lost */
    if (!start())
        return 1;
    printf("after a power cut");
    say_held();
    return 0;
}
