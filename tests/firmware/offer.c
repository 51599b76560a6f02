/* cabinet_offer as the firmware calls it: cases with their answers, an oracle over values, and stored vectors.
   Usage: offer vectors.txt */
#define _DEFAULT_SOURCE /* for MAP_ANONYMOUS */
#include "cabinet.h"

#include <inttypes.h>
#include <signal.h>
#include <stdio.h>
#include <stdlib.h>
#include <string.h>
#include <sys/mman.h>
#include <unistd.h>

#define COUNT(table) (sizeof(table) / sizeof(table)[0])

enum { UNKNOWN, OPEN, CLOSED };

struct entry {
    uint64_t counter;
    uint32_t writer;
    int32_t reading;
    uint32_t minutes;
};

/* ---- The oracle: values only, no bytes. ---- */

static int is_entry(struct entry e)
{
    if (e.writer > 8)
        return 0;
    switch (e.reading) {
    case OPEN:
        return e.minutes <= 240;
    case UNKNOWN:
    case CLOSED:
        return e.minutes == 0;
    default:
        return 0;
    }
}

static uint32_t answer_for(struct entry held, struct entry offered)
{
    if (!is_entry(held) || !is_entry(offered))
        return CABINET_REFUSED;
    if (held.counter != offered.counter)
        return held.counter < offered.counter ? CABINET_TAKEN : CABINET_KEPT;
    return held.writer < offered.writer ? CABINET_TAKEN : CABINET_KEPT;
}

static void put(uint8_t *at, uint64_t value, int bytes)
{
    while (bytes-- > 0) {
        at[bytes] = (uint8_t)(value & 0xff);
        value >>= 8;
    }
}

static void encode(uint8_t *at, struct entry e)
{
    put(at, e.counter, 8);
    put(at + 8, e.writer, 4);
    put(at + 12, (uint32_t)e.reading, 4);
    put(at + 16, e.minutes, 4);
}

/* ---- One call and what it leaves. ---- */

enum {
    GUARD = 64,
    /* lengths that are 20 in their low 8 and 16 bits */
    LENGTH_8 = 0x114,
    LENGTH_16 = 0x10014,
    ROOM = GUARD + LENGTH_16 + GUARD,
    /* They differ, so that bytes copied past the end of both buffers show. */
    HELD_GUARD = 0xa5,
    OFFERED_GUARD = 0x5a,
    SAID_PER_NAME = 3
};

/* The call is told `length`, but `laid` bytes stand there: a call that overlooks a short length finds a whole entry,
   and answers by it. */
struct lent {
    const uint8_t *bytes;
    size_t laid;
    size_t length;
};

static unsigned long cases, wrong;

static size_t extent(struct lent l)
{
    return GUARD + (l.length > l.laid ? l.length : l.laid) + GUARD;
}

static void lay(uint8_t *room, size_t at, struct lent l, int guard)
{
    memset(room, guard, extent(l));
    memcpy(room + at, l.bytes, l.laid);
}

static void say_bytes(const char *which, struct lent l)
{
    size_t i;
    printf("    %s, length %lu: ", which, (unsigned long)l.length);
    for (i = 0; i < l.laid; i++)
        printf("%02x", l.bytes[i]);
    printf("\n");
}

static void say_difference(const char *which, const uint8_t *is, const uint8_t *want, size_t at, size_t n)
{
    size_t i;
    for (i = 0; i < n; i++) {
        if (is[i] != want[i]) {
            printf("; %s byte %ld is %02x, wanted %02x", which, (long)i - (long)at, is[i], want[i]);
            return;
        }
    }
}

/* Generated cases share a name, and one mistake may fail a million of them. */
static int worth_saying(const char *name)
{
    static char last[128];
    static int said;
    if (strcmp(name, last) != 0) {
        snprintf(last, sizeof last, "%s", name);
        said = 0;
    }
    return said++ < SAID_PER_NAME;
}

static void check(const char *name, struct lent held, struct lent offered, uint32_t wanted)
{
    static uint8_t held_is[ROOM], held_want[ROOM], offered_is[ROOM], offered_want[ROOM];
    /* A lent buffer may stand at any address: over the cases both run through every alignment. */
    const size_t held_at = GUARD - cases % 16, offered_at = GUARD - cases / 16 % 16;
    uint32_t got;

    lay(held_is, held_at, held, HELD_GUARD);
    lay(held_want, held_at, wanted == CABINET_TAKEN ? offered : held, HELD_GUARD);
    lay(offered_is, offered_at, offered, OFFERED_GUARD);
    lay(offered_want, offered_at, offered, OFFERED_GUARD);
    got = cabinet_offer(held_is + held_at, held.length, offered_is + offered_at, offered.length);
    cases++;
    if (got == wanted && memcmp(held_is, held_want, extent(held)) == 0 &&
        memcmp(offered_is, offered_want, extent(offered)) == 0)
        return;
    wrong++;
    if (!worth_saying(name))
        return;
    printf("wrong: %s: got %" PRIu32 ", wanted %" PRIu32, name, got, wanted);
    say_difference("held", held_is, held_want, held_at, extent(held));
    say_difference("offered", offered_is, offered_want, offered_at, extent(offered));
    printf("\n");
    say_bytes("held", held);
    say_bytes("offered", offered);
}

static void check_entries(const char *name, struct entry held, struct entry offered, uint32_t wanted)
{
    uint8_t h[CABINET_ENTRY_BYTES], o[CABINET_ENTRY_BYTES];
    struct lent lh = {NULL, CABINET_ENTRY_BYTES, CABINET_ENTRY_BYTES}, lo = lh;
    encode(h, held);
    encode(o, offered);
    lh.bytes = h;
    lo.bytes = o;
    check(name, lh, lo, wanted);
}

/* ---- Cases with the answer written beside them. ---- */

static void stated(void)
{
    static const struct {
        const char *name;
        struct entry held, offered;
        uint32_t wanted;
    } table[] = {
        {"(1,1) held, (1,2) offered", {1, 1, OPEN, 6}, {1, 2, CLOSED, 0}, CABINET_TAKEN},
        {"(1,2) held, (2,1) offered", {1, 2, OPEN, 6}, {2, 1, CLOSED, 0}, CABINET_TAKEN},
        {"(1,1) held, (2,1) offered", {1, 1, OPEN, 6}, {2, 1, CLOSED, 0}, CABINET_TAKEN},
        {"(1,2) held, (1,1) offered", {1, 2, OPEN, 6}, {1, 1, CLOSED, 0}, CABINET_KEPT},
        {"(2,1) held, (1,2) offered", {2, 1, OPEN, 6}, {1, 2, CLOSED, 0}, CABINET_KEPT},
        {"(2,1) held, (1,1) offered", {2, 1, OPEN, 6}, {1, 1, CLOSED, 0}, CABINET_KEPT},
        {"equal stamp, same reading", {3, 4, OPEN, 6}, {3, 4, OPEN, 6}, CABINET_KEPT},
        {"equal stamp, more minutes", {3, 4, OPEN, 6}, {3, 4, OPEN, 7}, CABINET_KEPT},
        {"equal stamp, fewer minutes", {3, 4, OPEN, 6}, {3, 4, OPEN, 5}, CABINET_KEPT},
        {"equal stamp, closed offered", {3, 4, OPEN, 6}, {3, 4, CLOSED, 0}, CABINET_KEPT},
        {"equal stamp, open offered", {3, 4, CLOSED, 0}, {3, 4, OPEN, 240}, CABINET_KEPT},
        {"equal stamp, unknown held", {3, 4, UNKNOWN, 0}, {3, 4, OPEN, 6}, CABINET_KEPT},
        {"equal stamp, unknown offered", {3, 4, OPEN, 6}, {3, 4, UNKNOWN, 0}, CABINET_KEPT},
        {"factory entry, twice", {0, 0, UNKNOWN, 0}, {0, 0, UNKNOWN, 0}, CABINET_KEPT},
        {"factory entry, first write", {0, 0, UNKNOWN, 0}, {1, 1, OPEN, 6}, CABINET_TAKEN},
        {"factory entry offered", {1, 1, OPEN, 6}, {0, 0, UNKNOWN, 0}, CABINET_KEPT},
        {"unknown taken", {1, 1, OPEN, 6}, {2, 1, UNKNOWN, 0}, CABINET_TAKEN},
        {"minutes 0 offered", {1, 1, CLOSED, 0}, {2, 1, OPEN, 0}, CABINET_TAKEN},
        {"minutes 240 offered", {1, 1, CLOSED, 0}, {2, 1, OPEN, 240}, CABINET_TAKEN},
        {"minutes 0 held", {1, 1, OPEN, 0}, {2, 1, CLOSED, 0}, CABINET_TAKEN},
        {"minutes 240 held", {1, 1, OPEN, 240}, {2, 1, CLOSED, 0}, CABINET_TAKEN},
        {"minutes 0 kept", {2, 1, OPEN, 0}, {1, 1, CLOSED, 0}, CABINET_KEPT},
        {"minutes 240 kept", {2, 1, OPEN, 240}, {1, 1, CLOSED, 0}, CABINET_KEPT},
        {"2^32 over 2^32 - 1", {0xffffffff, 8, OPEN, 6}, {0x100000000, 0, CLOSED, 0}, CABINET_TAKEN},
        {"2^32 - 1 under 2^32", {0x100000000, 0, OPEN, 6}, {0xffffffff, 8, CLOSED, 0}, CABINET_KEPT},
        {"2^32 over 1", {1, 1, OPEN, 6}, {0x100000000, 1, CLOSED, 0}, CABINET_TAKEN},
        {"2^32 + 1 under 2^33", {0x200000000, 1, OPEN, 6}, {0x100000001, 1, CLOSED, 0}, CABINET_KEPT},
        {"2^63 over 2^63 - 1", {INT64_MAX, 8, OPEN, 6}, {(uint64_t)1 << 63, 0, CLOSED, 0}, CABINET_TAKEN},
        {"2^63 - 1 under 2^63", {(uint64_t)1 << 63, 0, OPEN, 6}, {INT64_MAX, 8, CLOSED, 0}, CABINET_KEPT},
        {"2^63 over 0", {0, 8, OPEN, 6}, {(uint64_t)1 << 63, 0, CLOSED, 0}, CABINET_TAKEN},
        {"2^64 - 1 over 0", {0, 8, OPEN, 6}, {UINT64_MAX, 0, CLOSED, 0}, CABINET_TAKEN},
        {"0 under 2^64 - 1", {UINT64_MAX, 0, OPEN, 6}, {0, 8, CLOSED, 0}, CABINET_KEPT},
        {"2^64 - 1 over 2^64 - 2", {UINT64_MAX - 1, 8, OPEN, 6}, {UINT64_MAX, 0, CLOSED, 0}, CABINET_TAKEN},
        {"2^64 - 1 over 2^63", {(uint64_t)1 << 63, 8, OPEN, 6}, {UINT64_MAX, 0, CLOSED, 0}, CABINET_TAKEN},
        {"2^64 - 1, equal stamp", {UINT64_MAX, 8, OPEN, 6}, {UINT64_MAX, 8, CLOSED, 0}, CABINET_KEPT},
        {"2^64 - 1, greater writer", {UINT64_MAX, 7, OPEN, 6}, {UINT64_MAX, 8, CLOSED, 0}, CABINET_TAKEN},
    };
    size_t i;
    for (i = 0; i < COUNT(table); i++)
        check_entries(table[i].name, table[i].held, table[i].offered, table[i].wanted);
}

/* Each on either side and on both, where a sound entry would be taken and where it would be kept. */
static void refused(void)
{
    static const struct {
        const char *name;
        struct entry entry;
    } table[] = {
        {"writer 9", {5, 9, OPEN, 6}},
        {"writer 2^32 - 1", {5, UINT32_MAX, OPEN, 6}},
        {"writer 256, 0 in its low byte", {5, 256, OPEN, 6}},
        {"writer 2^24, 1 in its first byte", {5, 0x01000000, OPEN, 6}},
        {"reading 3", {5, 1, 3, 0}},
        {"reading -1", {5, 1, -1, 0}},
        {"reading INT32_MIN", {5, 1, INT32_MIN, 0}},
        {"reading INT32_MAX", {5, 1, INT32_MAX, 0}},
        {"reading 257, 1 in its low byte", {5, 1, 257, 6}},
        {"reading -255, 1 in its low byte", {5, 1, -255, 6}},
        {"reading 2^24, 1 in its first byte", {5, 1, 0x01000000, 0}},
        {"minutes 241, open", {5, 1, OPEN, 241}},
        {"minutes 256, open", {5, 1, OPEN, 256}},
        {"minutes 2^24, open", {5, 1, OPEN, 0x01000000}},
        {"minutes 2^31, open", {5, 1, OPEN, 0x80000000}},
        {"minutes 2^32 - 1, open", {5, 1, OPEN, UINT32_MAX}},
        {"minutes 1, closed", {5, 1, CLOSED, 1}},
        {"minutes 240, closed", {5, 1, CLOSED, 240}},
        {"minutes 256, closed", {5, 1, CLOSED, 256}},
        {"minutes 2^32 - 1, closed", {5, 1, CLOSED, UINT32_MAX}},
        {"minutes 1, unknown", {5, 1, UNKNOWN, 1}},
        {"minutes 240, unknown", {5, 1, UNKNOWN, 240}},
        {"minutes 256, unknown", {5, 1, UNKNOWN, 256}},
        {"minutes 2^32 - 1, unknown", {5, 1, UNKNOWN, UINT32_MAX}},
        {"minutes 1, reading 3", {5, 1, 3, 1}},
    };
    size_t i;
    uint64_t counter;
    char name[128];
    for (i = 0; i < COUNT(table); i++) {
        for (counter = 4; counter <= 6; counter++) {
            struct entry sound = {0, 1, OPEN, 6}, flawed = table[i].entry;
            sound.counter = counter;
            snprintf(name, sizeof name, "%s, held, counter %" PRIu64 " offered", table[i].name, counter);
            check_entries(name, flawed, sound, CABINET_REFUSED);
            snprintf(name, sizeof name, "%s, offered, counter %" PRIu64 " held", table[i].name, counter);
            check_entries(name, sound, flawed, CABINET_REFUSED);
            snprintf(name, sizeof name, "%s, on both sides, counter %" PRIu64 " offered", table[i].name, counter);
            sound = flawed;
            sound.counter = counter;
            check_entries(name, flawed, sound, CABINET_REFUSED);
        }
    }
}

static void lengths(void)
{
    static const size_t table[] = {0, 1, 19, CABINET_ENTRY_BYTES, 21, 40, LENGTH_8, LENGTH_16};
    size_t i, j;
    uint64_t counter;
    for (i = 0; i < COUNT(table); i++) {
        for (j = 0; j < COUNT(table); j++) {
            for (counter = 4; counter <= 6; counter++) {
                uint8_t h[2 * CABINET_ENTRY_BYTES], o[2 * CABINET_ENTRY_BYTES];
                struct lent held = {NULL, sizeof h, 0}, offered = {NULL, sizeof o, 0};
                struct entry e = {5, 1, CLOSED, 0};
                char name[128];
                if (table[i] == CABINET_ENTRY_BYTES && table[j] == CABINET_ENTRY_BYTES)
                    continue;
                /* Two entries in a row, so that 40 bytes are refused for their length alone. */
                encode(h, e);
                encode(h + CABINET_ENTRY_BYTES, e);
                e.counter = counter;
                encode(o, e);
                encode(o + CABINET_ENTRY_BYTES, e);
                held.bytes = h;
                held.length = table[i];
                offered.bytes = o;
                offered.length = table[j];
                snprintf(name, sizeof name, "length %lu held, %lu offered, counter %" PRIu64 " offered",
                         (unsigned long)table[i], (unsigned long)table[j], counter);
                check(name, held, offered, CABINET_REFUSED);
            }
        }
    }
}

static uint64_t counter_byte(int place, uint64_t value)
{
    return value << (56 - 8 * place);
}

/* A difference in one byte shows a byte that is left out. It cannot show the order of the bytes: for that one byte
   differs one way and another the other way, and the byte that stands first decides. */
static void counter_bytes(void)
{
    const uint64_t ground = 0x4040404040404040;
    struct entry low = {0, 3, OPEN, 6}, high = {0, 3, CLOSED, 0};
    int i, j;
    char name[128];
    for (i = 0; i < 8; i++) {
        low.counter = ground;
        high.counter = ground + counter_byte(i, 1);
        snprintf(name, sizeof name, "counter byte %d alone is greater", i);
        check_entries(name, low, high, CABINET_TAKEN);
        snprintf(name, sizeof name, "counter byte %d alone is less", i);
        check_entries(name, high, low, CABINET_KEPT);
        low.counter = 0;
        high.counter = counter_byte(i, 0xff);
        snprintf(name, sizeof name, "counter byte %d is ff, all others 0, over 0", i);
        check_entries(name, low, high, CABINET_TAKEN);
        snprintf(name, sizeof name, "0 under counter byte %d ff, all others 0", i);
        check_entries(name, high, low, CABINET_KEPT);
        for (j = i + 1; j < 8; j++) {
            low.counter = ground + counter_byte(j, 0x80);
            high.counter = ground + counter_byte(i, 1);
            snprintf(name, sizeof name, "counter byte %d greater, byte %d less", i, j);
            check_entries(name, low, high, CABINET_TAKEN);
            snprintf(name, sizeof name, "counter byte %d less, byte %d greater", i, j);
            check_entries(name, high, low, CABINET_KEPT);
        }
    }
}

static void writers(void)
{
    uint32_t w, v;
    char name[128];
    for (w = 0; w <= 8; w++) {
        for (v = 0; v <= 8; v++) {
            struct entry held = {7, 0, OPEN, 6}, offered = {7, 0, CLOSED, 0};
            held.writer = w;
            offered.writer = v;
            snprintf(name, sizeof name, "writer %" PRIu32 " held, %" PRIu32 " offered, same counter", w, v);
            check_entries(name, held, offered, v > w ? CABINET_TAKEN : CABINET_KEPT);
            snprintf(name, sizeof name, "writer %" PRIu32 " held, %" PRIu32 " offered, greater counter", w, v);
            offered.counter = 8;
            check_entries(name, held, offered, CABINET_TAKEN);
            snprintf(name, sizeof name, "writer %" PRIu32 " held, %" PRIu32 " offered, lesser counter", w, v);
            offered.counter = 6;
            check_entries(name, held, offered, CABINET_KEPT);
        }
    }
}

/* ---- Cases that the oracle answers. ---- */

static void check_by_oracle(const char *name, struct entry held, struct entry offered)
{
    check_entries(name, held, offered, answer_for(held, offered));
}

static struct entry flipped(struct entry e, int bit)
{
    if (bit < 64)
        e.counter ^= (uint64_t)1 << bit;
    else if (bit < 96)
        e.writer ^= (uint32_t)1 << (bit - 64);
    else if (bit < 127)
        e.reading ^= (int32_t)1 << (bit - 96);
    else if (bit == 127)
        e.reading ^= INT32_MIN;
    else
        e.minutes ^= (uint32_t)1 << (bit - 128);
    return e;
}

static void one_bit(void)
{
    static const struct entry table[] = {
        {0, 0, UNKNOWN, 0},
        {1, 1, OPEN, 0},
        {0x0123456789abcdef, 5, OPEN, 113},
        {0xfedcba9876543210, 2, CLOSED, 0},
        {UINT64_MAX, 8, OPEN, 240},
    };
    size_t i;
    int bit;
    for (i = 0; i < COUNT(table); i++) {
        for (bit = 0; bit < 160; bit++) {
            check_by_oracle("one bit flipped in offered", table[i], flipped(table[i], bit));
            check_by_oracle("one bit flipped in held", flipped(table[i], bit), table[i]);
        }
    }
}

static const uint64_t counters[] = {0, 1, UINT32_MAX, (uint64_t)1 << 32, INT64_MAX, (uint64_t)1 << 63, UINT64_MAX};
static const uint32_t some_writers[] = {0, 1, 8, 9, UINT32_MAX};
static const int32_t readings[] = {UNKNOWN, OPEN, CLOSED, 3, -1, INT32_MIN, INT32_MAX};
static const uint32_t some_minutes[] = {0, 1, 240, 241, UINT32_MAX};

enum { EDGES = COUNT(counters) * COUNT(some_writers) * COUNT(readings) * COUNT(some_minutes) };

static struct entry edge(size_t i)
{
    struct entry e;
    e.counter = counters[i % COUNT(counters)];
    i /= COUNT(counters);
    e.writer = some_writers[i % COUNT(some_writers)];
    i /= COUNT(some_writers);
    e.reading = readings[i % COUNT(readings)];
    i /= COUNT(readings);
    e.minutes = some_minutes[i];
    return e;
}

static void edges(void)
{
    size_t i, j;
    for (i = 0; i < EDGES; i++)
        for (j = 0; j < EDGES; j++)
            check_by_oracle("edge values, all pairs", edge(i), edge(j));
}

/* splitmix64, from a fixed seed */
static uint64_t drawn(void)
{
    static uint64_t state = 20;
    uint64_t z = state += 0x9e3779b97f4a7c15;
    z = (z ^ (z >> 30)) * 0xbf58476d1ce4e5b9;
    z = (z ^ (z >> 27)) * 0x94d049bb133111eb;
    return z ^ (z >> 31);
}

static struct entry drawn_entry(void)
{
    struct entry e;
    e.counter = drawn();
    e.writer = (uint32_t)(drawn() % 9);
    e.reading = (int32_t)(drawn() % 3);
    e.minutes = e.reading == OPEN ? (uint32_t)(drawn() % 241) : 0;
    return e;
}

/* Two entries drawn freely nearly always differ in the first byte of their counters, and 20 bytes drawn freely are
   nearly never an entry: hence sound entries, near counters, and at times a flipped bit. */
static void drawn_pairs(void)
{
    long i;
    for (i = 0; i < 1000000; i++) {
        struct entry held = drawn_entry(), offered = drawn_entry();
        switch (drawn() % 4) {
        case 0:
            offered.counter = held.counter;
            break;
        case 1:
            offered.counter = held.counter ^ counter_byte((int)(drawn() % 8), 0x5b);
            break;
        case 2:
            offered.counter = held.counter + drawn() % 5 - 2;
            break;
        }
        if (drawn() % 4 == 0)
            held = flipped(held, (int)(drawn() % 160));
        if (drawn() % 4 == 0)
            offered = flipped(offered, (int)(drawn() % 160));
        check_by_oracle("drawn pairs", held, offered);
    }
}

/* ---- Stored vectors. ---- */

static void must(int done, const char *what)
{
    if (!done) {
        perror(what);
        exit(2);
    }
}

enum { VECTOR_BYTES = 40 };

static int decode_hex(const char *text, uint8_t *bytes, size_t *n)
{
    const char *const digits = "0123456789abcdef";
    for (*n = 0; *text != '\0'; ++*n) {
        const char *high = strchr(digits, text[0]);
        const char *low = text[1] == '\0' ? NULL : strchr(digits, text[1]);
        if (high == NULL || low == NULL || *n == VECTOR_BYTES)
            return 0;
        bytes[*n] = (uint8_t)((high - digits) * 16 + (low - digits));
        text += 2;
    }
    return 1;
}

static void vectors(const char *path)
{
    FILE *file = fopen(path, "r");
    char line[256], name[128], held_hex[96], offered_hex[96], rest;
    unsigned long number = 0;
    must(file != NULL, path);
    while (fgets(line, sizeof line, file) != NULL) {
        uint8_t h[VECTOR_BYTES], o[VECTOR_BYTES];
        struct lent held = {NULL, 0, 0}, offered = {NULL, 0, 0};
        uint32_t wanted;
        snprintf(name, sizeof name, "vector, line %lu", ++number);
        if (sscanf(line, "%95s %95s %" SCNu32 " %c", held_hex, offered_hex, &wanted, &rest) != 3 ||
            !decode_hex(held_hex, h, &held.laid) || !decode_hex(offered_hex, o, &offered.laid)) {
            cases++;
            wrong++;
            printf("wrong: %s: not two buffers and an answer\n", name);
            continue;
        }
        held.bytes = h;
        held.length = held.laid;
        offered.bytes = o;
        offered.length = offered.laid;
        check(name, held, offered, wanted);
    }
    if (ferror(file) || number == 0) {
        cases++;
        wrong++;
        printf("wrong: vectors: none read\n");
    }
    fclose(file);
}

/* ---- Buffers at the edge of a page. ----
   The archive is not compiled with the sanitizers, so they do not see it read past a buffer, or write to offered and
   put back what stood there. The processor does. */

static char under_way[128];

static void faulted(int number)
{
    static const char said[] = ": touched memory that it was not lent\n";
    (void)number;
    if (write(STDOUT_FILENO, under_way, strlen(under_way)) < 0 || write(STDOUT_FILENO, said, sizeof said - 1) < 0)
        _exit(2);
    _exit(1);
}

static uint8_t *page_alone(size_t page)
{
    uint8_t *at = mmap(NULL, 3 * page, PROT_NONE, MAP_PRIVATE | MAP_ANONYMOUS, -1, 0);
    must(at != MAP_FAILED, "mmap");
    must(mprotect(at + page, page, PROT_READ | PROT_WRITE) == 0, "mprotect");
    return at + page;
}

static void check_at_edge(int at_end, size_t held_len, size_t offered_len, uint64_t counter)
{
    static uint8_t *held_page, *offered_page;
    static size_t page;
    uint8_t h[CABINET_ENTRY_BYTES], o[CABINET_ENTRY_BYTES], *held, *offered;
    struct entry e = {5, 1, OPEN, 6};
    uint32_t got, wanted = CABINET_REFUSED;

    if (page == 0) {
        page = (size_t)sysconf(_SC_PAGESIZE);
        held_page = page_alone(page);
        offered_page = page_alone(page);
    }
    encode(h, e);
    e.counter = counter;
    encode(o, e);
    if (held_len == CABINET_ENTRY_BYTES && offered_len == CABINET_ENTRY_BYTES)
        wanted = counter > 5 ? CABINET_TAKEN : CABINET_KEPT;
    snprintf(under_way, sizeof under_way, "wrong: page %s, length %lu held, %lu offered, counter %" PRIu64 " offered",
             at_end ? "end" : "start", (unsigned long)held_len, (unsigned long)offered_len, counter);
    held = held_page + (at_end ? page - held_len : 0);
    offered = offered_page + (at_end ? page - offered_len : 0);
    memcpy(held, h, held_len);
    memcpy(offered, o, offered_len);
    must(mprotect(offered_page, page, PROT_READ) == 0, "mprotect");
    got = cabinet_offer(held, held_len, offered, offered_len);
    must(mprotect(offered_page, page, PROT_READ | PROT_WRITE) == 0, "mprotect");
    cases++;
    if (got != wanted || memcmp(held, wanted == CABINET_TAKEN ? o : h, held_len) != 0) {
        wrong++;
        printf("%s: got %" PRIu32 ", wanted %" PRIu32 "%s\n", under_way, got, wanted,
               got == wanted ? "; held differs" : "");
    }
}

static void at_page_edges(void)
{
    static const size_t table[] = {0, 1, 8, 12, 16, 19, CABINET_ENTRY_BYTES};
    struct sigaction act;
    size_t i, j;
    uint64_t counter;
    memset(&act, 0, sizeof act);
    act.sa_handler = faulted;
    must(sigaction(SIGSEGV, &act, NULL) == 0 && sigaction(SIGBUS, &act, NULL) == 0, "sigaction");
    for (i = 0; i < COUNT(table); i++) {
        for (j = 0; j < COUNT(table); j++) {
            for (counter = 4; counter <= 6; counter++) {
                check_at_edge(0, table[i], table[j], counter);
                check_at_edge(1, table[i], table[j], counter);
            }
        }
    }
}

int main(int argc, char **argv)
{
    if (argc != 2) {
        fprintf(stderr, "usage: offer vectors.txt\n");
        return 2;
    }
    /* so that a fault loses nothing that was said before it */
    setvbuf(stdout, NULL, _IOLBF, BUFSIZ);
    stated();
    refused();
    lengths();
    counter_bytes();
    writers();
    one_bit();
    edges();
    drawn_pairs();
    vectors(argv[1]);
    at_page_edges();
    printf("offer: %lu cases, %lu wrong\n", cases, wrong);
    return wrong != 0;
}
