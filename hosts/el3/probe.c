/* Calls that Linux never makes: each function of both conventions, with targets, levels and words that
 * are nobody's, and with bits set that do not count. What is answered is the record's to say. */
#include "payload.h"

#define COUNT_OF(list) (sizeof(list) / sizeof *(list))

static const uint64_t targets[] = {0, 1, 2, 3, 4, 7, 8, 0x100, 0x101, 0x10000, 0x80000000, 0x80000001,
                                   1ull << 32, (1ull << 32) + 1, 0xffffffff00000001, ~0ull};
static const uint64_t levels[] = {0, 1, 2, 3, 4, 1ull << 32, (1ull << 32) + 1, ~0ull};
static const uint64_t entries[] = {0, 0x3fffffff, 0x40000002, 0x5ffffffe, 0x60000000, ~0ull, 0x140000000};
static const uint64_t words[] = {0, 2, 3, 0x10000, 0x00010002, 0x01010003, 0x02010323, 0x03013333,
                                 0x40000003, 0x80000003, ~0ull};
static uint64_t many;

static void call(uint64_t x0, uint64_t x1, uint64_t x2, uint64_t x3) {
    smc(x0, x1, x2, x3);
    many++;
}

/* A core that was asked on waits for ever. */
__asm__(".global other\n other: wfi\n b other\n");
void other(void);

/* Of both conventions, and with the upper half of x0 set, which does not count. */
static void both(uint32_t function, uint64_t x1, uint64_t x2, uint64_t x3) {
    call(0x84000000 | function, x1, x2, x3);
    call(0xc4000000 | function, x1, x2, x3);
    call(0xdeadbeef84000000 | function, x1, x2, x3);
}

void begin(void) {
    for (uint32_t function = 0x14; function < 0x20; function++)
        both(function, 0, 0, 0);
    for (unsigned t = 0; t < COUNT_OF(targets); t++)
        for (unsigned l = 0; l < COUNT_OF(levels); l++) {
            both(4, targets[t], levels[l], 0);
            both(13, targets[t], levels[l], 0);
        }
    for (unsigned t = 0; t < COUNT_OF(targets); t++)
        for (unsigned e = 0; e < COUNT_OF(entries); e++)
            both(3, targets[t], entries[e], 7);
    for (unsigned t = 0; t < COUNT_OF(targets); t++) {
        both(3, targets[t], (uint64_t)other, targets[t]);
        both(10, 0x84000000 + t, 0, 0);
        both(10, 0xc4000000 + t, 0, 0);
        both(18, targets[t] | 1, 0, 0);
    }
    for (unsigned w = 0; w < COUNT_OF(words); w++)
        both(1, words[w] | 0x04000000, (uint64_t)other, 0);
    for (unsigned e = 0; e < COUNT_OF(entries); e++)
        both(14, entries[e], 0, 0);
    both(15, 2, 0, 0);
    say("guest: probe: calls ", many);
    /* the cores that were asked on come to their entry, which on a busy machine takes some time */
    for (unsigned t = 0; t < COUNT_OF(targets); t++)
        while (smc(0xc4000004, targets[t], 0, 0) == 2)
            for (volatile unsigned turns = 0; turns < 1000000; turns++) {
            }
    smc(0x84000008, 0, 0, 0);
    for (;;) {
    }
}
