/* Entry points far from the image, so that each bit of an address of the memory is set in one of them. Which they are
 * topics.py says, by `place`; each is written where there is memory. */
#include "machine.h"

enum { PLACES = 0x1000000, FIRST_BIT = 6, LAST_BIT = 31, NEAR = 0x80, BESIDE = 0x40 };

extern char place[], place_beside[];

static int is_memory(uint64_t at) {
    return machine.memory <= at && at + 64 <= machine.memory_end;
}

static void write_place(uint64_t at) {
    if (!is_memory(at)) return;
    for (uint32_t word = 0; word < 5; word++)
        store(at + 4 * word, load((uintptr_t)place + 4 * word));
    store(at + 20, (uint32_t)(uintptr_t)from_entry);
    store(at + 24, (uintptr_t)from_entry >> 32);
}

void places_ready(void) {
    uint64_t first = (uintptr_t)head + PLACES;
    write_place(first);
    for (uint32_t bit = FIRST_BIT; bit <= LAST_BIT; bit++) write_place(first + (1ul << bit));
    /* of a low bit, where two places would stand in each other: what enters without it comes to a third one */
    for (uint32_t bit = 2; bit < FIRST_BIT; bit++) {
        uint64_t near = first + 256 * bit + NEAR;
        if (is_memory(near)) store(near, load((uintptr_t)place_beside));
        write_place(near + BESIDE);
        write_place(near + (1ul << bit));
    }
    __asm__ volatile("dsb sy\n ic ialluis\n dsb sy\n isb" ::: "memory");
}
