/* How many instructions a call takes, from its SMC to the next instruction of the caller, where QEMU
 * counts an instruction as a nanosecond. */
#include "payload.h"

enum { TIMES = 1000 };

/* In ticks of 16 nanoseconds. */
static uint64_t now(void) {
    uint64_t it;
    __asm__ volatile("isb\n mrs %0, cntpct_el0" : "=r"(it));
    return it;
}

static void cost(const char *name, uint64_t x0, uint64_t x1, uint64_t x2) {
    uint64_t begun = now();
    for (int i = 0; i < TIMES; i++)
        smc(x0, x1, x2, 0);
    uint64_t calls = now() - begun;
    begun = now();
    for (int i = 0; i < TIMES; i++)
        __asm__ volatile("" ::: "memory");
    say(name, (calls - (now() - begun)) * 16 / TIMES);
}

void begin(void) {
    cost("cost: a word that is not PSCI's: ", 0x90000000, 0, 0);
    cost("cost: PSCI_VERSION: ", 0x84000000, 0, 0);
    cost("cost: PSCI_FEATURES: ", 0x8400000a, 0xc4000001, 0);
    cost("cost: AFFINITY_INFO of a core: ", 0xc4000004, 1, 0);
    cost("cost: AFFINITY_INFO of a domain above: ", 0xc4000004, 1, 1);
    cost("cost: CPU_ON that is ALREADY_ON: ", 0xc4000003, 0, 0x40200000);
    smc(0x84000008, 0, 0, 0);
    for (;;) {
    }
}
