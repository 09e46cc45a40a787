/* Raspberry Pi 3 B: no GIC. The bell is mailbox 3 of a core, as a FIQ; all else is the normal world's. */
#include "board.h"
#include "gic.h"
#include "hooks.h"

/* Of each core a word of the local controller: what its timers and mailboxes are routed to, what rings, what is heard. */
enum { TIMERS = 0x40, MAILBOXES = 0x50, RING = 0x8c, RANG = 0xcc, BELL_FIQ = 0x80 };
#define OF(core, what, step) mmio32(LOCAL + (what) + (step) * (core))

static unsigned here(void) { return own_mpidr() & 3; }

void gic_start(void) { OF(BOOT & 3, MAILBOXES, 4) = BELL_FIQ; }

/* No reset of a core alone is there, and what the normal world sets keeps the bit. */
bool gic_is_started(void) { return OF(BOOT & 3, MAILBOXES, 4) & BELL_FIQ; }

void gic_start_core(unsigned core) {
    (void)core;
    OF(here(), MAILBOXES, 4) |= BELL_FIQ;
}

void gic_forget(void) {}

void gic_bell_alone(void) {
    OF(here(), TIMERS, 4) = 0;
    OF(here(), MAILBOXES, 4) = BELL_FIQ;
}

void gic_ring(unsigned core) {
    __asm__ volatile("dsb sy" ::: "memory");
    OF(described.mpidrs[core] & 3, RING, 16) = 1;
}

bool gic_answer(void) {
    OF(here(), RANG, 16) = ~0u;
    __asm__ volatile("dsb sy" ::: "memory");
    return false;
}

bool gic_wakes(void) { return read_register("isr_el1") & 0x80; }

void board_begins(void) { mmio32(AUX + 4) |= 1; /* the mini UART is on */ }

/* The watchdog of the power manager ends a life, after one turn of its clock. Partition 63 says that it is off. */
_Noreturn void board_ends(bool resets) {
    enum { RSTC = 0x1c, RSTS = 0x20, WDOG = 0x24, PASSWORD = 0x5a000000, FULL_RESET = 0x20, HALT = 0x555 };
    mmio32(PM + RSTS) = PASSWORD | (resets ? 0 : HALT);
    mmio32(PM + WDOG) = PASSWORD | 16;
    mmio32(PM + RSTC) = PASSWORD | FULL_RESET;
    for (;;)
        wait_for_interrupt();
}
