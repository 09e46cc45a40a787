/* The interrupt controller: gicv2.c, gicv3.c, or a board's own. Secure interrupts (group 0, FIQs) are the monitor's:
 * the bell, by which who has written into shared memory has another core look there, and the timer.
 * In the normal world they trap to EL3, and in EL3 they end a WFI. All others are the normal world's. */
#ifndef GIC_H
#define GIC_H

#include "machine.h"

#include <stdbool.h>
#include <stdint.h>

enum { BELL = 15, TIMER = 29 };
/* Of the 32 interrupts that each core has for itself: all but SGIs 8 to 15 and the secure timer. */
#define NORMAL_WORLD (~(0xff00u | 1u << TIMER))

/* IPRIORITYR, which a reset leaves unknown: of the own interrupts of a core the monitor's come before all others. */
static inline void put_first(uintptr_t frame) {
    mmio32(frame + 0x400 + (BELL & ~3)) &= ~(0xffu << BELL % 4 * 8);
    mmio32(frame + 0x400 + (TIMER & ~3)) &= ~(0xffu << TIMER % 4 * 8);
}

void gic_start(void);               /* once after a reset, by one core, as the last thing before others go on */
bool gic_is_started(void);          /* not since the machine was reset, whoever did that */
void gic_start_core(unsigned core); /* by each core that comes out of reset, which can be rung then */
void gic_ring(unsigned core);

/* What rings this core: a word into a register of the controller, or into ICC_SGI0R_EL1 where `at` is 0. 0 is none. */
struct bell { uint64_t at, value; };
struct bell gic_bell(unsigned core);

/* What rang is answered, and rings no more: whether the timer of this core did. */
bool gic_answer(void);

/* By a core that was reset by a line of its own, which leaves the controller as it was. */
void gic_forget(void);

/* An interrupt of the normal world is there for this core. */
bool gic_wakes(void);

/* None is there from now on, until the normal world turns its interface on again. */
void gic_bell_alone(void);

/* What is there from now on ends a WFI, and gic_wakes says so. */
void gic_opens(void);

/* By a core whose power goes, last of all: its part of the controller sleeps. By one whose power did not go: it is as
 * it was, by what the other one has answered. */
uint64_t gic_sleeps(void);
void gic_rises(uint64_t groups);
#endif
