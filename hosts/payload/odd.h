/* Looks at what no answer of a call shows. What is found is a line of the record. */
#ifndef PAYLOAD_ODD_H
#define PAYLOAD_ODD_H
#include <stdint.h>

enum odd { RUNS_ON, LOST_INTERRUPT, LEFT_INTERRUPTS, OLD_STATE, OTHER_FREQUENCY };

/* The core counts on for ever, and tells where a life goes on so long after a call that ends it. */
void beat(uint32_t core);
void life_begins(void);
void life_ends(void);
/* Whether this core counts, which is to stand. */
void look_for_beats(uint32_t core);

/* Whether this software interrupt is pending for the core that looks. */
void look_for_rings(uint32_t core, uint32_t of);
/* Whether any interrupt but the timer's is on, pending or active. */
void look_for_interrupts(uint32_t core);

/* At EL2: a trap that an entry has to find gone. At boot and at an entry: that, and the frequency of the counter. */
void mark(uint32_t core);
void look_at_entry(uint32_t core);

/* gic.c: turns a software interrupt on for this core, and rings another one by it; whether it is pending here; makes a
 * shared interrupt pending; the number of the first one that is on, pending or active. */
void ring_on(uint32_t of);
void ring(uint32_t core, uint32_t of);
int is_rung(uint32_t of);
void leave_interrupt(uint32_t of);
uint32_t first_left(void);
#endif
