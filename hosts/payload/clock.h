/* One clock that all cores count up, the time, and the timer that wakes a core. */
#ifndef PAYLOAD_CLOCK_H
#define PAYLOAD_CLOCK_H
#include <stdint.h>

/* The next time of the clock: no two are alike. */
uint32_t tick(void);
/* Adds to a number that others change, too; what it was. */
uint32_t add(volatile uint32_t *number, uint32_t by);

uint64_t after(uint64_t microseconds);
int is_past(uint64_t time);
void timer_set(uint64_t microseconds);
void timer_clear(void);
/* Lets the timer's interrupt of this core be pending, which ends a WFI; interrupts stay masked. */
void interrupts_ready(void);

#endif
