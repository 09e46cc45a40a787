/* The power controller, where it runs, and how a core tells it of itself. */
#ifndef POWER_H
#define POWER_H

#include "monitor.h"
#include "shared.h"

#include <stdbool.h>

/* power.c: what a core has said of itself is heard; a message of the firmware, as it came; what has waited for a core, if
 * it stands by now; a wake-up of a core in its stop, and whether that starts it; a core finds its start at its door, as
 * the boot core does when a life begins. */
void hear(unsigned core);
void carry_out(const uint8_t *frame);
bool serve_waiting(unsigned core);
bool wake(unsigned core);
void open_door(unsigned core);

/* scp.c or monitors.c: an acknowledgement goes back; the life is about to end. */
void acknowledge(const uint8_t *frame);
void stop_calls(void);

/* link.c or monitors.c, by a core of itself: it stands in its stop, which it says now or by its last word; an interrupt
 * is there for it. */
struct last_word tell_stop(struct psci_port_core *, enum caches caches);
void tell_wake_up(struct psci_port_core *);

/* The last start of the core in which it stood with its caches clean. */
uint64_t clean_start(unsigned core);
#endif
