/* What plays the events of a script over the library: calls, entries and acknowledgements go to its
 * firmware, and messages, wake-ups and resets to its power controller. A host opens the two and says how
 * its lines name a core. */
#ifndef PLAYER_H
#define PLAYER_H

#include "psci_ctl.h"

#include <stdint.h>

/* The host opens both, and gives them back. */
extern struct psci_place place;
extern struct psci_ctl_place controller;

/* The life that the board is in: 0 before the first. */
extern uint32_t life;

/* The first life begins: the boot core, which has number 0, is started. */
void begin_life(void);

/* One event: writes its answer, without what comes before it in its line and without its end. */
void event(char *line);

/* Says why on standard error, and ends the host with 1. */
void fail(const char *why);

/* What each host says of itself: the core that a word of its scripts names, or UINT16_MAX where there is
 * none; how its lines name a core; what they say of a core that stops; what comes before an entry. */
unsigned core_named(uint64_t word);
void write_core(unsigned core);
void write_asked(const struct psci_asked *);
void before_entry(void);

#endif
