/* What a core does in EL3. */
#ifndef MONITOR_H
#define MONITOR_H

#include "context.h"
#include "gic.h"
#include "machine.h"
#include "psci_port.h"

#include <stdbool.h>
#include <stdint.h>

/* reset.S and normal.S */
_Noreturn void cold(void);
void begin_normal_world(void);
_Noreturn void leave_for(uint64_t address, uint64_t x0);

/* stand.S: how much of the caches a stop takes down. The last word of a core that stops, where it has one, and what
 * rings whom it is for: gic.h's bell, or zeros. */
enum caches { NO_CACHES, OWN_CACHES, ALL_CACHES };
struct last_word {
    uint64_t *word, says;
    struct bell bell;
};
void stand(const struct last_word *, enum caches);

/* features.c */
void open_features(void);

/* entry.c: a core waits at its door until it takes up a start; an entry comes back where it resumes, with what goes into
 * x0, beside the registers that it kept. */
_Noreturn void on_reset(void);
void begin_stop(unsigned core); /* under the lock: the core is about to stop */
void wait_for_start(struct psci_port_core *, enum caches caches);
uint64_t enter(struct psci_port_core *);

/* smccc.c: what goes into x0 of a call that is none of the firmware's, but of the calling convention
 * itself, or nobody's. */
enum { PSCI_FEATURES = 0x8400000a, SMCCC_VERSION = 0x80000000 };
uint64_t answer_beside(const uint64_t *x);

/* start.c: once after each reset of the machine, by the core that boots. */
void start_machine(void);

/* scp.c */
_Noreturn void control_power(void);
#endif
