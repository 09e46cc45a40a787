/* A machine of four cores in two clusters that is played, with the firmware and the power controller of
 * the library: what the hosts have in common that try docs/port/PORTING.md one rule at a time. */
#ifndef MACHINE_H
#define MACHINE_H

#include "psci_ctl.h"

#include <stdbool.h>
#include <stdint.h>

enum { CORES = 4, LEVELS = 3, SYSTEM = CORES };
enum { ON = 0xc4000003, OFF = 0x84000002, SUSPEND = 0xc4000001, INFO = 0xc4000004, HW = 0xc400000d };
enum { SYSTEM_OFF = 0x84000008, SYSTEM_RESET = 0x84000009 };
/* Power states: standby and retention of a core, power-down of it, and up to the system. */
enum { STANDBY = 1, RETENTION = 2, CORE_DOWN = 0x00010003, ALL_DOWN = 0x02010333 };

/* Two clusters of two cores, in memory from 0x40000000 to 0x40100000. */
extern const struct psci_board two_by_two;

extern struct psci_place firmware;
extern struct psci_ctl_place controller;

/* What the last call of each of the two answered. */
extern struct psci_answer said;
extern struct psci_ctl_answer done;

/* Which cores execute the normal world, and the mailbox: a place for each core and one for the
 * system, in which a newer frame takes that of an older one. */
extern bool runs[CORES];
extern struct psci_frame box[CORES + 1];

void fail(const char *why, uint64_t what);

/* Cold reset: an empty mailbox, and both sides opened on the board, each on memory of its own. No core
 * runs. */
void cold_reset(const struct psci_board *);

/* The firmware's memory as at cold reset, and a new firmware in it; no core runs. */
void open_anew(const struct psci_board *);

/* The memory that the heap of the firmware is in. */
enum { HEAP = 1 << 14 };
extern unsigned char firmware_heap[HEAP];

/* The affinity word of a core. */
uint64_t word_of(unsigned core);

/* A call of a core, and its entry by a start that it finds; what `said` has. */
uint32_t smc(unsigned core, uint64_t x0, uint64_t x1, uint64_t x2, uint64_t x3);
uint32_t enter_by(unsigned core, const struct psci_ctl_start *);
uint32_t enter(unsigned core);

/* The code that the last call returned. */
int32_t code_of(uint32_t what);

/* The power controller carries out what stands in this place of the mailbox, and the firmware takes the
 * acknowledgement. A core that is started does not enter by itself. */
void deliver(unsigned place);
void serve(void);

/* A core that stopped in its present start has a wake-up event, and enters. */
uint32_t wake(unsigned core);

/* All that the readers of the firmware say. */
struct readings {
    uint64_t of_all[2], of_nodes[LEVELS][CORES][3], of_cores[CORES][2];
    struct psci_frame outstanding[CORES + 1];
};
void read_all(struct readings *);
bool is_same(const struct readings *);

#endif
