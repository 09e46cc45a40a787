/* The machine as the library is told of it: its board, and what it calls its cores, power states and
 * functions. All of it is listed in table.h, which `machine table` writes of a machine's text
 * (docs/port/FORMATS.md). Nothing is reckoned here: which core a register names is the library's to say. */
#ifndef BOARD_H
#define BOARD_H

#include "machine.h"
#include "psci.h"
#include "table.h"

extern const struct psci_board board;
extern const struct psci_machine described;

/* Of each core the nodes that it is below, by the firmware's numbers, from its own up. */
extern const uint16_t paths[CORES][LEVELS];

/* The core that the operating system is not shown, behind all others, where the machine has one: the system control
 * processor; and how many cores have a stack. */
#ifdef SCP_MPIDR
enum { SCP = CORES, STACKED = CORES + 1 };
#else
enum { STACKED = CORES };
#endif

/* The affinity fields of this core. */
static inline uint64_t own_mpidr(void) { return read_register("mpidr_el1") & AFFINITY; }

/* The number that the firmware has for this core, at the end of its stack, where reset.S has left room. */
static inline uint64_t *own_number(void) { return own_place(); }
static inline unsigned this_core(void) { return *own_number(); }
#endif
