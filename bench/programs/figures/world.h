/* A firmware and its power controller, the states that lists of words bring them into, and their memory. */
#ifndef WORLD_H
#define WORLD_H

#include "psci_guest.h"
#include "psci_record.h"

enum { ENTRY = 0x40001000, MOST = PSCI_MOST_CORES };

extern struct psci_place firmware;
extern struct psci_ctl_place controller;
extern struct psci_poller poller;
extern struct psci_board board;
extern struct psci_machine words;
extern unsigned cores, height;
extern bool has_machine;  /* the calls are in the words of a machine */
extern bool is_initiated; /* by the operating system: CPU_SUSPEND's mode */

/* A board by its name, and a machine of it by its own: false where there is none. The names are those of the lists. */
bool world_open(const char *board, const char *machine);

/* A new life of a new firmware, in which the boot core runs; then what the words say, one after the other. */
bool world_play(const char *words);

/* The memory of both, kept as it is; back: as it was kept. */
void world_keep(void);
void world_back(void);

/* The affinity word of a core, of the board and as it is called; the least core from this one on that runs, in a ring, or
 * the number of cores. */
uint64_t affinity_of(unsigned core);
uint64_t called(unsigned core);
unsigned running_from(unsigned core);

/* The power state word of this depth up to a level. */
uint32_t state_word(unsigned level, unsigned depth);

/* The heap refuses the request of this number, counted from 1, from now on; 0 for none. How many there were since. */
void heap_refuse(long number);
long heap_requests(void);

#endif
