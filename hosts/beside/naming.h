/* What a machine's words mean, once more: written from docs/port/FORMATS.md ("Machine text"), as the second model
 * is, over the struct that C gives. machines.c holds the library to it. */
#ifndef GUMDARTS_BESIDE_NAMING_H
#define GUMDARTS_BESIDE_NAMING_H

#include "psci.h"

struct naming {
    struct psci_board board;
    struct psci_machine machine;
    uint64_t boot;
    uint32_t cores, boot_core;                /* of the tree; the core of the tree that boots */
    uint8_t fields[PSCI_MOST_CORES][4];       /* of each core its number among its siblings, level by level */
};

/* Fills cores and fields by the board, which has no fault. */
void naming_of_board(struct naming *);

/* What psci_open_machine has to answer; afterwards boot_core is known where that is 0. */
uint32_t naming_fault(struct naming *);

/* The registers that a call of the machine stands for, and what else it asks, in OS-initiated mode or not. */
void naming_call(const struct naming *, bool initiated, uint64_t x[4], struct psci_asked *);

/* The core of the tree that a core of the firmware is, and the other way. */
uint32_t naming_core(const struct naming *, uint32_t core);

#endif
