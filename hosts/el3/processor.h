/* What the port knows of processors, by the part number in MIDR_EL1: processor.S has the table. */
#ifndef PROCESSOR_H
#define PROCESSOR_H

/* How a core leaves the others, before its power goes. */
#define UNKNOWN 0   /* its caches are cleaned, and it has no coherency that it could leave */
#define SMPEN 1     /* its caches are cleaned, and then CPUECTLR_EL1.SMPEN is cleared */
#define PREFETCH 2  /* the same, and what it prefetches into the shared cache is stopped before */
#define ITSELF 3    /* it does all that in its WFI, by CPUPWRCTLR_EL1.CORE_PWRDN_EN */

/* What its predictor of branches keeps of one world for another. */
#define NOBODY_KNOWS 0
#define NOTHING 1   /* it predicts nothing that a caller could have taught it */
#define BY_MMU 2    /* it forgets as the MMU goes off and on */
#define BY_LOOP 3   /* it forgets the history of branches behind a loop of them */
#define BY_AARCH32 4 /* it forgets by BPIALL of AArch32 alone, which this port does not have */

/* Bytes of a line of the table. */
#define PART 4

#ifndef __ASSEMBLER__
#include <stdint.h>

struct part {
    uint16_t number;
    uint8_t leaves, forgets;
};
_Static_assert(sizeof(struct part) == PART, "a line of processor.S");

/* By its number up to a line with number 0, which is of all others. */
extern const struct part parts[];
#endif
#endif
