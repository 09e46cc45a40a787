/* A processor that is played by breakpoints, and what is tried on it. */
#ifndef SILICON_H
#define SILICON_H

#include "board.h"
#include "monitor.h"
#include "processor.h"

#include <setjmp.h>

#define BIT(n) (1ull << (n))
#define KEY(op0, op1, crn, crm, op2) ((op0) << 14 | (op1) << 11 | (crn) << 7 | (crm) << 3 | (op2))
enum {
    MIDR = KEY(3, 0, 0, 0, 0), MPIDR = KEY(3, 0, 0, 0, 5), PFR0 = KEY(3, 0, 0, 4, 0), PFR1 = KEY(3, 0, 0, 4, 1),
    MMFR2 = KEY(3, 0, 0, 7, 2), CCSIDR = KEY(3, 1, 0, 0, 0), CLIDR = KEY(3, 1, 0, 0, 1), CSSELR = KEY(3, 2, 0, 0, 0),
    SCTLR = KEY(3, 6, 1, 0, 0), SCR = KEY(3, 6, 1, 1, 0), CPTR = KEY(3, 6, 1, 1, 2), MDCR = KEY(3, 6, 1, 3, 1),
    TTBR = KEY(3, 6, 2, 0, 0), TRANSLATION = KEY(3, 6, 2, 0, 2), MAIR = KEY(3, 6, 10, 2, 0), VBAR = KEY(3, 6, 12, 0, 0),
    TPIDR = KEY(3, 6, 13, 0, 2), CNTFRQ = KEY(3, 3, 14, 0, 0), SGI = KEY(3, 0, 12, 11, 7),
    OSDLR = KEY(2, 0, 1, 3, 4), ALLE2 = KEY(1, 4, 8, 7, 0), ALLE1 = KEY(1, 4, 8, 7, 4), CTR = KEY(3, 3, 0, 0, 1),
    CIVAC = KEY(1, 3, 7, 14, 1), GROUP0 = KEY(3, 0, 12, 12, 6), GROUP1 = KEY(3, 6, 12, 12, 7),
    ACTLR = KEY(3, 1, 15, 2, 0), ECTLR = KEY(3, 1, 15, 2, 1), A73_REG = KEY(3, 0, 15, 0, 0),
    A75_ACTLR = KEY(3, 0, 15, 1, 0),
    PWRCTLR = KEY(3, 0, 15, 2, 7), CISW = KEY(1, 0, 7, 14, 2), TLBI = KEY(1, 6, 8, 7, 0), IALLU = KEY(1, 0, 7, 5, 0),
    DSB = KEY(0, 3, 3, 15, 4), NEAR_DSB = KEY(0, 3, 3, 7, 4), ISB = KEY(0, 3, 3, 15, 6), WFI = KEY(0, 3, 2, 0, 3),
    KEYS = 1 << 16
};
enum { M_BIT = 1, C_BIT = 4, SMP_BIT = 0x40 };

/* Processors, and what each of them is to get and to be told. */
extern const struct processor {
    uint64_t midr;
    uint8_t csv2, ssbs, leaves;
    const char *vectors;
    int8_t workarounds[3]; /* what SMCCC_ARCH_FEATURES says of 1, 2, 3 */
    uint16_t key;          /* of a register in which these bits are set */
    uint64_t bits;
} processors[];
extern const unsigned many_processors;
extern char reset[], vectors[], vectors_mmu[], vectors_loop[];

/* What the processor has, its caches by their levels, and which registers were written since power_on. */
extern uint64_t registers[KEYS], sizes[8];
extern bool written[KEYS];

/* What happened, in its order: WRITE is added of a register. The first event of a key from there on. */
enum { WRITE = 1 << 16, MOST = 1 << 18 };
extern struct event { uint32_t key; uint64_t value; } events[MOST];
extern unsigned many;
unsigned find(uint32_t key, unsigned from);

/* How the port's code ends: at WFI, by an ERET with these registers, or where it calls C. */
enum { RESET = 1, WAITS, LEAVES, UNEXPECTED };
extern sigjmp_buf back;
extern uint64_t left[31];

/* Whether each barrier is there of those that an order of two events needs. */
void look_at_barriers(void);

/* In a stop, which has this stack: its last word, and its bell. A DSB says of these which are done: 1, 2. */
enum { OUR_STACK = 1 << 16 };
extern char *stack;
extern uint64_t word, said, rung;

extern unsigned wrong, tried;
void is_wrong(const char *what, uint64_t value);
void power_on(uint64_t midr, uint64_t mpidr, unsigned csv2, unsigned ssbs);
void replace(void);
void try_stops(void), try_features(void), try_entries(void);
#endif
