/* With what a core comes into the normal world, by entry.c and normal.S: the values that Arm's manual and the power standard
 * have for them, by each cause of a start on each processor. */
#include "silicon.h"

#include "link.h"

#include <string.h>

#define ADDRESS 0x40201234ul
#define CONTEXT 0x1122334455667788ul
#define NUMBER 0x80010203ul

static const struct { uint32_t key; uint64_t value; } at_entry[] = {
    {KEY(3, 6, 4, 0, 0), 0x3c9},        /* SPSR_EL3: EL2 by its own stack, all masked, little-endian */
    {KEY(3, 6, 4, 0, 1), ADDRESS},      /* ELR_EL3 */
    {KEY(3, 4, 1, 0, 0), 0x30c50830},   /* SCTLR_EL2: what reads as 1 */
    {KEY(3, 0, 1, 0, 0), 0x30d00800},   /* SCTLR_EL1 */
    {KEY(3, 4, 1, 1, 0), 0},            /* HCR_EL2 */
    {KEY(3, 4, 1, 1, 2), 0x33ff},       /* CPTR_EL2 */
    {KEY(3, 4, 14, 0, 3), 0},           /* CNTVOFF_EL2 */
    {KEY(3, 4, 2, 1, 0), 0},            /* VTTBR_EL2 */
    {KEY(3, 4, 0, 0, 5), NUMBER},       /* VMPIDR_EL2 */
    {KEY(3, 0, 1, 0, 2), 0},            /* CPACR_EL1 */
    {KEY(3, 0, 2, 0, 2), 0},            /* TCR_EL1 */
    {KEY(2, 0, 0, 2, 2), 0},            /* MDSCR_EL1 */
};

/* The timers, which are those of before where one may have woken the core. */
static const uint32_t timers[] = {KEY(3, 3, 14, 2, 1), KEY(3, 3, 14, 3, 1), KEY(3, 4, 14, 2, 1)};

/* VBAR_EL2, VBAR_EL1, TTBR0 and 1, TTBR0_EL2, MAIR_EL2, stacks, ELRs, TPIDRs, CONTEXTIDR_EL1: nothing of before. */
static const uint32_t forgotten[] = {
    KEY(3, 4, 12, 0, 0), KEY(3, 0, 12, 0, 0), KEY(3, 0, 2, 0, 0), KEY(3, 0, 2, 0, 1), KEY(3, 4, 2, 0, 0),
    KEY(3, 4, 10, 2, 0), KEY(3, 0, 4, 1, 0), KEY(3, 4, 4, 1, 0), KEY(3, 6, 4, 1, 0), KEY(3, 0, 4, 0, 1),
    KEY(3, 4, 4, 0, 1), KEY(3, 3, 13, 0, 2), KEY(3, 0, 13, 0, 4), KEY(3, 4, 13, 0, 2), KEY(3, 3, 13, 0, 3),
    KEY(3, 0, 13, 0, 1),
};

struct kept kept;
struct shared shared;
struct psci_place firmware;
struct psci_port_core sides[CORES];
uint32_t taken;

static uint32_t cause;
void psci_port_enter(struct psci_place *place, struct psci_port_core *side, struct psci_port_orders *orders) {
    (void)place, (void)side;
    *orders = (struct psci_port_orders){.next = PSCI_PORT_ENTERS, .cause = cause, .x0 = CONTEXT, .address = ADDRESS};
}

static int end_of_entry(void) {
    int end = sigsetjmp(back, 0);
    if (!end)
        enter(&sides[0]);
    return end;
}

static void look_at_entry(const struct processor *it) {
    bool may_ring = cause == PSCI_CAUSE_WAKE;
    for (unsigned k = 0; k < sizeof at_entry / sizeof *at_entry; k++)
        if (registers[at_entry[k].key] != at_entry[k].value)
            is_wrong("a register at an entry", at_entry[k].key);
    if (registers[KEY(3, 4, 0, 0, 0)] != it->midr) /* VPIDR_EL2 */
        is_wrong("VPIDR_EL2 at an entry", registers[KEY(3, 4, 0, 0, 0)]);
    for (unsigned k = 0; k < sizeof timers / sizeof *timers; k++)
        if (written[timers[k]] == may_ring || (!may_ring && registers[timers[k]]))
            is_wrong("a timer at an entry", timers[k]);
    for (unsigned k = 0; k < sizeof forgotten / sizeof *forgotten; k++)
        if (!written[forgotten[k]])
            is_wrong("a register at an entry is what it was", forgotten[k]);
    if (left[0] != (cause == PSCI_CAUSE_BOOT ? DEVICE_TREE : CONTEXT))
        is_wrong("x0 at an entry", left[0]);
    for (unsigned n = 1; n < 31; n++)
        if (left[n])
            is_wrong("EL3's register is left at an entry", n);
}

void try_entries(void) {
    static char own[1 << 14] __attribute__((aligned(16)));
    for (unsigned k = 0; k < many_processors; k++)
        for (cause = PSCI_CAUSE_BOOT; cause <= PSCI_CAUSE_RESET; cause++) {
            power_on(processors[k].midr, NUMBER, processors[k].csv2, processors[k].ssbs);
            registers[TPIDR] = (uint64_t)own + sizeof own - 16;
            if (end_of_entry() != LEAVES)
                is_wrong("an entry does not leave EL3", cause);
            look_at_entry(&processors[k]);
            tried++;
        }
}
