/* What a processor has beyond Armv8.0 and the normal world may not use until EL3 lets it: by the ID registers, for
 * each core as it comes out of reset. What stays shut has its first use end in EL3, where nobody answers it. */
#include "monitor.h"

/* The ID registers that say it. Those that a compiler knows no name of have a number; one that a processor
 * does not have reads as 0. */
enum id { PFR0, PFR1, PFR2, DFR0, ISAR1, ISAR2, MMFR0, MMFR1, MMFR3, IDS };

/* Where the four-bit field at this place is no less, this bit lets the normal world have it. */
struct gate {
    uint8_t id, field, least, bit;
};

static const struct gate scr[] = {
    {ISAR1, 4, 1, 16},  {ISAR1, 4, 1, 17},  /* pointer authentication, by QARMA5: its keys, its instructions */
    {ISAR1, 8, 1, 16},  {ISAR1, 8, 1, 17},  /* the same, by the maker's algorithm */
    {ISAR2, 12, 1, 16}, {ISAR2, 12, 1, 17}, /* the same, by QARMA3 */
    {PFR0, 28, 2, 21},                      /* injection of errors */
    {PFR0, 56, 2, 25},  {PFR1, 32, 2, 25},  /* SCXTNUM_EL0 */
    {PFR1, 8, 2, 26},                       /* tags of memory */
    {MMFR0, 56, 1, 27}, {MMFR0, 56, 2, 59}, /* fine-grained traps of EL2 */
    {MMFR0, 60, 2, 28},                     /* the offset of the physical counter */
    {PFR0, 44, 2, 35},                      /* offsets of activity counters */
    {ISAR1, 60, 3, 36}, {ISAR1, 60, 3, 37}, /* stores of 64 bytes with ACCDATA_EL1 */
    {MMFR1, 40, 1, 38},                     /* HCRX_EL2 */
    {PFR1, 44, 1, 39},                      /* guarded control stacks */
    {PFR1, 24, 1, 41},                      /* TPIDR2_EL0 */
    {PFR1, 48, 1, 42},                      /* RCWMASK_EL1 */
    {PFR2, 32, 1, 50},                      /* FPMR */
    {MMFR3, 0, 1, 43},  {MMFR3, 4, 1, 44},  /* TCR2_EL1 and SCTLR2_EL1 */
    {MMFR3, 8, 1, 45},  {MMFR3, 24, 1, 46}, /* indirections of permissions and of memory attributes */
    {MMFR3, 32, 1, 47},                     /* descriptors of 128 bits */
};

static const struct gate cptr[] = {
    {PFR0, 32, 1, 8},  /* SVE */
    {PFR1, 24, 1, 12}, /* SME */
};

static const struct gate mdcr[] = {
    {DFR0, 32, 1, 12}, {DFR0, 32, 1, 13}, /* the profiling buffer is the normal world's */
    {DFR0, 44, 1, 24}, {DFR0, 44, 1, 25}, /* and the trace buffer */
    {DFR0, 32, 3, 36},                    /* PMSNEVFR_EL1 */
    {DFR0, 52, 1, 32},                    /* records of branches */
    {DFR0, 8, 9, 7},                      /* what counters have since Armv8.9 */
};

/* Of counters 15 says that they are the maker's own. */
static bool has(const uint64_t *ids, const struct gate *gate) {
    unsigned value = ids[gate->id] >> gate->field & 15;
    return value >= gate->least && !(gate->id == DFR0 && gate->field == 8 && value == 15);
}

static uint64_t opened(const uint64_t *ids, const struct gate *gates, unsigned count) {
    uint64_t bits = 0;
    for (unsigned at = 0; at < count; at++)
        if (has(ids, &gates[at]))
            bits |= 1ull << gates[at].bit;
    return bits;
}

#define OPEN(ids, name, gates) \
    write_register(name, read_register(name) | opened(ids, gates, sizeof gates / sizeof *gates))

/* Vectors and matrices are as long as the processor has them. */
static void open_lengths(const uint64_t *ids) {
    static const struct gate tables = {PFR1, 24, 2, 0}; /* SME2 */
    if (has(ids, &cptr[0]))
        write_register("s3_6_c1_c2_0", 15); /* ZCR_EL3 */
    if (has(ids, &cptr[1]))                 /* SMCR_EL3, with all of SVE while it streams, where it has that */
        write_register("s3_6_c1_c2_6", 15 | read_register("s3_0_c0_c4_5") >> 63 << 31 | (uint64_t)has(ids, &tables) << 30);
}

#define ZERO(id, field, least, name) \
    if (has(ids, &(struct gate){id, field, least, 0})) \
        write_register(name, 0)

/* What an open gate leads to is unknown behind a reset, and an older system that does not know it would be trapped by it. */
static void forget_what_opens(const uint64_t *ids) {
    ZERO(MMFR0, 56, 1, "s3_4_c1_c1_4"); /* HFGRTR_EL2, HFGWTR, HFGITR, HDFGRTR, HDFGWTR */
    ZERO(MMFR0, 56, 1, "s3_4_c1_c1_5");
    ZERO(MMFR0, 56, 1, "s3_4_c1_c1_6");
    ZERO(MMFR0, 56, 1, "s3_4_c3_c1_4");
    ZERO(MMFR0, 56, 1, "s3_4_c3_c1_5");
    ZERO(MMFR0, 56, 2, "s3_4_c3_c1_0"); /* HDFGRTR2_EL2, HDFGWTR2, HFGRTR2, HFGWTR2, HFGITR2 */
    ZERO(MMFR0, 56, 2, "s3_4_c3_c1_1");
    ZERO(MMFR0, 56, 2, "s3_4_c3_c1_2");
    ZERO(MMFR0, 56, 2, "s3_4_c3_c1_3");
    ZERO(MMFR0, 56, 2, "s3_4_c3_c1_7");
    ZERO(MMFR0, 60, 2, "s3_4_c14_c0_6"); /* CNTPOFF_EL2 */
    ZERO(MMFR1, 40, 1, "s3_4_c1_c2_2");  /* HCRX_EL2 */
    ZERO(MMFR3, 0, 1, "s3_4_c2_c0_3");   /* TCR2_EL2, TCR2_EL1 */
    ZERO(MMFR3, 0, 1, "s3_0_c2_c0_3");
    ZERO(MMFR3, 4, 1, "s3_4_c1_c0_3");   /* SCTLR2_EL2, SCTLR2_EL1 */
    ZERO(MMFR3, 4, 1, "s3_0_c1_c0_3");
    ZERO(PFR1, 44, 1, "s3_4_c2_c5_0");   /* GCSCR_EL2, GCSCR_EL1 */
    ZERO(PFR1, 44, 1, "s3_0_c2_c5_0");
}

/* Parts of memory systems: on, with no trap of what is below (TRAPLOWER is set behind a reset), and all is in part 0. */
static void open_partitions(const uint64_t *ids) {
    if (!has(ids, &(struct gate){PFR0, 40, 1, 0}) && !has(ids, &(struct gate){PFR1, 16, 1, 0}))
        return;
    write_register("s3_6_c10_c5_0", 1ull << 63); /* MPAM3_EL3 */
    write_register("s3_4_c10_c5_0", 0);          /* MPAM2_EL2, MPAM1_EL1, MPAM0_EL1 */
    write_register("s3_0_c10_c5_0", 0);
    write_register("s3_0_c10_c5_1", 0);
}

void open_features(void) {
    uint64_t ids[IDS] = {
        [PFR0] = read_register("id_aa64pfr0_el1"),
        [PFR1] = read_register("id_aa64pfr1_el1"),
        [PFR2] = read_register("s3_0_c0_c4_2"),
        [DFR0] = read_register("id_aa64dfr0_el1"),
        [ISAR1] = read_register("id_aa64isar1_el1"),
        [ISAR2] = read_register("s3_0_c0_c6_2"),
        [MMFR0] = read_register("id_aa64mmfr0_el1"),
        [MMFR1] = read_register("id_aa64mmfr1_el1"),
        [MMFR3] = read_register("s3_0_c0_c7_3"),
    };
    OPEN(ids, "scr_el3", scr);
    OPEN(ids, "cptr_el3", cptr);
    OPEN(ids, "mdcr_el3", mdcr);
    open_lengths(ids);
    open_partitions(ids);
    forget_what_opens(ids);
}
