/* What EL3 lets the normal world have of a processor (features.c): by each value of each field these bits alone. */
#include "silicon.h"

void open_features(void);

enum {
    PFR2 = KEY(3, 0, 0, 4, 2), MPAM3 = KEY(3, 6, 10, 5, 0), SMFR0 = KEY(3, 0, 0, 4, 5), DFR0 = KEY(3, 0, 0, 5, 0), ISAR1 = KEY(3, 0, 0, 6, 1), ISAR2 = KEY(3, 0, 0, 6, 2),
    MMFR0 = KEY(3, 0, 0, 7, 0), MMFR1 = KEY(3, 0, 0, 7, 1), MMFR3 = KEY(3, 0, 0, 7, 3), ZCR = KEY(3, 6, 1, 2, 0),
    SMCR = KEY(3, 6, 1, 2, 6)
};
/* of SCR_EL3, CPTR_EL3, MDCR_EL3 */
enum {
    APK = 16, API, FIEN = 21, SCXT = 25, ATA, FGT, ECV, AMVOFF = 35, AS0, AD, HX, GCS, TP2 = 41, RCW, TCR2, SCTLR2,
    PIE, AIE, D128, FPM = 50, FGT2 = 59, EZ = 8, ESM = 12, PM2 = 7, NSPB = 12, NSTB = 24, BRBE = 32, PMSN = 36
};

/* From this value of the field on. */
static const struct feature {
    uint32_t id;
    uint8_t at, least;
    uint64_t scr, cptr, mdcr;
} features[] = {
    {PFR0, 28, 2, BIT(FIEN), 0, 0},
    {PFR0, 32, 1, 0, BIT(EZ), 0},
    {PFR0, 44, 2, BIT(AMVOFF), 0, 0},
    {PFR0, 56, 2, BIT(SCXT), 0, 0},
    {PFR1, 8, 2, BIT(ATA), 0, 0},
    {PFR1, 24, 1, BIT(TP2), BIT(ESM), 0},
    {PFR1, 32, 2, BIT(SCXT), 0, 0},
    {PFR1, 44, 1, BIT(GCS), 0, 0},
    {PFR1, 48, 1, BIT(RCW), 0, 0},
    {PFR2, 32, 1, BIT(FPM), 0, 0},
    {DFR0, 8, 9, 0, 0, BIT(PM2)},
    {DFR0, 32, 1, 0, 0, BIT(NSPB) | BIT(NSPB + 1)},
    {DFR0, 32, 3, 0, 0, BIT(PMSN)},
    {DFR0, 44, 1, 0, 0, BIT(NSTB) | BIT(NSTB + 1)},
    {DFR0, 52, 1, 0, 0, BIT(BRBE)},
    {ISAR1, 4, 1, BIT(APK) | BIT(API), 0, 0},
    {ISAR1, 8, 1, BIT(APK) | BIT(API), 0, 0},
    {ISAR2, 12, 1, BIT(APK) | BIT(API), 0, 0},
    {ISAR1, 60, 3, BIT(AS0) | BIT(AD), 0, 0},
    {MMFR0, 56, 1, BIT(FGT), 0, 0},
    {MMFR0, 56, 2, BIT(FGT2), 0, 0},
    {MMFR0, 60, 2, BIT(ECV), 0, 0},
    {MMFR1, 40, 1, BIT(HX), 0, 0},
    {MMFR3, 0, 1, BIT(TCR2), 0, 0},
    {MMFR3, 4, 1, BIT(SCTLR2), 0, 0},
    {MMFR3, 8, 1, BIT(PIE), 0, 0},
    {MMFR3, 24, 1, BIT(AIE), 0, 0},
    {MMFR3, 32, 1, BIT(D128), 0, 0},
};
enum { FEATURES = sizeof features / sizeof *features };

/* What a gate leads to, or is beside it, is 0 from this value on. */
static const struct { uint32_t id; uint8_t at, least; uint32_t key; } zeros[] = {
    {MMFR0, 56, 1, KEY(3, 4, 1, 1, 4)}, {MMFR0, 56, 1, KEY(3, 4, 1, 1, 5)}, {MMFR0, 56, 1, KEY(3, 4, 1, 1, 6)},
    {MMFR0, 56, 1, KEY(3, 4, 3, 1, 4)}, {MMFR0, 56, 1, KEY(3, 4, 3, 1, 5)}, {MMFR0, 56, 2, KEY(3, 4, 3, 1, 0)},
    {MMFR0, 56, 2, KEY(3, 4, 3, 1, 1)}, {MMFR0, 56, 2, KEY(3, 4, 3, 1, 2)}, {MMFR0, 56, 2, KEY(3, 4, 3, 1, 3)},
    {MMFR0, 56, 2, KEY(3, 4, 3, 1, 7)}, {MMFR0, 60, 2, KEY(3, 4, 14, 0, 6)}, {MMFR1, 40, 1, KEY(3, 4, 1, 2, 2)},
    {MMFR3, 0, 1, KEY(3, 4, 2, 0, 3)}, {MMFR3, 0, 1, KEY(3, 0, 2, 0, 3)}, {MMFR3, 4, 1, KEY(3, 4, 1, 0, 3)},
    {MMFR3, 4, 1, KEY(3, 0, 1, 0, 3)}, {PFR1, 44, 1, KEY(3, 4, 2, 5, 0)}, {PFR1, 44, 1, KEY(3, 0, 2, 5, 0)},
    {PFR0, 40, 1, KEY(3, 4, 10, 5, 0)}, {PFR0, 40, 1, KEY(3, 0, 10, 5, 0)}, {PFR0, 40, 1, KEY(3, 0, 10, 5, 1)},
};

/* No register is written but those of what there is, and partitions trap nothing. */
static void look_at_zeros(uint32_t id, unsigned at, uint64_t value) {
    bool is_split = (id == PFR0 && at == 40 && value) || (id == PFR1 && at == 16 && value);
    for (unsigned k = 0; k < sizeof zeros / sizeof *zeros; k++) {
        bool is_there = zeros[k].id == id && zeros[k].at == at && value >= zeros[k].least;
        is_there |= is_split && zeros[k].at == 40 && zeros[k].id == PFR0;
        if (written[zeros[k].key] != is_there || (is_there && registers[zeros[k].key]))
            is_wrong("what an open gate leads to", zeros[k].key);
    }
    if (written[MPAM3] != is_split || (is_split && registers[MPAM3] != BIT(63)))
        is_wrong("parts of memory systems", registers[MPAM3]);
}

static const uint32_t ids[] = {PFR0, PFR1, PFR2, DFR0, ISAR1, ISAR2, MMFR0, MMFR1, MMFR3, SMFR0, SCR, CPTR, MDCR};

/* A processor that has this one field alone, which says so. */
static void opens(uint32_t id, unsigned at, uint64_t value, bool streams_all) {
    struct feature right = {0};
    power_on(0, 0, 0, 0);
    for (unsigned k = 0; k < sizeof ids / sizeof *ids; k++)
        registers[ids[k]] = 0;
    registers[id] = value << at;
    registers[SMFR0] = (uint64_t)streams_all << 63;
    for (unsigned k = 0; k < FEATURES; k++)
        if (features[k].id == id && features[k].at == at && value >= features[k].least
            && !(features[k].mdcr == BIT(PM2) && value == 15)) { /* the maker's own */
            right.scr |= features[k].scr;
            right.cptr |= features[k].cptr;
            right.mdcr |= features[k].mdcr;
        }
    open_features();
    if (registers[SCR] != right.scr || registers[CPTR] != right.cptr || registers[MDCR] != right.mdcr)
        is_wrong("what the normal world is let have", value << at);
    if (written[ZCR] != (right.cptr == BIT(EZ)) || (written[ZCR] && registers[ZCR] != 15))
        is_wrong("how long vectors are", value << at);
    if (written[SMCR] != (right.cptr == BIT(ESM))
        || (written[SMCR] && registers[SMCR] != (15 | (uint64_t)streams_all << 31 | (uint64_t)(value >= 2) << 30)))
        is_wrong("how long vectors are that stream", value << at);
    look_at_zeros(id, at, value);
    tried++;
}

/* Each field of four bits, also those that open nothing. */
void try_features(void) {
    for (unsigned k = 0; ids[k] != SMFR0; k++)
        for (unsigned at = 0; at < 64; at += 4)
            for (uint64_t value = 0; value < 16; value++)
                opens(ids[k], at, value, value & 1);
}
