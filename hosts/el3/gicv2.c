/* GICv2: distributor and interfaces in memory. */
#include "board.h"
#include "gic.h"

/* By which value each core is rung, once it has come out of reset. */
static uint32_t bells[CORES + 1];

/* Of so many interrupts: none is on, pending or active. A reset of the system by its cores' lines leaves that. */
static void forget(unsigned at, uint32_t which) {
    mmio32(GICD + 0x180 + 4 * at) = which; /* ICENABLER */
    mmio32(GICD + 0x280 + 4 * at) = which; /* ICPENDR */
    mmio32(GICD + 0x380 + 4 * at) = which; /* ICACTIVER */
}

void gic_forget(void) {
    forget(0, NORMAL_WORLD);
    mmio32(GICD + 0xf10) = ~0u; /* CPENDSGIR, of SGIs 0 to 7 */
    mmio32(GICD + 0xf14) = ~0u;
}

void gic_start(void) {
    mmio32(GICD) = 0;
    for (unsigned at = 1; at < 32; at++) {
        forget(at, ~0u);
        mmio32(GICD + 0x80 + 4 * at) = ~0u; /* IGROUPR: shared interrupts are the normal world's */
    }
    __asm__ volatile("dsb sy" ::: "memory");
    mmio32(GICD) = 3;
}

/* The bit of group 0, which the normal world can't write. */
bool gic_is_started(void) {
    bool is_on = mmio32(GICD) & 1;
    __asm__ volatile("dsb sy" ::: "memory");
    return is_on;
}

void gic_start_core(unsigned core) {
    uint32_t mine = mmio32(GICD + 0x800) & 0xff; /* ITARGETSR0: of its own interrupts each core reads itself */
    mmio32(GICD + 0x80) = NORMAL_WORLD;
    put_first(GICD);
    mmio32(GICD + 0x100) = 1u << TIMER; /* ISENABLER; SGIs are always on */
    mmio32(GICC + 4) = 0xff;            /* PMR */
    gic_bell_alone();
    __atomic_store_n(&bells[core], mine << 16 | BELL, __ATOMIC_SEQ_CST);
}

/* CTLR: group 0 is on, and is FIQs. The normal world sets and clears the bit of its own group. */
void gic_bell_alone(void) { mmio32(GICC) = 9; }
void gic_opens(void) { mmio32(GICC) = 0xb; }

struct bell gic_bell(unsigned core) {
    return (struct bell){GICD + 0xf00, __atomic_load_n(&bells[core], __ATOMIC_SEQ_CST)}; /* SGIR */
}

void gic_ring(unsigned core) {
    struct bell bell = gic_bell(core);
    __asm__ volatile("dsb sy" ::: "memory");
    mmio32(bell.at) = bell.value;
}

bool gic_answer(void) {
    bool is_time = false;
    uint32_t id;
    while ((id = mmio32(GICC + 0xc)) % 1024 < 1020) { /* IAR */
        if (id == TIMER) {
            write_register("cntps_ctl_el1", 0);
            is_time = true;
        }
        mmio32(GICC + 0x10) = id; /* EOIR */
    }
    __asm__ volatile("dsb sy" ::: "memory");
    return is_time;
}

bool gic_wakes(void) { return read_register("isr_el1") & 0x80; }
