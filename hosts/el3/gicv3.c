/* GICv3: a redistributor in memory for each core, and its interface in system registers. */
#include "board.h"
#include "gic.h"

#define IAR0 "s3_0_c12_c8_0"
#define EOIR0 "s3_0_c12_c8_1"
#define SGI0R "s3_0_c12_c11_7"
#define SRE_EL1 "s3_0_c12_c12_5"
#define SRE_EL2 "s3_4_c12_c9_5"
#define SRE_EL3 "s3_6_c12_c12_5"
#define CTLR_EL3 "s3_6_c12_c12_4"
#define IGRPEN0 "s3_0_c12_c12_6"
#define IGRPEN1_EL3 "s3_6_c12_c12_7"
#define PMR "s3_0_c4_c6_0"

/* So many bytes has the redistributor of each core, in any order of cores. */
enum { FRAME = 0x20000 };

/* By which value each core is rung, once it has come out of reset: 0 rings nobody. */
static uint64_t bells[CORES + 1];

/* Where each core's redistributor stands. */
static uintptr_t frames[CORES + 1];

/* The affinity fields as the controller has them: in one word, and in that of an SGI. */
static uint32_t fields_of(uint64_t mpidr) { return (mpidr >> 8 & 0xff000000) | (mpidr & 0xffffff); }
static uint64_t bell_of(uint64_t mpidr) {
    return (mpidr >> 32 & 0xff) << 48 | (mpidr >> 16 & 0xff) << 32 | (mpidr >> 4 & 15) << 44
         | (mpidr >> 8 & 0xff) << 16 | BELL << 24 | 1u << (mpidr & 15);
}

/* This core's redistributor: TYPER says whose it is. */
static uintptr_t own_frame(void) {
    uintptr_t frame = GICR;
    while (mmio32(frame + 0xc) != fields_of(own_mpidr()))
        frame += FRAME;
    return frame;
}

/* Of so many interrupts: none is on, pending or active. A reset of the system by its cores' lines leaves that. */
static void forget(uintptr_t frame, unsigned at, uint32_t which) {
    mmio32(frame + 0x180 + 4 * at) = which; /* ICENABLER */
    mmio32(frame + 0x280 + 4 * at) = which; /* ICPENDR */
    mmio32(frame + 0x380 + 4 * at) = which; /* ICACTIVER */
}

/* What was written of groups and enables is so everywhere: RWP, of the distributor or of a redistributor. */
static void settle(uintptr_t control, unsigned rwp) {
    while (mmio32(control) >> rwp & 1) {
    }
}

void gic_forget(void) {
    uintptr_t mine = own_frame();
    forget(mine + 0x10000, 0, NORMAL_WORLD);
    settle(mine, 3);
}

void gic_start(void) {
    mmio32(GICD) = 0x30; /* affinity routing in both worlds */
    settle(GICD, 31);
    for (unsigned at = 1; at < 32; at++) {
        forget(GICD, at, ~0u);
        mmio32(GICD + 0x80 + 4 * at) = ~0u; /* IGROUPR: shared interrupts are the normal world's */
        mmio32(GICD + 0xd00 + 4 * at) = 0;  /* IGRPMODR */
    }
    settle(GICD, 31);
    __asm__ volatile("dsb sy" ::: "memory");
    mmio32(GICD) = 0x37;
    settle(GICD, 31);
}

/* The bit of group 0, which the normal world can't write. */
bool gic_is_started(void) {
    bool is_on = mmio32(GICD) & 1;
    __asm__ volatile("dsb sy" ::: "memory");
    return is_on;
}

/* WAKER: that the core is to sleep (ProcessorSleep), and whether it does (ChildrenAsleep). */
static void sleep_or_rise(uintptr_t frame, bool sleeps) {
    mmio32(frame + 0x14) = (mmio32(frame + 0x14) & ~2u) | sleeps << 1;
    while ((mmio32(frame + 0x14) >> 2 & 1) != sleeps) {
    }
}

/* No group is on as it sleeps: what comes asks for the core's power. An emulator has nobody who hears that. */
uint64_t gic_sleeps(void) {
    uint64_t groups = read_register(IGRPEN1_EL3);
#ifndef EMULATED
    write_register(IGRPEN0, 0);
    write_register(IGRPEN1_EL3, 0);
#endif
    sleep_or_rise(frames[this_core()], true);
    return groups;
}

void gic_rises(uint64_t groups) {
    sleep_or_rise(frames[this_core()], false);
    write_register(IGRPEN0, 1);
    write_register(IGRPEN1_EL3, groups);
}

void gic_start_core(unsigned core) {
    uintptr_t mine = own_frame(), private = mine + 0x10000;
    frames[core] = mine;
    sleep_or_rise(mine, false);
    mmio32(private + 0x80) = NORMAL_WORLD;
    mmio32(private + 0xd00) = 0;
    put_first(private);
    mmio32(private + 0x100) = 1u << BELL | 1u << TIMER;
    write_register(SRE_EL3, 15);
    write_register(SRE_EL2, 15);
    write_register(SRE_EL1, 7);
    write_register(CTLR_EL3, 0); /* one write ends an interrupt */
    write_register(PMR, 0xff);
    write_register(IGRPEN0, 1);
    gic_bell_alone();
    __atomic_store_n(&bells[core], bell_of(own_mpidr()), __ATOMIC_SEQ_CST);
}

void gic_bell_alone(void) { write_register(IGRPEN1_EL3, 0); }
void gic_opens(void) { write_register(IGRPEN1_EL3, 1); }

struct bell gic_bell(unsigned core) {
    return (struct bell){0, __atomic_load_n(&bells[core], __ATOMIC_SEQ_CST)};
}

void gic_ring(unsigned core) {
    __asm__ volatile("dsb sy" ::: "memory");
    write_register(SGI0R, gic_bell(core).value);
}

bool gic_answer(void) {
    bool is_time = false;
    uint64_t id;
    while ((id = read_register(IAR0)) < 1020) {
        if (id == TIMER) {
            write_register("cntps_ctl_el1", 0);
            is_time = true;
        }
        write_register(EOIR0, id);
    }
    __asm__ volatile("dsb sy" ::: "memory");
    return is_time;
}

/* In EL3 an interrupt of the normal world is a FIQ, too. */
bool gic_wakes(void) { return read_register("isr_el1") & 0xc0; }
