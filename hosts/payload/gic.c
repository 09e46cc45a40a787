/* The interrupt controller, of version 2 or 3 or that of a BCM2836, as far as a pending timer has to end a WFI. */
#include "clock.h"
#include "machine.h"
#include "odd.h"

enum { DISTRIBUTOR_ENABLE = 0, TYPES = 4, GROUPS = 0x80, ENABLES = 0x100, PENDING = 0x200, ACTIVE = 0x300 };
enum { PRIORITIES = 0x400, SOFTWARE = 0xf00 };
enum { CORE_CONTROL = 0, CORE_MASK = 4 };
enum {
    REDISTRIBUTOR = 0x20000,
    SGI_FRAME = 0x10000,
    TYPE = 8,
    WAKER = 0x14,
    ASLEEP = 2,
    CHILDREN_ASLEEP = 4
};
enum { BOTH_GROUPS_3 = 0x12, PRIORITY = 0x80, ALL = 0xff };

static void version_2(void) {
    store(machine.gic + DISTRIBUTOR_ENABLE, 1);
    store(machine.gic + ENABLES, 1u << machine.timer);
    store_byte(machine.gic + PRIORITIES + machine.timer, PRIORITY);
    store(machine.gic_of_core + CORE_MASK, ALL);
    store(machine.gic_of_core + CORE_CONTROL, 1);
}

/* the redistributor of this core: its affinity stands in the upper half of its type */
static uint64_t redistributor(void) {
    uint64_t affinity, at = machine.gic_of_core;
    __asm__("mrs %0, mpidr_el1" : "=r"(affinity));
    uint32_t mine = (affinity & 0xffffff) | (affinity >> 32 & 0xff) << 24;
    for (uint32_t core = 0; core < machine.cores && load(at + TYPE + 4) != mine; core++)
        at += REDISTRIBUTOR;
    return at;
}

static void version_3(void) {
    uint64_t own = redistributor(), level;
    store(machine.gic + DISTRIBUTOR_ENABLE, BOTH_GROUPS_3);
    store(own + WAKER, load(own + WAKER) & ~(uint32_t)ASLEEP);
    while (load(own + WAKER) & CHILDREN_ASLEEP) {}
    store(own + SGI_FRAME + GROUPS, ~0u);
    store(own + SGI_FRAME + ENABLES, 1u << machine.timer);
    store_byte(own + SGI_FRAME + PRIORITIES + machine.timer, PRIORITY);
    __asm__("mrs %0, CurrentEL" : "=r"(level));
    if (level == 8) __asm__ volatile("msr S3_4_C12_C9_5, %0\n isb" ::"r"(9ul)); /* ICC_SRE_EL2 */
    __asm__ volatile("msr S3_0_C12_C12_5, %0\n isb" ::"r"(1ul));                /* ICC_SRE_EL1 */
    __asm__ volatile("msr S3_0_C4_C6_0, %0" ::"r"((uint64_t)ALL));              /* ICC_PMR_EL1 */
    __asm__ volatile("msr S3_0_C12_C12_7, %0\n isb" ::"r"(1ul)); /* ICC_IGRPEN1_EL1 */
}

/* This core's physical timers, those of EL1 of both worlds, are interrupts. */
static void of_bcm2836(void) {
    uint64_t affinity;
    __asm__("mrs %0, mpidr_el1" : "=r"(affinity));
    store(machine.gic + 0x40 + 4 * (affinity & 3), 3);
}

void interrupts_ready(void) {
    timer_clear();
    if (!machine.gic) return;
    if (machine.gic_version == 0) of_bcm2836();
    else if (machine.gic_version == 3) version_3();
    else version_2();
}

/* Where a core's own interrupts stand, which are the first 32. */
static uint64_t own_frame(void) { return machine.gic_version == 3 ? redistributor() + SGI_FRAME : machine.gic; }

void ring_on(uint32_t of) {
    if (machine.gic_version == 0) return;
    store(own_frame() + ENABLES, 1u << of);
    store_byte(own_frame() + PRIORITIES + of, PRIORITY);
}

void ring(uint32_t core, uint32_t of) {
    uint64_t at = affinities[core];
    __asm__ volatile("dsb sy" ::: "memory");
    if (machine.gic_version == 3) /* ICC_SGI1R_EL1 */
        __asm__ volatile("msr S3_0_C12_C11_5, %0\n isb" ::"r"(
            (at >> 32 & 0xff) << 48 | (at >> 16 & 0xff) << 32 | (at >> 8 & 0xff) << 16 | of << 24 | 1ul << (at & 15)));
    else if (machine.gic_version == 2) store(machine.gic + SOFTWARE, 1u << (16 + core) | of);
}

int is_rung(uint32_t of) { return machine.gic_version == 0 || load(own_frame() + PENDING) >> of & 1; }

void leave_interrupt(uint32_t of) {
    if (machine.gic_version == 0) return;
    store(machine.gic + ENABLES + of / 32 * 4, 1u << of % 32);
    store(machine.gic + PENDING + of / 32 * 4, 1u << of % 32);
}

static uint32_t of_word(uint64_t frame, uint32_t word, uint32_t can_be_off) {
    uint64_t at = frame + 4 * word;
    return (load(at + ENABLES) & can_be_off) | load(at + PENDING) | load(at + ACTIVE);
}

/* 0 where there is none; software interrupt 0 counts as none. The timer's may be on, and no GIC has to turn software
 * interrupts off. */
uint32_t first_left(void) {
    uint32_t own = machine.gic_version ? of_word(own_frame(), 0, 0xffff0000) & ~(1u << machine.timer) & ~1u : 0;
    if (own) return (uint32_t)__builtin_ctz(own);
    uint32_t words = machine.gic_version ? (load(machine.gic + TYPES) & 31) + 1 : 0, some = 0;
    for (uint32_t at = 1; at < words; at++)
        if ((some = of_word(machine.gic, at, ~0u))) return 32 * at + (uint32_t)__builtin_ctz(some);
    return 0;
}
