/* Stops each core where `registers` reads what EL3 has set: after its CPU_ON, after it slept, and after it was off and
 * on. GIC version 2. */
#include "payload.h"

enum { CORES = 4, CPU_OFF = 0x84000002, SYSTEM_OFF = 0x84000008, CORE_OFF = 0x10002 };
#define CPU_SUSPEND 0xc4000001
#define CPU_ON 0xc4000003
#define AFFINITY_INFO 0xc4000004
/* written by `registers`: up to which stage the cores may go on */
#define MAY_END (*(volatile uint32_t *)0x41010000)

static volatile uint32_t entries[CORES], ended;

/* a core enters with its number in x0 */
__asm__(".global enter\nenter: ldr x2, =0x41004000\n add x2, x2, x0, lsl #12\n mov sp, x2\n b entered\n");
void enter(void);

/* The physical timer wakes the core: its interrupt is pending, and stays masked. Where it is so too early, the call may
 * return. */
static void __attribute__((noreturn)) sleep(uint64_t core) {
    *(volatile uint32_t *)0x08000000 = 1;
    *(volatile uint32_t *)0x08000100 = 1u << 30;
    *(volatile uint32_t *)0x08010004 = 0xff;
    *(volatile uint32_t *)0x08010000 = 1;
    for (uint64_t ticks = 60000;; ticks *= 2) {
        __asm__ volatile("msr cntp_tval_el0, %0\n msr cntp_ctl_el0, %1\n isb" ::"r"(ticks), "r"(1ul));
        smc(CPU_SUSPEND, CORE_OFF, (uintptr_t)enter, core);
    }
}

static void start_others(void) {
    for (uint64_t core = 1; core < CORES; core++) {
        while (smc(AFFINITY_INFO, core, 0, 0) != 1) {}
        smc(CPU_ON, core, (uintptr_t)enter, core);
    }
}

static void lead(void) {
    if (entries[0] == 1) start_others();
    if (ended == 2) start_others();
    for (uint64_t core = 1; core < CORES; core++)
        while (entries[core] <= ended) {}
    say("registers: stage ", ended + 1);
    while (MAY_END <= ended) {}
    ended++;
}

void entered(uint64_t core) {
    uint32_t times = ++entries[core];
    if (core == 0) lead();
    while (ended < times) {}
    if (times == 1) sleep(core);
    if (core == 0) lead();
    if (core == 0 || times == 3) smc(SYSTEM_OFF, 0, 0, 0);
    smc(CPU_OFF, 0, 0, 0);
}

void begin(void) {
    MAY_END = 0;
    entered(0);
}
