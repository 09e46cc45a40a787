/* Calls that stop, and what ends each stop: an entry, or a return. `counted` tells each by the name of its
 * function. */
#include "payload.h"

enum { TIMES = 4, CORE = 1, STANDBY = 0x00000001, DOWN = 0x00010003 };
/* In ticks: so long that the power controller has carried the stop out by then, on a busy machine, too; and a moment. */
enum { PATIENCE = 2000000, MOMENT = 1000000 };

#define write_register(name, value) __asm__ volatile("msr " name ", %0\n isb" ::"r"((uint64_t)(value)) : "memory")
#define mmio32(address) (*(volatile uint32_t *)(uintptr_t)(address))

/* The other core goes off as it comes; and what a core begins with that suspended with a power-down. */
__asm__(".global other, cpu_off, woken\n"
        "other: ldr x0, =0x84000002\n"
        "cpu_off: smc #0\n b .\n"
        "woken: ldr x2, =0x41004000\n mov sp, x2\n b goes_on\n");
void other(void);
void woken(void);

#define CALL static __attribute__((noinline)) void
CALL cpu_on(void) { smc(0xc4000003, CORE, (uint64_t)other, 0); }
CALL cpu_suspend_standby(void) { smc(0xc4000001, STANDBY, 0, 0); }
CALL cpu_suspend_down(void) { smc(0xc4000001, DOWN, (uint64_t)woken, 0); }

/* An interrupt will be pending, which is masked, and ends a WFI. */
static void set_timer(uint32_t ticks) {
    write_register("cntp_tval_el0", ticks);
    write_register("cntp_ctl_el0", 1);
}
static void clear_timer(void) { write_register("cntp_ctl_el0", 0); }

static void rest(void) {
    set_timer(MOMENT);
    __asm__ volatile("dsb sy\n wfi" ::: "memory");
    clear_timer();
}

/* Group 1 of the GIC, and the timer's own interrupt. */
static void open_interrupts(void) {
    mmio32(0x08010004) = 0xff;
    mmio32(0x08010000) = 1;
    mmio32(0x08000100) = 1u << 30;
    mmio32(0x08000000) = 1;
}

/* Behind a power-down nothing of it is on. */
static unsigned many;
void goes_on(void) {
    clear_timer();
    open_interrupts();
    while (many++ < TIMES) {
        set_timer(PATIENCE);
        cpu_suspend_down();
    }
    say("guest: stops: ", TIMES);
    smc(0x84000008, 0, 0, 0);
    for (;;) {
    }
}

void begin(void) {
    open_interrupts();
    for (int i = 0; i < TIMES; i++) {
        cpu_on();
        do
            rest();
        while (smc(0xc4000004, CORE, 0, 0) != 1);
    }
    for (int i = 0; i < TIMES; i++) {
        set_timer(PATIENCE);
        cpu_suspend_standby();
        clear_timer();
        rest();
    }
    goes_on();
}
