#include "clock.h"
#include "machine.h"

static volatile uint32_t times;

uint32_t add(volatile uint32_t *number, uint32_t by) {
    return __atomic_fetch_add(number, by, __ATOMIC_SEQ_CST);
}
uint32_t tick(void) { return add(&times, 1); }

static uint64_t now(void) {
    uint64_t time;
    __asm__ volatile("isb\n mrs %0, cntpct_el0" : "=r"(time));
    return time;
}

static uint64_t counts(uint64_t microseconds) {
    uint64_t frequency;
    __asm__("mrs %0, cntfrq_el0" : "=r"(frequency));
    return microseconds * (frequency / 1000) / 1000;
}

uint64_t after(uint64_t microseconds) { return now() + counts(microseconds); }

/* Who asks waits: where cores run in turn, it gives its turn away. */
int is_past(uint64_t time) {
    __asm__ volatile("yield");
    return now() > time;
}

void timer_set(uint64_t microseconds) {
    __asm__ volatile(
        "msr cntp_tval_el0, %0\n msr cntp_ctl_el0, %1\n isb" ::"r"(counts(microseconds)), "r"(1ul));
}

void timer_clear(void) { __asm__ volatile("msr cntp_ctl_el0, %0\n isb" ::"r"(0ul)); }
