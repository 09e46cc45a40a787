/* Whether hold_registers of hosts/payload/call.S tells each register that changes while it waits, as by an interrupt, and
 * no other: here a signal changes one. The counter is that of programs. */
#define _GNU_SOURCE
#include <signal.h>
#include <stdint.h>
#include <stdio.h>
#include <sys/time.h>
#include <ucontext.h>

uint32_t has_vectors;
uint64_t hold_registers(uint64_t end);
static int changed;

static void change(int number, siginfo_t *info, void *context) {
    (void)number, (void)info;
    if (changed >= 0)
        ((ucontext_t *)context)->uc_mcontext.regs[changed] = 7;
}

static uint64_t after(uint64_t tenths) {
    uint64_t now, frequency;
    __asm__ volatile("mrs %0, cntvct_el0\n mrs %1, cntfrq_el0" : "=r"(now), "=r"(frequency));
    return now + frequency / 10 * tenths;
}

/* On a busy machine the signal may come late: then the wait is ten times as long, and so once more. */
static int is_told(int which) {
    struct itimerval soon = {{0, 0}, {0, 20000}};
    uint64_t lost = 0;
    changed = which;
    for (uint64_t tenths = 1; tenths <= 100; tenths *= 10) {
        setitimer(ITIMER_REAL, &soon, NULL);
        lost = hold_registers(after(tenths));
        if (lost == (which < 0 ? 0 : 1ull << which))
            return 1;
        if (lost)
            break;
    }
    printf("register %d: %llx\n", which, (unsigned long long)lost);
    return 0;
}

int main(void) {
    struct sigaction on_alarm = {.sa_sigaction = change, .sa_flags = SA_SIGINFO};
    int told = 1;
    sigaction(SIGALRM, &on_alarm, NULL);
    told &= is_told(-1);
    for (int which = 4; which < 31; which++)
        told &= is_told(which);
    return !told;
}
