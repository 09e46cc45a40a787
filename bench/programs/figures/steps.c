/* The processor traps after each instruction, also of what the library calls. */
#define _GNU_SOURCE
#include "steps.h"

#include <signal.h>
#include <stdbool.h>
#include <stdio.h>
#include <stdlib.h>
#include <ucontext.h>

extern const char __start_psci_text[], __stop_psci_text[];

struct steps steps;
static unsigned long first, lowest;
static bool is_inside;

/* The next instruction is that of the library, or not. */
static void on_step(int signal, siginfo_t *info, void *context) {
    const greg_t *now = ((ucontext_t *)context)->uc_mcontext.gregs;
    unsigned long at = (unsigned long)now[REG_RIP], stack = (unsigned long)now[REG_RSP];
    (void)signal, (void)info;
    if (at < (unsigned long)__start_psci_text || at >= (unsigned long)__stop_psci_text) {
        steps.given += is_inside && stack < first;
        is_inside = false;
        return;
    }
    if (steps.instructions++ == 0)
        first = lowest = stack;
    is_inside = true;
    lowest = stack < lowest ? stack : lowest;
    /* with the address to which the call returns */
    steps.stack = (long)(first - lowest) + 8;
}

void steps_open(void) {
    static char room[65536];
    stack_t own = {.ss_sp = room, .ss_size = sizeof room};
    struct sigaction action = {.sa_sigaction = on_step, .sa_flags = SA_SIGINFO | SA_ONSTACK};
    if (sigaltstack(&own, NULL) || sigaction(SIGTRAP, &action, NULL)) {
        perror("steps");
        exit(1);
    }
}

void steps_begin(void) {
    steps = (struct steps){0};
    is_inside = false;
}
