/* Turns of calls, step by step: each call of a turn is counted alone, and the sum is printed behind the turn's name. */
#include "platform.h"
#include "steps.h"

#include <stdio.h>
#include <stdlib.h>

enum { LAST = PLATFORM_CORE_COUNT - 1, RUNS = 3, CONTEXT = 7, MODE = 0x8400000f };
#define ENTRY 0x40001000UL
/* power-down of each level */
#define DEEP (PLAT_MAX_PWR_LVL << 24 | 1UL << 16 | 0x3333UL >> 4 * (3 - PLAT_MAX_PWR_LVL))

static long counted;

static void must(bool is_so, const char *what) {
    if (!is_so) {
        fprintf(stderr, "turns: %s\n", what);
        exit(1);
    }
}

/* A core calls, and has this answer. */
static void answered(unsigned int core, uint32_t function, u_register_t x1, u_register_t x2, int64_t wanted) {
    int64_t answer = 1;
    int stops;
    me = core;
    STEP(stops = call(function, x1, x2, CONTEXT, &answer));
    counted += steps.instructions;
    must(!stops && (int32_t)answer == wanted, "another answer");
}

static void stopped(unsigned int core, uint32_t function, u_register_t x1, u_register_t x2) {
    int64_t answer;
    int stops;
    me = core;
    STEP(stops = call(function, x1, x2, CONTEXT, &answer));
    counted += steps.instructions;
    must(stops, "the core goes on");
}

static void entered(unsigned int core) {
    me = core;
    at[core].address = 0;
    STEP(enter());
    counted += steps.instructions;
    must(at[core].address == ENTRY && at[core].context == CONTEXT, "another entry");
}

static void on(void) {
    answered(0, PSCI_CPU_ON_AARCH64, mpidr_of(LAST), ENTRY, 0);
    entered(LAST);
    stopped(LAST, PSCI_CPU_OFF, 0, 0);
}
static void down(void) {
    stopped(LAST, PSCI_CPU_SUSPEND_AARCH64, DEEP, ENTRY);
    for (unsigned int level = 0; level <= PLAT_MAX_PWR_LVL; level++)
        must(at[LAST].told.pwr_domain_state[level] == PLAT_MAX_OFF_STATE, "the system stays up");
    entered(LAST);
}
static void sleeps(void) {
    stopped(LAST, PSCI_SYSTEM_SUSPEND_AARCH64, ENTRY, CONTEXT);
    entered(LAST);
}
static void core(void) { answered(LAST, PSCI_AFFINITY_INFO_AARCH64, mpidr_of(LAST), 0, 0); }
static void version(void) { answered(LAST, PSCI_VERSION, 0, 0, PSCI_MAJOR_VER | PSCI_MINOR_VER); }
static void modes(void) {
    answered(LAST, MODE, 1, 0, 0);
    answered(LAST, MODE, 0, 0, 0);
}
static void denied(void) { answered(LAST, PSCI_CPU_SUSPEND_AARCH64, DEEP, ENTRY, PSCI_E_DENIED); }

/* Each run of it takes as many as the first one. */
static void turn(const char *name, void (*run)(void)) {
    long first = 0;
    for (int k = 0; k < RUNS; k++, first = counted) {
        counted = 0;
        run();
        must(k == 0 || counted == first, "another number of instructions");
    }
    printf("%s %ld\n", name, counted);
}

int main(void) {
    DEFINE_STATIC_PSCI_LIB_ARGS_V1(arguments, psci_warmboot_entrypoint);
    steps_open();
    psci_setup(&arguments);
    turn("on", on);
    answered(0, PSCI_CPU_ON_AARCH64, mpidr_of(LAST), ENTRY, 0);
    entered(LAST);
    stopped(0, PSCI_CPU_OFF, 0, 0);
    turn("suspend", down);
    turn("sleep", sleeps);
    turn("core", core);
    turn("version", version);
#if PSCI_OS_INIT_MODE
    turn("modes", modes);
    answered(LAST, MODE, 1, 0, 0);
    turn("initiated", down);
    answered(LAST, PSCI_CPU_ON_AARCH64, mpidr_of(0), ENTRY, 0);
    entered(0);
    turn("denied", denied);
#endif
    return 0;
}
