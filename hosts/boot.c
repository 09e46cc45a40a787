/* What a monitor does with the firmware: an exception handler at EL3, or a hypervisor's loop of
 * exits; and what a control processor does with the power controller. The machine is played: four
 * cores in two clusters, and an operating system of some calls in a row. Prints what happens. */
#include "pool.h"
#include "psci_ctl.h"

#include <inttypes.h>
#include <stdatomic.h>
#include <stdio.h>
#include <stdlib.h>
#include <string.h>

enum { CORES = 4, LEVELS = 3, DEVICE_TREE = 0x48000000 };
/* Two clusters of two cores. */
static const struct psci_board board = {
    .height = 2,
    .starts = 1000,
    .lives = 3,
    .boot = 0x40000000,
    .many_ranges = 1,
    .ranges = {{0x40000000, 0x40100000}},
    .levels = {{.nodes = 2, .children = {2, 2}}, {.nodes = 1, .children = {2}}},
};

/* The monitor -------------------------------------------------------------------------------- */

/* A core, as the monitor sees it: its registers, and whether it executes the normal world. */
static struct cpu {
    uint64_t x[4], pc;
    bool runs;
} cpus[CORES];

static struct psci_place firmware;

/* Each core's own way to ask for the status of a core, without the lock. */
static struct psci_poller pollers[CORES];
static atomic_flag taken = ATOMIC_FLAG_INIT;

/* The mailbox: frames to the power controller, in the order in which they were made. */
static struct { uint8_t frames[64][PSCI_FRAME_LEN]; unsigned first, end; } box;

/* One call of the firmware at a time, and its message into the mailbox before the next one. */
static void lock(void) {
    while (atomic_flag_test_and_set(&taken)) {
    }
}
static void unlock(void) { atomic_flag_clear(&taken); }

static void post(const struct psci_frame *message) {
    if (message->some)
        memcpy(box.frames[box.end++ % 64], message->bytes, PSCI_FRAME_LEN);
}

/* The code of a 64-bit function is sign-extended, that of a 32-bit one stands in the low half. */
static uint64_t register_of(int32_t code, uint64_t word) {
    return word & 0x40000000 ? (uint64_t)(int64_t)code : (uint32_t)code;
}

static void fail(const char *why, uint32_t what) {
    fprintf(stderr, "boot: %s: %" PRIu32 "\n", why, what);
    exit(1);
}

/* What the core does next, once the lock is given back. */
static void obey(unsigned core, const struct psci_answer *answer, const struct psci_stop *stop) {
    struct cpu *cpu = &cpus[core];
    switch (answer->what) {
    case PSCI_RETURN: /* ERET behind the call */
        cpu->x[0] = register_of(answer->code, cpu->x[0]);
        printf("core %u returns 0x%" PRIx64 "\n", core, cpu->x[0]);
        break;
    case PSCI_STOP: /* caches are cleaned here, as deep as it goes; then WFI until the power goes */
        cpu->runs = false;
        printf("core %u stops: %u %u %u%s\n", core, stop->depths[0], stop->depths[1], stop->depths[2],
               stop->wakes ? ", until it is woken" : "");
        break;
    case PSCI_ENTER: /* ERET to the entry point; no other register says anything */
        *cpu = (struct cpu){{answer->context}, answer->address, true};
        printf("core %u enters at 0x%" PRIx64 " with 0x%" PRIx64 "\n", core, cpu->pc, cpu->x[0]);
        break;
    case PSCI_RESUME: /* ERET behind the CPU_SUSPEND: the registers were kept */
        cpu->x[0] = 0;
        cpu->runs = true;
        printf("core %u resumes\n", core);
        break;
    default: /* the monitor has lost count of cores or starts */
        fail("refused", answer->what);
    }
}

/* AFFINITY_INFO of a core, which is asked in a row by who waits for it. */
static bool is_poll(const uint64_t *x) {
    return ((uint32_t)x[0] == 0x84000004 || (uint32_t)x[0] == 0xc4000004) && (uint32_t)x[2] == 0;
}

/* It is answered by one load: who holds the lock is not waited for. */
static void on_poll(unsigned core) {
    uint64_t *x = cpus[core].x;
    x[0] = register_of(psci_poll(&pollers[core], x[0] & 0x40000000 ? x[1] : (uint32_t)x[1]), x[0]);
    printf("core %u polls 0x%" PRIx64 "\n", core, x[0]);
}

/* The exception: a core of the normal world made an SMC with these registers. */
static void on_smc(unsigned core) {
    const uint64_t *x = cpus[core].x;
    struct psci_answer answer;
    struct psci_stop stop;
    if (is_poll(x)) {
        on_poll(core);
        return;
    }
    lock();
    psci_smc(&firmware, core, x[0], x[1], x[2], x[3], &answer);
    psci_stop(&firmware, core, x[0], &stop);
    post(&answer.message);
    unlock();
    obey(core, &answer, &stop);
}

/* The reset vector: a core was started. */
static void on_start(unsigned core, uint32_t life, uint32_t number, uint32_t cause) {
    struct psci_answer answer;
    struct psci_stop stop;
    lock();
    psci_enter(&firmware, core, life, number, cause, &answer);
    psci_stop(&firmware, core, 0, &stop);
    post(&answer.message);
    unlock();
    if (cause == PSCI_CAUSE_BOOT) /* whoever boots wants this in x0: Linux its device tree */
        answer.context = DEVICE_TREE;
    obey(core, &answer, &stop);
}

/* At cold reset, and each time that the system was reset: a core may have been cut in the middle of a
 * call, so the firmware is made anew, and each core's way to poll it. It takes the life of the first
 * start that enters. */
static void open_firmware(void) {
    uint32_t opened = psci_open_board(&firmware, &board);
    if (opened != PSCI_OPENED)
        fail("no firmware", opened);
    for (unsigned core = 0; core < CORES; core++)
        if (psci_open_poller(&firmware, &pollers[core]) != PSCI_OPENED)
            fail("no poller", core);
}

/* The interrupt of the mailbox: an acknowledgement has come. */
static void on_ack(const uint8_t *frame) {
    lock();
    uint32_t what = psci_take(&firmware, frame, PSCI_FRAME_LEN);
    unlock();
    if (what > PSCI_OLD)
        fail("a frame was refused", what);
}

/* The power controller ----------------------------------------------------------------------- */

static struct psci_ctl_place controller;

/* A core is powered up: it comes to its reset vector, and finds its start. */
static void power_up(unsigned core) {
    struct psci_ctl_start start;
    psci_ctl_started(&controller, core, &start);
    on_start(core, start.life, start.number, start.cause);
}

/* What the power hardware does. The acknowledgement of a Down goes back once its domains are as deep,
 * that of a Start here before the core enters. */
static void switch_power(const struct psci_ctl_answer *answer) {
    for (unsigned k = 0; k < answer->many; k++)
        printf("domain %" PRIu32 ":%u goes to %u\n", answer->domains[k].level,
               answer->domains[k].index, answer->domains[k].depth);
    if (answer->ack.some)
        on_ack(answer->ack.bytes);
    switch (answer->what) {
    case PSCI_CTL_NOTHING:
    case PSCI_CTL_SWITCH: break;
    case PSCI_CTL_START: power_up(answer->start.core); break;
    case PSCI_CTL_OFF: memset(cpus, 0, sizeof cpus); break;
    case PSCI_CTL_RESTART: /* lives count on here */
        memset(cpus, 0, sizeof cpus);
        open_firmware();
        power_up(answer->start.core);
        break;
    default: /* the link has changed a frame, or the two boards are not the same */
        fail("refused by the power controller", answer->what);
    }
}

/* A core that stopped is woken up, as by its interrupt: it stopped in its last start. */
static void wake(unsigned core) {
    struct psci_ctl_answer answer;
    psci_ctl_wake(&controller, core, psci_ctl_starts(&controller, core), &answer);
    switch_power(&answer);
}

/* All that is in the mailbox. */
static void serve(void) {
    struct psci_ctl_answer answer;
    while (box.first != box.end) {
        psci_ctl_deliver(&controller, box.frames[box.first++ % 64], PSCI_FRAME_LEN, &answer);
        switch_power(&answer);
    }
    if (!psci_ctl_life(&controller)) {
        printf("the system is off\n");
        return;
    }
    printf("depths");
    for (unsigned level = 0; level < LEVELS; level++)
        for (unsigned index = 0; index < (unsigned)CORES >> level; index++)
            printf(" %" PRIu32, psci_ctl_depth(&controller, level, index));
    printf("\n");
}

/* The normal world --------------------------------------------------------------------------- */

static void smc(unsigned core, uint64_t x0, uint64_t x1, uint64_t x2, uint64_t x3) {
    if (!cpus[core].runs)
        fail("a core that does not run made a call", core);
    cpus[core] = (struct cpu){{x0, x1, x2, x3}, cpus[core].pc, true};
    on_smc(core);
}

int main(void) {
    size_t size = 2 * pool_size(CORES);
    pool_give(malloc(size), size);
    if (psci_ctl_open_board(&controller, &board) != PSCI_OPENED)
        fail("no power controller", 0);
    open_firmware();
    power_up(0);
    smc(0, 0x84000000, 0, 0, 0);                   /* PSCI_VERSION */
    smc(0, 0xc4000003, 0x101, 0x40001000, 7);      /* CPU_ON of core 3 */
    smc(0, 0xc4000004, 0x101, 0, 0);               /* AFFINITY_INFO of it: ON_PENDING */
    serve();
    smc(3, 0xc4000001, 2, 0, 0);                   /* CPU_SUSPEND: retention of the core */
    serve();
    wake(3);
    smc(3, 0xc4000001, 0x02010333, 0x40002000, 8); /* power-down, up to the system */
    smc(0, 0xc4000001, 0x02010333, 0x40003000, 9);
    serve();
    wake(0);
    smc(0, 0xc4000004, 0x101, 0, 0);               /* AFFINITY_INFO of core 3 */
    wake(3);
    smc(3, 0x84000002, 0, 0, 0);                   /* CPU_OFF */
    smc(0, 0xc400000d, 0x101, 0, 0);               /* NODE_HW_STATE: on, until it is confirmed */
    serve();
    smc(0, 0xc400000d, 0x101, 0, 0);
    smc(0, 0xc4000004, 0x101, 0, 0);
    smc(0, 0xc4000003, 0x9, 0x40001000, 0);        /* CPU_ON of no core */
    smc(0, 0x84000003, 0x9, 0x40001000, 0);        /* the same by its 32-bit word */
    smc(0, 0x84000009, 0, 0, 0);                   /* SYSTEM_RESET: the next life */
    serve();
    smc(0, 0x84000008, 0, 0, 0);                   /* SYSTEM_OFF */
    serve();
    psci_close(&firmware);
    psci_ctl_close(&controller);
    for (unsigned core = 0; core < CORES; core++)
        psci_close_poller(&pollers[core]);
    return 0;
}
