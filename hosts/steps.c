/* steps: a reset after each single instruction of a call, by the processor's trap flag (x86-64): the call is cut behind
 * its first instruction, in the next life behind its second, and so on until it comes through. Behind each cut every
 * place still holds what it held: no call but those that open and close takes anything out of its place. Then what
 * docs/port/PORTING.md says of a reset is done, and the next life has to begin; where the call that is cut is one of the
 * power controller, both sides are reset cold. They are some 10,000 lives, which hangs on the compiler. */
#define _GNU_SOURCE
#include "machine.h"

#include <setjmp.h>
#include <signal.h>
#include <stdio.h>
#include <string.h>

enum { TRAP_FLAG = 0x100, MOST = 20000, FEW = 8 };

static sigjmp_buf reset;
static volatile long left;
static struct psci_ctl_start start;
static struct psci_place machine;
static struct psci_poller poller;

/* A machine whose words are the board's but for its MPIDRs: it has no state of its own. */
static const struct psci_machine words = {
    .levels = 2,
    .functions = PSCI_HAS_CPU_OFF | PSCI_HAS_CPU_ON | PSCI_HAS_SYSTEM_OFF | PSCI_HAS_SYSTEM_RESET,
    .many_mpidrs = CORES,
    .mpidrs = {0x10000, 0x10001, 0x10100, 0x10101},
};

static void trap(int number) {
    (void)number;
    if (--left == 0)
        siglongjmp(reset, 1);
}

static inline void step_by_step(bool steps) {
    if (steps)
        __asm__ volatile("pushfq\n orq %0, (%%rsp)\n popfq" ::"i"(TRAP_FLAG) : "memory", "cc");
    else
        __asm__ volatile("pushfq\n andq %0, (%%rsp)\n popfq" ::"i"(~TRAP_FLAG) : "memory", "cc");
}

static void start_one(void) {
    smc(0, ON, word_of(1), 0x40001000, 0);
    serve();
}
static void run_one(void) {
    start_one();
    if (enter(1) != PSCI_ENTER)
        fail("core 1 does not enter", said.what);
}
static void wake_early(void) {
    smc(0, SUSPEND, CORE_DOWN, 0x40001000, 3);
    psci_ctl_deliver(&controller, box[0].bytes, PSCI_FRAME_LEN, &done);
    wake(0);
}
static void nothing(void) {}

static void call_on(void) { smc(0, ON, word_of(1), 0x40001000, 7); }
static void call_off(void) { smc(1, OFF, 0, 0, 0); }
static void call_info(void) { smc(0, INFO, word_of(1), 0, 0); }
static void call_suspend(void) { smc(0, SUSPEND, CORE_DOWN, 0x40001000, 3); }
static void call_enter(void) { psci_enter(&firmware, 1, start.life, start.number, start.cause, &said); }
static void call_machine(void) { psci_smc(&machine, 0, ON, words.mpidrs[1], 0x40001000, 7, &said); }
static void call_stop(void) {
    struct psci_stop stop;
    psci_stop(&firmware, 0, SUSPEND, &stop);
}
static void call_take(void) { psci_take(&firmware, done.ack.bytes, PSCI_FRAME_LEN); }
static void call_decode(void) {
    struct psci_message message;
    psci_decode(&firmware, box[SYSTEM].bytes, PSCI_FRAME_LEN, &message);
}
static void call_outstanding(void) {
    struct psci_frame message;
    psci_outstanding(&firmware, 1, &message);
}
static void call_deliver(void) { psci_ctl_deliver(&controller, box[1].bytes, PSCI_FRAME_LEN, &done); }
static void call_started(void) { psci_ctl_started(&controller, 1, &start); }
#define READS(name, ...) static void name(void) { __VA_ARGS__; }
READS(call_life, psci_life(&firmware))
READS(call_halting, psci_halting(&firmware))
READS(call_known, psci_known(&firmware, 1))
READS(call_running, psci_running(&firmware, 1))
READS(call_granted, psci_granted(&firmware, 1, 0))
READS(call_status, psci_status(&firmware, 0, 1))
READS(call_hw, psci_hw(&firmware, 0, 1))
READS(call_cores, psci_cores(&firmware))
READS(call_height, psci_height(&firmware))
READS(call_nodes, psci_nodes(&firmware, 1))
READS(call_children, psci_children(&firmware, 1, 0))
READS(call_core_of, psci_core_of(&machine, words.mpidrs[3]))
READS(call_mpidr_of, psci_mpidr_of(&machine, 3))
READS(call_place_of, psci_place_of(&machine, 1, 1))
READS(call_poll, psci_poll(&poller, word_of(1)))
READS(call_wake, psci_ctl_wake(&controller, 1, start.number, &done))
READS(call_reset, psci_ctl_reset(&controller, 1, &done))
READS(call_ctl_life, psci_ctl_life(&controller))
READS(call_starts, psci_ctl_starts(&controller, 1))
READS(call_depth, psci_ctl_depth(&controller, 1, 0))

/* Each call that neither opens nor closes; psci_encode has no place. */
static const struct {
    const char *name;
    void (*before)(void), (*call)(void);
    bool of_controller;
} calls[] = {
    {"CPU_ON", nothing, call_on, false},
    {"CPU_OFF", run_one, call_off, false},
    {"AFFINITY_INFO", nothing, call_info, false},
    {"CPU_SUSPEND", nothing, call_suspend, false},
    {"CPU_ON of a machine", nothing, call_machine, false},
    {"psci_enter", start_one, call_enter, false},
    {"psci_stop", call_suspend, call_stop, false},
    {"psci_take", wake_early, call_take, false},
    {"psci_decode", nothing, call_decode, false},
    {"psci_outstanding", call_on, call_outstanding, false},
    {"psci_life", nothing, call_life, false},
    {"psci_halting", nothing, call_halting, false},
    {"psci_known", nothing, call_known, false},
    {"psci_running", nothing, call_running, false},
    {"psci_granted", nothing, call_granted, false},
    {"psci_status", nothing, call_status, false},
    {"psci_hw", nothing, call_hw, false},
    {"psci_cores", nothing, call_cores, false},
    {"psci_height", nothing, call_height, false},
    {"psci_nodes", nothing, call_nodes, false},
    {"psci_children", nothing, call_children, false},
    {"psci_core_of", nothing, call_core_of, false},
    {"psci_mpidr_of", nothing, call_mpidr_of, false},
    {"psci_place_of", nothing, call_place_of, false},
    {"psci_poll", nothing, call_poll, false},
    {"psci_ctl_deliver", call_on, call_deliver, true},
    {"psci_ctl_wake", start_one, call_wake, true},
    {"psci_ctl_reset", start_one, call_reset, true},
    {"psci_ctl_life", nothing, call_ctl_life, true},
    {"psci_ctl_starts", nothing, call_starts, true},
    {"psci_ctl_started", nothing, call_started, true},
    {"psci_ctl_depth", nothing, call_depth, true},
};

/* A firmware with a machine, whose boot core runs, and a poller for the one that was just opened; a port has their
 * places all zero at a reset. */
static void open_others(void) {
    memset(&machine, 0, sizeof machine);
    memset(&poller, 0, sizeof poller);
    uint32_t opened = psci_open_machine(&machine, &two_by_two, &words, words.mpidrs[0]);
    if (opened != PSCI_OPENED)
        fail("no machine", opened);
    psci_enter(&machine, 0, 1, 1, PSCI_CAUSE_BOOT, &said);
    if (psci_open_poller(&firmware, &poller) != PSCI_OPENED)
        fail("no poller", 0);
}

static void check_places(const char *name, long cut) {
    if (!firmware.full || !controller.full || !machine.full || !poller.full) {
        fprintf(stderr, "%s left a place empty, ", name);
        fail("cut behind instruction", cut);
    }
}

/* Another core has asked for the reset of this life, and it is carried out. */
static void end_life(uint32_t life) {
    struct psci_message message = {.kind = PSCI_MESSAGE_RESET, .life = life, .number = psci_ctl_starts(&controller, 0)};
    struct psci_frame frame;
    psci_encode(&message, &frame);
    psci_ctl_deliver(&controller, frame.bytes, PSCI_FRAME_LEN, &done);
    if (done.what != PSCI_CTL_RESTART)
        fail("no next life", done.what);
    memset(box, 0, sizeof box);
    open_anew(&two_by_two);
}

/* Whether this call is cut behind so many instructions; it is not where it has fewer. */
static bool is_cut(void (*call)(void), long instructions) {
    static volatile bool came_through;
    came_through = false;
    left = instructions;
    if (!sigsetjmp(reset, 1)) {
        step_by_step(true);
        call();
        step_by_step(false);
        came_through = true;
    }
    step_by_step(false);
    return !came_through;
}

int main(void) {
    struct sigaction on_trap = {.sa_handler = trap, .sa_flags = SA_NODEFER};
    uint32_t life = 0;
    sigaction(SIGTRAP, &on_trap, NULL);
    cold_reset(&two_by_two);
    for (unsigned at = 0; at < sizeof calls / sizeof *calls; at++) {
        long cuts = 0;
        bool was_cut = true;
        while (was_cut && cuts < MOST) {
            life++;
            open_others();
            if (enter(0) != PSCI_ENTER || psci_life(&firmware) != life)
                fail("the boot core does not enter life", life);
            calls[at].before();
            psci_ctl_started(&controller, 1, &start);
            was_cut = is_cut(calls[at].call, cuts + 1);
            cuts += was_cut;
            check_places(calls[at].name, cuts);
            if (calls[at].of_controller) {
                cold_reset(&two_by_two);
                life = 0;
            } else {
                end_life(life);
            }
        }
        if (cuts < FEW || cuts == MOST)
            fail(calls[at].name, cuts);
        printf("%s: cut behind each of its instructions: no place is empty, and each next life begins\n",
               calls[at].name);
    }
    return 0;
}
