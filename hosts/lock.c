/* lock: four threads, each a core, call the firmware at once, with one lock around each call, and now and then
 * rest in standby and are woken, under one lock. Each polls, too, without the lock, also while a core stands
 * still that has it. Prints what was answered, and how many calls began while another one was under way. */
#include "machine.h"

#include <inttypes.h>
#include <pthread.h>
#include <sched.h>
#include <stdatomic.h>
#include <stdio.h>

enum { CALLS = 400000, CALLS_TO_A_REST = 8, CALLS_TO_A_PAUSE = 1024 };

static atomic_flag taken = ATOMIC_FLAG_INIT;

/* Taking it acquires, giving it back releases. */
static void take_lock(void) {
    while (atomic_flag_test_and_set_explicit(&taken, memory_order_acquire))
        sched_yield();
}
static void give_lock(void) { atomic_flag_clear_explicit(&taken, memory_order_release); }

static struct psci_poller pollers[CORES];
static atomic_uint ready, under_way, overlapped, refused, wrong;

/* A core goes into standby, the power controller carries that out, and a wake-up ends it. */
static bool rests(unsigned core) {
    struct psci_answer answer;
    struct psci_ctl_answer carried_out;
    struct psci_ctl_start start;
    psci_smc(&firmware, core, SUSPEND, STANDBY, 0, 0, &answer);
    if (answer.what != PSCI_STOP || !answer.message.some)
        return false;
    psci_ctl_deliver(&controller, answer.message.bytes, PSCI_FRAME_LEN, &carried_out);
    if (carried_out.what != PSCI_CTL_SWITCH || psci_take(&firmware, carried_out.ack.bytes, PSCI_FRAME_LEN) != PSCI_USED)
        return false;
    psci_ctl_wake(&controller, core, psci_ctl_starts(&controller, core), &carried_out);
    psci_ctl_started(&controller, core, &start);
    psci_enter(&firmware, core, start.life, start.number, start.cause, &answer);
    return carried_out.what == PSCI_CTL_START && answer.what == PSCI_RESUME;
}

/* AFFINITY_INFO of each core in turn, through the firmware and by a poll: all are on, also those that rest. */
static void *call(void *number) {
    unsigned core = *(unsigned *)number;
    struct psci_answer answer;
    for (ready++; ready < CORES;)
        sched_yield();
    for (unsigned k = 0; k < CALLS; k++) {
        take_lock();
        overlapped += under_way++ != 0;
        psci_smc(&firmware, core, INFO, word_of(k % CORES), 0, 0, &answer);
        bool running = psci_running(&firmware, core);
        if (k % CALLS_TO_A_REST == 0)
            wrong += !rests(core);
        if (k % CALLS_TO_A_PAUSE == 0) /* the others come to their locks, also on one processor */
            sched_yield();
        under_way--;
        give_lock();
        refused += answer.what != PSCI_RETURN;
        wrong += answer.code != 0 || !running || psci_poll(&pollers[core], word_of(k % CORES)) != 0;
    }
    return NULL;
}

int main(void) {
    static unsigned numbers[CORES] = {0, 1, 2, 3};
    pthread_t threads[CORES];
    cold_reset(&two_by_two);
    enter(0);
    for (unsigned core = 1; core < CORES; core++) {
        smc(0, ON, word_of(core), 0x40001000, 0);
        serve();
        enter(core);
    }
    for (unsigned core = 0; core < CORES; core++)
        if (psci_open_poller(&firmware, &pollers[core]) != PSCI_OPENED)
            fail("no poller", core);
    for (unsigned core = 0; core < CORES; core++)
        if (pthread_create(&threads[core], NULL, call, &numbers[core]))
            fail("no thread", core);
    for (unsigned core = 0; core < CORES; core++)
        pthread_join(threads[core], NULL);
    printf("%u calls of %u cores at once: overlapped %u, refused %u, wrong answers %u\n", CALLS * CORES, CORES,
           overlapped, refused, wrong);
    for (unsigned core = 0; core < CORES; core++)
        smc(core, SUSPEND, ALL_DOWN, 0x40001000, 0);
    serve();
    printf("all asleep: the system's depth is %" PRIu32 "\n", psci_ctl_depth(&controller, LEVELS - 1, 0));
    take_lock(); /* and its core is cut: no call ever returns, but a poll does */
    printf("a poll while the lock is taken for ever: %" PRId32 "\n", psci_poll(&pollers[1], word_of(0)));
    return 0;
}
