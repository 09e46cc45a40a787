/* Why a Down waits until its core stands in its stop, with two threads: a core, and the control
 * processor that has its power. The core sends its Down from inside the monitor, with the lock
 * taken, and comes to its WFI later: here always after the control processor has seen the message.
 * The last thing that it writes is that it stands in its stop. First each Down is delivered once that is so;
 * then, for one turn, at once. Prints how often a core was cut inside the monitor. */
#include "pool.h"
#include "psci_ctl.h"

#include <pthread.h>
#include <sched.h>
#include <stdatomic.h>
#include <stdio.h>
#include <stdlib.h>
#include <string.h>

enum { TURNS = 200 };
static const char board[] = "(2 2) exec 0x40000000-0x40100000 boot 0x40000000 starts 1000 lives 3";

static struct psci_place firmware;
static struct psci_ctl_place controller;
static atomic_flag lock = ATOMIC_FLAG_INIT;
static uint8_t mailbox[PSCI_FRAME_LEN];
static atomic_bool some_mail;

/* What the two tell each other, by the number of a start: the last one that the control processor
 * let the core out of reset by, the last one whose Down it has seen, and the last one in which the
 * core stands in its stop. */
static atomic_uint opened, seen, stopped;

static atomic_bool in_monitor;

static void fail(const char *why, uint32_t what) {
    fprintf(stderr, "stop: %s: %u\n", why, what);
    exit(1);
}

static void take_lock(void) {
    while (atomic_flag_test_and_set(&lock))
        sched_yield();
}
static void give_lock(void) { atomic_flag_clear(&lock); }

static void wait_for(atomic_uint *word, uint32_t number) {
    while (atomic_load(word) != number)
        sched_yield();
}

/* The core ----------------------------------------------------------------------------------- */

/* Each start: it enters, and suspends again. */
static void *run_core(void *turns) {
    struct psci_answer answer;
    for (uint32_t number = 1; number <= *(uint32_t *)turns; number++) {
        wait_for(&opened, number); /* the reset vector */
        take_lock();
        psci_enter(&firmware, 0, 1, number, number == 1 ? PSCI_CAUSE_BOOT : PSCI_CAUSE_WAKE, &answer);
        give_lock();
        if (answer.what != PSCI_ENTER)
            fail("the core did not enter", answer.what);
        atomic_store(&in_monitor, true);
        take_lock();
        psci_smc(&firmware, 0, 0xc4000001, 0x00010003, 0x40001000, 7, &answer);
        if (answer.what != PSCI_STOP || !answer.message.some)
            fail("the core did not stop", answer.what);
        memcpy(mailbox, answer.message.bytes, PSCI_FRAME_LEN);
        atomic_store(&some_mail, true);
        wait_for(&seen, number); /* a slow way back, with the lock taken */
        give_lock();
        atomic_store(&in_monitor, false); /* caches are cleaned by here */
        atomic_store(&stopped, number);   /* the last write; then WFI */
    }
    return NULL;
}

/* The control processor ---------------------------------------------------------------------- */

/* The start in which the core of a frame sent it, its number's last byte and the one above. */
static uint32_t number_of(const uint8_t *frame) { return frame[10] << 8 | frame[11]; }

/* A Down of the core's present start waits for the stop. One of an earlier start may go, as stale. */
static bool may_deliver(const uint8_t *frame) {
    uint32_t number = number_of(frame);
    return frame[2] != 1 || number != psci_ctl_starts(&controller, frame[3])
        || atomic_load(&stopped) == number;
}

/* Serves so many Downs, and wakes the core after each. How often it was cut. */
static unsigned serve(uint32_t turns, bool waits, unsigned *early) {
    struct psci_ctl_answer answer;
    unsigned cut = 0;
    atomic_store(&opened, 1);
    for (uint32_t turn = 1; turn <= turns; turn++) {
        while (!atomic_load(&some_mail))
            sched_yield();
        *early += !may_deliver(mailbox);
        if (waits)
            atomic_store(&seen, turn);
        while (waits && !may_deliver(mailbox))
            sched_yield();
        psci_ctl_deliver(&controller, mailbox, PSCI_FRAME_LEN, &answer);
        cut += answer.what == PSCI_CTL_SWITCH && answer.many > 0 && atomic_load(&in_monitor);
        if (!waits)
            return cut; /* the lock is never given back: no call of any core returns any more */
        atomic_store(&some_mail, false);
        take_lock();
        psci_take(&firmware, answer.ack.bytes, PSCI_FRAME_LEN);
        give_lock();
        psci_ctl_wake(&controller, 0, turn, &answer);
        atomic_store(&opened, answer.start.number);
    }
    return cut;
}

static void play(uint32_t turns, bool waits) {
    pthread_t core;
    unsigned early = 0;
    size_t size = 2 * pool_size(4);
    pool_give(malloc(size), size);
    if (psci_open(&firmware, (const uint8_t *)board, strlen(board)) != PSCI_OPENED
        || psci_ctl_open(&controller, (const uint8_t *)board, strlen(board)) != PSCI_OPENED)
        fail("not opened", 0);
    atomic_store(&opened, 0), atomic_store(&seen, 0), atomic_store(&stopped, 0);
    if (pthread_create(&core, NULL, run_core, &turns))
        fail("no thread", 0);
    unsigned cut = serve(turns, waits, &early);
    printf("delivered %s: Downs %u, seen before the stop %u, cut inside the monitor %u\n",
           waits ? "once the core stands in its stop" : "at once", turns, early, cut);
    atomic_store(&seen, turns);
    pthread_join(core, NULL);
    atomic_store(&some_mail, false);
    psci_close(&firmware);
    psci_ctl_close(&controller);
}

int main(void) {
    play(TURNS, true);
    play(1, false);
    return 0;
}
