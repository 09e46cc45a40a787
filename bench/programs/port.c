/* What a port takes for the pairs of calls of tfa.c: the firmware of psci.h, which keeps no book, behind a
 * test-and-set lock of the port's own. One, two and four threads, each a core of its own, suspend to the system and
 * are woken; no other core runs.
 *   port PAIRS      the pairs of all threads together; prints thousands of pairs a second, and what a poll takes
 *                   while another thread calls, in nanoseconds */
#include "pool.h"
#include "psci.h"

#include <pthread.h>
#include <stdatomic.h>
#include <stdio.h>
#include <stdlib.h>
#include <string.h>
#include <time.h>

enum { CORES = 4, POLLS = 20000000 };
static const char board[] =
    "(2 2) exec 0x40000000-0x40100000 boot 0x40000000 starts 4294967295 lives 3";

static struct psci_place firmware;
static struct { atomic_uint held; char pad[60]; } lock;
static uint32_t starts[CORES];
static unsigned long pairs_of_each;
static atomic_bool done;

static void take(void) {
    while (atomic_exchange_explicit(&lock.held, 1, memory_order_acquire))
        while (atomic_load_explicit(&lock.held, memory_order_relaxed))
            __builtin_ia32_pause();
}
static void give(void) { atomic_store_explicit(&lock.held, 0, memory_order_release); }

static uint32_t smc(uint16_t core, uint64_t x0, uint64_t x1, uint64_t x2, uint64_t x3) {
    struct psci_answer answer;
    take();
    psci_smc(&firmware, core, x0, x1, x2, x3, &answer);
    give();
    return answer.what;
}

static uint32_t enter(uint16_t core, uint32_t cause) {
    struct psci_answer answer;
    take();
    psci_enter(&firmware, core, 1, ++starts[core], cause, &answer);
    give();
    return answer.what;
}

static void *turns(void *which) {
    uint16_t core = (uint16_t)(uintptr_t)which;
    for (unsigned long k = 0; k < pairs_of_each; k++)
        if (smc(core, 0xc4000001, 0x02010333, 0x40001000, 7) != PSCI_STOP
            || enter(core, PSCI_CAUSE_WAKE) != PSCI_ENTER)
            exit(1);
    return NULL;
}

static void *turns_until_done(void *which) {
    pairs_of_each = 1000;
    while (!done)
        turns(which);
    return NULL;
}

static double seconds(void) {
    struct timespec now;
    clock_gettime(CLOCK_MONOTONIC, &now);
    return (double)now.tv_sec + (double)now.tv_nsec * 1e-9;
}

/* So many cores of the board run. */
static void open_cores(unsigned count) {
    static const uint64_t words[CORES] = {0x000, 0x001, 0x100, 0x101};
    memset(starts, 0, sizeof starts);
    if (psci_open(&firmware, (const uint8_t *)board, strlen(board)) != PSCI_OPENED)
        exit(1);
    enter(0, PSCI_CAUSE_BOOT);
    for (uint16_t core = 1; core < count; core++) {
        smc(0, 0xc4000003, words[core], 0x40001000, 7);
        enter(core, PSCI_CAUSE_ON);
    }
}

static void timed(unsigned long pairs, unsigned count) {
    pthread_t threads[CORES];
    open_cores(count);
    pairs_of_each = pairs / count;
    double begun = seconds();
    for (uintptr_t k = 0; k < count; k++)
        pthread_create(&threads[k], NULL, turns, (void *)k);
    for (unsigned k = 0; k < count; k++)
        pthread_join(threads[k], NULL);
    printf("%u threads: %.0f thousand pairs of suspend and wake a second\n", count,
           (double)pairs / 1e3 / (seconds() - begun));
}

/* A poll of core 0 beside a thread that calls for core 3 without a pause. */
static void polled(void) {
    struct psci_poller poller = {0};
    pthread_t thread;
    uint32_t on = 0;
    open_cores(CORES);
    if (psci_open_poller(&firmware, &poller) != PSCI_OPENED)
        exit(1);
    pthread_create(&thread, NULL, turns_until_done, (void *)(uintptr_t)3);
    double begun = seconds();
    for (unsigned k = 0; k < POLLS; k++)
        on += psci_poll(&poller, 0) == 0;
    printf("a poll while another thread calls: %.1f ns\n", (seconds() - begun) / POLLS * 1e9);
    done = true;
    pthread_join(thread, NULL);
    if (on != POLLS)
        exit(1);
}

int main(int count, char **words) {
    unsigned long pairs = count > 1 ? strtoul(words[1], NULL, 10) : 1000000;
    size_t size = 2 * pool_size(CORES);
    pool_give(malloc(size), size);
    for (unsigned threads = 1; threads <= CORES; threads *= 2)
        timed(pairs, threads);
    polled();
    return 0;
}
