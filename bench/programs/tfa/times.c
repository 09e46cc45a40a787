/* Pairs of a suspend and a wake by one, two and four threads, each a core.
 *   times [PAIRS [THREADS]]   the pairs of all threads together, and the most threads; prints thousands of pairs a second */
#include "platform.h"

#include <pthread.h>
#include <stdio.h>
#include <stdlib.h>
#include <time.h>

static unsigned long each;

static void *turns(void *core) {
    int64_t answer;
    me = (unsigned int)(uintptr_t)core;
    for (unsigned long k = 0; k < each; k++) {
        if (!call(PSCI_CPU_SUSPEND_AARCH64, 0x02010333, 0x40001000, k, &answer))
            exit(1);
        enter();
        if (at[me].address != 0x40001000 || at[me].context != k)
            exit(1);
    }
    return NULL;
}

static void start(unsigned int core) {
    int64_t answer = -1;
    me = 0;
    if (call(PSCI_CPU_ON_AARCH64, mpidr_of(core), 0x40001000, 7, &answer) || answer)
        exit(1);
    me = core;
    enter();
}

int main(int argc, char **argv) {
    unsigned long pairs = argc > 1 ? strtoul(argv[1], NULL, 10) : 1000000;
    unsigned int most = argc > 2 ? atoi(argv[2]) : 4, running = 1;
    DEFINE_STATIC_PSCI_LIB_ARGS_V1(arguments, psci_warmboot_entrypoint);
    psci_setup(&arguments);
    for (unsigned int count = 1; count <= most && count <= PLATFORM_CORE_COUNT; count *= 2) {
        pthread_t threads[PLATFORM_CORE_COUNT];
        struct timespec a, b;
        for (; running < count; running++)
            start(running);
        each = pairs / count;
        clock_gettime(CLOCK_MONOTONIC, &a);
        for (uintptr_t k = 0; k < count; k++)
            pthread_create(&threads[k], NULL, turns, (void *)k);
        for (unsigned int k = 0; k < count; k++)
            pthread_join(threads[k], NULL);
        clock_gettime(CLOCK_MONOTONIC, &b);
        printf("%u threads: %.0f thousand pairs of suspend and wake a second\n", count,
               pairs * 1e6 / ((b.tv_sec - a.tv_sec) * 1e9 + (b.tv_nsec - a.tv_nsec)));
    }
    return 0;
}
