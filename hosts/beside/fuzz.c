/* The shared driver of the targets, in the convention that fuzzers share: a list of events is drawn from
 * bytes (draws.c), and differences are put into groups (report.c). */
#include "lists.h"

#include <setjmp.h>
#include <signal.h>
#include <stdio.h>
#include <stdlib.h>
#include <sys/time.h>
#include <time.h>
#include <unistd.h>

struct psci_beside beside_side;
uint64_t beside_lists, beside_events;
bool is_drawn_blindly, is_drawn_as_stored;
static struct timespec began;

/* Of this process's processor, so that other work on the machine counts for nothing. */
double seconds(void) {
    struct timespec now;
    clock_gettime(CLOCK_PROCESS_CPUTIME_ID, &now);
    return (double)(now.tv_sec - began.tv_sec) + (double)(now.tv_nsec - began.tv_nsec) / 1e9;
}

/* ---- A peer that does not come back */

int most_tenths = 10;
static volatile sig_atomic_t tenths, place;
static sigjmp_buf away;
enum { OUTSIDE, OPENING, EVENT };

static void tick(int signal) {
    static const char words[] = "beside: the peer does not come back as it is opened\n";
    (void)signal;
    if (place == OUTSIDE || ++tenths <= most_tenths)
        return;
    if (place == OPENING) {
        if (write(STDERR_FILENO, words, sizeof words - 1) < 0)
            _exit(2);
        _exit(1);
    }
    place = OUTSIDE;
    siglongjmp(away, 1);
}

static void watch(void) {
    struct sigaction action = {.sa_handler = tick, .sa_flags = SA_RESTART | SA_NODEFER};
    struct itimerval tenth = {{0, 100000}, {0, 100000}};
    sigaction(SIGVTALRM, &action, NULL);
    setitimer(ITIMER_VIRTUAL, &tenth, NULL);
}

void begin_list(void) {
    tenths = 0;
    place = OPENING;
    psci_beside_begin(&beside_side);
    place = OUTSIDE;
}

uint32_t do_event(const struct psci_beside_event *e) {
    if (sigsetjmp(away, 0))
        return psci_beside_loops(&beside_side);
    tenths = 0;
    place = EVENT;
    uint32_t what = psci_beside_do(&beside_side, e);
    place = OUTSIDE;
    return what;
}

/* ---- The opening */

void open_once(void) {
    if (beside_side.peer)
        return;
    clock_gettime(CLOCK_PROCESS_CPUTIME_ID, &began);
    watch();
    size_t size = psci_beside_size(PSCI_MOST_CORES);
    void *memory = aligned_alloc(16, size);
    place = OPENING;
    if (!memory || psci_beside_open(&beside_side, planted(&psci_beside_target), &profile, memory, size) != PSCI_OPENED) {
        fprintf(stderr, "beside: the board does not open\n");
        exit(1);
    }
    place = OUTSIDE;
    atexit(write_report);
}

/* ---- The convention of fuzzers */

/* The first call of each list. A fuzzer gives up where its first inputs, which are empty, reach nothing. */
static const struct psci_beside_event version = {.kind = PSCI_BESIDE_CALL, .x = {0x84000000}};

int LLVMFuzzerTestOneInput(const uint8_t *data, size_t size) {
    uint32_t what;
    open_once();
    beside_lists++;
    draw_from(data, size);
    begin_list();
    if (do_event(&version) >= PSCI_BESIDE_DIFFERS && differ())
        return 0;
    do {
        struct psci_beside_event e = draw_event();
        what = do_event(&e);
        beside_events++;
        if ((what == PSCI_BESIDE_DIFFERS || what == PSCI_BESIDE_PARTED) && differ())
            return 0;
    } while (!is_drawn() && what < PSCI_BESIDE_OVER);
    return 0;
}
