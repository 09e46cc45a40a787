/* resets: what docs/port/PORTING.md says of resets and of caches, tried. A reset cuts a core in the middle of
 * a call here by a signal that does not come back; caches are played by two images of the memory that
 * the firmware stands in. Prints what was seen. */
#define _XOPEN_SOURCE 700
#include "machine.h"

#include <inttypes.h>
#include <setjmp.h>
#include <signal.h>
#include <stdio.h>
#include <string.h>
#include <sys/time.h>

enum { RESETS = 200 };

/* In mid-call -------------------------------------------------------------------------------- */

static sigjmp_buf reset;

static void cut(int number) {
    (void)number;
    siglongjmp(reset, 1);
}

/* The lock, where the reset takes it before it stops the cores: it waits until the call has returned. */
static void hold(bool held) {
    sigset_t alarm;
    sigemptyset(&alarm);
    sigaddset(&alarm, SIGALRM);
    sigprocmask(held ? SIG_BLOCK : SIG_UNBLOCK, &alarm, NULL);
}

/* Whether a core has the lock; one that is cut keeps it. */
static volatile bool taken;

/* A core calls and reads, each time under the lock, until the reset cuts it. */
static void call_until_cut(unsigned core, long microseconds, bool is_waited_for) {
    struct itimerval after = {{0, 0}, {0, microseconds}};
    if (sigsetjmp(reset, 1))
        return;
    setitimer(ITIMER_REAL, &after, NULL);
    for (;;) {
        if (is_waited_for)
            hold(true);
        taken = true;
        smc(core, INFO, word_of(0), 0, 0);
        for (unsigned level = 0; level < 3; level++)
            psci_status(&firmware, level, 0);
        taken = false;
        if (is_waited_for)
            hold(false);
    }
}

/* So many lives, each ended by a reset while another core is in a call. In each the lock is free again, the
 * firmware is made anew, so that it knows of no life, and the power controller counts on. */
static void try_cuts(void) {
    unsigned held = 0, empty = 0, entered = 0, made = 0;
    struct psci_poller poller;
    struct sigaction on_alarm = {.sa_handler = cut};
    sigaction(SIGALRM, &on_alarm, NULL);
    cold_reset(&two_by_two);
    for (unsigned turn = 1; turn <= RESETS; turn++) {
        memset(&poller, 0, sizeof poller);
        if (psci_open_poller(&firmware, &poller) != PSCI_OPENED)
            fail("no poller", turn);
        entered += enter(0) == PSCI_ENTER && psci_life(&firmware) == turn && psci_poll(&poller, 0) == 0;
        smc(0, ON, word_of(1), 0x40001000, 0);
        serve();
        entered += enter(1) == PSCI_ENTER;
        smc(0, SYSTEM_RESET, 0, 0, 0);
        call_until_cut(1, 20 + turn % 50, false);
        held += taken;
        taken = false;
        empty += !firmware.full || !controller.full;
        psci_ctl_deliver(&controller, box[SYSTEM].bytes, PSCI_FRAME_LEN, &done);
        if (done.what != PSCI_CTL_RESTART)
            fail("no reset", done.what);
        memset(box, 0, sizeof box);
        open_anew(&two_by_two);
        made += psci_life(&firmware) == 0;
    }
    printf("resets in mid-call: some left the lock taken: %d, empty places: %u; of %d lives, %u cores entered, and %u "
           "times a firmware was made anew\n", held > 0, empty, RESETS, entered, made);
}

/* The same where the firmware's memory outlives the resets: it is kept, and they take its lock first. */
static void try_kept(void) {
    unsigned held = 0, entered = 0;
    cold_reset(&two_by_two);
    for (unsigned turn = 1; turn <= RESETS; turn++) {
        entered += enter(0) == PSCI_ENTER && psci_life(&firmware) == turn;
        smc(0, ON, word_of(1), 0x40001000, 0);
        serve();
        entered += enter(1) == PSCI_ENTER;
        smc(0, SYSTEM_RESET, 0, 0, 0);
        call_until_cut(1, 20 + turn % 50, true);
        held += taken;
        taken = false;
        deliver(SYSTEM);
        memset(box, 0, sizeof box);
        memset(runs, 0, sizeof runs);
    }
    printf("resets that take the lock first: some left the lock taken: %d; of %d lives, %u cores entered\n", held > 0,
           RESETS, entered);
}

/* Before the first entry of its life a new firmware answers no call, and takes nothing. */
static void try_new(void) {
    struct psci_frame start;
    cold_reset(&two_by_two);
    enter(0);
    smc(0, ON, word_of(1), 0x40001000, 0);
    start = box[1];
    psci_ctl_deliver(&controller, start.bytes, PSCI_FRAME_LEN, &done);
    open_anew(&two_by_two);
    uint32_t what = smc(0, INFO, 0, 0, 0);
    printf("a new firmware: a call %" PRIu32 ", an acknowledgement %" PRIu32 ", in the middle of a life", what,
           psci_take(&firmware, done.ack.bytes, PSCI_FRAME_LEN));
    runs[1] = true;
    wake(0);
    printf(" it says %d of a core that runs\n", code_of(smc(0, INFO, word_of(1), 0, 0)));
}

/* Old frames --------------------------------------------------------------------------------- */

/* What becomes of a Down that was under way when a life ended, by a reset of the system or of both
 * sides, if the mailbox keeps it. */
static void try_old_frame(bool cold, bool kept) {
    struct psci_frame down;
    cold_reset(&two_by_two);
    enter(0);
    smc(0, SUSPEND, CORE_DOWN, 0x40001000, 0);
    down = box[0];
    wake(0);
    smc(0, SYSTEM_RESET, 0, 0, 0);
    if (cold) {
        cold_reset(&two_by_two);
    } else {
        deliver(SYSTEM);
        open_anew(&two_by_two);
    }
    enter(0);
    box[0] = down;
    box[0].some = kept;
    serve();
    printf("a Down of before a %s reset, %s: the core runs, and its depth is %" PRIu32 "\n",
           cold ? "cold" : "system", kept ? "kept" : "gone", psci_ctl_depth(&controller, 0, 0));
}

/* Caches ------------------------------------------------------------------------------------- */

/* What a core sees whose caches are off: memory. The others have the firmware in their caches, and it
 * comes to memory where they clean them. */
static struct image { unsigned char heap[HEAP]; struct psci_place place; } memory, cached;

static void copy_out(struct image *to) {
    memcpy(to->heap, firmware_heap, HEAP);
    memcpy(&to->place, &firmware, sizeof firmware);
}

static void copy_in(const struct image *from) {
    memcpy(firmware_heap, from->heap, HEAP);
    memcpy(&firmware, &from->place, sizeof firmware);
}

/* Core 1 is asked on, and enters with its caches off. Who holds the lock cleans the firmware's memory
 * before it gives the lock back, or not; and the core that enters makes the others' caches let go of
 * it, or not. */
static void try_caches(bool cleans, bool invalidates) {
    cold_reset(&two_by_two);
    enter(0);
    copy_out(&memory);
    smc(0, ON, word_of(1), 0x40001000, 0);
    serve();
    if (cleans)
        copy_out(&memory);
    copy_out(&cached);
    copy_in(&memory);
    printf("caches, %s: the entry answers %" PRIu32, cleans ? "cleaned" : "not cleaned", enter(1));
    if (!invalidates)
        copy_in(&cached);
    printf(", %s: the others see %d\n", invalidates ? "and invalidated" : "not invalidated",
           code_of(smc(0, INFO, word_of(1), 0, 0)));
}

int main(void) {
    try_cuts();
    try_kept();
    try_new();
    try_old_frame(false, true);
    try_old_frame(true, true);
    try_old_frame(true, false);
    try_caches(true, true);
    try_caches(true, false);
    try_caches(false, true);
    return 0;
}
