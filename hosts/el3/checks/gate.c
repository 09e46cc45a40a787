/* A core's reset line that acts late, or comes to nothing, as QEMU's does: the board's own C (boards/zcu102), with a thread
 * as the core and one as the line. Who starts the core, or ends the life, has to see it at its gate; a core that comes back by itself
 * keeps what is pending for it. */
#include "board.h"
#include "console.h"
#include "gic.h"
#include "hooks.h"
#include "monitor.h"
#include "shared.h"

#include <pthread.h>
#include <setjmp.h>
#include <stdatomic.h>
#include <stdio.h>
#include <stdlib.h>
#include <string.h>
#include <time.h>

enum { CORE = 1, STARTS = 60, RESET_LINE = 0x401 << CORE, PATIENCE = 10 };
enum { AT_GATE, RUNS };

struct kept kept;
static volatile uint32_t lines, other;
static atomic_int is_reset, is_held, is_off, where = RUNS, is_woken, is_over;
static atomic_uint door, entered, forgotten, comes_out, wrong;
static _Thread_local jmp_buf *reset;
static jmp_buf life;
static unsigned seed = 1, naps = 2;

static void is_wrong(const char *what) {
    if (wrong++ < 5)
        fprintf(stderr, "wrong: %s\n", what);
}

static uint64_t now(void) {
    struct timespec time;
    clock_gettime(CLOCK_MONOTONIC, &time);
    return time.tv_sec * 1000000000ull + time.tv_nsec;
}

static void nap(unsigned microseconds) { nanosleep(&(struct timespec){.tv_nsec = microseconds * 1000l}, NULL); }

/* The machine -------------------------------------------------------------------------------- */

volatile uint32_t *host_device(uintptr_t address) { return address == RST_FPD_APU ? &lines : &other; }
uint64_t host_read(const char *name) {
    if (strcmp(name, "mpidr_el1") == 0)
        return reset ? CORE : 0;
    return now() / (1000000000 / FREQUENCY);
}
void host_write(const char *name, uint64_t value) { (void)name, (void)value; }
void host_wait(void) { host_relax(); }
uint64_t *host_place(void) {
    static uint64_t number;
    return &number;
}

/* The core goes on, if it was not reset meanwhile; not while the line is about to act. */
void host_relax(void) {
    nap(5);
    while (reset && (is_held || is_off) && !is_reset && !is_over)
        nap(5);
    if (reset && atomic_exchange(&is_reset, 0))
        longjmp(*reset, 1);
    if (is_over && reset)
        pthread_exit(NULL);
}

static void act(atomic_int *what) {
    is_held = 1;
    nap(rand_r(&seed) % 4000);
    *what = 1;
    is_off = what == &is_off;
    is_held = 0;
}

/* It acts some time after it is pulled, and later. One pulled takes a core that is on off; one let go resets a core that is
 * off by then, and is nothing to one that is still on. */
static void *line(void *unused) {
    for (bool was_pulled = false; !is_over; nap(20)) {
        bool is_pulled = lines & RESET_LINE;
        if (is_pulled && !was_pulled && !is_off)
            act(&is_off);
        if (!is_pulled && was_pulled && is_off)
            act(&is_reset);
        was_pulled = is_pulled;
    }
    return unused;
}

_Noreturn void cold(void) { longjmp(life, 1); }
void gic_forget(void) { forgotten++; }
bool gic_is_started(void) { return true; }
void gic_ring(unsigned core) { (void)core; }
void gic_bell_alone(void) {}
void stand(const struct last_word *last, enum caches caches) { (void)last, (void)caches; }
void say(const char *form, ...) { (void)form; }

/* The core ----------------------------------------------------------------------------------- */

static void *core(void *unused) {
    static jmp_buf begin;
    static unsigned last;
    reset = &begin;
    if (setjmp(begin)) {
        where = AT_GATE;
        comes_out++;
        nap(rand_r(&naps) % 8 ? 0 : 20000);
        board_comes_out();
        if (door == last)
            is_wrong("a core went on before its door was open");
        last = door;
        where = RUNS;
        entered++;
    }
    for (;;) {
        host_relax();
        if (atomic_exchange(&is_woken, 0)) {
            unsigned before = forgotten;
            board_comes_out();
            if (forgotten != before)
                is_wrong("what was pending over a suspend is forgotten");
            entered++;
        }
    }
    return unused;
}

/* Until it has entered so often. */
static void await(unsigned times) {
    for (uint64_t end = now() + PATIENCE * 1000000000ull; entered < times && now() < end;)
        nap(50);
    if (entered < times) {
        is_wrong("a core did not enter");
        exit(1);
    }
}

static void start(void) {
    unsigned times = entered + 1, before = forgotten;
    board_resets(CORE);
    if (where == RUNS)
        is_wrong("a core runs on behind the pulse of its line");
    door++;
    board_starts(CORE, true);
    await(times);
    if (forgotten == before)
        is_wrong("a core keeps the interrupts of before its reset");
}

static void wake(void) {
    unsigned times = entered + 1;
    is_woken = 1;
    await(times);
}

/* By the boot core: no other one goes on. */
static void end_life(void) {
    if (!setjmp(life))
        board_ends(true);
    if (where == RUNS)
        is_wrong("a core runs on behind a reset of the system");
}

int main(void) {
    pthread_t threads[2];
    pthread_create(&threads[0], NULL, core, NULL);
    pthread_create(&threads[1], NULL, line, NULL);
    for (unsigned k = 0; k < STARTS; k++) {
        start();
        wake();
    }
    end_life();
    is_over = 1;
    pthread_join(threads[0], NULL);
    pthread_join(threads[1], NULL);
    printf("%u starts by a reset line, which came out %u times; wrong %u\n", STARTS, comes_out, wrong);
    return wrong != 0;
}
