/* The port's own C files with a thread for each core. Above them a normal world of drawn calls looks at what it gets:
 * registers, codes, entries. Where the compiler adds ThreadSanitizer, it tells what the port does not order.
 *
 *   threads SEED CALLS LIVES PRESSES FILE
 *
 * Core 0 makes so many calls in a life, and then resets the system, or presses the reset button, as often as is said;
 * the record goes into FILE. The exit status is 1 where anything is wrong. */
#include "threads.h"

#include "link.h"
#include "monitor.h"

#include <pthread.h>
#include <stdlib.h>
#include <sys/mman.h>

void on_exception(struct context *, uint64_t esr);
void on_fiq(void);

enum { SMC = 0x17u << 26, SMC64 = 0x40000000, CALLER = 1000, SLEEPER = 2000 };
enum {
    VERSION = 0x84000000, OFF = 0x84000002, SYSTEM_OFF = 0x84000008, SYSTEM_RESET = 0x84000009, FEATURES = 0x8400000a,
    MODE = 0x8400000f
};
static const uint64_t suspend = 0xc4000001, on = 0xc4000003, affinity = 0xc4000004, state = 0xc400000d,
                      system_suspend = 0xc400000e, mpidrs[] = {MPIDRS};
static uint64_t limit;

/* Calls -------------------------------------------------------------------------------------- */

static bool is_psci(uint32_t word) { return word >> 5 == 0x84000000u >> 5 || word >> 5 == 0xc4000000u >> 5; }

/* Whether the library says what is answered: not of SMCCC_VERSION, which is the machine's own. */
static bool is_asked(uint64_t x0, uint64_t x1) {
    return is_psci(x0) && !((uint32_t)x0 == FEATURES && (uint32_t)x1 == SMCCC_VERSION);
}

/* What belongs into x0: the code of a call, as wide as its function has it, and 0 of one that resumed. */
static uint64_t wanted(uint64_t x0, uint64_t x1) {
    uint32_t next = me->orders.next;
    bool is_poll = (x0 & 0x1f) == 4, is_stop = next == PSCI_PORT_STANDS || next == PSCI_PORT_RESUMES;
    if (!is_psci(x0))
        return ~0ull;
    if (!is_asked(x0, x1))
        return 0;
    int32_t code = is_poll && next == PSCI_PORT_ENTERS ? me->polled : is_stop ? 0 : (int32_t)me->orders.x0;
    return x0 & SMC64 ? (uint64_t)(int64_t)code : (uint32_t)code;
}

static void look_at(const struct context *context, const uint64_t *x, uint32_t asked) {
    uint64_t got = context->x[0], right = wanted(x[0], x[1]);
    if (got != right)
        is_wrong("x0 behind a call", x[0]), is_wrong("  it has", got), is_wrong("  and ought to have", right);
    for (unsigned at = 1; at < 19; at++)
        if (context->x[at] != (at < 4 ? x[at] : 0x5a00 + at))
            is_wrong("a register that is to be kept", at);
    if (me->asked != asked + is_asked(x[0], x[1]))
        is_wrong("whether the library was asked of", x[0]);
}

static void call(uint64_t x0, uint64_t x1, uint64_t x2, uint64_t x3) {
    uint64_t x[] = {x0, x1, x2, x3};
    struct context context = {.x = {x0, x1, x2, x3}, .x30 = 30};
    uint32_t asked = me->asked;
    for (unsigned at = 4; at < 19; at++)
        context.x[at] = 0x5a00 + at;
    PUT(me->calls, me->calls + 1);
    me->orders.next = PSCI_PORT_ENTERS;
    on_exception(&context, SMC);
    look_at(&context, x, asked);
}

/* Now and then the upper half of x0 is set, which does not count. */
static uint64_t word(uint64_t x0) { return draw(8) ? x0 : x0 | 0xdeadbeef00000000; }

/* The normal world --------------------------------------------------------------------------- */

static const uint32_t sleeps[] = {0x1, 0x2, 0x01000011, 0x00010003, 0x01010033, 0x02010333, 0x01010013};

/* One call or more of those that cores make. */
static void drawn_call(uint64_t target, uint64_t context) {
    switch (draw(16)) {
    case 0: case 1: case 2: call(word(on), target, 0x40001000 + 0x1000 * draw(4), context); break;
    case 3: if (me->number) call(word(OFF), 0, 0, 0); break;
    case 4: case 5: case 6: call(word(suspend), sleeps[draw(7)], 0x40002000, SLEEPER + me->id); break;
    case 7: case 8: for (unsigned k = draw(8); k; k--) call(word(affinity), target, 0, 0); break;
    case 9: call(word(affinity & ~(uint64_t)SMC64), target | 0xff000000, 0, 0); break;
    case 10: call(word(affinity), target, 1, 0); break;
    case 11: call(word(state), target, draw(3), 0); break;
    case 12: call(word(VERSION), 0, 0, 0), call(0x90000000, 1, 2, 3); break;
    case 13: call(word(system_suspend), 0x40003000, SLEEPER + me->id, 0); break;
    case 14: call(word(MODE), draw(2), 0, 0); break;
    case 15: call(word(FEATURES), 0x84000000 | draw(32), 0, 0), call(FEATURES, SMCCC_VERSION, 0, 0); break;
    }
}

/* It enters with what was asked: the boot core at first with its device tree. */
static void look_at_entry(void) {
    bool is_boot = me->cause == PSCI_CAUSE_BOOT;
    if (me->orders.next != PSCI_PORT_ENTERS || me->address != me->orders.address)
        is_wrong("the address of an entry", me->address);
    if (me->context != (is_boot ? DEVICE_TREE : me->orders.x0))
        is_wrong("x0 at an entry", me->context);
    if (!is_boot && me->context != CALLER + me->id && me->context != SLEEPER + me->id)
        is_wrong("x0 at an entry is that of another core", me->context);
    if (!me->has_begun)
        is_wrong("the state at an entry: it is what was there before", me->number);
}

/* Core 0 has made its calls: the life ends, by the reset button as long as it is to be pressed, behind one that was ordered. */
static void end_life(void) {
    look_at_doors();
    if (life.lives > 1 && GET(life.presses) < life.wished) {
        press();
        look();
    }
    call(SYSTEM_RESET, 0, 0, 0);
}

/* It starts all others as soon as may be, when they have hardly come to their doors. */
static void begin_life(void) {
    me->began = me->calls;
    for (unsigned other = 0; other < CORES; other++)
        call(on, mpidrs[other], 0x40001000, CALLER + other);
}

static void world(void) {
    look_at_entry();
    if (me->cause == PSCI_CAUSE_BOOT)
        begin_life();
    me->is_irq_on = true;
    PUT(me->irq, 0);
    for (;;) {
        unsigned other = draw(CORES);
        look();
        if (is_called())
            on_fiq();
        else if (me->number == 0 && me->calls - me->began > limit)
            end_life();
        else if (draw(20) == 0)
            for (unsigned k = 0; k < 40 && !is_called(); k++)
                look(), nap(50);
        else
            drawn_call(mpidrs[other], CALLER + other);
    }
}

/* The ways between the worlds ---------------------------------------------------------------- */

_Noreturn void cold(void) {
    me->has_begun = false;
    longjmp(me->reset, 1);
}

void begin_normal_world(void) { me->has_begun = true; }
void open_features(void) {}

_Noreturn void leave_for(uint64_t address, uint64_t x0) {
    me->address = address;
    me->context = x0;
    longjmp(me->world, 1);
}

static void *run(void *cpu) {
    me = cpu;
    if (setjmp(me->world))
        world();
    setjmp(me->reset);
    me->has_begun = false;
    on_reset();
}

int main(int many, char **words) {
    pthread_t threads[THREADS], watcher;
    if (many != 6)
        return 2;
    limit = strtoul(words[2], NULL, 10);
    life.most = strtoul(words[3], NULL, 10);
    life.wished = strtoul(words[4], NULL, 10);
    life.told = fopen(words[5], "w");
    setvbuf(life.told, NULL, _IOLBF, 1 << 16);
    mmap((void *)RECORD_START, RECORD_END - RECORD_START, PROT_READ | PROT_WRITE,
         MAP_PRIVATE | MAP_ANONYMOUS | MAP_FIXED, -1, 0);
    for (unsigned at = 0; at < THREADS; at++)
        cpus[at] = (struct cpu){.id = at, .seed = strtoul(words[1], NULL, 10) * 1000003 + at * 7919};
    for (unsigned at = 0; at < THREADS; at++)
        pthread_create(&threads[at], NULL, run, &cpus[at]);
    pthread_create(&watcher, NULL, watch, NULL);
    for (unsigned at = 0; at < THREADS; at++)
        pthread_join(threads[at], NULL);
    pthread_join(watcher, NULL);
    uint64_t calls = 0;
    for (unsigned at = 0; at < CORES; at++)
        calls += cpus[at].calls;
    printf("%llu calls in %u lives, %u of them after a press of the button; wrong %u, refused %u, power cuts %u\n",
           (unsigned long long)calls, life.lives - 1 + life.presses, life.presses, life.wrong, kept.tally.refused,
           kept.tally.cuts);
    return life.wrong || kept.tally.refused || kept.tally.cuts;
}
