/* The machine of the threads: cores, their resets, the interrupt controller, timer, power pins and console. What
 * threads know of each other here is in relaxed words, so that nothing but the port's own orders what they do. */
#include "threads.h"

#include "gic.h"
#include "link.h"
#include "monitor.h"
#include "processor.h"
#include "record.h"

#include <pthread.h>
#include <sched.h>
#include <stdarg.h>
#include <stdlib.h>
#include <string.h>
#include <time.h>

struct cpu cpus[THREADS];
_Thread_local struct cpu *me;
struct life life = {.lives = 1, .presses = 0};

static const uint64_t mpidrs[] = {
    MPIDRS,
#ifdef SCP_MPIDR
    SCP_MPIDR,
#endif
};
static uint32_t is_started, dying, arrived, is_pressed;
/* Of each number the core that is rung by it, once it has come out of reset. */
static struct cpu *bells[THREADS];
static volatile uint32_t pins[1024], other;
static pthread_mutex_t mutex = PTHREAD_MUTEX_INITIALIZER;
static pthread_cond_t all_here = PTHREAD_COND_INITIALIZER;

uint64_t now(void) {
    struct timespec time;
    clock_gettime(CLOCK_MONOTONIC, &time);
    return time.tv_sec * 1000000000ull + time.tv_nsec;
}

void nap(unsigned microseconds) {
    nanosleep(&(struct timespec){.tv_nsec = microseconds * 1000}, NULL);
}

uint32_t draw(uint32_t below) {
    me->seed = me->seed * 6364136223846793005u + 1442695040888963407u;
    return (uint32_t)(me->seed >> 33) % below;
}

/* Resets ------------------------------------------------------------------------------------- */

static void reset_devices(void) {
    nobody_cleans();
    for (unsigned at = 0; at < THREADS; at++) {
        PUT(cpus[at].bell, 0);
        PUT(cpus[at].irq, 0);
        PUT(bells[at], NULL);
        PUT(cpus[at].deadline, 0);
    }
    memset((void *)pins, 0, sizeof pins);
    PUT(is_started, 0);
}

/* All cores come here, and then out of reset. */
static _Noreturn void come_out(void) {
    pthread_mutex_lock(&mutex);
    if (++arrived == THREADS) {
        arrived = 0;
        reset_devices();
        if (is_pressed)
            lose_caches();
        is_pressed = 0;
        PUT(dying, 0);
        pthread_cond_broadcast(&all_here);
    } else {
        while (GET(dying))
            pthread_cond_wait(&all_here, &mutex);
    }
    pthread_mutex_unlock(&mutex);
    longjmp(me->reset, 1);
}

void look(void) {
    if (GET(life.is_over))
        pthread_exit(NULL);
    if (GET(dying))
        come_out();
}

void press(void) {
    PUT(life.presses, GET(life.presses) + 1);
    is_pressed = 1;
    PUT(dying, 1);
}

/* This core has set a pin: the machine goes off, or is reset once all cores are there. */
static _Noreturn void obey_pins(void) {
    me->ends = false;
    if (pins[1] || ++life.lives > life.most) {
        PUT(life.is_over, 1);
        pthread_exit(NULL);
    }
    look_at_memory();
    PUT(dying, 1);
    come_out();
}

/* Registers and devices ---------------------------------------------------------------------- */

volatile uint32_t *host_device(uintptr_t address) {
    bool is_pin = address >= PINS && address < PINS + sizeof pins;
    me->ends |= is_pin;
    return is_pin ? &pins[(address - PINS) / 4] : &other;
}

uint64_t host_read(const char *name) {
    if (strcmp(name, "mpidr_el1") == 0)
        return mpidrs[me->id] | 0x80000000;
    if (strcmp(name, "cntfrq_el0") == 0)
        return 50 * 1000000ull; /* a period of the link is a millisecond */
    if (strcmp(name, "spsr_el3") == 0)
        return me->has_begun ? 0x3c9 : 0;
    return strcmp(name, "cntpct_el0") == 0 ? now() : 0;
}

void host_write(const char *name, uint64_t value) {
    if (strcmp(name, "cntps_tval_el1") == 0)
        PUT(me->deadline, now() + value);
    else if (!value)
        PUT(me->deadline, 0);
}

/* Behind each word that is stored for others. */
void is_slow(void) {
    if (draw(4) == 0)
        nap(draw(100));
}

uint64_t *host_place(void) { return &me->number; }

void host_relax(void) {
    look();
    sched_yield();
}

static bool is_time(void) { return GET(me->deadline) && GET(me->deadline) <= now(); }

/* It ends by what is pending, and by nothing else. */
void host_wait(void) {
    if (me->ends)
        obey_pins();
    if (me->id == SCP)
        owes_no_bell();
    PUT(me->waits_since, now());
    for (;;) {
        look();
        if (me->id != SCP && draw(100) == 0)
            PUT(me->irq, 1);
        if (GET(me->bell) || (GET(me->irq) && me->is_irq_on) || is_time())
            break;
        nap(20);
    }
    PUT(me->waits_since, 0);
}

/* What stand.S does, without caches; that takes some time. */
void stand(const struct last_word *last, enum caches caches) {
    if (me->is_irq_on && sides[me->number].stop != PSCI_PORT_SUSPENDED)
        is_wrong("an interrupt would end the wait of a core that is off", me->number);
    if (draw(3) == 0)
        nap(draw(1000));
    cleans(caches);
    if (last->word)
        STORE(*last->word, last->says);
    if (last->bell.value)
        gic_ring(SCP);
    host_wait();
}

const struct part parts[] = {{0}};

bool is_called(void) { return GET(me->bell) || is_time(); }

/* The interrupt controller ------------------------------------------------------------------- */

/* With the barriers of gicv2.c and gicv3.c. */
void gic_start(void) { __atomic_store_n(&is_started, 1, __ATOMIC_RELEASE); }
bool gic_is_started(void) { return __atomic_load_n(&is_started, __ATOMIC_ACQUIRE); }

void gic_start_core(unsigned core) {
    PUT(bells[core], me);
}
void gic_bell_alone(void) {
    me->is_irq_on = false;
    executes();
}
void gic_opens(void) { me->is_irq_on = true; }
bool gic_wakes(void) { return GET(me->irq) && me->is_irq_on; }

struct bell gic_bell(unsigned core) { return (struct bell){0, 1 + core}; }

/* Who rings is slow now and then, so that the other one is there first. */
void gic_ring(unsigned core) {
    struct cpu *rung = GET(bells[core]);
    if (me->id == SCP)
        has_rung();
    if (rung)
        PUT(rung->bell, 1);
    if (draw(8) == 0)
        nap(draw(300));
}

bool gic_answer(void) {
    if (me->id != SCP && draw(2) == 0)
        nap(draw(400));
    bool rang = is_time();
    PUT(me->bell, 0);
    if (rang)
        PUT(me->deadline, 0);
    return rang;
}

/* The console -------------------------------------------------------------------------------- */

void console_take(void) { flockfile(life.told); }
void console_give(void) { funlockfile(life.told); }

static void say_form(const char *form, va_list *rest) {
    for (; *form; form++) {
        if (*form != '%') {
            putc(*form, life.told);
            continue;
        }
        switch (*++form) {
        case 'u': fprintf(life.told, "%u", va_arg(*rest, unsigned)); break;
        case 'x': fprintf(life.told, "0x%llx", (unsigned long long)va_arg(*rest, uint64_t)); break;
        case 's': fputs(va_arg(*rest, const char *), life.told); break;
        }
    }
}

void say_bytes(const uint8_t *bytes, uint32_t many) { fwrite(bytes, 1, many, life.told); }

void say_part(const char *form, ...) {
    va_list rest;
    va_start(rest, form);
    say_form(form, &rest);
    va_end(rest);
}

void say(const char *form, ...) {
    va_list rest;
    va_start(rest, form);
    console_take();
    say_form(form, &rest);
    console_give();
    va_end(rest);
}
