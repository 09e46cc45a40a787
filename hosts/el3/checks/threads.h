/* The port's C files with a thread for each core, and one for the control processor, where there is one. */
#ifndef THREADS_H
#define THREADS_H

#include "board.h"
#include "monitor.h"

#include <setjmp.h>
#include <stdbool.h>
#include <stdint.h>
#include <stdio.h>

#define GET(word) __atomic_load_n(&(word), __ATOMIC_RELAXED)
#define PUT(word, value) __atomic_store_n(&(word), value, __ATOMIC_RELAXED)

#ifdef SCP_MPIDR
enum { THREADS = CORES + 1 };
#else
enum { THREADS = CORES, SCP = CORES }; /* which is nobody */
#endif

struct cpu {
    unsigned id;
    uint64_t number, seed, calls, began;
    /* what other threads look at, too */
    uint64_t deadline, waits_since;
    uint32_t bell, irq;
    bool is_irq_on;
    /* where it goes at a reset, and at an entry; what it enters by */
    jmp_buf reset, world;
    uint64_t address, context;
    bool has_begun, ends;
    /* what the library ordered of this core last, and how often it was asked (watch.c) */
    struct psci_port_orders orders;
    int32_t polled;
    uint32_t cause, asked;
};
extern struct cpu cpus[THREADS];
extern _Thread_local struct cpu *me;

/* The machine's lives: by the power controller's resets, and by its reset button. */
extern struct life {
    uint32_t lives, most, presses, wished, is_over, wrong;
    FILE *told;
} life;

/* machine.c */
uint64_t now(void);
void nap(unsigned microseconds);
uint32_t draw(uint32_t below);
void look(void);  /* at the end of the machine, or its reset: it may not come back */
void press(void); /* the reset button */
bool is_called(void);

/* watch.c: says once more what is wrong; looks until the machine goes off whether something is left undone. */
void is_wrong(const char *what, uint64_t value);
void *watch(void *);
void look_at_doors(void); /* as a life ends: whether a core sleeps that was started, and that nobody rings any more */
void executes(void); /* by a core that does not stand in its stop */
void cleans(enum caches), nobody_cleans(void); /* by a core, its caches; at a reset, none is left to clean */
void lose_caches(void);    /* at a reset that nobody has ordered */
void look_at_memory(void); /* as a pin resets the machine: what outlives that, and stands in caches alone */
void has_rung(void), owes_no_bell(void); /* the control processor has rung a core; it is about to sleep */
#endif
