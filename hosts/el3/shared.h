/* What the cores and the system control processor share, in secure memory. */
#ifndef SHARED_H
#define SHARED_H

#include "board.h"
#include "psci_port.h"

#define LOAD(place) __atomic_load_n(&(place), __ATOMIC_SEQ_CST)
#define PEEK(place) __atomic_load_n(&(place), __ATOMIC_RELAXED) /* what is behind it, LOAD shows */
#define STORE(place, value) __atomic_store_n(&(place), value, __ATOMIC_SEQ_CST)

/* At least as long as a line of the caches of any core. */
enum { LINE = 256 };
#define OWN_LINE __attribute__((aligned(LINE)))

/* A core and the power controller, of which each begins a life with zeros: a start is named by its number. Each word has
 * one writer, and what is written behind caches shares no line. */
struct door {
    struct psci_ctl_start start; /* the controller: the core's last start, and then */
    uint64_t opened;             /* that it is to enter by this one */
    uint64_t leaves;             /* the core, under the lock: it is about to stop in this start */
    uint64_t stopped OWN_LINE;   /* the core: it stands in its stop of this start */
    uint64_t clean OWN_LINE;     /* the core, where it says before that it stands: so do its caches */
    uint64_t woken OWN_LINE;     /* the core: an interrupt is there for it, in its stop of this start */
};

/* Frames in the order in which they were made, of one writer (the holder of the lock, or the system
 * control processor) and one reader. One that is full drops what comes. Without that processor they stay empty. */
#ifdef SCP_MPIDR
enum { MOST_FRAMES = 256 };
#else
enum { MOST_FRAMES = 1 };
#endif
struct ring {
    struct slot { struct psci_frame frame; } __attribute__((aligned(8))) slots[MOST_FRAMES]; /* as orders have it */
    uint32_t first, end;
};

struct shared {
    struct door doors[CORES];
    struct ring messages, acks;
};
extern struct shared shared;

/* How often what happened. */
struct tally {
    uint32_t stops, entries, resumes, parks, messages, acks, waited, again, dropped;
    uint32_t wakes, cuts, refused;
};

/* What a reset of the machine leaves: the power controller counts lives on. */
struct kept {
    uint32_t boot; /* 0 as the power comes on, WARM as a reset is ordered, READY once a life has begun */
    struct psci_control_place control;
    struct tally tally;
};
enum { READY = 0x52454459, WARM = 0x5741524d };
extern struct kept kept;

/* By a core, of a word of its own that it writes behind its caches, too, or whose power may go: no cache has it. */
static inline void say_in_memory(uint64_t *word, uint64_t value) {
    STORE(*word, value);
    clean(word, word + 1);
}

/* Of a tally, which several cores may count at once. */
#define COUNT(what) ((void)__atomic_fetch_add(&kept.tally.what, 1, __ATOMIC_RELAXED))

#endif
