/* A firmware of yours, or an emulation of one, beside the proved library, call by call in one process
 * (docs/compare/BESIDE.md). A user compiles one file, hosts/beside/beside.c, and links the archive with a heap
 * (hosts/pool.c). It allocates nothing after the opening, and knows of no fuzzer, so that a unit test
 * can use it (tests/hosts/beside-unit.c). */
#ifndef GUMDARTS_PSCI_BESIDE_H
#define GUMDARTS_PSCI_BESIDE_H

#include "psci_ctl.h"

#ifdef __cplusplus
extern "C" {
#endif

/* An event of one list, and how many a list has at most. Those of a story are a script for replay. */
enum {
    PSCI_BESIDE_CALL = 0,    /* a call of a core that runs */
    PSCI_BESIDE_ENTER = 1,   /* a core that was started enters */
    PSCI_BESIDE_WAKE = 2,    /* a wake-up of a core that is stopped */
    PSCI_BESIDE_RESET = 3,   /* a core is reset by itself: only where the peer has a controller */
    PSCI_BESIDE_DELIVER = 4, /* a message reaches the power controller: the same */
    PSCI_BESIDE_TAKE = 5,    /* an acknowledgement reaches the firmware: the same */
    PSCI_BESIDE_WAITS = 6,   /* from now on a wake-up waits for a core that runs */
    PSCI_BESIDE_LACKS = 7,   /* the peer's next request for memory is refused */
};
#define PSCI_BESIDE_EVENTS 4096

struct psci_beside_event {
    uint32_t kind;
    uint32_t number; /* of the core, the message or the acknowledgement */
    uint64_t x[4];   /* of a call */
};

/* What a side did. `what` is PSCI_RETURN to PSCI_RESUME of psci.h, or one of these. */
enum {
    PSCI_BESIDE_ENDS = 4,    /* the system goes off */
    PSCI_BESIDE_NOTHING = 5, /* the core does not execute; a message or a wake-up has no effect */
    PSCI_BESIDE_LOOPS = 6,   /* the peer did not come back: psci_beside_loops has ended it */
    PSCI_BESIDE_RESETS = 7,  /* the system is reset */
};

struct psci_beside_did {
    uint32_t what;
    uint64_t x0;               /* of PSCI_RETURN and PSCI_RESUME */
    uint64_t address, context; /* of PSCI_ENTER */
    bool told;                 /* of PSCI_STOP: the platform was told states, which are these, from the */
    uint8_t depths[4];         /* core's own at level 0 up: 0 running, 1 standby, 2 retention, 3 power-down */
    bool sent;                 /* a message goes to the power controller */
};

/* The cores of a board: the affinity word of each. */
struct psci_beside_board {
    uint32_t cores, height;
    uint64_t affinity[PSCI_MOST_CORES];
};

/* What a peer gives. Each function gets `self` first. All but `open` and `call` may be left out. */
struct psci_beside_peer {
    const char *name;
    void *self;
    /* A life begins: everything is as at the peer's beginning, and core 0 has entered. */
    void (*open)(void *self, const struct psci_beside_board *);
    /* A core calls. */
    void (*call)(void *self, uint32_t core, const uint64_t x[4], struct psci_beside_did *);
    /* A core enters, by CPU_ON (PSCI_CAUSE_ON), out of a suspend (PSCI_CAUSE_WAKE), or reset (PSCI_CAUSE_RESET). */
    void (*enter)(void *self, uint32_t core, uint32_t cause, struct psci_beside_did *);
    /* 0 ON, 1 OFF, 2 ON_PENDING. */
    uint32_t (*status)(void *self, uint32_t core);
    /* Keeps a copy of all that it has; `back`: is as that copy again. */
    void (*save)(void *self, bool back);
    /* A wake-up waits for a core, or none; the next request for memory is refused, or none. */
    void (*waits)(void *self, uint32_t core, bool does);
    void (*lacks)(void *self, bool does);
    /* Of a peer that has a power controller of its own. Its messages and acknowledgements have the
     * numbers of ours: whoever sends one alone differs. A message arrives (true: it is acknowledged);
     * an acknowledgement arrives; a core has a wake-up or is reset (true: it is started). */
    bool (*deliver)(void *self, uint32_t message);
    void (*take)(void *self, uint32_t acknowledgement);
    bool (*wake)(void *self, uint32_t core, uint32_t cause);
};

/* What a firmware declares of itself: the text of docs/compare/JUDGE.md, which hosts/beside/profile writes as
 * one of these. */
#define PSCI_BESIDE_MOST 64
struct psci_beside_state {
    uint32_t word;
    uint8_t depths[4];
};
struct psci_beside_profile {
    const char *name, *board;
    uint64_t boot;
    uint32_t many_ranges;
    struct psci_range ranges[PSCI_MOST_RANGES];
    uint32_t is_extended, aligned, version, levels, reads_states, zero, is_early;
    uint32_t many_functions; /* 0: those of ours */
    uint32_t functions[PSCI_BESIDE_MOST];
    uint32_t many_states; /* 0: the format of the board */
    struct psci_beside_state states[PSCI_BESIDE_MOST];
};

/* A difference. `cause` is its group: what in the list, or in the call, both would do the same without. `key` is how
 * it shows: function, mode, what is odd in the call once all is taken out of it that doesn't matter, and what both did;
 * a side that would have answered without that alike is said to do "as without it". */
struct psci_beside_difference {
    struct psci_beside_event event;
    const char *function; /* the name of the function that was called; null of another event or function */
    struct psci_beside_did ours, theirs;
    char cause[200], key[200];
    const char *clause; /* the definition that our answer follows from, in crates/psci_fw_spec/specs */
    bool is_undone;     /* neither side did it, and the list goes on */
    bool is_lost;       /* but here, since the core was off before */
};

/* What a list has come to: what is kept beside the library, and put back where a call is undone. */
struct psci_beside_now {
    uint32_t life, events, messages, acks, differences, mode;
    bool lacks;
    uint8_t place[PSCI_MOST_CORES], wakes[PSCI_MOST_CORES], waits[PSCI_MOST_CORES];
    uint8_t low[PSCI_MOST_CORES], status[PSCI_MOST_CORES];
    uint8_t asks[PSCI_MOST_CORES][4];   /* of a core that stopped: the depths that it asked for */
    uint16_t opening[PSCI_MOST_CORES];  /* which event said where the core enters next; 0 none, counted from 1 */
};

struct psci_beside {
    const struct psci_beside_peer *peer;
    const struct psci_beside_profile *profile;
    struct psci_beside_board board;
    struct psci_place firmware;
    struct psci_ctl_place controller;
    unsigned char *memory, *fresh, *kept; /* the library's, at the beginning, and before an event */
    size_t size;
    struct psci_beside_now now, then;
    struct psci_beside_event events[PSCI_BESIDE_EVENTS];
    struct psci_frame messages[PSCI_BESIDE_EVENTS], acks[PSCI_BESIDE_EVENTS];
    struct psci_beside_difference difference;
    struct psci_beside_event at; /* the event that the peer is at, what ours did of it, and why a core enters */
    struct psci_beside_did ours;
    uint32_t why;
    bool is_trying; /* the list that came to a difference, and what of it is played once more */
    uint32_t many;
    struct psci_beside_event was[PSCI_BESIDE_EVENTS], tried[PSCI_BESIDE_EVENTS];
};

/* How many bytes it takes for a board of so many cores, and the opening, over memory that is aligned to
 * 16 bytes and stays the library's heap (hosts/pool.c). PSCI_OPENED to PSCI_NO_MEMORY. */
size_t psci_beside_size(uint32_t cores);
uint32_t psci_beside_open(struct psci_beside *, const struct psci_beside_peer *,
                          const struct psci_beside_profile *, void *memory, size_t size);

/* A list begins: both sides are as after the opening, and the boot core has entered. */
void psci_beside_begin(struct psci_beside *);

/* An event on both sides. Where the peer has no power controller each message is delivered, and its
 * acknowledgement taken, at once. From PSCI_BESIDE_OVER on the list can't go on. */
enum {
    PSCI_BESIDE_ALIKE = 0,
    PSCI_BESIDE_IGNORED = 1, /* such an event can't happen now; neither side knows of it */
    PSCI_BESIDE_DIFFERS = 2, /* b->difference says how */
    PSCI_BESIDE_OVER = 3,    /* the list is full, or the last life has ended */
    PSCI_BESIDE_PARTED = 4,  /* they differ, and can't be brought together again */
};
uint32_t psci_beside_do(struct psci_beside *, const struct psci_beside_event *);

/* The peer did not come back from the event of the last psci_beside_do, which the caller has left by a jump:
 * that is a difference, which undoes the event if the peer has `save`. */
uint32_t psci_beside_loops(struct psci_beside *);

/* What a side did of an event, in words. */
void psci_beside_say(const struct psci_beside *, const struct psci_beside_event *,
                     const struct psci_beside_did *, char *text, size_t size);

/* The story up to here as a script, with the event of the last difference at its end if that was undone.
 * Returns the length; what does not fit is left out. */
size_t psci_beside_story(const struct psci_beside *, char *text, size_t size);

/* A function's name, or null; and whether a core runs, or was started and may enter. */
const char *psci_beside_name(uint64_t x0);
bool psci_beside_runs(const struct psci_beside *, uint32_t core);
bool psci_beside_is_started(const struct psci_beside *, uint32_t core);

#ifdef __cplusplus
}
#endif

#endif
