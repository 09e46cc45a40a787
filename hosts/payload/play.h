/* Plays a list of steps on the cores. */
#ifndef PAYLOAD_PLAY_H
#define PAYLOAD_PLAY_H
#include "machine.h"

enum kind { CALL, STOP, POLL, SUSPEND, DELAY, AWAIT, STORM, VISIT, BEAT, QUIET, OPEN, RING, RUNG, LEAVE, LEFT, MARK };

/* assemble.py writes it so: behind the image stand a `list`, and its steps */
struct step {
    uint32_t need; /* so many steps have to be over before */
    uint8_t core, kind;
    uint8_t relative; /* bit n: x[n] counts from the entry points; bit n + 4: from the image */
    uint8_t life;
    uint64_t x[4], more;
};
struct list {
    uint32_t steps, name;
    struct step step[];
};
extern struct list list;

/* of each core: its next step, the number of its next line, and how often it entered; how often it was asked on with
 * success, how often it entered by that, and whether it has entered and did not go off since */
struct core {
    volatile uint32_t next, number, entries, is_asleep, has_timer;
    volatile uint32_t asked, taken, is_up;
    volatile uint64_t leaves; /* by this word it goes off as soon as it enters, where there is one */
};
extern struct core cores[MOST_CORES];

/* Makes a call, tells of it, and returns its x0. ANNOUNCED ones are told before, since they may not come back; with
 * those that are GOING the next step begins at once. */
enum told { TOLD, ANNOUNCED, GOING };
uint64_t ask(uint32_t core, const uint64_t x[4], enum told told);
/* The same, with the timer set. */
void ask_with_timer(uint32_t core, const uint64_t x[4], uint64_t microseconds);

/* Waits for so long, and looks whether the core keeps its registers meanwhile. */
void delay(uint32_t core, uint64_t microseconds);

/* A storm: each core draws so many calls by the seed, and goes off; core 0 then writes what was
 * kept. */
struct storm {
    volatile uint32_t is_on;
    volatile uint64_t seed, many, standby, down, is_wide;
};
extern struct storm storm;
void storm_begins(void);
/* The core that a call names; the number of cores where it names none. */
uint32_t target_of(const uint64_t x[4]);
/* What a call means for starts that somebody has to take up: before it is made, and once it was answered. */
void before_call(uint32_t core, const uint64_t x[4]);
void after_call(uint32_t core, const uint64_t x[4], uint64_t answer);
void storm_of(uint32_t core);
void storm_ends(void);

#endif
