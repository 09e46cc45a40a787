/* The power controller for C, in the archive of the firmware (libpsci_ffi.a). A
 * program may use both halves or one alone. docs/port/PORTING.md says what a port gives and gets. Calls on
 * one place may not overlap: hold a lock around each. */
#ifndef GUMDARTS_PSCI_CTL_H
#define GUMDARTS_PSCI_CTL_H

#include "psci.h"

#ifdef __cplusplus
extern "C" {
#endif

/* A place for a power controller; all zero is empty. Only the calls below read or write it, and it
 * is never copied. Each pointer that is given to a call is of valid memory of its own, never null. */
struct psci_ctl_place {
    void *controller;
    bool full;
};

/* What the power hardware does next, before the acknowledgement goes back. From PSCI_CTL_NO_PLACE
 * on the call was refused, and nothing changed; other refusals have the names of psci.h:
 * PSCI_NO_CORE, and PSCI_FRAME_LENGTH to PSCI_FRAME_LEVEL. */
enum psci_ctl_act {
    PSCI_CTL_NOTHING = 0, /* nothing: what came is ignored, or came too late */
    PSCI_CTL_START = 1,   /* the core of `start` is powered up, with all above it */
    PSCI_CTL_SWITCH = 2,  /* so many domains go to their depths, which may be none */
    PSCI_CTL_OFF = 3,     /* the system goes off */
    PSCI_CTL_RESTART = 4, /* the system is reset, and the core of `start`, the boot core, starts */
    PSCI_CTL_NO_PLACE = PSCI_NO_FIRMWARE, /* the place is empty */
    PSCI_CTL_NOT_A_MESSAGE = 42,          /* the frame is an acknowledgement's */
};

/* Why words are no saved power controller of the board: the first of these. */
enum psci_ctl_saved {
    PSCI_SAVED_LENGTH = 50, /* there are more or fewer than are saved of the board */
    PSCI_SAVED_FORMAT = 51, /* the first is not this format's */
    PSCI_SAVED_SUM = 52,    /* the second is not the sum of those after it */
    PSCI_SAVED_LIFE = 53,   /* the life is beyond the board's last one */
    PSCI_SAVED_STARTS = 54, /* more starts than the board allows, or any without a life; or the boot core has none */
    PSCI_SAVED_DEPTH = 55,  /* a domain is deeper than power-down */
};

/* How deep a domain is. */
enum psci_depth { PSCI_CTL_ON = 0, PSCI_CTL_STANDBY = 1, PSCI_CTL_RETENTION = 2, PSCI_CTL_POWER_DOWN = 3 };

/* The start that a core finds, for psci_enter. Zeros are none: a start has a number from 1 on. */
struct psci_ctl_start {
    uint16_t core;
    uint32_t life, number, cause; /* PSCI_CAUSE_BOOT to PSCI_CAUSE_RESET */
};

/* A core's own domain at level 0, or a power domain above it, counted from 0 from left to right. */
struct psci_ctl_domain {
    uint32_t level;
    uint16_t index;
    uint8_t depth;
};

struct psci_ctl_answer {
    uint32_t what;                     /* PSCI_CTL_NOTHING to PSCI_CTL_RESTART, or a refusal */
    struct psci_ctl_start start;       /* of PSCI_CTL_START and PSCI_CTL_RESTART */
    uint32_t many;                     /* of PSCI_CTL_SWITCH */
    struct psci_ctl_domain domains[4]; /* so many of these, the lowest first; then zeros */
    struct psci_frame ack;             /* to the firmware; none where a message was ignored */
};

/* The library proves these of its own side, which is for machines of 64 bits. */
PSCI_SIZE_IS(psci_ctl_place, 16);
PSCI_SIZE_IS(psci_ctl_start, 16);
PSCI_SIZE_IS(psci_ctl_domain, 8);
PSCI_SIZE_IS(psci_ctl_answer, 112);

/* Puts a new power controller of the board that the text describes into the place, and frees the
 * one that was there. Its first life has begun: the boot core is started, by the start that
 * psci_ctl_started tells. PSCI_OPENED to PSCI_NO_MEMORY. */
uint32_t psci_ctl_open(struct psci_ctl_place *, const uint8_t *text, size_t length);

/* The same, of the board that the struct gives; the faults are those of psci_open_board. */
uint32_t psci_ctl_open_board(struct psci_ctl_place *, const struct psci_board *);

/* Frees the power controller in the place. */
void psci_ctl_close(struct psci_ctl_place *);

/* A message of the firmware arrives. A Down of its core's present start may be delivered only once
 * the core stands in its stop. */
void psci_ctl_deliver(struct psci_ctl_place *, const uint8_t *frame, size_t length,
                      struct psci_ctl_answer *);

/* A core has a wake-up event, after it stopped in its start of this number, 0 where it was not
 * started in this life. PSCI_CTL_START, or PSCI_CTL_NOTHING where it was started since, or can't be
 * once more. */
void psci_ctl_wake(struct psci_ctl_place *, uint16_t core, uint32_t halted,
                   struct psci_ctl_answer *);

/* A core is reset by itself. PSCI_CTL_START, or PSCI_CTL_NOTHING where it can't be started once
 * more. */
void psci_ctl_reset(struct psci_ctl_place *, uint16_t core, struct psci_ctl_answer *);

/* What is read. An empty place is as one whose system is off. */
uint32_t psci_ctl_life(struct psci_ctl_place *); /* counted from 1; 0 once the system is off */
uint32_t psci_ctl_starts(struct psci_ctl_place *, uint16_t core); /* in this life */

/* The start that a core finds: its last one in this life; zeros where there is none. */
void psci_ctl_started(struct psci_ctl_place *, uint16_t core, struct psci_ctl_start *);

/* PSCI_CTL_ON to PSCI_CTL_POWER_DOWN; PSCI_CTL_NO_PLACE; PSCI_NO_CORE where the board has no such
 * domain; PSCI_NO_LIFE once the system is off. */
uint32_t psci_ctl_depth(struct psci_ctl_place *, uint32_t level, uint16_t index);

/* A power controller is saved as words of 64 bits, which do not name the board:
 *
 *     the format and its version, 0x16c746370
 *     the sum of those after it: from 0, times 0x100000001b3 plus each word, modulo 2^64
 *     the life, 0 once the system is off
 *     of each core four times its starts in this life, plus the cause of the last
 *     of each domain, level by level from the cores up, its depth
 *
 * How many words the power controller is saved as, as many for each of its board; 0 in an empty
 * place. */
size_t psci_ctl_save_size(struct psci_ctl_place *);

/* Writes the power controller into so many words: 0. PSCI_CTL_NO_PLACE, or PSCI_SAVED_LENGTH where
 * they are not as many, and none is written. */
uint32_t psci_ctl_save(struct psci_ctl_place *, uint64_t *words, size_t count);

/* The power controller in the place is from now on as the one that these words were saved of, on the
 * same board: 0. PSCI_CTL_NO_PLACE, or PSCI_SAVED_LENGTH to PSCI_SAVED_DEPTH, and nothing changes. */
uint32_t psci_ctl_load(struct psci_ctl_place *, const uint64_t *words, size_t count);

#ifdef __cplusplus
}
#endif

#endif
