/* The power of a hypervisor's guest for C, in the archive of the firmware (libpsci_ffi.a): firmware and power
 * controller as one, for a host whose cores stand while they call, as vCPUs do. docs/port/PORTING.md says what a
 * host gives and gets. Calls on one place may not overlap: hold a lock around each. */
#ifndef GUMDARTS_PSCI_GUEST_H
#define GUMDARTS_PSCI_GUEST_H

#include "psci_ctl.h"

#ifdef __cplusplus
extern "C" {
#endif

/* A place for the power of a guest; all zero is empty. Only the calls below read or write it, and it is never
 * copied. Each pointer that is given to a call is of valid memory of its own, never null. */
struct psci_guest_place {
    void *guest;
    bool full;
};

/* What came of a turn: each message that it sent was delivered, each acknowledgement taken, and a core that it
 * started entered. Between two turns nothing is outstanding. */
struct psci_guest_turn {
    uint32_t what;               /* PSCI_GUEST_TURNED, or a refusal: then nothing changed, and all else is 0 */
    uint32_t life;               /* after it, from 1; 0 once the system is off */
    struct psci_answer caller;   /* of a call: PSCI_RETURN or PSCI_STOP, with its message, which was delivered; else 0 */
    struct psci_ctl_start start; /* the core that entered, and by which start; number 0 where none did */
    struct psci_answer entry;    /* what it does next: PSCI_ENTER, PSCI_RESUME, or PSCI_STOP where it parks; else 0 */
    struct psci_stop stop;       /* of a caller that stops; else 0 */
};

/* Refusals have the names of psci.h: PSCI_NO_FIRMWARE, PSCI_NO_CORE; and of a call PSCI_NOT_RUNNING, where the
 * caller stands, or the end of its life overtook it. */
enum psci_guest_what { PSCI_GUEST_TURNED = 0 };

/* Why words are not loaded: the first of these, of the firmware's words; or else PSCI_SAVED_LENGTH to PSCI_SAVED_DEPTH
 * of the power controller's behind them. */
enum psci_guest_load {
    PSCI_GUEST_LENGTH = 80,  /* there are fewer than are saved of the board */
    PSCI_GUEST_FORMAT = 81,  /* the first is not this format's */
    PSCI_GUEST_SUM = 82,     /* the second is not the sum of those after it */
    PSCI_GUEST_LIFE = 83,    /* the life is beyond the board's last one */
    PSCI_GUEST_MODE = 84,    /* neither halting nor not, or of no mode */
    PSCI_GUEST_CORE = 85,    /* a core does nothing that one can do, or its known start has more than 32 bits */
    PSCI_GUEST_DEPTH = 86,   /* a domain is deeper than one below it on a path, or confirmed at more than was granted */
    PSCI_GUEST_ROW = 87,     /* a core has no status, or words of an opening and no opening */
    PSCI_GUEST_MESSAGE = 88, /* a slot has no message that a core or the system can have sent */
    PSCI_GUEST_VALUES = 89,  /* no firmware keeps all this at once */
};

/* The library proves these of its own side, which is for machines of 64 bits. */
PSCI_SIZE_IS(psci_guest_place, 16);
PSCI_SIZE_IS(psci_guest_turn, 224);

/* Puts the power of a new guest of the board that the text describes into the place, and frees the one that was
 * there: PSCI_OPENED, and the turn tells how the boot core enters. Else PSCI_BOARD_GRAMMAR to PSCI_NO_MEMORY,
 * and nothing changes. */
uint32_t psci_guest_open(struct psci_guest_place *, const uint8_t *text, size_t length, struct psci_guest_turn *);

/* The same, of the board that the struct gives; the faults are those of psci_open_board. */
uint32_t psci_guest_open_board(struct psci_guest_place *, const struct psci_board *, struct psci_guest_turn *);

/* The same with the words of a machine whose boot core has this MPIDR: calls are in these. The faults are those of
 * psci_open_machine. */
uint32_t psci_guest_open_machine(struct psci_guest_place *, const struct psci_board *, const struct psci_machine *,
                                 uint64_t mpidr, struct psci_guest_turn *);

/* Frees the power of the guest in the place. */
void psci_guest_close(struct psci_guest_place *);

/* A core calls, in the life in which it entered (`life` of its last turn). */
void psci_guest_call(struct psci_guest_place *, uint16_t core, uint32_t life, uint64_t x0, uint64_t x1, uint64_t x2,
                     uint64_t x3, struct psci_guest_turn *);

/* A core that stands has a wake-up event. No core enters where it runs, or can be started no more. */
void psci_guest_wake(struct psci_guest_place *, uint16_t core, struct psci_guest_turn *);

/* A core is reset by itself. No core enters where it can be started no more. */
void psci_guest_reset(struct psci_guest_place *, uint16_t core, struct psci_guest_turn *);

/* The power of a guest is saved as words of 64 bits, which do not name the board:
 *
 *     the format and its version, 0x177667370
 *     the sum of the firmware's words after it, as psci_ctl.h has it of the power controller's
 *     the life, 0 before any core has entered; 1 while it is halting, else 0; 1 in OS-initiated mode, else 0
 *     of each core what it does, 0 while it runs or is pending, while it is suspended its power state in the extended
 *     format, and 2^32 while it is off; and the number of its last start that entered
 *     of each domain, level by level from the cores up, its granted depth
 *     of each domain the depth that is confirmed
 *     of each core its status, as PSCI_STATUS_ON has it; and 1, address and context of its opening, zeros for none
 *     of the system, then of each core, its outstanding message in 12 words, zeros for none: kind, core, life and number
 *     as in struct psci_message, and depth and generation of four parts
 *     the words of the power controller, as psci_ctl.h has them
 *
 * How many words the power of the guest is saved as, as many for each of its board; 0 in an empty place. */
size_t psci_guest_save_size(struct psci_guest_place *);

/* Writes the power of the guest into so many words: 0. PSCI_NO_FIRMWARE, or PSCI_SAVED_LENGTH where they are not as
 * many, and none is written. */
uint32_t psci_guest_save(struct psci_guest_place *, uint64_t *words, size_t count);

/* The guest in the place, which was opened of the same board, goes on where one was saved as these words: 0. Else
 * PSCI_NO_FIRMWARE, PSCI_NO_MEMORY, or the first fault of the words, and nothing changes. The heap has to hold another
 * firmware meanwhile. */
uint32_t psci_guest_load(struct psci_guest_place *, const uint64_t *words, size_t count);

/* What is read, as psci.h has it of a firmware. An empty place has no cores. */
uint32_t psci_guest_status(struct psci_guest_place *, uint32_t level, uint16_t index);
uint32_t psci_guest_hw(struct psci_guest_place *, uint32_t level, uint16_t index);
uint16_t psci_guest_cores(struct psci_guest_place *);
uint32_t psci_guest_height(struct psci_guest_place *);
uint16_t psci_guest_nodes(struct psci_guest_place *, uint32_t level);
uint32_t psci_guest_children(struct psci_guest_place *, uint32_t level, uint16_t index);

#ifdef __cplusplus
}
#endif

#endif
