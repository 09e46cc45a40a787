/* What a port decides around the calls of psci.h and psci_ctl.h: the firmware's side, of one core, and the power
 * controller's. Both do nothing to the machine: they order what is to be done. docs/port/PORTING.md says what a port
 * gives and gets. Each pointer that is given to a call is of valid memory of its own, never null. */
#ifndef GUMDARTS_PSCI_PORT_H
#define GUMDARTS_PSCI_PORT_H

#include "psci.h"
#include "psci_ctl.h"

#ifdef __cplusplus
extern "C" {
#endif

/* Why a call was refused, beside the refusals of psci.h: then nothing changed. */
enum psci_port_refusal {
    PSCI_PORT_NO_SIDE = 48,      /* no call wrote this struct psci_port_core */
    PSCI_PORT_OUT_OF_ORDER = 49, /* the core's monitor is elsewhere */
};

/* The firmware's side ---------------------------------------------------------------------------- */

/* Where a core's monitor is between two calls. */
enum psci_port_post {
    PSCI_PORT_WAITING = 0,  /* the core stands, or was started: it looks at its door */
    PSCI_PORT_ENTERING = 1, /* it took up a start, and is on its way into the firmware */
    PSCI_PORT_RUNNING = 2,  /* it is in the normal world, or in the monitor by a call of it */
    PSCI_PORT_LEAVING = 3,  /* it is on its way to its stop */
    PSCI_PORT_ARMED = 4,    /* it said with the lock in hand that it stands; its WFI is still to come */
    PSCI_PORT_WOKEN = 5,    /* it was armed, and its own wake-up started it: it has the lock to give back */
};

/* How a core stands. */
enum psci_port_stop {
    PSCI_PORT_OFF = 0,       /* no interrupt wakes it: it waits for a start, or for the end of a life that others end */
    PSCI_PORT_SUSPENDED = 1, /* a wake-up of its own may start it */
    PSCI_PORT_ENDING = 2,    /* the life ends */
};

/* What a core's monitor keeps. All zero is core 0 in a new life; psci_port_new makes that of each core. */
struct psci_port_core {
    uint16_t core;
    uint32_t post;  /* PSCI_PORT_WAITING to PSCI_PORT_WOKEN */
    uint32_t used;  /* the number of the start that it took up last, 0 in a new life: its word as it stands */
    uint32_t told;  /* the start in whose stop it told of a wake-up */
    uint32_t cause; /* why it was started last: PSCI_CAUSE_BOOT to PSCI_CAUSE_RESET */
    uint32_t stop;  /* how it stands, where it does: PSCI_PORT_OFF to PSCI_PORT_ENDING */
    struct psci_ctl_start start; /* of PSCI_PORT_ENTERING */
};

/* What stands at the door of a core. */
struct psci_port_door {
    struct psci_ctl_start start; /* the start that is written there; number 0 is none */
    uint32_t opened;             /* the number of the start for which it was opened last, 0 in a new life */
};

/* What a core does that looks at its door. */
enum psci_port_look {
    PSCI_PORT_TAKES_UP = 0, /* it took up the start there, and enters the firmware */
    PSCI_PORT_TELLS = 1,    /* it tells the power controller of its wake-up, in its stop of the start `told` */
    PSCI_PORT_RESTS = 2,    /* it executes WFI, and looks again once that ends */
};

/* What a core does once it has given the lock back. */
enum psci_port_next {
    PSCI_PORT_LEAVES = 0,  /* it goes back to its caller, with x0 */
    PSCI_PORT_ENTERS = 1,  /* it enters the normal world at the address, with x0 */
    PSCI_PORT_RESUMES = 2, /* it goes on behind its CPU_SUSPEND, with the registers that it kept and x0 */
    PSCI_PORT_STANDS = 3,  /* it stands, as `stop` and `depths` say */
};

/* Which message of a core, or of the system, was outstanding at the last look: zeros where none was. */
struct psci_port_sent {
    uint8_t kind; /* PSCI_MESSAGE_DOWN to PSCI_MESSAGE_RESET */
    uint32_t life;
    uint32_t number;
};

/* What a look at what is outstanding finds. */
enum psci_port_again {
    PSCI_PORT_NONE = 0,   /* nothing is outstanding */
    PSCI_PORT_SENT = 1,   /* a message is that was not at the last look: it may be under way */
    PSCI_PORT_AGAIN = 2,  /* one is that was: its frame goes into the mailbox once more */
};

/* What a call or an entry orders. */
struct psci_port_orders {
    uint32_t next;             /* PSCI_PORT_LEAVES to PSCI_PORT_STANDS, or a refusal */
    uint32_t cause;            /* of PSCI_PORT_ENTERS: why the core was started, by which the state that it enters in goes */
    uint64_t x0;               /* the register that the core leaves with; else 0 */
    uint64_t address;          /* of PSCI_PORT_ENTERS */
    struct psci_frame message; /* into the mailbox, with the lock in hand; and then the power controller is rung */
    uint8_t depths[4];         /* how deep that takes the domains of the core's path, as in struct psci_stop */
    uint32_t stop;             /* of PSCI_PORT_STANDS: PSCI_PORT_OFF to PSCI_PORT_ENDING */
    struct psci_asked asked;   /* of a call in the words of a machine */
};

/* A core's monitor in a new life. */
void psci_port_new(struct psci_port_core *, uint16_t core);

/* With the lock in hand: a secure monitor call of the core, in the words of the place, where it is PSCI_PORT_RUNNING. */
void psci_port_call(struct psci_place *, struct psci_port_core *, uint64_t x0, uint64_t x1, uint64_t x2, uint64_t x3,
                    struct psci_port_orders *);

/* With the lock in hand: the core enters by the start that it took up, where it is PSCI_PORT_ENTERING. */
void psci_port_enter(struct psci_place *, struct psci_port_core *, struct psci_port_orders *);

/* Without the lock, where the core is PSCI_PORT_WAITING, or PSCI_PORT_ARMED: a look at its door, and at whether a
 * wake-up is pending for it. PSCI_PORT_TAKES_UP to PSCI_PORT_RESTS, or a refusal: PSCI_NO_CAUSE of a door, too. */
uint32_t psci_port_look(struct psci_port_core *, const struct psci_port_door *, bool pending);

/* The core goes on, from the post in brackets. 0, or a refusal. */
uint32_t psci_port_stands(struct psci_port_core *);     /* [LEAVING] it gave the lock back, and says its word `used` last of all */
uint32_t psci_port_arms(struct psci_port_core *);       /* [LEAVING] it says that with the lock in hand */
uint32_t psci_port_sleeps(struct psci_port_core *);     /* [ARMED] it comes to its WFI */
uint32_t psci_port_rouses(struct psci_port_core *);     /* [WAITING] an interrupt has ended the WFI of one that was armed before it */
uint32_t psci_port_rises(struct psci_port_core *, bool started); /* [ARMED] it told its own wake-up, with the lock in hand */
uint32_t psci_port_turns(struct psci_port_core *);      /* [WOKEN] it gave the lock back, and goes to its door */
uint32_t psci_port_comes_back(struct psci_port_core *); /* [any] it comes out of a reset of its own */

/* With the lock in hand, now and then where frames may be lost: a look at what is outstanding of a core, or of the system
 * at the number of cores. PSCI_PORT_NONE to PSCI_PORT_AGAIN, or a refusal: PSCI_NO_FIRMWARE, or PSCI_NO_CORE above that
 * number. Only PSCI_PORT_AGAIN has a frame. */
uint32_t psci_port_again(struct psci_place *, uint16_t number, struct psci_port_sent *last, struct psci_frame *);

/* The power controller's side -------------------------------------------------------------------- */

/* A place for a power controller, with what is written down of each core: its door, its word, and what waits until
 * it stands. All zero is empty; psci_ctl_open is not called besides. Calls on one place may not overlap. */
struct psci_control_place {
    void *side;
    bool full;
};

/* What came of a call. */
enum psci_control_what {
    PSCI_CONTROL_ORDERS = 0, /* the orders are to be carried out, in their order; there may be none */
    PSCI_CONTROL_WAITS = 1,  /* nothing is to be done: what came waits until its core stands, or nothing waited */
};

/* How a life ends. */
enum psci_control_end {
    PSCI_CONTROL_GOES_ON = 0,
    PSCI_CONTROL_OFF = 1,     /* every core stops, and the system goes off */
    PSCI_CONTROL_RESTART = 2, /* every core stops; each domain on the boot core's path has its power, the others go down.
                               * Then the boot core's door is due */
};

/* What a call orders, to be done in the order of these fields: power is switched before anything is acknowledged. */
struct psci_control_orders {
    uint32_t what;                     /* PSCI_CONTROL_ORDERS, PSCI_CONTROL_WAITS, or a refusal */
    uint32_t many;                     /* so many domains go to their depths */
    struct psci_ctl_domain domains[4]; /* so many of these, the lowest first; then zeros */
    struct psci_ctl_start start;       /* each domain on the path of its core has its power; zeros where none is started */
    struct psci_frame ack;             /* goes back to the firmware */
    uint32_t ends;                     /* PSCI_CONTROL_GOES_ON to PSCI_CONTROL_RESTART */
};

/* What is due at the door of a core. */
enum psci_control_due {
    PSCI_CONTROL_NOTHING = 0,
    PSCI_CONTROL_WRITE = 1, /* the start is written there */
    PSCI_CONTROL_OPEN = 2,  /* the door is opened, for the start of the number `opened` */
};

PSCI_SIZE_IS(psci_port_core, 40);
PSCI_SIZE_IS(psci_port_door, 20);
PSCI_SIZE_IS(psci_port_sent, 12);
PSCI_SIZE_IS(psci_port_orders, 104);
PSCI_SIZE_IS(psci_control_place, 16);
PSCI_SIZE_IS(psci_control_orders, 116);

/* Puts a new side of the board into the place, as its power comes on, and frees the one that was there: every door is
 * closed, and the start of the boot core is still to be written. PSCI_OPENED to PSCI_NO_MEMORY. */
uint32_t psci_control_open(struct psci_control_place *, const uint8_t *text, size_t length);
uint32_t psci_control_open_board(struct psci_control_place *, const struct psci_board *);

/* Frees what is in the place. */
void psci_control_close(struct psci_control_place *);

/* A message comes. It waits where it has to until its core stands, in place of one that waited before. */
void psci_control_message(struct psci_control_place *, const uint8_t *frame, size_t length,
                          struct psci_control_orders *);

/* The message that waits for a core, if it no longer has to. */
void psci_control_waited(struct psci_control_place *, uint16_t core, struct psci_control_orders *);

/* A core has said that it stands in its stop of this start: 0, or a refusal. */
uint32_t psci_control_stands(struct psci_control_place *, uint16_t core, uint32_t word);

/* A core has a wake-up. Where it does not stand, PSCI_CONTROL_WAITS: not kept, it is said again once it stands. */
void psci_control_wake(struct psci_control_place *, uint16_t core, struct psci_control_orders *);

/* A core is reset by itself. */
void psci_control_reset(struct psci_control_place *, uint16_t core, struct psci_control_orders *);

/* The next step of a core's door: PSCI_CONTROL_NOTHING to PSCI_CONTROL_OPEN, or a refusal. What is not due is zeros. */
uint32_t psci_control_door(struct psci_control_place *, uint16_t core, struct psci_port_door *);

/* The power controller in the place is read as by psci_ctl_life, psci_ctl_starts, psci_ctl_started and psci_ctl_depth. */
uint32_t psci_control_life(struct psci_control_place *);
uint32_t psci_control_starts(struct psci_control_place *, uint16_t core);
void psci_control_started(struct psci_control_place *, uint16_t core, struct psci_ctl_start *);
uint32_t psci_control_depth(struct psci_control_place *, uint32_t level, uint16_t index);

/* Which core is rung for an acknowledgement: one that does not stand. 0xffff where there is none: the next one that
 * enters takes it. */
uint16_t psci_control_rings(struct psci_control_place *);

#ifdef __cplusplus
}
#endif

#endif
