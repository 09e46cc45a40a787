/* The lock of the firmware, and the link to the power controller. */
#ifndef LINK_H
#define LINK_H

#include "shared.h"

#include <stdbool.h>

extern struct psci_place firmware;

/* Each core's own way to ask for the status of a core, without the lock. */
extern struct psci_poller pollers[CORES];

/* What each core's monitor keeps, which no other one touches. */
extern struct psci_port_core sides[CORES];

/* Around each call of the firmware. It works since a core turns its MMU and caches on before. */
extern uint32_t taken;
static inline void lock(void) {
    while (__atomic_exchange_n(&taken, 1, __ATOMIC_ACQUIRE))
        relax();
}
static inline void unlock(void) { __atomic_store_n(&taken, 0, __ATOMIC_RELEASE); }

/* Of a ring: whether there was room, or a frame. */
bool put_frame(struct ring *, const uint8_t *frame);
static inline bool has_frame(const struct ring *ring) { return ring->first != PEEK(ring->end); }
bool get_frame(struct ring *, uint8_t *frame);

/* Under the lock: a message into the mailbox, if there is one; all that was acknowledged. */
void send(const struct psci_frame *message);
static inline void post(const struct psci_frame *message) {
    if (message->some)
        send(message);
}
void take_ack(void);
static inline void take_acks(void) {
    while (has_frame(&shared.acks))
        take_ack();
}

/* Somebody rang this core: it takes what was acknowledged. */
void serve_link(void);

/* Under the lock, by the control processor as its timer rings: what was outstanding at its last ring, and is still, goes
 * into the mailbox once more. Whether anything is outstanding. */
bool send_again(void);
#endif
