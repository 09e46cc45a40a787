/* The library itself beside the library: a port of it, with a power controller of its own. Both sides share
 * one heap, so that the port's library is brought back with ours. */
#include "fuzz.h"
#include "port.h"

#include <stddef.h>
#include <stdlib.h>

static struct port kept;

static void own_open(void *self, const struct psci_beside_board *board) {
    const uint8_t *text = (const uint8_t *)self;
    (void)board;
    if (!port.firmware.full && (psci_open(&port.firmware, text, strlen(self)) != PSCI_OPENED ||
                                psci_ctl_open(&port.controller, text, strlen(self)) != PSCI_OPENED))
        abort();
    port.many_messages = port.many_acks = 0;
    port_enter(0, &(struct psci_beside_did){0});
}

static void own_call(void *self, uint32_t core, const uint64_t x[4], struct psci_beside_did *did) {
    (void)self;
    port_call(core, x, did);
}

static void own_enter(void *self, uint32_t core, uint32_t cause, struct psci_beside_did *did) {
    (void)self;
    (void)cause;
    port_enter(core, did);
}

static uint32_t own_status(void *self, uint32_t core) {
    (void)self;
    return psci_status(&port.firmware, 0, core);
}

/* Messages stay where they are once they are sent; the first one is sent in more than one list while a cause is looked for. */
static void own_save(void *self, bool back) {
    (void)self;
    memcpy(back ? &port : &kept, back ? &kept : &port, offsetof(struct port, messages) + sizeof *port.messages);
}

static bool own_deliver(void *self, uint32_t message) {
    (void)self;
    return port_deliver(message);
}

static void own_take(void *self, uint32_t acknowledgement) {
    (void)self;
    port_take(acknowledgement);
}

static bool own_wake(void *self, uint32_t core, uint32_t cause) {
    (void)self;
    return port_wake(core, cause);
}

const struct psci_beside_peer psci_beside_target = {
    .name = "own",
    .self = BOARD,
    .open = own_open,
    .call = own_call,
    .enter = own_enter,
    .status = own_status,
    .save = own_save,
    .deliver = own_deliver,
    .take = own_take,
    .wake = own_wake,
};
