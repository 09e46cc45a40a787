/* The edge of a port: registers in and out, frames both ways. */
#include "psci_beside.h"

#include <string.h>

enum { MOST_FRAMES = PSCI_BESIDE_EVENTS };
struct port {
    struct psci_place firmware;
    struct psci_ctl_place controller;
    uint32_t many_messages, many_acks;
    struct psci_frame messages[MOST_FRAMES], acks[MOST_FRAMES];
};
extern struct port port;

void port_call(uint16_t core, const uint64_t x[4], struct psci_beside_did *);
void port_enter(uint16_t core, struct psci_beside_did *);
bool port_deliver(uint32_t message);
void port_take(uint32_t acknowledgement);
bool port_wake(uint16_t core, uint32_t cause);
