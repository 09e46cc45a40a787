/* What each port writes again around the library, so that here faults are planted (faults). */
#include "port.h"

struct port port;

static void send(const struct psci_frame *message) {
    if (message->some)
        port.messages[port.many_messages++] = *message;
}

/* What the core does next, and which states the platform is told. */
static void obey(uint16_t core, uint64_t x0, const struct psci_answer *answer, struct psci_beside_did *did) {
    struct psci_stop stop;
    did->what = answer->what;
    if (answer->what == PSCI_RETURN)
        did->x0 = x0 & 0x40000000 ? (uint64_t)(int64_t)answer->code : (uint32_t)answer->code;
    if (answer->what == PSCI_ENTER) {
        did->address = answer->address;
        did->context = answer->context;
    }
    if (answer->what == PSCI_STOP && answer->message.some) {
        psci_stop(&port.firmware, core, x0, &stop);
        did->told = true;
        memcpy(did->depths, stop.depths, sizeof did->depths);
    }
    did->sent = answer->message.some;
    send(&answer->message);
}

void port_call(uint16_t core, const uint64_t x[4], struct psci_beside_did *did) {
    struct psci_answer answer;
    psci_smc(&port.firmware, core, x[0], x[1], x[2], x[3], &answer);
    obey(core, x[0], &answer, did);
}

void port_enter(uint16_t core, struct psci_beside_did *did) {
    struct psci_answer answer;
    struct psci_ctl_start start;
    psci_ctl_started(&port.controller, core, &start);
    psci_enter(&port.firmware, core, start.life, start.number, start.cause, &answer);
    obey(core, 0, &answer, did);
}

bool port_deliver(uint32_t message) {
    struct psci_ctl_answer done;
    psci_ctl_deliver(&port.controller, port.messages[message].bytes, PSCI_FRAME_LEN, &done);
    if (done.ack.some)
        port.acks[port.many_acks++] = done.ack;
    return done.ack.some;
}

void port_take(uint32_t acknowledgement) {
    psci_take(&port.firmware, port.acks[acknowledgement].bytes, PSCI_FRAME_LEN);
}

bool port_wake(uint16_t core, uint32_t cause) {
    struct psci_ctl_answer done;
    if (cause == PSCI_CAUSE_RESET)
        psci_ctl_reset(&port.controller, core, &done);
    else
        psci_ctl_wake(&port.controller, core, psci_ctl_starts(&port.controller, core), &done);
    return done.what == PSCI_CTL_START;
}
