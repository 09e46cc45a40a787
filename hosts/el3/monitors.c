/* The power controller in the monitors: whoever holds the lock of the firmware is it. There is no mailbox, and no
 * frame can be lost. */
#include "console.h"
#include "link.h"
#include "power.h"
#include "record.h"

void send(const struct psci_frame *message) {
    COUNT(messages);
    carry_out(message->bytes);
}

void acknowledge(const uint8_t *frame) {
    uint32_t what = psci_take(&firmware, frame, PSCI_FRAME_LEN);
    COUNT(acks);
    record_take(frame, what);
    if (what > PSCI_OLD) {
        COUNT(refused);
        say("# el3: an acknowledgement was refused: %u\n", what);
    }
}

/* Under the lock, so that no call comes between the word and what has waited for it. The core has its caches left to
 * clean: it is armed, and its power goes with its WFI, and no earlier. */
struct last_word tell_stop(struct psci_port_core *side, enum caches caches) {
    struct door *door = &shared.doors[side->core];
    lock();
    psci_port_arms(side);
    record_stands(side->used);
    STORE(door->stopped, side->used);
    if (caches == NO_CACHES)
        say_in_memory(&door->clean, side->used);
    serve_waiting(side->core);
    unlock();
    return (struct last_word){.word = &door->clean, .says = side->used};
}

uint64_t clean_start(unsigned core) { return behind_caches(&shared.doors[core].clean); }

/* The interrupt has brought the core back, if it was in its WFI: it is armed again. Who was started since hears of no
 * wake-up, and goes to its door. */
void tell_wake_up(struct psci_port_core *side) {
    psci_port_rouses(side);
    lock();
    psci_port_rises(side, wake(side->core));
    unlock();
    psci_port_turns(side);
}

void stop_calls(void) {} /* who has the lock is here */

/* There are no rings, and no timer sends again. */
void take_ack(void) {}
void serve_link(void) {}
