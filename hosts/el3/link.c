/* The mailbox of a power controller that has a core of its own, with its bell. */
#include "console.h"
#include "gic.h"
#include "link.h"
#include "power.h"
#include "record.h"
#include "string.h"

/* A bad link, for trials: of so many frames one is lost. */
static bool is_lost(void) {
#ifdef LOSE
    static uint32_t many;
    return __atomic_add_fetch(&many, 1, __ATOMIC_RELAXED) % LOSE == 0;
#else
    return false;
#endif
}

bool put_frame(struct ring *ring, const uint8_t *frame) {
    uint32_t end = ring->end;
    if (is_lost() || end - LOAD(ring->first) == MOST_FRAMES) {
        COUNT(dropped);
        return false;
    }
    memcpy(ring->slots[end % MOST_FRAMES].frame.bytes, frame, PSCI_FRAME_LEN);
    STORE(ring->end, end + 1);
    return true;
}

bool get_frame(struct ring *ring, uint8_t *frame) {
    uint32_t first = ring->first;
    if (first == LOAD(ring->end))
        return false;
    memcpy(frame, ring->slots[first % MOST_FRAMES].frame.bytes, PSCI_FRAME_LEN);
    STORE(ring->first, first + 1);
    return true;
}

void send(const struct psci_frame *message) {
    COUNT(messages);
    put_frame(&shared.messages, message->bytes);
    gic_ring(SCP);
}

struct last_word tell_stop(struct psci_port_core *side, enum caches caches) {
    struct door *door = &shared.doors[side->core];
    psci_port_stands(side);
    record_stands(side->used);
    if (caches != NO_CACHES)
        return (struct last_word){&door->stopped, side->used, gic_bell(SCP)};
    say_in_memory(&door->stopped, side->used);
    gic_ring(SCP);
    return (struct last_word){0};
}

/* Its power may go at any time, so the word is in memory before it rings. */
void tell_wake_up(struct psci_port_core *side) {
    struct door *door = &shared.doors[side->core];
    say_in_memory(&door->woken, side->told);
    gic_ring(SCP);
}

uint64_t clean_start(unsigned core) { return behind_caches(&shared.doors[core].stopped); }

void take_ack(void) {
    struct slot ack;
    if (!get_frame(&shared.acks, ack.frame.bytes))
        return;
    uint32_t what = psci_take(&firmware, ack.frame.bytes, PSCI_FRAME_LEN);
    COUNT(acks);
    record_take(ack.frame.bytes, what);
    if (what > PSCI_OLD) {
        COUNT(refused);
        say("# el3: an acknowledgement was refused: %u\n", what);
    }
}

bool send_again(void) {
    static struct psci_port_sent last[CORES + 1];
    bool some = false;
    for (unsigned number = 0; number <= CORES; number++) {
        struct psci_frame message;
        some |= psci_port_again(&firmware, number, &last[number], &message) != PSCI_PORT_NONE;
        if (message.some) {
            COUNT(again);
            put_frame(&shared.messages, message.bytes);
        }
    }
    return some;
}

void serve_link(void) {
    lock();
    take_acks();
    unlock();
}
