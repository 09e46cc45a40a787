/* link: the mailbox of docs/port/PORTING.md over a way that loses frames. Cores go on, off and to sleep by
 * chance; each frame is lost by chance, both ways; a timer sends again what is outstanding. First the
 * mailbox has a place for each core and one for the system, each way, then it is a ring that drops what
 * comes when it is full. Prints whether all was acknowledged in the end. */
#include "machine.h"

#include <inttypes.h>
#include <stdio.h>
#include <string.h>

enum { ROUNDS = 20000, ALL = 100, RING = 3 };

/* Chance: a number below `below`. */
static uint32_t drawn;
static uint32_t chance(uint32_t below) {
    drawn = drawn * 1664525 + 1013904223;
    return (drawn >> 8) % below;
}

/* One way of the mailbox: frames by places, or one behind the other. */
struct way {
    bool is_ring;
    unsigned many;
    struct psci_frame frames[CORES + 1];
    uint64_t lost, dropped;
};
static struct way out, back;
static unsigned loss;

static void put(struct way *way, unsigned place, const struct psci_frame *frame) {
    if (chance(100) < loss) {
        way->lost++;
    } else if (!way->is_ring) {
        way->frames[place] = *frame;
    } else if (way->many < RING) {
        way->frames[way->many++] = *frame;
    } else {
        way->dropped++;
    }
}

/* The next frame, if there is one. */
static struct psci_frame next(struct way *way) {
    struct psci_frame frame = {0};
    if (!way->is_ring) {
        unsigned place = chance(CORES + 1);
        frame = way->frames[place];
        way->frames[place].some = false;
    } else if (way->many) {
        frame = way->frames[0];
        memmove(way->frames, way->frames + 1, --way->many * sizeof frame);
    }
    return frame;
}

/* What was just sent goes out. */
static void post(void) {
    for (unsigned place = 0; place <= SYSTEM; place++)
        if (box[place].some) {
            put(&out, place, &box[place]);
            box[place].some = false;
        }
}

/* The timer: what is outstanding goes out once more. */
static bool on_timer(void) {
    bool some = false;
    for (unsigned number = 0; number <= SYSTEM; number++) {
        psci_outstanding(&firmware, number, &box[number]);
        some |= box[number].some;
    }
    post();
    return some;
}

/* A core that is started enters at once. It counts where the caller asked it on. */
static uint64_t entered;
static void begin(unsigned core) {
    entered += enter(core) == PSCI_ENTER;
    post();
}

static void serve_one(void) {
    struct psci_frame message = next(&out), ack = next(&back);
    if (message.some) {
        psci_ctl_deliver(&controller, message.bytes, PSCI_FRAME_LEN, &done);
        for (uint32_t k = 0; k < done.many; k++)
            if (done.domains[k].level == 0 && runs[done.domains[k].index])
                fail("a core was cut", done.domains[k].index);
        if (done.ack.some)
            put(&back, message.bytes[3], &done.ack);
        if (done.what == PSCI_CTL_START)
            begin(done.start.core);
    }
    if (ack.some && psci_take(&firmware, ack.bytes, PSCI_FRAME_LEN) > PSCI_OLD)
        fail("an acknowledgement was refused", 0);
}

/* Something that a core does, or that happens to it. */
static void act(unsigned core) {
    static const uint32_t states[] = {STANDBY, RETENTION, CORE_DOWN, ALL_DOWN};
    unsigned other = chance(CORES);
    if (!runs[core]) {
        psci_ctl_wake(&controller, core, psci_ctl_starts(&controller, core), &done);
        if (done.what == PSCI_CTL_START)
            begin(core);
    } else if (chance(3) == 0) {
        smc(core, ON, word_of(other), 0x40001000, 0);
    } else if (chance(4) == 0 && core != 0) {
        smc(core, OFF, 0, 0, 0);
    } else {
        smc(core, SUSPEND, states[chance(4)], 0x40001000, 0);
    }
    post();
}

/* Whether the hardware is as the firmware says, once nothing is outstanding. */
static bool agree(void) {
    for (uint32_t level = 0; level < LEVELS; level++)
        for (unsigned index = 0; index < (unsigned)CORES >> level; index++) {
            uint32_t depth = psci_ctl_depth(&controller, level, index), hw = psci_hw(&firmware, level, index);
            if (hw != (depth == PSCI_CTL_POWER_DOWN ? 1 : depth == PSCI_CTL_ON ? 0 : 2))
                return false;
        }
    return true;
}

static void try_way(const char *name, bool is_ring, unsigned lost_of_hundred) {
    drawn = 1;
    entered = 0;
    out = back = (struct way){.is_ring = is_ring};
    loss = lost_of_hundred;
    cold_reset(&two_by_two);
    begin(0);
    for (unsigned round = 0; round < ROUNDS; round++) {
        act(chance(CORES));
        serve_one();
        if (round % 4 == 0)
            on_timer();
    }
    unsigned left = 10 * ALL;
    while (on_timer() && --left)
        for (unsigned k = 0; k < ALL; k++)
            serve_one();
    printf("%s, %u %% lost: %s lost, %s dropped; cores entered %s; all was acknowledged: %d, and both agree: %d\n",
           name, loss, out.lost && back.lost ? "some" : "none", out.dropped ? "some" : "none",
           entered > 100 ? "often" : "seldom", left > 0, agree());
}

/* The Start at boot is lost, and nobody calls: with and without a timer. */
static void try_lost_start(bool has_timer) {
    out = back = (struct way){0};
    loss = 0;
    cold_reset(&two_by_two);
    begin(0);
    smc(0, ON, word_of(1), 0x40001000, 0);
    box[1].some = false;
    for (unsigned round = 0; round < ROUNDS; round++) {
        serve_one();
        if (has_timer && round % 4 == 0)
            on_timer();
    }
    printf("a lost Start, %s timer: AFFINITY_INFO says %d\n", has_timer ? "with a" : "no",
           code_of(smc(0, INFO, word_of(1), 0, 0)));
}

int main(void) {
    try_way("a place for each", false, 0);
    try_way("a place for each", false, 20);
    try_way("a ring", true, 0);
    try_way("a ring", true, 20);
    try_lost_start(false);
    try_lost_start(true);
    return 0;
}
