/* What the power hardware does with the orders of the proved power controller. Who runs this is one at a time: a core of
 * its own (scp.c), or whoever holds the lock (monitors.c). */
#include "power.h"
#include "console.h"
#include "hooks.h"
#include "link.h"
#include "record.h"

/* It does in its stop, and before its first start. */
static bool stands_still(unsigned core) {
    return behind_caches(&shared.doors[core].stopped) == shared.doors[core].opened;
}

/* What the power hardware does ------------------------------------------------------------------ */

/* The core comes out of reset, and finds this start. One that was woken, and one that boots, was not reset for it. */
static bool bring_back(const struct psci_ctl_start *start) {
    bool is_reset = start->cause == PSCI_CAUSE_ON || start->cause == PSCI_CAUSE_RESET;
    if (is_reset) {
        while (clean_start(start->core) != LOAD(shared.doors[start->core].leaves))
            relax(); /* what a line cuts is lost */
        board_resets(start->core);
    }
    return is_reset;
}

void open_door(unsigned core) {
    struct door *door = &shared.doors[core];
    struct psci_port_door due;
    bool was_reset = false;
    for (;;)
        switch (psci_control_door(&kept.control, core, &due)) {
        case PSCI_CONTROL_WRITE:
            was_reset = bring_back(&due.start);
            door->start = due.start;
            break;
        case PSCI_CONTROL_OPEN:
            STORE(door->opened, due.opened);
            board_starts(core, was_reset);
            break;
        default: return;
        }
}

/* A domain goes to its depth. QEMU's cores keep their power, so a switch that would cut a core which
 * executes is counted. */
static void switch_domain(const struct psci_ctl_domain *domain) {
    board_switches(domain);
    for (unsigned core = 0; core < CORES; core++) {
        if (paths[core][domain->level] != domain->index)
            continue;
        if (domain->level && domain->depth == PSCI_CTL_POWER_DOWN)
            MARK(paths[core][1]);
        if (stands_still(core))
            continue;
        COUNT(cuts);
        say("# el3: POWER CUT: core %u executes below domain %u of level %u\n", core,
            domain->index, domain->level);
    }
}

#define TOLD(what) PEEK(kept.tally.what)
static void tell_tally(void) {
    say("# stops %u, entries %u, resumes %u, parks %u\n", TOLD(stops), TOLD(entries), TOLD(resumes),
        TOLD(parks));
    say("# messages %u, acknowledgements %u, wakes %u, Downs that waited %u, sent again %u, lost %u\n",
        TOLD(messages), TOLD(acks), TOLD(wakes), TOLD(waited), TOLD(again), TOLD(dropped));
    say("# refused %u, power cuts %u\n", TOLD(refused), TOLD(cuts));
}

/* The last word of a stack is 0 as long as nothing came so far: the stacks suffice. */
static void look_at_stacks(void) {
    for (unsigned at = 0; at < STACKED; at++)
        if (*stack_end(at)) {
            COUNT(refused);
            say("# el3: stack %u is full\n", at);
        }
}

/* What outlives a reset is in memory, whichever core has it in its caches and is reset with them. */
static _Noreturn void end_life(bool resets) {
    extern char kept_start[], kept_end[];
    while (record_tell()) {
    }
    record_end();
    look_at_stacks();
    tell_tally();
    STORE(kept.boot, WARM);
    clean(kept_start, kept_end);
    board_ends(resets);
}

/* The domains of an order, before anything of it is seen. */
static void switch_power(const struct psci_control_orders *orders) {
    for (unsigned k = 0; k < orders->many; k++)
        switch_domain(&orders->domains[k]);
    if (orders->what > PSCI_CONTROL_WAITS) {
        COUNT(refused);
        say("# el3: the power controller refused: %u\n", orders->what);
    }
}

/* And then: the acknowledgement goes back, a core is started, or the life ends. */
static void obey(const struct psci_control_orders *orders) {
    if (orders->ack.some)
        acknowledge(orders->ack.bytes);
    if (orders->start.number)
        open_door(orders->start.core);
    if (orders->ends)
        end_life(orders->ends == PSCI_CONTROL_RESTART);
}

/* What comes to it --------------------------------------------------------------------------- */

void hear(unsigned core) {
    psci_control_stands(&kept.control, core, behind_caches(&shared.doors[core].stopped));
}

static void deliver(const uint8_t *frame, const struct psci_control_orders *orders) {
    if (orders->ends)
        stop_calls();
    switch_power(orders);
    record_deliver(frame, orders);
    obey(orders);
}

void carry_out(const uint8_t *frame) {
    struct psci_control_orders orders;
    psci_control_message(&kept.control, frame, PSCI_FRAME_LEN, &orders);
    if (orders.what != PSCI_CONTROL_WAITS) {
        deliver(frame, &orders);
        return;
    }
    COUNT(waited);
    record_waits(frame);
}

bool serve_waiting(unsigned core) {
    struct psci_control_orders orders;
    hear(core);
    psci_control_waited(&kept.control, core, &orders);
    if (orders.what != PSCI_CONTROL_ORDERS)
        return false;
    deliver(record_waited(core), &orders);
    return true;
}

bool wake(unsigned core) {
    struct psci_control_orders orders;
    hear(core);
    psci_control_wake(&kept.control, core, &orders);
    if (orders.what != PSCI_CONTROL_ORDERS)
        return false;
    COUNT(wakes);
    record_wake(core, shared.doors[core].opened, &orders);
    obey(&orders);
    return orders.start.number != 0;
}
