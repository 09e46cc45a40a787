/* How a core comes into the normal world: it waits at its door for a start, and enters by it once. */
#include "console.h"
#include "gic.h"
#include "hooks.h"
#include "link.h"
#include "monitor.h"
#include "power.h"
#include "record.h"

void begin_stop(unsigned core) { STORE(shared.doors[core].leaves, sides[core].used); }

/* A look at its door, whose start is read once it is open, and at what is pending. */
static uint32_t look(struct psci_port_core *side) {
    const struct door *door = &shared.doors[side->core];
    struct psci_port_door seen = {.opened = LOAD(door->opened)};
    if (seen.opened != side->used)
        seen.start = door->start;
    return psci_port_look(side, &seen, gic_wakes());
}

/* A WFI, which goes on where an interrupt is there; in that of stand.S the core's power may go. */
static void rest(struct psci_port_core *side, const struct last_word *last, enum caches caches) {
    psci_port_sleeps(side); /* where it is armed, as in monitors.c */
    if (caches == NO_CACHES) {
        board_waits();
        return;
    }
    uint64_t groups = gic_sleeps();
    stand(last, caches);
    gic_rises(groups);
}

/* Until it takes up a start: the last thing that a core does in one, or the first behind a reset. On a machine its power
 * goes here, and it comes back through its reset vector; an emulated core keeps its power, and waits in this loop instead.
 * Once it has said that it stands it takes no lock, with which its power could go, but where the controller is in the
 * monitors. */
void wait_for_start(struct psci_port_core *side, enum caches caches) {
    struct last_word last = {0};
    if (side->stop != PSCI_PORT_SUSPENDED)
        gic_bell_alone();
    if (side->post == PSCI_PORT_LEAVING)
        last = tell_stop(side, caches);
    for (;;) {
        gic_answer();
        uint32_t found = look(side);
        if (found == PSCI_PORT_TAKES_UP)
            return;
        if (found == PSCI_PORT_TELLS)
            tell_wake_up(side);
        relax();
        rest(side, &last, caches);
        last.bell.value = 0;
    }
}

/* A reset leaves them unknown. That which woke a core is the normal world's to answer. */
static void stop_timers(void) {
    write_register("cntp_ctl_el0", 0);
    write_register("cntv_ctl_el0", 0);
    write_register("cnthp_ctl_el2", 0);
}

/* Nobody has asked for the first entry of a life: there the boot core gets what Linux wants in x0. */
static _Noreturn void begin(const struct psci_port_orders *orders) {
    uint64_t x0 = orders->cause == PSCI_CAUSE_BOOT ? DEVICE_TREE : orders->x0;
    COUNT(entries);
    if (orders->cause != PSCI_CAUSE_WAKE)
        stop_timers();
    begin_normal_world();
    record_begins(orders->address, x0);
    leave_for(orders->address, x0);
}

/* The entry by the start that the core took up. */
static void enter_once(struct psci_port_core *side, struct psci_port_orders *orders) {
    struct psci_ctl_start start = side->start;
    lock();
    take_acks();
    psci_port_enter(&firmware, side, orders);
    if (orders->next == PSCI_PORT_STANDS)
        begin_stop(side->core);
    record_enter(&start, orders);
    post(&orders->message);
    unlock();
}

/* A core that parks, or whose entry was refused, waits for its next start, and enters by that. */
uint64_t enter(struct psci_port_core *side) {
    struct psci_port_orders orders;
    for (;;) {
        enter_once(side, &orders);
        switch (orders.next) {
        case PSCI_PORT_ENTERS: begin(&orders);
        case PSCI_PORT_RESUMES: COUNT(resumes); return orders.x0;
        case PSCI_PORT_STANDS: COUNT(parks); break;
        default:
            COUNT(refused);
            say("# el3: the entry of core %u was refused: %u\n", side->core, orders.next);
            psci_port_comes_back(side);
        }
        wait_for_start(side, OWN_CACHES);
    }
}

/* The firmware lets a core resume only from standby or retention, so never after a reset. */
static _Noreturn void lost_registers(unsigned core) {
    COUNT(refused);
    say("# el3: core %u resumes, and has no registers to go on with\n", core);
    for (;;)
        wait_for_interrupt();
}

/* The number of this core, by its MPIDR. */
static unsigned find_number(void) {
    lock();
    *own_number() = psci_core_of(&firmware, own_mpidr());
    unlock();
    MARK(64 + paths[this_core()][1]);
    return this_core();
}

/* The core that the operating system is not shown, where there is one. */
static void start_control(void) {
#ifdef SCP_MPIDR
    if (own_mpidr() != SCP_MPIDR)
        return;
    *own_number() = SCP;
    gic_start_core(SCP);
    control_power();
#endif
}

void on_reset(void) {
    board_comes_out();
    open_features();
    if (own_mpidr() == BOOT && !gic_is_started())
        start_machine();
    while (!gic_is_started())
        relax();
    start_control();
    unsigned core = find_number();
    gic_start_core(core);
    struct psci_port_core *side = &sides[core];
    if (side->post != PSCI_PORT_ENTERING) { /* else its power never went, and it took up a start before */
        psci_port_comes_back(side);
        if (side->stop == PSCI_PORT_SUSPENDED)
            gic_opens(); /* what wakes it may be pending, and its interface has lost its groups */
        wait_for_start(side, OWN_CACHES);
        gic_bell_alone();
    }
    enter(side);
    lost_registers(core);
}
