/* A core waits at its door, by entry.c, and the control processor opens it at one step of the wait, and rings; then at
 * the next step, in another wait, and so on. In each the core has to come through: where it waits for an interrupt
 * with its door open and none pending, it waits for ever. A step is each look at the interrupt controller and each
 * turn of the loop. The same where an interrupt of the normal world comes, which is to be told once. */
#include "console.h"
#include "gic.h"
#include "link.h"
#include "monitor.h"

#include <setjmp.h>
#include <stdio.h>
#include <stdlib.h>

/* What other files of the port have. */
struct shared shared;
struct kept kept;
struct psci_place firmware;
struct psci_port_core sides[CORES];
uint32_t taken;
void take_ack(void) {}
void board_comes_out(void) {}
void board_waits(void) { wait_for_interrupt(); }
uint64_t gic_sleeps(void) { return 0; }
void gic_rises(uint64_t groups) { (void)groups; }
void send(const struct psci_frame *message) { (void)message; }
void serve_link(void) {}
void say(const char *form, ...) { (void)form; }
void start_machine(void) { abort(); }
void control_power(void) { abort(); }
void cold(void) { abort(); }
void begin_normal_world(void) {}
void open_features(void) {}
void leave_for(uint64_t address, uint64_t x0) { (void)address, (void)x0, abort(); }
void gic_start_core(unsigned core) { (void)core; }
bool gic_is_started(void) { return true; }
uint64_t *host_place(void) { abort(); }
uint64_t host_read(const char *name) { (void)name; abort(); }

enum { CORE = 1, MOST_STEPS = 60 };
static unsigned steps, opens_at, wakes_at, told;
static bool bell, irq, wakes;
static uint64_t starts, heard;
static jmp_buf stuck;

/* At this step the door is opened, before or behind what the core does there. */
static void step(void) {
    struct door *door = &shared.doors[CORE];
    steps++;
    if (steps == wakes_at)
        irq = true;
    if (steps != opens_at)
        return;
    door->start = (struct psci_ctl_start){.core = CORE, .life = 1, .number = starts, .cause = PSCI_CAUSE_WAKE};
    STORE(door->opened, starts);
    bell = true;
}

void gic_bell_alone(void) { step(); }
void gic_opens(void) {}
void host_write(const char *name, uint64_t value) { (void)name, (void)value; }
void host_relax(void) { step(); }
bool gic_wakes(void) {
    step();
    return irq;
}

/* It rings the control processor: that it stands, or was woken. */
void gic_ring(unsigned core) {
    (void)core;
    told += shared.doors[CORE].woken != heard;
    heard = shared.doors[CORE].woken;
    step();
}

/* As link.c and stand.S have it. */
struct last_word tell_stop(struct psci_port_core *side, enum caches caches) {
    (void)caches;
    if (psci_port_stands(side))
        abort();
    return (struct last_word){&shared.doors[CORE].stopped, side->used, {0, 1}};
}

void stand(const struct last_word *last, enum caches caches) {
    (void)caches;
    STORE(*last->word, last->says);
    if (last->bell.value)
        gic_ring(SCP);
    wait_for_interrupt();
}

void tell_wake_up(struct psci_port_core *side) {
    STORE(shared.doors[CORE].woken, side->told);
    gic_ring(SCP);
}

bool gic_answer(void) {
    step();
    bell = false;
    step();
    return false;
}

/* Where it would sleep before the door is opened, that is done now. */
void host_wait(void) {
    step();
    if (bell || (wakes && irq))
        return;
    if (steps >= opens_at)
        longjmp(stuck, 1);
    opens_at = steps + 1;
    step();
}

/* An entry by the start that the core took up. */
void __wrap_psci_port_enter(struct psci_place *place, struct psci_port_core *side, struct psci_port_orders *orders) {
    (void)place;
    if (side->post != PSCI_PORT_ENTERING || side->start.number != starts)
        abort();
    side->post = PSCI_PORT_RUNNING;
    *orders = (struct psci_port_orders){.next = PSCI_PORT_RESUMES};
}

/* Whether the core comes through, and an interrupt is told once, which came before it would have slept. */
static bool comes_through(unsigned opened, unsigned woken) {
    struct psci_port_core *side = &sides[CORE];
    side->post = PSCI_PORT_LEAVING;
    side->stop = wakes ? PSCI_PORT_SUSPENDED : PSCI_PORT_OFF;
    steps = told = 0;
    opens_at = opened;
    wakes_at = woken;
    bell = irq = false;
    starts++;
    if (setjmp(stuck))
        return false;
    wait_for_start(side, OWN_CACHES);
    if (LOAD(shared.doors[CORE].opened) != starts)
        return false;
    enter(side);
    return wakes && woken + 10 < opens_at ? told == 1 : told <= 1;
}

int main(void) {
    unsigned tried = 0;
    psci_port_new(&sides[CORE], CORE);
    comes_through(1, 0);
    for (unsigned opened = 1; opened < MOST_STEPS; opened++)
        for (unsigned woken = 0; woken < MOST_STEPS; woken++) {
            wakes = woken > 0;
            if (!comes_through(opened, woken)) {
                printf("the door is opened at step %u, an interrupt comes at step %u: the core %s\n", opened, woken,
                       told > 1 ? "tells it twice" : "is not there");
                return 1;
            }
            tried++;
        }
    printf("%u waits, and the core comes through each\n", tried);
    return 0;
}
