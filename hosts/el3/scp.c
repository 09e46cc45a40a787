/* The system control processor, on the core that the operating system is not shown: it carries out what
 * the proved power controller decides. */
#include "gic.h"
#include "link.h"
#include "monitor.h"
#include "power.h"
#include "record.h"

/* A core that executes is rung, by what all have said by now. Where none does, the next one that enters takes it. */
void acknowledge(const uint8_t *frame) {
    put_frame(&shared.acks, frame);
    for (unsigned core = 0; core < CORES; core++)
        hear(core);
    uint16_t rung = psci_control_rings(&kept.control);
    if (rung < CORES)
        gic_ring(rung);
}

/* No core is inside a call from now on, nor makes one. */
void stop_calls(void) { lock(); }

static bool serve_message(void) {
    struct slot message;
    if (!get_frame(&shared.messages, message.frame.bytes))
        return false;
    carry_out(message.frame.bytes);
    return true;
}

static bool serve_stops(void) {
    for (unsigned core = 0; core < CORES; core++)
        if (serve_waiting(core))
            return true;
    return false;
}

/* An interrupt waits for the core in its stop of this start, of which nothing was heard before: by what is heard it is
 * started, and its door has another start. */
static bool is_woken(unsigned core) {
    const struct door *door = &shared.doors[core];
    return door->opened && LOAD(door->woken) == door->opened;
}

static bool serve_wake(void) {
    for (unsigned core = 0; core < CORES; core++)
        if (is_woken(core) && wake(core))
            return true;
    return false;
}

/* Its timer: 20 milliseconds after something came, and as long as something is outstanding. No power-off of a core
 * stops it. */
static void start_timer(void) {
    write_register("cntps_tval_el1", FREQUENCY / 50);
    write_register("cntps_ctl_el1", 1);
}

static bool is_outstanding(void) {
    lock();
    take_acks(); /* no core may execute that takes them */
    bool some = send_again();
    unlock();
    return some;
}

/* It has come out of its sleep: by the timer, or since somebody rang. */
static void keep_time(void) {
    static bool runs;
    bool is_time = gic_answer(), goes_on = is_time ? is_outstanding() : !runs;
    runs = is_time ? goes_on : true;
    if (goes_on)
        start_timer();
}

/* Wake-ups without cause, for trials: each so many rounds the next core is woken that stands in a stop. */
static void rouse(void) {
#ifdef ROUSE
    static unsigned rounds, core;
    for (unsigned k = ++rounds % ROUSE ? CORES : 0; k < CORES; k++) {
        core = (core + 1) % CORES;
        if (shared.doors[core].opened && wake(core))
            return;
    }
#endif
}

void control_power(void) {
    open_door(0);
    for (;;) {
        keep_time();
        rouse();
        while (serve_message() || serve_stops() || serve_wake() || record_tell()) {
        }
        wait_for_interrupt();
    }
}
