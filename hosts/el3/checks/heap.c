/* What the boot core does after a reset, by start.c: it opens the firmware with its machine, a poller for each core,
 * and the power controller. What it says of its heaps is printed; where one does not suffice, the status is 1. */
#include "console.h"
#include "gic.h"
#include "link.h"
#include "machine.h"
#include "monitor.h"

#include <stdarg.h>
#include <stdio.h>
#include <stdlib.h>

void say(const char *form, ...) {
    va_list rest;
    va_start(rest, form);
    vprintf(form, rest);
    va_end(rest);
}

/* A core that waits here has found that something did not open. */
void host_wait(void) { exit(1); }
void host_relax(void) {}
uint64_t *host_place(void) { abort(); }
uint64_t host_read(const char *name) { (void)name; abort(); }
void gic_start(void) {}
void board_begins(void) {}

/* What shared.c has. */
struct psci_place firmware;
struct psci_poller pollers[CORES];
struct psci_port_core sides[CORES];

int main(void) {
    start_machine();
    return 0;
}
