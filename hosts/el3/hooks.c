/* The ways of a board whose cores keep their power, and wait at their doors until they are rung. */
#include "hooks.h"
#include "gic.h"
#include "machine.h"

#define OR_THE_BOARD __attribute__((weak))

OR_THE_BOARD void board_comes_out(void) {}
OR_THE_BOARD void board_begins(void) {}
OR_THE_BOARD void board_resets(unsigned core) { (void)core; }
OR_THE_BOARD void board_starts(unsigned core, bool was_reset) { (void)was_reset, gic_ring(core); }
OR_THE_BOARD void board_switches(const struct psci_ctl_domain *domain) { (void)domain; }
OR_THE_BOARD void board_waits(void) { wait_for_interrupt(); }

/* An interrupt controller that has no part for each core, or none that loses its power. */
OR_THE_BOARD void gic_opens(void) {}
OR_THE_BOARD uint64_t gic_sleeps(void) { return 0; }
OR_THE_BOARD void gic_rises(uint64_t groups) { (void)groups; }
