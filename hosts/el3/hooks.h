/* What a board does in a way of its own: boards/NAME/NAME.c. What it leaves out, hooks.c does. */
#ifndef HOOKS_H
#define HOOKS_H

#include <stdbool.h>

/* Each core, first of all behind its reset: until it may go on. */
void board_comes_out(void);

/* The boot core, as a life begins: the console, and what a reset has left or spoiled. */
void board_begins(void);

/* This core, which is off, is reset, and waits in board_comes_out. Its door is opened once this is done. */
void board_resets(unsigned core);

/* Its door is open. */
void board_starts(unsigned core, bool was_reset);

/* A domain goes to this depth, or comes back, before anybody hears of it. An emulator has no power to switch. */
struct psci_ctl_domain;
void board_switches(const struct psci_ctl_domain *);

/* By a core at its door whose power stays, and which has nothing to do. */
void board_waits(void);

/* The machine goes off, or is reset. No core is inside a call. */
_Noreturn void board_ends(bool resets);
#endif
