/* The record of a run (docs/compare/RECORD.md), told as it happens on the crash console. It is there where
 * GUMDARTS_RECORD is 1, and else nothing of it is compiled. */
#ifndef GUMDARTS_RECORD_H
#define GUMDARTS_RECORD_H

#include "psci_ctl.h"

#if GUMDARTS_RECORD
void record_board(const struct psci_board *);

/* Under the lock of the firmware. The registers of a call are those that the library was given. */
void record_call(unsigned int core, const uint64_t *x, const struct psci_answer *);
void record_enter(unsigned int core, const struct psci_ctl_start *, const struct psci_answer *);
void record_take(const uint8_t *frame, uint32_t what);
void record_deliver(const uint8_t *frame, const struct psci_ctl_answer *);
void record_wake(unsigned int core, uint32_t halted, const struct psci_ctl_answer *);
void record_reset(unsigned int core, const struct psci_ctl_answer *);

/* By who sees the word that the core wrote in its stop of this start: its own caches are off. */
void record_stands(unsigned int core, uint32_t number);

/* Without the lock. */
void record_poll(unsigned int core, const uint64_t *x, int32_t code);
#else
#define record_board(board) ((void)0)
#define record_call(core, x, answer) ((void)0)
#define record_enter(core, start, answer) ((void)0)
#define record_take(frame, what) ((void)0)
#define record_deliver(frame, reply) ((void)0)
#define record_wake(core, halted, reply) ((void)0)
#define record_reset(core, reply) ((void)0)
#define record_stands(core, number) ((void)0)
#define record_poll(core, x, code) ((void)0)
#endif

#endif
