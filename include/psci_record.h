/* The lines of a record (docs/compare/RECORD.md): of what happened the text that ./psci compare reads. Each call writes
 * one line into a struct of the caller's, and nothing else: it takes no lock and no memory, and calls may overlap. Each
 * pointer that is given to a call is of valid memory of its own, never null. */
#ifndef GUMDARTS_PSCI_RECORD_H
#define GUMDARTS_PSCI_RECORD_H

#include "psci.h"
#include "psci_ctl.h"
#include "psci_port.h"

#ifdef __cplusplus
extern "C" {
#endif

/* How many bytes a line has at most, its line feed among them. */
enum psci_record_limit { PSCI_LONGEST_LINE = 256 };

/* A line: `length` bytes of ASCII, whose last one is a line feed. What stands behind them says nothing. */
struct psci_record_line {
    uint32_t length;
    uint8_t text[PSCI_LONGEST_LINE];
};

/* How a line names a core: best by the MPIDR that it reads itself, of affinity fields alone. */
struct psci_record_core {
    bool is_mpidr; /* else by its number */
    uint64_t word;
};

PSCI_SIZE_IS(psci_record_line, 260);
PSCI_SIZE_IS(psci_record_core, 16);

/* What a core does -------------------------------------------------------------------------------- */

/* A call, with x0 to x3 as the caller had them; and what was answered, by psci_smc or as psci_record_answer says. */
void psci_record_call(struct psci_record_line *, const struct psci_record_core *, uint64_t x0, uint64_t x1, uint64_t x2,
                      uint64_t x3, const struct psci_answer *);

/* A call that psci_poll answered, with this code. */
void psci_record_poll(struct psci_record_line *, const struct psci_record_core *, uint64_t x0, uint64_t x1, uint64_t x2,
                      int32_t code);

/* An entry by this start, and what was answered. */
void psci_record_enter(struct psci_record_line *, const struct psci_record_core *, const struct psci_ctl_start *,
                       const struct psci_answer *);

/* With what a core goes back to its caller; and where it begins in the normal world, with what, and in which state: SPSR
 * of EL3, and SCTLR of the exception level that it begins in. */
void psci_record_leaves(struct psci_record_line *, const struct psci_record_core *, uint64_t x0);
void psci_record_begins(struct psci_record_line *, const struct psci_record_core *, uint64_t address, uint64_t x0,
                        uint64_t spsr, uint64_t sctlr);

/* It is in its stop of the start of this number. */
void psci_record_stands(struct psci_record_line *, const struct psci_record_core *, uint32_t number);

/* What the orders of psci_port_call or psci_port_enter answer: the code of a call, and not its register; of what is asked
 * nothing. */
void psci_record_answer(const struct psci_port_orders *, struct psci_answer *);

/* What the sides send, and what the power controller does -------------------------------------------- */

/* The firmware got an acknowledgement, of PSCI_FRAME_LEN bytes; what psci_take answered. */
void psci_record_take(struct psci_record_line *, const uint8_t *frame, uint32_t what);

/* The power controller got a message; its number `what`, also of struct psci_control_orders, and its acknowledgement. */
void psci_record_deliver(struct psci_record_line *, const uint8_t *frame, uint32_t what, const struct psci_frame *ack);

/* A wake-up of a core in its stop of the start of this number, or a reset; the power controller's number `what`, and the
 * number of the start that it made, 0 for none. */
void psci_record_wake(struct psci_record_line *, const struct psci_record_core *, uint32_t number, uint32_t what,
                      uint32_t started);
void psci_record_reset(struct psci_record_line *, const struct psci_record_core *, uint32_t what, uint32_t started);

#ifdef __cplusplus
}
#endif

#endif
