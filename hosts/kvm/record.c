/* The record of a run, as docs/compare/RECORD.md has it. What a line says is the library's (psci_record.h). */
#include "vmm.h"

#include "psci_record.h"

#include <inttypes.h>
#include <stdio.h>
#include <string.h>

enum { KIND = 2, COUNT = 12 }; /* where these bytes of a frame stand */
static FILE *record;
static struct psci_record_line line;

/* Byte by byte: of who writes without the lock it shows. */
static void say_line(void) {
    for (uint32_t at = 0; at < line.length; at++)
        putc(line.text[at], record);
}

/* A core, by the MPIDR that it reads. */
#define NAMED(core) (&(struct psci_record_core){.is_mpidr = true, .word = (core)->mpidr})

/* Without a board it goes on with what another monitor has begun. */
void record_into(const char *name, const char *board) {
    record = fopen(name, board ? "w" : "a");
    if (!record)
        fail(name);
    if (!board) {
        fprintf(record, "# moved\n");
        return;
    }
    fprintf(record, "board %s\nmpidr", board);
    for (const struct core *core = cores; core < cores + many_cores; core++)
        fprintf(record, " 0x%" PRIx64, core->mpidr);
    fprintf(record, "\ntells stands\ntells begins\n");
    if (PSCI_IS_UNPROVED)
        fprintf(record, "# library unproved\n");
    record_enter(cores);
}

void record_call(const struct core *core, const uint64_t *x, const struct psci_answer *answer) {
    psci_record_call(&line, NAMED(core), x[0], x[1], x[2], x[3], answer);
    say_line();
}

/* What a turn delivers is carried out whole, but for a Start of a core that can be started no more: so its
 * acknowledgement, which is taken, has the message's own count of parts, or says whether there was a start. */
void record_message(const struct psci_frame *message, uint32_t start) {
    struct psci_frame ack = *message;
    if (!message->some)
        return;
    bool is_late = message->bytes[KIND] == PSCI_MESSAGE_START && !start;
    ack.bytes[KIND] += is_late ? PSCI_STALE_ACK : PSCI_ACK;
    if (message->bytes[KIND] != PSCI_MESSAGE_DOWN)
        ack.bytes[COUNT] = !is_late;
    memset(ack.bytes + COUNT + 1, 0, PSCI_FRAME_LEN - COUNT - 1);
    psci_record_deliver(&line, message->bytes, PSCI_CTL_NOTHING, &ack);
    say_line();
    psci_record_take(&line, ack.bytes, PSCI_USED);
    say_line();
}

static void say_stands(const struct core *core, uint32_t number) {
    psci_record_stands(&line, NAMED(core), number);
    say_line();
}

/* The boot core's first entry comes before there is a record: record_into says it. */
void record_enter(const struct core *core) {
    if (!record)
        return;
    psci_record_enter(&line, NAMED(core), &core->next, &core->entry);
    say_line();
    if (core->entry.what == PSCI_STOP)
        say_stands(core, core->next.number);
    record_message(&core->entry.message, 0);
}

void record_begins(const struct core *core) {
    const uint64_t *first = core->first;
    psci_record_begins(&line, NAMED(core), first[0], first[1], first[2], first[3]);
    say_line();
}

void record_stands(const struct core *core) { say_stands(core, core->start.number); }

void record_wake(const struct core *core, const struct psci_guest_turn *turn) {
    struct psci_record_core number = {.word = core - cores};
    psci_record_wake(&line, &number, core->start.number, turn->what, turn->start.number);
    say_line();
}

void end_record(void) {
    if (record)
        fclose(record);
}
