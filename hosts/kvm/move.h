/* A guest that goes on in another monitor: its cores leave it, a file gets all that it consists of, and `vmm -f` opens
 * that. */
#ifndef MOVE_H
#define MOVE_H

#include "vmm.h"

/* When it leaves: after so many calls, of this word alone if there is one; or once its console has said this. */
extern struct departure {
    const char *into; /* a file, or null: then it stays */
    const char *text;
    uint64_t word;
    unsigned long calls;
} departure;

/* move.c: what has happened, said by any thread, and whether it is time by now. */
void count_call(uint64_t word);
void hear(char letter);
bool is_due(void);

/* Into the file, with all cores at rest; or out of it, into a machine that this opens. */
void pass_guest(const char *name, bool is_written, const char *board, bool has_ring);

/* Writes these bytes, or fills them again; and what guest.c, devices.c and cores.c keep. */
void pass(void *bytes, size_t size);
void pass_memory(void);
void pass_alarm(void);

#endif
