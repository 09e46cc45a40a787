/* A machine text (docs/port/FORMATS.md) as the structs of psci.h. */
#ifndef WORDS_H
#define WORDS_H

#include "psci.h"

/* What a machine text says: its board, and what the machine calls its cores, states and functions. */
struct words {
    char text[512]; /* the board's text */
    struct psci_board board;
    struct psci_machine machine;
    uint64_t boot; /* the MPIDR of the core that boots */
};

/* Reads the file, whose form is not looked at: a text that `./psci replay --machine` takes. False where
 * it cannot be read. */
bool read_words(const char *path, struct words *);

#endif
