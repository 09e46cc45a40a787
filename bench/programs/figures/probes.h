/* One call of the library in the state that a list has brought it into, step by step. */
#ifndef PROBES_H
#define PROBES_H

#include "steps.h"
#include "world.h"

/* What was called, by which of the library's functions, and how it was answered. */
struct probed {
    const char *function;
    char row[80];
    struct steps steps;
};

/* Makes the call that a text names, and leaves the state as it comes out:
 *   smc CORE X0 X1 X2 X3    in the words of the machine where there is one: X1 and X2 are the board's words all the same
 *   enter CORE LIFE NUMBER CAUSE
 *   take CORE KIND NUMBER APPLIED
 *   deliver CORE            its outstanding message to the power controller; that of the system by the number of cores
 *   wake CORE NUMBER, reset CORE
 *   NAME A B                a reader of psci.h or psci_ctl.h by its name, without psci_ */
bool probe(const char *text, struct probed *);

/* Each call of the core that runs and is found from this one on, each answer to it, and each entry of it or of one beside:
 * how many texts there are, at most MOST_TEXTS. */
enum { MOST_TEXTS = 400, TEXT = 128 };
unsigned each_probe(unsigned from, char texts[][TEXT]);

/* A text that may be one of the above, drawn for the present state. */
void draw_probe(char *text, size_t size);
/* A number below this one. */
unsigned draw(unsigned below);
void draw_from(uint64_t seed);

#endif
