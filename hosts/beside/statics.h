/* All that a peer keeps in static variables, its own and those of its sources: hosts/beside/build puts
 * them into two sections. */
#ifndef GUMDARTS_BESIDE_STATICS_H
#define GUMDARTS_BESIDE_STATICS_H

#include <stdbool.h>

/* They are as at the beginning of the program. The first thing that `open` does. */
void statics_fresh(void);

/* A peer's `save`: keeps a copy of them, or brings it back. */
void statics_save(void *self, bool back);

/* Ends a target whose board has more cores than the peer has room for. Room costs time: all of it is copied. */
void statics_hold(unsigned cores, unsigned most);

#endif
