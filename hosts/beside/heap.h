/* The heap of the targets that open places for each input: of the machine, so that a sanitizer sees where a
 * block ends. */
#ifndef GUMDARTS_BESIDE_HEAP_H
#define GUMDARTS_BESIDE_HEAP_H

#include <stddef.h>

/* How many requests are granted from now on. */
extern size_t granted;

#endif
