/* The map of EL3, one to one: place.h has its tables, of the ranges of the board. */
#define MAP
        .macro  entries many, first, size, kind
        .set    at, \first
        .rept   \many
        .quad   at + \kind
        .set    at, at + \size
        .endr
        .endm
        .macro  guarded many, first, pages, kind /* a page without memory below so many of each stack */
        .set    at, \first
        .rept   \many
        .quad   0
        .rept   \pages
        .quad   at + \kind
        .set    at, at + 0x1000
        .endr
        .set    at, at + 0x1000
        .endr
        .endm
        .section .rodata.map, "a"
        .global map
#include "place.h"
