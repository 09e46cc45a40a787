/* What a target is made of. */
#ifndef GUMDARTS_BESIDE_FUZZ_H
#define GUMDARTS_BESIDE_FUZZ_H

#include "psci_beside.h"

/* The peer of this target: its file has this. */
extern const struct psci_beside_peer psci_beside_target;

/* What it declares of itself; the groups of the report that is stored of it, and the ways in which each showed, with how
 * many lists of how many it did in; and by function and code the sentence that decides, of code 0 for all but refusals. Each ends with
 * a null pointer. hosts/beside/profile writes these. */
extern const struct psci_beside_profile profile;
extern const struct known {
    const char *cause, *key;
    uint64_t seen, lists;
} known[];
extern const struct rule {
    const char *function;
    int32_t code;
    const char *words;
} rules[];

/* Each story of a stored report once more: 0 where each comes to its group, and no event of it can go. */
int stories(const char *path);

/* Whether inputs are drawn blindly, and whether they are those of stored reports: main.c says so. */
extern bool is_drawn_blindly, is_drawn_as_stored;

/* One input, which is a list of events. */
int LLVMFuzzerTestOneInput(const uint8_t *data, size_t size);

#endif
