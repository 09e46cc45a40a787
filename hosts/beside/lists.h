/* What the parts of the targets' driver have in common. */
#ifndef GUMDARTS_BESIDE_LISTS_H
#define GUMDARTS_BESIDE_LISTS_H

#include "fuzz.h"

/* The bytes that events are drawn from, the next event, and whether none is left. */
void draw_from(const uint8_t *data, size_t size);
struct psci_beside_event draw_event(void);
bool is_drawn(void);

/* The two sides, once they are open, and how many lists there were, drawn blindly or not. An event on both, as
 * psci_beside_do, where a peer that does not come back within some tenths of a second of a processor is ended. */
extern struct psci_beside beside_side;
extern uint64_t beside_lists, beside_events;
extern int most_tenths;
void open_once(void);
void begin_list(void);
uint32_t do_event(const struct psci_beside_event *);
double seconds(void); /* of this process's processor */

/* The peer with a fault of one bit, where BESIDE_BIT names one (bits.c). With BESIDE_OFTEN, too, the word that half of the
 * calls have, else 0, and what sets the bit in half of these. */
extern uint32_t drawn_often;
void set_often(uint64_t x[4]);
const struct psci_beside_peer *planted(const struct psci_beside_peer *);

/* A list that leads to a difference; which message and acknowledgement each event sends, or NONE. */
enum { NONE = PSCI_BESIDE_EVENTS };
struct list {
    uint32_t length;
    struct psci_beside_event events[PSCI_BESIDE_EVENTS];
    uint16_t message[PSCI_BESIDE_EVENTS], ack[PSCI_BESIDE_EVENTS];
};

/* Plays a list without `many` events from `at` on, and without the one at `also`: whether it leads to this group, or way.
 * `to` is what has happened then, with the numbers that messages have there. (least.c) */
bool plays(const struct list *, uint32_t at, uint32_t many, uint32_t also, const char *key, struct list *to);

/* Leaves out of a list what its group doesn't need, until no event and no two can go; makes its registers plain. */
void make_least(struct list *, const char *key);

/* Which event can go without the group; the length where none can. */
uint32_t first_that_can_go(const struct list *, const char *key);

/* A difference has come: into its group, and the report. Whether the list is over by that. (report.c) */
bool differ(void);
void write_report(void);

/* Not strcmp, which a fuzzer would look at. */
static inline bool is_text(const char *one, const char *other) {
    while (*one && *one == *other)
        one++, other++;
    return *one == *other;
}

#endif
