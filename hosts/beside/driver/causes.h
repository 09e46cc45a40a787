/* Part of beside.c: what may be odd about a call, and what is left of one that differs once all is
 * taken out of it that does not matter. */

/* What may be odd about a call, each with a way to make it plain. Each returns its words, or null where
 * there is nothing of the kind. */
static const char *plain_upper(const beside *b, uint64_t x[4], int at) {
    static const char *const words[] = {"an upper half of x0", "an upper half of x1",
                                        "an upper half of x2", "an upper half of x3"};
    (void)b;
    if (!is_narrow(x[0], at) || !(x[at] >> 32))
        return NULL;
    x[at] = (uint32_t)x[at];
    return words[at];
}

/* Whether a core has the field of a target that begins at this bit, below the fields above; or none has those. */
static bool has_field(const beside *b, uint64_t target, int shift) {
    uint64_t least = UINT64_MAX;
    for (uint32_t core = 0; core < b->board.cores; core++) {
        uint64_t other = (b->board.affinity[core] ^ target) >> shift;
        least = other < least ? other : least;
    }
    return !least || least > 255;
}

/* Fields 0 to 3 of a target are Aff0 to Aff3, and 4 is what lies outside. */
static const char *plain_target(const beside *b, uint64_t x[4], int field) {
    static const char *const words[] = {"no such Aff0", "no such Aff1", "no such Aff2", "Aff3 set", "a bit outside the fields set"};
    static const int shifts[] = {0, 8, 16, 32};
    const uint64_t outside = ~UINT64_C(0xff00ffffff);
    uint64_t target = is_narrow(x[0], 1) ? (uint32_t)x[1] : x[1];
    if (!has_target(x[0]) || (field < 4 ? has_field(b, target & ~outside, shifts[field]) : !(target & outside)))
        return NULL;
    x[1] &= field < 4 ? ~(UINT64_C(0xff) << shifts[field]) : ~outside;
    return words[field];
}

static const char *plain_entry(const beside *b, uint64_t x[4], int kind) {
    int at = entry_at(x[0]);
    uint64_t entry = is_narrow(x[0], at) ? (uint32_t)x[at] : x[at];
    if (!at)
        return NULL;
    if (kind == 0) {
        x[at] &= ~UINT64_C(3);
        return entry & 1 ? "an odd entry" : entry & 2 ? "an entry 2 mod 4" : NULL;
    }
    for (uint32_t i = 0; i < b->profile->many_ranges; i++)
        if (b->profile->ranges[i].start <= entry && entry < b->profile->ranges[i].end)
            return NULL;
    x[at] = b->profile->boot | (entry & 3);
    return "an entry out of range";
}

static const char *plain_level(const beside *b, uint64_t x[4], int unused) {
    (void)unused;
    uint32_t level = x[2];
    if (!has_target(x[0]) || plain_word(x[0]) == CPU_ON || level <= b->board.height)
        return NULL;
    x[2] = 0;
    return level > 3 ? "a level above 3" : "a level above the board";
}

static const char *plain_state(const beside *b, uint64_t x[4], int kind) {
    static const char *const words[] = {"reserved bits of the state", "a level above the core", "a power-down state", "a state"};
    const uint64_t bits[] = {b->profile->is_extended ? 0xbfff0000 : 0xfcfe0000, 0x0300fff0,
                             b->profile->is_extended ? 0x40000000 : 0x00010000, ~UINT64_C(1)};
    if (plain_word(x[0]) != CPU_SUSPEND || !(x[1] & bits[kind]))
        return NULL;
    x[1] &= ~bits[kind];
    if (kind == 2)
        x[1] &= ~UINT64_C(2);
    return words[kind];
}

static const char *plain_other(const beside *b, uint64_t x[4], int unused) {
    (void)b;
    (void)unused;
    uint32_t word = plain_word(x[0]), asked = x[1];
    if (!(word == SYSTEM_RESET2 && asked) && !(word == SET_SUSPEND_MODE && asked > 1))
        return NULL;
    x[1] = 0;
    return word == SET_SUSPEND_MODE ? "no such mode" : asked >> 31 ? "a vendor's reset" : "no such reset";
}

static const struct {
    const char *(*plain)(const beside *, uint64_t x[4], int);
    int which;
} odds[] = {{plain_upper, 0},  {plain_upper, 1},  {plain_upper, 2},  {plain_upper, 3},
            {plain_target, 4}, {plain_target, 3}, {plain_target, 2}, {plain_target, 1},
            {plain_target, 0}, {plain_entry, 1},  {plain_entry, 0},  {plain_level, 0},
            {plain_state, 0},  {plain_state, 1},  {plain_state, 2},  {plain_state, 3},
            {plain_other, 0}};

static bool is_same(const did *a, const did *b) {
    return a->what == b->what && (a->what != PSCI_RETURN || (int32_t)a->x0 == (int32_t)b->x0);
}

/* The same, in all that they told, too. */
static bool is_equal(const beside *b, const did *one, const did *other) {
    bool tells = one->what == PSCI_STOP && (one->told || other->told);
    return is_same(one, other) && (one->what != PSCI_RETURN || one->x0 == other->x0) &&
           (!tells || (one->told == other->told && !memcmp(one->depths, other->depths, b->board.height + 1)));
}

/* This call in place of the one that differs, with memory or without: whether both agree, but for the
 * states that are told. */
static bool agree_on(beside *b, const event *e, bool lacks, did *ours, did *theirs) {
    did untold;
    keep(b, true);
    if (b->now.lacks && !lacks)
        b->peer->lacks(b->peer->self, false);
    our_side(b, e, ours);
    their_side(b, e, 0, theirs);
    untold = *theirs;
    untold.told = false;
    return agree(b, e, ours, &untold);
}

/* What is left of a call that differs: what both do of it, what is odd about it, the first of these if there are more,
 * and what it comes of before it; and where it is one odd thing without which they agree, whether a side does the same
 * without that, whatever core is the target. */
struct cause {
    did ours, theirs;
    const char *odd, *earlier;
    bool our_same, their_same;
};

#include "tries.h"

enum { ODDS = sizeof odds / sizeof *odds, MOST_TARGETS = 8 };

/* This call of core 0 as the first one of a list. */
static void first_on(beside *b, const event *e, did *ours, did *theirs) {
    event first = *e;
    struct psci_frame message = b->messages[0];
    first.number = 0;
    begin(b);
    our_side(b, &first, ours);
    their_side(b, &first, 0, theirs);
    b->messages[0] = message;
}

/* Whether a call and a plain one have the same outcome on each side. */
static void compare_plain(beside *b, const event *e, const event *plain, struct cause *cause) {
    did ours, theirs, our_plain, their_plain;
    agree_on(b, e, false, &ours, &theirs);
    agree_on(b, plain, false, &our_plain, &their_plain);
    cause->our_same &= is_equal(b, &ours, &our_plain);
    cause->their_same &= is_equal(b, &theirs, &their_plain);
    if (!has_target(e->x[0]))
        return;
    first_on(b, e, &ours, &theirs);
    first_on(b, plain, &our_plain, &their_plain);
    cause->our_same &= is_equal(b, &ours, &our_plain);
    cause->their_same &= is_equal(b, &theirs, &their_plain);
}

/* That of a call that has one odd thing and of the same without it, for each target that it can have. */
static void compare_all(beside *b, const event *e, const event *plain, size_t odd, struct cause *cause) {
    uint64_t mask = e->x[1] ^ plain->x[1];
    cause->our_same = cause->their_same = true;
    compare_plain(b, e, plain, cause);
    for (uint32_t core = 0; has_target(e->x[0]) && core < b->board.cores && core < MOST_TARGETS; core++) {
        event one = *e, other = *plain, tried;
        other.x[1] = b->board.affinity[core];
        one.x[1] = b->board.affinity[core] ^ mask;
        tried = one;
        if (odds[odd].plain(b, tried.x, odds[odd].which) && tried.x[1] == other.x[1])
            compare_plain(b, &one, &other, cause);
    }
}

/* The one thing without which there is no difference; or else the one that one side alone looks at; or null. */
static const char *one_odd(beside *b, const event *e, bool is_unseen, struct cause *cause) {
    did ours, theirs;
    for (size_t at = 0; at < ODDS; at++) {
        event less = *e;
        const char *words = odds[at].plain(b, less.x, odds[at].which);
        if (!words || (!is_unseen && !agree_on(b, &less, false, &ours, &theirs)))
            continue;
        compare_all(b, e, &less, at, cause);
        if (!is_unseen || cause->their_same != cause->our_same)
            return words;
    }
    cause->our_same = cause->their_same = false;
    return NULL;
}

/* Whether a side does the same of two calls: the same answer, told the same states, or in both those that are asked for. */
static bool does_the_same(const beside *b, const event *e, const did *one, const event *less, const did *other) {
    bool is_as_deep = is_as_asked(b, e, one) && is_as_asked(b, less, other);
    did asked = *other;
    if (is_as_deep && one->what == PSCI_STOP)
        memcpy(asked.depths, one->depths, sizeof asked.depths);
    return is_equal(b, one, &asked);
}

/* Takes out of a call each odd thing without which the difference is the same one, by what both sides do. */
static void take_out(beside *b, event *e, const struct cause *cause) {
    for (size_t at = 0; at < ODDS; at++) {
        event less = *e;
        did ours, theirs;
        if (odds[at].plain(b, less.x, odds[at].which) && !agree_on(b, &less, false, &ours, &theirs) &&
            does_the_same(b, e, &cause->ours, &less, &ours) && does_the_same(b, e, &cause->theirs, &less, &theirs))
            *e = less;
    }
}

/* Whether what is odd about a call is its target. */
static bool is_of_target(const char *odd) {
    return !strncmp(odd, "no such Aff", 11) || !strcmp(odd, "Aff3 set") || !strncmp(odd, "a bit outside", 13);
}

/* A target may count otherwise, or not at all, for a peer that is asked about more than a core. */
static void put_level(beside *b, const event *e, const char *odd) {
    uint32_t level = e->x[2];
    bool has_level = has_target(e->x[0]) && plain_word(e->x[0]) != CPU_ON;
    if (has_level && is_of_target(odd) && level && level <= b->board.height)
        put(b->difference.key, sizeof b->difference.key, " above the core");
}

/* All that is odd about a call; fields of a target are one thing where they are more. */
static void put_all_odds(beside *b, const event *e, struct cause *cause) {
    struct psci_beside_difference *d = &b->difference;
    const char *found[ODDS];
    size_t many = 0, targets = 0;
    for (size_t at = 0; at < ODDS; at++) {
        event less = *e;
        const char *words = odds[at].plain(b, less.x, odds[at].which);
        if (!words || (is_of_target(words) && targets++))
            continue;
        found[many++] = words;
    }
    for (size_t at = 0; at < many; at++) {
        if (!at)
            put_level(b, e, found[at]);
        put(d->key, sizeof d->key, "%s %s", at ? "," : ":",
            is_of_target(found[at]) && targets > 1 ? "no such target" : found[at]);
    }
    cause->odd = many ? found[0] : NULL;
}

/* Whether it differs for want of memory alone; where not, what both do with memory. */
static bool is_for_memory(beside *b, const event *e, struct cause *cause) {
    did ours, theirs;
    if (!b->then.lacks)
        return false;
    if (!agree_on(b, e, false, &ours, &theirs)) {
        cause->ours = ours;
        cause->theirs = theirs;
        return false;
    }
    cause->our_same = is_equal(b, &cause->ours, &ours);
    cause->their_same = is_equal(b, &cause->theirs, &theirs);
    return true;
}

/* Whether what is odd about a suspend are its states, or nothing is. */
static bool is_of_states(const char *odd) {
    return !odd || !strcmp(odd, "a level above the core") || !strcmp(odd, "a power-down state") ||
           !strcmp(odd, "a state");
}

/* Whether nothing is odd about a call, or of one that hangs on other cores nothing but its states. */
static bool may_be_of_earlier(const beside *b, const event *e, const char *one) {
    for (size_t at = 0; has_target(e->x[0]) && at < ODDS; at++) {
        event less = *e;
        if (odds[at].plain(b, less.x, odds[at].which))
            return false;
    }
    return is_of_states(one);
}

/* Without its odd entry point, where the call differs without that, too. */
static void take_entry_out(beside *b, event *e, struct cause *cause) {
    event less = *e;
    did ours, theirs;
    bool is_odd = plain_entry(b, less.x, 1);
    is_odd |= plain_entry(b, less.x, 0) != NULL;
    if (!is_odd || agree_on(b, &less, b->then.lacks, &ours, &theirs))
        return;
    *e = less;
    cause->ours = ours;
    cause->theirs = theirs;
}

/* Adds to the key what is odd about a call, and leaves of it what matters. */
static void put_odds(beside *b, event *e, struct cause *cause) {
    struct psci_beside_difference *d = &b->difference;
    take_entry_out(b, e, cause);
    const char *one = is_for_memory(b, e, cause) ? "memory is short" : one_odd(b, e, false, cause);
    if (!one)
        take_out(b, e, cause);
    keep(b, true);
    if (may_be_of_earlier(b, e, one) && (cause->earlier = of_earlier(b, e, cause)))
        return;
    if (!one) {
        one = one_odd(b, e, false, cause);
        one = one ? one : one_odd(b, e, true, cause);
    }
    if (one && strcmp(one, "an upper half of x0") == 0)
        *d->key = 0;
    if (one)
        put_level(b, e, one);
    if (one)
        put(d->key, sizeof d->key, "%s%s", *d->key ? ": " : "any function: ", one);
    else
        put_all_odds(b, e, cause);
    cause->odd = one ? one : cause->odd;
    keep(b, true);
    if (is_of_states(one))
        put_beside(b, e);
}
