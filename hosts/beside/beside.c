/* A peer beside the proved library (include/psci_beside.h). Our side is the firmware and the power
 * controller of the archive, over a pool of which a copy is kept: so a call can be taken back. */
#include "psci_beside.h"
#include "pool.h"

#include <inttypes.h>
#include <stdarg.h>
#include <stdio.h>
#include <string.h>

typedef struct psci_beside beside;
typedef struct psci_beside_event event;
typedef struct psci_beside_did did;

enum { STOPPED, STARTED, RUNNING };
/* what one event can grow to: itself, a delivery, an acknowledgement, a wake-up and an entry */
enum { GROWTH = 6 };

#include "driver/functions.h"

/* ---- Opening, keeping, and taking back */

size_t psci_beside_size(uint32_t cores) { return 3 * 5 * pool_size(cores); }

/* Keeps all of both sides, or brings it back. */
static void keep(beside *b, bool back) {
    if (back) {
        memcpy(b->memory, b->kept, b->size);
        b->now = b->then;
    } else {
        memcpy(b->kept, b->memory, b->size);
        b->then = b->now;
    }
    if (b->peer->save)
        b->peer->save(b->peer->self, back);
}

uint32_t psci_beside_open(beside *b, const struct psci_beside_peer *peer,
                          const struct psci_beside_profile *profile, void *memory, size_t size) {
    const uint8_t *text = (const uint8_t *)profile->board;
    size_t third = size / 48 * 16;
    memset(b, 0, sizeof *b);
    b->peer = peer;
    b->profile = profile;
    b->memory = memory;
    b->fresh = b->memory + third;
    b->kept = b->fresh + third;
    pool_give(memory, third);
    uint32_t what = psci_open(&b->firmware, text, strlen(profile->board));
    if (what == PSCI_OPENED)
        what = psci_ctl_open(&b->controller, text, strlen(profile->board));
    if (what != PSCI_OPENED)
        return what;
    b->board.cores = psci_cores(&b->firmware);
    b->board.height = psci_height(&b->firmware);
    read_board(b, b->board.height, 0, 0);
    peer->open(peer->self, &b->board);
    b->size = pool_taken();
    memcpy(b->fresh, b->memory, b->size);
    return PSCI_OPENED;
}

bool psci_beside_runs(const beside *b, uint32_t core) { return b->now.place[core] == RUNNING; }
bool psci_beside_is_started(const beside *b, uint32_t core) { return b->now.place[core] == STARTED; }

static void record(beside *b, const event *e) { b->events[b->now.events++] = *e; }
static void begin(beside *b);
static bool can_happen(const beside *b, const event *e);
static uint32_t cause_of(beside *b, const event *e);

#include "driver/ours.h"
#include "driver/theirs.h"
#include "driver/words.h"
#include "driver/states.h"
#include "driver/causes.h"
#include "driver/groups.h"

/* ---- Events */

/* Whether a call is of a function that the profile has and ours has not, or asks for such a one. */
static bool is_free(const beside *b, const uint64_t x[4]) {
    uint32_t word = plain_word(x[0]) == FEATURES ? x[1] : x[0];
    return has(b->profile, word) && !is_ours(word);
}

static bool can_happen(const beside *b, const event *e) {
    const struct psci_beside_peer *peer = b->peer;
    bool is_core = e->number < b->board.cores;
    uint8_t place = is_core ? b->now.place[e->number] : STOPPED;
    switch (e->kind) {
    case PSCI_BESIDE_CALL: return is_core && place == RUNNING && !is_free(b, e->x);
    case PSCI_BESIDE_ENTER: return is_core && place == STARTED;
    case PSCI_BESIDE_WAKE:
        return is_core && place == STOPPED && (peer->wake || (b->now.wakes[e->number] && peer->enter));
    case PSCI_BESIDE_RESET: return is_core && peer->wake;
    case PSCI_BESIDE_DELIVER: return peer->deliver && e->number < b->now.messages;
    case PSCI_BESIDE_TAKE: return peer->take && e->number < b->now.acks;
    case PSCI_BESIDE_WAITS: return is_core && place == RUNNING && peer->waits;
    case PSCI_BESIDE_LACKS: return peer->lacks;
    }
    return false;
}

static uint32_t cause_of(beside *b, const event *e) {
    struct psci_ctl_start start = {.cause = PSCI_CAUSE_WAKE};
    if (e->kind == PSCI_BESIDE_RESET)
        return PSCI_CAUSE_RESET;
    if (e->kind == PSCI_BESIDE_ENTER)
        psci_ctl_started(&b->controller, e->number, &start);
    return start.cause;
}

/* What waited for a core is gone, and memory is there again. */
static void forget(beside *b, const event *e) {
    const struct psci_beside_peer *peer = b->peer;
    if (e->kind == PSCI_BESIDE_ENTER && b->now.waits[e->number]) {
        b->now.waits[e->number] = false;
        peer->waits(peer->self, e->number, false);
    }
    if (b->now.lacks && e->kind == PSCI_BESIDE_CALL && plain_word(e->x[0]) == CPU_ON) {
        b->now.lacks = false;
        peer->lacks(peer->self, false);
    }
}

/* The core that was put to sleep goes on at once. */
static void come_back(beside *b, uint32_t core) {
    did d;
    ours_alone(b, PSCI_BESIDE_WAKE, core, &d);
    ours_alone(b, PSCI_BESIDE_ENTER, core, &d);
    forget(b, &(event){.kind = PSCI_BESIDE_ENTER, .number = core});
}

/* The system has ended on both sides: a life begins, or all is over. */
static uint32_t end_life(beside *b) {
    did d;
    if (b->now.place[0] != STARTED)
        return PSCI_BESIDE_OVER;
    b->peer->open(b->peer->self, &b->board);
    ours_alone(b, PSCI_BESIDE_ENTER, 0, &d);
    return PSCI_BESIDE_ALIKE;
}

static void begin(beside *b) {
    did d;
    memcpy(b->memory, b->fresh, b->size);
    memset(&b->now, 0, sizeof b->now);
    b->now.life = 1;
    b->now.place[0] = STARTED;
    b->peer->open(b->peer->self, &b->board);
    ours_alone(b, PSCI_BESIDE_ENTER, 0, &d);
}

void psci_beside_begin(beside *b) { begin(b); }

uint32_t psci_beside_do(beside *b, const event *e) {
    did ours, theirs;
    uint32_t cause = cause_of(b, e);
    if (b->now.events + GROWTH > PSCI_BESIDE_EVENTS || !b->now.life)
        return PSCI_BESIDE_OVER;
    if (!can_happen(b, e))
        return PSCI_BESIDE_IGNORED;
    keep(b, false);
    record(b, e);
    our_side(b, e, &ours);
    b->at = *e;
    b->ours = ours;
    b->why = cause;
    their_side(b, e, cause, &theirs);
    bool early = is_early(b, e, &ours, &theirs);
    bool agrees = agree(b, e, &ours, &theirs) || refuses_as_well(b, e, &ours, &theirs);
    if (!agrees && b->is_trying)
        keep(b, true);
    if (!agrees)
        return b->is_trying ? PSCI_BESIDE_DIFFERS : differs(b, e, cause, &ours, &theirs);
    if (ours.sent && e->kind <= PSCI_BESIDE_ENTER)
        settle(b);
    forget(b, e);
    if (early)
        come_back(b, e->number);
    bool is_end = ours.what == PSCI_BESIDE_ENDS || ours.what == PSCI_BESIDE_RESETS;
    if (is_end && end_life(b) == PSCI_BESIDE_OVER)
        return PSCI_BESIDE_OVER;
    return compare_statuses(b, e);
}

/* ---- The story */

static void put_event(char *text, size_t size, const event *e) {
    static const char *const words[] = {"call", "enter", "wake", "reset", "deliver", "take"};
    if (e->kind == PSCI_BESIDE_WAITS)
        put(text, size, "# a wake-up waits for core %" PRIu32 "\n", e->number);
    else if (e->kind == PSCI_BESIDE_LACKS)
        put(text, size, "# memory is short\n");
    else {
        put(text, size, "%s %" PRIu32, words[e->kind], e->number);
        for (int at = 0; e->kind == PSCI_BESIDE_CALL && at < 4; at++)
            put(text, size, " 0x%" PRIx64, e->x[at]);
        put(text, size, "\n");
    }
}

size_t psci_beside_story(const beside *b, char *text, size_t size) {
    *text = 0;
    put(text, size, "board %s\n", b->profile->board);
    for (uint32_t at = 0; at < b->now.events; at++)
        put_event(text, size, &b->events[at]);
    if (b->now.differences && b->difference.is_undone)
        put_event(text, size, &b->difference.event);
    return strlen(text);
}
