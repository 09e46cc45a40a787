/* Stands between the port and the library, and sees what no record tells: what each core was answered, how it
 * stopped, who polls by what, and which core is woken. Beside it a thread looks whether anything is left undone. */
#include "threads.h"

#include "link.h"

#include "hooks.h"

#include <string.h>
#include <unistd.h>

/* How long nobody is waited for, in nanoseconds. */
enum { MOST_WAIT = 20000000000ull };

/* Of each core, which it writes before it says that it stands: whether a wake-up may end its stop. The control
 * processor reads these once it has seen that the core stands, so the port's own words have to order the two. */
static struct { bool wakes; unsigned executed; } stands[CORES];
static volatile unsigned seen;

/* How often each core was about to stop, and had its caches clean by then; and how often each was as this one stopped. */
static uint32_t stops[CORES], cleaned[CORES];
static _Thread_local uint32_t before[CORES];

void is_wrong(const char *what, uint64_t value) {
    if (__atomic_fetch_add(&life.wrong, 1, __ATOMIC_RELAXED) < 5)
        fprintf(stderr, "wrong: %s: 0x%llx\n", what, (unsigned long long)value);
}

void executes(void) {
    if (me->id < CORES)
        stands[me->number].executed++;
}

/* The firmware ------------------------------------------------------------------------------- */

/* It is about to stop, under the lock. */
static void begins_to_stop(unsigned core, bool wakes) {
    executes();
    stands[core].wakes = wakes;
    PUT(stops[core], GET(stops[core]) + 1);
    for (unsigned other = 0; other < CORES; other++)
        before[other] = GET(stops[other]);
}

void __real_psci_port_call(struct psci_place *, struct psci_port_core *, uint64_t, uint64_t, uint64_t, uint64_t,
                           struct psci_port_orders *);
void __wrap_psci_port_call(struct psci_place *place, struct psci_port_core *side, uint64_t x0, uint64_t x1, uint64_t x2,
                           uint64_t x3, struct psci_port_orders *orders) {
    __real_psci_port_call(place, side, x0, x1, x2, x3, orders);
    me->orders = *orders;
    me->asked++;
    if (orders->next == PSCI_PORT_STANDS)
        begins_to_stop(side->core, orders->stop == PSCI_PORT_SUSPENDED);
    look();
}

void nobody_cleans(void) {
    for (unsigned core = 0; core < CORES; core++)
        PUT(cleaned[core], GET(stops[core]));
}

/* What a cluster shares is clean once all that its cores had is in it. */
void cleans(enum caches caches) {
    unsigned core = me->number;
    PUT(cleaned[core], GET(stops[core]));
    for (unsigned other = 0; other < CORES && caches == ALL_CACHES; other++)
        if (paths[other][1] == paths[core][1] && GET(cleaned[other]) < before[other])
            is_wrong("the caches of a cluster are cleaned before those of this core", other);
}

/* What a line cuts is lost: the core has its caches clean, and is behind its last word. */
void board_resets(unsigned core) {
    if (GET(cleaned[core]) != GET(stops[core]))
        is_wrong("a core is reset before its caches are clean", core);
}

void __real_psci_port_enter(struct psci_place *, struct psci_port_core *, struct psci_port_orders *);
void __wrap_psci_port_enter(struct psci_place *place, struct psci_port_core *side, struct psci_port_orders *orders) {
    uint32_t cause = side->start.cause;
    __real_psci_port_enter(place, side, orders);
    me->orders = *orders;
    me->cause = cause;
    if (me->orders.next == PSCI_PORT_STANDS)
        begins_to_stop(side->core, false);
    else
        stands[side->core].wakes = false;
    executes();
    look();
}

int32_t __real_psci_poll(struct psci_poller *, uint64_t);
int32_t __wrap_psci_poll(struct psci_poller *poller, uint64_t affinity) {
    if (poller != &pollers[me->number])
        is_wrong("it polls by the poller of another core", poller - pollers);
    me->polled = __real_psci_poll(poller, affinity);
    me->asked++;
    return me->polled;
}

/* The power controller ----------------------------------------------------------------------- */

/* A core has said so once it was started: before, it comes out of reset beside all others, and says nothing. */
static bool says_that_it_stands(unsigned core) {
    uint64_t opened = shared.doors[core].opened;
    return opened && LOAD(shared.doors[core].stopped) == opened;
}

/* Of the last orders the domains, and how many of these are switched. */
static struct psci_control_orders due;
static unsigned switched;

void board_switches(const struct psci_ctl_domain *domain) {
    if (switched >= due.many || memcmp(&due.domains[switched++], domain, sizeof *domain) != 0)
        is_wrong("a domain is switched that nobody has ordered", domain->index);
}

static void look_at_switches(void) {
    if (switched != due.many)
        is_wrong("what was ordered is not switched by now", due.many - switched);
    due.many = switched = 0;
}

/* What cores did last that are switched, and stand in their stop by what they say, is read here: ThreadSanitizer tells
 * where they still do something. */
static void look_at_cores(const struct psci_control_orders *orders) {
    look_at_switches();
    if (orders->what == PSCI_CONTROL_ORDERS)
        due = *orders;
    for (unsigned at = 0; at < orders->many; at++)
        for (unsigned core = 0; core < CORES; core++)
            if (paths[core][orders->domains[at].level] == orders->domains[at].index && says_that_it_stands(core))
                seen += stands[core].executed;
}

void __real_psci_control_message(struct psci_control_place *, const uint8_t *, size_t, struct psci_control_orders *);
void __wrap_psci_control_message(struct psci_control_place *place, const uint8_t *frame, size_t length,
                                 struct psci_control_orders *orders) {
    __real_psci_control_message(place, frame, length, orders);
    look_at_cores(orders);
    look();
}

void __real_psci_control_waited(struct psci_control_place *, uint16_t, struct psci_control_orders *);
void __wrap_psci_control_waited(struct psci_control_place *place, uint16_t core, struct psci_control_orders *orders) {
    __real_psci_control_waited(place, core, orders);
    look_at_cores(orders);
    look();
}

void __real_psci_control_wake(struct psci_control_place *, uint16_t, struct psci_control_orders *);
void __wrap_psci_control_wake(struct psci_control_place *place, uint16_t core, struct psci_control_orders *orders) {
    __real_psci_control_wake(place, core, orders);
    look_at_switches();
    if (orders->what == PSCI_CONTROL_ORDERS)
        due = *orders;
    if (orders->what == PSCI_CONTROL_ORDERS && !stands[core].wakes)
        is_wrong("a core is woken that is off, or parks", core);
    look();
}

/* By the control processor: the cores that executed as it put an acknowledgement into the ring, and their starts, as
 * long as it has rung none. It alone lets a core execute, so one that does so now did at that time, too. */
static uint64_t owed[CORES];
static bool owes;

#ifdef SCP_MPIDR
bool __real_put_frame(struct ring *, const uint8_t *);
bool __wrap_put_frame(struct ring *ring, const uint8_t *frame) {
    bool was_put = __real_put_frame(ring, frame);
    if (ring == &shared.acks)
        look_at_switches();
    if (ring != &shared.acks || !was_put)
        return was_put;
    for (unsigned core = 0; core < CORES; core++)
        owed[core] = LOAD(shared.doors[core].stopped) == shared.doors[core].opened ? 0 : shared.doors[core].opened;
    owes = true;
    return true;
}
#endif

void has_rung(void) { owes = false; }

void owes_no_bell(void) {
    for (unsigned core = 0; owes && core < CORES; core++)
        if (owed[core] && owed[core] == shared.doors[core].opened
            && LOAD(shared.doors[core].stopped) != owed[core]) {
            is_wrong("an acknowledgement came without a bell, and this core executes", core);
            break;
        }
    owes = false;
}

/* Both sides begin anew, in life 1. */
uint32_t __real_psci_control_open_board(struct psci_control_place *, const struct psci_board *);
uint32_t __wrap_psci_control_open_board(struct psci_control_place *place, const struct psci_board *of) {
    owes = false;
    due.many = switched = 0;
    return __real_psci_control_open_board(place, of);
}

/* Of these looks ThreadSanitizer knows nothing --------------------------------------------------- */

#define UNSEEN __attribute__((no_sanitize_thread, noinline))

/* What outlives a reset, as it was in memory when it was cleaned last. Cores count on in the tally. */
extern char kept_start[], kept_end[];
static char memory[1 << 20];

static bool is_tally(const volatile char *at) {
    return at >= (char *)&kept.tally && at < (char *)(&kept.tally + 1);
}

UNSEEN void clean(const void *first, const void *end) {
    for (const volatile char *at = kept_start; at < kept_end; at++)
        if (at >= (char *)first && at < (char *)end)
            memory[at - kept_start] = *at;
}

UNSEEN void look_at_memory(void) {
    for (const volatile char *at = kept_start; at < kept_end; at++)
        if (!is_tally(at) && memory[at - kept_start] != *at) {
            is_wrong("what outlives a reset is in caches alone", at - kept_start);
            return;
        }
}

/* A reset that nobody has ordered: what caches alone have is lost, but for lines that they gave up before. That of the word
 * by which such a reset is known is none of these. */
UNSEEN void lose_caches(void) {
    for (volatile char *at = kept_start; at < kept_end; at++) {
        unsigned line = (at - kept_start) / 64, own = ((char *)&kept.boot - kept_start) / 64;
        if (!is_tally(at) && (line == own || (line * 2654435761u >> 16 & 1)))
            *at = memory[at - kept_start];
    }
}

/* What is left undone ---------------------------------------------------------------------------- */

static void stuck(const char *what, uint64_t value) {
    is_wrong(what, value);
    fflush(life.told);
    _exit(1);
}

/* Whether something is so for too long, without a break. */
static bool is_long(bool is_so, uint64_t *since) {
    if (!is_so)
        *since = 0;
    else if (!*since)
        *since = now();
    return *since && now() - *since > MOST_WAIT;
}

UNSEEN static bool sleeps(unsigned cpu) {
    uint64_t since = GET(cpus[cpu].waits_since);
    return since && now() - since > MOST_WAIT / 4;
}

#ifdef SCP_MPIDR
UNSEEN static bool control_sleeps(void) { return sleeps(SCP); }
#else
static bool control_sleeps(void) { return false; }
#endif

UNSEEN static bool has_left(const struct ring *ring) { return GET(ring->first) != GET(ring->end); }

UNSEEN static bool is_open(unsigned core) {
    const struct door *door = &shared.doors[GET(cpus[core].number)];
    return GET(door->opened) != GET(door->stopped);
}

UNSEEN static uint64_t done(void) {
    uint64_t sum = 0;
    for (unsigned core = 0; core < CORES; core++)
        sum += GET(cpus[core].calls);
    return sum;
}

UNSEEN static bool is_forgotten(unsigned cpu) {
    return GET(cpus[cpu].waits_since) && !GET(cpus[cpu].bell) && !GET(cpus[cpu].deadline) && is_open(cpu);
}

UNSEEN void look_at_doors(void) {
    for (unsigned cpu = 0; cpu < CORES; cpu++) {
        uint64_t end = now() + MOST_WAIT;
        while (is_forgotten(cpu) && now() < end)
            nap(1000);
        if (is_forgotten(cpu))
            is_wrong("a core sleeps at its open door", GET(cpus[cpu].number));
    }
}

UNSEEN void *watch(void *unused) {
    uint64_t at_door[CORES] = {0}, messages = 0, acks = 0, nothing = 0, last = 0;
    (void)unused;
    while (!GET(life.is_over)) {
        for (unsigned core = 0; core < CORES; core++)
            if (is_long(sleeps(core) && is_open(core), &at_door[core]))
                stuck("a core sleeps at its open door", core);
        if (is_long(control_sleeps() && has_left(&shared.messages), &messages))
            stuck("the control processor sleeps over a message", 0);
        if (is_long(has_left(&shared.acks), &acks))
            stuck("an acknowledgement is not taken", 0);
        if (is_long(done() == last, &nothing))
            stuck("no core makes a call any more", last);
        last = done();
        nap(50000);
    }
    return NULL;
}
