#include "play.h"
#include "clock.h"
#include "odd.h"
#include "record.h"

enum { STEP_TIME = 3000000, ENTRY_TIME = 300000, POLL_TIME = 300000 };
enum { CPU_OFF = 0x84000002, SYSTEM_OFF = 0x84000008, SYSTEM_RESET, SYSTEM_RESET2 = 0x84000012 };
enum { LACKS = 0x3c, PSC = 'C' << 24 | 'S' << 16 | 'P' << 8 };
enum { SMC64 = 0x40000000, AFFINITY_INFO = 0x84000004 | SMC64, IS_OFF = 1, ALL_MASKED = 0x3c0, MMU_OR_CACHE = 5 };

struct state { uint64_t level, masks, control; };

uint64_t conduit_call(uint64_t x[4], uint32_t is_smc);
uint64_t hold_registers(uint64_t end);
void booted(const void *tree);
void entered(uint64_t core, uint64_t at, uint64_t context);
void exception(uint64_t syndrome, uint64_t address);

uint8_t stacks[MOST_CORES << 13] __attribute__((aligned(16)));
struct core cores[MOST_CORES];
static volatile uint32_t done;
static uint32_t life;
/* what a reset of the system leaves: which list it was, and how many lives it has had */
static struct { volatile uint32_t name, lives; } survived __attribute__((section(".survives")));

static void copy4(uint64_t *to, const uint64_t *from) {
    for (int at = 0; at < 4; at++) to[at] = from[at];
}

/* What a core is at, or was. Where the entries were written before, it comes too late for them, and is written now: a
 * call in place of the line that says that it is open, which stands there before it is made. */
static void come_about(struct entry *entry, enum kept kind) {
    __atomic_thread_fence(__ATOMIC_SEQ_CST);
    entry->kind = kind;
    __atomic_thread_fence(__ATOMIC_SEQ_CST);
    if (!storm.is_on) write_entry(entry);
}

static uint64_t ask_in_storm(uint32_t core, const uint64_t x[4]) {
    struct entry *entry = new_entry();
    while (!entry) __asm__("wfi");
    entry->core = core;
    entry->number = cores[core].number++;
    copy4(entry->before, x);
    copy4(entry->behind, x);
    entry->begin = tick();
    come_about(entry, KEPT_OPEN);
    before_call(core, x);
    entry->lost = conduit_call(entry->behind, machine.is_smc);
    after_call(core, x, entry->behind[0]);
    entry->end = tick();
    come_about(entry, KEPT_CALL);
    return entry->behind[0];
}

static int may_end_life(uint32_t word) {
    return word == SYSTEM_OFF || word == SYSTEM_RESET || (word & ~(uint32_t)SMC64) == SYSTEM_RESET2;
}

uint64_t ask(uint32_t core, const uint64_t x[4], enum told told) {
    uint64_t y[4], lost;
    uint32_t number, begin, end;
    if (storm.is_on) return ask_in_storm(core, x);
    if (may_end_life((uint32_t)x[0])) line_told(), life_ends();
    copy4(y, x);
    number = cores[core].number++;
    begin = tick();
    LINE("open", core, number, begin, x[0], x[1], x[2], x[3]);
    if (told == GOING) add(&done, 1);
    if (told == TOLD) begin = tick();
    before_call(core, x);
    lost = conduit_call(y, machine.is_smc);
    after_call(core, x, y[0]);
    end = tick();
    LINE("call", core, number, begin, end, 1, x[0], x[1], x[2], x[3], y[0], y[1], y[2], y[3], lost);
    return y[0];
}

void ask_with_timer(uint32_t core, const uint64_t x[4], uint64_t microseconds) {
    cores[core].has_timer = 1;
    timer_set(microseconds);
    ask(core, x, ANNOUNCED);
    timer_clear();
    cores[core].has_timer = 0;
}

/* Asks until it gets this answer, or for a while: a line for each run of alike answers. */
static void poll(uint32_t core, const uint64_t x[4], uint64_t wanted) {
    uint64_t end = after(POLL_TIME), many = 0, first = 0, last = 0, y[4], was[4] = {0}, lost = 0;
    do {
        uint64_t begin = tick(), now_lost;
        copy4(y, x);
        now_lost = conduit_call(y, machine.is_smc);
        if (many && y[0] != was[0]) {
            LINE("call", core, cores[core].number++, first, last, many, x[0], x[1], x[2], x[3],
                 was[0], was[1], was[2], was[3], lost);
            many = lost = 0;
        }
        if (!many++) first = begin;
        last = tick();
        lost |= now_lost;
        copy4(was, y);
    } while (was[0] != wanted && !is_past(end));
    LINE("call", core, cores[core].number++, first, last, many, x[0], x[1], x[2], x[3], was[0],
         was[1], was[2], was[3], lost);
}

static void await(uint32_t core, uint32_t target, uint32_t times) {
    uint64_t end = after(ENTRY_TIME);
    while (cores[target].entries < times && !is_past(end)) {}
    if (cores[target].entries < times)
        LINE("lacks", core, cores[core].number++, tick(), target, times);
}

/* Asks a core on that goes off as soon as it has entered, by this word, and waits until it is. */
static void visit(uint32_t core, const uint64_t x[4], uint64_t leaves) {
    uint32_t target = target_of(x);
    if (target < machine.cores) cores[target].leaves = leaves;
    uint32_t entries = cores[target % MOST_CORES].entries;
    if ((uint32_t)ask(core, x, TOLD) || target == machine.cores) return;
    await(core, target, entries + 1);
    poll(core, (uint64_t[]){AFFINITY_INFO, affinities[target], 0, 0}, IS_OFF);
}

/* Where the word is none by which a core goes off, it takes the right one. */
static void leave(uint32_t core) {
    uint64_t word = cores[core].leaves;
    cores[core].leaves = 0;
    ask(core, (uint64_t[]){word, 0, 0, 0}, ANNOUNCED);
    ask(core, (uint64_t[]){CPU_OFF, 0, 0, 0}, ANNOUNCED);
}

void delay(uint32_t core, uint64_t microseconds) {
    uint64_t lost = hold_registers(after(microseconds));
    if (lost) LINE("lost", core, lost);
}

static uint64_t boot_level;

static struct state entry_state(void) {
    struct state it;
    __asm__ volatile("mrs %0, CurrentEL\n mrs %1, daif" : "=r"(it.level), "=r"(it.masks));
    if (it.level == 8) __asm__ volatile("mrs %0, sctlr_el2" : "=r"(it.control));
    else __asm__ volatile("mrs %0, sctlr_el1" : "=r"(it.control));
    return it;
}

/* What the standard says of the state in which a core enters, where it is otherwise: the exception level is that at
 * boot, all interrupts are masked, the MMU and the data cache are off. */
static void look_at_state(uint64_t core) {
    struct state state = entry_state();
    if (state.level != boot_level || state.masks != ALL_MASKED || state.control & MMU_OR_CACHE)
        LINE("state", core, state.level, state.masks, state.control);
    look_at_entry((uint32_t)core);
}

static void suspend(uint32_t core, const uint64_t x[4], uint64_t microseconds) {
    cores[core].is_asleep = 1; /* it may end by an entry */
    ask_with_timer(core, x, microseconds);
    cores[core].is_asleep = 0;
}

static void play(uint32_t core, const struct step *step) {
    uint64_t x[4];
    for (int at = 0; at < 4; at++)
        x[at] = step->x[at] + (step->relative >> at & 1         ? (uintptr_t)entries
                               : step->relative >> (at + 4) & 1 ? (uintptr_t)head
                                                                : 0);
    switch (step->kind) {
    case CALL: ask(core, x, TOLD); break;
    case STOP: ask(core, x, GOING); return;
    case POLL: poll(core, x, step->more); break;
    case SUSPEND: suspend(core, x, step->more); break;
    case DELAY: delay(core, step->more); break;
    case AWAIT: await(core, (uint32_t)x[0], (uint32_t)step->more); break;
    case VISIT: visit(core, x, step->more); break;
    case BEAT: add(&done, 1), beat(core); return;
    case QUIET: look_for_beats((uint32_t)x[0]); break;
    case OPEN: ring_on((uint32_t)x[0]); break;
    case RING: ring((uint32_t)x[0], (uint32_t)step->more); break;
    case RUNG: look_for_rings(core, (uint32_t)x[0]); break;
    case LEAVE: leave_interrupt((uint32_t)x[0]); break;
    case LEFT: look_for_interrupts(core); break;
    case MARK: mark(core); break;
    case STORM:
        storm.seed = x[0], storm.standby = x[1], storm.down = x[2], storm.is_wide = x[3];
        storm.many = step->more;
        storm_begins();
        storm_of(core);
        storm_ends();
        break;
    }
    add(&done, 1);
}

/* Plays the steps of this core, each as soon as those before it are over. */
static void play_all(uint32_t core) {
    for (;;) {
        uint32_t at = cores[core].next;
        while (at < list.steps && list.step[at].core != core) at++;
        if (at >= list.steps || list.step[at].life != life) break;
        uint64_t end = after(STEP_TIME);
        uint32_t is_late = 0;
        while (done < list.step[at].need && !is_late) is_late = is_past(end);
        if (is_late) {
            LINE("late", core, at);
            add(&done, list.step[at].need - done);
        }
        cores[core].next = at + 1;
        play(core, &list.step[at]);
    }
    if (storm.is_on) storm_of(core);
}

/* Begins with the first step of this life: it counts the resets of the same list. Says whether the list
 * has such a life: it has none behind a reset that it did not look for. */
static int begin_life(void) {
    uint32_t last = list.steps ? list.step[list.steps - 1].life : 0, first = 0;
    life = survived.name == list.name ? survived.lives : 0;
    life_begins();
    survived.name = life <= last ? list.name : 0;
    survived.lives = life + 1;
    while (first < list.steps && list.step[first].life != life) first++;
    for (uint32_t core = 0; core < MOST_CORES; core++) cores[core].next = first;
    done = first;
    return life <= last;
}

/* Whether a core of the list sleeps, which its timer ends by an interrupt. */
static int is_to_wake(void) {
    for (uint32_t at = 0; at < list.steps; at++) {
        const struct step *step = &list.step[at];
        if (step->kind == SUSPEND || (step->kind == STORM && (step->x[1] || step->x[2] || step->x[3]))) return 1;
        if (step->kind >= OPEN && step->kind < MARK) return 1;
    }
    return 0;
}

/* Which of these the tree does not have: on the console, or else in a word of the image's header. */
static void lacks_tree(void) {
    int has_console = machine.uart || machine.virtio;
    *(volatile uint32_t *)(head + LACKS) =
        PSC | !has_console << 3 | !machine.timer << 2 | !machine.gic << 1 | !machine.cores;
    if (has_console) LINE("without", !machine.cores, !machine.gic, !machine.timer);
}

void booted(const void *tree) {
    /* where a loader hands over none, it stands at the beginning of the memory */
    if ((uintptr_t)tree < 4096 || (uintptr_t)tree & 7 ||
        *(const uint32_t *)tree != __builtin_bswap32(0xd00dfeed))
        tree = (const void *)((uintptr_t)head & ~0x3ffffffful);
    int has_tree = read_tree(tree), wakes = machine.gic && machine.timer;
    if (!has_tree || (!wakes && is_to_wake())) {
        lacks_tree();
        if (has_tree) conduit_call((uint64_t[4]){SYSTEM_OFF}, machine.is_smc);
        return;
    }
    int is_of_list = begin_life();
    boot_level = entry_state().level;
    LINE("head", 1, (uintptr_t)head, (uintptr_t)entries, machine.is_smc, machine.cores, 0);
    look_at_entry(0);
    interrupts_ready();
    places_ready();
    cores[0].entries = cores[0].is_up = 1;
    if (is_of_list) play_all(0);
    else ask(0, (uint64_t[]){SYSTEM_OFF, 0, 0, 0}, ANNOUNCED);
}

void entered(uint64_t core, uint64_t at, uint64_t context) {
    struct core *mine = &cores[core];
    struct entry *entry = storm.is_on ? new_entry() : 0;
    if (entry) {
        *entry =
            (struct entry){0, 0, (uint32_t)core, mine->number++, 0, tick(), {at, context}, {0}, 0};
        come_about(entry, KEPT_ENTER);
    } else {
        uint32_t time = tick();
        LINE("enter", core, mine->number++, time, at, context);
    }
    look_at_state(core);
    if (!mine->is_up) add(&mine->taken, 1);
    mine->is_up = 1;
    add(&mine->entries, 1);
    interrupts_ready();
    mine->has_timer = 0;
    if (mine->is_asleep) {
        mine->is_asleep = 0;
        add(&done, 1);
    }
    if (storm.is_on && core == 0) { /* it was powered down in its storm */
        storm_of(0);
        storm_ends();
        add(&done, 1);
    }
    if (mine->leaves) leave((uint32_t)core);
    play_all((uint32_t)core);
}

void exception(uint64_t syndrome, uint64_t address) {
    uint64_t affinity, core = 0;
    __asm__("mrs %0, mpidr_el1" : "=r"(affinity));
    while (core < machine.cores && affinities[core] != (affinity & 0xff00fffffful)) core++;
    ALONE("fault", core, syndrome, address);
    for (;;) __asm__("wfi");
}
