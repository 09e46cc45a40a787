/* Tests a guest's power as words where no script of hosts/ comes: numbers of refusals, a load in ever less memory, what
 * a call writes. What is wanted is written here, by include/psci_guest.h and docs/port/FORMATS.md. */
#include "pool.h"
#include "psci_guest.h"

#include <stdio.h>
#include <stdlib.h>
#include <string.h>

static int failed;

static void want(const char *what, uint64_t wanted, uint64_t got) {
    if (wanted != got) {
        printf("%s: wanted %llu, got %llu\n", what, (unsigned long long)wanted, (unsigned long long)got);
        failed = 1;
    }
}

#define REST " exec 0x40000000-0x40100000 boot 0x40000000 starts 200 lives 2"
enum { ROUND = 0x5a, FIRMWARE = 103, WORDS = FIRMWARE + 14, CORES = 5, DOMAINS = 13, MANY_DOMAINS = 7, ROWS = 27, SLOTS = 43 };
/* of the domains: four cores, two clusters, the system, and what is confirmed of each behind all of them */
enum { GRANTED = DOMAINS, CLUSTERS = DOMAINS + 4, SYSTEM = DOMAINS + 6, CONFIRMED = DOMAINS + 7 };
static const char board[] = "(2 2)" REST;
static struct psci_guest_place guest, other;
static struct psci_guest_turn turn;
static uint64_t saved[WORDS];

static void open_guest(struct psci_guest_place *place) {
    want("an opening", PSCI_OPENED, psci_guest_open(place, (const uint8_t *)board, strlen(board), &turn));
}

static uint32_t call(struct psci_guest_place *place, uint16_t core, uint64_t x0, uint64_t x1, uint64_t x2) {
    psci_guest_call(place, core, 1, x0, x1, x2, 7, &turn);
    return turn.what;
}

static void must_save(const struct psci_guest_place *place, uint64_t *words) {
    want("saved", 0, psci_guest_save((struct psci_guest_place *)place, words, WORDS));
}

static void unchanged(void) {
    uint64_t now[WORDS];
    must_save(&guest, now);
    want("what is kept after a refusal", 0, memcmp(now, saved, sizeof saved));
}

static uint64_t sum_of(const uint64_t *words, size_t count) {
    uint64_t sum = 0;
    for (size_t at = 0; at < count; at++)
        sum = sum * 0x100000001b3 + words[at];
    return sum;
}

/* A word in another place than it is saved in. */
struct change {
    size_t at;
    uint64_t word;
};

/* The saved words with these in their places, and with their sums. */
static void change(uint64_t *changed, const struct change *those, size_t count) {
    memcpy(changed, saved, sizeof saved);
    for (size_t each = 0; each < count; each++)
        changed[those[each].at] = those[each].word;
    changed[1] = sum_of(changed + 2, FIRMWARE - 2);
    changed[FIRMWARE + 1] = sum_of(changed + FIRMWARE + 2, WORDS - FIRMWARE - 2);
}

static uint32_t load_with(size_t at, uint64_t word) {
    uint64_t changed[WORDS];
    change(changed, &(struct change){at, word}, 1);
    return psci_guest_load(&guest, changed, WORDS);
}

/* Where the words of core CORE begin: what it does, its row, its slot. */
#define DOES(CORE) (CORES + 2 * (CORE))
#define ROW(CORE) (ROWS + 4 * (CORE))
#define SLOT(CORE) (SLOTS + 12 * ((CORE) + 1))
#define AWAY ((uint64_t)1 << 32)

static void empty_place(void) {
    uint64_t words[WORDS] = {ROUND};
    want("an empty place has no words", 0, psci_guest_save_size(&guest));
    want("an empty place, save", PSCI_NO_FIRMWARE, psci_guest_save(&guest, words, WORDS));
    want("an empty place, load", PSCI_NO_FIRMWARE, psci_guest_load(&guest, words, WORDS));
    want("none is written", ROUND, words[0]);
}

/* Core 3 runs, core 1 was started and went off. */
static void saving(void) {
    uint64_t words[WORDS + 1];
    open_guest(&guest);
    want("core 3 is started", PSCI_GUEST_TURNED, call(&guest, 0, 0xc4000003, 0x101, 0x40000000));
    want("core 1 is started", PSCI_GUEST_TURNED, call(&guest, 0, 0xc4000003, 0x1, 0x40001000));
    want("core 1 goes off", PSCI_GUEST_TURNED, call(&guest, 1, 0x84000002, 0, 0));
    want("so many words", WORDS, psci_guest_save_size(&guest));
    memset(words, ROUND, sizeof words);
    want("a word too few", PSCI_SAVED_LENGTH, psci_guest_save(&guest, words, WORDS - 1));
    want("a word too many", PSCI_SAVED_LENGTH, psci_guest_save(&guest, words, WORDS + 1));
    want("none is written", 0x5a5a5a5a5a5a5a5a, words[0]);
    must_save(&guest, words);
    want("what stands behind the words", 0x5a5a5a5a5a5a5a5a, words[WORDS]);
    want("the format", 0x177667370, words[0]);
    want("the power controller's", 0x16c746370, words[FIRMWARE]);
    must_save(&guest, saved);
    /* cores 0 and 3 run in their first start, core 1 is off after its first, core 2 was never started */
    const uint64_t wanted[ROWS - 2] = {1, 0, 0, 0, 1, AWAY, 1, AWAY, 0, 0, 1, 0, 3, 3, 0, 0, 0, 0, 0, 3, 3, 0, 0, 0, 0};
    for (size_t at = 2; at < ROWS; at++)
        want("what is saved of cores and domains", wanted[at - 2], words[at]);
    for (size_t at = ROWS; at < FIRMWARE; at++)
        want("what is saved of rows and slots", at == ROW(1) || at == ROW(2), words[at]);
}

/* Words that no guest is saved as, by the first fault that they have. */
static const struct refused {
    const char *what;
    uint32_t fault;
    struct change those[8];
} refused[] = {
    {"the last core does nothing", PSCI_GUEST_CORE, {{DOES(3), 9}}},
    {"standby, and more than a power state has", PSCI_GUEST_CORE, {{DOES(0), AWAY + 1}}},
    {"a known start of 33 bits", PSCI_GUEST_CORE, {{DOES(0) + 1, AWAY}}},
    {"a power state of a level that the board has not", PSCI_GUEST_VALUES, {{DOES(0), 0x40003333}}},
    {"the first cluster deeper than its first core", PSCI_GUEST_DEPTH, {{CLUSTERS, 1}}},
    {"the last cluster deeper than its last core", PSCI_GUEST_DEPTH, {{CLUSTERS + 1, 1}}},
    {"the system deeper than its clusters", PSCI_GUEST_DEPTH, {{SYSTEM, 1}}},
    {"core 1 deeper than power-down", PSCI_GUEST_DEPTH, {{DOMAINS + 1, 4}}},
    {"the first core confirmed, and nothing granted", PSCI_GUEST_DEPTH, {{CONFIRMED, 1}}},
    {"core 1 confirmed deeper than granted", PSCI_GUEST_DEPTH, {{DOMAINS + 1, 2}}},
    {"the system confirmed, and nothing granted", PSCI_GUEST_DEPTH, {{CONFIRMED + 6, 1}}},
    {"no message, and a core", PSCI_GUEST_MESSAGE, {{SLOTS + 1, 1}}},
    {"no message, and a part", PSCI_GUEST_MESSAGE, {{SLOT(3) + 4, 3}, {SLOT(3) + 5, 1}}},
    {"a message of core 256", PSCI_GUEST_MESSAGE, {{SLOT(0), 2}, {SLOT(0) + 1, 256}, {SLOT(0) + 2, 1}}},
    {"a message of a life of 33 bits", PSCI_GUEST_MESSAGE, {{SLOT(0), 2}, {SLOT(0) + 2, AWAY}}},
    {"a message of a number of 33 bits", PSCI_GUEST_MESSAGE, {{SLOT(0), 2}, {SLOT(0) + 3, AWAY}}},
    {"a Down without parts", PSCI_GUEST_MESSAGE, {{SLOT(0), 1}, {SLOT(0) + 2, 1}, {SLOT(0) + 3, 1}}},
    {"a Start with a part", PSCI_GUEST_MESSAGE, {{SLOT(0), 2}, {SLOT(0) + 2, 1}, {SLOT(0) + 4, 3}, {SLOT(0) + 5, 1}}},
    {"a part deeper than the one below it", PSCI_GUEST_MESSAGE,
     {{SLOT(0), 1}, {SLOT(0) + 2, 1}, {SLOT(0) + 4, 1}, {SLOT(0) + 5, 1}, {SLOT(0) + 6, 2}, {SLOT(0) + 7, 1}}},
    {"a part deeper than power-down", PSCI_GUEST_MESSAGE,
     {{SLOT(0), 1}, {SLOT(0) + 2, 1}, {SLOT(0) + 4, 4}, {SLOT(0) + 5, 1}}},
    {"a generation of no part", PSCI_GUEST_MESSAGE,
     {{SLOT(0), 1}, {SLOT(0) + 2, 1}, {SLOT(0) + 4, 3}, {SLOT(0) + 5, 1}, {SLOT(0) + 7, 1}}},
};

/* Words with a fault, each of whose bits is seen; nothing changes. */
static void not_loaded(void) {
    want("no words", PSCI_GUEST_LENGTH, psci_guest_load(&guest, saved, 0));
    want("a word of the firmware's too few", PSCI_GUEST_LENGTH, psci_guest_load(&guest, saved, FIRMWARE - 1));
    want("the firmware's alone", PSCI_SAVED_LENGTH, psci_guest_load(&guest, saved, FIRMWARE));
    want("a word too few", PSCI_SAVED_LENGTH, psci_guest_load(&guest, saved, WORDS - 1));
    for (size_t at = 0; at < WORDS; at++)
        for (int bit = 0; bit < 64; bit++) {
            uint32_t fault = !at ? PSCI_GUEST_FORMAT : at < FIRMWARE ? PSCI_GUEST_SUM
                : at == FIRMWARE ? PSCI_SAVED_FORMAT : PSCI_SAVED_SUM;
            saved[at] ^= (uint64_t)1 << bit;
            want("a bit", fault, psci_guest_load(&guest, saved, WORDS));
            saved[at] ^= (uint64_t)1 << bit;
        }
    want("a life too late", PSCI_GUEST_LIFE, load_with(2, 3));
    want("neither halting nor not", PSCI_GUEST_MODE, load_with(3, 2));
    want("of no mode", PSCI_GUEST_MODE, load_with(4, 2));
    want("a core does nothing", PSCI_GUEST_CORE, load_with(CORES, 9));
    want("a domain too deep", PSCI_GUEST_DEPTH, load_with(DOMAINS, 4));
    want("the first domain is confirmed deeper than granted", PSCI_GUEST_DEPTH, load_with(DOMAINS + MANY_DOMAINS, 1));
    want("the last one is", PSCI_GUEST_DEPTH, load_with(DOMAINS + 2 * MANY_DOMAINS - 1, 1));
    want("a cluster deeper than its core", PSCI_GUEST_DEPTH, load_with(DOMAINS + 4, 1));
    want("the system deeper than its clusters", PSCI_GUEST_DEPTH, load_with(DOMAINS + 6, 1));
    want("no status", PSCI_GUEST_ROW, load_with(ROWS, 3));
    want("no opening, and an address", PSCI_GUEST_ROW, load_with(ROWS + 2, 1));
    want("no opening, and a context", PSCI_GUEST_ROW, load_with(ROWS + 3, 1));
    want("a message of no kind", PSCI_GUEST_MESSAGE, load_with(SLOTS, 5));
    want("an opening for a core that runs", PSCI_GUEST_VALUES, load_with(ROWS + 1, 1));
    for (size_t each = 0; each < sizeof refused / sizeof *refused; each++) {
        uint64_t changed[WORDS];
        size_t count = 0;
        while (count < 8 && refused[each].those[count].at)
            count++;
        change(changed, refused[each].those, count);
        want(refused[each].what, refused[each].fault, psci_guest_load(&guest, changed, WORDS));
    }
    want("the controller's life too late", PSCI_SAVED_LIFE, load_with(FIRMWARE + 2, 3));
    want("a domain of it too deep", PSCI_SAVED_DEPTH, load_with(WORDS - 1, 4));
    unchanged();
}

/* Words of a firmware, made from those that were saved: the power controller's stay. */
static uint64_t made[WORDS];

/* No core has entered: core 0 is pending at the boot address, and all beside its path is off. */
static void fresh(void) {
    static const uint64_t off = (uint64_t)1 << 32;
    const uint64_t words[] = {0, 0, 0, 0, 0, off, 0, off, 0, off, 0, 0, 3, 3, 3, 0, 3, 0, 0, 3, 3, 3, 0, 3, 0,
                              2, 1, 0x40000000, 0, 1, 0, 0, 0, 1, 0, 0, 0, 1, 0, 0, 0};
    memcpy(made, saved, sizeof made);
    memset(made + 2, 0, (FIRMWARE - 2) * sizeof *made);
    memcpy(made + 2, words, sizeof words);
}

/* Core 0 has entered, in life 1. */
static void runs(void) {
    fresh();
    made[2] = 1, made[CORES + 1] = 1;
    memset(made + ROWS, 0, 4 * sizeof *made);
}

/* It is suspended: powered down itself, its cluster in retention, the system in standby. */
static void sleeps(void) {
    runs();
    made[CORES] = 0x40000123, made[ROWS + 1] = 1, made[ROWS + 2] = 0x40002000, made[ROWS + 3] = 9;
    made[GRANTED] = 3, made[GRANTED + 4] = 2, made[GRANTED + 6] = 1;
}

/* Core 3 is pending, with its opening. */
static void pends(void) {
    runs();
    made[CORES + 6] = 0, made[ROWS + 12] = 2, made[ROWS + 13] = 1, made[ROWS + 14] = 0x40001000, made[ROWS + 15] = 7;
    for (int at = 3; at < 6; at += 2)
        made[GRANTED + at] = made[CONFIRMED + at] = 0;
}

/* The message of a slot: the system's is the first, then come those of the cores. */
static void send(int slot, uint64_t kind, uint64_t core, uint64_t of_life, uint64_t number) {
    uint64_t *at = made + SLOTS + 12 * slot;
    at[0] = kind, at[1] = core, at[2] = of_life, at[3] = number;
    if (kind == PSCI_MESSAGE_DOWN)
        at[4] = 3, at[5] = 5, at[6] = 2, at[7] = 6;
}

/* Loads them with their sum; what is loaded is saved as the same words. */
static uint32_t load_made(void) {
    uint64_t words[WORDS];
    made[1] = sum_of(made + 2, FIRMWARE - 2);
    uint32_t loaded = psci_guest_load(&guest, made, WORDS);
    must_save(&guest, words);
    if (!loaded)
        want("saved as it was loaded", 0, memcmp(words, made, sizeof made));
    return loaded;
}

/* What a firmware keeps at once, and what none does. */
static void values(void) {
#define KEPT(name, base, change) base(), change, want(name, 0, load_made())
#define NONE(name, base, change) base(), change, want(name, PSCI_GUEST_VALUES, load_made())
    KEPT("no core has entered", fresh, made[2] = 0);
    want("no status is told then", PSCI_NO_LIFE, psci_guest_status(&guest, 0, 0));
    NONE("in OS-initiated mode then", fresh, made[4] = 1);
    NONE("halting then", fresh, made[3] = 1);
    NONE("started then", fresh, made[CORES + 7] = 5);
    NONE("boots at another address", fresh, made[ROWS + 2] = 0x40000004);
    NONE("boots with a context", fresh, made[ROWS + 3] = 7);
    NONE("off, not confirmed", fresh, made[CONFIRMED + 3] = 0);
    NONE("the system's message then", fresh, send(0, PSCI_MESSAGE_OFF, 0, 0, 0));
    NONE("a core's message then", fresh, send(4, PSCI_MESSAGE_START, 3, 0, 0));
    KEPT("core 0 runs", runs, made[2] = 1);
    want("the system is on", PSCI_STATUS_ON, psci_guest_status(&guest, 2, 0));
    want("its other cluster off", PSCI_STATUS_OFF, psci_guest_status(&guest, 1, 1));
    KEPT("in OS-initiated mode", runs, made[4] = 1);
    KEPT("in the last life", runs, made[2] = 2);
    KEPT("started as often as may be", runs, made[CORES + 7] = 200);
    NONE("started more often", runs, made[CORES + 7] = 201);
    KEPT("messages", runs, (send(0, PSCI_MESSAGE_RESET, 1, 1, 0), send(2, PSCI_MESSAGE_DOWN, 1, 1, 3)));
    KEPT("halting", runs, made[3] = 1);
    KEPT("halting, and a core on its way", pends, made[3] = 1);
    psci_guest_reset(&guest, 3, &turn);
    want("it enters", 3, turn.start.core);
    want("and stops at once", PSCI_STOP, turn.entry.what);
    must_save(&guest, made);
    want("on its way still", 0, made[CORES + 6]);
    want("to no opening", 0, made[ROWS + 13]);
    KEPT("halting, with an opening", runs, (made[3] = 1, made[ROWS + 1] = 1));
    NONE("halting, and granted what it asks not", runs, (made[3] = 1, made[GRANTED] = 1));
    NONE("runs with an opening", runs, made[ROWS + 1] = 1);
    NONE("runs, and is granted standby", runs, made[GRANTED] = 1);
    NONE("its status is off", runs, made[ROWS] = 1);
    NONE("off, with an opening", runs, (made[ROWS + 13] = 1, made[ROWS + 14] = 0x40001000));
    NONE("off, and granted retention", runs, (made[GRANTED + 1] = 2, made[CONFIRMED + 1] = 0));
    NONE("OS-initiated, all off below retention", runs, (made[4] = 1, made[GRANTED + 5] = 2, made[CONFIRMED + 5] = 0));
    KEPT("core 3 is pending", pends, made[2] = 1);
    want("so is its cluster", PSCI_STATUS_PENDING, psci_guest_status(&guest, 1, 1));
    NONE("pending without an opening", pends, (made[ROWS + 13] = made[ROWS + 14] = made[ROWS + 15] = 0));
    NONE("pending and off", pends, made[CORES + 6] = (uint64_t)1 << 32);
    NONE("pending and suspended", pends, made[CORES + 6] = 1);
    KEPT("core 0 sleeps", sleeps, made[2] = 1);
    want("the system is in standby", 1, made[GRANTED + 6]);
    NONE("too deep a system", sleeps, made[GRANTED + 6] = 2);
    NONE("too light a system", sleeps, made[GRANTED + 6] = 0);
    NONE("too light a cluster", sleeps, made[GRANTED + 4] = 1);
    KEPT("that light, OS-initiated", sleeps, (made[4] = 1, made[GRANTED + 4] = 1, made[GRANTED + 6] = 0));
    NONE("sleeps without an opening", sleeps, (made[ROWS + 1] = made[ROWS + 2] = made[ROWS + 3] = 0));
    NONE("asks above the system", sleeps, (made[CORES] = 0x40003333, made[GRANTED + 4] = made[GRANTED + 6] = 3));
    KEPT("asks all of the board", sleeps, (made[CORES] = 0x40000333, made[GRANTED + 4] = made[GRANTED + 6] = 3));
    KEPT("in standby", runs, made[CORES] = made[GRANTED] = 1);
    NONE("in standby with an opening", runs, made[CORES] = made[GRANTED] = made[ROWS + 1] = 1);
#undef KEPT
#undef NONE
    want("loaded again", 0, psci_guest_load(&guest, saved, WORDS));
}

/* What is told of a turn: of the caller, of the core that entered, and of the stop. */
static void told(const char *what, uint32_t life, uint32_t caller, uint32_t entry, struct psci_ctl_start start) {
    uint64_t words[WORDS];
    want(what, PSCI_GUEST_TURNED, turn.what);
    want(what, life, turn.life);
    want(what, caller, turn.caller.what);
    want(what, entry, turn.entry.what);
    want(what, start.core, turn.start.core);
    want(what, start.life, turn.start.life);
    want(what, start.number, turn.start.number);
    want(what, start.cause, turn.start.cause);
    must_save(&guest, words);
    for (size_t at = SLOTS; at < FIRMWARE; at++)
        want("nothing is outstanding", 0, words[at]);
}

static uint32_t stop_told(void) {
    return (uint32_t)turn.stop.depths[0] << 16 | turn.stop.depths[1] << 12 | turn.stop.depths[2] << 8
        | turn.stop.depths[3] << 4 | turn.stop.wakes;
}

/* A turn of each kind in two lives, and each refusal. */
static void turns(void) {
    const struct psci_ctl_start nobody = {0};
    open_guest(&guest);
    told("the boot core", 1, 0, PSCI_ENTER, (struct psci_ctl_start){0, 1, 1, PSCI_CAUSE_BOOT});
    want("enters where the board says", 0x40000000, turn.entry.address);
    call(&guest, 0, 0xc4000003, 0x101, 0x40001000);
    told("core 3 is started", 1, PSCI_RETURN, PSCI_ENTER, (struct psci_ctl_start){3, 1, 1, PSCI_CAUSE_ON});
    want("by a Start", 0x203, turn.caller.message.bytes[2] << 8 | turn.caller.message.bytes[3]);
    want("enters where the caller says", 0x40001000, turn.entry.address);
    want("with its context", 7, turn.entry.context);
    want("a call that does not stop", 0, stop_told());
    psci_guest_wake(&guest, 3, &turn);
    told("a wake-up of one that runs", 1, 0, 0, nobody);
    psci_guest_call(&guest, 3, 2, 0x84000000, 0, 0, 0, &turn);
    want("a call in another life", PSCI_NOT_RUNNING, turn.what);
    want("tells of no life", 0, turn.life);
    call(&guest, 3, 0xc4000001, 0x01010033, 0x40002000);
    told("core 3 suspends", 1, PSCI_STOP, 0, nobody);
    want("with its cluster, and may be woken", 0x33001, stop_told());
    want("a call in its stop", PSCI_NOT_RUNNING, call(&guest, 3, 0x84000000, 0, 0));
    psci_guest_wake(&guest, 3, &turn);
    told("core 3 is woken", 1, 0, PSCI_ENTER, (struct psci_ctl_start){3, 1, 2, PSCI_CAUSE_WAKE});
    want("enters where it asked", 0x40002000, turn.entry.address);
    call(&guest, 3, 0x84000002, 0, 0);
    told("core 3 goes off", 1, PSCI_STOP, 0, nobody);
    want("with its cluster, and may not be woken", 0x33000, stop_told());
    psci_guest_wake(&guest, 3, &turn);
    told("it is woken all the same, and parks", 1, 0, PSCI_STOP, (struct psci_ctl_start){3, 1, 3, PSCI_CAUSE_WAKE});
    want("by a Down", 0x103, turn.entry.message.bytes[2] << 8 | turn.entry.message.bytes[3]);
    psci_guest_reset(&guest, 3, &turn);
    told("it is reset, and parks", 1, 0, PSCI_STOP, (struct psci_ctl_start){3, 1, 4, PSCI_CAUSE_RESET});
    call(&guest, 0, 0xc4000003, 0x101, 0x40001000);
    told("it is started again", 1, PSCI_RETURN, PSCI_ENTER, (struct psci_ctl_start){3, 1, 5, PSCI_CAUSE_ON});
    call(&guest, 3, 0x84000009, 0, 0);
    told("it resets the system", 2, PSCI_STOP, PSCI_ENTER, (struct psci_ctl_start){0, 2, 1, PSCI_CAUSE_BOOT});
    want("a call behind the end of its life", PSCI_NOT_RUNNING, call(&guest, 3, 0x84000000, 0, 0));
    psci_guest_call(&guest, 0, 2, 0x84000008, 0, 0, 0, &turn);
    told("the system is off", 0, PSCI_STOP, 0, nobody);
    psci_guest_wake(&guest, 0, &turn);
    told("and stays off", 0, 0, 0, nobody);
    psci_guest_close(&guest);
}

/* Words that no turn leaves and that are loaded: messages of each kind that wait, what is granted and not confirmed, a
 * core in its 200th start, another one suspended with its cluster. They are saved again as they are. */
static void loading_all(void) {
    static const struct change those[] = {
        {DOES(0) + 1, 200}, {DOES(3), 0x40000033}, {DOMAINS + 3, 3}, {CLUSTERS + 1, 3}, {CONFIRMED + 1, 0},
        {ROW(3) + 1, 1}, {ROW(3) + 2, 0x40002000}, {ROW(3) + 3, 9},
        {SLOTS, 4}, {SLOTS + 1, 255}, {SLOTS + 2, 1}, {SLOTS + 3, 5},
        {SLOT(0), 2}, {SLOT(0) + 2, AWAY - 1}, {SLOT(0) + 3, AWAY - 2},
        {SLOT(1), 1}, {SLOT(1) + 1, 1}, {SLOT(1) + 2, 1}, {SLOT(1) + 3, 6}, {SLOT(1) + 4, 3}, {SLOT(1) + 5, 11},
        {SLOT(1) + 6, 2}, {SLOT(1) + 7, ~(uint64_t)0}, {SLOT(1) + 8, 2}, {SLOT(1) + 9, 13}, {SLOT(1) + 10, 1},
        {SLOT(1) + 11, 14},
        {SLOT(2), 3}, {SLOT(2) + 1, 2}, {SLOT(2) + 2, 2}, {SLOT(2) + 3, 7},
    };
    uint64_t changed[WORDS], words[WORDS];
    open_guest(&other);
    change(changed, those, sizeof those / sizeof *those);
    want("loaded as no turn leaves it", 0, psci_guest_load(&other, changed, WORDS));
    must_save(&other, words);
    for (size_t at = 0; at < WORDS; at++)
        want("saved as it was loaded", changed[at], words[at]);
    want("words without a message", 0, psci_guest_load(&other, saved, WORDS));
    must_save(&other, words);
    want("no message is left", 0, memcmp(words, saved, sizeof saved));
    psci_guest_close(&other);
}

/* The other one goes on as this one does. */
static void loading(void) {
    uint64_t words[WORDS];
    struct psci_guest_turn told;
    open_guest(&other);
    want("loaded", 0, psci_guest_load(&other, saved, WORDS));
    must_save(&other, words);
    want("saved again", 0, memcmp(words, saved, sizeof saved));
    call(&guest, 3, 0xc4000001, 0x1010033, 0x40002000);
    told = turn;
    call(&other, 3, 0xc4000001, 0x1010033, 0x40002000);
    want("it goes on", PSCI_GUEST_TURNED, told.what);
    want("as the other does", 0, memcmp(&told, &turn, sizeof turn));
    want("loaded once more", 0, psci_guest_load(&other, saved, WORDS));
    must_save(&other, words);
    want("it is as before", 0, memcmp(words, saved, sizeof saved));
    for (int again = 0; again < 1000; again++)
        want("loaded again and again", 0, psci_guest_load(&other, saved, WORDS));
    psci_guest_close(&other);
    psci_guest_close(&guest);
}

/* With ever less memory a load fails, and changes nothing. */
static void little_memory(void) {
    size_t size = 2 * pool_size(4), refused = 0;
    void *memory = malloc(size);
    uint64_t words[WORDS];
    for (size_t given = size; given >= pool_size(4) / 2; given -= 16) {
        guest = (struct psci_guest_place){0};
        pool_give(memory, given);
        if (psci_guest_open(&guest, (const uint8_t *)board, strlen(board), &turn))
            break;
        must_save(&guest, words);
        uint32_t loaded = psci_guest_load(&guest, saved, WORDS);
        want("little memory", 1, !loaded || loaded == PSCI_NO_MEMORY);
        want("as much as a guest takes", 1, given != size || !loaded);
        refused += loaded != 0;
        if (!loaded)
            memcpy(words, saved, sizeof saved);
        uint64_t now[WORDS];
        must_save(&guest, now);
        want("what is kept then", 0, memcmp(now, words, sizeof now));
        psci_guest_close(&guest);
    }
    want("some amount is too little", 1, refused > 0);
    free(memory);
}

int main(void) {
    size_t size = 3 * pool_size(4);
    void *memory = malloc(size);
    pool_give(memory, size);
    empty_place();
    turns();
    saving();
    not_loaded();
    values();
    loading_all();
    loading();
    little_memory();
    free(memory);
    return failed;
}
