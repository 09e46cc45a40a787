/* Calls that are drawn: those of CPU_ON and AFFINITY_INFO most, with cores that come and go. Every second
 * one of a wide storm is one of the rest, good or bad, so that each answer comes that a call may have. */
#include "clock.h"
#include "play.h"
#include "record.h"

enum { VERSION = 0x84000000, CPU_SUSPEND, CPU_OFF, CPU_ON, AFFINITY_INFO };
enum {
    MIGRATE_INFO_TYPE = 0x84000006,
    FEATURES = 0x8400000a,
    NODE_HW_STATE = 0x8400000d,
    SYSTEM_SUSPEND,
    SET_SUSPEND_MODE,
    SYSTEM_RESET2 = 0x84000012,
    UNKNOWN = 0x8400001f,
    NO_CORE = 0x1000000, /* a bit that is in no core's word */
    NO_STATE = 0x20000,  /* a bit that is in no power state word */
    SMC64 = 0x40000000,
    LAST_FUNCTION = 0x14
};

struct storm storm;
static volatile uint32_t drawn[MOST_CORES];
static volatile uint64_t state[MOST_CORES];

static uint64_t draw(uint32_t core) {
    uint64_t x = state[core];
    x ^= x << 13;
    x ^= x >> 7;
    x ^= x << 17;
    return state[core] = x;
}

/* All bits of a word, by those that were drawn. */
static uint64_t spread(uint64_t bits) {
    return bits * 0x9e3779b97f4a7c15ul;
}

static uint32_t function_of(const uint64_t x[4]) {
    return (uint32_t)x[0] & ~(uint32_t)SMC64;
}

uint32_t target_of(const uint64_t x[4]) {
    uint64_t target = x[0] & SMC64 ? x[1] : (uint32_t)x[1];
    uint32_t core = 0;
    while (core < machine.cores && affinities[core] != target) core++;
    return core;
}

void before_call(uint32_t core, const uint64_t x[4]) {
    if (function_of(x) == CPU_OFF) cores[core].is_up = 0;
}

void after_call(uint32_t core, const uint64_t x[4], uint64_t answer) {
    uint64_t entry = x[2] - (uintptr_t)entries;
    uint32_t target = target_of(x);
    cores[core].is_up = 1;
    if (function_of(x) != CPU_ON || (uint32_t)answer || entry >= 16 * 8 || entry % 8) return;
    if (target < machine.cores) add(&cores[target].asked, 1);
}

/* Whether a start of this core was granted that it has not taken up. */
static int is_awaited(uint32_t core) {
    return cores[core].asked > cores[core].taken;
}

void storm_begins(void) {
    for (uint32_t core = 0; core < machine.cores; core++) {
        state[core] = storm.seed * 0x9e3779b97f4a7c15ul + (core + 1) * 0xbf58476d1ce4e5b9ul;
        drawn[core] = 0;
    }
    storm.is_on = 1;
}

static void told(uint32_t core, uint64_t x0, uint64_t x1, uint64_t x2, uint64_t x3) {
    ask(core, (uint64_t[]){x0, x1, x2, x3}, TOLD);
}

static void asleep(uint32_t core, uint64_t waits, uint64_t x0, uint64_t x1, uint64_t x2,
                   uint64_t x3) {
    ask_with_timer(core, (uint64_t[]){x0, x1, x2, x3}, waits);
}

/* One of the calls that are seldom made otherwise. */
static void rare_call(uint32_t core, uint64_t bits) {
    uint64_t width = bits >> 63 ? SMC64 : 0, target = affinities[(bits >> 8 & 15) % machine.cores];
    uint64_t entry = (uintptr_t)entries + 8 * (bits >> 40 & 15), context = spread(bits);
    uint64_t waits = 20 + (bits >> 8 & 255), some = bits >> 44 & 3, kind = bits % 16;
    /* what looks at all cores at once is drawn seldom: the judge has to, too */
    if (kind >= 13 && bits >> 51 & 3) kind -= 13;
    switch (kind) {
    case 0: told(core, VERSION, 0, 0, 0); break;
    case 1: told(core, MIGRATE_INFO_TYPE, 0, 0, 0); break;
    case 2: told(core, UNKNOWN | width, 0, 0, 0); break;
    case 3: told(core, SYSTEM_RESET2 | width, 1, context, 0); break;
    case 4: told(core, CPU_ON | width, target | NO_CORE, entry, context); break;
    case 5: told(core, CPU_ON | width, target, entry + 2, context); break;
    case 6: told(core, AFFINITY_INFO | width, target | (some ? 0 : NO_CORE), some, 0); break;
    case 7: told(core, AFFINITY_INFO | width, target, 0, 0); break;
    case 8: told(core, NODE_HW_STATE | width, target, some, 0); break;
    case 9: told(core, NODE_HW_STATE | width, target | NO_CORE, 0, 0); break;
    case 10: asleep(core, waits, CPU_SUSPEND | width, storm.down | NO_STATE, entry, context); break;
    case 11: asleep(core, waits, CPU_SUSPEND | width, storm.down, entry + 2, context); break;
    case 12: asleep(core, waits, CPU_SUSPEND | width, storm.down, entry, context); break;
    case 13: told(core, SET_SUSPEND_MODE, some, 0, 0); break;
    case 14: told(core, SET_SUSPEND_MODE, some & 1, 0, 0); break;
    case 15: asleep(core, waits, SYSTEM_SUSPEND | width, entry + (some ? 0 : 2), context, 0); break;
    }
}

static void drawn_call(uint32_t core, uint64_t bits) {
    uint64_t width = bits >> 63 ? SMC64 : 0, target = affinities[(bits >> 8 & 15) % machine.cores];
    uint64_t entry = (uintptr_t)entries + 8 * (bits >> 40 & 15), context = spread(bits);
    uint64_t waits = 20 + (bits >> 8 & 255);
    uint32_t kind = bits % 16;
    if (kind < 4) ask(core, (uint64_t[]){CPU_ON | width, target, entry, context}, TOLD);
    else if (kind < 9) ask(core, (uint64_t[]){AFFINITY_INFO | width, target, 0, 0}, TOLD);
    else if (kind == 9)
        ask(core, (uint64_t[]){NODE_HW_STATE | width, target, (bits >> 12 & 3) % 3, 0}, TOLD);
    else if (kind == 10)
        ask(core, (uint64_t[]){FEATURES, (VERSION + (bits >> 8) % LAST_FUNCTION) | width, 0, 0},
            TOLD);
    else if (kind == 11 && core) ask(core, (uint64_t[]){CPU_OFF, 0, 0, 0}, ANNOUNCED);
    else if (kind < 14 && storm.standby)
        ask_with_timer(core, (uint64_t[]){CPU_SUSPEND | width, storm.standby, 0, 0}, waits);
    else if (kind == 14 && storm.down)
        ask_with_timer(core, (uint64_t[]){CPU_SUSPEND | width, storm.down, entry, context}, waits);
    else ask(core, (uint64_t[]){AFFINITY_INFO | width, target, 0, 0}, TOLD);
}

void storm_of(uint32_t core) {
    while (drawn[core] < storm.many) {
        uint64_t bits = draw(core);
        uint32_t at = drawn[core]++;
        /* a wide storm begins with SYSTEM_SUSPEND, a bad one and a good one, while all others are off */
        if (storm.is_wide && !core && at < 2)
            rare_call(core, (bits & ~(3ul << 51 | 3ul << 44)) | (uint64_t)at << 44 | 15);
        else if (storm.is_wide && bits >> 50 & 1) rare_call(core, bits);
        else drawn_call(core, bits);
    }
    if (core) ask(core, (uint64_t[]){CPU_OFF, 0, 0, 0}, ANNOUNCED);
}

void storm_ends(void) {
    delay(0, 100000);
    uint64_t end = after(3000000);
    for (uint32_t core = 0; core < machine.cores; core++) {
        while (cores[core].has_timer && !is_past(end)) {}
        if (cores[core].has_timer) LINE("late", core, 0);
    }
    for (uint32_t core = 0; core < machine.cores; core++) {
        while (is_awaited(core) && !is_past(end)) {}
        if (is_awaited(core)) LINE("lacks", 0, cores[0].number++, tick(), core, cores[core].entries + 1);
    }
    storm.is_on = 0;
    __atomic_thread_fence(__ATOMIC_SEQ_CST);
    write_entries();
}
