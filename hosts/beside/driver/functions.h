/* Part of beside.c: functions and their arguments, and the cores of the board. */
#include "table.h"

#define SMC64 0x40000000u
#define OUR_FUNCTIONS (sizeof our_functions / sizeof *our_functions)
enum {
    VERSION = 0x84000000u,
    CPU_SUSPEND = 0x84000001u,
    CPU_OFF = 0x84000002u,
    CPU_ON = 0x84000003u,
    AFFINITY_INFO = 0x84000004u,
    FEATURES = 0x8400000au,
    SYSTEM_SUSPEND = 0x8400000eu,
    SET_SUSPEND_MODE = 0x8400000fu,
    SYSTEM_RESET2 = 0x84000012u,
};

/* the names of functions from 0x84000000 on, whether ours or not, and which definition says what ours answer,
 * where that is not Answer.function_outcome */
static const struct {
    const char *name, *clause;
} names[] = {
    {"VERSION", "Answer.version"},
    {"CPU_SUSPEND", "PowerCalls.cpu_suspend"},
    {"CPU_OFF", "PowerCalls.cpu_off"},
    {"CPU_ON", "PowerCalls.cpu_on"},
    {"AFFINITY_INFO", "PowerCalls.affinity_info"},
    {"MIGRATE", NULL},
    {"MIGRATE_INFO_TYPE", "Answer.no_migration"},
    {"MIGRATE_INFO_UP_CPU", NULL},
    {"SYSTEM_OFF", "PowerCalls.system_message"},
    {"SYSTEM_RESET", "PowerCalls.system_message"},
    {"FEATURES", NULL},
    {"CPU_FREEZE", NULL},
    {"CPU_DEFAULT_SUSPEND", NULL},
    {"NODE_HW_STATE", "NodeHwState.node_hw_state"},
    {"SYSTEM_SUSPEND", "PowerCalls.system_suspend"},
    {"SET_SUSPEND_MODE", "PowerCalls.set_suspend_mode"},
    {"STAT_RESIDENCY", NULL},
    {"STAT_COUNT", NULL},
    {"SYSTEM_RESET2", "SystemCalls.system_reset2"},
};

static uint32_t plain_word(uint64_t x0) { return (uint32_t)x0 & ~SMC64; }

static bool is_named(uint64_t x0) {
    return plain_word(x0) - VERSION < sizeof names / sizeof *names;
}

/* which of our functions has this number; how many there are, where none has */
static size_t our_place(uint64_t x0) {
    size_t at = 0;
    while (at < OUR_FUNCTIONS && our_functions[at].smc32 != plain_word(x0))
        at++;
    return at;
}

const char *psci_beside_name(uint64_t x0) {
    size_t place = our_place(x0);
    return place < OUR_FUNCTIONS ? our_functions[place].name
           : is_named(x0)        ? names[plain_word(x0) - VERSION].name
                                 : NULL;
}

static const char *clause_of(uint64_t x0) {
    const char *named = is_named(x0) ? names[plain_word(x0) - VERSION].clause : NULL;
    return our_place(x0) == OUR_FUNCTIONS ? NULL : named ? named : "Answer.function_outcome";
}

static bool is_ours(uint32_t word) {
    size_t at = our_place(word);
    return at < OUR_FUNCTIONS && (word == our_functions[at].smc32 || word == our_functions[at].smc64);
}

/* what a register carries of a call of ours, 1 to 3 */
static int carried(uint64_t x0, int at) {
    size_t place = our_place(x0);
    return place < OUR_FUNCTIONS ? our_functions[place].takes[at - 1] : TAKES_NOTHING;
}

static bool has(const struct psci_beside_profile *profile, uint32_t word) {
    for (uint32_t i = 0; i < profile->many_functions; i++)
        if (profile->functions[i] == word)
            return true;
    return !profile->many_functions && is_ours(word);
}

/* whether a register of a call counts by its low half alone */
static bool is_narrow(uint64_t x0, int at) {
    if (at == 0 || !(x0 & SMC64))
        return true;
    int what = carried(x0, at);
    return what == TAKES_POWER_STATE || what == TAKES_RESET_TYPE || what == TAKES_LEVEL;
}

static void narrow(uint64_t x[4]) {
    for (int at = 3; at >= 0; at--)
        if (is_narrow(x[0], at))
            x[at] = (uint32_t)x[at];
}

static bool has_target(uint64_t x0) { return carried(x0, 1) == TAKES_TARGET; }

/* which register has an entry point; 0 where none has */
static int entry_at(uint64_t x0) {
    return carried(x0, 1) == TAKES_ENTRY ? 1 : carried(x0, 2) == TAKES_ENTRY ? 2 : 0;
}

/* ---- The board */

/* The core of an affinity word; the number of cores where it names none. */
static uint32_t core_of(const beside *b, uint64_t affinity) {
    uint32_t core = 0;
    while (core < b->board.cores && b->board.affinity[core] != affinity)
        core++;
    return core;
}

/* The children of the node at this level and number are numbered from this one on. */
static uint32_t first_child(beside *b, uint32_t level, uint32_t node) {
    uint32_t first = 0;
    for (uint32_t at = 0; at < node; at++)
        first += psci_children(&b->firmware, level, at);
    return first;
}

static void read_board(beside *b, uint32_t level, uint32_t node, uint64_t affinity) {
    uint32_t first = level ? first_child(b, level, node) : 0;
    if (!level)
        b->board.affinity[node] = affinity;
    for (uint32_t at = 0; level && at < psci_children(&b->firmware, level, node); at++)
        read_board(b, level - 1, first + at, affinity | (uint64_t)at << 8 * (level - 1));
}
