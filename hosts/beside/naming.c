#include "naming.h"

#include <string.h>

enum { POWER_DOWN = 3, STATES = 16 };
#define NOTHING UINT32_C(0xffffffff)
#define FIELDS UINT64_C(0xff00ffffff)

/* ---- The tree */

static uint32_t first_child(const struct psci_level *level, uint32_t node) {
    uint32_t first = 0;
    while (node)
        first += level->children[--node];
    return first;
}

static void read_node(struct naming *n, uint32_t level, uint32_t node, uint8_t fields[4]) {
    if (level == 0) {
        memcpy(n->fields[n->cores++], fields, 4);
        return;
    }
    const struct psci_level *it = &n->board.levels[level - 1];
    for (uint32_t at = 0; at < it->children[node]; at++) {
        fields[level - 1] = at;
        read_node(n, level - 1, first_child(it, node) + at, fields);
    }
}

void naming_of_board(struct naming *n) {
    uint8_t fields[4] = {0};
    n->cores = 0;
    read_node(n, n->board.height, 0, fields);
}

static uint32_t core_at(const struct naming *n, const uint8_t fields[4]) {
    uint32_t core = 0;
    while (core < n->cores && memcmp(n->fields[core], fields, 4))
        core++;
    return core;
}

/* The first core and the boot core, and the domains above them, trade numbers among their siblings. */
static void move(const struct naming *n, const uint8_t from[4], uint8_t to[4]) {
    static const uint8_t first[4] = {0};
    const uint8_t *boot = n->fields[n->boot_core];
    memcpy(to, from, 4);
    for (uint32_t level = 0; level < n->board.height; level++) {
        const uint8_t *above = from + level + 1;
        size_t many = 3 - level;
        if (memcmp(above, first, many) && memcmp(above, boot + level + 1, many))
            continue;
        if (from[level] == 0)
            to[level] = boot[level];
        else if (from[level] == boot[level])
            to[level] = 0;
    }
}

uint32_t naming_core(const struct naming *n, uint32_t core) {
    uint8_t to[4];
    move(n, n->fields[core], to);
    return core_at(n, to);
}

/* Each core is moved to a core, and back from there: then so is each domain, which has cores below it. */
static bool looks_the_same(const struct naming *n) {
    for (uint32_t core = 0; core < n->cores; core++) {
        uint32_t other = naming_core(n, core);
        if (other == n->cores || naming_core(n, other) != core)
            return false;
    }
    return true;
}

/* ---- States */

static uint32_t depth(const struct psci_machine *m, uint32_t level, uint32_t number) {
    uint32_t standby = m->standby[level], kept = standby + m->retention[level];
    return number == 0 ? 0 : number >= STATES ? POWER_DOWN : number <= standby ? 1 : number <= kept ? 2 : POWER_DOWN;
}

/* The depths that states ask for: false where they are no power state. */
static bool depths_of(const struct psci_machine *m, const uint8_t states[4], uint32_t depths[4]) {
    bool falls = true;
    for (uint32_t level = 0; level < 4; level++) {
        depths[level] = depth(m, level, states[level]);
        falls = falls && (level == 0 || depths[level] <= depths[level - 1]);
    }
    return falls && depths[0];
}

static bool has_states(const struct psci_machine *m, const uint8_t states[4]) {
    for (uint32_t level = 0; level < 4; level++)
        if (states[level] >= STATES || (level > m->levels && states[level]))
            return false;
    return true;
}

/* ---- Faults, in their order */

static uint32_t fault_of_cores(struct naming *n) {
    const struct psci_machine *m = &n->machine;
    if (m->many_mpidrs != n->cores)
        return PSCI_MACHINE_WRONG_COUNT;
    for (uint32_t core = 0; core < n->cores; core++)
        if (m->mpidrs[core] & ~FIELDS)
            return PSCI_MACHINE_BAD_MPIDR;
    n->boot_core = n->cores;
    for (uint32_t core = n->cores; core-- > 0;) {
        for (uint32_t other = 0; other < core; other++)
            if (m->mpidrs[other] == m->mpidrs[core])
                return PSCI_MACHINE_SAME_MPIDR;
        n->boot_core = m->mpidrs[core] == n->boot ? core : n->boot_core;
    }
    if (n->boot_core == n->cores)
        return PSCI_MACHINE_NO_BOOT_CORE;
    return looks_the_same(n) ? 0 : PSCI_MACHINE_LATE_BOOT_CORE;
}

static uint32_t fault_of_words(const struct psci_machine *m, bool extended) {
    uint32_t zero = extended ? 0xb0000000 : 0xfcfe0000, down = extended ? 1u << 30 : 1u << 16, depths[4];
    uint32_t fault = 0;
    for (uint32_t at = m->many_rows; at-- > 0;)
        if (m->rows[at].word & ~m->rows[at].mask || zero & ~m->rows[at].mask || m->rows[at].word & zero)
            return PSCI_MACHINE_BAD_WORD;
    for (uint32_t at = 0; at < m->many_rows; at++)
        for (uint32_t other = 0; other < at; other++)
            if (!((m->rows[at].word ^ m->rows[other].word) & m->rows[at].mask & m->rows[other].mask))
                return PSCI_MACHINE_SAME_WORD;
    for (uint32_t at = 0; at < m->many_rows; at++) {
        const struct psci_row *row = &m->rows[at];
        bool is_down = row->word & down;
        if (!(row->mask & down) || is_down != (depth(m, 0, row->states[0]) == POWER_DOWN))
            return PSCI_MACHINE_WRONG_TYPE;
        if (!has_states(m, row->states) || !depths_of(m, row->states, depths))
            fault = PSCI_MACHINE_BAD_STATES;
    }
    return fault;
}

/* Whether SYSTEM_SUSPEND powers down every level of the board. */
static bool is_whole(const struct naming *n) {
    uint32_t depths[4];
    if (!has_states(&n->machine, n->machine.system) || !depths_of(&n->machine, n->machine.system, depths))
        return false;
    for (uint32_t level = 0; level < 4; level++)
        if (depths[level] != (level <= n->board.height ? POWER_DOWN : 0))
            return false;
    return true;
}

static bool are_resets(const struct psci_machine *m) {
    for (uint32_t at = 0; at < m->many_resets; at++)
        if (!(m->resets[at] >> 31))
            return false;
    return !m->many_resets || m->functions & PSCI_HAS_SYSTEM_RESET2;
}

uint32_t naming_fault(struct naming *n) {
    const struct psci_machine *m = &n->machine;
    uint32_t has = m->functions, fault;
    if (m->many_mpidrs > PSCI_MOST_CORES || m->many_rows > PSCI_MOST_ROWS || m->many_resets > PSCI_MOST_RESETS ||
        has > 0xff)
        return PSCI_MACHINE_NO_ROOM;
    if ((fault = fault_of_cores(n)))
        return fault;
    if (m->levels > n->board.height)
        return PSCI_MACHINE_TOO_MANY_LEVELS;
    if ((fault = fault_of_words(m, n->board.format == PSCI_EXTENDED_FORMAT)))
        return fault;
    if (has & PSCI_HAS_SYSTEM_SUSPEND && !is_whole(n))
        return PSCI_MACHINE_BAD_SYSTEM;
    if ((has & PSCI_HAS_CPU_OFF && !(has & PSCI_HAS_CPU_ON)) ||
        (has & PSCI_HAS_SYSTEM_SUSPEND && !(has & PSCI_HAS_CPU_SUSPEND)) || !are_resets(m))
        return PSCI_MACHINE_BAD_FUNCTIONS;
    return 0;
}

/* ---- Calls */

/* Which function a word is of, with 32-bit arguments and with 64-bit ones where it has these. */
static const struct {
    uint32_t has, words[2];
} functions[] = {
    {PSCI_HAS_CPU_SUSPEND, {0x84000001, 0xc4000001}},    {PSCI_HAS_CPU_SUSPEND, {0x8400000f, 0x8400000f}},
    {PSCI_HAS_CPU_OFF, {0x84000002, 0x84000002}},        {PSCI_HAS_CPU_ON, {0x84000003, 0xc4000003}},
    {PSCI_HAS_SYSTEM_OFF, {0x84000008, 0x84000008}},     {PSCI_HAS_SYSTEM_RESET, {0x84000009, 0x84000009}},
    {PSCI_HAS_NODE_HW_STATE, {0x8400000d, 0xc400000d}},  {PSCI_HAS_SYSTEM_SUSPEND, {0x8400000e, 0xc400000e}},
    {PSCI_HAS_SYSTEM_RESET2, {0x84000012, 0xc4000012}},
};

static bool is_lacking(const struct psci_machine *m, uint32_t word) {
    for (size_t at = 0; at < sizeof functions / sizeof *functions; at++)
        if (word == functions[at].words[0] || word == functions[at].words[1])
            return !(m->functions & functions[at].has);
    return false;
}

/* The board's affinity word of what an MPIDR names at a level, as the firmware numbers its cores. */
static uint64_t named(const struct naming *n, uint64_t mpidr, uint32_t level) {
    for (uint32_t core = 0; level <= n->board.height && core < n->cores; core++)
        if (n->machine.mpidrs[core] >> 8 * level == mpidr >> 8 * level) {
            const uint8_t *fields = n->fields[naming_core(n, core)];
            return fields[0] | fields[1] << 8 | fields[2] << 16;
        }
    return NOTHING;
}

/* The row of a power state word, or null: where the platform coordinates only the first state of a class may
 * be asked of a domain. */
static const struct psci_row *row_of(const struct psci_machine *m, bool initiated, uint32_t word) {
    for (uint32_t at = 0; at < m->many_rows; at++) {
        const struct psci_row *row = &m->rows[at];
        if ((word & row->mask) != row->word)
            continue;
        for (uint32_t level = 1; level < 4 && !initiated; level++)
            if (row->states[level] && depth(m, level, row->states[level]) == depth(m, level, row->states[level] - 1))
                return NULL;
        return row;
    }
    return NULL;
}

static uint32_t board_word(const struct naming *n, const uint8_t states[4]) {
    uint32_t depths[4], word = 0, highest = 0;
    if (!depths_of(&n->machine, states, depths))
        return NOTHING;
    for (uint32_t level = 0; level < 4; level++) {
        word |= depths[level] << 4 * level;
        highest = depths[level] ? level : highest;
    }
    bool is_down = depths[0] == POWER_DOWN;
    return n->board.format == PSCI_EXTENDED_FORMAT ? word | is_down << 30 : word | is_down << 16 | highest << 24;
}

static void ask_states(const uint8_t states[4], struct psci_asked *asked) {
    asked->what = PSCI_ASKS_STATES;
    memcpy(asked->states, states, sizeof asked->states);
}

static void suspend(const struct naming *n, bool initiated, uint64_t x[4], struct psci_asked *asked) {
    const struct psci_row *row = row_of(&n->machine, initiated, (uint32_t)x[1]);
    x[1] = row ? board_word(n, row->states) : NOTHING;
    if (row)
        ask_states(row->states, asked);
}

static void reset(const struct psci_machine *m, uint64_t x[4], struct psci_asked *asked) {
    x[1] = (uint32_t)x[1];
    for (uint32_t at = 0; at < m->many_resets; at++)
        if (x[1] == m->resets[at]) {
            *asked = (struct psci_asked){.what = PSCI_ASKS_RESET, .reset = m->resets[at]};
            x[1] = 0;
            return;
        }
}

void naming_call(const struct naming *n, bool initiated, uint64_t x[4], struct psci_asked *asked) {
    const struct psci_machine *m = &n->machine;
    uint32_t word = (uint32_t)x[0];
    uint64_t target = word >> 30 & 1 ? x[1] : (uint32_t)x[1];
    *asked = (struct psci_asked){.what = PSCI_ASKS_NOTHING};
    if (is_lacking(m, word)) {
        x[0] = 0;
        return;
    }
    switch (word) {
    case 0x84000001: case 0xc4000001: suspend(n, initiated, x, asked); break;
    case 0x84000003: case 0xc4000003: x[1] = named(n, target, 0); break;
    case 0x84000004: case 0xc4000004: case 0x8400000d: case 0xc400000d:
        x[1] = named(n, target, (uint32_t)x[2]);
        break;
    case 0x8400000a: x[1] = is_lacking(m, (uint32_t)x[1]) ? 0 : (uint32_t)x[1]; break;
    case 0x8400000e: case 0xc400000e: ask_states(m->system, asked); break;
    case 0x84000012: case 0xc4000012: reset(m, x, asked); break;
    }
}
