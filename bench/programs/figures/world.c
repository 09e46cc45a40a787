/* What happens. A list is of such parts, behind each a semicolon:
 *   on CORES       a core that runs calls CPU_ON for each of these, and its Start is delivered
 *   pend CORES     the same, and the Start is not delivered
 *   enter CORES    each of these that was started enters
 *   off CORES      each of these that runs calls CPU_OFF
 *   suspend CORES WORD   each of these that runs calls CPU_SUSPEND by this power state word
 *   deepest CORES DEPTH  the same, of this depth and of the highest level at which it is not denied
 *   sleep CORES    each of these that runs calls SYSTEM_SUSPEND
 *   deliver CORES, take CORES    what is outstanding of these reaches the power controller; its answers the firmware
 *   wake CORES, reset CORES      a wake-up of each of these, or a reset
 *   mode NUMBER    a core that runs sets this mode
 *   halt, life     a core that runs resets the system; and the next life begins
 * CORES are FIRST-LAST or FIRST-LAST/STEP. */
#include "world.h"

#include <stdio.h>
#include <stdlib.h>
#include <string.h>

enum { ROOM = 8 << 20 };
struct psci_place firmware;
struct psci_ctl_place controller;
struct psci_poller poller;
struct psci_board board;
struct psci_machine words;
unsigned cores, height;
bool has_machine, is_initiated;
static _Alignas(16) unsigned char memory[ROOM], kept_memory[ROOM];
static struct psci_frame acks[MOST + 1];
static struct kept {
    struct psci_place firmware;
    struct psci_ctl_place controller;
    struct psci_poller poller;
    struct psci_frame acks[MOST + 1];
    bool is_initiated;
    size_t taken;
} kept;

/* The heap: blocks in a row, of which none is given twice -------------------------------------- */

static size_t taken;
static long requests, refused;
static unsigned char nowhere[16];

void heap_refuse(long number) {
    requests = 0;
    refused = number;
}
long heap_requests(void) { return requests; }

struct psci_block rattle_alloc(size_t size, size_t align) {
    size_t end = taken + (size + 15) / 16 * 16 + 16;
    if (++requests == refused || end > ROOM || align > 16)
        return (struct psci_block){0, nowhere};
    void *block = memory + taken;
    taken = end;
    return (struct psci_block){1, block};
}
struct psci_block rattle_realloc(void *block, size_t was, size_t size, size_t align) {
    struct psci_block made = rattle_alloc(size, align);
    if (made.ok)
        memcpy(made.block, block, was < size ? was : size);
    return made;
}
void rattle_dealloc(void *block) { (void)block; }

/* Boards and machines ------------------------------------------------------------------------- */

/* A tree of so many children of each node, from the cores' level up. */
static void describe(unsigned a, unsigned b, unsigned c) {
    const unsigned width[3] = {a, b, c};
    unsigned nodes = 1;
    height = c ? 3 : b ? 2 : 1;
    board = (struct psci_board){.height = height, .starts = UINT32_MAX, .lives = 65535, .boot = 0x40000000,
                                .many_ranges = 4,
                                .ranges = {{0, 0x1000}, {0x10000000, 0x10001000}, {0x20000000, 0x20001000},
                                           {0x40000000, 0x40100000}}};
    for (unsigned level = height; level > 0; level--) {
        board.levels[level - 1].nodes = (uint16_t)nodes;
        for (unsigned node = 0; node < nodes; node++)
            board.levels[level - 1].children[node] = (uint16_t)width[level - 1];
        nodes *= width[level - 1];
    }
    cores = nodes;
}

uint64_t affinity_of(unsigned core) {
    unsigned a = board.levels[0].children[0], b = height > 1 ? board.levels[1].children[0] : 1;
    return core % a | (uint64_t)(core / a % b) << 8 | (uint64_t)(core / a / b) << 16;
}

uint64_t called(unsigned core) {
    return has_machine ? psci_mpidr_of(&firmware, (uint16_t)core) : affinity_of(core);
}

uint32_t state_word(unsigned level, unsigned depth) {
    uint32_t word = level << 24 | (uint32_t)(depth == 3) << 16;
    for (unsigned at = 0; at <= level; at++)
        word |= depth << 4 * at;
    return word;
}

/* MPIDRs by fields, the core in the second one (`fields`), or in no order (`strewn`). As many power states as there may
 * be, the ones that the lists ask for last. */
static bool name_machine(const char *name) {
    uint64_t state = 0x9e3779b97f4a7c15;
    bool is_strewn = strcmp(name, "strewn") == 0;
    unsigned row = PSCI_MOST_ROWS;
    words = (struct psci_machine){.levels = height, .functions = 0xff, .many_mpidrs = cores, .many_rows = PSCI_MOST_ROWS,
                                  .many_resets = 1, .resets = {0x80000000}};
    for (unsigned level = 0; level <= height; level++) {
        words.standby[level] = words.retention[level] = 1;
        words.system[level] = 3;
    }
    for (unsigned core = 0; core < cores; core++) {
        state ^= state << 13, state ^= state >> 7, state ^= state << 17;
        uint64_t word = affinity_of(core);
        words.mpidrs[core] = is_strewn ? state & 0xff00ffffff : (word & 0xff0000) << 16 | (word & 0xffff) << 8;
    }
    for (unsigned level = 0; level <= height; level++)
        for (unsigned depth = 1; depth <= 3; depth++) {
            words.rows[--row] = (struct psci_row){.word = state_word(level, depth), .mask = UINT32_MAX};
            memset(words.rows[row].states, (int)depth, level + 1);
        }
    while (row-- > 0)
        words.rows[row] = (struct psci_row){0x1000u | row, UINT32_MAX, {1}};
    return is_strewn || strcmp(name, "fields") == 0;
}

bool world_open(const char *name, const char *of_machine) {
    static const struct { const char *name; unsigned a, b, c; } known[] = {
        {"1", 1, 0, 0}, {"3", 3, 0, 0}, {"2x2", 2, 2, 0}, {"2x2x2", 2, 2, 2}, {"16x4", 16, 4, 0}, {"16x16", 16, 16, 0},
        {"16x4x4", 16, 4, 4}, {"1x16x16", 1, 16, 16},
    };
    size_t at = 0, many = sizeof known / sizeof *known;
    while (at < many && strcmp(known[at].name, name))
        at++;
    if (at == many)
        return false;
    describe(known[at].a, known[at].b, known[at].c);
    taken = 0;
    heap_refuse(0);
    firmware = (struct psci_place){0};
    controller = (struct psci_ctl_place){0};
    poller = (struct psci_poller){0};
    has_machine = strcmp(of_machine, "board") != 0;
    if (has_machine && !name_machine(of_machine))
        return false;
    /* the core that boots a machine is the last one of the tree */
    uint32_t opened = has_machine ? psci_open_machine(&firmware, &board, &words, words.mpidrs[cores - 1])
                                  : psci_open_board(&firmware, &board);
    return opened == PSCI_OPENED && psci_ctl_open_board(&controller, &board) == PSCI_OPENED
        && psci_open_poller(&firmware, &poller) == PSCI_OPENED;
}

void world_keep(void) {
    kept = (struct kept){firmware, controller, poller, .is_initiated = is_initiated, .taken = taken};
    memcpy(kept.acks, acks, sizeof acks);
    memcpy(kept_memory, memory, kept.taken);
}

void world_back(void) {
    firmware = kept.firmware, controller = kept.controller, poller = kept.poller;
    is_initiated = kept.is_initiated;
    memcpy(acks, kept.acks, sizeof acks);
    taken = kept.taken;
    memcpy(memory, kept_memory, taken);
}

/* What happens -------------------------------------------------------------------------------- */

static struct psci_answer answer;

static bool call(unsigned core, uint64_t x0, uint64_t x1, uint64_t x2) {
    psci_smc(&firmware, (uint16_t)core, x0, x1, x2, 7, &answer);
    return answer.what == PSCI_STOP;
}

unsigned running_from(unsigned core) {
    for (unsigned i = 0; i < cores; i++)
        if (psci_running(&firmware, (uint16_t)((core + i) % cores)))
            return (core + i) % cores;
    return cores;
}

/* The outstanding message of a core, or of the system, is delivered. */
static void deliver(unsigned number) {
    struct psci_frame frame;
    struct psci_ctl_answer done;
    psci_outstanding(&firmware, (uint16_t)number, &frame);
    if (!frame.some)
        return;
    psci_ctl_deliver(&controller, frame.bytes, sizeof frame.bytes, &done);
    acks[number] = done.ack;
}

static void enter(unsigned core) {
    struct psci_ctl_start start;
    psci_ctl_started(&controller, (uint16_t)core, &start);
    if (start.number && (start.life != psci_life(&firmware) || start.number > psci_known(&firmware, (uint16_t)core))) {
        is_initiated = is_initiated && start.life == psci_life(&firmware);
        psci_enter(&firmware, (uint16_t)core, start.life, start.number, start.cause, &answer);
    }
}

static void suspend_deepest(unsigned core, unsigned depth) {
    for (unsigned level = height + 1; level-- > 0;)
        if (call(core, 0xc4000001, state_word(level, depth), ENTRY))
            return;
}

/* What a core that runs calls, of this list's part. */
static bool calls(const char *what, unsigned core, uint64_t number) {
    bool runs = psci_running(&firmware, (uint16_t)core);
    if (strcmp(what, "deepest") == 0) {
        if (runs)
            suspend_deepest(core, (unsigned)number);
        return true;
    }
    uint64_t x0 = strcmp(what, "off") == 0 ? 0x84000002 : strcmp(what, "suspend") == 0 ? 0xc4000001
        : strcmp(what, "sleep") == 0 ? 0xc400000e : 0;
    if (x0 && runs)
        call(core, x0, x0 == 0xc400000e ? ENTRY : number, x0 == 0xc4000001 ? ENTRY : 0);
    return x0;
}

/* One part of a list, of one core. */
static bool happens(const char *what, unsigned core, uint64_t number) {
    struct psci_ctl_answer done;
    if (strcmp(what, "on") == 0 || strcmp(what, "pend") == 0) {
        call(running_from(0), 0xc4000003, called(core), ENTRY);
        if (*what == 'o')
            deliver(core);
    } else if (strcmp(what, "enter") == 0)
        enter(core);
    else if (strcmp(what, "deliver") == 0)
        deliver(core);
    else if (strcmp(what, "take") == 0) {
        if (acks[core].some)
            psci_take(&firmware, acks[core].bytes, PSCI_FRAME_LEN);
    } else if (strcmp(what, "wake") == 0)
        psci_ctl_wake(&controller, (uint16_t)core, psci_known(&firmware, (uint16_t)core), &done);
    else if (strcmp(what, "reset") == 0)
        psci_ctl_reset(&controller, (uint16_t)core, &done);
    else
        return calls(what, core, number);
    return true;
}

/* One part of a list without cores. */
static bool happens_to_all(const char *what, uint64_t number) {
    if (strcmp(what, "mode") == 0) {
        call(running_from(0), 0x8400000f, number, 0);
        is_initiated = answer.what == PSCI_RETURN && answer.code == 0 ? number : is_initiated;
    } else if (strcmp(what, "halt") == 0 || strcmp(what, "life") == 0) {
        call(running_from(0), 0x84000009, 0, 0);
        if (*what == 'l') {
            deliver(cores);
            enter(0);
        }
    } else
        return false;
    return true;
}

static bool part(const char *text) {
    char what[16];
    unsigned first, last, step = 1;
    unsigned long long number = 0;
    int read = 0;
    if (sscanf(text, " %15[a-z]%n", what, &read) != 1)
        return false;
    if (happens_to_all(what, strtoull(text + read, NULL, 0)))
        return true;
    text += read;
    if (sscanf(text, " %u-%u%n", &first, &last, &read) != 2 || last >= cores)
        return false;
    text += read;
    if (*text == '/')
        step = (unsigned)strtoul(text + 1, (char **)&text, 10);
    number = strtoull(text, NULL, 0);
    for (unsigned core = first; step && core <= last; core += step)
        if (!happens(what, core, number))
            return false;
    return step;
}

bool world_play(const char *list) {
    char text[512];
    is_initiated = false;
    memset(acks, 0, sizeof acks);
    enter(0);
    if (snprintf(text, sizeof text, "%s", list) >= (int)sizeof text)
        return false;
    for (char *at = strtok(text, ";"); at; at = strtok(NULL, ";"))
        if (at[strspn(at, " ")] && !part(at))
            return false;
    return true;
}
