/* A target for what machines call their cores, power states and functions (docs/compare/BESIDE.md). An input is a
 * machine, mostly without a fault, and calls in its words. What opens, and what is refused with which
 * number, has to be as naming.c has it; then the machine's calls stand beside those that naming.c makes of
 * them, on a second firmware that knows of no machine: answers, messages and what is asked have to be alike.
 *
 * Without a fuzzer it is run as main.c says. At its end it says how many machines had which fault. */
#include "fuzz.h"
#include "heap.h"
#include "naming.h"

#include <inttypes.h>
#include <stdio.h>
#include <stdlib.h>
#include <string.h>

static struct naming n;
static struct psci_place by_machine, by_board;
static struct psci_ctl_place controller;
static bool initiated, runs[PSCI_MOST_CORES];
static uint64_t lists, calls, asked_for[PSCI_ASKS_RESET + 1], faults[PSCI_MACHINE_BAD_FUNCTIONS + 1];

static void hold(bool holds, const char *what) {
    if (holds)
        return;
    fprintf(stderr, "machines: %s\n", what);
    abort();
}

/* ---- Draws */

static const uint8_t *in, *end;

static uint8_t byte(void) { return in < end ? *in++ : 0; }
static uint32_t below(uint32_t many) { return byte() % many; }
static bool rarely(void) { return byte() >= 244; }

/* Each domain has one to four children, and there are at most 64 cores. */
static void draw_board(void) {
    n.board = (struct psci_board){.height = 1 + below(3), .format = below(2), .starts = 1000, .lives = 3,
                                  .boot = 0x40000000, .many_ranges = 1, .ranges = {{0x40000000, 0x40100000}}};
    uint32_t shape = byte();
    for (uint32_t level = n.board.height, many = 1; level-- > 0;) {
        struct psci_level *it = &n.board.levels[level];
        uint32_t children = 0;
        it->nodes = many;
        for (uint32_t node = 0; node < many; node++)
            children += it->children[node] = 1 + (shape & 128 ? below(4) : shape >> 2 * level & 3);
        many = children;
    }
    naming_of_board(&n);
}

/* MPIDRs by the fields of the tree, shifted or not, with gaps, and beginning with any core. */
static void draw_mpidrs(void) {
    struct psci_machine *m = &n.machine;
    uint32_t how = byte(), shift = how & 1 ? 8 : 0, step = how & 2 ? 2 : 1;
    uint64_t above = how & 4 ? UINT64_C(1) << 32 : 0;
    m->many_mpidrs = n.cores;
    for (uint32_t core = 0; core < n.cores; core++) {
        const uint8_t *fields = n.fields[core];
        m->mpidrs[core] = above | (uint64_t)(fields[0] | fields[1] * step << 8 | (shift ? 0 : fields[2] << 16)) << shift;
        if (shift && n.board.height == 3)
            m->mpidrs[core] |= (uint64_t)fields[2] << 32;
    }
    n.boot = m->mpidrs[how & 8 ? below(n.cores) : 0];
}

static void draw_states(uint8_t states[4]) {
    uint32_t many = below(n.board.height + 1);
    for (uint32_t level = 0; level <= many; level++) {
        uint32_t kept = n.machine.standby[level] + n.machine.retention[level];
        states[level] = rarely() ? byte() : (level == 0) + below(kept + 3);
    }
}

static void draw_row(struct psci_row *row) {
    uint32_t mask = byte();
    draw_states(row->states);
    bool is_down = row->states[0] > n.machine.standby[0] + n.machine.retention[0];
    row->word = byte() | (n.board.format ? (uint32_t)is_down << 30 : (uint32_t)is_down << 16 | below(4) << 24);
    row->mask = mask < 128 ? UINT32_MAX : mask < 192 ? 0xffffff00 : mask < 250 ? 0xfffffff0 : ~(1u << below(32));
    row->word &= row->mask;
    if (rarely())
        row->word ^= 1u << below(32);
}

static void draw_functions(void) {
    struct psci_machine *m = &n.machine;
    uint32_t set = byte();
    m->functions = set < 192 ? 0xff & ~(1u << set % 8) : set;
    if (!rarely())
        m->functions |= m->functions & PSCI_HAS_CPU_OFF ? PSCI_HAS_CPU_ON : 0;
    for (uint32_t level = 0; level <= n.board.height; level++)
        m->system[level] = m->standby[level] + m->retention[level] + 1;
    if (!rarely() && !(m->functions & PSCI_HAS_CPU_SUSPEND))
        m->functions &= ~PSCI_HAS_SYSTEM_SUSPEND;
    if (m->levels < n.board.height && !rarely())
        m->functions &= ~PSCI_HAS_SYSTEM_SUSPEND;
    m->many_resets = m->functions & PSCI_HAS_SYSTEM_RESET2 || rarely() ? below(4) : 0;
    for (uint32_t at = 0; at < m->many_resets; at++)
        m->resets[at] = 1u << 31 | byte();
}

static void draw_machine(void) {
    struct psci_machine *m = &n.machine;
    memset(m, 0, sizeof *m);
    draw_mpidrs();
    m->levels = n.board.height - (byte() >= 224);
    uint32_t classes = byte();
    for (uint32_t level = 0; level < 4; level++) {
        m->standby[level] = classes >> 2 * level & 1;
        m->retention[level] = classes >> (2 * level + 1) & 1;
    }
    m->many_rows = below(4);
    for (uint32_t at = 0; at < m->many_rows; at++)
        draw_row(&m->rows[at]);
    draw_functions();
    /* some bytes of the struct as they come, most of them of its head */
    for (uint32_t many = byte() >= 224 ? 1 + below(2) : 0; many; many--) {
        size_t at = rarely() ? (byte() << 8 | byte()) % sizeof *m : below(80);
        ((uint8_t *)m)[at] = byte();
    }
    if (rarely())
        m->mpidrs[below(n.cores)] = rarely() ? UINT64_C(1) << below(64) : m->mpidrs[0];
    if (rarely())
        n.boot ^= 1u << below(32);
}

/* ---- Calls */

/* Both firmwares enter, or the power controller has done with a message of theirs. */
static void enter(uint16_t core) {
    struct psci_ctl_start start;
    struct psci_answer one, other;
    psci_ctl_started(&controller, core, &start);
    psci_enter(&by_machine, core, start.life, start.number, start.cause, &one);
    psci_enter(&by_board, core, start.life, start.number, start.cause, &other);
    hold(one.what == other.what && one.message.some == other.message.some, "an entry");
    runs[core] = one.what != PSCI_STOP;
    initiated = initiated && start.cause != PSCI_CAUSE_BOOT;
}

static void settle(const struct psci_frame *message) {
    struct psci_ctl_answer done;
    psci_ctl_deliver(&controller, message->bytes, PSCI_FRAME_LEN, &done);
    if (done.what == PSCI_CTL_OFF || done.what == PSCI_CTL_RESTART)
        memset(runs, false, sizeof runs);
    if (done.ack.some) {
        uint32_t one = psci_take(&by_machine, done.ack.bytes, PSCI_FRAME_LEN);
        hold(one == psci_take(&by_board, done.ack.bytes, PSCI_FRAME_LEN), "an acknowledgement");
    }
    if (done.what == PSCI_CTL_START || done.what == PSCI_CTL_RESTART)
        enter(done.start.core);
}

static void wake(uint16_t core) {
    struct psci_ctl_answer done;
    psci_ctl_wake(&controller, core, psci_ctl_starts(&controller, core), &done);
    if (done.what == PSCI_CTL_START)
        enter(core);
}

static void draw_call(uint64_t x[4]) {
    static const uint32_t words[] = {
        0x84000001, 0xc4000001, 0x84000001, 0xc4000001, 0x84000003, 0xc4000003, 0x84000004, 0xc4000004,
        0x8400000d, 0xc400000d, 0x8400000a, 0x8400000e, 0xc400000e, 0x84000012, 0xc4000012, 0x8400000f,
        0x84000002, 0x84000008, 0x84000009, 0x84000000, 0x84000005, 0x84000006, 0xc4000002, 0};
    const struct psci_machine *m = &n.machine;
    uint32_t word = words[below(24)];
    if (word == 0x84000008 && !rarely())
        word = 0x8400000f;
    x[0] = word | (rarely() ? UINT64_C(1) << 33 : 0);
    x[1] = m->mpidrs[below(n.cores)] ^ (rarely() ? UINT64_C(1) << below(64) : 0);
    x[2] = below(6) == 5 ? UINT64_C(1) << 32 | below(4) : below(4);
    x[3] = byte();
    if (word == 0x8400000a)
        x[1] = words[below(24)];
    if ((word & ~0x40000000u) == 0x84000001 && m->many_rows)
        x[1] = m->rows[below(m->many_rows)].word ^ (rarely() ? UINT64_C(1) << below(64) : below(2));
    if ((word & ~0x40000000u) == 0x84000012)
        x[1] = m->many_resets && below(2) ? m->resets[below(m->many_resets)] : below(3);
    if (word == 0x8400000f)
        x[1] = below(3);
    uint64_t entry = 0x40000000 + 4 * below(16);
    switch (word & ~0x40000000u) {
    case 0x84000001: case 0x84000003: x[2] = entry; break;
    case 0x8400000e: x[1] = entry; x[2] = x[3]; break;
    }
}

static bool is_same(const struct psci_answer *one, const struct psci_answer *other) {
    return one->what == other->what && one->code == other->code && one->address == other->address &&
           one->context == other->context && one->message.some == other->message.some &&
           memcmp(one->message.bytes, other->message.bytes, PSCI_FRAME_LEN) == 0;
}

static void call(uint16_t core) {
    uint64_t x[4], plain[4];
    struct psci_answer one, other;
    struct psci_asked wanted;
    draw_call(x);
    memcpy(plain, x, sizeof x);
    naming_call(&n, initiated, plain, &wanted);
    psci_smc(&by_machine, core, x[0], x[1], x[2], x[3], &one);
    psci_smc(&by_board, core, plain[0], plain[1], plain[2], plain[3], &other);
    hold(is_same(&one, &other), "a call has another answer");
    hold(one.asked.what == wanted.what && one.asked.reset == wanted.reset &&
             !memcmp(one.asked.states, wanted.states, 4), "a call asks otherwise");
    hold(other.asked.what == PSCI_ASKS_NOTHING, "a call in the board's words asks something beside");
    calls++;
    asked_for[wanted.what]++;
    runs[core] = one.what != PSCI_STOP;
    if ((uint32_t)x[0] == 0x8400000f && one.what == PSCI_RETURN && one.code == 0)
        initiated = (uint32_t)x[1];
    if (one.message.some)
        settle(&one.message);
}

static void names(void) {
    for (uint32_t core = 0; core < n.cores; core++) {
        uint32_t other = naming_core(&n, core);
        hold(psci_core_of(&by_machine, n.machine.mpidrs[core]) == other, "the core of an MPIDR");
        hold(psci_mpidr_of(&by_machine, other) == n.machine.mpidrs[core], "the MPIDR of a core");
        hold(psci_place_of(&by_machine, 0, other) == core, "the place of a core");
    }
}

static void play(void) {
    initiated = false;
    memset(runs, false, sizeof runs);
    hold(psci_open_board(&by_board, &n.board) == PSCI_OPENED && psci_ctl_open_board(&controller, &n.board) == PSCI_OPENED,
         "a board does not open");
    names();
    enter(0);
    while (in < end) {
        uint32_t core = byte() % n.cores, at = 0;
        while (at < n.cores && !runs[(core + at) % n.cores])
            at++;
        if (at == n.cores || below(8) == 0)
            wake(core);
        else
            call((core + at) % n.cores);
    }
}

/* ---- The convention of fuzzers */

static void say_all(void) {
    printf("machines: %" PRIu64 " lists, %" PRIu64 " of them opened, %" PRIu64 " calls, %" PRIu64 " with states, %" PRIu64
           " with a reset\n", lists, faults[0], calls, asked_for[PSCI_ASKS_STATES], asked_for[PSCI_ASKS_RESET]);
    for (uint32_t fault = PSCI_MACHINE_NO_ROOM; fault <= PSCI_MACHINE_BAD_FUNCTIONS; fault++)
        printf("fault %" PRIu32 ": %" PRIu64 "\n", fault, faults[fault]);
}

int LLVMFuzzerTestOneInput(const uint8_t *data, size_t size) {
    if (!lists++)
        atexit(say_all);
    in = data;
    end = data + size;
    granted = SIZE_MAX;
    draw_board();
    draw_machine();
    uint32_t wanted = naming_fault(&n), opened = psci_open_machine(&by_machine, &n.board, &n.machine, n.boot);
    if (opened != wanted)
        fprintf(stderr, "machines: fault %" PRIu32 ", and not %" PRIu32 "\n", opened, wanted);
    hold(opened == wanted, "a machine is at fault otherwise");
    faults[opened]++;
    if (opened == PSCI_OPENED)
        play();
    psci_close(&by_machine);
    psci_close(&by_board);
    psci_ctl_close(&controller);
    return 0;
}

/* No peer, and so no report. */
bool is_drawn_blindly, is_drawn_as_stored;
int stories(const char *path) {
    fprintf(stderr, "machines: there are no stories: %s\n", path);
    return 2;
}
