/* Tests the C library where no script of hosts/loop.c comes: numbers of refusals, openings in ever
 * less memory, what a call writes and a core leaves with, and how much stack it takes. What is
 * wanted is written here, by include/psci.h, include/psci_port.h and docs/port/FORMATS.md. The last
 * line is 'stack N', by the call that took most. */
#define _XOPEN_SOURCE 700
#include "pool.h"
#include "psci_port.h"

#include <pthread.h>
#include <stdatomic.h>
#include <stdio.h>
#include <stdlib.h>
#include <string.h>
#include <ucontext.h>

static int failed;

static void want(const char *what, uint64_t wanted, uint64_t got) {
    if (wanted != got) {
        printf("%s: wanted %llu, got %llu\n", what, (unsigned long long)wanted,
               (unsigned long long)got);
        failed = 1;
    }
}

/* A stack of its own for each call ----------------------------------------------------------- */

enum { STACK = 65536, PAINT = 0x5a };
static _Alignas(16) unsigned char stack[STACK];
static ucontext_t outside, inside;
static size_t most_stack;

/* Makes a call on a stack that is painted first, and looks how far down the paint is gone. */
static void on_painted(void (*call)(void)) {
    size_t left = 0;
    memset(stack, PAINT, STACK);
    getcontext(&inside);
    inside.uc_stack.ss_sp = stack;
    inside.uc_stack.ss_size = STACK;
    inside.uc_link = &outside;
    makecontext(&inside, call, 0);
    swapcontext(&outside, &inside);
    while (left < STACK && stack[left] == PAINT)
        left++;
    if (STACK - left > most_stack)
        most_stack = STACK - left;
}

/* The calls. Round the place and the answer stand bytes that no call may write. */
static struct { uint64_t before; struct psci_place it; uint64_t after; } place;
static struct { uint64_t before; struct psci_answer it; uint64_t after; } answer;
static struct { uint64_t before; struct psci_frame it; unsigned char after[8]; } frame;
static struct { uint64_t before; struct psci_poller it; uint64_t after; } poller;
static const char *text;
static struct psci_board board;
static struct psci_message fields;
static struct { uint64_t before; struct psci_stop it; unsigned char after[8]; } stop;
static uint16_t core;
static uint64_t x[4];
static uint32_t life, number, cause, code;
static size_t length;
static uint64_t affinity;
static int32_t polled;

static void do_open(void) {
    code = psci_open(&place.it, (const uint8_t *)text, strlen(text));
}
static void do_open_board(void) { code = psci_open_board(&place.it, &board); }
static void do_decode(void) { code = psci_decode(&place.it, frame.it.bytes, length, &fields); }
static void do_encode(void) { psci_encode(&fields, &frame.it); }
static void do_close(void) { psci_close(&place.it); }
static void do_smc(void) { psci_smc(&place.it, core, x[0], x[1], x[2], x[3], &answer.it); }
static void do_enter(void) { psci_enter(&place.it, core, life, number, cause, &answer.it); }
static void do_stop(void) { psci_stop(&place.it, core, x[0], &stop.it); }
static void do_take(void) { code = psci_take(&place.it, frame.it.bytes, length); }
static void do_outstanding(void) { psci_outstanding(&place.it, core, &frame.it); }
static void do_open_poller(void) { code = psci_open_poller(&place.it, &poller.it); }
static void do_close_poller(void) { psci_close_poller(&poller.it); }
static void do_poll(void) { polled = psci_poll(&poller.it, affinity); }
static void do_read(void) {
    psci_life(&place.it);
    psci_halting(&place.it);
    psci_status(&place.it, 3, 0);
    psci_hw(&place.it, 3, 0);
    psci_granted(&place.it, 3, 0);
    psci_known(&place.it, core);
    psci_running(&place.it, core);
    psci_cores(&place.it);
    psci_height(&place.it);
    psci_nodes(&place.it, 1);
    psci_children(&place.it, 1, 0);
}

static void make(void (*call)(void)) {
    place.before = place.after = answer.before = answer.after = frame.before = 0x1122334455667788;
    poller.before = poller.after = 0x1122334455667788;
    memset(frame.after, PAINT, sizeof frame.after);
    memset(stop.after, PAINT, sizeof stop.after);
    stop.before = place.before;
    on_painted(call);
    want("what stands round a stop", 1, stop.before == 0x1122334455667788
        && stop.after[0] == PAINT && stop.after[7] == PAINT);
    want("what stands round a place", 1, place.before == 0x1122334455667788
        && place.after == 0x1122334455667788);
    want("what stands round a poller", 1, poller.before == 0x1122334455667788
        && poller.after == 0x1122334455667788);
    want("what stands round an answer", 1, answer.before == 0x1122334455667788
        && answer.after == 0x1122334455667788);
    want("what stands round a frame", 1, frame.before == 0x1122334455667788
        && frame.after[0] == PAINT && frame.after[7] == PAINT);
}

static uint32_t open_text(const char *board) {
    text = board;
    make(do_open);
    return code;
}

static uint32_t open_board(const struct psci_board *given) {
    board = *given;
    make(do_open_board);
    return code;
}

static uint32_t smc(uint16_t caller, uint64_t x0, uint64_t x1, uint64_t x2, uint64_t x3) {
    core = caller, x[0] = x0, x[1] = x1, x[2] = x2, x[3] = x3;
    make(do_smc);
    return answer.it.what;
}

/* The stop of a core after a call with this x0: its depths by level, then whether a wake-up may end it. */
static uint32_t stop_of(uint16_t caller, uint64_t x0) {
    core = caller, x[0] = x0;
    memset(&stop.it, PAINT, sizeof stop.it);
    make(do_stop);
    return (uint32_t)stop.it.depths[0] << 16 | stop.it.depths[1] << 12 | stop.it.depths[2] << 8
        | stop.it.depths[3] << 4 | stop.it.wakes;
}

static uint32_t enter(uint16_t entering, uint32_t of_life, uint32_t by, uint32_t because) {
    core = entering, life = of_life, number = by, cause = because;
    make(do_enter);
    return answer.it.what;
}

/* Takes what the answer sent as an acknowledgement, with this byte of it changed. */
static uint32_t take_changed(size_t at, uint8_t byte, size_t bytes) {
    frame.it = answer.it.message;
    frame.it.bytes[2] |= 0x10;
    memset(frame.it.bytes + 13, 0, PSCI_FRAME_LEN - 13);
    frame.it.bytes[at] = byte;
    length = bytes;
    make(do_take);
    return code;
}

static uint32_t open_poller(void) {
    make(do_open_poller);
    return code;
}

static int32_t poll_core(uint64_t word) {
    affinity = word;
    make(do_poll);
    return polled;
}

/* The tests ---------------------------------------------------------------------------------- */

#define REST " exec 0x40000000-0x40100000 boot 0x40000000 starts 3 lives 3"
static const char small[] = "(2 2)" REST;
static const char *const large = "((16 16 16 16) (16 16 16 16) (16 16 16 16) (16 16 16 16))" REST;

/* An empty place refuses each call, or reads as before any core has entered. */
static void empty_place(void) {
    struct psci_place none = {0};
    want("an empty place, smc", PSCI_NO_FIRMWARE, smc(0, 0x84000000, 0, 0, 0));
    want("an empty place, enter", PSCI_NO_FIRMWARE, enter(0, 1, 1, PSCI_CAUSE_BOOT));
    want("an empty place, a start of no cause", PSCI_NO_CAUSE, enter(0, 1, 1, 4));
    want("an empty place, take", PSCI_NO_FIRMWARE, take_changed(0, 0, 0));
    want("an empty place, status", PSCI_NO_FIRMWARE, psci_status(&none, 0, 0));
    want("an empty place, hardware", PSCI_NO_FIRMWARE, psci_hw(&none, 0, 0));
    want("an empty place, granted", PSCI_NO_FIRMWARE, psci_granted(&none, 0, 0));
    want("the version of the headers", PSCI_VERSION_OF_LIBRARY, psci_version_of_library());
    want("an empty place, life", 0, psci_life(&none));
    want("an empty place, a stop", 0, stop_of(0, 0xc4000001));
    psci_close(&none);
    want("an empty place, closed", 1, !none.full && !none.firmware);
}

/* Each fault of a board text; the firmware that was there stays. */
static void faulty_texts(void) {
    want("grammar", PSCI_BOARD_GRAMMAR, open_text("(2 2)"));
    want("uneven", PSCI_BOARD_UNEVEN, open_text("(2 (2))" REST));
    want("too wide", PSCI_BOARD_TOO_WIDE, open_text("17" REST));
    want("too many cores", PSCI_BOARD_TOO_MANY_CORES,
         open_text("((16 16 16 16 16) (16 16 16 16 16) (16 16 16 16 16) (16 16))" REST));
    want("bad range", PSCI_BOARD_BAD_RANGE,
         open_text("2 exec 0x4-0x4 boot 0x4 starts 1 lives 1"));
    want("bad boot", PSCI_BOARD_BAD_BOOT,
         open_text("2 exec 0x0-0x8 boot 0x2 starts 1 lives 1"));
    want("bad limit", PSCI_BOARD_BAD_LIMIT,
         open_text("2 exec 0x0-0x8 boot 0x0 starts 0 lives 1"));
}

/* A board as a struct, and what is read of it; each fault of one, and what is not looked at. */
static const struct psci_board plain_board = {
    .height = 3,
    .format = PSCI_EXTENDED_FORMAT,
    .starts = 3,
    .lives = 3,
    .boot = 0x40000000,
    .many_ranges = 2,
    .ranges = {{0, 8}, {0x40000000, 0x40100000}, {7, 7}},
    .levels = {{3, {1, 2, 16, 99}}, {2, {1, 2}}, {1, {2}}},
};

static void boards(void) {
    struct psci_board given = plain_board;
    want("a board", PSCI_OPENED, open_board(&given));
    want("cores", 19, psci_cores(&place.it));
    want("height", 3, psci_height(&place.it));
    want("clusters", 3, psci_nodes(&place.it, 1));
    want("groups", 2, psci_nodes(&place.it, 2));
    want("the system", 1, psci_nodes(&place.it, 3));
    want("above it", 0, psci_nodes(&place.it, 4));
    want("cores of a cluster", 16, psci_children(&place.it, 1, 2));
    want("clusters of a group", 2, psci_children(&place.it, 2, 1));
    want("of no group", 0, psci_children(&place.it, 2, 2));
    want("of a core", 0, psci_children(&place.it, 0, 0));
    want("enters at the boot address", PSCI_ENTER, enter(0, 1, 1, PSCI_CAUSE_BOOT));
    want("which is", 0x40000000, answer.it.address);
    want("in the extended format", 3, smc(0, 0x8400000a, 0xc4000001, 0, 0) ? 0 : answer.it.code);
#define FAULT(name, wanted, change) \
    given = plain_board, change, want(name, wanted, open_board(&given))
    FAULT("no level", PSCI_BOARD_GRAMMAR, given.height = 0);
    FAULT("four levels", PSCI_BOARD_GRAMMAR, given.height = 4);
    FAULT("too many nodes", PSCI_BOARD_GRAMMAR, given.levels[0].nodes = 257);
    FAULT("no format", PSCI_BOARD_GRAMMAR, given.format = 2);
    FAULT("uneven", PSCI_BOARD_UNEVEN, given.levels[0].nodes = 2);
    FAULT("two systems", PSCI_BOARD_UNEVEN, given.levels[2] = given.levels[1]);
    FAULT("too wide", PSCI_BOARD_TOO_WIDE, given.levels[0].children[1] = 17);
    FAULT("no core", PSCI_BOARD_TOO_WIDE, given.levels[0].children[1] = 0);
    FAULT("no range", PSCI_BOARD_BAD_BOOT, given.many_ranges = 0);
    FAULT("five ranges", PSCI_BOARD_BAD_RANGE, given.many_ranges = 5);
    FAULT("an empty range", PSCI_BOARD_BAD_RANGE, given.many_ranges = 3);
    FAULT("boot", PSCI_BOARD_BAD_BOOT, given.boot = 0x40100000);
    FAULT("no start", PSCI_BOARD_BAD_LIMIT, given.starts = 0);
    FAULT("too many lives", PSCI_BOARD_BAD_LIMIT, given.lives = 65536);
    FAULT("a level that is not counted", PSCI_BOARD_UNEVEN, given.height = 2);
#undef FAULT
    given = (struct psci_board){.height = 3, .starts = 1, .lives = 1, .many_ranges = 1,
                                .ranges = {{0, 4}}, .levels = {{17, {0}}, {2, {16, 1}}, {1, {2}}}};
    for (int k = 0; k < 17; k++)
        given.levels[0].children[k] = 16;
    want("too many cores", PSCI_BOARD_TOO_MANY_CORES, open_board(&given));
    want("the firmware that was there", 1, psci_life(&place.it));
    given.levels[0].nodes = 16, given.levels[1].children[1] = 0;
    given.levels[1] = (struct psci_level){1, {16}}, given.levels[2].children[0] = 1;
    want("the largest board", PSCI_OPENED, open_board(&given));
    want("its cores", 256, psci_cores(&place.it));
    want("a new firmware", 0, psci_life(&place.it));
    make(do_close);
    want("cores of none", 0, psci_cores(&place.it));
}

/* What a stop is, by the message of its core and the word of its call. */
static void stops(void) {
    want("opened", PSCI_OPENED, open_text(small));
    enter(0, 1, 1, PSCI_CAUSE_BOOT);
    want("a core that runs", 0, stop_of(0, 0xc4000001));
    smc(0, 0xc4000003, 0x001, 0x40001000, 7);
    want("by a Start", 0, stop_of(1, 0xc4000001));
    enter(1, 1, 1, PSCI_CAUSE_ON);
    smc(1, 0x84000002, 0, 0, 0);
    take_changed(12, 1, PSCI_FRAME_LEN);
    want("all go down", PSCI_STOP, smc(0, 0xc4000001, 0x02010333, 0x40000000, 0));
    want("by CPU_SUSPEND of 64 bits", 0x33301, stop_of(0, 0xc4000001));
    want("by that of 32 bits", 0x33301, stop_of(0, 0x84000001));
    want("by SYSTEM_SUSPEND", 0x33301, stop_of(0, 0x1234567884000000 + 14));
    want("by CPU_OFF", 0x33300, stop_of(0, 0x84000002));
    want("by an entry", 0x33300, stop_of(0, 0));
    want("another core", 0, stop_of(1, 0xc4000001));
    want("the system", 0, stop_of(4, 0xc4000001));
    want("no core", 0, stop_of(5, 0xc4000001));
    make(do_close);
}

/* Frames and their fields, one from the other. */
static void frames(void) {
    want("opened", PSCI_OPENED, open_text(small));
    fields = (struct psci_message){.kind = PSCI_MESSAGE_DOWN, .count = 2, .core = 3, .life = 0x01020304,
                                   .number = 7, .parts = {{0, 3, 7}, {1, 2, 19}, {9, 9, 9}}};
    make(do_encode);
    want("a frame", 1, frame.it.some);
    want("its life", 4, frame.it.bytes[7]);
    want("its second part", 19, frame.it.bytes[32]);
    want("what is not counted", 0, frame.it.bytes[33]);
    fields = (struct psci_message){0};
    length = PSCI_FRAME_LEN;
    make(do_decode);
    want("read", PSCI_USED, code);
    want("a Down", PSCI_MESSAGE_DOWN, fields.kind);
    want("of core 3", 3, fields.core);
    want("in its life", 0x01020304, fields.life);
    want("by its number", 7, fields.number);
    want("of two parts", 2, fields.count);
    want("the first", 1, fields.parts[0].level == 0 && fields.parts[0].depth == 3
        && fields.parts[0].generation == 7);
    want("the second", 1, fields.parts[1].level == 1 && fields.parts[1].depth == 2
        && fields.parts[1].generation == 19);
    want("no third", 0, fields.parts[2].level + fields.parts[2].depth + fields.parts[2].generation);
    fields.count = 3, fields.parts[2].level = 2, fields.parts[2].depth = 1, fields.parts[2].generation = 20;
    make(do_encode);
    fields = (struct psci_message){0};
    make(do_decode);
    want("of three parts", 3, fields.count);
    want("the third", 1, fields.parts[2].level == 2 && fields.parts[2].depth == 1 && fields.parts[2].generation == 20);
    want("no fourth", 0, fields.parts[3].level + fields.parts[3].depth + fields.parts[3].generation);
    length = 52;
    make(do_decode);
    want("a short frame", PSCI_FRAME_LENGTH, code);
    want("reads nothing", PSCI_MESSAGE_DOWN, fields.kind);
    fields.kind = PSCI_MESSAGE_START + PSCI_STALE_ACK, fields.count = 0;
    make(do_encode);
    want("a stale acknowledgement", 0x22, frame.it.some ? frame.it.bytes[2] : 0);
    want("without parts", 0, frame.it.bytes[13] + frame.it.bytes[14]);
#define NONE(name, change) change, make(do_encode), want(name, 0, frame.it.some)
    NONE("applied twice", fields.count = 2);
    NONE("no such kind", fields.kind = 5);
    NONE("a Start with parts", (fields.kind = PSCI_MESSAGE_START, fields.count = 1));
    NONE("a Down without parts", (fields.kind = PSCI_MESSAGE_DOWN, fields.count = 0));
    NONE("five parts", fields.count = 5);
    NONE("no core in a byte", (fields.count = 1, fields.core = 256));
    NONE("a depth of 4", (fields.core = 3, fields.parts[0].depth = 4));
    NONE("a part deeper than the one below it", (fields.count = 2, fields.parts[0].depth = 1));
#undef NONE
    fields.count = 1, fields.parts[0].depth = 3;
    make(do_encode);
    want("a frame again", 1, frame.it.some);
    make(do_close);
}

/* What is read of cores that run, are pending or off, and of their clusters; and of a life that ends. */
static void readers(void) {
    want("opened", PSCI_OPENED, open_text(small));
    enter(0, 1, 1, PSCI_CAUSE_BOOT);
    smc(0, 0xc4000003, 0x001, 0x40001000, 7);
    want("core 1 is asked on", PSCI_STATUS_PENDING, psci_status(&place.it, 0, 1));
    want("its hardware", PSCI_HW_ON, psci_hw(&place.it, 0, 1));
    want("its grant", 0, psci_granted(&place.it, 0, 1));
    want("that of the other cluster", 3, psci_granted(&place.it, 1, 1));
    want("no start of its is known", 0, psci_known(&place.it, 1));
    want("one of core 0 is", 1, psci_known(&place.it, 0));
    want("it does not run", 0, psci_running(&place.it, 1));
    want("core 0 does", 1, psci_running(&place.it, 0));
    want("it goes on", 0, psci_halting(&place.it));
    want("off", PSCI_STOP, smc(0, 0x84000008, 0, 0, 0));
    want("it halts", 1, psci_halting(&place.it));
    make(do_close);
}

/* A machine whose last core boots. Its cluster has a state in standby, two in retention, and others that power down. */
static const struct psci_board clusters = {
    .height = 2, .starts = 3, .lives = 3, .boot = 0x40000000, .many_ranges = 1,
    .ranges = {{0x40000000, 0x40100000}}, .levels = {{2, {2, 2}}, {1, {2}}},
};
static const struct psci_machine plain_machine = {
    .levels = 2, .functions = 0xff, .many_mpidrs = 4, .many_rows = 4, .many_resets = 3, .standby = {0, 1},
    .retention = {0, 2}, .system = {1, 4, 1}, .resets = {0x80000005, 0x80000006, 0x80000007},
    .rows = {{0x01010001, UINT32_MAX, {1, 1}}, {0x01010002, UINT32_MAX, {1, 2}}, {0x01010003, UINT32_MAX, {1, 3}},
             {0x01010100, 0xffffff00, {1, 4}}},
    .mpidrs = {0x10000, 0x10001, 0x10100, 0x10101},
};

static uint32_t open_machine(const struct psci_board *given, const struct psci_machine *machine, uint64_t boot) {
    return psci_open_machine(&place.it, given, machine, boot);
}

/* What its calls are to the firmware, what they ask besides, where a node is, and a poll in its words. */
static void machines(void) {
    static const struct { uint32_t word, state, depth; } words[] = {
        {0x01010001, 1, 1}, {0x01010002, 2, 2}, {0x01010003, 3, 2}, {0x010101ff, 4, 3}};
    for (size_t at = 0; at < sizeof words / sizeof *words; at++) {
        want("a machine", PSCI_OPENED, open_machine(&clusters, &plain_machine, 0x10101));
        enter(0, 1, 1, PSCI_CAUSE_BOOT);
        if (words[at].state == 3) {
            want("the second in retention", PSCI_RETURN, smc(0, 0xc4000001, words[at].word, 0x40000000, 7));
            want("is not coordinated by the platform", (uint32_t)-2, (uint32_t)answer.it.code);
            want("nor asked", PSCI_ASKS_NOTHING, answer.it.asked.what);
            smc(0, 0x8400000f, 1, 0, 0);
        }
        want("suspended", PSCI_STOP, smc(0, 0xc4000001, words[at].word, 0x40000000, 7));
        want("with its cluster", 0x30001 + (words[at].depth << 12), stop_of(0, 0xc4000001));
        want("states are asked", PSCI_ASKS_STATES, answer.it.asked.what);
        want("that of the cluster", words[at].state, answer.it.asked.states[1]);
    }
    want("a machine again", PSCI_OPENED, open_machine(&clusters, &plain_machine, 0x10101));
    want("its first core", 3, psci_place_of(&place.it, 0, 0));
    want("its first cluster", 1, psci_place_of(&place.it, 1, 0));
    want("the system", 0, psci_place_of(&place.it, 2, 0));
    want("the MPIDR of its last core", 0x10000, psci_mpidr_of(&place.it, 3));
    want("and its number", 3, psci_core_of(&place.it, 0x10000));
    want("a poller", PSCI_OPENED, open_poller());
    enter(0, 1, 1, PSCI_CAUSE_BOOT);
    want("the boot core is on", PSCI_STATUS_ON, poll_core(0x10101));
    want("another one is not", PSCI_STATUS_OFF, poll_core(0x10000));
    want("no core of the machine", (uint32_t)-2, (uint32_t)poll_core(0));
    want("its cluster, by any core of it", PSCI_STATUS_ON, smc(0, 0xc4000004, 0x101ff, 1, 0) ? 9 : answer.it.code);
    want("another one, in 32 bits", PSCI_RETURN, smc(0, 0x84000003, 0x7700010000, 0x40001000, 7));
    want("is asked on by its number", 3, answer.it.message.bytes[3]);
    for (uint32_t type = 0x80000005; type <= 0x80000007; type++) {
        want("a reset of the vendor", PSCI_STOP, smc(0, 0xc4000012, type, 0, 0));
        want("is asked", PSCI_ASKS_RESET, answer.it.asked.what);
        want("by its type", type, answer.it.asked.reset);
        enter(0, type - 0x80000003, 1, PSCI_CAUSE_BOOT);
    }
    make(do_close_poller);
    make(do_close);
}

/* The first fault of a machine, also of two; what is none; and functions that are not there. */
static void faulty_machines(void) {
    struct psci_board tall = {
        .height = 3, .starts = 3, .lives = 3, .boot = 0x40000000, .many_ranges = 1,
        .ranges = {{0x40000000, 0x40100000}}, .levels = {{2, {2, 2}}, {1, {2}}, {1, {1}}},
    };
    struct psci_board three = {
        .height = 2, .starts = 3, .lives = 3, .boot = 0x40000000, .many_ranges = 1,
        .ranges = {{0x40000000, 0x40100000}}, .levels = {{3, {2, 2, 2}}, {1, {3}}},
    };
    struct psci_machine given;
#define FAULT(name, wanted, change) \
    given = plain_machine, change, want(name, wanted, open_machine(&clusters, &given, 0x10101))
    FAULT("a row too many", PSCI_MACHINE_NO_ROOM, given.many_rows = PSCI_MOST_ROWS + 1);
    FAULT("a bit outside, and two of one MPIDR", PSCI_MACHINE_BAD_MPIDR,
          (given.mpidrs[0] = 0x1000000, given.mpidrs[1] = given.mpidrs[2]));
    FAULT("no boot core, and too many levels", PSCI_MACHINE_NO_BOOT_CORE, (given.mpidrs[3] = 5, given.levels = 3));
    FAULT("a reserved bit", PSCI_MACHINE_BAD_WORD, given.rows[0].word = 0x05010001);
    FAULT("a reserved bit, and one word twice", PSCI_MACHINE_BAD_WORD,
          (given.rows[0].word = 0x02020000, given.rows[1] = given.rows[2]));
    FAULT("a word of another type, and no power state", PSCI_MACHINE_WRONG_TYPE,
          (given.rows[0].word = 0x01000001, given.rows[1].states[0] = 16));
    FAULT("a state that there is not", PSCI_MACHINE_BAD_STATES, given.rows[0].states[1] = 16);
    FAULT("a system of which the core goes on", PSCI_MACHINE_BAD_SYSTEM, given.system[0] = 0);
    FAULT("one that does not go down, and no CPU_SUSPEND", PSCI_MACHINE_BAD_SYSTEM,
          (given.system[2] = 0, given.functions -= PSCI_HAS_CPU_SUSPEND));
    FAULT("a system above the levels", PSCI_MACHINE_BAD_SYSTEM, (given.levels = 1, given.system[2] = 0));
    FAULT("an MPIDR of 40 bits", PSCI_OPENED, given.mpidrs[0] = 0x7700000000);
    FAULT("no CPU_OFF and no CPU_SUSPEND", PSCI_OPENED, given.functions = PSCI_HAS_CPU_ON + PSCI_HAS_SYSTEM_RESET2);
#undef FAULT
    enter(0, 1, 1, PSCI_CAUSE_BOOT);
    want("CPU_OFF", (uint32_t)-1, smc(0, 0x84000002, 0, 0, 0) ? 0 : (uint32_t)answer.it.code);
    want("PSCI_SET_SUSPEND_MODE", (uint32_t)-1, smc(0, 0x8400000a, 0x8400000f, 0, 0) ? 0 : (uint32_t)answer.it.code);
    given = plain_machine, given.functions -= PSCI_HAS_SYSTEM_SUSPEND, given.rows[3].states[2] = given.rows[3].states[3] = 1;
    want("a state above the levels", PSCI_MACHINE_BAD_STATES, open_machine(&tall, &given, 0x10101));
    given = plain_machine, given.many_mpidrs = 6, given.mpidrs[4] = 0x10200, given.mpidrs[5] = 0x10201;
    want("a cluster that is on no path", PSCI_OPENED, open_machine(&three, &given, 0x10101));
    want("stays where it is", 4, psci_place_of(&place.it, 0, 4));
    make(do_close);
}

/* A Down of the whole path on the board (2 2), as FORMATS has frames. */
static const uint8_t down_frame[PSCI_FRAME_LEN] = {
    0x50, 0x44, 1, 3, 0x01, 0x02, 0x03, 0x04, 0x05, 0x06, 0x07, 0x08, 2,
    0, 3, 0x11, 0x12, 0x13, 0x14, 0x15, 0x16, 0x17, 0x18,
    1, 2, 0x21, 0x22, 0x23, 0x24, 0x25, 0x26, 0x27, 0x28,
};

/* Its bytes with some changed, by the first fault that they have: of two the one that is told. */
static const struct faulty {
    const char *what;
    uint32_t fault;
    uint8_t change[4][2]; /* where, and to what; 0 ends them */
} faulty[] = {
    {"another first byte", PSCI_FRAME_MAGIC, {{1, 0x45}, {2, 5}}},
    {"no such kind", PSCI_FRAME_KIND, {{2, 5}, {12, 5}}},
    {"a kind byte of no kind", PSCI_FRAME_KIND, {{2, 0x20}}},
    {"a kind byte above the stale ones", PSCI_FRAME_KIND, {{2, 0x31}}},
    {"a Down of no part", PSCI_FRAME_COUNT, {{12, 0}, {3, 4}}},
    {"a Down of five parts", PSCI_FRAME_COUNT, {{12, 5}}},
    {"a Start of one part", PSCI_FRAME_COUNT, {{2, 2}, {12, 1}}},
    {"an Off of one part", PSCI_FRAME_COUNT, {{2, 3}, {12, 1}}},
    {"five parts applied", PSCI_FRAME_COUNT, {{2, 0x11}, {12, 5}}},
    {"a Reset carried out twice", PSCI_FRAME_COUNT, {{2, 0x24}, {12, 2}}},
    {"a part that is not counted", PSCI_FRAME_UNUSED, {{12, 1}, {3, 4}}},
    {"an acknowledgement with parts", PSCI_FRAME_UNUSED, {{2, 0x11}}},
    {"the last byte set", PSCI_FRAME_UNUSED, {{52, 1}}},
    {"the last of eight bytes set, and no such core", PSCI_FRAME_UNUSED, {{40, 1}, {3, 4}}},
    {"no such core", PSCI_FRAME_CORE, {{3, 4}, {14, 4}}},
    {"deeper than power-down", PSCI_FRAME_DEPTH, {{14, 4}, {13, 1}}},
    {"deeper than the part before", PSCI_FRAME_DEPTH, {{24, 3}, {14, 2}}},
    {"no depth", PSCI_FRAME_DEPTH, {{24, 0}}},
    {"no part of the core", PSCI_FRAME_LEVEL, {{13, 1}, {23, 2}}},
    {"a level left out", PSCI_FRAME_LEVEL, {{23, 2}}},
    {"a level twice", PSCI_FRAME_LEVEL, {{23, 0}}},
};

static void read_frame(const uint8_t *bytes) {
    memcpy(frame.it.bytes, bytes, PSCI_FRAME_LEN);
    length = PSCI_FRAME_LEN;
    make(do_decode);
}

/* Frames byte by byte, and what is no frame. */
static void frame_bytes(void) {
    static const struct psci_message down = {
        .kind = PSCI_MESSAGE_DOWN, .count = 2, .core = 3, .life = 0x01020304, .number = 0x05060708,
        .parts = {{0, 3, 0x1112131415161718}, {1, 2, 0x2122232425262728}}};
    uint8_t bytes[PSCI_FRAME_LEN];
    want("opened", PSCI_OPENED, open_text(small));
    fields = down;
    make(do_encode);
    want("the bytes of a Down", 0, memcmp(frame.it.bytes, down_frame, sizeof down_frame));
    fields = (struct psci_message){0};
    read_frame(down_frame);
    want("a Down is read", PSCI_USED, code);
    make(do_encode);
    want("as it is written", 0, memcmp(frame.it.bytes, down_frame, sizeof down_frame));
    for (size_t each = 0; each < sizeof faulty / sizeof *faulty; each++) {
        memcpy(bytes, down_frame, sizeof bytes);
        for (size_t at = 0; at < 4 && faulty[each].change[at][0]; at++)
            bytes[faulty[each].change[at][0]] = faulty[each].change[at][1];
        read_frame(bytes);
        want(faulty[each].what, faulty[each].fault, code);
    }
    /* four parts are for three levels above the core, of which this board has two */
    memcpy(bytes, down_frame, sizeof bytes);
    bytes[12] = 4, bytes[33] = 2, bytes[34] = 2, bytes[43] = 3, bytes[44] = 1;
    read_frame(bytes);
    want("a level above the board", PSCI_FRAME_LEVEL, code);
    for (uint8_t kind = PSCI_MESSAGE_START; kind <= PSCI_MESSAGE_RESET; kind++)
        for (uint8_t of = 0; of <= PSCI_STALE_ACK; of += PSCI_ACK) {
            memset(bytes + 12, 0, sizeof bytes - 12);
            bytes[2] = kind + of, bytes[12] = of != 0;
            read_frame(bytes);
            want("a frame without parts", PSCI_USED, code);
            want("its kind", kind + of, fields.kind);
            make(do_encode);
            want("its bytes", 0, memcmp(frame.it.bytes, bytes, sizeof bytes));
        }
    make(do_close);
    want("opened", PSCI_OPENED, open_text(large));
    bytes[3] = 255;
    read_frame(bytes);
    want("the last core of 256", PSCI_USED, code);
    want("is read", 255, fields.core);
    make(do_close);
}

/* With ever less memory an opening fails, and changes nothing; with what pool_size says it does
 * not. It gives all its memory back: the pool would not last for a thousand. */
static void little_memory(void) {
    size_t size = pool_size(4), refused = 0;
    void *memory = malloc(size);
    for (size_t given = size; given >= 64; given -= 16) {
        struct psci_place at = {0};
        pool_give(memory, given);
        uint32_t opened = psci_open(&at, (const uint8_t *)small, strlen(small));
        want("little memory", 1, opened == (at.full ? PSCI_OPENED : PSCI_NO_MEMORY));
        want("a place after an opening", at.full, at.firmware != NULL);
        want("as much as pool_size says", 1, given != size || at.full);
        refused += !at.full;
    }
    want("some amount is too little", 1, refused > 0);
    pool_give(memory, size);
    for (int i = 0; i < 1000; i++) {
        want("opened again and again", PSCI_OPENED, open_text(small));
        make(do_close);
    }
    free(memory);
}

/* So many clusters of one core, in as many groups as there may be, the small ones first: of all
 * boards with so many cores it takes most. */
static const char *scattered(unsigned cores) {
    static char board[2048];
    unsigned groups = cores < 16 ? cores : 16;
    char *at = board;
    for (unsigned group = 0; group < groups; group++) {
        unsigned clusters = cores / groups + (groups - group <= cores % groups);
        at += sprintf(at, group ? " (1" : "((1");
        for (unsigned k = 1; k < clusters; k++)
            at += sprintf(at, " 1");
        at += sprintf(at, ")");
    }
    strcpy(at, ")" REST);
    return board;
}

/* What pool_size says is enough at each number of cores. */
static void each_size(void *memory) {
    for (uint16_t cores = 1; cores <= 256; cores++) {
        pool_give(memory, pool_size(cores));
        want("in as much as pool_size says", PSCI_OPENED, open_text(scattered(cores)));
        make(do_close);
    }
}

/* A core or domain that the board does not have is the same to each reader of nodes. */
static void no_such_node(const char *what, uint32_t level, uint16_t index) {
    want(what, PSCI_NO_CORE, psci_status(&place.it, level, index));
    want(what, PSCI_NO_CORE, psci_hw(&place.it, level, index));
    want(what, PSCI_NO_CORE, psci_granted(&place.it, level, index));
}

/* What is wrong with a call, and with bytes that are given as an acknowledgement. */
static void refusals(void) {
    want("opened", PSCI_OPENED, open_text(small));
    want("no life", PSCI_NO_LIFE, smc(0, 0x84000000, 0, 0, 0));
    want("status without a life", PSCI_NO_LIFE, psci_status(&place.it, 0, 0));
    want("hardware without a life", PSCI_NO_LIFE, psci_hw(&place.it, 0, 0));
    no_such_node("without a life", 0, 4);
    want("no such core", PSCI_NO_CORE, enter(4, 1, 1, PSCI_CAUSE_BOOT));
    want("no such life", PSCI_NO_LIFE, enter(0, 4, 1, PSCI_CAUSE_BOOT));
    want("life 0", PSCI_NO_LIFE, enter(0, 0, 1, PSCI_CAUSE_BOOT));
    want("neither core nor life", PSCI_NO_CORE, enter(4, 4, 1, PSCI_CAUSE_BOOT));
    want("no core that calls", PSCI_NO_CORE, smc(4, 0x84000000, 0, 0, 0));
    want("a start beyond the limit", PSCI_OLD_START, enter(0, 1, 4, PSCI_CAUSE_BOOT));
    want("start 0", PSCI_OLD_START, enter(0, 1, 0, PSCI_CAUSE_BOOT));
    want("none has entered", 0, psci_life(&place.it));
    want("no such cause", PSCI_NO_CAUSE, enter(0, 1, 1, 4));
    want("enters", PSCI_ENTER, enter(0, 1, 1, PSCI_CAUSE_BOOT));
    want("at its entry point", 0x40000000, answer.it.address);
    no_such_node("a fifth core", 0, 4);
    no_such_node("a third cluster", 1, 2);
    no_such_node("above the system", 3, 0);
    want("the status of the boot core", PSCI_STATUS_ON, psci_status(&place.it, 0, 0));
    want("of another one", PSCI_STATUS_OFF, psci_status(&place.it, 0, 3));
    want("its hardware", PSCI_HW_ON, psci_hw(&place.it, 0, 0));
    want("its grant", 0, psci_granted(&place.it, 0, 0));
    want("a used start", PSCI_OLD_START, enter(0, 1, 1, PSCI_CAUSE_BOOT));
    want("of no life", PSCI_NO_LIFE, enter(0, 0, 1, PSCI_CAUSE_BOOT));
    want("it runs on", true, psci_running(&place.it, 0));
    want("a core that is off is started", PSCI_STOP, enter(2, 1, 3, PSCI_CAUSE_RESET));
    want("it parks, and stays off", PSCI_STATUS_OFF, psci_status(&place.it, 0, 2));
    want("by its last start", 3, psci_known(&place.it, 2));
    want("not running", PSCI_NOT_RUNNING, smc(1, 0x84000000, 0, 0, 0));
    want("on", PSCI_RETURN, smc(0, 0xc4000003, 0x1, 0x40001000, 7));
    want("its message", 2, answer.it.message.some ? answer.it.message.bytes[2] : 0);
    want("length", PSCI_FRAME_LENGTH, take_changed(0, 0x50, 52));
    want("magic", PSCI_FRAME_MAGIC, take_changed(0, 0x51, PSCI_FRAME_LEN));
    want("kind", PSCI_FRAME_KIND, take_changed(2, 0x15, PSCI_FRAME_LEN));
    want("count", PSCI_FRAME_COUNT, take_changed(12, 5, PSCI_FRAME_LEN));
    want("unused", PSCI_FRAME_UNUSED, take_changed(52, 1, PSCI_FRAME_LEN));
    want("no core", PSCI_FRAME_CORE, take_changed(3, 4, PSCI_FRAME_LEN));
    want("a message", PSCI_FRAME_NOT_AN_ACK, take_changed(2, 0x02, PSCI_FRAME_LEN));
    want("used", PSCI_USED, take_changed(12, 1, PSCI_FRAME_LEN));
    want("old", PSCI_OLD, take_changed(12, 1, PSCI_FRAME_LEN));
    want("the system off", PSCI_STOP, smc(0, 0x84000008, 0, 0, 0));
    want("of another kind", PSCI_OLD, take_changed(2, 0x14, PSCI_FRAME_LEN));
    want("of another core", PSCI_OLD, take_changed(3, 1, PSCI_FRAME_LEN));
    want("of another life", PSCI_OLD, take_changed(7, 2, PSCI_FRAME_LEN));
    want("of another number", PSCI_OLD, take_changed(11, 2, PSCI_FRAME_LEN));
    want("of the message", PSCI_USED, take_changed(12, 1, PSCI_FRAME_LEN));
}

/* The register that a core leaves with has a code of 32 bits after an SMC32 call, and its sign in the upper half after
 * an SMC64 call, which bit 30 of the function word says alone. */
static void leaving(void) {
    static const struct { const char *what; uint64_t x0, x1, x2, leaves; } calls[] = {
        {"no function of SMC32", 0x84000005, 0, 0, 0xffffffff},
        {"no function of SMC64", 0xc4000005, 0, 0, ~(uint64_t)0},
        {"no fast call of SMC32", 0x04000000, 0, 0, 0xffffffff},
        {"no fast call of SMC64", 0x44000000, 0, 0, ~(uint64_t)0},
        {"bit 29", 0xa4000000, 0, 0, 0xffffffff},
        {"the version", 0x84000000, 0, 0, 0x10001},
        {"SMC64, on", 0xc4000003, 1, 0x40001000, 0},
        {"SMC64, on pending", 0xc4000003, 1, 0x40001000, ~(uint64_t)4},
        {"SMC32, on pending", 0x84000003, 1, 0x40001000, 0xfffffffb},
        {"SMC64, already on", 0xc4000003, 0, 0x40001000, ~(uint64_t)3},
        {"SMC64, denied", 0xc400000e, 0x40001000, 0, ~(uint64_t)2},
        {"SMC32, denied", 0x8400000e, 0x40001000, 0, 0xfffffffd},
        {"SMC64, no such core", 0xc4000003, 2, 0x40001000, ~(uint64_t)1},
        {"SMC32, no such entry point", 0x84000003, 0x100, 0, 0xfffffff7},
    };
    const struct psci_port_door door = {.start = {.life = 1, .number = 1, .cause = PSCI_CAUSE_BOOT}, .opened = 1};
    struct psci_port_core side;
    struct psci_port_orders orders;
    want("opened", PSCI_OPENED, open_text(small));
    psci_port_new(&side, 0);
    want("a start", PSCI_PORT_TAKES_UP, psci_port_look(&side, &door, false));
    psci_port_enter(&place.it, &side, &orders);
    want("an entry", PSCI_PORT_ENTERS, orders.next);
    for (size_t each = 0; each < sizeof calls / sizeof *calls; each++) {
        psci_port_call(&place.it, &side, calls[each].x0, calls[each].x1, calls[each].x2, 0, &orders);
        want("it leaves", PSCI_PORT_LEAVES, orders.next);
        want(calls[each].what, calls[each].leaves, orders.x0);
    }
    make(do_close);
}

/* Who runs in a halting life, and what is granted and on while none asks. */
static void beside_calls(void) {
    want("opened", PSCI_OPENED, open_text("((1 1) (1 1))" REST));
    want("the system, not granted", 0, psci_granted(&place.it, 3, 0));
    enter(0, 1, 1, PSCI_CAUSE_BOOT);
    want("SYSTEM_SUSPEND", PSCI_STOP, smc(0, 0xc400000e, 0x40002000, 8, 0));
    want("the system, powered down", 3, psci_granted(&place.it, 3, 0));
    want("not yet", PSCI_HW_ON, psci_hw(&place.it, 3, 0));
    want("used", PSCI_USED, take_changed(12, 4, PSCI_FRAME_LEN));
    want("and now it is", PSCI_HW_OFF, psci_hw(&place.it, 3, 0));
    want("woken", PSCI_ENTER, enter(0, 1, 2, PSCI_CAUSE_WAKE));
    want("the system on its path", 0, psci_granted(&place.it, 3, 0));
    smc(0, 0x84000002, 0, 0, 0);
    want("the core that goes off is on", PSCI_STATUS_ON, psci_status(&place.it, 3, 0));
    want("used", PSCI_USED, take_changed(12, 4, PSCI_FRAME_LEN));
    want("all are off", PSCI_STATUS_OFF, psci_status(&place.it, 3, 0));
    want("parks in the next life", PSCI_STOP, enter(2, 2, 1, PSCI_CAUSE_WAKE));
    want("no more in the life before", PSCI_OLD_START, enter(3, 1, 3, PSCI_CAUSE_WAKE));
    want("the boot core's path in it", 0, psci_granted(&place.it, 0, 0));
    want("which is on its way", PSCI_STATUS_PENDING, psci_status(&place.it, 3, 0));
    make(do_close);
    want("opened", PSCI_OPENED, open_text(small));
    enter(0, 1, 1, PSCI_CAUSE_BOOT);
    for (uint16_t other = 1; other < 4; other++) {
        smc(0, 0xc4000003, other == 1 ? 1 : 0x100 + other - 2, 0x40001000, 7);
        want("on its way it does not run", false, psci_running(&place.it, other));
        want("entered", PSCI_ENTER, enter(other, 1, 1, PSCI_CAUSE_ON));
    }
    want("core 1 goes off", PSCI_STOP, smc(1, 0x84000002, 0, 0, 0));
    struct psci_frame down = answer.it.message;
    want("SYSTEM_OFF", PSCI_STOP, smc(0, 0x84000008, 0, 0, 0));
    want("its caller stopped", false, psci_running(&place.it, 0));
    core = 4, make(do_outstanding);
    want("the system's message", 3, frame.it.some ? frame.it.bytes[2] : 0);
    core = 5, make(do_outstanding);
    want("and none beyond it", false, frame.it.some);
    want("core 2 runs", true, psci_running(&place.it, 2));
    want("until it calls", PSCI_STOP, smc(2, 0x84000000, 0, 0, 0));
    want("and stopped then", false, psci_running(&place.it, 2));
    want("core 3 enters", PSCI_STOP, enter(3, 1, 2, PSCI_CAUSE_RESET));
    want("and stops at once", false, psci_running(&place.it, 3));
    answer.it.message = down;
    want("what was sent before", PSCI_USED, take_changed(12, 1, PSCI_FRAME_LEN));
    want("powers down", PSCI_HW_OFF, psci_hw(&place.it, 0, 1));
    want("and is off", PSCI_STATUS_OFF, psci_status(&place.it, 0, 1));
    make(do_close);
}

/* Numbers of starts have 32 bits: a board that allows so many, and cores that are at this limit. */
static void long_starts(void) {
    static const char *const text_of = "(2 2) exec 0x40000000-0x40100000 boot 0x40000000 starts 2147483651 lives 3";
    const uint32_t limit = 2147483651;
    want("opened", PSCI_OPENED, open_text(text_of));
    want("by start 65536", PSCI_ENTER, enter(0, 1, 65536, PSCI_CAUSE_BOOT));
    want("in standby", PSCI_STOP, smc(0, 0xc4000001, 0x1, 0, 0));
    want("resumes by the next one", PSCI_RESUME, enter(0, 1, 65537, PSCI_CAUSE_WAKE));
    want("in standby again", PSCI_STOP, smc(0, 0xc4000001, 0x1, 0, 0));
    want("by another one it parks", PSCI_STOP, enter(0, 1, 65537 + 65537, PSCI_CAUSE_WAKE));
    want("opened anew", PSCI_OPENED, open_text(text_of));
    enter(0, 1, 1, PSCI_CAUSE_BOOT);
    want("on", PSCI_RETURN, smc(0, 0xc4000003, 0x101, 0x40000000, 0));
    want("entered", PSCI_ENTER, enter(3, 1, 1, PSCI_CAUSE_ON));
    want("in standby", PSCI_STOP, smc(3, 0xc4000001, 0x1, 0, 0));
    want("does not resume in the next life", PSCI_STOP, enter(3, 2, 2, PSCI_CAUSE_WAKE));
    want("the next life", PSCI_ENTER, enter(0, 2, limit, PSCI_CAUSE_BOOT));
    want("a suspend at the limit", PSCI_RETURN, smc(0, 0xc4000001, 0x00010003, 0x40000000, 0));
    want("succeeds at once", 0, (uint32_t)answer.it.code);
    want("SYSTEM_SUSPEND at the limit", PSCI_RETURN, smc(0, 0xc400000e, 0x40000000, 0, 0));
    want("is denied", (uint32_t)-3, (uint32_t)answer.it.code);
    want("on", PSCI_RETURN, smc(0, 0xc4000003, 0x101, 0x40000000, 0));
    want("enters by the last start", PSCI_ENTER, enter(3, 2, limit, PSCI_CAUSE_ON));
    want("goes off", PSCI_STOP, smc(3, 0x84000002, 0, 0, 0));
    want("used", PSCI_USED, take_changed(12, 2, PSCI_FRAME_LEN));
    want("on again at the limit", PSCI_RETURN, smc(0, 0xc4000003, 0x101, 0x40000000, 0));
    want("fails", (uint32_t)-6, (uint32_t)answer.it.code);
    want("a start beyond it", PSCI_OLD_START, enter(1, 2, limit + 1, PSCI_CAUSE_ON));
    make(do_close);
}

/* A poller tells of the firmware that it was opened for, until it is opened anew or closed. */
static void pollers(void) {
    want("no firmware to poll", PSCI_NO_FIRMWARE, open_poller());
    want("an empty poller", PSCI_NO_FIRMWARE, poll_core(0));
    want("opened", PSCI_OPENED, open_text(small));
    want("a poller", PSCI_OPENED, open_poller());
    want("before any has entered", 1, poll_core(0));
    want("no core", (uint32_t)-2, (uint32_t)poll_core(0x002));
    want("no core, above", (uint32_t)-2, (uint32_t)poll_core(0x100000000));
    enter(0, 1, 1, PSCI_CAUSE_BOOT);
    want("the core that entered", 0, poll_core(0));
    want("another one", 1, poll_core(0x101));
    smc(0, 0xc4000003, 0x101, 0x40001000, 7);
    want("asked on", 2, poll_core(0x101));
    want("its neighbour", 1, poll_core(0x100));
    enter(3, 1, 1, PSCI_CAUSE_ON);
    want("entered", 0, poll_core(0x101));
    smc(3, 0x84000002, 0, 0, 0);
    want("going off", 0, poll_core(0x101));
    want("used", PSCI_USED, take_changed(12, 2, PSCI_FRAME_LEN));
    want("off", 1, poll_core(0x101));
    smc(0, 0xc4000003, 0x001, 0x40001000, 7);
    enter(3, 2, 1, PSCI_CAUSE_WAKE);
    want("the boot core of the next life", 2, poll_core(0));
    want("a core of the last life", 1, poll_core(0x001));
    make(do_close);
    want("its firmware was closed", 2, poll_core(0));
    want("opened anew", PSCI_OPENED, open_text(small));
    want("the firmware of before", 2, poll_core(0));
    want("a poller of the new one", PSCI_OPENED, open_poller());
    want("the new one", 1, poll_core(0));
    make(do_close_poller);
    want("closed", PSCI_NO_FIRMWARE, poll_core(0));
    make(do_close_poller);
    make(do_close);
}

/* Pollers are opened until memory lacks: the next one stays empty. Closed, they give it all back. */
static void many_pollers(void) {
    enum { MOST = 4096 };
    static struct psci_poller many[MOST];
    size_t opened = 0;
    want("opened", PSCI_OPENED, open_text(small));
    while (opened < MOST && psci_open_poller(&place.it, &many[opened]) == PSCI_OPENED)
        opened++;
    want("some are opened, and then memory lacks", 1, opened > 0 && opened < MOST);
    want("no memory for it", PSCI_NO_MEMORY, psci_open_poller(&place.it, &many[opened]));
    want("it is empty", PSCI_NO_FIRMWARE, psci_poll(&many[opened], 0));
    want("no memory to open it anew", PSCI_NO_MEMORY, psci_open_poller(&place.it, &many[0]));
    want("the one that was there", 1, psci_poll(&many[0], 0));
    for (size_t i = 0; i < opened; i++)
        psci_close_poller(&many[i]);
    for (int i = 0; i < 1000; i++)
        want("a poller again and again", PSCI_OPENED, open_poller());
    make(do_close_poller);
    make(do_close);
}

/* One thread polls while another calls: each poll is a status, and both of the last are told. */
static atomic_bool done;
static atomic_uint seen_by_polls;

static void *keep_polling(void *its) {
    while (!done) {
        int32_t status = psci_poll(its, 0x101);
        atomic_fetch_or(&seen_by_polls, status < 0 || status > 2 ? 8u : 1u << status);
    }
    return NULL;
}

static void polled_by_a_thread(void) {
    struct psci_poller its = {0};
    pthread_t thread;
    want("opened", PSCI_OPENED, open_text("(2 2) exec 0x40000000-0x40100000 boot 0x40000000 "
                                          "starts 1000000 lives 3"));
    enter(0, 1, 1, PSCI_CAUSE_BOOT);
    want("a poller", PSCI_OPENED, psci_open_poller(&place.it, &its));
    if (pthread_create(&thread, NULL, keep_polling, &its))
        return;
    for (uint32_t start = 1; seen_by_polls != 7 && start < 1000000; start++) {
        smc(0, 0xc4000003, 0x101, 0x40001000, 7);
        enter(3, 1, start, PSCI_CAUSE_ON);
        smc(3, 0x84000002, 0, 0, 0);
        take_changed(12, 2, PSCI_FRAME_LEN);
    }
    done = true;
    pthread_join(thread, NULL);
    want("each status was polled, and nothing else", 7, seen_by_polls);
    want("off in the end", 1, (uint32_t)psci_poll(&its, 0x101));
    psci_close_poller(&its);
    make(do_close);
}

/* The last core of the largest board comes and goes in each way. */
static void largest_board(void) {
    want("opened", PSCI_OPENED, open_text(large));
    enter(0, 1, 1, PSCI_CAUSE_BOOT);
    for (uint32_t start = 1; start <= 3; start++) {
        want("on", PSCI_RETURN, smc(0, 0xc4000003, 0x3030f, 0x40001000, 7));
        want("entered", PSCI_ENTER, enter(255, 1, start, PSCI_CAUSE_ON));
        smc(255, 0xc4000004, 0, 3, 0);
        smc(255, 0xc400000d, 0, 3, 0);
        want("off", PSCI_STOP, smc(255, 0x84000002, 0, 0, 0));
        make(do_outstanding);
        want("outstanding", 1, frame.it.some);
        want("used", PSCI_USED, take_changed(12, 3, PSCI_FRAME_LEN));
        make(do_read);
    }
    want("suspended", PSCI_STOP, smc(0, 0xc4000001, 0x03013333, 0x40002000, 8));
    want("woken", PSCI_ENTER, enter(0, 1, 2, PSCI_CAUSE_WAKE));
    want("initiated by the system", PSCI_RETURN, smc(0, 0x8400000f, 1, 0, 0));
    want("suspended again", PSCI_STOP, smc(0, 0xc400000e, 0x40002000, 8, 0));
    want("woken again", PSCI_ENTER, enter(0, 1, 3, PSCI_CAUSE_WAKE));
    want("reset", PSCI_STOP, smc(0, 0x84000009, 0, 0, 0));
    want("the next life", PSCI_ENTER, enter(0, 2, 1, PSCI_CAUSE_BOOT));
    want("is life 2", 2, psci_life(&place.it));
    make(do_close);
}

int main(void) {
    size_t size = pool_size(256);
    void *memory = malloc(size);
    empty_place();
    little_memory();
    each_size(memory);
    pool_give(memory, size);
    refusals();
    faulty_texts();
    want("the firmware that was there", 1, psci_life(&place.it));
    make(do_close);
    pool_give(memory, size);
    boards();
    stops();
    readers();
    machines();
    faulty_machines();
    frames();
    frame_bytes();
    leaving();
    pool_give(memory, size);
    beside_calls();
    long_starts();
    pool_give(memory, size);
    pollers();
    pool_give(memory, pool_size(4));
    many_pollers();
    pool_give(memory, size);
    polled_by_a_thread();
    pool_give(memory, size);
    largest_board();
    printf("stack %zu\n", most_stack);
    return failed;
}
