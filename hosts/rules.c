/* rules: what docs/port/PORTING.md has a port do beside the calls, tried one rule after the other. Prints
 * what was seen of each. */
#include "machine.h"

#include <inttypes.h>
#include <stdio.h>
#include <string.h>

/* Words -------------------------------------------------------------------------------------- */

/* Whether a call is PSCI's, and so the firmware's: by the low half of x0. */
static bool is_psci(uint64_t x0) {
    uint32_t word = (uint32_t)x0;
    return (word >= 0x84000000 && word <= 0x8400001f) || (word >= 0xc4000000 && word <= 0xc400001f);
}

/* The calls that the port answers itself: those of the calling convention, on a machine with one
 * workaround (0x80008000), and standby of a core alone. */
static bool is_answered_by_port(const uint64_t *x, int32_t *code) {
    uint32_t word = (uint32_t)x[0], of = (uint32_t)x[1];
    bool features = word == 0x8400000a && of == 0x80000000;
    bool standby = (word == 0x84000001 || word == 0xc4000001) && of == STANDBY;
    *code = features || standby ? 0 : word == 0x80000000 ? 0x10001 : of == 0x80008000 ? 0 : -1;
    return features || standby || word == 0x80000000 || word == 0x80000001;
}

/* The firmware is asked for all others, and for these where the port has no answer of its own. */
static int32_t ask(unsigned core, uint64_t x0, uint64_t x1, bool port_answers) {
    uint64_t x[] = {x0, x1};
    int32_t code;
    if (port_answers && is_answered_by_port(x, &code))
        return code;
    return code_of(smc(core, x0, x1, 0, 0));
}

static void try_words(void) {
    unsigned ours = 0, there = 0, not_there = 0, beside = 0;
    cold_reset(&two_by_two);
    enter(0);
    for (uint64_t half = 0; half <= 0x40000000; half += 0x40000000)
        for (uint64_t word = 0x83fffff0; word < 0x84000030; word++) {
            ours += is_psci(half | word);
            if (is_psci(half | word) && code_of(smc(0, 0x8400000a, half | word, 0, 0)) >= 0)
                there++;
            else if (code_of(smc(0, half | word, 0, 0, 0)) != -1)
                fail("a word that no function has is answered", half | word);
            else
                is_psci(half | word) ? not_there++ : beside++;
        }
    printf("words: %u are PSCI's, of which %u have a function and %u are NOT_SUPPORTED, as are %u beside\n",
           ours, there, not_there, beside);
    printf("words: the upper half of x0 is not looked at: %d\n", is_psci(0x1234567884000000));
}

static void try_convention(void) {
    static const uint64_t asked[][2] = {{0x8400000a, 0x80000000}, {0x80000000, 0},
                                        {0x80000001, 0x80008000}, {0x80000001, 0x80007fff}};
    struct readings before;
    cold_reset(&two_by_two);
    enter(0);
    read_all(&before);
    printf("SMCCC_VERSION: the firmware says %d and %d;", ask(0, asked[0][0], asked[0][1], false),
           ask(0, asked[1][0], asked[1][1], false));
    printf(" the port");
    for (int k = 0; k < 4; k++)
        printf(" 0x%" PRIx32, (uint32_t)ask(0, asked[k][0], asked[k][1], true));
    printf("; the firmware is as before: %d\n", is_same(&before));
}

static void try_standby(void) {
    struct psci_board board = two_by_two;
    struct psci_message down;
    struct readings before;
    for (board.format = PSCI_ORIGINAL_FORMAT; board.format <= PSCI_EXTENDED_FORMAT; board.format++) {
        cold_reset(&board);
        enter(0);
        read_all(&before);
        int32_t code = ask(0, SUSPEND, STANDBY, true);
        printf("standby, format %" PRIu32 ": the port says %d, the firmware is as before: %d;", board.format,
               code, is_same(&before));
        smc(0, SUSPEND, STANDBY, 0x40001000, 0);
        psci_decode(&firmware, said.message.bytes, PSCI_FRAME_LEN, &down);
        printf(" through the firmware %" PRIu32 ", %u part, of level %" PRIu32 " and depth %u;", said.what,
               down.count, down.parts[0].level, down.parts[0].depth);
        serve();
        wake(0);
        printf(" start %" PRIu32 "\n", psci_ctl_starts(&controller, 0));
    }
    board = two_by_two, board.starts = 1;
    cold_reset(&board);
    enter(0);
    smc(0, SUSPEND, CORE_DOWN, 0x40001000, 0);
    printf("standby: at the limit of starts CPU_SUSPEND answers %d at once\n", code_of(said.what));
}

/* Entries ------------------------------------------------------------------------------------ */

/* What a core executes in: endianness and execution state, as the port keeps them. Of the caller, at
 * an accepted CPU_ON for its target and at an accepted power-down for itself. */
static struct { bool big_endian, entry_big_endian; uint64_t x0; } cpus[CORES];
static const uint64_t device_tree = 0x48000000;

static void call_in(unsigned core, bool big_endian, uint64_t x0, uint64_t x1) {
    cpus[core].big_endian = big_endian;
    uint32_t what = smc(core, x0, x1, 0x40001000, 0x77);
    if (x0 == ON && what == PSCI_RETURN && said.code == 0)
        cpus[x1 >> 8 << 1 | (x1 & 1)].entry_big_endian = big_endian;
    if (x0 == SUSPEND && what == PSCI_STOP)
        cpus[core].entry_big_endian = big_endian;
}

/* It begins as it was asked on; the boot core with the device tree in x0, where it boots. */
static void begin(unsigned core) {
    struct psci_ctl_start start;
    psci_ctl_started(&controller, core, &start);
    if (enter(core) != PSCI_ENTER)
        fail("a core did not enter", said.what);
    cpus[core].big_endian = cpus[core].entry_big_endian;
    cpus[core].x0 = start.cause == PSCI_CAUSE_BOOT ? device_tree : said.context;
    printf("entry: core %u at 0x%" PRIx64 ", context 0x%" PRIx64 ", x0 0x%" PRIx64 ", big-endian %d\n", core,
           said.address, said.context, cpus[core].x0, cpus[core].big_endian);
}

static void try_entries(void) {
    cold_reset(&two_by_two);
    begin(0);
    call_in(0, false, ON, word_of(1));
    serve();
    begin(1);
    call_in(1, true, ON, word_of(2));
    call_in(0, false, ON, word_of(2)); /* refused: it is ON_PENDING, and keeps to the first one */
    printf("entry: another CPU_ON meanwhile is answered %d\n", said.code);
    serve();
    begin(2);
    call_in(2, false, SUSPEND, CORE_DOWN);
    serve();
    psci_ctl_wake(&controller, 2, 1, &done);
    begin(2);
}

static void try_starts(void) {
    struct psci_ctl_start start;
    struct readings before;
    cold_reset(&two_by_two);
    psci_ctl_started(&controller, 0, &start);
    enter(0);
    smc(0, SUSPEND, RETENTION, 0x40001000, 0);
    read_all(&before);
    uint32_t again = enter_by(0, &start), other = smc(0, 0x84000000, 0, 0, 0), third = smc(3, INFO, 0, 0, 0);
    printf("starts: used again %" PRIu32 ", a call of a core that stopped %" PRIu32 " and of one that never ran %" PRIu32
           "; nothing changed: %d\n", again, other, third, is_same(&before));
    serve();
    printf("resume: after a wake-up %" PRIu32 "\n", wake(0));
    smc(0, SUSPEND, RETENTION, 0x40001000, 0x55);
    serve();
    psci_ctl_reset(&controller, 0, &done);
    printf("resume: after a reset of the core %" PRIu32 "\n", enter(0));
}

/* Polls -------------------------------------------------------------------------------------- */

static void try_polls(void) {
    struct psci_poller poller = {0};
    cold_reset(&two_by_two);
    if (psci_open_poller(&firmware, &poller) != PSCI_OPENED)
        fail("no poller", 0);
    enter(0);
    smc(0, ON, word_of(1), 0x40001000, 0);
    printf("polls: of a pending core %" PRId32, psci_poll(&poller, word_of(1)));
    serve();
    enter(1);
    printf(", of one that runs %" PRId32, psci_poll(&poller, word_of(1)));
    smc(0, SYSTEM_OFF, 0, 0, 0);
    struct readings before;
    read_all(&before);
    printf("; in a halting life a poll says %" PRId32, psci_poll(&poller, word_of(1)));
    printf(" and changes nothing: %d, a call of the port's own changes nothing: %d,", is_same(&before),
           ask(1, SUSPEND, STANDBY, true) == 0 && is_same(&before));
    printf(" and the next call stops: %d\n", smc(1, INFO, word_of(0), 0, 0) == PSCI_STOP);
    psci_close_poller(&poller);
}

/* Stops -------------------------------------------------------------------------------------- */

/* How deep a stop of core 3 goes, and whether a wake-up may end it: then the core goes on. */
static void show_stop(const char *name, uint64_t x0, uint64_t x1) {
    struct psci_stop stop;
    cold_reset(&two_by_two);
    enter(0);
    smc(0, ON, word_of(3), 0x40001000, 0);
    serve();
    enter(3);
    if (x0)
        smc(3, x0, x1, 0x40002000, 0);
    else
        psci_ctl_reset(&controller, 3, &done), enter(3);
    psci_stop(&firmware, 3, x0, &stop);
    printf("%s: depths %u %u %u %u, a wake-up may end it: %d", name, stop.depths[0], stop.depths[1],
           stop.depths[2], stop.depths[3], stop.wakes);
    serve();
    psci_ctl_wake(&controller, 3, psci_ctl_starts(&controller, 3), &done);
    uint32_t what = done.what == PSCI_CTL_START ? enter(3) : PSCI_STOP;
    printf(", and does: %d\n", what == PSCI_ENTER || what == PSCI_RESUME);
}

static void try_stops(void) {
    show_stop("standby", SUSPEND, STANDBY);
    show_stop("retention", SUSPEND, RETENTION);
    show_stop("power-down", SUSPEND, CORE_DOWN);
    show_stop("power-down of all", SUSPEND, ALL_DOWN);
    show_stop("off", OFF, 0);
    show_stop("parked", 0, 0);
    show_stop("end of the system", SYSTEM_OFF, 0);
}

/* Downs and wake-ups ------------------------------------------------------------------------- */

/* The start in which each core stands in its stop, by the word that it writes last. */
static uint32_t stands[CORES];

static bool may_deliver(unsigned place) {
    struct psci_message message;
    psci_decode(&firmware, box[place].bytes, PSCI_FRAME_LEN, &message);
    return message.kind != PSCI_MESSAGE_DOWN || message.number != psci_ctl_starts(&controller, message.core)
        || stands[message.core] == message.number;
}

static void serve_what_may_go(void) {
    for (unsigned place = 0; place <= SYSTEM; place++)
        if (box[place].some && may_deliver(place)) {
            deliver(place);
            printf(" place %u: %" PRIu32 " with %" PRIu32 " domains;", place, done.what, done.many);
        }
}

static void try_downs(void) {
    memset(stands, 0, sizeof stands);
    cold_reset(&two_by_two);
    enter(0);
    smc(0, ON, word_of(1), 0x40001000, 0);
    serve();
    enter(1);
    smc(1, SUSPEND, CORE_DOWN, 0x40001000, 0); /* it has not come to its stop yet */
    smc(0, ON, word_of(2), 0x40001000, 0);
    printf("a Down waits, and what is behind it goes:");
    serve_what_may_go();
    enter(2);
    stands[1] = 1;
    printf(" then");
    serve_what_may_go();
    wake(1);
    smc(1, SUSPEND, CORE_DOWN, 0x40001000, 0);
    printf("\nits word is of an earlier start:");
    serve_what_may_go();
    psci_ctl_reset(&controller, 1, &done);
    printf(" reset, and the Down is of an earlier one:");
    serve_what_may_go();
    printf(" the core finds start %" PRIu32 "\n", psci_ctl_starts(&controller, 1));
}

/* A wake-up that comes before a core has stopped waits, as a pending interrupt does. */
static void try_wake_ups(void) {
    bool pending = false;
    cold_reset(&two_by_two);
    enter(0);
    if (runs[0])
        pending = true;
    smc(0, SUSPEND, CORE_DOWN, 0x40002000, 9);
    if (pending)
        printf("a wake-up before the stop: the core enters with 0x%" PRIx64, (wake(0), said.context));
    deliver(0);
    printf(", and its Down is late: %" PRIu32 "\n", done.what);
}

/* Frames ------------------------------------------------------------------------------------- */

/* An acknowledgement that was altered: into no frame it is refused, into another one it is believed. What
 * is no acknowledgement changes nothing. */
static void try_frames(void) {
    struct psci_frame down, ack;
    struct readings before;
    cold_reset(&two_by_two);
    enter(0);
    smc(0, ON, word_of(1), 0x40001000, 0);
    serve();
    enter(1);
    smc(1, OFF, 0, 0, 0);
    down = ack = said.message;
    ack.bytes[2] |= PSCI_ACK;
    memset(ack.bytes + 13, 0, PSCI_FRAME_LEN - 13);
    read_all(&before);
    uint32_t message = psci_take(&firmware, down.bytes, PSCI_FRAME_LEN);
    ack.bytes[0] ^= 1;
    uint32_t no_frame = psci_take(&firmware, ack.bytes, PSCI_FRAME_LEN);
    printf("frames: a message %" PRIu32 ", no frame %" PRIu32 "; nothing changed: %d;", message, no_frame,
           is_same(&before));
    ack.bytes[0] ^= 1;
    ack.bytes[12] = 1; /* as much was applied as nobody did */
    uint32_t believed = psci_take(&firmware, ack.bytes, PSCI_FRAME_LEN);
    printf(" altered into another %" PRIu32 ", and AFFINITY_INFO says %d of a core that has its power\n",
           believed, code_of(smc(0, INFO, word_of(1), 0, 0)));
}

/* When the machine cannot do it -------------------------------------------------------------- */

static void try_failing_machine(void) {
    struct readings before;
    cold_reset(&two_by_two);
    enter(0);
    smc(0, ON, word_of(1), 0x40001000, 5);
    box[1].some = false; /* the hook that powers a core up has failed */
    printf("a Start that fails: AFFINITY_INFO %d, CPU_ON %d,", code_of(smc(0, INFO, word_of(1), 0, 0)),
           code_of(smc(0, ON, word_of(1), 0x40002000, 6)));
    psci_outstanding(&firmware, 1, &box[1]); /* a later try */
    serve();
    enter(1);
    printf(" and by a later try the core enters with 0x%" PRIx64 "\n", said.context);
    smc(1, OFF, 0, 0, 0);
    box[1].some = false; /* its power cannot be taken down, and nothing is acknowledged */
    printf("a Down that fails: AFFINITY_INFO %d, NODE_HW_STATE %d, CPU_ON %d\n",
           code_of(smc(0, INFO, word_of(1), 0, 0)), code_of(smc(0, HW, word_of(1), 0, 0)),
           code_of(smc(0, ON, word_of(1), 0x40002000, 6)));
    read_all(&before);
    int32_t code = -6; /* it is asked of the machine first: the port answers INTERNAL_FAILURE itself */
    printf("a CPU_ON that the port refuses: %d; the firmware is as before: %d\n", code, is_same(&before));
}

int main(void) {
    try_words();
    try_convention();
    try_standby();
    try_entries();
    try_starts();
    try_polls();
    try_stops();
    try_downs();
    try_wake_ups();
    try_frames();
    try_failing_machine();
    psci_close(&firmware);
    psci_ctl_close(&controller);
    return 0;
}
