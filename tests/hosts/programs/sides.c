/* A port of four cores that plays a drawn run by the calls of psci_port.h, beside a firmware and a power controller
 * that are asked the same by the plain calls: what each side orders is what these answer, and what a port's rules say.
 *
 *     sides SEED STEPS         tells how often what happened */
#include "pool.h"
#include "psci_guest.h"
#include "psci_port.h"

#include <stdio.h>
#include <stdlib.h>
#include <string.h>

enum { CORES = 4, MOST = 64, ENTRY = 0x40001000, TURN = 500 };
enum { SUSPEND = 0x84000001, OFF = 0x84000002, ON = 0x84000003, INFO = 0x84000004, RESET = 0x84000009, WIDE = 0x40000000 };

/* a standby, a retention, a power-down of the core, of its cluster too, and none */
static const uint32_t states[] = {1, 2, 0x00010003, 0x01010033, 0x5};

static const struct psci_board board = {
    .height = 2, .starts = 1000, .lives = 60000, .boot = 0x40000000, .many_ranges = 1,
    .ranges = {{0x40000000, 0x80000000}},
    .levels = {{.nodes = 2, .children = {2, 2}}, {.nodes = 1, .children = {2}}},
};

/* a machine of this board that lacks functions, and whose cores have MPIDRs of its own */
static const struct psci_machine words = {
    .levels = 2,
    .functions = PSCI_HAS_CPU_OFF | PSCI_HAS_CPU_ON | PSCI_HAS_SYSTEM_RESET,
    .many_mpidrs = CORES,
    .mpidrs = {0x10000, 0x10001, 0x10100, 0x10101},
};
static bool has_words;

/* by the port's calls, and by the plain ones */
static struct psci_place firmware, plain_firmware;
static struct psci_control_place control;
static struct psci_ctl_place plain_control;

/* what each core keeps, what stands at its door, its word, and whether a wake-up is there for it */
static struct core {
    struct psci_port_core side;
    struct psci_port_door door;
    uint32_t word;
    bool wakes;
} cores[CORES];
static struct psci_frame sent[MOST], acks[MOST];
static unsigned many_sent, many_acks, tally[16];
enum { CALLS, STOPS, ENTRIES, PARKS, RESUMES, WAKES, RESETS, WAITED, SERVED, TAKEN, ENDINGS, AGAIN, EARLY, REFUSALS };
static const char *const names[] = {"calls", "stops", "entries", "parks", "resumes", "wakes", "resets", "waited", "served",
                                    "taken", "endings", "again", "early", "refusals"};

static uint64_t seed;
static unsigned draw(unsigned below) {
    seed = seed * 6364136223846793005u + 1442695040888963407u;
    return (seed >> 33) % below;
}

static void hold(bool so, const char *what, uint64_t number) {
    if (so)
        return;
    printf("%s: %llu\n", what, (unsigned long long)number);
    exit(1);
}

static struct psci_frame waiting[CORES];

static void begin_life(void) {
    memset(cores, 0, sizeof cores);
    memset(waiting, 0, sizeof waiting);
    many_sent = many_acks = 0;
    for (unsigned core = 0; core < CORES; core++)
        psci_port_new(&cores[core].side, core);
}

/* The firmware's side ------------------------------------------------------------------------- */

static bool is_same(const struct psci_frame *it, const struct psci_frame *other) {
    return memcmp(it, other, sizeof *it) == 0;
}

static void send(const struct psci_frame *message) {
    if (message->some && many_sent < MOST)
        sent[many_sent++] = *message;
}

/* What the side orders is what the firmware answers: the register by the rule of the calling convention. */
static void agrees(const struct psci_port_orders *orders, const struct psci_answer *answer, uint64_t x0, uint32_t cause) {
    static const uint32_t next[] = {PSCI_PORT_LEAVES, PSCI_PORT_STANDS, PSCI_PORT_ENTERS, PSCI_PORT_RESUMES};
    hold(orders->next == (answer->what < 4 ? next[answer->what] : answer->what), "next", orders->next);
    hold(is_same(&orders->message, &answer->message), "message", answer->what);
    hold(memcmp(&orders->asked, &answer->asked, sizeof answer->asked) == 0, "asked", answer->what);
    uint64_t code = x0 & WIDE ? (uint64_t)(int64_t)answer->code : (uint32_t)answer->code;
    uint64_t leaves = answer->what == PSCI_RETURN ? code : answer->what == PSCI_ENTER ? answer->context : 0;
    hold(orders->x0 == leaves, "x0", orders->x0);
    hold(orders->address == answer->address, "address", orders->address);
    hold(orders->cause == (answer->what == PSCI_ENTER ? cause : 0), "cause", orders->cause);
}

/* And how the core stands is what psci_stop says. */
static void agrees_to_stop(unsigned core, const struct psci_port_orders *orders, uint64_t x0) {
    struct psci_stop stop;
    psci_stop(&plain_firmware, core, x0, &stop);
    hold(orders->stop == PSCI_PORT_ENDING || memcmp(orders->depths, stop.depths, 4) == 0, "depths", core);
    hold((orders->stop == PSCI_PORT_SUSPENDED) == stop.wakes, "stop", orders->stop);
}

static void obey(unsigned core, const struct psci_port_orders *orders, uint64_t x0) {
    send(&orders->message);
    if (orders->next == PSCI_PORT_STANDS) {
        tally[STOPS]++;
        agrees_to_stop(core, orders, x0);
    }
}

static void call(unsigned core, uint64_t x0, uint64_t x1, uint64_t x2, uint64_t x3) {
    struct psci_port_orders orders;
    struct psci_answer answer;
    struct psci_port_core before = cores[core].side;
    psci_port_call(&firmware, &cores[core].side, x0, x1, x2, x3, &orders);
    if (before.post != PSCI_PORT_RUNNING) {
        hold(orders.next == PSCI_PORT_OUT_OF_ORDER, "a call of one that does not run", orders.next);
        hold(memcmp(&before, &cores[core].side, sizeof before) == 0, "a refused call changes the side", core);
        tally[REFUSALS]++;
        return;
    }
    psci_smc(&plain_firmware, core, x0, x1, x2, x3, &answer);
    agrees(&orders, &answer, x0, before.cause);
    obey(core, &orders, x0);
    tally[CALLS]++;
    tally[RESUMES] += orders.next == PSCI_PORT_RESUMES;
}

static void enter(unsigned core) {
    struct psci_port_orders orders;
    struct psci_answer answer;
    struct psci_ctl_start start = cores[core].side.start;
    psci_port_enter(&firmware, &cores[core].side, &orders);
    psci_enter(&plain_firmware, core, start.life, start.number, start.cause, &answer);
    agrees(&orders, &answer, 0, start.cause);
    obey(core, &orders, 0);
    tally[ENTRIES]++;
    tally[PARKS] += orders.next == PSCI_PORT_STANDS;
    tally[RESUMES] += orders.next == PSCI_PORT_RESUMES;
}

/* The controller's side ------------------------------------------------------------------------- */

/* A port's rule: what touches the power of a core waits for its word. */
static bool has_to_wait(const struct psci_message *it) {
    uint32_t starts = psci_ctl_starts(&plain_control, it->core);
    bool touches = it->kind == PSCI_MESSAGE_DOWN ? it->parts[0].generation == starts :
        it->kind == PSCI_MESSAGE_START && it->number == starts && starts < board.starts;
    return psci_ctl_life(&plain_control) == it->life && touches && cores[it->core].word != starts;
}

static void serve_doors(void) {
    for (unsigned core = 0; core < CORES; core++) {
        struct psci_ctl_start last;
        struct psci_port_door due;
        psci_ctl_started(&plain_control, core, &last);
        bool is_due = last.number != cores[core].door.opened;
        for (unsigned what; (what = psci_control_door(&control, core, &due)) != PSCI_CONTROL_NOTHING;) {
            hold(is_due && what <= PSCI_CONTROL_OPEN, "a door that is not due", what);
            if (what == PSCI_CONTROL_WRITE)
                cores[core].door.start = due.start;
            else
                cores[core].door.opened = due.opened;
        }
        hold(!is_due || (memcmp(&cores[core].door.start, &last, sizeof last) == 0 && cores[core].door.opened == last.number),
             "a door", core);
    }
}

static void carry_out(const struct psci_control_orders *orders, const struct psci_ctl_answer *answer) {
    hold(orders->what == PSCI_CONTROL_ORDERS, "nothing is ordered", orders->what);
    hold(orders->many == answer->many && memcmp(orders->domains, answer->domains, sizeof answer->domains) == 0, "domains",
         orders->many);
    hold(is_same(&orders->ack, &answer->ack), "acknowledgement", orders->ack.some);
    struct psci_ctl_start none = {0}, start = answer->what == PSCI_CTL_START ? answer->start : none;
    hold(memcmp(&orders->start, &start, sizeof start) == 0, "start", orders->start.number);
    uint32_t ends = answer->what == PSCI_CTL_OFF ? PSCI_CONTROL_OFF :
        answer->what == PSCI_CTL_RESTART ? PSCI_CONTROL_RESTART : PSCI_CONTROL_GOES_ON;
    hold(orders->ends == ends, "ends", orders->ends);
    if (orders->ack.some && many_acks < MOST)
        acks[many_acks++] = orders->ack;
    if (ends != PSCI_CONTROL_GOES_ON) {
        tally[ENDINGS]++;
        begin_life();
    }
    serve_doors();
}

static void serve_waiting(unsigned core) {
    struct psci_control_orders orders;
    struct psci_ctl_answer answer;
    struct psci_message fields;
    psci_control_waited(&control, core, &orders);
    if (waiting[core].some) {
        psci_decode(&firmware, waiting[core].bytes, PSCI_FRAME_LEN, &fields);
        if (!has_to_wait(&fields)) {
            waiting[core].some = false;
            psci_ctl_deliver(&plain_control, waiting[core].bytes, PSCI_FRAME_LEN, &answer);
            carry_out(&orders, &answer);
            tally[SERVED]++;
            return;
        }
    }
    hold(orders.what == PSCI_CONTROL_WAITS, "what waits", orders.what);
}

static void deliver(unsigned number) {
    struct psci_control_orders orders;
    struct psci_ctl_answer answer;
    struct psci_message fields;
    struct psci_frame frame = sent[number];
    psci_decode(&firmware, frame.bytes, PSCI_FRAME_LEN, &fields);
    psci_control_message(&control, frame.bytes, PSCI_FRAME_LEN, &orders);
    if (has_to_wait(&fields)) {
        hold(orders.what == PSCI_CONTROL_WAITS, "what has to wait", orders.what);
        waiting[fields.core] = frame;
        tally[WAITED]++;
        return;
    }
    psci_ctl_deliver(&plain_control, frame.bytes, PSCI_FRAME_LEN, &answer);
    carry_out(&orders, &answer);
}

static void wake(unsigned core) {
    struct psci_control_orders orders;
    struct psci_ctl_answer answer;
    psci_control_wake(&control, core, &orders);
    if (cores[core].word != psci_ctl_starts(&plain_control, core)) {
        hold(orders.what == PSCI_CONTROL_WAITS, "a wake-up of one that does not stand", orders.what);
        return;
    }
    psci_ctl_wake(&plain_control, core, cores[core].word, &answer);
    carry_out(&orders, &answer);
    tally[WAKES]++;
}

static void reset(unsigned core) {
    struct psci_control_orders orders;
    struct psci_ctl_answer answer;
    psci_control_reset(&control, core, &orders);
    psci_ctl_reset(&plain_control, core, &answer);
    carry_out(&orders, &answer);
    hold(psci_port_comes_back(&cores[core].side) == 0, "a core comes back", core);
    tally[RESETS]++;
}

static void take(unsigned number) {
    uint32_t what = psci_take(&firmware, acks[number].bytes, PSCI_FRAME_LEN);
    hold(what == psci_take(&plain_firmware, acks[number].bytes, PSCI_FRAME_LEN) && what <= PSCI_OLD, "taken", what);
    tally[TAKEN]++;
}

/* A look, and what the core does by it. */
static void look(unsigned core) {
    struct core *it = &cores[core];
    bool suspended = it->side.stop == PSCI_PORT_SUSPENDED;
    uint32_t used = it->side.used, told = it->side.told, what = psci_port_look(&it->side, &it->door, it->wakes);
    if (it->door.opened != used) {
        hold(what == PSCI_PORT_TAKES_UP && it->side.used == it->door.opened, "takes up", what);
        enter(core);
    } else if (it->wakes && suspended && told != used) {
        hold(what == PSCI_PORT_TELLS && it->side.told == used, "tells", what);
        it->wakes = false;
        wake(core);
    } else {
        hold(what == PSCI_PORT_RESTS, "rests", what);
    }
}

/* A core that stands says its word, and the controller hears it. A wake-up of before is lost; said again it starts the
 * core, up to the limit of starts. */
static void stand(unsigned core) {
    struct core *it = &cores[core];
    bool early = it->side.stop == PSCI_PORT_SUSPENDED && draw(4) == 0;
    hold(psci_port_stands(&it->side) == 0 && it->side.post == PSCI_PORT_WAITING, "stands", it->side.post);
    if (early)
        wake(core);
    it->word = it->side.used;
    hold(psci_control_stands(&control, core, it->word) == 0, "hears", core);
    serve_waiting(core);
    if (!early || it->side.post != PSCI_PORT_WAITING)
        return;
    hold(psci_control_starts(&control, core) == it->word, "a wake-up that came too early", core);
    wake(core);
    hold(psci_control_starts(&control, core) == it->word + (it->word < board.starts), "a wake-up that is said again", core);
    tally[EARLY]++;
}

/* The same with the lock in hand: its own wake-up comes before its WFI, or behind it. */
static void stand_armed(unsigned core) {
    struct psci_port_core *side = &cores[core].side;
    hold(psci_port_arms(side) == 0 && side->post == PSCI_PORT_ARMED, "arms", side->post);
    hold(psci_port_stands(side) == PSCI_PORT_OUT_OF_ORDER && side->post == PSCI_PORT_ARMED, "stands twice", side->post);
    cores[core].word = side->used;
    hold(psci_control_stands(&control, core, side->used) == 0, "hears", core);
    serve_waiting(core);
    if (draw(2)) {
        hold(psci_port_sleeps(side) == 0 && side->post == PSCI_PORT_WAITING, "sleeps", side->post);
        hold(psci_port_rouses(side) == 0 && side->post == PSCI_PORT_ARMED, "rouses", side->post);
    }
    uint32_t before = psci_ctl_starts(&plain_control, core);
    if (draw(2))
        wake(core);
    bool started = psci_ctl_starts(&plain_control, core) != before;
    hold(psci_port_rises(side, started) == 0, "rises", side->post);
    hold(side->post == (started ? PSCI_PORT_WOKEN : PSCI_PORT_ARMED), "risen", side->post);
    if (started)
        hold(psci_port_turns(side) == 0 && side->post == PSCI_PORT_WAITING, "turns", side->post);
    else
        hold(psci_port_sleeps(side) == 0 && side->post == PSCI_PORT_WAITING, "sleeps", side->post);
}

static uint64_t word_of(unsigned core) { return (has_words ? 0x10000 : 0) | (core / 2) << 8 | core % 2; }

static void run(unsigned core) {
    uint64_t wide = draw(2) ? WIDE : 0;
    switch (draw(40)) {
    case 0: if (draw(9) == 0) call(core, draw(2) ? RESET : RESET + WIDE, 0, 0, 0); break;
    case 1: call(core, 0x84000055, 1, 2, 3); break;
    case 2: call(core, INFO | wide, word_of(draw(5)), 0, 0); break;
    case 3 ... 9: call(core, SUSPEND | wide, states[draw(5)], ENTRY, draw(9)); break;
    case 10 ... 14: call(core, OFF, 0, 0, 0); break;
    default: call(core, ON | wide, word_of(draw(5)), draw(9) ? ENTRY : 3, draw(99));
    }
}

/* What was outstanding at the last look, and still is, is sent again. */
static void send_again(unsigned number) {
    static struct psci_message before[CORES + 1];
    static struct psci_port_sent last[CORES + 1];
    struct psci_message now = {0}, *it = &before[number];
    struct psci_frame frame, message;
    uint32_t what = psci_port_again(&firmware, number, &last[number], &message);
    psci_outstanding(&plain_firmware, number, &frame);
    if (frame.some)
        psci_decode(&plain_firmware, frame.bytes, PSCI_FRAME_LEN, &now);
    bool is_again = frame.some && now.kind == it->kind && now.life == it->life && now.number == it->number;
    *it = now;
    hold(what == (is_again ? PSCI_PORT_AGAIN : frame.some ? PSCI_PORT_SENT : PSCI_PORT_NONE), "a look", what);
    hold(message.some == is_again && (!is_again || is_same(&message, &frame)), "sent again", number);
    hold(last[number].kind == now.kind && last[number].life == now.life && last[number].number == now.number, "what is kept",
         number);
    send(&message);
    tally[AGAIN] += is_again;
}

static void step(void) {
    unsigned core = draw(CORES);
    if (many_sent == MOST || many_acks == MOST)
        many_sent = many_acks = 0;
    switch (draw(14)) {
    case 0: if (many_sent) deliver(draw(many_sent)); return;
    case 1: if (many_sent) deliver(many_sent - 1); return;
    case 2: if (many_acks) take(draw(many_acks)); return;
    case 3: if (many_acks) take(many_acks - 1); return;
    case 4: cores[core].wakes = true; return;
    case 5: if (draw(9) == 0) wake(core); return;
    case 6: serve_waiting(core); return;
    case 7: if (draw(40) == 0) reset(core); return;
    case 8: send_again(draw(CORES + 1)); return;
    }
    switch (cores[core].side.post) {
    case PSCI_PORT_WAITING: if (draw(20) == 0) run(core); else look(core); return;
    case PSCI_PORT_RUNNING: run(core); return;
    case PSCI_PORT_LEAVING: if (draw(4) == 0) stand_armed(core); else stand(core); return;
    default: hold(false, "a post", cores[core].side.post);
    }
}

/* What the caller can do wrong has a number, and changes nothing. */
static void refusals(void) {
    static const struct psci_port_core zero;
    struct psci_port_core side, never = {.post = 6};
    struct psci_port_door door = {.start = {.number = 1, .cause = 4}, .opened = 1};
    struct psci_control_place empty = {0};
    struct psci_place no_firmware = {0};
    struct psci_control_orders ordered;
    struct psci_port_orders orders;
    struct psci_frame message;
    uint8_t frame[PSCI_FRAME_LEN] = {0};
    psci_port_new(&side, 0);
    hold(memcmp(&side, &zero, sizeof side) == 0, "a new side of core 0", side.post);
    hold(psci_port_look(&side, &door, false) == PSCI_NO_CAUSE, "a cause that there is not", 0);
    door.start.cause = PSCI_CAUSE_BOOT;
    hold(psci_port_look(&side, &door, false) == PSCI_PORT_TAKES_UP && side.post == PSCI_PORT_ENTERING, "a look", side.post);
    hold(psci_port_look(&side, &door, false) == PSCI_PORT_OUT_OF_ORDER, "a look of one that enters", 0);
    psci_port_enter(&no_firmware, &side, &orders);
    hold(orders.next == PSCI_NO_FIRMWARE && side.post == PSCI_PORT_ENTERING, "an empty place", orders.next);
    side.core = CORES;
    psci_port_enter(&firmware, &side, &orders);
    hold(orders.next == PSCI_NO_CORE && side.post == PSCI_PORT_ENTERING, "no core", orders.next);
    psci_port_enter(&firmware, &never, &orders);
    hold(orders.next == PSCI_PORT_NO_SIDE && never.post == 6, "no side", orders.next);
    hold(psci_port_comes_back(&never) == PSCI_PORT_NO_SIDE, "no side comes back", never.post);
    struct psci_port_sent last = {1, 2, 3};
    hold(psci_port_again(&no_firmware, 0, &last, &message) == PSCI_NO_FIRMWARE && !message.some && last.number == 3,
         "a look at no firmware", last.number);
    hold(psci_port_again(&firmware, CORES + 1, &last, &message) == PSCI_NO_CORE && !message.some && last.number == 3,
         "a look above the system", last.number);
    psci_control_message(&empty, frame, sizeof frame, &ordered);
    hold(ordered.what == PSCI_NO_FIRMWARE, "a message to an empty place", ordered.what);
    psci_control_message(&control, frame, sizeof frame, &ordered);
    hold(ordered.what == PSCI_FRAME_MAGIC, "no frame", ordered.what);
    psci_control_wake(&control, CORES, &ordered);
    hold(ordered.what == PSCI_NO_CORE && psci_control_stands(&control, CORES, 1) == PSCI_NO_CORE &&
         psci_control_door(&control, CORES, &door) == PSCI_NO_CORE && psci_control_rings(&empty) == 0xffff, "no core",
         ordered.what);
    struct psci_ctl_start none = {9, 9, 9, 9};
    psci_control_started(&empty, 0, &none);
    hold(psci_control_life(&empty) == 0 && psci_control_starts(&empty, 0) == 0 && none.number == 0 &&
         psci_control_depth(&empty, 0, 0) == PSCI_NO_FIRMWARE, "readers of an empty place", none.number);
}

/* Looks that no run comes to, and turns from elsewhere. */
static void corners(void) {
    const struct psci_port_core stands = {.core = 1, .used = 2, .told = 2, .cause = PSCI_CAUSE_ON, .stop = PSCI_PORT_SUSPENDED};
    struct psci_port_core side = stands;
    struct psci_port_door door = {.opened = 2};
    hold(psci_port_look(&side, &door, true) == PSCI_PORT_RESTS && memcmp(&side, &stands, sizeof side) == 0, "it has told",
         side.told);
    side.told = 1;
    hold(psci_port_look(&side, &door, true) == PSCI_PORT_TELLS && side.told == 2, "it has not told", side.told);
    door.opened = 1;
    hold(psci_port_look(&side, &door, true) == PSCI_PORT_TAKES_UP && side.used == 1 && side.post == PSCI_PORT_WAITING,
         "a door without a start", side.post);
    hold(psci_port_turns(&side) == PSCI_PORT_OUT_OF_ORDER, "one that waits turns", side.post);
    side.post = PSCI_PORT_ARMED;
    hold(psci_port_rouses(&side) == PSCI_PORT_OUT_OF_ORDER && side.post == PSCI_PORT_ARMED, "one that is armed is roused",
         side.post);
}

/* What a call leaves of what no call wrote, by a firmware that refuses it, and by one that does not; and SYSTEM_OFF. */
static void monitors(void) {
    struct psci_place own = {0};
    struct psci_answer answer;
    struct psci_port_orders orders;
    struct psci_port_core side = {.post = PSCI_PORT_RUNNING, .used = 1, .start = {9, 9, 9, PSCI_CAUSE_ON}}, before = side;
    hold(psci_open_board(&own, &board) == PSCI_OPENED, "a firmware of its own", 0);
    psci_port_call(&own, &side, 0x84000000, 0, 0, 0, &orders);
    hold(orders.next == PSCI_NO_LIFE && memcmp(&side, &before, sizeof side) == 0, "a refusal", orders.next);
    psci_enter(&own, 0, 1, 1, PSCI_CAUSE_BOOT, &answer);
    psci_port_enter(&own, &side, &orders);
    hold(orders.next == PSCI_PORT_OUT_OF_ORDER && memcmp(&side, &before, sizeof side) == 0, "one that runs enters",
         orders.next);
    psci_port_call(&own, &side, 0x84000000, 0, 0, 0, &orders);
    hold(orders.next == PSCI_PORT_LEAVES && side.start.number == 0 && side.start.life == 0, "a start of one that runs",
         side.start.number);
    psci_port_call(&own, &side, 0x84000008, 0, 0, 0, &orders);
    hold(orders.next == PSCI_PORT_STANDS && orders.stop == PSCI_PORT_ENDING && side.stop == PSCI_PORT_ENDING, "off",
         orders.stop);
    psci_close(&own);
}

/* What comes of a message of core 0 of this kind and number, of as many parts, in the last life of a board of three levels;
 * before or after the core has said that it stands. */
static struct psci_control_orders in_last_life(uint8_t kind, uint32_t number, uint8_t parts, bool stands) {
    static const struct psci_board tall = {
        .height = 3, .starts = 9, .lives = 1, .boot = 0x40000000, .many_ranges = 1, .ranges = {{0x40000000, 0x80000000}},
        .levels = {{1, {1}}, {1, {1}}, {1, {1}}},
    };
    struct psci_message message = {.kind = kind, .count = parts, .life = 1, .number = number,
                                   .parts = {{0, 3, 1}, {1, 3, 1}, {2, 2, 1}, {3, 1, 1}}};
    struct psci_control_place own = {0};
    struct psci_control_orders orders;
    struct psci_frame frame;
    psci_encode(&message, &frame);
    hold(psci_control_open_board(&own, &tall) == PSCI_OPENED && frame.some, "a controller of its own", kind);
    if (stands)
        psci_control_stands(&own, 0, 1);
    psci_control_message(&own, frame.bytes, PSCI_FRAME_LEN, &orders);
    psci_control_close(&own);
    return orders;
}

static void last_life(void) {
    struct psci_control_orders down = in_last_life(PSCI_MESSAGE_DOWN, 1, 4, true);
    hold(down.what == PSCI_CONTROL_ORDERS && down.many == 4, "a whole path goes down", down.many);
    hold(down.domains[2].depth == 2 && down.domains[3].level == 3 && down.domains[3].depth == 1, "up to the system",
         down.domains[3].level);
    hold(in_last_life(PSCI_MESSAGE_DOWN, 2, 1, false).what == PSCI_CONTROL_WAITS, "a Down waits by its generation", 2);
    hold(in_last_life(PSCI_MESSAGE_OFF, 1, 0, true).ends == PSCI_CONTROL_OFF, "off", 0);
    hold(in_last_life(PSCI_MESSAGE_RESET, 1, 0, true).ends == PSCI_CONTROL_OFF, "a reset in the last life", 0);
}

/* Who is rung does not stand, and is none where all do. */
static void rings(void) {
    uint16_t rung = psci_control_rings(&control);
    if (rung != 0xffff)
        hold(rung < CORES && cores[rung].word != psci_ctl_starts(&plain_control, rung), "who is rung", rung);
    for (unsigned core = 0; core < CORES; core++)
        hold(rung != 0xffff || cores[core].word == psci_ctl_starts(&plain_control, core), "nobody is rung", core);
}

/* The power controller of the side is read as the plain one. */
static void readers(void) {
    unsigned core = draw(CORES + 1), level = draw(4);
    struct psci_ctl_start start, plain;
    psci_control_started(&control, core, &start);
    psci_ctl_started(&plain_control, core, &plain);
    hold(memcmp(&start, &plain, sizeof start) == 0, "the last start", start.number);
    hold(psci_control_life(&control) == psci_ctl_life(&plain_control), "the life", psci_control_life(&control));
    hold(psci_control_starts(&control, core) == psci_ctl_starts(&plain_control, core), "the starts", core);
    hold(psci_control_depth(&control, level, core) == psci_ctl_depth(&plain_control, level, core), "the depth", level);
}

static uint32_t open(struct psci_place *place) {
    return has_words ? psci_open_machine(place, &board, &words, words.mpidrs[0]) : psci_open_board(place, &board);
}

/* Once no core runs, none ever will: power comes on anew, now and then with a machine's words. */
static void power_on(void) {
    has_words = draw(4) == 0;
    hold(open(&firmware) == 0 && open(&plain_firmware) == 0, "firmware", 0);
    hold(psci_control_open_board(&control, &board) == 0 && psci_ctl_open_board(&plain_control, &board) == 0, "control", 0);
    begin_life();
    serve_doors();
}

/* The power of a guest in the words of this machine: its calls name cores by MPIDRs, and have its functions alone. */
static void guest(void) {
    struct psci_guest_place place = {0};
    struct psci_guest_turn turn = {0};
    struct psci_machine more = words;
    more.functions = ~0u;
    hold(psci_guest_open_machine(&place, &board, &more, words.mpidrs[0], &turn) == PSCI_MACHINE_NO_ROOM && !place.full,
         "a function that there is not", place.full);
    hold(psci_guest_open_machine(&place, &board, &words, words.mpidrs[0], &turn) == PSCI_OPENED, "a guest", turn.what);
    hold(turn.life == 1 && turn.start.core == 0 && turn.entry.address == board.boot, "its boot core", turn.start.core);
    psci_guest_call(&place, 0, 1, ON | WIDE, words.mpidrs[3], ENTRY, 7, &turn);
    hold(turn.caller.code == 0 && turn.start.core == 3 && turn.entry.address == ENTRY && turn.entry.context == 7,
         "a core by its MPIDR", turn.start.core);
    psci_guest_call(&place, 0, 1, ON | WIDE, 1, ENTRY, 7, &turn);
    hold(turn.caller.code == -2 && !turn.start.number, "no MPIDR", (uint64_t)turn.caller.code);
    psci_guest_call(&place, 0, 1, SUSPEND | WIDE, 1, ENTRY, 7, &turn);
    hold(turn.caller.code == -1, "a function that the machine lacks", (uint64_t)turn.caller.code);
    psci_guest_close(&place);
}

int main(int many, char **words) {
    static unsigned char memory[1 << 16] __attribute__((aligned(16)));
    pool_give(memory, sizeof memory);
    hold(many == 3, "sides SEED STEPS", many);
    seed = strtoull(words[1], NULL, 0);
    guest();
    corners();
    monitors();
    last_life();
    power_on();
    refusals();
    for (unsigned long left = strtoul(words[2], NULL, 0); left > 0; left--) {
        if (left % TURN == 0)
            power_on();
        step();
        rings();
        readers();
    }
    for (unsigned at = 0; at <= REFUSALS; at++)
        printf("%s %u\n", names[at], tally[at]);
    psci_close(&firmware), psci_close(&plain_firmware), psci_control_close(&control), psci_ctl_close(&plain_control);
    return 0;
}
