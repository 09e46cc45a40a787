/* What the library promises (psci.h, psci_port.h) and no more, in its place; and ways into the port, each from anything
 * that the machine may hold there. */
#include "__fc_builtin.h"
#include "board.h"
#include "console.h"
#include "context.h"
#include "gic.h"
#include "hooks.h"
#include "link.h"
#include "monitor.h"
#include "power.h"
#include "processor.h"
#include "record.h"

volatile uint32_t any_device;
volatile uint64_t any_word;
static uint64_t number;

uint64_t *own_place(void) { return &number; }
static uint32_t any(uint32_t least, uint32_t most) { return Frama_C_unsigned_int_interval(least, most); }
static void anything(void *at, size_t size) { Frama_C_make_unknown(at, size); }
static void a_frame(struct psci_frame *it) { it->some = any(0, 1), anything(it->bytes, sizeof it->bytes); }
void others_write(void) { anything(&shared, sizeof shared), kept.boot = any_word; }

/* The firmware ------------------------------------------------------------------------------- */

/* Few enough values that Eva knows each of them, which is not the one beside. */
static uint32_t a_refusal(void) {
    return any(0, 1) ? any(PSCI_NO_FIRMWARE, PSCI_NO_CAUSE) : any(PSCI_PORT_NO_SIDE, PSCI_PORT_OUT_OF_ORDER);
}

uint32_t psci_open_board(struct psci_place *place, const struct psci_board *of) {
    return (void)place, (void)of, any(PSCI_OPENED, PSCI_NO_MEMORY);
}

uint32_t psci_open_poller(struct psci_place *place, struct psci_poller *poller) {
    return (void)place, (void)poller, any(0, 1) ? PSCI_OPENED : any(PSCI_NO_MEMORY, PSCI_NO_FIRMWARE);
}

uint32_t psci_open_machine(struct psci_place *place, const struct psci_board *of, const struct psci_machine *words,
                           uint64_t boot) {
    return (void)place, (void)of, (void)words, (void)boot, any(PSCI_OPENED, PSCI_MACHINE_BAD_FUNCTIONS);
}

static void a_core(struct psci_port_core *it) {
    it->post = any(PSCI_PORT_WAITING, PSCI_PORT_WOKEN), it->stop = any(PSCI_PORT_OFF, PSCI_PORT_ENDING);
    it->used = any(0, ~0u), it->told = any(0, ~0u), it->cause = any(PSCI_CAUSE_BOOT, PSCI_CAUSE_RESET);
    it->start.core = it->core, it->start.cause = it->cause;
    it->start.life = any(0, 65535), it->start.number = any(0, ~0u);
}

void psci_port_new(struct psci_port_core *it, uint16_t core) {
    it->core = core;
    a_core(it);
}

/* An order, or a refusal, of which nothing is to be done. */
static void port_orders(struct psci_port_core *it, struct psci_port_orders *orders) {
    //@ assert core_of_the_board: it->core < 4;
    a_core(it);
    orders->next = any(0, 1) ? any(PSCI_PORT_LEAVES, PSCI_PORT_STANDS) : a_refusal();
    orders->cause = any(PSCI_CAUSE_BOOT, PSCI_CAUSE_RESET), orders->stop = any(PSCI_PORT_OFF, PSCI_PORT_ENDING);
    orders->x0 = any_word, orders->address = any_word;
    a_frame(&orders->message);
    for (unsigned level = 0; level < 4; level++)
        orders->depths[level] = any(PSCI_CTL_ON, PSCI_CTL_POWER_DOWN);
    orders->asked.what = any(PSCI_ASKS_NOTHING, PSCI_ASKS_RESET);
    orders->asked.reset = any(0, ~0u);
    anything(orders->asked.states, sizeof orders->asked.states);
}

void psci_port_call(struct psci_place *place, struct psci_port_core *it, uint64_t x0, uint64_t x1, uint64_t x2, uint64_t x3,
                    struct psci_port_orders *orders) {
    (void)place, (void)x0, (void)x1, (void)x2, (void)x3;
    port_orders(it, orders);
}

void psci_port_enter(struct psci_place *place, struct psci_port_core *it, struct psci_port_orders *orders) {
    (void)place;
    port_orders(it, orders);
}

static uint32_t a_turn(struct psci_port_core *it) {
    a_core(it);
    return any(0, 1) ? 0 : any(PSCI_PORT_NO_SIDE, PSCI_PORT_OUT_OF_ORDER);
}

uint32_t psci_port_look(struct psci_port_core *it, const struct psci_port_door *door, bool pending) {
    (void)pending;
    //@ assert a_door_is_there: \initialized(&door->opened) && \initialized(&door->start.number);
    return any(0, 1) ? any(PSCI_PORT_TAKES_UP, PSCI_PORT_RESTS) : a_turn(it);
}

uint32_t psci_port_stands(struct psci_port_core *it) { return a_turn(it); }
uint32_t psci_port_arms(struct psci_port_core *it) { return a_turn(it); }
uint32_t psci_port_sleeps(struct psci_port_core *it) { return a_turn(it); }
uint32_t psci_port_rouses(struct psci_port_core *it) { return a_turn(it); }
uint32_t psci_port_rises(struct psci_port_core *it, bool started) { return (void)started, a_turn(it); }
uint32_t psci_port_turns(struct psci_port_core *it) { return a_turn(it); }
uint32_t psci_port_comes_back(struct psci_port_core *it) { return a_turn(it); }

uint32_t psci_take(struct psci_place *place, const uint8_t *frame, size_t length) {
    (void)place;
    //@ assert a_frame_is_there: \initialized(frame + (0 .. length - 1));
    return any(0, 1) ? any(PSCI_USED, PSCI_OLD) : any(PSCI_NO_FIRMWARE, PSCI_FRAME_NOT_AN_ACK);
}

uint32_t psci_port_again(struct psci_place *place, uint16_t number, struct psci_port_sent *last, struct psci_frame *it) {
    (void)place;
    //@ assert core_or_system: number <= 4;
    //@ assert a_look_is_there: \initialized(&last->kind) && \initialized(&last->life) && \initialized(&last->number);
    last->kind = any(0, PSCI_MESSAGE_RESET), last->life = any(0, 65535), last->number = any(0, ~0u);
    a_frame(it);
    return any(0, 1) ? any(PSCI_PORT_NONE, PSCI_PORT_AGAIN) : any(PSCI_NO_FIRMWARE, PSCI_NO_CORE);
}

uint16_t psci_core_of(struct psci_place *place, uint64_t mpidr) {
    return (void)place, (void)mpidr, any(0, 1) ? any(0, CORES - 1) : 0xffff;
}

int32_t psci_poll(struct psci_poller *poller, uint64_t word) { return (void)poller, (void)word, Frama_C_interval(-2, 16); }

/* The power controller ----------------------------------------------------------------------- */

static void a_start(struct psci_ctl_start *it) {
    it->core = any(0, CORES - 1);
    it->life = any(0, 65535), it->number = any(0, ~0u), it->cause = any(PSCI_CAUSE_BOOT, PSCI_CAUSE_RESET);
}

static void control_orders(struct psci_control_orders *it, bool waits) {
    it->what = any(0, 1) ? any(PSCI_CONTROL_ORDERS, waits) : a_refusal();
    it->many = any(0, LEVELS);
    for (unsigned at = 0; at < 4; at++)
        it->domains[at] = (struct psci_ctl_domain){any(0, LEVELS - 1), any(0, CORES - 1), any(0, 3)};
    a_start(&it->start);
    a_frame(&it->ack);
    it->ends = any(PSCI_CONTROL_GOES_ON, PSCI_CONTROL_RESTART);
}

uint32_t psci_control_open_board(struct psci_control_place *place, const struct psci_board *of) {
    return (void)place, (void)of, any(PSCI_OPENED, PSCI_NO_MEMORY);
}

/* What waits is a frame of the board, whose fourth byte is its core. */
void psci_control_message(struct psci_control_place *place, const uint8_t *frame, size_t length,
                          struct psci_control_orders *orders) {
    (void)place;
    //@ assert a_frame_is_there: \initialized(frame + (0 .. length - 1));
    control_orders(orders, frame[3] < CORES);
}

void psci_control_waited(struct psci_control_place *place, uint16_t core, struct psci_control_orders *orders) {
    (void)place;
    //@ assert core_of_the_board: core < 4;
    control_orders(orders, true);
}

void psci_control_wake(struct psci_control_place *place, uint16_t core, struct psci_control_orders *orders) {
    (void)place;
    //@ assert core_of_the_board: core < 4;
    control_orders(orders, true);
}

uint32_t psci_control_stands(struct psci_control_place *place, uint16_t core, uint32_t word) {
    (void)place, (void)word;
    //@ assert core_of_the_board: core < 4;
    return any(0, 1) ? 0 : any(PSCI_NO_FIRMWARE, PSCI_NO_CAUSE);
}

/* A refusal writes nothing. */
uint32_t psci_control_door(struct psci_control_place *place, uint16_t core, struct psci_port_door *door) {
    (void)place;
    //@ assert core_of_the_board: core < 4;
    if (any(0, 1))
        return any(PSCI_NO_FIRMWARE, PSCI_NO_CAUSE);
    a_start(&door->start);
    door->opened = any(0, ~0u);
    return any(PSCI_CONTROL_NOTHING, PSCI_CONTROL_OPEN);
}

uint16_t psci_control_rings(struct psci_control_place *place) {
    return (void)place, any(0, 1) ? any(0, CORES - 1) : 0xffff;
}

/* The machine -------------------------------------------------------------------------------- */

char data_start[16], data_end[1], data_load[16], bss_start[16], bss_end[1], kept_start[16], kept_end[1];

const struct part parts[] = {{1, SMPEN, BY_MMU}, {0, UNKNOWN, NOBODY_KNOWS}};

/* stand.S */
void stand(const struct last_word *last, enum caches caches) {
    (void)caches;
    if (last->word)
        *last->word = last->says;
    others_write();
}

void cold(void) { Frama_C_abort(); }
void begin_normal_world(void) {}
void open_features(void) {}
void board_ends(bool resets) { (void)resets, Frama_C_abort(); }
void leave_for(uint64_t address, uint64_t x0) { (void)address, (void)x0, Frama_C_abort(); }
void say(const char *form, ...) { (void)form; }
void say_part(const char *form, ...) { (void)form; }
void console_take(void) {}
void console_give(void) {}

/* The ways in -------------------------------------------------------------------------------- */

void on_exception(struct context *, uint64_t esr);
void on_fiq(void);

static void somewhere(void) {
    number = any(0, CORES - 1);
    for (unsigned core = 0; core < CORES; core++)
        psci_port_new(&sides[core], core);
    anything(&kept, sizeof kept);
    others_write();
}

void main_call(void) {
    struct context context;
    anything(&context, sizeof context);
    somewhere();
    on_exception(&context, any_word);
}

void main_fiq(void) {
    somewhere();
    on_fiq();
}

void main_reset(void) {
    somewhere();
    on_reset();
}

#ifdef SCP_MPIDR
void main_control(void) {
    somewhere();
    control_power();
}
#endif
