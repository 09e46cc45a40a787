#include "machine.h"
#include "pool.h"

#include <inttypes.h>
#include <stdio.h>
#include <stdlib.h>
#include <string.h>

const struct psci_board two_by_two = {
    .height = 2,
    .starts = 100000,
    .lives = 65535,
    .boot = 0x40000000,
    .many_ranges = 1,
    .ranges = {{0x40000000, 0x40100000}},
    .levels = {{.nodes = 2, .children = {2, 2}}, {.nodes = 1, .children = {2}}},
};

struct psci_place firmware;
struct psci_ctl_place controller;
struct psci_answer said;
struct psci_ctl_answer done;
bool runs[CORES];
struct psci_frame box[CORES + 1];
_Alignas(16) unsigned char firmware_heap[HEAP];

void fail(const char *why, uint64_t what) {
    fflush(stdout);
    fprintf(stderr, "%s: %" PRIu64 "\n", why, what);
    exit(1);
}

void cold_reset(const struct psci_board *board) {
    static _Alignas(16) unsigned char controller_heap[HEAP];
    pool_give(controller_heap, HEAP);
    memset(&controller, 0, sizeof controller);
    memset(box, 0, sizeof box);
    if (psci_ctl_open_board(&controller, board) != PSCI_OPENED)
        fail("no power controller", 0);
    open_anew(board);
}

void open_anew(const struct psci_board *board) {
    pool_give(firmware_heap, HEAP);
    memset(&firmware, 0, sizeof firmware);
    memset(runs, 0, sizeof runs);
    if (psci_open_board(&firmware, board) != PSCI_OPENED)
        fail("no firmware", 0);
}

uint64_t word_of(unsigned core) { return (uint64_t)(core / 2) << 8 | core % 2; }

/* The frame of a message has its kind and core in these bytes. */
static unsigned place_of(const struct psci_frame *message) {
    struct psci_message fields;
    if (psci_decode(&firmware, message->bytes, PSCI_FRAME_LEN, &fields) != PSCI_USED)
        fail("a message is no frame", 0);
    return fields.kind <= PSCI_MESSAGE_START ? fields.core : SYSTEM;
}

/* What follows on an answer: the message goes into the mailbox, then the core goes on or not. */
static uint32_t obey(unsigned core) {
    if (said.message.some)
        box[place_of(&said.message)] = said.message;
    if (said.what < PSCI_NO_FIRMWARE)
        runs[core] = said.what != PSCI_STOP;
    return said.what;
}

uint32_t smc(unsigned core, uint64_t x0, uint64_t x1, uint64_t x2, uint64_t x3) {
    psci_smc(&firmware, core, x0, x1, x2, x3, &said);
    return obey(core);
}

uint32_t enter_by(unsigned core, const struct psci_ctl_start *start) {
    psci_enter(&firmware, core, start->life, start->number, start->cause, &said);
    return obey(core);
}

uint32_t enter(unsigned core) {
    struct psci_ctl_start start;
    psci_ctl_started(&controller, core, &start);
    return enter_by(core, &start);
}

int32_t code_of(uint32_t what) {
    if (what != PSCI_RETURN)
        fail("a call did not return", what);
    return said.code;
}

void deliver(unsigned place) {
    struct psci_frame message = box[place];
    box[place].some = false;
    psci_ctl_deliver(&controller, message.bytes, PSCI_FRAME_LEN, &done);
    if (done.what >= PSCI_CTL_NO_PLACE)
        fail("refused by the power controller", done.what);
    if (done.ack.some && psci_take(&firmware, done.ack.bytes, PSCI_FRAME_LEN) > PSCI_OLD)
        fail("an acknowledgement was refused", 0);
}

void serve(void) {
    for (unsigned place = 0; place <= SYSTEM; place++)
        if (box[place].some)
            deliver(place);
}

uint32_t wake(unsigned core) {
    psci_ctl_wake(&controller, core, psci_ctl_starts(&controller, core), &done);
    if (done.what != PSCI_CTL_START)
        fail("a core was not woken", core);
    return enter(core);
}

void read_all(struct readings *to) {
    memset(to, 0, sizeof *to);
    to->of_all[0] = psci_life(&firmware);
    to->of_all[1] = psci_halting(&firmware);
    for (unsigned level = 0; level < LEVELS; level++)
        for (unsigned index = 0; index < (unsigned)CORES >> level; index++) {
            to->of_nodes[level][index][0] = psci_status(&firmware, level, index);
            to->of_nodes[level][index][1] = psci_hw(&firmware, level, index);
            to->of_nodes[level][index][2] = psci_granted(&firmware, level, index);
        }
    for (unsigned core = 0; core < CORES; core++) {
        to->of_cores[core][0] = psci_known(&firmware, core);
        to->of_cores[core][1] = psci_running(&firmware, core);
    }
    for (unsigned number = 0; number <= SYSTEM; number++)
        psci_outstanding(&firmware, number, &to->outstanding[number]);
}

bool is_same(const struct readings *before) {
    struct readings now;
    read_all(&now);
    return memcmp(&now, before, sizeof now) == 0;
}
