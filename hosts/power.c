/* power: what docs/port/PORTING.md says of the power hardware, of the board that both sides share, and of a way
 * that alters bytes, tried. Prints what was seen. */
#include "machine.h"

#include <inttypes.h>
#include <stdio.h>
#include <string.h>

/* The hardware ------------------------------------------------------------------------------- */

/* How deep each domain is by its switches, whatever the power controller keeps. */
static uint8_t depths[LEVELS][CORES];

/* Carries out what the power controller answered. */
static void carry_out(const struct psci_ctl_answer *answer) {
    for (uint32_t k = 0; k < answer->many; k++)
        depths[answer->domains[k].level][answer->domains[k].index] = answer->domains[k].depth;
    if (answer->what == PSCI_CTL_START)
        for (uint32_t level = 0; level < LEVELS; level++)
            depths[level][answer->start.core >> level] = PSCI_CTL_ON;
}

/* Core 1 suspends, and is woken just behind its Down. The domains are switched before the wake-up is told
 * to the power controller, or after it. */
static void try_order(bool switches_first) {
    memset(depths, 0, sizeof depths);
    cold_reset(&two_by_two);
    enter(0);
    smc(0, ON, word_of(1), 0x40001000, 0);
    serve();
    enter(1);
    smc(1, SUSPEND, CORE_DOWN, 0x40001000, 0);
    deliver(1);
    struct psci_ctl_answer down = done;
    if (switches_first)
        carry_out(&down);
    wake(1);
    carry_out(&done);
    if (!switches_first)
        carry_out(&down);
    printf("domains switched %s the next call: core 1 runs: %d, and its depth is %u\n",
           switches_first ? "before" : "after", runs[1], depths[0][1]);
}

/* The board ---------------------------------------------------------------------------------- */

/* What the power controller of a board says of the message of a call of core 0, on the firmware's board. */
static uint32_t said_of(const struct psci_board *board, uint64_t x0, uint64_t x1) {
    cold_reset(&two_by_two);
    memset(&controller, 0, sizeof controller);
    if (psci_ctl_open_board(&controller, board) != PSCI_OPENED)
        fail("no power controller", 0);
    enter(0);
    smc(0, x0, x1, 0x40001000, 0);
    psci_ctl_deliver(&controller, said.message.bytes, PSCI_FRAME_LEN, &done);
    return done.what;
}

/* On a board that has no core 3, and on one that has one level of domains, some of the messages are refused. */
static void try_boards(void) {
    struct psci_board three_cores = two_by_two, one_level = two_by_two;
    three_cores.levels[0].children[1] = 1;
    one_level.height = 1, one_level.levels[0] = (struct psci_level){.nodes = 1, .children = {4}};
    const struct psci_board *boards[] = {&two_by_two, &three_cores, &one_level};
    const char *names[] = {"both sides on (2 2)", "the controller on (2 1)", "the controller on (4)"};
    for (int k = 0; k < 3; k++) {
        uint32_t start = said_of(boards[k], ON, word_of(3));
        printf("%s: a Start of core 3 %" PRIu32 ", a Down of all %" PRIu32 "\n", names[k], start,
               said_of(boards[k], SUSPEND, ALL_DOWN));
    }
}

/* The way ------------------------------------------------------------------------------------ */

/* Fletcher's sum of a frame. */
static uint16_t sum_of(const uint8_t *bytes) {
    unsigned low = 0, high = 0;
    for (int k = 0; k < PSCI_FRAME_LEN; k++) {
        low = (low + bytes[k]) % 255;
        high = (high + low) % 255;
    }
    return high << 8 | low;
}

/* Each bit of an acknowledgement is altered in turn. How many of these frames come to the firmware, by a
 * way with a check sum or without, and how many of them are taken for an acknowledgement. */
static void try_altered(bool has_sum) {
    unsigned came = 0, taken = 0;
    cold_reset(&two_by_two);
    enter(0);
    smc(0, ON, word_of(1), 0x40001000, 0);
    psci_ctl_deliver(&controller, box[1].bytes, PSCI_FRAME_LEN, &done);
    struct psci_frame ack = done.ack;
    uint16_t sum = sum_of(ack.bytes);
    for (int bit = 0; bit < 8 * PSCI_FRAME_LEN; bit++) {
        ack.bytes[bit / 8] ^= 1 << bit % 8;
        if (!has_sum || sum_of(ack.bytes) == sum) {
            came++;
            taken += psci_take(&firmware, ack.bytes, PSCI_FRAME_LEN) <= PSCI_OLD;
        }
        ack.bytes[bit / 8] ^= 1 << bit % 8;
    }
    printf("altered, %s: %u of %d come through, and some are taken: %d\n",
           has_sum ? "with a check sum" : "without one", came, 8 * PSCI_FRAME_LEN, taken > 0);
}

int main(void) {
    try_order(true);
    try_order(false);
    try_boards();
    try_altered(true);
    try_altered(false);
    psci_close(&firmware);
    psci_ctl_close(&controller);
    return 0;
}
