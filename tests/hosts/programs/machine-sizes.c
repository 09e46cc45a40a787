/* Whether POOL_SIZE and POOL_MACHINE_SIZE of hosts/pool.h suffice for machines that are drawn: boards of each number of cores and
 * of each height, whose MPIDRs count in one affinity field or another, with as many words as there may be and with
 * none. Ends with 1 where one does not open, or where none takes two thirds of what is said
 * of it beside its firmware. */
#include "pool.h"
#include "psci.h"

#include <stdio.h>
#include <stdlib.h>
#include <string.h>

enum { MACHINES = 60000, MOST_CHILDREN = 16 };

static uint64_t state = 1;
static struct psci_board board;
static struct psci_machine machine;

static unsigned draw(unsigned below) {
    state = state * 6364136223846793005u + 1442695040888963407u;
    return (state >> 33) % below;
}

/* So many nodes below those of a level: one each, as many as there may be, or as it comes. */
static void draw_level(struct psci_level *level, unsigned below) {
    unsigned way = draw(3);
    level->nodes = 0;
    while (below) {
        unsigned many = way == 0 ? 1 : way == 1 ? MOST_CHILDREN : 1 + draw(MOST_CHILDREN);
        many = many < below ? many : below;
        level->children[level->nodes++] = many;
        below -= many;
    }
}

/* Whether there is such a board: the highest level has one node, of at most 16 children. */
static bool draw_board(unsigned cores) {
    unsigned below = cores;
    board = (struct psci_board){.height = 1 + draw(3), .starts = 9, .lives = 3, .boot = 0x1000, .many_ranges = 4};
    for (unsigned at = 0; at < PSCI_MOST_RANGES; at++)
        board.ranges[at] = (struct psci_range){0x1000 + 0x10000 * at, 0x2000 + 0x10000 * at};
    for (unsigned level = 0; level + 1 < board.height; level++) {
        draw_level(&board.levels[level], below);
        below = board.levels[level].nodes;
    }
    board.levels[board.height - 1].nodes = 1;
    board.levels[board.height - 1].children[0] = below;
    return below <= MOST_CHILDREN;
}

static void draw_machine(unsigned cores) {
    unsigned way = draw(3);
    machine = (struct psci_machine){.levels = board.height, .functions = 0xff, .many_mpidrs = cores};
    for (unsigned core = 0; core < cores; core++)
        machine.mpidrs[core] = way == 0 ? core : way == 1 ? (uint64_t)core << 32 : (core / 4) << 8 | core % 4;
    for (unsigned level = 0; level <= board.height; level++)
        machine.standby[level] = machine.retention[level] = 1, machine.system[level] = 3;
    machine.many_rows = draw(2) * PSCI_MOST_ROWS;
    for (unsigned at = 0; at < machine.many_rows; at++)
        machine.rows[at] = (struct psci_row){.word = at + 1, .mask = UINT32_MAX, .states = {1}};
    machine.many_resets = PSCI_MOST_RESETS;
    for (unsigned at = 0; at < PSCI_MOST_RESETS; at++)
        machine.resets[at] = 0x80000000 + at;
}

int main(void) {
    size_t most = POOL_SIZE(256) + POOL_MACHINE_SIZE(256);
    double dearest = 0;
    void *memory = malloc(most);
    for (unsigned at = 0; at < MACHINES; at++) {
        unsigned cores = 1 + at % 256;
        struct psci_place place = {0};
        if (!draw_board(cores))
            continue;
        draw_machine(cores);
        pool_give(memory, POOL_SIZE(cores));
        psci_open_board(&place, &board);
        size_t without = pool_taken();
        pool_give(memory, POOL_SIZE(cores) + POOL_MACHINE_SIZE(cores));
        place = (struct psci_place){0};
        uint32_t what = psci_open_machine(&place, &board, &machine, machine.mpidrs[0]);
        if (what != PSCI_OPENED) {
            printf("%u cores, height %u: %u\n", cores, board.height, what);
            return 1;
        }
        double part = (double)(pool_taken() - without) / POOL_MACHINE_SIZE(cores);
        dearest = part > dearest ? part : dearest;
    }
    printf("machines take up to %.0f %% of what is said\n", 100 * dearest);
    return dearest < 0.67;
}
