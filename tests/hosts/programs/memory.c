/* What a firmware keeps of memory, by board: `memory TREE..` prints for each tree of cores the bytes that
 * are kept and in how many requests, the most bytes that were asked for at one time, and the bytes that
 * its power controller keeps. */
#include "counted.h"
#include "psci_ctl.h"

#include <stdio.h>
#include <string.h>

int main(int count, char **trees) {
    char board[4096];
    for (int i = 1; i < count; i++) {
        struct psci_place place = {0};
        snprintf(board, sizeof board,
                 "%s exec 0x40000000-0x40100000 boot 0x40000000 starts 1000 lives 3", trees[i]);
        most_given = 0;
        if (psci_open(&place, (const uint8_t *)board, strlen(board)) != PSCI_OPENED)
            return 1;
        printf("%zu %zu %zu ", given, requests, most_given);
        psci_close(&place);
        struct psci_ctl_place controller = {0};
        if (given || psci_ctl_open(&controller, (const uint8_t *)board, strlen(board)) != PSCI_OPENED)
            return 1;
        printf("%zu\n", given);
        psci_ctl_close(&controller);
        if (given || requests)
            return 1;
    }
    return 0;
}
