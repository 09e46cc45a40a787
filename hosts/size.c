/* size BOARD..: how many bytes of a pool (pool.c) the firmware of each board text takes, with a poller
 * for each of its cores, exactly: in so many they open, and in 16 fewer they do not. */
#include "pool.h"
#include "psci.h"

#include <stdio.h>
#include <stdlib.h>
#include <string.h>

/* Whether the firmware of the board opens in so many bytes, with a poller for each of its cores. */
static bool opens(const char *board, void *memory, size_t size) {
    struct psci_place place = {0};
    pool_give(memory, size);
    if (psci_open(&place, (const uint8_t *)board, strlen(board)) != PSCI_OPENED)
        return false;
    for (unsigned core = 0; core < psci_cores(&place); core++) {
        struct psci_poller poller = {0};
        if (psci_open_poller(&place, &poller) != PSCI_OPENED)
            return false;
    }
    return true;
}

int main(int count, char **words) {
    size_t most = pool_size(256) + 65536;
    void *memory = malloc(most);
    for (int at = 1; at < count; at++) {
        if (!opens(words[at], memory, most)) {
            fprintf(stderr, "size: %s: no board\n", words[at]);
            return 1;
        }
        size_t size = pool_taken();
        if (!opens(words[at], memory, size) || opens(words[at], memory, size - 16)) {
            fprintf(stderr, "size: %s: not %zu bytes\n", words[at], size);
            return 1;
        }
        printf("%zu %s\n", size, words[at]);
    }
    return 0;
}
