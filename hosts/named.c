/* named MACHINE SCRIPT: plays a script in the words of a machine, whose text (docs/port/FORMATS.md) the
 * library gets as structs. A core has its MPIDR, and a call its registers. Writes the answer lines of
 * `./psci replay --machine`, where the library answers as the program does. A machine that does not
 * open is told by its number. */
#include "player.h"
#include "pool.h"
#include "words.h"

#include <inttypes.h>
#include <stdio.h>
#include <stdlib.h>
#include <string.h>

enum { MOST_LINE = 512 };

static struct words words;

unsigned core_named(uint64_t mpidr) { return psci_core_of(&place, mpidr); }
void write_core(unsigned core) { printf("0x%" PRIx64, psci_mpidr_of(&place, core)); }
void before_entry(void) {}

/* Which of the machine's states a core that stops has asked for, or which reset: of each level that its
 * board has. */
void write_asked(const struct psci_asked *asked) {
    if (asked->what == PSCI_ASKS_RESET)
        printf(" reset 0x%08" PRIx32, asked->reset);
    if (asked->what != PSCI_ASKS_STATES)
        return;
    printf(" states");
    for (uint32_t level = 0; level <= words.board.height; level++)
        printf(" %u", asked->states[level]);
}

/* The core that boots has number 0, and its MPIDR. */
static void open_all(void) {
    size_t size = 3 * pool_size(words.machine.many_mpidrs) + 65536;
    pool_give(malloc(size), size);
    uint32_t opened = psci_open_machine(&place, &words.board, &words.machine, words.boot);
    if (opened != PSCI_OPENED) {
        printf("machine %" PRIu32 "\n", opened);
        exit(0);
    }
    if (psci_ctl_open_board(&controller, &words.board) != PSCI_OPENED)
        fail("the board did not open");
    if (psci_core_of(&place, words.boot) != 0)
        fail("the boot core has another number");
    begin_life();
}

int main(int count, char **names) {
    static char line[MOST_LINE];
    FILE *script = count == 3 ? fopen(names[2], "r") : NULL;
    if (!script || !read_words(names[1], &words))
        fail("give a machine and a script");
    open_all();
    for (uint64_t events = 0; fgets(line, sizeof line, script);) {
        if (strchr("cewrdt", *line)) {
            printf("%" PRIu64 " ", ++events);
            event(line);
            putchar('\n');
        }
    }
    psci_close(&place);
    psci_ctl_close(&controller);
    return 0;
}
