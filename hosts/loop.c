/* loop SCRIPT [READ [anew]]: plays a script. Calls, entries and acknowledgements go to the library's
 * firmware, and messages, wake-ups and resets to its power controller. Writes the answer lines: the
 * program's, where the library answers as the program does. After each event every core is polled, and
 * has to be what the firmware says. Into the file READ it writes what is read of the board, and of the
 * firmware before any event and after each. By `anew` the firmware is made anew as each life begins,
 * with the first entry in it: that cannot be told. */
#define _XOPEN_SOURCE 700
#include "player.h"
#include "pool.h"

#include <inttypes.h>
#include <stdio.h>
#include <stdlib.h>
#include <string.h>

enum { MOST_CORES = 256, MOST_LINE = 512 };

/* The affinity of each core. */
static uint64_t affinities[MOST_CORES];
static unsigned many_cores;
static struct psci_poller poller;
static FILE *readings;

/* The board's text, if the firmware is made anew for each life. */
static char *anew;

unsigned core_named(uint64_t number) { return number < many_cores ? number : UINT16_MAX; }
void write_core(unsigned core) { printf("%u", core); }
void write_asked(const struct psci_asked *asked) { (void)asked; }

/* Each number of the tree is a cluster of so many cores. Within the inner brackets clusters count
 * anew for each group. */
static void read_cores(const char *tree) {
    uint64_t group = 0, cluster = 0;
    for (int depth = 0; *tree && strncmp(tree, " exec", 5) != 0; tree++) {
        if (*tree == '(' && ++depth == 2)
            cluster = 0;
        if (*tree == ')' && depth-- == 2)
            group++;
        if (*tree < '0' || *tree > '9')
            continue;
        uint64_t many = strtoul(tree, (char **)&tree, 10);
        for (uint64_t core = 0; core < many; core++)
            affinities[many_cores++] = group << 16 | cluster << 8 | core;
        cluster++;
        tree--;
    }
}

/* What is read of the board: cores, height, and of each level its nodes and the children of each. */
static void write_board(void) {
    fprintf(readings, "board %u %" PRIu32, psci_cores(&place), psci_height(&place));
    for (uint32_t level = 0; level <= psci_height(&place); level++) {
        fprintf(readings, " %u", psci_nodes(&place, level));
        for (unsigned node = 0; node < psci_nodes(&place, level); node++)
            fprintf(readings, "%c%" PRIu32, node ? ',' : ':', psci_children(&place, level, node));
    }
    fputc('\n', readings);
}

/* The outstanding message of this number, by its fields. */
static void write_outstanding(unsigned number) {
    struct psci_frame frame;
    struct psci_message message;
    psci_outstanding(&place, number, &frame);
    if (!frame.some) {
        fputs(" -", readings);
        return;
    }
    if (psci_decode(&place, frame.bytes, sizeof frame.bytes, &message) != PSCI_USED)
        fail("an outstanding message is no frame");
    fprintf(readings, " %u,%u,%u,%" PRIu32 ",%" PRIu32, message.kind, message.count, message.core,
            message.life, message.number);
    for (const struct psci_part *part = message.parts; part < message.parts + message.count; part++)
        fprintf(readings, ",%" PRIu32 ":%u:%" PRIu64, part->level, part->depth, part->generation);
}

/* What every reader says of the firmware. */
static void write_readings(void) {
    fprintf(readings, "%" PRIu32 " %d", psci_life(&place), psci_halting(&place));
    for (uint32_t level = 0; level <= psci_height(&place); level++)
        for (unsigned node = 0; node < psci_nodes(&place, level); node++)
            fprintf(readings, " %" PRIu32 ":%" PRIu32 ":%u", psci_status(&place, level, node),
                    psci_hw(&place, level, node), psci_granted(&place, level, node));
    for (unsigned core = 0; core < many_cores; core++)
        fprintf(readings, " %" PRIu32 ":%d", psci_known(&place, core), psci_running(&place, core));
    for (unsigned number = 0; number <= many_cores; number++)
        write_outstanding(number);
    fputc('\n', readings);
}

/* What is polled of each core is what the firmware says of it, OFF before any has entered. */
static void poll_all(void) {
    for (unsigned core = 0; core < many_cores; core++) {
        uint32_t said = psci_status(&place, 0, core);
        if (psci_poll(&poller, affinities[core]) != (said == PSCI_NO_LIFE ? 1 : (int32_t)said))
            fail("a poll is not what the firmware says");
    }
}

/* What holds after each event: the readers' lines, if they are wanted. */
static void look(void) {
    poll_all();
    if (readings)
        write_readings();
}

static void open_firmware(const char *text) {
    if (psci_open(&place, (const uint8_t *)text, strlen(text)) != PSCI_OPENED)
        fail("the board did not open");
    if (psci_open_poller(&place, &poller) != PSCI_OPENED)
        fail("the poller did not open");
}

static void open_board(const char *text) {
    read_cores(text);
    size_t size = 3 * pool_size(many_cores);
    pool_give(malloc(size), size);
    if (psci_ctl_open(&controller, (const uint8_t *)text, strlen(text)) != PSCI_OPENED)
        fail("the power controller did not open");
    if (anew)
        anew = strdup(text);
    open_firmware(text);
    begin_life();
    if (readings)
        write_board();
    look();
}

/* The firmware of a new life is made with the first entry in it. */
void before_entry(void) {
    if (anew && life != psci_life(&place))
        open_firmware(anew);
}

int main(int count, char **words) {
    static char line[MOST_LINE];
    FILE *script = count >= 2 ? fopen(words[1], "r") : NULL;
    if (!script)
        fail("give a script");
    if (count > 2 && !(readings = fopen(words[2], "w")))
        fail("what is read cannot be written");
    if (count > 3)
        anew = words[3];
    for (uint64_t at = 0, events = 0; fgets(line, sizeof line, script); at++) {
        line[strcspn(line, "\n")] = 0;
        if (at == 0) {
            open_board(line + strlen("board "));
        } else if (*line && *line != '#') {
            printf("%" PRIu64 " ", ++events);
            event(line);
            putchar('\n');
            look();
        }
    }
    psci_close(&place);
    psci_close_poller(&poller);
    psci_ctl_close(&controller);
    if (anew)
        free(anew);
    return 0;
}
