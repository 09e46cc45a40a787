/* ctl_loop SCRIPT ANSWERS [saved]: plays the power controller's side of a script. Messages, wake-ups and
 * resets go to the library; what the firmware says, and so which messages there are, is taken from
 * the answers that the program gave. Writes the answer lines: the program's, where the library
 * answers as the program does. It uses the power controller's half of the archive alone. By `saved` the
 * power controller is saved before each event, made anew, and loaded: that cannot be told. */
#define _XOPEN_SOURCE 700
#include "pool.h"
#include "psci_ctl.h"

#include <inttypes.h>
#include <stdio.h>
#include <stdlib.h>
#include <string.h>

enum { MOST_CORES = 256, MOST_FRAMES = 100000, MOST_LINE = 512, MOST_WORDS = 3 + 5 * MOST_CORES };

static struct psci_ctl_place place;
static unsigned many_cores;
static bool stopped[MOST_CORES];
static uint8_t messages[MOST_FRAMES][PSCI_FRAME_LEN];
static uint64_t many_messages, many_acks;

static void fail(const char *why) {
    fprintf(stderr, "ctl_loop: %s\n", why);
    exit(1);
}

/* The board's text, if the power controller is saved before each event. */
static char *board;

static void open_it(const char *text) {
    if (psci_ctl_open(&place, (const uint8_t *)text, strlen(text)) != PSCI_OPENED)
        fail("the board did not open");
}

/* The power controller is saved, and loaded into one that is made anew. */
static void move(void) {
    static uint64_t words[MOST_WORDS];
    size_t many = psci_ctl_save_size(&place);
    if (many > MOST_WORDS || psci_ctl_save(&place, words, many) != 0)
        fail("it is not saved");
    psci_ctl_close(&place);
    open_it(board);
    if (psci_ctl_load(&place, words, many) != 0)
        fail("it is not loaded");
}

/* Each number of the tree is a cluster of so many cores. */
static void open_board(const char *text) {
    for (const char *tree = text; *tree && strncmp(tree, " exec", 5) != 0; tree++)
        if (*tree >= '0' && *tree <= '9') {
            many_cores += strtoul(tree, (char **)&tree, 10);
            tree--;
        }
    size_t size = pool_size(many_cores);
    pool_give(malloc(size), size);
    open_it(text);
    for (unsigned core = 1; core < many_cores; core++)
        stopped[core] = true;
}

/* Messages ----------------------------------------------------------------------------------- */

/* A number into a frame, its highest byte first. */
static uint8_t *put(uint8_t *to, uint64_t number, int length) {
    for (int i = 0; i < length; i++)
        to[i] = number >> 8 * (length - 1 - i);
    return to + length;
}

static uint8_t kind_of(const char *word) {
    static const char *const kinds[] = {"", "down", "start", "off", "reset"};
    for (uint8_t kind = 1; kind < 5; kind++)
        if (strcmp(word, kinds[kind]) == 0)
            return kind;
    fail("there is no such kind of message");
    return 0;
}

/* The message in what the firmware said, if there is one. */
static void note_message(const char *said) {
    char kind[8];
    unsigned core, level, depth, many = 0;
    uint64_t index, generation;
    uint32_t life, number;
    const char *at = strchr(said, '#');
    if (!at)
        return;
    int found = sscanf(at, "#%" SCNu64 " %7s %u life %" SCNu32 " number %" SCNu32, &index, kind,
                       &core, &life, &number);
    if (found != 5 || index != many_messages || many_messages == MOST_FRAMES)
        fail("a message is not as it should be");
    uint8_t *frame = messages[many_messages++], *to = put(frame, 0x5044, 2);
    to = put(put(put(put(to, kind_of(kind), 1), core, 1), life, 4), number, 4) + 1;
    for (at = strstr(at, " parts"); at && (at = strchr(at + 1, ' ')); many++) {
        if (sscanf(at, " %u:%u:%" SCNu64, &level, &depth, &generation) != 3 || many == 4)
            fail("a part is not as it should be");
        to = put(put(put(to, level, 1), depth, 1), generation, 8);
    }
    frame[12] = many;
}

/* What a core does by what the firmware said to it. */
static void obey(unsigned core, const char *said) {
    if (strncmp(said, "stop", 4) == 0)
        stopped[core] = true;
    note_message(said);
}

/* The power controller ----------------------------------------------------------------------- */

/* What is switched. A core that is started finds the start that it is told of. */
static void carry_out(const struct psci_ctl_answer *answer) {
    struct psci_ctl_start found;
    if (answer->what == PSCI_CTL_OFF || answer->what == PSCI_CTL_RESTART)
        for (unsigned core = 0; core < many_cores; core++)
            stopped[core] = true;
    if (answer->what == PSCI_CTL_START || answer->what == PSCI_CTL_RESTART) {
        unsigned core = answer->start.core;
        stopped[core] = false;
        psci_ctl_started(&place, core, &found);
        if (found.core != core || found.life != answer->start.life
            || found.number != answer->start.number || found.cause != answer->start.cause)
            fail("a core finds another start");
    }
    for (unsigned k = 0; k < answer->many; k++)
        if (psci_ctl_depth(&place, answer->domains[k].level, answer->domains[k].index)
            != answer->domains[k].depth)
            fail("a domain is not as deep as was said");
    if (answer->what >= PSCI_CTL_NO_PLACE)
        fail("a call was refused");
}

static void deliver(uint64_t k) {
    struct psci_ctl_answer answer;
    if (k >= many_messages) {
        printf("absent");
        return;
    }
    psci_ctl_deliver(&place, messages[k], PSCI_FRAME_LEN, &answer);
    carry_out(&answer);
    if (!answer.ack.some) {
        printf("ignored");
        return;
    }
    printf("ack #%" PRIu64 " applied %u", many_acks++, answer.ack.bytes[12]);
    if (answer.ack.bytes[2] & 0x20)
        printf(" stale");
}

/* A wake-up of a core that is stopped, or a reset of any. */
static void kick(unsigned core, bool wakes) {
    struct psci_ctl_answer answer = {0};
    if (wakes && stopped[core])
        psci_ctl_wake(&place, core, psci_ctl_starts(&place, core), &answer);
    else if (!wakes)
        psci_ctl_reset(&place, core, &answer);
    carry_out(&answer);
    if (answer.what == PSCI_CTL_START)
        printf("started %" PRIu32, answer.start.number);
    else
        printf("ignored");
}

/* One event, and what the program said of it. */
static void event(const char *line, const char *said) {
    uint64_t number = strtoull(strchr(line, ' '), NULL, 10);
    bool kicks = *line == 'w' || *line == 'r', calls = *line == 'c' || *line == 'e';
    if (kicks && number >= many_cores) {
        printf("absent");
    } else if (kicks) {
        kick(number, *line == 'w');
    } else if (*line == 'd') {
        deliver(number);
    } else {
        printf("%s", said);
        if (calls && number < many_cores)
            obey(number, said);
    }
    putchar('\n');
}

int main(int count, char **words) {
    static char line[MOST_LINE], answer[MOST_LINE];
    bool saves = count == 4 && strcmp(words[3], "saved") == 0;
    FILE *script = count == 3 || saves ? fopen(words[1], "r") : NULL;
    FILE *answers = script ? fopen(words[2], "r") : NULL;
    if (!script || !answers)
        fail("give a script and its answers");
    for (uint64_t at = 0, events = 0; fgets(line, sizeof line, script); at++) {
        line[strcspn(line, "\n")] = 0;
        if (at == 0) {
            open_board(line + strlen("board "));
            board = saves ? strdup(line + strlen("board ")) : NULL;
        } else if (*line && *line != '#') {
            if (!fgets(answer, sizeof answer, answers))
                fail("there are fewer answers than events");
            answer[strcspn(answer, "\n")] = 0;
            printf("%" PRIu64 " ", ++events);
            if (board)
                move();
            event(line, strchr(answer, ' ') + 1);
        }
    }
    psci_ctl_close(&place);
    return 0;
}
