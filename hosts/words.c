#include "words.h"

#include <stdio.h>
#include <stdlib.h>
#include <string.h>

static const char *const names[] = {"cpu_suspend", "cpu_off", "cpu_on", "system_off", "system_reset",
                                    "node_hw_state", "system_suspend", "system_reset2"};

/* A node of the tree and all below it: a number is a domain of so many cores. How high it stands. */
static uint32_t read_node(const char **at, struct psci_board *board) {
    uint32_t height = 0;
    uint16_t children = 0;
    if (**at != '(') {
        children = strtoul(*at, (char **)at, 10);
    } else {
        for (++*at; **at != ')'; children++) {
            *at += **at == ' ';
            height = read_node(at, board);
        }
        ++*at;
    }
    struct psci_level *level = &board->levels[height];
    level->children[level->nodes++] = children;
    return height + 1;
}

/* The board's text, behind its word. */
static void read_board(const char *at, struct psci_board *board) {
    board->height = read_node(&at, board);
    board->format = strstr(at, "format extended") ? PSCI_EXTENDED_FORMAT : PSCI_ORIGINAL_FORMAT;
    board->starts = strtoul(strstr(at, "starts ") + 7, NULL, 10);
    board->lives = strtoul(strstr(at, "lives ") + 6, NULL, 10);
    board->boot = strtoull(strstr(at, "boot ") + 5, NULL, 16);
    for (at = strstr(at, "exec ") + 4; at[1] == '0'; board->many_ranges++) {
        struct psci_range *range = &board->ranges[board->many_ranges];
        range->start = strtoull(at + 1, (char **)&at, 16);
        range->end = strtoull(at + 1, (char **)&at, 16);
    }
}

/* States of the levels, from the core's up. */
static void read_states(char *at, uint8_t *states) {
    for (int level = 0; *at && level < 4; level++)
        states[level] = strtoul(at, &at, 10);
}

/* One more is counted than there is room for, and not kept. */
static void read_row(char *at, struct psci_machine *machine) {
    if (machine->many_rows++ >= PSCI_MOST_ROWS)
        return;
    struct psci_row *row = &machine->rows[machine->many_rows - 1];
    row->word = strtoul(at, &at, 16);
    row->mask = *at == '/' ? strtoul(at + 1, &at, 16) : UINT32_MAX;
    read_states(at, row->states);
}

static void read_classes(char *at, struct psci_machine *machine) {
    unsigned level = strtoul(at, &at, 10) % 4;
    for (char *word = strtok(at, " "); word; word = strtok(NULL, " ")) {
        machine->standby[level] += strcmp(word, "standby") == 0;
        machine->retention[level] += strcmp(word, "retention") == 0;
    }
}

static void read_functions(char *at, struct psci_machine *machine) {
    for (char *word = strtok(at, " "); word; word = strtok(NULL, " "))
        for (unsigned it = 0; it < sizeof names / sizeof *names; it++)
            machine->functions |= strcmp(word, names[it]) == 0 ? 1u << it : 0;
}

static void read_line(char *line, struct words *words) {
    struct psci_machine *machine = &words->machine;
    char *at = strchr(line, ' ');
    if (*line == '#' || !at)
        return;
    *at++ = 0;
    if (strcmp(line, "core") == 0)
        machine->mpidrs[machine->many_mpidrs++] = strtoull(at, NULL, 16);
    else if (strcmp(line, "boot") == 0)
        words->boot = strtoull(at, NULL, 16);
    else if (strcmp(line, "levels") == 0)
        machine->levels = strtoul(at, NULL, 10);
    else if (strcmp(line, "class") == 0)
        read_classes(at, machine);
    else if (strcmp(line, "word") == 0)
        read_row(at, machine);
    else if (strcmp(line, "system-suspend") == 0)
        read_states(at, machine->system);
    else if (strcmp(line, "functions") == 0)
        read_functions(at, machine);
    else if (strcmp(line, "reset") == 0)
        machine->resets[machine->many_resets++] = strtoul(at, NULL, 16);
}

bool read_words(const char *path, struct words *words) {
    char line[512];
    FILE *file = fopen(path, "r");
    if (!file || !fgets(line, sizeof line, file))
        return false;
    line[strcspn(line, "\n")] = 0;
    strcpy(words->text, line + strlen("board "));
    read_board(words->text, &words->board);
    while (fgets(line, sizeof line, file)) {
        line[strcspn(line, "\n")] = 0;
        read_line(line, words);
    }
    fclose(file);
    return true;
}
