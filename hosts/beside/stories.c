/* Stored stories once more: each has to come to its group, and to need each of its events. */
#include "lists.h"

#include <inttypes.h>
#include <stdio.h>
#include <string.h>

static int many, missed, loose;

/* An event of a line of a story, or false. */
static bool read_event(const char *line, struct psci_beside_event *e) {
    static const char *const forms[] = {"call %" SCNu32 " %" SCNx64 " %" SCNx64 " %" SCNx64 " %" SCNx64,
        "enter %" SCNu32, "wake %" SCNu32, "reset %" SCNu32, "deliver %" SCNu32, "take %" SCNu32,
        "# a wake-up waits for core %" SCNu32};
    *e = (struct psci_beside_event){.kind = PSCI_BESIDE_LACKS};
    if (strncmp(line, "# memory", 8) == 0)
        return true;
    for (uint32_t kind = PSCI_BESIDE_CALL; kind <= PSCI_BESIDE_WAITS; kind++)
        if (sscanf(line, forms[kind], &e->number, &e->x[0], &e->x[1], &e->x[2], &e->x[3]) >= 1) {
            e->kind = kind;
            return true;
        }
    return false;
}

/* A story that is read: whether it comes, and whether an event of it can go. */
static void end_story(const char *key, struct list *list) {
    static struct list played;
    many++;
    list->message[0] = NONE + 1;
    if (!plays(list, 0, 0, NONE, key, &played)) {
        printf("no longer reproduced: %s\n", key);
        missed++;
        return;
    }
    uint32_t at = first_that_can_go(&played, key);
    if (at < played.length) {
        printf("event %" PRIu32 " can go: %s\n", at + 1, key);
        loose++;
    }
}

int stories(const char *path) {
    static char line[1024], key[sizeof line];
    static struct list list;
    FILE *from = fopen(path, "r");
    bool is_inside = false;
    open_once();
    while (from && fgets(line, sizeof line, from)) {
        line[strcspn(line, "\n")] = 0;
        if (*line == '=' || *line == '+') {
            is_inside = true;
            strcpy(key, line + 2);
            list.length = 0;
        } else if (strncmp(line, "  | ", 4) == 0 && list.length < PSCI_BESIDE_EVENTS) {
            list.length += read_event(line + 4, &list.events[list.length]);
        } else if (*line == 0 && is_inside) {
            end_story(key, &list);
            is_inside = false;
        }
    }
    if (is_inside)
        end_story(key, &list);
    if (from)
        fclose(from);
    printf("%d of %d stories are reproduced, and in %d no event can go\n", many - missed, many, many - missed - loose);
    return missed || loose || !many;
}
