/* Differences in groups by their causes: of each the shortest story is kept, and in how many ways it shows. One that
 * shows in a way that is not in the stored report ends the process, as fuzzers expect it. With BESIDE_REPORT=FILE it goes
 * on, and FILE has all groups from the moment that one is found; `+` stands before what is new, `-` before what is in the
 * stored report and no longer comes, and `*` before what comes in another number of the same lists than there. */
#include "lists.h"

#include <inttypes.h>
#include <stdio.h>
#include <stdlib.h>
#include <string.h>

enum { MOST_GROUPS = 512, MOST_STORY = 1 << 16, MOST_WORDS = 200 };
/* a group has vanished where so many lists should have shown it */
enum { EXPECTED = 20 };

struct story {
    struct list list;
    char ours[MOST_WORDS], theirs[MOST_WORDS], why[MOST_WORDS], text[MOST_STORY];
};

/* A group, and the ways in which it shows. A way that is new in a known group has a story of its own. */
static struct group {
    char cause[sizeof beside_side.difference.cause];
    bool is_known;
    uint64_t seen, last;
    struct story *story;
} *groups[MOST_GROUPS];
static struct way {
    char key[sizeof beside_side.difference.key];
    const struct known *known;
    struct group *group;
    uint64_t seen, last;
    struct story *story;
} *ways[MOST_GROUPS];
static uint32_t many_groups, many_ways;

static const struct known *known_of(const char *cause, const char *key) {
    for (const struct known *at = known; at->key; at++)
        if (is_text(at->cause, cause) && (!key || is_text(at->key, key)))
            return at;
    return NULL;
}

static struct group *group_of(const char *cause) {
    uint32_t at = 0;
    while (at < many_groups && !is_text(groups[at]->cause, cause))
        at++;
    return at < many_groups ? groups[at] : NULL;
}

static struct way *way_of(const char *cause, const char *key) {
    uint32_t at = 0;
    while (at < many_ways && !(is_text(ways[at]->key, key) && is_text(ways[at]->group->cause, cause)))
        at++;
    return at < many_ways ? ways[at] : NULL;
}

static struct group *add_group(const char *cause) {
    struct group *group = many_groups < MOST_GROUPS ? calloc(1, sizeof *group) : NULL;
    if (!group)
        return NULL;
    groups[many_groups++] = group;
    strcpy(group->cause, cause);
    group->is_known = known_of(cause, NULL) != NULL;
    return group;
}

static struct way *add_way(struct group *group, const char *key) {
    struct way *way = group && many_ways < MOST_GROUPS ? calloc(1, sizeof *way) : NULL;
    if (!way)
        return NULL;
    ways[many_ways++] = way;
    strcpy(way->key, key);
    way->known = known_of(group->cause, key);
    way->group = group;
    return way;
}

/* ---- What both did, and why */

/* The sentence that decides what ours did: of a refusal its own. */
static const char *rule_of(const struct psci_beside_difference *d) {
    bool is_refusal = d->ours.what == PSCI_RETURN && (int32_t)d->ours.x0 < 0;
    const char *whole = NULL;
    for (const struct rule *at = rules; d->function && at->function; at++)
        if (is_text(at->function, d->function) && (at->code == 0 || is_refusal)) {
            if (at->code && at->code == (int32_t)d->ours.x0)
                return at->words;
            whole = at->code ? whole : at->words;
        }
    return is_refusal && (int32_t)d->ours.x0 == -1 ? "there is no such function" : is_refusal ? NULL : whole;
}

static void put_why(struct story *story) {
    const struct psci_beside_difference *d = &beside_side.difference;
    const char *rule = rule_of(d), *clause = d->clause ? d->clause : "Answer.function_outcome";
    snprintf(story->why, sizeof story->why, "%s%s%s", clause, rule ? ": " : "", rule ? rule : "");
}

/* Takes over the list up to the difference, and makes of it the story of what is called so, where it is a shorter one. */
static void put_story(struct story **to, const char *name) {
    static struct list list;
    const struct psci_beside_difference *d = &beside_side.difference;
    list.length = beside_side.now.events;
    memcpy(list.events, beside_side.events, list.length * sizeof *list.events);
    if (d->is_undone && list.length < PSCI_BESIDE_EVENTS)
        list.events[list.length++] = d->event;
    make_least(&list, name);
    struct story *story = *to ? *to : calloc(1, sizeof *story);
    if (!story || (*to && list.length >= story->list.length))
        return;
    *to = story;
    story->list = list;
    psci_beside_say(&beside_side, &d->event, &d->ours, story->ours, sizeof story->ours);
    psci_beside_say(&beside_side, &d->event, &d->theirs, story->theirs, sizeof story->theirs);
    put_why(story);
    psci_beside_story(&beside_side, story->text, sizeof story->text);
}

/* ---- The report */

static void tell(FILE *to, char mark, const char *name, uint64_t seen, const struct story *story) {
    fprintf(to, "%c %s\n  ours: %s\n  theirs: %s\n  by: %s\n  seen: in %" PRIu64 " of %" PRIu64 " lists\n", mark, name,
            story->ours, story->theirs, story->why, seen, beside_lists);
    for (const char *line = story->text; *line; line += strcspn(line, "\n") + 1)
        fprintf(to, "  | %.*s\n", (int)strcspn(line, "\n"), line);
}

static int by_cause(const void *one, const void *other) {
    return strcmp((*(struct group *const *)one)->cause, (*(struct group *const *)other)->cause);
}

static int by_key(const void *one, const void *other) {
    return strcmp((*(struct way *const *)one)->key, (*(struct way *const *)other)->key);
}

/* Whether a way of the stored report should have come in so many lists, and has not. */
static bool has_vanished(const struct known *it) {
    return is_drawn_blindly && it->lists && !way_of(it->cause, it->key) && it->seen * beside_lists / it->lists >= EXPECTED;
}

/* Whether the lists are those of the stored report, and it comes in more of them than there, or in less. */
static bool is_otherwise(const struct way *way) {
    return is_drawn_as_stored && way->known && way->known->lists == beside_lists && way->seen != way->known->seen;
}

static void write_ways(FILE *to, const struct group *group) {
    for (uint32_t at = 0; at < many_ways; at++) {
        const struct way *way = ways[at];
        if (way->group == group && (!is_text(way->key, group->cause) || is_otherwise(way)))
            fprintf(to, "  %c %s: in %" PRIu64 "\n", is_otherwise(way) ? '*' : way->known ? '=' : '+', way->key, way->seen);
    }
    fputc('\n', to);
    for (uint32_t at = 0; at < many_ways; at++)
        if (ways[at]->group == group && ways[at]->story) {
            tell(to, '+', ways[at]->key, ways[at]->seen, ways[at]->story);
            fputc('\n', to);
        }
}

static void write_groups(const char *path) {
    char part[4096];
    snprintf(part, sizeof part, "%s.part", path);
    FILE *to = fopen(part, "w");
    if (!to) {
        perror(part);
        exit(1);
    }
    qsort(groups, many_groups, sizeof *groups, by_cause);
    qsort(ways, many_ways, sizeof *ways, by_key);
    for (uint32_t at = 0; at < many_groups; at++) {
        if (!groups[at]->story)
            continue;
        tell(to, groups[at]->is_known ? '=' : '+', groups[at]->cause, groups[at]->seen, groups[at]->story);
        write_ways(to, groups[at]);
    }
    for (const struct known *it = known; it->key; it++)
        if (has_vanished(it))
            fprintf(to, "- %s\n  seen: in %" PRIu64 " of %" PRIu64 " lists, and now in none of %" PRIu64 "\n\n", it->key,
                    it->seen, it->lists, beside_lists);
    fclose(to);
    rename(part, path);
}

void write_report(void) {
    const char *path = getenv("BESIDE_REPORT");
    uint32_t fresh = 0;
    for (uint32_t at = 0; at < many_ways; at++)
        fresh += !ways[at]->known;
    for (const struct known *it = known; it->key; it++)
        if (has_vanished(it))
            fprintf(stderr, "beside: a group has vanished: %s\n", it->key);
    for (uint32_t at = 0; at < many_ways; at++)
        if (is_otherwise(ways[at]))
            fprintf(stderr, "beside: a group comes in %" PRIu64 " lists, and not %" PRIu64 ": %s\n", ways[at]->seen,
                    ways[at]->known->seen, ways[at]->key);
    if (!beside_lists)
        return;
    fprintf(stderr, "beside: %s: %" PRIu64 " lists, %" PRIu64 " events, %.1f s, %" PRIu32 " groups in %" PRIu32 " ways, %" PRIu32
            " of them new\n", psci_beside_target.name, beside_lists, beside_events, seconds(), many_groups, many_ways, fresh);
    if (path)
        write_groups(path);
}

/* A way that has not come before: the story of its group, or its own in a known one, is made at once. */
static void found(struct way *way) {
    struct group *group = way->group;
    bool is_new = !group->story, is_own = !way->known && group->is_known;
    if (!way->known)
        fprintf(stderr, "beside: a new group after %.2f s, %" PRIu64 " lists: %s%s%s\n", seconds(), beside_lists, group->cause,
                is_text(way->key, group->cause) ? "" : ": ", is_text(way->key, group->cause) ? "" : way->key);
    if (is_own)
        put_story(&way->story, way->key);
    else if (is_new)
        put_story(&group->story, group->cause);
    if (getenv("BESIDE_REPORT"))
        write_groups(getenv("BESIDE_REPORT"));
    else if (!way->known) {
        tell(stderr, '+', is_own ? way->key : group->cause, 1, is_own ? way->story : group->story);
        abort();
    }
}

/* Counts a list once; whether it is the first one. */
static bool count(uint64_t *seen, uint64_t *last) {
    bool is_first = !*seen;
    *seen += *last != beside_lists;
    *last = beside_lists;
    return is_first;
}

bool differ(void) {
    static struct psci_beside_difference d;
    d = beside_side.difference;
    struct group *group = group_of(d.cause);
    struct way *way = way_of(d.cause, d.key);
    if (!group)
        group = add_group(d.cause);
    if (!way)
        way = add_way(group, d.key);
    if (!way)
        return false;
    count(&group->seen, &group->last);
    if (count(&way->seen, &way->last)) {
        found(way);
        return true;
    }
    if (!group->story || beside_side.now.events + d.is_undone >= group->story->list.length + 2u)
        return false;
    put_story(&group->story, group->cause);
    return true;
}
