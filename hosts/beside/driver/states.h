/* Part of beside.c: the states that the platform is told as a core stops, where they differ, and what is beside it. */

static const char pending[] = "ON_PENDING", as_if_off[] = "what is ON_PENDING is taken for OFF",
                  as_if_on[] = "what is ON_PENDING is taken for ON";

/* How awake a core is beside one that stops: whether it sleeps less deep counts up to a level. */
enum { IS_OFF, AS_DEEP, LESS_DEEP, IS_PENDING, IS_ON };

/* The least depth that a core that sleeps asked for up to a level. */
static uint8_t least_ask(const beside *b, uint32_t core, uint32_t level) {
    uint8_t least = 3;
    for (uint32_t at = 0; at <= level; at++)
        if (b->now.asks[core][at] && b->now.asks[core][at] < least)
            least = b->now.asks[core][at];
    return least;
}

static int awake(beside *b, uint32_t core, uint32_t level, uint8_t asked) {
    uint32_t status = psci_status(&b->firmware, 0, core);
    if (status == 2)
        return IS_PENDING;
    if (b->now.place[core] == RUNNING)
        return IS_ON;
    return !b->now.wakes[core] ? IS_OFF : least_ask(b, core, level) < asked ? LESS_DEEP : AS_DEEP;
}

/* The words for the most awake of the other cores below a domain that one asks down. */
static const char *beside_it(beside *b, const event *e, uint32_t level, uint8_t asked) {
    const char *const words[] = {"OFF", "asleep as deep", "asleep less deep", pending, "ON"};
    uint64_t mine = b->board.affinity[e->number];
    int most = IS_OFF;
    for (uint32_t core = 0; core < b->board.cores; core++) {
        bool is_below = (b->board.affinity[core] ^ mine) >> 8 * level == 0;
        int it = core != e->number && is_below ? awake(b, core, level, asked) : IS_OFF;
        most = it > most ? it : most;
    }
    return words[most];
}

/* The core stops on both sides, and the platform is told other states. */
static bool is_told_otherwise(const did *ours, const did *theirs) {
    return ours->what == PSCI_STOP && theirs->what == PSCI_STOP && theirs->told;
}

/* How deep a core sleeps is part of the way in which a cause shows, and not of its name. */
static const char *in_short(const char *beside) { return strncmp(beside, "asleep", 6) ? beside : "asleep"; }

static void put_told(beside *b, const event *e, const did *ours, const did *theirs) {
    char *key = b->difference.key;
    size_t size = sizeof b->difference.key;
    uint32_t level = 0;
    while (level < b->board.height && ours->depths[level] == theirs->depths[level])
        level++;
    const char *beside = beside_it(b, e, level, theirs->depths[level]);
    bool is_deeper = ours->depths[level] < theirs->depths[level];
    if (is_deeper && !strcmp(beside, pending))
        put(b->difference.cause, size, "%s", as_if_off);
    else
        put(b->difference.cause, size, "%s: %s beside what is %s", key, is_deeper ? "deeper" : "less deep", in_short(beside));
    for (; level <= b->board.height; level++)
        if (ours->depths[level] != theirs->depths[level])
            put(key, size, ": level %" PRIu32 " %s", level, ours->depths[level] < theirs->depths[level] ? "deeper" : "less deep");
    put(key, size, " beside what is %s", beside);
}

/* In OS-initiated mode a suspend hangs on what is beside it, up to the highest level that it asks down. */
static void put_beside(beside *b, const event *e) {
    uint8_t asked[4];
    uint32_t level = b->board.height;
    asked_by(b, e, asked);
    while (level && !asked[level])
        level--;
    if (!b->now.mode || plain_word(e->x[0]) != CPU_SUSPEND || !level)
        return;
    const char *beside = beside_it(b, e, level, asked[level]);
    put(b->difference.key, sizeof b->difference.key, ", beside what is %s", beside);
    if (!strcmp(beside, pending))
        put(b->difference.cause, sizeof b->difference.cause, "%s", as_if_off);
    else
        put(b->difference.cause, sizeof b->difference.cause, "CPU_SUSPEND in OS-initiated mode beside what is %s",
            in_short(beside));
}
