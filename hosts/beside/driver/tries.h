/* Part of beside.c: the list up to a difference once more, without events that it may come of. Both sides are as before
 * the difference's event where this begins, and again where it ends. */

static void try_list(beside *b) {
    b->many = b->now.events;
    memcpy(b->was, b->events, b->many * sizeof *b->was);
    memcpy(b->tried, b->was, b->many * sizeof *b->tried);
    b->is_trying = true;
}

/* Plays the list without what is left out, and keeps both sides as they are then. */
static bool try_without(beside *b, const bool *left) {
    uint32_t what = PSCI_BESIDE_ALIKE;
    begin(b);
    for (uint32_t at = 0; at < b->many && what < PSCI_BESIDE_OVER; at++)
        if (!left || !left[at])
            what = psci_beside_do(b, &b->tried[at]);
    keep(b, false);
    return what < PSCI_BESIDE_OVER;
}

static void end_tries(beside *b) {
    if (!b->is_trying)
        return;
    memcpy(b->tried, b->was, b->many * sizeof *b->tried);
    try_without(b, NULL);
    b->is_trying = false;
}

/* What both do of the event here, which is taken back; whether ours agrees with this, or with what they do. */
static bool do_here(beside *b, const event *e, did *ours, did *theirs, const did *with) {
    uint32_t why = cause_of(b, e);
    our_side(b, e, ours);
    their_side(b, e, why, theirs);
    bool so = agree(b, e, ours, with ? with : theirs);
    keep(b, true);
    return so;
}

/* Suspends that are over, taken or refused: all but the last one of each core that sleeps. */
static bool mark_over(beside *b, bool *left) {
    bool sleeps[PSCI_MOST_CORES], is_any = false;
    for (uint32_t core = 0; core < b->board.cores; core++)
        sleeps[core] = b->now.place[core] != RUNNING && b->now.wakes[core];
    for (uint32_t at = b->many; at-- > 0;) {
        const event *e = &b->was[at];
        if (e->kind != PSCI_BESIDE_CALL ||
            (plain_word(e->x[0]) != CPU_SUSPEND && plain_word(e->x[0]) != SYSTEM_SUSPEND))
            continue;
        left[at] = !sleeps[e->number];
        is_any |= left[at];
        sleeps[e->number] = false;
    }
    return is_any;
}

/* The CPU_ONs that cores which are ON_PENDING have had since they entered last. */
static bool mark_pending(beside *b, bool *left) {
    bool pends[PSCI_MOST_CORES + 1] = {false}, is_any = false;
    for (uint32_t core = 0; core < b->board.cores; core++)
        is_any |= pends[core] = psci_status(&b->firmware, 0, core) == 2;
    for (uint32_t at = b->many; is_any && at-- > 0;) {
        event e = b->was[at];
        narrow(e.x);
        if (e.kind == PSCI_BESIDE_ENTER)
            pends[e.number] = false;
        else if (e.kind == PSCI_BESIDE_CALL && plain_word(e.x[0]) == CPU_ON)
            left[at] |= pends[core_of(b, e.x[1])];
    }
    return is_any;
}

/* Without the suspends that are over: whether both agree then. Where ours is the same without them, they stay out. */
static bool is_of_over(beside *b, const event *e, bool *left, struct cause *cause) {
    did ours, theirs;
    if (!mark_over(b, left))
        return false;
    if (try_without(b, left) && can_happen(b, e)) {
        bool so = do_here(b, e, &ours, &theirs, NULL), is_less = is_equal(b, &ours, &cause->ours);
        if (is_less && !so)
            cause->theirs = theirs;
        if (is_less)
            return so;
    }
    memset(left, 0, b->many);
    try_without(b, NULL);
    return false;
}

/* Whether both do the same of the event once each core that is ON_PENDING has entered. Where one can't, a call that is
 * about a core does not. */
static bool is_same_entered(beside *b, const event *e, const struct cause *cause, const bool *left) {
    did ours, theirs;
    try_without(b, left);
    for (uint32_t core = 0; core < b->board.cores; core++)
        if (b->now.place[core] == STARTED &&
            psci_beside_do(b, &(event){.kind = PSCI_BESIDE_ENTER, .number = core}) != PSCI_BESIDE_ALIKE)
            return !has_target(e->x[0]);
    keep(b, false);
    do_here(b, e, &ours, &theirs, NULL);
    return is_equal(b, &ours, &cause->ours) && is_equal(b, &theirs, &cause->theirs);
}

/* Whether they do with cores that are ON_PENDING what ours does without their CPU_ONs, and not with cores that are ON.
 * Where theirs is the same without the CPU_ONs, they stay out. */
static bool is_of_pending(beside *b, const event *e, bool *left, struct cause *cause) {
    static bool before[PSCI_BESIDE_EVENTS];
    did ours, theirs;
    memcpy(before, left, b->many);
    if (!mark_pending(b, left))
        return false;
    bool can = try_without(b, left) && can_happen(b, e);
    bool so = can && do_here(b, e, &ours, &theirs, &cause->theirs);
    if (can && !so && is_equal(b, &theirs, &cause->theirs)) {
        cause->ours = ours;
        return false;
    }
    so = so && !is_same_entered(b, e, cause, before);
    try_without(b, before);
    return so;
}

/* What a difference comes of that lies in the list before it, or null. What has nothing to do with it is left out. */
static const char *of_earlier(beside *b, const event *e, struct cause *cause) {
    static bool left[PSCI_BESIDE_EVENTS];
    if (!b->peer->save || b->peer->deliver)
        return NULL;
    if (!b->is_trying)
        try_list(b);
    memset(left, 0, b->many);
    return is_of_over(b, e, left, cause)      ? "a suspend that is over still counts"
           : is_of_pending(b, e, left, cause) ? as_if_off
                                              : NULL;
}

/* Whether a core executes nothing here, though it runs or was started. */
static bool is_silent(beside *b, uint32_t core) {
    static const uint64_t version[4] = {VERSION};
    const event entry = {.kind = PSCI_BESIDE_ENTER, .number = core};
    did theirs = {.what = PSCI_RETURN};
    keep(b, false);
    if (b->now.place[core] == RUNNING)
        b->peer->call(b->peer->self, core, version, &theirs);
    else if (b->now.place[core] == STARTED && b->peer->enter)
        b->peer->enter(b->peer->self, core, cause_of(b, &entry), &theirs);
    keep(b, true);
    return theirs.what == PSCI_BESIDE_NOTHING;
}

/* The event after which a core executes nothing, or null. */
static const event *silenced_by(beside *b, uint32_t core) {
    if (!b->peer->save)
        return NULL;
    try_list(b);
    begin(b);
    for (uint32_t at = 0; at < b->many; at++) {
        psci_beside_do(b, &b->was[at]);
        if (is_silent(b, core))
            return &b->was[at];
    }
    return NULL;
}

/* Each call gives an entry point of its own, where it is one of the profile's, and a context id. */
static void tell_apart(beside *b, bool with_context) {
    memcpy(b->tried, b->was, b->many * sizeof *b->tried);
    for (uint32_t at = 0; at < b->many; at++) {
        event *e = &b->tried[at];
        int reg = entry_at(e->x[0]);
        uint64_t x[4];
        memcpy(x, e->x, sizeof x);
        x[reg] &= ~UINT64_C(3);
        if (e->kind != PSCI_BESIDE_CALL || !reg || e->x[reg] % b->profile->aligned || plain_entry(b, x, 1))
            continue;
        e->x[reg] = b->profile->boot + 0x100 * (at + 1);
        if (with_context)
            e->x[reg + 1] = 0x1000000 + 0x100 * at;
    }
}

/* An entry that differs, in a list whose values can be told from each other: whether it differs then, too. Where a context
 * id that is lost would end such a list before, by its address alone. */
static bool is_apart(beside *b, const event *e, did *ours, did *theirs) {
    if (!b->peer->save)
        return false;
    try_list(b);
    for (int with_context = 1; with_context >= 0; with_context--) {
        tell_apart(b, with_context);
        if (try_without(b, NULL) && can_happen(b, e) && !do_here(b, e, ours, theirs, NULL) && ours->what == PSCI_ENTER &&
            theirs->what == PSCI_ENTER && (with_context || ours->address != theirs->address))
            return true;
    }
    return false;
}
