/* Part of beside.c: the group of a difference, which is named by its cause. */

/* Whether both refuse a call with an odd entry point, and they as we would with another one: where two
 * refusals apply either is right, in a whole register. Both sides are as after the call. */
static bool refuses_as_well(beside *b, const event *e, const did *ours, const did *theirs) {
    struct psci_beside_now after = b->now;
    event less = *e;
    did other;
    if (e->kind != PSCI_BESIDE_CALL || ours->what != PSCI_RETURN || (int32_t)ours->x0 >= 0 ||
        theirs->what != PSCI_RETURN || (int32_t)theirs->x0 >= 0 || is_cut(e, theirs))
        return false;
    for (int kind = 0; kind < 2; kind++)
        plain_entry(b, less.x, kind);
    our_side(b, &less, &other);
    bool so = is_same(&other, theirs);
    memcpy(b->memory, b->kept, b->size);
    b->now = after;
    return so;
}

static void put_name(char *key, size_t size, uint64_t x0) {
    const char *name = psci_beside_name(x0);
    if (name)
        put(key, size, "%s", name);
    else
        put(key, size, "0x%" PRIx32, (uint32_t)x0);
}

/* Whether the profile offers no such function, or PSCI_FEATURES is asked for one that it does not offer. */
static bool is_lacking(const beside *b, const uint64_t x[4]) {
    return !has(b->profile, x[0]) || (plain_word(x[0]) == FEATURES && !has(b->profile, x[1]));
}

/* The function, all that the profile lacks being one; and the mode, where it decides what a function does. */
static void put_function(beside *b, const event *e) {
    struct psci_beside_difference *d = &b->difference;
    uint32_t word = plain_word(e->x[0]);
    size_t size = sizeof d->key;
    if (!has(b->profile, e->x[0])) {
        put(d->key, size, "a function that the profile lacks");
        return;
    }
    put_name(d->key, size, e->x[0]);
    if (b->now.mode && (word == CPU_SUSPEND || word == CPU_OFF || word == SET_SUSPEND_MODE))
        put(d->key, size, " in OS-initiated mode");
}

/* What the call asks of, where nothing is odd about it. */
static void put_object(beside *b, const event *e) {
    static const char *const statuses[] = {"ON", "OFF", "ON_PENDING"};
    struct psci_beside_difference *d = &b->difference;
    size_t size = sizeof d->key;
    uint32_t level = plain_word(e->x[0]) == CPU_ON ? 0 : e->x[2], target = core_of(b, (uint32_t)e->x[1]);
    if (!has(b->profile, e->x[0]))
        return;
    if (plain_word(e->x[0]) == FEATURES && is_lacking(b, e->x))
        put(d->key, size, " of what the profile lacks");
    else if (plain_word(e->x[0]) == FEATURES) {
        put(d->key, size, " of ");
        put_name(d->key, size, e->x[1]);
    } else if (has_target(e->x[0]) && level)
        put(d->key, size, " of level %" PRIu32, level);
    else if (has_target(e->x[0]) && target < b->board.cores)
        put(d->key, size, " of what is %s", statuses[psci_status(&b->firmware, 0, target) % 3]);
}

/* An event: a call by its function. */
static void put_event_name(beside *b, const event *e) {
    static const char *const kinds[] = {"", "an entry", "a wake-up", "a reset", "a delivery", "an acknowledgement"};
    struct psci_beside_difference *d = &b->difference;
    if (e->kind == PSCI_BESIDE_CALL)
        put_name(d->key, sizeof d->key, e->x[0]);
    else
        put(d->key, sizeof d->key, "%s", kinds[e->kind % 6]);
}

/* The core was off before: what has switched it off is the group. */
static bool put_silence(beside *b, const did *theirs) {
    struct psci_beside_difference *d = &b->difference;
    const event *by = theirs->what == PSCI_BESIDE_NOTHING ? silenced_by(b, d->event.number) : NULL;
    end_tries(b);
    if (!by)
        return false;
    *d->key = 0;
    put(d->key, sizeof d->key, "a core that is on executes nothing after ");
    put_event_name(b, by);
    d->is_lost = true;
    return true;
}

static void put_call(beside *b, struct cause *cause) {
    event e = b->difference.event;
    put_function(b, &e);
    if (b->difference.is_undone && cause->theirs.what != PSCI_BESIDE_LOOPS && !put_silence(b, &cause->theirs)) {
        if (is_told_otherwise(&cause->ours, &cause->theirs))
            cause->earlier = of_earlier(b, &e, cause);
        else
            put_odds(b, &e, cause);
    }
    if (!cause->odd && !cause->earlier && !b->difference.is_lost)
        put_object(b, &e);
}

/* How a value of theirs is another one than ours: 0 an entry point, 1 a context id. `asked` is what the call has. */
static const char *how_other(const beside *b, uint64_t ours, uint64_t theirs, uint64_t asked, int which) {
    if (theirs == asked && (uint32_t)theirs == ours)
        return "keeps its upper half";
    for (uint32_t i = 0; i < b->now.events; i++) {
        const event *e = &b->events[i];
        if (e->kind == PSCI_BESIDE_CALL && entry_at(e->x[0]) && theirs && e->x[entry_at(e->x[0]) + which] == theirs)
            return "is that of another call";
    }
    return !theirs                       ? "is 0"
           : (ours & theirs) == theirs   ? "has lost bits"
           : (ours & theirs) == ours     ? "has more bits"
                                         : "is another one";
}

/* Where the core enters and with what, by the call that opened it. */
static void put_place(beside *b) {
    struct psci_beside_difference *d = &b->difference;
    uint32_t opened = b->now.opening[d->event.number];
    const uint64_t *x = opened ? b->events[opened - 1].x : (const uint64_t[4]){0};
    int at = opened ? entry_at(x[0]) : 2;
    const char *address = d->ours.address == d->theirs.address ? "" :
        how_other(b, d->ours.address, d->theirs.address, x[at], 0);
    const char *context = d->ours.context == d->theirs.context ? "" :
        how_other(b, d->ours.context, d->theirs.context, x[at + 1], 1);
    if (*address)
        put(d->key, sizeof d->key, ": the address %s", address);
    if (*context && strcmp(address, "is that of another call") && strcmp(address, context))
        put(d->key, sizeof d->key, ": the context id %s", context);
}

static void put_entry(beside *b, uint32_t why) {
    static const char *const causes[] = {"at boot", "by CPU_ON", "by a wake-up", "after a reset"};
    struct psci_beside_difference *d = &b->difference;
    did ours = d->ours, theirs = d->theirs;
    put(d->key, sizeof d->key, "entry %s", causes[why % 4]);
    if (d->ours.what != PSCI_ENTER || d->theirs.what != PSCI_ENTER) {
        put_silence(b, &theirs);
        return;
    }
    if (!is_apart(b, &d->event, &d->ours, &d->theirs)) {
        end_tries(b);
        d->ours = ours;
        d->theirs = theirs;
    }
    put_place(b);
    d->ours = ours;
    d->theirs = theirs;
}

/* One side's part at the end of the key. */
static void put_side(beside *b, const did *it, bool is_as_without, bool with_states) {
    struct psci_beside_difference *d = &b->difference;
    if (is_as_without)
        put(d->key, sizeof d->key, "as without it");
    else
        say(b, &d->event, it, with_states, d->key, sizeof d->key);
}

/* What both did, at the end of the key. */
static void put_answers(beside *b, const struct cause *cause) {
    struct psci_beside_difference *d = &b->difference;
    size_t size = sizeof d->key;
    const did *ours = &cause->ours, *theirs = &cause->theirs;
    if (d->event.kind == PSCI_BESIDE_CALL && is_told_otherwise(ours, theirs))
        put_told(b, &d->event, ours, theirs);
    else if (b->peer->deliver && ours->what == theirs->what && ours->sent != theirs->sent)
        put(d->key, size, ": a message of %s alone", ours->sent ? "ours" : "theirs");
    else if (!(ours->what == PSCI_ENTER && theirs->what == PSCI_ENTER)) {
        put(d->key, size, ": ours ");
        put_side(b, ours, cause->our_same, theirs->what == PSCI_STOP);
        put(d->key, size, ", theirs ");
        put_side(b, theirs, cause->their_same, true);
    }
}

/* The beginning of the key. */
static void put_cause(beside *b, uint32_t kind, uint32_t why, struct cause *cause) {
    static const char *const kinds[] = {[PSCI_BESIDE_WAKE] = "wake-up", [PSCI_BESIDE_RESET] = "reset",
                                        [PSCI_BESIDE_DELIVER] = "delivery", [PSCI_BESIDE_TAKE] = "acknowledgement"};
    if (kind == PSCI_BESIDE_CALL)
        put_call(b, cause);
    else if (kind == PSCI_BESIDE_ENTER)
        put_entry(b, why);
    else
        put(b->difference.key, sizeof b->difference.key, "%s", kinds[kind]);
}

static void open_difference(beside *b, const event *e, const did *ours, const did *theirs) {
    bool is_call = e->kind == PSCI_BESIDE_CALL;
    b->difference = (struct psci_beside_difference){
        .event = *e, .ours = *ours, .theirs = *theirs, .is_undone = b->peer->save != NULL};
    b->difference.function = is_call ? psci_beside_name(e->x[0]) : NULL;
    b->difference.clause = is_call ? clause_of(e->x[0]) : "Answer.outcome_at";
    if (b->difference.is_undone)
        keep(b, true);
}

/* The group, where it is more than how the difference shows. */
static void put_group(beside *b, const struct cause *cause) {
    struct psci_beside_difference *d = &b->difference;
    size_t size = sizeof d->cause;
    const char *odd = cause->odd ? cause->odd : "", *name = d->function ? d->function : "a function";
    uint32_t level = has_target(d->event.x[0]) && plain_word(d->event.x[0]) != CPU_ON ? d->event.x[2] : 0;
    bool is_call = d->event.kind == PSCI_BESIDE_CALL, is_entry = strstr(odd, " entry") != NULL;
    if (*d->cause || d->is_lost || (is_call && !has(b->profile, d->event.x[0])))
        return;
    if (cause->earlier)
        put(d->cause, size, "%s", cause->earlier);
    else if (strstr(d->key, "upper half") && (!is_call || cause->our_same))
        put(d->cause, size, "an upper half counts");
    else if (is_of_target(odd) && cause->their_same)
        put(d->cause, size, "bits of a target are passed over");
    else if (is_entry && cause->their_same)
        put(d->cause, size, "%s is taken", odd);
    else if (is_of_target(odd))
        put(d->cause, size, "what is not there is answered");
    else if (is_entry)
        put(d->cause, size, "a bad entry");
    else if (!strncmp(odd, "no such", 7) || strstr(odd, "vendor"))
        put(d->cause, size, "%s: %s is %s", name, odd, (int32_t)cause->ours.x0 < 0 ? "taken" : "refused");
    else if (is_call && !strncmp(odd, "a level above", 13) && level)
        put(d->cause, size, "%s: a level above the board is answered", name);
    else if (is_call && !*odd && level)
        put(d->cause, size, "%s above the core", name);
}

/* What is ON_PENDING and is ON by their answer. */
static void put_pending(beside *b, const event *e, const did *theirs) {
    uint32_t target = has_target(e->x[0]) ? core_of(b, (uint32_t)e->x[1]) : b->board.cores;
    int32_t on = plain_word(e->x[0]) == CPU_ON ? -4 : 0;
    if (target < b->board.cores && psci_status(&b->firmware, 0, target) == 2 && theirs->what == PSCI_RETURN &&
        (int32_t)theirs->x0 == on)
        put(b->difference.cause, sizeof b->difference.cause, "%s", as_if_on);
}

/* A difference of an event, after which both sides are as before it if the peer can be brought back. */
static uint32_t differs(beside *b, const event *e, uint32_t why, const did *ours, const did *theirs) {
    bool is_over = is_overslept(b, e, ours) && is_same(ours, theirs);
    struct cause cause = {.ours = *ours, .theirs = *theirs};
    struct psci_beside_difference *d = &b->difference;
    open_difference(b, e, ours, theirs);
    put_cause(b, e->kind, why, &cause);
    if (e->kind == PSCI_BESIDE_CALL && !cause.odd && !cause.earlier && !d->is_lost)
        put_pending(b, e, theirs);
    if (is_over)
        put(d->key, sizeof d->key, ": a wake-up that waits is not seen");
    else if (!cause.earlier && !d->is_lost)
        put_answers(b, &cause);
    put_group(b, &cause);
    if (!*d->cause)
        strcpy(d->cause, d->key);
    end_tries(b);
    b->now.differences++;
    /* a long list would be played again for each of its differences */
    bool goes_on = d->is_undone && !d->is_lost && b->now.events < PSCI_BESIDE_EVENTS / 8;
    return goes_on ? PSCI_BESIDE_DIFFERS : PSCI_BESIDE_PARTED;
}

uint32_t psci_beside_loops(beside *b) {
    event e = b->at;
    did ours = b->ours;
    b->is_trying = false;
    return differs(b, &e, b->why, &ours, &(did){.what = PSCI_BESIDE_LOOPS});
}

/* The status of each core, by both; a difference is told once. */
static uint32_t compare_statuses(beside *b, const event *e) {
    for (uint32_t core = 0; b->peer->status && core < b->board.cores; core++) {
        uint32_t ours = psci_status(&b->firmware, 0, core);
        uint32_t theirs = b->peer->status(b->peer->self, core), pair = ours == theirs ? 0 : 1 + 4 * ours + theirs;
        bool is_new = pair != b->now.status[core];
        b->now.status[core] = pair;
        if (!pair || !is_new)
            continue;
        if (b->is_trying)
            return PSCI_BESIDE_ALIKE;
        b->difference = (struct psci_beside_difference){
            .event = {PSCI_BESIDE_CALL, core, {AFFINITY_INFO, b->board.affinity[core]}},
            .ours = {.x0 = ours}, .theirs = {.x0 = theirs}, .clause = "PowerCalls.status_code"};
        put(b->difference.key, sizeof b->difference.key, "status of a core after ");
        put_event_name(b, e);
        put(b->difference.key, sizeof b->difference.key, ": ours %" PRIu32 ", theirs %" PRIu32, ours, theirs);
        put(b->difference.cause, sizeof b->difference.cause, "%s",
            ours != 2 ? b->difference.key : theirs ? as_if_off : as_if_on);
        b->now.differences++;
        return ours == 2 ? PSCI_BESIDE_DIFFERS : PSCI_BESIDE_PARTED;
    }
    return PSCI_BESIDE_ALIKE;
}
