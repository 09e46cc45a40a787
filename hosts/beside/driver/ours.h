/* Part of beside.c: what our side does, the firmware and the power controller of the archive. */

static uint32_t kind_of(beside *b, const struct psci_frame *message) {
    struct psci_message fields = {0};
    psci_decode(&b->firmware, message->bytes, PSCI_FRAME_LEN, &fields);
    return fields.kind;
}

/* What the firmware has answered to a call with this x0, or to an entry with 0. */
static void answered(beside *b, uint32_t core, uint64_t x0, const struct psci_answer *answer, did *d) {
    *d = (did){.what = answer->what,
               .address = answer->address + b->now.low[core],
               .context = answer->context,
               .sent = answer->message.some};
    if (answer->what == PSCI_RETURN)
        d->x0 = x0 & SMC64 ? (uint64_t)(int64_t)answer->code : (uint32_t)answer->code;
    if (answer->what == PSCI_STOP) {
        struct psci_stop stop;
        psci_stop(&b->firmware, core, x0, &stop);
        memcpy(d->depths, stop.depths, sizeof d->depths);
        d->told = answer->message.some;
        b->now.wakes[core] = stop.wakes;
        uint32_t kind = answer->message.some && !b->peer->deliver ? kind_of(b, &answer->message) : 0;
        if (kind >= PSCI_MESSAGE_OFF)
            d->what = kind == PSCI_MESSAGE_OFF ? PSCI_BESIDE_ENDS : PSCI_BESIDE_RESETS;
    }
    b->now.place[core] = answer->what == PSCI_STOP ? STOPPED : RUNNING;
    if (answer->message.some)
        b->messages[b->now.messages++] = answer->message;
}

/* The word of the board's format that asks for these depths. */
static uint32_t word_of(const beside *b, const uint8_t depths[4]) {
    uint32_t word = 0, level = 0;
    for (uint32_t at = 0; at < 4; at++) {
        word |= (uint32_t)depths[at] << 4 * at;
        level = depths[at] ? at : level;
    }
    if (b->profile->is_extended)
        return word | (depths[0] == 3) << 30;
    return word | (depths[0] == 3) << 16 | level << 24;
}

/* CPU_SUSPEND as the profile has it: the state in our words, or false where it is refused. */
static bool state_by_profile(const beside *b, uint64_t x[4]) {
    const struct psci_beside_profile *profile = b->profile;
    if (!profile->reads_states) {
        if (x[1] & profile->zero)
            return false;
        x[1] = word_of(b, (const uint8_t[4]){1});
        x[2] = profile->boot;
        return true;
    }
    for (uint32_t at = 0; at < profile->many_states; at++)
        if (profile->states[at].word == (uint32_t)x[1]) {
            x[1] = word_of(b, profile->states[at].depths);
            return true;
        }
    return !profile->many_states;
}

/* Whether the profile answers a call, before the definitions are asked. */
static bool is_by_profile(beside *b, uint64_t x[4], int32_t *code) {
    const struct psci_beside_profile *profile = b->profile;
    uint32_t word = plain_word(x[0]);
    if (psci_halting(&b->firmware))
        return false;
    if (!has(profile, x[0]) || (word == FEATURES && !has(profile, x[1])))
        *code = -1;
    else if (word == VERSION)
        *code = profile->version;
    else if ((word == AFFINITY_INFO && x[2] > profile->levels) ||
             (word == CPU_SUSPEND && !state_by_profile(b, x)))
        *code = -2;
    else
        return false;
    return true;
}

/* An entry point of the profile's alignment becomes one of ours, and returns its low bits. */
static uint32_t align(const beside *b, uint64_t x[4]) {
    int at = entry_at(x[0]);
    uint32_t low = at ? x[at] % 4 : 0;
    if (at && x[at] % b->profile->aligned)
        x[at] |= 1;
    else if (at)
        x[at] -= low;
    return low;
}

/* The depths that a stop asks for: those of its power state, or power-down of every level. */
static void asked_by(const beside *b, const event *e, uint8_t depths[4]) {
    uint64_t x[4];
    memcpy(x, e->x, sizeof x);
    narrow(x);
    memset(depths, 3, 4);
    if (plain_word(x[0]) == CPU_SUSPEND && state_by_profile(b, x))
        for (uint32_t level = 0; level < 4; level++)
            depths[level] = x[1] >> 4 * level & 15;
}

/* What is kept of a call that was taken, so that differences of later events can be said to come of it. */
static void remember(beside *b, const event *e, const uint64_t x[4], const struct psci_answer *answer) {
    uint32_t word = plain_word(x[0]), whose = word == CPU_ON ? core_of(b, x[1]) : e->number;
    if (word == SET_SUSPEND_MODE && answer->what == PSCI_RETURN && answer->code == 0)
        b->now.mode = x[1];
    if (answer->what == PSCI_STOP)
        asked_by(b, e, b->now.asks[e->number]);
    if (answer->message.some && entry_at(x[0]))
        b->now.opening[whose] = b->now.events;
}

static void our_call(beside *b, const event *e, did *d) {
    struct psci_answer answer = {.what = PSCI_RETURN};
    uint64_t x[4];
    memcpy(x, e->x, sizeof x);
    narrow(x);
    if (!is_by_profile(b, x, &answer.code)) {
        uint32_t low = b->profile->aligned == 4 ? 0 : align(b, x);
        uint32_t whose = plain_word(x[0]) == CPU_ON ? core_of(b, x[1]) : e->number;
        psci_smc(&b->firmware, e->number, x[0], x[1], x[2], x[3], &answer);
        if (answer.message.some)
            b->now.low[whose] = low;
        if (x[0] == FEATURES && plain_word(x[1]) == CPU_SUSPEND && !has(b->profile, SET_SUSPEND_MODE))
            answer.code &= ~1;
        remember(b, e, x, &answer);
    }
    answered(b, e->number, e->x[0], &answer, d);
}

static void carry_out(beside *b, const struct psci_ctl_answer *done) {
    if (done->what == PSCI_CTL_OFF || done->what == PSCI_CTL_RESTART) {
        memset(b->now.place, STOPPED, sizeof b->now.place);
        memset(b->now.wakes, false, sizeof b->now.wakes);
        memset(b->now.waits, false, sizeof b->now.waits);
        b->now.life = psci_ctl_life(&b->controller);
        b->now.mode = 0;
        memset(b->now.opening, 0, sizeof b->now.opening);
    }
    if (done->what == PSCI_CTL_START || done->what == PSCI_CTL_RESTART)
        b->now.place[done->start.core] = STARTED;
    if (done->ack.some)
        b->acks[b->now.acks++] = done->ack;
}

static void our_side(beside *b, const event *e, did *d) {
    struct psci_answer answer;
    struct psci_ctl_answer done = {0};
    struct psci_ctl_start start;
    *d = (did){.what = PSCI_BESIDE_NOTHING};
    switch (e->kind) {
    case PSCI_BESIDE_CALL: our_call(b, e, d); return;
    case PSCI_BESIDE_ENTER:
        psci_ctl_started(&b->controller, e->number, &start);
        psci_enter(&b->firmware, e->number, start.life, start.number, start.cause, &answer);
        answered(b, e->number, 0, &answer, d);
        return;
    case PSCI_BESIDE_DELIVER:
        psci_ctl_deliver(&b->controller, b->messages[e->number].bytes, PSCI_FRAME_LEN, &done);
        break;
    case PSCI_BESIDE_TAKE: psci_take(&b->firmware, b->acks[e->number].bytes, PSCI_FRAME_LEN); return;
    case PSCI_BESIDE_WAKE:
        psci_ctl_wake(&b->controller, e->number, psci_ctl_starts(&b->controller, e->number), &done);
        break;
    case PSCI_BESIDE_RESET: psci_ctl_reset(&b->controller, e->number, &done); break;
    case PSCI_BESIDE_WAITS: b->now.waits[e->number] = true; return;
    case PSCI_BESIDE_LACKS: b->now.lacks = true; return;
    }
    d->sent = e->kind == PSCI_BESIDE_DELIVER ? done.ack.some : done.what == PSCI_CTL_START;
    carry_out(b, &done);
}

/* An event of our side alone, which is part of the story. */
static void ours_alone(beside *b, uint32_t kind, uint32_t number, did *d) {
    event e = {.kind = kind, .number = number};
    record(b, &e);
    our_side(b, &e, d);
}

/* Where the peer has no power controller each message is carried out at once. */
static void settle(beside *b) {
    did d;
    if (b->peer->deliver)
        return;
    ours_alone(b, PSCI_BESIDE_DELIVER, b->now.messages - 1, &d);
    if (d.sent)
        ours_alone(b, PSCI_BESIDE_TAKE, b->now.acks - 1, &d);
}
