/* Part of beside.c: what their side does, and when both are alike. */

static void their_side(beside *b, const event *e, uint32_t cause, did *d) {
    const struct psci_beside_peer *peer = b->peer;
    *d = (did){.what = PSCI_BESIDE_NOTHING};
    if (e->kind == PSCI_BESIDE_CALL)
        peer->call(peer->self, e->number, e->x, d);
    else if (e->kind == PSCI_BESIDE_ENTER && peer->enter)
        peer->enter(peer->self, e->number, cause, d);
    else if (e->kind == PSCI_BESIDE_DELIVER)
        d->sent = peer->deliver(peer->self, e->number);
    else if (e->kind == PSCI_BESIDE_TAKE && peer->take)
        peer->take(peer->self, e->number);
    else if ((e->kind == PSCI_BESIDE_WAKE || e->kind == PSCI_BESIDE_RESET) && peer->wake)
        d->sent = peer->wake(peer->self, e->number, cause);
    else if (e->kind == PSCI_BESIDE_WAITS)
        peer->waits(peer->self, e->number, true);
    else if (e->kind == PSCI_BESIDE_LACKS)
        peer->lacks(peer->self, true);
}

/* ---- Comparing */

static bool is_alike(const beside *b, const event *e, const did *ours, const did *theirs) {
    bool sends = b->peer->deliver && (e->kind != PSCI_BESIDE_WAKE || b->peer->wake);
    if (e->kind == PSCI_BESIDE_ENTER && !b->peer->enter)
        return true;
    if (ours->what != theirs->what || (sends && ours->sent != theirs->sent))
        return false;
    switch (ours->what) {
    case PSCI_RETURN:
        return e->x[0] & SMC64 ? ours->x0 == theirs->x0 : (uint32_t)ours->x0 == (uint32_t)theirs->x0;
    case PSCI_ENTER: return ours->address == theirs->address && ours->context == theirs->context;
    case PSCI_RESUME: return theirs->x0 == 0;
    case PSCI_STOP:
        return !theirs->told || !ours->told || memcmp(ours->depths, theirs->depths, b->board.height + 1) == 0;
    }
    return true;
}

/* A granted suspend that came back at once. A peer that has `waits` does so where a wake-up waits. */
static bool is_early(const beside *b, const event *e, const did *ours, const did *theirs) {
    return e->kind == PSCI_BESIDE_CALL && ours->what == PSCI_STOP && b->now.wakes[e->number] &&
           theirs->what == PSCI_RETURN && (uint32_t)theirs->x0 == 0 && b->profile->is_early &&
           (!b->peer->waits || b->now.waits[e->number]);
}

static bool is_overslept(const beside *b, const event *e, const did *ours) {
    return e->kind == PSCI_BESIDE_CALL && ours->what == PSCI_STOP && b->now.wakes[e->number] &&
           b->now.waits[e->number];
}

static bool agree(const beside *b, const event *e, const did *ours, const did *theirs) {
    return is_early(b, e, ours, theirs) || (is_alike(b, e, ours, theirs) && !is_overslept(b, e, ours));
}
