/* Part of beside.c: what a side did, as a key has it, and in words. */

static void put(char *text, size_t size, const char *form, ...) {
    size_t length = strlen(text);
    va_list values;
    va_start(values, form);
    if (length < size)
        vsnprintf(text + length, size - length, form, values);
    va_end(values);
}

/* The states that were told, from the core's own up to that of the whole board. */
static void put_depths(const beside *b, char *text, size_t size, const uint8_t depths[4]) {
    for (uint32_t level = 0; level <= b->board.height; level++)
        put(text, size, " %d", depths[level]);
}

/* Whether a code in 64 bits is extended as another sign says. */
static bool is_cut(const event *e, const did *d) {
    return e->kind == PSCI_BESIDE_CALL && e->x[0] & SMC64 && d->x0 != (uint64_t)(int64_t)(int32_t)d->x0;
}

static void say_return(char *text, size_t size, const event *e, const did *d) {
    put(text, size, "%" PRId32, (int32_t)d->x0);
    if (is_cut(e, d))
        put(text, size, d->x0 >> 32 ? " below another upper half" : " in 32 bits");
}

/* Whether a suspend is told what it asks for. */
static bool is_as_asked(const beside *b, const event *e, const did *d) {
    uint8_t asked[4];
    asked_by(b, e, asked);
    return e->kind == PSCI_BESIDE_CALL && plain_word(e->x[0]) == CPU_SUSPEND &&
           memcmp(asked, d->depths, b->board.height + 1) == 0;
}

static void say(const beside *b, const event *e, const did *d, bool with_states, char *key, size_t size) {
    static const char *const words[] = {"",     "stops",   "enters",             "goes on",
                                        "ends", "nothing", "does not come back", "resets"};
    if (d->what == PSCI_RETURN)
        say_return(key, size, e, d);
    else
        put(key, size, "%s", d->what <= PSCI_BESIDE_RESETS ? words[d->what] : "refused");
    if (d->what == PSCI_STOP && d->told && with_states && is_as_asked(b, e, d))
        put(key, size, " as asked");
    else if (d->what == PSCI_STOP && d->told && with_states)
        put_depths(b, key, size, d->depths);
    if (d->what == PSCI_RESUME && d->x0)
        put(key, size, " with %" PRId32, (int32_t)d->x0);
}

/* ---- In words */

static const char *code_name(const event *e, int32_t code) {
    static const char *const errors[] = {
        "SUCCESS",    "NOT_SUPPORTED", "INVALID_PARAMETERS", "DENIED",   "ALREADY_ON",
        "ON_PENDING", "INTERNAL_FAILURE", "NOT_PRESENT",     "DISABLED", "INVALID_ADDRESS"};
    static const char *const statuses[] = {"ON", "OFF", "ON_PENDING"};
    if (plain_word(e->x[0]) == AFFINITY_INFO && code >= 0 && code < 3)
        return statuses[code];
    return code <= 0 && code > -10 ? errors[-code] : NULL;
}

static void say_stop(const beside *b, const did *d, char *text, size_t size) {
    static const char *const depths[] = {"running", "standby", "retention", "power-down"};
    put(text, size, "stops");
    for (uint32_t level = 0; d->told && d->depths[0] && level <= b->board.height; level++)
        put(text, size, level ? ", level %" PRIu32 " %s" : ", and the platform is told: level %" PRIu32 " %s", level,
            depths[d->depths[level] & 3]);
}

void psci_beside_say(const beside *b, const event *e, const did *d, char *text, size_t size) {
    static const char *const others[] = {"ends the system", "does nothing", "does not come back", "resets the system"};
    const char *name = d->what == PSCI_RETURN ? code_name(e, d->x0) : NULL;
    *text = 0;
    switch (d->what) {
    case PSCI_RETURN:
        put(text, size, "returns ");
        say_return(text, size, e, d);
        put(text, size, name ? " (%s)" : "", name);
        break;
    case PSCI_STOP: say_stop(b, d, text, size); break;
    case PSCI_ENTER:
        put(text, size, "enters at 0x%" PRIx64 " with the context id 0x%" PRIx64, d->address, d->context);
        break;
    case PSCI_RESUME: put(text, size, "goes on behind its call with %" PRId32, (int32_t)d->x0); break;
    default: put(text, size, "%s", d->what <= PSCI_BESIDE_RESETS ? others[d->what - 4] : "is refused");
    }
    if (b->peer->deliver && d->sent)
        put(text, size, "; a message goes out");
}
