#include "probes.h"

#include <inttypes.h>
#include <stdarg.h>
#include <stdio.h>
#include <stdlib.h>
#include <string.h>

static struct psci_answer answer;
static struct psci_ctl_answer done;
static struct psci_frame frame;

static const char *const functions[] = {
    "PSCI_VERSION", "CPU_SUSPEND", "CPU_OFF", "CPU_ON", "AFFINITY_INFO", "a function that is not there",
    "a function that is not there", "a function that is not there", "SYSTEM_OFF", "SYSTEM_RESET", "PSCI_FEATURES",
    "a function that is not there", "a function that is not there", "NODE_HW_STATE", "SYSTEM_SUSPEND",
    "PSCI_SET_SUSPEND_MODE", "a function that is not there", "a function that is not there", "SYSTEM_RESET2",
};
enum { MANY = sizeof functions / sizeof *functions };

static uint64_t low(uint64_t x0) { return x0 & 0x1f; }

/* The first argument of a call: a machine's MPIDRs stand for affinity words. */
static uint64_t first_word(uint64_t x0, uint64_t word) {
    for (unsigned core = 0; core < cores; core++)
        if (affinity_of(core) == word && (low(x0) == 3 || low(x0) == 4 || low(x0) == 13))
            return called(core);
    return word;
}

static bool call(const char *text, struct probed *it) {
    uint64_t x[4];
    unsigned core;
    if (sscanf(text, "%u %" SCNi64 " %" SCNi64 " %" SCNi64 " %" SCNi64, &core, x, x + 1, x + 2, x + 3) != 5)
        return false;
    bool halts = psci_halting(&firmware);
    uint64_t word = first_word(x[0], x[1]);
    it->function = "psci_smc";
    STEP(psci_smc(&firmware, (uint16_t)core, x[0], word, x[2], x[3], &answer));
    const char *name = low(x[0]) < MANY ? functions[low(x[0])] : functions[5];
    if (low(x[0]) == 1 && is_initiated)
        name = "CPU_SUSPEND, OS-initiated";
    const char *ends = answer.what == PSCI_STOP ? ", stops" : answer.what == PSCI_RETURN ? "" : ", refused";
    if (halts || answer.what >= PSCI_NO_FIRMWARE)
        name = halts ? "a call in a life that is to end" : "a call of a core that does not run", ends = "";
    snprintf(it->row, sizeof it->row, "%s%s", name, ends);
    return true;
}

static bool enter(const char *text, struct probed *it) {
    uint32_t core, of, number, cause;
    bool begins;
    if (sscanf(text, "%u %u %u %u", &core, &of, &number, &cause) != 4)
        return false;
    begins = of != psci_life(&firmware);
    it->function = "psci_enter";
    STEP(psci_enter(&firmware, (uint16_t)core, of, number, cause, &answer));
    snprintf(it->row, sizeof it->row, "%s", answer.what >= PSCI_NO_FIRMWARE ? "an entry, refused"
        : begins ? "the first entry of a life" : answer.what == PSCI_STOP ? "an entry that parks"
        : answer.what == PSCI_RESUME ? "an entry that resumes" : "an entry");
    return true;
}

/* An acknowledgement of the present life. */
static bool take(const char *text, struct probed *it) {
    unsigned core, kind, applied;
    uint32_t number, used;
    if (sscanf(text, "%u %i %u %u", &core, (int *)&kind, &number, &applied) != 4)
        return false;
    uint8_t bytes[PSCI_FRAME_LEN] = {0x50, 0x44, (uint8_t)kind, (uint8_t)core};
    for (int i = 0; i < 4; i++) {
        bytes[4 + i] = (uint8_t)(psci_life(&firmware) >> (24 - 8 * i));
        bytes[8 + i] = (uint8_t)(number >> (24 - 8 * i));
    }
    bytes[12] = (uint8_t)applied;
    it->function = "psci_take";
    STEP(used = psci_take(&firmware, bytes, sizeof bytes));
    snprintf(it->row, sizeof it->row, "an acknowledgement%s",
             used == PSCI_USED ? "" : used == PSCI_OLD ? ", out of date" : ", refused");
    return true;
}

/* The calls of the power controller. */
static bool controller_call(const char *what, const char *text, struct probed *it) {
    unsigned core, number = 0;
    if (sscanf(text, "%u %u", &core, &number) < 1)
        return false;
    if (strcmp(what, "deliver") == 0) {
        psci_outstanding(&firmware, (uint16_t)core, &frame);
        if (!frame.some)
            return false;
        it->function = "psci_ctl_deliver";
        STEP(psci_ctl_deliver(&controller, frame.bytes, sizeof frame.bytes, &done));
        const char *kind = frame.bytes[2] == 1 ? "a Down" : frame.bytes[2] == 2 ? "a Start" : "an Off or Reset";
        snprintf(it->row, sizeof it->row, "the controller: %s%s", kind, done.what == PSCI_CTL_NOTHING ? ", late" : "");
    } else if (strcmp(what, "wake") == 0) {
        it->function = "psci_ctl_wake";
        STEP(psci_ctl_wake(&controller, (uint16_t)core, number, &done));
        snprintf(it->row, sizeof it->row, "the controller: a wake-up");
    } else {
        it->function = "psci_ctl_reset";
        STEP(psci_ctl_reset(&controller, (uint16_t)core, &done));
        snprintf(it->row, sizeof it->row, "the controller: a reset of a core");
    }
    return true;
}

/* The readers, by name: the first numbers they take. */
#define READER(given, call)                                                                                           \
    if (strcmp(what, given) == 0) {                                                                                   \
        it->function = "psci_" given;                                                                                 \
        STEP(call);                                                                                                   \
        return snprintf(it->row, sizeof it->row, "reader `psci_" given "`") > 0;                                             \
    }
static bool reader(const char *what, const char *text, struct probed *it) {
    static struct psci_stop stop;
    static struct psci_message fields;
    static struct psci_ctl_start start;
    uint64_t a = 0, b = 0;
    sscanf(text, "%" SCNi64 " %" SCNi64, &a, &b);
    uint16_t index = (uint16_t)b, core = (uint16_t)a;
    uint32_t level = (uint32_t)a;
    READER("poll", psci_poll(&poller, a))
    READER("life", psci_life(&firmware))
    READER("halting", psci_halting(&firmware))
    READER("known", psci_known(&firmware, core))
    READER("running", psci_running(&firmware, core))
    READER("granted", psci_granted(&firmware, level, index))
    READER("status", psci_status(&firmware, level, index))
    READER("hw", psci_hw(&firmware, level, index))
    READER("cores", psci_cores(&firmware))
    READER("height", psci_height(&firmware))
    READER("version_of_library", psci_version_of_library())
    READER("nodes", psci_nodes(&firmware, level))
    READER("children", psci_children(&firmware, level, index))
    READER("stop", psci_stop(&firmware, core, b, &stop))
    READER("outstanding", psci_outstanding(&firmware, core, &frame))
    READER("core_of", psci_core_of(&firmware, a))
    READER("mpidr_of", psci_mpidr_of(&firmware, core))
    READER("place_of", psci_place_of(&firmware, level, index))
    READER("ctl_life", psci_ctl_life(&controller))
    READER("ctl_starts", psci_ctl_starts(&controller, core))
    READER("ctl_started", psci_ctl_started(&controller, core, &start))
    READER("ctl_depth", psci_ctl_depth(&controller, level, index))
    psci_outstanding(&firmware, core, &frame);
    READER("decode", psci_decode(&firmware, frame.bytes, sizeof frame.bytes, &fields))
    psci_decode(&firmware, frame.bytes, sizeof frame.bytes, &fields);
    READER("encode", psci_encode(&fields, &frame))
    return false;
}

static bool any(const char *what, const char *text, struct probed *it) {
    if (strcmp(what, "smc") == 0)
        return call(text, it);
    if (strcmp(what, "enter") == 0)
        return enter(text, it);
    if (strcmp(what, "take") == 0)
        return take(text, it);
    if (strcmp(what, "deliver") == 0 || strcmp(what, "wake") == 0 || strcmp(what, "reset") == 0)
        return controller_call(what, text, it);
    return reader(what, text, it);
}

bool probe(const char *text, struct probed *it) {
    char what[24];
    int read = 0;
    bool known = sscanf(text, " %23[a-z_]%n", what, &read) == 1 && any(what, text + read, it);
    it->steps = steps;
    return known;
}

/* Each probe ----------------------------------------------------------------------------------- */

static char (*into)[TEXT];
static unsigned many;

static void one(const char *form, ...) {
    va_list given;
    va_start(given, form);
    if (many < MOST_TEXTS)
        vsnprintf(into[many++], TEXT, form, given);
    va_end(given);
}

static void each_call(unsigned core) {
    const unsigned others[] = {0, cores / 2, cores - 1, core};
    for (unsigned depth = 1; depth <= 3; depth++)
        for (unsigned level = 0; level <= height; level++)
            one("smc %u 0xc4000001 %#x %#x 7", core, state_word(level, depth), ENTRY);
    one("smc %u 0xc4000001 %#x 1 7", core, state_word(height, 3));
    one("smc %u 0xc4000001 0xffffffff %#x 7", core, ENTRY);
    one("smc %u 0xc4000001 0x10073 %#x 7", core, ENTRY);
    for (unsigned i = 0; i < 4; i++) {
        one("smc %u 0xc4000003 %#" PRIx64 " %#x 7", core, affinity_of(others[i]), ENTRY);
        for (unsigned level = 0; level <= height + 1; level++) {
            one("smc %u 0xc4000004 %#" PRIx64 " %u 7", core, affinity_of(others[i]), level);
            one("smc %u 0xc400000d %#" PRIx64 " %u 7", core, affinity_of(others[i]), level);
        }
    }
    for (unsigned word = 3; word <= 13; word = word == 3 ? 4 : word + 9)
        one("smc %u %#x 0xff %#x 7", core, 0xc4000000 + word, word == 3 ? ENTRY : 0);
    for (unsigned word = 0; word < 32; word++)
        if (word < 3 || word > 13 || word == 8 || word == 9)
            one("smc %u %#x %u %#x 7", core, 0x84000000 + word, word == 15, ENTRY);
    /* by words of 32 bits */
    one("smc %u 0x84000001 %#x %#x 7", core, state_word(height, 3), ENTRY);
    one("smc %u 0x84000001 %#x 1 7", core, state_word(height, 3));
    one("smc %u 0x84000003 %#" PRIx64 " %#x 7", core, affinity_of(cores - 1), ENTRY);
    one("smc %u 0x84000004 %#" PRIx64 " 0 7", core, affinity_of(cores - 1));
    one("smc %u 0x8400000d %#" PRIx64 " 0 7", core, affinity_of(cores - 1));
    one("smc %u 0x84000012 0x80000000 %#x 7", core, ENTRY);
    one("smc %u 0x8400000e %#x %#x 7", core, ENTRY, ENTRY);
    one("smc %u 0xc400000e %#x 7 7", core, ENTRY);
    one("smc %u 0x8400000f 0 0 7", core);
    one("smc %u 0xc4000012 0 0 7", core);
    one("smc %u 0xc4000012 0x80000000 0 7", core);
}

/* Readers of a core, of a node of each level, and of nothing. */
static const char *const of_cores[] = {"known", "running", "outstanding", "decode", "encode", "mpidr_of", "ctl_starts",
                                       "ctl_started"};
static const char *const of_nodes[] = {"granted", "status", "hw", "children", "place_of", "ctl_depth", "nodes"};
static const char *const of_all[] = {"life", "halting", "cores", "height", "ctl_life", "version_of_library"};
enum { CORES = sizeof of_cores / sizeof *of_cores, NODES = sizeof of_nodes / sizeof *of_nodes,
       ALL = sizeof of_all / sizeof *of_all };

static void each_reader(unsigned core) {
    for (unsigned i = 0; i < CORES; i++)
        one("%s %u", of_cores[i], core);
    for (unsigned i = 0; i < NODES; i++)
        for (unsigned level = 0; level <= height; level++)
            one("%s %u %u", of_nodes[i], level, level ? 0 : core);
    for (unsigned i = 0; i < ALL; i++)
        one("%s", of_all[i]);
    one("stop %u 0xc4000001", core);
    one("stop %u 0x84000002", core);
    one("poll %#" PRIx64, affinity_of(core));
    one("poll 0xff");
}

/* What has the words of the machine besides calls. */
static void each_of_machine(unsigned core) {
    one("mpidr_of %u", core);
    for (unsigned level = 0; level <= height; level++)
        one("place_of %u %u", level, level ? 0 : core);
    one("core_of %#" PRIx64, called(core));
    one("core_of 0xff");
}

/* Entries, acknowledgements, the power controller, and readers. */
static void each_other(unsigned beside) {
    for (unsigned cause = 0; cause < 4; cause++)
        one("enter %u %u %u %u", beside, psci_life(&firmware), psci_known(&firmware, (uint16_t)beside) + 1, cause);
    if (draw(4) == 0)
        one("enter 0 %u 1 0", psci_life(&firmware) + 1);
    for (unsigned applied = 0; applied <= height + 1; applied++)
        one("take %u 0x11 %u %u", beside, psci_known(&firmware, (uint16_t)beside), applied);
    one("take %u 0x12 %u 1", beside, psci_known(&firmware, (uint16_t)beside));
    one("deliver %u", beside);
    one("deliver %u", cores - 1);
    one("deliver %u", cores);
    one("wake %u %u", beside, psci_known(&firmware, (uint16_t)beside));
    one("reset %u", beside);
    each_reader(beside);
}

unsigned each_probe(unsigned from, char texts[][TEXT]) {
    unsigned core = running_from(from) % cores, beside = (core + 1) % cores;
    into = texts;
    many = 0;
    each_call(core);
    for (unsigned word = draw(4); word < 64; word += 4)
        one("smc %u 0x8400000a %#x 0 7", core, (word < 32 ? 0x84000000 : 0xc4000000) + word % 32);
    each_of_machine(beside);
    if (!has_machine)
        each_other(beside);
    return many;
}

/* Probes that are drawn ------------------------------------------------------------------------ */

static uint64_t state = 1;

void draw_from(uint64_t seed) { state = seed * 0x9e3779b97f4a7c15 + 0x2545f4914f6cdd1d; }

unsigned draw(unsigned below) {
    state ^= state << 13, state ^= state >> 7, state ^= state << 17;
    return (unsigned)((state >> 16) % below);
}

/* A core: the first, the last, the middle, one beside these, or any. */
static unsigned some_core(void) {
    const unsigned likely[] = {0, cores - 1, cores / 2, cores > 1, cores - 1 - (cores > 1), draw(cores)};
    return likely[draw(6)];
}

static uint64_t some_affinity(void) {
    const uint64_t none[] = {~0ull, 0xff, (uint64_t)1 << 32, 0xffffff};
    return draw(5) ? affinity_of(some_core()) : none[draw(4)];
}

static uint64_t some_state(void) {
    unsigned level = draw(3) ? height : draw(height + 2), depth = 1 + draw(3);
    uint64_t word = state_word(level, draw(3) ? 3 : depth);
    return draw(6) ? word : draw(2) ? word ^ (uint64_t)1 << draw(32) : 0xffffffff;
}

static void draw_call(char *text, size_t size) {
    static const uint8_t known[] = {0, 1, 1, 1, 1, 2, 2, 3, 3, 4, 4, 8, 9, 10, 13, 13, 14, 14, 15, 15, 18, 5, 16, 31};
    unsigned x0 = known[draw(sizeof known)], core = running_from(draw(8) ? some_core() : 0);
    uint64_t word = draw(4) && x0 != 0 && x0 != 2 && x0 != 8 && x0 != 9 && x0 != 10 && x0 != 15 ? 0xc4000000 : 0x84000000;
    uint64_t x1 = draw(8), x2 = draw(7) ? ENTRY : draw(3) ? 0x40100000 - 4 : 1;
    if (x0 == 1)
        x1 = some_state();
    else if (x0 == 3 || x0 == 4 || x0 == 13)
        x1 = some_affinity();
    else if (x0 == 10)
        x1 = (draw(2) ? 0xc4000000 : 0x84000000) + draw(32);
    else if (x0 == 14)
        x1 = x2;
    else if (x0 == 18)
        x1 = draw(2) ? 0 : 0x80000000;
    if (x0 == 4 || x0 == 13)
        x2 = draw(height + 2);
    snprintf(text, size, "smc %u 0x%" PRIx64 " 0x%" PRIx64 " 0x%" PRIx64 " 7", draw(20) ? core % cores : some_core(),
             word + x0, x1, x2);
}

static void draw_entry(char *text, size_t size) {
    unsigned core = some_core();
    uint32_t known = psci_known(&firmware, (uint16_t)core), of = psci_life(&firmware);
    if (draw(60) == 0)
        of++, core = 0, known = 0;
    snprintf(text, size, "enter %u %u %u %u", core, of, known + (draw(12) != 0), of != psci_life(&firmware) ? 0 : draw(4));
}

void draw_probe(char *text, size_t size) {
    unsigned what = draw(20), core = some_core(), reader = draw(CORES + NODES + ALL + 3);
    if (what < 11)
        draw_call(text, size);
    else if (what < 14)
        draw_entry(text, size);
    else if (what < 16)
        snprintf(text, size, "take %u %#x %u %u", core, draw(8) ? 0x11 + draw(2) : 0x21 + draw(3),
                 psci_known(&firmware, (uint16_t)core) - (draw(12) == 0), draw(8) ? height + 1 : draw(height + 2));
    else if (what < 18)
        snprintf(text, size, "%s %u %u", draw(4) ? "deliver" : draw(2) ? "wake" : "reset", draw(9) ? core : cores,
                 psci_known(&firmware, (uint16_t)core));
    else if (reader < CORES)
        snprintf(text, size, "%s %u", of_cores[reader], core);
    else if (reader < CORES + NODES)
        snprintf(text, size, "%s %u %u", of_nodes[reader - CORES], draw(height + 2), draw(2) ? 0 : draw(cores));
    else if (reader < CORES + NODES + ALL)
        snprintf(text, size, "%s", of_all[reader - CORES - NODES]);
    else if (reader == CORES + NODES + ALL)
        snprintf(text, size, "poll %#" PRIx64, some_affinity());
    else if (reader == CORES + NODES + ALL + 1)
        snprintf(text, size, "core_of %#" PRIx64, draw(5) ? called(core) : some_affinity());
    else
        snprintf(text, size, "stop %u %#x", core, draw(2) ? 0 : draw(2) ? 0xc4000001 : 0x84000002);
}
