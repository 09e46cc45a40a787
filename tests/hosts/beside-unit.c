/* A unit test of a firmware as its own project would write it: it links hosts/beside/beside.c, a heap and the
 * archive, and no fuzzer. The firmware here has PSCI_VERSION and CPU_ON, and loses the context id. */
#include "pool.h"
#include "psci_beside.h"

#include <stdio.h>
#include <stdlib.h>
#include <string.h>

#define BOARD "(2 2) exec 0x40000000-0x60000000 boot 0x40200000 starts 9 lives 3"
enum { VERSION = 0x84000000, CPU_OFF = 0x84000002, CPU_ON = 0x84000003, ALREADY_ON = -4 };

static struct firmware {
    bool on[4];
    uint64_t entry[4];
} now, kept;

static void mine_open(void *self, const struct psci_beside_board *board) {
    struct firmware *mine = self;
    memset(mine, 0, sizeof *mine);
    mine->on[0] = board->cores == 4;
}

/* Affinity words are 0, 1, 0x100 and 0x101. */
static int32_t call_on(struct firmware *mine, const uint64_t x[4]) {
    uint32_t core = (x[1] & 1) | (x[1] >> 7 & 2);
    if (mine->on[core])
        return ALREADY_ON;
    mine->on[core] = true;
    mine->entry[core] = x[2];
    return 0;
}

static void mine_call(void *self, uint32_t core, const uint64_t x[4], struct psci_beside_did *did) {
    (void)core;
    did->what = PSCI_RETURN;
    did->x0 = (uint32_t)(x[0] == VERSION ? 0x10001 : x[0] == CPU_ON ? call_on(self, x) : -1);
}

static void mine_enter(void *self, uint32_t core, uint32_t cause, struct psci_beside_did *did) {
    struct firmware *mine = self;
    did->what = cause == PSCI_CAUSE_ON ? PSCI_ENTER : PSCI_BESIDE_NOTHING;
    did->address = mine->entry[core];
}

static void mine_save(void *self, bool back) {
    *(back ? (struct firmware *)self : &kept) = *(back ? &kept : (struct firmware *)self);
}

static const struct psci_beside_peer peer = {"mine", &now, .open = mine_open, .call = mine_call, .enter = mine_enter,
                                             .save = mine_save};
static const struct psci_beside_profile profile = {
    .name = "mine", .board = BOARD, .boot = 0x40200000, .many_ranges = 1, .ranges = {{0x40000000, 0x60000000}},
    .aligned = 4, .version = 0x10001, .levels = 2, .reads_states = 1,
    .many_functions = 2, .functions = {VERSION, CPU_ON}};
static struct psci_beside side;
static int wrong;

static void holds(bool so, const char *what) {
    if (so)
        return;
    printf("beside-unit: %s\n", what);
    wrong++;
}

static uint32_t does(uint32_t kind, uint32_t number, uint64_t x0, uint64_t x1, uint64_t x2, uint64_t x3) {
    return psci_beside_do(&side, &(struct psci_beside_event){kind, number, {x0, x1, x2, x3}});
}

static void difference(const char *cause, const char *key, const char *function, const char *clause) {
    const struct psci_beside_difference *d = &side.difference;
    holds(strcmp(d->cause, cause) == 0, d->cause);
    holds(strcmp(d->key, key) == 0, d->key);
    holds(function ? d->function && strcmp(d->function, function) == 0 : !d->function, "the function");
    holds(d->clause && strcmp(d->clause, clause) == 0, "the clause");
    holds(d->is_undone, "it is not undone");
}

/* What both did, in words. */
static void says(const char *ours, const char *theirs) {
    const struct psci_beside_difference *d = &side.difference;
    char text[200];
    psci_beside_say(&side, &d->event, &d->ours, text, sizeof text);
    holds(strcmp(text, ours) == 0, text);
    psci_beside_say(&side, &d->event, &d->theirs, text, sizeof text);
    holds(strcmp(text, theirs) == 0, text);
}

static void plays(void) {
    char story[1024];
    psci_beside_begin(&side);
    holds(psci_beside_runs(&side, 0) && !psci_beside_runs(&side, 1), "who runs");
    holds(does(PSCI_BESIDE_CALL, 0, VERSION, 0, 0, 0) == PSCI_BESIDE_ALIKE, "PSCI_VERSION");
    holds(does(PSCI_BESIDE_ENTER, 1, 0, 0, 0, 0) == PSCI_BESIDE_IGNORED, "an entry of a core that is off");
    holds(does(PSCI_BESIDE_CALL, 0, CPU_ON, 0x101, 0x40000400, 7) == PSCI_BESIDE_ALIKE, "CPU_ON");
    holds(psci_beside_is_started(&side, 3), "core 3 is not started");
    holds(does(PSCI_BESIDE_ENTER, 3, 0, 0, 0, 0) == PSCI_BESIDE_DIFFERS, "the context id is not missed");
    difference("entry by CPU_ON: the context id is 0", "entry by CPU_ON: the context id is 0", NULL, "Answer.outcome_at");
    says("enters at 0x40000400 with the context id 0x7", "enters at 0x40000400 with the context id 0x0");
    holds(side.difference.ours.context == 7 && side.difference.theirs.context == 0, "both context ids");
    psci_beside_story(&side, story, sizeof story);
    holds(strcmp(story, "board " BOARD "\nenter 0\ncall 0 0x84000000 0x0 0x0 0x0\n"
                        "call 0 0x84000003 0x101 0x40000400 0x7\ndeliver 0\ntake 0\nenter 3\n") == 0, story);
    /* the list goes on */
    holds(does(PSCI_BESIDE_CALL, 0, CPU_ON, 0x101, 0x40000400, 7) == PSCI_BESIDE_DIFFERS, "a pending core");
    difference("what is ON_PENDING is taken for ON", "CPU_ON of what is ON_PENDING: ours -5, theirs -4", "CPU_ON", "PowerCalls.cpu_on");
    holds((int32_t)side.difference.ours.x0 == -5 && (int32_t)side.difference.theirs.x0 == ALREADY_ON, "both codes");
    says("returns -5 (ON_PENDING)", "returns -4 (ALREADY_ON)");
    holds(does(PSCI_BESIDE_CALL, 0, CPU_OFF, 0, 0, 0) == PSCI_BESIDE_ALIKE, "a function that neither has");
}

int main(void) {
    size_t size = psci_beside_size(4);
    void *memory = aligned_alloc(16, size);
    if (psci_beside_open(&side, &peer, &profile, memory, size) != PSCI_OPENED)
        return 2;
    size_t taken = pool_taken();
    plays();
    plays();
    holds(pool_taken() == taken, "memory was taken after the opening");
    free(memory);
    return wrong != 0;
}
