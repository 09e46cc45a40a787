/* The power of a guest, turn by turn. A vCPU's thread has left the guest when it calls, so it stands: in one turn of the
 * library it calls, what it sends is delivered and acknowledged, and a core that this starts enters. There is no mailbox,
 * no Down that waits, and nothing to send again. */
#include "pool.h"
#include "vmm.h"

#include <stdio.h>
#include <stdlib.h>
#include <string.h>

enum { PSCI_FEATURES = 0x8400000a };
static const uint32_t SMCCC_VERSION = 0x80000000;

struct core cores[MOST_CORES];
unsigned many_cores;
pthread_mutex_t lock = PTHREAD_MUTEX_INITIALIZER;
enum life life;
struct psci_guest_place guest;
static _Alignas(16) uint8_t heap[2 * POOL_SIZE(MOST_CORES)]; /* a guest, and a firmware while it is loaded */
static unsigned refused;

static unsigned number_of(const struct core *core) { return (unsigned)(core - cores); }

bool was_refused(void) { return refused != 0; }

/* A life from which the guest leaves goes on: what happens until all cores are out of the guest no other monitor sees. */
static bool is_over(void) { return life == RESTARTS || life == IS_OFF; }

/* What no caller of the library may be told, if this program is right. */
static void look(const char *what, uint32_t answer) {
    if (answer == PSCI_GUEST_TURNED)
        return;
    refused++;
    fprintf(stderr, "vmm: %s was refused: %u\n", what, answer);
}

/* As at a cold boot: each life begins so. The boot core finds at its door how it entered. */
void reset_core(struct core *core) {
    core->executes = core->is_new = false;
    core->is_open = core == cores;
    core->how = (struct psci_stop){0};
    core->order = 0;
    reset_vcpu(core);
}

/* A core that was started has entered: its thread finds at its door how. By CPU_ON it has the byte order of its caller. */
static void open_door(const struct psci_guest_turn *turn, struct core *caller) {
    struct core *core = &cores[turn->start.core];
    if (!turn->start.number)
        return;
    core->next = turn->start;
    core->entry = turn->entry;
    core->order = turn->start.cause == PSCI_CAUSE_ON ? byte_order(caller) : 0;
    core->is_open = true;
    record_enter(core);
    pthread_cond_signal(&core->bell);
}

/* No core is in a call, since the lock is held. Each leaves the guest, or its wait, and sees that the life is over
 * before it makes another call. */
static void end_life(uint32_t next) {
    life = next ? RESTARTS : IS_OFF;
    for (struct core *core = cores; core < cores + many_cores; core++)
        call_back(core);
}

/* An interrupt is pending for a core that sleeps. */
void wake(struct core *core) {
    struct psci_guest_turn turn;
    pthread_mutex_lock(&lock);
    if (!is_over()) {
        psci_guest_wake(&guest, number_of(core), &turn);
        look("a wake-up", turn.what);
        record_wake(core, &turn);
        open_door(&turn, core);
    }
    pthread_mutex_unlock(&lock);
}

/* By the start that it finds at its door. */
void enter(struct core *core, struct psci_answer *answer) {
    core->is_open = false;
    core->start = core->next;
    core->how = (struct psci_stop){0};
    core->executes = core->entry.what != PSCI_STOP;
    *answer = core->entry;
}

/* The guest's first exit tells that the core is in it. In a life that is over nobody asks. */
void begun(struct core *core) {
    pthread_mutex_lock(&lock);
    if (!is_over())
        record_begins(core);
    pthread_mutex_unlock(&lock);
    step(core, false);
}

/* Whether it asks for SMCCC_VERSION, which KVM answers itself. */
static bool asks_of_smccc(const uint64_t *x) {
    return (uint32_t)x[0] == PSCI_FEATURES && (uint32_t)x[1] == SMCCC_VERSION;
}

static void stop(struct core *core, const struct psci_guest_turn *turn) {
    core->executes = false;
    core->how = turn->stop;
    record_stands(core);
}

/* The library refuses a call where the life has ended while the core came here: then it has not been made. */
static bool ask_firmware(struct core *core, const uint64_t *x, struct psci_guest_turn *turn) {
    pthread_mutex_lock(&lock);
    psci_guest_call(&guest, number_of(core), core->start.life, x[0], x[1], x[2], x[3], turn);
    if (turn->what == PSCI_GUEST_TURNED) {
        record_call(core, x, &turn->caller);
        if (turn->caller.what == PSCI_STOP)
            stop(core, turn);
        record_message(&turn->caller.message, turn->start.number);
        if (turn->life != core->start.life)
            end_life(turn->life);
        open_door(turn, core);
    } else if (!is_over()) {
        look("a call", turn->what);
    }
    pthread_mutex_unlock(&lock);
    return turn->what == PSCI_GUEST_TURNED;
}

/* A code in the width of the call that asked. */
static uint64_t register_of(int32_t code, uint64_t function) {
    return function & 0x40000000 ? (uint64_t)(int64_t)code : (uint32_t)code;
}

void call(struct core *core) {
    struct psci_guest_turn turn;
    uint64_t x[4];
    for (unsigned number = 0; number < 4; number++)
        x[number] = get_x(core, number);
    if (asks_of_smccc(x))
        set_x0(core, 0);
    else if (!ask_firmware(core, x, &turn))
        return;
    else if (turn.caller.what == PSCI_RETURN)
        set_x0(core, register_of(turn.caller.code, x[0]));
    else if (core->how.wakes)
        set_state(core, KVM_MP_STATE_SUSPENDED);
}

bool take_exit(struct core *core) {
    const struct kvm_run *run = core->run;
    if (core->is_new && run->exit_reason != KVM_EXIT_INTR)
        begun(core);
    if (run->exit_reason == KVM_EXIT_HYPERCALL)
        call(core);
    else if (run->exit_reason == KVM_EXIT_SYSTEM_EVENT && run->system_event.type == KVM_SYSTEM_EVENT_WAKEUP)
        wake(core);
    else
        return run->exit_reason == KVM_EXIT_DEBUG || run->exit_reason == KVM_EXIT_INTR;
    return true;
}

/* The cores of each cluster count from 0, as the board's affinity words have them. */
static void find_cores(void) {
    unsigned number = 0;
    many_cores = psci_guest_cores(&guest);
    if (many_cores > MOST_CORES || psci_guest_height(&guest) > 2)
        fail("a board of so many cores or levels");
    for (unsigned cluster = 0; cluster < psci_guest_nodes(&guest, 1); cluster++)
        for (unsigned k = 0; k < psci_guest_children(&guest, 1, cluster); k++)
            cores[number++].affinity = cluster << 8 | k;
}

/* By the fault's name in docs/port/FORMATS.md. */
static void must_open(uint32_t answer) {
    static const char *const names[] = {"",         "Grammar", "Uneven",   "TooWide", "TooManyCores",
                                        "BadRange", "BadBoot", "BadLimit", "Memory"};
    if (answer == PSCI_OPENED)
        return;
    fprintf(stderr, "vmm: the board is refused: %s\n", names[answer]);
    exit(1);
}

void open_library(const char *board) {
    struct psci_guest_turn turn;
    pool_give(heap, sizeof heap);
    must_open(psci_guest_open(&guest, (const uint8_t *)board, strlen(board), &turn));
    find_cores();
    open_door(&turn, 0);
}
