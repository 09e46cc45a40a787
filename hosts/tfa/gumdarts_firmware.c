/* The library: the firmware, one lock around each of its calls, and the power controller. TF-A has no
 * other processor for that one, so it is asked under the same lock, for what the platform's hooks do. */
#include <common/debug.h>
#include <lib/spinlock.h>

#include "gumdarts_adaptor.h"
#include "gumdarts_record.h"
#include "pool.h"

static struct psci_place firmware;
static struct psci_ctl_place controller;
static struct psci_poller pollers[PLATFORM_CORE_COUNT];

/* Twice pool_size of hosts/pool.c, of which both with a poller for each core take two thirds or less. */
static uint8_t heap[2U * (4096U + 384U * PLATFORM_CORE_COUNT)] __aligned(16);

/* Held for calls of the library alone, by cores whose caches are on. */
static spinlock_t lock;

/* Of each core its last Down, until it is carried out. */
static struct {
    volatile bool some;
    volatile uint32_t number; /* the start of the core that sent it */
    uint32_t seen;            /* how many switches there were as it was carried out last */
    uint32_t applied;         /* how many of its domains went to their depths by then */
    bool stands;              /* it was told that the core stands */
    struct psci_frame frame;
} waiting[PLATFORM_CORE_COUNT];
static uint32_t switches;
static unsigned int many_waiting;

static void refused(const char *call, unsigned int core, uint32_t what)
{
    ERROR("PSCI: %s of core %u is refused: %u\n", call, core, what);
}

/* ---- the power controller */

/* What it makes of a message, and the acknowledgement: how many domains went to their depths. The
 * platform's hooks did the work before. */
static uint32_t deliver(unsigned int core, const uint8_t *frame)
{
    struct psci_ctl_answer answer;
    uint32_t what;

    psci_ctl_deliver(&controller, frame, PSCI_FRAME_LEN, &answer);
    record_deliver(frame, &answer);
    if (answer.what >= PSCI_CTL_NO_PLACE)
        refused("a message", core, answer.what);
    if (answer.ack.some) {
        what = psci_take(&firmware, answer.ack.bytes, PSCI_FRAME_LEN);
        record_take(answer.ack.bytes, what);
        if (what >= PSCI_NO_FIRMWARE)
            refused("an acknowledgement", core, what);
    }
    return answer.what == PSCI_CTL_SWITCH ? answer.many : 0U;
}

/* The rule that a Down waits: one of its core's present start is carried out only once the core stands
 * in its stop of that start. One of an earlier start is stale, and goes at once. */
static bool has_to_wait(unsigned int core)
{
    return doors[core].stopped != waiting[core].number &&
           psci_ctl_starts(&controller, (uint16_t)core) == waiting[core].number;
}

/* A Down of which a part is left is looked at again after each switch of another core's. */
static bool is_worth_a_try(unsigned int core)
{
    return waiting[core].some && waiting[core].seen != switches && !has_to_wait(core);
}

/* Once for each stop, by who sees it first. */
static void tell_stands(unsigned int core)
{
    if (!waiting[core].stands && doors[core].stopped == waiting[core].number)
        record_stands(core, waiting[core].number);
    waiting[core].stands = true;
}

static void serve_core(unsigned int core)
{
    struct psci_frame left;
    uint32_t applied;

    tell_stands(core);
    applied = deliver(core, waiting[core].frame.bytes);
    if (applied > waiting[core].applied) {
        waiting[core].applied = applied;
        switches++;
    }
    waiting[core].seen = switches;
    psci_outstanding(&firmware, (uint16_t)core, &left);
    if (!left.some) {
        waiting[core].some = false;
        many_waiting--;
    }
}

/* Downs whose cores stand by now, until none is left that can be carried out. */
static void __attribute__((noinline)) serve_all(void)
{
    bool again = true;

    while (again) {
        again = false;
        for (unsigned int core = 0U; core < psci_plat_core_count; core++)
            if (is_worth_a_try(core)) {
                serve_core(core);
                again = true;
            }
    }
}

static inline void serve(void)
{
    if (many_waiting != 0U)
        serve_all();
}

static void wait_for_stop(unsigned int core, const struct psci_frame *down)
{
    if (!waiting[core].some)
        many_waiting++;
    waiting[core].frame = *down;
    waiting[core].number = doors[core].number;
    waiting[core].seen = switches - 1U;
    waiting[core].applied = 0U;
    waiting[core].stands = false;
    waiting[core].some = true;
}

static void send(unsigned int core, const struct psci_frame *message)
{
    struct psci_message fields;

    if (!message->some)
        return;
    if (psci_decode(&firmware, message->bytes, PSCI_FRAME_LEN, &fields) == 0U &&
        fields.kind == PSCI_MESSAGE_DOWN)
        wait_for_stop(core, message);
    else
        (void)deliver(core, message->bytes);
}

/* ---- calls */

/* In OS-initiated mode a domain goes down by what the last core asks, above what others of it asked. The mode
 * changes to it, and back, in calls alone, and in none while a core is suspended. */
static volatile bool os_initiated;

unsigned int firmware_level(unsigned int asked)
{
    return os_initiated || asked > PLAT_MAX_PWR_LVL ? PLAT_MAX_PWR_LVL : asked;
}

static void call_locked(unsigned int core, const uint64_t *x, struct psci_answer *answer,
                        struct psci_stop *stop)
{
    psci_smc(&firmware, (uint16_t)core, x[0], x[1], x[2], x[3], answer);
    record_call(core, x, answer);
    if (answer->what == PSCI_STOP)
        psci_stop(&firmware, (uint16_t)core, x[0], stop);
    if (answer->what >= PSCI_NO_FIRMWARE) {
        refused("a call", core, answer->what);
        answer->what = PSCI_RETURN;
        answer->code = PSCI_E_INTERN_FAIL;
    }
    if ((uint32_t)x[0] == SET_SUSPEND_MODE && answer->what == PSCI_RETURN &&
        answer->code == PSCI_E_SUCCESS)
        os_initiated = (uint32_t)x[1] != 0U;
    send(core, &answer->message);
}

void firmware_call(unsigned int core, const uint64_t *x, struct psci_answer *answer,
                   struct psci_stop *stop)
{
    spin_lock(&lock);
    serve();
    call_locked(core, x, answer, stop);
    spin_unlock(&lock);
}

bool firmware_call_locked(unsigned int core, const uint64_t *x, unsigned int asked,
                          struct psci_answer *answer, struct psci_stop *stop)
{
    bool are_locked;

    spin_lock(&lock);
    are_locked = firmware_level(asked) <= doors[core].level;
    if (are_locked) {
        serve();
        call_locked(core, x, answer, stop);
    }
    spin_unlock(&lock);
    return are_locked;
}

bool firmware_call_unless_off(unsigned int core, const uint64_t *x, unsigned int target,
                              struct psci_answer *answer)
{
    struct psci_stop stop;
    bool is_off;

    spin_lock(&lock);
    serve();
    is_off = psci_status(&firmware, 0U, (uint16_t)target) == AFF_STATE_OFF;
    if (!is_off)
        call_locked(core, x, answer, &stop);
    spin_unlock(&lock);
    return !is_off;
}

/* An acknowledgement that the poll would miss is taken first. Where another core has the lock, this or the next one
 * that has it does so: nobody waits for it here. */
int32_t firmware_poll(unsigned int core, const uint64_t *x, unsigned int target)
{
    int32_t code;

    if (waiting[target].some && doors[target].stopped == waiting[target].number &&
        lock_if_free(&lock)) {
        serve();
        spin_unlock(&lock);
    }
    code = psci_poll(&pollers[core], x[1]);
    record_poll(core, x, code);
    return code;
}

uint32_t firmware_status(unsigned int core)
{
    uint32_t status;

    spin_lock(&lock);
    serve();
    status = psci_status(&firmware, 0U, (uint16_t)core);
    spin_unlock(&lock);
    return status;
}

/* ---- entries */

/* Nobody started the core since it stopped: it was woken, or came out of reset by itself. */
static void came_by_itself(unsigned int core, struct psci_ctl_start *start)
{
    struct psci_ctl_answer answer;

    tell_stands(core);
    if (doors[core].wakes) {
        psci_ctl_wake(&controller, (uint16_t)core, start->number, &answer);
        record_wake(core, start->number, &answer);
    } else {
        psci_ctl_reset(&controller, (uint16_t)core, &answer);
        record_reset(core, &answer);
    }
    if (answer.what == PSCI_CTL_START)
        *start = answer.start;
}

void firmware_enter(unsigned int core, struct psci_answer *answer, struct psci_stop *stop)
{
    struct psci_ctl_start start;

    spin_lock(&lock);
    psci_ctl_started(&controller, (uint16_t)core, &start);
    if (start.number == doors[core].number)
        came_by_itself(core, &start);
    psci_enter(&firmware, (uint16_t)core, start.life, start.number, start.cause, answer);
    record_enter(core, &start, answer);
    if (answer->what == PSCI_STOP)
        psci_stop(&firmware, (uint16_t)core, 0U, stop);
    if (answer->what >= PSCI_NO_FIRMWARE)
        refused("an entry", core, answer->what);
    doors[core].number = start.number;
    doors[core].mpidr = read_mpidr() & MPIDR_AFFINITY_MASK;
    send(core, &answer->message);
    serve();
    spin_unlock(&lock);
}

/* ---- at the beginning */

static void check(const char *what, uint32_t opened)
{
    if (opened == PSCI_OPENED)
        return;
    ERROR("PSCI: the board is refused by %s: %u\n", what, opened);
    panic();
}

void firmware_open(void)
{
    pool_give(heap, sizeof(heap));
    check("the firmware", psci_open_board(&firmware, &board));
    check("the power controller", psci_ctl_open_board(&controller, &board));
    for (unsigned int core = 0U; core < psci_plat_core_count; core++)
        check("a poller", psci_open_poller(&firmware, &pollers[core]));
}

/* ---- what the rest of BL31 asks */

bool psci_is_last_on_cpu_safe(void)
{
    unsigned int me = plat_my_core_pos();

    for (unsigned int core = 0U; core < psci_plat_core_count; core++)
        if (core != me && firmware_status(core) != AFF_STATE_OFF)
            return false;
    return true;
}

int psci_secondaries_brought_up(void)
{
    for (unsigned int core = 0U; core < psci_plat_core_count; core++)
        if (core != plat_my_core_pos() && doors[core].number != 0U)
            return 1;
    return 0;
}
