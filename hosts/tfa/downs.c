/* A try of gumdarts_firmware.c on this machine, over the library: the last core of a cluster stands in its
 * stop before the one that went before it. Its Down is carried out in part, and waits for the other's; it
 * is not tried again by its own switch, with the lock held until the other core stands. On a machine the
 * other core would need to be slow between two instructions. A CPU_ON for which no hook was called is
 * not asked of a core that stands by then: it would be accepted, and nobody starts the core. A poll waits for no
 * lock. And a suspend of a core, for which no power domain is locked, is not asked once the mode is another one. */
#include <stdarg.h>
#include <stdio.h>
#include <stdlib.h>

#include "gumdarts_adaptor.h"
#include "gumdarts_record.h"

enum { CPU_SUSPEND = 0xc4000001, CPU_OFF = 0x84000002, CPU_ON = 0xc4000003, AFFINITY_INFO = 0xc4000004 };
enum { NODE_HW_STATE = 0xc400000d, CORE_DOWN = 0x10003, CLUSTER_DOWN = 0x1010033 };
enum { ON = 0, OFF = 1, LEVEL_OF_CLUSTERS = 1, BOOT = 0x40000000, MOST_DELIVERED = 20 };

struct door doors[PLATFORM_CORE_COUNT];
unsigned int psci_plat_core_count = PLATFORM_CORE_COUNT;
struct psci_board board = {
    .height = 2, .format = PSCI_ORIGINAL_FORMAT, .starts = 100, .lives = 1, .boot = BOOT,
    .many_ranges = 1, .ranges = {{BOOT, BOOT + 0x1000}},
    .levels = {{2, {2, 2}}, {1, {2}}},
};
static const uint64_t words[PLATFORM_CORE_COUNT] = {0x000, 0x001, 0x100, 0x101};
static unsigned int here, delivered;
static spinlock_t *taken;

/* ---- what TF-A has */

void __dead2 panic(void) { exit(2); }

void ERROR(const char *text, ...)
{
    va_list values;

    va_start(values, text);
    (void)vprintf(text, values);
    va_end(values);
    exit(2);
}

void spin_lock(spinlock_t *lock)
{
    if (lock->lock != 0U)
        ERROR("core %u waits for the lock\n", here);
    lock->lock = 1U;
    taken = lock;
}

void spin_unlock(spinlock_t *lock) { lock->lock = 0U; }

bool lock_if_free(spinlock_t *lock)
{
    bool is_free = lock->lock == 0U;

    if (is_free)
        spin_lock(lock);
    return is_free;
}

unsigned int plat_my_core_pos(void) { return here; }
u_register_t read_mpidr(void) { return words[here]; }

/* ---- the record: how many messages the power controller got */

void record_deliver(const uint8_t *frame, const struct psci_ctl_answer *answer)
{
    (void)frame, (void)answer;
    if (++delivered > MOST_DELIVERED)
        ERROR("a Down is tried again and again, and the lock is held\n");
}

void record_call(unsigned int core, const uint64_t *x, const struct psci_answer *answer)
{
    (void)core, (void)x, (void)answer;
}

void record_enter(unsigned int core, const struct psci_ctl_start *start, const struct psci_answer *answer)
{
    (void)core, (void)start, (void)answer;
}

void record_take(const uint8_t *frame, uint32_t what) { (void)frame, (void)what; }
void record_stands(unsigned int core, uint32_t number) { (void)core, (void)number; }
void record_poll(unsigned int core, const uint64_t *x, int32_t code) { (void)core, (void)x, (void)code; }
void record_reset(unsigned int core, const struct psci_ctl_answer *answer) { (void)core, (void)answer; }

void record_wake(unsigned int core, uint32_t halted, const struct psci_ctl_answer *answer)
{
    (void)core, (void)halted, (void)answer;
}

/* ---- what cores do */

static struct psci_answer call(unsigned int core, uint64_t function, uint64_t x1, uint64_t x2)
{
    uint64_t x[4] = {function, x1, x2, 0};
    struct psci_answer answer;
    struct psci_stop stop;

    here = core;
    firmware_call(core, x, &answer, &stop);
    return answer;
}

static void enter(unsigned int core)
{
    struct psci_answer answer;
    struct psci_stop stop;

    here = core;
    firmware_enter(core, &answer, &stop);
    if (answer.what != PSCI_ENTER)
        ERROR("core %u does not enter: %u\n", core, answer.what);
}

static void stand(unsigned int core) { doors[core].stopped = doors[core].number; }

/* ---- what is wanted */

static void wants(const char *what, int32_t seen, int32_t wanted)
{
    if (seen != wanted)
        ERROR("%s: %d, and %d is wanted\n", what, seen, wanted);
}

static void status(const char *what, unsigned int core, int32_t wanted)
{
    uint64_t x[4] = {AFFINITY_INFO, words[core], 0, 0};

    here = 0;
    wants(what, firmware_poll(0, x, core), wanted);
}

static void messages(const char *what, unsigned int wanted)
{
    wants(what, (int32_t)delivered, (int32_t)wanted);
    delivered = 0;
}

static void cluster(const char *what, int32_t wanted)
{
    wants(what, call(0, NODE_HW_STATE, words[2], LEVEL_OF_CLUSTERS).code, wanted);
}

static void last_core_stands_first(void)
{
    for (unsigned int core = 2; core < 4; core++) {
        wants("CPU_ON", call(0, CPU_ON, words[core], BOOT).code, 0);
        enter(core);
    }
    delivered = 0;
    (void)call(3, CPU_OFF, 0, 0);
    (void)call(2, CPU_OFF, 0, 0);
    messages("Downs of cores that do not stand yet", 0);
    stand(2);
    status("the last core, which stands", 2, OFF);
    status("the other one, which does not", 3, ON);
    cluster("their cluster", ON);
    messages("the last core's Down, in part", 1);
    stand(3);
    status("the other core, which stands", 3, OFF);
    cluster("their cluster", OFF);
    messages("the other's Down, and what was left of the last one's", 2);
}

/* Whether it was asked, and not accepted. */
static bool is_refused_on(unsigned int target)
{
    uint64_t x[4] = {CPU_ON, words[target], BOOT, 0};
    struct psci_answer answer;

    here = 0;
    if (!firmware_call_unless_off(0, x, target, &answer))
        return false;
    if (answer.code == 0)
        ERROR("a CPU_ON is accepted, and nobody starts the core\n");
    return true;
}

static void core_stands_before_it_is_started(void)
{
    wants("CPU_ON", call(0, CPU_ON, words[2], BOOT).code, 0);
    enter(2);
    (void)call(2, CPU_OFF, 0, 0);
    wants("a CPU_ON of a core that does not stand yet is asked", is_refused_on(2), true);
    stand(2);
    wants("one of a core that stands is asked", is_refused_on(2), false);
    wants("CPU_ON", call(0, CPU_ON, words[2], BOOT).code, 0);
}

static void poll_waits_for_nobody(void)
{
    enter(2);
    (void)call(2, CPU_OFF, 0, 0);
    stand(2);
    spin_lock(taken);
    status("a core that stands, while another core has the lock", 2, ON);
    spin_unlock(taken);
    status("the same, once nobody has it", 2, OFF);
}

/* Whether it was asked, of a core whose power domains are locked up to this level. */
static bool is_asked_suspend(unsigned int core, unsigned int level, unsigned int locked)
{
    uint64_t x[4] = {CPU_SUSPEND, level == 0U ? CORE_DOWN : CLUSTER_DOWN, BOOT, 0};
    struct psci_answer answer;
    struct psci_stop stop;

    here = core;
    doors[core].level = (uint8_t)locked;
    return firmware_call_locked(core, x, level, &answer, &stop);
}

static void suspends_lock_what_may_change(void)
{
    wants("levels of a core's suspend", (int32_t)firmware_level(0), 0);
    wants("levels of a cluster's suspend", (int32_t)firmware_level(1), 1);
    wants("levels of a word of no state", (int32_t)firmware_level(2), 1);
    wants("SET_SUSPEND_MODE", call(0, SET_SUSPEND_MODE, 2, 0).code, -2);
    wants("levels of a core's suspend, the mode as before", (int32_t)firmware_level(0), 0);
    wants("SET_SUSPEND_MODE", call(0, SET_SUSPEND_MODE, 1, 0).code, 0);
    wants("levels of a core's suspend, OS-initiated", (int32_t)firmware_level(0), 1);
    wants("a suspend with no domain locked is asked", is_asked_suspend(0, 0, 0), false);
    wants("SET_SUSPEND_MODE", call(0, SET_SUSPEND_MODE, 0, 0).code, 0);
    wants("levels of a core's suspend, platform-coordinated", (int32_t)firmware_level(0), 0);
    wants("a suspend of the cluster with no domain locked is asked", is_asked_suspend(0, 1, 0), false);
    wants("a suspend of a core with no domain locked is asked", is_asked_suspend(0, 0, 0), true);
}

int main(void)
{
    firmware_open();
    enter(0);
    last_core_stands_first();
    core_stands_before_it_is_started();
    poll_waits_for_nobody();
    suspends_lock_what_may_change();
    puts("the last core's Down waits for the other's, no start is lost, and locks are as wide as the mode asks");
    return 0;
}
