/* How long locks are held and waited for, in ticks of the counter, and how deep the stacks are used, told as
 * the system goes off: with HOOKS_MEASURE=1, on TF-A as it is and with the firmware inside, by --wrap. */
#include <arch_helpers.h>
#include <common/bl_common.h>
#include <lib/bakery_lock.h>
#include <lib/spinlock.h>
#include <plat/common/platform.h>
#include <stdio.h>
#include <string.h>

#include "hooks.h"
#include "psci_private.h"

enum { ENTRY, ON, OFF, STANDBY, CORE_DOWN, CLUSTER_DOWN, SYSTEM_DOWN, POLL, OTHER, WORKS };
enum { DOMAIN, START, REST, LOCKS };
/* Lists play on the first cores alone, and BL31 of 2.12 has no room for 32. */
enum { CORES = PLATFORM_CORE_COUNT < 8 ? PLATFORM_CORE_COUNT : 8 };

static const char *const works[WORKS] = {
    "an entry", "CPU_ON", "CPU_OFF", "standby", "CPU_SUSPEND of a core", "CPU_SUSPEND of a cluster",
    "SYSTEM_SUSPEND", "AFFINITY_INFO", "another call"};
static const char *const locks[LOCKS] = {", domain", ", start", ", firmware"};

/* Of times: how many, and in ticks. */
struct tally {
    unsigned int many;
    uint64_t least, sum, most;
};

/* What a core does, and since when it has which lock; of each lock how long it held it and waited for it, and
 * of each piece of work how long it waited for locks in all. */
static struct {
    bool works;
    unsigned int work, deep;
    uint64_t since[8], begun[8], sum;
    struct tally held[WORKS][LOCKS], waited[WORKS][LOCKS], waits[WORKS];
} cores[CORES];

extern spinlock_t start_locks[PLATFORM_CORE_COUNT] __attribute__((weak));
extern char __STACKS_START__[], __STACKS_END__[];
static size_t opened;

void __real_spin_lock(spinlock_t *lock);
void __wrap_spin_lock(spinlock_t *lock);
void __real_spin_unlock(spinlock_t *lock);
void __wrap_spin_unlock(spinlock_t *lock);
bool __real_lock_if_free(spinlock_t *lock) __attribute__((weak));
bool __wrap_lock_if_free(spinlock_t *lock);
void __real_bakery_lock_get(bakery_lock_t *lock);
void __wrap_bakery_lock_get(bakery_lock_t *lock);
void __real_bakery_lock_release(bakery_lock_t *lock);
void __wrap_bakery_lock_release(bakery_lock_t *lock);
void __real_psci_warmboot_entrypoint(void);
void __wrap_psci_warmboot_entrypoint(void);
u_register_t __real_psci_smc_handler(uint32_t function, u_register_t x1, u_register_t x2, u_register_t x3,
                                     u_register_t x4, void *cookie, void *handle, u_register_t flags);
u_register_t __wrap_psci_smc_handler(uint32_t function, u_register_t x1, u_register_t x2, u_register_t x3,
                                     u_register_t x4, void *cookie, void *handle, u_register_t flags);

/* ---- locks, which a core gives back in the order opposite to that in which it took them */

static void add(struct tally *to, const struct tally *more)
{
    if (more->many == 0U)
        return;
    if (to->many == 0U || more->least < to->least)
        to->least = more->least;
    to->many += more->many;
    to->sum += more->sum;
    to->most = more->most > to->most ? more->most : to->most;
}

static void count(struct tally *to, uint64_t ticks)
{
    struct tally one = {1U, ticks, ticks, ticks};

    add(to, &one);
}

static void took(uint64_t begun)
{
    unsigned int core = plat_my_core_pos(), at = cores[core].deep++ % 8U;

    cores[core].begun[at] = begun;
    cores[core].since[at] = read_cntpct_el0();
    cores[core].sum += cores[core].since[at] - begun;
}

static void gives(unsigned int lock)
{
    unsigned int core = plat_my_core_pos(), at = --cores[core].deep % 8U, work = cores[core].work;

    count(&cores[core].held[work][lock], read_cntpct_el0() - cores[core].since[at]);
    count(&cores[core].waited[work][lock], cores[core].since[at] - cores[core].begun[at]);
}

static bool lies_in(const spinlock_t *lock, const void *table, size_t size)
{
    return table != NULL && (uintptr_t)lock - (uintptr_t)table < size;
}

/* The lock of a core that is being started: a table of them inside, a word of each core's node in TF-A. A domain's is a
 * spin lock where the hardware keeps caches coherent. */
static unsigned int kind(const spinlock_t *lock)
{
    if (lies_in(lock, psci_cpu_pd_nodes, sizeof(psci_cpu_pd_nodes)) || lies_in(lock, start_locks, sizeof(start_locks)))
        return START;
    return HW_ASSISTED_COHERENCY && lies_in(lock, psci_locks, sizeof(psci_locks)) ? DOMAIN : REST;
}

void __wrap_spin_lock(spinlock_t *lock)
{
    uint64_t begun = read_cntpct_el0();

    __real_spin_lock(lock);
    took(begun);
}

bool __wrap_lock_if_free(spinlock_t *lock)
{
    uint64_t begun = read_cntpct_el0();
    bool is_taken = __real_lock_if_free(lock);

    if (is_taken)
        took(begun);
    return is_taken;
}

void __wrap_spin_unlock(spinlock_t *lock)
{
    gives(kind(lock));
    __real_spin_unlock(lock);
}

void __wrap_bakery_lock_get(bakery_lock_t *lock)
{
    uint64_t begun = read_cntpct_el0();

    __real_bakery_lock_get(lock);
    took(begun);
}

void __wrap_bakery_lock_release(bakery_lock_t *lock)
{
    gives(DOMAIN);
    __real_bakery_lock_release(lock);
}

/* ---- pieces of work: a call, up to its answer or to the core's next entry, and an entry */

static void ends(unsigned int core)
{
    if (cores[core].works)
        count(&cores[core].waits[cores[core].work], cores[core].sum);
    cores[core].works = false;
}

static void begins(unsigned int core, unsigned int work)
{
    ends(core);
    cores[core].works = true;
    cores[core].work = work;
    cores[core].sum = 0U;
}

/* ---- what is told */

static void tell(const char *line)
{
    while (*line != '\0')
        (void)plat_crash_console_putc(*line++);
}

static void tell_times(const char *what, const char *work, const char *lock, const struct tally *times)
{
    char line[160];

    if (times->many == 0U)
        return;
    (void)snprintf(line, sizeof(line), "%s: %s%s: %u times, %lu at least, %lu on average, %lu at most, %lu in all\n",
                   what, work, lock, times->many, times->least, times->sum / times->many, times->most, times->sum);
    tell(line);
}

static void tell_lock(unsigned int work, unsigned int lock)
{
    struct tally held = {0U}, waited = {0U};

    for (unsigned int core = 0U; core < CORES; core++) {
        add(&held, &cores[core].held[work][lock]);
        add(&waited, &cores[core].waited[work][lock]);
    }
    tell_times("held", works[work], locks[lock], &held);
    tell_times("waited", works[work], locks[lock], &waited);
}

static void tell_work(unsigned int work)
{
    struct tally waits = {0U};

    for (unsigned int core = 0U; core < CORES; core++)
        add(&waits, &cores[core].waits[work]);
    tell_times("waited", works[work], "", &waits);
}

/* How much of this memory is used from its end down, by the lowest word that is not 0. */
static size_t used(const char *start, const char *end)
{
    const uint64_t *word = (const uint64_t *)start;

    while ((const char *)word < end && *word == 0U)
        word++;
    return (size_t)(end - (const char *)word);
}

static void tell_stack(unsigned int core)
{
    size_t size = (size_t)(__STACKS_END__ - __STACKS_START__) / PLATFORM_CORE_COUNT;
    const char *start = __STACKS_START__ + core * size;
    char line[80];

    (void)snprintf(line, sizeof(line), "stack: core %u used %lu of %lu bytes\n", core,
                   (unsigned long)used(start, start + size), (unsigned long)size);
    tell(line);
}

static void tell_opening(void)
{
    char line[80];

    (void)snprintf(line, sizeof(line), "stack: core 0 used %lu bytes as BL31 came up\n", (unsigned long)opened);
    tell(line);
}

static void tell_all(void)
{
    (void)plat_crash_console_init();
    for (unsigned int work = 0U; work < WORKS; work++)
        for (unsigned int lock = 0U; lock < LOCKS; lock++)
            tell_lock(work, lock);
    for (unsigned int work = 0U; work < WORKS; work++)
        tell_work(work);
    for (unsigned int core = 0U; core < CORES; core++)
        tell_stack(core);
    tell_opening();
}

/* ---- what a core does */

void __wrap_psci_warmboot_entrypoint(void)
{
    unsigned int core = plat_my_core_pos();

    begins(core, ENTRY);
    cores[core].deep = 0U;
    __real_psci_warmboot_entrypoint();
    ends(core);
}

static unsigned int work_of(uint32_t function, u_register_t word)
{
    switch (function & 0xbfffffffU) {
    case PSCI_CPU_ON_AARCH32:
        return ON;
    case PSCI_CPU_OFF:
        return OFF;
    case PSCI_CPU_SUSPEND_AARCH32:
        if (psci_get_pstate_type((unsigned int)word) == PSTATE_TYPE_STANDBY)
            return STANDBY;
        return psci_get_pstate_pwrlvl((unsigned int)word) == 0U ? CORE_DOWN : CLUSTER_DOWN;
    case PSCI_SYSTEM_SUSPEND_AARCH32:
        return SYSTEM_DOWN;
    case PSCI_AFFINITY_INFO_AARCH32:
        return POLL;
    default:
        return OTHER;
    }
}

u_register_t __wrap_psci_smc_handler(uint32_t function, u_register_t x1, u_register_t x2, u_register_t x3,
                                     u_register_t x4, void *cookie, void *handle, u_register_t flags)
{
    unsigned int core = plat_my_core_pos();
    u_register_t answer;

    if (function == PSCI_SYSTEM_OFF)
        tell_all();
    begins(core, work_of(function, x1));
    answer = __real_psci_smc_handler(function, x1, x2, x3, x4, cookie, handle, flags);
    ends(core);
    return answer;
}

/* As BL31 comes up, on core 0, once the firmware is open: what is above this frame is in use. */
void hooks_measure(void)
{
    uintptr_t here = (uintptr_t)__builtin_frame_address(0) - 512U;
    size_t size = (size_t)(__STACKS_END__ - __STACKS_START__) / PLATFORM_CORE_COUNT;

    opened = used(__STACKS_START__, __STACKS_START__ + size);
    for (unsigned int core = 0U; core < PLATFORM_CORE_COUNT; core++) {
        uintptr_t at = (uintptr_t)__STACKS_START__ + core * size;

        memset((void *)at, 0, here >= at && here < at + size ? here - at : size);
    }
}
