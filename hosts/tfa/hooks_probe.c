/* Hooks that tell that they were called, with what, and some of which fail; and the
 * dispatcher of a trusted OS that is not there. With HOOKS_PROBE=1, for probe.list. */
#include <arch_helpers.h>
#include <bl31/bl31.h>
#include <lib/psci/psci.h>
#include <lib/spinlock.h>
#include <plat/common/platform.h>
#include <stdio.h>

#include "hooks.h"

static const plat_psci_ops_t *platform;
static int protected;
static unsigned int failures = 1U, denials = 1U;

static unsigned int me(void) { return plat_my_core_pos(); }

/* Whole lines, on the crash console, in the order in which they were told. */
static spinlock_t lock;

static void tell(const char *line)
{
    spin_lock(&lock);
    while (*line != '\0')
        (void)plat_crash_console_putc(*line++);
    spin_unlock(&lock);
}

#define TELL(...)                                             \
    do {                                                      \
        char line[100];                                       \
        (void)snprintf(line, sizeof(line), __VA_ARGS__);      \
        tell(line);                                           \
    } while (false)

/* ---- the platform's */

plat_local_state_t __wrap_plat_get_target_pwr_state(unsigned int level, const plat_local_state_t *states,
                                                    unsigned int many);
plat_local_state_t __real_plat_get_target_pwr_state(unsigned int level, const plat_local_state_t *states,
                                                    unsigned int many);

/* While memory is protected, the domains above the cores keep it: no more than retention. */
plat_local_state_t __wrap_plat_get_target_pwr_state(unsigned int level, const plat_local_state_t *states,
                                                    unsigned int many)
{
    plat_local_state_t target = __real_plat_get_target_pwr_state(level, states, many);

    return protected != 0 && target > PLAT_MAX_RET_STATE ? PLAT_MAX_RET_STATE : target;
}

/* The first start of core 2 fails. */
static int on(u_register_t mpidr)
{
    TELL("pwr_domain_on of 0x%lx of core %u\n", mpidr, me());
    if (mpidr == 2U && failures != 0U) {
        failures--;
        return PSCI_E_INTERN_FAIL;
    }
    return platform->pwr_domain_on(mpidr);
}

static void tell_states(const char *hook, const psci_power_state_t *states)
{
    TELL("%s of core %u, states %u %u\n", hook, me(), states->pwr_domain_state[0],
         states->pwr_domain_state[1]);
}

static void off(const psci_power_state_t *states)
{
    tell_states("pwr_domain_off", states);
    platform->pwr_domain_off(states);
}

#if HOOKS_TFA_MINOR > 8
static unsigned int early_denials = 1U;

/* The first CPU_OFF of core 1 is denied. */
static int off_early(const psci_power_state_t *states)
{
    tell_states("pwr_domain_off_early", states);
    return me() == 1U && early_denials != 0U ? (early_denials--, PSCI_E_DENIED) : PSCI_E_SUCCESS;
}

static int validate_entry(uintptr_t entry)
{
    return entry >= NS_DRAM0_BASE && entry - NS_DRAM0_BASE < NS_DRAM0_SIZE ? PSCI_E_SUCCESS : PSCI_E_INVALID_ADDRESS;
}

#if PSCI_OS_INIT_MODE
static unsigned int suspend_denials = 1U;

/* The first suspend of core 2 is denied. */
static int validate_suspend(const psci_power_state_t *states)
{
    tell_states("pwr_domain_validate_suspend", states);
    return me() == 2U && suspend_denials != 0U ? (suspend_denials--, PSCI_E_DENIED) : PSCI_E_SUCCESS;
}
#endif
#endif

static void suspend_early(const psci_power_state_t *states)
{
    tell_states("pwr_domain_suspend_pwrdown_early", states);
}

static void on_finish(const psci_power_state_t *states)
{
    platform->pwr_domain_on_finish(states);
    tell_states("pwr_domain_on_finish", states);
}

static void on_finish_late(const psci_power_state_t *states)
{
    tell_states("pwr_domain_on_finish_late", states);
}

static void suspend_finish(const psci_power_state_t *states)
{
    tell_states("pwr_domain_suspend_finish", states);
}

static int read_protect(int *value)
{
    *value = protected;
    return 0;
}

static int write_protect(int value)
{
    TELL("write_mem_protect %d of core %u\n", value, me());
    protected = value;
    return 0;
}

static int check_range(uintptr_t base, u_register_t length)
{
    return base >= NS_DRAM0_BASE && length <= NS_DRAM0_SIZE ? 0 : -1;
}

/* It refuses, and so comes back. */
static int reset2(int is_vendor, int type, u_register_t cookie)
{
    TELL("system_reset2 %d 0x%x 0x%lx of core %u\n", is_vendor, (unsigned int)type, cookie, me());
    return is_vendor != 0 ? PSCI_E_NOT_SUPPORTED : PSCI_E_INVALID_PARAMS;
}

/* ---- a trusted OS's */

static void spd_on(u_register_t mpidr) { TELL("svc_on of 0x%lx of core %u\n", mpidr, me()); }

/* The first CPU_OFF is denied. */
static int32_t spd_off(u_register_t unused)
{
    TELL("svc_off of core %u\n", me());
    return denials != 0U ? (denials--, PSCI_E_DENIED) : 0;
}

static void spd_suspend(u_register_t level) { TELL("svc_suspend of core %u, level %lu\n", me(), level); }
static void spd_on_finish(u_register_t unused) { TELL("svc_on_finish of core %u\n", me()); }

static void spd_suspend_finish(u_register_t level)
{
    TELL("svc_suspend_finish of core %u, level %lu\n", me(), level);
}

static int32_t spd_migrate(u_register_t from, u_register_t to)
{
    TELL("svc_migrate to 0x%lx of core %u\n", to, me());
    return PSCI_E_SUCCESS;
}

static int32_t spd_migrate_info(u_register_t *mpidr)
{
    *mpidr = read_mpidr_el1() & ~UL(0xff);
    return PSCI_TOS_UP_MIG_CAP;
}

static void spd_system_off(void) { TELL("svc_system_off of core %u\n", me()); }
static void spd_system_reset(void) { TELL("svc_system_reset of core %u\n", me()); }

static const spd_pm_ops_t trusted_os = {
    .svc_on = spd_on,
    .svc_off = spd_off,
    .svc_suspend = spd_suspend,
    .svc_on_finish = spd_on_finish,
    .svc_suspend_finish = spd_suspend_finish,
    .svc_migrate = spd_migrate,
    .svc_migrate_info = spd_migrate_info,
    .svc_system_off = spd_system_off,
    .svc_system_reset = spd_system_reset,
};

/* Once all services are set up, as a dispatcher does. */
static int32_t trusted_os_begins(void)
{
    psci_register_spd_pm_hook(&trusted_os);
    return 1;
}

static int32_t trusted_os_setup(void)
{
    bl31_register_bl32_init(trusted_os_begins);
    return 0;
}

/* An owning entity of no calls. */
static uintptr_t no_call(uint32_t function, u_register_t x1, u_register_t x2, u_register_t x3,
                         u_register_t x4, void *cookie, void *handle, u_register_t flags)
{
    SMC_RET1(handle, SMC_UNK);
}

DECLARE_RT_SVC(trusted_os, OEN_TOS_START, OEN_TOS_END, SMC_TYPE_FAST, trusted_os_setup, no_call);

void hooks_probe(plat_psci_ops_t *hooks, const plat_psci_ops_t *below)
{
    (void)plat_crash_console_init();
    platform = below;
    hooks->pwr_domain_on = on;
    hooks->pwr_domain_off = off;
    hooks->pwr_domain_suspend_pwrdown_early = suspend_early;
    hooks->pwr_domain_on_finish = on_finish;
    hooks->pwr_domain_on_finish_late = on_finish_late;
    hooks->pwr_domain_suspend_finish = suspend_finish;
    hooks->read_mem_protect = read_protect;
    hooks->write_mem_protect = write_protect;
    hooks->mem_protect_chk = check_range;
    hooks->system_reset2 = reset2;
#if HOOKS_TFA_MINOR > 8
    hooks->pwr_domain_off_early = off_early;
    hooks->validate_ns_entrypoint = validate_entry;
#if PSCI_OS_INIT_MODE
    hooks->pwr_domain_validate_suspend = validate_suspend;
#endif
#endif
}
