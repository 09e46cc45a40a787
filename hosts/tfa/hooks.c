/* What PLAT=qemu of TF-A lacks, without a change of it: the linker puts these in the place of its own
 * functions. Suspend to power-down, of cores, clusters and the system; retention of a cluster; and with
 * HOOKS_CLUSTER two clusters of so many cores, since QEMU numbers its cores in a row. */
#include <assert.h>

#include <arch_features.h>
#include <arch_helpers.h>
#include <common/debug.h>
#include <lib/psci/psci.h>
#include <plat/common/platform.h>

#include "hooks.h"

int __real_plat_setup_psci_ops(uintptr_t entry, const plat_psci_ops_t **hooks);
int __wrap_plat_setup_psci_ops(uintptr_t entry, const plat_psci_ops_t **hooks);
const unsigned char *__wrap_plat_get_power_domain_tree_desc(void);
int __wrap_plat_core_pos_by_mpidr(u_register_t mpidr);

#define CLUSTER_RETENTION U(0x1000011)

#if USE_COHERENT_MEM && HOOKS_TFA_MINOR > 8
static volatile bool suspended[PLATFORM_CORE_COUNT] __section(".tzfw_coherent_mem");
#elif USE_COHERENT_MEM
static volatile bool suspended[PLATFORM_CORE_COUNT] __section("tzfw_coherent_mem");
#else
static volatile bool suspended[PLATFORM_CORE_COUNT];
#endif
static plat_psci_ops_t changed;
static const plat_psci_ops_t *platform;
static void (*warm_entry)(void);

/* ---- clusters of cores with numbers in a row */

#if HOOKS_CLUSTER

const unsigned char *__wrap_plat_get_power_domain_tree_desc(void)
{
    static const unsigned char tree[] = {2U, HOOKS_CLUSTER, HOOKS_CLUSTER};

    return tree;
}

int __wrap_plat_core_pos_by_mpidr(u_register_t mpidr)
{
    mpidr &= MPIDR_AFFINITY_MASK;
    return mpidr < 2U * HOOKS_CLUSTER ? (int)mpidr : -1;
}
#endif

/* ---- suspend */

/* The interrupt controller stays on, so that an interrupt ends the wait. */
static void suspend(const psci_power_state_t *states)
{
    if (is_local_state_off(states->pwr_domain_state[0]) != 0)
        suspended[plat_my_core_pos()] = true;
}

static void suspend_finish(const psci_power_state_t *states)
{
    assert(is_local_state_run(states->pwr_domain_state[0]) == 0);
}

/* QEMU's cores keep their power. What EL3 sets once in the life of a core, this one has lost all the same. */
static void forget(void)
{
#if HOOKS_TFA_MINOR > 8
    if (is_feat_sme_supported()) {
        write_cptr_el3(read_cptr_el3() | ESM_BIT);
        isb();
        write_smcr_el3(0U);
    }
#endif
}

/* This core waits with its MMU off, and enters as from reset. */
static void __dead2 wait_for_power(const psci_power_state_t *states)
{
    unsigned int core = plat_my_core_pos();

    forget();
    if (!suspended[core])
        platform->pwr_domain_pwr_down_wfi(states);
    suspended[core] = false;
    disable_mmu_el3();
    dsbsy();
    wfi();
    warm_entry();
    panic();
}

static void system_states(psci_power_state_t *states)
{
    for (unsigned int level = 0U; level <= PLAT_MAX_PWR_LVL; level++)
        states->pwr_domain_state[level] = PLAT_MAX_OFF_STATE;
}

static int validate(unsigned int word, psci_power_state_t *states)
{
    if (word != CLUSTER_RETENTION)
        return platform->validate_power_state(word, states);
    for (unsigned int level = 0U; level <= PLAT_MAX_PWR_LVL; level++)
        states->pwr_domain_state[level] = PLAT_MAX_RET_STATE;
    return PSCI_E_SUCCESS;
}

int __wrap_plat_setup_psci_ops(uintptr_t entry, const plat_psci_ops_t **hooks)
{
    int status = __real_plat_setup_psci_ops(entry, &platform);

    warm_entry = (void (*)(void))entry;
    changed = *platform;
    changed.pwr_domain_suspend = suspend;
    changed.pwr_domain_suspend_finish = suspend_finish;
    changed.pwr_domain_pwr_down_wfi = wait_for_power;
    changed.get_sys_suspend_power_state = system_states;
    changed.validate_power_state = validate;
#if HOOKS_PROBE
    hooks_probe(&changed, platform);
#endif
#if HOOKS_MEASURE
    hooks_measure();
#endif
    *hooks = &changed;
    return status;
}
