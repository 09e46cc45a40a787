/* Ways down: caches, the platform's hooks and those of the trusted OS, and the word that says that a core
 * stands in its stop. */
#include <arch_helpers.h>
#include <common/debug.h>
#include <drivers/console.h>
#include <drivers/delay_timer.h>
#include <lib/el3_runtime/pubsub_events.h>
#if GUMDARTS_TFA_MINOR > 8
#include <arch_features.h>
#include <lib/extensions/spe.h>
#endif

#include "gumdarts_adaptor.h"

/* It executes nothing more, and nothing wakes it. */
void __dead2 park(void)
{
    for (;;)
        wfi();
}

/* The last thing that a core does: from here on its Down may be carried out. */
static void stand(unsigned int core)
{
    dsbsy();
    doors[core].stopped = doors[core].number;
    dsbsy();
}

static void suspend_begins(unsigned int level, const psci_power_state_t *states)
{
    PUBLISH_EVENT(psci_suspend_pwrdown_start);
    if (psci_spd_pm != NULL && psci_spd_pm->svc_suspend != NULL)
        psci_spd_pm->svc_suspend(level);
#if !HW_ASSISTED_COHERENCY
    if (psci_plat_pm_ops->pwr_domain_suspend_pwrdown_early != NULL)
        psci_plat_pm_ops->pwr_domain_suspend_pwrdown_early(states);
#endif
}

static void __dead2 wait_for_power(const psci_power_state_t *states)
{
    if (psci_plat_pm_ops->pwr_domain_pwr_down_wfi != NULL)
        psci_plat_pm_ops->pwr_domain_pwr_down_wfi(states);
    psci_power_down_wfi();
}

/* From psci_pwrdown_cpu on the caches may be off. */
void __dead2 power_down(unsigned int core, const struct psci_stop *stop,
                        const psci_power_state_t *asked)
{
    psci_power_state_t states = states_of(core, stop, asked);
    unsigned int level = psci_find_max_off_lvl(&states);
    bool wakes = stop->wakes;

    doors[core].wakes = wakes;
    tell_states(core, &states);
#if ENABLE_PSCI_STAT
    psci_stats_update_pwr_down(PLAT_MAX_PWR_LVL, &states);
#endif
    if (wakes)
        suspend_begins(level, &states);
    psci_pwrdown_cpu(level);
    if (wakes)
        psci_plat_pm_ops->pwr_domain_suspend(&states);
    else
        psci_plat_pm_ops->pwr_domain_off(&states);
#if ENABLE_PSCI_STAT
    plat_psci_stat_accounting_start(&states);
#endif
    domains_unlock(core);
    stand(core);
    wait_for_power(&states);
}

static void stand_by_begins(const psci_power_state_t *states)
{
#if ENABLE_PSCI_STAT
    psci_stats_update_pwr_down(PLAT_MAX_PWR_LVL, states);
#endif
    psci_plat_pm_ops->pwr_domain_suspend(states);
#if ENABLE_PSCI_STAT
    plat_psci_stat_accounting_start(states);
#endif
}

static void stand_by_ends(const psci_power_state_t *states)
{
#if ENABLE_PSCI_STAT
    plat_psci_stat_accounting_stop(states);
    psci_stats_update_pwr_up(PLAT_MAX_PWR_LVL, states);
#endif
    psci_plat_pm_ops->pwr_domain_suspend_finish(states);
}

/* With its context, and the domains locked before and after. */
void stand_by(unsigned int core, const struct psci_stop *stop, const psci_power_state_t *asked)
{
    psci_power_state_t states = states_of(core, stop, asked);
    struct psci_answer answer;
    struct psci_stop next;

    doors[core].wakes = stop->wakes;
    tell_states(core, &states);
    stand_by_begins(&states);
    domains_unlock(core);
    stand(core);
    wfi();
    domains_lock(core, doors[core].level);
    states = told_states(core);
    stand_by_ends(&states);
    tell_running(core);
    firmware_enter(core, &answer, &next);
    if (answer.what == PSCI_RESUME)
        return;
    domains_unlock(core);
    park();
}

/* SYSTEM_OFF and SYSTEM_RESET, once the life is halting. */
void __dead2 end_system(uint32_t function)
{
    bool is_off = function == PSCI_SYSTEM_OFF;

    if (psci_spd_pm != NULL && is_off && psci_spd_pm->svc_system_off != NULL)
        psci_spd_pm->svc_system_off();
    if (psci_spd_pm != NULL && !is_off && psci_spd_pm->svc_system_reset != NULL)
        psci_spd_pm->svc_system_reset();
    console_flush();
    if (is_off)
        psci_plat_pm_ops->system_off();
    psci_plat_pm_ops->system_reset();
}

/* ---- what the rest of BL31 asks */

#if GUMDARTS_TFA_MINOR > 8
/* What writes to memory by itself stops before the caches go. */
void psci_do_manage_extensions(void)
{
    if (is_feat_spe_supported())
        spe_stop();
}

bool psci_are_all_cpus_on_safe(void)
{
    for (unsigned int core = 0U; core < psci_plat_core_count; core++)
        if (firmware_status(core) == AFF_STATE_OFF)
            return false;
    return true;
}
#endif

void psci_pwrdown_cpu(unsigned int level)
{
#if GUMDARTS_TFA_MINOR > 8
    psci_do_manage_extensions();
#endif
#if HW_ASSISTED_COHERENCY
    prepare_cpu_pwr_dwn(level);
#else
    psci_do_pwrdown_cache_maintenance(level);
#endif
}

int psci_stop_other_cores(unsigned int milliseconds, void (*stop)(u_register_t mpidr))
{
    unsigned int me = plat_my_core_pos();

    for (unsigned int core = 0U; core < psci_plat_core_count; core++)
        if (core != me && firmware_status(core) == AFF_STATE_ON)
            stop(doors[core].mpidr);
    if (milliseconds == 0U)
        return PSCI_E_SUCCESS;
    while (milliseconds-- != 0U && !psci_is_last_on_cpu_safe())
        mdelay(1U);
    return psci_is_last_on_cpu_safe() ? PSCI_E_SUCCESS : PSCI_E_DENIED;
}
