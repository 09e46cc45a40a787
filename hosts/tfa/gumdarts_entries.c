/* How a core goes on that came out of reset: the finishers of the platform and of the trusted OS, and the
 * entry that the firmware says. */
#include <arch.h>
#include <arch_helpers.h>
#include <common/debug.h>
#include <context.h>
#if GUMDARTS_TFA_MINOR > 8
#include <lib/cpus/errata.h>
#else
#include <lib/cpus/errata_report.h>
#endif
#include <lib/el3_runtime/context_mgmt.h>
#include <lib/el3_runtime/pubsub_events.h>

#include "gumdarts_adaptor.h"

entry_point_info_t entry_points[PLATFORM_CORE_COUNT];

/* Of a core that is being started: what its starter does is done before it enters. */
spinlock_t start_locks[PLATFORM_CORE_COUNT];

void psci_arch_setup(void)
{
    write_cntfrq_el0(plat_get_syscnt_freq2());
    init_cpu_ops();
    print_errata_status();
#if ENABLE_PAUTH
    set_cpu_data(apiakey[0], read_apiakeylo_el1());
    set_cpu_data(apiakey[1], read_apiakeyhi_el1());
#endif
}

/* Up to psci_do_pwrup_cache_maintenance the caches may be off. */
static void finish_hooks(const psci_power_state_t *states, bool woken)
{
    if (woken)
        psci_plat_pm_ops->pwr_domain_suspend_finish(states);
    else
        psci_plat_pm_ops->pwr_domain_on_finish(states);
#if !(HW_ASSISTED_COHERENCY || WARMBOOT_ENABLE_DCACHE_EARLY)
    psci_do_pwrup_cache_maintenance();
#endif
    if (!woken && psci_plat_pm_ops->pwr_domain_on_finish_late != NULL)
        psci_plat_pm_ops->pwr_domain_on_finish_late(states);
    psci_arch_setup();
}

static void tell_entered(const psci_power_state_t *states, bool woken)
{
    if (woken) {
        if (psci_spd_pm != NULL && psci_spd_pm->svc_suspend_finish != NULL)
            psci_spd_pm->svc_suspend_finish(psci_find_max_off_lvl(states));
        PUBLISH_EVENT(psci_suspend_pwrdown_finish);
    } else {
        if (psci_spd_pm != NULL && psci_spd_pm->svc_on_finish != NULL)
            psci_spd_pm->svc_on_finish(0);
        PUBLISH_EVENT(psci_cpu_on_finish);
    }
}

static void go(unsigned int core, const struct psci_answer *answer)
{
    entry_point_info_t *entry = &entry_points[core];

    entry->pc = answer->address;
    entry->args.arg0 = answer->context;
    cm_init_my_context(entry);
    cm_prepare_el3_exit_ns();
}

/* Up to which level its domains may have changed: as far as it was locked in its suspend, of which it comes back
 * by its entry point; all, where it was off, or has lost its registers and parks. */
static unsigned int changed_level(unsigned int core)
{
    bool comes_back = doors[core].wakes && is_local_state_off(doors[core].state) != 0;

    return comes_back ? doors[core].level : PLAT_MAX_PWR_LVL;
}

/* The domains are locked from before the finishers until the path is told to run. */
void psci_warmboot_entrypoint(void)
{
    unsigned int core = plat_my_core_pos();
    psci_power_state_t states, off = all_off();
    struct psci_answer answer;
    struct psci_stop stop;
    bool woken = doors[core].wakes;

#if GUMDARTS_TFA_MINOR > 8
    cm_manage_extensions_el3();
#endif
    domains_lock(core, changed_level(core));
    states = told_states(core);
#if ENABLE_PSCI_STAT
    plat_psci_stat_accounting_stop(&states);
#endif
    finish_hooks(&states, woken);
    spin_lock(&start_locks[core]);
    spin_unlock(&start_locks[core]);
    firmware_enter(core, &answer, &stop);
    if (answer.what == PSCI_STOP && answer.message.some)
        power_down(core, &stop, &off);
    if (answer.what != PSCI_ENTER) {
        domains_unlock(core);
        park();
    }
    tell_entered(&states, woken);
    go(core, &answer);
    tell_running(core);
#if ENABLE_PSCI_STAT
    psci_stats_update_pwr_up(PLAT_MAX_PWR_LVL, &states);
#endif
    domains_unlock(core);
}
