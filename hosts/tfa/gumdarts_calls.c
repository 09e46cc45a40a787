/* PSCI calls, as BL31's dispatcher hands them over. The firmware decides what is its own to decide. */
#include <arch.h>
#include <arch_helpers.h>
#include <common/debug.h>
#include <lib/smccc.h>
#include <services/arm_arch_svc.h>
#include <string.h>

#include "gumdarts_adaptor.h"

/* A 64-bit call has its code in all of x0. */
u_register_t code_register(int32_t code, uint32_t function)
{
    bool is_wide = ((function >> FUNCID_CC_SHIFT) & FUNCID_CC_MASK) == SMC_64;

    return is_wide ? (u_register_t)(int64_t)code : (u_register_t)(uint32_t)code;
}

static bool is_here(uint32_t function)
{
    return (psci_caps & define_psci_cap(function)) != 0U;
}

/* ---- in which state a core enters: as the caller's, at its own exception level and endianness */

void entry_keep(unsigned int core)
{
    entry_point_info_t *entry = &entry_points[core];
    bool has_el2 = (read_scr_el3() & SCR_HCE_BIT) != 0U;
    bool is_big = ((has_el2 ? read_sctlr_el2() : read_sctlr_el1()) & SCTLR_EE_BIT) != 0U;

    SET_PARAM_HEAD(entry, PARAM_EP, VERSION_1,
                   NON_SECURE | EP_ST_DISABLE | (is_big ? EP_EE_BIG : EP_EE_LITTLE));
    memset(&entry->args, 0, sizeof(entry->args));
    if ((read_scr_el3() & SCR_RW_BIT) != 0U)
        entry->spsr = SPSR_64(has_el2 ? MODE_EL2 : MODE_EL1, MODE_SP_ELX, DISABLE_ALL_EXCEPTIONS);
    else
        entry->spsr = SPSR_MODE32(has_el2 ? MODE32_hyp : MODE32_svc, 0U, is_big ? 1U : 0U,
                                  DAIF_ABT_BIT | DAIF_IRQ_BIT | DAIF_FIQ_BIT);
}

/* The platform may refuse more entry points than the board does. */
static bool is_entry(u_register_t entry)
{
    return psci_plat_pm_ops->validate_ns_entrypoint == NULL ||
           psci_plat_pm_ops->validate_ns_entrypoint(entry) == PSCI_E_SUCCESS;
}

/* ---- calls that return, or end the system */

static u_register_t answer_of(const struct psci_answer *answer, uint32_t function)
{
    if (answer->what == PSCI_STOP && answer->message.some)
        end_system(function);
    if (answer->what == PSCI_STOP)
        park();
    return code_register(answer->code, function);
}

u_register_t plain_call(const uint64_t *x)
{
    struct psci_answer answer;
    struct psci_stop stop;

    firmware_call(plat_my_core_pos(), x, &answer, &stop);
    return answer_of(&answer, (uint32_t)x[0]);
}

/* The caller waits for nobody, where it asks of a core. */
static u_register_t affinity_info(uint64_t *x)
{
    int target = core_of(x[1]);
    uint32_t level = (uint32_t)x[2];

    x[1] = board_word(x[1], level);
    if (level == 0U && target >= 0)
        return code_register(firmware_poll(plat_my_core_pos(), x, (unsigned int)target),
                             (uint32_t)x[0]);
    return plain_call(x);
}

/* SMCCC_VERSION is there in all of BL31; what the platform has no hook for is not. */
static u_register_t features(const uint64_t *x)
{
    uint32_t function = (uint32_t)x[1];
    bool is_function = is_std_svc_call(function) && is_valid_fast_smc(function) &&
                       is_psci_fid(function);

    if (function == SMCCC_VERSION)
        return PSCI_E_SUCCESS;
    if (is_function && !is_here(function))
        return code_register(PSCI_E_NOT_SUPPORTED, (uint32_t)x[0]);
    if (is_function && is_others(function))
        return PSCI_E_SUCCESS;
    return plain_call(x);
}

/* ---- CPU_ON */

/* The hook may fail, so it is asked first; the core that it starts waits for the lock of its start. */
static int start_core(u_register_t mpidr)
{
    if (psci_spd_pm != NULL && psci_spd_pm->svc_on != NULL)
        psci_spd_pm->svc_on(mpidr);
    return psci_plat_pm_ops->pwr_domain_on(mpidr);
}

/* Under the lock of the target's start. The firmware refuses while the target is not OFF; once it is, it stays
 * so until it is started here. */
static u_register_t start(const uint64_t *x, u_register_t mpidr, unsigned int target)
{
    struct psci_answer answer;

    if (firmware_call_unless_off(plat_my_core_pos(), x, target, &answer))
        return answer_of(&answer, (uint32_t)x[0]);
    if (start_core(mpidr) != PSCI_E_SUCCESS)
        return code_register(PSCI_E_INTERN_FAIL, (uint32_t)x[0]);
    entry_keep(target);
    return plain_call(x);
}

static bool is_in_range(u_register_t entry)
{
    return (entry & 3U) == 0U && entry >= board.ranges[0].start && entry < board.ranges[0].end;
}

static u_register_t cpu_on_of(uint64_t *x, unsigned int target)
{
    u_register_t mpidr = x[1], code;

    if (!is_entry(x[2]))
        return code_register(PSCI_E_INVALID_ADDRESS, (uint32_t)x[0]);
    x[1] = board_word(mpidr, 0U);
    if (!is_in_range(x[2]))
        return plain_call(x);
    spin_lock(&start_locks[target]);
    code = start(x, mpidr, target);
    spin_unlock(&start_locks[target]);
    return code;
}

static u_register_t cpu_on(uint64_t *x)
{
    int target = core_of(x[1]);

    if (target >= 0)
        return cpu_on_of(x, (unsigned int)target);
    x[1] = UINT64_MAX;
    return plain_call(x);
}

/* ---- calls that stop the caller */

/* The domains of the caller are locked, and given back. */
static u_register_t stopped(const uint64_t *x, const psci_power_state_t *asked, struct psci_answer *answer,
                            const struct psci_stop *stop)
{
    unsigned int core = plat_my_core_pos();

    if (answer->what == PSCI_STOP && !answer->message.some) {
        domains_unlock(core);
        park();
    }
    if (answer->what == PSCI_STOP && stop->depths[0] == 3U) {
        entry_keep(core);
        power_down(core, stop, asked);
    }
    if (answer->what == PSCI_STOP) {
        stand_by(core, stop, asked);
        answer->code = PSCI_E_SUCCESS;
    }
    domains_unlock(core);
    return code_register(answer->code, (uint32_t)x[0]);
}

/* Before the firmware, which takes back nothing that it has granted. In OS-initiated mode it grants what is asked. */
static int suspend_refused(const psci_power_state_t *asked)
{
#if GUMDARTS_TFA_MINOR > 8 && PSCI_OS_INIT_MODE
    if (psci_plat_pm_ops->pwr_domain_validate_suspend != NULL)
        return psci_plat_pm_ops->pwr_domain_validate_suspend(asked);
#endif
    (void)asked;
    return PSCI_E_SUCCESS;
}

/* As in lib/psci, none are locked for the suspend of a core alone. */
static u_register_t suspend(const uint64_t *x, const psci_power_state_t *asked)
{
    unsigned int core = plat_my_core_pos(), level = psci_find_target_suspend_lvl(asked);
    struct psci_answer answer;
    struct psci_stop stop;
    int refused;

    domains_lock(core, firmware_level(level));
    refused = suspend_refused(asked);
    if (refused != PSCI_E_SUCCESS) {
        domains_unlock(core);
        return code_register(refused, (uint32_t)x[0]);
    }
    while (!firmware_call_locked(core, x, level, &answer, &stop)) {
        domains_unlock(core);
        domains_lock(core, firmware_level(level));
    }
    return stopped(x, asked, &answer, &stop);
}

/* The platform's word comes before any lock. */
static bool off_refused(const psci_power_state_t *asked)
{
#if GUMDARTS_TFA_MINOR > 8
    if (psci_plat_pm_ops->pwr_domain_off_early != NULL)
        return psci_plat_pm_ops->pwr_domain_off_early(asked) == PSCI_E_DENIED;
#endif
    (void)asked;
    return false;
}

static u_register_t cpu_off(const uint64_t *x)
{
    unsigned int core = plat_my_core_pos();
    psci_power_state_t asked = all_off();
    struct psci_answer answer;
    struct psci_stop stop;
    int refused = 0;

    if (off_refused(&asked))
        return code_register(PSCI_E_DENIED, (uint32_t)x[0]);
    domains_lock(core, PLAT_MAX_PWR_LVL);
    if (psci_spd_pm != NULL && psci_spd_pm->svc_off != NULL)
        refused = (int)psci_spd_pm->svc_off(0);
    if (refused != 0) {
        domains_unlock(core);
        return code_register(refused, (uint32_t)x[0]);
    }
    firmware_call(core, x, &answer, &stop);
    return stopped(x, &asked, &answer, &stop);
}

/* Standby of the core alone is its hook's, and the firmware never sees it. */
static u_register_t standby_of_core(const psci_power_state_t *asked, uint32_t function)
{
    if (psci_plat_pm_ops->cpu_standby == NULL)
        return code_register(PSCI_E_INVALID_PARAMS, function);
#if ENABLE_PSCI_STAT
    plat_psci_stat_accounting_start(asked);
#endif
    psci_plat_pm_ops->cpu_standby(asked->pwr_domain_state[0]);
#if ENABLE_PSCI_STAT
    plat_psci_stat_accounting_stop(asked);
    psci_stats_update_pwr_up(PSCI_CPU_PWR_LVL, asked);
#endif
    return PSCI_E_SUCCESS;
}

static u_register_t cpu_suspend(uint64_t *x)
{
    psci_power_state_t asked = {{PSCI_LOCAL_STATE_RUN}};
    uint32_t word = (uint32_t)x[1];
    unsigned int type = psci_get_pstate_type(word);

    if (psci_validate_power_state(word, &asked) != PSCI_E_SUCCESS)
        return code_register(PSCI_E_INVALID_PARAMS, (uint32_t)x[0]);
    if (type == PSTATE_TYPE_STANDBY && psci_find_target_suspend_lvl(&asked) == PSCI_CPU_PWR_LVL)
        return standby_of_core(&asked, (uint32_t)x[0]);
    if (type == PSTATE_TYPE_POWERDOWN && !is_entry(x[2]))
        return code_register(PSCI_E_INVALID_ADDRESS, (uint32_t)x[0]);
    x[1] = firmware_word(&asked, type);
    return suspend(x, &asked);
}

static u_register_t system_suspend(const uint64_t *x)
{
    psci_power_state_t asked;

    if (!is_entry(x[1]))
        return code_register(PSCI_E_INVALID_ADDRESS, (uint32_t)x[0]);
    psci_plat_pm_ops->get_sys_suspend_power_state(&asked);
    if (psci_find_target_suspend_lvl(&asked) < PLAT_MAX_PWR_LVL)
        return code_register(PSCI_E_DENIED, (uint32_t)x[0]);
    return suspend(x, &asked);
}

/* ---- the dispatcher's door */

static u_register_t answered(uint64_t *x)
{
    switch ((uint32_t)x[0]) {
    case PSCI_CPU_ON_AARCH32:
    case PSCI_CPU_ON_AARCH64:
        return cpu_on(x);
    case PSCI_AFFINITY_INFO_AARCH32:
    case PSCI_AFFINITY_INFO_AARCH64:
        return affinity_info(x);
    case PSCI_NODE_HW_STATE_AARCH32:
    case PSCI_NODE_HW_STATE_AARCH64:
        x[1] = board_word(x[1], (uint32_t)x[2]);
        return plain_call(x);
    case PSCI_CPU_OFF:
        return cpu_off(x);
    case PSCI_CPU_SUSPEND_AARCH32:
    case PSCI_CPU_SUSPEND_AARCH64:
        return cpu_suspend(x);
    case PSCI_SYSTEM_SUSPEND_AARCH32:
    case PSCI_SYSTEM_SUSPEND_AARCH64:
        return system_suspend(x);
    case PSCI_FEATURES:
        return features(x);
    case PSCI_SYSTEM_RESET2_AARCH32:
    case PSCI_SYSTEM_RESET2_AARCH64:
        return system_reset2(x);
    default:
        return others_call(x);
    }
}

u_register_t psci_smc_handler(uint32_t function, u_register_t x1, u_register_t x2, u_register_t x3,
                              u_register_t x4, void *cookie, void *handle, u_register_t flags)
{
    bool is_wide = ((function >> FUNCID_CC_SHIFT) & FUNCID_CC_MASK) == SMC_64;
    u_register_t mask = is_wide ? ~UL(0) : UL(0xffffffff);
    uint64_t x[4] = {function, x1 & mask, x2 & mask, x3 & mask};

    if (is_caller_secure(flags) || !is_here(function))
        return (u_register_t)SMC_UNK;
    return answered(x);
}
