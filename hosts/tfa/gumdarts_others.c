/* Calls that the platform or the trusted OS decides, as TF-A has them. */
#include <arch_helpers.h>
#include <lib/smccc.h>

#include "gumdarts_adaptor.h"

const spd_pm_ops_t *psci_spd_pm;

/* A function that the platform or the trusted OS answers, and the firmware does not know. */
bool is_others(uint32_t function)
{
    bool is_wide = ((function >> FUNCID_CC_SHIFT) & FUNCID_CC_MASK) == SMC_64;
    unsigned int others =
        define_psci_cap(PSCI_MIG_AARCH64) | define_psci_cap(PSCI_MIG_INFO_UP_CPU_AARCH64) |
        define_psci_cap(PSCI_STAT_RESIDENCY_AARCH64) | define_psci_cap(PSCI_STAT_COUNT_AARCH64) |
        define_psci_cap(PSCI_MEM_CHK_RANGE_AARCH64) |
        (is_wide ? 0U : define_psci_cap(PSCI_MEM_PROTECT));

    return (define_psci_cap(function) & others) != 0U;
}

/* The hook may refuse, and else does not come back: the firmware need not know. */
u_register_t system_reset2(const uint64_t *x)
{
    uint32_t type = (uint32_t)x[1];
    bool is_vendor = (type >> PSCI_RESET2_TYPE_VENDOR_SHIFT) != 0U;

    if (!is_vendor && type != PSCI_RESET2_SYSTEM_WARM_RESET)
        return plain_call(x);
    if (!is_vendor && psci_plat_pm_ops->write_mem_protect != NULL &&
        psci_plat_pm_ops->write_mem_protect(0) < 0)
        return code_register(PSCI_E_NOT_SUPPORTED, (uint32_t)x[0]);
    if (psci_spd_pm != NULL && psci_spd_pm->svc_system_reset != NULL)
        psci_spd_pm->svc_system_reset();
    return code_register(psci_plat_pm_ops->system_reset2(is_vendor ? 1 : 0, (int)type, x[2]),
                         (uint32_t)x[0]);
}

/* Where the trusted OS resides, and of which kind it is. */
static int trusted_os(u_register_t *mpidr)
{
    if (psci_spd_pm == NULL || psci_spd_pm->svc_migrate_info == NULL)
        return PSCI_E_NOT_SUPPORTED;
    return psci_spd_pm->svc_migrate_info(mpidr);
}

static int migrate(u_register_t target)
{
    u_register_t resident;
    int kind = trusted_os(&resident);

    if (kind != PSCI_TOS_UP_MIG_CAP)
        return kind == PSCI_TOS_NOT_UP_MIG_CAP ? PSCI_E_DENIED : PSCI_E_NOT_SUPPORTED;
    if (resident != read_mpidr_el1())
        return PSCI_E_NOT_PRESENT;
    if (core_of(target) < 0)
        return PSCI_E_INVALID_PARAMS;
    return psci_spd_pm->svc_migrate(read_mpidr_el1(), target);
}

static u_register_t resident_core(uint32_t function)
{
    u_register_t resident;
    int kind = trusted_os(&resident);

    if (kind != PSCI_TOS_NOT_UP_MIG_CAP && kind != PSCI_TOS_UP_MIG_CAP)
        return code_register(PSCI_E_INVALID_PARAMS, function);
    return resident;
}

static u_register_t trusted_os_kind(const uint64_t *x)
{
    u_register_t resident;

    if (psci_spd_pm == NULL || psci_spd_pm->svc_migrate_info == NULL)
        return plain_call(x);
    return code_register(trusted_os(&resident), (uint32_t)x[0]);
}

u_register_t others_call(const uint64_t *x)
{
    uint32_t function = (uint32_t)x[0];

    switch (function) {
    case PSCI_MIG_AARCH32:
    case PSCI_MIG_AARCH64:
        return code_register(migrate(x[1]), function);
    case PSCI_MIG_INFO_TYPE:
        return trusted_os_kind(x);
    case PSCI_MIG_INFO_UP_CPU_AARCH32:
    case PSCI_MIG_INFO_UP_CPU_AARCH64:
        return resident_core(function);
    case PSCI_MEM_PROTECT:
        return psci_mem_protect((unsigned int)x[1]);
    case PSCI_MEM_CHK_RANGE_AARCH32:
    case PSCI_MEM_CHK_RANGE_AARCH64:
        return psci_mem_chk_range(x[1], x[2]);
#if ENABLE_PSCI_STAT
    case PSCI_STAT_RESIDENCY_AARCH32:
    case PSCI_STAT_RESIDENCY_AARCH64:
        return psci_stat_residency(x[1], (unsigned int)x[2]);
    case PSCI_STAT_COUNT_AARCH32:
    case PSCI_STAT_COUNT_AARCH64:
        return psci_stat_count(x[1], (unsigned int)x[2]);
#endif
    default:
        return plain_call(x);
    }
}

void psci_register_spd_pm_hook(const spd_pm_ops_t *hooks)
{
    psci_spd_pm = hooks;
    if (hooks->svc_migrate != NULL)
        psci_caps |= define_psci_cap(PSCI_MIG_AARCH64);
    if (hooks->svc_migrate_info != NULL)
        psci_caps |= define_psci_cap(PSCI_MIG_INFO_UP_CPU_AARCH64);
}
