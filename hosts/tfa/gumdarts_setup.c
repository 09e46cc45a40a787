/* As BL31 comes up on the boot core: the board, the firmware, the functions that the platform's hooks
 * allow. */
#include <common/debug.h>
#include <context.h>
#include <lib/el3_runtime/context_mgmt.h>

#include "gumdarts_adaptor.h"
#include "gumdarts_record.h"
#include "pool.h"

/* All memory, where the platform does not say less. */
#ifndef GUMDARTS_EXEC_BASE
#define GUMDARTS_EXEC_BASE U(0)
#define GUMDARTS_EXEC_END  (UINT64_MAX & ~UL(3))
#endif

const plat_psci_ops_t *psci_plat_pm_ops;
unsigned int psci_caps;
static cpu_context_t contexts[PLATFORM_CORE_COUNT];

static void __init describe(void)
{
    tree_setup();
    board.format = PSCI_EXTENDED_STATE_ID != 0 ? PSCI_EXTENDED_FORMAT : PSCI_ORIGINAL_FORMAT;
    board.starts = UINT32_MAX;
    board.lives = 65535U; /* a reset loads BL31 anew, and begins at the first one */
    board.many_ranges = 1U;
    board.ranges[0].start = GUMDARTS_EXEC_BASE;
    board.ranges[0].end = GUMDARTS_EXEC_END;
    board.boot = bl31_plat_get_next_image_ep_info(NON_SECURE)->pc;
}

static unsigned int __init suspends(const plat_psci_ops_t *hooks)
{
    unsigned int some = 0U;

    if (hooks->pwr_domain_suspend == NULL || hooks->pwr_domain_suspend_finish == NULL)
        return 0U;
    if (hooks->validate_power_state != NULL)
        some = define_psci_cap(PSCI_CPU_SUSPEND_AARCH64) | define_psci_cap(SET_SUSPEND_MODE);
    if (hooks->get_sys_suspend_power_state != NULL)
        some |= define_psci_cap(PSCI_SYSTEM_SUSPEND_AARCH64);
    return some;
}

static unsigned int __init present(bool is_here, unsigned int function)
{
    return is_here ? define_psci_cap(function) : 0U;
}

/* As lib/psci reckons it, and what the firmware has by itself. */
static unsigned int __init capabilities(const plat_psci_ops_t *hooks)
{
    return PSCI_GENERIC_CAP | define_psci_cap(PSCI_MIG_INFO_TYPE) |
           define_psci_cap(PSCI_NODE_HW_STATE_AARCH64) | suspends(hooks) |
           present(hooks->pwr_domain_off != NULL, PSCI_CPU_OFF) |
           present(hooks->pwr_domain_on != NULL && hooks->pwr_domain_on_finish != NULL,
                   PSCI_CPU_ON_AARCH64) |
           present(hooks->system_off != NULL, PSCI_SYSTEM_OFF) |
           present(hooks->system_reset != NULL, PSCI_SYSTEM_RESET) |
           present(hooks->read_mem_protect != NULL && hooks->write_mem_protect != NULL,
                   PSCI_MEM_PROTECT) |
           present(hooks->mem_protect_chk != NULL, PSCI_MEM_CHK_RANGE_AARCH64) |
           present(hooks->system_reset2 != NULL, PSCI_SYSTEM_RESET2_AARCH64) |
           present(ENABLE_PSCI_STAT != 0, PSCI_STAT_RESIDENCY_AARCH64) |
           present(ENABLE_PSCI_STAT != 0, PSCI_STAT_COUNT_AARCH64);
}

/* The board's boot core is the first one. */
static void __init check_boot_core(unsigned int core)
{
    if (core == 0U)
        return;
    ERROR("PSCI: the boot core is %u, and has to be 0\n", core);
    panic();
}

static void __init enter_boot_core(unsigned int core)
{
    struct psci_answer answer;
    struct psci_stop stop;

    firmware_enter(core, &answer, &stop);
    tell_running(core);
}

/* The opening takes 1,680 bytes with the frames of TF-A that it stands on. */
static void __init open_on_a_stack(void)
{
#if PLATFORM_STACK_SIZE < 0x700
    on_opening_stack(firmware_open);
#else
    firmware_open();
#endif
}

int __init psci_setup(const psci_lib_args_t *arguments)
{
    psci_arch_setup();
    check_boot_core(plat_my_core_pos());
    describe();
    for (unsigned int core = 0U; core < psci_plat_core_count; core++)
        cm_set_context_by_index(core, &contexts[core], NON_SECURE);
    open_on_a_stack();
    NOTICE("PSCI: the proved firmware, %u cores, %u bytes of heap\n", psci_plat_core_count,
           (unsigned int)pool_taken());
    record_board(&board);
    enter_boot_core(plat_my_core_pos());
    (void)plat_setup_psci_ops((uintptr_t)arguments->mailbox_ep, &psci_plat_pm_ops);
    /* a core that enters reads it before its caches are on */
    psci_flush_dcache_range((uintptr_t)&psci_plat_pm_ops, sizeof(psci_plat_pm_ops));
    psci_caps = capabilities(psci_plat_pm_ops);
    return 0;
}

void psci_prepare_next_non_secure_ctx(entry_point_info_t *next)
{
    cm_init_my_context(next);
    cm_prepare_el3_exit(NON_SECURE);
}
