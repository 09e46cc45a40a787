/* The table of psci.S of Armv7, which the peers of U-Boot have in common: each function by its word. A port has
 * CPU_SUSPEND or not, and does what SYSTEM_SUSPEND asks by `suspends`. */
s32 psci_features(u32, u32), psci_affinity_info(u32, u32, u32), psci_cpu_on(u32, u32, u32, u32), psci_cpu_off(void),
    psci_cpu_suspend(u32, u32, u32, u32);
u32 psci_version(void), psci_migrate_info_type(void);
void psci_system_reset(void), psci_system_off(void), psci_system_suspend(u32, u32, u32), psci_arch_cpu_entry(void);
static void suspends(const u32 r[4]);

static s32 dispatch(const u32 r[4]) {
    switch (r[0]) {
    case ARM_PSCI_0_2_FN_PSCI_VERSION: return psci_version();
    case ARM_PSCI_0_2_FN_CPU_OFF: case ARM_PSCI_FN_CPU_OFF: return psci_cpu_off();
    case ARM_PSCI_0_2_FN_CPU_ON: case ARM_PSCI_FN_CPU_ON: return psci_cpu_on(r[0], r[1], r[2], r[3]);
    case ARM_PSCI_0_2_FN_AFFINITY_INFO: return psci_affinity_info(r[0], r[1], r[2]);
    case ARM_PSCI_0_2_FN_MIGRATE_INFO_TYPE: return psci_migrate_info_type();
    case ARM_PSCI_0_2_FN_SYSTEM_OFF: psci_system_off(); return r[0];
    case ARM_PSCI_0_2_FN_SYSTEM_RESET: psci_system_reset(); return r[0];
    case ARM_PSCI_1_0_FN_PSCI_FEATURES: return psci_features(r[0], r[1]);
    case ARM_PSCI_1_0_FN_SYSTEM_SUSPEND: suspends(r); return r[0];
#ifdef HAS_CPU_SUSPEND
    case ARM_PSCI_FN_CPU_SUSPEND: case ARM_PSCI_0_2_FN_CPU_SUSPEND: return psci_cpu_suspend(r[0], r[1], r[2], r[3]);
#else
    case ARM_PSCI_FN_CPU_SUSPEND: case ARM_PSCI_0_2_FN_CPU_SUSPEND:
#endif
    case ARM_PSCI_FN_MIGRATE: case ARM_PSCI_0_2_FN_MIGRATE: case ARM_PSCI_0_2_FN_MIGRATE_INFO_UP_CPU:
    case ARM_PSCI_1_0_FN_CPU_FREEZE: case ARM_PSCI_1_0_FN_CPU_DEFAULT_SUSPEND: case ARM_PSCI_1_0_FN_NODE_HW_STATE:
    case ARM_PSCI_1_0_FN_SET_SUSPEND_MODE: case ARM_PSCI_1_0_FN_STAT_RESIDENCY: case ARM_PSCI_1_0_FN_STAT_COUNT:
        return ARM_PSCI_RET_NI;
    default: return ARM_PSCI_RET_INVAL;
    }
}
