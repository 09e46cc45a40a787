/* What lib/psci takes from the headers of EL3 that are not here: a machine of two clusters of two. */
#include <assert.h>
#include <stdbool.h>
#include <stddef.h>
#include <stdint.h>
#include <string.h>
#define __aarch64__ 1
typedef uint64_t u_register_t;
typedef int64_t register_t;
typedef struct cpu_context { int none; } cpu_context_t;

#ifndef PLATFORM_CORE_COUNT /* bench/programs/tfa has other ones */
enum { CLUSTERS = 2, PER_CLUSTER = 2, PLATFORM_CORE_COUNT = 4, PLAT_NUM_PWR_DOMAINS = 7 };
#define PLAT_MAX_PWR_LVL 2U
#endif
#define PLAT_MAX_RET_STATE 2U
#define PLAT_MAX_OFF_STATE 3U
#define read_scr_el3() ((u_register_t)(SCR_RW_BIT | SCR_HCE_BIT))
#define read_mpidr() mpidr_of(me)
#define read_mpidr_el1() mpidr_of(me)
#define cm_prepare_el3_exit(security) cm_prepare_el3_exit_ns()
#define cm_init_my_context(entry) cm_init_context_by_index(me, entry)
#define plat_my_core_pos() me
extern unsigned int me;
u_register_t mpidr_of(unsigned int core);

#include <lib/psci/psci.h>
void panic(void), cm_init_context_by_index(unsigned int core, const entry_point_info_t *entry), cm_prepare_el3_exit_ns(void);
bool is_valid_mpidr(u_register_t mpidr);
void cm_manage_extensions_el3(void);
int is_feat_spe_supported(void), plat_core_pos_by_mpidr(u_register_t mpidr), plat_setup_psci_ops(uintptr_t entry, const plat_psci_ops_t **ops);
const unsigned char *plat_get_power_domain_tree_desc(void);
plat_local_state_t plat_get_target_pwr_state(unsigned int level, const plat_local_state_t *, unsigned int many);
extern struct cpu_data { struct psci_cpu_data psci_svc_cpu_data; } cpus[PLATFORM_CORE_COUNT];
#define _cpu_data_by_index(core) (&cpus[core])
#define get_cpu_data(m) cpus[me].m
#define set_cpu_data(m, v) (cpus[me].m = (v))
#define get_cpu_data_by_index(core, m) cpus[core].m
#define set_cpu_data_by_index(core, m, v) (cpus[core].m = (v))
