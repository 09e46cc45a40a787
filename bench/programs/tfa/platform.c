/* Power states, the locks that TF-A has in assembler, and where a core goes on. The platform is told the states of each
 * power-down, where ours sends a message. */
#include "platform.h"

#include <lib/spinlock.h>
#include <stdlib.h>

__thread unsigned int me;
struct core at[PLATFORM_CORE_COUNT];
struct cpu_data cpus[PLATFORM_CORE_COUNT];
/* of each level the children of a node, from the cores' level up */
static const unsigned int children[PLAT_MAX_PWR_LVL] = {CHILDREN};

void spin_lock(spinlock_t *lock) {
    while (__atomic_exchange_n(&lock->lock, 1U, __ATOMIC_ACQUIRE))
        while (lock->lock)
            __builtin_ia32_pause();
}
void spin_unlock(spinlock_t *lock) { __atomic_store_n(&lock->lock, 0U, __ATOMIC_RELEASE); }

void psci_power_down_wfi(void) { __builtin_longjmp(at[me].back, 1); }
void panic(void) { exit(1); }
static void end(void) { exit(1); }
void zeromem(void *from, u_register_t length) { memset(from, 0, length); }
void cm_init_context_by_index(unsigned int core, const entry_point_info_t *entry) { at[core].entry = *entry; }
void cm_prepare_el3_exit_ns(void) {
    at[me].address = at[me].entry.pc;
    at[me].context = at[me].entry.args.arg0;
}

/* a field of eight bits for each level */
u_register_t mpidr_of(unsigned int core) {
    u_register_t mpidr = 0;
    for (unsigned int level = 0; level < PLAT_MAX_PWR_LVL; core /= children[level++])
        mpidr |= (u_register_t)(core % children[level]) << 8 * level;
    return mpidr;
}
int plat_core_pos_by_mpidr(u_register_t mpidr) {
    unsigned int core = 0;
    for (unsigned int level = PLAT_MAX_PWR_LVL; level-- > 0;)
        core = core * children[level] + (uint8_t)(mpidr >> 8 * level);
    return core < PLATFORM_CORE_COUNT && mpidr_of(core) == mpidr ? (int)core : -1;
}
bool is_valid_mpidr(u_register_t mpidr) { return plat_core_pos_by_mpidr(mpidr) >= 0; }

const unsigned char *plat_get_power_domain_tree_desc(void) {
    static unsigned char tree[PLAT_NUM_PWR_DOMAINS + 1] = {1};
    unsigned int at = 1, nodes = 1;
    for (unsigned int level = PLAT_MAX_PWR_LVL; level-- > 0; nodes *= children[level]) {
        memset(tree + at, (int)children[level], nodes);
        at += nodes;
    }
    return tree;
}

/* The original format with a nibble for each level, as docs/port/FORMATS.md has it. */
static int validate(unsigned int word, psci_power_state_t *asked) {
    unsigned int highest = 0, below = PLAT_MAX_OFF_STATE;
    for (unsigned int level = 0; level <= PLAT_MAX_PWR_LVL; level++) {
        unsigned int state = word >> 4 * level & 15;
        if (state > below)
            return PSCI_E_INVALID_PARAMS;
        asked->pwr_domain_state[level] = below = state;
        highest = state ? level : highest;
    }
#if PSCI_OS_INIT_MODE
    asked->last_at_pwrlvl = psci_get_pstate_pwrlvl(word);
#endif
    bool is_down = (word & 15) == PLAT_MAX_OFF_STATE;
    unsigned int further = (word & 0xffff) >> 4 * (PLAT_MAX_PWR_LVL + 1);
    return (word & 15) && !further && highest == psci_get_pstate_pwrlvl(word) &&
                   is_down == psci_get_pstate_type(word) ? PSCI_E_SUCCESS : PSCI_E_INVALID_PARAMS;
}

static int validate_entry(uintptr_t address) {
    return address - 0x40000000 < 0x100000 ? PSCI_E_SUCCESS : PSCI_E_INVALID_ADDRESS;
}
static int on(u_register_t mpidr) { return PSCI_E_SUCCESS; }
static void tell(const psci_power_state_t *state) { at[me].told = *state; }
static void finish(const psci_power_state_t *state) {}
static void standby(plat_local_state_t state) {}
static void whole_system(psci_power_state_t *asked) {
    memset(asked->pwr_domain_state, PLAT_MAX_OFF_STATE, sizeof asked->pwr_domain_state);
#if PSCI_OS_INIT_MODE
    asked->last_at_pwrlvl = PLAT_MAX_PWR_LVL;
#endif
}
int plat_setup_psci_ops(uintptr_t entry, const plat_psci_ops_t **ops) {
    static const plat_psci_ops_t operations = {standby, on, tell, .pwr_domain_suspend = tell, .system_off = end,
        .pwr_domain_on_finish = finish, .pwr_domain_suspend_finish = finish, .system_reset = end,
        .validate_power_state = validate, .validate_ns_entrypoint = validate_entry, .get_sys_suspend_power_state = whole_system};
    *ops = &operations;
    return 0;
}

/* what EL3 sets once for each core, of a newer TF-A */
void cm_manage_extensions_el3(void) {}
int is_feat_spe_supported(void) { return 0; }

int call(uint32_t function, u_register_t x1, u_register_t x2, u_register_t x3, int64_t *answer) {
    if (__builtin_setjmp(at[me].back))
        return 1;
    *answer = (int64_t)psci_smc_handler(function, x1, x2, x3, 0, NULL, NULL, 1);
    return 0;
}

void enter(void) {
    if (!__builtin_setjmp(at[me].back))
        psci_warmboot_entrypoint();
}

