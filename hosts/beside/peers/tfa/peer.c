/* The platform below lib/psci: power states, and the end of each core's way down. */
#include "fuzz.h"
#include "statics.h"

#include <lib/spinlock.h>
#include <setjmp.h>

unsigned int me;
struct cpu_data cpus[PLATFORM_CORE_COUNT];
static entry_point_info_t entries[PLATFORM_CORE_COUNT];
static psci_power_state_t told;
static jmp_buf away;
static struct psci_beside_did out;

/* The core executes nothing more: what has become of it. */
static void leave(uint32_t what) {
    out.what = what;
    longjmp(away, 1);
}

void psci_power_down_wfi(void) { leave(PSCI_STOP); }
void panic(void) { leave(PSCI_BESIDE_NOTHING); }
static void off(void) { leave(PSCI_BESIDE_ENDS); }
static void reset(void) { leave(PSCI_BESIDE_RESETS); }
void zeromem(void *at, u_register_t length) { memset(at, 0, length); }
void spin_lock(spinlock_t *lock) { lock->lock++ ? panic() : (void)0; }
void spin_unlock(spinlock_t *lock) { lock->lock = 0; }
void cm_init_context_by_index(unsigned int core, const entry_point_info_t *entry) { entries[core] = *entry; }
void cm_prepare_el3_exit_ns(void) {
    out = (struct psci_beside_did){.what = PSCI_ENTER, .address = entries[me].pc, .context = entries[me].args.arg0};
}

void cm_manage_extensions_el3(void) {}
int is_feat_spe_supported(void) { return 0; }

u_register_t mpidr_of(unsigned int core) { return (core / PER_CLUSTER) << 8 | core % PER_CLUSTER; }
int plat_core_pos_by_mpidr(u_register_t mpidr) {
    unsigned int core = (mpidr >> 8) * PER_CLUSTER + (uint8_t)mpidr;
    return core < PLATFORM_CORE_COUNT && mpidr_of(core) == mpidr ? core : -1;
}
bool is_valid_mpidr(u_register_t mpidr) { return plat_core_pos_by_mpidr(mpidr) >= 0; }

const unsigned char *plat_get_power_domain_tree_desc(void) {
    static const unsigned char tree[] = {1, CLUSTERS, PER_CLUSTER, PER_CLUSTER};
    return tree;
}

/* The original format with a nibble for each level, as docs/port/FORMATS.md has it. */
static int validate(unsigned int word, psci_power_state_t *asked) {
    unsigned int highest = 0, below = PLAT_MAX_OFF_STATE;
    for (unsigned int level = 0; level <= PLAT_MAX_PWR_LVL; level++) {
        unsigned int state = word >> 4 * level & 15;
        if (state > below)
            return PSCI_E_INVALID_PARAMS;
        asked->pwr_domain_state[level] = below = state;
        highest = state ? level : highest;
    }
#if PSCI_OS_INIT_MODE
    asked->last_at_pwrlvl = psci_get_pstate_pwrlvl(word);
#endif
    bool is_down = (word & 15) == PLAT_MAX_OFF_STATE;
    return (word & 15) && !(word & 0xf000) && highest == psci_get_pstate_pwrlvl(word) &&
                   is_down == psci_get_pstate_type(word) ? PSCI_E_SUCCESS : PSCI_E_INVALID_PARAMS;
}

static int validate_entry(uintptr_t at) { return at - 0x40000000 < 0x20000000 ? PSCI_E_SUCCESS : PSCI_E_INVALID_ADDRESS; }
static int on(u_register_t mpidr) { return PSCI_E_SUCCESS; }
static void tell(const psci_power_state_t *state) { told = *state; }
static void finish(const psci_power_state_t *state) {}
static void standby(plat_local_state_t state) {}
static void whole_system(psci_power_state_t *asked) {
    memset(asked->pwr_domain_state, PLAT_MAX_OFF_STATE, sizeof asked->pwr_domain_state);
#if PSCI_OS_INIT_MODE
    asked->last_at_pwrlvl = PLAT_MAX_PWR_LVL;
#endif
}
int plat_setup_psci_ops(uintptr_t entry, const plat_psci_ops_t **ops) {
    static const plat_psci_ops_t operations = {standby, on, tell, .pwr_domain_suspend = tell, .system_off = off,
        .pwr_domain_on_finish = finish, .pwr_domain_suspend_finish = finish, .system_reset = reset,
        .validate_power_state = validate, .validate_ns_entrypoint = validate_entry, .get_sys_suspend_power_state = whole_system};
    *ops = &operations;
    return 0;
}

static void tfa_open(void *self, const struct psci_beside_board *board) {
    DEFINE_STATIC_PSCI_LIB_ARGS_V1(arguments, psci_warmboot_entrypoint);
    statics_fresh();
    psci_setup(&arguments);
}

static void tfa_call(void *self, uint32_t core, const uint64_t x[4], struct psci_beside_did *did) {
    me = core;
    out = (struct psci_beside_did){.what = PSCI_RETURN};
    if (!setjmp(away))
        out.x0 = psci_smc_handler(x[0], x[1], x[2], x[3], 0, NULL, NULL, 1);
    *did = out;
    did->told = did->what == PSCI_STOP;
    memcpy(did->depths, told.pwr_domain_state, 3);
}

static void tfa_enter(void *self, uint32_t core, uint32_t cause, struct psci_beside_did *did) {
    me = core;
    if (!setjmp(away))
        psci_warmboot_entrypoint();
    *did = out;
}

static uint32_t tfa_status(void *self, uint32_t core) { return cpus[core].psci_svc_cpu_data.aff_info_state; }
const struct psci_beside_peer psci_beside_target = {.name = "TF-A", .open = tfa_open, .call = tfa_call,
    .enter = tfa_enter, .status = tfa_status, .save = statics_save};
