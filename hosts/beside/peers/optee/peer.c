/* The STM32MP1 around OP-TEE's psci.c: what of a call reaches it, and what a core does before it goes on in Linux. */
#include <setjmp.h>

#include <sm/std_smc.h>
#include <sm/psci.h>

#include "fuzz.h"
#include "statics.h"

static size_t me;
static struct { uintptr_t entry, context; } asked[CFG_TEE_CORE_NB_CORE];
static jmp_buf away;
static struct psci_beside_did out;
void smc_std_handler(struct thread_smc_args *args, struct sm_nsec_ctx *nsec);

/* The core executes nothing more: what has become of it. */
static void leave(uint32_t what) {
    out.what = what;
    longjmp(away, 1);
}

void wfi(void) { leave(PSCI_STOP); }
void panic(void) { leave(PSCI_BESIDE_NOTHING); }
void rstctrl_assert(int what) { leave(PSCI_BESIDE_RESETS); }
void stpmic1_switch_off(void) { leave(PSCI_BESIDE_ENDS); }
size_t get_core_pos(void) { return me; }

/* get_core_pos_mpidr of kernel/misc_a32.S, of a machine whose cores have one thread each */
size_t get_core_pos_mpidr(uint32_t mpidr) {
    uint32_t shifted = mpidr & BIT32(24) ? mpidr : mpidr << 8;
    return (shifted >> 8 & 255) + ((shifted >> 16 & 255) << 2);
}

void boot_set_core_ns_entry(size_t core, uintptr_t entry, uintptr_t context_id) {
    asked[core].entry = entry;
    asked[core].context = context_id;
}

static void optee_open(void *self, const struct psci_beside_board *board) {
    statics_fresh();
    me = 0;
    stm32mp_register_online_cpu();
}

static void optee_call(void *self, uint32_t core, const uint64_t x[4], struct psci_beside_did *did) {
    struct thread_smc_args args = {x[0], x[1], x[2], x[3]};
    me = core;
    out = (struct psci_beside_did){.what = PSCI_RETURN};
    if (!setjmp(away)) {
        smc_std_handler(&args, NULL);
        out.x0 = (int64_t)(int32_t)args.a0;
    }
    *did = out;
}

static void optee_enter(void *self, uint32_t core, uint32_t cause, struct psci_beside_did *did) {
    me = core;
    out = (struct psci_beside_did){.what = PSCI_ENTER, .address = asked[core].entry, .context = asked[core].context};
    if (!setjmp(away))
        stm32mp_register_online_cpu();
    *did = out;
}

/* as AFFINITY_INFO says it */
static uint32_t optee_status(void *self, uint32_t core) { return psci_affinity_info(core, 0); }
const struct psci_beside_peer psci_beside_target = {.name = "OP-TEE", .open = optee_open, .call = optee_call,
    .enter = optee_enter, .status = optee_status, .save = statics_save};
