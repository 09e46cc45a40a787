/* The hypervisor below vpsci.c: the flags of virtual processors. A CPU_ON takes effect at once. */
#include <asm/vpsci.h>

#include "fuzz.h"
#include "statics.h"

enum { MOST = 8 };
static struct vcpu vcpus[MOST], *rows[MOST];
static struct domain domain = {.vcpu = rows};
struct vcpu *current;
bool is_short;

int arch_set_info_guest(struct vcpu *v, struct vcpu_guest_context *context) {
    v->arch.regs = context->user_regs;
    v->pause_flags &= ~(1ul << _VPF_down);
    return 0;
}

static void xen_open(void *self, const struct psci_beside_board *board) {
    statics_fresh();
    statics_hold(board->cores, MOST);
    domain.max_vcpus = board->cores;
    for (unsigned i = 0; i < board->cores; i++) {
        vcpus[i] = (struct vcpu){&domain, i, i ? 1ul << _VPF_down : 0};
        vcpus[i].arch.vmpidr = MPIDR_SMP | vcpuid_to_vaffinity(i);
        rows[i] = &vcpus[i];
    }
}

static void xen_call(void *self, uint32_t core, const uint64_t x[4], struct psci_beside_did *did) {
    struct cpu_user_regs regs = {{x[0], x[1], x[2], x[3]}, (uint32_t)HSR_EC_HVC64 << 26};
    current = &vcpus[core];
    do_trap_hvc_smccc(&regs);
    did->x0 = current->arch.regs.x0 = regs.x[0];
    did->what = current->pause_flags ? PSCI_STOP : PSCI_RETURN;
    if (domain.shut)
        did->what = domain.why == SHUTDOWN_reboot ? PSCI_BESIDE_RESETS : PSCI_BESIDE_ENDS;
}

static void xen_enter(void *self, uint32_t core, uint32_t cause, struct psci_beside_did *did) {
    struct vcpu *v = &vcpus[core];
    v->pause_flags &= ~(1ul << _VPF_blocked);
    *did = (struct psci_beside_did){v->pause_flags ? PSCI_BESIDE_NOTHING : cause == PSCI_CAUSE_WAKE ? PSCI_RESUME : PSCI_ENTER,
                                    v->arch.regs.x0, v->arch.regs.pc64, v->arch.regs.x0};
}

static uint32_t xen_status(void *self, uint32_t core) { return test_bit(_VPF_down, &vcpus[core].pause_flags); }
static void xen_waits(void *self, uint32_t core, bool does) { vcpus[core].event = does; }
static void xen_lacks(void *self, bool does) { is_short = does; }

const struct psci_beside_peer psci_beside_target = {.name = "Xen", .open = xen_open, .call = xen_call,
    .enter = xen_enter, .status = xen_status, .save = statics_save, .waits = xen_waits, .lacks = xen_lacks};
