/* The virtual machine around psci.c. A processor that was asked on applies its reset as it enters. */
#include <kvm/arm_psci.h>

#include "fuzz.h"
#include "statics.h"

static struct kvm machine;

static void kvm_open(void *self, const struct psci_beside_board *board) {
    statics_fresh();
    statics_hold(board->cores, MOST);
    machine.many = board->cores;
    for (int i = 0; i < machine.many; i++) {
        struct kvm_vcpu *v = &machine.vcpus[i];
        *v = (struct kvm_vcpu){.kvm = &machine, .run = &v->its_run, .cpu = -1, .vcpu_id = i};
        v->arch.features[0] = BIT(KVM_ARM_VCPU_PSCI_0_2);
        v->arch.mp_state.mp_state = i ? KVM_MP_STATE_STOPPED : KVM_MP_STATE_RUNNABLE;
        kvm_reset_vcpu(v);
    }
}

static void kvm_call(void *self, uint32_t core, const uint64_t x[4], struct psci_beside_did *did) {
    struct kvm_vcpu *v = &machine.vcpus[core];
    memcpy(v->arch.ctxt.regs.regs, x, 4 * sizeof *x);
    bool ends = kvm_psci_call(v) == 0, resets = v->run->system_event.type == KVM_SYSTEM_EVENT_RESET;
    did->x0 = vcpu_get_reg(v, 0);
    did->what = ends ? resets ? PSCI_BESIDE_RESETS : PSCI_BESIDE_ENDS : v->sleeps || kvm_arm_vcpu_stopped(v) ? PSCI_STOP : PSCI_RETURN;
}

static void kvm_enter(void *self, uint32_t core, uint32_t cause, struct psci_beside_did *did) {
    struct kvm_vcpu *v = &machine.vcpus[core];
    v->sleeps = false;
    if (v->requests & BIT(KVM_REQ_VCPU_RESET))
        kvm_reset_vcpu(v);
    v->requests = 0;
    did->what = kvm_arm_vcpu_stopped(v) ? PSCI_BESIDE_NOTHING : cause == PSCI_CAUSE_WAKE ? PSCI_RESUME : PSCI_ENTER;
    did->address = *vcpu_pc(v);
    did->x0 = did->context = vcpu_get_reg(v, 0);
}

static uint32_t kvm_status(void *self, uint32_t core) { return kvm_arm_vcpu_stopped(&machine.vcpus[core]); }
static void kvm_waits(void *self, uint32_t core, bool does) { machine.vcpus[core].event = does; }

const struct psci_beside_peer psci_beside_target = {.name = "KVM", .open = kvm_open, .call = kvm_call,
    .enter = kvm_enter, .status = kvm_status, .save = statics_save, .waits = kvm_waits};
