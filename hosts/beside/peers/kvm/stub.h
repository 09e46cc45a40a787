/* What KVM's psci.c takes from the kernel's headers that are not here, and so do the few functions of
 * arm.c, reset.c and sys_regs.c that build takes. */
#include <errno.h>
#include <stdbool.h>
#include <stdint.h>
#include <stdlib.h>
#include <string.h>

typedef uint8_t u8;
typedef uint16_t u16;
typedef uint32_t u32, __u32;
typedef int32_t s32;
typedef uint64_t u64, __u64;
#define UL(x) x##UL
#define _AC(x, y) x##y
#define BIT(n) (1UL << (n))
#define lower_32_bits(x) ((u32)(x))
#define READ_ONCE(x) (x)
#define WRITE_ONCE(x, v) ((x) = (v))
#define fallthrough __attribute__((__fallthrough__))
#define test_bit(n, p) (*(p) >> (n) & 1)
struct lock { int held; };
#define spin_lock(l) ((l)->held++ ? abort() : (void)0)
#define spin_unlock(l) ((l)->held--)

#define MPIDR_HWID_BITMASK UL(0xff00ffffff)
#define MPIDR_LEVEL_BITS 8
#define MPIDR_LEVEL_SHIFT(level) (((1 << level) >> 1) << 3)
enum { KVM_MP_STATE_RUNNABLE, KVM_MP_STATE_STOPPED, KVM_EXIT_SYSTEM_EVENT };
enum { KVM_SYSTEM_EVENT_SHUTDOWN = 1, KVM_SYSTEM_EVENT_RESET, KVM_SYSTEM_EVENT_SUSPEND };
enum { KVM_SYSTEM_EVENT_RESET_FLAG_PSCI_RESET2 = 1, KVM_SYSTEM_EVENT_SHUTDOWN_FLAG_PSCI_OFF2 = 1, KVM_REQ_SLEEP = 0, KVM_REQ_VCPU_RESET };
enum { KVM_ARM_VCPU_PSCI_0_2, KVM_ARM_VCPU_SVE, KVM_ARM_VCPU_PTRAUTH_ADDRESS, KVM_ARM_VCPU_PTRAUTH_GENERIC };
enum { KVM_ARCH_FLAG_SYSTEM_SUSPEND_ENABLED, VCPU_RESET_PSTATE_EL1 = 0x3c5, VCPU_RESET_PSTATE_SVC = 0x1d3, VCPU_RESET_PSTATE_EL2 = 0x3c9 };
enum { KVM_PSCI_FN_CPU_OFF, KVM_PSCI_FN_CPU_ON };
struct vcpu_reset_state { unsigned long pc, r0; bool be, reset; };
struct kvm_run { u32 exit_reason; struct { u32 type, ndata; u64 data[16]; } system_event; };
struct gp_regs { u64 regs[31], pc, pstate; };
struct kvm_vcpu {
    struct kvm *kvm;
    struct kvm_run *run, its_run;
    int cpu, vcpu_id;
    unsigned long requests;
    bool sleeps, event;
    struct {
        struct { struct gp_regs regs; u64 spsr_abt, spsr_und, spsr_irq, spsr_fiq, mpidr, fp_regs; } ctxt;
        struct { u32 mp_state; } mp_state;
        struct lock mp_state_lock;
        struct vcpu_reset_state reset_state;
        unsigned long features[1];
        int target;
    } arch;
};
enum { MOST = 8 };
/* of newer ones: a table of processors, which is not made yet */
struct kvm_mpidr_data { u16 cmpidr_to_idx[MOST]; };
#define rcu_dereference(p) (p)
#define kvm_mpidr_index(d, m) 0
#define kvm_get_vcpu(k, i) (&(k)->vcpus[i])
typedef struct { u8 b[16]; } uuid_t;
struct kvm {
    struct { u32 psci_version; unsigned long flags; struct lock config_lock; struct kvm_mpidr_data *mpidr_data; } arch;
    unsigned many;
    struct kvm_vcpu vcpus[MOST];
};
struct sys_reg_desc;
#define vcpu_has_feature(v, n) test_bit(n, (v)->arch.features)
#define kvm_for_each_vcpu(i, v, k) for ((i) = 0; (i) < (k)->many && ((v) = &(k)->vcpus[i]); (i)++)
#define kvm_make_request(r, v) ((v)->requests |= BIT(r))
#define kvm_vcpu_wfi(v) ((v)->sleeps = !(v)->event)
#define vcpu_get_reg(v, n) ((v)->arch.ctxt.regs.regs[n])
#define vcpu_set_reg(v, n, x) ((v)->arch.ctxt.regs.regs[n] = (x))
#define vcpu_gp_regs(v) (&(v)->arch.ctxt.regs)
#define vcpu_pc(v) (&vcpu_gp_regs(v)->pc)
#define vcpu_write_sys_reg(v, x, r) ((v)->arch.ctxt.mpidr = (x))
#define kvm_vcpu_get_mpidr_aff(v) ((v)->arch.ctxt.mpidr & MPIDR_HWID_BITMASK)
#define kvm_reset_sys_regs(v) reset_mpidr(v, NULL)
#include "reset.h" /* what kvm_reset_vcpu returns, cut out of reset.c by build */
void kvm_arm_vcpu_power_off(struct kvm_vcpu *);
bool kvm_arm_vcpu_stopped(struct kvm_vcpu *);
struct kvm_vcpu *kvm_mpidr_to_vcpu(struct kvm *, unsigned long);
