/* What vpsci.c and vsmc.c take from the hypervisor's headers that are not here. */
#include <stdbool.h>
#include <stdint.h>
#include <stdlib.h>
#include <string.h>

#define register_t guest_register_t
typedef unsigned long register_t;
typedef uint64_t u64;
#define CONFIG_ARM_64 1
#define _AC(x, s) _AC_(x, s)
#define _AC_(x, s) x##s
#define ARRAY_SIZE(a) (sizeof(a) / sizeof *(a))
#define unlikely(x) (x)
#include "cut.h" /* affinities and the numbers of PSCI 0.1, cut out of the package by build */

struct core_regs { u64 pc64, x0, cpsr; };
#define r0_usr x0
struct cpu_user_regs { register_t x[4]; uint32_t hsr; };
struct vcpu_guest_context { unsigned flags; struct core_regs user_regs; u64 sctlr, ttbr0, ttbr1, ttbcr; };
struct vcpu {
    struct domain *domain;
    unsigned vcpu_id;
    unsigned long pause_flags;
    bool event;
    struct { register_t vmpidr; struct core_regs regs; } arch;
};
struct domain {
    unsigned max_vcpus, shut, why;
    struct vcpu **vcpu;
    struct { struct { bool privileged_call_enabled; } monitor; } arch;
};
extern struct vcpu *current;
extern bool is_short;
enum { _VPF_blocked, _VPF_down, SHUTDOWN_poweroff = 0, SHUTDOWN_reboot };
enum { PSR_THUMB = 32, PSR_GUEST32_INIT, PSR_GUEST64_INIT, SCTLR_GUEST_INIT, VGCF_online };
#define is_64bit_domain(d) true
static inline bool test_bit(int n, unsigned long *p) { return *p >> n & 1; }
static inline bool test_and_set_bit(int n, unsigned long *p) {
    bool was = test_bit(n, p);
    *p |= 1ul << n;
    return was;
}
static inline struct vcpu *domain_vcpu(struct domain *d, unsigned n) { return n < d->max_vcpus ? d->vcpu[n] : NULL; }
static struct vcpu_guest_context context;
#define alloc_vcpu_guest_context() (is_short ? NULL : &context)
#define get_user_reg(r, n) ((r)->x[n])
#define set_user_reg(r, n, v) ((r)->x[n] = (v))
int arch_set_info_guest(struct vcpu *, struct vcpu_guest_context *);
#define vgic_clear_pending_irqs(v) ((v)->event = false)
#define vcpu_block_unless_event_pending(v) ((v)->pause_flags |= (unsigned long)!(v)->event << _VPF_blocked)
#define domain_shutdown(d, what) ((d)->shut = true, (d)->why = (what))

/* of vsmc.c */
union hsr { uint32_t bits; struct { uint32_t iss : 25, len : 1, ec : 6; }; };
enum { HSR_EC_HVC32 = 0x12, HSR_EC_SMC32, HSR_EC_HVC64 = 0x16, HSR_EC_SMC64, HSR_XXC_IMM_MASK = 0xffff };
enum { ARM_SSBD_UNKNOWN, ARM_SSBD_FORCE_DISABLE, ARM_SSBD_RUNTIME, ARM_SSBD_FORCE_ENABLE, ARM_SSBD_MITIGATED };
enum { XEN_SMCCC_MAJOR_REVISION, XEN_SMCCC_MINOR_REVISION, SSSC_SMCCC_MAJOR_REVISION, SSSC_SMCCC_MINOR_REVISION };
typedef struct { uint8_t a[16]; } xen_uuid_t;
struct cpu_info { int flags; };
enum { CPUINFO_WORKAROUND_2_FLAG = 1 };
#define XEN_SMCCC_UID ((xen_uuid_t){{0}})
#define SSSC_SMCCC_UID XEN_SMCCC_UID
#define get_ssbd_state() ARM_SSBD_UNKNOWN
#define get_cpu_info() ((struct cpu_info *)NULL)
#define check_conditional_instr(r, h) true
#define inject_undef_exception(...) abort()
void do_trap_hvc_smccc(struct cpu_user_regs *);
