/* A vCPU as a core, and the filter of calls, by KVM's calls. What any monitor links: this, cores.c, cold.c and record.c. */
#include "vmm.h"

#include <errno.h>
#include <stdio.h>
#include <stdlib.h>
#include <string.h>
#include <sys/ioctl.h>

/* Of the headers of Linux 6.4, which Debian 12 has not. */
#ifndef KVM_ARM_VM_SMCCC_CTRL
enum { KVM_ARM_VM_SMCCC_CTRL = 0, KVM_ARM_VM_SMCCC_FILTER = 0, KVM_SMCCC_FILTER_FWD_TO_USER = 2 };
struct kvm_smccc_filter {
    uint32_t base, nr_functions;
    uint8_t action, pad[15];
};
#endif

/* KVM's names of registers, and what they are as a core comes out of reset: EL1, interrupts masked, MMU and caches off. */
#define CORE_WORD(name) (KVM_REG_ARM64 | KVM_REG_SIZE_U64 | KVM_REG_ARM_CORE | KVM_REG_ARM_CORE_REG(regs.name))
#define X(number) (CORE_WORD(regs[0]) + 2 * (number))
#define MPIDR ARM64_SYS_REG(3, 0, 0, 0, 5)
#define AFFINITY 0xff00ffffff
#define SCTLR ARM64_SYS_REG(3, 0, 1, 0, 0)
enum { RESET_PSTATE = 0x3c5, RESET_SCTLR = 0x00c50078, BIG_ENDIAN_DATA = 1 << 25 };
static struct kvm_vcpu_init kind; /* of all cores */

_Noreturn void fail(const char *what) {
    fprintf(stderr, "vmm: %s: %s\n", what, strerror(errno));
    exit(1);
}

int ask(int file, unsigned long request, void *argument, const char *what) {
    int result = ioctl(file, request, argument);
    if (result < 0)
        fail(what);
    return result;
}

static uint64_t get(struct core *core, uint64_t name) {
    uint64_t value = 0;
    struct kvm_one_reg it = {name, (uintptr_t)&value};
    ask(core->vcpu, KVM_GET_ONE_REG, &it, "a register");
    return value;
}

static void set(struct core *core, uint64_t name, uint64_t value) {
    struct kvm_one_reg it = {name, (uintptr_t)&value};
    ask(core->vcpu, KVM_SET_ONE_REG, &it, "a register");
}

uint64_t get_x(struct core *core, unsigned number) { return get(core, X(number)); }

uint64_t byte_order(struct core *core) { return get(core, SCTLR) & BIG_ENDIAN_DATA; }

void set_x0(struct core *core, uint64_t value) { set(core, X(0), value); }

/* KVM makes the MPIDR of a vCPU's number, of which affinity field 0 gets four bits: no board's cluster has more cores. */
unsigned long vcpu_number(const struct core *core) { return (core->affinity >> 8) << 4 | (core->affinity & 0xff); }

void adopt(struct core *core, int vcpu, struct kvm_run *run, const struct kvm_vcpu_init *of) {
    kind = *of;
    core->vcpu = vcpu;
    core->run = run;
    reset_vcpu(core);
    core->mpidr = get(core, MPIDR) & AFFINITY;
    pthread_cond_init(&core->bell, 0);
}

void set_state(struct core *core, uint32_t state) {
    struct kvm_mp_state it = {state};
    ask(core->vcpu, KVM_SET_MP_STATE, &it, "a vCPU's state");
}

/* As a core comes out of reset, with its timers. KVM_RUN begins with what is left of an access, which belongs to the life
 * before, and would add 4 to the PC. Without FEAT_S2FWB this unmaps the memory of all vCPUs. */
void reset_vcpu(struct core *core) {
    ask(core->vcpu, KVM_ARM_VCPU_INIT, &kind, "a core's reset");
    core->run->exit_reason = KVM_EXIT_UNKNOWN;
}

/* A core that is new leaves the guest behind its first instruction, if not before: then it has entered. */
void step(struct core *core, bool is_new) {
    struct kvm_guest_debug it = {.control = is_new ? KVM_GUESTDBG_ENABLE | KVM_GUESTDBG_SINGLESTEP : 0};
    ask(core->vcpu, KVM_SET_GUEST_DEBUG, &it, "a step");
    core->is_new = is_new;
}

/* Where a core was off, all is as after reset; where it slept, its timers go on. */
static void enter_at(struct core *core, uint64_t address, uint64_t x0) {
    const uint64_t names[] = {CORE_WORD(pc), X(0), CORE_WORD(pstate), SCTLR};
    if (core->start.cause == PSCI_CAUSE_WAKE)
        core->order = byte_order(core);
    else
        reset_vcpu(core);
    set(core, CORE_WORD(pstate), RESET_PSTATE);
    set(core, SCTLR, RESET_SCTLR | core->order);
    set(core, CORE_WORD(pc), address);
    set_x0(core, x0);
    set_state(core, KVM_MP_STATE_RUNNABLE);
    for (unsigned k = 0; k < 4; k++)
        core->first[k] = get(core, names[k]);
    step(core, true);
}

/* What the firmware answered to an entry. The boot core's first one in a life gets what Linux wants in x0: nobody has
 * asked for it. */
void begin(struct core *core, const struct psci_answer *answer, uint64_t tree) {
    if (answer->what == PSCI_RESUME) {
        set_state(core, KVM_MP_STATE_RUNNABLE);
        set_x0(core, 0);
    } else if (answer->what == PSCI_ENTER) {
        enter_at(core, answer->address, core->start.cause == PSCI_CAUSE_BOOT ? tree : answer->context);
    }
}

void set_attribute(int device, uint32_t group, uint64_t number, const void *value, const char *what) {
    struct kvm_device_attr it = {.group = group, .attr = number, .addr = (uintptr_t)value};
    ask(device, KVM_SET_DEVICE_ATTR, &it, what);
}

/* PSCI's words, of both conventions, come here. It is said before a vCPU has run, and once. */
void filter_calls(int vm) {
    static const uint32_t first[] = {0x84000000, 0xc4000000};
    for (unsigned k = 0; k < 2; k++) {
        struct kvm_smccc_filter it = {.base = first[k], .nr_functions = 0x20, .action = KVM_SMCCC_FILTER_FWD_TO_USER};
        set_attribute(vm, KVM_ARM_VM_SMCCC_CTRL, KVM_ARM_VM_SMCCC_FILTER, &it, "a filter of calls (Linux 6.4)");
    }
}
