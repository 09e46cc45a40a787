/* kvmtool's vCPUs as cores of the library: its arm/psci.c. What is decided stands in cores.c of the folder above. */
#include "vmm.h"

#include "arm-common/gic.h"
#include "kvm/kvm.h"
#include "kvm/kvm-cpu.h"
#include "kvm/util-init.h"

#include <linux/kernel.h>

static struct kvm *vm;
static pthread_barrier_t all;

static struct core *core_of(const struct kvm_cpu *cpu) { return &cores[cpu->cpu_id]; }

/* Sixteen cores are a cluster, as KVM makes MPIDRs of numbers. There is one life, since kvmtool ends at a reset. */
static const char *board_of(const struct kvm *kvm) {
    static char text[512];
    char *at = text;
    for (int left = kvm->cfg.nrcpus; left > 0; left -= 16)
        at += sprintf(at, "%c%d", at == text ? '(' : ' ', min(left, 16));
    sprintf(at, ") exec 0x%lx-0x%llx boot 0x%lx starts 4294967295 lives 1", ARM_MEMORY_AREA,
            ARM_MEMORY_AREA + kvm->cfg.ram_size, ARM_MEMORY_AREA + ARM_KERN_OFFSET(kvm));
    return text;
}

/* Before there is a vCPU or an interrupt controller. */
void psci__open(struct kvm *kvm) {
    vm = kvm;
    if (!kvm->cfg.arch.psci_board)
        kvm->cfg.arch.psci_board = board_of(kvm);
    open_library(kvm->cfg.arch.psci_board);
    kvm->cfg.nrcpus = many_cores;
    filter_calls(kvm->vm_fd);
    pthread_barrier_init(&all, NULL, many_cores);
}

unsigned long psci__vcpu_number(unsigned long cpu) { return vcpu_number(&cores[cpu]); }

void psci__adopt(struct kvm_cpu *cpu, const struct kvm_vcpu_init *kind) {
    adopt(core_of(cpu), cpu->vcpu_fd, cpu->kvm_run, kind);
}

static int psci__record(struct kvm *kvm) {
    record_into(kvm->cfg.arch.psci_record ?: "/dev/null", kvm->cfg.arch.psci_board);
    return 0;
}
late_init(psci__record);

static int psci__end(struct kvm *kvm) {
    end_record();
    return 0;
}
late_exit(psci__end);

/* By a signal whose handler does nothing. */
void call_back(struct core *core) {
    __atomic_store_n(&core->run->immediate_exit, 1, __ATOMIC_SEQ_CST);
    pthread_kill(core->thread, SIGKVMTASK);
    pthread_cond_signal(&core->bell);
}

/* As at a cold boot, but for kvmtool's devices, with all vCPUs out of the guest. The kernel's header is loaded first. */
static void begin_life(void) {
    for (struct core *core = cores; core < cores + many_cores; core++) {
        reset_core(core);
        core->run->immediate_exit = 0;
    }
    reset_interrupts();
    kvm__load_kernel(vm, vm->cfg.kernel_filename, vm->cfg.initrd_filename, vm->cfg.real_cmdline);
    empty_memory(vm->ram_start, vm->ram_size, ARM_KERN_OFFSET(vm));
    kvm__load_kernel(vm, vm->cfg.kernel_filename, vm->cfg.initrd_filename, vm->cfg.real_cmdline);
    setup_fdt(vm);
    life = GOES_ON;
}

static void next_life(const struct core *core) {
    pthread_barrier_wait(&all);
    if (core == cores)
        begin_life();
    pthread_barrier_wait(&all);
}

/* Before any vCPU has been in the guest, and with none in a call of KVM's. */
static void first_life(struct core *core) {
    core->thread = pthread_self();
    pthread_barrier_wait(&all);
    if (core == cores) {
        interrupts = gic_fd;
        reset_interrupts();
    }
    pthread_barrier_wait(&all);
}

/* A while, since kvmtool's signals set words that the thread looks at, and are for no bell. */
static void wait_a_while(struct core *core) {
    struct timespec until;
    clock_gettime(CLOCK_REALTIME, &until);
    until.tv_nsec += 50000000;
    until.tv_sec += until.tv_nsec / 1000000000;
    until.tv_nsec %= 1000000000;
    pthread_cond_timedwait(&core->bell, &lock, &until);
}

/* Whether it goes into the guest now, or into a sleep of KVM's. Else it has been at its door. */
bool kvm_cpu__arch_runs(struct kvm_cpu *cpu) {
    struct core *core = core_of(cpu);
    struct psci_answer answer;
    if (!core->thread)
        first_life(core);
    pthread_mutex_lock(&lock);
    enum life now = life;
    bool enters = core->is_open && now == GOES_ON;
    bool waits = now == IS_OFF || (now == GOES_ON && !enters && !core->executes && !core->how.wakes);
    if (waits)
        wait_a_while(core);
    if (enters)
        enter(core, &answer);
    pthread_mutex_unlock(&lock);
    if (now == RESTARTS)
        next_life(core);
    if (enters)
        begin(core, &answer, vm->arch.dtb_guest_start);
    return now == GOES_ON && !waits;
}

bool kvm_cpu__arch_exit(struct kvm_cpu *cpu) {
    if (!take_exit(core_of(cpu)))
        return false;
    if (life == IS_OFF)
        kvm__reboot(vm);
    return true;
}
