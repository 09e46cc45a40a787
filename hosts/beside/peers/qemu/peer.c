/* The emulator below psci.c: registers, and a queue of work for each processor. That of a CPU_ON waits
 * until its target enters; that of a CPU_OFF is done before its caller executes anything more. */
#undef PSCI_ON
#undef PSCI_OFF
#include "fuzz.h"
#include "statics.h"

#include <setjmp.h>

ARMCPU cpus[MOST];
uint32_t many_cpus, is_ending, is_reset;
uint64_t next_block[4];
static jmp_buf halt;

/* Where the queue is full the oldest goes, since the work of each CPU_ON begins with a reset. */
void async_run_on_cpu(CPUState *state, run_on_cpu_func f, run_on_cpu_data data) {
    ARMCPU *cpu = ARM_CPU(state);
    if (cpu->works == MOST_WORK)
        memmove(cpu->work, cpu->work + 1, sizeof *cpu->work * --cpu->works);
    struct work *work = &cpu->work[cpu->works++];
    *work = (struct work){f, data, {0}};
    memcpy(work->block, next_block, sizeof next_block);
}

static void work(ARMCPU *cpu) {
    for (int i = 0; i < cpu->works; i++) {
        struct work *it = &cpu->work[i];
        it->f(&cpu->parent, it->data.host_ptr ? RUN_ON_CPU_HOST_PTR(it->block) : it->data);
    }
    cpu->works = 0;
}

void cpu_reset(CPUState *state) {
    ARMCPU *cpu = ARM_CPU(state);
    memset(&cpu->env, 0, sizeof cpu->env);
    cpu->power_state = cpu->first_off ? QEMU_OFF : QEMU_ON;
    cpu->event = 0;
    state->halted = cpu->first_off;
}

void helper_wfi(CPUARMState *env, uint32_t length) {
    ARMCPU *cpu = (ARMCPU *)((char *)env - offsetof(ARMCPU, env));
    if (cpu->event)
        return;
    cpu->parent.halted = 1;
    longjmp(halt, 1);
}

static void qemu_open(void *self, const struct psci_beside_board *board) {
    statics_fresh();
    statics_hold(board->cores, MOST);
    many_cpus = board->cores;
    for (uint32_t i = 0; i < many_cpus; i++) {
        cpus[i].mp_affinity = board->affinity[i];
        cpus[i].first_off = i > 0;
        cpu_reset(&cpus[i].parent);
    }
}

static void qemu_call(void *self, uint32_t core, const uint64_t x[4], struct psci_beside_did *did) {
    ARMCPU *cpu = &cpus[core];
    memcpy(cpu->env.xregs, x, 4 * sizeof *x);
    if (!setjmp(halt))
        arm_handle_psci_call(cpu);
    did->x0 = cpu->env.xregs[0];
    work(cpu);
    did->what = cpu->parent.halted ? PSCI_STOP : PSCI_RETURN;
    if (is_ending)
        did->what = is_reset ? PSCI_BESIDE_RESETS : PSCI_BESIDE_ENDS;
}

static void qemu_enter(void *self, uint32_t core, uint32_t cause, struct psci_beside_did *did) {
    ARMCPU *cpu = &cpus[core];
    cpu->parent.halted = cpu->power_state == QEMU_OFF;
    work(cpu);
    did->what = cpu->parent.halted ? PSCI_BESIDE_NOTHING : cause == PSCI_CAUSE_WAKE ? PSCI_RESUME : PSCI_ENTER;
    did->address = cpu->env.pc;
    did->x0 = did->context = cpu->env.xregs[0];
}

static uint32_t qemu_status(void *self, uint32_t core) { return cpus[core].power_state; }
static void qemu_waits(void *self, uint32_t core, bool does) { cpus[core].event = does; }

const struct psci_beside_peer psci_beside_target = {.name = "QEMU", .open = qemu_open, .call = qemu_call,
    .enter = qemu_enter, .status = qemu_status, .save = statics_save, .waits = qemu_waits};
