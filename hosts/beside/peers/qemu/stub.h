/* What target/arm/psci.c and arm-powerctl.c take from the emulator's headers that are not here. */
#include <assert.h>
#include <inttypes.h>
#include <stdbool.h>
#include <stdio.h>
#include <string.h>

enum { MOST = 8, MOST_WORK = 8 };
typedef uint64_t target_ulong;
typedef struct CPUState { int halted, exception_index; } CPUState;
typedef struct CPUARMState {
    uint64_t xregs[32], pc;
    uint32_t regs[16], pstate;
    struct { uint64_t scr_el3, hcr_el2, nsacr; } cp15;
} CPUARMState;
typedef union { void *host_ptr; } run_on_cpu_data;
typedef void (*run_on_cpu_func)(CPUState *, run_on_cpu_data);
/* The work that waits for a processor; a CPU_ON has a block of its own. */
struct work { run_on_cpu_func f; run_on_cpu_data data; uint64_t block[4]; };
typedef struct ARMCPU {
    CPUState parent;
    CPUARMState env;
    uint64_t mp_affinity;
    int power_state, psci_conduit, first_off, event, works;
    struct work work[MOST_WORK];
} ARMCPU;
enum { QEMU_PSCI_CONDUIT_DISABLED, QEMU_PSCI_CONDUIT_SMC, QEMU_PSCI_CONDUIT_HVC };
enum { QEMU_ON, QEMU_OFF, PSCI_ON_PENDING };
#define PSCI_ON QEMU_ON
#define PSCI_OFF QEMU_OFF
enum { EXCP_HVC = 11, EXCP_SMC = 13, EXCP_HLT = 0x10001 };
enum { ARM_FEATURE_EL2, ARM_FEATURE_EL3, ARM_FEATURE_AARCH64, ARM_CPU_MODE_SVC, ARM_CPU_MODE_HYP, CPSR_M, CPSRWriteRaw, SCR_NS, SCR_HCE, SCR_RW, HCR_RW };
extern ARMCPU cpus[];
extern uint32_t many_cpus, is_ending, is_reset;
#define ARM_CPU(cpu) ((ARMCPU *)(cpu))
#define CPU_FOREACH(cpu) for (uint32_t i_ = 0; i_ < many_cpus && ((cpu) = &cpus[i_].parent, true); i_++)
#define RUN_ON_CPU_HOST_PTR(p) ((run_on_cpu_data){p})
#define RUN_ON_CPU_NULL ((run_on_cpu_data){NULL})
#define arm_feature(env, feature) ((feature) != ARM_FEATURE_EL3)
#define arm_el_is_aa64(env, el) true
#define is_a64(env) true
#define arm_current_el(env) ((env)->pstate)
#define aarch64_pstate_mode(el, handler) (el)
#define qemu_mutex_iothread_locked() true
/* what these are called in QEMU 10 */
#define bql_locked() true
#define tcg_enabled() true
#define arm_cpu_mp_affinity(cpu) ((cpu)->mp_affinity)
#define arm_emulate_firmware_reset(cpu, el) (ARM_CPU(cpu)->env.pstate = (el))
#define g_assert assert
extern uint64_t next_block[4];
#define g_new(type, many) ((type *)next_block)
#define qemu_system_reset_request(cause) (is_ending = is_reset = true)
#define qemu_system_shutdown_request(cause) (is_ending = true)
#define cpu_set_pc(cpu, to) (ARM_CPU(cpu)->env.pc = (to))
void async_run_on_cpu(CPUState *, run_on_cpu_func, run_on_cpu_data), cpu_reset(CPUState *), helper_wfi(CPUARMState *, uint32_t), arm_handle_psci_call(ARMCPU *);
