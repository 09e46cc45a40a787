/* A virtual machine monitor on KVM whose guests' PSCI calls the proved library decides. */
#ifndef VMM_H
#define VMM_H

#include "psci_guest.h"

#include <linux/kvm.h>
#include <pthread.h>
#include <stdbool.h>
#include <stddef.h>
#include <stdint.h>

/* Where the guest finds what. */
#define MEMORY 0x40000000ul
#define MEMORY_SIZE 0x10000000ul
#define KERNEL 0x200000ul /* these three from MEMORY on */
#define TREE 0x7000000ul
#define INITRD 0x8000000ul
#define DISTRIBUTOR 0x08000000ul
#define REDISTRIBUTORS 0x080a0000ul
enum { MOST_CORES = 64, UART = 0x09000000, CLOCK = 0x09010000, CLOCK_LINE = 2, PAGE = 0x1000 };

/* A core is its vCPU's thread. It executes while it is in KVM_RUN; in the monitor it stands. */
struct core {
    int vcpu;
    struct kvm_run *run;
    pthread_t thread;
    pthread_cond_t bell;
    uint64_t affinity, mpidr;
    /* From here on it is the guest's, whose monitors may change. */
    struct psci_ctl_start start; /* by which its thread entered last */
    struct psci_ctl_start next;  /* and by which it has entered since, while the door is open: how, is in entry */
    struct psci_answer entry;
    bool is_open, executes;
    struct psci_stop how; /* of its last stop */
    uint64_t order;       /* in which its caller has bytes, by CPU_ON */
    uint64_t first[4];    /* PC, x0, PSTATE and SCTLR as it enters; while is_new nobody has seen that it did */
    bool is_new;
};
extern struct core cores[MOST_CORES];
extern unsigned many_cores;

/* One lock for the guest's power, doors, record and the end of a life. */
extern pthread_mutex_t lock;
extern enum life { GOES_ON, RESTARTS, IS_OFF, LEAVES } life;

/* cores.c: what the library decides. A core is reset while none runs; it enters with the lock in hand. An exit that is
 * not the library's is left. */
extern struct psci_guest_place guest;
void open_library(const char *board);
void reset_core(struct core *core);
void enter(struct core *core, struct psci_answer *answer);
void begun(struct core *core);
void call(struct core *core);
void wake(struct core *core);
bool take_exit(struct core *core);
bool was_refused(void);

/* vcpu.c: KVM's vCPU. Its registers its own thread alone asks for. */
struct kvm_vcpu_init;
_Noreturn void fail(const char *what);
int ask(int file, unsigned long request, void *argument, const char *what);
void set_attribute(int device, uint32_t group, uint64_t number, const void *value, const char *what);
void filter_calls(int vm);
unsigned long vcpu_number(const struct core *core);
void adopt(struct core *core, int vcpu, struct kvm_run *run, const struct kvm_vcpu_init *of);
void reset_vcpu(struct core *core);
uint64_t get_x(struct core *core, unsigned number);
uint64_t byte_order(struct core *core);
void set_x0(struct core *core, uint64_t value);
void set_state(struct core *core, uint32_t state);
void step(struct core *core, bool is_new);
void begin(struct core *core, const struct psci_answer *answer, uint64_t tree);

/* vmm.c: takes a core out of the guest, or out of its wait; with the lock in hand. */
void call_back(struct core *core);

/* cold.c: a machine's interrupt controller (version 3) and memory as they are at a cold boot. The first time keeps how
 * KVM begins, any later one fills that in again. */
enum { MOST_INTERRUPT_WORDS = 2 + 79 * 31 + 26 * MOST_CORES };
extern int interrupts;
void pass_interrupts(unsigned long request, uint64_t *words);
void reset_interrupts(void);
void empty_memory(uint8_t *memory, size_t size, size_t image);

/* guest.c: the machine and its memory. It is reset while no core runs. */
extern int machine;
void open_machine(bool has_ring);
void reset_machine(const char *image, const char *tree, const char *initrd);

/* devices.c: a console and a clock with an alarm. No access asks for what waits in the ring alone. */
void reset_alarm(void);
void access_memory(struct kvm_run *run);

/* record.c: docs/compare/RECORD.md, written under the lock, so its order is that of the lock. */
void record_into(const char *name, const char *board);
void record_call(const struct core *core, const uint64_t *x, const struct psci_answer *answer);
void record_enter(const struct core *core);
void record_begins(const struct core *core);
void record_stands(const struct core *core);
void record_message(const struct psci_frame *message, uint32_t start);
void record_wake(const struct core *core, const struct psci_guest_turn *turn);
void end_record(void);

#endif
