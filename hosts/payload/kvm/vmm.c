/* A small virtual machine monitor: four cores, 64 MiB, a GIC and a UART, and the kernel's own PSCI.
 *     vmm IMAGE TREE
 * runs an Image until it turns its system off. What it prints goes to standard output. */
#include <errno.h>
#include <fcntl.h>
#include <linux/kvm.h>
#include <pthread.h>
#include <signal.h>
#include <stdint.h>
#include <stdio.h>
#include <stdlib.h>
#include <string.h>
#include <sys/ioctl.h>
#include <sys/mman.h>
#include <unistd.h>

enum { CORES = 4, UART = 0x09000000, PAGE = 0x1000 };
#define MEMORY 0x40000000ul
#define SIZE 0x40000000ul
#define KERNEL 0x200000ul
#define TREE 0x3000000ul
#define DISTRIBUTOR 0x08000000ul
#define REDISTRIBUTORS 0x080a0000ul
/* vcpu registers by KVM's names: x0 and the program counter */
#define CORE_REGISTER(word) (KVM_REG_ARM64 | KVM_REG_SIZE_U64 | KVM_REG_ARM_CORE | (word))
enum { X0 = 0, PC = 64 };

static int machine, cores[CORES];
static struct kvm_run *runs[CORES];
static struct kvm_vcpu_init target;
static uint8_t *memory;
static const char *image, *tree;
static pthread_t threads[CORES];
static pthread_barrier_t all;
static pthread_mutex_t console = PTHREAD_MUTEX_INITIALIZER;
static volatile int is_over, is_reset;

static void stop(const char *what) {
    fprintf(stderr, "vmm: %s: %s\n", what, strerror(errno));
    exit(1);
}

static int ask(int file, unsigned long request, void *argument, const char *what) {
    int result = ioctl(file, request, argument);
    if (result < 0) stop(what);
    return result;
}

static void load(const char *name, uint64_t at) {
    FILE *file = fopen(name, "rb");
    if (!file || !fread(memory + at, 1, SIZE - at, file)) stop(name);
    fclose(file);
}

static void set_register(int core, uint64_t number, uint64_t value) {
    struct kvm_one_reg it = {CORE_REGISTER(number), (uintptr_t)&value};
    ask(cores[core], KVM_SET_ONE_REG, &it, "a register");
}

/* Core 0 is at the kernel's first instruction, the others are off. KVM_RUN begins with what is left of the last access:
 * one of the life before would put the core 4 bytes further. */
static void begin(int core) {
    struct kvm_vcpu_init it = target;
    runs[core]->exit_reason = KVM_EXIT_UNKNOWN;
    it.features[0] |= 1u << KVM_ARM_VCPU_PSCI_0_2 | (core ? 1u << KVM_ARM_VCPU_POWER_OFF : 0);
    ask(cores[core], KVM_ARM_VCPU_INIT, &it, "a core");
    if (core) return;
    set_register(0, X0, MEMORY + TREE);
    set_register(0, PC, MEMORY + KERNEL);
}

static void attribute(int device, uint32_t group, uint64_t number, uint64_t value) {
    struct kvm_device_attr it = {.group = group, .attr = number, .addr = (uintptr_t)&value};
    ask(device, KVM_SET_DEVICE_ATTR, &it, "the interrupt controller");
}

/* Memory of the machine, from this address on. */
static void *give_memory(uint32_t slot, uint64_t at, size_t size, uint32_t flags) {
    void *mine = mmap(0, size, PROT_READ | PROT_WRITE, MAP_PRIVATE | MAP_ANONYMOUS | MAP_NORESERVE, -1, 0);
    struct kvm_userspace_memory_region region = {slot, flags, at, size, (uintptr_t)mine};
    if (mine == MAP_FAILED) stop("memory");
    ask(machine, KVM_SET_USER_MEMORY_REGION, &region, "memory");
    return mine;
}

/* The UART's page reads as zeros, so it is always ready; what is written waits in a ring of the kernel's,
 * so that a letter costs no exit. */
static void open_console(void) {
    struct kvm_coalesced_mmio_zone zone = {.addr = UART, .size = PAGE};
    give_memory(1, UART, PAGE, KVM_MEM_READONLY);
    ask(machine, KVM_REGISTER_COALESCED_MMIO, &zone, "a ring of writes");
}

static void open_machine(void) {
    int kvm = open("/dev/kvm", O_RDWR | O_CLOEXEC);
    if (kvm < 0) stop("/dev/kvm");
    machine = ask(kvm, KVM_CREATE_VM, 0, "a machine");
    memory = give_memory(0, MEMORY, SIZE, 0);
    open_console();
    ask(machine, KVM_ARM_PREFERRED_TARGET, &target, "the kind of core");
    size_t size = (size_t)ask(kvm, KVM_GET_VCPU_MMAP_SIZE, 0, "a core's page");
    for (int core = 0; core < CORES; core++) {
        cores[core] = ask(machine, KVM_CREATE_VCPU, (void *)(intptr_t)core, "a core");
        runs[core] = mmap(0, size, PROT_READ | PROT_WRITE, MAP_SHARED, cores[core], 0);
        if (runs[core] == MAP_FAILED) stop("a core's page");
    }
}

static void open_interrupts(void) {
    struct kvm_create_device it = {.type = KVM_DEV_TYPE_ARM_VGIC_V3};
    ask(machine, KVM_CREATE_DEVICE, &it, "a GIC of version 3");
    attribute(it.fd, KVM_DEV_ARM_VGIC_GRP_ADDR, KVM_VGIC_V3_ADDR_TYPE_DIST, DISTRIBUTOR);
    attribute(it.fd, KVM_DEV_ARM_VGIC_GRP_ADDR, KVM_VGIC_V3_ADDR_TYPE_REDIST, REDISTRIBUTORS);
    attribute(it.fd, KVM_DEV_ARM_VGIC_GRP_CTRL, KVM_DEV_ARM_VGIC_CTRL_INIT, 0);
}

static void print(uint64_t at, uint8_t letter) {
    if (at == UART) putchar(letter);
}

/* Prints what waits in the ring. */
static void drain(void) {
    struct kvm_coalesced_mmio_ring *ring =
        (void *)((uint8_t *)runs[0] + KVM_COALESCED_MMIO_PAGE_OFFSET * PAGE);
    uint32_t many = (PAGE - sizeof *ring) / sizeof ring->coalesced_mmio[0];
    while (ring->first != __atomic_load_n(&ring->last, __ATOMIC_ACQUIRE)) {
        struct kvm_coalesced_mmio *it = &ring->coalesced_mmio[ring->first];
        print(it->phys_addr, it->data[0]);
        __atomic_store_n(&ring->first, (ring->first + 1) % many, __ATOMIC_RELEASE);
    }
}

/* A write for which the ring had no place; anything else reads as nothing. */
static void access_memory(struct kvm_run *run) {
    pthread_mutex_lock(&console);
    drain();
    if (run->mmio.is_write) print(run->mmio.phys_addr, run->mmio.data[0]);
    else memset(run->mmio.data, 0, sizeof run->mmio.data);
    pthread_mutex_unlock(&console);
}

static void leave_all(void) {
    for (int core = 0; core < CORES; core++) {
        runs[core]->immediate_exit = 1;
        pthread_kill(threads[core], SIGUSR1);
    }
}

static void end_system(const struct kvm_run *run) {
    if (run->system_event.type == KVM_SYSTEM_EVENT_RESET) is_reset = 1;
    else is_over = 1;
    leave_all();
}

/* One stay in the guest. */
static void run_once(int core) {
    struct kvm_run *run = runs[core];
    if (ioctl(cores[core], KVM_RUN, 0) < 0 && errno != EINTR && errno != EAGAIN) stop("KVM_RUN");
    else if (is_over || is_reset) return;
    else if (run->exit_reason == KVM_EXIT_MMIO) access_memory(run);
    else if (run->exit_reason == KVM_EXIT_SYSTEM_EVENT) end_system(run);
    else if (run->exit_reason != KVM_EXIT_INTR) {
        fprintf(stderr, "vmm: core %d: exit %u\n", core, run->exit_reason);
        is_over = 1;
        leave_all();
    }
}

/* A reset: every core has left the guest, the image is put there anew, and all begin again. */
static void *play(void *argument) {
    int core = (int)(intptr_t)argument;
    begin(core);
    pthread_barrier_wait(&all);
    while (!is_over) {
        run_once(core);
        if (!is_reset) continue;
        pthread_barrier_wait(&all);
        if (core == 0) load(image, KERNEL);
        runs[core]->immediate_exit = 0;
        begin(core);
        pthread_barrier_wait(&all);
        is_reset = 0;
        pthread_barrier_wait(&all);
    }
    return 0;
}

static void nothing(int signal) { (void)signal; }

int main(int many, char **words) {
    struct sigaction action = {.sa_handler = nothing};
    if (many != 3) return 2;
    image = words[1], tree = words[2];
    sigaction(SIGUSR1, &action, 0);
    open_machine();
    open_interrupts();
    load(image, KERNEL);
    load(tree, TREE);
    pthread_barrier_init(&all, 0, CORES);
    for (intptr_t core = 0; core < CORES; core++)
        if (pthread_create(&threads[core], 0, play, (void *)core)) stop("a thread");
    while (!is_over) {
        usleep(50000);
        pthread_mutex_lock(&console);
        drain();
        fflush(stdout);
        pthread_mutex_unlock(&console);
    }
    for (int core = 0; core < CORES; core++) pthread_join(threads[core], 0);
    drain();
    return 0;
}
