/* The machine as KVM makes it. */
#include "move.h"

#include <fcntl.h>
#include <stdio.h>
#include <string.h>
#include <sys/ioctl.h>
#include <sys/mman.h>

int machine;
static uint8_t *memory;

static void load(const char *name, uint64_t at) {
    FILE *file = fopen(name, "rb");
    if (!file || !fread(memory + at, 1, MEMORY_SIZE - at, file))
        fail(name);
    fclose(file);
}

/* As at a cold boot: each life begins so. The image comes first and last: its header says what memory is its own, and a
 * guest may have written over that. */
void reset_machine(const char *image, const char *tree, const char *initrd) {
    reset_alarm();
    reset_interrupts();
    load(image, KERNEL);
    empty_memory(memory, MEMORY_SIZE, KERNEL);
    load(image, KERNEL);
    load(tree, TREE);
    if (initrd)
        load(initrd, INITRD);
}

/* Page by page, without those that are empty. */
void pass_memory(void) {
    static const uint8_t empty[PAGE];
    for (uint64_t at = 0; at < MEMORY_SIZE; at += PAGE) {
        bool has_some = memcmp(memory + at, empty, PAGE);
        pass(&has_some, sizeof has_some);
        if (has_some)
            pass(memory + at, PAGE);
    }
}

static void *give_memory(uint32_t slot, uint64_t at, size_t size, uint32_t flags) {
    void *mine = mmap(0, size, PROT_READ | PROT_WRITE, MAP_PRIVATE | MAP_ANONYMOUS, -1, 0);
    struct kvm_userspace_memory_region region = {slot, flags, at, size, (uintptr_t)mine};
    if (mine == MAP_FAILED)
        fail("memory");
    ask(machine, KVM_SET_USER_MEMORY_REGION, &region, "memory");
    return mine;
}

/* Without PSCI_0_2 KVM would answer the words of PSCI 0.1 itself. */
static void open_core(struct core *core, int kvm, struct kvm_vcpu_init kind) {
    size_t size = (size_t)ask(kvm, KVM_GET_VCPU_MMAP_SIZE, 0, "a core's page");
    int vcpu = ask(machine, KVM_CREATE_VCPU, (void *)vcpu_number(core), "a core");
    struct kvm_run *run = mmap(0, size, PROT_READ | PROT_WRITE, MAP_SHARED, vcpu, 0);
    if (run == MAP_FAILED)
        fail("a core's page");
    kind.features[0] |= 1u << KVM_ARM_VCPU_PSCI_0_2;
    adopt(core, vcpu, run, &kind);
}

static void open_interrupts(void) {
    struct kvm_create_device gic = {.type = KVM_DEV_TYPE_ARM_VGIC_V3};
    uint64_t distributor = DISTRIBUTOR, redistributors = REDISTRIBUTORS;
    ask(machine, KVM_CREATE_DEVICE, &gic, "a GIC of version 3");
    interrupts = gic.fd;
    set_attribute(gic.fd, KVM_DEV_ARM_VGIC_GRP_ADDR, KVM_VGIC_V3_ADDR_TYPE_DIST, &distributor, "the GIC");
    set_attribute(gic.fd, KVM_DEV_ARM_VGIC_GRP_ADDR, KVM_VGIC_V3_ADDR_TYPE_REDIST, &redistributors, "the GIC");
    set_attribute(gic.fd, KVM_DEV_ARM_VGIC_GRP_CTRL, KVM_DEV_ARM_VGIC_CTRL_INIT, 0, "the GIC");
}

/* The console's page is memory of which a read costs no exit: its flags say that it is ready. A letter costs one unless
 * a ring takes it. */
static void open_console(bool has_ring) {
    enum { FLAGS = 0x18, EMPTY = 0x90 };
    struct kvm_coalesced_mmio_zone zone = {.addr = UART, .size = PAGE};
    uint8_t *page = give_memory(1, UART, PAGE, KVM_MEM_READONLY);
    page[FLAGS] = EMPTY;
    if (has_ring)
        ask(machine, KVM_REGISTER_COALESCED_MMIO, &zone, "a ring of writes");
}

void open_machine(bool has_ring) {
    struct kvm_vcpu_init kind;
    int kvm = open("/dev/kvm", O_RDWR | O_CLOEXEC);
    if (kvm < 0)
        fail("/dev/kvm");
    machine = ask(kvm, KVM_CREATE_VM, 0, "a machine");
    filter_calls(machine);
    memory = give_memory(0, MEMORY, MEMORY_SIZE, 0);
    open_console(has_ring);
    ask(machine, KVM_ARM_PREFERRED_TARGET, &kind, "the kind of core");
    for (struct core *core = cores; core < cores + many_cores; core++)
        open_core(core, kvm, kind);
    open_interrupts();
    reset_interrupts();
}
