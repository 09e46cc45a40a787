/* A PL011 of which the data register alone does anything, and a PL031, whose alarm ends a suspend to memory. */
#include "move.h"

#include <stdio.h>
#include <string.h>
#include <time.h>

static pthread_mutex_t devices = PTHREAD_MUTEX_INITIALIZER;
static struct {
    uint32_t match, mask, pending, was; /* was: the level of its line */
} alarm_clock;
enum { TIME = 0x0, MATCH = 0x4, MASK = 0x10, PENDING = 0x14, MASKED = 0x18, CLEAR = 0x1c };

static void print(uint64_t at, uint8_t letter) {
    if (at == UART)
        hear((char)putchar(letter));
}

void pass_alarm(void) { pass(&alarm_clock, sizeof alarm_clock); }

/* Its line falls with the interrupt controller's, which is reset after it. */
void reset_alarm(void) {
    pthread_mutex_lock(&devices);
    memset(&alarm_clock, 0, sizeof alarm_clock);
    pthread_mutex_unlock(&devices);
}

/* What was written since, in a ring of KVM's. */
static void drain(void) {
    struct kvm_coalesced_mmio_ring *ring = (void *)((uint8_t *)cores[0].run + KVM_COALESCED_MMIO_PAGE_OFFSET * PAGE);
    uint32_t many = (PAGE - sizeof *ring) / sizeof ring->coalesced_mmio[0];
    while (ring->first != __atomic_load_n(&ring->last, __ATOMIC_ACQUIRE)) {
        struct kvm_coalesced_mmio *it = &ring->coalesced_mmio[ring->first];
        print(it->phys_addr, it->data[0]);
        __atomic_store_n(&ring->first, (ring->first + 1) % many, __ATOMIC_RELEASE);
    }
}

static void ring_alarm(void) {
    uint32_t now = (uint32_t)time(0);
    if (alarm_clock.match && now >= alarm_clock.match) {
        alarm_clock.pending = 1;
        alarm_clock.match = 0;
    }
    uint32_t level = alarm_clock.pending & alarm_clock.mask;
    struct kvm_irq_level it = {{KVM_ARM_IRQ_TYPE_SPI << KVM_ARM_IRQ_TYPE_SHIFT | (32 + CLOCK_LINE)}, level};
    if (level != alarm_clock.was)
        ask(machine, KVM_IRQ_LINE, &it, "an interrupt");
    alarm_clock.was = level;
}

static uint32_t read_clock(uint64_t at) {
    switch (at) {
    case TIME: return (uint32_t)time(0);
    case MATCH: return alarm_clock.match;
    case MASK: return alarm_clock.mask;
    case PENDING: return alarm_clock.pending;
    case MASKED: return alarm_clock.pending & alarm_clock.mask;
    default: return 0;
    }
}

static void write_clock(uint64_t at, uint32_t value) {
    if (at == MATCH)
        alarm_clock.match = value;
    else if (at == MASK)
        alarm_clock.mask = value & 1;
    else if (at == CLEAR && value & 1)
        alarm_clock.pending = 0;
}

static void write(uint64_t at, const uint8_t *data) {
    uint32_t value;
    memcpy(&value, data, sizeof value);
    if (at - CLOCK < PAGE)
        write_clock(at - CLOCK, value);
    else
        print(at, data[0]);
}

static void read(uint64_t at, uint8_t *data) {
    uint64_t value = at - CLOCK < PAGE ? read_clock(at - CLOCK) : 0;
    memcpy(data, &value, sizeof value);
}

void access_memory(struct kvm_run *run) {
    pthread_mutex_lock(&devices);
    drain();
    if (run && run->mmio.is_write)
        write(run->mmio.phys_addr, run->mmio.data);
    else if (run)
        read(run->mmio.phys_addr, run->mmio.data);
    ring_alarm();
    fflush(stdout);
    pthread_mutex_unlock(&devices);
}
