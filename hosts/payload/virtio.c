/* A virtio console on MMIO, legacy or of version 1: a line is handed over as one buffer, and waited for. */
#include "machine.h"

enum { VERSION = 0x04, DEVICE = 0x08, FEATURES = 0x20, FEATURES_OF = 0x24, PAGE_SIZE = 0x28 };
enum { QUEUE = 0x30, QUEUE_SIZE = 0x38, QUEUE_ALIGN = 0x3c, QUEUE_PAGE = 0x40, QUEUE_READY = 0x44 };
enum { NOTIFY = 0x50, STATUS = 0x70, DESCRIPTORS = 0x80, AVAILABLE = 0x90, USED = 0xa0 };
enum { ACKNOWLEDGED = 1, DRIVER = 2, DRIVER_OK = 4, FEATURES_OK = 8 };
enum { MAGIC = 0x74726976, CONSOLE = 3, TRANSMIT = 1, LEGACY = 1, PAGE = 4096, LINE = 512 };

/* the transmit queue with one descriptor, as the legacy layout has it */
static struct {
    uint64_t address;
    uint32_t length;
    uint16_t flags, next;
    volatile uint16_t no_interrupt, given, ring[1];
    uint8_t to_page[PAGE - 16 - 6];
    volatile uint16_t used_flags, taken;
    uint8_t to_end[PAGE - 4];
} queue __attribute__((aligned(4096)));

static char text[LINE];
static uint32_t many, is_ready;

static void barrier(void) { __asm__ volatile("dsb sy" ::: "memory"); }

int is_virtio_console(uint64_t at) { return load(at) == MAGIC && load(at + DEVICE) == CONSOLE; }

static void set(uint64_t at, const volatile void *where) {
    store(machine.virtio + at, (uint32_t)(uintptr_t)where);
    store(machine.virtio + at + 4, (uint32_t)((uintptr_t)where >> 32));
}

static void give_queue(uint32_t is_legacy) {
    store(machine.virtio + QUEUE, TRANSMIT);
    store(machine.virtio + QUEUE_SIZE, 1);
    if (is_legacy) {
        store(machine.virtio + QUEUE_ALIGN, PAGE);
        store(machine.virtio + QUEUE_PAGE, (uint32_t)((uintptr_t)&queue / PAGE));
    } else {
        set(DESCRIPTORS, &queue);
        set(AVAILABLE, &queue.no_interrupt);
        set(USED, &queue.used_flags);
        store(machine.virtio + QUEUE_READY, 1);
    }
}

static void begin(void) {
    uint32_t is_legacy = load(machine.virtio + VERSION) == LEGACY, status = ACKNOWLEDGED | DRIVER;
    store(machine.virtio + STATUS, 0);
    store(machine.virtio + STATUS, status);
    store(machine.virtio + FEATURES_OF, 0);
    store(machine.virtio + FEATURES, 0);
    if (is_legacy) {
        store(machine.virtio + PAGE_SIZE, PAGE);
    } else { /* bit 32 of the features: version 1 */
        store(machine.virtio + FEATURES_OF, 1);
        store(machine.virtio + FEATURES, 1);
        store(machine.virtio + STATUS, status |= FEATURES_OK);
    }
    give_queue(is_legacy);
    queue.no_interrupt = 1;
    store(machine.virtio + STATUS, status | DRIVER_OK);
    is_ready = 1;
}

void virtio_put(char letter) {
    text[many++] = letter;
    if (letter != '\n' && many != LINE) return;
    if (!is_ready) begin();
    queue.address = (uintptr_t)text;
    queue.length = many;
    queue.ring[0] = 0;
    barrier();
    queue.given++;
    barrier();
    store(machine.virtio + NOTIFY, TRANSMIT);
    while (queue.taken != queue.given) barrier();
    many = 0;
}
