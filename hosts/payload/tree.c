/* Reads what is needed out of a flattened device tree. */
#include "machine.h"

enum { MAGIC = 0xd00dfeed, BEGIN = 1, END = 2, PROPERTY = 3, NOTHING = 4, DEEPEST = 12 };

struct machine machine;
uint64_t affinities[MOST_CORES];

/* what was seen of a node, and how many cells numbers of its children have */
struct node {
    const char *compatible, *method, *device_type, *status;
    const uint32_t *reg, *interrupts;
    uint32_t compatible_length, interrupts_length, address_cells, size_cells, reg_shift;
};

static uint32_t big(const uint32_t *at) { return __builtin_bswap32(*at); }

static uint64_t cells(const uint32_t *at, uint32_t many) {
    uint64_t value = 0;
    while (many--) value = value << 32 | big(at++);
    return value;
}

static int same(const char *left, const char *right) {
    while (*left && *left == *right) left++, right++;
    return *left == *right;
}

static int is_compatible(const struct node *node, const char *with) {
    for (uint32_t at = 0; at < node->compatible_length; at++)
        if ((at == 0 || !node->compatible[at - 1]) && same(node->compatible + at, with)) return 1;
    return 0;
}

static void keep_core(uint64_t affinity) {
    uint32_t at = machine.cores;
    if (at == MOST_CORES) return;
    for (; at && affinities[at - 1] > affinity; at--) affinities[at] = affinities[at - 1];
    affinities[at] = affinity;
    machine.cores++;
}

static void keep_gic(const struct node *node, const struct node *above, uint32_t version) {
    uint32_t step = above->address_cells + above->size_cells;
    machine.gic_version = version;
    machine.gic = cells(node->reg, above->address_cells);
    machine.gic_of_core = cells(node->reg + step, above->address_cells);
}

static void keep_memory(const struct node *node, const struct node *above, uint64_t at) {
    if (machine.memory_end || !node->device_type || !same(node->device_type, "memory")) return;
    machine.memory = at;
    machine.memory_end = at + cells(node->reg + above->address_cells, above->size_cells);
}

/* A node is over: keeps what it says. */
static void keep(const struct node *node, const struct node *above) {
    if (node->status && same(node->status, "disabled")) return; /* as what is the secure world's */
    uint64_t at = node->reg ? cells(node->reg, above->address_cells) : 0;
    if (node->device_type && same(node->device_type, "cpu") && node->reg) keep_core(at);
    if (node->reg) keep_memory(node, above, at);
    if (node->method) machine.is_smc = same(node->method, "smc");
    if (is_compatible(node, "arm,pl011") && !machine.uart) machine.uart = at;
    if (is_compatible(node, "ns16550a") && !machine.uart)
        machine.uart = at, machine.uart_kind = OF_8250, machine.uart_shift = node->reg_shift;
    if (is_compatible(node, "cdns,uart-r1p12") && !machine.uart)
        machine.uart = at, machine.uart_kind = OF_CADENCE;
    if (is_compatible(node, "virtio,mmio") && at && is_virtio_console(at)) machine.virtio = at;
    if (is_compatible(node, "arm,gic-v3")) keep_gic(node, above, 3);
    if (is_compatible(node, "arm,cortex-a15-gic") || is_compatible(node, "arm,gic-400"))
        keep_gic(node, above, 2);
    if (is_compatible(node, "brcm,bcm2836-l1-intc")) machine.gic = at;
    /* the second interrupt is that of the physical timer of EL1; the first cell says that it is a
     * core's own */
    if (is_compatible(node, "arm,armv8-timer") && node->interrupts_length >= 24)
        machine.timer = 16 + big(node->interrupts + 4);
}

static void property(struct node *node, const char *name, const uint32_t *value, uint32_t length) {
    if (same(name, "compatible"))
        node->compatible = (const char *)value, node->compatible_length = length;
    if (same(name, "method")) node->method = (const char *)value;
    if (same(name, "device_type")) node->device_type = (const char *)value;
    if (same(name, "status")) node->status = (const char *)value;
    if (same(name, "reg")) node->reg = value;
    if (same(name, "reg-shift")) node->reg_shift = big(value);
    if (same(name, "interrupts")) node->interrupts = value, node->interrupts_length = length;
    if (same(name, "#address-cells")) node->address_cells = big(value);
    if (same(name, "#size-cells")) node->size_cells = big(value);
}

int read_tree(const void *tree) {
    const uint32_t *words = tree;
    static struct node nodes[DEEPEST];
    uint32_t depth = 0;
    if (big(words) != MAGIC) return 0;
    const char *names = (const char *)tree + big(words + 3);
    for (const uint32_t *at = (const uint32_t *)((const char *)tree + big(words + 2));;) {
        uint32_t token = big(at++);
        if (token == BEGIN && depth + 1 < DEEPEST) {
            nodes[++depth] = (struct node){.address_cells = 2, .size_cells = 1};
            const char *name = (const char *)at;
            while (*name) name++;
            at = (const uint32_t *)(((uintptr_t)name + 4) & ~3ul);
        } else if (token == END && depth) {
            keep(&nodes[depth], &nodes[depth - 1]);
            depth--;
        } else if (token == PROPERTY) {
            property(&nodes[depth], names + big(at + 1), at + 2, big(at));
            at += 2 + (big(at) + 3) / 4;
        } else if (token != NOTHING) break;
    }
    return machine.cores && (machine.uart || machine.virtio);
}
