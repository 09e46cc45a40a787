/* A machine as at a cold boot: the interrupt controller as KVM begins it, and memory. Its words are passed both ways: by
 * this at each reset, and by move.c. Linux has KVM's names in Documentation/virt/kvm/devices/arm-vgic-v3.rst. */
#include "vmm.h"

#include <string.h>
#include <sys/mman.h>

int interrupts;

/* Words, in the order in which they are filled: how an interrupt is, then its line, then whether it is pending. */
enum part {
    ALL = KVM_DEV_ARM_VGIC_GRP_DIST_REGS,
    OWN = KVM_DEV_ARM_VGIC_GRP_REDIST_REGS,
    LINES = KVM_DEV_ARM_VGIC_GRP_LEVEL_INFO,
    ICC = KVM_DEV_ARM_VGIC_GRP_CPU_SYSREGS, /* by op0, op1, CRn, CRm and op2 */
};
struct row {
    enum part part;
    uint32_t at, many;
};
static const struct row types = {ALL, 0x0004, 1};
static const struct row rows_of_all[] = {{ALL, 0x0008, 1}, {ALL, 0x0000, 1}}; /* GICD_IIDR, GICD_CTLR */
/* Each 32 interrupts from 32 on have so many words. */
static const struct row rows_of_shared[] = {
    {ALL, 0x0084, 1}, {ALL, 0x0c08, 2},                      /* groups, edges or levels */
    {ALL, 0x0420, 8}, {ALL, 0x6100, 64}, {ALL, 0x0104, 1},   /* priorities, routes, enabled */
    {LINES, 32, 1}, {ALL, 0x0304, 1},                        /* lines, active */
    {ALL, 0x0204, 1},                                        /* pending */
};
static const struct row rows_of_core[] = {
    {OWN, 0x00000, 1}, {OWN, 0x00014, 1},                    /* GICR_CTLR, GICR_WAKER */
    {OWN, 0x10080, 1}, {OWN, 0x10c00, 2}, {OWN, 0x10400, 8}, /* as above */
    {OWN, 0x10100, 1}, {LINES, 0, 1}, {OWN, 0x10300, 1},
    {OWN, 0x10200, 1},                                       /* pending */
    {ICC, 0xc230, 1}, {ICC, 0xc643, 2}, {ICC, 0xc648, 1},    /* PMR; BPR0, AP0R0; AP1R0 */
    {ICC, 0xc663, 5},                                        /* BPR1, CTLR, SRE, IGRPEN0, IGRPEN1 */
};
/* What is written there turns off, or is no more active: the words above only turn on. */
static const struct row clears_of_shared[] = {{ALL, 0x0184, 1}, {ALL, 0x0384, 1}};
static const struct row clears_of_core[] = {{OWN, 0x10180, 1}, {OWN, 0x10380, 1}};
#define ROWS(rows) rows, sizeof rows / sizeof *rows

static uint64_t *pass_row(unsigned long request, struct row row, uint64_t affinity, uint64_t *words) {
    uint64_t step = row.part == LINES ? 32 : row.part == ICC ? 1 : 4;
    for (uint64_t k = 0; k < row.many; k++) {
        struct kvm_device_attr it = {0, row.part, affinity << 32 | (row.at + k * step), (uintptr_t)words++};
        ask(interrupts, request, &it, "the interrupt controller");
    }
    return words;
}

static uint64_t *pass_rows(unsigned long request, const struct row *rows, size_t many, unsigned times, uint64_t affinity,
                           uint64_t *words) {
    for (size_t k = 0; k < many; k++)
        words = pass_row(request, (struct row){rows[k].part, rows[k].at, rows[k].many * times}, affinity, words);
    return words;
}

static void clear(unsigned shared) {
    uint64_t ones[64];
    memset(ones, 0xff, sizeof ones);
    pass_rows(KVM_SET_DEVICE_ATTR, ROWS(clears_of_shared), shared, 0, ones);
    for (const struct core *core = cores; core < cores + many_cores; core++)
        pass_rows(KVM_SET_DEVICE_ATTR, ROWS(clears_of_core), 1, core->mpidr, ones);
}

void pass_interrupts(unsigned long request, uint64_t *words) {
    uint64_t type = 0;
    pass_row(KVM_GET_DEVICE_ATTR, types, 0, &type);
    unsigned shared = type & 31;
    if (request == KVM_SET_DEVICE_ATTR)
        clear(shared);
    words = pass_rows(request, ROWS(rows_of_all), 1, 0, words);
    words = pass_rows(request, ROWS(rows_of_shared), shared, 0, words);
    for (const struct core *core = cores; core < cores + many_cores; core++)
        words = pass_rows(request, ROWS(rows_of_core), 1, core->mpidr, words);
}

void reset_interrupts(void) {
    static uint64_t words[MOST_INTERRUPT_WORDS];
    static bool are_kept;
    pass_interrupts(are_kept ? KVM_SET_DEVICE_ATTR : KVM_GET_DEVICE_ATTR, words);
    are_kept = true;
}

/* What the image claims, by its header, is its own: it is as the image left it, until that is loaded anew. */
void empty_memory(uint8_t *memory, size_t size, size_t image) {
    enum { CLAIMED = 16, LARGEST_PAGE = 0x10000 };
    uint64_t claimed;
    memcpy(&claimed, memory + image + CLAIMED, sizeof claimed);
    size_t end = (image + claimed + LARGEST_PAGE - 1) / LARGEST_PAGE * LARGEST_PAGE;
    if (madvise(memory, image, MADV_DONTNEED) || (end < size && madvise(memory + end, size - end, MADV_DONTNEED)))
        fail("memory");
}
