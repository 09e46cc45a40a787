/* The port's assembly as a program, on processors that replaced.c plays: resets, the way from the normal world and
 * back, stops, what is said of workarounds and let through of features, a GICv3's redistributors, and EL3's map. */
#define _GNU_SOURCE
#include "silicon.h"

#include "context.h"
#include "gic.h"

#include <pthread.h>
#include <stdio.h>
#include <string.h>
#include <sys/mman.h>
#include <unistd.h>

#define A57_FIRST (BIT(4) | BIT(32) | BIT(38) | BIT(54) | BIT(55) | BIT(59))
const struct processor processors[] = {
    {0x410fd034, 0, 0, SMPEN, vectors, {1, 1, 1}, ACTLR, BIT(44)}, /* Cortex-A53 */
    {0x410fd033, 0, 0, SMPEN, vectors, {1, 1, 1}, ACTLR, BIT(44) | BIT(24)},
    {0x410fd032, 0, 0, SMPEN, vectors, {1, 1, 1}, ACTLR, BIT(24)},
    {0x410fd042, 0, 0, SMPEN, vectors, {1, 1, 1}, 0, 0},  /* A35 */
    {0x411fd050, 1, 0, ITSELF, vectors, {1, 1, 1}, 0, 0}, /* A55 */
    {0x410fd070, 0, 0, PREFETCH, vectors_mmu, {0, 1, 0}, ACTLR, A57_FIRST},
    {0x411fd071, 0, 0, PREFETCH, vectors_mmu, {0, 1, 0}, ACTLR, A57_FIRST},
    {0x411fd072, 0, 0, PREFETCH, vectors_mmu, {0, 1, 0}, ACTLR, BIT(4) | BIT(32) | BIT(38) | BIT(55)},
    {0x411fd073, 0, 0, PREFETCH, vectors_mmu, {0, 1, 0}, ACTLR, BIT(32) | BIT(55)},
    {0x411fd074, 0, 0, PREFETCH, vectors_mmu, {0, 1, 0}, ACTLR, BIT(55)},
    {0x410fd083, 0, 0, PREFETCH, vectors_mmu, {0, 1, 0}, ACTLR, BIT(32) | BIT(55)}, /* A72 */
    {0x411fd080, 1, 0, PREFETCH, vectors_loop, {1, 1, 1}, ACTLR, BIT(55)},
    {0x410fd092, 0, 0, SMPEN, vectors, {-1, 1, -1}, A73_REG, BIT(3)},
    {0x410fd0a1, 0, 0, ITSELF, vectors, {-1, 1, -1}, A75_ACTLR, BIT(35)},
    {0x413fd0a0, 1, 0, ITSELF, vectors, {1, 1, -1}, A75_ACTLR, BIT(35)},
    {0x414fd0b1, 1, 1, ITSELF, vectors_loop, {1, 1, 1}, 0, 0}, /* A76 */
    {0x414fd0c1, 1, 1, ITSELF, vectors_loop, {1, 1, 1}, 0, 0}, /* Neoverse-N1 */
    {0x410fd490, 1, 1, ITSELF, vectors_loop, {1, 1, 1}, 0, 0}, /* Neoverse-N2 */
    {0x461f0010, 1, 0, UNKNOWN, vectors, {1, -1, -1}, 0, 0},   /* A64FX */
    {0x000f0510, 3, 2, UNKNOWN, vectors, {1, 1, 1}, 0, 0},     /* QEMU's max */
    {0x510fd070, 0, 0, UNKNOWN, vectors, {-1, -1, -1}, 0, 0},  /* another maker's, with the number of Arm's A57 */
};
const unsigned many_processors = sizeof processors / sizeof *processors;
/* Reset --------------------------------------------------------------------------------------- */

static const uint64_t mpidrs[] = {MPIDRS, SCP_MPIDR};

void on_reset(void) {
    uint64_t here = (uint64_t)__builtin_frame_address(0);
    if (here > registers[TPIDR] || here < registers[TPIDR] - 256)
        is_wrong("the stack of a core is not at its place", here);
    siglongjmp(back, RESET);
}

extern char map[];

/* Nothing of before is left that the port counts on, and all is in its order. */
static void look_at_reset(const struct processor *it) {
    const struct { unsigned key; uint64_t value; } set[] = {
        {SCTLR, 0x30c5183d}, /* MMU, caches, alignment of stacks */
        {SCR, 0x535},        /* of the normal world, AArch64, HVC; FIQs alone come here */
        {CPTR, 0}, {MDCR, 0}, {TTBR, (uint64_t)map}, {MAIR, 0x04ff}, {CNTFRQ, 62500000},
        {TRANSLATION, 0x80803520}, /* 4 GB by pages of 4 KB, walks inner shareable and write-back */
        {VBAR, (uint64_t)it->vectors},
    };
    unsigned caches = find(SCTLR | WRITE, 0);
    for (unsigned k = 0; k < sizeof set / sizeof *set; k++)
        if (registers[set[k].key] != set[k].value)
            is_wrong("a register behind a reset", set[k].key);
    if (find(TLBI, 0) > caches || find(ALLE2, 0) > caches || find(ALLE1, 0) > caches || find(IALLU, 0) > caches)
        is_wrong("its TLBs and its instructions are those of before", 0);
    if (find(SCR | WRITE, 0) > find(ALLE2, 0) || find(SCR | WRITE, 0) > find(ALLE1, 0))
        is_wrong("nobody has said yet whose EL2 and EL1 forget", find(SCR | WRITE, 0));
    look_at_barriers();
    if (it->key && (registers[it->key] != it->bits || find(it->key | WRITE, 0) > caches))
        is_wrong("its errata", registers[it->key]);
    bool has_smpen = it->leaves == SMPEN || it->leaves == PREFETCH;
    if (has_smpen != (find(ECTLR | WRITE, 0) < caches && registers[ECTLR] == SMP_BIT))
        is_wrong("SMPEN", registers[ECTLR]);
    for (unsigned k = 0; k < many; k++) {
        unsigned key = events[k].key & ~WRITE;
        if (key >> 14 == 3 && (key >> 7 & 15) == 15 && key != it->key && !has_smpen)
            is_wrong("a register that this processor does not have", key);
    }
}

static int end_of_reset(void) {
    int end = sigsetjmp(back, 0);
    if (!end)
        ((void (*)(void))reset)();
    return end;
}

static void try_resets(void) {
    for (unsigned k = 0; k < many_processors; k++)
        for (unsigned core = 0; core <= sizeof mpidrs / sizeof *mpidrs; core++) {
            bool is_listed = core < sizeof mpidrs / sizeof *mpidrs;
            power_on(processors[k].midr, is_listed ? mpidrs[core] : 0x7f, processors[k].csv2, processors[k].ssbs);
            int end = end_of_reset();
            if (end != (is_listed ? RESET : WAITS))
                is_wrong("how a reset ends", end);
            if (is_listed && registers[TPIDR] != STACKS + STACK * (core + 1) - 16)
                is_wrong("the stack of another core", registers[TPIDR]);
            look_at_reset(&processors[k]);
            tried++;
        }
}

/* The way from the normal world and back -------------------------------------------------------- */

/* By which vector, or with what, C was called. */
static uint64_t came_by;

void on_exception(struct context *context, uint64_t esr) { (void)context, came_by = esr; }
void on_fiq(void) { came_by = 10; }
_Noreturn void on_unexpected(uint64_t vector, uint64_t esr, uint64_t elr, uint64_t far) {
    (void)esr, (void)elr, (void)far;
    came_by = vector;
    siglongjmp(back, UNEXPECTED);
}

static uint64_t taken[32];
static _Noreturn void take(const char *vector) {
    __asm__ volatile("mov x19, %0\n mov x20, %1\n mov sp, %2\n"
                     "ldp x0, x1, [x19]\n ldp x2, x3, [x19, #16]\n ldp x4, x5, [x19, #32]\n ldp x6, x7, [x19, #48]\n"
                     "ldp x8, x9, [x19, #64]\n ldp x10, x11, [x19, #80]\n ldp x12, x13, [x19, #96]\n"
                     "ldp x14, x15, [x19, #112]\n ldp x16, x17, [x19, #128]\n ldr x18, [x19, #144]\n"
                     "mov x30, x20\n br x20" ::"r"(taken), "r"(vector), "r"(STACKS + STACK - 16) : "x19", "x20");
    __builtin_unreachable();
}

/* What it does between the vector and C, of the predictor. */
static void look_at_way(const char *table) {
    unsigned off = find(SCTLR | WRITE, 0), on = find(SCTLR | WRITE, off + 1), dsb = find(NEAR_DSB, 0);
    bool is_by_mmu = on < many && !(events[off].value & M_BIT) && events[on].value & M_BIT && find(ISB, off) < on;
    if (is_by_mmu != (table == vectors_mmu) || (dsb < many) != (table == vectors_loop))
        is_wrong("what a processor forgets on the way", is_by_mmu);
    look_at_barriers();
}

/* 32 turns of a branch that is taken, and one back. */
static void try_loop(void) {
    static const uint32_t loop[] = {0xd2800401, 0x14000001, 0xf1000421, 0x54ffffc1};
    for (unsigned offset = 0x400; offset <= 0x500; offset += 0x100, tried++)
        if (!memmem(vectors_loop + offset, 128, loop, sizeof loop))
            is_wrong("what makes a predictor forget", offset);
}

static int end_of(const char *vector) {
    int end = sigsetjmp(back, 0);
    if (!end)
        take(vector);
    return end;
}

static void try_vectors(void) {
    static const struct { unsigned offset, by; int end; } ways[] = {
        {0x400, 0x5e000000, LEAVES}, {0x480, 9, UNEXPECTED}, {0x500, 10, LEAVES}, {0x580, 11, UNEXPECTED},
        {0x200, 4, UNEXPECTED}, {0x380, 7, UNEXPECTED}, {0x600, 12, UNEXPECTED}, {0x780, 15, UNEXPECTED}};
    const char *const tables[] = {vectors, vectors_mmu, vectors_loop};
    for (unsigned k = 0; k < 31; k++)
        taken[k] = 0x1111111111111111 * (k % 15) + k;
    for (unsigned k = 0; k < 3 * sizeof ways / sizeof *ways; k++) {
        const char *table = tables[k % 3];
        power_on(0x411fd070, 0, 0, 0);
        registers[SCTLR] = C_BIT | M_BIT;
        registers[KEY(3, 6, 5, 2, 0)] = 0x5e000000; /* ESR */
        registers[TPIDR] = STACKS + STACK - 16;
        int end = end_of(table + ways[k / 3].offset);
        if (end != ways[k / 3].end || came_by != ways[k / 3].by)
            is_wrong("where a vector leads", ways[k / 3].offset);
        if (end == LEAVES && memcmp(left, taken, 19 * 8) != 0)
            is_wrong("a register over a call", ways[k / 3].offset);
        if (end == LEAVES)
            look_at_way(table);
        tried++;
    }
}

/* The calling convention, and the interrupt controllers ------------------------------------------ */

static void try_workarounds(void) {
    static const uint32_t words[] = {0x80008000, 0x80007fff, 0x80003fff};
    for (unsigned k = 0; k < many_processors; k++)
        for (unsigned of = 0; of < 3; of++) {
            uint64_t asks[] = {0x80000001, words[of], 0, 0}, calls[] = {words[of], 0, 0, 0};
            int8_t right = processors[k].workarounds[of];
            power_on(processors[k].midr, 0, processors[k].csv2, processors[k].ssbs);
            if (answer_beside(asks) != (uint32_t)right || answer_beside(calls) != (right < 0 ? ~0ull : 0))
                is_wrong("what is said of a workaround", words[of]);
            tried++;
        }
}

/* Each redistributor follows, some time after it was told, and has settled what was written. */
static void *follow(void *unused) {
    (void)unused;
    for (;;) {
        usleep(300);
        for (unsigned k = 0; k < CORES + 1; k++) {
            mmio32(GICR + 0x20000 * k) &= ~8u;
            uint32_t told = mmio32(GICR + 0x20000 * k + 0x14);
            mmio32(GICR + 0x20000 * k + 0x14) = (told & ~4u) | (told & 2) << 1;
        }
    }
    return NULL;
}

static void try_redistributors(void) {
    pthread_t follower;
    uint64_t number;
    mmap((void *)GICR, 0x20000 * (CORES + 1), PROT_READ | PROT_WRITE, MAP_PRIVATE | MAP_ANONYMOUS | MAP_FIXED, -1, 0);
    for (unsigned k = 0; k <= CORES; k++) {
        mmio32(GICR + 0x20000 * k + 0xc) = mpidrs[CORES - k];
        mmio32(GICR + 0x20000 * k + 0x14) = 6;
        memset((void *)(uintptr_t)(GICR + 0x20000 * k + 0x10400), 0xff, 32);
    }
    pthread_create(&follower, NULL, follow, NULL);
    for (number = 0; number < CORES; number++) {
        volatile uint32_t *waker = &mmio32(GICR + 0x20000 * (CORES - number) + 0x14);
        power_on(0x411fd070, mpidrs[number], 0, 0);
        registers[TPIDR] = (uint64_t)&number;
        gic_start_core(number);
        if (*waker)
            is_wrong("a redistributor sleeps as its core starts", *waker);
        for (unsigned id = BELL; id <= TIMER; id += TIMER - BELL)
            if (*((uint8_t *)waker + 0x103ec + id))
                is_wrong("the priority of an interrupt of EL3 is unknown", id);
        registers[GROUP0] = registers[GROUP1] = 1;
        uint64_t groups = gic_sleeps();
        if (registers[GROUP0] || registers[GROUP1])
            is_wrong("a redistributor sleeps with groups on", number);
        if (*waker != 6)
            is_wrong("a redistributor is awake as its core goes", *waker);
        gic_rises(groups);
        if (registers[GROUP0] != 1 || registers[GROUP1] != 1)
            is_wrong("a core that comes back hears nothing", number);
        if (*waker)
            is_wrong("a redistributor sleeps as its core comes back", *waker);
        mmio32(GICR + 0x20000 * (CORES - number)) = 8; /* RWP */
        gic_forget();
        if (mmio32(GICR + 0x20000 * (CORES - number)))
            is_wrong("what is written into a redistributor is not waited for", number);
        tried++;
    }
}

/* A core whose number takes all fields, and one above 15 in its row, as ICC_SGI0R_EL1 and TYPER name them. */
static void try_bells(void) {
    static const struct { uint64_t mpidr, rings; uint32_t typer; } bells[] = {
        {0x100020345, 0x000140020f030020, 0x01020345}, {0x1f, 0x000010000f008000, 0x1f}};
    for (unsigned k = 0; k < 2; k++, tried++) {
        power_on(0x411fd070, bells[k].mpidr, 0, 0);
        mmio32(GICR + 0xc) = bells[k].typer;
        gic_start_core(0);
        if (gic_bell(0).value != bells[k].rings)
            is_wrong("which core a bell rings", gic_bell(0).value);
    }
}

/* None ends the wait of a core that is off. */
void v2_gic_bell_alone(void), v2_gic_opens(void);
static void try_groups(void) {
    power_on(0x411fd070, 0, 0, 0);
    v2_gic_opens(), gic_opens();
    if (mmio32(GICC) != 0xb || registers[GROUP1] != 1)
        is_wrong("what wakes a core is not heard", mmio32(GICC));
    v2_gic_bell_alone(), gic_bell_alone();
    if (mmio32(GICC) != 9 || registers[GROUP1])
        is_wrong("an interrupt ends the wait of a core that is off", mmio32(GICC));
    tried++;
}

/* A distributor that a reset of the cores has left as it was: none of its interrupts is on, pending or active. */
void v2_gic_start(void);

static void try_distributor(void (*start)(void)) {
    memset((void *)GICD, 0, 0x10000);
    start();
    for (unsigned at = 1; at < 32; at++)
        for (unsigned clears = 0x180; clears <= 0x380; clears += 0x100)
            if (mmio32(GICD + clears + 4 * at) != ~0u)
                is_wrong("an interrupt of before is left", clears + 4 * at);
    tried++;
}

/* The map of EL3: each page of the machine by itself, as it is and by what Arm's manual has for what stands there. */
enum { DEVICE = 1 << 2, NS = 1 << 5, AP1 = 1 << 6, READ_ONLY = 1 << 7, INNER = 3 << 8, USED = 1 << 10 };
#define NEVER BIT(54)
#define OUTPUT (BIT(48) - BIT(12))

static uint64_t wanted_of(uint64_t page) {
    bool is_stack = page >= STACKS && page < STACKS_END;
    if (page < 0x08000000)
        return USED | AP1 | INNER | READ_ONLY;
    if (page < 0x0e000000)
        return USED | AP1 | DEVICE | NEVER;
    if (page < 0x0f000000)
        return is_stack && (page - STACKS) % STACK < GUARD ? 0 : USED | AP1 | INNER | NEVER;
    return page >= 0x40000000 && page < 0x80000000 ? USED | AP1 | INNER | NEVER | NS : 0;
}

/* By the tables, from where TCR has a walk begin. */
static uint64_t entry_of(uint64_t page, unsigned *shift) {
    const uint64_t *table = (const void *)map;
    unsigned width = 64 - (TCR & 63);
    for (*shift = 39; *shift >= width; *shift -= 9) {
    }
    while (*shift > 12 && (table[page >> *shift & 511] & 3) == 3)
        table = (const void *)(table[page >> *shift & 511] & OUTPUT), *shift -= 9;
    return table[page >> *shift & 511];
}

static void try_map(void) {
    for (uint64_t page = 0; page < BIT(64 - (TCR & 63)); page += 4096) {
        unsigned shift;
        uint64_t entry = entry_of(page, &shift), wanted = wanted_of(page), is = shift == 12 ? 3 : 1;
        if (wanted ? entry != ((page & -BIT(shift)) | wanted | is) : entry & 1)
            is_wrong("a page in the map of EL3", page);
    }
    tried++;
}

/* By the least line of data caches, and in memory as it goes on. */
void clean_these(const void *first, const void *end);

static void try_cleaning(void) {
    unsigned lines = 0;
    power_on(0x410fd034, 0, 0, 0);
    registers[CTR] = 0x80030006; /* data: 32 bytes; instructions: 256 */
    clean_these((void *)0x1010, (void *)0x10a0);
    for (unsigned k = 0; k < many; k++)
        lines += events[k].key == CIVAC && events[k].value == 0x1000 + 32 * lines;
    if (lines != 5 || events[many - 1].key != DSB)
        is_wrong("what is cleaned by address", lines);
    tried++;
}

int main(void) {
    mmap((void *)STACKS, STACKS_END - STACKS, PROT_READ | PROT_WRITE, MAP_PRIVATE | MAP_ANONYMOUS | MAP_FIXED, -1, 0);
    replace();
    try_resets();
    try_map();
    try_vectors();
    try_loop();
    try_entries();
    try_cleaning();
    try_stops();
    try_workarounds();
    try_features();
    try_redistributors();
    try_bells();
    mmap((void *)GICD, 0x20000, PROT_READ | PROT_WRITE, MAP_PRIVATE | MAP_ANONYMOUS | MAP_FIXED, -1, 0);
    try_groups();
    try_distributor(v2_gic_start);
    try_distributor(gic_start);
    printf("%u resets, ways, stops and answers; wrong %u\n", tried, wrong);
    return wrong != 0;
}
