/* Stops of cores whose power goes (stand.S), on caches of several shapes. */
#include "silicon.h"

#include <string.h>
#include <sys/mman.h>

/* What there is of caches: CLIDR_EL1, and by levels ways, sets, and a line's width. */
static const struct shape {
    uint64_t clidr;
    bool is_wide;
    struct { unsigned ways, sets, width; } levels[3];
} shapes[] = {
    {0x0a200023, false, {{2, 256, 6}, {16, 2048, 6}}},           /* Cortex-A57 of QEMU */
    {0x09200003, false, {{4, 128, 6}}},
    {0x03400103 | 1 << 3, false, {{3, 64, 5}, {8, 64, 6}, {1, 512, 7}}}, /* level 2 has instructions alone */
    {0x02000023, true, {{4, 64, 6}, {12, 1024, 6}}},             /* LoUIS is 0, since its caches are one; as FEAT_CCIDX has it */
    {0, false, {{0, 0, 0}}},
};
#define OWN_ECTLR (SMP_BIT | BIT(32) * 3 | BIT(35) * 3) /* it prefetches */
static uint8_t seen[3][64][4096];

static void take_shape(const struct shape *it) {
    registers[CLIDR] = it->clidr;
    registers[MMFR2] = it->is_wide ? 1 << 20 : 0;
    for (unsigned k = 0; k < 3; k++)
        sizes[k] = (it->levels[k].width - 4) | (uint64_t)(it->levels[k].ways - 1) << 3
                 | (uint64_t)(it->levels[k].sets - 1) << (it->is_wide ? 32 : 13);
}

/* Whether it is a line of this level, not seen before: its way at the top of 32 bits, its set above the bytes. */
static bool is_line(const struct shape *it, unsigned level, uint32_t line) {
    unsigned ways = it->levels[level].ways, bits = ways > 1 ? 32 - __builtin_clz(ways - 1) : 0;
    uint32_t way = bits ? line >> (32 - bits) : 0, set = (line & 0xffffffffu >> bits) >> it->levels[level].width;
    return way < ways && set < it->levels[level].sets && !seen[level][way][set]++;
}

/* Each line of these levels once, and no other. */
static void look_at_lines(const struct shape *it, unsigned levels) {
    unsigned wanted = 0, got = 0;
    memset(seen, 0, sizeof seen);
    for (unsigned k = 0; k < levels; k++)
        if ((it->clidr >> 3 * k & 7) >= 2)
            wanted += it->levels[k].ways * it->levels[k].sets;
    for (unsigned k = 0; k < many; k++) {
        uint64_t line = events[k].value, level = line >> 1 & 7;
        if (events[k].key != CISW)
            continue;
        if (level >= levels || !is_line(it, level, line))
            is_wrong("a line that is cleaned", line);
        got++;
    }
    if (got != wanted)
        is_wrong("how many lines are cleaned", got);
}

static void call_stand(const struct last_word *last, enum caches caches) {
    register const void *x0 __asm__("x0") = last;
    register uint64_t x1 __asm__("x1") = caches;
    __asm__ volatile("mov x19, sp\n mov sp, %2\n bl stand\n mov sp, x19"
                     : "+r"(x0), "+r"(x1) : "r"(stack + OUR_STACK)
                     : "x2", "x3", "x4", "x5", "x6", "x7", "x8", "x9", "x10", "x11", "x12", "x13", "x14", "x15", "x16",
                       "x17", "x19", "x30", "cc", "memory");
}

/* Of who leaves the others with its caches clean: off, cleaned, out, the word, WFI; and then as it was. */
static void look_at_order(const struct processor *it) {
    unsigned off = find(SCTLR | WRITE, 0), waits = find(WFI, 0), last = off, out = find(ECTLR | WRITE, off);
    for (unsigned k = 0; k < waits; k++)
        if (events[k].key == CISW)
            last = k;
    while (it->leaves != UNKNOWN && out < waits && events[out].value & SMP_BIT)
        out = find(ECTLR | WRITE, out + 1);
    if (off >= waits || events[off].value != M_BIT || find(DSB, last) >= waits)
        is_wrong("its caches are on as they are cleaned, or not clean as it goes on", off);
    if (it->leaves != UNKNOWN && (out < find(DSB, last) || find(DSB, out) >= waits))
        is_wrong("it is not out of coherency once its caches are clean", out);
    if (registers[SCTLR] != (C_BIT | M_BIT) || registers[ECTLR] != OWN_ECTLR)
        is_wrong("it comes back another one than it went", registers[ECTLR]);
    if (it->leaves != UNKNOWN && (events[find(OSDLR | WRITE, 0)].value != 1 || registers[OSDLR]))
        is_wrong("a debugger may hold up its power, or none may look at it again", registers[OSDLR]);
    unsigned prefetch = find(ECTLR | WRITE, off), first = find(CISW, off);
    if (it->leaves == PREFETCH && (events[prefetch].value != (SMP_BIT | BIT(38)) || prefetch > first))
        is_wrong("it prefetches as it cleans its caches", events[prefetch].value);
}

static void look_at_itself(void) {
    unsigned on = find(PWRCTLR | WRITE, 0), waits = find(WFI, 0);
    if (on >= waits || events[on].value != 1 || registers[PWRCTLR] || find(SCTLR | WRITE, 0) < many)
        is_wrong("CORE_PWRDN_EN", on);
}

/* The last word is in memory before the bell, and both are before it waits. */
static void look_at_word(bool by_register) {
    unsigned waits = find(WFI, 0), rings = by_register ? find(SGI | WRITE, 0) : waits, at = find(DSB, 0);
    while (at < rings && events[at].value != 1)
        at = find(DSB, at + 1);
    if (at >= rings || events[waits - 1].key != DSB || events[waits - 1].value != (by_register ? 1 : 3))
        is_wrong("no DSB is between its last word and its bell, or behind both", waits - at);
}

static void try_stop(const struct processor *it, const struct shape *shape, enum caches caches, bool by_register) {
    struct last_word *last = (void *)stack;
    unsigned all = shape->clidr >> 24 & 7, own = shape->clidr >> 21 & 7, levels = caches == OWN_CACHES && own ? own : all;
    power_on(it->midr, 0, it->csv2, it->ssbs);
    take_shape(shape);
    registers[SCTLR] = C_BIT | M_BIT;
    registers[ECTLR] = OWN_ECTLR;
    registers[SGI] = rung = word = 0;
    said = 77;
    *last = (struct last_word){&word, said, {by_register ? 0 : (uint64_t)&rung, 0x5000}};
    call_stand(last, caches);
    if (word != said || (by_register ? registers[SGI] : rung) != 0x5000 || find(WFI, 0) >= many)
        is_wrong("its last word and its bell", word);
    look_at_word(by_register);
    look_at_barriers();
    if (it->leaves == ITSELF) {
        look_at_itself();
    } else {
        look_at_lines(shape, levels);
        look_at_order(it);
    }
    tried++;
}

void try_stops(void) {
    stack = mmap(NULL, OUR_STACK, PROT_READ | PROT_WRITE, MAP_PRIVATE | MAP_ANONYMOUS, -1, 0);
    for (unsigned p = 0; p < many_processors; p++)
        for (unsigned k = 0; k < sizeof shapes / sizeof *shapes; k++)
            if (k > 0 || p % 5 == 0)
                for (unsigned how = 0; how < 4; how++)
                    try_stop(&processors[p], &shapes[k], how & 1 ? ALL_CACHES : OWN_CACHES, how & 2);
    stack = NULL;
}
