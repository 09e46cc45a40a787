/* A plugin of QEMU, which has no caches: what the port's cores would have in theirs. Each core has a cache, and those of
 * a cluster share one. It tells what a machine would lose, or not see (`names`). QEMU 7 shows a plugin no register, so in
 * a build with -DCACHE_MODEL a load stands before each `dc` of an address, and a read of `marks` shows that cluster N is
 * switched off ([N]) and that a core is of cluster N ([64 + N]): machine.h. `run --cache-model` passes `words`. */
#include <stdint.h>
#include <pthread.h>
#include <stdbool.h>
#include <stdio.h>
#include <stdlib.h>
#include <string.h>

/* QEMU's interface, of version 7, or from 9.1 on. */
typedef unsigned long id;
struct block;
struct insn;
#define SEEN __attribute__((visibility("default")))
void qemu_plugin_register_vcpu_tb_trans_cb(id, void (*)(id, struct block *));
void qemu_plugin_register_vcpu_insn_exec_cb(struct insn *, void (*)(unsigned, void *), int, void *);
void qemu_plugin_register_vcpu_mem_cb(struct insn *, void (*)(unsigned, uint32_t, unsigned long, void *), int, int, void *);
void qemu_plugin_register_atexit_cb(id, void (*)(id, void *), void *);
size_t qemu_plugin_tb_n_insns(const struct block *);
struct insn *qemu_plugin_tb_get_insn(const struct block *, size_t);
unsigned long qemu_plugin_insn_vaddr(const struct insn *);
bool qemu_plugin_mem_is_store(uint32_t);
unsigned qemu_plugin_mem_size_shift(uint32_t);
#if QEMU < 9
SEEN int qemu_plugin_version = 1;
const void *qemu_plugin_insn_data(const struct insn *);
#define READ_WORD(insn, word) memcpy(word, qemu_plugin_insn_data(insn), 4)
#else
SEEN int qemu_plugin_version = 4;
size_t qemu_plugin_insn_data(const struct insn *, void *, size_t);
#define READ_WORD(insn, word) qemu_plugin_insn_data(insn, word, 4)
#endif

enum { CORES = 64, LINE = 64, NOBODY = 0, OF_CORE = 0, OF_CLUSTER = 1, READ_OR_WRITTEN = 3 };
enum fault { NOTHING, LOST, CLUSTER_LOST, RESET_LOST, OVERWRITTEN, UNSEEN, OLD, EXCLUSIVE, UNORDERED, HASTY, RACE, FAULTS };
static const char *const names[] = {
    [LOST] = "a line is dirty as the power of its core goes",
    [CLUSTER_LOST] = "a line is dirty as the power of its cluster goes",
    [RESET_LOST] = "what outlives a reset is dirty at one",
    [OVERWRITTEN] = "a write behind caches of what is dirty in one",
    [UNSEEN] = "a read behind caches of what is dirty in one",
    [OLD] = "an access to an old copy of what was written behind caches",
    [EXCLUSIVE] = "an exclusive access without caches",
    [UNORDERED] = "no DSB between a store or a clean and a bell or WFI",
    [HASTY] = "no DSB between the clean of a line and its read",
    [RACE] = "polls that found an old copy, and look again",
};
enum op { OTHER, ENTRY, SCTLR, LEVEL, BY_SET, DSB, WFI, COLD, RESET, BELL, CIVAC, CVAC, EXCLUDES };

static struct range { unsigned long from, to; } text, data, kept, stand;
static struct range itself, cold, reset, marks, sgir, sctlr; /* `from` alone */

/* Of each line, in caches of cores and of clusters: who has it dirty (1 + its number), has it, has it old; and which of its
 * words of 8 bytes make it old. */
static struct line { uint8_t dirty[2], behind; unsigned long copies[2], old[2]; uint32_t writer; } *lines;
static unsigned long many_lines;
static struct core {
    bool caches, entered, gone, unordered, in_reset;
    unsigned cluster, level, by_set;
    unsigned long cleaned, polled;
} cores[CORES];
static bool goes[CORES]; /* a cluster, once each of its cores is gone */
static unsigned long told[FAULTS], stores, stops;
static FILE *out;
static pthread_mutex_t mutex = PTHREAD_MUTEX_INITIALIZER;

static bool is_in(struct range range, unsigned long at) { return at >= range.from && at < range.to; }
static unsigned long address_of(const struct line *line) { return data.from + (line - lines) * LINE; }

/* Of each fault the first five. */
static void tell(enum fault fault, unsigned core, const struct line *line, unsigned long pc) {
    if (told[fault]++ >= 5 || fault == RACE)
        return;
    fprintf(out, "caches: core %u: %s: at %lx", core, names[fault], pc);
    if (line)
        fprintf(out, ", line %lx, written at %x", address_of(line), line->writer);
    fprintf(out, "\n");
}

#define EACH_LINE(it) for (struct line *it = lines; it < lines + many_lines; it++)

/* The cache of a core or of a cluster is empty: what is dirty in it went below, or is lost, as `fault` says. An emulator's
 * core looks at its door where a machine's has no power: what one did that does not enter is in no cluster's. */
static void empty(unsigned of, unsigned who, enum fault fault, unsigned core, unsigned long pc) {
    EACH_LINE(it) {
        if (!(it->copies[of] >> who & 1))
            continue;
        bool is_dirty = it->dirty[of] == 1 + who;
        if (is_dirty && fault && (fault != RESET_LOST || is_in(kept, address_of(it))))
            tell(fault, core, it, pc);
        if (is_dirty)
            it->dirty[of] = NOBODY;
        if (is_dirty && !fault && of == OF_CORE && cores[who].entered)
            it->dirty[OF_CLUSTER] = 1 + cores[who].cluster, it->copies[OF_CLUSTER] |= 1ull << cores[who].cluster;
        it->copies[of] &= ~(1ull << who), it->old[of] &= ~(1ull << who);
    }
}

static void look_at_cluster(unsigned cluster, unsigned core, unsigned long pc) {
    bool is_on = !goes[cluster];
    for (unsigned at = 0; at < CORES; at++)
        is_on |= cores[at].cluster == cluster && !cores[at].gone;
    if (!is_on)
        empty(OF_CLUSTER, cluster, CLUSTER_LOST, core, pc);
    goes[cluster] &= is_on;
}

static void on_dsb(unsigned core, struct core *it, unsigned long pc) {
    if (it->by_set & 1 << 1)
        empty(OF_CORE, core, NOTHING, core, pc);
    if (it->by_set & 1 << 2)
        empty(OF_CLUSTER, it->cluster, NOTHING, core, pc);
    it->polled = it->cleaned;
    it->unordered = false, it->cleaned = it->by_set = 0;
}

/* In a stop; some processors clean their caches there themselves. */
static void goes_down(unsigned core, struct core *it, unsigned long pc) {
    stops++;
    it->gone = true;
    empty(OF_CORE, core, pc < itself.from ? LOST : NOTHING, core, pc);
    look_at_cluster(it->cluster, core, pc);
}

static void comes_back(struct core *it) {
    it->entered &= !it->gone;
    it->gone = goes[it->cluster] = false;
    it->level = it->by_set = 0;
}

/* SCTLR is written in `cold`, where caches go on, and in `stand`: off, and on where the power stayed. */
static void on_sctlr(struct core *it, unsigned long pc) {
    if (is_in(stand, pc))
        comes_back(it), it->caches = !it->caches;
    else if (pc >= cold.from && pc < cold.from + 256)
        it->caches = sctlr.from >> 2 & 1;
}

/* Of the machine: whichever core comes out of it first. */
static void on_reset(unsigned core, unsigned long pc) {
    for (unsigned at = 0; at < CORES && !cores[core].in_reset; at++) {
        empty(OF_CORE, at, RESET_LOST, core, pc);
        empty(OF_CLUSTER, at, RESET_LOST, core, pc);
    }
    for (unsigned at = 0; at < CORES && !cores[core].in_reset; at++)
        cores[at].entered = cores[at].unordered = false, cores[at].in_reset = at != core;
    cores[core].in_reset = false;
}

static void do_instruction(unsigned core, struct core *it, enum op op, unsigned long pc) {
    if (op == RESET)
        on_reset(core, pc);
    if (op == RESET || op == COLD)
        comes_back(it), it->caches = false;
    if ((op == WFI || op == BELL) && it->unordered)
        tell(UNORDERED, core, NULL, pc);
    if (op == WFI && is_in(stand, pc))
        goes_down(core, it, pc);
    if (op == SCTLR)
        on_sctlr(it, pc);
    if (op == DSB)
        on_dsb(core, it, pc);
    it->entered |= op == ENTRY;
    it->level += op == LEVEL;
    it->by_set |= (op == BY_SET) << it->level;
}

/* Where an instruction stands, and above that what it does. */
enum { PC = 56 };
static unsigned long pc_in(void *word) { return (uintptr_t)word & ((1ull << PC) - 1); }

static void on_instruction(unsigned core, void *word) {
    pthread_mutex_lock(&mutex);
    do_instruction(core, &cores[core], (uintptr_t)word >> PC, pc_in(word));
    pthread_mutex_unlock(&mutex);
}

static void on_mark(unsigned core, unsigned mark, unsigned long pc) {
    if (mark < CORES)
        goes[mark] = true, look_at_cluster(mark, core, pc);
    else
        cores[core].cluster = mark - CORES;
}

static void on_clean(struct core *it, struct line *line, bool keeps_copies) {
    it->unordered = true, it->cleaned = address_of(line);
    line->dirty[OF_CORE] = line->dirty[OF_CLUSTER] = NOBODY;
    if (!keeps_copies)
        *line = (struct line){.writer = line->writer};
}

/* A store over all that was written behind caches loses nothing, though the copy that it goes into is old. */
static bool fills(const struct line *line, uint8_t words) { return line->behind && !(line->behind & ~words); }

static void on_access(unsigned core, struct core *it, struct line *line, bool is_store, uint8_t words, unsigned long pc) {
    bool is_dirty = line->dirty[OF_CORE] || line->dirty[OF_CLUSTER];
    bool is_old = line->old[OF_CORE] || line->old[OF_CLUSTER], looks_again = it->polled == address_of(line);
    if (!it->caches && is_dirty)
        tell(is_store ? OVERWRITTEN : UNSEEN, core, line, pc);
    if (it->caches && is_old && !(is_store && fills(line, words)))
        tell(looks_again && !is_store ? RACE : OLD, core, line, pc);
    if (!is_store && it->cleaned == address_of(line))
        tell(HASTY, core, line, pc);
    it->unordered |= is_store, stores += is_store;
    if (is_store && it->caches)
        *line = (struct line){.dirty = {1 + core}, .copies = {1ull << core}};
    for (unsigned of = OF_CORE; of <= OF_CLUSTER; of++)
        if (is_store)
            line->old[of] |= it->caches ? 0 : line->copies[of];
        else if (it->caches)
            line->copies[of] |= 1ull << (of == OF_CORE ? core : it->cluster);
    if (is_store && (line->old[OF_CORE] || line->old[OF_CLUSTER]))
        line->behind |= words ? words : UINT8_MAX;
    if (is_store)
        line->writer = pc;
}

/* Which words of its line it has; of a part of one a store fills none. */
static uint8_t words_of(unsigned long address, unsigned size) {
    return size < 8 ? 0 : ((1u << size / 8) - 1) << address % LINE / 8;
}

static void on_memory(unsigned core, uint32_t info, unsigned long address, void *word) {
    struct core *it = &cores[core];
    struct line *line = &lines[is_in(data, address) ? (address - data.from) / LINE : 0];
    bool is_store = qemu_plugin_mem_is_store(info);
    enum op op = (uintptr_t)word >> PC;
    pthread_mutex_lock(&mutex);
    if (address == sgir.from && is_store)
        do_instruction(core, it, BELL, pc_in(word));
    else if (address - marks.from < 2 * CORES && !is_store)
        on_mark(core, address - marks.from, pc_in(word));
    else if (is_in(data, address) && (op == CIVAC || op == CVAC))
        on_clean(it, line, op == CVAC);
    else if (is_in(data, address))
        on_access(core, it, line, is_store, words_of(address, 1u << qemu_plugin_mem_size_shift(info)), pc_in(word));
    if (op == EXCLUDES && !it->caches)
        tell(EXCLUSIVE, core, NULL, pc_in(word));
    pthread_mutex_unlock(&mutex);
}

static uint32_t word_of(const struct block *block, size_t at) {
    uint32_t word = 0;
    if (at < qemu_plugin_tb_n_insns(block))
        READ_WORD(qemu_plugin_tb_get_insn(block, at), &word);
    return word;
}

static enum op op_of(uint32_t word, uint32_t next, unsigned long pc) {
    static const struct { uint32_t mask, bits; enum op op; } ops[] = {
        {31, 0xd69f03e0, ENTRY}, {31, 0xd51e1000, SCTLR}, {31, 0xd51a0000, LEVEL}, {31, 0xd5087e40, BY_SET},
        {31, 0xd518cbe0, BELL}, {0, 0xd503207f, WFI}, {0x500, 0xd5033a9f, DSB}, {0xc05fffff, 0x08000000, EXCLUDES},
    };
    if (pc == reset.from || pc == cold.from)
        return pc == reset.from ? RESET : COLD;
    if ((word & ~(31u << 5)) == 0x3940001f) /* ldrb wzr, [xN] */
        return (next & ~31u) == 0xd50b7a20 ? CVAC : (next & ~31u) == 0xd50b7e20 ? CIVAC : OTHER;
    for (unsigned k = 0; k < sizeof ops / sizeof *ops; k++)
        if ((word & ~ops[k].mask) == ops[k].bits)
            return ops[k].op;
    return OTHER;
}

static void on_block(id plugin, struct block *block) {
    (void)plugin;
    for (size_t at = 0; at < qemu_plugin_tb_n_insns(block); at++) {
        struct insn *insn = qemu_plugin_tb_get_insn(block, at);
        unsigned long pc = qemu_plugin_insn_vaddr(insn);
        if (!is_in(text, pc))
            continue;
        unsigned long op = op_of(word_of(block, at), word_of(block, at + 1), pc);
        void *word = (void *)(uintptr_t)(op << PC | pc);
        if (op != OTHER && op < CIVAC)
            qemu_plugin_register_vcpu_insn_exec_cb(insn, on_instruction, 0, word);
        qemu_plugin_register_vcpu_mem_cb(insn, on_memory, 0, READ_OR_WRITTEN, word);
    }
}

static void at_end(id plugin, void *unused) {
    (void)plugin, (void)unused;
    for (unsigned fault = 1; fault < FAULTS; fault++)
        if (told[fault])
            fprintf(out, "caches: %lu times: %s\n", told[fault], names[fault]);
    fprintf(out, "caches: %lu stores, %lu power-downs\n", stores, stops);
    fclose(out);
}

SEEN int qemu_plugin_install(id plugin, const void *info __attribute__((unused)), int many, char **given) {
    static const struct { const char *form; struct range *is; } words[] = {
        {"text=%lx:%lx", &text}, {"data=%lx:%lx", &data}, {"kept=%lx:%lx", &kept}, {"stand=%lx:%lx", &stand},
        {"itself=%lx:%lx", &itself}, {"cold=%lx:%lx", &cold}, {"reset=%lx:%lx", &reset}, {"marks=%lx:%lx", &marks},
        {"sgir=%lx:%lx", &sgir}, {"sctlr=%lx:%lx", &sctlr},
    };
    out = fopen(given[0] + strlen("out="), "w");
    for (unsigned k = 0; k < sizeof words / sizeof *words; k++)
        for (int at = 1; at < many; at++)
            sscanf(given[at], words[k].form, &words[k].is->from, &words[k].is->to);
    many_lines = (data.to - data.from + LINE - 1) / LINE;
    lines = calloc(many_lines, sizeof *lines);
    for (unsigned core = 0; core < CORES; core++)
        cores[core].cluster = CORES - 1;
    qemu_plugin_register_vcpu_tb_trans_cb(plugin, on_block);
    qemu_plugin_register_atexit_cb(plugin, at_end, NULL);
    return out ? 0 : -1;
}
