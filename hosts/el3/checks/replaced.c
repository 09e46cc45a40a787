/* Each instruction of the port on the system's registers, caches and order is replaced by a breakpoint and done here,
 * so that a run shows what it does to which processor, and in which order. */
#include "silicon.h"

#include <signal.h>
#include <stdio.h>
#include <string.h>
#include <sys/mman.h>
#include <ucontext.h>
#include <unistd.h>

#define ERET 0xd69f03e0
enum { UNKNOWN_VALUE = 0x5a5a5a5a };
extern uint32_t port_start[], port_end[];

uint64_t registers[KEYS], sizes[8], left[31], word, said, rung;
bool written[KEYS];
struct event events[MOST];
unsigned many, wrong, tried;
sigjmp_buf back;
char *stack;

/* What stood there. */
static uint32_t replaced[1 << 14];

void is_wrong(const char *what, uint64_t value) {
    if (wrong++ < 10)
        printf("wrong: %s: %#llx (MIDR %#llx)\n", what, (unsigned long long)value, (unsigned long long)registers[MIDR]);
}

/* The processor ------------------------------------------------------------------------------- */

static void add(uint32_t key, uint64_t value) {
    if (many < MOST) {
        events[many].key = key;
        events[many++].value = value;
    }
}

/* While nothing may be read or written but the last word, nobody has the stack. */
static void guard(bool is_off) { mprotect(stack, OUR_STACK, is_off ? PROT_NONE : PROT_READ | PROT_WRITE); }

static void on_write(unsigned key, uint64_t value) {
    registers[key] = value;
    written[key] = true;
    add(key | WRITE, value);
    if (key == SCTLR && stack)
        guard(!(value & C_BIT));
    if (key == SGI && word != said)
        is_wrong("it rings before its last word", value);
}

static void on_system(unsigned key, uint64_t value) {
    add(key, key == DSB ? (word == said) + 2ull * (rung != 0) : value);
    if (key == CISW && word == said)
        is_wrong("its last word stands before its caches are clean", value);
}

static void do_instruction(uint32_t it, uint64_t *rt) {
    unsigned key = it >> 5 & 0xffff;
    if ((it & 0xfff00000) == 0xd5300000) {
        *rt = key == CCSIDR ? sizes[registers[CSSELR] >> 1 & 7] : registers[key];
        add(key, *rt);
    } else if ((it & 0xfff00000) == 0xd5100000) {
        on_write(key, *rt);
    } else {
        on_system(key, *rt);
    }
    if (key == WFI && !stack)
        siglongjmp(back, WAITS);
}

static void on_breakpoint(int number, siginfo_t *info, void *context) {
    mcontext_t *at = &((ucontext_t *)context)->uc_mcontext;
    uint32_t it = replaced[*(uint32_t *)at->pc >> 5 & 0xffff];
    uint64_t zero = 0;
    (void)number, (void)info;
    if (it == ERET) {
        memcpy(left, at->regs, sizeof left);
        siglongjmp(back, LEAVES);
    }
    do_instruction(it, (it & 31) == 31 ? &zero : (uint64_t *)&at->regs[it & 31]);
    at->pc += 4;
}

static void on_fault(int number, siginfo_t *info, void *context) {
    (void)number, (void)context;
    printf("wrong: %p is no memory%s\n", info->si_addr, stack ? " of a core that cleans its caches" : "");
    fflush(stdout);
    _exit(1);
}

static void catch(int number, void (*handler)(int, siginfo_t *, void *)) {
    struct sigaction action = {.sa_sigaction = handler, .sa_flags = SA_SIGINFO | SA_ONSTACK | SA_NODEFER};
    sigaction(number, &action, NULL);
}

static bool is_replaced(uint32_t it) { return (it & 0xffc00000) == 0xd5000000 || it == ERET; }

/* Behind each return to the normal world nothing is done ahead of it. */
void replace(void) {
    static char signals[1 << 16];
    unsigned count = 0;
    mprotect((void *)((uintptr_t)port_start & -4096ul), (uintptr_t)port_end - (uintptr_t)port_start + 8192,
             PROT_READ | PROT_WRITE | PROT_EXEC);
    for (uint32_t *at = port_start; at < port_end; at++) {
        if (*at == ERET && (at[1] != 0xd503379f || at[2] != 0xd5033fdf))
            is_wrong("an ERET without a barrier", (uintptr_t)at);
        if (is_replaced(*at) && *at != 0xd503201f) {
            replaced[count] = *at;
            *at = 0xd4200000 | count++ << 5;
        }
    }
    __builtin___clear_cache((char *)port_start, (char *)port_end);
    sigaltstack(&(stack_t){.ss_sp = signals, .ss_size = sizeof signals}, NULL);
    catch(SIGTRAP, on_breakpoint);
    catch(SIGSEGV, on_fault);
}

/* As the power comes on: nobody knows what a register has, but for what the processor is. */
void power_on(uint64_t midr, uint64_t mpidr, unsigned csv2, unsigned ssbs) {
    for (unsigned key = 0; key < KEYS; key++)
        registers[key] = UNKNOWN_VALUE, written[key] = false;
    registers[MIDR] = midr;
    registers[MPIDR] = mpidr | 0x80000000;
    registers[PFR0] = (uint64_t)csv2 << 56 | 0x2222;
    registers[PFR1] = ssbs << 4;
    registers[MMFR2] = 0;
    registers[ECTLR] = registers[PWRCTLR] = registers[ACTLR] = registers[A73_REG] = registers[A75_ACTLR] = 0;
    many = 0;
}

/* Behind an event the second one has to come before the third does; where none is named, at once. */
static const struct { uint32_t behind, needs, before; } barriers[] = {
    {SCTLR | WRITE, ISB, 0},           {SCR | WRITE, ISB, ALLE2},        {SCR | WRITE, ISB, ALLE1},
    {TLBI, DSB, SCTLR | WRITE},        {ALLE2, DSB, SCTLR | WRITE},      {ALLE1, DSB, SCTLR | WRITE},
    {IALLU, DSB, SCTLR | WRITE},       {TLBI, ISB, SCTLR | WRITE},       {IALLU, ISB, SCTLR | WRITE},
    {CISW, DSB, ECTLR | WRITE},        {CISW, DSB, WFI},                 {ECTLR | WRITE, ISB, DSB},
    {ECTLR | WRITE, ISB, CISW},        {ECTLR | WRITE, ISB, SCTLR | WRITE}, {CSSELR | WRITE, ISB, CCSIDR},
    {PWRCTLR | WRITE, ISB, WFI},       {OSDLR | WRITE, ISB, WFI},        {SGI | WRITE, DSB, WFI},
};

void look_at_barriers(void) {
    for (unsigned k = 0; k < sizeof barriers / sizeof *barriers; k++)
        for (unsigned at = find(barriers[k].behind, 0); at < many; at = find(barriers[k].behind, at + 1)) {
            if (at + 1 < many && events[at + 1].key == events[at].key)
                continue; /* the last of a row */
            unsigned end = barriers[k].before ? find(barriers[k].before, at + 1) : at + 2;
            if (end < many && find(barriers[k].needs, at + 1) >= end)
                is_wrong("a barrier is missing behind", barriers[k].behind);
        }
}

/* The first event of a key, or of its write, from there on. */
unsigned find(uint32_t key, unsigned from) {
    while (from < many && events[from].key != key)
        from++;
    return from;
}
