/* A guest of hosts/kvm with two cores: it looks whether a core that is turned on is as after reset, with the byte order of
 * its caller, and whether a life begins as at a cold boot. It prints a line for each thing that is kept, and at its end. */
#include <stdint.h>

/* Each with a value that it does not have after reset. The first one opens the last two. */
#define REGISTERS(X) \
    X(cpacr_el1, 0x300000) X(vbar_el1, 0x40201000) X(ttbr0_el1, 0x1000) X(ttbr1_el1, 0x2000) X(tcr_el1, 0x10) X(mair_el1, 0xff) \
    X(tpidr_el0, 1) X(tpidr_el1, 2) X(contextidr_el1, 3) X(cntkctl_el1, 3) X(dbgbvr0_el1, 0x4000) \
    X(cntv_ctl_el0, 3) X(cntp_ctl_el0, 3) X(fpcr, 1 << 24) X(fpsr, 1)
enum { BIG_ENDIAN_DATA = 1 << 25, ON = 0xc4000003, OFF = 0x84000002, INFO = 0xc4000004, RESET = 0x84000009 };
enum { SYSTEM_OFF = 0x84000008, MANY = 15, UART = 0x09000000, MATCH = 0x09010004, FAR = 0x4f000000, CLAIM = 0x40200010 };

/* The header of the image, which claims what is behind it; its entry, and that of the second core. */
__asm__(".section .text.startup, \"ax\"\n"
        "head: b 1f\n .long 0\n .quad 0x200000, 0x100000, 0xa, 0, 0, 0\n .ascii \"ARM\\x64\"\n .long 0\n"
        "1: ldr x1, =0x40280000\n mov sp, x1\n bl first_core\n"
        ".global second\nsecond: mrs x0, sctlr_el1\n bic x1, x0, #1 << 25\n msr sctlr_el1, x1\n isb\n"
        "ldr x1, =0x40290000\n mov sp, x1\n bl second_core\n .ltorg\n");
void second(void);

/* Beyond the image, and claimed by it: what the first life leaves. */
static struct kept {
    volatile uint64_t life, entries, order, was[MANY], is[MANY];
} *const kept = (struct kept *)0x402a0000;

static void print(const char *text) {
    while (*text) *(volatile uint32_t *)UART = (uint8_t)*text++;
}

static void say(const char *what) { print("fresh: "), print(what), print("\n"); }

static uint64_t call(uint64_t word, uint64_t a, uint64_t b, uint64_t c) {
    register uint64_t x0 __asm__("x0") = word, x1 __asm__("x1") = a, x2 __asm__("x2") = b, x3 __asm__("x3") = c;
    __asm__ volatile("hvc #0" : "+r"(x0) : "r"(x1), "r"(x2), "r"(x3) : "memory");
    return x0;
}

/* With big-endian data, while it is made. */
static void call_on(void) {
    register uint64_t x0 __asm__("x0") = ON, x1 __asm__("x1") = 1, x2 __asm__("x2") = (uint64_t)second, x3 __asm__("x3") = 0;
    __asm__ volatile("mrs x9, sctlr_el1\n orr x10, x9, %4\n msr sctlr_el1, x10\n isb\n hvc #0\n msr sctlr_el1, x9\n isb\n"
                     : "+r"(x0) : "r"(x1), "r"(x2), "r"(x3), "i"(BIG_ENDIAN_DATA) : "x9", "x10", "memory");
}

static void read_all(volatile uint64_t *to) {
    uint64_t value;
#define READ(name, dirt) \
    __asm__ volatile("mrs %0, " #name "\n msr cpacr_el1, %1\n isb" : "=&r"(value) : "r"(0x300000ul)); \
    *to++ = value;
    REGISTERS(READ)
}

static void dirty_all(void) {
#define DIRTY(name, dirt) __asm__ volatile("msr " #name ", %0\n isb" ::"r"((uint64_t)(dirt)));
    REGISTERS(DIRTY)
}

/* Of a core that has the values `is`, and had `was` as it came the first time. */
static void compare(void) {
    int at = 0;
#define COMPARE(name, dirt) if (kept->is[at] != kept->was[at]) say(#name); at++;
    REGISTERS(COMPARE)
}

void second_core(uint64_t sctlr) {
    kept->order = sctlr & BIG_ENDIAN_DATA;
    read_all(kept->entries ? kept->is : kept->was);
    dirty_all();
    kept->entries++;
    call(OFF, 0, 0, 0);
}

static void turn_on_twice(void) {
    call(ON, 1, (uint64_t)second, 0);
    while (!kept->entries || call(INFO, 1, 0, 0) != 1) {}
    if (kept->order) say("the byte order of nobody");
    call_on();
    while (kept->entries < 2 || call(INFO, 1, 0, 0) != 1) {}
    compare();
    if (!kept->order) say("the byte order of its caller");
}

void first_core(void) {
    volatile uint32_t *far = (uint32_t *)FAR, *match = (uint32_t *)MATCH;
    if (!kept->life++) {
        turn_on_twice();
        read_all(kept->was);
        dirty_all();
        *far = 1;
        *match = ~0u;
        *(volatile uint64_t *)CLAIM = 0x10000000; /* in the header: all memory is the image's */
        call(RESET, 0, 0, 0);
    }
    read_all(kept->is);
    compare();
    if (*far) say("memory");
    if (*match) say("the alarm");
    say("over");
    call(SYSTEM_OFF, 0, 0, 0);
}
