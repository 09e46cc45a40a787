/* Vector registers of SVE over power calls: whether the normal world may use them after each entry, and which of
 * them a call changed. GIC version 2; core 1 is started twice. */
#include "payload.h"

enum { MOST_BYTES = 256 };
enum { VERSION = 0x84000000, CPU_OFF = 0x84000002, SYSTEM_OFF = 0x84000008 };
#define CPU_SUSPEND 0xc4000001
#define CPU_ON 0xc4000003
#define AFFINITY_INFO 0xc4000004
#define SYSTEM_SUSPEND 0xc400000e
enum { STANDBY = 0x1, CORE_OFF = 0x10002, CLUSTER_OFF = 0x1010022 };

struct registers {
    uint8_t z[32 * MOST_BYTES], p[16 * MOST_BYTES / 8];
} __attribute__((aligned(16)));
static struct registers before[2], after[2];
static volatile uint32_t told[2];
static uint64_t core_1_changed, core_1_bytes;

/* a core enters with its number in x0; what traps ends the run */
__asm__(".global second, again\n"
        "second: ldr x2, =0x41008000\n mov sp, x2\n b on_core_1\n"
        "again: ldr x2, =0x41004000\n mov sp, x2\n b go_on\n"
        ".balign 2048\n vectors: .rept 16\n .balign 128\n mrs x0, esr_el1\n mrs x1, elr_el1\n b trapped\n .endr\n");
void second(void);
void again(void);

void trapped(uint64_t syndrome, uint64_t at) {
    say("sve: a trap of class ", syndrome >> 26);
    say("sve: at ", at);
    smc(SYSTEM_OFF, 0, 0, 0);
}

/* As Linux does, here at EL1; what EL3 has not allowed traps there. It returns how many bytes a register has. */
static uint64_t allow(void) {
    uint64_t bytes;
    __asm__ volatile(".arch_extension sve\n adr x9, vectors\n msr vbar_el1, x9\n mov x9, #0x330000\n"
                     "msr cpacr_el1, x9\n isb\n mov x9, #0xf\n msr s3_0_c1_c2_0, x9\n isb\n rdvl %0, #1\n"
                     : "=r"(bytes)::"x9");
    return bytes;
}

static void fill(uint64_t seed) {
    __asm__ volatile(".arch_extension sve\n"
                     ".irp n,0,1,2,3,4,5,6,7,8,9,10,11,12,13,14,15,16,17,18,19,20,21,22,23,24,25,26,27,28,29,30,31\n"
                     "dup z\\n\\().d, %0\n add z\\n\\().d, z\\n\\().d, #\\n\n .endr\n"
                     ".irp n,0,1,2,3,4,5,6,7,8,9,10,11,12,13,14,15\n"
                     "mov x9, #\\n\n whilele p\\n\\().b, xzr, x9\n .endr\n" ::"r"(seed)
                     : "x9", "cc");
}

static void save(struct registers *to) {
    __asm__ volatile(".arch_extension sve\n"
                     ".irp n,0,1,2,3,4,5,6,7,8,9,10,11,12,13,14,15,16,17,18,19,20,21,22,23,24,25,26,27,28,29,30,31\n"
                     "str z\\n, [%0, #\\n, mul vl]\n .endr\n"
                     ".irp n,0,1,2,3,4,5,6,7,8,9,10,11,12,13,14,15\n str p\\n, [%1, #\\n, mul vl]\n .endr\n" ::"r"(to->z),
                     "r"(to->p)
                     : "memory");
}

/* How many bytes of them a call changed. */
static uint64_t changed(uint64_t core, uint64_t x0, uint64_t x1, uint64_t x2, uint64_t x3) {
    const uint8_t *was = (const uint8_t *)&before[core], *is = (const uint8_t *)&after[core];
    uint64_t many = 0;
    fill(0x0123456789abcdef * (x0 + core + 1));
    save(&before[core]);
    smc(x0, x1, x2, x3);
    save(&after[core]);
    for (uint64_t at = 0; at < sizeof(struct registers); at++) many += was[at] != is[at];
    return many;
}

void on_core_1(void) {
    core_1_bytes = allow();
    core_1_changed = changed(1, VERSION, 0, 0, 0);
    told[1]++;
    smc(CPU_OFF, 0, 0, 0);
}

/* The physical timer wakes the core: its interrupt is pending, and stays masked. */
static void wake_after(uint64_t ticks) {
    *(volatile uint32_t *)0x08000000 = 1;
    *(volatile uint32_t *)0x08000100 = 1u << 30;
    *(volatile uint32_t *)0x08010004 = 0xff;
    *(volatile uint32_t *)0x08010000 = 1;
    __asm__ volatile("msr cntp_tval_el0, %0\n msr cntp_ctl_el0, %1\n isb" ::"r"(ticks), "r"(1ul));
}

static void core_1_on_and_off(void) {
    uint32_t times = told[1];
    say("sve: CPU_ON: bytes that changed ", changed(0, CPU_ON, 1, (uintptr_t)second, 0));
    while (told[1] == times) {}
    while (smc(AFFINITY_INFO, 1, 0, 0) != 1) {}
    say("sve: core 1: bytes of a register ", core_1_bytes);
    say("sve: core 1: PSCI_VERSION: bytes that changed ", core_1_changed);
}

static uint64_t stage;

/* Each entry of core 0 comes here, and goes to the next stage. */
void go_on(void) {
    say("sve: core 0: bytes of a register ", allow());
    say("sve: PSCI_VERSION: bytes that changed ", changed(0, VERSION, 0, 0, 0));
    wake_after(60000);
    switch (stage++) {
    case 0:
        core_1_on_and_off();
        say("sve: AFFINITY_INFO: bytes that changed ", changed(0, AFFINITY_INFO, 1, 0, 0));
        wake_after(60000);
        say("sve: standby: bytes that changed ", changed(0, CPU_SUSPEND, STANDBY, 0, 0));
        wake_after(60000);
        smc(CPU_SUSPEND, CORE_OFF, (uintptr_t)again, 0);
        break;
    case 1: smc(CPU_SUSPEND, CLUSTER_OFF, (uintptr_t)again, 0); break;
    case 2: smc(SYSTEM_SUSPEND, (uintptr_t)again, 0, 0); break;
    default:
        core_1_on_and_off();
        smc(SYSTEM_OFF, 0, 0, 0);
    }
    say("sve: it came back at stage ", stage);
    smc(SYSTEM_OFF, 0, 0, 0);
}

void begin(void) { go_on(); }
