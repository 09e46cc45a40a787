/* Raspberry Pi 4 B as QEMU has it: its GIC-400 has no secure view, so EL3 has no interrupt that is its own alone. The bell
 * is an SGI that is heard by a core that is off, and by no other one. */
#include "board.h"
#include "gic.h"
#include "hooks.h"

enum { SET = 0x100, CLEAR = 0x180, SOFTWARE = 0xf00, MASK = 4, TAKE = 0xc, END = 0x10 };

void gic_start(void) {
    for (unsigned at = 1; at < 16; at++)
        mmio32(GICD + CLEAR + 4 * at) = ~0u;
    mmio32(GICD) = 1;
}

bool gic_is_started(void) {
    bool is_on = mmio32(GICD) & 1;
    __asm__ volatile("dsb sy" ::: "memory");
    return is_on;
}

void gic_start_core(unsigned core) {
    (void)core;
    mmio32(GICC + MASK) = 0xff;
    gic_bell_alone();
}

void gic_forget(void) {}

/* Of its own interrupts none but SGIs is on, until the normal world turns them on again. */
void gic_bell_alone(void) {
    mmio32(GICD + CLEAR) = 0xffff0000;
    mmio32(GICC) = 1;
}

void gic_ring(unsigned core) {
    __asm__ volatile("dsb sy" ::: "memory");
    mmio32(GICD + SOFTWARE) = 1u << (16 + (described.mpidrs[core] & 3)) | BELL;
}

bool gic_answer(void) {
    uint32_t id;
    while (!(mmio32(GICD + SET) >> 16) && (id = mmio32(GICC + TAKE)) % 1024 < 1020)
        mmio32(GICC + END) = id;
    __asm__ volatile("dsb sy" ::: "memory");
    return false;
}

bool gic_wakes(void) { return read_register("isr_el1") & 0x80; }

/* A core that an interrupt has woken looks at its door by itself. */
void board_starts(unsigned core, bool was_reset) {
    if (was_reset)
        gic_ring(core);
}

void board_begins(void) { mmio32(AUX + 4) |= 1; /* the mini UART is on */ }

/* The watchdog of the power manager ends a life, after one turn of its clock. Partition 63 says that it is off. */
_Noreturn void board_ends(bool resets) {
    enum { RSTC = 0x1c, RSTS = 0x20, WDOG = 0x24, PASSWORD = 0x5a000000, FULL_RESET = 0x20, HALT = 0x555 };
    mmio32(PM + RSTS) = PASSWORD | (resets ? 0 : HALT);
    mmio32(PM + WDOG) = PASSWORD | 16;
    mmio32(PM + RSTC) = PASSWORD | FULL_RESET;
    for (;;)
        wait_for_interrupt();
}
