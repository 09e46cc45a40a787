/* ASPEED's AST2700: a watchdog resets it; where its power would go, the emulator ends. */
#include "hooks.h"
#include "machine.h"

static _Noreturn void switch_off(void) {
    static uint64_t block[2] = {0x20026, 0};
    register uint64_t w0 __asm__("x0") = 0x18, x1 __asm__("x1") = (uint64_t)block;
    __asm__ volatile("dsb sy\n hlt #0xf000" ::"r"(w0), "r"(x1) : "memory");
    for (;;)
        wait_for_interrupt();
}

/* After 16 turns of a clock of 1 MHz. */
_Noreturn void board_ends(bool resets) {
    enum { RELOAD = 4, RESTART = 8, CONTROL = 0xc, PASSWORD = 0x4755, ON = 1, RESETS = 2, SLOW = 0x10 };
    if (!resets)
        switch_off();
    mmio32(WDT + RELOAD) = 16;
    mmio32(WDT + RESTART) = PASSWORD;
    mmio32(WDT + CONTROL) = ON | RESETS | SLOW;
    for (;;)
        wait_for_interrupt();
}
