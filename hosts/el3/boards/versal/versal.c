/* QEMU's `xlnx-versal-virt`: nothing of it takes its power or resets it. Where a life ends, the emulator does. */
#include "hooks.h"
#include "machine.h"

_Noreturn void board_ends(bool resets) {
    static uint64_t block[2] = {0x20026, 0};
    register uint64_t w0 __asm__("x0") = 0x18, x1 __asm__("x1") = (uint64_t)block;
    (void)resets;
    __asm__ volatile("dsb sy\n hlt #0xf000" ::"r"(w0), "r"(x1) : "memory");
    for (;;)
        wait_for_interrupt();
}
