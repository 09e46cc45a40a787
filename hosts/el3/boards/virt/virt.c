/* QEMU's `virt`: pins of the secure PL061 end a life. */
#include "hooks.h"
#include "machine.h"

enum { OFF = 1, RESET = 2 };

_Noreturn void board_ends(bool resets) {
    uint32_t pin = resets ? RESET : OFF;
    mmio32(PINS + 0x400) |= pin; /* DIR */
    mmio32(PINS + 4 * pin) = 0;
    mmio32(PINS + 4 * pin) = pin;
    for (;;)
        wait_for_interrupt();
}
