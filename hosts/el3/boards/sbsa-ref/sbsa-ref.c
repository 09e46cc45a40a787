/* QEMU's `sbsa-ref`: its embedded controller ends a life. */
#include "hooks.h"
#include "machine.h"

enum { OFF = 1, RESET = 2 };

_Noreturn void board_ends(bool resets) {
    mmio32(EC) = resets ? RESET : OFF;
    for (;;)
        wait_for_interrupt();
}
