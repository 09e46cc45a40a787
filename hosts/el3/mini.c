/* An 8250 whose registers are words, as the mini UART of a BCM283x. */
#include "console.h"
#include "machine.h"

void uart_put(char byte) {
    while (!(mmio32(UART + 0x14) & 0x20)) { /* LSR: there is no room */
    }
    mmio32(UART) = (unsigned char)byte;
}
