/* PL011. */
#include "console.h"
#include "machine.h"

void uart_put(char byte) {
    while (mmio32(UART + 0x18) & 0x20) { /* FR: the queue is full */
    }
    mmio32(UART) = (unsigned char)byte;
}
