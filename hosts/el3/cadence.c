/* Cadence's UART. */
#include "console.h"
#include "machine.h"

void uart_put(char byte) {
    while (mmio32(UART + 0x2c) & 0x10) { /* SR: the queue is full */
    }
    mmio32(UART + 0x30) = (unsigned char)byte;
}
