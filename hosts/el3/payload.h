/* What the payloads have, which run in Linux's place: calls, and the normal world's UART. The boot core
 * comes to `begin`, at EL2 with its MMU off. */
#ifndef PAYLOAD_H
#define PAYLOAD_H

#include <stdint.h>

__asm__(".section .text.first, \"ax\"\n ldr x2, =0x41004000\n mov sp, x2\n b begin\n .text");
void begin(void);

static uint64_t smc(uint64_t a0, uint64_t a1, uint64_t a2, uint64_t a3) {
    register uint64_t x0 __asm__("x0") = a0, x1 __asm__("x1") = a1, x2 __asm__("x2") = a2,
                      x3 __asm__("x3") = a3;
    __asm__ volatile("smc #0" : "+r"(x0), "+r"(x1), "+r"(x2), "+r"(x3)::"memory");
    return x0;
}

static void put(char byte) { *(volatile uint32_t *)0x09000000 = (unsigned char)byte; }

static void say(const char *text, uint64_t number) {
    char digits[20];
    int many = 0;
    while (*text)
        put(*text++);
    do
        digits[many++] = '0' + number % 10;
    while (number /= 10);
    while (many)
        put(digits[--many]);
    put('\n');
}
#endif
