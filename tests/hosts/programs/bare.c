/* What a program over the C library wants of C, on the bare `virt` machine of QEMU, after bare.S: it
 * prints to the first UART, and ends the machine. */
#include <stdarg.h>
#include <stdint.h>
#include <stdio.h>
#include <stdlib.h>
#include <string.h>

static volatile uint32_t *const uart = (volatile uint32_t *)0x09000000;
static unsigned char heap[1 << 20];
static size_t taken;

void *memcpy(void *restrict to, const void *restrict from, size_t size) {
    return memmove(to, from, size);
}

void *memmove(void *to, const void *from, size_t size) {
    unsigned char *t = to;
    const unsigned char *f = from;
    for (size_t i = 0; i < size; i++)
        t[t < f ? i : size - 1 - i] = f[t < f ? i : size - 1 - i];
    return to;
}

void *memset(void *to, int byte, size_t size) {
    for (size_t i = 0; i < size; i++)
        ((unsigned char *)to)[i] = (unsigned char)byte;
    return to;
}

size_t strlen(const char *text) {
    size_t length = 0;
    while (text[length])
        length++;
    return length;
}

void *malloc(size_t size) {
    void *block = heap + taken;
    taken += (size + 15) / 16 * 16;
    return taken <= sizeof heap ? block : NULL;
}

static void say(const char *text) {
    while (*text)
        *uart = (unsigned char)*text++;
}

static void say_number(uint64_t number, unsigned base) {
    char digits[24], *at = digits + 23;
    *at = 0;
    do
        *--at = "0123456789abcdef"[number % base];
    while (number /= base);
    say(at);
}

/* Words in %u and %s, and %lx as PRIx64 has it. */
static void tell(const char *form, va_list words) {
    for (; *form; form++)
        if (form[0] == '%' && form[1] == 'u')
            say_number(va_arg(words, unsigned), 10), form++;
        else if (form[0] == '%' && form[1] == 's')
            say(va_arg(words, const char *)), form++;
        else if (form[0] == '%' && form[1] == 'l' && form[2] == 'x')
            say_number(va_arg(words, uint64_t), 16), form += 2;
        else
            *uart = (unsigned char)*form;
}

int printf(const char *form, ...) {
    va_list words;
    va_start(words, form);
    tell(form, words);
    va_end(words);
    return 0;
}

FILE *stderr;

int fprintf(FILE *file, const char *form, ...) {
    va_list words;
    (void)file;
    va_start(words, form);
    tell(form, words);
    va_end(words);
    return 0;
}

/* QEMU's own PSCI: SYSTEM_OFF. */
void exit(int status) {
    (void)status;
    __asm__ volatile("mov x0, #0x0008\n\tmovk x0, #0x8400, lsl #16\n\thvc #0" ::: "x0", "memory");
    for (;;) {
    }
}

void on_exception(uint64_t syndrome, uint64_t link, uint64_t address);
void on_exception(uint64_t syndrome, uint64_t link, uint64_t address) {
    printf("exception: syndrome 0x%lx at 0x%lx, address 0x%lx\n", syndrome, link, address);
    exit(1);
}
