#include "record.h"
#include "clock.h"
#include "machine.h"

enum {
    MOST_ENTRIES = 6000,
    UART_FLAGS = 0x18,
    UART_FULL = 0x20,
    STATUS_8250 = 5,
    EMPTY_8250 = 0x20,
    STATUS_CADENCE = 0x2c,
    FULL_CADENCE = 0x10,
    QUEUE_CADENCE = 0x30
};

static struct entry kept[MOST_ENTRIES];
static volatile uint32_t many_kept, is_writing;
/* how many lines of this life were written, and the CRC-32 of their texts */
static uint32_t many_told, sum;

static void put(char letter) {
    if (!machine.uart) {
        virtio_put(letter);
    } else if (machine.uart_kind == OF_CADENCE) {
        while (load(machine.uart + STATUS_CADENCE) & FULL_CADENCE) {}
        store(machine.uart + QUEUE_CADENCE, (uint8_t)letter);
    } else if (machine.uart_kind == OF_8250) {
        while (!(*(volatile uint8_t *)(machine.uart + (STATUS_8250 << machine.uart_shift)) & EMPTY_8250)) {}
        store_byte(machine.uart, (uint8_t)letter);
    } else {
        while (load(machine.uart + UART_FLAGS) & UART_FULL) {}
        store(machine.uart, (uint8_t)letter);
    }
}

/* A letter of a line, which counts in its sum. */
static void put_summed(char letter) {
    uint32_t rest = ~sum ^ (uint8_t)letter;
    for (int bit = 0; bit < 8; bit++) rest = rest >> 1 ^ (0xedb88320 & -(rest & 1));
    sum = ~rest;
    put(letter);
}

static void text(const char *it) {
    while (*it) put_summed(*it++);
}

static void number(uint64_t value) {
    char digits[16];
    int many = 0;
    for (; many == 0 || value; value >>= 4) {
        uint32_t digit = value & 15;
        digits[many++] = (char)(digit < 10 ? '0' + digit : 'a' + digit - 10);
    }
    while (many) put_summed(digits[--many]);
}

static void end_of_line(void) {
    put('\r');
    put('\n');
}

void line_alone(const char *kind, const uint64_t *numbers, uint32_t many) {
    end_of_line();
    text("psci: ");
    text(kind);
    for (uint32_t at = 0; at < many; at++) put_summed(' '), number(numbers[at]);
    text(" .");
    end_of_line();
    many_told++;
}

static void take(void) {
    while (__atomic_exchange_n(&is_writing, 1, __ATOMIC_ACQUIRE)) __asm__("yield");
}

static void give(void) {
    __atomic_store_n(&is_writing, 0, __ATOMIC_RELEASE);
}

void line(const char *kind, const uint64_t *numbers, uint32_t many) {
    take();
    line_alone(kind, numbers, many);
    give();
}

void line_told(void) {
    take();
    line_alone("told", (const uint64_t[]){many_told, sum}, 2);
    give();
}

struct entry *new_entry(void) {
    uint32_t at = add(&many_kept, 1);
    if (at >= MOST_ENTRIES) return 0;
    kept[at].kind = kept[at].written = 0; /* as long as it is not filled: there may have been a storm before */
    return &kept[at];
}

/* Under the lock, so that who comes to it second finds its line written, and not about to be: the life may end before. */
static void write_kept(struct entry *it) {
    const uint64_t *x = it->before, *y = it->behind;
    uint32_t kind = it->kind;
    if (it->written == kind) return;
    it->written = kind;
    if (kind == KEPT_CALL)
        ALONE("call", it->core, it->number, it->begin, it->end, 1, x[0], x[1], x[2], x[3], y[0],
              y[1], y[2], y[3], it->lost);
    else if (kind == KEPT_OPEN)
        ALONE("open", it->core, it->number, it->begin, x[0], x[1], x[2], x[3]);
    else ALONE("enter", it->core, it->number, it->end, x[0], x[1]);
}

void write_entry(struct entry *it) {
    take();
    write_kept(it);
    give();
}

void write_entries(void) {
    for (uint32_t at = 0; at < many_kept && at < MOST_ENTRIES; at++) write_entry(&kept[at]);
    many_kept = 0;
}
