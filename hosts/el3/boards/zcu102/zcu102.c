/* Xilinx ZCU102: a core is started by its reset line, and waits at a gate until its door is open. */
#include "board.h"
#include "console.h"
#include "gic.h"
#include "hooks.h"
#include "monitor.h"
#include "shared.h"
#include "string.h"

/* Of each core a count, which a pulse of its line raises, the last that it has seen at its gate, and that by which it may go
 * on. What it has entered by stands in `shared`, which the boot core clears. */
static struct gate { uint64_t count, seen, open; } gates[4] __attribute__((section(".kept")));

static unsigned place_of(uint64_t mpidr) { return mpidr & 3; }

static void pause(uint64_t microseconds) {
    uint64_t end = read_register("cntpct_el0") + FREQUENCY / 1000000 * microseconds;
    while (read_register("cntpct_el0") < end)
        relax();
}

/* A line acts when it does. QEMU's acts when the core's thread comes to it, and one let go before is none, so it is pulsed
 * again, longer, until the core stays at its gate: one that has seen two counts more is not about to be cut. */
static void pulse(unsigned at) {
    struct gate *gate = &gates[at];
    uint32_t line = 0x401u << at;
    unsigned seen = 0;
    mmio32(RVBAR + 8 * at) = IMAGE;
    mmio32(RVBAR + 8 * at + 4) = 0;
    for (unsigned patience = 100; seen < 3; patience *= 2) {
        mmio32(RST_FPD_APU) |= line;
        pause(patience);
        STORE(gate->count, gate->count + 1);
        mmio32(RST_FPD_APU) &= ~line;
        for (unsigned k = seen = 0; k < patience && seen < 3; k++, pause(100))
            if (LOAD(gate->seen) == gate->count && ++seen < 3)
                STORE(gate->count, gate->count + 1);
    }
}

/* The boot core goes on by itself where a life begins. A core that was pulsed finds its gate closed, and has an interrupt
 * controller that was not. */
void board_comes_out(void) {
    struct gate *gate = &gates[place_of(own_mpidr())];
    bool was_reset = LOAD(gate->open) != LOAD(gate->count);
    do {
        STORE(gate->seen, LOAD(gate->count));
        relax();
    } while (LOAD(gate->open) != LOAD(gate->count) && !(own_mpidr() == BOOT && !gic_is_started()));
    STORE(gate->open, gate->count);
    if (was_reset || !gic_is_started())
        gic_forget();
}

void board_resets(unsigned core) { pulse(place_of(described.mpidrs[core])); }

void board_starts(unsigned core, bool was_reset) {
    struct gate *gate = &gates[place_of(described.mpidrs[core])];
    if (was_reset)
        STORE(gate->open, gate->count);
    else
        gic_ring(core);
}

/* A life spoils what it runs on, and no reset here loads it anew. */
static void place_images(void) {
    const struct { uint64_t to, size, from; } *it = (const void *)STAGED;
    for (; it->size; it++)
        clean(memcpy((void *)it->to, (const void *)it->from, it->size), (void *)(it->to + it->size));
    __asm__ volatile("ic iallu\n dsb sy\n isb" ::: "memory");
}

static void start_uart(uintptr_t at) {
    mmio32(at + 4) = 0x20; /* MR: 8 bits, no parity */
    mmio32(at) = 0x14;     /* CR: both ways on */
}

void board_begins(void) {
    start_uart(GUEST_UART);
    start_uart(UART);
    place_images();
}

/* No other core runs on, whatever it was at; the emulator ends, where a power controller would switch. */
static _Noreturn void switch_off(void) {
    static uint64_t block[2] = {0x20026, 0};
    register uint64_t w0 __asm__("x0") = 0x18, x1 __asm__("x1") = (uint64_t)block;
    mmio32(RST_FPD_APU) |= 0x3c0fu & ~(0x401u << place_of(own_mpidr()));
    __asm__ volatile("dsb sy\n hlt #0xf000" ::"r"(w0), "r"(x1) : "memory");
    for (;;)
        wait_for_interrupt();
}

/* All others are reset until they are seen at their gates, and held there in reset but for the boot core, which finds
 * the controller off, and begins. */
static _Noreturn void begin_anew(void) {
    unsigned own = place_of(own_mpidr()), first = place_of(BOOT);
    for (unsigned at = 0; at < CORES; at++)
        if (at != own && (gates[at].count || at == first)) {
            pulse(at);
            mmio32(RST_FPD_APU) |= at == first ? 0 : 0x401u << at;
        }
    mmio32(GICD) = 0;
    if (own == first)
        cold();
    gic_bell_alone();
    for (;;)
        stand(&(struct last_word){0}, OWN_CACHES);
}

_Noreturn void board_ends(bool resets) {
    if (resets)
        begin_anew();
    switch_off();
}
