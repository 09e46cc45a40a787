/* What no answer of a call shows: a core that executes in a life in which nobody has started it, interrupts that a suspend
 * loses or a reset leaves, registers at an entry. */
#include "odd.h"
#include "clock.h"
#include "machine.h"
#include "record.h"

enum { LATE = 5000000, LOOK = 50000, TRAP = 1 << 20 /* HCR_EL2.TIDCP: no instruction here is trapped by it */ };

static struct { volatile uint64_t beats[MOST_CORES], end; } survived __attribute__((section(".survives")));
static volatile uint32_t is_marked[MOST_CORES];
static volatile uint64_t boot_frequency;

static void odd(uint32_t core, enum odd what, uint64_t value) { LINE("odd", core, what, value); }

void life_begins(void) { survived.end = 0; }
void life_ends(void) { survived.end = after(LATE); }

void beat(uint32_t core) {
    for (int is_told = 0;; survived.beats[core]++)
        if (!is_told && survived.end && is_past(survived.end)) {
            is_told = 1;
            odd(core, RUNS_ON, LATE);
        }
}

void look_for_beats(uint32_t core) {
    uint64_t before = survived.beats[core], end = after(LOOK);
    while (!is_past(end)) {}
    if (survived.beats[core] != before) odd(core, RUNS_ON, LOOK);
}

void look_for_rings(uint32_t core, uint32_t of) {
    if (!is_rung(of)) odd(core, LOST_INTERRUPT, of);
}

void look_for_interrupts(uint32_t core) {
    uint32_t first = first_left();
    if (first) odd(core, LEFT_INTERRUPTS, first);
}

static int is_at_el2(void) {
    uint64_t level;
    __asm__("mrs %0, CurrentEL" : "=r"(level));
    return level == 8;
}

void mark(uint32_t core) {
    uint64_t traps;
    if (!is_at_el2()) return;
    __asm__ volatile("mrs %0, hcr_el2\n orr %0, %0, %1\n msr hcr_el2, %0\n isb" : "=&r"(traps) : "r"((uint64_t)TRAP));
    is_marked[core] = 1;
}

void look_at_entry(uint32_t core) {
    uint64_t traps, frequency;
    __asm__("mrs %0, cntfrq_el0" : "=r"(frequency));
    if (!boot_frequency) boot_frequency = frequency;
    if (frequency != boot_frequency) odd(core, OTHER_FREQUENCY, frequency);
    if (!is_marked[core]) return;
    is_marked[core] = 0;
    __asm__("mrs %0, hcr_el2" : "=r"(traps));
    if (traps & TRAP) odd(core, OLD_STATE, traps);
}
