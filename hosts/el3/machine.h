/* What every machine has, and what stands where on this one: place.h is that of its board (boards/NAME). */
#ifndef MACHINE_H
#define MACHINE_H

#include "place.h"

#define AFFINITY 0xff00ffffff /* the affinity fields of MPIDR_EL1 */

#ifndef __ASSEMBLER__
#include <stdint.h>

#define mmio32(address) (*(volatile uint32_t *)(uintptr_t)(address))
#define read_register(name) \
    ({ uint64_t it_; __asm__ volatile("mrs %0, " name : "=r"(it_)::"memory"); it_; })
#define write_register(name, value) \
    __asm__ volatile("msr " name ", %0\n isb" ::"r"((uint64_t)(value)) : "memory")

static inline void wait_for_interrupt(void) { __asm__ volatile("dsb sy\n wfi" ::: "memory"); }

/* For harsh/caches.c, which sees loads alone: what is cleaned, the cluster that is switched off, and that of a core. */
#ifdef CACHE_MODEL
extern volatile char marks[128];
#define SHOWN "ldrb wzr, [%0]\n"
#define MARK(at) ((void)marks[at])
#else
#define SHOWN
#define MARK(at) ((void)0)
#endif

/* What stands there is in memory, and in the cache of no core that is coherent. */
static inline void clean(const void *first, const void *end) {
    uint64_t line = 4ull << (read_register("ctr_el0") >> 16 & 15);
    for (uintptr_t at = (uintptr_t)first & -line; at < (uintptr_t)end; at += line)
        __asm__ volatile(SHOWN "dc civac, %0" ::"r"(at) : "memory");
    __asm__ volatile("dsb sy" ::: "memory");
}

/* What a core has written behind its caches (stand.S). */
static inline uint64_t behind_caches(const uint64_t *word) {
    clean(word, word + 1);
    return __atomic_load_n(word, __ATOMIC_SEQ_CST);
}

/* In a loop that waits for another core: it gives its turn away, where cores run in turn. */
static inline void relax(void) { __asm__ volatile("yield"); }

/* Of the stack of the core at this place in the list: its last word, at its lowest address. The page below it has no
 * memory (place.h), so that what is deeper is an exception. */
static inline const volatile uint64_t *stack_end(unsigned at) {
    return (const volatile uint64_t *)(uintptr_t)(STACKS + STACK * at + GUARD);
}

/* The end of this core's stack, with room for a word. */
static inline uint64_t *own_place(void) {
    uint64_t *it;
    __asm__("mrs %0, tpidr_el3" : "=r"(it));
    return it;
}
#endif
#endif
