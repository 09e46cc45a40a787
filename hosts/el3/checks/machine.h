/* In the place of ../machine.h: a machine that is played. A core is a thread of this one, or there is one core
 * alone; registers and devices are functions of the host that plays it. */
#ifndef MACHINE_H
#define MACHINE_H

#define AFFINITY 0xff00ffffff
#ifdef BOARD_PLACE
#include "place.h"
#else
#define PINS 0x090b0000
#define FREQUENCY 50000000
#define DEVICE_TREE 0x47000000
#define RECORD_START 0x0e400000
#define RECORD_END 0x12000000
#endif

#include <stdint.h>

volatile uint32_t *host_device(uintptr_t address);
uint64_t host_read(const char *name);
void host_write(const char *name, uint64_t value);
void host_wait(void);
void host_relax(void);
uint64_t *host_place(void);

#define mmio32(address) (*host_device(address))
#define MARK(at) ((void)0)
#define read_register(name) host_read(name)
#define write_register(name, value) host_write(name, value)

static inline const volatile uint64_t *stack_end(unsigned at) {
    static const volatile uint64_t nothing;
    (void)at;
    return &nothing;
}
#ifdef CACHES
void clean(const void *first, const void *end);
#else
static inline void clean(const void *first, const void *end) { (void)first, (void)end; }
#endif
static inline uint64_t behind_caches(const uint64_t *word) { return __atomic_load_n(word, __ATOMIC_SEQ_CST); }
static inline void wait_for_interrupt(void) { host_wait(); }
static inline void relax(void) { host_relax(); }
static inline uint64_t *own_place(void) { return host_place(); }
#endif
