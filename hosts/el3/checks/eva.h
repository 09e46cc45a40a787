/* In the place of ../machine.h, for Eva: a register and a device hold anything, and what others write may have changed
 * before each load that is shared. */
#ifndef MACHINE_H
#define MACHINE_H

#define AFFINITY 0xff00ffffff
#define GICD 0x08000000
#define GICC 0x08010000
#define FREQUENCY 62500000
#define DEVICE_TREE 0x47000000
#define RECORD_START 0x0e400000
#define RECORD_END 0x0e410000

#include <stdint.h>

extern volatile uint32_t any_device;
extern volatile uint64_t any_word;
void others_write(void);
uint64_t *own_place(void);

static inline volatile uint32_t *device_at(uintptr_t address) { return (void)address, &any_device; }
#define mmio32(address) (*device_at(address))
#define MARK(at) ((void)0)
#define read_register(name) any_word
#define write_register(name, value) ((void)(value))

static inline const volatile uint64_t *stack_end(unsigned at) { return (void)at, &any_word; }
static inline void wait_for_interrupt(void) { others_write(); }
static inline void relax(void) { others_write(); }

static inline void clean(const void *first, const void *end) { (void)first, (void)end; }
#define behind_caches(word) (others_write(), *(word))

#define __atomic_load_n(place, order) (others_write(), *(place))
#define __atomic_store_n(place, value, order) ((void)(*(place) = (value)))
#define __atomic_exchange_n(place, value, order) (*(place) = (value), (uint32_t)any_word)
#define __atomic_fetch_add(place, value, order) ((*(place) += (value)) - (value))
#define __atomic_add_fetch(place, value, order) (*(place) += (value))
#endif
