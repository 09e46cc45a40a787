/* The machine, as the device tree has it. */
#ifndef PAYLOAD_MACHINE_H
#define PAYLOAD_MACHINE_H
#include <stdint.h>

enum { MOST_CORES = 16 }; /* head.S, too */

enum { OF_PL011, OF_8250, OF_CADENCE };

struct machine {
    uint32_t is_smc, gic_version, cores;
    uint32_t timer; /* the number of the timer's interrupt */
    uint64_t uart, uart_kind, uart_shift, virtio; /* the console: of a UART, or else of virtio */
    uint64_t gic, gic_of_core; /* the distributor; the CPU interface, or the redistributors */
    uint64_t memory, memory_end;
};

extern struct machine machine;
extern uint64_t affinities[MOST_CORES]; /* of each core, in rising order */
extern char head[], entries[], from_entry[];

/* Whether a virtio console stands there; a letter for it. */
int is_virtio_console(uint64_t at);
void virtio_put(char letter);

/* Reads a device tree; says whether it has cores and a console. */
int read_tree(const void *tree);

/* Writes entry points into the memory, far from the image. */
void places_ready(void);

static inline uint32_t load(uint64_t at) { return *(volatile uint32_t *)at; }
static inline void store(uint64_t at, uint32_t value) { *(volatile uint32_t *)at = value; }
static inline void store_byte(uint64_t at, uint8_t value) { *(volatile uint8_t *)at = value; }

#endif
