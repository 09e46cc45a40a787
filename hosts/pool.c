/* A pool: blocks in a row, each behind its header. The first free block that is large enough is
 * taken, with the free ones that follow it. A firmware asks for all its memory as it is opened, and
 * for none later. */
#include "pool.h"
#include "psci.h"

#include <stdbool.h>
#include <string.h>

/* What stands before a block: how many bytes it has, in steps of 16, and whether it is free. */
struct header {
    _Alignas(16) size_t size;
    bool free;
};

static unsigned char *first, *end;
static size_t taken;
static _Alignas(16) unsigned char nowhere[16];

static struct header *at(unsigned char *place) { return (struct header *)place; }
static unsigned char *next(unsigned char *place) {
    return place + sizeof(struct header) + at(place)->size;
}

size_t pool_size(uint16_t cores) { return POOL_SIZE(cores); }

void pool_give(void *memory, size_t size) {
    first = memory;
    end = first + size / 16 * 16;
    taken = 0;
    *at(first) = (struct header){end - first - sizeof(struct header), true};
}

size_t pool_taken(void) { return taken; }

/* Takes this much of a free block; what is left is a free block again. */
static struct psci_block take(unsigned char *place, size_t size) {
    unsigned char *block = place + sizeof(struct header);
    if (at(place)->size >= size + sizeof(struct header)) {
        *at(block + size) = (struct header){at(place)->size - size - sizeof(struct header), true};
        at(place)->size = size;
    }
    at(place)->free = false;
    if ((size_t)(block + size - first) > taken)
        taken = block + size - first;
    return (struct psci_block){1, block};
}

/* No request has an alignment above 16. */
struct psci_block rattle_alloc(size_t size, size_t align) {
    size = (size ? size + 15 : 31) / 16 * 16;
    if (align > 16 || size > (size_t)(end - first))
        return (struct psci_block){0, nowhere};
    for (unsigned char *place = first; place < end; place = next(place)) {
        while (at(place)->free && next(place) < end && at(next(place))->free)
            at(place)->size += sizeof(struct header) + at(next(place))->size;
        if (at(place)->free && at(place)->size >= size)
            return take(place, size);
    }
    return (struct psci_block){0, nowhere};
}

void rattle_dealloc(void *block) {
    at((unsigned char *)block - sizeof(struct header))->free = true;
}

struct psci_block rattle_realloc(void *block, size_t kept, size_t size, size_t align) {
    struct psci_block made = rattle_alloc(size, align);
    if (made.ok) {
        memcpy(made.block, block, kept < size ? kept : size);
        rattle_dealloc(block);
    }
    return made;
}
