/* The heap of psci.h over functions of the port's that get a context: no static memory in them, and a heap for
 * each side, or for each place. One file of a program defines PSCI_HEAP_HERE before it includes this header, and so
 * has the three functions that psci.h asks for. */
#ifndef GUMDARTS_PSCI_HEAP_H
#define GUMDARTS_PSCI_HEAP_H

#include "psci.h"

#ifdef __cplusplus
extern "C" {
#endif

/* `get` and `resize` answer NULL where there is no memory. Of a block that is resized `kept` bytes stay; where there
 * is no memory it stays as it is. */
struct psci_heap {
    void *context;
    void *(*get)(void *context, size_t size, size_t align);
    void *(*resize)(void *context, void *block, size_t kept, size_t size, size_t align);
    void (*give_back)(void *context, void *block);
};

/* Calls that open or close use this heap from now on; without any there is no memory. What a place holds goes back to
 * the heap that is set as it is closed: it is the one that it was opened with. */
void psci_use_heap(const struct psci_heap *);

#ifdef PSCI_HEAP_HERE
static const struct psci_heap *psci_heap_in_use;

void psci_use_heap(const struct psci_heap *heap) { psci_heap_in_use = heap; }

static struct psci_block psci_block_of(void *block) {
    struct psci_block said = {block != NULL, block};
    if (block == NULL)
        said.block = (void *)&psci_heap_in_use; /* any address */
    return said;
}

struct psci_block rattle_alloc(size_t size, size_t align) {
    const struct psci_heap *heap = psci_heap_in_use;
    return psci_block_of(heap ? heap->get(heap->context, size ? size : align, align) : NULL);
}

struct psci_block rattle_realloc(void *block, size_t kept, size_t size, size_t align) {
    const struct psci_heap *heap = psci_heap_in_use;
    return psci_block_of(heap ? heap->resize(heap->context, block, kept, size ? size : align, align) : NULL);
}

void rattle_dealloc(void *block) { psci_heap_in_use->give_back(psci_heap_in_use->context, block); }
#endif

#ifdef __cplusplus
}
#endif

#endif
