#include "heap.h"
#include "psci.h"

#include <stdlib.h>
#include <string.h>

size_t granted;

struct psci_block rattle_alloc(size_t size, size_t align) {
    static _Alignas(16) unsigned char nowhere[16];
    void *block = granted ? malloc(size ? size : align) : NULL;
    granted -= granted != 0;
    return block ? (struct psci_block){1, block} : (struct psci_block){0, nowhere};
}

void rattle_dealloc(void *block) { free(block); }

struct psci_block rattle_realloc(void *block, size_t kept, size_t size, size_t align) {
    struct psci_block made = rattle_alloc(size, align);
    if (made.ok) {
        memcpy(made.block, block, kept < size ? kept : size);
        free(block);
    }
    return made;
}
