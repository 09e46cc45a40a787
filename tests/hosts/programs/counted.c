/* The heap of the C library over that of C, with what stands before a block: how large it is. */
#include "counted.h"

#include <stdlib.h>

struct tried {
    size_t ok;
    void *block;
};

enum { BEFORE = 16 };
static max_align_t nowhere;
size_t given, requests, most_given;

struct tried rattle_alloc(size_t size, size_t align) {
    unsigned char *block = align <= BEFORE ? malloc(size + BEFORE) : NULL;
    if (!block)
        return (struct tried){0, &nowhere};
    *(size_t *)block = size;
    given += size;
    requests++;
    if (given > most_given)
        most_given = given;
    return (struct tried){1, block + BEFORE};
}

void rattle_dealloc(void *block) {
    unsigned char *at = (unsigned char *)block - BEFORE;
    given -= *(size_t *)at;
    requests--;
    free(at);
}

struct tried rattle_realloc(void *block, size_t kept, size_t size, size_t align) {
    struct tried made = rattle_alloc(size, align);
    if (made.ok) {
        for (size_t i = 0; i < kept && i < size; i++)
            ((unsigned char *)made.block)[i] = ((unsigned char *)block)[i];
        rattle_dealloc(block);
    }
    return made;
}
