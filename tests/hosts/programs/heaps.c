/* Two heaps with contexts of their own: a firmware lives in one, a power controller in the other, and each gets back
 * what it gave. Without a heap, and where one has no memory, nothing is opened. */
#define PSCI_HEAP_HERE
#include "psci_ctl.h"
#include "psci_heap.h"

#include <stdio.h>
#include <stdlib.h>
#include <string.h>

struct count { long blocks, most; };

static void *get(void *context, size_t size, size_t align) {
    struct count *count = context;
    if (count->blocks == count->most || align > 16)
        return NULL;
    count->blocks++;
    return malloc(size);
}
static void *resize(void *context, void *block, size_t kept, size_t size, size_t align) {
    void *made = get(context, size, align);
    if (made) {
        memcpy(made, block, kept < size ? kept : size);
        ((struct count *)context)->blocks--;
        free(block);
    }
    return made;
}
static void give_back(void *context, void *block) {
    ((struct count *)context)->blocks--;
    free(block);
}

static struct count of_firmware = {0, 1000}, of_controller = {0, 1000}, none = {0, 0};
static const struct psci_heap heaps[] = {{&of_firmware, get, resize, give_back},
                                         {&of_controller, get, resize, give_back},
                                         {&none, get, resize, give_back}};
static int wrong;

static void want(const char *what, long wanted, long found) {
    if (wanted != found)
        wrong += printf("%s: wanted %ld, found %ld\n", what, wanted, found);
}

int main(void) {
    static const uint8_t text[] = "(2 2) exec 0x40000000-0x40100000 boot 0x40000000 starts 3 lives 3";
    struct psci_place firmware = {0};
    struct psci_ctl_place controller = {0};
    want("no heap", PSCI_NO_MEMORY, psci_open(&firmware, text, sizeof text - 1));
    psci_use_heap(&heaps[2]);
    want("a heap without memory", PSCI_NO_MEMORY, psci_open(&firmware, text, sizeof text - 1));
    psci_use_heap(&heaps[0]);
    want("a firmware", PSCI_OPENED, psci_open(&firmware, text, sizeof text - 1));
    long blocks = of_firmware.blocks;
    psci_use_heap(&heaps[1]);
    want("a power controller", PSCI_OPENED, psci_ctl_open(&controller, text, sizeof text - 1));
    want("the firmware has memory", 1, blocks > 0);
    want("so has the power controller", 1, of_controller.blocks > 0);
    want("and not of the same heap", blocks, of_firmware.blocks);
    psci_ctl_close(&controller);
    want("it gives all back", 0, of_controller.blocks);
    psci_use_heap(&heaps[0]);
    psci_close(&firmware);
    want("so does the firmware", 0, of_firmware.blocks);
    return wrong != 0;
}
