/* The record of the payload as its life ends: core 0 writes what a storm has kept, and calls SYSTEM_OFF, while core 1 still
 * waits to write its call. What core 1 started has told of itself by then, so the line of that call has to be there. */
#include <setjmp.h>
#include <stdio.h>

static void waits(void);
#define __asm__(text) waits()
#include "../../../hosts/payload/record.c"
#undef __asm__

struct machine machine;
static jmp_buf over;

uint32_t add(volatile uint32_t *number, uint32_t by) {
    uint32_t was = *number;
    *number += by;
    return was;
}

void virtio_put(char letter) {
    if (letter != '\r')
        putchar(letter);
}

/* Core 1 finds the lock taken: core 0, which has it, goes on to the end of the life. */
static void waits(void) {
    give();
    write_entries();
    LINE("open", 0, 0, 9, 0x84000008, 0, 0, 0);
    longjmp(over, 1);
}

int main(void) {
    struct entry *open = new_entry(), *call = new_entry();
    *open = (struct entry){.kind = KEPT_OPEN, .core = 2, .number = 3, .begin = 4, .before = {0x84000002}};
    *call = (struct entry){.kind = KEPT_CALL, .core = 1, .number = 5, .begin = 6, .end = 7, .before = {0xc4000003, 2}};
    take();
    if (!setjmp(over))
        write_entry(call);
    return 0;
}
