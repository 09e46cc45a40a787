#include "place.h"
ENTRY(reset)
SECTIONS
{
    . = IMAGE;
    .text : { *(.text.reset) *(.text*) }
    .rodata : { *(.rodata*) . = ALIGN(16); }
    data_load = .;
    ASSERT(IMAGE > DATA || . < DATA, "the image runs into the data")
    . = DATA;
    .data : AT(data_load) { data_start = .; *(.data*) *(.got*) . = ALIGN(16); data_end = .; }
    .bss : { bss_start = .; *(.bss*) *(COMMON) . = ALIGN(16); bss_end = .; }
    .kept (NOLOAD) : ALIGN(256) { kept_start = .; *(.kept*) . = ALIGN(16); kept_end = .; }
    ASSERT(. < STACKS, "the stacks are overrun")
    /DISCARD/ : { *(.comment) *(.eh_frame*) *(.note*) }
}
