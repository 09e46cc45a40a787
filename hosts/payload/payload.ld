/* The image, the list behind it, and what is cleared at boot. The binary ends where the list begins. */
SECTIONS
{
    . = 0;
    .text : { *(.text.first) *(.text*) *(.rodata*) *(.data*) }
    .got : { *(.got*) }
    ASSERT(SIZEOF(.got) == 0, "an address that depends on where the image is loaded")
    . = ALIGN(4096);
    .tail : { BYTE(0) . = ALIGN(4096); }
    list = .;
    . = list + 0x10000;
    .bss (NOLOAD) : { cleared = .; *(.bss*) *(COMMON) . = ALIGN(16); cleared_end = .; }
    .survives (NOLOAD) : { *(.survives) }
    image_size = ALIGN(0x1000);
    /DISCARD/ : { *(.comment) *(.eh_frame*) *(.note*) }
}
