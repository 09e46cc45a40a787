SECTIONS
{
    . = 0x40200000;
    .text : { *(.text.first) *(.text*) *(.rodata*) }
    .data : { *(.data*) *(.bss*) }
    /DISCARD/ : { *(.comment) *(.eh_frame*) *(.note*) }
}
