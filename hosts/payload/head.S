/* The Image header, the entries of the cores, and exceptions. The MMU is off, and the payload runs where
 * it was loaded. x0 is the device tree at boot, and the context id in any other entry. */
        .section .text.first, "ax"
        .global head
head:
        b       boot
        .long   0
        .quad   0x200000                /* text_offset */
        .quad   image_size
        .quad   0xa                     /* little endian, 4K pages, anywhere */
        .quad   0, 0, 0
        .ascii  "ARM\x64"
        .long   0

        .balign 64
        .global entries
entries:                                /* sixteen entry points, eight bytes apart */
        .rept   16
        adr     x21, .
        b       from_entry
        .endr

        .global place, place_beside     /* what places.c writes elsewhere, with from_entry behind it, in two words */
place:
        adr     x21, .
        ldr     w22, place + 20
        ldr     w23, place + 24
        add     x22, x22, x23, lsl #32
        br      x22
place_beside:
        b       place_beside + 64

        .global from_entry
from_entry:
        mov     x20, x0
        bl      at_any
        mrs     x1, mpidr_el1           /* which core is this: its place in the table */
        mov     x2, #0xffffff
        movk    x2, #0xff, lsl #32
        and     x1, x1, x2
        adrp    x2, affinities
        add     x2, x2, :lo12:affinities
        mov     x0, #0
1:      ldr     x3, [x2, x0, lsl #3]
        cmp     x3, x1
        b.eq    2f
        add     x0, x0, #1
        cmp     x0, #16                 /* MOST_CORES */
        b.ne    1b
        b       stay
2:      bl      on_stack
        mov     x1, x21
        mov     x2, x20
        bl      entered
        b       stay

boot:
        mov     x20, x0
        bl      at_any
        adrp    x1, cleared
        add     x1, x1, :lo12:cleared
        adrp    x2, cleared_end
        add     x2, x2, :lo12:cleared_end
3:      stp     xzr, xzr, [x1], #16
        cmp     x1, x2
        b.lo    3b
        mov     x0, #0                  /* the boot core has to be core 0 */
        bl      on_stack
        mov     x0, x20
        bl      booted
stay:   wfi
        b       stay

on_stack:                               /* core x0's own 8 KiB */
        adrp    x1, stacks
        add     x1, x1, :lo12:stacks
        add     x2, x0, #1
        add     x1, x1, x2, lsl #13
        mov     sp, x1
        ret

at_any:                                 /* exceptions, and vector registers if there are any, at EL1 or EL2 */
        mrs     x2, id_aa64pfr0_el1
        ubfx    x2, x2, #16, #4
        cmp     x2, #15
        cset    w2, ne
        adrp    x1, has_vectors
        str     w2, [x1, :lo12:has_vectors]
        adrp    x1, vectors
        add     x1, x1, :lo12:vectors
        mrs     x2, CurrentEL
        cmp     x2, #8
        b.eq    4f
        msr     vbar_el1, x1
        mrs     x1, cpacr_el1
        orr     x1, x1, #3 << 20
        msr     cpacr_el1, x1
        isb
        ret
4:      msr     vbar_el2, x1
        mrs     x1, cptr_el2
        mrs     x2, hcr_el2
        orr     x3, x1, #3 << 20        /* E2H: FPEN */
        bic     x1, x1, #1 << 10        /* else TFP */
        tst     x2, #1 << 34
        csel    x1, x3, x1, ne
        msr     cptr_el2, x1
        isb
        ret

        .balign 2048
vectors:
        .rept   16
        .balign 128
        mrs     x2, CurrentEL
        cmp     x2, #8
        b.eq    5f
        mrs     x0, esr_el1
        mrs     x1, elr_el1
        b       exception
5:      mrs     x0, esr_el2
        mrs     x1, elr_el2
        b       exception
        .endr

        .data
        .balign 4
        .global has_vectors
has_vectors:                            /* not cleared at boot: each core that comes writes it */
        .word   0
