/* uint64_t conduit_call(uint64_t x[4], uint32_t is_smc): makes the call of x, which gets the results.
 * In what it returns there is a bit for each register that the firmware changed: from bit 4 on for x4 to x30,
 * from bit 32 on for the vector registers v0 to v31, where the core has any. */
        .macro  patterned
        .irp    n, 4,5,6,7,8,9,10,11,12,13,14,15,16,17,18,19,20,21,22,23,24,25,26,27,28,29,30
        mov     x\n, #(0x5a00 + \n)
        .endr
        .endm
        .macro  vectors_to where
        adrp    x9, has_vectors
        ldr     w9, [x9, :lo12:has_vectors]
        cbz     w9, \where
        .endm
        .macro  words_of_x0
        ldp     x2, x3, [x0, #16]
        ldp     x0, x1, [x0]
        .endm

        .text
        .global conduit_call
conduit_call:
        stp     x29, x30, [sp, #-112]!
        stp     x19, x20, [sp, #16]
        stp     x21, x22, [sp, #32]
        stp     x23, x24, [sp, #48]
        stp     x25, x26, [sp, #64]
        stp     x27, x28, [sp, #80]
        stp     x0, x18, [sp, #96]
        vectors_to 0f
        .irp    n, 0,1,2,3,4,5,6,7,8,9,10,11,12,13,14,15,16,17,18,19,20,21,22,23,24,25,26,27,28,29,30,31
        movi    v\n\().16b, #(0x40 + \n)
        .endr
0:      cbnz    w1, 1f
        words_of_x0
        patterned
        hvc     #0
        b       2f
1:      words_of_x0
        patterned
        smc     #0
2:      stp     x0, x1, [sp, #-256]!
        stp     x2, x3, [sp, #16]
        .irp    n, 4,6,8,10,12,14,16,18,20,22,24,26,28
        str     x\n, [sp, #8 * \n]
        .endr
        .irp    n, 5,7,9,11,13,15,17,19,21,23,25,27,29,30
        str     x\n, [sp, #8 * \n]
        .endr
        ldr     x9, [sp, #256 + 96]
        ldp     x10, x11, [sp]
        stp     x10, x11, [x9]
        ldp     x10, x11, [sp, #16]
        stp     x10, x11, [x9, #16]
        mov     x0, #0
        mov     x10, #4
3:      ldr     x11, [sp, x10, lsl #3]
        mov     x12, #0x5a00
        add     x12, x12, x10
        cmp     x11, x12
        cset    x13, ne
        lsl     x13, x13, x10
        orr     x0, x0, x13
        add     x10, x10, #1
        cmp     x10, #31
        b.ne    3b
        vectors_to 5f
        sub     sp, sp, #512
        .irp    n, 0,1,2,3,4,5,6,7,8,9,10,11,12,13,14,15,16,17,18,19,20,21,22,23,24,25,26,27,28,29,30,31
        str     q\n, [sp, #16 * \n]
        .endr
        mov     x14, #0x0101010101010101
        mov     x10, #0
4:      add     x15, sp, x10, lsl #4
        ldp     x11, x13, [x15]
        add     x12, x10, #0x40
        mul     x12, x12, x14
        cmp     x11, x12
        ccmp    x13, x12, #0, eq
        cset    x13, ne
        add     x11, x10, #32
        lsl     x13, x13, x11
        orr     x0, x0, x13
        add     x10, x10, #1
        cmp     x10, #32
        b.ne    4b
        add     sp, sp, #512
5:      add     sp, sp, #256
        ldr     x18, [sp, #104]
        ldp     x19, x20, [sp, #16]
        ldp     x21, x22, [sp, #32]
        ldp     x23, x24, [sp, #48]
        ldp     x25, x26, [sp, #64]
        ldp     x27, x28, [sp, #80]
        ldp     x29, x30, [sp], #112
        ret

/* uint64_t hold_registers(uint64_t end): waits until the counter is there, and calls nobody. In what it returns there
 * is a bit for each of x4 to x30 that somebody changed meanwhile, bit 4 for x4. */
        .global hold_registers
hold_registers:
        stp     x29, x30, [sp, #-96]!
        stp     x19, x20, [sp, #16]
        stp     x21, x22, [sp, #32]
        stp     x23, x24, [sp, #48]
        stp     x25, x26, [sp, #64]
        stp     x27, x28, [sp, #80]
        mov     x2, x18
        patterned
1:      yield
        isb
        mrs     x1, cntpct_el0
        cmp     x1, x0
        b.ls    1b
        mov     x0, #0
        .irp    n, 4,5,6,7,8,9,10,11,12,13,14,15,16,17,18,19,20,21,22,23,24,25,26,27,28,29,30
        mov     x1, #(0x5a00 + \n)
        cmp     x1, x\n
        cset    x3, ne
        orr     x0, x0, x3, lsl #\n
        .endr
        mov     x18, x2
        ldp     x19, x20, [sp, #16]
        ldp     x21, x22, [sp, #32]
        ldp     x23, x24, [sp, #48]
        ldp     x25, x26, [sp, #64]
        ldp     x27, x28, [sp, #80]
        ldp     x29, x30, [sp], #96
        ret
