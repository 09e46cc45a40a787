/* Where the bare machine begins, at EL1 with the MMU off: no register of vectors or floating point may
 * be touched (CPACR_EL1), and with CHECK_ALIGNMENT no access may be unaligned (SCTLR_EL1.A). What
 * breaks that comes to a vector, which tells on_exception where. */
        .text
        .balign 2048
vectors:
        .rept   16
        .balign 128
        mrs     x0, esr_el1
        mrs     x1, elr_el1
        mrs     x2, far_el1
        b       on_exception
        .endr

        .global _start
_start:
        ldr     x0, =stack_top
        mov     sp, x0
        ldr     x0, =vectors
        msr     vbar_el1, x0
        msr     cpacr_el1, xzr
#ifdef CHECK_ALIGNMENT
        mrs     x0, sctlr_el1
        orr     x0, x0, #2
        msr     sctlr_el1, x0
#endif
        isb
        bl      main
        bl      exit

        .bss
        .balign 16
        .space  65536
stack_top:
