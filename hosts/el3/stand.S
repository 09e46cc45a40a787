/* How a core stops whose power goes: its caches off and clean, out of coherency, its last word, WFI. There is no stack
 * in it: behind the first line that is cleaned nothing is read, and nothing written but that word. */
#include "processor.h"

#define CPUECTLR s3_1_c15_c2_1
#define CPUPWRCTLR s3_0_c15_c2_7
#define SGI0R s3_0_c12_c11_7

/* Each line of the caches of this core alone (x1 = 1), or of all up to memory (2), is clean and gone. x0 and x9 up are
 * its own. */
        .macro  clean_by_sets
        mrs     x9, clidr_el1
        ubfx    x10, x9, #21, #3        /* LoUIS, which does not say what is a core's own where it is 0 */
        ubfx    x11, x9, #24, #3        /* LoC */
        cmp     x1, #1
        ccmp    x10, #0, #4, eq
        csel    x10, x11, x10, eq
        mov     x11, #0                 /* twice the level, as CSSELR_EL1 has it */
1:      cmp     x11, x10, lsl #1
        b.hs    5f
        add     x12, x11, x11, lsr #1
        lsr     x12, x9, x12
        and     x12, x12, #7
        cmp     x12, #2                 /* else there is none of data */
        b.lo    4f
        msr     csselr_el1, x11
        isb
        mrs     x12, ccsidr_el1
        mrs     x13, s3_0_c0_c7_2       /* ID_AA64MMFR2_EL1.CCIDX: in which form */
        tst     x13, #0xf << 20
        ubfx    x13, x12, #3, #10
        ubfx    x14, x12, #3, #21
        csel    x13, x13, x14, eq       /* ways - 1 */
        ubfx    x14, x12, #13, #15
        ubfx    x15, x12, #32, #24
        csel    x14, x14, x15, eq       /* sets - 1 */
        and     x12, x12, #7
        add     x12, x12, #4            /* where a set stands */
        clz     w15, w13                /* where a way stands */
2:      mov     x16, x14
3:      lsl     x17, x13, x15
        lsl     x0, x16, x12
        orr     x17, x17, x0
        orr     x17, x17, x11
        dc      cisw, x17
        subs    x16, x16, #1
        b.hs    3b
        subs    x13, x13, #1
        b.hs    2b
4:      add     x11, x11, #2
        b       1b
5:      dsb     sy
        .endm

        .macro  say_last_and_wait       /* of x2 to x5 */
        cbz     x2, 2f
        str     x3, [x2]
        dsb     sy
        cbz     x5, 2f
        cbz     x4, 1f
        str     w5, [x4]
        b       2f
1:      msr     SGI0R, x5
        isb
2:      dsb     sy
        wfi
#ifdef POWER_GOES                       /* what ends it brings the core back through its reset vector */
        b       cold
#endif
        .endm

/* void stand(const struct last_word *, enum caches): on a machine its power goes in the WFI. Where it does not, what
 * ends that brings the core back with its caches on. */
        .text
        .global stand
stand:  mov     x8, x30
        mov     x9, x0
        mov     x10, x1
        bl      find_part
        mov     x30, x8
        mov     x1, x10
        ldrb    w7, [x2, #2]
        ldp     x2, x3, [x9]            /* the word, and what it says */
        ldp     x4, x5, [x9, #16]       /* where it rings, or by SGI0R, and with what */
        cmp     w7, #ITSELF
        b.eq    by_itself
        mrs     x6, sctlr_el3
        bic     x9, x6, #4              /* C */
        msr     sctlr_el3, x9
        isb
        cbz     w7, 1f
        mrs     x8, CPUECTLR
1:      cmp     w7, #PREFETCH
        b.ne    1f
        orr     x9, x8, #1 << 38        /* of page tables; and into the shared cache, of instructions and of data */
        and     x9, x9, #~(3 << 35)
        and     x9, x9, #~(3 << 32)
        msr     CPUECTLR, x9
        isb
        dsb     ish
1:      clean_by_sets
        cbz     w7, 1f
        mrs     x9, CPUECTLR
        bic     x9, x9, #0x40           /* SMPEN */
        msr     CPUECTLR, x9
        mov     x9, #1                  /* nor does a debugger hold up its power */
        msr     osdlr_el1, x9
1:      isb
        dsb     sy
        say_last_and_wait
        cbz     w7, 1f
        msr     osdlr_el1, xzr
        msr     CPUECTLR, x8
        isb
1:      msr     sctlr_el3, x6
        isb
        ret

by_itself:
#ifdef NO_PWRCTLR                       /* an emulator without it */
        say_last_and_wait
#else
        mrs     x8, CPUPWRCTLR
        orr     x9, x8, #1              /* CORE_PWRDN_EN */
        msr     CPUPWRCTLR, x9
        isb
        say_last_and_wait
        msr     CPUPWRCTLR, x8
        isb
#endif
        ret
