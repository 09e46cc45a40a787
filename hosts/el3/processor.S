/* What a processor wants of its own, by its number: errata and SMPEN before its caches are on, vectors by what its
 * predictor keeps of the normal world, and how it leaves the others (stand.S). No stack is there. */
#include "processor.h"

#define CPUACTLR s3_1_c15_c2_0          /* Cortex-A53, A57, A72 */
#define CPUECTLR s3_1_c15_c2_1          /* Cortex-A35, A53, A57, A72, A73 */

        .macro  part number, leaves, forgets
        .hword  \number
        .byte   \leaves, \forgets
        .endm
        .section .rodata.parts, "a"
        .balign 4
        .global parts
parts:  part    0xd03, SMPEN, NOTHING           /* Cortex-A53 */
        part    0xd04, SMPEN, NOTHING           /* Cortex-A35 */
        part    0xd05, ITSELF, NOTHING          /* Cortex-A55 */
        part    0xd07, PREFETCH, BY_MMU         /* Cortex-A57 */
        part    0xd08, PREFETCH, BY_MMU         /* Cortex-A72 */
        part    0xd09, SMPEN, BY_AARCH32        /* Cortex-A73 */
        part    0xd0a, ITSELF, BY_AARCH32       /* Cortex-A75 */
        .irp    number, 0xd0b, 0xd0c, 0xd0d, 0xd40, 0xd41, 0xd44, 0xd47, 0xd48, 0xd49
        part    \number, ITSELF, BY_LOOP        /* A76, Neoverse-N1, A77, Neoverse-V1, A78, X1, A710, X2, Neoverse-N2 */
        .endr
        part    0, UNKNOWN, NOBODY_KNOWS

/* Of a part's revisions from the first to the last, as 0xVR: these bits are set. x0 is the part, x1 the revision. */
        .macro  erratum number, first, last, register, bits
        mov     x2, #\number
        cmp     x0, x2
        mov     x2, #\first
        ccmp    x1, x2, #0, eq
        mov     x2, #\last
        ccmp    x1, x2, #2, hs
        b.hi    9f
        mrs     x2, \register
        orr     x2, x2, #\bits
        msr     \register, x2
9:
        .endm

        .section .text.processor, "ax"
/* x2: its line of the table; x0 is its part, x1 its revision. Only these and x3 are changed, and the flags. */
        .global find_part
find_part:
        mrs     x1, midr_el1
        ubfx    x0, x1, #4, #12
        lsr     x2, x1, #24
        cmp     x2, #0x41                       /* Arm's own */
        csel    x0, x0, xzr, eq
        and     x2, x1, #15
        ubfx    x1, x1, #20, #4
        orr     x1, x2, x1, lsl #4
        adrp    x2, parts
        add     x2, x2, #:lo12:parts
1:      ldrh    w3, [x2], #PART
        cbz     w3, 2f
        cmp     w3, w0
        b.ne    1b
2:      sub     x2, x2, #PART
        ret

        .global before_caches
before_caches:
        mov     x7, x30
        bl      find_part
        ldrb    w5, [x2, #2]
        erratum 0xd03, 0x00, 0x03, CPUACTLR, 1 << 24    /* 836870: a stream of reads holds up an exclusive store */
        erratum 0xd03, 0x03, 0xff, CPUACTLR, 1 << 44    /* 855873: a line that is cleaned as it is evicted is lost */
        erratum 0xd07, 0x00, 0x11, CPUACTLR, 1 << 59    /* 826974: a load passes a barrier */
        erratum 0xd07, 0x00, 0x11, CPUACTLR, 1 << 54    /* 826977: accesses to a device that may be gathered block */
        erratum 0xd07, 0x00, 0x12, CPUACTLR, 1 << 4     /* 829520: an indirect branch spoils instructions behind it */
        erratum 0xd07, 0x00, 0x12, CPUACTLR, 1 << 38    /* 833471: a write of FPSCR fails or hangs */
        erratum 0xd07, 0x00, 0x13, CPUACTLR, 1 << 32    /* 859972: instructions are prefetched from where nobody may */
        erratum 0xd08, 0x00, 0x03, CPUACTLR, 1 << 32    /* 859971: the same */
        /* CVE-2018-3639: a load is done ahead of a store to its address. What SMCCC_ARCH_WORKAROUND_2 is about */
        erratum 0xd07, 0x00, 0xff, CPUACTLR, 1 << 55
        erratum 0xd08, 0x00, 0xff, CPUACTLR, 1 << 55
        erratum 0xd09, 0x00, 0xff, s3_0_c15_c0_0, 1 << 3
        erratum 0xd0a, 0x00, 0xff, s3_0_c15_c1_0, 1 << 35
        sub     x5, x5, #SMPEN
        cmp     x5, #PREFETCH - SMPEN
        b.hi    1f
        mrs     x2, CPUECTLR            /* without SMPEN no core keeps its caches coherent */
        orr     x2, x2, #0x40
        msr     CPUECTLR, x2
1:      isb
        ret     x7

/* The vectors of this processor, into x4. Where ID_AA64PFR0_EL1.CSV2 says that no world teaches another's branches
 * where to go, the history of branches is left. */
        .global find_vectors
find_vectors:
        mov     x7, x30
        bl      find_part
        ldrb    w2, [x2, #3]
        adr     x4, vectors
        adr     x5, vectors_loop
        cmp     w2, #BY_LOOP
        csel    x4, x5, x4, eq
        cmp     w2, #BY_MMU
        b.ne    1f
        adr     x4, vectors_mmu
        mrs     x3, id_aa64pfr0_el1
        tst     x3, #0xf << 56
        csel    x4, x4, x5, eq
1:      ret     x7
