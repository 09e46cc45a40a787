/* What a reset leaves unknown holds garbage, and what lost its power holds nothing, on an emulator, which keeps all: with
 * -DPOWER_GOES it comes before `cold` (reset.S). Translation is on at garbage and all traps are set, below EL3 where
 * that costs a core that counts on them most. */
#include "machine.h"
#define GARBAGE 0xa5c3f00dbadc0de5

        .macro  fill value, names:vararg
        ldr     x1, =\value
        .irp    name, \names
        msr     \name, x1
        .endr
        .endm

        .section .text.spoil, "ax"
/* The whole machine was reset: timers ring, and the controller's priorities of this core are the lowest. */
        .global spoil_all
spoil_all:
        fill    0x30c50838, sctlr_el3           /* as a reset has it: MMU and caches are off */
        fill    0x501, scr_el3                  /* NS, RW, HCE: so that all below EL3 can be written */
        isb
        fill    0, cntv_cval_el0, cntp_cval_el0, cnthp_cval_el2, cntps_cval_el1
        fill    1, cntv_ctl_el0, cntp_ctl_el0, cnthp_ctl_el2, cntps_ctl_el1
#if SPOIL_GIC == 3
        mrs     x2, mpidr_el1
        and     x2, x2, #0xffffff
        ldr     x3, =GICR - 0x20000
1:      add     x3, x3, #0x20000                /* the one whose TYPER has its affinity */
        ldr     w4, [x3, #12]
        cmp     w4, w2
        b.ne    1b
        add     x3, x3, #0x10, lsl #12
        add     x3, x3, #0x400
#elif SPOIL_GIC == 2
        ldr     x3, =GICD + 0x400
#endif
#if SPOIL_GIC
        mov     w2, #-1
        .irp    at, 0, 4, 8, 12, 16, 20, 24, 28
        str     w2, [x3, #\at]
        .endr
#endif
        b       cold

/* The power of this core went. It goes on at `spoiled`. */
        .global spoil
spoil:  fill    0x30c50838, sctlr_el3
        fill    0x501, scr_el3
        fill    0, cptr_el3
        isb
#if SPOIL_GIC == 3                              /* its interface is the core's */
        fill    7, s3_6_c12_c12_5               /* SRE: else none of these can be written */
        isb
        fill    0, s3_0_c12_c12_6, s3_6_c12_c12_7, s3_0_c4_c6_0 /* IGRPEN0, IGRPEN1_EL3, PMR */
        fill    7, s3_0_c12_c8_3, s3_0_c12_c12_3 /* BPR0, BPR1 */
        fill    0x1c, s3_6_c12_c12_4            /* CTLR_EL3: the end of an interrupt leaves it active */
        isb
        fill    0, s3_6_c12_c12_5
#elif SPOIL_GIC == 2
        ldr     x1, =GICC
        stp     wzr, wzr, [x1]                  /* CTLR, PMR */
        mov     w2, #7
        str     w2, [x1, #8]                    /* BPR */
#endif
        fill    GARBAGE, ttbr0_el1, ttbr1_el1, tcr_el1, mair_el1, amair_el1, vbar_el1, elr_el1, spsr_el1, sp_el0, sp_el1, \
                far_el1, esr_el1, afsr0_el1, afsr1_el1, par_el1, contextidr_el1, tpidr_el0, tpidr_el1, tpidrro_el0, \
                csselr_el1, cntkctl_el1, cpacr_el1, mdscr_el1, pmuserenr_el0, pmselr_el0, pmccfiltr_el0, pmccntr_el0
        fill    GARBAGE, ttbr0_el2, tcr_el2, mair_el2, amair_el2, vbar_el2, elr_el2, spsr_el2, sp_el2, far_el2, esr_el2, \
                hpfar_el2, afsr0_el2, afsr1_el2, tpidr_el2, vttbr_el2, vtcr_el2, cntvoff_el2, cnthctl_el2, vmpidr_el2, \
                vpidr_el2, hstr_el2, hacr_el2, mdcr_el2, dacr32_el2, ifsr32_el2, fpexc32_el2, spsr_abt, spsr_fiq, \
                spsr_irq, spsr_und, cntfrq_el0
        fill    GARBAGE, ttbr0_el3, tcr_el3, mair_el3, amair_el3, vbar_el3, elr_el3, spsr_el3, far_el3, esr_el3, \
                afsr0_el3, afsr1_el3, tpidr_el3
        fill    0x30d0581f, sctlr_el1           /* M, A, C, SA, I */
        fill    0x30c5183f, sctlr_el2
        fill    0x30ffffff, cptr_el2
        fill    0x7ffffe3f, hcr_el2             /* TGE, VM, all traps, EL1 in AArch32; no virtual interrupt, which ends a WFI */
        fill    0x30640, mdcr_el3
        ldr     x0, =GARBAGE
        mov     sp, x0
        .arch   armv8-a+fp
        .irp    n, 0,1,2,3,4,5,6,7,8,9,10,11,12,13,14,15,16,17,18,19,20,21,22,23,24,25,26,27,28,29,30,31
        dup     v\n\().2d, x0
        .endr
        msr     fpcr, x0
        msr     fpsr, x0
        fill    0x80100500, cptr_el3            /* TCPAC, TTA, TFP */
        fill    0, scr_el3                      /* EL2 and EL1 are not to be reached */
        isb
        .irp    n, 1,2,3,4,5,6,7,8,9,10,11,12,13,14,15,16,17,18,19,20,21,22,23,24,25,26,27,28,29,30
        mov     x\n, x0
        .endr
        msr     nzcv, x0
        b       spoiled
