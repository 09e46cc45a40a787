/* Reset, exceptions, and the way between the worlds. Each core begins here, at address 0. */
#include "context.h"
#include "machine.h"
#include "table.h"

        .macro  save_context    /* x0 is where it stands */
        stp     x0, x1, [sp, #-CONTEXT_SIZE]!
        stp     x2, x3, [sp, #16]
        stp     x4, x5, [sp, #32]
        stp     x6, x7, [sp, #48]
        stp     x8, x9, [sp, #64]
        stp     x10, x11, [sp, #80]
        stp     x12, x13, [sp, #96]
        stp     x14, x15, [sp, #112]
        stp     x16, x17, [sp, #128]
        stp     x18, x30, [sp, #144]
        mov     x0, sp
        .endm

        .macro  leave           /* to the normal world, as its context says */
        ldp     x2, x3, [sp, #16]
        ldp     x4, x5, [sp, #32]
        ldp     x6, x7, [sp, #48]
        ldp     x8, x9, [sp, #64]
        ldp     x10, x11, [sp, #80]
        ldp     x12, x13, [sp, #96]
        ldp     x14, x15, [sp, #112]
        ldp     x16, x17, [sp, #128]
        ldp     x18, x30, [sp, #144]
        ldp     x0, x1, [sp], #CONTEXT_SIZE
        eret
        dsb     nsh             /* nothing behind it is done ahead of it */
        isb
        .endm

/* Of a processor that needs it, what it predicts in EL3 is nothing that the caller has taught it: 32 branches are more
 * than any of processor.S remembers. SMCCC_ARCH_WORKAROUND_1 and 3 are such a call, and no more. */
        .macro  forget_nothing
        .endm
        .macro  forget_by_mmu
        mrs     x1, sctlr_el3
        bic     x1, x1, #1
        msr     sctlr_el3, x1
        isb
        orr     x1, x1, #1
        msr     sctlr_el3, x1
        isb
        .endm
        .macro  forget_by_loop
        mov     x1, #32
1:      b       2f
2:      subs    x1, x1, #1
        b.ne    1b
        dsb     nsh
        isb
        .endm

        .macro  own_stack a     /* the stack of this core, whose end is in TPIDR_EL3 */
        mrs     \a, tpidr_el3
        mov     sp, \a
        .endm

        .section .text.reset, "ax"
        .global reset
#ifdef POWER_GOES
reset:  b       spoil_all
#else
reset:  b       cold
#endif

        .macro  unexpected_at which
        .balign 128
        mov     x0, #\which
        b       unexpected
        .endm

/* What is not expected: all that comes from EL3 itself; by vector 9 an IRQ, which is not routed here; by 11 an SError
 * of the normal world, which neither is; and what comes from AArch32. */
        .macro  table name, forget
        .balign 2048
        .global \name
\name:
        .irp    which, 0,1,2,3,4,5,6,7
        unexpected_at \which
        .endr
        .balign 128             /* synchronous, of a lower level in AArch64 */
        save_context
        \forget
        b       called
        unexpected_at 9
        .balign 128             /* FIQ: the bell, or the secure timer */
        save_context
        \forget
        b       rung
        .irp    which, 11,12,13,14,15
        unexpected_at \which
        .endr
        .endm
        table   vectors, forget_nothing
        table   vectors_mmu, forget_by_mmu
        table   vectors_loop, forget_by_loop

called: mrs     x1, esr_el3
        bl      on_exception
        leave

rung:   bl      on_fiq
        leave

        .text
/* _Noreturn void leave_for(uint64_t address, uint64_t x0): enters the normal world there, in the state of normal.S. No
 * other register says anything, and the stack is empty again. */
        .global leave_for
leave_for:
        msr     elr_el3, x0
        mov     x0, x1
        own_stack x1
        .irp    n, 1,2,3,4,5,6,7,8,9,10,11,12,13,14,15,16,17,18,19,20,21,22,23,24,25,26,27,28,29,30
        mov     x\n, #0
        .endr
        eret
        dsb     nsh
        isb

unexpected:                             /* it ends the core's work, so its stack is empty again */
        own_stack x1
        mrs     x1, esr_el3
        mrs     x2, elr_el3
        mrs     x3, far_el3
        bl      on_unexpected

/* The machine was reset, or a core whose power was away comes back: EL3, and all else unknown. */
        .global cold
cold:
#ifdef POWER_GOES
        b       spoil
        .global spoiled
spoiled:
#endif
        msr     daifset, #15
        bl      find_vectors
        msr     vbar_el3, x4
        bl      before_caches
        mov     x0, #0x04ff             /* MAIR: 0 is normal, write-back; 1 is a device, nGnRE */
        msr     mair_el3, x0
        ldr     x0, =TCR                /* as wide as the map, pages of 4 KB, inner shareable, write-back */
        msr     tcr_el3, x0
        adrp    x0, map
        msr     ttbr0_el3, x0
        mov     x0, #0x535              /* SCR: NS, HCE, RW; FIQs come here, aborts and SErrors do not; SMD clear */
        msr     scr_el3, x0
        isb                             /* by NS it is known whose EL2 and EL1 forget */
        tlbi    alle3                   /* nothing of before: a core out of coherency has heard of no change */
        tlbi    alle2
        tlbi    alle1
        ic      iallu
        dsb     sy
        isb
        ldr     x0, =SCTLR              /* the MMU and both caches are on, before any shared memory */
        msr     sctlr_el3, x0
        isb
        ldr     x0, =FREQUENCY          /* what counts beside, and nobody has set before */
        msr     cntfrq_el0, x0
        msr     cptr_el3, xzr
        msr     mdcr_el3, xzr
        isb
        mrs     x0, mpidr_el1           /* a stack for each core that is listed, whose end is kept */
        ldr     x1, =AFFINITY           /* in TPIDR_EL3, with room there for the core's number */
        and     x0, x0, x1
        adr     x1, listed
        ldr     x2, =STACKS - 16
        mov     x3, #STACKED
1:      add     x2, x2, #STACK
        ldr     x4, [x1], #8
        cmp     x4, x0
        b.eq    2f
        subs    x3, x3, #1
        b.ne    1b
0:      wfi                             /* the machine has this core, and it is not used */
        b       0b
2:      msr     tpidr_el3, x2
        own_stack x0
        bl      on_reset

        .balign 8
#ifdef SCP_MPIDR
listed: .quad   MPIDRS, SCP_MPIDR
        .set    STACKED, CORES + 1
#else
listed: .quad   MPIDRS
        .set    STACKED, CORES
#endif

        .if STACKS + STACK * STACKED > STACKS_END
        .error "there are not so many stacks"
        .endif

#ifdef STRICT                           /* SCTLR_EL3.A: an access that is not aligned is a fault */
        .set    SCTLR, 0x30c5183f
#else
        .set    SCTLR, 0x30c5183d
#endif
