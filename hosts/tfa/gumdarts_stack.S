/* Where a core has a small stack, opening the firmware takes more than that. It is done once, before any
 * other core runs: so it is done on the other cores' stacks, which lie side by side, and none of whose
 * bytes stays in this core's caches: the others enter with theirs off. Where these are too small
 * together, or hold code until BL31 has come up, it gets memory of its own, which nobody uses later. */
#include <asm_macros.S>
#include <platform_def.h>

#if PLATFORM_STACK_SIZE < 0x700

	.globl	on_opening_stack

#define OPENING_SIZE 0x700

	.if RECLAIM_INIT_CODE || (PLATFORM_CORE_COUNT - 1) * PLATFORM_STACK_SIZE < OPENING_SIZE
	.section .bss.opening_stack, "aw", %nobits
	.balign	CACHE_WRITEBACK_GRANULE
	.space	OPENING_SIZE
opening_stack_end:
	.else
	.set	opening_stack_end, __STACKS_END__
	.endif

/* void on_opening_stack(void (*function)(void)); */
func on_opening_stack
	stp	x29, x30, [sp, #-16]!
	mov	x29, sp
	adrp	x1, opening_stack_end
	add	x1, x1, :lo12:opening_stack_end
	mov	sp, x1
	blr	x0
	mov	x1, #OPENING_SIZE
	mov	x0, sp
	sub	x0, x0, x1
	mov	sp, x29
	bl	flush_dcache_range
	ldp	x29, x30, [sp], #16
	ret
endfunc on_opening_stack

#endif
