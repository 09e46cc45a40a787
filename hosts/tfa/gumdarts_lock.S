/* A turn of a spin lock for who does not wait: taken if nobody has it. */
#include <asm_macros.S>

	.globl	lock_if_free

/* bool lock_if_free(spinlock_t *lock); */
func lock_if_free
	mov	w2, #1
1:	ldaxr	w1, [x0]
	cbnz	w1, 2f
	stxr	w1, w2, [x0]
	cbnz	w1, 1b
	mov	w0, #1
	ret
2:	clrex
	mov	w0, #0
	ret
endfunc lock_if_free
