/* What the library moves and clears, by words where it can: TF-A's own memcpy goes byte by byte, and each answer
 * of the library is moved and each place cleared. These take the place of TF-A's in all of BL31. Accesses are
 * aligned, as SCTLR_EL3.A wants them. */
#include <asm_macros.S>

	.globl	memcpy
	.globl	memmove
	.globl	memset

/* void *memmove(void *to, const void *from, size_t many); */
func memmove
	sub	x3, x0, x1
	cmp	x3, x2
	b.lo	.Lbackwards
.Lforwards:
	mov	x3, x0
	orr	x4, x0, x1
	tst	x4, #7
	b.ne	.Lalike
	subs	x2, x2, #16
	b.lo	2f
1:	ldp	x4, x5, [x1], #16
	stp	x4, x5, [x3], #16
	subs	x2, x2, #16
	b.hs	1b
2:	tbz	x2, #3, 3f
	ldr	x4, [x1], #8
	str	x4, [x3], #8
3:	ands	x2, x2, #7
	b.eq	5f
4:	ldrb	w4, [x1], #1
	strb	w4, [x3], #1
	subs	x2, x2, #1
	b.ne	4b
5:	ret
	/* not aligned: up to where they are, if that is at once for both */
.Lalike:
	cbz	x2, 5b
	eor	x4, x3, x1
	tst	x4, #7
	b.ne	4b
6:	ldrb	w4, [x1], #1
	strb	w4, [x3], #1
	subs	x2, x2, #1
	b.eq	5b
	tst	x3, #7
	b.ne	6b
	subs	x2, x2, #16
	b.hs	1b
	b	2b
	/* the beginning of what is written lies in what is read */
.Lbackwards:
	cbz	x2, 5b
	add	x1, x1, x2
	add	x3, x0, x2
7:	ldrb	w4, [x1, #-1]!
	strb	w4, [x3, #-1]!
	subs	x2, x2, #1
	b.ne	7b
	ret
endfunc memmove

/* void *memcpy(void *to, const void *from, size_t many); */
func memcpy
	b	.Lforwards
endfunc memcpy

/* void *memset(void *to, int byte, size_t many); */
func memset
	mov	x3, x0
	cbz	x2, 5f
	tst	x3, #7
	b.ne	4f
	ands	w1, w1, #0xff
	b.eq	1f
	mov	x4, #0x0101010101010101
	mul	x1, x1, x4
1:	subs	x2, x2, #16
	b.lo	3f
2:	stp	x1, x1, [x3], #16
	subs	x2, x2, #16
	b.hs	2b
3:	tbz	x2, #3, 6f
	str	x1, [x3], #8
6:	ands	x2, x2, #7
	b.eq	5f
7:	strb	w1, [x3], #1
	subs	x2, x2, #1
	b.ne	7b
5:	ret
	/* up to where it is aligned */
4:	strb	w1, [x3], #1
	subs	x2, x2, #1
	b.eq	5b
	tst	x3, #7
	b.ne	4b
	ands	w1, w1, #0xff
	b.eq	1b
	mov	x4, #0x0101010101010101
	mul	x1, x1, x4
	b	1b
endfunc memset
