/* What BL2 loads as the normal world: it goes to the kernel that QEMU put into memory, as U-Boot would. */
	.globl _start
_start:
	ldr	x0, =0x47000000		/* the device tree */
	mov	x1, xzr
	mov	x2, xzr
	mov	x3, xzr
	ldr	x4, =0x40200000		/* the kernel */
	br	x4
