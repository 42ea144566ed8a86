/* The four stubs, whole, between what a real processor and its stack need beside them. rows.inc has their bytes,
 * whose effect is proved: they find the exchange in x0, x19, x9 and x9, and begin with x17 or x16 := that register.
 * Where a long double is in a register, what moves its high half stands between the rows of a second Call and a second
 * Exit.
 *
 * What stands below is trusted; docs/TRUSTED.md counts it. Nothing that is still needed stands below sp. */

#include "constants.h"

	.include "rows.inc"
	.text

/* void make_call(struct exchange *exchange, size_t stack_bytes)
 *
 * The stack arguments are pushed, the last first, so that each page of the stack is touched before the one below it. */
	.globl	make_call
	.hidden	make_call
	.type	make_call, %function
	.balign	32
make_call:
	.cfi_startproc
	stp	x29, x30, [sp, #-32]!
	.cfi_def_cfa_offset 32
	.cfi_offset x29, -32
	.cfi_offset x30, -24
	mov	x29, sp
	.cfi_def_cfa_register x29
	str	x19, [sp, #16]
	.cfi_offset x19, -16
	mov	x19, x0
	mov	x9, sp
	str	x9, [x0, #544]		/* sp behind Return */
	cbz	x1, 2f
	add	x10, x0, #576
	add	x10, x10, x1
1:	ldp	x11, x12, [x10, #-16]!	/* the last sixteen bytes that are left */
	stp	x11, x12, [sp, #-16]!
	subs	x1, x1, #16
	b.ne	1b
2:	mov	x9, sp
	str	x9, [x0, #520]		/* sp at the call */
	ldr	x18, [x0, #552]
	ldr	w9, [x0, #560]
	cbz	w9, 3f
	CALL_LOADS
	add	x10, x17, #384
	ld1	{v0.d}[1], [x10], #8
	ld1	{v1.d}[1], [x10], #8
	ld1	{v2.d}[1], [x10], #8
	ld1	{v3.d}[1], [x10], #8
	ld1	{v4.d}[1], [x10], #8
	ld1	{v5.d}[1], [x10], #8
	ld1	{v6.d}[1], [x10], #8
	ld1	{v7.d}[1], [x10]
	CALL_CALLS
	b	4f
3:	CALL_LOADS
	CALL_CALLS
4:	RETURN_ROWS
	zip2	v4.2d, v0.2d, v1.2d
	zip2	v5.2d, v2.2d, v3.2d
	stp	q4, q5, [x19, #384]
	ldr	x19, [sp, #16]
	.cfi_restore x19
	ldp	x29, x30, [sp], #32
	.cfi_restore x29
	.cfi_restore x30
	.cfi_def_cfa sp, 0
	ret
	.cfi_endproc
	.size	make_call, .-make_call

/* Entry, the call of a function in C, and Exit. The function is given the exchange, the closure, which is in x17,
 * and where the caller's stack arguments begin. The exchange is above the save area, so that Exit reads nothing
 * below sp. */
	.macro	RESTORED
	.irp	register, 19, 20, 21, 22, 23, 24, 25, 26, 27, 28, 29, 30, 72, 73, 74, 75, 76, 77, 78, 79
	.cfi_restore \register
	.endr
	.endm

	.macro	RECEIVE function
	sub	sp, sp, #576
	.cfi_def_cfa_offset 576
	mov	x9, sp
	sub	x10, sp, #176
	str	x10, [x9, #528]		/* sp behind Entry */
	zip2	v16.2d, v0.2d, v1.2d
	zip2	v17.2d, v2.2d, v3.2d
	zip2	v18.2d, v4.2d, v5.2d
	zip2	v19.2d, v6.2d, v7.2d
	stp	q16, q17, [x9, #384]
	stp	q18, q19, [x9, #416]
	ENTRY_MOVES_SP
	.cfi_def_cfa_offset 752
	ENTRY_SAVES
	.set	saved_at, -752
	.irp	register, 19, 20, 21, 22, 23, 24, 25, 26, 27, 28, 29, 30, 72, 73, 74, 75, 76, 77, 78, 79 /* d8 is 72 */
	.cfi_offset \register, saved_at
	.set	saved_at, saved_at + 8
	.endr
	ENTRY_STORES
	add	x0, sp, #176
	mov	x1, x17
	add	x2, sp, #752
	bl	\function
	add	x9, sp, #176
	ldr	w10, [x9, #560]
	cbz	w10, 1f
	.cfi_remember_state
	EXIT_FINDS_SAVES
	EXIT_RESTORES
	RESTORED
	EXIT_LOADS
	add	x10, x16, #384
	ld1	{v0.d}[1], [x10], #8
	ld1	{v1.d}[1], [x10], #8
	ld1	{v2.d}[1], [x10], #8
	ld1	{v3.d}[1], [x10]
	EXIT_MOVES_SP
	.cfi_def_cfa_offset 0
	EXIT_RETURNS
	.cfi_restore_state
1:	EXIT_FINDS_SAVES
	EXIT_RESTORES
	RESTORED
	EXIT_LOADS
	EXIT_MOVES_SP			/* over the save area and the exchange */
	.cfi_def_cfa_offset 0
	EXIT_RETURNS
	.endm

	.macro	ROUTINE name
	.balign	32
	.globl	\name
	.hidden	\name
	.type	\name, %function
\name:
	.cfi_startproc
	.endm

	.macro	END name
	.cfi_endproc
	.size	\name, .-\name
	.endm

	.hidden	receive_closure
	.hidden	receive_go_closure

	ROUTINE	enter_closure
	RECEIVE	receive_closure
	END	enter_closure

/* Go's closure comes in x18. */
	ROUTINE	enter_go_closure
	mov	x17, x18
	RECEIVE	receive_go_closure
	END	enter_go_closure

/* The code of slots: of a client's own memory, and of blocks, whose data stand BLOCK_BYTES behind the code. */
	.globl	slots_code
	.hidden	slots_code
	.type	slots_code, @object
	.balign	65536
slots_code:
	.rept	BLOCK_BYTES / 64
	FAR_SLOT_ROWS
	.skip	52
	.endr
	.size	slots_code, .-slots_code

	.section .rodata
	.globl	slot_code
	.hidden	slot_code
	.type	slot_code, @object
	.balign	4
slot_code:
	SLOT_ROWS
	.skip	4
	.size	slot_code, .-slot_code

	.section .note.GNU-stack, "", %progbits
