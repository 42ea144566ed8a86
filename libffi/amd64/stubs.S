/* The four stubs, whole, between what a real processor and its stack need beside them. rows.inc has their bytes,
 * whose effect is proved: they find the exchange in rdi, rbx, rax and rcx, and begin with r11 := that register.
 *
 * What stands below is trusted; docs/TRUSTED.md counts it. Nothing that is still needed stands below sp, but in the
 * red zone. */

#include "constants.h"

	.include "rows.inc"
	.text

/* void make_call(struct exchange *exchange, size_t stack_bytes)
 *
 * The stack arguments are pushed, the last first, so that each page of the stack is touched before the one below it. */
	.globl	make_call
	.hidden	make_call
	.type	make_call, @function
	.balign	32
make_call:
	.cfi_startproc
	endbr64
	push	%rbp
	.cfi_def_cfa_offset 16
	.cfi_offset %rbp, -16
	mov	%rsp, %rbp
	.cfi_def_cfa_register %rbp
	push	%rbx
	.cfi_offset %rbx, -24
	lea	-8(%rsp), %rsp
	mov	%rdi, %rbx
	mov	%rsp, 544(%rdi)		/* sp behind Return */
	test	%rsi, %rsi
	jz	2f
1:	push	568(%rdi,%rsi)		/* the last eight bytes that are left */
	sub	$8, %rsi
	jnz	1b
2:	mov	%rsp, 520(%rdi)		/* sp at the call */
	mov	552(%rdi), %r10
	CALL_ROWS
	RETURN_ROWS
	mov	560(%rbx), %eax		/* results in x87 registers */
	test	%eax, %eax
	jz	3f
	fstpt	384(%rbx)
	dec	%eax
	jz	3f
	fstpt	400(%rbx)
3:	lea	8(%rsp), %rsp
	pop	%rbx
	.cfi_restore %rbx
	pop	%rbp
	.cfi_restore %rbp
	.cfi_def_cfa %rsp, 8
	ret
	.cfi_endproc
	.size	make_call, .-make_call

/* Entry, the call of a function in C, and Exit. The function is given the exchange, the closure, and where the caller's
 * stack arguments begin: OUTER bytes above where they would, had the caller called this. The exchange is above the save
 * area, so that Exit reads nothing below sp. */
	.macro	RECEIVE function, outer
	.cfi_startproc
	endbr64
	lea	-576(%rsp), %rsp
	.cfi_def_cfa_offset 584
	mov	%rsp, %rax
	lea	-56(%rsp), %r11
	mov	%r11, 528(%rax)		/* sp behind Entry */
	ENTRY_MOVES_SP
	.cfi_def_cfa_offset 640
	ENTRY_SAVES
	.cfi_offset %rbx, -640
	.cfi_offset %rbp, -632
	.cfi_offset %r12, -624
	.cfi_offset %r13, -616
	.cfi_offset %r14, -608
	.cfi_offset %r15, -600
	ENTRY_STORES
	lea	56(%rsp), %rdi
	mov	%r10, %rsi
	lea	640+\outer(%rsp), %rdx
	call	\function
	lea	56(%rsp), %rcx
	mov	560(%rcx), %eax		/* results in x87 registers */
	test	%eax, %eax
	jz	2f
	dec	%eax
	jz	1f
	fldt	400(%rcx)
1:	fldt	384(%rcx)
2:	EXIT_FINDS_SAVES
	EXIT_RESTORES
	.cfi_restore %rbx
	.cfi_restore %rbp
	.cfi_restore %r12
	.cfi_restore %r13
	.cfi_restore %r14
	.cfi_restore %r15
	EXIT_LOADS
	EXIT_MOVES_SP			/* over the save area and the exchange */
	.cfi_def_cfa_offset 8
	EXIT_RETURNS
	.cfi_endproc
	.endm

/* A caller by Microsoft's convention keeps more registers than the save area has: rsi, rdi, and all of xmm6 to
 * xmm15. */
	.macro	RECEIVE_WIN64 core
	.cfi_startproc
	endbr64
	push	%rsi
	.cfi_def_cfa_offset 16
	.cfi_offset %rsi, -16
	push	%rdi
	.cfi_def_cfa_offset 24
	.cfi_offset %rdi, -24
	sub	$168, %rsp
	.cfi_def_cfa_offset 192
	movaps	%xmm6, (%rsp)
	movaps	%xmm7, 16(%rsp)
	movaps	%xmm8, 32(%rsp)
	movaps	%xmm9, 48(%rsp)
	movaps	%xmm10, 64(%rsp)
	movaps	%xmm11, 80(%rsp)
	movaps	%xmm12, 96(%rsp)
	movaps	%xmm13, 112(%rsp)
	movaps	%xmm14, 128(%rsp)
	movaps	%xmm15, 144(%rsp)
	.set	at, -192
	.irp	register, 23, 24, 25, 26, 27, 28, 29, 30, 31, 32 /* xmm6 is 23 */
	.cfi_offset \register, at
	.set	at, at + 16
	.endr
	call	\core
	movaps	(%rsp), %xmm6
	movaps	16(%rsp), %xmm7
	movaps	32(%rsp), %xmm8
	movaps	48(%rsp), %xmm9
	movaps	64(%rsp), %xmm10
	movaps	80(%rsp), %xmm11
	movaps	96(%rsp), %xmm12
	movaps	112(%rsp), %xmm13
	movaps	128(%rsp), %xmm14
	movaps	144(%rsp), %xmm15
	.irp	register, 23, 24, 25, 26, 27, 28, 29, 30, 31, 32
	.cfi_restore \register
	.endr
	add	$168, %rsp
	.cfi_def_cfa_offset 24
	pop	%rdi
	.cfi_restore %rdi
	.cfi_def_cfa_offset 16
	pop	%rsi
	.cfi_restore %rsi
	.cfi_def_cfa_offset 8
	ret
	.cfi_endproc
	.endm

	.macro	ROUTINE name
	.balign	32
	.globl	\name
	.hidden	\name
	.type	\name, @function
\name:
	.endm

	.hidden	receive_closure
	.hidden	receive_go_closure

	ROUTINE	enter_closure
	RECEIVE	receive_closure, 0
	.size	enter_closure, .-enter_closure
	ROUTINE	enter_go_closure
	RECEIVE	receive_go_closure, 0
	.size	enter_go_closure, .-enter_go_closure
	ROUTINE	win64_core
	RECEIVE	receive_closure, 192
	.size	win64_core, .-win64_core
	ROUTINE	win64_go_core
	RECEIVE	receive_go_closure, 192
	.size	win64_go_core, .-win64_go_core
	ROUTINE	enter_closure_win64
	RECEIVE_WIN64 win64_core
	.size	enter_closure_win64, .-enter_closure_win64
	ROUTINE	enter_go_closure_win64
	RECEIVE_WIN64 win64_go_core
	.size	enter_go_closure_win64, .-enter_go_closure_win64

/* The code of slots: of a client's own memory, and of blocks, whose data stand BLOCK_BYTES behind the code. */
	.globl	slots_code
	.hidden	slots_code
	.type	slots_code, @object
	.balign	4096
slots_code:
	.rept	BLOCK_BYTES / 64
	FAR_SLOT_ROWS
	.balign	64, 0xcc
	.endr
	.size	slots_code, .-slots_code

	.section .rodata
	.globl	slot_code
	.hidden	slot_code
	.type	slot_code, @object
slot_code:
	SLOT_ROWS
	.size	slot_code, .-slot_code

/* Branch targets are marked, and returns go where calls came from. */
	.section .note.gnu.property, "a"
	.balign	8
	.long	4, 16, 5
	.asciz	"GNU"
	.long	0xc0000002, 4, 3, 0

	.section .note.GNU-stack, "", @progbits
