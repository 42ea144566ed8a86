// Plays a call and an entry on AAPCS64: see player.c. x16, x17, x18 and x30 are never loaded; x16 and x17 are the
// assembly's own, since a linker may use them between a call and its callee.

.macro each_general op
.irp r, 0,1,2,3,4,5,6,7,8,9,10,11,12,13,14,15,19,20,21,22,23,24,25,26,27,28,29
    \op x\r, [x16, 8*\r]
.endr
.endm
.macro each_floating op
.irp r, 0,1,2,3,4,5,6,7,8,9,10,11,12,13,14,15,16,17,18,19,20,21,22,23,24,25,26,27,28,29,30,31
    \op d\r, [x16, 256+8*\r]
.endr
.endm
.macro each_upper op
    add x17, x16, 512
.irp half, v0.d,v1.d,v2.d,v3.d,v4.d,v5.d,v6.d,v7.d
    \op {\half}[1], [x17], 8
.endr
.endm
.macro each_saved op
.irp r, 19,20,21,22,23,24,25,26,27,28,29,30
    \op x\r, [sp, 8*\r]
.endr
.irp r, 8,9,10,11,12,13,14,15
    \op d\r, [sp, 256+8*\r]
.endr
.endm
.macro address register, name
    adrp \register, \name
    add \register, \register, :lo12:\name
.endm

    .text
    .globl play_call
play_call:                      // x0: the callee, x1: the stack pointer at the call
    sub sp, sp, 512
    each_saved str
    address x16, kept
    mov x17, sp
    str x17, [x16]
    str x0, [x16, 8]
    mov sp, x1
    address x16, now
    each_general ldr
    each_floating ldr
    each_upper ld1
    address x17, kept
    ldr x17, [x17, 8]
    blr x17
    address x16, now
    each_general str
    each_floating str
    each_upper st1
    mov x17, sp
    str x17, [x16, 248]
    address x17, kept
    ldr x17, [x17]
    mov sp, x17
    each_saved ldr
    add sp, sp, 512
    ret

    .globl play_enter
play_enter:
    address x16, now
    each_general str
    each_floating str
    each_upper st1
    str x30, [x16, 240]
    mov x17, sp
    str x17, [x16, 248]
    mov x19, sp
    and x17, x17, -16
    mov sp, x17
    bl entered
    mov sp, x19
    address x16, now
    each_general ldr
    each_floating ldr
    each_upper ld1
    ldr x30, [x16, 240]
    ret

    .bss
    .balign 8
kept: .skip 16
    .section .note.GNU-stack,"",%progbits
