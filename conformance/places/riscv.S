# Plays a call and an entry on RISC-V: see player.c. x0, sp, ra, gp and tp are never loaded; t6 is the assembly's own.

.macro each_general op
.irp r, 5,6,7,8,9,10,11,12,13,14,15,16,17,18,19,20,21,22,23,24,25,26,27,28,29
    \op x\r, 8*\r(t6)
.endr
.endm
.macro each_floating op
.irp r, 0,1,2,3,4,5,6,7,8,9,10,11,12,13,14,15,16,17,18,19,20,21,22,23,24,25,26,27,28,29,30,31
    \op f\r, 256+8*\r(t6)
.endr
.endm
.macro each_saved op_general op_floating
.irp r, 8,9,18,19,20,21,22,23,24,25,26,27
    \op_general x\r, 8*\r(sp)
    \op_floating f\r, 256+8*\r(sp)
.endr
.endm

    .text
    .globl play_call
play_call:                      # a0: the callee, a1: the stack pointer at the call
    addi sp, sp, -512
    sd ra, 0(sp)
    each_saved sd, fsd
    la t6, kept
    sd sp, 0(t6)
    sd a0, 8(t6)
    mv sp, a1
    la t6, now
    each_general ld
    each_floating fld
    la t6, kept
    ld t6, 8(t6)
    jalr ra, t6
    la t6, now
    each_general sd
    each_floating fsd
    sd sp, 16(t6)
    la t6, kept
    ld sp, 0(t6)
    ld ra, 0(sp)
    each_saved ld, fld
    addi sp, sp, 512
    ret

    .globl play_enter
play_enter:
    la t6, now
    each_general sd
    each_floating fsd
    sd ra, 8(t6)
    sd sp, 16(t6)
    mv s0, sp
    andi sp, sp, -16
    call entered
    mv sp, s0
    la t6, now
    each_general ld
    each_floating fld
    ld ra, 8(t6)
    ret

    .bss
    .balign 8
kept: .skip 16
    .section .note.GNU-stack,"",@progbits
