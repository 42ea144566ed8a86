# Plays a call and an entry on AMD64, by any of its conventions: see player.c. rsp is never loaded.

.macro each_general op
    \op 0, rax
    \op 1, rcx
    \op 2, rdx
    \op 3, rbx
    \op 5, rbp
    \op 6, rsi
    \op 7, rdi
    \op 8, r8
    \op 9, r9
    \op 10, r10
    \op 11, r11
    \op 12, r12
    \op 13, r13
    \op 14, r14
    \op 15, r15
.endm
.macro load number, name
    movq now+8*\number(%rip), %\name
.endm
.macro store number, name
    movq %\name, now+8*\number(%rip)
.endm
.macro load_floating
.irp r, 0,1,2,3,4,5,6,7,8,9,10,11,12,13,14,15
    movq now+256+8*\r(%rip), %xmm\r
    movhps now+384+8*\r(%rip), %xmm\r
.endr
.endm
.macro store_floating
.irp r, 0,1,2,3,4,5,6,7,8,9,10,11,12,13,14,15
    movq %xmm\r, now+256+8*\r(%rip)
    movhps %xmm\r, now+384+8*\r(%rip)
.endr
.endm

    .text
    .globl play_call
play_call:                      # rdi: the callee, rsi: the address of the first stack argument
    pushq %rbx
    pushq %rbp
    pushq %r12
    pushq %r13
    pushq %r14
    pushq %r15
    movq %rsp, kept(%rip)
    movq %rdi, kept+8(%rip)
    movq %rsi, %rsp
    fninit
    each_general load
    load_floating
    call *kept+8(%rip)
    each_general store
    store_floating
    movq now+576(%rip), %rax    # x87_results
    testq %rax, %rax
    jz 1f
    fstpt now+512(%rip)
    decq %rax
    jz 1f
    fstpt now+528(%rip)
1:
    movq %rsp, now+8*4(%rip)
    movq kept(%rip), %rsp
    popq %r15
    popq %r14
    popq %r13
    popq %r12
    popq %rbp
    popq %rbx
    ret

    .globl play_enter
play_enter:
    each_general store
    store_floating
    movq %rsp, now+8*4(%rip)
    movq %rsp, %rbx
    andq $-16, %rsp
    fninit
    call entered
    movq %rbx, %rsp
    movq now+576(%rip), %rax
    testq %rax, %rax
    jz 2f
    decq %rax
    jz 1f
    fldt now+528(%rip)
1:  fldt now+512(%rip)
2:
    each_general load
    load_floating
    ret

    .bss
    .balign 8
kept: .skip 16
    .section .note.GNU-stack,"",@progbits
