# What capi/qsort.c needs of AMD64: registers from a struct ffi3_registers and back, with nothing on the stack. General
# register N stands at 8 * N (rax rcx rdx rbx rsp rbp rsi rdi r8 r9), floating register N at 256 + 8 * N, sp at 512.
    .text
    .globl call_with
call_with:                      # rdi: the function, rsi: the registers
    .cfi_startproc
    endbr64
    pushq %rbx
    .cfi_adjust_cfa_offset 8
    .cfi_rel_offset %rbx, 0
    movq %rsi, %rbx
    movq %rdi, %r11
    movq (%rbx), %rax
    movq 8(%rbx), %rcx
    movq 16(%rbx), %rdx
    movq 48(%rbx), %rsi
    movq 56(%rbx), %rdi
    movq 64(%rbx), %r8
    movq 72(%rbx), %r9
    call *%r11
    movq %rax, (%rbx)
    movq %rdx, 16(%rbx)
    popq %rbx
    .cfi_adjust_cfa_offset -8
    .cfi_restore %rbx
    ret
    .cfi_endproc
    .globl compare_by_stub
compare_by_stub:
    .cfi_startproc
    endbr64
    subq $584, %rsp
    .cfi_adjust_cfa_offset 584
    movq %rsi, 48(%rsp)
    movq %rdi, 56(%rsp)
    leaq 584(%rsp), %rsi        # sp at the entry, and the stack
    movq %rsi, 512(%rsp)
    movq %rsp, %rdi
    call compare_entered@PLT
    movq (%rsp), %rax
    addq $584, %rsp
    .cfi_adjust_cfa_offset -584
    ret
    .cfi_endproc
    .section .rodata
    .globl host_target
    .balign 4
host_target:
    .long 0                     # FFI3_AMD64
    .section .note.GNU-stack, "", @progbits
