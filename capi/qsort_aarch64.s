# What capi/qsort.c needs of AArch64: registers from a struct ffi3_registers and back, with nothing on the stack.
# General register N stands at 8 * N, sp at 512.
    .text
    .globl call_with
call_with:                      // x0: the function, x1: the registers
    .cfi_startproc
    hint #34                    // bti c
    stp x19, x30, [sp, #-16]!
    .cfi_adjust_cfa_offset 16
    .cfi_rel_offset x19, 0
    .cfi_rel_offset x30, 8
    mov x19, x1
    mov x16, x0
    ldp x0, x1, [x19]
    ldp x2, x3, [x19, #16]
    ldp x4, x5, [x19, #32]
    ldp x6, x7, [x19, #48]
    ldr x8, [x19, #64]
    blr x16
    stp x0, x1, [x19]
    ldp x19, x30, [sp], #16
    .cfi_adjust_cfa_offset -16
    .cfi_restore x19
    .cfi_restore x30
    ret
    .cfi_endproc
    .globl compare_by_stub
compare_by_stub:
    .cfi_startproc
    hint #34
    sub sp, sp, #592
    .cfi_adjust_cfa_offset 592
    str x30, [sp, #584]
    .cfi_rel_offset x30, 584
    stp x0, x1, [sp]
    add x1, sp, #592            // sp at the entry, and the stack
    str x1, [sp, #512]
    mov x0, sp
    bl compare_entered
    ldr x0, [sp]
    ldr x30, [sp, #584]
    .cfi_restore x30
    add sp, sp, #592
    .cfi_adjust_cfa_offset -592
    ret
    .cfi_endproc
    .section .rodata
    .globl host_target
    .balign 4
host_target:
    .long 1                     // FFI3_AAPCS64
    .section .note.GNU-stack, "", %progbits
