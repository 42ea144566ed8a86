# What the code of compilers for Windows calls, by Microsoft's convention: see coff.py.
    .text
    .globl ___chkstk_ms, __chkstk, ms_memcpy, ms_memset
___chkstk_ms:
__chkstk:
    ret
ms_memcpy:                      # rcx: to, rdx: from, r8: how many
    push %rdi
    push %rsi
    mov %rcx, %rax
    mov %rcx, %rdi
    mov %rdx, %rsi
    mov %r8, %rcx
    rep movsb
    pop %rsi
    pop %rdi
    ret
ms_memset:                      # rcx: to, edx: the byte, r8: how many
    push %rdi
    mov %rcx, %r9
    mov %rcx, %rdi
    mov %edx, %eax
    mov %r8, %rcx
    rep stosb
    mov %r9, %rax
    pop %rdi
    ret
    .globl _fltused
    .set _fltused, 0
    .section .note.GNU-stack,"",@progbits
