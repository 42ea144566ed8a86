/* A function that no one declared is called through the type of one that a header declares: it keeps the registers and
   the stack as they are at its entry, and returns what `give` holds. */
#include "trap.h"
#include <stdio.h>

struct ffi3_machine seen, give;
int hidden_at = -1, hidden_size;
const unsigned char *hidden_bytes;
const char *now;
void trap(void);
void *volatile trap_at = trap;
static int passed, failed;

/* The trap calls this between the entry and the return. */
__attribute__((used)) void ffi3_after(void)
{
    memcpy(seen.stack, (void *)(seen.sp + RETURN_ADDRESS), sizeof seen.stack);
    if (hidden_at >= 0) {
        memcpy((void *)seen.general[hidden_at], hidden_bytes, hidden_size);
        give.general[HIDDEN_BACK] = seen.general[hidden_at];
    }
}

void ffi3_holds(const char *what, int holds)
{
    holds ? passed++ : failed++;
    if (!holds)
        printf("FAILED %s: %s\n", now, what);
}

void ffi3_same(const char *what, const void *held, const unsigned char *want, const unsigned char *mask, int size)
{
    int same = 1;
    for (int i = 0; i < size; i++)
        same &= !mask[i] || ((const unsigned char *)held)[i] == want[i];
    ffi3_holds(what, same);
}

int ffi3_ended(void)
{
    printf("%d passed, %d failed\n", passed, failed);
    return failed > 0;
}

#if defined __x86_64__
__asm__(".globl trap\ntrap:\n"
        "mov %rax, seen(%rip)\nmov %rcx, seen+8(%rip)\nmov %rdx, seen+16(%rip)\nmov %rsi, seen+48(%rip)\n"
        "mov %rdi, seen+56(%rip)\nmov %r8, seen+64(%rip)\nmov %r9, seen+72(%rip)\n"
        "movq %xmm0, seen+256(%rip)\nmovq %xmm1, seen+264(%rip)\nmovq %xmm2, seen+272(%rip)\n"
        "movq %xmm3, seen+280(%rip)\nmovq %xmm4, seen+288(%rip)\nmovq %xmm5, seen+296(%rip)\n"
        "movq %xmm6, seen+304(%rip)\nmovq %xmm7, seen+312(%rip)\n"
        "mov %rsp, seen+512(%rip)\nsub $8, %rsp\ncall ffi3_after\nadd $8, %rsp\n"
        "mov seen+48(%rip), %rsi\nmov seen+56(%rip), %rdi\n"
        "mov give(%rip), %rax\nmov give+16(%rip), %rdx\nmovq give+256(%rip), %xmm0\nmovq give+264(%rip), %xmm1\nret\n");
#elif defined __aarch64__
__asm__(".globl trap\ntrap:\n"
        "adrp x9, seen\nadd x9, x9, :lo12:seen\n"
        "stp x0, x1, [x9]\nstp x2, x3, [x9, 16]\nstp x4, x5, [x9, 32]\nstp x6, x7, [x9, 48]\nstr x8, [x9, 64]\n"
        "stp d0, d1, [x9, 256]\nstp d2, d3, [x9, 272]\nstp d4, d5, [x9, 288]\nstp d6, d7, [x9, 304]\n"
        "mov x10, sp\nstr x10, [x9, 512]\nstp x29, x30, [sp, -16]!\nbl ffi3_after\nldp x29, x30, [sp], 16\n"
        "adrp x9, give\nadd x9, x9, :lo12:give\n"
        "ldp x0, x1, [x9]\nldp d0, d1, [x9, 256]\nldp d2, d3, [x9, 272]\nret\n");
#elif defined __riscv
__asm__(".globl trap\ntrap:\nla t0, seen\n"
        "sd a0, 80(t0)\nsd a1, 88(t0)\nsd a2, 96(t0)\nsd a3, 104(t0)\nsd a4, 112(t0)\nsd a5, 120(t0)\nsd a6, 128(t0)\n"
        "sd a7, 136(t0)\nfsd fa0, 336(t0)\nfsd fa1, 344(t0)\nfsd fa2, 352(t0)\nfsd fa3, 360(t0)\nfsd fa4, 368(t0)\n"
        "fsd fa5, 376(t0)\nfsd fa6, 384(t0)\nfsd fa7, 392(t0)\nsd sp, 512(t0)\n"
        "addi sp, sp, -16\nsd ra, 8(sp)\ncall ffi3_after\nld ra, 8(sp)\naddi sp, sp, 16\nla t0, give\n"
        "ld a0, 80(t0)\nld a1, 88(t0)\nfld fa0, 336(t0)\nfld fa1, 344(t0)\nret\n");
#endif
