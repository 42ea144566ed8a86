/* exchange.h: a call's registers in memory. */
#ifndef EXCHANGE_H
#define EXCHANGE_H

#include <stddef.h>
#include <stdint.h>

/* The exchange region, through which the stubs hand registers over: docs/RULES.md, section 12, has the places up to
 * 552, and the stubs' rows go by them. It stands on the stack of the call, which owns it: that of a caller 16-aligned,
 * and behind it the caller's frame; that of a closure aligned to 8 only. */
struct exchange {
    uint64_t general[32];  /* by the numbers of instructions: x0 0, x1 1 ..; rax 0, rcx 1, rdx 2, rsi 6, rdi 7 .. */
    uint64_t floating[32]; /* of each the low 64 bits; what stands from BESIDE_AT on is of no stub's rows */
    uint64_t callee;       /* at 512: the address that is called */
    uint64_t frame;        /* at 520: sp at the call */
    uint64_t entry_sp;     /* at 528: sp behind Entry */
    uint64_t save_area;    /* at 536: where Entry saved registers */
    uint64_t return_sp;    /* at 544: sp behind Return */
    uint64_t chain;        /* at 552: what Go's callee finds in r10 or x18. This and the next are of no stub's rows */
    uint64_t beside;       /* at 560: how many 16 bytes from BESIDE_AT on have values */
    uint64_t unused;
};

/* 384: what the rows do not move. On AMD64 st(0), and 16 bytes behind it st(1), ten bytes each, where the library has
 * them; on AArch64 the high 64 bits of v0 to v7, which it has HIGH_AT, where the stubs' words stand here. */
#define BESIDE_AT ((uint32_t)offsetof(struct exchange, floating[16]))
#define BESIDE_BYTES 64u
#define HIGH_AT ((uint32_t)offsetof(struct exchange, callee))

#define FRAME_AT ((uint32_t)sizeof(struct exchange)) /* 576: the caller's frame stands there until it is called */

/* Copies the stack arguments, `stack_bytes` of them from FRAME_AT on, a multiple of 16, to the stack, and runs Call and
 * Return. */
void make_call(struct exchange *exchange, size_t stack_bytes);

#endif
