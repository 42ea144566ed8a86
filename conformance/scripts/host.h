/* What all programs that translate.py writes have: closures of libffi in numbered slots, calls, stops, lines. */
#ifndef HOST_H
#define HOST_H

#include <stdio.h>
#include <stdlib.h>
#include <string.h>

#include "../shared/wide.h"

typedef unsigned long address;

/* A signature: its text, what its call takes of the stack on each target, and how its values are written. */
struct signature {
    const char *text;
    long need[5];
    void (*write_arguments)(void **arguments);
    void (*write_result)(void *result);
    ffi_cif cif;
};

/* A function: its signature, and what it does. A narrow integer result is an ffi_arg, as libffi wants it. */
struct function {
    struct signature *signature;
    void (*act)(void *result, void **arguments, address user);
};

extern const struct function apply, twice, sum3;

/* How libffi calls and is called: a convention that it has on a host of AMD64. */
extern ffi_abi convention;

/* Before each move: the run stops where 10,000 moves are counted. */
void tick(void);
address make(const struct function *function, address user);
void free_closure(address at);
void call(struct signature *as, address at, void *result, void **values);

/* Bytes from and to hexadecimal digits, in memory order. */
void bytes_of(void *to, const char *text);
float float_of(const char *text);
double double_of(const char *text);
void write_bytes(const void *from, int count);

/* An integer of 128 bits in decimal. */
void write_wide(unsigned __int128 value, int is_signed);

/* Room for a result as libffi gives it. */
#define RESULT union __attribute__((aligned(16))) { ffi_arg word; char room[4096]; }

/* The value at an address that libffi gives. It may be no multiple of the type's alignment, as where an integer of 128
   bits came to a closure in registers. */
#define AT(type, address) (((struct __attribute__((packed)) { type value; } *)(address))->value)

/* What the script's own program gives: it prepares its signatures; main has no arguments. */
void prepare(void);
void main_body(void *result, void **arguments, address user);

#endif
