/* Calls and closures whose thread is interrupted behind every instruction, by a handler that writes to much of the
 * stack below the red zone: what is still needed there would be lost.  steps  links -lffi; x86-64. */
#define _GNU_SOURCE
#include "expect.h"
#include <ffi.h>
#include <signal.h>
#include <string.h>

struct mixed { long a; double b; };

static volatile long steps;

static struct mixed times3(struct mixed it) { return (struct mixed){it.a * 3, it.b * 3}; }

static void interrupt(int signal)
{
    volatile char room[2048];
    (void)signal;
    memset((char *)room, 0x5A, sizeof room);
    steps++;
}

static void triple(ffi_cif *cif, void *result, void **values, void *data)
{
    (void)data;
    if (cif->rtype == &ffi_type_double)
        *(double *)result = *(double *)values[0] * 3;
    else if (cif->rtype == &ffi_type_longdouble)
        *(long double *)result = *(long double *)values[0] * 3;
    else if (cif->rtype == &ffi_type_sint64)
        *(ffi_sarg *)result = *(long *)values[0] * 3 + *(long *)values[cif->nargs - 1];
    else
        *(struct mixed *)result = times3(*(struct mixed *)values[0]);
}

static struct mixed plus(struct mixed it, long a, long b, long c, long d, long e, long f, long g)
{
    return (struct mixed){it.a + g, it.b + (double)(a + b + c + d + e + f)};
}

#define STEP(what)                                                     \
    __asm__ volatile("pushf; orq $0x100, (%%rsp); popf" ::: "memory"); \
    what;                                                              \
    __asm__ volatile("pushf; andq $~0x100, (%%rsp); popf" ::: "memory")

static void *made(ffi_cif *cif)
{
    void *code;
    ffi_closure *closure = ffi_closure_alloc(sizeof *closure, &code);
    EXPECT(closure && ffi_prep_closure_loc(closure, cif, triple, NULL, code) == FFI_OK);
    return code;
}

int main(void)
{
    ffi_type *parts[] = {&ffi_type_sint64, &ffi_type_double, NULL}, mixed = {0, 0, FFI_TYPE_STRUCT, parts};
    ffi_type *word = &ffi_type_sint64, *words[] = {&mixed, word, word, word, word, word, word, word};
    ffi_type *numbers[] = {word, word, word, word, word, word}, *reals[] = {&ffi_type_double};
    ffi_type *wide[] = {&ffi_type_longdouble};
    ffi_cif call, number, real, pair, win64, long_double;
    EXPECT(ffi_prep_cif(&call, FFI_UNIX64, 8, &mixed, words) == FFI_OK);
    EXPECT(ffi_prep_cif(&number, FFI_UNIX64, 1, word, numbers) == FFI_OK);
    EXPECT(ffi_prep_cif(&real, FFI_UNIX64, 1, &ffi_type_double, reals) == FFI_OK);
    EXPECT(ffi_prep_cif(&pair, FFI_UNIX64, 1, &mixed, words) == FFI_OK);
    EXPECT(ffi_prep_cif(&win64, FFI_WIN64, 6, word, numbers) == FFI_OK);
    EXPECT(ffi_prep_cif(&long_double, FFI_UNIX64, 1, &ffi_type_longdouble, wide) == FFI_OK);
    long (*of_number)(long) = (long (*)(long))made(&number);
    double (*of_real)(double) = (double (*)(double))made(&real);
    struct mixed (*of_pair)(struct mixed) = (struct mixed(*)(struct mixed))made(&pair);
    __attribute__((ms_abi)) long (*of_win64)(long, long, long, long, long, long) =
        (__attribute__((ms_abi)) long (*)(long, long, long, long, long, long))made(&win64);
    long double (*of_long_double)(long double) = (long double (*)(long double))made(&long_double);
    struct mixed it = {5, 2.5}, got = {0, 0}, back = {0, 0};
    long numbers_of[7] = {1, 2, 3, 4, 5, 6, 7}, by_number = 0, by_win64 = 0;
    void *values[8] = {&it};
    for (int k = 0; k < 7; k++)
        values[k + 1] = &numbers_of[k];
    double by_real = 0;
    long double by_long_double = 0;
    signal(SIGTRAP, interrupt);
    STEP(ffi_call(&call, FFI_FN(plus), &got, values));
    STEP(by_number = of_number(14));
    STEP(by_real = of_real(14));
    STEP(back = of_pair(it));
    STEP(by_win64 = of_win64(14, 0, 0, 0, 0, 6));
    STEP(by_long_double = of_long_double(14));
    EXPECT(got.a == 12 && got.b == 23.5);
    EXPECT(by_number == 3 * 14 + 14);
    EXPECT(by_real == 42);
    EXPECT(back.a == 15 && back.b == 7.5);
    EXPECT(by_win64 == 48);
    EXPECT(by_long_double == 42);
    EXPECT(steps > 600);
    printf("%ld steps\n", steps);
    return ended();
}
