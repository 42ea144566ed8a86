/* What a call must leave alone: errno, and the control words of x87 and SSE.  state  links -lffi; x86-64. */
#include "expect.h"
#include <errno.h>
#include <ffi.h>
#include <stdint.h>
#include <xmmintrin.h>

static uint16_t x87_word(void)
{
    uint16_t word;
    __asm__ volatile("fnstcw %0" : "=m"(word));
    return word;
}

static void set_x87_word(uint16_t word) { __asm__ volatile("fldcw %0" : : "m"(word)); }

/* A callee that finds the words as its caller has them, and sets errno. */
static int look(int wanted)
{
    bool is = (x87_word() & 0xC00) == (wanted ? 0xC00 : 0) && (_mm_getcsr() & 0x6000) == (wanted ? 0x6000u : 0);
    errno = 7;
    return is;
}

static void receive(ffi_cif *cif, void *result, void **values, void *data)
{
    (void)cif, (void)data;
    *(ffi_sarg *)result = look(*(int *)values[0]);
}

int main(void)
{
    ffi_cif cif;
    ffi_type *types[] = {&ffi_type_sint32};
    void *code;
    uint16_t word = x87_word();
    unsigned register_word = _mm_getcsr();
    EXPECT(ffi_prep_cif(&cif, FFI_DEFAULT_ABI, 1, &ffi_type_sint32, types) == FFI_OK);
    ffi_closure *closure = ffi_closure_alloc(sizeof *closure, &code);
    EXPECT(closure && ffi_prep_closure_loc(closure, &cif, receive, NULL, code) == FFI_OK);
    for (int toward_zero = 0; toward_zero < 2; toward_zero++) {
        void *values[] = {&toward_zero};
        ffi_arg got = 0;
        set_x87_word((uint16_t)(word | (toward_zero ? 0xC00 : 0)));
        _mm_setcsr(register_word | (toward_zero ? 0x6000 : 0));
        errno = 0;
        ffi_call(&cif, FFI_FN(look), &got, values);
        EXPECT(got == 1 && errno == 7);
        errno = 0;
        EXPECT(((int (*)(int))code)(toward_zero) == 1 && errno == 7);
        EXPECT((x87_word() & 0xC00) == (toward_zero ? 0xC00 : 0));
        EXPECT((_mm_getcsr() & 0x6000) == (toward_zero ? 0x6000u : 0));
        set_x87_word(word);
        _mm_setcsr(register_word);
    }
    return ended();
}
