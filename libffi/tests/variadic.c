/* Variadic functions that a compiler made, and results narrower than a word.  variadic  links -lffi. */
#include "expect.h"
#include <ffi.h>
#include <stdarg.h>
#include <stdint.h>
#include <string.h>

static double sum(int count, ...)
{
    va_list more;
    double all = 0;
    va_start(more, count);
    for (int i = 0; i < count; i++)
        all += i % 2 ? va_arg(more, int) : va_arg(more, double);
    va_end(more);
    return all;
}

/* COUNT numbers behind the dots, doubles and ints in turns. */
static void pass(int count)
{
    ffi_type *types[17] = {&ffi_type_sint32};
    void *values[17] = {&count};
    double reals[16], got = 0, wanted = 0;
    int numbers[16];
    for (int i = 0; i < count; i++) {
        reals[i] = i + 0.5;
        numbers[i] = -i;
        types[i + 1] = i % 2 ? &ffi_type_sint32 : &ffi_type_double;
        values[i + 1] = i % 2 ? (void *)&numbers[i] : (void *)&reals[i];
        wanted += i % 2 ? numbers[i] : reals[i];
    }
    ffi_cif cif;
    EXPECT(ffi_prep_cif_var(&cif, FFI_DEFAULT_ABI, 1, (unsigned)count + 1, &ffi_type_double, types) == FFI_OK);
    ffi_call(&cif, FFI_FN(sum), &got, values);
    EXPECT(got == wanted);
}

static int8_t less(void) { return -1; }
static uint8_t more(void) { return 255; }
static int16_t shorter(void) { return -2; }
static uint16_t longer(void) { return 65534; }
static int32_t whole(void) { return -3; }
static uint32_t large(void) { return 4294967293u; }

static void widen(ffi_type *type, void (*function)(void), ffi_arg wanted)
{
    ffi_arg got = 0x5555555555555555u;
    ffi_cif cif;
    EXPECT(ffi_prep_cif(&cif, FFI_DEFAULT_ABI, 0, type, NULL) == FFI_OK);
    ffi_call(&cif, function, &got, NULL);
    EXPECT(got == wanted);
}

int main(void)
{
    for (int count = 0; count <= 16; count++)
        pass(count);
    widen(&ffi_type_sint8, FFI_FN(less), (ffi_arg)-1);
    widen(&ffi_type_uint8, FFI_FN(more), 255);
    widen(&ffi_type_sint16, FFI_FN(shorter), (ffi_arg)-2);
    widen(&ffi_type_uint16, FFI_FN(longer), 65534);
    widen(&ffi_type_sint32, FFI_FN(whole), (ffi_arg)-3);
    widen(&ffi_type_uint32, FFI_FN(large), 4294967293u);
    ffi_cif cif;
    for (unsigned fixed = 0; fixed < 4; fixed++) {
        ffi_type *some[] = {&ffi_type_sint32, &ffi_type_double, &ffi_type_sint64};
        EXPECT(ffi_prep_cif_var(&cif, FFI_DEFAULT_ABI, fixed, fixed > 2 ? 3 : fixed, &ffi_type_void, some) == FFI_OK);
        EXPECT(ffi_prep_cif_var(&cif, FFI_DEFAULT_ABI, fixed, 3, &ffi_type_void, some) == FFI_OK);
    }
    ffi_type *promoted[] = {&ffi_type_sint32, &ffi_type_float}, *narrow[] = {&ffi_type_sint32, &ffi_type_uint8};
    EXPECT(ffi_prep_cif_var(&cif, FFI_DEFAULT_ABI, 1, 2, &ffi_type_void, promoted) == FFI_BAD_ARGTYPE);
    EXPECT(ffi_prep_cif_var(&cif, FFI_DEFAULT_ABI, 1, 2, &ffi_type_void, narrow) == FFI_BAD_ARGTYPE);
    EXPECT(ffi_prep_cif_var(&cif, FFI_DEFAULT_ABI, 2, 2, &ffi_type_void, narrow) == FFI_OK);
    EXPECT(ffi_prep_cif(&cif, (ffi_abi)99, 0, &ffi_type_void, NULL) == FFI_BAD_ABI);
    ffi_type *none[] = {NULL}, empty = {0, 0, FFI_TYPE_STRUCT, none}, *arguments[] = {&empty};
    EXPECT(ffi_prep_cif(&cif, FFI_DEFAULT_ABI, 1, &ffi_type_void, arguments) == FFI_BAD_TYPEDEF);
    size_t offsets[3];
    ffi_type *parts[] = {&ffi_type_sint8, &ffi_type_double, &ffi_type_sint16, NULL};
    ffi_type it = {0, 0, FFI_TYPE_STRUCT, parts};
    EXPECT(ffi_get_struct_offsets(FFI_DEFAULT_ABI, &it, offsets) == FFI_OK);
    EXPECT(offsets[0] == 0 && offsets[1] == 8 && offsets[2] == 16 && it.size == 24 && it.alignment == 8);
    EXPECT(ffi_get_struct_offsets(FFI_DEFAULT_ABI, &empty, offsets) == FFI_BAD_TYPEDEF);
    EXPECT(ffi_get_struct_offsets((ffi_abi)99, &it, offsets) == FFI_BAD_ABI);
    EXPECT(ffi_get_struct_offsets(FFI_DEFAULT_ABI, &ffi_type_double, offsets) == FFI_BAD_TYPEDEF);
    return ended();
}
