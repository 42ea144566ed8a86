/* Integers of 128 bits for libffi, which has no type for one. Who uses it may give a struct its size and alignment:
   this is the struct of two longs that the standard of AMD64 classifies such an integer as, and aligned as that is. */
#include <ffi.h>

static ffi_type *two_longs[] = { &ffi_type_uint64, &ffi_type_uint64, 0 };
static ffi_type type_uint128 = { 16, 16, FFI_TYPE_STRUCT, two_longs };
static ffi_type type_sint128 = { 16, 16, FFI_TYPE_STRUCT, two_longs };
