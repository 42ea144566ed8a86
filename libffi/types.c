/* The type objects, read-only as in Debian's libffi. */
#define LIBFFI_HIDE_BASIC_TYPES
#include <ffi.h>

#define SCALAR(name, code, bytes) FFI_API const ffi_type ffi_type_##name = {bytes, bytes, code, NULL}

SCALAR(void, FFI_TYPE_VOID, 1);
SCALAR(uint8, FFI_TYPE_UINT8, 1);
SCALAR(sint8, FFI_TYPE_SINT8, 1);
SCALAR(uint16, FFI_TYPE_UINT16, 2);
SCALAR(sint16, FFI_TYPE_SINT16, 2);
SCALAR(uint32, FFI_TYPE_UINT32, 4);
SCALAR(sint32, FFI_TYPE_SINT32, 4);
SCALAR(uint64, FFI_TYPE_UINT64, 8);
SCALAR(sint64, FFI_TYPE_SINT64, 8);
SCALAR(float, FFI_TYPE_FLOAT, 4);
SCALAR(double, FFI_TYPE_DOUBLE, 8);
SCALAR(pointer, FFI_TYPE_POINTER, 8);
SCALAR(longdouble, FFI_TYPE_LONGDOUBLE, 16);

#define COMPLEX(name, bytes)                                                                \
    static ffi_type *const elements_of_##name[] = {(ffi_type *)&ffi_type_##name, NULL};     \
    FFI_API const ffi_type ffi_type_complex_##name = {2 * bytes, bytes, FFI_TYPE_COMPLEX,   \
                                                      (ffi_type **)elements_of_##name}

COMPLEX(float, 4);
COMPLEX(double, 8);
COMPLEX(longdouble, 16);
