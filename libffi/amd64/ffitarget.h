/* ffitarget.h of x86-64 Linux, which ffi.h includes. */
#ifndef LIBFFI_TARGET_H
#define LIBFFI_TARGET_H

#ifndef LIBFFI_H
#error "include ffi.h, which includes this"
#endif

#define FFI_TARGET_HAS_COMPLEX_TYPE

/* A word: what an integer result narrower than it is widened to. */
typedef unsigned long ffi_arg;
typedef signed long ffi_sarg;

typedef enum ffi_abi {
    FFI_FIRST_ABI = 1,
    FFI_UNIX64, /* System V psABI */
    FFI_WIN64,  /* Microsoft x64 */
    FFI_EFI64 = FFI_WIN64,
    FFI_GNUW64, /* the same with GCC's long double, of 16 bytes */
    FFI_LAST_ABI,
    FFI_DEFAULT_ABI = FFI_UNIX64
} ffi_abi;

#define FFI_CLOSURES 1
#define FFI_GO_CLOSURES 1
#define FFI_TRAMPOLINE_SIZE 32
#define FFI_NATIVE_RAW_API 0

#endif
