/* ffitarget.h of AArch64 Linux, which ffi.h includes. */
#ifndef LIBFFI_TARGET_H
#define LIBFFI_TARGET_H

#ifndef LIBFFI_H
#error "include ffi.h, which includes this"
#endif

#define FFI_TARGET_HAS_COMPLEX_TYPE

/* A word: what an integer result narrower than it is widened to. */
typedef unsigned long ffi_arg;
typedef signed long ffi_sarg;

typedef enum ffi_abi {
    FFI_FIRST_ABI = 0,
    FFI_SYSV,  /* Arm AAPCS64 */
    FFI_WIN64, /* the same, but for variadic functions */
    FFI_LAST_ABI,
    FFI_DEFAULT_ABI = FFI_SYSV
} ffi_abi;

#define FFI_CLOSURES 1
#define FFI_GO_CLOSURES 1
#define FFI_TRAMPOLINE_SIZE 24
#define FFI_NATIVE_RAW_API 0

#endif
