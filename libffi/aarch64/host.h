/* host.h of AArch64: AAPCS64 as Linux has it (FFI_SYSV). */
#ifndef HOST_H
#define HOST_H

#include "../host_interface.h"
#include "constants.h"

/* FFI_WIN64 is as FFI_SYSV, but for variadic functions, for which the library has no standard. */
static inline bool host_has_abi(ffi_abi abi, bool is_variadic)
{
    return abi == FFI_SYSV || (abi == FFI_WIN64 && !is_variadic);
}

static inline uint32_t host_target(ffi_abi abi)
{
    (void)abi;
    return FFI3_AAPCS64;
}

static inline uint32_t host_long_double(ffi_abi abi)
{
    (void)abi;
    return FFI3_LONG_DOUBLE;
}

/* stubs.S. x17 has the closure, of Go's x18. */
void enter_closure(void);
void enter_go_closure(void);

static inline entry *host_entry(ffi_abi abi)
{
    (void)abi;
    return enter_closure;
}

static inline entry *host_go_entry(ffi_abi abi)
{
    (void)abi;
    return enter_go_closure;
}

#endif
