/* host.h of AMD64: System V's convention (FFI_UNIX64) and Microsoft's (FFI_WIN64, FFI_GNUW64). */
#ifndef HOST_H
#define HOST_H

#include "../host_interface.h"
#include "constants.h"

static inline bool is_win64(ffi_abi abi) { return abi == FFI_WIN64 || abi == FFI_GNUW64; }

static inline bool host_has_abi(ffi_abi abi, bool is_variadic)
{
    (void)is_variadic;
    return abi > FFI_FIRST_ABI && abi < FFI_LAST_ABI;
}

static inline uint32_t host_target(ffi_abi abi) { return is_win64(abi) ? FFI3_WIN64 : FFI3_AMD64; }

/* Under Microsoft's convention GCC passes and returns its own by address; Microsoft's is a double, and refused. */
static inline uint32_t host_long_double(ffi_abi abi)
{
    return abi == FFI_UNIX64 ? FFI3_LONG_DOUBLE : abi == FFI_GNUW64 ? FFI3_UINT128 : FFI3_STRUCT;
}

/* stubs.S. r10 has the closure. */
void enter_closure(void);
void enter_closure_win64(void);
void enter_go_closure(void);
void enter_go_closure_win64(void);

static inline entry *host_entry(ffi_abi abi) { return is_win64(abi) ? enter_closure_win64 : enter_closure; }
static inline entry *host_go_entry(ffi_abi abi) { return is_win64(abi) ? enter_go_closure_win64 : enter_go_closure; }

#endif
