/* host_interface.h: what each host's folder has. Its host.h includes this, and defines the short answers:
 *
 *     bool host_has_abi(ffi_abi abi, bool is_variadic);    whether there is such a convention
 *     uint32_t host_target(ffi_abi abi);                   the library's number of its standard
 *     uint32_t host_long_double(ffi_abi abi);              its kind of long double, or FFI3_STRUCT where there is none
 *     entry *host_entry(ffi_abi abi);                      where a slot leads to
 *     entry *host_go_entry(ffi_abi abi);                   and a closure of Go's
 */
#ifndef HOST_INTERFACE_H
#define HOST_INTERFACE_H

#include "plan.h"

typedef void entry(void);

/* The code of a slot in a client's own memory: CODE_BYTES bytes, as the slots are proved with. */
extern const unsigned char slot_code[];

/* ---- stand_in.c */

/* Adds to the key, for a type that its client laid out itself and whose alignment the library has, one that is placed
 * as it is: of the same size, alignment and classes. Answers false where there is none. */
bool host_put_stand_in(struct key *key, const ffi_type *type, ffi_abi abi);

#endif
