/* closure.h: how closures are entered, and their memory. */
#ifndef CLOSURE_H
#define CLOSURE_H

#include <ffi.h>
#include <stdbool.h>

/* The entries of the host call these: with the exchange, the closure, and where the caller's stack arguments begin. */
void receive_closure(char *exchange, ffi_closure *closure, char *frame);
void receive_go_closure(char *exchange, ffi_go_closure *closure, char *frame);

/* Code of slots, of which slot k leads to the data BLOCK_BYTES behind it: in the library's own text, and of each
 * block a private copy of these pages. */
extern const unsigned char slots_code[];

#define SLOT_BYTES 64 /* docs/FORMATS.md, section 7 */

#endif
