/* constants.h of AMD64: for C and for assembly. */
#ifndef CONSTANTS_H
#define CONSTANTS_H

#define BLOCK_BYTES 16384 /* of a block's code, and of its data: a multiple of the page */
#define CODE_BYTES 24     /* of a slot's code */
#define ENTRY_AT 24       /* where in a slot, and in ffi_closure.tramp, the address of the entry stands */

#endif
