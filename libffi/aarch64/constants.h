/* constants.h of AArch64: for C and for assembly. */
#ifndef CONSTANTS_H
#define CONSTANTS_H

#define BLOCK_BYTES 65536 /* of a block's code, and of its data: a multiple of the page, which may have so many */
#define CODE_BYTES 16     /* of a slot's code */
#define ENTRY_AT 16       /* where in a slot, and in ffi_closure.tramp, the address of the entry stands */

#endif
