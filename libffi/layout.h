/* layout.h: sizes, alignments and offsets of structs, as the proved library lays them out. */
#ifndef LAYOUT_H
#define LAYOUT_H

#include <ffi.h>
#include <stdbool.h>

/* Sets size and alignment of a struct or a complex type, and, where `offsets` is not NULL, the offset of each
 * element. */
ffi_status lay_out(ffi_type *type, size_t *offsets);

/* Whether a type has a size, or is given one. Another thread may be giving it the same one. */
static inline bool is_laid_out(ffi_type *type)
{
    return __atomic_load_n(&type->size, __ATOMIC_ACQUIRE) != 0 || lay_out(type, NULL) == FFI_OK;
}

#endif
