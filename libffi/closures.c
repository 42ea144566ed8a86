/* Preparing closures, wherever they stand. */
#include "closure.h"
#include "host.h"
#include <string.h>

/* Whether the closure is one of a block's, whose code is there already. */
static bool has_code_of_block(const void *closure, const void *code)
{
    return (uintptr_t)closure - (uintptr_t)code == BLOCK_BYTES && memcmp(code, slots_code, CODE_BYTES) == 0;
}

/* Whether closures of an interface can be entered: the callee's part of its plan is made here. One that is not prepared
 * yet may be so before the closure is entered. */
static ffi_status status_of(const ffi_cif *cif)
{
    if (!host_has_abi(cif->abi, false))
        return FFI_BAD_ABI;
    const struct plan *plan = plan_if_prepared(cif);
    return plan && !served_by(plan, cif) ? FFI_BAD_TYPEDEF : FFI_OK;
}

ffi_status ffi_prep_closure_loc(ffi_closure *closure, ffi_cif *cif, void (*fun)(ffi_cif *, void *, void **, void *),
                                void *user_data, void *codeloc)
{
    ffi_status status = status_of(cif);
    if (status != FFI_OK)
        return status;
    entry *entry = host_entry(cif->abi);
    if (!has_code_of_block(closure, codeloc)) {
        /* In memory of the client's own: the slot's code, to the byte, in front of its data. */
        memcpy(closure->tramp, slot_code, CODE_BYTES);
        __builtin___clear_cache(closure->tramp, closure->tramp + CODE_BYTES);
        __builtin___clear_cache(codeloc, (char *)codeloc + CODE_BYTES);
    }
    memcpy(closure->tramp + ENTRY_AT, &entry, sizeof entry);
    closure->cif = cif;
    closure->fun = fun;
    closure->user_data = user_data;
    return FFI_OK;
}

ffi_status ffi_prep_closure(ffi_closure *closure, ffi_cif *cif, void (*fun)(ffi_cif *, void *, void **, void *),
                            void *user_data)
{
    return ffi_prep_closure_loc(closure, cif, fun, user_data, closure);
}

ffi_status ffi_prep_go_closure(ffi_go_closure *closure, ffi_cif *cif, void (*fun)(ffi_cif *, void *, void **, void *))
{
    ffi_status status = status_of(cif);
    if (status != FFI_OK)
        return status;
    entry *entry = host_go_entry(cif->abi);
    memcpy(&closure->tramp, &entry, sizeof entry);
    closure->cif = cif;
    closure->fun = fun;
    return FFI_OK;
}
