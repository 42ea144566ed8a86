/* Preparing: call interfaces, and offsets. */
#include "host.h"
#include "layout.h"
#include "plan.h"

/* Nobody who uses an interface while it is prepared again sees another one in between. */
static inline ffi_status set(ffi_cif *cif, ffi_abi abi, unsigned nargs, ffi_type *rtype, ffi_type **atypes,
                             uint32_t bytes, uint32_t flags)
{
    cif->abi = abi;
    cif->nargs = nargs;
    cif->arg_types = atypes;
    cif->rtype = rtype;
    cif->bytes = bytes;
    __atomic_store_n(&cif->flags, flags, __ATOMIC_RELEASE);
    return flags ? FFI_OK : FFI_BAD_TYPEDEF;
}

/* `word` is the interface's, or 0. */
__attribute__((noinline)) static ffi_status prepare(ffi_cif *cif, ffi_abi abi, unsigned nargs, ffi_type *rtype,
                                                    ffi_type **atypes, unsigned fixed, uint64_t word)
{
    ffi_cif made = {.abi = abi, .nargs = nargs, .arg_types = atypes, .rtype = rtype};
    if (nargs > MOST_ARGUMENTS)
        return FFI_BAD_TYPEDEF;
    const struct plan *plan = plan_for(&made, fixed, word);
    return set(cif, abi, nargs, rtype, atypes, plan ? plan->stack : 0, plan ? FLAGS_OF_INDEX(plan->index) : 0);
}

ffi_status ffi_prep_cif(ffi_cif *cif, ffi_abi abi, unsigned nargs, ffi_type *rtype, ffi_type **atypes)
{
    if (!host_has_abi(abi, false))
        return FFI_BAD_ABI;
    uint64_t word = word_of(abi, nargs, rtype, atypes);
    const struct plan *plan = word ? plan_of_word(word) : NULL;
    if (__builtin_expect(!plan, 0))
        return prepare(cif, abi, nargs, rtype, atypes, FFI3_NOT_VARIADIC, word);
    return set(cif, abi, nargs, rtype, atypes, plan->stack, FLAGS_OF_INDEX(plan->index));
}

/* Whether C promotes what is passed behind the dots: what is narrower than an int, and float. */
static bool is_promoted(const ffi_type *type)
{
    return type->type == FFI_TYPE_FLOAT || (!is_aggregate(type) && type->size < 4);
}

ffi_status ffi_prep_cif_var(ffi_cif *cif, ffi_abi abi, unsigned nfixedargs, unsigned ntotalargs, ffi_type *rtype,
                            ffi_type **atypes)
{
    if (!host_has_abi(abi, true))
        return FFI_BAD_ABI;
    for (unsigned i = nfixedargs; i < ntotalargs; i++)
        if (is_promoted(atypes[i]))
            return FFI_BAD_ARGTYPE;
    return prepare(cif, abi, ntotalargs, rtype, atypes, nfixedargs, 0);
}

ffi_status ffi_get_struct_offsets(ffi_abi abi, ffi_type *struct_type, size_t *offsets)
{
    if (!host_has_abi(abi, false))
        return FFI_BAD_ABI;
    return struct_type->type == FFI_TYPE_STRUCT ? lay_out(struct_type, offsets) : FFI_BAD_TYPEDEF;
}
