/* The raw interfaces, over ffi_call: arguments in words one behind another, structs and complex numbers by address. In
 * Java's a number of 64 bits takes two words. */
#include "key.h"
#include <alloca.h>
#include <string.h>

static bool is_wide(const ffi_type *type)
{
    return type->type == FFI_TYPE_UINT64 || type->type == FFI_TYPE_SINT64 || type->type == FFI_TYPE_DOUBLE;
}

static size_t words_of(const ffi_type *type, bool is_java)
{
    if (is_aggregate(type))
        return 1;
    return is_java && is_wide(type) ? 2 : (type->size + sizeof(ffi_raw) - 1) / sizeof(ffi_raw);
}

static size_t size_of(const ffi_cif *cif, bool is_java)
{
    size_t words = 0;
    for (unsigned i = 0; i < cif->nargs; i++)
        words += words_of(cif->arg_types[i], is_java);
    return words * sizeof(ffi_raw);
}

static void to_addresses(const ffi_cif *cif, ffi_raw *raw, void **values, bool is_java)
{
    for (unsigned i = 0; i < cif->nargs; i++) {
        values[i] = is_aggregate(cif->arg_types[i]) ? raw->ptr : raw;
        raw += words_of(cif->arg_types[i], is_java);
    }
}

static void to_words(const ffi_cif *cif, void **values, ffi_raw *raw, bool is_java)
{
    for (unsigned i = 0; i < cif->nargs; i++) {
        const ffi_type *type = cif->arg_types[i];
        const void *value = values[i];
        switch (type->type) {
        case FFI_TYPE_UINT8: raw->uint = *(const uint8_t *)value; break;
        case FFI_TYPE_SINT8: raw->sint = *(const int8_t *)value; break;
        case FFI_TYPE_UINT16: raw->uint = *(const uint16_t *)value; break;
        case FFI_TYPE_SINT16: raw->sint = *(const int16_t *)value; break;
        case FFI_TYPE_UINT32: raw->uint = *(const uint32_t *)value; break;
        case FFI_TYPE_INT:
        case FFI_TYPE_SINT32: raw->sint = *(const int32_t *)value; break;
        case FFI_TYPE_STRUCT:
        case FFI_TYPE_COMPLEX: raw->ptr = values[i]; break;
        default: memcpy(raw->data, value, type->size); break;
        }
        raw += words_of(type, is_java);
    }
}

size_t ffi_raw_size(ffi_cif *cif) { return size_of(cif, false); }
size_t ffi_java_raw_size(ffi_cif *cif) { return size_of(cif, true); }
void ffi_raw_to_ptrarray(ffi_cif *cif, ffi_raw *raw, void **args) { to_addresses(cif, raw, args, false); }
void ffi_java_raw_to_ptrarray(ffi_cif *cif, ffi_java_raw *raw, void **args) { to_addresses(cif, raw, args, true); }
void ffi_ptrarray_to_raw(ffi_cif *cif, void **args, ffi_raw *raw) { to_words(cif, args, raw, false); }
void ffi_java_ptrarray_to_raw(ffi_cif *cif, void **args, ffi_java_raw *raw) { to_words(cif, args, raw, true); }

static void call_raw(ffi_cif *cif, void (*fn)(void), void *result, ffi_raw *raw, bool is_java)
{
    void **values = alloca(cif->nargs * sizeof *values);
    to_addresses(cif, raw, values, is_java);
    ffi_call(cif, fn, result, values);
}

void ffi_raw_call(ffi_cif *cif, void (*fn)(void), void *rvalue, ffi_raw *avalue)
{
    call_raw(cif, fn, rvalue, avalue, false);
}

void ffi_java_raw_call(ffi_cif *cif, void (*fn)(void), void *rvalue, ffi_java_raw *avalue)
{
    call_raw(cif, fn, rvalue, avalue, true);
}

static void translate(ffi_cif *cif, void *result, void **values, void *closure)
{
    ffi_raw_closure *raw_closure = closure;
    ffi_raw *raw = alloca(size_of(cif, false));
    to_words(cif, values, raw, false);
    raw_closure->fun(cif, result, raw, raw_closure->user_data);
}

static void translate_java(ffi_cif *cif, void *result, void **values, void *closure)
{
    ffi_java_raw_closure *raw_closure = closure;
    ffi_raw *raw = alloca(size_of(cif, true));
    to_words(cif, values, raw, true);
    raw_closure->fun(cif, result, raw, raw_closure->user_data);
}

ffi_status ffi_prep_raw_closure_loc(ffi_raw_closure *closure, ffi_cif *cif,
                                    void (*fun)(ffi_cif *, void *, ffi_raw *, void *), void *user_data, void *codeloc)
{
    ffi_status status = ffi_prep_closure_loc((ffi_closure *)closure, cif, translate, closure, codeloc);
    if (status != FFI_OK)
        return status;
    closure->fun = fun;
    closure->user_data = user_data;
    return FFI_OK;
}

ffi_status ffi_prep_raw_closure(ffi_raw_closure *closure, ffi_cif *cif,
                                void (*fun)(ffi_cif *, void *, ffi_raw *, void *), void *user_data)
{
    return ffi_prep_raw_closure_loc(closure, cif, fun, user_data, closure);
}

ffi_status ffi_prep_java_raw_closure_loc(ffi_java_raw_closure *closure, ffi_cif *cif,
                                         void (*fun)(ffi_cif *, void *, ffi_java_raw *, void *), void *user_data,
                                         void *codeloc)
{
    ffi_status status = ffi_prep_closure_loc((ffi_closure *)closure, cif, translate_java, closure, codeloc);
    if (status != FFI_OK)
        return status;
    closure->fun = fun;
    closure->user_data = user_data;
    return FFI_OK;
}

ffi_status ffi_prep_java_raw_closure(ffi_java_raw_closure *closure, ffi_cif *cif,
                                     void (*fun)(ffi_cif *, void *, ffi_java_raw *, void *), void *user_data)
{
    return ffi_prep_java_raw_closure_loc(closure, cif, fun, user_data, closure);
}
