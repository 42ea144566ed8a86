#include "host.h"
#include "shape.h"

#define WIDEST_OF_DOUBLES 32 /* bytes of a homogeneous aggregate, which has at most four members; of long doubles 64 */

/* By bytes, since a homogeneous aggregate has no padding. */
bool host_are_alike(const struct shape *one, const struct shape *other)
{
    return one->integer == other->integer && one->real4 == other->real4 && one->real8 == other->real8 &&
           one->real16 == other->real16;
}

/* A homogeneous aggregate has one to four floats, doubles or long doubles in all of its bytes (AAPCS64, "Homogeneous
 * Aggregates"). */
static bool is_homogeneous(const ffi_type *type, uint64_t real, uint64_t others, size_t size)
{
    return others == 0 && real == shape_bytes(0, type->size) && type->size % size == 0 && type->size / size <= 4;
}

static bool put_array(struct key *key, uint32_t kind, size_t count)
{
    key_put(key, FFI3_STRUCT, 1);
    key_put(key, FFI3_ARRAY, (uint32_t)count);
    key_put(key, kind, 0);
    return true;
}

/* Whether one may be there: types in one another without end are not looked through. */
static bool may_have_long_double(const ffi_type *type, int depth, unsigned *looks)
{
    bool may = type->type == FFI_TYPE_LONGDOUBLE || ++*looks > 100000;
    for (ffi_type **it = is_aggregate(type) && depth < 16 ? type->elements : NULL; it && *it && !may; it++)
        may = may_have_long_double(*it, depth + 1, looks);
    return may;
}

/* A type of up to 16 bytes that is not homogeneous is in general registers or on the stack by its size, and a larger
 * one is passed by the address of a copy. By which rule one in registers is aligned that its client aligned to 16,
 * compilers do not agree; long doubles are aligned so by themselves, and have no like that is not. */
bool host_put_stand_in(struct key *key, const ffi_type *type, ffi_abi abi)
{
    struct shape shape;
    (void)abi;
    if (!find_shape(type, &shape)) {
        unsigned looks = 0;
        size_t widest = may_have_long_double(type, 0, &looks) ? SHAPE_BYTES : WIDEST_OF_DOUBLES;
        return type->size > widest && key_put_bytes(key, type);
    }
    uint64_t others = shape.integer | shape.real16;
    bool is_float = is_homogeneous(type, shape.real4, others | shape.real8, 4);
    bool is_double = is_homogeneous(type, shape.real8, others | shape.real4, 8);
    if (is_homogeneous(type, shape.real16, shape.integer | shape.real4 | shape.real8, 16))
        return type->alignment == 16 && put_array(key, FFI3_LONG_DOUBLE, type->size / 16);
    if (type->size > 16 && !is_float && !is_double)
        return key_put_bytes(key, type);
    if (type->alignment > 8)
        return false;
    if (is_float || is_double)
        return put_array(key, is_float ? FFI3_FLOAT : FFI3_DOUBLE, type->size / (is_float ? 4 : 8));
    key_put(key, NODE_SIZED, (uint32_t)type->size);
    return put_array(key, FFI3_UINT64, (type->size + 7) / 8);
}
