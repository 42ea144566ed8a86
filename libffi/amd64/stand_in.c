#include "host.h"
#include "shape.h"

#define EIGHTBYTE(k) (UINT64_C(0xFF) << 8 * (k))

/* By eightbytes: what kinds of scalar are in each. */
bool host_are_alike(const struct shape *one, const struct shape *other)
{
    bool are = one->is_misaligned == other->is_misaligned;
    for (uint32_t k = 0; k < SHAPE_BYTES / 8; k++)
        are = are && !(one->integer & EIGHTBYTE(k)) == !(other->integer & EIGHTBYTE(k)) &&
              !((one->real4 | one->real8) & EIGHTBYTE(k)) == !((other->real4 | other->real8) & EIGHTBYTE(k)) &&
              !(one->real16 & EIGHTBYTE(k)) == !(other->real16 & EIGHTBYTE(k));
    return are;
}

/* Each eightbyte of a type of at most 16 bytes is INTEGER, or SSE where no integer stands in it (psABI 3.2.3). What
 * has a misaligned scalar is in memory, and so is what has a long double beside other things: no stand-in of 16
 * bytes is. Nor has one an eightbyte that is empty, or two of SSE that are aligned to 16. */
static bool put_eightbytes(struct key *key, const ffi_type *type)
{
    struct shape shape;
    if (!find_shape(type, &shape) || shape.is_misaligned || shape.real16 || type->size % type->alignment)
        return false;
    uint32_t count = (uint32_t)(type->size + 7) / 8;
    key_put(key, NODE_SIZED, (uint32_t)type->size);
    key_put(key, FFI3_STRUCT, type->alignment == 16 ? 1 : count);
    for (uint32_t k = 0; k < count; k++) {
        bool is_integer = shape.integer & EIGHTBYTE(k);
        if (!is_integer && (type->alignment == 16 || !((shape.real4 | shape.real8) & EIGHTBYTE(k))))
            return false;
        if (type->alignment != 16)
            key_put(key, is_integer ? FFI3_UINT64 : FFI3_DOUBLE, 0);
    }
    if (type->alignment == 16)
        key_put(key, FFI3_UINT128, 0);
    return true;
}

/* By Microsoft's convention size and alignment decide alone, and by the psABI they do so of what has over 16 bytes,
 * which is in memory. */
bool host_put_stand_in(struct key *key, const ffi_type *type, ffi_abi abi)
{
    return is_win64(abi) || type->size > 16 ? key_put_bytes(key, type) : put_eightbytes(key, type);
}
