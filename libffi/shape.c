#include "shape.h"
#include "key.h"

#define MOST_LOOKS 100000 /* at types: what may be a struct or a union is looked at twice, and so is all in it */

static size_t rounded(size_t size, size_t alignment)
{
    return alignment > 1 ? (size + alignment - 1) / alignment * alignment : size;
}

static bool add(const ffi_type *type, size_t at, int depth, unsigned *looks, struct shape *shape);

static bool add_scalar(const ffi_type *type, size_t at, struct shape *shape)
{
    if (type->type == FFI_TYPE_VOID || type->size == 0 || is_sized_otherwise(type) || at + type->size > SHAPE_BYTES)
        return false;
    uint64_t *kind = type->type == FFI_TYPE_FLOAT        ? &shape->real4
                     : type->type == FFI_TYPE_DOUBLE     ? &shape->real8
                     : type->type == FFI_TYPE_LONGDOUBLE ? &shape->real16
                                                         : &shape->integer;
    *kind |= shape_bytes(at, type->size);
    shape->is_misaligned = shape->is_misaligned || rounded(at, type->alignment) != at;
    return true;
}

/* Adds the elements, one behind another or all at `at`, and tells the size that they make. */
static bool add_elements(const ffi_type *type, size_t at, bool is_union, int depth, unsigned *looks,
                         struct shape *shape, size_t *size)
{
    size_t end = 0;
    for (ffi_type **it = type->elements; *it; it++) {
        size_t alignment = (*it)->alignment < type->alignment ? (*it)->alignment : type->alignment;
        size_t first = is_union ? 0 : rounded(end, alignment);
        if (at + first > SHAPE_BYTES || !add(*it, at + first, depth + 1, looks, shape))
            return false;
        end = first + (*it)->size > end ? first + (*it)->size : end;
    }
    *size = rounded(end, type->alignment);
    return true;
}

static void merge(struct shape *shape, const struct shape *other)
{
    shape->integer |= other->integer;
    shape->real4 |= other->real4;
    shape->real8 |= other->real8;
    shape->real16 |= other->real16;
    shape->is_misaligned = shape->is_misaligned || other->is_misaligned;
}

static bool add(const ffi_type *type, size_t at, int depth, unsigned *looks, struct shape *shape)
{
    if (++*looks > MOST_LOOKS)
        return false;
    if (!is_aggregate(type))
        return add_scalar(type, at, shape);
    if (!type->elements || !type->elements[0] || depth > DEEPEST)
        return false;
    if (type->type == FFI_TYPE_COMPLEX)
        return add(type->elements[0], at, depth + 1, looks, shape) &&
               add(type->elements[0], at + type->elements[0]->size, depth + 1, looks, shape);
    struct shape as_struct = {0}, as_union = {0};
    size_t size;
    bool is_struct = add_elements(type, at, false, depth, looks, &as_struct, &size) && size == type->size;
    /* What is laid out as libffi itself does it is a struct. */
    bool is_union = !is_natural(type) && add_elements(type, at, true, depth, looks, &as_union, &size);
    is_union = is_union && size == type->size;
    if (*looks > MOST_LOOKS)
        return false;
    if (!is_struct && !is_union)
        return false;
    if (is_struct && is_union && !host_are_alike(&as_struct, &as_union))
        return false;
    merge(shape, is_struct ? &as_struct : &as_union);
    return true;
}

bool find_shape(const ffi_type *type, struct shape *shape)
{
    unsigned looks = 0;
    *shape = (struct shape){0};
    return type->size <= SHAPE_BYTES && add(type, 0, 0, &looks, shape);
}
