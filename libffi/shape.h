/* shape.h: types that their client laid out itself, as unions, packed and over-aligned structs: what is known of
 * them. */
#ifndef SHAPE_H
#define SHAPE_H

#include <ffi.h>
#include <stdbool.h>
#include <stdint.h>

/* What stands in the first 64 bytes of a type, a bit for each byte. */
struct shape {
    uint64_t integer, real4, real8, real16; /* of an integer or a pointer, a float, a double, a long double */
    bool is_misaligned;                     /* whether a scalar stands at no multiple of its alignment */
};

#define SHAPE_BYTES 64

/* The bits of `length` bytes from byte `at` on. */
static inline uint64_t shape_bytes(size_t at, size_t length)
{
    return (length < SHAPE_BYTES ? (UINT64_C(1) << length) - 1 : UINT64_MAX) << at;
}

/* The shape of a type of at most SHAPE_BYTES bytes, by its elements' own offsets: those of a struct in which no
 * alignment is over the type's own, or 0 for all, as in a union, whichever makes the size that the client has set.
 * Answers false where neither does, or where both do and are not alike: nothing is guessed. */
bool find_shape(const ffi_type *type, struct shape *shape);

/* stand_in.c of the host: whether its standard passes types of these shapes in the same way. */
bool host_are_alike(const struct shape *one, const struct shape *other);

#endif
