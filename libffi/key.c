/* From libffi's types to nodes. */
#include "key.h"
#include "host.h"
#include "layout.h"
#include <stdlib.h>
#include <string.h>

#define MOST_NODES 1000000 /* of a signature */

const uint8_t scalar_kinds[FFI_TYPE_LAST + 1] = {
    [FFI_TYPE_VOID] = FFI3_VOID,     [FFI_TYPE_INT] = FFI3_SINT32,    [FFI_TYPE_FLOAT] = FFI3_FLOAT,
    [FFI_TYPE_DOUBLE] = FFI3_DOUBLE, [FFI_TYPE_LONGDOUBLE] = FFI3_STRUCT, [FFI_TYPE_UINT8] = FFI3_UINT8,
    [FFI_TYPE_SINT8] = FFI3_SINT8,   [FFI_TYPE_UINT16] = FFI3_UINT16, [FFI_TYPE_SINT16] = FFI3_SINT16,
    [FFI_TYPE_UINT32] = FFI3_UINT32, [FFI_TYPE_SINT32] = FFI3_SINT32, [FFI_TYPE_UINT64] = FFI3_UINT64,
    [FFI_TYPE_SINT64] = FFI3_SINT64, [FFI_TYPE_STRUCT] = FFI3_STRUCT, [FFI_TYPE_POINTER] = FFI3_POINTER,
    [FFI_TYPE_COMPLEX] = FFI3_STRUCT,
};

const uint8_t scalar_sizes[FFI_TYPE_LAST + 1] = {
    [FFI_TYPE_INT] = 4,    [FFI_TYPE_FLOAT] = 4,  [FFI_TYPE_DOUBLE] = 8, [FFI_TYPE_LONGDOUBLE] = 16,
    [FFI_TYPE_UINT8] = 1,  [FFI_TYPE_SINT8] = 1,  [FFI_TYPE_UINT16] = 2, [FFI_TYPE_SINT16] = 2,
    [FFI_TYPE_UINT32] = 4, [FFI_TYPE_SINT32] = 4, [FFI_TYPE_UINT64] = 8, [FFI_TYPE_SINT64] = 8,
    [FFI_TYPE_POINTER] = 8,
};

bool is_sized_otherwise(const ffi_type *type)
{
    size_t size = scalar_size(type->type);
    return size && (type->size != size || type->alignment != size);
}

/* ---- Nodes */

bool key_has_more_room(struct key *key)
{
    size_t room = 4 * key->room;
    struct ffi3_node *nodes = room <= MOST_NODES ? malloc(room * sizeof *nodes) : NULL;
    if (!nodes) {
        key->status = FFI_BAD_TYPEDEF;
        return false;
    }
    memcpy(nodes, key->nodes, key->length * sizeof *nodes);
    key_end(key);
    key->nodes = nodes;
    key->room = room;
    return true;
}

void key_end(struct key *key)
{
    if (key->nodes != key->own_nodes)
        free(key->nodes);
}

size_t type_end(const struct ffi3_node *nodes, size_t at)
{
    for (size_t wanted = 1; wanted > 0; wanted--, at++)
        if (nodes[at].kind == FFI3_STRUCT)
            wanted += nodes[at].count;
        else if (nodes[at].kind == FFI3_ARRAY || nodes[at].kind == NODE_SIZED)
            wanted++;
    return at;
}

bool key_put_bytes(struct key *key, const ffi_type *type)
{
    bool is_wide = type->alignment == 16;
    if (type->size > UINT32_MAX || (is_wide && type->size % 16))
        return false;
    key_put(key, FFI3_STRUCT, 1);
    key_put(key, FFI3_ARRAY, (uint32_t)(is_wide ? type->size / 16 : type->size));
    key_put(key, is_wide ? FFI3_UINT128 : FFI3_UINT8, 0);
    return true;
}

/* ---- Types as they are */

/* `alignment` is a power of two. */
static inline size_t rounded(size_t size, size_t alignment) { return (size + alignment - 1) & ~(alignment - 1); }

/* What elements make, one behind another. */
struct made {
    size_t size, alignment;
};

static inline void add(struct made *made, size_t size, size_t alignment)
{
    made->size = rounded(made->size, alignment) + size;
    made->alignment = alignment > made->alignment ? alignment : made->alignment;
}

static inline bool are_of(const struct made *made, const ffi_type *type)
{
    return made->size != 0 && rounded(made->size, made->alignment) == type->size && made->alignment == type->alignment;
}

bool is_natural(const ffi_type *type)
{
    struct made made = {0, 1};
    for (ffi_type **it = type->elements; *it; it++) {
        if ((*it)->type == FFI_TYPE_VOID || (*it)->size == 0 || !is_alignment((*it)->alignment) ||
            is_sized_otherwise(*it))
            return false;
        add(&made, (*it)->size, (*it)->alignment);
    }
    return are_of(&made, type);
}

static bool put_type(struct key *key, const ffi_type *type, int depth);

/* A long double is what the convention says; or there is none. */
static bool put_long_double(struct key *key, const ffi_type *type)
{
    uint32_t kind = host_long_double(key_abi(key));
    if (kind == FFI3_STRUCT || is_sized_otherwise(type))
        return false;
    key_put(key, kind, 0);
    return true;
}

/* Of parts for which the library has no complex kind it is told the struct of two. */
static bool put_complex(struct key *key, const ffi_type *type, int depth)
{
    const ffi_type *part = type->elements ? type->elements[0] : NULL;
    if (!part || is_sized_otherwise(part) || type->size != 2 * part->size || type->alignment != part->alignment)
        return false;
    uint32_t kind = part->type == FFI_TYPE_LONGDOUBLE ? host_long_double(key_abi(key)) : scalar_kind(part->type);
    switch (kind) {
    case FFI3_FLOAT: key_put(key, FFI3_COMPLEX_FLOAT, 0); return true;
    case FFI3_DOUBLE: key_put(key, FFI3_COMPLEX_DOUBLE, 0); return true;
    case FFI3_LONG_DOUBLE: key_put(key, FFI3_COMPLEX_LONG_DOUBLE, 0); return true;
    default:
        key_put(key, FFI3_STRUCT, 2);
        return put_type(key, part, depth + 1) && put_type(key, part, depth + 1);
    }
}

#define FEW_ELEMENTS 8

/* Equal elements one behind another are told as an array, which is placed as they are, where they are not few. */
static bool put_elements(struct key *key, const ffi_type *type, int depth)
{
    size_t at = key->length;
    uint32_t count = 0;
    key_put(key, FFI3_STRUCT, 0);
    for (ffi_type **it = type->elements; *it; count++) {
        uint32_t run = 1;
        while (it[run] == *it)
            run++;
        if (run < FEW_ELEMENTS)
            run = 1;
        else
            key_put(key, FFI3_ARRAY, run);
        if (!put_type(key, *it, depth + 1))
            return false;
        it += run;
    }
    if (key->status == FFI_OK)
        key->nodes[at].count = count;
    return true;
}

/* Does the same for a struct of a few scalars, for which there is room, and looks at each once: what they make is known
 * behind the last. */
__attribute__((noinline)) static bool has_put_few(struct key *key, const ffi_type *type)
{
    struct ffi3_node *first = key->nodes + key->length, *next = first;
    struct made made = {0, 1};
    if (key->room - key->length < 1 + FEW_ELEMENTS)
        return false;
    for (ffi_type **it = type->elements; *it; it++) {
        const ffi_type *element = *it;
        uint32_t kind = scalar_kind(element->type);
        if (kind >= FFI3_VOID || next == first + FEW_ELEMENTS)
            return false;
        size_t size = scalar_sizes[element->type];
        if (element->size != size || element->alignment != size)
            return false;
        add(&made, size, size);
        *++next = (struct ffi3_node){kind, 0};
    }
    *first = (struct ffi3_node){FFI3_STRUCT, (uint32_t)(next - first)};
    key->length += (size_t)(next - first) + 1;
    return are_of(&made, type);
}

/* Adds a type as it is, or answers false where it can't be told so: somewhere its client laid it out itself, or it
 * is of another kind; or structs stand in one another too deep, which is noted. What was added then is to be taken
 * back. */
static bool put_type(struct key *key, const ffi_type *type, int depth)
{
    uint32_t kind = scalar_kind(type->type);
    if (kind != FFI3_STRUCT) {
        key_put_scalar(key, kind);
        return true;
    }
    if (type->type == FFI_TYPE_LONGDOUBLE)
        return put_long_double(key, type);
    if (depth >= DEEPEST && type->type == FFI_TYPE_STRUCT)
        key->status = FFI_BAD_TYPEDEF;
    if (depth >= DEEPEST || key->status != FFI_OK)
        return false;
    if (type->type == FFI_TYPE_COMPLEX)
        return put_complex(key, type, depth);
    if (type->type != FFI_TYPE_STRUCT || !type->elements)
        return false;
    return has_put_few(key, type) || (is_natural(type) && put_elements(key, type, depth));
}

/* Adds what is void, a long double, or an aggregate. */
static void put_other(struct key *key, const ffi_type *type, bool is_result)
{
    size_t before = key->length;
    if (type->type == FFI_TYPE_STRUCT && type->elements && has_put_few(key, type))
        return;
    if (type->type == FFI_TYPE_VOID && !is_result)
        key->kinds |= NODES_OF_OWN;
    if (put_type(key, type, 0) || key->status != FFI_OK)
        return;
    key->length = before;
    if (!is_aggregate(type) || !is_alignment(type->alignment) || !host_put_stand_in(key, type, key_abi(key)))
        key->status = FFI_BAD_TYPEDEF;
}

/* ---- Signatures */

void key_tell_word(struct key *key, const ffi_cif *cif, uint64_t word)
{
    struct ffi3_node *types = key->own_nodes + NODES_BEFORE_TYPES;
    for (unsigned i = cif->nargs + 1; i-- > 0; word >>= 4)
        types[i] = (struct ffi3_node){scalar_kinds[word & 15], 0};
    key->nodes = key->own_nodes;
    key->room = sizeof key->own_nodes / sizeof *key->own_nodes;
    key->length = cif->nargs + 1 + NODES_BEFORE_TYPES;
    key->status = FFI_OK;
    key->kinds = 0;
    key->fixed = FFI3_NOT_VARIADIC;
    key->nodes[0] = (struct ffi3_node){NODE_SIGNATURE, cif->abi};
    key->nodes[1] = (struct ffi3_node){NODE_FIXED, FFI3_NOT_VARIADIC};
}

void key_tell(struct key *key, const ffi_cif *cif, unsigned fixed)
{
    key->nodes = key->own_nodes;
    key->room = sizeof key->own_nodes / sizeof *key->own_nodes;
    key->length = NODES_BEFORE_TYPES;
    key->status = FFI_OK;
    key->kinds = 0;
    key->fixed = fixed != FFI3_NOT_VARIADIC && fixed > cif->nargs ? cif->nargs : fixed;
    key->nodes[0] = (struct ffi3_node){NODE_SIGNATURE, cif->abi};
    key->nodes[1] = (struct ffi3_node){NODE_FIXED, key->fixed};
    ffi_type *type = cif->rtype;
    for (unsigned i = 0;; type = cif->arg_types[i++]) {
        uint32_t kind = scalar_kind(type->type);
        if (__builtin_expect(!is_laid_out(type), 0))
            key->status = FFI_BAD_TYPEDEF;
        else if (__builtin_expect(kind < FFI3_VOID, 1))
            key_put_scalar(key, kind);
        else
            put_other(key, type, i == 0);
        if (i == cif->nargs || __builtin_expect(key->status != FFI_OK, 0))
            break;
    }
}
