/* key.h: a signature as the library is asked for it, and as plans are known by. */
#ifndef KEY_H
#define KEY_H

#include <ffi.h>
#include <ffi3.h>
#include <stdbool.h>

/* Kinds of node of these files' own, beside those of ffi3.h. None is told to the proved library. */
#define NODE_SIGNATURE 0x100u /* the first of each key: `count` is the convention, an ffi_abi */
#define NODE_FIXED 0x101u     /* the second: how many arguments are fixed, or FFI3_NOT_VARIADIC */
#define NODE_SIZED 0x102u     /* the type that follows stands in for one of `count` bytes */
#define NODES_BEFORE_TYPES 2

#define DEEPEST 16 /* structs in structs: the library's own limit */

/* The bit of all these kinds, and of arguments that are void: the library is told other nodes than a key has. */
#define NODES_OF_OWN 0x100u

/* The bit of the kinds of long doubles, and of those that may have them in them. */
#define NODES_OF_LONG_DOUBLES 0x10u

struct key {
    struct ffi3_node *nodes; /* own_nodes, or malloc's: the two, the result, the arguments, those that are void too */
    size_t length, room;
    uint32_t kinds; /* by bits: all that the types have, but for scalars and for structs of a few of them */
    unsigned fixed;
    ffi_status status; /* FFI_OK, or why there is none */
    struct ffi3_node own_nodes[56];
};

/* Makes the key of an interface, whose types it lays out where they have no size. `fixed` is how many arguments are, or
 * FFI3_NOT_VARIADIC. key_end gives memory back. */
void key_tell(struct key *key, const ffi_cif *cif, unsigned fixed);
void key_end(struct key *key);

/* Whether a type may be one of a word's: it is void, or a scalar of which nothing counts but its code. A long double's
 * node goes by the convention, and its size counts. */
static inline bool is_of_words(const ffi_type *type)
{
    return type->type < FFI_TYPE_COMPLEX && type->type != FFI_TYPE_STRUCT && type->type != FFI_TYPE_LONGDOUBLE &&
           type->size != 0;
}

/* A signature of at most 14 arguments, none of them variadic, and all scalars that have a size, but no long doubles, is
 * known by one word too: a nibble for the convention, which is not 0, and one for each type. Answers 0 for another
 * signature. */
static inline uint64_t word_of(ffi_abi abi, unsigned nargs, const ffi_type *rtype, ffi_type **atypes)
{
    uint64_t word = (uint64_t)abi << 4 | rtype->type;
    if (nargs > 14 || !is_of_words(rtype))
        return 0;
    for (unsigned i = 0; i < nargs; i++) {
        if (!is_of_words(atypes[i]) || atypes[i]->type == FFI_TYPE_VOID)
            return 0;
        word = word << 4 | atypes[i]->type;
    }
    return word;
}

/* The key of an interface that has this word, from the word alone. */
void key_tell_word(struct key *key, const ffi_cif *cif, uint64_t word);

static inline ffi_abi key_abi(const struct key *key) { return (ffi_abi)key->nodes[0].count; }

bool key_has_more_room(struct key *key);

/* Adds the node of a scalar that is no long double, or notes that memory was refused. */
static inline void key_put_scalar(struct key *key, uint32_t kind)
{
    if (__builtin_expect(key->length == key->room, 0) && !key_has_more_room(key))
        return;
    key->nodes[key->length++] = (struct ffi3_node){kind, 0};
}

/* Adds a node of any kind, or notes that memory was refused. */
static inline void key_put(struct key *key, uint32_t kind, uint32_t count)
{
    if (__builtin_expect(key->length == key->room, 0) && !key_has_more_room(key))
        return;
    key->nodes[key->length++] = (struct ffi3_node){kind, count};
    key->kinds |= kind;
}

/* Adds so many bytes, with its alignment, in the place of a type of which nothing else counts. Answers false where
 * there are none such. */
bool key_put_bytes(struct key *key, const ffi_type *type);

/* Where in nodes the type ends that begins at `at`. */
size_t type_end(const struct ffi3_node *nodes, size_t at);

static inline bool is_aggregate(const ffi_type *type)
{
    return type->type == FFI_TYPE_STRUCT || type->type == FFI_TYPE_COMPLEX;
}

/* Whether the library has types of this alignment. */
static inline bool is_alignment(size_t it) { return it != 0 && it <= 16 && (it & (it - 1)) == 0; }

/* By libffi's code of a scalar: the library's kind, or FFI3_STRUCT where none is it always; and how many bytes. */
extern const uint8_t scalar_kinds[FFI_TYPE_LAST + 1], scalar_sizes[FFI_TYPE_LAST + 1];

static inline uint32_t scalar_kind(unsigned short type)
{
    return type <= FFI_TYPE_LAST ? scalar_kinds[type] : FFI3_STRUCT;
}

static inline size_t scalar_size(unsigned short type) { return type <= FFI_TYPE_LAST ? scalar_sizes[type] : 0; }

/* Whether a scalar has another size or alignment than its type has. A plan is shared by all that have its key, which
 * has no sizes of scalars, so none may count. */
bool is_sized_otherwise(const ffi_type *type);

/* Whether the size and the alignment of a struct are those that its elements make. */
bool is_natural(const ffi_type *type);

#endif
