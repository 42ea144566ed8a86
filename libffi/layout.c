#include "layout.h"
#include "heap.h"
#include "key.h"
#include <stdatomic.h>
#include <stdlib.h>
#include <string.h>

/* ---- Layouts that the library told. They are kept, and readers take no lock: there are as many as there are structs
 * with members of other sizes and alignments. */

struct layout {
    const struct layout *next; /* of the same bucket */
    size_t size;
    uint32_t alignment;
    uint32_t count;   /* of members */
    uint64_t words[]; /* of each member what member_of says, and behind these the offsets */
};

#define BUCKETS 1024u

static _Atomic(const struct layout *) buckets[BUCKETS];

static inline uint64_t mixed(uint64_t hash, uint64_t member) { return (hash << 7 | hash >> 57) + member; }

static inline uint32_t bucket_of(uint64_t hash) { return (uint32_t)(hash * 0x9E3779B97F4A7C15u >> 54); }

static inline bool has_members(const struct layout *it, const uint64_t *members, size_t count)
{
    for (size_t k = 0; k < count; k++)
        if (it->words[k] != members[k])
            return false;
    return true;
}

static inline const struct layout *found(uint32_t bucket, const uint64_t *members, size_t count)
{
    const struct layout *it = atomic_load_explicit(&buckets[bucket], memory_order_acquire);
    while (it && (it->count != count || !has_members(it, members, count)))
        it = it->next;
    return it;
}

/* Keeps what was told, under library_lock, unless another thread has. Where memory is refused the library is asked
 * again next time. */
static void keep(uint32_t bucket, const uint64_t *members, size_t count, const struct ffi3_type *told,
                 const size_t *offsets)
{
    size_t bytes = sizeof(struct layout) + 2 * count * sizeof(uint64_t);
    struct layout *it = found(bucket, members, count) ? NULL : kept_room(bytes);
    if (!it)
        return;
    kept_take(bytes);
    *it = (struct layout){.size = told->size, .alignment = (uint32_t)told->align, .count = (uint32_t)count};
    memcpy(it->words, members, count * sizeof *it->words);
    memcpy(it->words + count, offsets, count * sizeof *it->words);
    it->next = atomic_load(&buckets[bucket]);
    atomic_store_explicit(&buckets[bucket], it, memory_order_release);
}

/* ---- What the library is asked */

static uint32_t integer_of(size_t bytes)
{
    switch (bytes) {
    case 1: return FFI3_UINT8;
    case 2: return FFI3_UINT16;
    case 4: return FFI3_UINT32;
    case 8: return FFI3_UINT64;
    case 16: return FFI3_UINT128;
    default: return FFI3_STRUCT;
    }
}

/* The size and the alignment of a member, which are all that counts for a layout; or 0, where it can't be one. */
static inline uint64_t member_of(const ffi_type *type)
{
    uint64_t size = scalar_size(type->type), alignment = size;
    if (size == 0 && scalar_kind(type->type) == FFI3_STRUCT) {
        size = __atomic_load_n(&type->size, __ATOMIC_ACQUIRE);
        alignment = type->alignment;
    }
    return size <= UINT32_MAX ? size << 16 | alignment : 0;
}

/* Writes the nodes of a member, an integer of its size and alignment or an array of these; answers how many: 1 or 2, and
 * 0 where it can't be one. */
static size_t put(struct ffi3_node *nodes, uint64_t member)
{
    size_t size = member >> 16, alignment = member & 0xFFFF, written = 0;
    uint32_t unit = integer_of(alignment);
    if (unit == FFI3_STRUCT || size == 0 || size % alignment)
        return 0;
    if (size != alignment)
        nodes[written++] = (struct ffi3_node){FFI3_ARRAY, (uint32_t)(size / alignment)};
    nodes[written++] = (struct ffi3_node){unit, 0};
    return written;
}

/* Asks for a layout that nobody has asked for, and keeps it. */
static bool has_asked(uint32_t bucket, const uint64_t *members, size_t count, struct ffi3_type *told, size_t *offsets)
{
    struct ffi3_node own_nodes[64], *nodes = own_nodes;
    if (2 * count + 1 > sizeof own_nodes / sizeof *own_nodes)
        nodes = malloc((2 * count + 1) * sizeof *nodes);
    if (!nodes)
        return false;
    nodes[0] = (struct ffi3_node){FFI3_STRUCT, (uint32_t)count};
    size_t length = 1;
    bool is_right = true;
    for (size_t k = 0; k < count && is_right; k++) {
        size_t written = put(nodes + length, members[k]);
        is_right = written > 0;
        length += written;
    }
    if (is_right) {
        library_enter();
        (void)library_goes_on(0);
        is_right = ffi3_offsets_nodes(nodes, length, told, offsets, count) == FFI3_OK;
        if (is_right)
            keep(bucket, members, count, told, offsets);
        library_leave();
    }
    if (nodes != own_nodes)
        free(nodes);
    return is_right;
}

/* ---- Types */

static inline void set(ffi_type *type, size_t size, uint32_t alignment)
{
    if (type->size == size && type->alignment == alignment)
        return;
    /* Another thread that sees the size has to see the alignment too. */
    type->alignment = (unsigned short)alignment;
    __atomic_store_n(&type->size, size, __ATOMIC_RELEASE);
}

/* `offsets` is for the first `wanted` of the members. */
__attribute__((noinline)) static ffi_status lay_out_anew(ffi_type *type, const uint64_t *members, size_t count,
                                                         uint32_t bucket, size_t *offsets, size_t wanted)
{
    struct ffi3_type told;
    size_t own_offsets[32], *found_offsets = own_offsets;
    if (count > sizeof own_offsets / sizeof *own_offsets)
        found_offsets = malloc(count * sizeof *found_offsets);
    bool is_right = found_offsets && has_asked(bucket, members, count, &told, found_offsets);
    if (is_right) {
        set(type, told.size, (uint32_t)told.align);
        if (offsets)
            memcpy(offsets, found_offsets, wanted * sizeof *offsets);
    }
    if (found_offsets != own_offsets)
        free(found_offsets);
    return is_right ? FFI_OK : FFI_BAD_TYPEDEF;
}

/* What was last found for a struct that stands here; whether it is still that one's is looked at. */
#define RECENT 64u

static _Atomic(const struct layout *) recent[RECENT];

static inline size_t recent_of(const ffi_type *type) { return ((uintptr_t)type >> 3) % RECENT; }

#define FEW_MEMBERS 16

static ffi_status lay_out_inside(ffi_type *type, size_t *offsets, int depth);

/* With room for `room` members, of which one is for the second part of a complex number: its one element is both. */
static inline ffi_status lay_out_in(ffi_type *type, uint64_t *members, size_t room, size_t *offsets, int depth)
{
    size_t count = 0;
    uint64_t hash = 0;
    for (ffi_type **it = type->elements; *it && count < room; it++) {
        if (__atomic_load_n(&(*it)->size, __ATOMIC_ACQUIRE) == 0 && lay_out_inside(*it, NULL, depth + 1) != FFI_OK)
            return FFI_BAD_TYPEDEF;
        members[count] = member_of(*it);
        hash = mixed(hash, members[count++]);
    }
    size_t wanted = count;
    if (type->type == FFI_TYPE_COMPLEX)
        members[count++] = members[0];
    uint32_t bucket = bucket_of(hash);
    const struct layout *known = found(bucket, members, count);
    if (__builtin_expect(!known, 0))
        return lay_out_anew(type, members, count, bucket, offsets, wanted);
    set(type, known->size, known->alignment);
    if (offsets)
        atomic_store_explicit(&recent[recent_of(type)], known, memory_order_release);
    for (size_t k = 0; offsets && k < wanted; k++)
        offsets[k] = known->words[count + k];
    return FFI_OK;
}

__attribute__((noinline)) static ffi_status lay_out_many(ffi_type *type, size_t *offsets, int depth)
{
    size_t count = FEW_MEMBERS;
    while (type->elements[count])
        count++;
    uint64_t *members = malloc((count + 1) * sizeof *members);
    ffi_status status = members ? lay_out_in(type, members, count, offsets, depth) : FFI_BAD_TYPEDEF;
    free(members);
    return status;
}

static ffi_status lay_out_inside(ffi_type *type, size_t *offsets, int depth)
{
    uint64_t members[FEW_MEMBERS + 1];
    if (!is_aggregate(type) || !type->elements || !type->elements[0] || depth > DEEPEST)
        return FFI_BAD_TYPEDEF;
    for (size_t k = 1; k <= FEW_MEMBERS && type->elements[k]; k++)
        if (k == FEW_MEMBERS)
            return lay_out_many(type, offsets, depth);
    return lay_out_in(type, members, FEW_MEMBERS, offsets, depth);
}

static inline bool is_as_recent(ffi_type *type, size_t *offsets)
{
    const struct layout *known = atomic_load_explicit(&recent[recent_of(type)], memory_order_acquire);
    if (!known || !is_aggregate(type) || type->type == FFI_TYPE_COMPLEX || !type->elements)
        return false;
    size_t count = 0;
    for (const ffi_type *it; (it = type->elements[count]); count++)
        if (count == known->count || __atomic_load_n(&it->size, __ATOMIC_ACQUIRE) == 0 ||
            member_of(it) != known->words[count])
            return false;
    if (count != known->count)
        return false;
    set(type, known->size, known->alignment);
    for (size_t k = 0; k < count; k++)
        offsets[k] = known->words[count + k];
    return true;
}

ffi_status lay_out(ffi_type *type, size_t *offsets)
{
    return offsets && is_as_recent(type, offsets) ? FFI_OK : lay_out_inside(type, offsets, 0);
}
