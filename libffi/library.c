/* What the proved library is asked: the moves of a signature. */
#include "heap.h"
#include "host.h"
#include "plan.h"
#include <stdlib.h>
#include <string.h>

#define OWN_MOVES (sizeof ((struct told *)NULL)->own_moves / sizeof(struct ffi3_move))

/* The nodes that the library is told for those of a key; answers how many: no more than those. */
static size_t told_nodes(const struct key *key, struct ffi3_node *told, uint32_t *fixed)
{
    size_t count = 0, result_end = type_end(key->nodes, NODES_BEFORE_TYPES);
    uint32_t not_void = 0, position = 0;
    for (size_t at = NODES_BEFORE_TYPES; at < key->length;) {
        size_t end = type_end(key->nodes, at);
        bool is_result = at < result_end;
        if (!is_result && position++ == key->fixed)
            *fixed = not_void;
        for (; at < end; at++)
            if (key->nodes[at].kind != NODE_SIZED && (is_result || key->nodes[at].kind != FFI3_VOID))
                told[count++] = key->nodes[at];
        if (!is_result)
            not_void += key->nodes[end - 1].kind != FFI3_VOID;
    }
    if (*fixed != FFI3_NOT_VARIADIC && *fixed > not_void)
        *fixed = not_void;
    return count;
}

void told_end(struct told *told)
{
    for (uint32_t list = 0; told->malloced >> list; list++)
        if (told->malloced >> list & 1)
            free(told->lists[list].first);
}

/* What the library keeps of its last answer, in memory that is free when it is asked of something else. */
static struct ffi3_interface last = FFI3_NO_INTERFACE;

/* A list for which there is no room, where malloc gives it. */
__attribute__((noinline)) static bool has_told_long(uint32_t list, struct told *told)
{
    struct moves *moves = &told->lists[list];
    moves->first = malloc(moves->count * sizeof *moves->first);
    if (!moves->first)
        return false;
    told->malloced |= 1u << list;
    return ffi3_moves(&last, list, &moves->count, moves->first, moves->count) == FFI3_OK;
}

/* One list of the last answer. */
static inline bool has_told(uint32_t list, struct told *told)
{
    struct moves *moves = &told->lists[list];
    moves->first = told->own_moves + told->used;
    uint32_t status = ffi3_moves(&last, list, &moves->count, moves->first, OWN_MOVES - told->used);
    if (__builtin_expect(status != FFI3_OK, 0))
        return status == FFI3_TOO_SMALL && has_told_long(list, told);
    told->used += (uint32_t)moves->count;
    return true;
}

/* Of the frame all is passed on the stack that stands before the first byte whose address is passed. */
static uint64_t stack_of(const struct told *told)
{
    static const uint32_t LISTS_OF_ADDRESSES[] = {FFI3_MOVES_TO_STORE, FFI3_MOVES_OF_HIDDEN};
    uint64_t stack = told->sizes.frame;
    for (size_t k = 0; k < 2 && stack; k++) {
        const struct moves *moves = &told->lists[LISTS_OF_ADDRESSES[k]];
        for (size_t i = 0; i < moves->count; i++)
            if (moves->first[i].kind == FFI3_MOVE_ADDRESS && moves->first[i].from < stack)
                stack = moves->first[i].from;
    }
    return (stack + 15) / 16 * 16;
}

__attribute__((noinline)) static bool has_told_caller(struct told *told)
{
    const struct moves *loads = &told->lists[FFI3_MOVES_TO_LOAD];
    if (ffi3_sizes(&last, &told->sizes) != FFI3_OK || told->sizes.frame > INT32_MAX ||
        !has_told(FFI3_MOVES_TO_STORE, told) || !has_told(FFI3_MOVES_TO_LOAD, told))
        return false;
    /* A hidden result is in the frame. */
    told->lists[FFI3_MOVES_OF_HIDDEN].count = 0;
    if (loads->count && loads->first->from >= FRAME_AT && !has_told(FFI3_MOVES_OF_HIDDEN, told))
        return false;
    told->stack = stack_of(told);
    return true;
}

static bool has_told_callee(struct told *told)
{
    return has_told(FFI3_MOVES_TO_COLLECT, told) && has_told(FFI3_MOVES_TO_GIVE, told);
}

static inline bool has_prepared(const struct key *key, const struct ffi3_node *nodes, size_t length, uint32_t fixed)
{
    struct ffi3_fault fault;
    /* The library wants one that is fixed, and libffi none; all of these standards place it as if it were not. */
    if (fixed == 0)
        fixed = length > type_end(nodes, 0) ? 1 : FFI3_NOT_VARIADIC;
    last = (struct ffi3_interface)FFI3_NO_INTERFACE;
    return ffi3_prepare(host_target(key_abi(key)), nodes, length, fixed, &last, &fault) == FFI3_OK;
}

/* The same of a key that has nodes which the library is not told. */
__attribute__((noinline)) static bool has_prepared_others(const struct key *key)
{
    uint32_t fixed = key->fixed;
    struct ffi3_node own_nodes[96], *nodes = own_nodes;
    if (key->length > sizeof own_nodes / sizeof *own_nodes)
        nodes = malloc(key->length * sizeof *nodes);
    size_t length = nodes ? told_nodes(key, nodes, &fixed) : 0;
    bool has = length && has_prepared(key, nodes, length, fixed);
    if (nodes != own_nodes)
        free(nodes);
    return has;
}

static inline bool is_prepared(const struct key *key, uint64_t answer)
{
    if (library_goes_on(answer))
        return true;
    if (key->kinds & NODES_OF_OWN)
        return has_prepared_others(key);
    return has_prepared(key, key->nodes + NODES_BEFORE_TYPES, key->length - NODES_BEFORE_TYPES, key->fixed);
}

bool has_asked_moves(const struct key *key, bool is_callee, uint64_t answer, struct told *told)
{
    told->malloced = told->used = 0;
    bool has = is_prepared(key, answer) && (is_callee ? has_told_callee(told) : has_told_caller(told));
    told->answer = library_answer();
    if (!told->answer)
        ffi3_release(&last);
    if (!has)
        told_end(told);
    return has;
}
