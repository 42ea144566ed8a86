/* plan.h: plans, which say how the values of a signature are moved. One is made for each signature that was
 * prepared, and stays as long as the process: what plans take is bounded by how many signatures there are. */
#ifndef PLAN_H
#define PLAN_H

#include "exchange.h"
#include "key.h"
#include <stdatomic.h>
#include <string.h>

/* ---- Moves: those of the library (ffi3.h), by which it says where values stand, in fewer bytes each.
 *
 * A place is a number of bytes from the start of the exchange; from FRAME_AT on it is in the caller's frame. */

enum move_kind {
    MOVE_U8, /* these six read so many bits, and write 64, extended with zeros or by the sign */
    MOVE_S8,
    MOVE_U16,
    MOVE_S16,
    MOVE_U32,
    MOVE_S32,
    MOVE_SHORT, /* `length` bytes, and zeros above them, eight in all */
    MOVE_4,     /* so many bytes */
    MOVE_8,
    MOVE_16,
    MOVE_BYTES,  /* `length` bytes */
    MOVE_ADDRESS /* the address of the place `from` */
};

struct move {
    uint16_t kind;
    uint16_t argument;
    uint32_t from; /* a place, or a byte of the value */
    uint32_t to;   /* the other of them */
    uint32_t length;
};

#define NO_PLACE UINT32_MAX
#define MOST_ARGUMENTS UINT16_MAX /* those that are void among them */

/* Where a closure finds an argument. */
enum source_kind {
    AT_PLACE,   /* at the place `at` */
    AT_ADDRESS, /* at the address that stands there */
    GATHERED    /* in pieces: `count` moves, from `first` on, put it at byte `at` of the scratch */
};

struct source {
    uint32_t kind;
    uint32_t at;
    uint32_t first;
    uint32_t count;
};

/* All but `served` is written before the plan is published. */
struct plan {
    uint64_t word;   /* of the signature; where it is 0, its key has the plan's nodes */
    uint64_t answer; /* the library's, by which it is asked for the rest */
    _Atomic(const struct served *) served;
    uint64_t number; /* what the caller puts at number_at: on AMD64, how many vector registers there are */
    uint32_t number_at;
    uint32_t hash;
    uint32_t index; /* of the table of plans */
    ffi_abi abi;
    uint32_t nargs;
    uint32_t stack;  /* bytes of stack arguments, a multiple of 16 */
    uint32_t frame;  /* these with copies and the result's buffer */
    uint32_t beside; /* goes into the exchange, which says what it counts */
    uint32_t hidden; /* the place of the address of the result's buffer, or NO_PLACE */
    uint32_t back;   /* the place in which the callee gives it back, or NO_PLACE */
    uint32_t buffer; /* the place of that buffer, where the client has none */
    uint32_t moves_count;
    uint32_t loads_count;
    uint32_t nodes_count;
    struct move moves[]; /* the caller's, of the arguments; behind them its loads, of the result, and then the nodes */
};

static inline const struct move *loads_of(const struct plan *plan) { return plan->moves + plan->moves_count; }

static inline const struct ffi3_node *nodes_of(const struct plan *plan)
{
    return (const struct ffi3_node *)(const void *)(loads_of(plan) + plan->loads_count);
}

/* What a closure's function is given: how much memory that takes. */
enum serving {
    SERVE_NOTHING,   /* no argument, and no result */
    SERVE_AT_PLACES, /* at most FEW_ARGUMENTS, each in one place */
    SERVE_FEW,       /* so many, and some of them gathered in SMALL_SCRATCH bytes */
    SERVE_MANY
};

#define FEW_ARGUMENTS 8
#define SMALL_SCRATCH 64

/* The callee's part of a plan, which is made for the first closure of its signature. */
struct served {
    enum serving serving;
    uint32_t scratch; /* bytes for gathered arguments */
    uint32_t gives_count;
    uint32_t gathers_count;
    struct move *gives;   /* of the result */
    struct move *gathers; /* of arguments that stand in pieces */
    struct source *sources;
};

/* ---- What the proved library told of a signature */

struct moves {
    struct ffi3_move *first;
    size_t count;
};

#define LISTS 5 /* FFI3_MOVES_TO_STORE and so on */

struct told {
    uint64_t answer; /* the number of the library's answer */
    struct ffi3_sizes sizes;
    uint64_t stack; /* bytes of the frame that are passed on the stack: it begins with them */
    struct moves lists[LISTS]; /* the caller's, or the callee's; the others are not told */
    uint32_t malloced; /* which lists are not in own_moves, by bits */
    uint32_t used;     /* of own_moves */
    struct ffi3_move own_moves[64];
};

/* Asks the library for the moves of a key, the callee's, or the caller's and the sizes; answers false where it has
 * none, or memory was refused. `answer` is the number of what it answered of this key, or 0. told_end gives memory
 * back. Under library_lock. */
bool has_asked_moves(const struct key *key, bool is_callee, uint64_t answer, struct told *told);
void told_end(struct told *told);

/* Make a plan, and its callee's part, of what was told, in memory that is kept; or NULL, where malloc gives none. Under
 * library_lock. */
struct plan *plan_from(const struct key *key, uint64_t word, const struct told *told, const ffi_cif *cif);
struct served *served_from(const struct plan *plan, const struct told *told, const ffi_cif *cif);

/* The plan of an interface, from the table or a new one; or NULL, where there is none or memory was refused. Its types
 * are laid out. `fixed` as in key.h; `word` is the interface's, or 0. */
const struct plan *plan_for(const ffi_cif *cif, unsigned fixed, uint64_t word);

/* The callee's part of the interface's plan, from there or a new one; or NULL, where memory was refused. */
const struct served *served_by(const struct plan *plan, const ffi_cif *cif);

/* ---- The table of plans by their keys, with linear probing. Readers take no lock. One that grew too small stays as it
 * was for those who read it. */

struct table {
    size_t mask;
    struct table *smaller; /* the one that it took the place of */
    _Atomic(const struct plan *) slots[];
};

extern _Atomic(struct table *) plans_by_key;

/* Its low bits come of all bits of the word. */
static inline uint64_t hash_of_word(uint64_t word)
{
    uint64_t hash = (word ^ word >> 32) * 0x9E3779B97F4A7C15u;
    return hash ^ hash >> 32;
}

/* The plan of a word, or NULL. */
static inline const struct plan *plan_of_word(uint64_t word)
{
    const struct table *table = atomic_load_explicit(&plans_by_key, memory_order_acquire);
    for (size_t k = hash_of_word(word); __builtin_expect(table != NULL, 1); k++) {
        const struct plan *plan = atomic_load_explicit(&table->slots[k & table->mask], memory_order_acquire);
        if (!plan || plan->word == word)
            return plan;
    }
    return NULL;
}

/* ---- From a prepared interface to its plan: `flags` has the index and a mark, `bytes` the plan's stack. */

#define PLANS_OF_LEAF 1024u
#define LEAVES 1024u
#define PLAN_MARK 0xF3u
#define FLAGS_OF_INDEX(index) (PLAN_MARK << 24 | (index))

struct leaf {
    _Atomic(const struct plan *) plans[PLANS_OF_LEAF];
};

extern _Atomic(struct leaf *) plan_leaves[LEAVES];

/* The plan of an interface that another library prepared, or that was changed behind its preparation. */
const struct plan *planned_again(ffi_cif *cif);

/* The plan that these flags name, or NULL. */
static inline const struct plan *plan_at(uint32_t flags)
{
    uint32_t index = flags & 0xFFFFFF;
    if (flags >> 24 != PLAN_MARK || index >= PLANS_OF_LEAF * LEAVES)
        return NULL;
    struct leaf *leaf = atomic_load_explicit(&plan_leaves[index / PLANS_OF_LEAF], memory_order_acquire);
    return leaf ? atomic_load_explicit(&leaf->plans[index % PLANS_OF_LEAF], memory_order_acquire) : NULL;
}

/* Whether both have the same convention and as many arguments: two numbers side by side, looked at as one. */
static inline bool has_interface(const struct plan *plan, const ffi_cif *cif)
{
    uint64_t one, other;
    _Static_assert(offsetof(struct plan, nargs) == offsetof(struct plan, abi) + 4, "the plan's stand otherwise");
    _Static_assert(offsetof(ffi_cif, nargs) == offsetof(ffi_cif, abi) + 4, "the interface's stand otherwise");
    memcpy(&one, (const char *)plan + offsetof(struct plan, abi), sizeof one);
    memcpy(&other, (const char *)cif + offsetof(ffi_cif, abi), sizeof other);
    return one == other;
}

static inline const struct plan *plan_if_prepared(const ffi_cif *cif)
{
    const struct plan *plan = plan_at(cif->flags);
    return plan && has_interface(plan, cif) && plan->stack == cif->bytes ? plan : NULL;
}

static inline const struct plan *plan_of(ffi_cif *cif)
{
    const struct plan *plan = plan_if_prepared(cif);
    return __builtin_expect(plan != NULL, 1) ? plan : planned_again(cif);
}

#endif
