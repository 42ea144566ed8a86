/* The table of plans: readers take no lock. */
#include "plan.h"
#include "heap.h"
#include "host.h"
#include <stdio.h>
#include <stdlib.h>
#include <string.h>

_Atomic(struct leaf *) plan_leaves[LEAVES];

_Atomic(struct table *) plans_by_key;
static uint32_t plans_count; /* under library_lock, as all that is written here */

static inline uint64_t bits_of(const struct ffi3_node *node)
{
    uint64_t bits;
    memcpy(&bits, node, sizeof bits);
    return bits;
}

static uint64_t hash_of(const struct key *key)
{
    uint64_t hash = key->length;
    for (const struct ffi3_node *node = key->nodes, *end = node + key->length; node < end; node++)
        hash = (hash << 7 | hash >> 57) + bits_of(node);
    return hash_of_word(hash);
}

static inline bool has_nodes(const struct plan *plan, const struct key *key)
{
    return plan->nodes_count == key->length &&
           memcmp(nodes_of(plan), key->nodes, key->length * sizeof *key->nodes) == 0;
}

/* A place of a table, and the plan of a word, or, if that is 0, of a key, which stands there; or the place in which it
 * would stand. */
struct place {
    struct table *table;
    size_t at;
    const struct plan *plan;
};

static inline struct place found(struct table *table, uint64_t hash, uint64_t word, const struct key *key)
{
    for (size_t k = hash; table; k++) {
        const struct plan *plan = atomic_load_explicit(&table->slots[k & table->mask], memory_order_acquire);
        if (!plan || (plan->hash == (uint32_t)hash && plan->word == word && (word || has_nodes(plan, key))))
            return (struct place){table, k & table->mask, plan};
    }
    return (struct place){NULL, 0, NULL};
}

static void enter(struct table *table, const struct plan *plan)
{
    size_t k = plan->hash;
    while (atomic_load_explicit(&table->slots[k & table->mask], memory_order_relaxed))
        k++;
    atomic_store_explicit(&table->slots[k & table->mask], plan, memory_order_release);
}

/* One that has been put. */
static inline const struct plan *plan_of_index(uint32_t index)
{
    struct leaf *leaf = atomic_load_explicit(&plan_leaves[index / PLANS_OF_LEAF], memory_order_relaxed);
    return atomic_load_explicit(&leaf->plans[index % PLANS_OF_LEAF], memory_order_relaxed);
}

/* Whether the table has room for one more: at most half of it is full. */
static bool has_slot(void)
{
    struct table *table = atomic_load(&plans_by_key);
    size_t room = table ? table->mask + 1 : 0;
    if (2 * (size_t)(plans_count + 1) <= room)
        return true;
    room = room ? 2 * room : 64;
    struct table *larger = calloc(1, sizeof *larger + room * sizeof *larger->slots);
    if (!larger)
        return false;
    larger->mask = room - 1;
    larger->smaller = table;
    for (uint32_t k = 1; k <= plans_count; k++)
        enter(larger, plan_of_index(k));
    atomic_store_explicit(&plans_by_key, larger, memory_order_release);
    return true;
}

/* Whether there is a leaf for an index. */
static bool has_leaf(uint32_t index)
{
    _Atomic(struct leaf *) *at = &plan_leaves[index / PLANS_OF_LEAF];
    struct leaf *leaf = atomic_load(at);
    if (!leaf && (leaf = calloc(1, sizeof *leaf)))
        atomic_store_explicit(at, leaf, memory_order_release);
    return leaf;
}

/* Whether there is room for one more. */
static bool has_room(void)
{
    uint32_t index = plans_count + 1; /* 0 is none's */
    return index < PLANS_OF_LEAF * LEAVES && has_leaf(index) && has_slot();
}

/* Puts a new plan into its place, for which there is room. The table by indices has it first. */
static void put(struct place place, struct plan *plan)
{
    uint32_t index = plan->index = ++plans_count;
    struct leaf *leaf = atomic_load_explicit(&plan_leaves[index / PLANS_OF_LEAF], memory_order_relaxed);
    atomic_store_explicit(&leaf->plans[index % PLANS_OF_LEAF], plan, memory_order_release);
    atomic_store_explicit(&place.table->slots[place.at], plan, memory_order_release);
}

static struct plan *asked_plan(const struct key *key, uint64_t word, const ffi_cif *cif)
{
    struct told told;
    if (!has_asked_moves(key, false, 0, &told))
        return NULL;
    struct plan *plan = plan_from(key, word, &told, cif);
    told_end(&told);
    return plan;
}

/* A new plan of a key that has nodes, or the one that another thread has made of it. `place` is where it would stand
 * in the table as it was found. */
static const struct plan *make(const struct key *key, uint64_t hash, uint64_t word, const ffi_cif *cif,
                               struct place place)
{
    struct plan *plan = NULL;
    library_enter();
    if (has_room()) {
        struct table *table = atomic_load_explicit(&plans_by_key, memory_order_relaxed);
        if (place.table != table || atomic_load(&table->slots[place.at]))
            place = found(table, hash, word, key);
        if (!place.plan && (plan = asked_plan(key, word, cif))) {
            plan->hash = (uint32_t)hash;
            put(place, plan);
        }
    }
    library_leave();
    return plan ? plan : place.plan;
}

/* The callee's part of a plan, or the one that another thread has made of it. */
static const struct served *serve(struct plan *plan, const struct key *key, const ffi_cif *cif)
{
    struct told told;
    library_enter();
    const struct served *served = atomic_load(&plan->served);
    if (!served && has_asked_moves(key, true, plan->answer, &told)) {
        served = served_from(plan, &told, cif);
        told_end(&told);
        atomic_store_explicit(&plan->served, served, memory_order_release);
    }
    library_leave();
    return served;
}

/* Whether the interface's types are still those of its plan, which others share. */
static bool is_of(const struct plan *plan, const struct key *key, const ffi_cif *cif)
{
    return plan->word ? plan->word == word_of(cif->abi, cif->nargs, cif->rtype, cif->arg_types) : has_nodes(plan, key);
}

const struct served *served_by(const struct plan *plan, const ffi_cif *cif)
{
    const struct served *served = atomic_load_explicit(&plan->served, memory_order_acquire);
    struct key key;
    if (served)
        return served;
    /* The plan's own nodes have how many arguments are fixed. */
    key_tell(&key, cif, plan->word ? FFI3_NOT_VARIADIC : nodes_of(plan)[1].count);
    if (key.status == FFI_OK && is_of(plan, &key, cif))
        served = serve((struct plan *)(uintptr_t)plan, &key, cif);
    key_end(&key);
    return served;
}

/* By a word, where that is not 0, or else by nodes. */
const struct plan *plan_for(const ffi_cif *cif, unsigned fixed, uint64_t word)
{
    struct key key;
    const struct plan *plan = NULL;
    if (word)
        key_tell_word(&key, cif, word);
    else
        key_tell(&key, cif, fixed);
    if (key.status == FFI_OK) {
        uint64_t hash = word ? hash_of_word(word) : hash_of(&key);
        struct place place = found(atomic_load_explicit(&plans_by_key, memory_order_acquire), hash, word, &key);
        plan = __builtin_expect(place.plan != NULL, 1) ? place.plan : make(&key, hash, word, cif, place);
    }
    key_end(&key);
    return plan;
}

/* Such an interface is not written to: it may be another library's, or another thread's. */
const struct plan *planned_again(ffi_cif *cif)
{
    const struct plan *plan = NULL;
    if (host_has_abi(cif->abi, false) && cif->nargs <= MOST_ARGUMENTS)
        plan = plan_for(cif, FFI3_NOT_VARIADIC, word_of(cif->abi, cif->nargs, cif->rtype, cif->arg_types));
    if (!plan) {
        fputs("libffi: a call through an interface that is not prepared\n", stderr);
        abort();
    }
    return plan;
}
