/* From the library's lists of moves to a plan. Nothing here decides where a value stands: each move is told again in
 * fewer bytes, and reads from its own argument, while the library has the values of all of them one behind another. */
#include "plan.h"
#include "heap.h"
#include "host.h"
#include <string.h>

/* The codes of types that are passed as one value, and are no long double: a bit for each. */
#define SCALARS                                                                                             \
    (((2u << FFI_TYPE_LAST) - 1) & ~(1u << FFI_TYPE_VOID | 1u << FFI_TYPE_LONGDOUBLE | 1u << FFI_TYPE_STRUCT | \
                                     1u << FFI_TYPE_COMPLEX))

static inline bool is_scalar(const ffi_type *type) { return SCALARS >> (type->type & 31) & 1; }

static bool is_integer(const ffi_type *type)
{
    return is_scalar(type) && type->type != FFI_TYPE_FLOAT && type->type != FFI_TYPE_DOUBLE;
}

static bool is_signed(const ffi_type *type)
{
    return type->type == FFI_TYPE_SINT8 || type->type == FFI_TYPE_SINT16 || type->type == FFI_TYPE_SINT32 ||
           type->type == FFI_TYPE_INT;
}

/* A place of the library's, where these files have it. */
static inline uint32_t place_of(uint64_t told)
{
    uint32_t it = (uint32_t)told;
    return it - HIGH_AT < FRAME_AT - HIGH_AT ? it - HIGH_AT + BESIDE_AT : it;
}

/* Bytes as they are. */
static inline uint16_t as_they_are(uint32_t length)
{
    switch (length) {
    case 4: return MOVE_4;
    case 8: return MOVE_8;
    case 16: return MOVE_16;
    default: return MOVE_BYTES;
    }
}

/* Bytes that fill eight: by how many they are, with zeros or with the sign. */
static const uint8_t fillings[2][16] = {
    {MOVE_SHORT, MOVE_U8, MOVE_U16, MOVE_SHORT, MOVE_U32, MOVE_SHORT, MOVE_SHORT, MOVE_SHORT, MOVE_8},
    {MOVE_SHORT, MOVE_S8, MOVE_S16, MOVE_SHORT, MOVE_S32, MOVE_SHORT, MOVE_SHORT, MOVE_SHORT, MOVE_8},
};

static inline uint16_t filling(uint32_t length, bool is_signed)
{
    return length <= 8 ? fillings[is_signed][length] : MOVE_SHORT;
}

/* To a place. A register, or eight bytes of the frame, is one move's: where the library leaves the rest of it free it
 * gets zeros. No standard of these hosts asks for ones. */
static inline uint16_t kind_in(const struct ffi3_move *told, uint32_t length)
{
    return length <= 8 ? fillings[told->kind == FFI3_MOVE_SIGN][length] : as_they_are(length);
}

/* How many bytes of the value a move has: a stand-in may be longer than the type that it stands in for. What a client
 * says of a scalar's size does not count. */
static uint32_t length_of(const struct ffi3_move *told, uint64_t offset, const ffi_type *type)
{
    uint64_t left = type->size > offset ? type->size - offset : 0;
    return (uint32_t)(is_scalar(type) || told->length < left ? told->length : left);
}

/* Whether a move goes with the one before it: it goes on where that ended, in both memories, or ends where that began,
 * or writes the same bytes, and so comes in its place. */
static bool has_joined(struct move *last, const struct move *move)
{
    if (last->to == move->to) {
        *last = *move;
        return true;
    }
    bool goes_on = last->from + last->length == move->from && last->to + last->length == move->to;
    bool is_before = move->from + move->length == last->from && move->to + move->length == last->to;
    if ((!goes_on || last->length % 8) && (!is_before || move->length % 8))
        return false;
    if (is_before) {
        last->from = move->from;
        last->to = move->to;
    }
    last->length += move->length;
    last->kind = as_they_are(last->length);
    return true;
}

/* Adds a move to the `count` of a value, and answers how many they are then. */
static inline uint32_t add(struct move *moves, uint32_t count, const struct move *move)
{
    if (move->length == 0 || (count && has_joined(&moves[count - 1], move)))
        return count;
    moves[count] = *move;
    return count + 1;
}

/* ---- Arguments
 *
 * The library numbers those that it was told of, which are all that are not void. Both lists have each one's moves side
 * by side, by these numbers, and the list that is stored has a number behind them. */

/* Where in a list the moves end of the argument `part`, the first of which is the next. */
static inline const struct ffi3_move *end_of(const struct ffi3_move *next, const struct ffi3_move *end, uint32_t part)
{
    while (next < end && next->part == part)
        next++;
    return next;
}

/* A caller's move of an argument whose value begins at `start`. */
static inline struct move move_of(const struct ffi3_move *told, uint64_t start, uint32_t number, const ffi_type *type)
{
    uint32_t from = (uint32_t)(told->from - start), length = length_of(told, from, type);
    return (struct move){kind_in(told, length), (uint16_t)number, from, place_of(told->to), length};
}

/* The same of a scalar that has one. */
static inline struct move scalar_move(const struct ffi3_move *told, uint32_t number)
{
    uint32_t length = (uint32_t)told->length;
    return (struct move){kind_in(told, length), (uint16_t)number, 0, place_of(told->to), length};
}

/* Adds the caller's moves of an argument, from `next` on, and answers how many they are. The first of them reads its
 * first byte. */
__attribute__((noinline)) static uint32_t fill_moves(struct move *moves, const struct ffi3_move *next,
                                                     const struct ffi3_move *end, uint32_t number,
                                                     const ffi_type *type)
{
    uint64_t start = next->from;
    uint32_t count = 0;
    for (; next < end; next++) {
        struct move move = move_of(next, start, number, type);
        if (next->kind != FFI3_MOVE_ADDRESS)
            count = add(moves, count, &move);
        else
            moves[count++] = (struct move){MOVE_ADDRESS, (uint16_t)number, FRAME_AT + (uint32_t)next->from, move.to, 0};
    }
    return count;
}

/* Answers whether each argument has its moves. */
__attribute__((noinline)) static bool has_filled_moves(struct plan *plan, const struct told *told, const ffi_cif *cif)
{
    const struct moves *stores = &told->lists[FFI3_MOVES_TO_STORE];
    const struct ffi3_move *next = stores->first, *end = next + stores->count;
    struct move *moves = plan->moves;
    uint32_t part = 0;
    if (next < end && end[-1].kind == FFI3_MOVE_NUMBER) {
        end--;
        plan->number_at = (uint32_t)end->to;
        plan->number = end->from;
    }
    for (uint32_t i = 0; i < cif->nargs; i++) {
        const ffi_type *type = cif->arg_types[i];
        const struct ffi3_move *first = next;
        if (__builtin_expect(type->type == FFI_TYPE_VOID, 0))
            continue;
        if (__builtin_expect(first == end || first->part != part, 0))
            return false;
        next++;
        if (__builtin_expect(is_scalar(type) && (next == end || next->part != part), 1)) {
            *moves++ = scalar_move(first, i);
        } else {
            next = end_of(next, end, part);
            moves += fill_moves(moves, first, next, i, type);
        }
        part++;
    }
    plan->moves_count = (uint32_t)(moves - plan->moves);
    return next == end;
}

/* Where a closure finds an argument: where it stands, if that is one place. In registers nothing is aligned to 16, nor
 * is a scalar that is no long double, whatever a client says of it. What stands in more is gathered by the callee's
 * moves; the value of the argument begins at `start`, among those of all. */
static struct source source_of(struct served *served, const struct ffi3_move *next, const struct ffi3_move *end,
                               uint64_t start, const ffi_type *type)
{
    struct move *moves = &served->gathers[served->gathers_count];
    uint32_t count = 0;
    if (next->kind == FFI3_MOVE_BEHIND)
        return (struct source){AT_ADDRESS, (uint32_t)next->from, 0, 0};
    for (; next < end; next++) {
        struct move move = {.from = place_of(next->from), .to = (uint32_t)(next->to - start)};
        move.length = length_of(next, move.to, type);
        move.kind = as_they_are(move.length);
        count = add(moves, count, &move);
    }
    if (count == 1 && (moves->from >= FRAME_AT || type->alignment <= 8 || is_scalar(type)))
        return (struct source){AT_PLACE, moves->from, 0, 0};
    struct source source = {GATHERED, served->scratch, served->gathers_count, count};
    served->gathers_count += count;
    served->scratch += (uint32_t)(type->size + 15) / 16 * 16;
    return source;
}

/* The lowest byte that is written by these moves. */
static uint64_t start_of(const struct ffi3_move *next, const struct ffi3_move *end)
{
    uint64_t start = next->to;
    for (; next < end; next++)
        start = next->to < start ? next->to : start;
    return start;
}

/* The same of a callee's. */
static bool has_filled_sources(struct served *served, const struct told *told, const ffi_cif *cif)
{
    const struct moves *collects = &told->lists[FFI3_MOVES_TO_COLLECT];
    const struct ffi3_move *next = collects->first, *end = next + collects->count;
    uint32_t part = 0;
    for (uint32_t i = 0; i < cif->nargs; i++) {
        const ffi_type *type = cif->arg_types[i];
        served->sources[i] = (struct source){AT_PLACE, 0, 0, 0}; /* of what is void */
        if (type->type == FFI_TYPE_VOID)
            continue;
        const struct ffi3_move *first = next;
        next = end_of(first, end, part++);
        if (next == first)
            return false;
        served->sources[i] = source_of(served, first, next, start_of(first, next), type);
    }
    return true;
}

/* ---- Results */

/* libffi widens an integer to a word. */
static struct move load_of(const struct ffi3_move *told, const ffi_type *type)
{
    struct move move = {.from = place_of(told->from), .to = (uint32_t)told->to};
    move.length = length_of(told, told->to, type);
    move.kind = is_integer(type) ? filling(move.length, is_signed(type)) : as_they_are(move.length);
    return move;
}

static struct move give_of(const struct ffi3_move *told, const ffi_type *type)
{
    struct move move = {.from = (uint32_t)told->from, .to = place_of(told->to)};
    move.length = length_of(told, told->from, type);
    move.kind = kind_in(told, move.length);
    return move;
}

/* A hidden result is in the client's own buffer: there is no move for it. */
static void fill_loads(struct plan *plan, const struct told *told, const ffi_type *type)
{
    const struct moves *loads = &told->lists[FFI3_MOVES_TO_LOAD], *hidden = &told->lists[FFI3_MOVES_OF_HIDDEN];
    if (hidden->count) {
        plan->hidden = (uint32_t)hidden->first->to;
        plan->buffer = FRAME_AT + (uint32_t)hidden->first->from;
        if (told->sizes.returned != FFI3_NOWHERE)
            plan->back = (uint32_t)told->sizes.returned;
        return;
    }
    struct move *filled = plan->moves + plan->moves_count;
    uint32_t count = 0;
    for (size_t k = 0; k < loads->count; k++) {
        struct move move = load_of(&loads->first[k], type);
        count = add(filled, count, &move);
    }
    plan->loads_count = count;
}

static void fill_gives(struct served *served, const struct told *told, const ffi_type *type)
{
    const struct moves *gives = &told->lists[FFI3_MOVES_TO_GIVE];
    for (size_t k = 0; k < gives->count; k++) {
        struct move move = give_of(&gives->first[k], type);
        served->gives_count = add(served->gives, served->gives_count, &move);
    }
}

/* ---- The whole */

/* How many 16 bytes have values of those that the rows do not move, from the first on, with this one. */
static inline uint32_t beside(uint32_t before, uint32_t place, uint32_t length)
{
    uint32_t count = place - BESIDE_AT < BESIDE_BYTES ? (place - BESIDE_AT + length + 15) / 16 : 0;
    return count > before ? count : before;
}

static uint32_t all_beside(const struct plan *plan)
{
    uint32_t count = 0;
    const struct move *loads = loads_of(plan);
    for (uint32_t k = 0; k < plan->moves_count; k++)
        count = beside(count, plan->moves[k].to, plan->moves[k].length);
    for (uint32_t k = 0; k < plan->loads_count; k++)
        count = beside(count, loads[k].from, loads[k].length);
    return count;
}

struct plan *plan_from(const struct key *key, uint64_t word, const struct told *told, const ffi_cif *cif)
{
    size_t moves = told->lists[FFI3_MOVES_TO_STORE].count + told->lists[FFI3_MOVES_TO_LOAD].count;
    size_t nodes = word ? 0 : key->length;
    struct plan *plan = kept_room(sizeof *plan + moves * sizeof *plan->moves + nodes * sizeof *key->nodes);
    if (!plan)
        return NULL;
    *plan = (struct plan){.word = word,
                          .answer = told->answer,
                          .number_at = offsetof(struct exchange, unused),
                          .abi = cif->abi,
                          .nargs = cif->nargs,
                          .stack = (uint32_t)told->stack,
                          .frame = (uint32_t)told->sizes.frame,
                          .hidden = NO_PLACE,
                          .back = NO_PLACE,
                          .nodes_count = (uint32_t)nodes};
    if (!has_filled_moves(plan, told, cif))
        return NULL;
    fill_loads(plan, told, cif->rtype);
    if (__builtin_expect(key->kinds & NODES_OF_LONG_DOUBLES, 0))
        plan->beside = all_beside(plan);
    void *own_nodes = plan->moves + plan->moves_count + plan->loads_count;
    memcpy(own_nodes, key->nodes, nodes * sizeof *key->nodes);
    kept_take((size_t)((char *)own_nodes - (char *)plan) + nodes * sizeof *key->nodes);
    return plan;
}

static enum serving serving_of(const struct plan *plan, const struct served *served)
{
    if (plan->nargs > FEW_ARGUMENTS || served->scratch > SMALL_SCRATCH)
        return SERVE_MANY;
    if (served->scratch)
        return SERVE_FEW;
    return plan->nargs || served->gives_count || plan->hidden != NO_PLACE ? SERVE_AT_PLACES : SERVE_NOTHING;
}

struct served *served_from(const struct plan *plan, const struct told *told, const ffi_cif *cif)
{
    size_t moves = told->lists[FFI3_MOVES_TO_COLLECT].count + told->lists[FFI3_MOVES_TO_GIVE].count;
    size_t sources = cif->nargs * sizeof(struct source);
    struct served *served = kept_room(sizeof *served + sources + moves * sizeof(struct move));
    if (!served)
        return NULL;
    *served = (struct served){.sources = (struct source *)(served + 1)};
    served->gathers = (struct move *)(served->sources + cif->nargs);
    if (!has_filled_sources(served, told, cif))
        return NULL;
    served->gives = served->gathers + served->gathers_count;
    fill_gives(served, told, cif->rtype);
    served->serving = serving_of(plan, served);
    kept_take((size_t)((char *)(served->gives + served->gives_count) - (char *)served));
    return served;
}
