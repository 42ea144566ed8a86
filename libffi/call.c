/* Calls and closures: a plan's moves, played on the exchange. */
#include "closure.h"
#include "plan.h"
#include <alloca.h>
#include <stdio.h>
#include <stdlib.h>
#include <string.h>

#define ALWAYS_INLINE __attribute__((always_inline)) static inline

#define SMALL_FRAME 128 /* bytes of a frame that stands in the function's own */

/* Bytes of an exchange that are nobody's, where the result of a function without one may be written nevertheless. */
#define RESULT_AT offsetof(struct exchange, floating[30])

#define WIDEN(type, signs, to, from)               \
    do {                                           \
        type value;                                \
        memcpy(&value, from, sizeof value);        \
        uint64_t wide = (uint64_t)(signs)value;    \
        memcpy(to, &wide, 8);                      \
    } while (0)

static inline void play(const struct move *move, void *to, const void *from)
{
    switch ((enum move_kind)move->kind) {
    case MOVE_U8: WIDEN(uint8_t, uint64_t, to, from); break;
    case MOVE_S8: WIDEN(int8_t, int64_t, to, from); break;
    case MOVE_U16: WIDEN(uint16_t, uint64_t, to, from); break;
    case MOVE_S16: WIDEN(int16_t, int64_t, to, from); break;
    case MOVE_U32: WIDEN(uint32_t, uint64_t, to, from); break;
    case MOVE_S32: WIDEN(int32_t, int64_t, to, from); break;
    case MOVE_SHORT: memset(to, 0, 8), memcpy(to, from, move->length); break;
    case MOVE_4: memcpy(to, from, 4); break;
    case MOVE_8: memcpy(to, from, 8); break;
    case MOVE_16: memcpy(to, from, 16); break;
    case MOVE_ADDRESS: break;
    case MOVE_BYTES: memcpy(to, from, move->length); break;
    }
}

static inline void put_address(char *at, const void *address) { memcpy(at, &address, sizeof address); }

static inline void *address_at(const char *at)
{
    void *address;
    memcpy(&address, at, sizeof address);
    return address;
}

/* ---- Calls */

static inline void pass(const struct plan *plan, char *exchange, void **values)
{
    const struct move *end = plan->moves + plan->moves_count;
    for (const struct move *move = plan->moves; move < end; move++)
        if (__builtin_expect(move->kind == MOVE_ADDRESS, 0))
            put_address(exchange + move->to, exchange + move->from);
        else
            play(move, exchange + move->to, (const char *)values[move->argument] + move->from);
    memcpy(exchange + plan->number_at, &plan->number, sizeof plan->number);
}

ALWAYS_INLINE void call_with(struct exchange *registers, const struct plan *plan, void (*fn)(void), void *result,
                             void **values, void *chain)
{
    char *exchange = (char *)registers;
    pass(plan, exchange, values);
    if (plan->hidden != NO_PLACE)
        put_address(exchange + plan->hidden, result ? result : exchange + plan->buffer);
    registers->callee = (uint64_t)fn;
    registers->chain = (uint64_t)chain;
    registers->beside = plan->beside;
    make_call(registers, plan->stack);
    if (!result)
        return;
    for (const struct move *move = loads_of(plan), *end = move + plan->loads_count; move < end; move++)
        play(move, (char *)result + move->to, exchange + move->from);
}

/* Exchange and frame stand on this function's stack; the compiler touches each page of what alloca takes. */
__attribute__((noinline)) static void call_with_frame(const struct plan *plan, void (*fn)(void), void *result,
                                                      void **values, void *chain)
{
    call_with(__builtin_alloca_with_align(FRAME_AT + plan->frame, 128), plan, fn, result, values, chain);
}

static inline void call_with_chain(ffi_cif *cif, void (*fn)(void), void *result, void **values, void *chain)
{
    const struct plan *plan = plan_of(cif);
    _Alignas(16) struct {
        struct exchange registers;
        char frame[SMALL_FRAME];
    } own;
    if (plan->frame <= sizeof own.frame)
        call_with(&own.registers, plan, fn, result, values, chain);
    else
        call_with_frame(plan, fn, result, values, chain);
}

void ffi_call(ffi_cif *cif, void (*fn)(void), void *rvalue, void **avalue)
{
    call_with_chain(cif, fn, rvalue, avalue, NULL);
}

void ffi_call_go(ffi_cif *cif, void (*fn)(void), void *rvalue, void **avalue, void *closure)
{
    call_with_chain(cif, fn, rvalue, avalue, closure);
}

/* ---- Closures */

typedef void function(ffi_cif *, void *, void **, void *);

/* The places of a plan are those of a caller, whose frame stands elsewhere than behind this exchange. */
static inline char *place(char *exchange, char *frame, uint32_t at)
{
    return at < FRAME_AT ? exchange + at : frame + (at - FRAME_AT);
}

#define ENTERED                                                                                              \
    const struct plan *plan, const struct served *served, char *exchange, char *frame, ffi_cif *cif, function *fun, \
        void *user_data

static void gather(const struct served *served, const struct source *source, char *exchange, char *frame, char *to)
{
    const struct move *move = &served->gathers[source->first];
    for (uint32_t k = 0; k < source->count; k++, move++)
        play(move, to + move->to, place(exchange, frame, move->from));
}

ALWAYS_INLINE void serve(ENTERED, void **values, char *scratch)
{
    _Alignas(16) uint64_t own_result[8]; /* as much as registers give back */
    void *result = own_result;
    own_result[0] = own_result[1] = 0;
    const struct source *source = served->sources;
    for (void **value = values, **end = values + plan->nargs; value < end; value++, source++) {
        char *at = place(exchange, frame, source->at);
        if (source->kind == AT_ADDRESS) {
            at = address_at(at);
        } else if (scratch && source->kind == GATHERED) {
            at = scratch + source->at;
            gather(served, source, exchange, frame, at);
        }
        *value = at;
    }
    if (plan->hidden != NO_PLACE)
        result = address_at(place(exchange, frame, plan->hidden));
    fun(cif, result, values, user_data);
    if (plan->back != NO_PLACE)
        put_address(exchange + plan->back, result);
    for (const struct move *move = served->gives, *end = move + served->gives_count; move < end; move++)
        play(move, exchange + move->to, (char *)result + move->from);
}

__attribute__((noinline)) static void serve_many(ENTERED)
{
    void **values = alloca(plan->nargs * sizeof *values);
    serve(plan, served, exchange, frame, cif, fun, user_data, values,
          __builtin_alloca_with_align(served->scratch, 128));
}

__attribute__((noinline)) static void serve_few(ENTERED)
{
    void *values[FEW_ARGUMENTS];
    _Alignas(16) char scratch[SMALL_SCRATCH];
    serve(plan, served, exchange, frame, cif, fun, user_data, values, scratch);
}

__attribute__((noinline)) static void serve_at_places(ENTERED)
{
    void *values[FEW_ARGUMENTS];
    serve(plan, served, exchange, frame, cif, fun, user_data, values, NULL);
}

/* What is called last needs no memory of this function's. */
ALWAYS_INLINE void receive(ENTERED)
{
    ((struct exchange *)(void *)exchange)->beside = plan->beside;
    if (served->serving == SERVE_NOTHING)
        fun(cif, exchange + RESULT_AT, (void **)(void *)(exchange + RESULT_AT), user_data);
    else if (served->serving == SERVE_AT_PLACES)
        serve_at_places(plan, served, exchange, frame, cif, fun, user_data);
    else if (served->serving == SERVE_FEW)
        serve_few(plan, served, exchange, frame, cif, fun, user_data);
    else
        serve_many(plan, served, exchange, frame, cif, fun, user_data);
}

__attribute__((noinline)) static void receive_anew(char *exchange, char *frame, ffi_cif *cif, function *fun,
                                                   void *user_data)
{
    const struct plan *plan = plan_of(cif);
    const struct served *served = served_by(plan, cif);
    if (!served) {
        fputs("libffi: no memory where a closure was entered\n", stderr);
        abort();
    }
    receive(plan, served, exchange, frame, cif, fun, user_data);
}

ALWAYS_INLINE void receive_by(char *exchange, char *frame, ffi_cif *cif, function *fun, void *user_data)
{
    const struct plan *plan = plan_if_prepared(cif);
    const struct served *served = plan ? atomic_load_explicit(&plan->served, memory_order_acquire) : NULL;
    if (__builtin_expect(served != NULL, 1))
        receive(plan, served, exchange, frame, cif, fun, user_data);
    else
        receive_anew(exchange, frame, cif, fun, user_data);
}

void receive_closure(char *exchange, ffi_closure *closure, char *frame)
{
    receive_by(exchange, frame, closure->cif, closure->fun, closure->user_data);
}

void receive_go_closure(char *exchange, ffi_go_closure *closure, char *frame)
{
    receive_by(exchange, frame, closure->cif, closure->fun, closure);
}
