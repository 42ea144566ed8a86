// Tries interfaces that the C library keeps: they are prepared, asked, shared with threads and released, in a loop,
// with each allocation of a call refused in turn. To be linked with --wrap of malloc, realloc and free. The last line
// is 'N passed, M failed'.
#include <pthread.h>
#include <stdio.h>
#include <stdlib.h>
#include <string.h>

#include "ffi3.h"

#define COUNT(array) (sizeof(array) / sizeof *(array))
#define FULL UINT64_C(0x1122334455667788)

static long due, counted;
static _Atomic long blocks; // that are not given back

void *__real_malloc(size_t size);
void *__real_realloc(void *block, size_t size);
void __real_free(void *block);
void *__wrap_malloc(size_t size);
void *__wrap_realloc(void *block, size_t size);
void __wrap_free(void *block);

static int is_refused(void)
{
    if (!due)
        return 0;
    counted++;
    return counted == due;
}

void *__wrap_malloc(size_t size)
{
    void *block = is_refused() ? NULL : __real_malloc(size);
    blocks += block != NULL;
    return block;
}

void *__wrap_realloc(void *block, size_t size)
{
    void *moved = is_refused() ? NULL : __real_realloc(block, size);
    blocks += !block && moved;
    return moved;
}

void __wrap_free(void *block)
{
    blocks -= block != NULL;
    __real_free(block);
}

static long passed, failed;

static void check(int holds, const char *what, size_t round)
{
    if (holds) {
        passed++;
    } else {
        failed++;
        printf("FAILED: %s, round %zu\n", what, round);
    }
}

// int f(int), and double f(struct of 64 bytes, int)
static const struct ffi3_node small[] = {{FFI3_SINT32, 0}, {FFI3_SINT32, 0}};
static const struct ffi3_node large[] = {{FFI3_DOUBLE, 0}, {FFI3_STRUCT, 8}, {FFI3_DOUBLE, 0}, {FFI3_DOUBLE, 0},
                                         {FFI3_DOUBLE, 0}, {FFI3_DOUBLE, 0}, {FFI3_DOUBLE, 0}, {FFI3_DOUBLE, 0},
                                         {FFI3_DOUBLE, 0}, {FFI3_DOUBLE, 0}, {FFI3_SINT32, 0}};
static const struct ffi3_node wrong[] = {{FFI3_SINT32, 0}, {99, 0}};
enum { TARGETS = FFI3_APPLE + 1, LISTS = FFI3_MOVES_OF_HIDDEN + 1 };

static uint32_t prepare(uint32_t target, int is_large, struct ffi3_interface *it)
{
    struct ffi3_fault fault;
    return ffi3_prepare(target, is_large ? large : small, is_large ? COUNT(large) : COUNT(small), FFI3_NOT_VARIADIC, it,
                        &fault);
}

// Whether it is the interface of `large`, or of `small`.
static int has(struct ffi3_interface *it, uint32_t target, int is_large)
{
    struct ffi3_sizes sizes;
    memset(&sizes, 7, sizeof sizes);
    size_t shadow = target == FFI3_WIN64 ? 32 : 0;
    size_t link = target == FFI3_WIN64 || target == FFI3_AMD64 ? 8 : 0;
    return ffi3_sizes(it, &sizes) == FFI3_OK && sizes.values == (is_large ? 72 : 8) &&
           sizes.result == (is_large ? 8 : 4) && sizes.link == link && sizes.returned == FFI3_NOWHERE &&
           (is_large ? sizes.frame >= 64 : sizes.frame == shadow) && !sizes.reserved[0] && !sizes.reserved[2];
}

static int has_nothing(struct ffi3_interface *it)
{
    struct ffi3_sizes sizes;
    struct ffi3_registers registers = {.sp = 0};
    struct ffi3_reason reason;
    struct ffi3_move moves[1];
    unsigned char bytes[8] = {0};
    size_t count = 7;
    memset(&sizes, 7, sizeof sizes);
    memset(&reason, 7, sizeof reason);
    return !it->kept && ffi3_sizes(it, &sizes) == FFI3_NOT_PREPARED && !sizes.frame && !sizes.values &&
           ffi3_moves(it, FFI3_MOVES_TO_LOAD, &count, moves, 1) == FFI3_NOT_PREPARED && !count &&
           ffi3_store(it, bytes, 8, &registers, NULL, 0) == FFI3_NOT_PREPARED &&
           ffi3_load(it, &registers, NULL, 0, bytes, 8) == FFI3_NOT_PREPARED &&
           ffi3_collect(it, &registers, NULL, 0, bytes, 8, &reason) == FFI3_NOT_PREPARED && !reason.wanted &&
           ffi3_give(it, bytes, 8, &registers, NULL, 0, &reason) == FFI3_NOT_PREPARED && !reason.address;
}

// Whether values that are stored are collected again, and a result that is given is loaded.
static int carries(struct ffi3_interface *it, int is_large)
{
    struct ffi3_sizes sizes;
    struct ffi3_registers registers, before;
    struct ffi3_reason reason;
    unsigned char values[72], found[72], result[8] = "results", again[8] = {0}, stack[256];
    if (ffi3_sizes(it, &sizes) != FFI3_OK || sizes.values > sizeof values || sizes.link + sizes.frame > sizeof stack)
        return 0;
    for (size_t i = 0; i < sizeof values; i++)
        values[i] = (unsigned char)(i + 1);
    if (!is_large)
        memset(values + 4, 0, 4);
    else
        memset(values + 68, 0, 4);
    memset(&registers, 0x55, sizeof registers);
    memset(stack, 0x55, sizeof stack);
    registers.sp = FULL;
    before = registers;
    if (ffi3_store(it, values, sizes.values - 1, &registers, stack, sizeof stack) != FFI3_WRONG_SIZE ||
        ffi3_store(it, values, sizes.values, &registers, stack, sizes.link) !=
            (sizes.frame ? FFI3_SHORT_STACK : FFI3_OK))
        return 0;
    if (sizes.frame && memcmp(&registers, &before, sizeof before) != 0)
        return 0;
    registers.sp = UINT64_MAX - 100;
    if (ffi3_store(it, values, sizes.values, &registers, stack, sizeof stack) != FFI3_HIGH_STACK)
        return 0;
    registers.sp = FULL;
    if (ffi3_store(it, values, sizes.values, &registers, stack, sizeof stack) != FFI3_OK || registers.sp != FULL ||
        ffi3_collect(it, &registers, stack, sizeof stack, found, sizes.values, &reason) != FFI3_OK || reason.wanted ||
        memcmp(values, found, sizes.values) != 0 ||
        ffi3_collect(it, &registers, stack, sizeof stack, found, sizes.values + 1, &reason) != FFI3_WRONG_SIZE ||
        reason.wanted != sizes.values)
        return 0;
    if (ffi3_give(it, result, sizes.result, &registers, stack, sizeof stack, &reason) != FFI3_OK ||
        ffi3_give(it, result, sizes.result + 1, &registers, stack, sizeof stack, &reason) != FFI3_WRONG_SIZE ||
        reason.wanted != sizes.result)
        return 0;
    return ffi3_load(it, &registers, stack + sizes.link, sizeof stack - sizes.link, again, sizes.result) == FFI3_OK &&
           memcmp(result, again, sizes.result) == 0;
}

// Whether each list is told whole, or not at all where there is no room for it.
static int has_moves(struct ffi3_interface *it)
{
    struct ffi3_move moves[32], first;
    size_t count = 7, again = 7;
    for (uint32_t list = 0; list < LISTS; list++) {
        memset(moves, 0x55, sizeof moves);
        first = moves[0];
        uint32_t asked = ffi3_moves(it, list, &count, moves, 0);
        if (asked != (count ? FFI3_TOO_SMALL : FFI3_OK) || memcmp(moves, &first, sizeof first) != 0 ||
            count > COUNT(moves) - 1 || ffi3_moves(it, list, &again, moves, count) != FFI3_OK || again != count ||
            memcmp(&moves[count], &first, sizeof first) != 0)
            return 0;
    }
    return ffi3_moves(it, LISTS, &count, moves, COUNT(moves)) == FFI3_UNKNOWN_VALUE && !count;
}

static void *in_a_thread(void *given)
{
    struct ffi3_interface *it = given, mine = FFI3_NO_INTERFACE;
    intptr_t wrongs = 0;
    for (int i = 0; i < 100; i++) {
        wrongs += ffi3_share(it, &mine) != FFI3_OK;
        wrongs += !has(&mine, FFI3_AMD64, 1) + !carries(&mine, 1);
    }
    ffi3_release(&mine);
    ffi3_release(it);
    return (void *)wrongs;
}

static void try_one(size_t round)
{
    uint32_t target = (uint32_t)(round % TARGETS);
    struct ffi3_interface one = FFI3_NO_INTERFACE, two = FFI3_NO_INTERFACE;
    struct ffi3_fault fault;
    long before = blocks;
    check(has_nothing(&one), "nothing is kept", round);
    check(ffi3_share(&one, &two) == FFI3_NOT_PREPARED && has_nothing(&two), "nothing is shared", round);
    ffi3_release(&one);
    check(prepare(TARGETS, 1, &one) == FFI3_UNKNOWN_TARGET && has_nothing(&one), "no such target", round);
    check(ffi3_prepare(target, wrong, COUNT(wrong), FFI3_NOT_VARIADIC, &one, &fault) == FFI3_NOT_DECLARED &&
              fault.kind == FFI3_UNKNOWN_KIND && fault.offset == 1 && has_nothing(&one) && blocks == before,
          "no signature", round);
    check(prepare(target, 0, &one) == FFI3_OK && has(&one, target, 0) && carries(&one, 0), "prepared", round);
    check(prepare(target, 1, &one) == FFI3_OK && has(&one, target, 1) && carries(&one, 1), "prepared in its place",
          round);
    check(has_moves(&one), "moves", round);
    check(ffi3_share(&one, &two) == FFI3_OK && two.kept != one.kept && has(&two, target, 1), "shared", round);
    ffi3_release(&one);
    check(has_nothing(&one) && has(&two, target, 1) && carries(&two, 1), "one is released", round);
    ffi3_release(&two);
    check(has_nothing(&two) && blocks == before, "all is given back", round);
}

// With the allocation of this number refused. Answers whether there was one.
static int try_refused(uint32_t target, long number)
{
    struct ffi3_interface one = FFI3_NO_INTERFACE, two = FFI3_NO_INTERFACE;
    size_t round = (size_t)number, count;
    long before = blocks, kept;
    counted = 0;
    due = number;
    uint32_t first = prepare(target, 0, &one);
    check(first == FFI3_OK ? has(&one, target, 0) : first == FFI3_OUT_OF_MEMORY && !one.kept && blocks == before,
          "prepared or refused", round);
    kept = blocks;
    uint32_t again = prepare(target, 1, &one);
    check(again == FFI3_OK ? has(&one, target, 1)
                           : again == FFI3_OUT_OF_MEMORY && blocks == kept && has(&one, target, 0),
          "refused over an interface", round);
    kept = blocks;
    struct ffi3_move moves[32];
    long taken = counted;
    uint32_t told = ffi3_moves(&one, FFI3_MOVES_TO_STORE, &count, moves, COUNT(moves));
    check(told == FFI3_OK && counted == taken, "moves take no memory", round);
    uint32_t shared = ffi3_share(&one, &two);
    check(shared == FFI3_OK ? has(&two, target, again == FFI3_OK)
                            : shared == FFI3_OUT_OF_MEMORY && !two.kept && blocks == kept,
          "shared or refused", round);
    due = 0;
    ffi3_release(&one);
    ffi3_release(&two);
    check(blocks == before, "all is given back after a refusal", round);
    return counted >= number;
}

static void try_threads(size_t round)
{
    enum { THREADS = 4 };
    struct ffi3_interface one = FFI3_NO_INTERFACE, each[THREADS] = {FFI3_NO_INTERFACE};
    pthread_t threads[THREADS];
    check(prepare(FFI3_AMD64, 1, &one) == FFI3_OK, "prepared for threads", round);
    for (int i = 0; i < THREADS; i++)
        check(ffi3_share(&one, &each[i]) == FFI3_OK, "shared with a thread", round);
    for (int i = 0; i < THREADS; i++)
        check(pthread_create(&threads[i], NULL, in_a_thread, &each[i]) == 0, "a thread", round);
    ffi3_release(&one);
    for (int i = 0; i < THREADS; i++) {
        void *wrongs = &one;
        check(pthread_join(threads[i], &wrongs) == 0 && !wrongs && !each[i].kept, "a thread's interface", round);
    }
}

int main(void)
{
    for (size_t round = 0; round < 400; round++)
        try_one(round);
    for (uint32_t target = 0; target < TARGETS; target++) {
        long number = 1;
        while (try_refused(target, number))
            number++;
        check(number > 10, "allocations are refused", target);
    }
    for (size_t round = 0; round < 20; round++)
        try_threads(round);
    printf("%ld passed, %ld failed\n", passed, failed);
    return failed != 0;
}
