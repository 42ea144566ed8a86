// Calls compiled functions by ffi3_store and ffi3_load, and has ffi3_collect and ffi3_give answer compiled callers:
// try_calls NODES, with one function a line as numbers: how many arguments are fixed, then of each node kind and count.
// To be linked with what conformance/shared/emit.py writes of the same functions, and with the assembly of
// conformance/places for this convention. The values are random; all that they are compared by, offsets and sizes of
// leaves, is the compiler's. The last line is 'N passed, M failed'.
#include "ffi3.h"
#include "player.h"

#include <stdio.h>
#include <stdlib.h>
#include <string.h>

#if defined WIN64
enum { TARGET = FFI3_WIN64, STACK_POINTER = 4 };
#elif defined __x86_64__
enum { TARGET = FFI3_AMD64, STACK_POINTER = 4 };
#elif defined APPLE
enum { TARGET = FFI3_APPLE, STACK_POINTER = 31 };
#else
enum { TARGET = FFI3_AAPCS64, STACK_POINTER = 31 };
#endif
#ifndef PLANTED
#define PLANTED (-1) // one of the errors that are to be found; tools/check_c lists them
#endif
enum { MOST = 64, LARGEST = 4096, GUARD = 256, ABOVE = MOST * LARGEST };

extern const struct chunk *chunks;
extern int chunk_count;

// In the assembly. play_call calls with the registers of `now`, and leaves there those of the return. play_enter is
// what compiled code calls: it leaves the registers in `now`, calls entered, and returns with `now`.
void play_call(function *callee, unsigned char *frame);
void play_enter(void);
void entered(void);

long current;
struct image now;

static struct ffi3_interface interface = FFI3_NO_INTERFACE;
static struct ffi3_sizes sizes;
static unsigned char values[MOST * LARGEST], result[LARGEST], found[MOST * LARGEST];
static unsigned char area[2 * MOST * LARGEST] __attribute__((aligned(16)));
static const struct layout *arguments[MOST]; // in the order in which compiled code hands them in
static unsigned count;
static size_t at;
static unsigned char *top; // of all that a compiled caller has on the stack
static int is_wrong;
static long passed, failed;
static char line[1 << 16];
static uint64_t state = UINT64_C(88172645463325252);

static void fill(void *bytes, size_t length)
{
    unsigned char *to = bytes;
    while (length--) {
        state ^= state << 13;
        state ^= state >> 7;
        state ^= state << 17;
        *to++ = (unsigned char)(state >> 32);
    }
}

static void check(int holds, const char *what)
{
    if (holds) {
        passed++;
    } else {
        failed++;
        is_wrong = 1;
        printf("FAILED: %s: %s", what, line);
    }
}

// ---- what compiled code hands in and asks for

static size_t stride(const struct layout *layout)
{
    return (layout->size + 7u) / 8 * 8;
}

static int are_leaves(const void *value, const unsigned char *bytes, const struct layout *layout)
{
    int same = 1;
    for (unsigned k = 0; k < layout->leaves; k++)
        same &= !memcmp((const unsigned char *)value + layout->at[k], bytes + layout->at[k], layout->length[k]);
    return same;
}

static void put_leaves(void *value, const unsigned char *bytes, const struct layout *layout)
{
    fill(value, layout->size);
    for (unsigned k = 0; k < layout->leaves; k++)
        memcpy((unsigned char *)value + layout->at[k], bytes + layout->at[k], layout->length[k]);
}

void argument_in(const void *value, const struct layout *layout)
{
    check(are_leaves(value, values + at, layout), "the callee finds another argument");
    at += stride(layout);
}

void argument_out(void *value, const struct layout *layout)
{
    put_leaves(value, values + at, layout);
    arguments[count++] = layout;
    at += stride(layout);
}

void result_in(const void *value, const struct layout *layout)
{
    check(are_leaves(value, result, layout), "the caller finds another result");
}

void result_out(void *value, const struct layout *layout)
{
    put_leaves(value, result, layout);
    arguments[0] = layout;
    count = 1;
}

// ---- calls

static void call(function *callee)
{
    size_t whole = sizes.link + sizes.frame;
    unsigned char *frame = area + sizeof area - GUARD - sizes.frame, *stack = frame - sizes.link;
    struct ffi3_registers registers;
    fill(&registers, sizeof registers);
    fill(stack, whole + GUARD);
    registers.sp = (uintptr_t)stack + (PLANTED == 0 ? 16 : 0);
    check(ffi3_store(&interface, values, sizes.values, &registers, stack, whole) == FFI3_OK, "store");
    memcpy(now.general, registers.general, sizeof now.general);
    memcpy(now.floating, registers.floating, sizeof now.floating);
    at = count = 0;
    play_call(callee, frame);
    check(at == sizes.values, "the callee finds other arguments");
    if (PLANTED != 1) {
        memcpy(registers.general, now.general, sizeof now.general);
        memcpy(registers.floating, now.floating, sizeof now.floating);
    }
    registers.sp = (uintptr_t)frame;
    check(ffi3_load(&interface, &registers, frame, sizes.frame, found, sizes.result) == FFI3_OK, "load");
    check(count ? are_leaves(found, result, arguments[0]) : !sizes.result, "another result is loaded");
}

// Called in a compiled caller's call, on its stack.
void entered(void)
{
    unsigned char *stack = (unsigned char *)(uintptr_t)now.general[STACK_POINTER];
    size_t length = (size_t)(top - stack), start = 0;
    struct ffi3_registers registers;
    struct ffi3_reason reason;
    memcpy(registers.general, now.general, sizeof now.general);
    memcpy(registers.floating, now.floating, sizeof now.floating);
    registers.sp = (uintptr_t)stack;
    check((registers.sp + sizes.link) % 16 == 0, "the stack pointer at an entry");
    check(at == sizes.values, "the caller passes other arguments");
    fill(found, sizes.values);
    size_t late = PLANTED == 2 ? 8 : 0;
    uint32_t status = ffi3_collect(&interface, &registers, stack + late, length - late, found, sizes.values, &reason);
    check(status == FFI3_OK, "collect");
    for (unsigned k = 0; k < count; start += stride(arguments[k++]))
        check(are_leaves(found + start, values + start, arguments[k]), "another argument is collected");
    if (PLANTED != 3)
        check(ffi3_give(&interface, result, sizes.result, &registers, stack, length, &reason) == FFI3_OK, "give");
    check(registers.sp == (uintptr_t)stack, "the stack pointer is another");
    memcpy(now.general, registers.general, sizeof now.general);
    memcpy(now.floating, registers.floating, sizeof now.floating);
}

static void enter(void (*caller)(function *called))
{
    volatile unsigned char above[ABOVE];
    above[0] = above[ABOVE - 1] = 0;
    top = (unsigned char *)(uintptr_t)above + ABOVE;
    at = count = 0;
    caller(play_enter);
    check(!above[0], "written above the caller");
}

static void try_function(const struct entry *entry)
{
    static struct ffi3_node nodes[1 << 12];
    struct ffi3_fault fault;
    char *end = line;
    size_t number = 0;
    uint32_t fixed = (uint32_t)strtoul(line, &end, 10);
    for (char *from = end; number < sizeof nodes / sizeof *nodes; from = end) {
        uint32_t kind = (uint32_t)strtoul(from, &end, 10);
        if (end == from)
            break;
        nodes[number++] = (struct ffi3_node){kind, (uint32_t)strtoul(end, &end, 10)};
    }
    is_wrong = 0;
    check(ffi3_prepare(TARGET, nodes, number, fixed, &interface, &fault) == FFI3_OK, "prepare");
    check(ffi3_sizes(&interface, &sizes) == FFI3_OK, "sizes");
    check(sizes.values <= sizeof values && sizes.result <= sizeof result &&
              sizes.link + sizes.frame + GUARD <= sizeof area, "sizes of a call");
    fill(values, sizes.values);
    fill(result, sizeof result);
    if (!is_wrong)
        call(entry->callee);
    if (!is_wrong)
        enter(entry->caller);
}

int main(int words, char **word)
{
    FILE *file = words == 2 ? fopen(word[1], "r") : NULL;
    const struct chunk *chunk = chunks;
    int rest = 0;
    check(file != NULL, "a file of nodes");
    for (; file && chunk < chunks + chunk_count && fgets(line, sizeof line, file); current++) {
        try_function(chunk->entries + rest);
        if (++rest == chunk->count) {
            chunk++;
            rest = 0;
        }
    }
    check(chunk == chunks + chunk_count, "all functions");
    ffi3_release(&interface);
    printf("%ld passed, %ld failed\n", passed, failed);
    return failed != 0;
}
