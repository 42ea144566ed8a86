// Calls the exports of the C library in threads at once, each on a stack of 64 KiB: try_threads FILE, with one
// declaration a line.
//
// Each thread asks the same of all declarations, and must be told what one thread alone was told. Its stack is painted
// before, so that the deepest byte that a call touched is known. The last lines are 'stack N', the most bytes of stack
// that a call took, what malloc took among them, and 'N passed, M failed'.
#define _GNU_SOURCE
#include "ffi3.h"

#include <pthread.h>
#include <stdio.h>
#include <stdlib.h>
#include <string.h>
#include <sys/mman.h>
#include <unistd.h>

// A sanitizer needs more of the stack than what it looks at.
#ifndef STACK
#define STACK (64 << 10)
#endif

enum { THREADS = 8, DEPTH = 16, ARGUMENTS = 64 };
enum { LINES = 4096, PIECES = 1024, LEAVES = 4096, VALUES = 1 << 19, FRAME = 1 << 15, MOVES = 4096, PAINT = 0xA5 };

// What one thread has: nothing is shared but the texts.
struct work {
    unsigned char *stack; /* its stack, and below that a page without access */
    unsigned char *begin; /* where the stack stood when it called */
    uint64_t answers;
    struct ffi3_registers held;
    unsigned char bytes[4096]; /* of a machine's stack */
    struct ffi3_call call;
    struct ffi3_layout layout;
    struct ffi3_checked checked;
    struct ffi3_type type;
    size_t offsets[2];
    struct ffi3_arguments found;
    struct ffi3_argument each[ARGUMENTS];
    struct ffi3_result back;
    struct ffi3_piece pieces[PIECES];
    struct ffi3_leaf leaves[LEAVES];
    unsigned char values[VALUES];
    unsigned char frame[FRAME];
    struct ffi3_move moves[MOVES];
};

static char *texts[LINES];
static size_t count;
static struct ffi3_node nodes[(1 + ARGUMENTS) * (2 * DEPTH + 1)]; /* of a function, with types as deep as they may be */
static size_t nodes_of_one;                                       /* of them the result's */
static pthread_barrier_t all_there;

#ifdef PLANTED
// ffi3_place with an error that is to be found: all threads write one struct, or much of the stack is taken.
uint32_t __real_ffi3_place(uint32_t target, const char *text, size_t length, struct ffi3_call *call,
                           struct ffi3_piece *pieces, size_t capacity);

uint32_t __wrap_ffi3_place(uint32_t target, const char *text, size_t length, struct ffi3_call *call,
                           struct ffi3_piece *pieces, size_t capacity)
{
    static struct ffi3_call shared;
    volatile unsigned char deep[PLANTED == 1 ? 48 << 10 : 1];
    uint32_t status = __real_ffi3_place(target, text, length, call, pieces, capacity);
    if (PLANTED == 0) {
        shared = *call;
        *call = shared;
    }
    deep[0] = 0;
    return status + deep[0];
}
#endif

// FNV-1a over what is answered.
static void add(struct work *work, const void *from, size_t size)
{
    const unsigned char *bytes = from;
    for (size_t i = 0; i < size; i++)
        work->answers = (work->answers ^ bytes[i]) * UINT64_C(1099511628211);
}

// What was told of each argument, and the values.
static void add_each(struct work *work, uint32_t status)
{
    add(work, &status, sizeof status);
    add(work, &work->found, sizeof work->found);
    if (status == FFI3_OK) {
        add(work, work->each, work->found.arguments * sizeof *work->each);
        add(work, work->values, work->found.size);
    }
}

static void add_result(struct work *work, uint32_t status)
{
    add(work, &status, sizeof status);
    add(work, &work->back, sizeof work->back);
    if (status == FFI3_OK)
        add(work, work->values, work->back.size);
}

static void ask(struct work *work, const char *text, size_t length, uint32_t target)
{
    uint32_t told[] = {
        ffi3_place(target, text, length, &work->call, work->pieces, PIECES),
        ffi3_layout(text, length, FFI3_RESULT, &work->layout, work->leaves, LEAVES),
        ffi3_arguments(target, text, length, &work->held, work->bytes, sizeof work->bytes, &work->found, work->values,
                       VALUES),
    };
    add(work, told, sizeof told);
    add(work, &work->call, sizeof work->call);
    add(work, &work->layout, sizeof work->layout);
    add(work, work->pieces, work->call.pieces * sizeof *work->pieces);
    add(work, work->leaves, work->layout.leaves * sizeof *work->leaves);
    if (told[2] == FFI3_OK)
        add(work, work->values, work->found.size);
    uint32_t laid = ffi3_layout_for(target, text, length, FFI3_RESULT, &work->layout, work->leaves, LEAVES);
    add(work, &laid, sizeof laid);
    add(work, &work->layout, sizeof work->layout);
    add(work, work->leaves, work->layout.leaves * sizeof *work->leaves);
    if (told[0] == FFI3_NOT_DECLARED) {
        char words[64];
        add(work, words, ffi3_fault_text(&work->call.fault, words, sizeof words));
    }
    uint32_t checked = ffi3_check_text(target, text, length, &work->checked);
    add(work, &checked, sizeof checked);
    add(work, &work->checked, sizeof work->checked);
    size_t lines = ffi3_fault_lines(target, text, length, (char *)work->values, VALUES);
    add(work, work->values, lines);
    uint32_t each = ffi3_arguments_each(target, text, length, &work->held, work->bytes, sizeof work->bytes,
                                        &work->found, work->each, ARGUMENTS, work->values, VALUES);
    add_each(work, each);
    uint32_t result = ffi3_result(target, text, length, &work->held, work->bytes, sizeof work->bytes, &work->back,
                                  work->values, VALUES);
    add_result(work, result);
}

static void make_nodes(void)
{
    size_t end = 0;
    for (int value = 0; value <= ARGUMENTS; value++) {
        for (int depth = 0; depth < DEPTH; depth++)
            nodes[end++] = (struct ffi3_node){FFI3_STRUCT, 2};
        nodes[end++] = (struct ffi3_node){FFI3_DOUBLE, 0};
        for (int depth = 0; depth < DEPTH; depth++)
            nodes[end++] = (struct ffi3_node){FFI3_SINT8, 0};
        nodes_of_one = nodes_of_one ? nodes_of_one : end;
    }
}

static void ask_of_nodes(struct work *work, uint32_t target)
{
    size_t all = sizeof nodes / sizeof *nodes;
    uint32_t told[] = {
        ffi3_place_nodes(target, nodes, all, FFI3_NOT_VARIADIC, &work->call, work->pieces, PIECES),
        ffi3_layout_nodes(nodes, nodes_of_one, &work->type, work->leaves, LEAVES),
        ffi3_offsets_nodes(nodes, nodes_of_one, &work->type, work->offsets, 2),
        ffi3_check_layout(nodes, nodes_of_one, work->type.size, work->type.align, work->offsets, 2,
                          &work->layout.fault),
    };
    for (size_t i = 0; i < sizeof told / sizeof *told; i++)
        if (told[i] != FFI3_OK)
            abort();
    if (ffi3_layout_nodes_for(target, nodes, nodes_of_one, &work->type, work->leaves, LEAVES) != FFI3_OK ||
        ffi3_offsets_for(target, nodes, nodes_of_one, &work->type, work->offsets, 2) != FFI3_OK ||
        ffi3_check_for(target, nodes, nodes_of_one, work->type.size, work->type.align, work->offsets, 2,
                       &work->layout.fault) != FFI3_OK)
        abort();
    add(work, &work->call, sizeof work->call);
    add(work, work->pieces, work->call.pieces * sizeof *work->pieces);
    // All addresses are that of the first byte of the stack, but one that points past it.
    memset(work->frame, 0x10, sizeof work->frame);
    for (int far = 0; far < 2; far++) {
        struct ffi3_registers held = work->held;
        held.general[target == FFI3_RISCV ? 12 : 1] += far ? FRAME : 0;
        uint32_t each = ffi3_arguments_nodes(target, nodes, all, FFI3_NOT_VARIADIC, &held, work->frame, FRAME,
                                             &work->found, work->each, ARGUMENTS, work->values, VALUES);
        uint32_t result = ffi3_result_nodes(target, nodes, all, FFI3_NOT_VARIADIC, &held, work->frame, FRAME,
                                            &work->back, work->values, VALUES);
        int is_given_back = target == FFI3_AMD64 || target == FFI3_WIN64;
        if (each != FFI3_OK || result != (is_given_back ? FFI3_OK : FFI3_NO_ADDRESS))
            abort();
        add_each(work, each);
        add_result(work, result);
    }
}

// Values by an interface that is prepared and shared: those that are stored are collected, and a result is loaded.
static void ask_of_interface(struct work *work, uint32_t target)
{
    struct ffi3_interface first = FFI3_NO_INTERFACE, it = FFI3_NO_INTERFACE;
    struct ffi3_registers registers = work->held;
    struct ffi3_sizes sizes;
    struct ffi3_reason reason;
    unsigned char result[256];
    size_t moved = 0, all = sizeof nodes / sizeof *nodes;
    uint32_t told = ffi3_prepare(target, nodes, all, FFI3_NOT_VARIADIC, &first, &work->call.fault) |
                    ffi3_share(&first, &it) | ffi3_sizes(&it, &sizes);
    ffi3_release(&first);
    if (told || sizes.values > VALUES || sizes.link + sizes.frame > FRAME || sizes.result > sizeof result)
        abort();
    memset(work->values, 0, sizes.values);
    memset(work->frame, 0, sizeof work->frame);
    memset(result, 0, sizeof result);
    result[0] = work->values[0] = 1;
    told = ffi3_store(&it, work->values, sizes.values, &registers, work->frame, FRAME) |
           ffi3_collect(&it, &registers, work->frame, FRAME, work->values, sizes.values, &reason) |
           ffi3_give(&it, result, sizes.result, &registers, work->frame, FRAME, &reason) |
           ffi3_load(&it, &registers, work->frame + sizes.link, FRAME - sizes.link, result, sizes.result);
    if (told || result[0] != 1 || work->values[0] != 1)
        abort();
    add(work, &sizes, sizeof sizes);
    add(work, work->values, sizes.values);
    for (uint32_t list = FFI3_MOVES_TO_STORE; list <= FFI3_MOVES_OF_HIDDEN; list++) {
        if (ffi3_moves(&it, list, &moved, work->moves, MOVES) != FFI3_OK)
            abort();
        add(work, work->moves, moved * sizeof *work->moves);
    }
    ffi3_release(&it);
}

static void *ask_all(void *given)
{
    struct work *work = given;
    unsigned char here;
    work->begin = &here;
    work->answers = UINT64_C(14695981039346656037);
    pthread_barrier_wait(&all_there);
    for (uint32_t target = FFI3_AMD64; target <= FFI3_APPLE; target++) {
        ask_of_nodes(work, target);
        ask_of_interface(work, target);
        for (size_t i = 0; i < count; i++)
            ask(work, texts[i], strlen(texts[i]), target);
    }
    return NULL;
}

static struct work *new_work(void)
{
    size_t page = (size_t)sysconf(_SC_PAGESIZE);
    struct work *made = calloc(1, sizeof *made);
    unsigned char *at = mmap(NULL, STACK + page, PROT_READ | PROT_WRITE, MAP_PRIVATE | MAP_ANONYMOUS, -1, 0);
    if (!made || at == MAP_FAILED || mprotect(at, page, PROT_NONE))
        abort();
    memset(&made->held, 0x10, sizeof made->held);
    memset(made->bytes, 0x10, sizeof made->bytes);
    made->stack = memset(at + page, PAINT, STACK);
    return made;
}

static size_t touched(const struct work *work)
{
    const unsigned char *at = work->stack;
    while (at < work->begin && *at == PAINT)
        at++;
    return (size_t)(work->begin - at);
}

// Runs so many threads at once; the most stack that one took behind its begin.
static size_t run(struct work **works, unsigned threads)
{
    pthread_t ids[THREADS];
    pthread_attr_t attributes;
    size_t most = 0;
    pthread_barrier_init(&all_there, NULL, threads);
    for (unsigned i = 0; i < threads; i++) {
        pthread_attr_init(&attributes);
        if (pthread_attr_setstack(&attributes, works[i]->stack, STACK)
            || pthread_create(&ids[i], &attributes, ask_all, works[i]))
            abort();
        pthread_attr_destroy(&attributes);
    }
    for (unsigned i = 0; i < threads; i++)
        pthread_join(ids[i], NULL);
    for (unsigned i = 0; i < threads; i++)
        most = touched(works[i]) > most ? touched(works[i]) : most;
    pthread_barrier_destroy(&all_there);
    return most;
}

int main(int words, char **word)
{
    static char line[1 << 16];
    struct work *alone = new_work(), *works[THREADS];
    long passed = 0, failed = 0;
    FILE *file = words == 2 ? fopen(word[1], "r") : NULL;
    if (!file)
        return 2;
    while (count < LINES && fgets(line, sizeof line, file)) {
        line[strcspn(line, "\n")] = 0;
        texts[count++] = strdup(line);
    }
    fclose(file);
    make_nodes();
    size_t most = run(&alone, 1);
    for (unsigned i = 0; i < THREADS; i++)
        works[i] = new_work();
    size_t at_once = run(works, THREADS);
    for (unsigned i = 0; i < THREADS; i++) {
        if (works[i]->answers == alone->answers) {
            passed++;
        } else {
            failed++;
            printf("FAILED: thread %u is told something else than a thread alone\n", i);
        }
    }
    printf("stack %zu\n%ld passed, %ld failed\n", most > at_once ? most : at_once, passed, failed);
    return failed != 0;
}
