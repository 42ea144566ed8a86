// Tries the exports of the C library under the compiler's sanitizers: try_c FILE NODES. FILE has one declaration a
// line, NODES the nodes of one function: how many of its arguments are fixed, and then of each node kind and count.
//
// Each text and each array is a block of its own of the very size, so that a byte too far is found. Texts and nodes are
// whole, cut short, and with one byte or one node changed; arrays have room for nothing up to one element more than is
// wanted; and each allocation of a call is refused in turn. The last line is 'N passed, M failed'.
#include "ffi3.h"

#include <stdio.h>
#include <stdlib.h>
#include <string.h>

// The sizes that programs are linked with: none of them changes.
_Static_assert(sizeof(struct ffi3_fault) == 24 && sizeof(struct ffi3_piece) == 28, "what version 0.1 has");
_Static_assert(sizeof(struct ffi3_call) == 80 && sizeof(struct ffi3_leaf) == 16, "what version 0.1 has");
_Static_assert(sizeof(struct ffi3_layout) == 56, "what version 0.1 has");
_Static_assert(offsetof(struct ffi3_registers, upper) == 520, "what version 0.1 has");
_Static_assert(sizeof(struct ffi3_arguments) == 64, "what version 0.1 has");
_Static_assert(offsetof(struct ffi3_arguments, fault) == 40, "where version 0.1 has it");
_Static_assert(sizeof(struct ffi3_node) == 8 && sizeof(struct ffi3_type) == 72, "what version 0.2 has");
_Static_assert(sizeof(struct ffi3_checked) == 88 && offsetof(struct ffi3_checked, fault) == 64, "what version 0.2 has");
_Static_assert(sizeof(struct ffi3_argument) == 32 && sizeof(struct ffi3_result) == 56, "what version 0.2 has");
_Static_assert(sizeof(struct ffi3_interface) == 8 && sizeof(struct ffi3_sizes) == 64, "what version 0.2 has");
_Static_assert(sizeof(struct ffi3_registers) == 584, "what version 0.3 has");
_Static_assert(sizeof(struct ffi3_reason) == 24 && sizeof(struct ffi3_move) == 32, "what version 0.2 has");

static long due, counted;

void *__real_malloc(size_t size);
void *__real_realloc(void *block, size_t size);

static int is_refused(void)
{
    counted++;
    return counted == due;
}

void *__wrap_malloc(size_t size)
{
    return is_refused() ? NULL : __real_malloc(size);
}

void *__wrap_realloc(void *block, size_t size)
{
    return is_refused() ? NULL : __real_realloc(block, size);
}

#ifdef PLANTED
// ffi3_place with one of the errors that are to be found; tools/check_c lists them.
uint32_t __real_ffi3_place(uint32_t target, const char *text, size_t length, struct ffi3_call *call,
                           struct ffi3_piece *pieces, size_t capacity);

uint32_t __wrap_ffi3_place(uint32_t target, const char *text, size_t length, struct ffi3_call *call,
                           struct ffi3_piece *pieces, size_t capacity)
{
    static void *volatile kept;
    uint32_t status = __real_ffi3_place(target, text, length, call, pieces, capacity);
    if (PLANTED == 0 && status == FFI3_OK)
        pieces[capacity].part = 0;
    if (PLANTED == 1 && ((const volatile char *)text)[length] == 'x')
        call->need = 0;
    if (PLANTED == 2)
        kept = __real_malloc(8);
    if (PLANTED == 3 && status == FFI3_TOO_SMALL && capacity)
        pieces->part = 0;
    (void)kept;
    return status;
}

uint32_t __real_ffi3_place_nodes(uint32_t target, const struct ffi3_node *nodes, size_t count, uint32_t fixed,
                                 struct ffi3_call *call, struct ffi3_piece *pieces, size_t capacity);

uint32_t __wrap_ffi3_place_nodes(uint32_t target, const struct ffi3_node *nodes, size_t count, uint32_t fixed,
                                 struct ffi3_call *call, struct ffi3_piece *pieces, size_t capacity)
{
    uint32_t status = __real_ffi3_place_nodes(target, nodes, count, fixed, call, pieces, capacity);
    if (PLANTED == 4 && ((const volatile struct ffi3_node *)nodes)[count].kind == 7)
        call->need = 0;
    return status;
}
#endif

static long passed, failed;

static void check(int holds, const char *what, const char *text, size_t length)
{
    if (holds) {
        passed++;
    } else {
        failed++;
        printf("FAILED: %s: %.*s\n", what, (int)length, text);
    }
}

// A block of the very size; the pointer for none at all is that of the end of one.
static void *block(size_t size)
{
    char *made = __real_malloc(size ? size : 1);
    if (!made)
        abort();
    memset(made, 0xA5, size ? size : 1);
    return size ? made : made + 1;
}

static void release(void *made, size_t size)
{
    free(size ? made : (char *)made - 1);
}

static int is_untouched(const void *made, size_t size)
{
    const unsigned char *bytes = made;
    for (size_t i = 0; i < size; i++)
        if (bytes[i] != 0xA5)
            return 0;
    return 1;
}

static int is_right_piece(const struct ffi3_call *call, size_t i, const struct ffi3_piece *p)
{
    int part = i < call->passed ? p->part < call->arguments || p->part == FFI3_HIDDEN : p->part == FFI3_RESULT;
    int stands = p->place == FFI3_STACK      ? p->number + p->length <= call->frame
                 : p->place == FFI3_X87      ? p->number < 2 && p->length == 10 && p->part == FFI3_RESULT
                 : p->place == FFI3_FLOATING ? p->number < 32 && (p->length <= 8 || p->length == 16)
                                             : p->number < 32 && p->length <= 8;
    return part && stands && p->holds <= FFI3_ADDRESS && p->place <= FFI3_X87 && p->length
        && p->rest <= FFI3_REST_NONE;
}

static void check_fault(const struct ffi3_fault *fault, size_t longest, const char *text, size_t length)
{
    char words[64];
    size_t wanted = ffi3_fault_text(fault, words, sizeof words);
    check(fault->kind != FFI3_NO_FAULT && wanted && wanted < sizeof words && strlen(words) == wanted
              && fault->offset <= longest, "fault", text, length);
    for (size_t room = 0; room <= wanted + 1; room++) {
        char *exact = block(room);
        size_t told = ffi3_fault_text(fault, exact, room);
        check(told == wanted && (room > wanted ? !strcmp(exact, words) : is_untouched(exact, room)), "words of a fault",
              text, length);
        release(exact, room);
    }
}

// What was answered of a text or of nodes, whose faults have offsets up to the longest; they are named by a text.
static void check_call(uint32_t target, uint32_t status, const struct ffi3_call *call, const struct ffi3_piece *pieces,
                       size_t room, size_t longest, const char *text, size_t length)
{
    size_t wanted = call->pieces;
    switch (status) {
    case FFI3_OK:
        check(wanted <= room && is_untouched(pieces + wanted, (room - wanted) * sizeof *pieces),
              "pieces behind the last", text, length);
        for (size_t i = 0; i < wanted; i++) {
            char name[8];
            const struct ffi3_piece *p = pieces + i;
            size_t named = ffi3_register_name(target, p->place, p->number, name, sizeof name);
            check(is_right_piece(call, i, p) && (p->place == FFI3_STACK ? !named : named && named < sizeof name),
                  "piece", text, length);
        }
        break;
    case FFI3_TOO_SMALL:
        check(room < wanted && is_untouched(pieces, room * sizeof *pieces), "pieces with no room", text, length);
        break;
    case FFI3_NOT_DECLARED:
        check(!wanted && is_untouched(pieces, room * sizeof *pieces), "pieces of no function", text, length);
        check_fault(&call->fault, longest, text, length);
        break;
    case FFI3_OUT_OF_MEMORY:
        check(due && due <= counted && !wanted && is_untouched(pieces, room * sizeof *pieces), "want of memory", text,
              length);
        break;
    default:
        check(0, "status", text, length);
    }
}

// One call of ffi3_place with room for so many pieces; how many are wanted.
static size_t place(uint32_t target, const char *text, size_t length, size_t room)
{
    struct ffi3_call *call = block(sizeof *call);
    struct ffi3_piece *pieces = block(room * sizeof *pieces);
    uint32_t status = ffi3_place(target, text, length, call, pieces, room);
    size_t wanted = call->pieces;
    check_call(target, status, call, pieces, room, length, text, length);
    release(pieces, room * sizeof *pieces);
    free(call);
    return wanted;
}

// In place of a target: that of a layout without one.
#define NO_TARGET UINT32_MAX

static int is_right_leaf(uint32_t target, const struct ffi3_leaf *leaf, size_t size)
{
    int is_binary128 = target == FFI3_AAPCS64 || target == FFI3_RISCV;
    int is_known = leaf->kind == FFI3_LEAF_X87         ? target == FFI3_AMD64 && leaf->size == 10
                   : leaf->kind == FFI3_LEAF_BINARY128 ? is_binary128 && leaf->size == 16
                                                       : leaf->kind <= FFI3_POINTER;
    return is_known && leaf->offset + leaf->size <= size;
}

static size_t lay_out(uint32_t target, const char *text, size_t length, uint32_t value, size_t room, size_t *arguments)
{
    struct ffi3_layout *layout = block(sizeof *layout);
    struct ffi3_leaf *leaves = block(room * sizeof *leaves);
    uint32_t status = target == NO_TARGET ? ffi3_layout(text, length, value, layout, leaves, room)
                                          : ffi3_layout_for(target, text, length, value, layout, leaves, room);
    size_t wanted = layout->leaves;
    *arguments = layout->arguments;
    if (status == FFI3_OK) {
        check(wanted <= room && is_untouched(leaves + wanted, (room - wanted) * sizeof *leaves),
              "leaves behind the last", text, length);
        for (size_t i = 0; i < wanted; i++)
            check(is_right_leaf(target, leaves + i, layout->size), "leaf", text, length);
    } else if (status == FFI3_NOT_DECLARED) {
        check(!wanted && is_untouched(leaves, room * sizeof *leaves), "leaves of no function", text, length);
        if (!due)
            check_fault(&layout->fault, length, text, length);
    } else {
        check(is_untouched(leaves, room * sizeof *leaves) && (status == FFI3_TOO_SMALL ? room < wanted
              : status == FFI3_UNKNOWN_VALUE ? value >= layout->arguments && value != FFI3_RESULT
              : status == FFI3_OUT_OF_MEMORY && due), "no leaves", text, length);
    }
    release(leaves, room * sizeof *leaves);
    free(layout);
    return wanted;
}

// Kinds are told in their order, at most four, and behind them 0; what stands there is in the text.
static int is_told_place(const struct ffi3_checked *told, size_t length)
{
    int rises = told->count >= 1 && told->count <= 4;
    for (uint32_t i = 0; i < 4; i++)
        rises = rises && (i < told->count ? told->expected[i] > (i ? told->expected[i - 1] : 0)
                                                && told->expected[i] <= FFI3_EXPECTED_WORD : !told->expected[i]);
    return rises && told->fault.offset <= length && told->length <= length - told->fault.offset
        && (told->length != 0) == (told->fault.offset < length) && told->reason <= FFI3_REASON_NAMED;
}

static int is_nothing_told(const struct ffi3_checked *told)
{
    return !told->length && !told->reason && !told->count && !told->expected[0] && !told->expected[1]
        && !told->expected[2] && !told->expected[3];
}

// The lines of a fault of this kind, with no room for their end and with the very room.
static void check_lines(uint32_t target, const char *text, size_t length, uint32_t kind)
{
    size_t wanted = ffi3_fault_lines(target, text, length, NULL, 0);
    int has_place = kind == FFI3_BAD_TOKEN || kind == FFI3_UNEXPECTED || kind == FFI3_BAD_NUMBER;
    check((wanted != 0) == (kind != FFI3_NO_FAULT), "lines of a fault", text, length);
    for (size_t room = wanted; room <= wanted + 1; room++) {
        char *lines = block(room);
        size_t told = ffi3_fault_lines(target, text, length, lines, room);
        check(told == wanted && (room > wanted ? strlen(lines) == wanted : is_untouched(lines, room)), "lines", text,
              length);
        if (wanted && room > wanted)
            check(lines[wanted - 1] == '\n' && (wanted > 2 && lines[wanted - 2] == '^') == has_place
                      && (!has_place || !strncmp(lines, "at ", 3)), "last line", text, length);
        release(lines, room);
    }
}

// One call of ffi3_check_text, whose fault is that of ffi3_place.
static void check_text(uint32_t target, const char *text, size_t length)
{
    struct ffi3_checked *told = block(sizeof *told);
    struct ffi3_call *call = block(sizeof *call);
    uint32_t status = ffi3_check_text(target, text, length, told);
    long counted_there = counted, due_there = due;
    due = 0;
    uint32_t placed = ffi3_place(target, text, length, call, NULL, 0);
    due = due_there, counted = counted_there;
    if (status == FFI3_OUT_OF_MEMORY)
        check(due && due <= counted && !told->fault.kind && is_nothing_told(told), "check with no memory", text,
              length);
    else
        check((status == FFI3_NOT_DECLARED) == (placed == FFI3_NOT_DECLARED) && status <= FFI3_NOT_DECLARED
                  && !memcmp(&told->fault, &call->fault, sizeof call->fault)
                  && (told->fault.kind == FFI3_UNEXPECTED ? is_told_place(told, length) : is_nothing_told(told)),
              "check", text, length);
    if (!due)
        check_lines(target, text, length, told->fault.kind);
    check(!told->reserved[0] && !told->reserved[1] && !told->reserved[2] && !told->reserved[3], "reserved words", text,
          length);
    free(call);
    free(told);
}

// One call of ffi3_arguments over so many bytes of stack, each of which is 0x10, with room for so many bytes of values.
static struct ffi3_arguments read_arguments(uint32_t target, const char *text, size_t length, size_t deep, size_t room)
{
    struct ffi3_registers *held = block(sizeof *held);
    unsigned char *stack = block(deep), *values = block(room);
    struct ffi3_arguments *found = block(sizeof *found), told;
    memset(held, 0x10, sizeof *held);
    memset(stack, 0x10, deep);
    uint32_t status = ffi3_arguments(target, text, length, held, stack, deep, found, values, room);
    told = *found;
    switch (status) {
    case FFI3_OK:
        check(told.size <= room && told.stack <= deep && is_untouched(values + told.size, room - told.size),
              "values", text, length);
        break;
    case FFI3_TOO_SMALL:
        check(room < told.size && is_untouched(values, room), "values with no room", text, length);
        break;
    case FFI3_SHORT_STACK:
        check(deep < told.stack && is_untouched(values, room), "short stack", text, length);
        break;
    case FFI3_NOT_IN_STACK:
        check(told.argument < told.arguments && is_untouched(values, room), "address", text, length);
        break;
    case FFI3_NOT_DECLARED:
        check(!told.arguments && is_untouched(values, room), "values of no function", text, length);
        check_fault(&found->fault, length, text, length);
        break;
    default:
        check(status == FFI3_OUT_OF_MEMORY && due && due <= counted && !told.arguments && is_untouched(values, room),
              "no values", text, length);
    }
    release((char *)values, room);
    release((char *)stack, deep);
    free(found);
    free(held);
    return told;
}

// Nodes of a function; none where a text declares it.
struct nodes {
    const struct ffi3_node *at;
    size_t count;
    uint32_t fixed;
    const char *line; // from which they were read, or the text
    size_t length;
};

// One call of ffi3_arguments_each, or of ffi3_arguments_nodes: over so many bytes of stack, with room for so many
// arguments and bytes of values.
static struct ffi3_arguments read_each(uint32_t target, const struct nodes *from, size_t deep, size_t most, size_t room)
{
    const char *text = from->line;
    size_t shown = from->length;
    struct ffi3_registers *held = block(sizeof *held);
    unsigned char *stack = block(deep), *values = block(room);
    struct ffi3_argument *each = block(most * sizeof *each);
    struct ffi3_arguments *found = block(sizeof *found), told;
    memset(held, 0x10, sizeof *held);
    memset(stack, 0x10, deep);
    uint32_t status = from->at ? ffi3_arguments_nodes(target, from->at, from->count, from->fixed, held, stack, deep,
                                                      found, each, most, values, room)
                               : ffi3_arguments_each(target, text, shown, held, stack, deep, found, each, most, values,
                                                     room);
    told = *found;
    check(!told.reserved, "reserved words of arguments", text, shown);
    int has_each = told.arguments <= most, has_values = told.size <= room;
    size_t seen = 0, used = 0, at = 0;
    switch (status) {
    case FFI3_OK:
    case FFI3_TOO_SMALL:
        check((status == FFI3_OK) == (has_each && has_values) && told.stack <= deep, "room for each", text, shown);
        seen = has_each ? told.arguments : 0, used = has_values ? told.size : 0;
        for (size_t i = 0; i < seen; at += (each[i++].size + 7) / 8 * 8)
            check(each[i].offset == at && !each[i].reserved
                      && (each[i].status == FFI3_OK ? !each[i].address : each[i].status == FFI3_NOT_IN_STACK
                          && each[i].address == held->sp && deep < each[i].size), "one argument", text, shown);
        check(!has_each || at == told.size, "all arguments", text, shown);
        break;
    case FFI3_SHORT_STACK:
        check(deep < told.stack && !told.size, "short stack of each", text, shown);
        break;
    case FFI3_NOT_DECLARED:
        check(!told.arguments && told.fault.kind != FFI3_NO_FAULT, "each of no function", text, shown);
        break;
    default:
        check(status == FFI3_OUT_OF_MEMORY && due && due <= counted && !told.arguments, "none", text, shown);
    }
    check(is_untouched(each + seen, (most - seen) * sizeof *each) && is_untouched(values + used, room - used),
          "behind each", text, shown);
    release((char *)values, room);
    release((char *)stack, deep);
    release((char *)each, most * sizeof *each);
    free(found);
    free(held);
    return told;
}

// The same with less and with more stack and room than is wanted.
static void try_each(uint32_t target, const struct nodes *from)
{
    size_t deep = read_each(target, from, 0, 0, 0).stack;
    if (deep)
        read_each(target, from, deep - 1, 0, 0);
    struct ffi3_arguments all = read_each(target, from, deep, 0, 0);
    if (all.arguments)
        read_each(target, from, deep, all.arguments - 1, all.size);
    if (all.size)
        read_each(target, from, deep, all.arguments, all.size - 1);
    for (size_t more = 0; more <= 1; more++)
        read_each(target, from, deep + more, all.arguments + more, all.size + more);
}

// One call of ffi3_result, or of ffi3_result_nodes: over so many bytes of stack, to which each register points, with
// room for so many bytes of the result.
static struct ffi3_result read_result(uint32_t target, const struct nodes *from, size_t deep, size_t room)
{
    const char *text = from->line;
    size_t shown = from->length;
    struct ffi3_registers *held = block(sizeof *held);
    unsigned char *stack = block(deep), *value = block(room);
    struct ffi3_result *found = block(sizeof *found), told;
    memset(held, 0x10, sizeof *held);
    memset(stack, 0x10, deep);
    uint32_t status = from->at ? ffi3_result_nodes(target, from->at, from->count, from->fixed, held, stack, deep, found,
                                                   value, room)
                               : ffi3_result(target, text, shown, held, stack, deep, found, value, room);
    told = *found;
    switch (status) {
    case FFI3_OK:
        check(told.size <= room && is_untouched(value + told.size, room - told.size), "result", text, shown);
        break;
    case FFI3_TOO_SMALL:
        check(room < told.size && is_untouched(value, room), "result with no room", text, shown);
        break;
    case FFI3_NOT_IN_STACK:
        check(deep < told.size && told.address == held->sp && is_untouched(value, room), "buffer", text, shown);
        break;
    case FFI3_NO_ADDRESS:
        check(told.size && (target == FFI3_AAPCS64 || target == FFI3_RISCV || target == FFI3_APPLE) &&
                  is_untouched(value, room), "no address", text, shown);
        break;
    case FFI3_NOT_DECLARED:
        check(!told.size && told.fault.kind != FFI3_NO_FAULT && is_untouched(value, room), "result of no function",
              text, shown);
        break;
    default:
        check(status == FFI3_OUT_OF_MEMORY && due && due <= counted && !told.size && is_untouched(value, room),
              "no result", text, shown);
    }
    check(!told.reserved[0] && !told.reserved[1], "reserved words of a result", text, shown);
    release((char *)value, room);
    release((char *)stack, deep);
    free(found);
    free(held);
    return told;
}

// The same with less and with more stack and room than is wanted.
static void try_result(uint32_t target, const struct nodes *from)
{
    size_t size = read_result(target, from, 0, 0).size;
    for (size_t more = 0; more <= 1; more++) {
        if (size)
            read_result(target, from, size + more, size - 1);
        read_result(target, from, size + more, size + more);
        read_result(target, from, size - (size && more), size + 1);
    }
}

static const uint32_t layouts[] = {NO_TARGET, FFI3_AMD64, FFI3_AAPCS64};

// A text of the very length, as it is.
static void try_text(const char *from, size_t length, int all_rooms)
{
    char *text = block(length);
    size_t arguments, none;
    memcpy(text, from, length);
    for (uint32_t target = FFI3_AMD64; target <= FFI3_APPLE; target++) {
        size_t wanted = place(target, text, length, 0);
        for (size_t room = all_rooms ? 1 : wanted; room <= wanted + 1; room++)
            place(target, text, length, room);
        size_t deep = read_arguments(target, text, length, 0, 0).stack;
        if (deep)
            read_arguments(target, text, length, deep - 1, 0);
        size_t room = read_arguments(target, text, length, deep, 0).size;
        if (room)
            read_arguments(target, text, length, deep, room - 1);
        read_arguments(target, text, length, deep, room);
        read_arguments(target, text, length, deep + 1, room + 1);
        try_result(target, &(struct nodes){.line = text, .length = length});
        try_each(target, &(struct nodes){.line = text, .length = length});
        check_text(target, text, length);
    }
    for (size_t i = 0; i < sizeof layouts / sizeof *layouts; i++) {
        lay_out(layouts[i], text, length, FFI3_RESULT, 0, &arguments);
        for (uint32_t value = 0; value <= arguments; value++) {
            size_t wanted = lay_out(layouts[i], text, length, value, 0, &none);
            if (all_rooms && wanted)
                lay_out(layouts[i], text, length, value, wanted - 1, &none);
            lay_out(layouts[i], text, length, value, wanted, &none);
        }
    }
    release(text, length);
}

static void try_damaged(const char *line, size_t length)
{
    static const char others[] = {0, ' ', '{', '}', '[', '9', ',', '*', 'x', '.', (char)0x80, (char)0xC3};
    char *changed = block(length);
    for (size_t at = 0; at < length; at++) {
        try_text(line, at, 0);
        memcpy(changed, line, length);
        changed[at] = others[(at * 7 + length) % sizeof others];
        try_text(changed, length, 0);
    }
    release(changed, length);
}

static void try_refused(const char *line, size_t length)
{
    size_t none;
    long calls;
    do {
        due++, counted = 0;
        place((uint32_t)due % 5, line, length, 64);
        calls = counted, counted = 0;
        lay_out(NO_TARGET, line, length, FFI3_RESULT, 64, &none);
        calls = calls > counted ? calls : counted, counted = 0;
        lay_out((uint32_t)due % 5, line, length, FFI3_RESULT, 64, &none);
        calls = calls > counted ? calls : counted, counted = 0;
        read_arguments((uint32_t)due % 5, line, length, 4096, 4096);
        calls = calls > counted ? calls : counted, counted = 0;
        read_result((uint32_t)due % 5, &(struct nodes){.line = line, .length = length}, 4096, 4096);
        calls = calls > counted ? calls : counted, counted = 0;
        read_each((uint32_t)due % 5, &(struct nodes){.line = line, .length = length}, 4096, 64, 4096);
        calls = calls > counted ? calls : counted, counted = 0;
        check_text((uint32_t)due % 5, line, length);
        calls = calls > counted ? calls : counted, counted = 0;
        ffi3_fault_lines((uint32_t)due % 5, line, length, NULL, 0);
    } while (due <= (calls > counted ? calls : counted));
    due = 0;
}

// ---- nodes

static size_t place_nodes(uint32_t target, const struct nodes *from, size_t room)
{
    struct ffi3_call *call = block(sizeof *call);
    struct ffi3_piece *pieces = block(room * sizeof *pieces);
    uint32_t status = ffi3_place_nodes(target, from->at, from->count, from->fixed, call, pieces, room);
    size_t wanted = call->pieces;
    check_call(target, status, call, pieces, room, from->count, from->line, from->length);
    release(pieces, room * sizeof *pieces);
    free(call);
    return wanted;
}

// A layout is a type's own, and not with another size or fewer members. Of what is no type the same fault is told.
static void check_told(uint32_t target, const struct nodes *from, const struct ffi3_type *type, const size_t *offsets,
                       size_t members)
{
    struct ffi3_fault *fault = block(sizeof *fault);
    size_t *exact = block(members * sizeof *exact);
    memcpy(exact, offsets, members * sizeof *exact);
    check(!type->reserved[0] && !type->reserved[1], "reserved words of a type", from->line, from->length);
    for (size_t more = 0; more < 2; more++) {
        size_t size = type->size + more;
        uint32_t status =
            target == NO_TARGET
                ? ffi3_check_layout(from->at, from->count, size, type->align, exact, members, fault)
                : ffi3_check_for(target, from->at, from->count, size, type->align, exact, members, fault);
        int other = status == FFI3_NOT_DECLARED && fault->kind == FFI3_LAID_OUT_OTHERWISE && fault->number == members;
        if (type->fault.kind)
            check(due || (status == FFI3_NOT_DECLARED && fault->kind == type->fault.kind), "told layout of no type",
                  from->line, from->length);
        else if (!due)
            check(members == type->members && !more
                      ? status == FFI3_OK && !fault->kind : other, "told layout", from->line, from->length);
        else
            check(status == FFI3_OK || status == FFI3_NOT_DECLARED || status == FFI3_OUT_OF_MEMORY, "told layout",
                  from->line, from->length);
    }
    release(exact, members * sizeof *exact);
    free(fault);
}

// One call for leaves and one for offsets, with room for so many; the greater of what they want.
static size_t type_of_nodes(uint32_t target, const struct nodes *from, size_t room)
{
    struct ffi3_type *type = block(sizeof *type), *other = block(sizeof *other);
    struct ffi3_leaf *leaves = block(room * sizeof *leaves);
    size_t *offsets = block(room * sizeof *offsets), most;
    int is_any = target == NO_TARGET;
    uint32_t status = is_any ? ffi3_layout_nodes(from->at, from->count, type, leaves, room)
                             : ffi3_layout_nodes_for(target, from->at, from->count, type, leaves, room);
    uint32_t second = is_any ? ffi3_offsets_nodes(from->at, from->count, other, offsets, room)
                             : ffi3_offsets_for(target, from->at, from->count, other, offsets, room);
    most = type->leaves > type->members ? type->leaves : type->members;
    if (status == FFI3_NOT_DECLARED && !due)
        check_fault(&type->fault, from->count, from->line, from->length);
    if (!due)
        check(status == FFI3_NOT_DECLARED
                  ? second == status && !most && type->fault.kind == other->fault.kind
                  : status == (room < type->leaves ? FFI3_TOO_SMALL : FFI3_OK)
                        && second == (room < type->members ? FFI3_TOO_SMALL : FFI3_OK) && type->size == other->size
                        && type->align == other->align && type->members == other->members
                        && type->leaves == other->leaves, "type of nodes", from->line, from->length);
    check(status != FFI3_OUT_OF_MEMORY || (due && !type->size), "want of memory", from->line, from->length);
    size_t told = status == FFI3_OK ? type->leaves : 0, starts = second == FFI3_OK ? other->members : 0;
    check(is_untouched(leaves + told, (room - told) * sizeof *leaves)
              && is_untouched(offsets + starts, (room - starts) * sizeof *offsets), "behind the last", from->line,
          from->length);
    for (size_t i = 0; i < told; i++)
        check(is_right_leaf(target, leaves + i, type->size), "leaf of nodes", from->line, from->length);
    for (size_t i = 0; i < starts; i++)
        check(offsets[i] < other->size && (!i || offsets[i - 1] < offsets[i]), "offset", from->line, from->length);
    check_told(target, from, type, offsets, starts);
    release(offsets, room * sizeof *offsets);
    release(leaves, room * sizeof *leaves);
    free(other);
    free(type);
    return most;
}

// Nodes in a block of the very size: as a function's, and as a type those from each of them on.
static void try_nodes(struct nodes from, int all_rooms)
{
    struct ffi3_node *exact = block(from.count * sizeof *exact);
    memcpy(exact, from.at, from.count * sizeof *exact);
    from.at = exact;
    for (uint32_t target = FFI3_AMD64; target <= FFI3_APPLE; target++) {
        size_t wanted = place_nodes(target, &from, 0);
        for (size_t room = all_rooms ? 1 : wanted; room <= wanted + 1; room++)
            place_nodes(target, &from, room);
        try_result(target, &from);
        try_each(target, &from);
    }
    for (; from.count; from.at++, from.count--) {
        for (size_t i = 0; i < sizeof layouts / sizeof *layouts; i++) {
            size_t wanted = type_of_nodes(layouts[i], &from, 0);
            for (size_t room = all_rooms ? 1 : wanted; room <= wanted + 1; room++)
                type_of_nodes(layouts[i], &from, room);
        }
    }
    release(exact, (size_t)(from.at - exact) * sizeof *exact);
}

static void try_damaged_nodes(struct nodes from, struct ffi3_node *nodes)
{
    static const struct ffi3_node others[] = {
        {FFI3_STRUCT, 2}, {FFI3_STRUCT, 0}, {FFI3_STRUCT, UINT32_MAX}, {FFI3_ARRAY, 3}, {FFI3_ARRAY, UINT32_MAX},
        {FFI3_VOID, 0}, {FFI3_COMPLEX_FLOAT, 0}, {FFI3_LONG_DOUBLE, 0}, {FFI3_DOUBLE, 1}, {FFI3_ARRAY + 1, 0},
        {FFI3_COMPLEX_LONG_DOUBLE, 0}, {UINT32_MAX, UINT32_MAX},
    };
    size_t count = from.count;
    for (size_t at = 0; at < count; at++) {
        struct ffi3_node was = nodes[at];
        nodes[at] = others[(at * 7 + count) % (sizeof others / sizeof *others)];
        try_nodes(from, 0);
        nodes[at] = was;
        from.count = at;
        try_nodes(from, 0);
        from.count = count;
    }
}

// The nodes of the result.
static struct nodes first_type(const struct nodes *from)
{
    struct nodes first = *from;
    struct ffi3_type type;
    struct ffi3_leaf leaf;
    for (first.count = 1; first.count < from->count; first.count++)
        if (ffi3_layout_nodes(first.at, first.count, &type, &leaf, 1) != FFI3_NOT_DECLARED)
            break;
    return first;
}

static void try_nodes_refused(const struct nodes *from)
{
    long calls;
    struct nodes first = first_type(from);
    do {
        due++, counted = 0;
        place_nodes((uint32_t)due % 5, from, 64);
        calls = counted, counted = 0;
        read_result((uint32_t)due % 5, from, 4096, 4096);
        calls = calls > counted ? calls : counted, counted = 0;
        read_each((uint32_t)due % 5, from, 4096, 64, 4096);
        calls = calls > counted ? calls : counted, counted = 0;
        type_of_nodes(NO_TARGET, &first, 64);
        calls = calls > counted ? calls : counted, counted = 0;
        type_of_nodes((uint32_t)due % 5, &first, 64);
    } while (due <= (calls > counted ? calls : counted));
    due = 0;
}

static void try_line_of_nodes(const char *line)
{
    static struct ffi3_node nodes[1 << 13];
    char *end;
    struct nodes from = {nodes, 0, (uint32_t)strtoul(line, &end, 10), line, strlen(line)};
    for (const char *at = end; from.count < sizeof nodes / sizeof *nodes; at = end) {
        uint32_t kind = (uint32_t)strtoul(at, &end, 10);
        if (end == at)
            break;
        nodes[from.count++] = (struct ffi3_node){kind, (uint32_t)strtoul(end, &end, 10)};
    }
    try_nodes(from, from.count < 40);
    try_nodes_refused(&from);
    if (from.count < 40)
        try_damaged_nodes(from, nodes);
}

int main(int count, char **words)
{
    static char line[1 << 16];
    FILE *file = count == 3 ? fopen(words[1], "r") : NULL, *other = count == 3 ? fopen(words[2], "r") : NULL;
    struct ffi3_call call;
    struct ffi3_piece piece;
    struct ffi3_layout layout;
    struct ffi3_leaf leaf;
    struct ffi3_type type;
    if (!file || !other)
        return 2;
    while (fgets(line, sizeof line, other)) {
        line[strcspn(line, "\n")] = 0;
        try_line_of_nodes(line);
    }
    fclose(other);
    while (fgets(line, sizeof line, file)) {
        size_t length = strcspn(line, "\n");
        try_text(line, length, length < 400);
        try_refused(line, length);
        if (length < 400)
            try_damaged(line, length);
    }
    fclose(file);
    check(ffi3_version() == FFI3_VERSION, "version", "", 0);
    check(ffi3_place(FFI3_APPLE + 1, "void f(void)", 12, &call, &piece, 1) == FFI3_UNKNOWN_TARGET && !call.pieces,
          "target", "", 0);
    check(ffi3_layout_for(FFI3_APPLE + 1, "void f(void)", 12, 0, &layout, &leaf, 1) == FFI3_UNKNOWN_TARGET
              && ffi3_offsets_for(FFI3_APPLE + 1, NULL, 0, &type, NULL, 0) == FFI3_UNKNOWN_TARGET && !layout.size
              && ffi3_layout_nodes_for(FFI3_APPLE + 1, NULL, 0, &type, NULL, 0) == FFI3_UNKNOWN_TARGET && !type.align
              && ffi3_check_for(FFI3_APPLE + 1, NULL, 0, 0, 0, NULL, 0, &type.fault) == FFI3_UNKNOWN_TARGET,
          "target of a layout", "", 0);
    check(ffi3_register_name(FFI3_AMD64, FFI3_X87, 1, line, sizeof line) == 3 && !strcmp(line, "st1")
              && !ffi3_register_name(FFI3_AMD64, FFI3_X87, 2, line, sizeof line)
              && !ffi3_register_name(FFI3_AAPCS64, FFI3_X87, 0, line, sizeof line), "x87 registers", "", 0);
    check(!ffi3_register_name(FFI3_RISCV, FFI3_STACK, 0, line, sizeof line) && !*line, "no register", "", 0);
    printf("%ld passed, %ld failed\n", passed, failed);
    return failed != 0;
}
