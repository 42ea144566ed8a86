// Tries the exports of the C library between pages without access: try_guarded FILE NODES. The first has one
// declaration a line, the second one function a line as numbers: how many arguments are fixed, then of each node kind
// and count.
//
// Each text, each array and each struct stands once at the end of its pages and once at their start, so that the
// program is stopped at the first byte before or behind it, whoever touches it; texts, registers and stacks can only be
// read. Arrays have room for nothing up to two elements more than is wanted, and stacks any number of bytes; where that
// is nothing the pointer is NULL. Texts and nodes are whole, cut short, and with one changed. What has no room is left
// as it was, and all else is what comes where there is much room. The last lines are 'answers N', a sum of all answers,
// and 'N passed, M failed'.
#define _DEFAULT_SOURCE
#include "ffi3.h"

#include <signal.h>
#include <stdio.h>
#include <stdlib.h>
#include <string.h>
#include <sys/mman.h>
#include <unistd.h>

enum { MUCH = 1 << 19, ALL = 200, DEEP = 4096, PAINT = 0xA5 };

#ifdef PLANTED
// Exports with one of the errors that are to be found; tools/check_shipped lists them.
uint32_t __real_ffi3_place(uint32_t target, const char *text, size_t length, struct ffi3_call *call,
                           struct ffi3_piece *pieces, size_t capacity);

uint32_t __wrap_ffi3_place(uint32_t target, const char *text, size_t length, struct ffi3_call *call,
                           struct ffi3_piece *pieces, size_t capacity)
{
    const volatile char *read = text;
    uint32_t status = __real_ffi3_place(target, text, length, call, pieces, capacity);
    if (PLANTED == 0 && read[length] == 'x')
        call->need = 0;
    if (PLANTED == 1 && read[-1] == 'x')
        call->need = 0;
    if (PLANTED == 2 && length)
        *(volatile char *)(uintptr_t)text = text[0];
    if (PLANTED == 3 && !capacity && ((const volatile struct ffi3_piece *)pieces)->part == 7)
        call->need = 0;
    if (PLANTED == 4 && status == FFI3_OK)
        pieces[capacity].part = 0;
    if (PLANTED == 5 && status == FFI3_TOO_SMALL && capacity)
        pieces[capacity - 1].rest = FFI3_REST_FREE;
    return status;
}

uint32_t __real_ffi3_arguments_nodes(uint32_t target, const struct ffi3_node *nodes, size_t count, uint32_t fixed,
                                     const struct ffi3_registers *registers, const unsigned char *stack,
                                     size_t stack_length, struct ffi3_arguments *found, struct ffi3_argument *each,
                                     size_t most, unsigned char *values, size_t capacity);

uint32_t __wrap_ffi3_arguments_nodes(uint32_t target, const struct ffi3_node *nodes, size_t count, uint32_t fixed,
                                     const struct ffi3_registers *registers, const unsigned char *stack,
                                     size_t stack_length, struct ffi3_arguments *found, struct ffi3_argument *each,
                                     size_t most, unsigned char *values, size_t capacity)
{
    uint32_t status = __real_ffi3_arguments_nodes(target, nodes, count, fixed, registers, stack, stack_length, found,
                                                  each, most, values, capacity);
    if (PLANTED == 6 && status == FFI3_OK)
        each[most].status = 0;
    if (PLANTED == 7 && status == FFI3_TOO_SMALL && capacity && capacity < found->size)
        values[0] = 0;
    if (PLANTED == 8 && stack_length && ((const volatile unsigned char *)stack)[stack_length] == 7)
        found->stack = 0;
    return status;
}

uint32_t __real_ffi3_result(uint32_t target, const char *text, size_t length, const struct ffi3_registers *registers,
                            const unsigned char *stack, size_t stack_length, struct ffi3_result *found,
                            unsigned char *value, size_t capacity);

uint32_t __wrap_ffi3_result(uint32_t target, const char *text, size_t length, const struct ffi3_registers *registers,
                            const unsigned char *stack, size_t stack_length, struct ffi3_result *found,
                            unsigned char *value, size_t capacity)
{
    uint32_t status = __real_ffi3_result(target, text, length, registers, stack, stack_length, found, value, capacity);
    if (PLANTED == 9 && status == FFI3_OK && found->size)
        value[found->size] = 0;
    return status;
}
#endif

static long passed, failed;
static uint64_t answers = UINT64_C(14695981039346656037);
static char line[1 << 16];

static void check(int holds, const char *what)
{
    if (holds) {
        passed++;
    } else {
        failed++;
        printf("FAILED: %s: %s", what, line);
    }
}

static void stopped(int signal)
{
    static const char said[] = "FAILED: something outside is touched: ";
    (void)signal;
    if (write(1, said, sizeof said - 1) < 0 || write(1, line, strlen(line)) < 0)
        _exit(2);
    _exit(1);
}

// FNV-1a over what is answered.
static void add(const void *from, size_t size)
{
    const unsigned char *bytes = from;
    for (size_t i = 0; i < size; i++)
        answers = (answers ^ bytes[i]) * UINT64_C(1099511628211);
}

// Pages, and before and behind them one without access.
struct room {
    unsigned char *start, *end;
};

static struct room texts, calls, rows, arrays, registers, stacks;

static struct room make_room(size_t size)
{
    size_t page = (size_t)sysconf(_SC_PAGESIZE), whole = (size + page - 1) / page * page;
    unsigned char *at = mmap(NULL, whole + 2 * page, PROT_NONE, MAP_PRIVATE | MAP_ANONYMOUS, -1, 0);
    if (at == MAP_FAILED || mprotect(at + page, whole, PROT_READ | PROT_WRITE))
        abort();
    return (struct room){at + page, at + page + whole};
}

static void may_write(const struct room *room, int may)
{
    if (mprotect(room->start, (size_t)(room->end - room->start), may ? PROT_READ | PROT_WRITE : PROT_READ))
        abort();
}

// So many bytes of a room, at its end or at its start, all painted; NULL where there are none.
static void *place_in(const struct room *room, size_t size, int at_end)
{
    void *at = at_end ? room->end - size : room->start;
    return size ? memset(at, PAINT, size) : NULL;
}

// The same, with bytes that can only be read from now on.
static const void *lend(const struct room *room, const void *from, size_t size, int at_end)
{
    may_write(room, 1);
    void *at = place_in(room, size, at_end);
    if (size)
        memcpy(at, from, size);
    may_write(room, 0);
    return at;
}

static int is_painted(const unsigned char *bytes, size_t size)
{
    for (size_t i = 0; i < size; i++)
        if (bytes[i] != PAINT)
            return 0;
    return 1;
}

// Compares an array with what came where there was much room: `used` elements of it, if there is room for them.
static void check_array(const void *array, const void *whole, size_t size, size_t used, size_t capacity,
                        const char *what)
{
    size_t written = used <= capacity ? used * size : 0;
    const unsigned char *bytes = array;
    check((!written || !memcmp(bytes, whole, written)) && is_painted(bytes + written, capacity * size - written), what);
}

// The next number of elements that is tried, behind this one: all where few are wanted, else the first and the last.
static size_t next(size_t capacity, size_t wanted)
{
    return capacity == ALL && wanted > ALL + 4 ? wanted - 2 : capacity + 1;
}

static void try_place(uint32_t target, const char *text, size_t length, int all, int at_end)
{
    static struct ffi3_piece whole[MUCH / sizeof(struct ffi3_piece)];
    static struct ffi3_call found;
    uint32_t told = ffi3_place(target, text, length, &found, whole, sizeof whole / sizeof *whole);
    size_t wanted = found.pieces;
    add(&told, sizeof told);
    add(&found, sizeof found);
    add(whole, wanted * sizeof *whole);
    for (size_t capacity = all ? 0 : wanted; capacity <= wanted + 2; capacity = next(capacity, wanted)) {
        struct ffi3_call *call = place_in(&calls, sizeof *call, at_end);
        struct ffi3_piece *pieces = place_in(&arrays, capacity * sizeof *pieces, at_end);
        uint32_t status = ffi3_place(target, text, length, call, pieces, capacity);
        check(status == (told == FFI3_OK && capacity < wanted ? FFI3_TOO_SMALL : told)
                  && !memcmp(call, &found, sizeof found), "place");
        check_array(pieces, whole, sizeof *pieces, wanted, capacity, "pieces");
    }
}

static void try_check(uint32_t target, const char *text, size_t length, int at_end)
{
    static char lines[1 << 17];
    struct ffi3_checked *checked = place_in(&calls, sizeof *checked, at_end);
    uint32_t told = ffi3_check_text(target, text, length, checked);
    add(&told, sizeof told);
    add(checked, sizeof *checked);
    check(told == (target > FFI3_APPLE ? FFI3_UNKNOWN_TARGET : checked->fault.kind ? FFI3_NOT_DECLARED : FFI3_OK),
          "check");
    size_t wanted = ffi3_fault_lines(target, text, length, lines, sizeof lines);
    add(&wanted, sizeof wanted);
    add(lines, wanted < sizeof lines ? wanted : 0);
    for (size_t room = wanted; room <= wanted + 2 && wanted < sizeof lines; room++) {
        char *array = place_in(&arrays, room, at_end);
        check(ffi3_fault_lines(target, text, length, array, room) == wanted, "lines of a fault");
        check_array(array, lines, 1, wanted + 1, room, "lines of a fault");
    }
}

static size_t try_layout(const char *text, size_t length, uint32_t value, int all, int at_end)
{
    static struct ffi3_leaf whole[MUCH / sizeof(struct ffi3_leaf)];
    static struct ffi3_layout found;
    uint32_t told = ffi3_layout(text, length, value, &found, whole, sizeof whole / sizeof *whole);
    size_t wanted = found.leaves;
    add(&told, sizeof told);
    add(&found, sizeof found);
    add(whole, wanted * sizeof *whole);
    for (size_t capacity = all ? 0 : wanted; capacity <= wanted + 2; capacity = next(capacity, wanted)) {
        struct ffi3_layout *layout = place_in(&calls, sizeof *layout, at_end);
        struct ffi3_leaf *leaves = place_in(&arrays, capacity * sizeof *leaves, at_end);
        uint32_t status = ffi3_layout(text, length, value, layout, leaves, capacity);
        check(status == (told == FFI3_OK && capacity < wanted ? FFI3_TOO_SMALL : told)
                  && !memcmp(layout, &found, sizeof found), "layout");
        check_array(leaves, whole, sizeof *leaves, wanted, capacity, "leaves");
        uint32_t same = ffi3_layout_for(FFI3_AMD64, text, length, value, layout, leaves, capacity);
        check(told != FFI3_OK || same == status, "layout for a target");
    }
    return found.arguments;
}

// A number that is the same on each machine.
static uint64_t drawn(void)
{
    static uint64_t state = 1;
    state ^= state << 13, state ^= state >> 7, state ^= state << 17;
    return state;
}

// Addresses around the ends of so many bytes from sp on, and among them, and now and then any number.
static uint64_t address_near(uint64_t sp, size_t deep)
{
    uint64_t number = drawn();
    return number % 16 == 0 ? number : sp + (number >> 8) % (deep + 16) - 8;
}

static void add_found(uint32_t status, const struct ffi3_arguments *found)
{
    uint64_t row[] = {status, found->arguments, found->size, found->stack, found->address, found->argument,
                      found->fault.kind, found->fault.offset};
    add(row, sizeof row);
}

// Of registers what a program hands in that was compiled with a version before 0.3. No text here has a long double, so
// that no more of them is read or written.
#define AS_BEFORE offsetof(struct ffi3_registers, upper)

// The same of nodes: all of the registers where there is a long double, which such a program could not call.
static size_t registers_for(const struct ffi3_node *nodes, size_t count)
{
    for (size_t i = 0; i < count; i++)
        if (nodes[i].kind == FFI3_LONG_DOUBLE || nodes[i].kind == FFI3_COMPLEX_LONG_DOUBLE)
            return sizeof(struct ffi3_registers);
    return AS_BEFORE;
}

// A machine whose registers and memory have such addresses; its stack is memory from its start on.
static struct ffi3_registers machine;
static unsigned char memory[1 << 16];

static void draw_machine(void)
{
    machine.sp = UINT64_C(0x7FFF00001000);
    for (size_t i = 0; i < 32; i++)
        machine.general[i] = address_near(machine.sp, DEEP), machine.floating[i] = drawn();
    for (size_t i = 0; i < sizeof memory; i += 8) {
        uint64_t word = address_near(machine.sp, DEEP);
        memcpy(memory + i, &word, 8);
    }
}

static void try_arguments(uint32_t target, const char *text, size_t length, int all, int at_end)
{
    static unsigned char whole[MUCH];
    static struct ffi3_arguments found;
    draw_machine();
    const struct ffi3_registers *lent = lend(&registers, &machine, AS_BEFORE, at_end);
    uint32_t is = ffi3_arguments(target, text, length, lent, memory, sizeof memory, &found, whole, sizeof whole);
    size_t least = found.stack, room = is == FFI3_OK ? found.size : 64;
    for (size_t there = all ? 0 : least; there <= least + 2; there = next(there, least)) {
        const unsigned char *stack = lend(&stacks, memory, there, at_end);
        struct ffi3_arguments *told = place_in(&calls, sizeof *told, at_end);
        unsigned char *values = place_in(&arrays, room, at_end);
        uint32_t status = ffi3_arguments(target, text, length, lent, stack, there, told, values, room);
        add_found(status, told);
        check(status == FFI3_OK ? is == FFI3_OK && told->size == room : is_painted(values, room), "arguments");
        check((status == FFI3_SHORT_STACK) == (told->stack > there), "short stack");
    }
    const unsigned char *stack = lend(&stacks, memory, DEEP, at_end);
    is = ffi3_arguments(target, text, length, lent, stack, DEEP, &found, whole, sizeof whole);
    size_t wanted = is == FFI3_OK ? found.size : 0;
    add(whole, wanted);
    for (size_t capacity = all ? 0 : wanted; capacity <= wanted + 2; capacity = next(capacity, wanted)) {
        struct ffi3_arguments *told = place_in(&calls, sizeof *told, at_end);
        unsigned char *values = place_in(&arrays, capacity, at_end);
        uint32_t status = ffi3_arguments(target, text, length, lent, stack, DEEP, told, values, capacity);
        check(status == (is == FFI3_OK && capacity < wanted ? FFI3_TOO_SMALL : is) && told->size == found.size
                  && told->stack == found.stack && told->address == found.address, "arguments with less room");
        check_array(values, whole, 1, wanted, capacity, "values");
    }
}

// What declares the function of a call: a text, or nodes.
struct function {
    int has_text;
    const char *text;
    const struct ffi3_node *nodes;
    size_t length; // of either
    uint32_t fixed;
};

static size_t registers_of(const struct function *of)
{
    return of->has_text ? AS_BEFORE : registers_for(of->nodes, of->length);
}

static uint32_t each_of(const struct function *of, uint32_t target, const struct ffi3_registers *lent,
                        const unsigned char *stack, size_t there, struct ffi3_arguments *told,
                        struct ffi3_argument *each, size_t most, unsigned char *values, size_t capacity)
{
    return of->has_text ? ffi3_arguments_each(target, of->text, of->length, lent, stack, there, told, each, most,
                                              values, capacity)
                        : ffi3_arguments_nodes(target, of->nodes, of->length, of->fixed, lent, stack, there, told,
                                               each, most, values, capacity);
}

static uint32_t result_of(const struct function *of, uint32_t target, const struct ffi3_registers *lent,
                          const unsigned char *stack, size_t there, struct ffi3_result *told, unsigned char *value,
                          size_t capacity)
{
    return of->has_text ? ffi3_result(target, of->text, of->length, lent, stack, there, told, value, capacity)
                        : ffi3_result_nodes(target, of->nodes, of->length, of->fixed, lent, stack, there, told, value,
                                            capacity);
}

// Each argument of its own, with so many elements and so many bytes for values, beside what came with much room.
static void try_rooms(const struct function *of, uint32_t target, const struct ffi3_registers *lent,
                      const unsigned char *stack, size_t most, size_t capacity, int at_end)
{
    static struct ffi3_argument whole[ALL];
    static unsigned char bytes_of_all[MUCH];
    static struct ffi3_arguments found;
    uint32_t is = each_of(of, target, lent, stack, DEEP, &found, whole, ALL, bytes_of_all, sizeof bytes_of_all);
    size_t count = is == FFI3_OK ? found.arguments : 0, size = is == FFI3_OK ? found.size : 0;
    struct ffi3_arguments *told = place_in(&calls, sizeof *told, at_end);
    struct ffi3_argument *each = place_in(&rows, most * sizeof *each, at_end);
    unsigned char *values = place_in(&arrays, capacity, at_end);
    uint32_t status = each_of(of, target, lent, stack, DEEP, told, each, most, values, capacity);
    check(status == (most < count || capacity < size ? FFI3_TOO_SMALL : is) && !memcmp(told, &found, sizeof found),
          "each argument with less room");
    check_array(each, whole, sizeof *each, count, most, "what is told of each argument");
    check_array(values, bytes_of_all, 1, size, capacity, "values of each argument");
}

static void try_each(const struct function *of, uint32_t target, int all, int at_end)
{
    static struct ffi3_argument whole[ALL];
    static unsigned char values_of_all[MUCH];
    static struct ffi3_arguments found;
    draw_machine();
    const struct ffi3_registers *lent = lend(&registers, &machine, registers_of(of), at_end);
    uint32_t is = each_of(of, target, lent, memory, sizeof memory, &found, whole, ALL, values_of_all,
                          sizeof values_of_all);
    size_t least = found.stack, count = found.arguments, size = found.size;
    add_found(is, &found);
    if (is == FFI3_OK) {
        add(whole, count * sizeof *whole);
        add(values_of_all, size);
    }
    for (size_t there = all ? 0 : least; there <= least + 2 && there <= sizeof memory; there = next(there, least)) {
        const unsigned char *stack = lend(&stacks, memory, there, at_end);
        struct ffi3_arguments *told = place_in(&calls, sizeof *told, at_end);
        struct ffi3_argument *each = place_in(&rows, count * sizeof *each, at_end);
        unsigned char *values = place_in(&arrays, size, at_end);
        uint32_t status = each_of(of, target, lent, stack, there, told, each, count, values, size);
        check(status == (is == FFI3_OK && there < least ? FFI3_SHORT_STACK : is) && told->stack == least,
              "each argument");
        for (size_t i = 0; i < count; i++) {
            uint64_t from = status == FFI3_OK ? each[i].address - machine.sp : 0;
            int is_right = status != FFI3_OK ? is_painted((unsigned char *)&each[i], sizeof *each)
                           : each[i].status == FFI3_OK ? !each[i].address
                           : each[i].status == FFI3_NOT_IN_STACK && (from > there || there - from < each[i].size);
            check(is_right && (status != FFI3_OK || (each[i].offset == whole[i].offset && !each[i].reserved)),
                  "an argument by itself");
        }
        check(status == FFI3_OK || is_painted(values, size), "values that are not told");
    }
    const unsigned char *stack = lend(&stacks, memory, DEEP, at_end);
    for (size_t most = all ? 0 : count; most <= count + 1; most++)
        try_rooms(of, target, lent, stack, most, size, at_end);
    for (size_t capacity = all ? 0 : size; capacity <= size + 2; capacity = next(capacity, size))
        try_rooms(of, target, lent, stack, capacity % 2 ? count : 0, capacity, at_end);
}

static void try_result(const struct function *of, uint32_t target, int all, int at_end)
{
    static unsigned char whole[MUCH];
    static struct ffi3_result found;
    draw_machine();
    const struct ffi3_registers *lent = lend(&registers, &machine, registers_of(of), at_end);
    const unsigned char *stack = lend(&stacks, memory, DEEP, at_end);
    uint32_t is = result_of(of, target, lent, stack, DEEP, &found, whole, sizeof whole);
    size_t wanted = is == FFI3_OK ? found.size : 0;
    add(&is, sizeof is);
    add(&found, sizeof found);
    add(whole, wanted);
    for (size_t capacity = all ? 0 : wanted; capacity <= wanted + 2; capacity = next(capacity, wanted)) {
        struct ffi3_result *told = place_in(&calls, sizeof *told, at_end);
        unsigned char *value = place_in(&arrays, capacity, at_end);
        uint32_t status = result_of(of, target, lent, stack, DEEP, told, value, capacity);
        check(status == (capacity < wanted ? FFI3_TOO_SMALL : is) && !memcmp(told, &found, sizeof found),
              "a result with less room");
        check_array(value, whole, 1, wanted, capacity, "a result");
    }
    for (size_t there = 0; there < DEEP; there += all ? 511 : DEEP) {
        const unsigned char *less = lend(&stacks, memory, there, at_end);
        struct ffi3_result *told = place_in(&calls, sizeof *told, at_end);
        unsigned char *value = place_in(&arrays, wanted, at_end);
        uint32_t status = result_of(of, target, lent, less, there, told, value, wanted);
        check((status == is || (is == FFI3_OK && status == FFI3_NOT_IN_STACK)) && told->size == found.size,
              "a result with less stack");
        check_array(value, whole, 1, status == FFI3_OK ? wanted : wanted + 1, wanted, "a result with less stack");
    }
}

static void try_text(const char *from, size_t length, int all)
{
    for (int at_end = 0; at_end < 2; at_end++) {
        const char *text = lend(&texts, from, length, at_end);
        for (uint32_t target = FFI3_AMD64; target <= FFI3_APPLE + 1; target++) {
            try_place(target, text, length, all, at_end);
            try_check(target, text, length, at_end);
            try_arguments(target, text, length, all, at_end);
            const struct function of = {1, text, NULL, length, 0};
            try_each(&of, target, all, at_end);
            try_result(&of, target, all, at_end);
        }
        size_t arguments = try_layout(text, length, FFI3_RESULT, all, at_end);
        for (uint32_t value = 0; value <= arguments; value++)
            try_layout(text, length, value, all, at_end);
    }
}

static void try_damaged(size_t length)
{
    static const char others[] = {0, ' ', '{', '}', '[', '9', ',', '*', 'x', '.', (char)0x80, (char)0xC3};
    static char changed[sizeof line];
    for (size_t at = 0; at < length; at++) {
        try_text(line, at, 0);
        memcpy(changed, line, length);
        changed[at] = others[(at * 5 + length) % sizeof others];
        try_text(changed, length, 0);
    }
}

// ---- nodes

static void try_place_nodes(uint32_t target, const struct ffi3_node *nodes, size_t count, uint32_t fixed, int all,
                            int at_end)
{
    static struct ffi3_piece whole[MUCH / sizeof(struct ffi3_piece)];
    static struct ffi3_call found;
    uint32_t told = ffi3_place_nodes(target, nodes, count, fixed, &found, whole, sizeof whole / sizeof *whole);
    size_t wanted = found.pieces;
    add(&told, sizeof told);
    add(&found, sizeof found);
    add(whole, wanted * sizeof *whole);
    for (size_t capacity = all ? 0 : wanted; capacity <= wanted + 2; capacity = next(capacity, wanted)) {
        struct ffi3_call *call = place_in(&calls, sizeof *call, at_end);
        struct ffi3_piece *pieces = place_in(&arrays, capacity * sizeof *pieces, at_end);
        uint32_t status = ffi3_place_nodes(target, nodes, count, fixed, call, pieces, capacity);
        check(status == (told == FFI3_OK && capacity < wanted ? FFI3_TOO_SMALL : told)
                  && !memcmp(call, &found, sizeof found), "place of nodes");
        check_array(pieces, whole, sizeof *pieces, wanted, capacity, "pieces of nodes");
    }
}

static void try_type(const struct ffi3_node *nodes, size_t count, int all, int at_end)
{
    static struct ffi3_leaf leaves[MUCH / sizeof(struct ffi3_leaf)];
    static size_t offsets[MUCH / sizeof(size_t)];
    static struct ffi3_type found, other;
    struct ffi3_fault fault;
    uint32_t told = ffi3_layout_nodes(nodes, count, &found, leaves, sizeof leaves / sizeof *leaves);
    uint32_t second = ffi3_offsets_nodes(nodes, count, &other, offsets, sizeof offsets / sizeof *offsets);
    check(told == second && !memcmp(&found, &other, sizeof found), "leaves and offsets");
    add(&told, sizeof told);
    add(&found, sizeof found);
    add(leaves, found.leaves * sizeof *leaves);
    add(offsets, found.members * sizeof *offsets);
    for (size_t capacity = all ? 0 : found.leaves; capacity <= found.leaves + 2;
         capacity = next(capacity, found.leaves)) {
        struct ffi3_type *type = place_in(&calls, sizeof *type, at_end);
        struct ffi3_leaf *room = place_in(&arrays, capacity * sizeof *room, at_end);
        uint32_t status = ffi3_layout_nodes(nodes, count, type, room, capacity);
        check(status == (told == FFI3_OK && capacity < found.leaves ? FFI3_TOO_SMALL : told)
                  && !memcmp(type, &found, sizeof found), "type of nodes");
        check_array(room, leaves, sizeof *room, found.leaves, capacity, "leaves of nodes");
        uint32_t same = ffi3_layout_nodes_for(FFI3_AMD64, nodes, count, type, room, capacity);
        check(told != FFI3_OK || same == status, "type of nodes for a target");
    }
    for (size_t capacity = all ? 0 : found.members; capacity <= found.members + 2;
         capacity = next(capacity, found.members)) {
        struct ffi3_type *type = place_in(&calls, sizeof *type, at_end);
        size_t *room = place_in(&arrays, capacity * sizeof *room, at_end);
        uint32_t status = ffi3_offsets_nodes(nodes, count, type, room, capacity);
        check(status == (told == FFI3_OK && capacity < found.members ? FFI3_TOO_SMALL : told)
                  && !memcmp(type, &found, sizeof found), "type of nodes");
        check_array(room, offsets, sizeof *room, found.members, capacity, "offsets of nodes");
        uint32_t same = ffi3_offsets_for(FFI3_AMD64, nodes, count, type, room, capacity);
        check(told != FFI3_OK || same == status, "offsets for a target");
    }
    for (size_t members = 0; members <= found.members && members < ALL; members++) {
        const size_t *lent = lend(&registers, offsets, members * sizeof *offsets, at_end);
        uint32_t status = ffi3_check_layout(nodes, count, found.size, found.align, lent, members, &fault);
        check(status == (members < found.members ? FFI3_NOT_DECLARED : told), "a layout that is told");
        uint32_t same = ffi3_check_for(FFI3_AMD64, nodes, count, found.size, found.align, lent, members, &fault);
        check(told != FFI3_OK || same == status, "a layout that is told for a target");
    }
}

// A call by an interface, and its moves, in arrays of any size.
static void try_interface(uint32_t target, const struct ffi3_node *nodes, size_t count, uint32_t fixed, int at_end)
{
    static unsigned char bytes[sizeof line], result[1 << 13];
    static struct ffi3_move whole[MUCH / sizeof(struct ffi3_move)];
    struct ffi3_registers none = {.sp = 0};
    const size_t size = registers_for(nodes, count); // before something else is lent where the nodes are
    may_write(&registers, 1);
    may_write(&stacks, 1);
    struct ffi3_interface *it = memset(place_in(&calls, sizeof *it, at_end), 0, sizeof *it);
    struct ffi3_fault *fault = place_in(&arrays, sizeof *fault, at_end);
    struct ffi3_sizes sizes;
    uint32_t told = ffi3_prepare(target, nodes, count, fixed, it, fault);
    add(&told, sizeof told);
    add(fault, sizeof *fault);
    check((told == FFI3_OK) == (it->kept != NULL), "an interface is kept");
    uint32_t asked = ffi3_sizes(it, &sizes);
    add(&sizes, sizeof sizes);
    check(asked == (told == FFI3_OK ? FFI3_OK : FFI3_NOT_PREPARED), "sizes of an interface");
    for (uint32_t list = FFI3_MOVES_TO_STORE; asked == FFI3_OK && list <= FFI3_MOVES_OF_HIDDEN; list++) {
        size_t wanted = 0;
        ffi3_moves(it, list, &wanted, whole, sizeof whole / sizeof *whole);
        add(whole, wanted * sizeof *whole);
        for (size_t room = wanted ? wanted - 1 : 0; room <= wanted + 1; room++) {
            size_t *number = place_in(&registers, sizeof *number, at_end);
            struct ffi3_move *moves = place_in(&arrays, room * sizeof *moves, at_end);
            uint32_t status = ffi3_moves(it, list, number, moves, room);
            check(*number == wanted && status == (room < wanted ? FFI3_TOO_SMALL : FFI3_OK), "moves");
            check_array(moves, whole, sizeof *moves, wanted, room, "moves");
        }
    }
    size_t frame = sizes.link + sizes.frame;
    if (asked == FFI3_OK && sizes.values < sizeof bytes && sizes.result < sizeof result && frame <= 1 << 16) {
        const unsigned char *values = lend(&texts, bytes, sizes.values, at_end);
        unsigned char *stack = place_in(&stacks, frame, at_end);
        struct ffi3_registers *held = memcpy(place_in(&registers, size, at_end), &none, size);
        check(ffi3_store(it, values, sizes.values, held, stack, frame) == FFI3_OK, "store");
        add(held, size);
        add(stack, frame);
        unsigned char *found = place_in(&arrays, sizes.values, at_end);
        struct ffi3_reason reason;
        check(ffi3_collect(it, held, stack, frame, found, sizes.values, &reason) == FFI3_OK &&
                  (!sizes.values || !memcmp(found, bytes, sizes.values)), "collect");
        const unsigned char *given = lend(&texts, result, sizes.result, at_end);
        check(ffi3_give(it, given, sizes.result, held, stack, frame, &reason) == FFI3_OK, "give");
        found = place_in(&arrays, sizes.result, at_end);
        unsigned char *left = sizes.frame ? stack + sizes.link : NULL;
        check(ffi3_load(it, held, left, sizes.frame, found, sizes.result) == FFI3_OK &&
                  (!sizes.result || !memcmp(found, result, sizes.result)), "load");
    }
    ffi3_release(it);
    check(!it->kept, "an interface is released");
}

// Nodes as those of a function, and those from each of them on as a type.
static void try_nodes(const struct ffi3_node *from, size_t count, uint32_t fixed, int all)
{
    for (int at_end = 0; at_end < 2; at_end++) {
        const struct ffi3_node *nodes = lend(&texts, from, count * sizeof *from, at_end);
        for (uint32_t target = FFI3_AMD64; target <= FFI3_APPLE + 1; target++) {
            try_place_nodes(target, nodes, count, fixed, all, at_end);
            const struct function of = {0, NULL, nodes, count, fixed};
            try_each(&of, target, all, at_end);
            try_result(&of, target, all, at_end);
        }
        for (size_t at = 0; at < count; at++)
            try_type(nodes + at, count - at, all, at_end);
        for (uint32_t target = FFI3_AMD64; target <= FFI3_APPLE + 1; target++) {
            const struct ffi3_node *again = lend(&texts, from, count * sizeof *from, at_end);
            try_interface(target, again, count, fixed, at_end);
        }
    }
}

static void try_damaged_nodes(struct ffi3_node *nodes, size_t count, uint32_t fixed)
{
    for (size_t at = 0; at < count; at++) {
        struct ffi3_node was = nodes[at];
        uint64_t number = drawn();
        try_nodes(nodes, at, fixed, 0);
        nodes[at].kind = number % 8 ? (uint32_t)(number >> 8) % (FFI3_ARRAY + 2) : (uint32_t)(number >> 8);
        nodes[at].count = number % 4 ? (uint32_t)(number >> 40) % 4 : (uint32_t)(number >> 32);
        try_nodes(nodes, count, fixed, 0);
        try_nodes(nodes, count, (uint32_t)at, 0);
        nodes[at] = was;
    }
}

static void try_line_of_nodes(void)
{
    static struct ffi3_node nodes[1 << 12];
    char *end;
    size_t count = 0;
    uint32_t fixed = (uint32_t)strtoul(line, &end, 10);
    for (const char *at = end; count < sizeof nodes / sizeof *nodes; at = end) {
        uint32_t kind = (uint32_t)strtoul(at, &end, 10);
        if (end == at)
            break;
        nodes[count++] = (struct ffi3_node){kind, (uint32_t)strtoul(end, &end, 10)};
    }
    try_nodes(nodes, count, fixed, count < 40);
    if (count < 40)
        try_damaged_nodes(nodes, count, fixed);
}

// Names of registers and words of faults with each room, where NULL stands for none.
static void try_names(void)
{
    struct ffi3_fault fault = {FFI3_TOO_LARGE, 0, 0, 5000};
    char words[64], name[8];
    for (int at_end = 0; at_end < 2; at_end++) {
        const struct ffi3_fault *lent = lend(&registers, &fault, sizeof fault, at_end);
        size_t wanted = ffi3_fault_text(lent, words, sizeof words);
        for (size_t room = 0; room <= wanted + 2; room++) {
            char *text = place_in(&arrays, room, at_end);
            check(ffi3_fault_text(lent, text, room) == wanted, "words of a fault");
            check_array(text, words, 1, wanted + 1, room, "words of a fault");
        }
        wanted = ffi3_register_name(FFI3_RISCV, FFI3_FLOATING, 10, name, sizeof name);
        for (size_t room = 0; room <= wanted + 2; room++) {
            char *text = place_in(&arrays, room, at_end);
            check(ffi3_register_name(FFI3_RISCV, FFI3_FLOATING, 10, text, room) == wanted, "name of a register");
            check_array(text, name, 1, wanted + 1, room, "name of a register");
        }
    }
}

int main(int count, char **words)
{
    FILE *file = count == 3 ? fopen(words[1], "r") : NULL, *other = count == 3 ? fopen(words[2], "r") : NULL;
    struct sigaction action = {.sa_handler = stopped};
    if (!file || !other || sigaction(SIGSEGV, &action, NULL) || sigaction(SIGBUS, &action, NULL))
        return 2;
    texts = make_room(sizeof line);
    calls = make_room(4096);
    rows = make_room(ALL * sizeof(struct ffi3_argument));
    arrays = make_room(MUCH);
    registers = make_room(4096);
    stacks = make_room(1 << 16);
    try_text("", 0, 1);
    try_names();
    while (fgets(line, sizeof line, file)) {
        size_t length = strcspn(line, "\n");
        try_text(line, length, length < 400);
        if (length < 200)
            try_damaged(length);
    }
    fclose(file);
    try_nodes(NULL, 0, FFI3_NOT_VARIADIC, 1);
    while (fgets(line, sizeof line, other))
        try_line_of_nodes();
    fclose(other);
    printf("answers %016llx\n%ld passed, %ld failed\n", (unsigned long long)answers, passed, failed);
    return failed != 0;
}
