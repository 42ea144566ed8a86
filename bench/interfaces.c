/* Times the exports of the C library on one function, for AMD64: interfaces DECLARATION FIXED KIND COUNT KIND COUNT ..,
   with its declaration and its nodes. Writes a line an export: nanoseconds of one call, the best of a few rounds, and
   the export's name. With PREPARED defined it only prepares, so many times. */
#include <ffi3.h>

#include <stdio.h>
#include <stdlib.h>
#include <string.h>
#include <time.h>

enum { ROUNDS = 15, CALLS = 1000, MOST = 256 };

static const char *text;
static size_t length, count;
static uint32_t fixed;
static struct ffi3_node nodes[MOST];
static struct ffi3_interface interface = FFI3_NO_INTERFACE, other = FFI3_NO_INTERFACE;
static struct ffi3_sizes sizes;
static struct ffi3_fault fault;
static struct ffi3_call whole;
static struct ffi3_piece pieces[MOST];
static struct ffi3_layout layout;
static struct ffi3_checked checked;
static struct ffi3_type type;
static struct ffi3_leaf leaves[MOST];
static size_t offsets[MOST];
static struct ffi3_registers registers;
static struct ffi3_arguments found;
static struct ffi3_reason reason;
static struct ffi3_move moves[MOST];
static unsigned char values[1 << 12], result[1 << 12], stack[1 << 13];
static char name[64], lines[256];

static void must(int holds, const char *what)
{
    if (!holds) {
        fprintf(stderr, "interfaces: %s\n", what);
        exit(1);
    }
}

/* Counted by its name in bench/interfaces. */
__attribute__((noinline, noclone)) void prepare_once(void)
{
    must(ffi3_prepare(FFI3_AMD64, nodes, count, fixed, &interface, &fault) == FFI3_OK, "prepare");
}

static void prepare(void)
{
    prepare_once();
    ffi3_release(&interface);
}

static void share(void)
{
    must(ffi3_share(&interface, &other) == FFI3_OK, "share");
    ffi3_release(&other);
}

static void tell_sizes(void)
{
    must(ffi3_sizes(&interface, &sizes) == FFI3_OK, "sizes");
}

static void store(void)
{
    must(ffi3_store(&interface, values, sizes.values, &registers, stack, sizes.link + sizes.frame) == FFI3_OK, "store");
}

static void load(void)
{
    must(ffi3_load(&interface, &registers, stack + sizes.link, sizes.frame, result, sizes.result) == FFI3_OK, "load");
}

static void collect(void)
{
    must(ffi3_collect(&interface, &registers, stack, sizes.link + sizes.frame, values, sizes.values, &reason) ==
             FFI3_OK, "collect");
}

static void give(void)
{
    must(ffi3_give(&interface, result, sizes.result, &registers, stack, sizes.link + sizes.frame, &reason) == FFI3_OK,
         "give");
}

static void tell_moves(void)
{
    size_t told;
    for (uint32_t list = FFI3_MOVES_TO_STORE; list <= FFI3_MOVES_OF_HIDDEN; list++)
        must(ffi3_moves(&interface, list, &told, moves, MOST) == FFI3_OK, "moves");
}

static void place(void)
{
    must(ffi3_place(FFI3_AMD64, text, length, &whole, pieces, MOST) == FFI3_OK, "place");
}

static void place_nodes(void)
{
    must(ffi3_place_nodes(FFI3_AMD64, nodes, count, fixed, &whole, pieces, MOST) == FFI3_OK, "place_nodes");
}

static void lay_out(void)
{
    must(ffi3_layout(text, length, FFI3_RESULT, &layout, leaves, MOST) == FFI3_OK, "layout");
}

static void layout_for(void)
{
    must(ffi3_layout_for(FFI3_AMD64, text, length, FFI3_RESULT, &layout, leaves, MOST) == FFI3_OK, "layout_for");
}

/* How many nodes the result has: none but the first where it is a scalar. */
static size_t of_result(void)
{
    return nodes[0].kind == FFI3_STRUCT ? nodes[0].count + 1 : 1;
}

static void layout_nodes(void)
{
    must(ffi3_layout_nodes(nodes, of_result(), &type, leaves, MOST) == FFI3_OK, "layout_nodes");
}

static void offsets_nodes(void)
{
    must(ffi3_offsets_nodes(nodes, of_result(), &type, offsets, MOST) == FFI3_OK, "offsets_nodes");
}

static void check_layout(void)
{
    must(ffi3_check_layout(nodes, of_result(), type.size, type.align, offsets, type.members, &fault) == FFI3_OK,
         "check_layout");
}

static void layout_nodes_for(void)
{
    must(ffi3_layout_nodes_for(FFI3_AMD64, nodes, of_result(), &type, leaves, MOST) == FFI3_OK, "layout_nodes_for");
}

static void offsets_for(void)
{
    must(ffi3_offsets_for(FFI3_AMD64, nodes, of_result(), &type, offsets, MOST) == FFI3_OK, "offsets_for");
}

static void check_for(void)
{
    must(ffi3_check_for(FFI3_AMD64, nodes, of_result(), type.size, type.align, offsets, type.members, &fault) ==
             FFI3_OK, "check_for");
}

static void arguments(void)
{
    must(ffi3_arguments(FFI3_AMD64, text, length, &registers, stack, sizes.link + sizes.frame, &found, values,
                        sizeof values) == FFI3_OK, "arguments");
}

static void check_text(void)
{
    must(ffi3_check_text(FFI3_AMD64, text, length, &checked) == FFI3_OK, "check_text");
}

static void tell_lines(void)
{
    must(ffi3_fault_lines(FFI3_AMD64, "int f(int x y)", 14, lines, sizeof lines) != 0, "fault_lines");
}

static void tell_fault(void)
{
    struct ffi3_fault bad = {FFI3_BAD_TOKEN, 0, 8, 0};
    must(ffi3_fault_text(&bad, name, sizeof name) != 0, "fault_text");
}

static void register_name(void)
{
    must(ffi3_register_name(FFI3_AMD64, FFI3_GENERAL, 7, name, sizeof name) == 3, "register_name");
}

static double now(void)
{
    struct timespec time;
    clock_gettime(CLOCK_MONOTONIC, &time);
    return (double)time.tv_sec * 1e9 + (double)time.tv_nsec;
}

static void tell(const char *what, void (*call)(void))
{
    double best = 0;
    for (int round = 0; round < ROUNDS; round++) {
        double start = now();
        for (int k = 0; k < CALLS; k++)
            call();
        double taken = now() - start;
        if (!round || taken < best)
            best = taken;
    }
    printf("%.0f %s\n", best / CALLS, what);
}

int main(int number, char **words)
{
    must(number >= 5 && number % 2 && number <= 2 * MOST, "no nodes");
    text = words[1];
    length = strlen(text);
    fixed = (uint32_t)strtoul(words[2], NULL, 10);
    for (int k = 3; k < number; k += 2)
        nodes[count++] = (struct ffi3_node){(uint32_t)strtoul(words[k], NULL, 10),
                                            (uint32_t)strtoul(words[k + 1], NULL, 10)};
#ifdef PREPARED
    for (int k = 0; k < PREPARED; k++)
        prepare();
    return 0;
#endif
    tell("ffi3_prepare and ffi3_release", prepare);
    prepare_once();
    tell_sizes();
    must(sizes.values <= sizeof values && sizes.result <= sizeof result && sizes.link + sizes.frame <= sizeof stack,
         "sizes");
    registers.sp = 1 << 20;
    tell("ffi3_share and ffi3_release", share);
    tell("ffi3_sizes", tell_sizes);
    tell("ffi3_store", store);
    tell("ffi3_collect", collect);
    tell("ffi3_give", give);
    tell("ffi3_load", load);
    tell("ffi3_moves, all five lists", tell_moves);
    tell("ffi3_place", place);
    tell("ffi3_place_nodes", place_nodes);
    tell("ffi3_layout of the result", lay_out);
    tell("ffi3_layout_for", layout_for);
    tell("ffi3_check_text", check_text);
    tell("ffi3_layout_nodes of the result", layout_nodes);
    tell("ffi3_layout_nodes_for", layout_nodes_for);
    tell("ffi3_offsets_nodes of the result", offsets_nodes);
    tell("ffi3_offsets_for", offsets_for);
    tell("ffi3_check_layout of the result", check_layout);
    tell("ffi3_check_for", check_for);
    tell("ffi3_arguments", arguments);
    tell("ffi3_fault_text", tell_fault);
    tell("ffi3_fault_lines", tell_lines);
    tell("ffi3_register_name", register_name);
    ffi3_release(&interface);
    return 0;
}
