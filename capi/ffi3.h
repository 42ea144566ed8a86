/* ffi3.h: where C's calling standards put the arguments and the result of a function.
 *
 * From a function's declaration to registers, stack offsets, sizes and alignments, by five calling standards, and from
 * the registers and the stack of a machine that entered the function back to its arguments; and for whoever makes calls
 * by an interface that is prepared once, values into registers and stack and back. The code behind this header is
 * proved; docs/TRUSTED.md says what its proof rests on, this header and the caller's duties below among it.
 *
 *     const char *text = "double f(struct { int i; float x; } a)";
 *     struct ffi3_call call;
 *     struct ffi3_piece pieces[16];
 *     if (ffi3_place(FFI3_RISCV, text, strlen(text), &call, pieces, 16) == FFI3_OK)
 *         ...                             call.pieces of them say where everything stands
 *
 * Build with `pkg-config --cflags --libs ffi3`.
 *
 * DECLARATIONS. A text is the declaration of one function as a manual page has it, with or without a semicolon:
 * `ssize_t read(int fd, void *buf, size_t count);`. Types are C's integers and floating-point types with their words in
 * any order, _Bool and bool, long double, the three complex types, __int128, the names of <stdint.h> and <stddef.h>
 * that say a width, size_t, ssize_t, ptrdiff_t, intptr_t, intmax_t and those without a sign, pointers to anything, also
 * to names that are not known, arrays and functions as parameters, and structs that are written out where they are
 * used, `struct { int8_t a[2][3], *b; }`. A char without a sign has that of the target, and in a layout is signed. No
 * other name, no enum and no union is a type by itself: not wchar_t or int_fast8_t. A long has 64 bits for each
 * standard, also for Microsoft's, where C's has 32: what is a long there is written int. Qualifiers, storage classes,
 * comments, and attributes that say nothing of where a value stands are passed over. There is no preprocessor and no
 * typedef. Of a variadic function (`, ...`) the named arguments are placed, and behind them the types that stand behind
 * the dots, `, ..., int, double`, which is no C: those that a call passes there. At most 64 arguments, 4,096 bytes a
 * struct, and structs and arrays 16 deep.
 *
 * DUTIES OF A CALLER. Each pointer points to memory of its type that the caller may read, and, where it is not const,
 * write: to as many elements as the length or the capacity behind it says, else to one. Where that length or capacity
 * is 0, nothing is read or written there, and the pointer may be anything, also NULL; no other may be NULL. No two of
 * them overlap, and no other thread writes what a call reads, or touches what it writes. What is only written need not
 * be initialized: a struct ffi3_interface is read too; ffi3_store reads sp of REGISTERS, and ffi3_give REGISTERS and
 * STACK. Where malloc may not be called, as in a signal handler or in the forked child of a process with threads, these
 * may: ffi3_sizes, ffi3_moves, ffi3_store, ffi3_load, ffi3_collect, ffi3_give, ffi3_register_name and ffi3_version. No
 * other may.
 *
 * What the library makes does not outlive a call, but for the interfaces that ffi3_prepare and ffi3_share leave, each
 * of which ffi3_release gives back. Any number of threads may call, each with interfaces of its own. Memory is taken
 * from malloc. No function ends the program: where memory is refused it says so. A call takes less than 28 KiB of
 * stack, what malloc takes among them: a thread with 64 KiB has enough.
 *
 * WHAT STAYS. A program that is linked with one version of libffi3.so.0 goes with each later one: functions, numbers,
 * and the size and fields of each struct stay. What comes later has numbers of its own, stands in what is `reserved`
 * today, or in functions and structs of its own. So the structs of version 0.1 that have no reserved words never grow
 * (ffi3_fault, ffi3_piece, ffi3_call, ffi3_leaf and ffi3_layout), nor do ffi3_node and ffi3_move: they stand in arrays,
 * and have kinds. One has grown: since version 0.3 ffi3_registers ends with `upper`, which is read or written only
 * where a call has a long double in a vector register, by FFI3_AAPCS64. No earlier version placed such a call, so a
 * program that was compiled without `upper` may hand in what it has.
 */
#ifndef FFI3_H
#define FFI3_H

#include <stddef.h>
#include <stdint.h>

#ifdef __cplusplus
extern "C" {
#endif

/* 10000 * major + 100 * minor + patch: 10203 would be version 1.2.3. */
#define FFI3_VERSION 300

/* CALLING STANDARDS, by their machines. */
#define FFI3_AMD64 0   /* System V psABI for AMD64: Linux, macOS, the BSDs */
#define FFI3_AAPCS64 1 /* Arm AAPCS64: Linux, the BSDs. Apple's arm64 is another: it packs arguments on the stack, has
                          there all that stands for `...`, and skips no register. Windows' has its own `...` too */
#define FFI3_RISCV 2   /* RISC-V psABI, LP64D */
#define FFI3_WIN64 3   /* Microsoft x64 */
#define FFI3_APPLE 4   /* Apple's for arm64: macOS, iOS */

/* ANSWERS of all functions but the last three and ffi3_release. */
#define FFI3_OK 0
#define FFI3_TOO_SMALL 1      /* the array has no room: nothing is in it, and the count says how much is wanted */
#define FFI3_NOT_DECLARED 2   /* text or nodes declare no function that can be called, or no type: `fault` says why */
#define FFI3_UNKNOWN_TARGET 3 /* no calling standard has this number */
#define FFI3_UNKNOWN_VALUE 4  /* the function has no argument of this number, or there is no such list of moves */
#define FFI3_OUT_OF_MEMORY 5  /* malloc refused */
#define FFI3_SHORT_STACK 6    /* what the call has on the stack stands beyond the bytes of stack */
#define FFI3_NOT_IN_STACK 7   /* an argument is passed by an address that is not in these bytes, or a result's buffer */
#define FFI3_WRONG_SIZE 8     /* values, or a result, in more or fewer bytes than they take */
#define FFI3_HIGH_STACK 9     /* from the stack pointer on the bytes of stack reach the last address */
#define FFI3_NOT_PREPARED 10  /* no interface is kept */
#define FFI3_NO_ADDRESS 11    /* a result is in a buffer whose address the standard does not give back */

/* VALUES of a function: its arguments by their numbers, from 0, and the result. */
#define FFI3_RESULT UINT32_C(0xFFFFFFFF)
/* What is passed beside the arguments: the address of the buffer in which the callee leaves the result (sret). */
#define FFI3_HIDDEN UINT32_C(0xFFFFFFFE)

/* KINDS OF FAULT: what is wrong with a text (kinds 1 to 4), with nodes (14 to 20), or with what they declare. */
#define FFI3_NO_FAULT 0
#define FFI3_NOT_UTF8 1
#define FFI3_BAD_TOKEN 2             /* at byte `offset` no word, number or mark begins */
#define FFI3_UNEXPECTED 3            /* no declaration has there what stands at `offset`, or ends there */
#define FFI3_BAD_NUMBER 4            /* the number at `offset` is over 4,294,967,295 */
#define FFI3_BAD_TYPEDEF 5           /* an array of no elements; of nodes also a struct of no members, a void that is no
                                        result, or an array that is no member and no element */
#define FFI3_LEFT_OUT_LONG_DOUBLE 6  /* of a layout without a target: a long double, whose size is the target's; and */
#define FFI3_LEFT_OUT_COMPLEX 7      /* its complex. Kinds 8 and 12 are of nodes alone */
#define FFI3_LEFT_OUT_VECTOR 8
#define FFI3_TOO_LARGE 9             /* a struct or an array of `number` bytes, more than 4,096 */
#define FFI3_TOO_DEEP 10             /* structs and arrays more than 16 deep. A complex is one of them */
#define FFI3_TOO_MANY 11             /* `number` arguments, more than 64 */
#define FFI3_BAD_FIXED 12            /* of `number` arguments, `argument` are fixed */
#define FFI3_BAD_VARIADIC 13         /* C would promote the type of variadic argument `argument` */
#define FFI3_NODES_ENDED 14          /* behind `offset` nodes, where they end, another is wanted */
#define FFI3_UNKNOWN_KIND 15         /* the node behind `offset` others has a kind without such a number */
#define FFI3_BAD_COUNT 16            /* the node behind `offset` others has a count, and its kind has none */
#define FFI3_NODES_TOO_DEEP 17       /* behind `offset` nodes a struct or an array begins inside 16 others */
#define FFI3_TOO_MANY_NODES 18       /* `number` nodes, 4,294,967,296 or more */
#define FFI3_NOT_ONE_TYPE 19         /* nodes of `number` types where one is wanted */
#define FFI3_LAID_OUT_OTHERWISE 20   /* of ffi3_check_layout: member `number` starts elsewhere, or one side lacks it;
                                        or, where `number` is how many there are, size or alignment is another */

/* Why a text, or nodes, declare no function that can be called: the first fault. What a kind does not speak of is 0. */
struct ffi3_fault {
    uint32_t kind;     /* FFI3_BAD_TOKEN and so on; FFI3_NO_FAULT where the text is right */
    uint32_t argument; /* of kinds 5 to 10: whose type has the fault, an argument's number or FFI3_RESULT. See 12, 13 */
    size_t offset;     /* where in the text, in bytes; or behind how many nodes */
    size_t number;     /* how large, or how many */
};

/* What a piece HOLDS. */
#define FFI3_BYTES 0   /* bytes of the value */
#define FFI3_ADDRESS 1 /* the address of the value, which stands in the caller's frame: of a copy, or of the buffer */

/* PLACES. */
#define FFI3_GENERAL 0  /* a general register: ffi3_register_name has its name */
#define FFI3_FLOATING 1 /* a floating or vector register */
#define FFI3_STACK 2    /* the stack, from where stack arguments begin: on Windows from the 32-byte shadow store on */
#define FFI3_X87 3      /* st(0) or st(1): a long double of FFI3_AMD64 as a result, all ten bytes of it */

/* What a caller writes into the REST of an argument's register, or of its last eight bytes on the stack, and a callee
 * into that of a result's. Who reads it looks at the value's own bytes, and counts on the rest only where the standard
 * says so: that of FFI3_RISCV says the last two. The others ask for no extension to 64 bits, and that of FFI3_APPLE
 * for one to 32 in a register; it stands here since it is right for whoever counts on 32. */
#define FFI3_REST_FREE 0           /* anything */
#define FFI3_REST_EXTENDED 1       /* the integer is sign- or zero-extended to 64 bits, by its type */
#define FFI3_REST_EXTENDED_BY_32 2 /* so to 32 bits, and from there sign-extended to 64 */
#define FFI3_REST_ONES 3           /* ones: the float is NaN-boxed */
#define FFI3_REST_NONE 4           /* there is none: the bytes behind may be another argument's. By FFI3_APPLE alone */

/* Where bytes of one value stand, or their address. */
struct ffi3_piece {
    uint32_t part;   /* an argument's number, FFI3_HIDDEN or FFI3_RESULT */
    uint32_t holds;  /* FFI3_BYTES or FFI3_ADDRESS */
    uint32_t place;  /* FFI3_GENERAL, FFI3_FLOATING, FFI3_STACK or FFI3_X87 */
    uint32_t number; /* which register; on the stack, the offset in bytes from where stack arguments begin */
    uint32_t offset; /* the first byte of the value that stands there; of an address, where the value stands in the
                        caller's frame, from its start, which is where stack arguments begin */
    uint32_t length; /* how many bytes: 8 at most in a general register, 16 in a vector register, 10 in one of x87 */
    uint32_t rest;   /* FFI3_REST_FREE and so on */
};

/* A call as a whole. All sizes are in bytes. */
struct ffi3_call {
    size_t need;      /* all the stack that the call takes in this library's model of it */
    size_t frame;     /* of that, what the caller takes: stack arguments, copies, a result's buffer. A multiple of 16 */
    size_t block;     /* and the model's callee for its own copy of the arguments */
    size_t vectors;   /* on AMD64 how many vector registers the arguments use, which goes into al; elsewhere 0 */
    size_t arguments; /* how many arguments are named */
    size_t pieces;    /* how many pieces there are */
    size_t passed;    /* how many of them, the first, a caller sets before the call. The others are read after it */
    struct ffi3_fault fault;
};

/* uint32_t ffi3_place(uint32_t TARGET, const char *TEXT, size_t LENGTH,
 *                     struct ffi3_call *CALL, struct ffi3_piece *PIECES, size_t CAPACITY)
 *
 * Where everything stands in a call, by the standard TARGET, of the function that the LENGTH bytes at TEXT declare.
 * These need no terminating NUL.
 *
 * PIECES is an array of CAPACITY elements. Its first CALL->passed elements are what a caller passes: the pieces of
 * argument 0, then those of argument 1 and so on, and then that of FFI3_HIDDEN, if the result is left in a buffer.
 * Behind them stands what is given back: the pieces of FFI3_RESULT, which has none where it is void; or, where the
 * result is left in a buffer, the register in which the callee returns the buffer's address, if the standard has one.
 * The bytes of a value that stand on the stack one behind another are one piece, and so are those of one register. The
 * elements from CALL->pieces on stay as they were.
 *
 * A long double is what it is by TARGET: of FFI3_AMD64 x87's extended format, in 16 bytes of which ten are significant;
 * of FFI3_AAPCS64 and FFI3_RISCV IEEE 754's binary128; of FFI3_WIN64 and FFI3_APPLE a double. A gcc for Windows has
 * another, of 16 bytes, which it passes by its address: so it is told as an __int128.
 *
 * FFI3_OK: CALL and PIECES are filled.
 * FFI3_TOO_SMALL: CALL is filled, and PIECES is as it was: it wants CALL->pieces elements. A CAPACITY of 0 asks for
 *     that number.
 * FFI3_NOT_DECLARED: CALL->fault says why; all else in CALL is 0, and PIECES is as it was.
 * FFI3_UNKNOWN_TARGET, FFI3_OUT_OF_MEMORY: CALL is 0, and PIECES as it was. An unknown target is told before a fault.
 */
uint32_t ffi3_place(uint32_t target, const char *text, size_t length, struct ffi3_call *call,
                    struct ffi3_piece *pieces, size_t capacity);

/* KINDS OF LEAF: the scalars of C, by their widths. The last two are no kinds of node: see FFI3_LONG_DOUBLE. */
#define FFI3_UINT8 0
#define FFI3_SINT8 1
#define FFI3_UINT16 2
#define FFI3_SINT16 3
#define FFI3_UINT32 4
#define FFI3_SINT32 5
#define FFI3_UINT64 6
#define FFI3_SINT64 7
#define FFI3_UINT128 8
#define FFI3_SINT128 9
#define FFI3_FLOAT 10
#define FFI3_DOUBLE 11
#define FFI3_POINTER 12
#define FFI3_LEAF_X87 21       /* a long double in x87's extended format */
#define FFI3_LEAF_BINARY128 22 /* a long double in IEEE 754's binary128 */

/* A scalar in a type. */
struct ffi3_leaf {
    uint32_t kind; /* FFI3_UINT8 and so on */
    uint32_t size; /* its bytes: of FFI3_LEAF_X87 the ten significant ones of 16 */
    size_t offset; /* its first byte, from the start of the type */
};

/* The layout of one type. */
struct ffi3_layout {
    size_t size;      /* in bytes, a multiple of the alignment; of void 0 */
    size_t align;     /* 1, 2, 4, 8 or 16 */
    size_t leaves;    /* how many scalars it has, those of structs and arrays in it among them */
    size_t arguments; /* how many arguments the function names */
    struct ffi3_fault fault;
};

/* uint32_t ffi3_layout(const char *TEXT, size_t LENGTH, uint32_t VALUE,
 *                      struct ffi3_layout *LAYOUT, struct ffi3_leaf *LEAVES, size_t CAPACITY)
 *
 * How the type of argument VALUE is laid out, or of the result where VALUE is FFI3_RESULT, of the function that the
 * LENGTH bytes at TEXT declare. All five standards lay out alike, but for a long double, which so is a fault here:
 * ffi3_layout_for lays it out.
 *
 * LEAVES is an array of CAPACITY elements, and is given the type's scalars from the front.
 *
 * FFI3_OK: LAYOUT and LEAVES are filled.
 * FFI3_TOO_SMALL: LAYOUT is filled, and LEAVES is as it was: it wants LAYOUT->leaves elements.
 * FFI3_NOT_DECLARED: LAYOUT->fault says why; all else in LAYOUT is 0, and LEAVES is as it was.
 * FFI3_UNKNOWN_VALUE: LAYOUT->arguments says how many there are; all else is 0, and LEAVES as it was.
 * FFI3_OUT_OF_MEMORY: LAYOUT is 0, and LEAVES as it was.
 */
uint32_t ffi3_layout(const char *text, size_t length, uint32_t value, struct ffi3_layout *layout,
                     struct ffi3_leaf *leaves, size_t capacity);

/* uint32_t ffi3_layout_for(uint32_t TARGET, const char *TEXT, size_t LENGTH, uint32_t VALUE,
 *                          struct ffi3_layout *LAYOUT, struct ffi3_leaf *LEAVES, size_t CAPACITY)
 *
 * As ffi3_layout, of a function that is called by the standard TARGET, which says what a long double is, and whether a
 * char has a sign. The answers are those of ffi3_layout, and FFI3_UNKNOWN_TARGET, told first: LAYOUT is 0, and LEAVES
 * as it was.
 */
uint32_t ffi3_layout_for(uint32_t target, const char *text, size_t length, uint32_t value, struct ffi3_layout *layout,
                         struct ffi3_leaf *leaves, size_t capacity);

/* KINDS OF TOKEN, as ffi3_check_text tells what could have stood in a place. More may come: 0 is none. */
#define FFI3_EXPECTED_TYPE 1         /* a name or a word with which a type begins */
#define FFI3_EXPECTED_NAME 2         /* a name, where no type could stand */
#define FFI3_EXPECTED_NUMBER 3       /* the number of an array's elements */
#define FFI3_EXPECTED_CLOSE_ROUND 4  /* ) */
#define FFI3_EXPECTED_COMMA 5
#define FFI3_EXPECTED_SEMICOLON 6
#define FFI3_EXPECTED_END 7          /* the end of the text */
#define FFI3_EXPECTED_STAR 8
#define FFI3_EXPECTED_CLOSE_SQUARE 9 /* ] */
#define FFI3_EXPECTED_CLOSE_CURLY 10 /* } */
#define FFI3_EXPECTED_OPEN_CURLY 11
#define FFI3_EXPECTED_OPEN_ROUND 12
#define FFI3_EXPECTED_OPEN_SQUARE 13
#define FFI3_EXPECTED_DOTS 14        /* ... */
#define FFI3_EXPECTED_WORD 15        /* one more of the words that name a type, as behind `unsigned` */

/* REASONS why a token does not fit, where a word tells it. More may come. */
#define FFI3_REASON_NONE 0
#define FFI3_REASON_ATTRIBUTE 1 /* an attribute that may change how a value is passed */
#define FFI3_REASON_KEYWORD 2   /* a keyword that is not read here */
#define FFI3_REASON_STRUCT 3    /* before it a struct stands by value, by its tag alone: its members are wanted */
#define FFI3_REASON_UNION 4     /* so a union by its tag, which is not read */
#define FFI3_REASON_ENUM 5      /* so an enum: write the integer that its compiler chose */
#define FFI3_REASON_NAMED 6     /* so a type by a name that is not known: write what it stands for */

/* What is wrong with a text; and of a fault FFI3_UNEXPECTED what stands at its `offset`, and what could have. */
struct ffi3_checked {
    size_t length;        /* how many bytes the token takes that stands there; 0 where the text ends */
    uint32_t reason;      /* why it does not fit: FFI3_REASON_NONE and so on */
    uint32_t count;       /* how many elements of `expected` are told, four at most */
    uint32_t expected[4]; /* kinds of which a token could stand there, the first: FFI3_EXPECTED_TYPE and so on */
    uint64_t reserved[4]; /* 0 */
    struct ffi3_fault fault;
};

/* uint32_t ffi3_check_text(uint32_t TARGET, const char *TEXT, size_t LENGTH, struct ffi3_checked *CHECKED)
 *
 * Whether the LENGTH bytes at TEXT declare a function for calls by the standard TARGET, as ffi3_place reads them.
 *
 * FFI3_OK: they do; CHECKED is 0.
 * FFI3_NOT_DECLARED: CHECKED->fault says why, as ffi3_place does. Of FFI3_UNEXPECTED all of CHECKED is filled, and
 *     elements of `expected` from `count` on are 0; of each other fault all else in CHECKED is 0.
 * FFI3_UNKNOWN_TARGET, FFI3_OUT_OF_MEMORY: CHECKED is 0. An unknown target is told before a fault.
 */
uint32_t ffi3_check_text(uint32_t target, const char *text, size_t length, struct ffi3_checked *checked);

/* TYPES AS DATA. A type is an array of nodes, in preorder: that of a struct counts its members, whose nodes follow it;
 * that of an array counts its elements, and the nodes of one of them follow it. Of a function the result's nodes stand
 * first, and then those of its arguments. So `double f(struct { int i; float x[2]; } a)` is
 *
 *     static const struct ffi3_node nodes[] = {
 *         {FFI3_DOUBLE, 0}, {FFI3_STRUCT, 2}, {FFI3_SINT32, 0}, {FFI3_ARRAY, 2}, {FFI3_FLOAT, 0}
 *     };
 *     ffi3_place_nodes(FFI3_RISCV, nodes, 5, FFI3_NOT_VARIADIC, &call, pieces, 16)
 *
 * Nothing in them is believed: nodes that are no type, or that end too early, are a fault. Limits are those of texts.
 */
struct ffi3_node {
    uint32_t kind;  /* FFI3_UINT8 to FFI3_POINTER, or one of the kinds below */
    uint32_t count; /* of FFI3_STRUCT its members, of FFI3_ARRAY its elements; of each other kind 0 */
};

/* KINDS OF NODE, beside the kinds of leaf. */
#define FFI3_VOID 13                /* as a result alone */
#define FFI3_COMPLEX_FLOAT 14       /* float _Complex: as all standards say, the struct of two */
#define FFI3_COMPLEX_DOUBLE 15      /* double _Complex */
#define FFI3_LONG_DOUBLE 16         /* as the target has it; where none is given a fault: FFI3_LEFT_OUT_LONG_DOUBLE */
#define FFI3_COMPLEX_LONG_DOUBLE 17 /* so too: FFI3_LEFT_OUT_COMPLEX */
#define FFI3_VECTOR 18              /* a fault by name: FFI3_LEFT_OUT_VECTOR */
#define FFI3_STRUCT 19
#define FFI3_ARRAY 20               /* a member of a struct, or an element of an array */

/* Of a function that is not variadic, in place of how many of its arguments are fixed, or named. */
#define FFI3_NOT_VARIADIC UINT32_C(0xFFFFFFFF)

/* uint32_t ffi3_place_nodes(uint32_t TARGET, const struct ffi3_node *NODES, size_t COUNT, uint32_t FIXED,
 *                           struct ffi3_call *CALL, struct ffi3_piece *PIECES, size_t CAPACITY)
 *
 * As ffi3_place, of the function that the COUNT nodes at NODES declare. Of a variadic one FIXED arguments are named, at
 * least 1: 0 is FFI3_BAD_FIXED, and says not that there are none behind. All are placed and counted in CALL->arguments,
 * those behind the named ones as variadic, whose types are those that C promotes to. The answers are those of
 * ffi3_place.
 */
uint32_t ffi3_place_nodes(uint32_t target, const struct ffi3_node *nodes, size_t count, uint32_t fixed,
                          struct ffi3_call *call, struct ffi3_piece *pieces, size_t capacity);

/* One type as a whole. */
struct ffi3_type {
    size_t size;          /* in bytes, a multiple of the alignment; of void 0 */
    size_t align;         /* 1, 2, 4, 8 or 16 */
    size_t members;       /* how many members a struct has, those of structs in it not among them; a complex has 2, but
                             one of x87's format, which is an array, has none; else 0 */
    size_t leaves;        /* how many scalars it has, those of structs and arrays in it among them */
    uint64_t reserved[2]; /* 0 */
    struct ffi3_fault fault;
};

/* uint32_t ffi3_layout_nodes(const struct ffi3_node *NODES, size_t COUNT, struct ffi3_type *TYPE,
 *                            struct ffi3_leaf *LEAVES, size_t CAPACITY)
 * uint32_t ffi3_offsets_nodes(const struct ffi3_node *NODES, size_t COUNT, struct ffi3_type *TYPE,
 *                             size_t *OFFSETS, size_t CAPACITY)
 *
 * How the one type that the COUNT nodes at NODES are is laid out, by all five standards alike. It is one that can be a
 * result: void, a scalar, or a struct. An array stands in a struct.
 *
 * LEAVES is an array of CAPACITY elements, and is given the type's scalars from the front. OFFSETS is given where each
 * member of a struct starts, in bytes from the struct's start.
 *
 * FFI3_OK: TYPE and the array are filled.
 * FFI3_TOO_SMALL: TYPE is filled, and the array is as it was: it wants TYPE->leaves, or TYPE->members, elements.
 * FFI3_NOT_DECLARED: TYPE->fault says why; of the type's own faults `argument` is FFI3_RESULT. All else in TYPE is 0,
 *     and the array is as it was.
 * FFI3_OUT_OF_MEMORY: TYPE is 0, and the array as it was.
 */
uint32_t ffi3_layout_nodes(const struct ffi3_node *nodes, size_t count, struct ffi3_type *type,
                           struct ffi3_leaf *leaves, size_t capacity);
uint32_t ffi3_offsets_nodes(const struct ffi3_node *nodes, size_t count, struct ffi3_type *type, size_t *offsets,
                            size_t capacity);

/* uint32_t ffi3_layout_nodes_for(uint32_t TARGET, const struct ffi3_node *NODES, size_t COUNT, struct ffi3_type *TYPE,
 *                                struct ffi3_leaf *LEAVES, size_t CAPACITY)
 * uint32_t ffi3_offsets_for(uint32_t TARGET, const struct ffi3_node *NODES, size_t COUNT, struct ffi3_type *TYPE,
 *                           size_t *OFFSETS, size_t CAPACITY)
 *
 * The same of the type that the nodes are by the standard TARGET: that of the result, where they declare a function of
 * no arguments as ffi3_place_nodes reads them. Where they do not, TYPE->fault is what it says of them, or
 * FFI3_NOT_ONE_TYPE where they are those of more types. FFI3_UNKNOWN_TARGET is told first: TYPE is 0, and the array as
 * it was.
 */
uint32_t ffi3_layout_nodes_for(uint32_t target, const struct ffi3_node *nodes, size_t count, struct ffi3_type *type,
                               struct ffi3_leaf *leaves, size_t capacity);
uint32_t ffi3_offsets_for(uint32_t target, const struct ffi3_node *nodes, size_t count, struct ffi3_type *type,
                          size_t *offsets, size_t capacity);

/* uint32_t ffi3_check_layout(const struct ffi3_node *NODES, size_t COUNT, size_t SIZE, size_t ALIGN,
 *                            const size_t *OFFSETS, size_t MEMBERS, struct ffi3_fault *FAULT)
 *
 * Whether the type that the COUNT nodes at NODES are is laid out as its client has it, packed or over-aligned perhaps:
 * in SIZE bytes, aligned to ALIGN, its MEMBERS members at OFFSETS. The standards place no other layout than the natural
 * one, so a client with a layout of its own asks of each struct in it before it places one: a call sees the direct
 * members alone, and a struct among them that is laid out otherwise inside may have the size and alignment of one that
 * is not.
 *
 * FFI3_OK: it is; FAULT is 0.
 * FFI3_NOT_DECLARED: FAULT says why not: FFI3_LAID_OUT_OTHERWISE, or what ffi3_layout_nodes says of the nodes.
 * FFI3_OUT_OF_MEMORY: FAULT is 0.
 */
uint32_t ffi3_check_layout(const struct ffi3_node *nodes, size_t count, size_t size, size_t align,
                           const size_t *offsets, size_t members, struct ffi3_fault *fault);

/* uint32_t ffi3_check_for(uint32_t TARGET, const struct ffi3_node *NODES, size_t COUNT, size_t SIZE, size_t ALIGN,
 *                         const size_t *OFFSETS, size_t MEMBERS, struct ffi3_fault *FAULT)
 *
 * The same of the type that the nodes are by the standard TARGET: FAULT says what ffi3_layout_nodes_for says of them.
 * FFI3_UNKNOWN_TARGET is told first: FAULT is 0.
 */
uint32_t ffi3_check_for(uint32_t target, const struct ffi3_node *nodes, size_t count, size_t size, size_t align,
                        const size_t *offsets, size_t members, struct ffi3_fault *fault);

/* What a machine holds at one moment. For ffi3_arguments that is a function's entry: its first instruction, before any
 * of this changed. */
struct ffi3_registers {
    uint64_t general[32];  /* by the numbers that ffi3_register_name takes; what is no register is not read */
    uint64_t floating[32]; /* of each the low 64 bits. On AMD64 16 and 17 are st(0): the 64 bits of its significand,
                              and the 16 of its sign and exponent; 18 and 19 are st(1). They have results alone */
    uint64_t sp;           /* the stack pointer: on AMD64 and Windows it points to the return address */
    uint64_t upper[8];     /* on AArch64 the high 64 bits of v0 to v7, for long doubles alone. Since version 0.3 */
};

/* The arguments of a call, as a whole. */
struct ffi3_arguments {
    size_t arguments;  /* how many arguments are named */
    size_t size;       /* how many bytes their values take */
    size_t stack;      /* how many bytes of the stack, from the stack pointer on, they reach into */
    uint64_t address;  /* of FFI3_NOT_IN_STACK: the address */
    uint32_t argument; /* and of which argument it is */
    uint32_t reserved; /* 0 */
    struct ffi3_fault fault;
};

/* uint32_t ffi3_arguments(uint32_t TARGET, const char *TEXT, size_t LENGTH, const struct ffi3_registers *REGISTERS,
 *                         const unsigned char *STACK, size_t STACK_LENGTH, struct ffi3_arguments *FOUND,
 *                         unsigned char *VALUES, size_t CAPACITY)
 *
 * Which arguments the function that the LENGTH bytes at TEXT declare was called with, by the standard TARGET. STACK has
 * STACK_LENGTH bytes of the machine's memory, from REGISTERS->sp on. What the standard leaves free, as the upper half
 * of a register with an int, is not looked at. An argument that is passed by an address is read where that points, if
 * all of it is among the bytes of STACK.
 *
 * VALUES has room for CAPACITY bytes. It is given the values one after another, argument 0 first, each as it stands in
 * memory, from a multiple of 8 on; ffi3_layout_for has their sizes. Padding in them and between them is 0.
 *
 * FFI3_OK: FOUND and VALUES are filled.
 * FFI3_TOO_SMALL: FOUND is filled, and VALUES is as it was: it wants FOUND->size bytes.
 * FFI3_SHORT_STACK: FOUND->stack says how many bytes of stack are wanted, at least; VALUES is as it was.
 * FFI3_NOT_IN_STACK: FOUND->argument and FOUND->address say which address; VALUES is as it was.
 * FFI3_NOT_DECLARED: FOUND->fault says why; all else in FOUND is 0, and VALUES is as it was.
 * FFI3_UNKNOWN_TARGET, FFI3_OUT_OF_MEMORY: FOUND is 0, and VALUES as it was. An unknown target is told before a fault.
 */
uint32_t ffi3_arguments(uint32_t target, const char *text, size_t length, const struct ffi3_registers *registers,
                        const unsigned char *stack, size_t stack_length, struct ffi3_arguments *found,
                        unsigned char *values, size_t capacity);

/* One argument of a call. */
struct ffi3_argument {
    uint32_t status;   /* FFI3_OK: VALUES has its value. FFI3_NOT_IN_STACK: that stands elsewhere */
    uint32_t reserved; /* 0 */
    size_t offset;     /* where in VALUES it begins, a multiple of 8 */
    size_t size;       /* how many bytes it takes */
    uint64_t address;  /* of FFI3_NOT_IN_STACK: where they stand; else 0 */
};

/* uint32_t ffi3_arguments_each(uint32_t TARGET, const char *TEXT, size_t LENGTH,
 *                              const struct ffi3_registers *REGISTERS, const unsigned char *STACK, size_t STACK_LENGTH,
 *                              struct ffi3_arguments *FOUND, struct ffi3_argument *EACH, size_t MOST,
 *                              unsigned char *VALUES, size_t CAPACITY)
 * uint32_t ffi3_arguments_nodes(uint32_t TARGET, const struct ffi3_node *NODES, size_t COUNT, uint32_t FIXED,
 *                               const struct ffi3_registers *REGISTERS, const unsigned char *STACK,
 *                               size_t STACK_LENGTH, struct ffi3_arguments *FOUND, struct ffi3_argument *EACH,
 *                               size_t MOST, unsigned char *VALUES, size_t CAPACITY)
 *
 * As ffi3_arguments, of the function that the LENGTH bytes at TEXT, or the COUNT nodes at NODES, declare; of nodes all
 * arguments are read, those behind the FIXED named ones as variadic. EACH is an array of MOST elements, and is given
 * what is told of each argument. One that is passed by an address which is not all in STACK has FFI3_NOT_IN_STACK and
 * that address, and zeros in VALUES: its value is the bytes there, which a debugger reads, and may copy to its offset.
 *
 * FFI3_OK: FOUND, EACH and VALUES are filled; each argument has a status of its own.
 * FFI3_TOO_SMALL: FOUND is filled, and of EACH and VALUES what has room; the other is as it was. They want
 *     FOUND->arguments elements, and FOUND->size bytes.
 * FFI3_SHORT_STACK: FOUND->stack says how many bytes of stack are wanted, at least; EACH and VALUES are as they were.
 * FFI3_NOT_DECLARED, FFI3_UNKNOWN_TARGET, FFI3_OUT_OF_MEMORY: as of ffi3_arguments; EACH and VALUES are as they were.
 */
uint32_t ffi3_arguments_each(uint32_t target, const char *text, size_t length, const struct ffi3_registers *registers,
                             const unsigned char *stack, size_t stack_length, struct ffi3_arguments *found,
                             struct ffi3_argument *each, size_t most, unsigned char *values, size_t capacity);
uint32_t ffi3_arguments_nodes(uint32_t target, const struct ffi3_node *nodes, size_t count, uint32_t fixed,
                              const struct ffi3_registers *registers, const unsigned char *stack, size_t stack_length,
                              struct ffi3_arguments *found, struct ffi3_argument *each, size_t most,
                              unsigned char *values, size_t capacity);

/* The result of a call. */
struct ffi3_result {
    size_t size;          /* how many bytes it takes; of void 0 */
    uint64_t address;     /* of FFI3_NOT_IN_STACK: where they stand; else 0 */
    uint64_t reserved[2]; /* 0 */
    struct ffi3_fault fault;
};

/* uint32_t ffi3_result(uint32_t TARGET, const char *TEXT, size_t LENGTH, const struct ffi3_registers *REGISTERS,
 *                      const unsigned char *STACK, size_t STACK_LENGTH, struct ffi3_result *FOUND,
 *                      unsigned char *VALUE, size_t CAPACITY)
 * uint32_t ffi3_result_nodes(uint32_t TARGET, const struct ffi3_node *NODES, size_t COUNT, uint32_t FIXED,
 *                            const struct ffi3_registers *REGISTERS, const unsigned char *STACK, size_t STACK_LENGTH,
 *                            struct ffi3_result *FOUND, unsigned char *VALUE, size_t CAPACITY)
 *
 * What the function that the LENGTH bytes at TEXT, or the COUNT nodes at NODES, declare gave back, by the standard
 * TARGET: REGISTERS and STACK, the memory from REGISTERS->sp on, are the machine's where it has returned, as at a
 * debugger's stop behind `finish`. What the standard leaves free is not judged. A large result is read where the
 * address points that comes back, if all of it is among the bytes of STACK; by FFI3_AAPCS64, FFI3_APPLE and FFI3_RISCV
 * none comes back. Who knows a buffer's address reads the result there. A CAPACITY of 0 asks for the size.
 *
 * VALUE has room for CAPACITY bytes, and is given FOUND->size of them, as the result stands in memory. Padding is as
 * registers or memory have it, and 0 where it stands in no register.
 *
 * FFI3_OK: FOUND and VALUE are filled.
 * FFI3_TOO_SMALL: FOUND is filled, and VALUE is as it was: it wants FOUND->size bytes.
 * FFI3_NOT_IN_STACK: the result is the FOUND->size bytes at FOUND->address; VALUE is as it was.
 * FFI3_NO_ADDRESS: the result has FOUND->size bytes, in a buffer of the caller's; VALUE is as it was.
 * FFI3_NOT_DECLARED: FOUND->fault says why; all else in FOUND is 0, and VALUE is as it was.
 * FFI3_UNKNOWN_TARGET, FFI3_OUT_OF_MEMORY: FOUND is 0, and VALUE as it was. An unknown target is told before a fault.
 */
uint32_t ffi3_result(uint32_t target, const char *text, size_t length, const struct ffi3_registers *registers,
                     const unsigned char *stack, size_t stack_length, struct ffi3_result *found, unsigned char *value,
                     size_t capacity);
uint32_t ffi3_result_nodes(uint32_t target, const struct ffi3_node *nodes, size_t count, uint32_t fixed,
                           const struct ffi3_registers *registers, const unsigned char *stack, size_t stack_length,
                           struct ffi3_result *found, unsigned char *value, size_t capacity);

/* INTERFACES. Whoever calls a function often, or is called as one, prepares its interface once. Calls by it read no
 * text and no nodes, and ffi3_sizes, ffi3_store, ffi3_load, ffi3_collect and ffi3_give take no memory.
 *
 *     struct ffi3_interface interface = FFI3_NO_INTERFACE;
 *     struct ffi3_sizes sizes;
 *     if (ffi3_prepare(FFI3_AMD64, nodes, count, FFI3_NOT_VARIADIC, &interface, &fault) == FFI3_OK)
 *         ffi3_sizes(&interface, &sizes);
 *     ...
 *     ffi3_release(&interface);
 *
 * A struct ffi3_interface is FFI3_NO_INTERFACE, or what these functions made of it; it may be moved, but no copy of it
 * may be used beside it: ffi3_share makes another. One call at a time has it, also one that only asks. So each thread
 * has one of its own, and what they keep is shared beneath.
 */
struct ffi3_interface {
    void *kept; /* the library's; NULL where nothing is kept */
};
#define FFI3_NO_INTERFACE {0}

/* uint32_t ffi3_prepare(uint32_t TARGET, const struct ffi3_node *NODES, size_t COUNT, uint32_t FIXED,
 *                       struct ffi3_interface *INTERFACE, struct ffi3_fault *FAULT)
 *
 * Prepares calls by the standard TARGET, of the function that the COUNT nodes at NODES declare, FIXED arguments of
 * which are named: see ffi3_place_nodes. What INTERFACE kept before is released.
 *
 * FFI3_OK: INTERFACE keeps it; FAULT is 0.
 * FFI3_NOT_DECLARED: FAULT says why, and behind how many nodes or of which argument; INTERFACE is as it was.
 * FFI3_UNKNOWN_TARGET, FFI3_OUT_OF_MEMORY: FAULT is 0, and INTERFACE as it was. An unknown target is told before a
 *     fault.
 */
uint32_t ffi3_prepare(uint32_t target, const struct ffi3_node *nodes, size_t count, uint32_t fixed,
                      struct ffi3_interface *interface, struct ffi3_fault *fault);

/* uint32_t ffi3_share(struct ffi3_interface *INTERFACE, struct ffi3_interface *OTHER)
 * void ffi3_release(struct ffi3_interface *INTERFACE)
 *
 * ffi3_share lets OTHER keep what INTERFACE keeps; what OTHER kept before is released. ffi3_release leaves INTERFACE
 * with nothing, and where no other keeps the same its memory is given back. One that keeps nothing stays so.
 *
 * FFI3_OK: both keep it.
 * FFI3_NOT_PREPARED, FFI3_OUT_OF_MEMORY: OTHER is as it was.
 */
uint32_t ffi3_share(struct ffi3_interface *interface, struct ffi3_interface *other);
void ffi3_release(struct ffi3_interface *interface);

/* The sizes of a call, in bytes. */
struct ffi3_sizes {
    size_t values;        /* the arguments' values, packed: one after another, each from a multiple of 8 on. A uint128
                             or long double may so stand where C has none: copy
                             it by memcpy */
    size_t result;        /* the result */
    size_t link;          /* the return address on the stack: 8 on AMD64 and Windows, else 0 */
    size_t frame;         /* stack arguments, copies and a hidden result's buffer. A multiple of 16 */
    uint64_t returned;    /* where in the exchange the address of a hidden result is given back, else FFI3_NOWHERE */
    uint64_t reserved[3]; /* 0 */
};
#define FFI3_NOWHERE UINT64_C(0xFFFFFFFFFFFFFFFF)

/* uint32_t ffi3_sizes(struct ffi3_interface *INTERFACE, struct ffi3_sizes *SIZES)
 *
 * FFI3_OK: SIZES is filled.
 * FFI3_NOT_PREPARED: SIZES is 0.
 */
uint32_t ffi3_sizes(struct ffi3_interface *interface, struct ffi3_sizes *sizes);

/* TRANSFERS. REGISTERS and STACK are a machine at one moment: STACK has STACK_LENGTH bytes, the memory from
 * REGISTERS->sp on. They need not stand there yet: addresses are computed from sp alone.
 *
 * A caller stores its values, loads these registers and that stack, calls, and then loads its result. A callee keeps
 * registers and stack as they are at its entry, collects its arguments, and gives its result. Values are packed: see
 * ffi3_sizes; who has each at an address of its own copies it there, or back. Where a call is refused, registers,
 * stack, values and result are as they were. An INTERFACE that keeps nothing is told first
 * (FFI3_NOT_PREPARED), then FFI3_WRONG_SIZE, FFI3_SHORT_STACK, FFI3_HIGH_STACK and FFI3_NOT_IN_STACK in this order.
 */

/* uint32_t ffi3_store(struct ffi3_interface *INTERFACE, const unsigned char *VALUES, size_t SIZE,
 *                     struct ffi3_registers *REGISTERS, unsigned char *STACK, size_t STACK_LENGTH)
 *
 * The caller's, before the call. The machine is that of the callee's first instruction: where the standard has the
 * return address on the stack, STACK begins with its 8 bytes. sp is the caller's choice, and its alignment is not
 * looked at; all five standards want sp + link to be a multiple of 16.
 *
 * Written are the places of the arguments, extended as ffi3_piece says; copies in the frame, and their addresses; the
 * address of a hidden result's buffer, which is the one in the frame; and on AMD64 rax, which has the number of vector
 * registers. All other registers, the return address and all other bytes of the stack stay, and so does the rest of a
 * place that holds anything (FFI3_REST_FREE).
 *
 * FFI3_OK: done.
 * FFI3_WRONG_SIZE: SIZE is not that of the values. FFI3_SHORT_STACK: STACK has fewer bytes than link and frame take.
 * FFI3_HIGH_STACK.
 */
uint32_t ffi3_store(struct ffi3_interface *interface, const unsigned char *values, size_t size,
                    struct ffi3_registers *registers, unsigned char *stack, size_t stack_length);

/* uint32_t ffi3_load(struct ffi3_interface *INTERFACE, const struct ffi3_registers *REGISTERS,
 *                    const unsigned char *STACK, size_t STACK_LENGTH, unsigned char *RESULT, size_t SIZE)
 *
 * The caller's, after the call. The machine is that of the return, and STACK is the memory from the frame's start on.
 * Bytes of the result that stand in no register are 0. A hidden result is read from the frame's buffer: a caller that
 * passed the address of another has it there.
 *
 * FFI3_OK: RESULT is filled.
 * FFI3_WRONG_SIZE: SIZE is not that of the result. FFI3_SHORT_STACK: STACK has fewer bytes than the frame takes.
 */
uint32_t ffi3_load(struct ffi3_interface *interface, const struct ffi3_registers *registers,
                   const unsigned char *stack, size_t stack_length, unsigned char *result, size_t size);

/* What is told of a refusal beside the number. What that does not speak of is 0, and so is all where there is none. */
struct ffi3_reason {
    size_t wanted;     /* of FFI3_WRONG_SIZE and FFI3_SHORT_STACK: how many bytes are wanted */
    uint64_t address;  /* of FFI3_NOT_IN_STACK: the address */
    uint32_t argument; /* and of which argument it is, or FFI3_HIDDEN */
    uint32_t reserved; /* 0 */
};

/* uint32_t ffi3_collect(struct ffi3_interface *INTERFACE, const struct ffi3_registers *REGISTERS,
 *                       const unsigned char *STACK, size_t STACK_LENGTH, unsigned char *VALUES, size_t SIZE,
 *                       struct ffi3_reason *REASON)
 *
 * The callee's, at its entry: the arguments, as ffi3_arguments finds them. What the standard leaves free is not looked
 * at, an argument that is passed by an address is read where that points, and padding in values and between them is 0.
 *
 * FFI3_OK: VALUES is filled.
 * FFI3_WRONG_SIZE: SIZE is not that of the values. FFI3_SHORT_STACK: arguments reach past STACK.
 * FFI3_NOT_IN_STACK: REASON says which address is not in STACK.
 */
uint32_t ffi3_collect(struct ffi3_interface *interface, const struct ffi3_registers *registers,
                      const unsigned char *stack, size_t stack_length, unsigned char *values, size_t size,
                      struct ffi3_reason *reason);

/* uint32_t ffi3_give(struct ffi3_interface *INTERFACE, const unsigned char *RESULT, size_t SIZE,
 *                    struct ffi3_registers *REGISTERS, unsigned char *STACK, size_t STACK_LENGTH,
 *                    struct ffi3_reason *REASON)
 *
 * The callee's, before its return. REGISTERS and STACK are as at the entry, and the places of a hidden result's address
 * have what stood there. Written are the registers of the result, extended as ffi3_piece says; or the buffer that the
 * address points to, and the register in which the standard gives that address back. All else stays, and so does sp,
 * which at the return is link bytes higher. A caller that has its buffer where the return address stands has it
 * overwritten.
 *
 * FFI3_OK: done.
 * FFI3_WRONG_SIZE: SIZE is not that of the result. FFI3_SHORT_STACK: the return address, or the place of the buffer's
 *     address, stands past STACK. FFI3_HIGH_STACK.
 * FFI3_NOT_IN_STACK: REASON->address is the buffer's, and not all of it is in STACK.
 */
uint32_t ffi3_give(struct ffi3_interface *interface, const unsigned char *result, size_t size,
                   struct ffi3_registers *registers, unsigned char *stack, size_t stack_length,
                   struct ffi3_reason *reason);

/* MOVES: the same as plain data, for whoever compiles calls, or plays them. Values are packed as above. An exchange is
 * an array of bytes: general register R at 8 * R, floating register R at 256 + 8 * R, x87's words as ffi3_registers has
 * them, then 64 bytes, and from FFI3_FRAME_AT on the frame. In these 64 bytes, from 512 on, stand the high 64 bits of
 * AArch64's v0 to v7, where a call by FFI3_AAPCS64 has a long double there; no move of another call speaks of them.
 * Whoever plays the first list, and the last of a hidden result, has an exchange from which the callee is entered;
 * whoever plays the second from the exchange at the return has the result; the third and the fourth are the callee's.
 * Any number of threads may read moves. */
#define FFI3_FRAME_AT 576

/* LISTS of moves. */
#define FFI3_MOVES_TO_STORE 0   /* the caller's arguments: from the values to the exchange */
#define FFI3_MOVES_TO_LOAD 1    /* the caller's result: from the exchange to the result. A hidden one is read from the
                                   frame's buffer */
#define FFI3_MOVES_TO_COLLECT 2 /* the callee's arguments: from the exchange to the values */
#define FFI3_MOVES_TO_GIVE 3    /* the callee's result: from the result to the exchange. A hidden one has none: it goes
                                   to where its address points, which is given back at `returned` of ffi3_sizes */
#define FFI3_MOVES_OF_HIDDEN 4  /* the address of the frame's buffer for a hidden result, to the exchange; else none.
                                   A caller with a buffer of its own writes the address of that there */

/* KINDS OF MOVE: which bytes are written. They are played in the order of the list. */
#define FFI3_MOVE_BYTES 0   /* `length` bytes from `from` on */
#define FFI3_MOVE_ZERO 1    /* these, and zeros above them, eight in all */
#define FFI3_MOVE_SIGN 2    /* these, and their highest bit above them, eight in all */
#define FFI3_MOVE_ONES 3    /* these, and ones above them, eight in all */
#define FFI3_MOVE_NUMBER 4  /* the number `from`, in eight bytes */
#define FFI3_MOVE_ADDRESS 5 /* the address of byte `from` of the frame, in eight bytes */
#define FFI3_MOVE_BEHIND 6  /* `length` bytes from where the address points that stands at `from` */

struct ffi3_move {
    uint32_t kind;   /* FFI3_MOVE_BYTES and so on */
    uint32_t part;   /* the argument's number; 0 of a result, and of the number of vector registers */
    uint64_t from;   /* see the kinds */
    uint64_t to;     /* the first byte that is written */
    uint64_t length; /* how many bytes are read; 8 of a number or an address */
};

/* uint32_t ffi3_moves(struct ffi3_interface *INTERFACE, uint32_t LIST, size_t *COUNT, struct ffi3_move *MOVES,
 *                     size_t CAPACITY)
 *
 * The moves of a list. MOVES is an array of CAPACITY elements; the elements from *COUNT on stay as they were.
 *
 * FFI3_OK: COUNT and MOVES are filled.
 * FFI3_TOO_SMALL: *COUNT is how many there are, and MOVES is as it was.
 * FFI3_UNKNOWN_VALUE, told first, FFI3_NOT_PREPARED; FFI3_OUT_OF_MEMORY, only where they are 2^64 or more: *COUNT is 0,
 *     and MOVES as it was.
 */
uint32_t ffi3_moves(struct ffi3_interface *interface, uint32_t list, size_t *count, struct ffi3_move *moves,
                    size_t capacity);

/* size_t ffi3_fault_text(const struct ffi3_fault *FAULT, char *TEXT, size_t CAPACITY)
 *
 * The words of a fault, as "at 8: bad token". Answers how long they are, without the terminating NUL; they are written,
 * with that NUL, only where CAPACITY is greater: 64 is enough for each. Answers 0 where FAULT has no such kind, for
 * FFI3_NO_FAULT, and where malloc refused; only then may TEXT be as it was though it had room.
 */
size_t ffi3_fault_text(const struct ffi3_fault *fault, char *text, size_t capacity);

/* size_t ffi3_fault_lines(uint32_t TARGET, const char *TEXT, size_t LENGTH, char *LINES, size_t CAPACITY)
 *
 * Why the LENGTH bytes at TEXT declare no function for calls by the standard TARGET, in lines for a person, each with
 * its newline: the fault, as ffi3_fault_text has it, behind "ret: " or "arg J: " where it is that of a value, and of
 * FFI3_UNEXPECTED what ffi3_check_text tells, in words; and of a fault at a byte of the text the line that has the
 * byte, and a "^" below it:
 *
 *     at 12: unexpected 'y', expected ')', ',', '(' or '['
 *     int f(int x y)
 *                 ^
 *
 * A control character of the text is a blank there, and where only blanks follow, the "^" stands before them. Answers
 * how long the lines are, without the terminating NUL; they are written, with that NUL, only where CAPACITY is greater:
 * a CAPACITY of 0 asks for the length. Answers 0 where the text declares a function, where no standard has the number,
 * and where malloc refused; only then may LINES be as it was though it had room.
 */
size_t ffi3_fault_lines(uint32_t target, const char *text, size_t length, char *lines, size_t capacity);

/* size_t ffi3_register_name(uint32_t TARGET, uint32_t PLACE, uint32_t NUMBER, char *NAME, size_t CAPACITY)
 *
 * The name of register NUMBER, as "rdi", "x0", "fa0": a general one where PLACE is FFI3_GENERAL, a floating one where
 * it is FFI3_FLOATING, st0 or st1 where it is FFI3_X87. Numbers are those of the machine's instructions. Answers how
 * long the name is, without the terminating NUL; it is written, with that NUL, only where CAPACITY is greater: 8 is
 * enough for each. What is no register has the empty name.
 */
size_t ffi3_register_name(uint32_t target, uint32_t place, uint32_t number, char *name, size_t capacity);

/* The version of the library that is linked, to compare with FFI3_VERSION. */
uint32_t ffi3_version(void);

#ifdef __cplusplus
}
#endif

#endif
