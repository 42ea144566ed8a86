/* Structs and unions that their client laid out itself, to functions that a compiler made: each is passed and given
 * back as the compiler does it, or refused; nothing is guessed.  laid_out  links -lffi. */
#include "expect.h"
#include <ffi.h>
#include <stdint.h>
#include <stdlib.h>
#include <string.h>
#include <unistd.h>

#define PACKED __attribute__((packed))
#define ALIGNED(n) __attribute__((aligned(n)))

#define C &ffi_type_sint8
#define S &ffi_type_sint16
#define I &ffi_type_sint32
#define L &ffi_type_sint64
#define F &ffi_type_float
#define D &ffi_type_double
#define P &ffi_type_pointer
#define W &ffi_type_longdouble

/* Of each its name, its C and its elements. It is passed alone, in registers, and behind seven numbers, and given
 * back. */
#define LIST(X)                                                                                       \
    X(packed_floats, struct PACKED { float a; float b; }, F, F)                                       \
    X(packed_three_floats, struct PACKED { float a; float b; float c; }, F, F, F)                     \
    X(packed_doubles, struct PACKED { double a; double b; }, D, D)                                    \
    X(packed_double_int, struct PACKED { double a; int b; }, D, I)                                    \
    X(packed_int_float, struct PACKED { int a; float b; }, I, F)                                      \
    X(packed_double_char, struct PACKED { double a; char b; }, D, C)                                  \
    X(packed_char_double, struct PACKED { char a; double b; }, C, D)                                  \
    X(packed_char_int, struct PACKED { char a; int b; }, C, I)                                        \
    X(packed_short_float, struct PACKED { short a; float b; }, S, F)                                  \
    X(packed_chars, struct PACKED { char a; short b; char c; }, C, S, C)                              \
    X(packed_large, struct PACKED { char a; double b; double c; }, C, D, D)                           \
    X(packed_pointers, struct PACKED { void *a; void *b; }, P, P)                                     \
    X(aligned_8_floats, struct ALIGNED(8) { float a; float b; }, F, F)                                \
    X(aligned_8_float_int, struct ALIGNED(8) { float a; int b; }, F, I)                               \
    X(aligned_8_three, struct ALIGNED(8) { float a; float b; int c; }, F, F, I)                       \
    X(aligned_4_char, struct ALIGNED(4) { char a; }, C)                                               \
    X(aligned_16_doubles, struct ALIGNED(16) { double a; double b; }, D, D)                           \
    X(aligned_16_longs, struct ALIGNED(16) { long a; long b; }, L, L)                                 \
    X(aligned_16_float, struct ALIGNED(16) { float a; float b; }, F, F)                               \
    X(aligned_16_large, struct ALIGNED(16) { double a; double b; double c; }, D, D, D)                \
    X(aligned_32_doubles, struct ALIGNED(32) { double a; double b; double c; double d; }, D, D, D, D) \
    X(union_float_int, union { float a; int b; }, F, I)                                               \
    X(union_float_long, union { float a; long b; }, F, L)                                             \
    X(union_float_double, union { float a; double b; }, F, D)                                         \
    X(union_double_long, union { double a; long b; }, D, L)                                           \
    X(union_chars, union { char a; short b; }, C, S)                                                  \
    X(union_pair, union { struct { float a; float b; } a; double b; }, &two_floats, D)                \
    X(union_mixed, union { struct { float a; int b; } a; double b; }, &float_int, D)                  \
    X(union_wide, union { struct { double a; long b; } a; float b; }, &double_long, F)                \
    X(struct_of_union, struct { union { float a; int b; } a; double b; }, &union_float_int, D)        \
    X(struct_of_packed, struct { struct PACKED { char a; int b; } a; char b; }, &packed_char_int, C)  \
    X(packed_long_double, struct PACKED { long double a; }, W)                                        \
    X(packed_long_doubles, struct PACKED { long double a; long double b; }, W, W)                     \
    X(union_long_double_long, union { long double a; long b; }, W, L)                                 \
    X(union_long_doubles, union { struct { long double a; long double b; } a; long double b; }, &two_long_doubles, W)

static ffi_type *floats[] = {&ffi_type_float, &ffi_type_float, NULL};
static ffi_type *float_and_int[] = {&ffi_type_float, &ffi_type_sint32, NULL};
static ffi_type *double_and_long[] = {&ffi_type_double, &ffi_type_sint64, NULL};
static ffi_type *char_and_int[] = {&ffi_type_sint8, &ffi_type_sint32, NULL};
static ffi_type two_floats = {8, 4, FFI_TYPE_STRUCT, floats}, float_int = {8, 4, FFI_TYPE_STRUCT, float_and_int};
static ffi_type double_long = {16, 8, FFI_TYPE_STRUCT, double_and_long};
static ffi_type union_float_int = {4, 4, FFI_TYPE_STRUCT, float_and_int};
static ffi_type packed_char_int = {5, 1, FFI_TYPE_STRUCT, char_and_int};
static ffi_type *long_doubles[] = {&ffi_type_longdouble, &ffi_type_longdouble, NULL};
static ffi_type two_long_doubles = {32, 16, FFI_TYPE_STRUCT, long_doubles};

#define DECLARE(name, type, ...) typedef type name##_type;
LIST(DECLARE)

static long seen[10]; /* the integers in front, of the call that was made last */

#define FUNCTIONS(name, ...)                                                                               \
    __attribute__((noinline)) static name##_type name##_0(name##_type it) { return it; }                   \
    __attribute__((noinline)) static name##_type name##_7(long a, double b, long c, long d, double e, long f, long g, \
                                                          name##_type it, long h)                           \
    {                                                                                                      \
        long all[] = {a, (long)b, c, d, (long)e, f, g, h};                                                  \
        memcpy(seen, all, sizeof all);                                                                      \
        return it;                                                                                         \
    }
LIST(FUNCTIONS)

/* The bytes of a type in which nothing stands. */
static uint64_t padding_of(const char *name)
{
    static const struct { const char *name; uint64_t bytes; } PADDED[] = {
        {"aligned_8_three", 0xF000}, {"aligned_4_char", 0xE}, {"aligned_16_float", 0xFF00},
        {"aligned_16_large", 0xFF000000}, {"struct_of_union", 0xF0}, {"packed_long_doubles", 0xFC00FC00},
        {"union_long_doubles", 0xFC00FC00},
    };
    for (size_t k = 0; k < sizeof PADDED / sizeof *PADDED; k++)
        if (strcmp(PADDED[k].name, name) == 0)
            return PADDED[k].bytes;
    return 0;
}

/* Calls with random bytes, which have to come back but for PADDING, a bit for each byte; or it is refused. */
static bool is_same(const unsigned char *one, const unsigned char *other, size_t size, uint64_t padding)
{
    for (size_t k = 0; k < size; k++)
        if (one[k] != other[k] && !(padding >> k & 1))
            return false;
    return true;
}

static void pass(const char *name, ffi_type *type, uint64_t padding, void (*alone)(void), void (*behind)(void),
                 int *refused)
{
    unsigned char value[64] __attribute__((aligned(32))), got[64] __attribute__((aligned(32)));
    ffi_type *one[] = {type}, *many[] = {&ffi_type_slong, &ffi_type_double, &ffi_type_slong, &ffi_type_slong,
                                         &ffi_type_double, &ffi_type_slong, &ffi_type_slong, type, &ffi_type_slong};
    ffi_cif cif, cif_behind;
    ffi_status status = ffi_prep_cif(&cif, FFI_DEFAULT_ABI, 1, type, one);
    EXPECT(status == FFI_OK || status == FFI_BAD_TYPEDEF);
    EXPECT(ffi_prep_cif(&cif_behind, FFI_DEFAULT_ABI, 9, type, many) == status);
    printf("%s: size %zu align %u %s\n", name, type->size, type->alignment, status ? "refused" : "passed");
    *refused += status != FFI_OK;
    if (status != FFI_OK)
        return;
    long numbers[] = {1, 0, 3, 4, 0, 6, 7, 8};
    double reals[] = {2, 5};
    void *alone_values[] = {value};
    void *values[] = {&numbers[0], &reals[0],   &numbers[2], &numbers[3], &reals[1],
                      &numbers[5], &numbers[6], value,       &numbers[7]};
    for (int turn = 0; turn < 20; turn++) {
        for (size_t k = 0; k < sizeof value; k++)
            value[k] = (unsigned char)rand();
        /* Of a float that a register holds, a signaling NaN stays what it is: no arithmetic is done. */
        memset(got, 0xEE, sizeof got);
        ffi_call(&cif, alone, got, alone_values);
        EXPECT(is_same(got, value, type->size, padding));
        EXPECT(got[type->size < 8 ? 8 : type->size] == 0xEE);
        memset(got, 0xEE, sizeof got);
        memset(seen, 0, sizeof seen);
        ffi_call(&cif_behind, behind, got, values);
        EXPECT(is_same(got, value, type->size, padding));
        static const long wanted[] = {1, 2, 3, 4, 5, 6, 7, 8};
        EXPECT(memcmp(seen, wanted, sizeof wanted) == 0);
    }
}

/* ---- Complex long doubles in a struct: on x86-64 in memory, where a complex one alone is in x87 registers. */

struct wide { _Complex long double it; };

__attribute__((noinline)) static struct wide turned(struct wide it)
{
    __real__ it.it += 1;
    __imag__ it.it -= 1;
    return it;
}

static void pass_wide(void)
{
    ffi_type *elements[] = {&ffi_type_complex_longdouble, NULL}, type = {0, 0, FFI_TYPE_STRUCT, elements};
    ffi_type *arguments[] = {&type};
    struct wide it, got;
    void *values[] = {&it};
    ffi_cif cif;
    __real__ it.it = 5;
    __imag__ it.it = 7;
    EXPECT(ffi_prep_cif(&cif, FFI_DEFAULT_ABI, 1, &type, arguments) == FFI_OK);
    ffi_call(&cif, FFI_FN(turned), &got, values);
    EXPECT(__real__ got.it == 6 && __imag__ got.it == 6);
}

/* ---- What a client says of a scalar's size counts for nobody: a plan is shared by all of its signature. */

static float half(void) { return 0.5f; }

static void subtract(ffi_cif *cif, void *result, void **values, void *data)
{
    (void)cif, (void)data;
    *(double *)result = *(double *)values[0] - *(double *)values[1];
}

static void say_another_alignment(void)
{
    ffi_type odd = {(size_t)1 << 32, 16, FFI_TYPE_DOUBLE, NULL}, *odds[] = {&odd, &odd};
    ffi_type *doubles[] = {&ffi_type_double, &ffi_type_double};
    ffi_cif first, second;
    void *code;
    ffi_closure *closure = ffi_closure_alloc(sizeof *closure, &code);
    EXPECT(ffi_prep_cif(&first, FFI_DEFAULT_ABI, 2, &ffi_type_double, odds) == FFI_OK);
    EXPECT(ffi_prep_closure_loc(closure, &first, subtract, NULL, code) == FFI_OK);
    EXPECT(ffi_prep_cif(&second, FFI_DEFAULT_ABI, 2, &ffi_type_double, doubles) == FFI_OK);
    EXPECT(ffi_prep_closure_loc(closure, &second, subtract, NULL, code) == FFI_OK);
    EXPECT(((double (*)(double, double))code)(44, 2) == 42);
    ffi_closure_free(closure);
}

static void say_other_sizes(void)
{
    ffi_type narrow = {2, 2, FFI_TYPE_FLOAT, NULL}, *elements[] = {&narrow, NULL};
    ffi_type of_narrow = {2, 2, FFI_TYPE_STRUCT, elements}, *arguments[] = {&of_narrow};
    ffi_type *parts[] = {&ffi_type_double, NULL}, complex = {4, 8, FFI_TYPE_COMPLEX, parts}, *complexes[] = {&complex};
    ffi_cif cif;
    float got = 0;
    (void)ffi_prep_cif(&cif, FFI_DEFAULT_ABI, 0, &narrow, NULL);
    EXPECT(ffi_prep_cif(&cif, FFI_DEFAULT_ABI, 0, &ffi_type_float, NULL) == FFI_OK);
    ffi_call(&cif, FFI_FN(half), &got, NULL);
    EXPECT(got == 0.5f);
    EXPECT(ffi_prep_cif(&cif, FFI_DEFAULT_ABI, 1, &ffi_type_void, arguments) == FFI_BAD_TYPEDEF);
    (void)ffi_prep_cif(&cif, FFI_DEFAULT_ABI, 1, &ffi_type_void, complexes);
    complexes[0] = &ffi_type_complex_double;
    EXPECT(ffi_prep_cif(&cif, FFI_DEFAULT_ABI, 1, &ffi_type_void, complexes) == FFI_OK);
    ffi_type shorter = {8, 8, FFI_TYPE_LONGDOUBLE, NULL}, *long_doubles[] = {&ffi_type_longdouble};
    EXPECT(ffi_prep_cif(&cif, FFI_DEFAULT_ABI, 1, &ffi_type_void, long_doubles) == FFI_OK);
    long_doubles[0] = &shorter;
    EXPECT(ffi_prep_cif(&cif, FFI_DEFAULT_ABI, 1, &ffi_type_void, long_doubles) == FFI_BAD_TYPEDEF);
    EXPECT(ffi_prep_cif(&cif, FFI_DEFAULT_ABI, 0, &shorter, NULL) == FFI_BAD_TYPEDEF);
}

/* ---- Unions of unions, and types that are in themselves: an answer comes, whatever it is. */

static void end_soon(void)
{
    ffi_type unions[17], *elements[17][3], round, *rounds[] = {&round, &round, &round, NULL}, *arguments[1];
    ffi_cif cif;
    alarm(20);
    unions[0] = (ffi_type){4, 4, FFI_TYPE_SINT32, NULL};
    for (int depth = 1; depth <= 16; depth++) {
        elements[depth][0] = elements[depth][1] = &unions[depth - 1];
        elements[depth][2] = NULL;
        unions[depth] = (ffi_type){4, 4, FFI_TYPE_STRUCT, elements[depth]};
        arguments[0] = &unions[depth];
        ffi_status status = ffi_prep_cif(&cif, FFI_DEFAULT_ABI, 1, &ffi_type_void, arguments);
        EXPECT(status == FFI_OK || (depth > 4 && status == FFI_BAD_TYPEDEF));
    }
    arguments[0] = &round;
    for (size_t size = 0; size <= 48; size += 8) {
        round = (ffi_type){size, size ? 8 : 0, FFI_TYPE_STRUCT, rounds};
        ffi_status status = ffi_prep_cif(&cif, FFI_DEFAULT_ABI, 1, &ffi_type_void, arguments);
        EXPECT(status == FFI_BAD_TYPEDEF || size > 16);
    }
    alarm(0);
}

int main(int count, char **words)
{
    int refused = 0, most = count > 1 ? atoi(words[1]) : 100;
#define PASS(name, type, ...)                                                                                      \
    {                                                                                                              \
        ffi_type *elements[] = {__VA_ARGS__, NULL};                                                                \
        ffi_type it = {sizeof(name##_type), _Alignof(name##_type), FFI_TYPE_STRUCT, elements};                     \
        pass(#name, &it, padding_of(#name), FFI_FN(name##_0), FFI_FN(name##_7), &refused);                         \
    }
    LIST(PASS)
    pass_wide();
    say_another_alignment();
    say_other_sizes();
    end_soon();
    printf("%d refused\n", refused);
    EXPECT(refused <= most);
    return ended();
}
