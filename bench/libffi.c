/* Nanoseconds of libffi's functions in two libraries, in turns, in one run: libffi LIBFFI OURS
 * Each number is the least of 15 turns, of the thread's own time. The last line says the largest ratio, but for the
 * first preparation of a signature and the first offsets of a struct.
 *
 * libffi LIBRARY LINE SIGNATURE TIMES does so many times what a line tells of, for whoever counts instructions; libffi
 * alone prints the lines, each behind its number and that of its signature. */
#define _GNU_SOURCE
#include <dlfcn.h>
#include <ffi.h>
#include <stdio.h>
#include <stdlib.h>
#include <string.h>
#include <time.h>

#define TURNS 15

static int times = 200000;

struct library {
    __typeof__(ffi_prep_cif) *prep_cif;
    __typeof__(ffi_prep_cif_var) *prep_cif_var;
    __typeof__(ffi_call) *call;
    __typeof__(ffi_closure_alloc) *closure_alloc;
    __typeof__(ffi_closure_free) *closure_free;
    __typeof__(ffi_prep_closure_loc) *prep_closure_loc;
    __typeof__(ffi_get_struct_offsets) *get_struct_offsets;
};

static struct library opened(const char *path)
{
    void *it = dlopen(path, RTLD_NOW | RTLD_LOCAL);
    if (!it) {
        fprintf(stderr, "%s\n", dlerror());
        exit(1);
    }
    return (struct library){dlsym(it, "ffi_prep_cif"), dlsym(it, "ffi_prep_cif_var"), dlsym(it, "ffi_call"),
                            dlsym(it, "ffi_closure_alloc"), dlsym(it, "ffi_closure_free"),
                            dlsym(it, "ffi_prep_closure_loc"), dlsym(it, "ffi_get_struct_offsets")};
}

static double now(void)
{
    struct timespec at;
    clock_gettime(CLOCK_THREAD_CPUTIME_ID, &at);
    return at.tv_sec * 1e9 + at.tv_nsec;
}

/* ---- What is called */

struct pair { double x, y; };
struct triple { long a, b, c; };
struct mixed { int id; float weight; };

__attribute__((noinline)) static void nothing(void) { __asm__ volatile(""); }
__attribute__((noinline)) static int sum(int a, int b) { return a + b; }
__attribute__((noinline)) static double sum4(double a, double b, double c, double d) { return a + b + c + d; }
__attribute__((noinline)) static struct pair swap(struct pair p) { return (struct pair){p.y, p.x}; }
__attribute__((noinline)) static struct triple turn(struct triple t) { return (struct triple){t.b, t.c, t.a}; }
__attribute__((noinline)) static double weigh(struct mixed m, char *label, double scale)
{
    return m.id * m.weight * scale + (label != NULL);
}
__attribute__((noinline)) static long sum10(int a, long b, int c, long d, int e, long f, int g, long h, int i, long j)
{
    return a + b + c + d + e + f + g + h + i + j;
}

static ffi_type *two_doubles[] = {&ffi_type_double, &ffi_type_double, NULL};
static ffi_type *three_longs[] = {&ffi_type_slong, &ffi_type_slong, &ffi_type_slong, NULL};
static ffi_type *int_float[] = {&ffi_type_sint, &ffi_type_float, NULL};
static ffi_type pair = {16, 8, FFI_TYPE_STRUCT, two_doubles}, triple = {24, 8, FFI_TYPE_STRUCT, three_longs},
                mixed = {8, 4, FFI_TYPE_STRUCT, int_float};

#define INT &ffi_type_sint
#define LONG &ffi_type_slong
#define DOUBLE &ffi_type_double

static struct signature {
    const char *name;
    void (*fn)(void);
    ffi_type *result;
    unsigned count;
    ffi_type *arguments[10];
} SIGNATURES[] = {
    {"void(void)", FFI_FN(nothing), &ffi_type_void, 0, {0}},
    {"int(int, int)", FFI_FN(sum), INT, 2, {INT, INT}},
    {"double(double x4)", FFI_FN(sum4), DOUBLE, 4, {DOUBLE, DOUBLE, DOUBLE, DOUBLE}},
    {"pair(pair), 16 bytes", FFI_FN(swap), &pair, 1, {&pair}},
    {"triple(triple), 24 bytes", FFI_FN(turn), &triple, 1, {&triple}},
    {"double(mixed, char *, double)", FFI_FN(weigh), DOUBLE, 3, {&mixed, &ffi_type_pointer, DOUBLE}},
    {"long(int, long, .. 10)", FFI_FN(sum10), LONG, 10, {INT, LONG, INT, LONG, INT, LONG, INT, LONG, INT, LONG}},
};
#define COUNT (sizeof SIGNATURES / sizeof *SIGNATURES)

static void values_of(const struct signature *it, void **values, char (*room)[32])
{
    for (unsigned i = 0; i < it->count; i++) {
        memset(room[i], 0, 32);
        values[i] = room[i];
    }
}

/* ---- What is measured: nanoseconds of one */

static double of_call(const struct library *it, const struct signature *signature)
{
    ffi_cif cif;
    void *values[10];
    char room[10][32], result[32];
    if (it->prep_cif(&cif, FFI_DEFAULT_ABI, signature->count, signature->result, (ffi_type **)signature->arguments))
        return -1;
    values_of(signature, values, room);
    double start = now();
    for (int k = 0; k < times; k++)
        it->call(&cif, signature->fn, result, values);
    return (now() - start) / times;
}

static double of_prep(const struct library *it, const struct signature *signature)
{
    ffi_cif cif;
    double start = now();
    for (int k = 0; k < times; k++)
        it->prep_cif(&cif, FFI_DEFAULT_ABI, signature->count, signature->result, (ffi_type **)signature->arguments);
    return (now() - start) / times;
}

static void answer(ffi_cif *cif, void *result, void **values, void *data)
{
    (void)data;
    if (cif->rtype->type == FFI_TYPE_STRUCT)
        memcpy(result, values[0], cif->rtype->size);
    else if (cif->rtype->type != FFI_TYPE_VOID)
        memset(result, 0, 8);
}

static double of_closure(const struct library *it, const struct signature *signature)
{
    ffi_cif cif;
    void *code;
    ffi_closure *closure = it->closure_alloc(sizeof *closure, &code);
    it->prep_cif(&cif, FFI_DEFAULT_ABI, signature->count, signature->result, (ffi_type **)signature->arguments);
    it->prep_closure_loc(closure, &cif, answer, NULL, code);
    double start = now();
    unsigned which = signature - SIGNATURES;
    volatile double kept;
    for (int k = 0; k < times; k++)
        switch (which) {
        case 0: ((void (*)(void))code)(); break;
        case 1: kept = ((int (*)(int, int))code)(k, 2); break;
        case 2: kept = ((double (*)(double, double, double, double))code)(k, 2, 3, 4); break;
        case 3: kept = ((struct pair(*)(struct pair))code)((struct pair){k, 2}).x; break;
        case 4: kept = ((struct triple(*)(struct triple))code)((struct triple){k, 2, 3}).a; break;
        case 5: kept = ((double (*)(struct mixed, char *, double))code)((struct mixed){k, 2}, 0, 3); break;
        default: kept = ((long (*)(int, long, int, long, int, long, int, long, int, long))code)(1, 2, 3, 4, 5, 6, 7, 8,
                                                                                              9, k);
        }
    double took = (now() - start) / times;
    (void)kept;
    it->closure_free(closure);
    return took;
}

static double of_alloc(const struct library *it, const struct signature *signature)
{
    ffi_cif cif;
    void *code;
    it->prep_cif(&cif, FFI_DEFAULT_ABI, signature->count, signature->result, (ffi_type **)signature->arguments);
    double start = now();
    for (int k = 0; k < times / 10; k++) {
        ffi_closure *closure = it->closure_alloc(sizeof *closure, &code);
        it->prep_closure_loc(closure, &cif, answer, NULL, code);
        it->closure_free(closure);
    }
    return (now() - start) / (times / 10);
}

static double of_layout(const struct library *it, const struct signature *signature)
{
    ffi_type type = {0, 0, FFI_TYPE_STRUCT, two_doubles};
    size_t offsets[2];
    (void)signature;
    double start = now();
    for (int k = 0; k < times / 100; k++)
        it->get_struct_offsets(FFI_DEFAULT_ABI, &type, offsets);
    return (now() - start) / (times / 100);
}

/* Six types of eight, a quarter of them structs: others for each number below 8^6, as the factor is odd. */
static void draw(unsigned number, ffi_type **types)
{
    static ffi_type *kinds[] = {INT, LONG, DOUBLE, &ffi_type_float, &ffi_type_pointer, &ffi_type_uint8, &mixed, &pair};
    number = number * 162019 % (1 << 18);
    for (unsigned i = 0; i < 6; i++, number /= 8)
        types[i] = kinds[number % 8];
}

/* The first preparation of a signature, each of another one. */
static double of_first_prep(const struct library *it, const struct signature *signature)
{
    ffi_type *arguments[6];
    ffi_cif cif;
    (void)signature;
    double start = now();
    for (int k = 0; k < times / 100; k++) {
        draw(k, arguments);
        it->prep_cif(&cif, FFI_DEFAULT_ABI, 6, INT, arguments);
    }
    return (now() - start) / (times / 100);
}

/* The first offsets of a struct, each of another one. */
static double of_first_layout(const struct library *it, const struct signature *signature)
{
    ffi_type *elements[7] = {0};
    size_t offsets[6];
    (void)signature;
    double start = now();
    for (int k = 0; k < times / 100; k++) {
        ffi_type type = {0, 0, FFI_TYPE_STRUCT, elements};
        draw(k, elements);
        it->get_struct_offsets(FFI_DEFAULT_ABI, &type, offsets);
    }
    return (now() - start) / (times / 100);
}

static const struct line {
    const char *name;
    double (*of)(const struct library *, const struct signature *);
    unsigned count;      /* of signatures */
    int part;            /* it is done so many times less */
    const char *remark;
} LINES[] = {
    {"ffi_call", of_call, COUNT, 1, NULL},
    {"closure", of_closure, COUNT, 1, NULL},
    {"ffi_prep_cif", of_prep, COUNT, 1, NULL},
    {"offsets", of_layout, 1, 100, ""},
    {"alloc, prep, free", of_alloc, 1, 10, ""},
    {"first prep", of_first_prep, 1, 100, "of 6 arguments"},
    {"first offsets", of_first_layout, 1, 100, "of 6 elements"},
};
#define LINES_COUNT (sizeof LINES / sizeof *LINES)

static const char *name_of(const struct line *line, unsigned i)
{
    return line->remark ? line->remark : SIGNATURES[i].name;
}

static int is_once(const struct line *line)
{
    return line->of == of_first_prep || line->of == of_first_layout;
}

/* Both times, and their ratio. What is first is so only once. */
static double compare(const struct line *line, unsigned i, const struct library *libraries)
{
    double least[2] = {1e18, 1e18};
    for (int turn = 0; turn < (is_once(line) ? 1 : TURNS); turn++)
        for (int k = 0; k < 2; k++) {
            double took = line->of(&libraries[k], &SIGNATURES[i]);
            least[k] = took < least[k] ? took : least[k];
        }
    printf("%-17s %-31s %8.1f %8.1f %6.2f\n", line->name, name_of(line, i), least[0], least[1], least[1] / least[0]);
    return least[1] / least[0];
}

static void compare_all(const struct library *libraries)
{
    double largest = 0;
    printf("%-17s %-31s %8s %8s %6s\n", "ns", "", "libffi", "ours", "ratio");
    for (const struct line *line = LINES; line < LINES + LINES_COUNT; line++)
        for (unsigned i = 0; i < line->count; i++) {
            double ratio = compare(line, i, libraries);
            if (ratio > largest && !is_once(line))
                largest = ratio;
        }
    printf("largest ratio %.2f\n", largest);
}

int main(int count, char **words)
{
    if (count == 1) {
        for (const struct line *line = LINES; line < LINES + LINES_COUNT; line++)
            for (unsigned i = 0; i < line->count; i++)
                printf("%d %u %-17s %-31s\n", (int)(line - LINES), i, line->name, name_of(line, i));
        return 0;
    }
    if (count == 5) {
        struct library library = opened(words[1]);
        const struct line *line = &LINES[atoi(words[2]) % LINES_COUNT];
        times = atoi(words[4]) * line->part;
        line->of(&library, &SIGNATURES[atoi(words[3]) % COUNT]);
        return 0;
    }
    if (count != 3)
        return 2;
    struct library libraries[2] = {opened(words[1]), opened(words[2])};
    compare_all(libraries);
    return 0;
}
