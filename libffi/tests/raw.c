/* The raw interface, Java's and Go's: calls and closures by each, and the words that arguments are in, as the other
 * library has them.  raw [LIBFFI]  links -lffi; LIBFFI is another library's file. */
#define _GNU_SOURCE
#include "expect.h"
#include <dlfcn.h>
#include <ffi.h>
#include <stdint.h>
#include <string.h>
#include <sys/mman.h>

struct pair { double x, y; };

enum { OF_JAVA = 11, ALL }; /* Java has no structs */

static uint8_t u8 = 250;
static int8_t s8 = -5;
static uint16_t u16 = 65000;
static int16_t s16 = -300;
static uint32_t u32 = 4000000000u;
static int32_t s32 = -70000;
static uint64_t u64 = UINT64_C(1) << 40;
static int64_t s64 = -(INT64_C(1) << 41);
static float real = 0.5f;
static double wide = -2.25;
static void *pointer = (void *)0x1000;
static struct pair pair = {3, 7};

static void *values[ALL] = {&u8, &s8, &u16, &s16, &u32, &s32, &u64, &s64, &real, &wide, &pointer, &pair};
static ffi_type *doubles[] = {&ffi_type_double, &ffi_type_double, NULL};
static ffi_type pair_type = {0, 0, FFI_TYPE_STRUCT, doubles};
static ffi_type *types[ALL] = {&ffi_type_uint8,  &ffi_type_sint8,  &ffi_type_uint16, &ffi_type_sint16,
                               &ffi_type_uint32, &ffi_type_sint32, &ffi_type_uint64, &ffi_type_sint64,
                               &ffi_type_float,  &ffi_type_double, &ffi_type_pointer, &pair_type};

/* A number in which each value counts otherwise. */
static double weigh(void **at, bool has_pair)
{
    double sum = *(uint8_t *)at[0] + 2.0 * *(int8_t *)at[1] + 3.0 * *(uint16_t *)at[2] + 4.0 * *(int16_t *)at[3] +
                 5.0 * *(uint32_t *)at[4] + 6.0 * *(int32_t *)at[5] + 7.0 * (double)*(uint64_t *)at[6] +
                 8.0 * (double)*(int64_t *)at[7] + 9.0 * *(float *)at[8] + 10.0 * *(double *)at[9] +
                 11.0 * (double)*(uintptr_t *)at[10];
    return has_pair ? sum + 12.0 * ((struct pair *)at[11])->x + 13.0 * ((struct pair *)at[11])->y : sum;
}

static double some(uint8_t a, int8_t b, uint16_t c, int16_t d, uint32_t e, int32_t f, uint64_t g, int64_t h, float i,
                   double j, void *k)
{
    return weigh((void *[]){&a, &b, &c, &d, &e, &f, &g, &h, &i, &j, &k}, false);
}

static double all(uint8_t a, int8_t b, uint16_t c, int16_t d, uint32_t e, int32_t f, uint64_t g, int64_t h, float i,
                  double j, void *k, struct pair l)
{
    return weigh((void *[]){&a, &b, &c, &d, &e, &f, &g, &h, &i, &j, &k, &l}, true);
}

static int data;

static void receive(ffi_cif *cif, void *result, ffi_raw *raw, void *user_data)
{
    void *at[ALL];
    ffi_raw_to_ptrarray(cif, raw, at);
    *(double *)result = user_data == &data ? weigh(at, true) : 0;
}

static void receive_java(ffi_cif *cif, void *result, ffi_java_raw *raw, void *user_data)
{
    void *at[ALL];
    ffi_java_raw_to_ptrarray(cif, raw, at);
    *(double *)result = user_data == &data ? weigh(at, false) : 0;
}

static void receive_go(ffi_cif *cif, void *result, void **at, void *closure)
{
    *(double *)result = ((ffi_go_closure *)closure)->cif == cif ? weigh(at, true) : 0;
}

/* Memory that a closure may be written to and run in. */
static void *own_page(void)
{
    return mmap(NULL, 4096, PROT_READ | PROT_WRITE | PROT_EXEC, MAP_PRIVATE | MAP_ANONYMOUS, -1, 0);
}

static void play_raw(ffi_cif *cif)
{
    ffi_raw words[2 * ALL];
    double got = 0;
    void *code;
    EXPECT(ffi_raw_size(cif) == ALL * sizeof *words);
    ffi_ptrarray_to_raw(cif, values, words);
    EXPECT(words[1].sint == -5 && words[4].uint == 4000000000u && words[11].ptr == &pair);
    ffi_raw_call(cif, FFI_FN(all), &got, words);
    EXPECT(got == weigh(values, true));
    ffi_raw_closure *closure = ffi_closure_alloc(sizeof *closure, &code), *own = own_page();
    EXPECT(ffi_prep_raw_closure_loc(closure, cif, receive, &data, code) == FFI_OK);
    EXPECT(ffi_prep_raw_closure(own, cif, receive, &data) == FFI_OK);
    for (int k = 0; k < 2; k++) {
        __typeof__(all) *called = (__typeof__(all) *)(k ? (void *)own : code);
        got = called(u8, s8, u16, s16, u32, s32, u64, s64, real, wide, pointer, pair);
        EXPECT(got == weigh(values, true));
    }
    ffi_cif none = {.abi = FFI_LAST_ABI};
    EXPECT(ffi_prep_raw_closure_loc(closure, &none, receive, &data, code) == FFI_BAD_ABI);
    ffi_closure_free(closure);
}

static void play_java(ffi_cif *cif)
{
    ffi_java_raw words[2 * ALL];
    double got = 0;
    void *code;
    EXPECT(ffi_java_raw_size(cif) == (OF_JAVA + 3) * sizeof *words);
    ffi_java_ptrarray_to_raw(cif, values, words);
    EXPECT(words[5].sint == -70000 && words[13].ptr == pointer);
    ffi_java_raw_call(cif, FFI_FN(some), &got, words);
    EXPECT(got == weigh(values, false));
    ffi_java_raw_closure *closure = ffi_closure_alloc(sizeof *closure, &code), *own = own_page();
    EXPECT(ffi_prep_java_raw_closure_loc(closure, cif, receive_java, &data, code) == FFI_OK);
    EXPECT(ffi_prep_java_raw_closure(own, cif, receive_java, &data) == FFI_OK);
    for (int k = 0; k < 2; k++) {
        __typeof__(some) *called = (__typeof__(some) *)(k ? (void *)own : code);
        got = called(u8, s8, u16, s16, u32, s32, u64, s64, real, wide, pointer);
        EXPECT(got == weigh(values, false));
    }
    ffi_cif none = {.abi = FFI_LAST_ABI};
    EXPECT(ffi_prep_java_raw_closure_loc(closure, &none, receive_java, &data, code) == FFI_BAD_ABI);
    ffi_closure_free(closure);
}

/* A function of Go's is called with the address of its closure, the first word of which is that of its code. */
static void play_go(ffi_cif *cif)
{
    ffi_go_closure closure;
    double got = 0;
    EXPECT(ffi_prep_go_closure(&closure, cif, receive_go) == FFI_OK);
    ffi_call_go(cif, FFI_FN(closure.tramp), &got, values, &closure);
    EXPECT(got == weigh(values, true));
    ffi_cif none = {.abi = FFI_LAST_ABI};
    EXPECT(ffi_prep_go_closure(&closure, &none, receive_go) == FFI_BAD_ABI);
}

/* The same words, where both libraries write them and look for them. */
static void compare(const char *library, ffi_cif *cif, ffi_cif *java)
{
    void *other = library ? dlopen(library, RTLD_NOW | RTLD_LOCAL) : NULL;
    ffi_raw words[2 * ALL], their_words[2 * ALL];
    void *at[ALL] = {NULL}, *their_at[ALL] = {NULL};
    EXPECT(other || !library);
    if (!other)
        return;
    memset(words, 0xEE, sizeof words);
    memset(their_words, 0xEE, sizeof their_words);
#define THEIR(name) ((__typeof__(name) *)dlsym(other, #name))
    EXPECT(ffi_raw_size(cif) == THEIR(ffi_raw_size)(cif));
    ffi_ptrarray_to_raw(cif, values, words);
    THEIR(ffi_ptrarray_to_raw)(cif, values, their_words);
    EXPECT(memcmp(words, their_words, sizeof words) == 0);
    ffi_raw_to_ptrarray(cif, words, at);
    THEIR(ffi_raw_to_ptrarray)(cif, words, their_at);
    EXPECT(memcmp(at, their_at, sizeof at) == 0);
    EXPECT(ffi_java_raw_size(java) == THEIR(ffi_java_raw_size)(java));
    ffi_java_ptrarray_to_raw(java, values, words);
    THEIR(ffi_java_ptrarray_to_raw)(java, values, their_words);
    EXPECT(memcmp(words, their_words, sizeof words) == 0);
    ffi_java_raw_to_ptrarray(java, words, at);
    THEIR(ffi_java_raw_to_ptrarray)(java, words, their_at);
    EXPECT(memcmp(at, their_at, sizeof at) == 0);
}

int main(int count, char **words)
{
    ffi_cif cif, java;
    EXPECT(ffi_prep_cif(&cif, FFI_DEFAULT_ABI, ALL, &ffi_type_double, types) == FFI_OK);
    EXPECT(ffi_prep_cif(&java, FFI_DEFAULT_ABI, OF_JAVA, &ffi_type_double, types) == FFI_OK);
    play_raw(&cif);
    play_java(&java);
    play_go(&cif);
    compare(count > 1 ? words[1] : NULL, &cif, &java);
    return ended();
}
