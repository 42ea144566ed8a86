/* Memory that malloc refuses, behind each of the first requests and some of the others: what needs it says so, and
 * nothing is left by which what comes later would be wrong; and calls need none.  refused  links -lffi. */
#include "expect.h"
#include <ffi.h>
#include <stddef.h>
#include <sys/wait.h>
#include <unistd.h>

void *__libc_malloc(size_t size);
void *__libc_calloc(size_t count, size_t size);
void *__libc_realloc(void *at, size_t size);

static long left = -1; /* requests that are answered before all are refused; -1: none is */
static bool was_refused;

static bool is_given(void)
{
    was_refused = was_refused || left == 0;
    left -= left > 0;
    return left != 0 || !was_refused;
}

void *malloc(size_t size) { return is_given() ? __libc_malloc(size) : NULL; }
void *calloc(size_t count, size_t size) { return is_given() ? __libc_calloc(count, size) : NULL; }
void *realloc(void *at, size_t size) { return is_given() ? __libc_realloc(at, size) : NULL; }

/* ---- What is asked for: interfaces of few arguments and of many, a closure of each, and offsets of many members. */

enum { MOST = 64, MEMBERS = 100 };

static ffi_type *doubles[] = {&ffi_type_double, &ffi_type_double, NULL}, *ends[] = {&ffi_type_uint8, NULL, NULL};
static ffi_type pair = {0, 0, FFI_TYPE_STRUCT, doubles}, nested = {0, 0, FFI_TYPE_STRUCT, ends};
static double numbers[] = {1.5, 2};
static void *values[MOST];

static void receive(ffi_cif *cif, void *result, void **given, void *data)
{
    double sum = 0;
    for (unsigned i = 0; i < cif->nargs; i++)
        sum += cif->arg_types[i]->type == FFI_TYPE_VOID ? 1.5 : *(double *)given[i];
    *(double *)result = data == numbers ? sum : 0;
}

/* Whether a call to a closure of so many arguments comes back, or a refusal. */
static bool is_called(unsigned count, ffi_type **types)
{
    ffi_cif cif;
    double got = 0;
    void *code;
    ffi_status status = ffi_prep_cif(&cif, FFI_DEFAULT_ABI, count, &ffi_type_double, types);
    ffi_closure *closure = ffi_closure_alloc(sizeof *closure, &code);
    EXPECT(status == FFI_OK || (status == FFI_BAD_TYPEDEF && was_refused));
    EXPECT(closure || was_refused);
    if (status == FFI_OK && closure) {
        status = ffi_prep_closure_loc(closure, &cif, receive, numbers, code);
        EXPECT(status == FFI_OK || (status == FFI_BAD_TYPEDEF && was_refused));
        if (status == FFI_OK) {
            ffi_call(&cif, FFI_FN(code), &got, values);
            EXPECT(got == 1.5 * count);
        }
    }
    ffi_closure_free(closure);
    return got != 0;
}

static bool is_laid_out(void)
{
    static ffi_type *members[MEMBERS + 1];
    size_t offsets[MEMBERS];
    for (int i = 0; i < MEMBERS; i++)
        members[i] = i % 2 ? &pair : &nested;
    ffi_type type = {0, 0, FFI_TYPE_STRUCT, members};
    ffi_status status = ffi_get_struct_offsets(FFI_DEFAULT_ABI, &type, offsets);
    EXPECT(status == FFI_OK || (status == FFI_BAD_TYPEDEF && was_refused));
    EXPECT(status != FFI_OK || (type.size == 24 * MEMBERS / 2 && offsets[99] == 24 * 49 + 8));
    return status == FFI_OK;
}

/* Whether all of it was answered. */
static bool play(void)
{
    ffi_type *few[] = {&ffi_type_double, &ffi_type_double}, *pairs[MOST], *voids[MOST];
    bool is_all = is_called(2, few);
    for (int i = 0; i < MOST; i++) {
        pairs[i] = &pair;
        voids[i] = i % 2 ? &ffi_type_double : &ffi_type_void;
        values[i] = numbers;
    }
    is_all = is_called(MOST, pairs) && is_all;
    is_all = is_called(MOST, voids) && is_all;
    is_all = is_laid_out() && is_all;
    return is_called(2, few) && is_all;
}

/* With all requests refused behind so many, and then with none: whether any was. */
static bool is_refused_behind(long given)
{
    int status = 0;
    pid_t child = fork();
    if (child == 0) {
        left = given;
        bool is_all = play();
        left = -1;
        bool was = was_refused;
        EXPECT(is_all || was);
        was_refused = false;
        EXPECT(play());
        fflush(stdout);
        _exit(failed ? 2 : was);
    }
    waitpid(child, &status, 0);
    EXPECT(WIFEXITED(status) && WEXITSTATUS(status) < 2);
    return WIFEXITED(status) && WEXITSTATUS(status) == 1;
}

int main(void)
{
    long given = 0;
    for (int i = 0; i < MOST; i++)
        values[i] = numbers;
    while (is_refused_behind(given) && given < 10000)
        given += 1 + given / 16;
    printf("refused behind up to %ld requests\n", given);
    EXPECT(given > 5);
    return ended();
}
