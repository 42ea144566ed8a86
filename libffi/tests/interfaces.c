/* Interfaces that are checked before they are used: changed ones, those of another library, those that are prepared
 * again while they are called or at once, types that several threads lay out, arguments that are void, limits, and
 * frames larger than a thread's stack.  interfaces [LIBFFI]  links -lffi; LIBFFI is another library's file. */
#define _GNU_SOURCE
#include "expect.h"
#include <dlfcn.h>
#include <ffi.h>
#include <pthread.h>
#include <sched.h>
#include <signal.h>
#include <stdatomic.h>
#include <stdlib.h>
#include <string.h>
#include <sys/mman.h>
#include <sys/wait.h>
#include <unistd.h>

static int add(int a, int b) { return a + b; }
static double same(double a) { return a; }
static int last(int a) { return a; }

static ffi_type *two[] = {&ffi_type_sint32, &ffi_type_sint32};

static int sum(ffi_cif *cif, int a, int b)
{
    void *values[] = {&a, &b};
    ffi_arg result = 0;
    ffi_call(cif, FFI_FN(add), &result, values);
    return (int)result;
}

/* An interface that another library prepared is planned anew, and so is one whose words were changed. */
static void use_others(const char *library)
{
    ffi_cif cif;
    void *handle = library ? dlopen(library, RTLD_NOW | RTLD_LOCAL) : NULL;
    EXPECT(handle || !library);
    if (handle) {
        __typeof__(ffi_prep_cif) *prepare = (__typeof__(ffi_prep_cif) *)dlsym(handle, "ffi_prep_cif");
        EXPECT(prepare(&cif, FFI_DEFAULT_ABI, 2, &ffi_type_sint32, two) == FFI_OK);
        EXPECT(sum(&cif, 4, 5) == 9);
    }
    EXPECT(ffi_prep_cif(&cif, FFI_DEFAULT_ABI, 2, &ffi_type_sint32, two) == FFI_OK);
    for (unsigned bit = 0; bit < 32; bit++) {
        ffi_cif changed = cif;
        changed.flags ^= 1u << bit;
        EXPECT(bit < 24 || sum(&changed, 4, 5) == 9);
    }
    ffi_cif zero = {.abi = FFI_DEFAULT_ABI, .nargs = 2, .rtype = &ffi_type_sint32, .arg_types = two};
    EXPECT(sum(&zero, 4, 5) == 9);
}

/* What nothing can be planned for ends the process, and is not called. */
static void use_none(void)
{
    pid_t child = fork();
    int status;
    if (child == 0) {
        ffi_cif cif;
        memset(&cif, 0xFF, sizeof cif);
        fclose(stderr);
        ffi_call(&cif, FFI_FN(add), NULL, NULL);
        _exit(0);
    }
    waitpid(child, &status, 0);
    EXPECT(WIFSIGNALED(status) && WTERMSIG(status) == SIGABRT);
}

static ffi_cif hot;
static atomic_bool is_over;

static void *prepare_again(void *data)
{
    while (!is_over)
        ffi_prep_cif(&hot, FFI_DEFAULT_ABI, 2, &ffi_type_sint32, two);
    return data;
}

static void call_while_prepared(void)
{
    pthread_t thread;
    int wrong = 0;
    ffi_prep_cif(&hot, FFI_DEFAULT_ABI, 2, &ffi_type_sint32, two);
    pthread_create(&thread, NULL, prepare_again, NULL);
    for (int i = 0; i < 500000; i++)
        wrong += sum(&hot, i, 1) != i + 1;
    is_over = true;
    pthread_join(thread, NULL);
    EXPECT(wrong == 0);
}

struct pair { double x, y; };

static double weigh(struct pair it) { return it.x + 10 * it.y; }

static ffi_type *doubles[] = {&ffi_type_double, &ffi_type_double, NULL};
static ffi_type shared;
static pthread_barrier_t barrier;
static atomic_int wrong_layouts;

static void *lay_out_at_once(void *is_first)
{
    for (int turn = 0; turn < 20000; turn++) {
        pthread_barrier_wait(&barrier);
        ffi_type *arguments[] = {&shared};
        ffi_cif cif;
        struct pair it = {1, 2};
        void *values[] = {&it};
        double got = 0;
        if (ffi_prep_cif(&cif, FFI_DEFAULT_ABI, 1, &ffi_type_double, arguments) == FFI_OK)
            ffi_call(&cif, FFI_FN(weigh), &got, values);
        wrong_layouts += got != 21;
        pthread_barrier_wait(&barrier);
        if (is_first)
            shared = (ffi_type){0, 0, FFI_TYPE_STRUCT, doubles};
    }
    return NULL;
}

static void lay_out_in_threads(void)
{
    pthread_t threads[3];
    shared = (ffi_type){0, 0, FFI_TYPE_STRUCT, doubles};
    pthread_barrier_init(&barrier, NULL, 3);
    for (long k = 0; k < 3; k++)
        pthread_create(&threads[k], NULL, lay_out_at_once, k == 0 ? &shared : NULL);
    for (int k = 0; k < 3; k++)
        pthread_join(threads[k], NULL);
    EXPECT(wrong_layouts == 0);
}

/* Arguments that are void have no place; there may be many. */
static void pass_voids(void)
{
    enum { COUNT = 70000 };
    static ffi_type *types[COUNT];
    static void *values[COUNT];
    int number = 42, other = 1;
    ffi_cif cif;
    for (int i = 0; i < COUNT; i++)
        types[i] = &ffi_type_void, values[i] = &other;
    types[60000] = &ffi_type_sint32;
    values[60000] = &number;
    ffi_arg got = 0;
    EXPECT(ffi_prep_cif(&cif, FFI_DEFAULT_ABI, 60001, &ffi_type_sint32, types) == FFI_OK);
    ffi_call(&cif, FFI_FN(last), &got, values);
    EXPECT((int)got == 42);
    EXPECT(ffi_prep_cif(&cif, FFI_DEFAULT_ABI, COUNT, &ffi_type_sint32, types) == FFI_BAD_TYPEDEF);
}

/* ---- The limits that ffi.3 names. */

static ffi_status status_of(ffi_type *type)
{
    ffi_type *arguments[] = {type};
    ffi_cif cif;
    return ffi_prep_cif(&cif, FFI_DEFAULT_ABI, 1, &ffi_type_void, arguments);
}

static void keep_limits(void)
{
    static ffi_type *arguments[66], *words[514], levels[17], *elements[17][2];
    static size_t offsets[513];
    ffi_type block = {0, 0, FFI_TYPE_STRUCT, words}, over = {0, 0, FFI_TYPE_STRUCT, words};
    ffi_cif cif;
    for (int i = 0; i < 66; i++)
        arguments[i] = i == 9 ? &ffi_type_void : &ffi_type_sint32;
    EXPECT(ffi_prep_cif(&cif, FFI_DEFAULT_ABI, 65, &ffi_type_void, arguments) == FFI_OK);
    EXPECT(ffi_prep_cif(&cif, FFI_DEFAULT_ABI, 66, &ffi_type_void, arguments) == FFI_BAD_TYPEDEF);
    EXPECT(ffi_prep_cif_var(&cif, FFI_DEFAULT_ABI, 1, 66, &ffi_type_void, arguments) == FFI_BAD_ARGTYPE);
    for (int i = 0; i < 512; i++)
        words[i] = &ffi_type_uint64;
    EXPECT(ffi_get_struct_offsets(FFI_DEFAULT_ABI, &block, offsets) == FFI_OK && block.size == 4096);
    EXPECT(offsets[511] == 4088 && status_of(&block) == FFI_OK);
    words[512] = &ffi_type_uint8;
    EXPECT(ffi_get_struct_offsets(FFI_DEFAULT_ABI, &over, offsets) == FFI_BAD_TYPEDEF);
    EXPECT(status_of(&over) == FFI_BAD_TYPEDEF);
    for (int k = 0; k < 17; k++) {
        elements[k][0] = k ? &levels[k - 1] : &ffi_type_sint32;
        levels[k] = (ffi_type){0, 0, FFI_TYPE_STRUCT, elements[k]};
    }
    EXPECT(status_of(&levels[15]) == FFI_OK && levels[15].size == 4);
    EXPECT(status_of(&levels[16]) == FFI_BAD_TYPEDEF);
}

/* Offsets are the same when they are asked for again, of few members and of many. */
static void tell_offsets(void)
{
    enum { MOST = 100 };
    static ffi_type *members[MOST + 1], *floats[] = {&ffi_type_float, NULL};
    size_t offsets[MOST + 1];
    int wrong = 0;
    for (int count = 1; count <= MOST; count++) {
        members[count - 1] = count % 2 ? &ffi_type_double : &ffi_type_uint8;
        for (int turn = 0; turn < 3; turn++) {
            ffi_type type = {0, 0, FFI_TYPE_STRUCT, members};
            memset(offsets, 0xFF, sizeof offsets);
            wrong += ffi_get_struct_offsets(FFI_DEFAULT_ABI, &type, offsets) != FFI_OK;
            wrong += type.size != (size_t)count * 8 || type.alignment != 8 || offsets[count] != (size_t)-1;
            for (int i = 0; i < count; i++)
                wrong += offsets[i] != (size_t)i * 8;
        }
    }
    ffi_type complex = {0, 0, FFI_TYPE_COMPLEX, floats};
    ffi_type *one[] = {&complex, NULL};
    ffi_type holder = {0, 0, FFI_TYPE_STRUCT, one};
    for (int turn = 0; turn < 2; turn++) {
        wrong += ffi_get_struct_offsets(FFI_DEFAULT_ABI, &holder, offsets) != FFI_OK || offsets[0] != 0;
        wrong += holder.size != 8 || holder.alignment != 4 || complex.size != 8 || complex.alignment != 4;
    }
    EXPECT(wrong == 0);
}

/* A closure of a function without arguments and result, in which both may be looked at nevertheless. */
static int *seen;

static void write_result(ffi_cif *cif, void *result, void **values, void *data)
{
    (void)cif;
    memset(result, 0xFF, sizeof(ffi_arg));
    seen = values ? data : NULL;
}

static void give_nothing(void)
{
    ffi_cif cif;
    void *code;
    int it;
    ffi_closure *closure = ffi_closure_alloc(sizeof *closure, &code);
    EXPECT(ffi_prep_cif(&cif, FFI_DEFAULT_ABI, 0, &ffi_type_void, NULL) == FFI_OK);
    EXPECT(ffi_prep_closure_loc(closure, &cif, write_result, &it, code) == FFI_OK);
    ((void (*)(void))code)();
    EXPECT(seen == &it);
    ffi_closure_free(closure);
}

/* What an interface said when it was prepared is what counts. */
static void change_types(void)
{
    ffi_type *types[] = {&ffi_type_double};
    ffi_cif cif;
    double it = 2.5, got = 0;
    void *values[] = {&it};
    EXPECT(ffi_prep_cif(&cif, FFI_DEFAULT_ABI, 1, &ffi_type_double, types) == FFI_OK);
    types[0] = &ffi_type_sint32;
    ffi_call(&cif, FFI_FN(same), &got, values);
    EXPECT(got == 2.5);
}

/* What a closure needs is found when its signature's first one is prepared, or is entered, if its interface came later;
 * and by types that are not the interface's it is not found. */
static void write_sum(ffi_cif *cif, void *result, void **values, void *data)
{
    (void)cif, (void)data;
    *(ffi_sarg *)result = *(short *)values[0] + *(long *)values[1];
}

static void serve_late(void)
{
    ffi_type *types[] = {&ffi_type_sint16, &ffi_type_sint64, &ffi_type_float};
    ffi_cif cif = {.abi = FFI_DEFAULT_ABI};
    void *code;
    ffi_closure *closure = ffi_closure_alloc(sizeof *closure, &code);
    EXPECT(ffi_prep_closure_loc(closure, &cif, write_sum, NULL, code) == FFI_OK);
    EXPECT(ffi_prep_cif(&cif, FFI_DEFAULT_ABI, 3, &ffi_type_sint32, types) == FFI_OK);
    EXPECT(((int (*)(short, long, float))code)(-3, 45, 0.5f) == 42);
    types[2] = &ffi_type_uint8;
    EXPECT(ffi_prep_cif(&cif, FFI_DEFAULT_ABI, 3, &ffi_type_sint32, types) == FFI_OK);
    types[2] = types[0] = &ffi_type_double;
    EXPECT(ffi_prep_closure_loc(closure, &cif, write_sum, NULL, code) == FFI_BAD_TYPEDEF);
    types[2] = &ffi_type_uint8, types[0] = &ffi_type_sint16;
    EXPECT(ffi_prep_closure_loc(closure, &cif, write_sum, NULL, code) == FFI_OK);
    EXPECT(((int (*)(short, long, unsigned char))code)(-3, 45, 7) == 42);
    ffi_closure_free(closure);
}

/* ---- A frame that is larger than the thread's stack meets the guard page: nothing beyond it is written. */

#define BEYOND (1 << 20)

static ffi_cif large;
static volatile unsigned char *beyond;

static void nothing(void) {}

static void met_guard(int signal)
{
    size_t written = 0;
    (void)signal;
    for (size_t k = 0; k < BEYOND; k++)
        written += beyond[k] != 0;
    _exit(written != 0);
}

static void *overflow(void *alternate)
{
    static unsigned char block[4000];
    void *values[64];
    stack_t stack = {.ss_sp = alternate, .ss_size = 65536};
    sigaltstack(&stack, NULL);
    memset(block, 1, sizeof block);
    for (int i = 0; i < 64; i++)
        values[i] = block;
    ffi_call(&large, FFI_FN(nothing), NULL, values);
    _exit(2);
}

static void meet_guard(void)
{
    static ffi_type *words[501], *arguments[64], block;
    for (int i = 0; i < 500; i++)
        words[i] = &ffi_type_uint64;
    block = (ffi_type){0, 0, FFI_TYPE_STRUCT, words};
    for (int i = 0; i < 64; i++)
        arguments[i] = &block;
    EXPECT(ffi_prep_cif(&large, FFI_DEFAULT_ABI, 64, &ffi_type_void, arguments) == FFI_OK);
    pid_t child = fork();
    int status;
    if (child == 0) {
        static char alternate[65536];
        struct sigaction action = {.sa_handler = met_guard, .sa_flags = SA_ONSTACK};
        size_t size = 131072;
        char *at = mmap(NULL, BEYOND + 4096 + size, PROT_READ | PROT_WRITE, MAP_PRIVATE | MAP_ANONYMOUS, -1, 0);
        beyond = (unsigned char *)at;
        mprotect(at + BEYOND, 4096, PROT_NONE);
        sigaction(SIGSEGV, &action, NULL);
        pthread_attr_t attributes;
        pthread_t thread;
        pthread_attr_init(&attributes);
        pthread_attr_setstack(&attributes, at + BEYOND + 4096, size);
        pthread_create(&thread, &attributes, overflow, alternate);
        pthread_join(thread, NULL);
        _exit(3);
    }
    waitpid(child, &status, 0);
    EXPECT(WIFEXITED(status) && WEXITSTATUS(status) == 0);
}

/* Plans of many signatures: each is kept once, and what they take is bounded by how many there are. */
static long pages(void)
{
    long all = 0, resident = 0;
    FILE *file = fopen("/proc/self/statm", "r");
    EXPECT(file && fscanf(file, "%ld %ld", &all, &resident) == 2);
    fclose(file);
    return resident;
}

static void prepare_many(void)
{
    ffi_type *kinds[] = {&ffi_type_sint8, &ffi_type_sint16, &ffi_type_sint32, &ffi_type_sint64,
                         &ffi_type_float, &ffi_type_double, &ffi_type_pointer, &ffi_type_uint8};
    long before = 0;
    for (int turn = 0; turn < 3; turn++) {
        for (unsigned n = 0; n < 32768; n++) {
            ffi_type *types[5];
            ffi_cif cif;
            for (unsigned i = 0; i < 5; i++)
                types[i] = kinds[n >> 3 * i & 7];
            if (ffi_prep_cif(&cif, FFI_DEFAULT_ABI, 5, &ffi_type_void, types) != FFI_OK) {
                EXPECT(false);
                return;
            }
        }
        if (turn == 0)
            before = pages();
    }
    EXPECT(pages() - before < 64);
}

/* ---- Two threads prepare a signature that nobody has, and wait for the lock: both are given one plan.
 *
 * A process takes the library's locks before it forks. What is registered before the library is loaded is called behind
 * that, while they are held. */

static atomic_int waiting, arity;
static unsigned plans[2];

static void *prepare_anew(void *flags)
{
    ffi_type *types[40];
    ffi_cif cif;
    unsigned nargs = (unsigned)arity;
    for (unsigned i = 0; i < nargs; i++)
        types[i] = &ffi_type_uint16;
    waiting++;
    ffi_status status = ffi_prep_cif(&cif, FFI_DEFAULT_ABI, nargs, &ffi_type_float, types);
    *(unsigned *)flags = status == FFI_OK ? cif.flags : 0;
    return NULL;
}

static pthread_t preparing[2];

static void begin_two(void)
{
    if (!arity)
        return;
    for (int k = 0; k < 2; k++)
        pthread_create(&preparing[k], NULL, prepare_anew, &plans[k]);
    while (waiting < 2)
        sched_yield();
    usleep(5000);
}

static void register_first(void) { pthread_atfork(begin_two, NULL, NULL); }

__attribute__((section(".preinit_array"), used)) static void (*const before_all)(void) = register_first;

static void prepare_at_once(void)
{
    for (int turn = 0; turn < 20; turn++) {
        waiting = 0;
        arity = 20 + turn;
        pid_t child = fork();
        if (child == 0)
            _exit(0);
        waitpid(child, NULL, 0);
        for (int k = 0; k < 2; k++)
            pthread_join(preparing[k], NULL);
        EXPECT(plans[0] != 0 && plans[0] == plans[1]);
    }
    arity = 0;
}

int main(int count, char **words)
{
    use_others(count > 1 ? words[1] : NULL);
    use_none();
    call_while_prepared();
    lay_out_in_threads();
    pass_voids();
    keep_limits();
    tell_offsets();
    give_nothing();
    change_types();
    serve_late();
    meet_guard();
    prepare_at_once();
    prepare_many();
    return ended();
}
