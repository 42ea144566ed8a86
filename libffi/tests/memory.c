/* The memory of closures: what a client or a forked child may do to it.  memory  links -lffi.
 * Of what ends the process, a child does it. */
#define _GNU_SOURCE
#include "expect.h"
#include <errno.h>
#include <ffi.h>
#include <pthread.h>
#include <signal.h>
#include <stdlib.h>
#include <string.h>
#include <sys/mman.h>
#include <sys/wait.h>
#include <unistd.h>

static ffi_cif cif;

static void answer(ffi_cif *it, void *result, void **values, void *data)
{
    (void)it, (void)values;
    *(ffi_arg *)result = (ffi_arg)data;
}

static long called(void *code) { return ((long (*)(void))code)(); }

static ffi_closure *made(long number, void **code)
{
    ffi_closure *closure = ffi_closure_alloc(sizeof *closure, code);
    EXPECT(closure && ffi_prep_closure_loc(closure, &cif, answer, (void *)number, *code) == FFI_OK);
    return closure;
}

/* How a child ended that did this: the signal, or 0. */
static int signal_of(void (*act)(void))
{
    int status = 0;
    pid_t child = fork();
    if (child == 0) {
        fclose(stderr);
        act();
        _exit(0);
    }
    waitpid(child, &status, 0);
    return WIFSIGNALED(status) ? WTERMSIG(status) : 0;
}

static void free_twice(void)
{
    void *code;
    ffi_closure *closure = made(1, &code);
    ffi_closure_free(closure);
    ffi_closure_free(closure);
}

static void free_code(void)
{
    void *code;
    made(1, &code);
    ffi_closure_free(code);
}

static void free_inside(void)
{
    void *code;
    ffi_closure_free((char *)made(1, &code) + 8);
}

static void free_own(void) { ffi_closure_free(malloc(64)); }

/* A client may write what it likes into its closure's memory. */
static void overwrite(void)
{
    void *code, *other_code;
    for (int byte = 0; byte < 256; byte += 85) {
        ffi_closure *closure = ffi_closure_alloc(sizeof *closure, &code);
        memset(closure, byte, sizeof *closure);
        EXPECT(ffi_prep_closure_loc(closure, &cif, answer, (void *)7, code) == FFI_OK && called(code) == 7);
        memset(closure, byte, sizeof *closure);
        ffi_closure_free(closure);
    }
    ffi_closure *closure = made(7, &code), *other = made(1, &other_code);
    *other = *closure;
    EXPECT(ffi_prep_closure_loc(other, &cif, answer, (void *)8, other_code) == FFI_OK);
    EXPECT(called(code) == 7 && called(other_code) == 8);
    ffi_closure_free(other);
    other = made(9, &other_code);
    EXPECT(called(code) == 7 && called(other_code) == 9);
    ffi_closure_free(other);
    ffi_closure_free(closure);
}

/* What a child writes to code, its parent does not run; and no page is writable and executable. */
static void write_in_child(void)
{
    void *code;
    ffi_closure *closure = made(7, &code);
    char *page = (char *)((unsigned long)code & ~4095ul);
    pid_t child = fork();
    if (child == 0) {
        if (mprotect(page, 4096, PROT_READ | PROT_WRITE) == 0)
            memset(page, 0x90, 4096);
        _exit(0);
    }
    waitpid(child, NULL, 0);
    EXPECT(called(code) == 7);
    ffi_closure_free(closure);
    FILE *maps = fopen("/proc/self/maps", "r");
    char line[4352];
    int both = 0;
    while (maps && fgets(line, sizeof line, maps))
        both += strstr(line, " rwx") != NULL;
    fclose(maps);
    EXPECT(both == 0);
}

static void *cancelled(void *data)
{
    void *code;
    pthread_cancel(pthread_self());
    for (int k = 0; k < 5000; k++)
        ffi_closure_alloc(sizeof(ffi_closure), &code);
    return data;
}

/* Many, of all sizes, at addresses of their own; and again where they were freed. */
static void make_many(void)
{
    enum { COUNT = 5000 };
    static ffi_closure *closures[COUNT];
    static void *codes[COUNT];
    for (int turn = 0; turn < 2; turn++) {
        for (long k = 0; k < COUNT; k++) {
            size_t size = sizeof(ffi_closure) + (size_t)(k % 7 == 0 ? k : 0);
            closures[k] = ffi_closure_alloc(size, &codes[k]);
            EXPECT(closures[k] != NULL);
            memset(closures[k], 0xFF, size);
            EXPECT(ffi_prep_closure_loc(closures[k], &cif, answer, (void *)k, codes[k]) == FFI_OK);
        }
        for (long k = 0; k < COUNT; k++)
            EXPECT(called(codes[k]) == k);
        for (long k = 0; k < COUNT; k++)
            ffi_closure_free(closures[k * 7 % COUNT]);
    }
}

int main(void)
{
    EXPECT(ffi_prep_cif(&cif, FFI_DEFAULT_ABI, 0, &ffi_type_sint64, NULL) == FFI_OK);
    EXPECT(signal_of(free_twice) == SIGABRT);
    EXPECT(signal_of(free_code) == SIGABRT);
    EXPECT(signal_of(free_inside) == SIGABRT);
    EXPECT(signal_of(free_own) == SIGABRT);
    overwrite();
    write_in_child();
    pthread_t thread;
    pthread_create(&thread, NULL, cancelled, NULL);
    pthread_join(thread, NULL);
    alarm(60); /* a lock that stays taken waits for ever */
    make_many();
    void *code;
    EXPECT(ffi_closure_alloc(64, NULL) == NULL);
    ffi_closure_free(NULL);
    ffi_closure *closure = ffi_closure_alloc(0, &code);
    EXPECT(closure != NULL);
    ffi_closure_free(closure);
    return ended();
}
