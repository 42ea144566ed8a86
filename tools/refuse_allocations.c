// A library to load before a program: it counts the program's allocations, and refuses the one whose number stands in
// REFUSE. At the end it writes to the file descriptor in REFUSE_TELL how many there were, and how many it refused.
#define _GNU_SOURCE
#include <errno.h>
#include <stddef.h>
#include <stdio.h>
#include <stdlib.h>
#include <unistd.h>

// The C library's own functions, under the names that it keeps for itself.
void *__libc_malloc(size_t size);
void *__libc_calloc(size_t count, size_t size);
void *__libc_realloc(void *block, size_t size);
void *__libc_memalign(size_t alignment, size_t size);

static long due, counted, refused;

__attribute__((constructor)) static void begin(void) {
    const char *number = getenv("REFUSE");
    due = number ? atol(number) : 0;
    counted = 0;
}

__attribute__((destructor)) static void tell(void) {
    const char *to = getenv("REFUSE_TELL");
    char text[64];
    int length = snprintf(text, sizeof text, "%ld %ld\n", counted, refused);
    if (to && write(atoi(to), text, (size_t)length) != length) {
        _exit(70);
    }
}

static int is_refused(void) {
    counted++;
    if (counted != due) {
        return 0;
    }
    refused++;
    errno = ENOMEM;
    return 1;
}

void *malloc(size_t size) {
    return is_refused() ? NULL : __libc_malloc(size);
}

void *calloc(size_t count, size_t size) {
    return is_refused() ? NULL : __libc_calloc(count, size);
}

void *realloc(void *block, size_t size) {
    return is_refused() ? NULL : __libc_realloc(block, size);
}

void *memalign(size_t alignment, size_t size) {
    return is_refused() ? NULL : __libc_memalign(alignment, size);
}

void *aligned_alloc(size_t alignment, size_t size) {
    return is_refused() ? NULL : __libc_memalign(alignment, size);
}

int posix_memalign(void **block, size_t alignment, size_t size) {
    if (is_refused()) {
        return ENOMEM;
    }
    *block = __libc_memalign(alignment, size);
    return *block ? 0 : ENOMEM;
}
