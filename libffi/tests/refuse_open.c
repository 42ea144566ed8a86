/* For LD_PRELOAD: the library's own file can't be opened, so that the code of closures is written to private memory. */
#define _GNU_SOURCE
#include <dlfcn.h>
#include <errno.h>
#include <stdarg.h>
#include <string.h>
#include <sys/types.h>

int open(const char *path, int flags, ...)
{
    va_list more;
    if (strstr(path, "libffi")) {
        errno = EACCES;
        return -1;
    }
    va_start(more, flags);
    mode_t mode = va_arg(more, mode_t);
    va_end(more);
    return ((int (*)(const char *, int, ...))dlsym(RTLD_NEXT, "open"))(path, flags, mode);
}
