/* A program for a debugger: a call with arguments of every kind, some on the stack, some by reference; one with more
   behind its dots; and one of zlib's where that is asked for. It is stripped before it is looked at. */
#include <stdarg.h>
#include <stdio.h>
#include "by_hand/entered.h"
#ifdef WITH_ZLIB
#include <string.h>
#include <zlib.h>
#endif

struct { double x[4]; long y; } elsewhere = {{10, 20, 30, 40.5}, 77};

__attribute__((noipa)) double weigh(struct item item, const char *label, double scale, struct box box, struct wide wide,
                                    long a, long b, struct tag tag, unsigned char c, enum state d, float e, short f)
{
    __asm__ volatile("");
    return item.id * item.weight * scale + box.x + wide.e + a + b + tag.n + c + d + e + f + label[0];
}

#ifdef __x86_64__
/* As a program of Windows is entered. */
__attribute__((noipa, ms_abi)) double weigh_there(struct item item, const char *label, double scale, struct box box,
                                                  struct wide wide, long a, long b, struct tag tag, unsigned char c,
                                                  enum state d, float e, short f)
{
    __asm__ volatile("");
    return item.id * item.weight * scale + box.x + wide.e + a + b + tag.n + c + d + e + f + label[0];
}
#endif

__attribute__((noipa)) struct item pair(const char *format, ...)
{
    va_list list;
    va_start(list, format);
    struct item found = {va_arg(list, int), (float)va_arg(list, double)};
    va_end(list);
    return found;
}

__attribute__((noipa)) struct wide widen(int a)
{
    __asm__ volatile("");
    return (struct wide){a, 2, 3, 4, 5};
}

int main(void)
{
    struct item item = {7, 0.5f};
    struct box box = {1, 2, 3, 4.5};
    struct wide wide = {1, 2, 3, 4, 5};
    struct tag tag = {"hello", -9};
    double found = weigh(item, "label", 2.25, box, wide, 11, 1L << 40, tag, 200, ON, 1.5f, -3);
#ifdef __x86_64__
    found += weigh_there(item, "label", 2.25, box, wide, 11, 1L << 40, tag, 200, ON, 1.5f, -3);
#endif
    found += pair("%d %f", 42, 6.5, 1, 2, 3, 4, 5, 6, 7, wide).weight + widen(1).e;
#ifdef WITH_ZLIB
    z_stream stream;
    memset(&stream, 0, sizeof stream);
    found += deflateInit2(&stream, 1, Z_DEFLATED, 15, 8, Z_DEFAULT_STRATEGY);
#endif
    printf("%g\n", found);
    return 0;
}
