"""Rows by hand: a text, and its canonical text where it is read."""
import machine
from wide import Bad, canonical
ROWS = [
 ("ssize_t read(int fd, void *buf, size_t count);", "int64_t read(int32_t, void *, uint64_t);"),
 ("FILE *fopen(const char *restrict path, const char *restrict mode);", "void * fopen(void *, void *);"),
 ("void qsort(void *base, size_t n, size_t size, int (*compare)(const void *, const void *));", "void qsort(void *, uint64_t, uint64_t, void *);"),
 ("int pthread_create(pthread_t *restrict thread, const pthread_attr_t *restrict attr, void *(*start)(void *), void *restrict arg);", "int32_t pthread_create(void *, void *, void *, void *);"),
 ("void (*signal(int sig, void (*func)(int)))(int);", "void * signal(int32_t, void *);"),
 ("double cabs(double _Complex z)", "double cabs(struct { double m0; double m1; });"),
 ("double cabs(double _Complex)", "double cabs(struct { double m0; double m1; });"),
 ("int printf(const char *, ..., int, double)", "int32_t printf(void *, ..., int32_t, double);"),
 ("int printf(const char *restrict format, ...);", "int32_t printf(void *, ...);"),
 ("extern void *bsearch(const void *key, const void *base, size_t nmemb, size_t size, int (*)(const void *, const void *));", "void * bsearch(void *, void *, uint64_t, uint64_t, void *);"),
 ("int execv(const char *path, char *const argv[]);", "int32_t execv(void *, void *);"),
 ("int pipe(int fds[2]);", "int32_t pipe(void *);"),
 ("void scale(double m[3][3], double by)", "void scale(void *, double);"),
 ("int sum(int n, int a[static 4])", "int32_t sum(int32_t, void *);"),
 ("void each(void cb(int), int n)", "void each(void *, int32_t);"),
 ("int (getc)(FILE *stream)", "int32_t getc(void *);"),
 ("int (*get(void))[3]", "void * get(void);"),
 ("int (*(*deep(int))(int))(int)", "void * deep(int32_t);"),
 ("long unsigned int f(int unsigned long long)", "uint64_t f(uint64_t);"),
 ("int long f(short unsigned, char signed, long signed)", "int64_t f(uint16_t, int8_t, int64_t);"),
 ("_Bool f(bool b)", "uint8_t f(uint8_t);"),
 ("void f(struct point { double x, y; } p)", "void f(struct { double m0; double m1; });"),
 ("void f(struct { float x, *y, z[2]; } s)", "void f(struct { float m0; void * m1; float m2[2]; });"),
 ("void f(struct { int (*call)(int), *(*g)(void), *a[3]; char c[4]; } s)", "void f(struct { void * m0; void * m1; void * m2[3]; int8_t m3[4]; });"),
 ("void f(struct { int (*call)(int), *(*g)(void), *a[3]; void (*t[2])(char); } s)", "void f(struct { void * m0; void * m1; void * m2[3]; void * m3[2]; });"),
 ("/* one */ int f(int a, // two\n int b);", "int32_t f(int32_t, int32_t);"),
 ("static inline int f(register int x)", "int32_t f(int32_t);"),
 ("_Noreturn void exit(int status);", "void exit(int32_t);"),
 ("int f(union sigval *v, enum color *c, struct stat *s, long double *l, _Bool *b, float _Complex *z)", "int32_t f(void *, void *, void *, void *, void *, void *);"),
 ("float _Complex f(_Complex float)", "struct { float m0; float m1; } f(struct { float m0; float m1; });"),
 ("ptrdiff_t f(intmax_t, uintmax_t, int_least8_t, uint_least64_t)", "int64_t f(int64_t, uint64_t, int8_t, uint64_t);"),
 ("int f(long double x)", "int32_t f(long double);"),
 ("int f(long double _Complex x)", "int32_t f(long double _Complex);"),
 ("int f(char c)", "int32_t f(int8_t);"), ("char f(void)", "int8_t f(void);"), ("char f(signed char, char unsigned)", "int8_t f(int8_t, uint8_t);"),
 ("int f(wchar_t c)", None), ("int f(enum color c)", None), ("int f(union u x)", None),
 ("int f(struct point p)", None), ("int f(pid_t p)", None), ("int f(int) __attribute__((pure))", "int32_t f(int32_t);"), ("int f(int) __attribute__ ((__nonnull__ (1), ms_abi))", None),
 ("int f(int) __asm__ (\"g)\") __attribute__ ((deprecated (\"use (g\")))", "int32_t f(int32_t);"), ("int f(int) __attribute__(pure)", None), ("int f(int) __attribute__((pure)", None),
 ("int f(struct { int x __attribute__((aligned(16))); } s)", None), ("int f(_Alignas(16) int x)", None),
 ("int restrict(int)", None), ("int while(int)", None), ("int f(int union)", None), ("int f(int bool, int ssize_t)", "int32_t f(int32_t, int32_t);"),
 ("int f(int (x))", None), ("int f(int (*x))", "int32_t f(void *);"), ("int f(int a[][])", "int32_t f(void *);"), ("int f(int a[3](int))", "int32_t f(void *);"), ("int f(int g(int)(int))", "int32_t f(void *);"),
 ("int f(void a[3])", "int32_t f(void *);"), ("int f(int)[3]", None), ("int (*f)(int)", None), ("int f", None), ("int f(int, ...", None), ("int f(..., int)", None), ("int f(void, ...)", None),
 ("int f(int) /* open", None), ("int f(int x[010])", None), ("unsigned float f(void)", None), ("_Complex f(void)", None), ("long char f(void)", None), ("long long long f(void)", None),
 ("int f(struct { int x[]; } s)", None), ("int f(struct { int g(int); } s)", None), ("int f(struct { int *x[2], (y); } s)", "int32_t f(struct { void * m0[2]; int32_t m1; });"),
 ("int f(int n, int a[n], int [*], int b[static n], int (*c)[n][3])", "int32_t f(int32_t, void *, void *, void *, void *);"), ("int f(int a[n + 1])", None), ("int f(int a[2 * n])", None),
 ("void f(struct { int a[n]; } *p)", None), ("void f(struct { int (*a)[n]; } p)", "void f(struct { void * m0; });"), ("double cabs(double complex z)", "double cabs(struct { double m0; double m1; });"),
 ("__extension__ __inline__ __const char *f(__volatile__ int, char __signed__, unsigned __int128__)", "void * f(int32_t, int8_t, unsigned __int128);"),
 ("int f(int // one \\\n, long\n, short)", "int32_t f(int32_t, int16_t);"), ("int f(int // one \\ \r\n, long\n, short)", "int32_t f(int32_t, int16_t);"), ("int f(int // one \\ x\n, long)", "int32_t f(int32_t, int64_t);"),
 ("int f(/* one *\\\n\\ \n/ int)", "int32_t f(int32_t);"), ("int f(/* one *\\ / int)", None), ("int \\\n f(int)", None),
 ("int f(typeof(*x))", None), ("int f(unsigned _BitInt(n))", None), ("int f(unsigned __int64)", None), ("int f(unsigned _int64)", None), ("int f(int asm(int))", None), ("int f(int __asm__)", None),
 ("int f(int) __asm__(R\"(f)\")", None), ("int f(int) __attribute__((nonnull /* )) */ ))", None), ("int f(int) __attribute__((deprecated(')')))", None), ("int f(int) __asm__(\"f\\\\\n\")", None),
]
if __name__ == "__main__":
    wrong = 0
    for text, want in ROWS:
        try: got = canonical(machine.read(text))
        except Bad: got = None
        if got != want: wrong += 1; print(text, "->", got, "and not", want)
    print(len(ROWS), "rows", wrong, "wrong")
    raise SystemExit(wrong > 0)
