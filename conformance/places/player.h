/* What the generated C code, the player and its assembly share. */
#include <stdint.h>

typedef void function(void);

/* How the functions of signatures are called, and how a callee takes what follows the fixed arguments. On win64 gcc and
   clang for Linux do both as compilers for Windows do; these have it so by themselves, and call the player as Linux
   does. */
#ifdef WINDOWS
#define HELPER __attribute__((sysv_abi))
#else
#define HELPER
#endif
#if defined WIN64 && !defined WINDOWS
#define CONVENTION __attribute__((ms_abi))
#define REST __builtin_ms_va_list
#define REST_START __builtin_ms_va_start
#define REST_END __builtin_ms_va_end
#else
#define CONVENTION
#define REST va_list
#define REST_START va_start
#define REST_END va_end
#endif

/* A type as this compiler lays it out: where its leaves stand, how long they are, and of which kind. */
struct layout {
    unsigned size, align, leaves;
    const unsigned short *at;
    const unsigned char *length;
    const char *kind;
};

/* The kind of a scalar, by its type: an integer without a sign or with one, floating, or a pointer. */
#define KIND(x) _Generic((x), \
    unsigned char: 'u', unsigned short: 'u', unsigned int: 'u', unsigned long: 'u', unsigned long long: 'u', \
    unsigned __int128: 'u', signed char: 's', short: 's', int: 's', long: 's', long long: 's', __int128: 's', \
    float: 'f', double: 'f', long double: 'f', void *: 'p')

/* The bytes of a scalar's value: of a long double of x87's format ten. */
#define LENGTH(x) _Generic((x), long double: __LDBL_MANT_DIG__ == 64 ? 10 : sizeof(x), default: sizeof(x))

/* One signature: a compiled function that takes its arguments, and one that calls such a function. */
struct entry {
    function *callee;
    void (HELPER *caller)(function *called);
};

struct chunk {
    const struct entry *entries;
    const struct layout *const *layouts;
    int count;
};

/* The signature whose case is played. */
extern long current;

/* A compiled callee hands in its arguments, in order, and asks for its result; a compiled caller the other way. */
void HELPER argument_in(const void *value, const struct layout *layout);
void HELPER argument_out(void *value, const struct layout *layout);
void HELPER result_in(const void *value, const struct layout *layout);
void HELPER result_out(void *value, const struct layout *layout);

/* The registers, by the numbers of docs/FORMATS.md, section 5. The assembly files know this order. On AMD64 floating
   register 16 + N is the upper half of xmm N. Further ones have numbers from 32 on: on AArch64 32 + N is the upper half
   of vN; on AMD64 32 and 33 are st(0), 34 and 35 st(1), in ten bytes each. */
struct image {
    uint64_t general[32];
    uint64_t floating[32];
    uint64_t further[8];
    uint64_t x87_results; /* how many x87 registers have the result */
};
