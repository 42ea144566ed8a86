/* Every form of type that the header reader reads. Behind each function is what the library is told of it: the nodes of
   the result, and of each argument behind a semicolon. Words that mean another kind on each target: char, wchar, long,
   va_list, wide and cwide, which are a long double and its complex. */
#include <stdarg.h>
#include <stddef.h>
#include <stdint.h>

typedef struct unknown_file FILE_NAME;
#define DECLARED(name) with_##name

enum few { A, B };
enum negative { C = -1 };
typedef struct { long l; wchar_t w; char c[4]; } three;
typedef int wide __attribute__((mode(DI)));
typedef int callback(int);
typedef char eight[8];
typedef struct node { struct node *next; void *u; } node;
typedef void nothing;
typedef int named(double, char);
typedef named *pointer_to_named;
typedef union { int *a; long *b; } address __attribute__((transparent_union));
typedef union { int a; float b; } number __attribute__((transparent_union));
struct inside { struct { int x, y; }; double d; int m[2][3]; };
struct narrow { struct { char c; int i; }; double d; };
struct wider { int i; long double d; };
struct has { eight a; enum few e; callback *f; };
struct same { int i; } __attribute__((aligned(4)));
struct tight { int i; short s[2]; } __attribute__((packed, aligned(4)));

void integers(signed char, unsigned char, short, unsigned short, int, unsigned); //= void; sint8; uint8; sint16; uint16; sint32; uint32
void longs(long, unsigned long long, __int128, unsigned __int128); //= void; long; uint64; sint128; uint128
long unsigned int order(short signed int, char unsigned, long long int unsigned); //= ulong; sint16; uint8; uint64
char characters(char, wchar_t); //= char; char; wchar
_Bool truth(_Bool); //= uint8; uint8
double reals(float, double); //= double; float; double
enum few enumerations(enum few, enum negative); //= few; few; sint32
int named_types(three, wide, size_t, uint8_t); //= sint32; struct 3 long wchar array 4 char; sint64; uint64; uint8
int structs(struct inside, struct narrow); //= sint32; struct 3 struct 2 sint32 sint32 double array 2 array 3 sint32; struct 2 struct 2 char sint32 double
struct has members(struct has); //= struct 3 array 8 char few pointer; struct 3 array 8 char few pointer
node recursive(node n); //= struct 2 pointer pointer; struct 2 pointer pointer
float _Complex complex_numbers(double _Complex); //= complex float; complex double
long double long_doubles(long double, struct wider); //= wide; wide; struct 2 sint32 wide
long double _Complex complex_long_doubles(long double _Complex); //= cwide; cwide
void *pointers(const char *const *restrict, volatile int *, struct unknown *, union un *, FILE_NAME *); //= pointer; pointer; pointer; pointer; pointer; pointer
int arrays(char *argv[], int m[2][3], int x[static 3], eight, const eight *); //= sint32; pointer; pointer; pointer; pointer; pointer
int functions(callback, callback *, int (*)(void)); //= sint32; pointer; pointer; pointer
void (*gives_function(int sig, void (*f)(int)))(int); //= pointer; sint32; pointer
extern named by_type; //= sint32; double; char
pointer_to_named gives_named(pointer_to_named); //= pointer; pointer
nothing none(nothing); //= void
int transparent(address, address *, number); //= sint32; pointer; pointer; sint32
int lists(const char *, va_list); //= sint32; pointer; va_list
int dots(const char *, ...); //= sint32; pointer; dots
int attributes(struct same, struct tight); //= sint32; struct 1 sint32; struct 2 sint32 array 2 sint16
extern int several(int), of_one(void), *line(int x); //= sint32; sint32
static inline int body(int a) { return ({ int b = a; b; }); } //= sint32; sint32
__extension__ extern __inline __attribute__((__gnu_inline__)) int dressed(int) __asm__("other") __attribute__((nothrow)); //= sint32; sint32
int (parentheses)(int); //= sint32; sint32
_Noreturn void never(int); //= void; sint32
double atomic(_Atomic int); //= double; sint32
int DECLARED(macro)(int); //= sint32; sint32
