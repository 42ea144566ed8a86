/* As a compiler for Windows has long, wchar_t, enums and long double. */
enum few { A, B };
typedef unsigned short wchar_t;
typedef struct { long l; wchar_t w; char c[4]; } three;
long longs(unsigned long, long long, wchar_t); //= long; ulong; sint64; wchar
enum few enumerations(enum few); //= few; few
int structs(three); //= sint32; struct 3 long wchar array 4 char
long double reals(long double); //= double; double
double complex_numbers(_Complex long double); //= double; complex double
int __attribute__((ms_abi)) own(int); //= sint32; sint32
int __attribute__((sysv_abi)) other(int); //= another calling convention: sysv_abi
__declspec(dllimport) int __cdecl called(__int64 a, unsigned __int32 b); //= sint32; sint64; uint32
