/* What is otherwise where Apple's arm64 is meant: a char has a sign, va_list is a pointer, long double a double. */
#include <stdarg.h>

typedef __WCHAR_TYPE__ wide;
struct mixed { char c; long double x; };

void of_char(char, wide, long); //= void; sint8; sint32; sint64
void lists(va_list); //= void; pointer
long double reals(long double, long double _Complex); //= double; double; complex double
struct mixed mixed(struct mixed); //= struct 2 sint8 double; struct 2 sint8 double
