/* Every reason for which a function is not read; behind each function is the one that is told. */
struct packed { char c; int i; } __attribute__((packed));
struct aligned { int i; } __attribute__((aligned(16)));
struct bits { int a : 3; };
struct flexible { int n; char c[]; };
struct empty {};
union un { int i; float f; };
struct has_union { int a; union { int i; float f; }; };
struct holds_union { union un u; };
struct large { char c[5000]; };
struct huge { char c[(1ull << 41) + 8]; };
struct none { char c[0]; };
struct padded { _Alignas(16) int i; };
struct inside { struct { char c; int i; } __attribute__((packed)); double d; };
struct deep1 { struct { struct { struct { struct { struct { struct { struct { struct { int i; } a; } a; } a; } a; } a; } a; } a; } a; };
struct deep { struct { struct { struct { struct { struct { struct { struct { struct { struct deep1 a; } a; } a; } a; } a; } a; } a; } a; } a; };
#pragma pack(push, 1)
struct by_pragma { char c; double d; };
#pragma pack(pop)
typedef float four __attribute__((vector_size(16)));
typedef int two __attribute__((vector_size(8)));
typedef struct { char c[2 ?: 1]; } gnu;
typedef int __attribute__((vectorcall)) called_otherwise(int);

int r_packed(struct packed); //= a packed or aligned struct: i
int r_aligned(struct aligned); //= a packed or aligned struct
int r_pragma(struct by_pragma); //= a packed or aligned struct: d
int r_padded(struct padded); //= a packed or aligned struct
int r_inside(struct inside); //= a packed or aligned struct: i
int r_bits(struct bits); //= a bit-field
int r_flexible(struct flexible); //= a flexible array
int r_empty(struct empty); //= an empty struct
int r_union(union un); //= a union by value
int r_has_union(struct has_union); //= a union by value
int r_holds_union(struct holds_union); //= a union by value
int r_unknown(struct unknown); //= a struct without members here: unknown
int r_large(struct large); //= too large: 5000
int r_huge(struct huge); //= too large: 2199023255560
int r_deep(struct deep); //= at node 16: too deep
int r_none(struct none); //= bad typedef
int r_four(four); //= left out: vector
int r_two(two); //= left out: vector
int r_integers(_Complex int); //= a complex integer
int r_prototype(); //= no prototype
int r_called(int) __attribute__((__vectorcall__)); //= another calling convention: vectorcall
called_otherwise r_called_by_type; //= another calling convention: vectorcall
int r_written(struct { int a; } s); //= a struct or an enum without a tag
int r_syntax(int) [[x]]; //= pycparser does not parse it
int r_gnu(int a, gnu b); //= pycparser does not parse it
void r_many(int, int, int, int, int, int, int, int, int, int, int, int, int, int, int, int, int, int, int, int, int, int, int, int, int, int, int, int, int, int, int, int, int, int, int, int, int, int, int, int, int, int, int, int, int, int, int, int, int, int, int, int, int, int, int, int, int, int, int, int, int, int, int, int, int); //= too many arguments: 65
