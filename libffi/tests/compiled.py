#!/usr/bin/env python3
"""Writes a C program that passes random types, which their client laid out itself, through libffi to functions that a
compiler makes, and back from closures: compiled.py COUNT SEED >program.c

Types are structs and unions, packed or aligned or neither, in one another. Each is passed twice, in registers and, by
what stands before it, on the stack, and given back; or it is refused. The program counts, and ends with status 0 only
if all that came was what went. Padding is not looked at.
"""

import random
import sys

NAMES = {"int8_t": "sint8", "uint8_t": "uint8", "int16_t": "sint16", "uint16_t": "uint16", "int32_t": "sint32",
         "uint32_t": "uint32", "int64_t": "sint64", "uint64_t": "uint64", "float": "float", "double": "double",
         "void *": "pointer", "long double": "longdouble"}

HEAD = """#include <ffi.h>
#include <stdint.h>
#include <stdio.h>
#include <stdlib.h>
#include <string.h>

#ifdef __x86_64__
#define LONG_DOUBLE_BYTES 10
#else
#define LONG_DOUBLE_BYTES 16
#endif

static int passed, failed, refused;

static void fill(void *at, size_t size)
{
    for (size_t k = 0; k < size; k++)
        ((unsigned char *)at)[k] = (unsigned char)rand();
}

static void count(int is, const char *what, const char *type)
{
    passed += is;
    failed += !is;
    if (!is)
        printf("%s: %s\\n", what, type);
}
"""

# Of type N: TEXT is how it reads, SAME compares its scalars.
EACH = """
typedef {c} t{n};
{elements}
static t{n} a{n}, b{n}, x{n}, y{n}, got{n};
static int same{n}(const t{n} *one, const t{n} *other) {{ return {same}; }}

typedef t{n} f{n}(long, double, t{n}, long, long, double, long, t{n}, long);

__attribute__((noinline)) static t{n} callee{n}(long a, double b, t{n} x, long c, long d, double e, long f, t{n} y,
                                                long g)
{{
    x{n} = x;
    y{n} = y;
    count(a == 1 && b == 2 && c == 3 && d == 4 && e == 5 && f == 6 && g == 7, "numbers beside", TEXT{n});
    return y;
}}

static void closure{n}(ffi_cif *cif, void *result, void **values, void *data)
{{
    (void)cif, (void)data;
    count(same{n}(values[2], &a{n}) && same{n}(values[7], &b{n}) && *(long *)values[8] == 7, "to a closure", TEXT{n});
    memcpy(result, &a{n}, sizeof a{n});
}}

static void play{n}(void)
{{
    ffi_type *l = &ffi_type_slong, *r = &ffi_type_double, *types[] = {{l, r, &e{n}, l, l, r, l, &e{n}, l}};
    long numbers[] = {{1, 3, 4, 6, 7}};
    double reals[] = {{2, 5}};
    void *values[] = {{numbers, reals, &a{n}, numbers + 1, numbers + 2, reals + 1, numbers + 3, &b{n}, numbers + 4}};
    void *code;
    ffi_cif cif;
    union {{ t{n} it; ffi_arg word; }} result;
    if (ffi_prep_cif(&cif, FFI_DEFAULT_ABI, 9, &e{n}, types) != FFI_OK) {{
        refused++;
        return;
    }}
    ffi_closure *closure = ffi_closure_alloc(sizeof *closure, &code);
    ffi_prep_closure_loc(closure, &cif, closure{n}, NULL, code);
    for (int turn = 0; turn < 4; turn++) {{
        fill(&a{n}, sizeof a{n});
        fill(&b{n}, sizeof b{n});
        ffi_call(&cif, FFI_FN(callee{n}), &result, values);
        count(same{n}(&x{n}, &a{n}) && same{n}(&y{n}, &b{n}), "to a function", TEXT{n});
        count(same{n}(&result.it, &b{n}), "a result", TEXT{n});
        got{n} = ((f{n} *)code)(1, 2, a{n}, 3, 4, 5, 6, b{n}, 7);
        count(same{n}(&got{n}, &a{n}), "a closure's result", TEXT{n});
    }}
    ffi_closure_free(closure);
}}
"""


class Writer:
    def __init__(self, seed):
        self.chance = random.Random(seed)
        self.made = 0

    def draw(self, depth):
        """A type: its C text with a place for the name, its ffi_type, what to declare, and of its scalars the path, and how
        many bytes count."""
        if depth == 0 or self.chance.random() < 0.5:
            scalar = self.chance.choice(list(NAMES))
            count = "LONG_DOUBLE_BYTES" if scalar == "long double" else f"sizeof({scalar})"
            return f"{scalar} %s", f"ffi_type_{NAMES[scalar]}", [], [("", count)]
        return self.aggregate(depth)

    def aggregate(self, depth):
        word = self.chance.choice(["struct", "struct", "union"])
        attribute = self.chance.choice(["", "", "packed", f"aligned({self.chance.choice([4, 8, 16])})"])
        attribute = attribute and f"__attribute__(({attribute})) "
        parts = [self.draw(depth - 1) for _ in range(self.chance.choice([1, 2, 2, 3, 4]))]
        body = " ".join(part[0] % f"m{k}" + ";" for k, part in enumerate(parts))
        text = f"{word} {attribute}{{ {body} }}"
        name = f"k{self.made}"
        self.made += 1
        declared = [line for part in parts for line in part[2]]
        members = ", ".join(f"&{part[1]}" for part in parts)
        declared.append((name, text, members))
        paths = [(f".m{k}{path}", count) for k, part in enumerate(parts) for path, count in part[3]]
        return f"{text} %s", name, declared, paths

    def write(self, n):
        text, name, declared, paths = self.aggregate(3)
        lines = []
        for kind, c, members in declared:
            lines.append(f"static ffi_type *{kind}_elements[] = {{{members}, NULL}};")
            lines.append(f"static ffi_type {kind} = {{sizeof({c}), _Alignof({c}), FFI_TYPE_STRUCT, {kind}_elements}};")
        lines.append(f"#define e{n} {name}")
        c = text[:-3]
        same = " && ".join(f"memcmp(&one->{it[1:]}, &other->{it[1:]}, {count}) == 0" for it, count in paths)
        print(f'#define TEXT{n} "{c}"')
        print(EACH.format(c=c, n=n, elements="\n".join(lines), same=same))


def main():
    count, seed = map(int, sys.argv[1:])
    writer = Writer(seed)
    print(HEAD)
    for n in range(count):
        writer.write(n)
    print("int main(void)\n{")
    for n in range(count):
        print(f"    play{n}();")
    print('    printf("%d passed, %d failed, %d types of ' + str(count) + ' refused\\n", passed, failed, refused);')
    print("    return failed != 0 || passed == 0;\n}")


if __name__ == "__main__":
    main()
