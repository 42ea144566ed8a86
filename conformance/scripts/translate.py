"""Writes a script (docs/FORMATS.md, section 1) as a C program for the host, over libffi.

Each signature is prepared by ffi_prep_cif or ffi_prep_cif_var, for the target's convention where it is one of the
host's, each make is an ffi_prep_closure_loc, each call an ffi_call. A pointer to a closure is the number that ffi3
gives it; host.c has the closures of libffi by these numbers. The program counts the needs of calls, as `ffi3 place`
prints them, against a stack of the modelled size: so it stops where the run must stop.
"""

import functools

import declaration
from emit import C_NAMES
from signature import FLOATING, SIZES, WIDE, Array, Signature, elements_of, spread

NATIVES = ("apply", "twice", "sum3")
SCALARS = {"uchar": "uint8", "schar": "sint8", "ushort": "uint16", "sshort": "sint16", "uint": "uint32",
           "sint": "sint32", "ulong": "uint64", "slong": "sint64"}
FORMS = {"pointer": "0x%lx", "uint64": "%lu", "sint64": "%ld", "uint32": "%u"}


def read_type(value):
    if isinstance(value, str):
        return SCALARS.get(value, value)
    if "array" in value:
        return Array(read_type(value["array"][0]), value["array"][1])
    return tuple(map(read_type, value["struct"]))


@functools.cache
def declared(text):
    return declaration.read(text.encode()).signature()


def read_signature(value):
    """A signature of a script: an object, or the text of a declaration."""
    if isinstance(value, str):
        return declared(value)
    return Signature(read_type(value["ret"]), tuple(map(read_type, value["args"])), value.get("fixed"))


def signatures_of(script):
    return [read_signature(each) for each in script["signatures"]]


def natives_of(script):
    """The natives that the script makes. A function of the script hides the native of its name."""
    bodies = [script["main"], *(function["body"] for function in script["functions"])]
    named = {move["make"] for body in bodies for move in body if "make" in move}
    return named & set(NATIVES) - {function["name"] for function in script["functions"]}


class Program:
    """The C program of one script. `needs` has, by a signature's text, its need on each target."""

    def __init__(self, script, needs):
        self.parts = ['#include "host.h"\n']
        self.types = {}
        self.signatures = signatures_of(script)
        self.functions = {function["name"]: f"function_{i}" for i, function in enumerate(script["functions"])}
        for number, signature in enumerate(self.signatures):
            self.add_signature(number, signature, needs[str(signature)])
        for name in self.functions.values():
            self.parts.append(f"static const struct function {name};\n")
        for name, function in zip(self.functions.values(), script["functions"]):
            number = function["sig"]
            self.add_body(f"static void act_{name}", self.signatures[number], function["body"])
            self.parts.append(f"static const struct function {name} = {{ &signature_{number}, act_{name} }};\n")
        self.add_body("void main_body", Signature("void", ()), script["main"])
        prepared = " ".join(f"prepare_{number}();" for number in range(len(self.signatures)))
        self.parts.append(f"void prepare(void) {{ {prepared} }}\n")

    def text(self):
        return "".join(self.parts)

    def c_type(self, kind):
        self.add_type(kind)
        return self.types[kind][0]

    def number(self, kind):
        self.add_type(kind)
        return self.types[kind][1]

    def add_type(self, kind):
        """A type's C name, its ffi_type, and its function write_N; nothing where they are there. An array is a struct of
        one member in C, which can be assigned. libffi has no type for one: its elements stand in the struct's list."""
        if kind in self.types:
            return
        if isinstance(kind, Array):
            element, inner = self.c_type(kind.element), self.number(kind.element)
            number, name = len(self.types), f"struct s{len(self.types)}"
            described = f"{name} {{ {element} e[{kind.count}]; }};\n"
            body = (f"for (int i = 0; i < {kind.count}; i++) {{ putchar(i ? ',' : '['); write_{inner}(v.e[i]); }} "
                    "putchar(']');")
        elif isinstance(kind, str):
            number, name = len(self.types), "address" if kind == "pointer" else C_NAMES[kind]
            body = f"write_bytes(&v, {SIZES[kind]});" if kind in FLOATING else \
                f"write_wide(v, {int(kind == 'sint128')});" if kind in WIDE else \
                f'printf("{FORMS.get(kind, "%d")}", v);'
            described = f"#define type_{number} {'' if kind in WIDE else 'ffi_'}type_{kind}\n"
        else:
            elements = [self.c_type(element) for element in kind]
            number, name = len(self.types), f"struct s{len(self.types)}"
            members = " ".join(f"{element} m{i};" for i, element in enumerate(elements))
            inner = ", ".join(f"&type_{self.number(each)}" for element in kind for each in spread(element))
            described = (f"{name} {{ {members} }};\nstatic ffi_type *elements_{number}[] = {{ {inner}, 0 }};\n"
                         f"static ffi_type type_{number} = {{ 0, 0, FFI_TYPE_STRUCT, elements_{number} }};\n")
            body = " putchar(','); ".join(f"write_{self.number(one)}(v.m{i});" for i, one in enumerate(kind))
            body = f"putchar('{{'); {body} putchar('}}');"
        self.types[kind] = name, number
        self.parts.append(f"{described}static void write_{number}({name} v) {{ {body} }}\n")

    def ffi_type(self, kind):
        return "&ffi_type_void" if kind == "void" else f"&type_{self.number(kind)}"

    def add_signature(self, number, signature, needs):
        """signature_N, and prepare_N."""
        types = [self.ffi_type(kind) for kind in signature.arguments]
        result = self.ffi_type(signature.result)
        fixed = "" if signature.fixed is None else f"{signature.fixed}, "
        prepare = (f"ffi_prep_cif{'_var' if fixed else ''}(&signature_{number}.cif, convention, {fixed}"
                   f"{len(types)}, {result}, types_{number})")
        arguments = " putchar(','); ".join(f"write_{self.number(kind)}(AT({self.c_type(kind)}, arguments[{i}]));"
                                           for i, kind in enumerate(signature.arguments))
        written = 'printf("void");' if signature.result == "void" else \
            f"write_{self.number(signature.result)}(AT({self.c_type(signature.result)}, result));"
        self.parts.append(
            f"static void arguments_{number}(void **arguments) {{ {arguments} }}\n"
            f"static void result_{number}(void *result) {{ {written} }}\n"
            f"static struct signature signature_{number} = {{ \"{signature}\", {{ {', '.join(map(str, needs))} }}, "
            f"arguments_{number}, result_{number} }};\n"
            f"static ffi_type *types_{number}[] = {{ {', '.join([*types, '0'])} }};\n"
            f"static void prepare_{number}(void) {{ if ({prepare} != FFI_OK) abort(); }}\n")

    def add_body(self, head, signature, body):
        code = Body(self, signature).code(body)
        self.parts.append(f"{head}(void *result, void **arguments, address user)\n{{\n{code}}}\n")


class Body:
    """The moves of one function, as C statements."""

    def __init__(self, program, signature):
        self.program, self.signature = program, signature
        self.results = {}

    def code(self, body):
        return "".join(f"{line}\n" for number, move in enumerate(body) for line in self.move(number, move))

    def move(self, number, move):
        """A move: its result, which is zero where it is not done, and what is done where its condition holds."""
        kind, done = self.done(number, move)
        condition = self.typed(move["when"])[1] if "when" in move else "1"
        lines = []
        if "as" in move:
            lines.append(f"{self.program.c_type(kind)} r{number}; memset(&r{number}, 0, sizeof r{number});")
            self.results[move["as"]] = kind, f"r{number}"
        return [*lines, f"if ({condition}) {{", "tick();", *done, "}"]

    def done(self, number, move):
        """The type of a move's result, and its statements."""
        got = f"r{number} = " if "as" in move else ""
        if "call" in move:
            return self.called(number, move)
        if "make" in move:
            name = self.program.functions.get(move["make"], move["make"])
            return "pointer", [f"{got}make(&{name}, {self.value('pointer', move.get('user', 0))});"]
        if "free" in move:
            return None, [f"free_closure({self.value('pointer', move['free'])});"]
        if "print" in move:
            kind, value = self.typed(move["print"])
            return None, [f"write_{self.program.number(kind)}({value}); putchar('\\n');"]
        return None, self.returned(move["return"])

    def called(self, number, move):
        signature = self.program.signatures[move["sig"]]
        arguments = [f"{self.program.c_type(kind)} a{i} = {self.value(kind, value)};"
                     for i, (kind, value) in enumerate(zip(signature.arguments, move["args"]))]
        addresses = ", ".join([*(f"&a{i}" for i in range(len(arguments))), "0"])
        done = [*arguments, f"void *values[] = {{ {addresses} }};", "RESULT got;",
                f"call(&signature_{move['sig']}, {self.value('pointer', move['call'])}, &got, values);"]
        if "as" in move:
            done.append(f"memcpy(&r{number}, &got, sizeof r{number});")
        return signature.result, done

    def returned(self, value):
        kind = self.signature.result
        if kind == "void":
            return ["return;"]
        wide = name = self.program.c_type(kind)
        if isinstance(kind, str) and kind not in FLOATING and SIZES[kind] < 8:
            wide = "ffi_sarg" if kind.startswith("s") else "ffi_arg"
        return [f"AT({wide}, result) = {self.value(kind, value)};", "return;"]

    def value(self, kind, value):
        """A C expression of this type."""
        name = self.program.c_type(kind)
        if kind in WIDE and isinstance(value, (int, str)):
            high, low = divmod(int(value) % (1 << 128), 1 << 64)
            return f"({name})((unsigned __int128){high}UL << 64 | {low}UL)"
        if isinstance(value, int):
            return f"({name}){value % (1 << 64)}UL"
        if isinstance(value, str):
            return f'{kind}_of("{value}")'
        if isinstance(value, list):
            listed = ", ".join(self.value(one, each) for one, each in zip(elements_of(kind), value, strict=True))
            return f"({name}){{ {{ {listed} }} }}" if isinstance(kind, Array) else f"({name}){{ {listed} }}"
        for word, sign in (("add", "+"), ("sub", "-")):
            if word in value:
                left, right = (self.value(kind, each) for each in value[word])
                whole = "unsigned __int128" if kind in WIDE else "unsigned long"
                return f"({name})(({whole})({left}) {sign} ({whole})({right}))"
        if "cast" in value:
            return f"({name})({self.typed(value['cast'])[1]})"
        return self.typed(value)[1]

    def typed(self, value):
        """The type of a typed value, and its C expression."""
        if "arg" in value:
            kind = self.signature.arguments[value["arg"]]
            return kind, f"AT({self.program.c_type(kind)}, arguments[{value['arg']}])"
        if "res" in value:
            return self.results[value["res"]]
        if "user" in value:
            return "pointer", "user"
        if "of" in value:
            kind = read_type(value["of"][0])
            return kind, f"({self.value(kind, value['of'][1])})"
        (kind, inner), number = self.typed(value["field"][0]), value["field"][1]
        member = f"e[{number}]" if isinstance(kind, Array) else f"m{number}"
        return elements_of(kind)[number], f"({inner}).{member}"
