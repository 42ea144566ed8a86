"""Writes C for signatures: for each a callee that takes in its arguments, and a caller that passes them.

Neither knows a value: `player.c` has the bytes of the leaves, and puts and looks at them where this compiler says that
they stand (offsetof). So the C code says only what the signature says.
"""

from signature import Array, elements_of, leaves_of

C_NAMES = {
    "void": "void", "uint8": "unsigned char", "sint8": "signed char", "uint16": "unsigned short", "sint16": "short",
    "uint32": "unsigned int", "sint32": "int", "uint64": "unsigned long", "sint64": "long",
    "uint128": "unsigned __int128", "sint128": "__int128",
    "float": "float", "double": "double", "pointer": "void *", "longdouble": "long double",
    "floatcomplex": "_Complex float", "doublecomplex": "_Complex double", "longcomplex": "_Complex long double",
}
# Where long has 32 bits.
C_NAMES_OF_WINDOWS = C_NAMES | {"uint64": "unsigned long long", "sint64": "long long"}


def member_of(kind, path):
    """The C text of the leaf that a path leads to: m0[2].m1 is leaf (0, 2, 1) of a struct of an array of structs."""
    text = ""
    for i in path:
        text += f"[{i}]" if isinstance(kind, Array) else f"{'.' if text else ''}m{i}"
        kind = elements_of(kind)[i]
    return text


def leaf_of(name, kind, path):
    """A leaf of a type with this C name, as an expression that is not evaluated, and where it begins in the type."""
    part, path = (path[-1], path[:-1]) if path and isinstance(path[-1], str) else ("", path)
    text = member_of(kind, path)
    member, offset = (f"(({name} *)0)->{text}", f"offsetof({name}, {text})") if text else (f"*({name} *)0", "0")
    if part:
        return f"__{part}__ {member}", f"{offset} + sizeof(__real__ {member})" if part == "imag" else offset
    return member, offset


class Chunk:
    """One C file: some signatures, the structs that they use, and one `struct layout` for each type. The callers come
    last, since gcc takes its time where a function has another convention than the one before it."""

    def __init__(self, number, signatures, c_names=C_NAMES):
        self.number = number
        self.c_names = c_names
        self.names = {}
        self.types = []
        self.parts = ['#include "player.h"\n#include <stdarg.h>\n#include <stddef.h>\n']
        self.callers = []
        for index, signature in enumerate(signatures):
            self.add_signature(index, signature)
        self.parts += self.callers
        entries = ", ".join(f"{{callee_{i}, caller_{i}}}" for i in range(len(signatures)))
        layouts = ", ".join([*(f"&layout_{i}" for i in range(len(self.types))), "0"])
        self.parts.append(f"const struct entry chunk_{number}[] = {{ {entries} }};\n"
                          f"const struct layout *const layouts_{number}[] = {{ {layouts} }};\n")

    def text(self):
        return "".join(self.parts)

    def name_of(self, kind):
        """The C name of a type, which is defined, with its layout, at its first use."""
        if kind not in self.names:
            if isinstance(kind, str):
                self.names[kind] = self.c_names[kind]
            else:
                members = " ".join(self.declared(element, f"m{i}") for i, element in enumerate(kind))
                self.names[kind] = f"struct s{len(self.types)}"
                self.parts.append(f"{self.names[kind]} {{ {members} }};\n")
            if kind != "void":
                self.add_layout(kind)
        return self.names[kind]

    def declared(self, kind, name):
        """A member of this type: an array of arrays has its own count first, as C reads it."""
        while isinstance(kind, Array):
            name, kind = f"{name}[{kind.count}]", kind.element
        return f"{self.name_of(kind)} {name};"

    def add_layout(self, kind):
        number, name = len(self.types), self.names[kind]
        self.types.append(kind)
        leaves = [leaf_of(name, kind, path) for _, path in leaves_of(kind)]
        members, offsets = zip(*leaves)
        sizes = [f"LENGTH({member})" for member in members]
        kinds = [f"KIND({member})" for member in members]
        self.parts.append(f"static const unsigned short at_{number}[] = {{ {', '.join(offsets)} }};\n"
                          f"static const unsigned char size_{number}[] = {{ {', '.join(sizes)} }};\n"
                          f"static const char kind_{number}[] = {{ {', '.join(kinds)} }};\n"
                          f"static const struct layout layout_{number} = {{ sizeof({name}), _Alignof({name}), "
                          f"{len(leaves)}, at_{number}, size_{number}, kind_{number} }};\n")

    def layout_of(self, kind):
        return f"&layout_{self.types.index(kind)}"

    def add_signature(self, index, signature):
        result = self.name_of(signature.result)
        kinds = [self.name_of(kind) for kind in signature.arguments]
        layouts = [self.layout_of(kind) for kind in signature.arguments]
        fixed = len(kinds) if signature.fixed is None else signature.fixed
        parameters = [f"{kind} a{i}" for i, kind in enumerate(kinds[:fixed])]
        if signature.fixed is not None:
            parameters.append("...")
        callee = [f"/* {signature} */",
                  f"static {result} CONVENTION real_callee_{index}({', '.join(parameters) or 'void'}) {{"]
        caller = [f"static void HELPER caller_{index}(function *called) {{"]
        if signature.fixed is not None:
            callee += ["REST rest;", f"REST_START(rest, a{fixed - 1});"]
        for i, (kind, layout) in enumerate(zip(kinds, layouts)):
            if i >= fixed:
                callee.append(f"{kind} a{i} = va_arg(rest, {kind});")
            callee.append(f"argument_in(&a{i}, {layout});")
            caller += [f"{kind} a{i};", f"argument_out(&a{i}, {layout});"]
        if signature.fixed is not None:
            callee.append("REST_END(rest);")
        passed = ", ".join(f"a{i}" for i in range(len(kinds)))
        prototype = ", ".join(kinds[:fixed] + ["..."] * (signature.fixed is not None)) or "void"
        call = f"(({result} (CONVENTION *)({prototype}))called)({passed});"
        if signature.result == "void":
            caller.append(call)
        else:
            layout = self.layout_of(signature.result)
            callee += [f"{result} result;", f"result_out(&result, {layout});", "return result;"]
            caller += [f"{result} result = {call}", f"result_in(&result, {layout});"]
        self.parts.append("\n".join([*callee, "}", f"#define callee_{index} ((function *)real_callee_{index})", ""]))
        self.callers.append("\n".join([*caller, "}", ""]))


def index_of(counts):
    """The C file that lists the chunks, whose numbers of signatures are given."""
    declared = [f"extern const struct entry chunk_{k}[];\nextern const struct layout *const layouts_{k}[];\n"
                for k in range(len(counts))]
    listed = [f"{{ chunk_{k}, layouts_{k}, {count} }}" for k, count in enumerate(counts)]
    return "".join([
        '#include "player.h"\n', *declared,
        f"static const struct chunk all[] = {{ {', '.join(listed)} }};\n",
        f"const struct chunk *chunks = all;\nint chunk_count = {len(counts)};\n",
    ])
