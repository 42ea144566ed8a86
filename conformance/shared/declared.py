"""Signatures as declarations of C, as the program's `cdecl` and the C library read them (docs/FORMATS.md)."""

from signature import Array, Signature

C_NAMES = {
    "void": "void", "uint8": "uint8_t", "sint8": "int8_t", "uint16": "uint16_t", "sint16": "int16_t",
    "uint32": "uint32_t", "sint32": "int32_t", "uint64": "uint64_t", "sint64": "int64_t", "float": "float",
    "double": "double", "pointer": "void *", "uint128": "unsigned __int128", "sint128": "__int128",
    "longdouble": "long double", "floatcomplex": "float _Complex", "doublecomplex": "double _Complex",
    "longcomplex": "long double _Complex",
}


def declared(kind, name):
    """A function's result with its name, a member or a parameter."""
    counts = ""
    while isinstance(kind, Array):
        kind, counts = kind.element, f"{counts}[{kind.count}]"
    if isinstance(kind, tuple):
        members = " ".join(f"{declared(each, f'm{i}')};" for i, each in enumerate(kind))
        return f"struct {{ {members} }} {name}{counts}"
    return f"{C_NAMES[kind]} {name}{counts}"


def fixed_part(one):
    """What a declaration can say of a signature: of a variadic one the fixed arguments are named, and then come dots."""
    return one if one.fixed is None else Signature(one.result, one.arguments[:one.fixed], one.fixed)


def prototype(one):
    """The same of any signature, with the types behind the dots, as `cplace` reads them and C does not."""
    parameters = [declared(kind, f"a{i}") for i, kind in enumerate(one.arguments)]
    if one.fixed is not None:
        parameters.insert(one.fixed, "...")
    return f"{declared(one.result, 'f')}({', '.join(parameters) or 'void'});"


def declaration(one):
    """The declaration of a function of this signature, all of whose arguments are named."""
    if one != fixed_part(one):
        raise ValueError(f"{one} has arguments that no declaration names")
    parameters = [declared(kind, f"a{i}") for i, kind in enumerate(one.arguments)]
    dots = [] if one.fixed is None else ["..."]
    return f"{declared(one.result, 'f')}({', '.join(parameters + dots) or 'void'});"
