"""Types and signatures as docs/FORMATS.md, section 3, writes them: `struct{sint8[3],double}`, `sint32(pointer;double)`.

A type is the name of a scalar, "void", a tuple of types, which is a struct, or an Array, which stands in structs alone.
This module knows no layout and no place: sizes and offsets come from compilers, from libffi and from the program, and
are compared.
"""

import re
from dataclasses import dataclass

SIZES = {
    "uint8": 1, "sint8": 1, "uint16": 2, "sint16": 2, "uint32": 4, "sint32": 4, "uint64": 8, "sint64": 8,
    "uint128": 16, "sint128": 16, "float": 4, "double": 8, "pointer": 8,
}
INTEGERS = [name for name in SIZES if "int" in name and name != "pointer"]
FLOATING = ("float", "double")
WIDE = ("uint128", "sint128")
# What C has beside these, by no name of scripts: a long double, and complex numbers. What they are is a target's
# (long_double.py): a long double is a double, or one of two further scalars. VALUE_BYTES has the bytes of values.
COMPLEX = ("floatcomplex", "doublecomplex", "longcomplex")
OF_C_ALONE = ("longdouble", *COMPLEX)
VALUE_BYTES = SIZES | {"x87": 10, "binary128": 16}


def is_narrow(kind):
    return kind in INTEGERS and SIZES[kind] < 8


@dataclass(frozen=True)
class Array:
    """So many elements of one type."""

    element: object
    count: int


@dataclass(frozen=True)
class Signature:
    """A result, the arguments, and the number of fixed arguments where the signature is variadic (else None)."""

    result: object
    arguments: tuple
    fixed: int | None = None

    def __str__(self):
        texts = [text_of(argument) for argument in self.arguments]
        if self.fixed is None:
            return f"{text_of(self.result)}({','.join(texts)})"
        return f"{text_of(self.result)}({','.join(texts[:self.fixed])};{','.join(texts[self.fixed:])})"

    def types(self):
        return (self.result, *self.arguments)

    def is_wide(self):
        return any(map(is_wide, self.types()))

    def has_array(self):
        return any(map(has_array, self.types()))

    def with_elements(self):
        """The same with each array's elements in its place: it has the same layouts and places."""
        return Signature(with_elements(self.result), tuple(map(with_elements, self.arguments)), self.fixed)


def text_of(kind):
    if isinstance(kind, Array):
        return f"{text_of(kind.element)}[{kind.count}]"
    return kind if isinstance(kind, str) else "struct{" + ",".join(map(text_of, kind)) + "}"


def elements_of(kind):
    """The types of a struct's or an array's elements; a scalar has none."""
    if isinstance(kind, Array):
        return (kind.element,) * kind.count
    return () if isinstance(kind, str) else kind


def leaves_of(kind):
    """The scalars of a type from the left, each with the path of element numbers that leads to it; that of a part of a
    complex number ends with the part."""
    if kind == "void":
        return []
    if kind in COMPLEX:
        return [(kind, ("real",)), (kind, ("imag",))]
    if isinstance(kind, str):
        return [(kind, ())]
    return [(leaf, (i, *path)) for i, element in enumerate(elements_of(kind)) for leaf, path in leaves_of(element)]


def depth_of(kind):
    """How deep structs and arrays nest in a type."""
    return 1 + max(map(depth_of, {*elements_of(kind)})) if elements_of(kind) else 0


def has_array(kind):
    return isinstance(kind, Array) or any(map(has_array, elements_of(kind)))


def spread(kind):
    """The types that stand in a struct in place of an array: its elements, and theirs where these are arrays."""
    return spread(kind.element) * kind.count if isinstance(kind, Array) else (kind,)


def with_elements(kind):
    """A type without arrays: each one's elements stand in its place."""
    return kind if isinstance(kind, str) else tuple(with_elements(each) for one in kind for each in spread(one))


def is_wide(kind):
    """Whether a 128-bit integer is in it."""
    return any(leaf in WIDE for leaf, _ in leaves_of(kind))


def is_variadic_fault(kind):
    """C promotes a float and an integer of fewer than 4 bytes, so none is passed after the fixed arguments."""
    return kind == "float" or (kind in INTEGERS and SIZES[kind] < 4)


def signature_of(text):
    """Reads a signature's text; a ValueError says where it is none."""
    result, rest = read_type(text, 0)
    arguments, fixed = [], None
    at = expect(text, rest, "(")
    while text[at:at + 1] != ")":
        if text[at:at + 1] == ";":
            fixed, at = len(arguments), at + 1
            continue
        if arguments and text[at:at + 1] == ",":
            at += 1
        argument, at = read_type(text, at)
        arguments.append(argument)
    if at + 1 != len(text):
        raise ValueError(f"{text!r} goes on after its end")
    if fixed == 0 or any(is_variadic_fault(kind) for kind in arguments[fixed or len(arguments):]):
        raise ValueError(f"{text!r} is no variadic signature of C")
    return Signature(result, tuple(arguments), fixed)


def expect(text, at, word):
    if not text.startswith(word, at):
        raise ValueError(f"{text!r} lacks {word!r} at {at}")
    return at + len(word)


def read_type(text, at):
    """A type, with the counts of the arrays of it, and where the text goes on."""
    kind, at = read_element(text, at)
    while count := re.compile(r"\[(\d+)\]").match(text, at):
        kind, at = Array(kind, int(count[1])), count.end()
    return kind, at


def read_element(text, at):
    if text.startswith("struct{", at):
        at, elements = at + len("struct{"), []
        while True:
            element, at = read_type(text, at)
            elements.append(element)
            if text[at:at + 1] == "}":
                return tuple(elements), at + 1
            at = expect(text, at, ",")
    for name in ("void", *OF_C_ALONE, *SIZES):
        if text.startswith(name, at):
            return name, at + len(name)
    raise ValueError(f"{text!r} has no type at {at}")


def json_of(kind):
    if isinstance(kind, Array):
        return {"array": [json_of(kind.element), kind.count]}
    return kind if isinstance(kind, str) else {"struct": [json_of(element) for element in kind]}


def object_of(signature):
    """A signature as scripts have it (docs/FORMATS.md, section 1)."""
    found = {"ret": json_of(signature.result), "args": [json_of(kind) for kind in signature.arguments]}
    return found if signature.fixed is None else found | {"fixed": signature.fixed}


def script_of(signatures):
    """A script that has these signatures and does nothing. Version 1 has no wide integers and no arrays."""
    version = 2 if any(signature.is_wide() or signature.has_array() for signature in signatures) else 1
    return {"version": version, "signatures": list(map(object_of, signatures)), "functions": [],
            "main": [{"return": None}]}


def value_text(kind, leaves):
    """A value as the program writes it (docs/FORMATS.md, section 3); `leaves` gives the bytes of its leaves."""
    if elements := elements_of(kind):
        inner = ",".join(value_text(element, leaves) for element in elements)
        return f"[{inner}]" if isinstance(kind, Array) else f"{{{inner}}}"
    value = next(leaves)
    number = int.from_bytes(value, "little", signed=kind.startswith("s"))
    return value.hex() if kind in FLOATING else f"{number:#x}" if kind == "pointer" else str(number)


def json_value(kind, leaves):
    """The same as scripts have it."""
    if elements := elements_of(kind):
        return [json_value(element, leaves) for element in elements]
    text = value_text(kind, leaves)
    return text if kind in (*FLOATING, *WIDE) else int(text, 0)


def zero_leaves(kind):
    return (bytes(SIZES[leaf]) for leaf, _ in leaves_of(kind))


def table(path):
    """The signatures of a file: one a line; empty lines, and what follows a #, are for readers."""
    lines = [line.split("#")[0].strip() for line in path.read_text().splitlines()]
    return [signature_of(line) for line in lines if line]
