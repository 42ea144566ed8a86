"""Planted errors: rules of long doubles and complex numbers changed in a copy of the places that are told. Each must be
found, by the comparison that finds errors of the program, and it is said how soon."""

from long_double import format_of
from places import BEHIND, X87, Piece, Place, Stand
from planted import moved, stacked_anew
from signature import Array, leaves_of

ST0, ST1 = X87["amd64"]


def are_all(kind, name):
    """Whether a type has scalars of this name alone."""
    return kind != "void" and all(leaf == name for leaf, _ in leaves_of(kind))


def has(kind, name):
    return any(leaf == name for leaf, _ in leaves_of(kind))


def hidden_by(place, plan, layout):
    """The result behind the frame, its address in this place."""
    plan.result = Stand(reference=place, copy=plan.frame)
    plan.frame += -(-layout.size // 16) * 16


def by_reference(i, place, plan, layout):
    """Argument i behind the frame, its address in this place."""
    plan.arguments[i] = Stand(reference=place, copy=plan.frame)
    plan.frame += -(-layout.size // 16) * 16


# ---- amd64

def one_hidden(signature, plan, layouts):
    """A long double, or a struct of one, comes back hidden."""
    if ST0 in [piece.place for piece in plan.result.pieces] and len(plan.result.pieces) == 1:
        hidden_by(Place("g", 7), plan, layouts[signature.result])


def struct_of_one_hidden(signature, plan, layouts):
    """A struct of one long double comes back hidden, as by libffi 3.4.4."""
    if isinstance(signature.result, tuple):
        one_hidden(signature, plan, layouts)


def imaginary_first(signature, plan, layouts):
    """The imaginary part of a complex result is in st(0)."""
    if len(plan.result.pieces) == 2:
        plan.result = moved(plan.result, lambda place: {ST0: ST1, ST1: ST0}.get(place, place))


def complex_hidden(signature, plan, layouts):
    """A complex long double comes back hidden, as a struct of two does."""
    if isinstance(signature.result, Array):
        hidden_by(Place("g", 7), plan, layouts[signature.result])


def two_in_x87(signature, plan, layouts):
    """A struct of two long doubles, or of a complex one, comes back in st(0) and st(1)."""
    if isinstance(signature.result, tuple) and [leaf for leaf, _ in leaves_of(signature.result)] == ["x87", "x87"]:
        plan.result = Stand([Piece(ST0, 0, 10), Piece(ST1, 16, 10)])


def x87_at_eight(signature, plan, layouts):
    """A long double, and a struct of some, is on the stack at a multiple of 8."""
    stacked_anew(signature, plan, layouts, lambda i, kind, is_packed, align, size:
                 (8, size) if has(kind, "x87") else None)


def x87_takes_a_vector_register(signature, plan, layouts):
    """A long double takes a vector register, so that later ones begin further on."""
    by = 0
    for i, (kind, stand) in enumerate(zip(signature.arguments, plan.arguments)):
        if kind == "x87":
            by += 1
        elif all(place.number + by < 8 for place in [piece.place for piece in stand.pieces] if place.kind == "f"):
            plan.arguments[i] = moved(stand, lambda place, by=by: Place("f", place.number + by)
                                      if place.kind == "f" else place)


# ---- aapcs64

def halves_of(stand):
    """The numbers of the vector registers whose upper halves have bytes."""
    return [piece.place.number - BEHIND for piece in stand.pieces
            if piece.place.kind == "f" and piece.place.number >= BEHIND]


def halves_exchanged(signature, plan, layouts):
    """The upper half of a v register has the value's first bytes."""
    def other(place):
        return Place("f", (place.number + BEHIND) % (2 * BEHIND)) if place.kind == "f" else place
    for stand in (*plan.arguments, plan.result):
        if halves_of(stand):
            stand.pieces = moved(stand, other).pieces


def two_registers_each(signature, plan, layouts):
    """A long double is in the lower halves of two v registers."""
    for stand in (*plan.arguments, plan.result):
        if len(halves_of(stand)) == 1 and halves_of(stand)[0] < 7:
            stand.pieces = moved(stand, lambda place: Place("f", place.number - BEHIND + 1)
                                 if place.number >= BEHIND else place).pieces


def in_general_registers(signature, plan, layouts):
    """A long double is in two general registers."""
    used = 0
    for i, (kind, stand) in enumerate(zip(signature.arguments, plan.arguments)):
        if kind == "binary128" and halves_of(stand) and used < 7:
            plan.arguments[i] = Stand([Piece(Place("g", used), 0, 8), Piece(Place("g", used + 1), 8, 8)])
            return
        used += sum(piece.place.kind == "g" for piece in stand.pieces) + (stand.reference is not None)


def struct_by_reference(signature, plan, layouts):
    """A struct of two to four long doubles is no homogeneous aggregate, and passed by reference."""
    for i, (kind, stand) in enumerate(zip(signature.arguments, plan.arguments)):
        if isinstance(kind, tuple) and len(halves_of(stand)) > 1:
            by_reference(i, Place("g", 7), plan, layouts[kind])
            return


def structs_hidden(signature, plan, layouts):
    """A struct of two to four long doubles, or a complex one, comes back hidden."""
    if len(halves_of(plan.result)) > 1:
        hidden_by(Place("g", 8), plan, layouts[signature.result])


def mixed_is_homogeneous(signature, plan, layouts):
    """A struct of a float or double and a long double is a homogeneous aggregate."""
    leaves = [leaf for leaf, _ in leaves_of(signature.result)]
    if len(leaves) == 2 and set(leaves) in ({"float", "binary128"}, {"double", "binary128"}):
        pieces = []
        for k, (leaf, at) in enumerate(zip(leaves, layouts[signature.result].offsets)):
            pieces += [Piece(Place("f", k), at, 4 if leaf == "float" else 8)]
            pieces += [Piece(Place("f", BEHIND + k), at + 8, 8)] * (leaf == "binary128")
        plan.result = Stand(pieces)


def quad_at_eight(signature, plan, layouts):
    """A long double, and a struct of some, is on the stack at a multiple of 8."""
    stacked_anew(signature, plan, layouts, lambda i, kind, is_packed, align, size:
                 (8, size) if are_all(kind, "binary128") else None)


# ---- riscv

def first_registers(plan):
    """The argument, and its first register, of each that has two of a0 to a7 or the last."""
    for i, stand in enumerate(plan.arguments):
        if [piece.place.kind for piece in stand.pieces] in (["g", "g"], ["g", "s"]):
            yield i, stand.pieces[0].place.number


def pair_by_itself(signature, plan, layouts):
    """A named long double begins in an even register."""
    for i, first in first_registers(plan):
        is_named = signature.fixed is None or i < signature.fixed
        if are_all(signature.arguments[i], "binary128") and is_named and first % 2 and first < 16:
            plan.arguments[i] = moved(plan.arguments[i], lambda place: Place("g", place.number + 1))
            return


def no_pair_behind_dots(signature, plan, layouts):
    """A variadic long double begins in any register."""
    used = 10 + (plan.result.reference is not None)
    for i, stand in enumerate(plan.arguments):
        places = [piece.place.number for piece in stand.pieces if piece.place.kind == "g"]
        is_pair = are_all(signature.arguments[i], "binary128") and len(places) == 2
        if is_pair and signature.fixed is not None and i >= signature.fixed and places[0] > used:
            plan.arguments[i] = moved(stand, lambda place: Place("g", place.number - 1))
            return
        used = max([used - 1, *places, stand.reference.number if stand.reference else 0]) + 1


def in_floating_registers(signature, plan, layouts):
    """A long double is in two floating registers."""
    used = sum(piece.place.kind == "f" for stand in plan.arguments for piece in stand.pieces)
    for i, kind in enumerate(signature.arguments):
        if kind == "binary128" and used < 7:
            plan.arguments[i] = Stand([Piece(Place("f", 10 + used + k), 8 * k, 8) for k in (0, 1)])
            return


def one_by_reference(signature, plan, layouts):
    """A long double is passed by reference."""
    for i, first in first_registers(plan):
        if signature.arguments[i] == "binary128":
            by_reference(i, Place("g", first), plan, layouts["binary128"])
            return


def result_hidden(signature, plan, layouts):
    """A long double comes back hidden."""
    if are_all(signature.result, "binary128") and plan.result.pieces:
        hidden_by(Place("g", 10), plan, layouts[signature.result])


def result_in_fa0(signature, plan, layouts):
    """A long double comes back in fa0 and fa1."""
    if are_all(signature.result, "binary128") and plan.result.pieces:
        plan.result = Stand([Piece(Place("f", 10 + k), 8 * k, 8) for k in (0, 1)])


# ---- win64, of GCC's long double and of Microsoft's

def x87_by_value(signature, plan, layouts):
    """A long double of 16 bytes is passed in two general registers."""
    for i, (kind, stand) in enumerate(zip(signature.arguments, plan.arguments)):
        if kind == "x87" and stand.reference in (Place("g", 1), Place("g", 2)):
            after = {Place("g", 1): Place("g", 2), Place("g", 2): Place("g", 8)}[stand.reference]
            plan.arguments[i] = Stand([Piece(stand.reference, 0, 8), Piece(after, 8, 8)])
            return


def result_by_value(signature, plan, layouts):
    """A long double of 16 bytes comes back in rax and rdx."""
    if are_all(signature.result, "x87") and layouts[signature.result].size == 16:
        plan.result = Stand([Piece(Place("g", 0), 0, 8), Piece(Place("g", 2), 8, 8)])


def result_in_x87(signature, plan, layouts):
    """A long double of 16 bytes comes back in st(0)."""
    if signature.result == "x87":
        plan.result = Stand([Piece(ST0, 0, 10)])


def double_by_reference(signature, plan, layouts):
    """A long double of 8 bytes is passed by reference."""
    for i, (kind, stand) in enumerate(zip(signature.arguments, plan.arguments)):
        if kind == "double" and len(stand.pieces) == 1 and stand.pieces[0].place.kind == "f":
            by_reference(i, Place("g", (1, 2, 8, 9)[stand.pieces[0].place.number]), plan, layouts[kind])
            return


def complex_by_value(signature, plan, layouts):
    """A complex double comes back in xmm0 and xmm1."""
    if signature.result == ("double", "double"):
        plan.result = Stand([Piece(Place("f", 0), 0, 8), Piece(Place("f", 1), 8, 8)])


def complex_float_in_a_vector_register(signature, plan, layouts):
    """A complex float comes back in xmm0."""
    if signature.result == ("float", "float"):
        plan.result = Stand([Piece(Place("f", 0), 0, 8)])


# ---- apple

def sixteen_bytes_of_stack(signature, plan, layouts):
    """A long double takes 16 bytes of stack."""
    stacked_anew(signature, plan, layouts, lambda i, kind, is_packed, align, size:
                 (16, 16) if kind == "double" else None)


def complex_in_a_register(signature, plan, layouts):
    """A complex float is in one v register."""
    for stand in (*plan.arguments, plan.result):
        if [(piece.place.kind, piece.length) for piece in stand.pieces] == [("f", 4), ("f", 4)]:
            stand.pieces = [Piece(stand.pieces[0].place, 0, 8)]


ERRORS = {
    ("amd64", "x87"): [one_hidden, struct_of_one_hidden, imaginary_first, complex_hidden, two_in_x87, x87_at_eight,
                       x87_takes_a_vector_register],
    ("aapcs64", "binary128"): [halves_exchanged, two_registers_each, in_general_registers, struct_by_reference,
                               structs_hidden, mixed_is_homogeneous, quad_at_eight, complex_in_a_register],
    ("riscv", "binary128"): [pair_by_itself, no_pair_behind_dots, in_floating_registers, one_by_reference,
                             result_hidden, result_in_fa0],
    ("win64", "x87"): [x87_by_value, result_by_value, result_in_x87, complex_by_value,
                       complex_float_in_a_vector_register],
    ("win64", "double"): [double_by_reference, complex_by_value, complex_float_in_a_vector_register],
    ("apple", "double"): [sixteen_bytes_of_stack, complex_in_a_register],
}


def errors(target, compiler):
    return ERRORS[target, format_of(target, compiler)]
