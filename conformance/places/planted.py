"""Planted errors: rules changed in a copy of the printed places, and of the printed layouts. Each must be found, by the
comparison that finds those of the program, and it is said how soon."""

import copy
from dataclasses import replace

from batch import PLAN, layout_failure
from places import Piece, Place, Stand
from signature import FLOATING, SIZES, WIDE, Array, depth_of, leaves_of

TRIED = 40


def stands(plan):
    return [*plan.arguments, plan.result]


def moved(stand, move):
    """The stand with each place changed by `move`."""
    pieces = [Piece(move(piece.place), piece.offset, piece.length) for piece in stand.pieces]
    return Stand(pieces, stand.reference and move(stand.reference), stand.copy)


def exchanged(signature, plan, layouts):
    """rcx is taken before rdx."""
    swap = {Place("g", 1): Place("g", 2), Place("g", 2): Place("g", 1)}
    plan.arguments = [moved(stand, lambda place: swap.get(place, place)) for stand in plan.arguments]


def rounded_to_16(signature, plan, layouts):
    """Each stack argument starts at a multiple of 16."""
    at = 0
    for i, (kind, stand) in enumerate(zip(signature.arguments, plan.arguments)):
        if stand.pieces and stand.pieces[0].place.kind == "s":
            plan.arguments[i] = moved(stand, lambda place, at=at: Place("s", at))
            at += -(-layouts[kind].size // 16) * 16
    plan.frame = max(plan.frame, at)


def result_by_eightbyte(signature, plan, layouts):
    """A result's second eightbyte is in rdx or xmm1, whatever class the first has."""
    second = {Place("g", 0): Place("g", 2), Place("f", 0): Place("f", 1)}
    for i, piece in enumerate(plan.result.pieces):
        if piece.offset:
            plan.result.pieces[i] = Piece(second.get(piece.place, piece.place), piece.offset, piece.length)


def no_vectors_counted(signature, plan, layouts):
    """al is 0 at a variadic call."""
    if signature.fixed is not None:
        plan.vectors = 0


def one_vector_more(signature, plan, layouts):
    """al is one more than the vector registers of a variadic call."""
    if signature.fixed is not None:
        plan.vectors += 1


def merged_to_sse(signature, plan, layouts):
    """An eightbyte with an integer and a float has class SSE: of a result, the first one."""
    leaves = leaves_of(signature.result)
    if len(leaves) > 1 and plan.result.pieces and plan.result.pieces[0].place == Place("g", 0):
        if any(leaf in FLOATING and at < 8 for (leaf, _), at in zip(leaves, layouts[signature.result].offsets)):
            plan.result.pieces[0] = Piece(Place("f", 0), 0, plan.result.pieces[0].length)


def floats_packed(signature, plan, layouts):
    """A homogeneous aggregate of floats is passed in doublewords."""
    for stand in stands(plan):
        if len(stand.pieces) > 1 and stand.pieces[0].place.kind == "f" and stand.pieces[1].offset == 4:
            length = sum(piece.length for piece in stand.pieces)
            start = stand.pieces[0].place.number
            stand.pieces = [Piece(Place("f", start + k // 8), k, min(8, length - k)) for k in range(0, length, 8)]


def hidden_in_x0(signature, plan, layouts):
    """The address of a hidden result is in x0."""
    if plan.result.reference:
        plan.result.reference = Place("g", 0)


def vectors_not_ended(signature, plan, layouts):
    """After an aggregate that went to the stack a float or double still takes a v register."""
    used = sum(piece.place.kind == "f" for stand in plan.arguments for piece in stand.pieces)
    late = [i for i, (kind, stand) in enumerate(zip(signature.arguments, plan.arguments))
            if kind in FLOATING and stand.pieces[0].place.kind == "s"]
    if used < 8 and late:
        plan.arguments[late[0]] = moved(plan.arguments[late[0]], lambda place: Place("f", used))


def reference_at_16(signature, plan, layouts):
    """A struct of 16 bytes is passed by reference: it takes one register, the address of a copy."""
    for i, (kind, stand) in enumerate(zip(signature.arguments, plan.arguments)):
        kinds = [piece.place.kind for piece in stand.pieces]
        if not isinstance(kind, str) and layouts[kind].size == 16 and kinds == ["g", "g"]:
            plan.arguments[i] = Stand(reference=stand.pieces[0].place, copy=plan.frame)
            plan.frame += 16


def not_split(signature, plan, layouts):
    """A struct of two words does not take a7 alone: both words are on the stack."""
    shift = 0
    for i, stand in enumerate(plan.arguments):
        if [piece.place.kind for piece in stand.pieces] == ["g", "s"]:
            length = sum(piece.length for piece in stand.pieces)
            plan.arguments[i] = Stand([Piece(Place("s", 0), 0, length)])
            shift = 8
        elif shift:
            plan.arguments[i] = moved(stand, lambda place: Place("s", place.number + 8) if place.kind == "s" else place)
    plan.frame += 16 * (shift > 0)
    for stand in stands(plan):
        stand.copy += 16 * (shift > 0 and stand.reference is not None)


def variadic_in_fa(signature, plan, layouts):
    """A variadic double takes a floating register, where one is free."""
    used = sum(piece.place.kind == "f" for stand in plan.arguments for piece in stand.pieces)
    for i, kind in enumerate(signature.arguments):
        if signature.fixed is not None and i >= signature.fixed and kind == "double" and used < 8:
            plan.arguments[i] = Stand([Piece(Place("f", 10 + used), 0, 8)])
            return


def pointer_is_integer(signature, plan, layouts):
    """A struct of a float and a pointer is a mixed pair: as a result, in fa0 and a0."""
    leaves = [leaf for leaf, _ in leaves_of(signature.result)]
    if len(leaves) == 2 and "pointer" in leaves and set(leaves) & set(FLOATING):
        plan.result = Stand([Piece(Place("f" if leaf in FLOATING else "g", 10), offset, 8 if leaf != "float" else 4)
                             for leaf, offset in zip(leaves, layouts[signature.result].offsets)])


def two_floats_packed(signature, plan, layouts):
    """A struct of two floats is one doubleword of one floating register."""
    for stand in stands(plan):
        if [(piece.place.kind, piece.offset, piece.length) for piece in stand.pieces] == [("f", 0, 4), ("f", 4, 4)]:
            stand.pieces = [Piece(stand.pieces[0].place, 0, 8)]


def hidden_takes_no_word(signature, plan, layouts):
    """The address of a hidden result is in a7, and arguments begin with a0."""
    taken = [piece.place for stand in plan.arguments for piece in stand.pieces]
    if plan.result.reference and Place("g", 17) not in taken:
        plan.arguments = [moved(stand, lambda place: Place("g", place.number - 1) if place.kind == "g" else place)
                          for stand in plan.arguments]
        plan.result.reference = Place("g", 17)


def counted_apart(signature, plan, layouts):
    """Floating arguments take xmm0 to xmm3 in turn, whatever stands between them."""
    taken = 0
    for i, stand in enumerate(plan.arguments):
        if any(piece.place.kind == "f" for piece in stand.pieces):
            plan.arguments[i] = moved(stand, lambda place: Place("f", taken) if place.kind == "f" else place)
            taken += 1


def shadow_store_left_out(signature, plan, layouts):
    """The callee has no shadow store: stack arguments begin where the frame does."""
    plan.arguments = [moved(stand, lambda place: Place("s", place.number - 32) if place.kind == "s" else place)
                      for stand in plan.arguments]
    plan.frame -= 32
    for stand in stands(plan):
        stand.copy -= 32 * (stand.reference is not None)


def in_one_register(plan, kind):
    """Of a floating argument in two registers, the one of this kind alone."""
    for i, stand in enumerate(plan.arguments):
        if len(stand.pieces) == 2:
            plan.arguments[i] = Stand([piece for piece in stand.pieces if piece.place.kind == kind])


def vector_register_alone(signature, plan, layouts):
    """A floating argument of a variadic signature is not in its general register."""
    in_one_register(plan, "f")


def general_register_alone(signature, plan, layouts):
    """A floating argument of a variadic signature is not in its vector register."""
    in_one_register(plan, "g")


def whole_in_a_register(signature, plan, layouts):
    """A struct of 3, 5, 6 or 7 bytes is passed in its register."""
    for i, (kind, stand) in enumerate(zip(signature.arguments, plan.arguments)):
        if stand.reference and layouts[kind].size < 8:
            plan.arguments[i] = Stand([Piece(stand.reference, 0, layouts[kind].size)])


def on_the_stack_before(stand, by):
    """The stand with its places on the stack so many bytes before."""
    return moved(stand, lambda place: Place("s", place.number - by) if place.kind == "s" else place)


def wide_at_eight(signature, plan, layouts):
    """On the stack an integer of 128 bits begins where the argument before it ends."""
    places = [stand.pieces[0].place for stand in plan.arguments if stand.pieces]
    gap = 0
    for i, (kind, stand) in enumerate(zip(signature.arguments, plan.arguments)):
        if kind in WIDE and stand.pieces[0].place.kind == "s" and not gap:
            start = stand.pieces[0].place.number
            ends = [place.number + layouts[other].size for place, other in zip(places, signature.arguments)
                    if place.kind == "s" and place.number < start]
            gap = start - -(-max(ends, default=0) // 8) * 8
        if gap:
            plan.arguments[i] = on_the_stack_before(stand, gap)


def odd_registers(signature, plan, layouts):
    """An integer of 128 bits takes the next register, also an odd one."""
    last = 0
    for i, (kind, stand) in enumerate(zip(signature.arguments, plan.arguments)):
        taken = [piece.place.number for piece in stand.pieces if piece.place.kind == "g"]
        if kind in WIDE and len(taken) == 2 and taken[0] == last + 2:
            plan.arguments[i] = moved(stand, lambda place: Place("g", place.number - 1))
        last = max([last, *taken])


def wide_in_two_registers(signature, plan, layouts):
    """An integer of 128 bits is passed in two registers, of its position and the next."""
    following = {Place("g", 1): Place("g", 2), Place("g", 2): Place("g", 8), Place("g", 8): Place("g", 9)}
    for i, (kind, stand) in enumerate(zip(signature.arguments, plan.arguments)):
        if kind in WIDE and stand.reference in following:
            plan.arguments[i] = Stand([Piece(stand.reference, 0, 8), Piece(following[stand.reference], 8, 8)])


def end_takes_no_room(signature, plan, layouts):
    """What is padding at the end of a struct takes no room on the stack."""
    shift = 0
    for i, (kind, stand) in enumerate(zip(signature.arguments, plan.arguments)):
        if shift:
            plan.arguments[i] = on_the_stack_before(stand, shift)
        if stand.pieces and stand.pieces[0].place.kind == "s" and not isinstance(kind, str):
            layout = layouts[kind]
            end = layout.offsets[-1] + SIZES[layout.leaves[-1]]
            shift = shift or layout.size - -(-end // 8) * 8


def last_of_many(signature, plan, layouts):
    """Of more than 40 arguments the last one on the stack stands 8 bytes late."""
    on_stack = [i for i, stand in enumerate(plan.arguments) if stand.pieces and stand.pieces[0].place.kind == "s"]
    if len(plan.arguments) > 40 and on_stack:
        last = on_stack[-1]
        plan.arguments[last] = moved(plan.arguments[last], lambda place: Place("s", place.number + 8))
        plan.frame += 16


def large_late(signature, plan, layouts):
    """A struct of more than 2,048 bytes begins 8 bytes late."""
    for i, (kind, stand) in enumerate(zip(signature.arguments, plan.arguments)):
        if layouts[kind].size > 2048:
            plan.arguments[i] = moved(stand, lambda place: Place("s", place.number + 8))
            plan.frame += 16


def large_by_value(signature, plan, layouts):
    """A struct of more than 2,048 bytes is passed on the stack."""
    for i, (kind, stand) in enumerate(zip(signature.arguments, plan.arguments)):
        if layouts[kind].size > 2048 and stand.reference:
            plan.arguments[i] = Stand([Piece(Place("s", stand.copy), 0, layouts[kind].size)])


def exchanged_of_many_bytes(signature, plan, layouts):
    """Of more than 8,192 bytes of arguments the first and the last of more than 2,048 bytes are exchanged."""
    sizes = [layouts[kind].size for kind in signature.arguments]
    large = [i for i, size in enumerate(sizes) if size > 2048]
    if sum(sizes) > 8192 and len(large) > 1 and sizes[large[0]] == sizes[large[-1]]:
        a, b = large[0], large[-1]
        plan.arguments[a], plan.arguments[b] = plan.arguments[b], plan.arguments[a]


def struct_in_a_vector_register(signature, plan, layouts):
    """A struct of one float or double is handed back in xmm0."""
    if not isinstance(signature.result, str) and [leaf for leaf, _ in leaves_of(signature.result)] in ONE_FLOATING:
        plan.result = moved(plan.result, lambda place: Place("f", 0))


ONE_FLOATING = [[name] for name in FLOATING]


# ---- Apple's AArch64

def is_homogeneous(kind, layouts):
    leaves = layouts[kind].leaves
    return len(leaves) <= 4 and any(set(leaves) == {name} for name in FLOATING)


def stacked_anew(signature, plan, layouts, extent_of):
    """What is on the stack stands there anew, one behind another: each at a multiple, and of a size, that `extent_of`
    gives of an argument, and by the rules where it gives none. Copies make room."""
    at, more, before = 0, 1 << 14, copy.deepcopy(plan.arguments)
    for i, (kind, stand) in enumerate(zip(signature.arguments, plan.arguments)):
        place = stand.reference or stand.pieces[0].place
        size, align = (8, 8) if stand.reference else (layouts[kind].size, layouts[kind].align)
        if place.kind == "s":
            is_named = signature.fixed is None or i < signature.fixed
            is_packed = is_named and (isinstance(kind, str) or is_homogeneous(kind, layouts))
            by_rule = (align, size) if is_packed else (max(8, align), -(-size // 8) * 8)
            align, size = extent_of(i, kind, is_packed, align, size) or by_rule
            at = -(-at // align) * align
            plan.arguments[i] = moved(stand, lambda place, by=at - place.number: Place("s", place.number + by))
            at += size
    if plan.arguments == before:
        return
    plan.frame += more
    for stand in stands(plan):
        stand.copy += more * (stand.reference is not None)


def even_registers(signature, plan, layouts):
    """An integer of 128 bits begins in a register with an even number."""
    for i, (kind, stand) in enumerate(zip(signature.arguments, plan.arguments)):
        first = stand.pieces[0].place if stand.pieces else None
        if kind in WIDE and first.kind == "g" and first.number % 2 and first.number < 6:
            plan.arguments[i] = moved(stand, lambda place: Place("g", place.number + 1))
            return


def variadic_in_a_register(signature, plan, layouts):
    """A variadic argument takes a register where one is free."""
    used = [piece.place for stand in plan.arguments for piece in stand.pieces]
    used += [stand.reference for stand in plan.arguments if stand.reference]
    for i, kind in enumerate(signature.arguments):
        letter = "f" if kind == "double" else "g"
        free = max([place.number + 1 for place in used if place.kind == letter], default=0)
        if signature.fixed is not None and i >= signature.fixed and isinstance(kind, str) and free < 8:
            if SIZES[kind] <= 8:
                plan.arguments[i] = Stand([Piece(Place(letter, free), 0, SIZES[kind])])
                return


def variadic_packed(signature, plan, layouts):
    """A variadic argument takes its own bytes, as a named one does."""
    def extent(i, kind, is_packed, align, size):
        is_named = signature.fixed is None or i < signature.fixed
        return None if is_named or not isinstance(kind, str) else (align, size)
    if signature.fixed is not None:
        stacked_anew(signature, plan, layouts, extent)


def in_eight_bytes(signature, plan, layouts):
    """A narrow argument on the stack takes eight bytes."""
    stacked_anew(signature, plan, layouts, lambda i, kind, is_packed, align, size:
                 (8, 8) if is_packed and isinstance(kind, str) and size < 8 else None)


def homogeneous_rounded(signature, plan, layouts):
    """A homogeneous aggregate on the stack takes a multiple of eight bytes."""
    stacked_anew(signature, plan, layouts, lambda i, kind, is_packed, align, size:
                 (8, -(-size // 8) * 8) if is_packed and not isinstance(kind, str) else None)


def struct_not_rounded(signature, plan, layouts):
    """Any other struct on the stack takes its own bytes."""
    stacked_anew(signature, plan, layouts, lambda i, kind, is_packed, align, size:
                 (align, size) if not isinstance(kind, str) and size <= 16 else None)


def wide_on_the_stack_at_eight(signature, plan, layouts):
    """An integer of 128 bits on the stack begins at a multiple of 8."""
    stacked_anew(signature, plan, layouts, lambda i, kind, is_packed, align, size:
                 (8, 16) if kind in WIDE else None)

ERRORS = {
    "amd64": [exchanged, rounded_to_16, result_by_eightbyte, no_vectors_counted, one_vector_more, merged_to_sse,
              wide_at_eight, end_takes_no_room, last_of_many, large_late, exchanged_of_many_bytes],
    "aapcs64": [floats_packed, hidden_in_x0, vectors_not_ended, reference_at_16, odd_registers, wide_at_eight,
                last_of_many, large_by_value, exchanged_of_many_bytes],
    "riscv": [not_split, variadic_in_fa, pointer_is_integer, two_floats_packed, hidden_takes_no_word, odd_registers,
              wide_at_eight, last_of_many, large_by_value, exchanged_of_many_bytes],
    "win64": [counted_apart, shadow_store_left_out, vector_register_alone, general_register_alone, whole_in_a_register,
              struct_in_a_vector_register, wide_in_two_registers, last_of_many, large_by_value,
              exchanged_of_many_bytes],
    "apple": [floats_packed, hidden_in_x0, vectors_not_ended, reference_at_16, even_registers, variadic_in_a_register,
              variadic_packed, in_eight_bytes, homogeneous_rounded, struct_not_rounded, wide_on_the_stack_at_eight,
              large_by_value],
}
# What a compiler cannot show, since it does so itself (differences.py), or does not look: libffi's closures save vector
# registers by their signature, and look neither at al nor at the general register of a floating argument.
UNSEEN = {("amd64", "clang"): [wide_at_eight], ("amd64", "libffi-unix64"): [no_vectors_counted],
          ("win64", "libffi-win64"): [vector_register_alone], ("win64", "libffi-gnuw64"): [vector_register_alone]}


def errors(target, compiler):
    return [error for error in ERRORS[target] if error not in UNSEEN.get((target, compiler), [])]


def found_at(failed_of, planned, layouts, error):
    """The number of signatures, from the first, until one fails with the changed places; None where none does. A plan
    that is wrong by itself shows nothing of the other side."""
    changed = {}
    for number, (signature, plan) in planned.items():
        wrong = copy.deepcopy(plan)
        error(signature, wrong, layouts)
        if wrong != plan:
            changed[number] = signature, wrong
        if len(changed) == TRIED:
            break
    return min((number + 1 for number, way, reasons in failed_of(changed)
                if way in ("call", "enter") and not reasons.startswith(PLAN)), default=None)


def end_not_rounded(kind, layout):
    """A struct ends with its last leaf."""
    return replace(layout, size=layout.offsets[-1] + SIZES[layout.leaves[-1]])


def aligned_as_its_first(kind, layout):
    """A struct is aligned as its first leaf."""
    return replace(layout, align=SIZES[layout.leaves[0]])


def leaves_packed(kind, layout):
    """Leaves follow one another without padding."""
    sizes = [SIZES[leaf] for leaf in layout.leaves]
    return replace(layout, offsets=tuple(sum(sizes[:k]) for k in range(len(sizes))))


def renamed(layout, names):
    return replace(layout, leaves=tuple(names.get(leaf, leaf) for leaf in layout.leaves))


def sign_lost(kind, layout):
    """A sint8 is a uint8."""
    return renamed(layout, {"sint8": "uint8"})


def sign_gained(kind, layout):
    """A uint64 is a sint64."""
    return renamed(layout, {"uint64": "sint64"})


def pointer_without_kind(kind, layout):
    """A pointer is a uint64."""
    return renamed(layout, {"pointer": "uint64"})


def float_without_kind(kind, layout):
    """A float is a uint32."""
    return renamed(layout, {"float": "uint32"})


def short_of_four_bytes(kind, layout):
    """A uint16 is a uint32."""
    return renamed(layout, {"uint16": "uint32"})


def last_of_an_array_missing(kind, layout):
    """An array at the end of a struct has one leaf less."""
    if isinstance(kind, tuple) and isinstance(kind[-1], Array):
        return replace(layout, offsets=layout.offsets[:-1], leaves=layout.leaves[:-1])
    return layout


def aligned_as_its_array(kind, layout):
    """A struct of an array of two or more scalars is aligned as the whole array."""
    wholes = [element.count * SIZES[element.element] for element in kind
              if isinstance(element, Array) and isinstance(element.element, str)] if isinstance(kind, tuple) else []
    return replace(layout, align=max([layout.align, *wholes]))


def elements_at_multiples_of_8(kind, layout):
    """The elements of an array begin at multiples of 8."""
    if isinstance(kind, tuple) and isinstance(kind[0], Array) and isinstance(kind[0].element, str):
        step = -(-SIZES[kind[0].element] // 8) * 8
        moved = tuple(step * i for i in range(kind[0].count))
        return replace(layout, offsets=moved + layout.offsets[len(moved):])
    return layout


def deepest_late(kind, layout):
    """The last leaf of a type 16 deep stands at the next multiple of its size."""
    if depth_of(kind) == 16:
        return replace(layout, offsets=(*layout.offsets[:-1], layout.offsets[-1] + SIZES[layout.leaves[-1]]))
    return layout


ERRORS_OF_LAYOUTS = [end_not_rounded, aligned_as_its_first, leaves_packed, sign_lost, sign_gained, pointer_without_kind,
                     float_without_kind, short_of_four_bytes, last_of_an_array_missing, aligned_as_its_array,
                     elements_at_multiples_of_8, deepest_late]


def layout_found_at(built, signatures, layouts, error):
    """The number of signatures, from the first, until one fails by the changed layouts; None where none does."""
    changed = {kind: layout if kind == "void" else error(kind, layout) for kind, layout in layouts.items()}
    return next((number for number, signature in enumerate(signatures, 1)
                 if layout_failure(built, signature, changed)), None)
