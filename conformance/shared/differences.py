"""Differences that are a compiler's or a library's own: each with the reason and the standard's sentence.

A case that fails counts as such a difference where every one of its reasons is the one described. Where the difference
is a plan of the compiler's own, that plan is played, and a case that passes by it counts. The run fails on any other
failure, and on a difference listed here that no case shows any more.
"""

import re
from dataclasses import dataclass, replace
from typing import Callable

from places import UPPER, Piece, Place, Stand
from signature import FLOATING, SIZES, WIDE, is_narrow


@dataclass(frozen=True)
class Difference:
    name: str
    target: str
    compiler: str
    reason: str
    sentence: str
    explains: Callable | None = None  # of a signature, the plan that is played, a direction and one reason
    plans: Callable | None = None  # of a signature and its plan: this compiler's own, or None where it has none
    reads: Callable | None = None  # of a signature with such a plan: one whose arguments stand where that has them


def argument_in(reason):
    """The number of an argument that is another at the callee; None where the reason is no such one."""
    found = re.fullmatch(r"the callee finds another argument (\d+)", reason)
    return found and int(found[1])


# Comparisons of a compiler's caller by its places: with values, and with ffi3's own caller.
BY_PLACES = ("enter", "own")


def narrow_on_the_stack(signature, plan, direction, reason):
    found = re.fullmatch(r"other bytes at s(\d+)\+(\d+)", reason)
    return direction in BY_PLACES and found is not None and any(
        is_narrow(kind) and str(piece.place) == f"s{found[1]}" and SIZES[kind] == int(found[2])
        for kind, stand in zip(signature.arguments, plan.arguments) for piece in stand.pieces)


def is_overwritten(plan):
    """An earlier argument's bytes are in xmm0, and a later struct has r9 and then a vector register."""
    first = [i for i, stand in enumerate(plan.arguments) for piece in stand.pieces if str(piece.place) == "f0"]
    last = [i for i, stand in enumerate(plan.arguments)
            if [str(piece.place) for piece in stand.pieces][:1] == ["g9"] and len(stand.pieces) == 2]
    return any(a < b for a in first for b in last)


def last_register_and_a_vector(signature, plan, direction, reason):
    if direction == "frame" and (i := argument_in(reason)) is not None:
        return is_overwritten(plan) and "f0" in [str(piece.place) for piece in plan.arguments[i].pieces]
    found = re.fullmatch(r"other bytes at f0\+\d+", reason)
    return direction in BY_PLACES and found is not None and is_overwritten(plan)


def taken_apart(signature, plan, direction, reason):
    """Of an argument that is in r9 or on the stack, and is an integer of 128 bits on the stack or comes after one."""
    places = [[piece.place for piece in stand.pieces] for stand in plan.arguments]
    wide = [i for i, kind in enumerate(signature.arguments) if kind in WIDE and places[i][0].kind == "s"]
    late = {i: str(place) for i in range(wide[0], len(places)) for place in places[i]
            if place.kind == "s" or str(place) == "g9"} if wide else {}
    if (i := argument_in(reason)) is not None:
        return i in late
    found = re.fullmatch(r"other bytes at (\w+)\+\d+", reason)
    return found is not None and found[1] in late.values()


FOURTH = {"g": Place("g", 9), "f": Place("f", 3)}
BEFORE = {Place("g", 2): Place("g", 1), Place("g", 8): Place("g", 2), FOURTH["g"]: Place("g", 8),
          Place("f", 1): Place("f", 0), Place("f", 2): Place("f", 1), FOURTH["f"]: Place("f", 2)}


def at_the_position_before(kind, stand, is_variadic):
    """An argument of Microsoft x64 that has the position before its own."""
    places = [stand.reference] if stand.reference else [piece.place for piece in stand.pieces]
    if places == [Place("s", 32)]:
        general = [FOURTH["g"]] if kind not in FLOATING or is_variadic else []
        places = general + [FOURTH["f"]] * (kind in FLOATING)
    else:
        places = [Place("s", place.number - 8) if place.kind == "s" and place.number > 32 else BEFORE.get(place, place)
                  for place in places]
    if stand.reference:
        return replace(stand, reference=places[0])
    return Stand([Piece(place, stand.pieces[0].offset, stand.pieces[0].length) for place in places])


def wide_result_in_xmm0(signature, plan):
    """The result has no address, which would take the first position."""
    if signature.result not in WIDE:
        return None
    arguments = [at_the_position_before(kind, stand, signature.fixed is not None)
                 for kind, stand in zip(signature.arguments, plan.arguments)]
    return replace(plan, arguments=arguments,
                   result=Stand([Piece(Place("f", 0), 0, 8), Piece(Place("f", UPPER), 8, 8)]))


def without_result(signature):
    return replace(signature, result="void")


def copy_of_its_own_alignment(signature, plan, direction, reason, kinds=None):
    found = re.fullmatch(r"the address at (\w+)\+0 is no multiple of 16", reason)
    return direction == "enter" and found is not None and any(
        str(stand.reference) == found[1] and (not kinds or kind in kinds)
        for kind, stand in zip(signature.arguments, plan.arguments))


def copy_of_two_doubles(signature, plan, direction, reason):
    return copy_of_its_own_alignment(signature, plan, direction, reason, [("double", "double")])


def reference_taken_by_value(signature, plan, direction, reason):
    """Of an argument by reference after the fixed ones, or of one after it."""
    i = argument_in(reason)
    return direction == "call" and i is not None and signature.fixed is not None and any(
        stand.reference for stand in plan.arguments[signature.fixed:i + 1])


def fixed_in_one_register(signature, plan, direction, reason):
    if direction == "frame" and signature.fixed is not None and (i := argument_in(reason)) is not None:
        return i < signature.fixed and len(plan.arguments[i].pieces) == 2
    found = re.fullmatch(r"other bytes at (\w+)\+0", reason)
    return direction in BY_PLACES and found is not None and signature.fixed is not None and any(
        len(stand.pieces) == 2 and str(stand.pieces[0].place) == found[1]
        for stand in plan.arguments[:signature.fixed])


def in_four_bytes(signature, plan, direction, reason):
    """At or behind a named char or short on the stack of a variadic call; also that no memory is where the address of a
    copy behind it is looked for."""
    first = [i for i, stand in enumerate(plan.arguments[:signature.fixed or 0]) for piece in stand.pieces
             if piece.place.kind == "s" and is_narrow(signature.arguments[i]) and SIZES[signature.arguments[i]] < 4]
    if not first:
        return False
    if direction == "frame":
        return (i := argument_in(reason)) is None or i >= first[0]
    if direction == "enter" and re.fullmatch(r"signal \d+", reason):
        return any(stand.reference and stand.reference.kind == "s" for stand in plan.arguments[first[0]:])
    found = re.search(r" at s(\d+)\+", reason)
    start = plan.arguments[first[0]].pieces[0].place.number
    return direction in BY_PLACES and found is not None and int(found[1]) >= start


COPIES = ("Microsoft, x64 calling convention, parameter passing: Structs or unions of other sizes are passed as a "
          "pointer to memory allocated by the caller.")
COPY_ALIGNED = (
    "Microsoft, x64 calling convention, parameter passing: For these aggregate types passed as a pointer, including "
    "__m128, the caller-allocated temporary memory must be 16-byte aligned.")
WIDE_RESULT = (
    "gcc 12 and clang 14 hand back an __int128 in xmm0. The standard has no integer of 128 bits; ffi3 treats it as a "
    "struct of its size, as both do where it is an argument.",
    "Microsoft, x64 calling convention, return values: Otherwise, the caller must allocate memory for the return value "
    "and pass a pointer to it as the first argument.")

DIFFERENCES = [
    Difference(
        "clang leaves a narrow integer on the stack unextended", "riscv", "clang",
        "clang 14 marks no integer that must use the stack as sign- or zero-extended, so the bytes beyond its own are "
        "what the load left (an lb or lh of an unsigned one). ffi3's callee reads the value's own bytes alone, so "
        "nothing is lost; ffi3's caller extends.",
        "RISC-V ELF psABI, integer calling convention: When passed in registers or on the stack, integer scalars "
        "narrower than XLEN bits are widened according to the sign of their type up to 32 bits, then sign-extended to "
        "XLEN bits.",
        narrow_on_the_stack),
    Difference(
        "clang takes an integer of 128 bits apart", "amd64", "clang",
        "clang 14 passes each half of an __int128 for itself, where not both are in registers: on the stack at a "
        "multiple of 8, and the first half in r9 where that alone is left. Its structs of one are not taken apart, and "
        "its va_arg looks at a multiple of 16, so it differs from itself too. gcc 12 does as the standard says.",
        "System V psABI AMD64 3.2.3, classification: __int128 is treated as a struct of two longs, with the exception "
        "that arguments of type __int128 that are stored in memory must be aligned on a 16-byte boundary. Passing: If "
        "there are no registers available for any eightbyte of an argument, the whole argument is passed on the stack.",
        taken_apart),
    Difference(
        "ffi_call writes over xmm0", "amd64", "libffi-unix64",
        "libffi 3.4.4 copies the whole rest of a struct to the place of its INTEGER eightbyte. Where that place is r9, "
        "the last one, and the next eightbyte is SSE, the copy runs on into the place of xmm0, which an earlier "
        "argument has: xmm0 then holds the struct's second eightbyte too.",
        "System V psABI AMD64 3.2.3, passing: If the class is SSE, the next available vector register is used, the "
        "registers are taken in the order from %xmm0 to %xmm7.",
        last_register_and_a_vector),
    Difference("gcc hands back an integer of 128 bits in xmm0", "win64", "gcc", *WIDE_RESULT,
               plans=wide_result_in_xmm0, reads=without_result),
    Difference(
        "gcc doubles only what follows the fixed arguments", "win64", "gcc",
        "gcc 12 passes a fixed floating argument of a variadic function in its vector register alone. Microsoft's text "
        "makes no difference between fixed and other arguments, and clang 14 makes none either.",
        "Microsoft, x64 calling convention, varargs: For floating-point values only, both the integer register and the "
        "floating-point register must contain the value, in case the callee expects the value in the integer "
        "registers.",
        fixed_in_one_register),
    Difference(
        "gcc's va_arg takes by value what is passed by reference", "win64", "gcc",
        "gcc 12 for Linux expands va_arg before it knows the convention of the function that has it, so it reads the "
        "argument's bytes where its address stands, and goes on too far. Its callers pass the address.",
        COPIES, reference_taken_by_value),
    Difference("clang hands back an integer of 128 bits in xmm0", "win64", "clang", *WIDE_RESULT,
               plans=wide_result_in_xmm0, reads=without_result),
    Difference(
        "clang aligns a copy as its type", "win64", "clang",
        "clang 14 gives a copy the alignment of its type, so its address may be no multiple of 16. ffi3's caller has "
        "copies at multiples of 16; its callee reads them at whatever address.",
        COPY_ALIGNED, copy_of_its_own_alignment),
    Difference(
        "gcc for Windows aligns a copy of a complex double as its type", "win64", "mingw",
        "gcc 12 gives it an address that may be no multiple of 16, and a struct of two doubles one that is.",
        COPY_ALIGNED, copy_of_two_doubles),
    Difference(
        "clang's caller of a variadic function stores a named char or short in four bytes", "apple", "clang",
        "clang 14 extends it to an int before it lays out the stack, and so what follows it may stand elsewhere; where "
        "that is the address of a copy, who reads it may end by a signal. Its own callee reads it packed, and clang 16 "
        "stores it so.",
        "Apple, Writing ARM64 code for Apple platforms, pass arguments to functions correctly: Function arguments may "
        "consume slots on the stack that are not multiples of 8 bytes. If the total number of bytes for stack-based "
        "arguments is not a multiple of 8 bytes, insert padding on the stack to maintain the 8-byte alignment "
        "requirements.",
        in_four_bytes),
]


# Compilers that differ as another does too.
ALIKE = {("amd64", "clang-16"): "clang", ("win64", "mingw"): "gcc", ("win64", "clang-msvc"): "clang"}


def listed(target, compiler):
    names = compiler, ALIKE.get((target, compiler))
    return [difference for difference in DIFFERENCES if difference.target == target and difference.compiler in names]


def played(target, compiler, signature, plan):
    """The plan that is played: the compiler's own where a listed difference has one, and else ffi3's."""
    own = (difference.plans(signature, plan) for difference in listed(target, compiler) if difference.plans)
    return next(filter(None, own), plan)


def read_by(target, compiler, signature, plan):
    """The signature by which a frame of this compiler is read: where a listed difference has a plan of its own, one
    whose arguments stand there."""
    others = (difference.reads(signature) for difference in listed(target, compiler)
              if difference.plans and difference.plans(signature, plan))
    return next(others, signature)


def explained(target, compiler, signature, plan, direction, reasons):
    """The difference that explains every reason of a failed case, or that a case shows which passes by another plan; or
    None."""
    played_plan = played(target, compiler, signature, plan)
    for difference in listed(target, compiler):
        if reasons:
            shows = difference.explains and all(difference.explains(signature, played_plan, direction, reason)
                                                for reason in reasons.split("; "))
        else:
            shows = difference.plans and direction != "layout" and difference.plans(signature, plan)
        if shows:
            return difference
    return None
